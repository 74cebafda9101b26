//! Links the archive that `bin/c-library DIR` copies. The variable PAGLUNET_DIR is that DIR.
fn main() {
    println!("cargo:rerun-if-env-changed=PAGLUNET_DIR");
    if let Some(folder) = std::env::var_os("PAGLUNET_DIR") {
        println!("cargo:rustc-link-search=native={}/lib", folder.display());
        println!("cargo:rerun-if-changed={}/lib/libpaglunet.a", folder.display());
    }
    println!("cargo:rustc-link-lib=static=paglunet");
}
