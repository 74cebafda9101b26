//! Safe types over the proved lock-free containers of Paglunet, under the paths and names of the Rust crate that they are
//! after.
//!
//! What each call of the library does is proved. What is not proved is this crate: that it keeps the duties which the header
//! `paglunet.h` names. It keeps them by its types. Each value that has a handle closes it once, in its drop, and takes it by
//! `&mut self` or under a lock. A handle may cross threads, which is proved of what lies behind it.
mod handle;
pub mod spsc;
mod sys;
