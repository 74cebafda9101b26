"""What a copy of Paglunet's crates consists of, for `bin/vendor`: their files, marks, pages for callers, lines of crates.txt, and
archives of libraries. A library is the folder `out/rlib` of a crate; its file `stamp` has the sum of what it was made of."""
import hashlib
import os
import re
import shutil
import sys
import tarfile

import frame
from frame import Refused

TREE = os.path.realpath(os.path.join(os.path.dirname(os.path.realpath(__file__)), "../.."))
PARTS = ("src", "specs", "proofs")
LICENCES = ("LICENSE", "LICENSE-APACHE", "LICENSE-MIT")
CALLING = ("crates/lock_free/CALLING.md", "crates/lock_free/CALLS.md")
# The pages that are copied with a crate: those of the bus, the loan channel, the pool and the slots, with
# their places in a copy.
USES = {"docs/BUS.md": "docs/BUS.md", "crates/zero_copy_bus/CALLS.md": "docs/BUS_CALLS.md"}
# The pages that are not copied: texts of schedules are read by commands, which are not copied either.
NOT_FOR_CALLERS = ("docs/SCHEDULE.md",)
MARK = "PAGLUNET"
COMMENT = "# copied by bin/vendor of Paglunet"
HEAD = """This crate was copied by bin/vendor of Paglunet. Its next run replaces it, and stops before that if a file of it was changed or
added, as the checksum shows.
"""


def text_of(path):
    with open(path, encoding="utf-8", errors="surrogateescape", newline="") as it:
        return it.read()


def write(path, text):
    os.makedirs(os.path.dirname(path), exist_ok=True)
    with open(path, "w", encoding="utf-8", errors="surrogateescape", newline="") as it:
        it.write(text)


def files_below(top):
    """Returns the path of each file below a folder, or of the file itself, and of links as files."""
    if os.path.islink(top) or not os.path.isdir(top):
        return [top] if os.path.lexists(top) else []
    return [it for entry in sorted(os.listdir(top)) for it in files_below(f"{top}/{entry}")]


def sum_of(crate):
    """The checksum of the files of a crate's folder, but of the mark and of what rt has built there."""
    made = hashlib.sha256()
    for path in files_below(crate):
        inside = os.path.relpath(path, crate)
        if inside != MARK and not inside.startswith("out/"):
            said = os.readlink(path) if os.path.islink(path) else text_of(path)
            made.update(f"{inside}\0{len(said)}\0{said}".encode(errors="surrogateescape"))
    return made.hexdigest()


def row(line):
    """Returns the crate of a line of crates.txt and what it rests on, or None."""
    name, _, uses = line.partition("#")[0].strip().partition(":")
    return (name.split()[0], re.split(r"[\s,]+", uses.strip())) if name.split() else None


def known_crates():
    return {name: uses for name, uses in filter(None, map(row, text_of(f"{TREE}/crates.txt").split("\n")))}


def needed(goals, known):
    """Returns the crates below the goals, and these, lowest first."""
    found = []
    for goal in goals:
        below = needed([it for it in known[goal] if it in known], known)
        found += [it for it in [*below, goal] if it not in found]
    return found


def lines_of(name):
    paths = [it for part in PARTS for it in files_below(f"{TREE}/crates/{name}/{part}")]
    return sum(text_of(it).count("\n") for it in paths if it.endswith((".rt", ".antt")))


def renamed(text, kind, names, prefix):
    """Returns a source or a page in which the crates have the prefix."""
    any_of = "|".join(sorted(names, key=len, reverse=True))
    text = re.sub(rf"\bRattle\.(?=({any_of})\b)", f"Rattle.{prefix}", text)
    if kind != ".antt":
        text = re.sub(rf"(?<![\w:.])(?=({any_of})::)", prefix, text)
    if kind == ".md":
        # A name of one word, as history, has other meanings too, and is renamed in paths alone.
        whole = "|".join(it for it in names if "_" in it) or any_of
        text = re.sub(rf"(?<![\w.])(?=({whole})\b(?!::))", prefix, text)
        text = re.sub(rf"(?<=crates/)(?=({any_of})\b)", prefix, text)
    return text


def pages(goals, at):
    """Returns the pages for callers, by their paths in this tree, with their places in the folder of the crate `at`."""
    found = [*CALLING] if at.startswith("lock_free") else []
    found += [*USES] if [it for it in goals if it.startswith("zero_copy_")] else []
    found = [it for it in found if os.path.isfile(f"{TREE}/{it}")]
    for page in found if at.startswith("lock_free") else []:
        for link in re.findall(r"\]\(([^)\s#]+)", text_of(f"{TREE}/{page}")):
            to = os.path.normpath(os.path.join(os.path.dirname(page), link))
            if re.fullmatch(r"docs/[\w-]+\.md", to) and to not in (*found, *NOT_FOR_CALLERS) and os.path.isfile(f"{TREE}/{to}"):
                found.append(to)
    return {it: os.path.basename(it) if it in CALLING else USES.get(it, it) for it in found}


def page_text(page, places, names, prefix):
    """Returns a page whose links lead to pages of the copy, or are words."""

    # A link of a page as it has to be in the copy: to the place there, or the label alone where the page is
    # not copied.
    def link(found):
        label, to, rest = found[1], found[2], found[3] or ""
        if "://" in to or not to:
            return found[0]
        to = os.path.normpath(os.path.join(os.path.dirname(page), to))
        if to not in places:
            return f"{label} in Paglunet's repository"
        return f"[{label}]({os.path.relpath(places[to], os.path.dirname(places[page]) or '.')}{rest})"

    text = re.sub(r"!?\[([^\]]*)\]\(([^)\s#]*)(#[^)\s]*)?\)", link, text_of(f"{TREE}/{page}"))
    note = "This page is a copy. Files and commands that it names and that are not here are in Paglunet's repository."
    if prefix:
        text = renamed(text, ".md", names, prefix)
        note += f"\nThe name of each copied crate begins with `{prefix}` here."
    head, _, rest = text.partition("\n")
    return f"{head}\n\n{note}\n{rest}"


def read_at(names, goals):
    """Returns the crate in whose folder the licence texts and the pages are."""
    return next((it for it in ("lock_free", "lock_free_sp", "lock_free_spsc") if it in names), goals[0])


def stage(new, names, goals, prefix, known):
    """Writes the copy below the folder `new`, and returns the line of each crate."""
    at = read_at(names, goals)
    lines = []
    for name in names:
        to = f"{new}/crates/{prefix}{name}"
        for path in [it for part in PARTS for it in files_below(f"{TREE}/crates/{name}/{part}")]:
            text, kind = text_of(path), os.path.splitext(path)[1]
            text = renamed(text, kind, names, prefix) if prefix and kind in (".rt", ".antt") else text
            write(f"{to}/{os.path.relpath(path, f'{TREE}/crates/{name}')}", text)
        if name == at:
            for it in LICENCES:
                write(f"{to}/{it}", text_of(f"{TREE}/{it}"))
            places = pages(goals, at)
            for page, place in places.items():
                write(f"{to}/{place}", page_text(page, places, names, prefix))
        if prefix:
            lay_out(to)
        uses = " ".join(prefix + it if it in names else it for it in known[name])
        lines.append(f"{prefix}{name}: {uses}".strip())
        write(f"{to}/{MARK}", f"{HEAD}prefix: {prefix}\nchosen: {' '.join(goals)}\nsum: {sum_of(to)}\n")
    return lines


def lay_out(crate):
    """Sorts and breaks the lines whose names are longer now, as the kit's gate wants them."""
    status, said, _ = frame.ran(["rt", "fmt"], cwd=crate)
    if status:
        raise Refused(f"rt fmt does not lay out {os.path.basename(crate)}: {said.strip()[-400:]}")


def copies(folder):
    """Returns the crates below a folder that carry a mark, with what their marks say."""
    top, found = f"{folder}/crates", {}
    for name in sorted(os.listdir(top)) if os.path.isdir(top) else []:
        mark = f"{top}/{name}/{MARK}"
        if os.path.isfile(mark) and not os.path.islink(f"{top}/{name}"):
            found[name] = {"prefix": "", "chosen": "", "sum": "", **dict(re.findall(r"(?m)^(prefix|chosen|sum): ?(.*)$", text_of(mark)))}
    return found


def is_marked(line):
    return line.rstrip().endswith(COMMENT)


def crates_text(lines, ours):
    """Returns crates.txt with the copy's lines, where they stood or first, and all others as they are."""
    kept = [it for it in lines if not is_marked(it)]
    at = next((at for at, it in enumerate(lines) if is_marked(it)), 0)
    return "".join([*kept[:at], *[f"{it}  {COMMENT}\n" for it in ours], *kept[at:]])


def packed(archive, goals, names):
    """Packs the libraries of these crates, which rt lib has to prove first if they are missing. Returns what is to be told."""
    for goal in goals:
        if frame.ran(["rt", "lib"], cwd=f"{TREE}/crates/{goal}", stdout=sys.stderr)[0]:
            raise Refused(f"rt lib does not build {goal}")
    places = {it: f"{TREE}/crates/{it}/out/rlib" for it in names}
    for name, place in places.items():
        if not os.path.isfile(f"{place}/stamp"):
            raise Refused(f"{name} has no library in {place}")
    with tarfile.open(f"{archive}.part", "w:gz", compresslevel=3) as it:
        for name, place in places.items():
            it.add(place, name)
    os.rename(f"{archive}.part", archive)
    return f"{archive}: the libraries of {len(names)} crates, {os.path.getsize(archive) // 1_000_000} MB; bin/vendor --from {archive} DIR unpacks them\n"


def unpacked(archive, folder, names):
    """Gives each crate of the copy its library, if the archive has one. Returns what is to be told."""
    part, found = ".paglunet-libraries", set()
    try:
        with tarfile.open(archive) as it:
            members = [it for it in it if it.name.split("/")[0] in names]
            it.extractall(f"{folder}/{part}", members, filter="data")
            found = {it.name.split("/")[0] for it in members}
        for name in found:
            place = f"{folder}/crates/{name}/out/rlib"
            shutil.rmtree(place, ignore_errors=True)
            os.makedirs(os.path.dirname(place), exist_ok=True)
            os.rename(f"{folder}/{part}/{name}", place)
    except (tarfile.TarError, EOFError) as why:
        raise Refused(f"{archive} is no whole archive of bin/vendor: {why}; the crates were copied without libraries") from None
    finally:
        shutil.rmtree(f"{folder}/{part}", ignore_errors=True)
    return f"{len(found)} of these crates have libraries from {archive} now: rt check takes those that fit, and trusts whoever made them\n"
