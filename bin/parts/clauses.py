"""What the clauses of public calls say, for `list_calls`: a clause names definitions of specs, over each of which a sentence
stands."""
import functools
import os
import re

# How a clause begins that is of one answer, and how the lists say so.
ANSWERS = {"IsTrue result →": "true", "IsFalse result →": "false", "IfOk result": "Ok", "IfErr result": "Err", "IfSome result": "Some"}
ANSWERS |= {"IfNone result": "None", "OnOk result": "Ok", "IsSome result →": "Some", "IsNone result →": "None"}
CLAUSE = re.compile(r"\n {8}(requires|ensures)(?: (\w+))? \{ ((?s:.*?)) \}(?=\n {4,8}(?:requires|ensures|\{|by)|\Z)")
USE = re.compile(r"(?m)^\s*(?:pub |ghost )*use (Rattle\.[\w.\-]+?)(?:\.\{([^}]*)\}|(?: as (\w+))?);?$")
# The sentence over a definition, its name and the rest of its head.
DEFINED = r"(?m)((?:^ *-- .*\n)*)^ *(?:abbrev )?pub (?:record |data )?{} (.*(?:\n {{6}}.*)*)"


class Said:
    """The definitions that a list names, with what is said of them."""

    def __init__(self):
        self.of = {}

    def told(self, text, head):
        """What the list says of the clauses of a call that begins so in a source with this text."""
        names, found = taken(text), []
        for kind, name, clause in CLAUSE.findall(head):
            clause = re.sub(r"\s+", " ", clause)
            answer = next((f"if {said}" for it, said in ANSWERS.items() if clause.startswith(it)), "")
            facts = [it for it in dict.fromkeys(re.findall(r"(?<![\w.])(?:\w+\.)?[A-Z]\w+", clause)) if self.knows(names, it)]
            begin = " ".join(filter(None, ["requires" * (kind == "requires"), f"`{name}`" * bool(name), answer]))
            found.append(f"{begin}{': ' * bool(begin)}{', '.join(f'`{it.split(chr(46))[-1]}`' for it in facts) or f'`{clause}`'}")
        return "; ".join(found)

    def knows(self, names, word):
        """Whether a word of a clause is a fact that specs of this tree define. It is kept with its sentence and its module."""
        at, _, name = word.rpartition(".")
        at, first = names.get(at or name, ("", ""))
        found = at.startswith("Rattle.") and defined(at, first or name)
        if found and found[1]:
            self.of[name, found[2]] = found[0]
            return True
        return False

    def lines(self):
        """The table of what was named."""
        rows = [f"|`{name}`|{said}|`{at}`|" for (name, at), said in sorted(self.of.items())]
        return ["", "## What the clauses say", "", "|definition|what it says|in|", "|---|---|---|", *rows]


def taken(text):
    """Each name that a text imports, with its module and its name there, which is empty for a module itself."""
    found = {}
    for at, names, name in USE.findall(text):
        for it in filter(None, (it.strip() for it in names.split(","))):
            first, _, last = it.partition(" as ")
            found[last or first] = (at, first)
        if not names:
            found[name or at.split(".")[-1]] = (at, "")
    return found


@functools.lru_cache(maxsize=None)
def defined(at, name):
    """The sentence over a definition, whether it is a fact, and the module where it stands; or None."""
    crate, _, rest = at.removeprefix("Rattle.").partition(".specs")
    path = f"crates/{crate}/specs/{rest.strip('.').replace('.', '/') or 'Lib'}.antt"
    if not os.path.isfile(path):
        return None
    with open(path, encoding="utf-8") as it:
        text = it.read()
    found = re.search(DEFINED.format(re.escape(name)), text)
    if found:
        lines = [it.strip().removeprefix("--").strip() for it in found[1].split("\n")]
        said = " ".join(it for it in lines if it and not it.startswith("--"))
        return said.rstrip(".").replace("|", "\\|"), "Type 0" in found[2], f"{crate}: {rest.strip('.')}"
    again = taken("\n".join(it for it in text.split("\n") if "pub use" in it)).get(name)
    return defined(*again) if again and again[1] else None
