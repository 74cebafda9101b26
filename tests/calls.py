"""The texts of `crates/tests_forms/data`: their blocks, the forms that these are played on, and how a line is a call, or some,
of the program and what is printed of those is an answer of the text."""
import re

from contents import MAX

# For each kind the capacities that types of the program have, and the greatest one of them. Of the loan
# channel they are its slots and the places of its two queues.
LARGE = 1 << 32
FIXED = {
    "index_queue": (0, 1, 2, 4, 5, 8, 9, 128, LARGE),
    "overflow": (0, 1, 2, 5, 9),
    "bits": (0, 1, 2, 5, 9, 64, 123, 128, LARGE),
    "counts": (0, 1, 2, 5, 9, 64, 123, 128, LARGE),
    "indices": (0, 1, 3, 5, 9, 16777215),
    "robust": (0, 3, 4, 5, 9, 100, 128, LARGE),
    "container": (0, 1, 3, 4, 5, 9, 139, LARGE),
    "loan": ((1, 0, 1), (1, 1, 1), (2, 1, 2), (3, 3, 8)),
}
# The name of the form between threads, for the kinds that have one form only beside `plain`.
THREADED = {"queue": "type", "atomic": "threads"}
# Which roles a call needs, which the text takes only where it says so.
NEEDS = {"push": "producer", "store": "producer", "pop": "consumer", "peek": "consumer"}
# The words of a text for the answers of a recovery, and the masks of the program.
WIDE = {"none": 0, "all": MAX, "every_other": MAX // 3}


def number(word, times):
    """A number of a text: `7`, `round`, or the sum or difference of two of these."""
    terms = re.fullmatch(r"(\d+|round)(?:([+-])(\d+|round))?", word)
    if not terms:
        return word
    left, sign, right = terms.groups("0")
    left, right = (times if it == "round" else int(it) for it in (left, right))
    return (left - right if sign == "-" else left + right) & MAX


def rows_of(lines):
    """The calls with their answers, each with the number of its round."""
    while lines:
        line, *lines = lines
        if line.startswith("repeat "):
            end = next((at for at, it in enumerate(lines) if it.startswith("repeat ")), len(lines))
            piece, lines = lines[:end], lines[end:]
            for times in range(int(line.split()[1])):
                yield from ((it, times) for it in piece if it.startswith("  "))
            yield from ((it, 0) for it in piece if not it.startswith("  "))
        else:
            yield line, 0


def blocks(path):
    """The head of each block, why its structure is refused, and its rows: a call, an answer and both as they are written."""
    with open(path, encoding="utf-8") as it:
        text = it.read()
    for block in re.split(r"\n{2,}", text):
        lines = [it for it in block.strip("\n").split("\n") if it and not it.startswith("#")]
        if lines:
            head, _, refusal = lines[0].partition(" -> ")
            rows = []
            for line, times in rows_of(lines[1:]):
                call, _, answer = line.partition(" -> ")
                rows.append(([number(it, times) for it in call.split()], [str(number(it, times)) for it in answer.split()], line))
            yield head, refusal, rows


def forms(head, refusal):
    """The first lines of the program's blocks: each names the structure, a form, a type of values, and numbers."""
    kind, *words = head.split()
    values = words[words.index("of") + 1] if "of" in words and not words[words.index("of") + 1].isdigit() else "-"
    numbers = [int(it) for it in words if it.isdigit()]
    rest = " ".join(map(str, numbers))
    if kind in THREADED:
        return [f"{kind} {form} {values} {rest}" for form in ("plain", THREADED[kind])]
    if kind == "facts":
        return ["facts - - 0"]
    if kind == "robust" and "at" in words:
        return [f"robust plain_at - {rest}"]
    if kind in ("indices", "robust") and "of" in words:
        plain = [] if refusal else [f"{kind} plain - {numbers[0]}"]
        return [*plain, f"{kind} reduced - {rest}"]
    is_fixed = (tuple(numbers) if kind == "loan" else numbers[0]) in FIXED[kind] and "at" not in words
    all_forms = ("plain",) * (kind != "loan") + ("heap",) + ("fixed",) * is_fixed
    return [f"{kind} {form} {values} {rest}" for form in all_forms]


class Calls:
    """How the lines of one block become calls of the program."""

    def __init__(self, head):
        self.kind, self.form = head.split()[:2]
        self.state, self.held = 0, set()
        self.numbers = [int(it) for it in head.split()[3:]]
        # Between threads a value begins at version 2 if the text gives none, which is one more than the text
        # says.
        self.ahead = self.kind == "atomic" and self.form != "plain" and self.numbers[1:] in ([], [1])

    def of(self, words):
        """The calls of a line, and those that have to come first."""
        name, *given = words
        if name == "other" and self.form == "plain":
            return [], []
        role = NEEDS.get(name) if self.form != "plain" and self.kind in ("index_queue", "overflow", "queue", "atomic") else None
        first = []
        if role and role not in self.held:
            first, self.held = [f"take_{role}"], self.held | {role}
        if given[:1] in (["producer"], ["consumer"]):
            return first, [self.role(name, given[0])]
        return first, [" ".join(map(str, it)) for it in getattr(self, f"of_{self.kind}", self.as_it_is)(name, given)]

    # The name of a call on a role, as the program has it. It also notes which roles are held after the call.
    def role(self, name, role):
        if name == "take":
            self.held.add(role)
        elif name in ("release", "drop"):
            self.held.discard(role)
        elif name == "join" and self.kind != "atomic":
            self.held.discard("consumer" if role == "producer" else "producer")
        return f"{name}_{role}"

    # The calls of a line that the program has by the same name. `looks` makes three calls.
    def as_it_is(self, name, given):
        if name == "looks":
            return ["len"], ["is_empty"], ["is_full"]
        return ([name, *given],)

    # The calls of a line of `facts`: a failure of an `add` has a call for each reason.
    def of_facts(self, name, given):
        if name == "add_failure":
            return (["add_locked" if given == ["IsLocked"] else "add_out_of_indices"],)
        return ([name, *given],)

    def frees(self, given, owner=None):
        """The mask of what a recovery frees."""
        words = given[given.index("frees") + 1 :]
        if words[0] == "owned":
            words = words[1:]
        if words[0] == "of":
            return MAX if words[1] == owner else 0
        return WIDE[words[0]] if words[0] in WIDE else sum(1 << it for it in words)

    # The calls of a line about a robust set: the words for modes and answers become numbers.
    def of_robust(self, name, given):
        if name == "release":
            return ([name, *given[:2], int(given[2] == "lock")],)
        if name == "find":
            return ([name, given[0], *(given[2:] or [MAX])],)
        if name == "recover":
            locks = int(given[0] == "lock")
            return ([name, locks, self.frees(given)] if "of" not in given else ["recover_of", locks, given[-1]],)
        return ([name, *given],)

    # The calls of a line about a container. Those about a state get its number, and a line that takes or
    # updates one also lists what it shows.
    def of_container(self, name, given):
        stop = given[given.index("stop") + 1] if "stop" in given else MAX
        if name == "state":
            self.state = given[0]
            return ()
        if name in ("get_state", "update_state"):
            return [name, self.state], ["for_each", self.state, stop]
        if name == "for_each":
            return ([name, self.state, stop],)
        if name == "get":
            return ([name, self.state, *given],)
        if name == "update_state_by":
            return ([name, self.state, given[0], given[2]],)
        if name == "find":
            return ([name, given[0], stop],)
        if name == "recover":
            return ([name, given[0], int(given[1] == "lock"), self.frees(given, given[0])],)
        if name == "remove":
            return ([name, *given[:3], int(given[3] == "lock")],)
        return ([name, *(it for it in given if it != "by")],)

    def told(self, words, printed):
        """What is printed of the calls of a line, as the text writes it."""
        name = words[0]
        told = " ".join(printed).split()
        if self.kind == "robust" and name == "recover" and "owned" not in words and "all" not in words:
            dead = str(words[-1]) if "of" in words else None
            at = told.index("told")
            asked, freed = told[2:at], told[at + 1 :]
            wrong = [owner for owner in freed[::2] if dead and owner != dead]
            return [*told[:2], *asked[1::2], "told", *wrong, *freed[1::2]]
        if self.kind == "container" and name == "find":
            handles, end = told[:-2], told[-2:]
            rows = [handles[at : at + 4] for at in range(0, len(handles), 4)]
            right = [str(words[1]), str(self.numbers[1])]
            return [it for row in rows for it in ([row[0], row[3]] if row[1:3] == right else row)] + end
        if name == "version" and self.ahead:
            return [str(int(told[0]) - 1)]
        return told


def written(answer):
    """An answer as the text writes it, without the words that the program does not print."""
    return [it for it in answer if it not in ("at", "shows")]
