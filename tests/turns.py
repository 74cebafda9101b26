"""Rows of turns: on a machine, which `bin/schedule --words` runs, and on calls over written words, which the program of
`tests_scripts` runs. All turns of a block come in one run, whose output the rows are then compared with.

A row is one of these, with P a party, C a call, A its answer, N a number and L a line of a schedule:

  P call C in N -> A      P begins it, it takes N turns, and the last one ends it so
  P part C in N           it has not ended then
  P goes N, P stays N     so many further turns are taken, with `stays` none of which ends the call
  P ends N -> A           the last of them ends it
  P says yes N            so many turns are taken, with this decision at each question; with `end` all that there are
  turn L, refused R L     it is taken; it is refused so, and changes nothing
  events from N, > LINE   the events from this place on are those of the following rows; `events end`: there are no more
  shows last E, before E  the last event, and the one before it
  shows words W.., word I W, head H A B, proposed H, sizes N M, counts P S B O done, steps P S B, going P, no_call P
                          the words, one of them, the head of a unique index set, how many words and events there are, and
                          how far a call has come (`going` in place of `done`)
  shows state P V.., value P I V, values P N, no_state P
                          what its state shows, up to eight places

Only over written words:

  words W.., write I W, head H A B, P holds I    the words are these, one is, the head is, and P holds an index
  P back W yes, P frees W -> O I                 its call begins again where it is handed W; it frees the index of this owner
  P wants OP, P asks I, P scans I, P room W      what it wants next, asks about, looks at, and has in its room
"""
import resource

# The memory of the program, in bytes. A machine that needs more is not made.
ROOM = 1 << 30
ENDLESS = 10**9
SHOWN = 8  # so many parties and places
OF_WORDS = ("words", "word", "head", "proposed", "sizes")
NAMES = ("admitted", "ProvidedCapacityIsZero", "ProvidedCapacityGreaterThanMaxCapacity", "NoMemory")


def number(word):
    """A number of 64 bits: `max` is the greatest, `max-1` the one before it."""
    return (1 << 64) - 1 - int(word[4:] or 0) if word.startswith("max") else int(word)


def numbers(text):
    """A list of them. `0*1000` stands for so many zeros."""
    parts = [it.partition("*") for it in text.split(" ")]
    return [number(word) for word, _, times in parts for _ in range(int(times or 1))]


def joined(*words):
    return " ".join(map(str, words))


# One turn of the output, or one line over written words: the number of its line, its events and its refusal.
class Block:
    """What the program tells of one turn, or of one line over written words."""

    # Reads the text of a turn, and appends its events to those of all turns.
    def __init__(self, text, events):
        line, *self.lines = text.split("\n")
        self.line, self.refusal = int(line), None
        for it in self.lines:
            if it[0].isdigit() or it.startswith("died "):
                events.append(it)
            elif it.startswith("refused ") and self.refusal is None:
                self.refusal = it[8:]
        self.events = len(events)

    @property
    def shown(self):
        return [it for it in self.lines if it.startswith(("words", "call ", "state ", "said "))]


class Turns:
    """A machine, by the first line of a schedule, or with `bare` calls over written words."""

    # A block that begins with this head. `run` runs a program, and `machine` makes the machine of `kinds.py`,
    # which tells where calls ask.
    def __init__(self, head, run, machine):
        self.is_bare, self.head, self.run = head.startswith("bare "), head.removeprefix("bare "), run
        self.lines, self.checks, self.next = [self.head], [], 0
        self.reference, self.made, self.has_words = None, machine, False
        if not self.is_bare:
            self.adds("0 next")  # (refused: it shows what stands at first)

    def adds(self, line):
        """Appends a line, and returns its number."""
        self.lines.append(line)
        if self.reference:
            self.reference.turn(line)
        return len(self.lines)

    def later(self, check):
        """What is asked once the output is there."""
        self.checks.append((len(self.lines), check))

    # ---- what the rows append

    def takes(self, party, first, turns):
        """Turns of a call, behind the line that begins it: whether all are taken."""
        begun = self.adds(f"{party} begin {first}") if first else None
        going = self.adds(f"{party} next {turns}") if turns else None

        def taken():
            blocks = [*self.of(begun), *self.of(going)]
            return len(blocks) == turns + bool(first) and all(it.refusal is None for it in blocks)

        return taken

    # Appends the lines of a row about a party, and notes its check.
    def row_of(self, party, word, rest):
        call, _, end = rest.partition(" -> ")
        if word in ("call", "part"):
            call, turns = call.split(" in ")
            taken = self.takes(party, call, int(turns))
            return self.ended(party, taken, call, end) if word == "call" else self.stays(party, taken)
        if word == "ends":
            return self.ended(party, self.takes(party, None, int(call)), None, end)
        if word == "goes":
            return self.later(self.takes(party, None, int(rest)))
        if word == "stays":
            return self.stays(party, self.takes(party, None, int(rest)))
        if word == "says":
            return self.says(party, *rest.split(" "))
        if self.is_bare:
            return self.bare_row_of(party, word, rest)
        raise ValueError("no such row")

    # The check that the turns were taken and the last event is the end of the call, with this answer.
    def ended(self, party, taken, call, answer):
        def check():
            head, _, last = self.last_event().rpartition(" -> ")
            of, _, name = head.partition(" finished ")
            return taken() and of == str(party) and last == answer and call in (None, name)

        self.later(check)

    # The check that the turns were taken and the call has not ended.
    def stays(self, party, taken):
        at = self.look(party)
        self.later(lambda: taken() and self.progress(at, party)[3] == "going")

    # Appends turns with this decision at each question: as many as the row says, or until the call ends.
    def says(self, party, said, turns):
        if turns == "end":
            for _ in range(int(self.head.split(" ")[1]) + 2):
                self.adds(f"{party} next {ENDLESS}")
                self.adds(f"{party} {said}")
            self.adds(f"{party} next {ENDLESS}")
            at = self.look(party)
            return self.later(lambda: self.progress(at, party)[3] == "done")
        self.follow()
        lines = []
        for _ in range(int(turns)):
            call = self.reference.calls.get(party)
            lines.append(self.adds(f"{party} {said if call and call.asks else 'next'}"))
        return self.later(lambda: all(it.refusal is None for line in lines for it in self.of(line)))

    def follow(self):
        """From now on a second machine tells where a call asks."""
        if not self.reference:
            self.reference = self.made(self.head)
            for line in self.lines[1:]:
                self.reference.turn(line)

    # A row about a party over written words: it holds an index, or its call is asked something.
    def bare_row_of(self, party, word, rest):
        if word == "holds":
            return self.silent(self.adds(f"{party} holds {rest}"))
        asked, _, wanted = {"back": rest.partition(" "), "frees": rest.partition(" -> ")}.get(word, ("", "", rest))
        name = {"asks": "wants"}.get(word, word)
        at = self.adds(joined(party, name, number(asked)) if asked else f"{party} {name}")
        if word == "wants" and " " in wanted:
            name, *of = wanted.split(" ")
            wanted = joined(name, *map(number, of))
        if word == "room":
            wanted = number(wanted)
        self.later(lambda: self.block(at).shown == [f"said {'asks ' if word == 'asks' else ''}{wanted}"])

    def silent(self, at):
        """A line that says nothing, where it can be done."""
        self.later(lambda: self.block(at).refusal is None)

    # Reads a row: appends its lines and notes its check. An unknown row raises `ValueError`.
    def row(self, line):
        word, rest = line.split(" ", 1)
        if word.isdecimal():
            return self.row_of(int(word), *rest.split(" ", 1))
        if word == ">":
            at, self.next = self.next, self.next + 1
            return self.later(lambda: self.event(at) == rest)
        if word == "events":
            return self.events(rest)
        if word == "turn":
            at = self.adds(rest)
            return self.later(lambda: bool(self.of(at)) and all(it.refusal is None for it in self.of(at)))
        if word == "refused":
            return self.refused(*rest.split(" ", 1))
        if word == "shows":
            return self.shows(*rest.split(" ", 1))
        if self.is_bare and word in ("words", "write", "head"):
            return self.silent(self.adds(joined(word, *numbers(rest))))
        raise ValueError("no such row")

    # A row that says from where on the next rows are compared with events, or that no event is left.
    def events(self, rest):
        if rest == "end":
            at = self.next
            return self.later(lambda: self.number_of_events() == at)
        self.next = int(rest.removeprefix("from "))
        return self.later(lambda: True)

    # A row of a refused turn: the refusal is this one, and no event and no word has changed.
    def refused(self, refusal, line):
        self.has_words = True
        at, before = self.adds(line), len(self.lines) - 1

        def check():
            blocks, old = self.of(at), self.before(before)
            is_same = len(blocks) == 1 and blocks[0].events == old.events and self.words(at) == self.words(before)
            return is_same and blocks[0].refusal == refusal

        self.later(check)

    def look(self, party):
        """Where the words and the call of a party can be seen."""
        return self.adds(f"{party} shows") if self.is_bare else len(self.lines)

    # A row about what stands: the last events, the words, how far a call has come, or what a state shows.
    def shows(self, word, rest):
        if word in ("last", "before"):
            return self.later(lambda: self.event(self.number_of_events() - 1 - (word == "before")) == rest)
        self.has_words |= word in OF_WORDS
        party = 0 if word in (*OF_WORDS, "seen_late") else int(rest.split(" ")[0])
        at = self.look(party)
        if word == "going" or rest.endswith(" going"):
            probe = self.adds(f"{party} yes")  # (refused: the call needs none)
            self.later(lambda: [it.refusal for it in self.of(probe)] == ["Undecided"])
            word, rest = ("counts", rest) if word == "counts" else ("is_going", "")
            return self.later(lambda: self.is_shown(word, rest, party, at))
        return self.later(lambda: self.is_shown(word, rest, party, at))

    # ---- what the output says

    def play(self):
        """Runs all turns, and returns an iterator over what the rows come to, each with the place of its row."""
        options = () if self.is_bare else ("--words" if self.has_words else "--turns",)
        exit, printed, _ = self.run("tests_scripts" if self.is_bare else "tool_schedule", options, joined_lines(self.lines))
        self.exit, self.blocks, self.all_events, number_of = exit, [], [], {}
        for part in printed.decode().split("\nturn ") if printed else ():
            block = Block(part.removeprefix("turn ").rstrip("\n"), self.all_events)
            number_of.setdefault(block.line, [len(self.blocks), 0])[1] += 1
            self.blocks.append(block)
        self.places = number_of
        self.upto, place = [], -1
        for line in range(len(self.lines) + 1):
            if line in number_of:
                place = sum(number_of[line]) - 1
            self.upto.append(place)
        for self.now, check in self.checks:
            try:
                yield check()
            except (LookupError, ValueError, TypeError):
                yield False

    def of(self, line):
        """The turns of a line."""
        first, count = self.places.get(line, (0, 0))
        return self.blocks[first : first + count]

    def before(self, line):
        """The last turn of a line, or of those before it."""
        return self.blocks[self.upto[line]]

    # The only turn of a line; a `ValueError` says that there is none or more than one.
    def block(self, line):
        (only,) = self.of(line)
        return only

    def number_of_events(self):
        return self.before(self.now).events

    def event(self, at):
        return self.all_events[at] if 0 <= at < self.number_of_events() else None

    def last_event(self):
        return self.event(self.number_of_events() - 1) or ""

    # What the last turn of a line shows behind this word, line by line.
    def seen(self, at, word):
        return [it[len(word) :] for it in self.before(at).shown if it.startswith(word)]

    # The words that stand after a line.
    def words(self, at):
        return [[*map(int, it.split())] for it in self.seen(at, "words")]

    def progress(self, at, party):
        """Steps, turns back, changes by others, and whether it has ended, of the latest call of a party. One of the parties that
        are not always shown is seen as it was at its last turn."""
        word = f"call {party} "
        before = reversed(self.blocks[: self.upto[at] + 1] if party >= SHOWN else [self.before(at)])
        found = next((it for block in before for it in block.lines if it.startswith(word)), None)
        if not found:
            return (None, None, None, None)
        steps, backs, others, *ended = found.removeprefix(word).split(" ")
        return int(steps), int(backs), int(others), "done" if ended else "going"

    # Whether what stands after a line is what the row says, for each kind of `shows`.
    def is_shown(self, word, rest, party, at):
        words = (self.words(at) or [[]])[0]
        state = dict(it.split(" ") for it in self.seen(at, f"state {party} "))
        _, *values = rest.split(" ") if rest else (None,)
        head = (words[0] >> 40, words[0] >> 24 & 0xFFFF, words[0] & 0xFFFFFF) if words else ()
        steps = self.progress(at, party)
        return {
            "words": lambda: words == numbers(rest),
            "word": lambda: words[number(rest.split(" ")[0])] == number(values[0]),
            "head": lambda: joined(*head) == rest,
            "proposed": lambda: str(head[0]) == rest,
            "sizes": lambda: joined(len(words), self.number_of_events()) == rest,
            "counts": lambda: joined(*steps) == joined(*values),
            "steps": lambda: joined(*steps[:2]) == joined(*values),
            "is_going": lambda: steps[3] == "going",
            "no_call": lambda: steps[3] is None,
            "state": lambda: len(values) == self.capacity() and state == places(values),
            "value": lambda: state.get(str(self.place(values[0])), "none") == values[1],
            "values": lambda: self.capacity() <= SHOWN and len(state) == int(values[0]),
            "no_state": lambda: not state,
            "seen_late": lambda: self.seen_late() == int(rest),
        }[word]()

    def capacity(self):
        return int(self.head.split(" ")[1])

    # The number of a place, unless it is one that the output does not show.
    def place(self, text):
        if SHOWN <= int(text) < self.capacity():
            raise ValueError("this place is not shown")
        return int(text)

    def seen_late(self):
        """How many values were freed and not hidden."""
        events = [it.split(" ") for it in self.all_events[: self.number_of_events()]]
        return sum(it[1] == "freed" and len(it) == 4 for it in events) - sum(it[1] == "hidden" for it in events)


# The values that a row gives, by their places.
def places(values):
    return {str(at): it for at, it in enumerate(values) if it != "none"}


def joined_lines(lines):
    return "".join(f"{it}\n" for it in lines).encode()


class Numbers:
    """Which capacities are admitted, and how many words there are: `capacity FIRST -> NAME`, `words FIRST -> N`."""

    def __init__(self, run):
        self.run = run

    def row(self, line):
        word, rest = line.split(" ", 1)
        first, wanted = rest.split(" -> ")
        turn = "0 next\n" if word == "words" else ""  # (refused: it shows the words)
        exit, printed, told = self.run("tool_schedule", ("--words",), f"{first}\n{turn}".encode(), first=bound)
        if word == "words":
            return exit == 0 and len(printed.decode().split("\n")[2].split(" ")) - 1 == int(wanted)
        if word not in ("capacity", "made"):
            raise ValueError("no such row")
        cause = told.decode().strip().removeprefix("line 1: ")
        if word == "capacity" and (exit, cause) in ((0, ""), (1, "no memory")):
            cause = "admitted"
        return wanted in NAMES and cause == wanted


# Limits the memory of a program that is started.
def bound():
    resource.setrlimit(resource.RLIMIT_AS, (ROOM, ROOM))
