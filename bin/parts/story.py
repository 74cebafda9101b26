"""No command: the run of a schedule as bin/lanes draws it. Lanes, calls from begin to end, marks, numbered acts, and the
contents after each change, by the lines that `bin/schedule --turns` prints."""
import re

# The most turns that are drawn: a hundred pages.
MOST = 6000
CUT = "further turns are left out"
# The most items that are written out, the letters behind which no further one is, and what stands behind the number of those
# that are not.
SHOWN, WIDE, MORE = 8, 60, " more"
ACTS = ("index_queue", "overflow", "queue", "atomic")


class Contents:
    """What a structure has in it, by what has happened: of a queue and the single value by the acts of its calls, of sets by
    their events. An item is a value, a flag, a place or an index. It has the number of a count, or of who has it, surely or
    not yet, and the value that stands there."""

    def __init__(self, kind):
        self.kind, self.is_locked = kind, False
        self.items = [(0, None, True, None)] if kind == "atomic" else []

    def put(self, key, **new):
        """Changes an item, which is there unless nothing is left of it."""
        item = next((it for it in self.items if it[0] == key), (key, None, True, None))
        item = (key, new.get("number", item[1]), new.get("surely", item[2]), new.get("value", item[3]))
        self.items = [it for it in self.items if it[0] != key]
        if item[1] is not None or item[3] is not None:
            self.items = sorted([*self.items, item], key=lambda it: it[0])

    # What waits after an act of a queue, or what the value is after a store.
    def act(self, call, answer):
        name, *given = call.split()
        if name in ("push", "store") and answer != "false":
            if name == "store":
                self.items = []
            self.items.append((int(given[0]), None, True, None))
        if name in ("push", "pop") and answer.startswith("some"):
            self.items = self.items[1:]

    def change(self, party, what, numbers):
        """Whether an event changes what is in a set."""
        key, *more = numbers or [0]
        if what in ("set", "claimed"):
            self.put(key, number=1 if what == "set" else party, surely=True)
        elif what in ("filled", "granted"):
            self.put(key, number=more[0], surely=what == "granted")
        elif what == "counted":
            count = next((it[1] for it in self.items if it[0] == key), 0)
            self.put(key, number=count + 1, surely=True)
        elif what in ("placed", "hidden"):
            self.put(key, value=more[0] if more else None)
        elif what == "freed" and more:  # (a value that stands there still does)
            self.put(key, number=None, surely=True)
        elif what in ("cleared", "taken_out", "freed"):
            self.items = [it for it in self.items if it[0] != key]
        elif what == "locked":
            self.is_locked = True
        else:
            return False
        return True

    # An item as the picture writes it: its number, what belongs to it, and its value.
    def item_text(self, item):
        key, number, surely, value = item
        text = str(key)
        if number is not None:
            form = {"counts": ": {}", "indices": " by {}", "robust": " of {}", "container": " of {}"}.get(self.kind, "")
            text += form.format(number)
            if " of " in form and not surely:
                text += "?"
        return text if value is None else f"{text}: {value}"

    def text(self):
        """A list in brackets, the oldest first, a set in braces, a single value as it is."""
        first, last = ("", "") if self.kind == "atomic" else ("[", "]") if self.kind in ACTS else ("{", "}")
        text = first
        for at, item in enumerate(self.items):
            if at >= SHOWN or len(text) > WIDE:
                text += f", .. {len(self.items) - at}{MORE}"
                break
            text += (", " if at else "") + self.item_text(item)
        return text + last + (" locked" if self.is_locked else "")


class Call:
    """From the turn in which it begins to the one in which it ends, or open for good. The text is its name and its answer."""

    def __init__(self, lane, begin, text):
        self.lane, self.begin, self.end, self.text = lane, begin, None, text


class Story:
    """A run, told. Turns are lanes with what was done: begin, step, back, nothing, said or died, and whether it was refused.
    Marks are [lane, turn, text, refused], acts (lane, turn, number, text) and contents (turn, text)."""

    # Reads the first line of a schedule and of each turn the words of its line with what was printed, and collects what
    # there is to draw.
    def __init__(self, first, turns):
        kind, *numbers = first.split()
        names = ("slots", "queue", "parties") if kind == "loan" else ("capacity", "parties")
        self.title = ", ".join([kind, *(f"{name} {int(number)}" for name, number in zip(names, numbers))])
        self.order = "calls in the order in which they act" if kind in ACTS else "changes in their order"
        self.is_cut, turns = len(turns) > MOST, turns[:MOST]
        owns = [int(words[0]) if words[0] != "die" and int(words[0]) < int(numbers[-1]) else None for words, _ in turns]
        self.parties = sorted({it for it in owns if it is not None})
        self.lanes = [f"party {it}" for it in self.parties] + ["no party"] * (None in owns)
        self.turns, self.calls, self.marks, self.acts, self.contents = [], [], [], [], []
        self.now, self.progress = Contents(kind), {}
        self.opening = self.now.text()
        for own, (words, printed) in zip(owns, turns):
            self.tell(words, own, printed)

    def lane_of(self, party):
        return self.parties.index(party) if party in self.parties else len(self.parties)

    def lane_name(self, lane):
        return self.lanes[lane] if lane < len(self.lanes) else ""

    def told(self, act):
        """An act with whose it is, and in whose turn it comes if that is another's."""
        lane, turn, number, text = act
        other = self.turns[turn][0]
        text = f"{number}. {self.lane_name(lane)}: {text}"
        return text if other == lane else f"{text}, in a turn of {self.lane_name(other)}"

    def mark(self, lane, text, refused=False):
        """What happens of one lane in one turn is one mark."""
        turn = len(self.turns) - 1
        if self.marks and self.marks[-1][:2] == [lane, turn]:
            self.marks[-1][2] += f", {text}"
        else:
            self.marks.append([lane, turn, text, refused])

    def act(self, lane, text):
        self.acts.append((lane, len(self.turns) - 1, len(self.acts) + 1, text))

    def did(self, words, party, printed):
        """What a turn was: a step by how far its call had come before and after it."""
        before = self.progress.get(party)
        for line in printed:
            if line.startswith("call "):
                number, steps, backs, *_ = map(int, line.split()[1:4])
                self.progress[number] = steps, backs
        after = self.progress.get(party)
        if words[0] == "die":
            return "died"
        if words[1] != "next":
            return "begin" if words[1] == "begin" else "said"
        if not before or not after:
            return "nothing"
        return "back" if after[1] > before[1] else "step" if after[0] > before[0] else "nothing"

    # Takes one turn in: its lane, what it did, its refusal, and each event that was printed of it.
    def tell(self, words, party, printed):
        lane, acts = self.lane_of(party), len(self.acts)
        refusal = next((line.split()[1] for line in printed if line.startswith("refused ")), None)
        did = self.did(words, party, printed)
        self.turns.append((lane, did, refusal is not None))
        if refusal and did == "begin":
            call = " ".join(str(int(it)) if it.isdecimal() else it for it in words[2:])
            self.mark(lane, f"{call}: {refusal}", True)
        elif refusal:
            self.mark(lane, refusal, True)
        elif did == "said":
            self.mark(lane, words[1])
        for line in printed:
            if not re.match("refused |call |state ", line):
                self.happen(line)
        if len(self.acts) > acts:
            self.contents.append((len(self.turns) - 1, self.now.text()))

    def happen(self, line):
        first, said = line.split(" ", 1)
        if first == "died":
            self.mark(len(self.parties), f"{said} died")
            return
        lane, (what, _, text) = self.lane_of(int(first)), said.partition(" ")
        if what == "begun":
            self.calls.append(Call(lane, len(self.turns) - 1, text))
        elif what == "finished":
            call = next((it for it in self.calls if it.lane == lane and it.end is None), None)
            if call:
                call.end, call.text = len(self.turns) - 1, text
        elif what == "acted":
            self.now.act(*text.split(" -> "))
            self.act(lane, text)
        else:
            self.mark(lane, said)
            if self.now.change(int(first), what, [int(it) for it in text.split()]):
                self.act(lane, said)
