"""What all structures have in common: parties with a call under way each, turns and refusals, and the lines printed.

A call is a generator that yields before each of its steps, so that what stands between two of its `yield`s happens in one
turn. Where it waits for a yes or a no it yields ASKS, and goes on with the answer in the turn that gives it. Before a turn
that touches no word it yields NOTHING.
"""

from operator import ne

ASKS = "asks"
NOTHING = "nothing"
HALF = 1 << 64


class Refused(Exception):
    """A turn that changes nothing. Its argument is the name that is printed."""


class Call:
    """A call of a party, with what it prints."""

    def __init__(self, out, party, words):
        self.out, self.party, self.text, self.name, self.waits = out, party, " ".join(words), words[0], None
        self.taken, self.others, self.is_open = 0, 0, True  # its steps, and how often another call has changed a word
        self.given = [int(it) if it.isdecimal() else it for it in words[1:]]

    @property
    def asks(self):
        return self.waits is ASKS

    def tells(self, *words):
        self.out.append(" ".join(map(str, (self.party, *words))))

    def acts(self, answer):
        self.tells("acted", self.text, "->", answer)
        return answer


class Machine:
    """A structure on which parties take turns. A kind of structure has its words, a method for each call and `permits`."""

    has_owners = False
    is_own = False  # whether an owner is a party

    def __init__(self, parties, words):
        self.parties, self.words, self.out, self.calls, self.dead = parties, words, [], {}, set()
        self.latest, self.stopped = {}, set()  # the latest call of each party, and who takes no more turns of his own

    def permits(self, call):
        """Refuses a call that may not begin."""

    def stops(self, call):
        """Refuses a turn of a call under way, if its owner is dead."""

    def allows(self, call):
        """Refuses a yes."""

    def exchange(self, at, old, new):
        """Compare-and-exchange. It answers the word that stood there."""
        found = self.words[at]
        if found == old:
            self.words[at] = new
        return found

    def swap(self, at, new):
        found, self.words[at] = self.words[at], new
        return found

    def all_words(self):
        return self.words

    def goes_on(self, call, said=None):
        """The call goes on up to its next step, its next question or its end."""
        before = [*self.all_words()]
        call.taken += call.waits is None
        try:
            call.waits = call.steps.send(said)
        except StopIteration as end:
            del self.calls[call.party]
            call.is_open = False
            call.tells("finished", call.text, "->", str(end.value).lower() if isinstance(end.value, bool) else end.value)
        after = self.all_words()
        changes = sum(map(ne, before, after)) if before != after else 0
        for other in self.calls.values():
            other.others += changes if other is not call else 0

    # Begins a call: refuses it if the party has one under way or the kind does not permit it, and runs it up
    # to its first step.
    def begins(self, party, words):
        if party in self.calls:
            raise Refused("Busy")
        call = Call(self.out, party, words)
        self.permits(call)
        call.tells("begun", call.text)
        self.calls[party] = self.latest[party] = call
        call.steps = getattr(self, call.name)(call, *call.given)
        call.waits = next(call.steps)

    # The party's call that is under way. Refuses the turn if there is none, or if a decision is due where
    # none comes, or the other way round.
    def under_way(self, party, asks):
        call = self.calls.get(party)
        if not call:
            raise Refused("Idle")
        if call.asks != asks:
            raise Refused("Undecided")
        self.stops(call)
        return call

    def takes(self, party):
        self.goes_on(self.under_way(party, False))

    def decides(self, party, said):
        call = self.under_way(party, True)
        if said:
            self.allows(call)
        self.goes_on(call, said)

    # Declares an owner dead. Refuses it where the kind has no owners, and where the owner is dead already.
    def dies(self, owner):
        if not self.has_owners:
            raise Refused("WrongCall")
        if self.is_own and owner >= self.parties:
            raise Refused("NoParty")
        if owner in self.dead:
            raise Refused("OwnerIsDead")
        self.dead.add(owner)
        self.out.append(f"died {owner}")

    def stands(self):
        """What stands now: the words, how far each call has come, and what the states show."""
        lines = [" ".join(map(str, ("words", *self.all_words())))]
        for party in range(min(self.parties, 8)):
            call = self.latest.get(party)
            if call:
                lines.append(f"call {party} {call.taken} {call.others}{'' if call.is_open else ' ended'}")
            lines += [f"state {party} {index} {value}" for index, value in sorted(self.state(party).items())]
        return [line for line in lines if not self.is_midway(line)]

    def state(self, _):
        """The values that the state of a party shows, by their indices."""
        return {}

    def is_midway(self, line):
        """Whether this is of a state that its party is writing, of which nothing is asked."""
        call = self.latest.get(int(line.split()[1])) if line.startswith("state ") else None
        return bool(call and call.is_open and call.name in ("get_state", "update_state"))

    def one(self, first, words):
        """Takes one turn of a line."""
        if first == "die":
            return self.dies(int(words[0]))
        party, verb = int(first), words[0]
        if party >= self.parties:
            raise Refused("NoParty")
        if verb == "begin":
            return self.begins(party, words[1:])
        return self.takes(party) if verb == "next" else self.decides(party, verb == "yes")

    def turns(self, line):
        """Takes the turns of a line, prints what they did, and yields after each."""
        first, *words = line.split()
        is_next = words[0] == "next"
        for _ in range(int(words[1]) if is_next and words[1:] else 1):
            try:
                self.one(first, words)
            except Refused as why:
                self.out.append(f"refused {why}")
                is_next = False
            yield
            call = self.calls.get(int(first)) if is_next else None
            if not call or call.asks:
                return

    def turn(self, line):
        for _ in self.turns(line):
            pass


def halves(value):
    """The two words of a value, the higher one first."""
    return value // HALF, value % HALF


def whole(high, low):
    return high * HALF + low


def some(value):
    """The answer of a call that has a value, or none."""
    return "none" if value is None else f"some {value}"
