"""What a structure of one caller answers: by a list, a set or a map in place of words and steps.

Each structure has a method for each call, with the numbers of the call, which returns the words of the answer. It draws
calls too: `each` are those that use each place alone, on a structure that was made anew, `draw` is one of many, by which it
fills up or runs empty, and `last` are those that show what is left. A structure may have a form that has not all calls.
"""
from collections import deque

MAX = (1 << 64) - 1
# How many numbers go through a queue of capacity 8, which are more than 16 bits count; how often one place of
# a counting bit set of capacity 5 is set, which is as well; and how often at other capacities, which is more
# than 12 bits count.
ROUNDS, MANY, SOME = 200_000, 70_000, 5_000


def truth(is_so):
    return "true" if is_so else "false"


def some(value):
    return "none" if value is None else f"some {value}"


def joined(*words):
    return " ".join(map(str, words))


# What all structures have in common: whether a lock has ended it, whether it can be closed, and calls to
# begin with and for each place alone, of which there are none here.
class Structure:
    locked = closes = False

    def opening(self):
        return ()

    def each(self):
        return ()


class Roles(Structure):
    """The calls on the roles of a structure of threads. One of one caller has none, and needs none."""

    def __init__(self, has_roles):
        self.has_roles, self.held = has_roles, {"producer": not has_roles, "consumer": not has_roles}

    # What a call on a role answers, by whether the role is held.
    def role(self, name):
        call, role = name.rsplit("_", 1)
        held = self.held[role]
        if call == "take":
            self.held[role] = True
            return truth(not held)
        if call in ("release", "drop"):
            self.held[role] = False
        elif call == "join":
            other = "consumer" if role == "producer" else "producer"
            given, self.held[other] = self.held[other], False
            return truth(held and given)
        return truth(held)

    def drawn_role(self, draws, roles):
        """A call on one of these roles: often one that takes it where it is free."""
        for role in roles:
            if not self.held[role] and draws.randrange(2):
                return (f"take_{role}",)
        if draws.randrange(8) == 0:
            return (draws.choice(("take", "release", "drop", "has", "has", "join")) + f"_{draws.choice(roles)}",)
        return None


class Queue(Roles):
    """A bounded queue, of which so many more pushes have a position."""

    closes = True

    def __init__(self, capacity, is_plain, position=0):
        super().__init__(not is_plain)
        self.capacity, self.left, self.list = capacity, MAX - position, deque()

    # A push by whoever has the producer's role: appends the value, if there is room and a position is left.
    def push(self, value):
        if not self.held["producer"]:
            return "refused"
        if len(self.list) == self.capacity or not self.left:
            return "false"
        self.left -= 1
        self.list.append(value)
        return "true"

    def pop(self):
        if not self.held["consumer"]:
            return "refused"
        return some(self.list.popleft() if self.list else None)

    def peek(self):
        if not self.held["consumer"]:
            return "refused"
        return some(self.list[0] if self.list else None)

    def len(self):
        return str(len(self.list))

    def is_empty(self):
        return truth(not self.list)

    def is_full(self):
        return truth(len(self.list) == self.capacity)

    def each(self):
        """Many numbers are pushed and popped one by one, at one capacity."""
        for number in range(ROUNDS * (self.capacity == 8)):
            yield "push", number
            yield ("pop",)

    # A call on a role, at times; else a look, a push or a pop. While the queue fills up pushes are more
    # often, and pops while it runs empty.
    def draw(self, draws, fills):
        if self.has_roles and (call := self.drawn_role(draws, ("producer", "consumer"))):
            return call
        which = draws.randrange(20)
        if which < 6:
            return (("len",), ("is_empty",), ("is_full",), ("peek",), ("peek",), ("capacity",))[which]
        return ("push", draws.getrandbits(64)) if (draws.randrange(8) < 6) == fills else ("pop",)

    def opening(self):
        return [("take_producer",), ("take_consumer",)] * self.has_roles

    def close(self):
        """What is left is a queue of one caller."""
        self.has_roles, self.held = False, {"producer": True, "consumer": True}

    def last(self):
        return [("len",), *[("pop",)] * (self.capacity + 1)]


class Overflowing(Queue):
    """A push that finds it full hands out the oldest value, or its own where no position is left."""

    # A push that takes its value, and answers the oldest one if there are more than the capacity.
    def push(self, value):
        if not self.held["producer"]:
            return "refused"
        if not self.left or not self.capacity:
            return some(value)
        self.left -= 1
        self.list.append(value)
        return some(self.list.popleft() if len(self.list) > self.capacity else None)

    def peek(self):
        return "" if self.held["consumer"] else "refused"


class Value(Roles):
    """The single value, with the number of its version."""

    def __init__(self, first, is_plain, version=0):
        super().__init__(not is_plain)
        self.value, self.number = first, version or 2 - is_plain

    # A store by whoever has the producer's role. The last version takes no value.
    def store(self, value):
        if not self.held["producer"]:
            return "refused"
        if self.number == MAX:
            return "false"
        self.value, self.number = value, self.number + 1
        return "true"

    def load(self):
        return str(self.value)

    def version(self):
        return str(self.number)

    # A release of the role also answers the value, which the pass of the producer has loaded.
    def role(self, name):
        if name == "release_producer":
            held, self.held["producer"] = self.held["producer"], False
            return str(self.value) if held else "refused"
        return truth(self.held["producer"]) if name == "join_producer" else super().role(name)

    def opening(self):
        return [("take_producer",)] * self.has_roles

    def each(self):
        """Many versions, where the first one was not given."""
        return [("store", number) for number in range(SOME * (self.number < SOME))]

    # A call on the role, at times; else a look at the version, a store or a load.
    def draw(self, draws, _):
        if self.has_roles and (call := self.drawn_role(draws, ("producer",))):
            return call
        if draws.randrange(16) == 0:
            return ("version",)
        return ("store", draws.getrandbits(64)) if draws.randrange(2) else ("load",)

    def last(self):
        return [("load",), ("version",)]


# A bit set: the flags as the bits of one number, and the place behind the last one that was reset.
class Bits(Structure):
    def __init__(self, capacity, _):
        self.capacity, self.bits, self.next = capacity, 0, 0

    def set(self, place):
        if place >= self.capacity:
            return "refused"
        before, self.bits = self.bits, self.bits | 1 << place
        return truth(self.bits != before)

    def is_set(self, place):
        return truth(self.bits >> place & 1) if place < self.capacity else "refused"

    def reset_next(self):
        """The first place from where the last one was, and else the first of all."""
        bits = self.bits >> self.next << self.next or self.bits
        if not bits:
            return "none"
        place = (bits & -bits).bit_length() - 1
        self.bits, self.next = self.bits ^ 1 << place, place + 1
        return some(place)

    def reset_all(self):
        bits, self.bits = bin(self.bits)[:1:-1], 0
        return joined("done", *(at for at, bit in enumerate(bits) if bit == "1"))

    def each(self):
        for place in range(self.capacity):
            yield from (("set", place), ("reset_next",), ("set", place), ("reset_all",))

    # A set or a reset, as the set fills up or runs empty; at times a look or a reset of all.
    def draw(self, draws, fills):
        place = draws.randrange(self.capacity + (draws.randrange(64) == 0 or not self.capacity))
        if draws.randrange(512) == 0:
            return ("reset_all",)
        if draws.randrange(8) == 0:
            return "is_set", place
        return ("set", place) if (draws.randrange(8) < 6) == fills else ("reset_next",)

    def last(self):
        return [("reset_next",), ("reset_all",), ("reset_next",), ("capacity",)]


# A counting bit set: the counts of its places.
class Counts(Structure):
    def __init__(self, capacity, _):
        self.capacity, self.counts = capacity, [0] * capacity

    def set(self, place):
        if place >= self.capacity:
            return "refused"
        self.counts[place] += 1
        return str(self.counts[place] - 1)

    def count(self, place):
        return str(self.counts[place]) if place < self.capacity else "refused"

    def reset_all(self):
        counts, self.counts = self.counts, [0] * self.capacity
        return joined("done", *(f"{place} {count}" for place, count in enumerate(counts) if count))

    def max_count(self):
        return str(MAX)

    def each(self):
        for place in range(self.capacity):
            yield from (("set", place), ("reset_all",))
        yield from [("set", self.capacity // 2)] * (MANY if self.capacity == 5 else SOME)
        yield ("reset_all",)

    def draw(self, draws, _):
        if draws.randrange(512) == 0:
            return ("reset_all",)
        # One place is set far more often than each other one.
        place = self.capacity // 2 if draws.randrange(4) == 0 else draws.randrange(self.capacity + 1)
        return ("count", place) if draws.randrange(8) == 0 else ("set", place)

    def last(self):
        return [("reset_all",), ("reset_all",), ("capacity",)]
