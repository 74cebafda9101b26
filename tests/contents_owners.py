"""The same as `contents.py` of structures of indices: the unique index set, the robust one and the container."""
from heapq import heapify, heappop, heappush

from contents import MAX, Structure, joined, some, truth

# The owners of drawn calls, with the least and the greatest number.
OWNERS = (0, MAX - 1, 12345, 1, 2)
PERIOD = 62  # a mask says the answers to so many questions, and then again


# Whether the question of this number is answered with yes by the mask, as the program reads it.
def is_yes(mask, question):
    return mask >> question % PERIOD & 1 == 1


def turns(capacity):
    """Each index comes, goes and comes again while just those below it are out. Then each goes."""
    for index in range(capacity):
        yield from ((True, index), (False, index), (True, index))
    yield from ((False, index) for index in range(capacity))


class Indices(Structure):
    """A stack of the indices that are free."""

    def __init__(self, capacity, is_plain):
        self.capacity, self.is_plain = capacity, is_plain
        self.free, self.out, self.locked = [*range(capacity - 1, -1, -1)], {}, False

    # The index on top of the stack, noted with whether a guard holds it, or why there is none.
    def taken(self, is_held):
        if self.locked:
            return "locked"
        if not self.free:
            return "OutOfIndices"
        index = self.free.pop()
        self.out[index] = is_held
        return str(index)

    def acquire(self):
        return self.taken(False)

    def hold(self):
        return self.taken(True)

    # Gives an index back, which comes on top of the stack. It locks at the last index if `locks` is true.
    def release(self, index, locks=False):
        if index not in self.out:
            return "refused"
        del self.out[index]
        self.free.append(index)
        self.locked = locks and not self.out
        return "locked" if self.locked else "unlocked"

    drop = release

    def release_or_lock(self, index):
        return self.release(index, True)

    def is_out(self, index):
        return truth(index in self.out) if self.is_plain else ""

    def holds(self, index):
        return "" if self.is_plain else str(index) if self.out.get(index) else "refused"

    def borrowed_indices(self):
        return str(len(self.out))

    def is_locked(self):
        return truth(self.locked)

    def is_locked_further(self):
        return "" if self.is_plain else truth(self.locked)

    def each(self):
        for at, (comes, index) in enumerate(turns(self.capacity)):
            yield ("hold" if at % 2 else "acquire",) if comes else ("release" if at % 2 else "drop", index)

    # A look, at times; else an acquire or a release, as the set fills up or runs empty.
    def draw(self, draws, fills):
        index, which = draws.randrange(self.capacity + (draws.randrange(32) == 0)), draws.randrange(64)
        if which < 10:
            looks = (("borrowed_indices",), ("is_locked",), ("is_locked_further",), ("capacity",), ("is_out", index), ("holds", index))
            return looks[which % 6]
        if (draws.randrange(8) < 6) == fills:
            return (draws.choice(("acquire", "hold")),)
        return draws.choice(("release", "drop", "release", "drop", "release", "drop", "release_or_lock", "release_or_lock")), index

    def last(self):
        """Some more are acquired, and each is given back: the last one locks."""
        acquires = [("hold" if at % 2 else "acquire",) for at in range(8)]
        gives = [("release_or_lock", index) for index in range(self.capacity)]
        return [*acquires, *gives, ("is_locked",), ("hold",), ("borrowed_indices",)]


class Robust(Structure):
    """The owners of the indices that are out."""

    full = "OutOfIndices"

    def __init__(self, capacity, is_plain):
        self.capacity, self.is_plain = capacity, is_plain
        self.owners, self.locked = {}, False
        self.free = [*range(capacity)]
        heapify(self.free)

    def taken(self, owner):
        """The least free index, or why there is none."""
        if self.locked:
            return "locked"
        if not self.free:
            return self.full
        index = heappop(self.free)
        self.owners[index] = owner
        return index

    # Frees an index, and locks if `locks` is true and no index is out then.
    def frees(self, index, locks):
        del self.owners[index]
        heappush(self.free, index)
        self.locked = self.locked or bool(locks and not self.owners)

    def state(self):
        return "locked" if self.locked else "unlocked"

    def of(self, owner):
        return sorted(index for index, its in self.owners.items() if its == owner)

    def acquire(self, owner):
        return str(self.taken(owner))

    # A release by an owner, which is refused unless that owner has the index.
    def release(self, index, owner, locks):
        if index >= self.capacity:
            return "refused"
        if self.owners.get(index) != owner:
            return "not_owned"
        self.frees(index, locks)
        return self.state()

    def find(self, owner, stop):
        found = self.of(owner)[: stop or None]
        return joined(*found, "found", len(found))

    # Asks about each index that is out, in order, and frees those that are answered with yes: by the mask, or
    # those of the owner `of`.
    def recover(self, locks, mask, of=None):
        asked, told = [], []
        for question, index in enumerate(sorted(self.owners) if not self.locked else ()):
            owner = self.owners[index]
            asked += [owner, index]
            if is_yes(mask, question) if of is None else owner == of:
                self.frees(index, locks)
                told += [owner, index]
        return joined(self.state(), "asked", *asked, "told", *told)

    def recover_of(self, locks, owner):
        return self.recover(locks, 0, owner)

    def borrowed_indices(self):
        return str(len(self.owners))

    def is_locked(self):
        return truth(self.locked)

    def is_locked_further(self):
        return "" if self.is_plain else truth(self.locked)

    def each(self):
        for comes, index in turns(self.capacity):
            yield ("acquire", OWNERS[index % 5]) if comes else ("release", index, OWNERS[index % 5], 0)

    # A look or a recovery, at times; else an acquire or a release, as the set fills up or runs empty.
    def draw(self, draws, fills):
        owner, which = draws.choice(OWNERS), draws.randrange(64)
        if which < 3:
            return (("borrowed_indices",), ("is_locked",), ("is_locked_further",))[which]
        if which == 3:
            return "find", owner, draws.choice((MAX, draws.randrange(1, 8)))
        if which == 4:
            return "recover", int(draws.randrange(4) == 0), draws.getrandbits(64)
        if which == 5 and draws.randrange(2):
            return "recover_of", int(draws.randrange(4) == 0), owner
        if (draws.randrange(8) < 6) == fills:
            return "acquire", owner
        index = draws.randrange(self.capacity + (draws.randrange(64) == 0))
        # Half of the releases name the owner that has the index.
        return "release", index, self.owners.get(index, owner) if draws.randrange(2) else owner, int(draws.randrange(4) == 0)

    def last(self):
        """One more is acquired; half of all are recovered, then the rest: the last one locks."""
        halves = [("recover", 0, MAX // 3), ("recover", 1, MAX)]
        return [("acquire", 12345), ("borrowed_indices",), *halves, ("is_locked",), ("acquire", 12345), ("borrowed_indices",)]


class Container(Robust):
    """The values of the indices that are out, and three states, of which each shows those of some moment."""

    full = "OutOfSpace"

    def __init__(self, capacity, is_plain, number):
        super().__init__(capacity, is_plain)
        self.number, self.values, self.changes = number, {}, 0
        self.states = [(0, {}), (0, {}), (0, {})]

    def frees(self, index, locks):
        super().frees(index, locks)
        del self.values[index]

    # Adds a value at the least free index, and answers its handle, or why there is no index.
    def add(self, value, owner):
        index = self.taken(owner)
        if isinstance(index, str):
            return index
        self.values[index] = value
        self.changes += 1
        return joined(index, owner, self.number)

    # Whether this handle is one of the container: its number is right, and the owner has the index.
    def has(self, index, owner, container):
        return container == self.number and self.owners.get(index) == owner

    # Removes the value of a handle and frees its index, if the handle is right.
    def remove(self, index, owner, container, locks):
        if not self.has(index, owner, container):
            return "not_owned"
        self.frees(index, locks)
        self.changes += 1
        return self.state()

    # Replaces the value of a handle, if the handle is right.
    def replace(self, index, owner, container, value):
        if not self.has(index, owner, container):
            return "not_owned"
        self.values[index] = value
        self.changes += 1
        return "done"

    def get_state(self, at):
        self.states[at] = self.changes, dict(self.values)
        return ""

    def update_state(self, at):
        is_old = self.states[at][0] != self.changes
        if is_old:
            self.get_state(at)
        return truth(is_old)

    def for_each(self, at, stop):
        shown = self.states[at][1]
        return joined(len(shown), *(f"{index} {shown[index]}" for index in sorted(shown)[: stop or None]))

    def get(self, at, index):
        return some(self.states[at][1].get(index))

    def find(self, owner, stop):
        found = self.of(owner)[: stop or None]
        return joined(*(f"{it} {owner} {self.number} {self.values[it]}" for it in found), "found", len(found))

    # Asks about each value of the owner, in order of the indices, and frees those that the mask answers with
    # yes.
    def recover(self, owner, locks, mask):
        asked = []
        for question, index in enumerate(self.of(owner) if not self.locked else ()):
            asked.append(self.values[index])
            if is_yes(mask, question):
                self.frees(index, locks)
        self.changes += 1
        return joined(self.state(), "asked", *asked)

    def len(self):
        return str(len(self.owners))

    def is_empty(self):
        return truth(not self.owners)

    def each(self):
        for at, (comes, index) in enumerate(turns(self.capacity)):
            owner = OWNERS[index % 5]
            yield ("add", at, owner) if comes else ("remove", index, owner, self.number, 0)

    # A look, a state or a recovery, at times; else an add, a remove or a replace, as the container fills up
    # or runs empty.
    def draw(self, draws, fills):
        # One of two owners adds far more often than the other.
        owner, which = 12345 if draws.randrange(8) else MAX - 1, draws.randrange(32)
        stop, state = draws.choice((MAX, draws.randrange(1, 8))), draws.randrange(3)
        if which < 3:
            return (("len",), ("is_empty",), ("is_locked",))[which]
        if which == 3:
            return (draws.choice(("get_state", "update_state", "update_state")), state)
        if which == 4:
            return draws.choice((("for_each", state, stop), ("get", state, draws.randrange(self.capacity + 1))))
        if which == 5:
            return "find", owner, stop
        if which == 6:
            return "recover", draws.choice(OWNERS[:4]), int(draws.randrange(4) == 0), draws.getrandbits(64)
        if (draws.randrange(8) < 7) == fills:
            return "add", draws.getrandbits(64), owner
        index = draws.randrange(self.capacity + 1)
        handle = index, self.owners.get(index, owner) if draws.randrange(2) else owner, self.number + (draws.randrange(32) == 0)
        return ("replace", *handle, draws.getrandbits(64)) if draws.randrange(8) < 3 else ("remove", *handle, int(draws.randrange(4) == 0))

    def last(self):
        """Each value is shown, replaced and removed, in both owners' names. One comes anew, and is recovered, which locks."""
        yield from (("update_state", 0), ("for_each", 0, MAX), ("get_state", 1), ("for_each", 1, MAX))
        for index in range(self.capacity):
            for owner in (MAX - 1, 12345):
                yield "replace", index, owner, self.number, index
                yield "remove", index, owner, self.number, 0
        yield from (("add", 9, 12345), ("find", 12345, MAX), ("get_state", 0), ("for_each", 0, MAX), ("recover", 12345, 1, MAX))
        yield from (("is_locked",), ("add", 9, 12345))
