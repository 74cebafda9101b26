"""The robust index set: a counter, which is raised to show a change and says that the set is locked, and for each index a
cell with its owner."""
from machine import ASKS, Machine, Refused

# The places of the counter and of the first cell; what stands in a locked counter and in an empty cell.
COUNTER, CELLS = range(2)
LOCKED = EMPTY = (1 << 64) - 1


# A robust index set. Its calls are generators of their steps, and owners of `dead` may not begin calls for
# the living.
class RobustIndexSet(Machine):
    has_owners = True
    full, stranger = "OutOfIndices", "IndexIsNotOwnedByProvidedOwner"
    # The calls that only a living owner may make, with the place of the owner among what they are given.
    of_living = {"acquire": 0, "release": 1}

    def __init__(self, capacity, parties, more=()):
        super().__init__(parties, [0] + [EMPTY] * capacity + list(more))
        self.capacity = capacity

    def permits(self, call):
        if call.name == "release" and call.given[0] >= self.capacity:
            raise Refused("BadIndex")
        self.stops(call)

    # Refuses a turn of a call whose owner is dead, if that call is for living owners alone.
    def stops(self, call):
        if call.name in self.of_living and call.given[self.of_living[call.name]] in self.dead:
            raise Refused("OwnerIsDead")

    # Refuses a yes to the question about an index of an owner who lives.
    def allows(self, call):
        if call.name == "recover" and call.owner not in self.dead:
            raise Refused("OwnerLives")

    def raised(self):
        """Raises the counter. It answers whether the set is not locked."""
        yield
        counter = self.words[COUNTER]
        while counter != LOCKED:
            yield
            found = self.exchange(COUNTER, counter, counter + 1)
            if found == counter:
                return True
            counter = found
        return False

    def counted(self):
        """How many cells are filled, and the counter that has seen them; None if the set is locked."""
        while True:
            yield
            counter = self.words[COUNTER]
            if counter == LOCKED:
                return None, None
            filled = 0
            for index in range(self.capacity):
                yield
                filled += self.words[CELLS + index] != EMPTY
            yield
            if self.exchange(COUNTER, counter, counter + 1) == counter:
                return filled, counter + 1

    def locked(self, call):
        """Locks the set if no cell is filled, and answers what it is then."""
        while True:
            filled, counter = yield from self.counted()
            if filled is None:
                return "Locked"
            if filled:
                return "Unlocked"
            yield
            if self.exchange(COUNTER, counter, LOCKED) == counter:
                call.tells("locked")
                return "Locked"

    # Fills the first empty cell, and raises the counter, by which the index is granted. Answers the index or
    # why there is none; before it says that all are filled, the counter may not have moved.
    def acquired(self, call, owner):
        yield
        counter = self.words[COUNTER]
        while counter != LOCKED:
            for index in range(self.capacity):
                yield
                if self.exchange(CELLS + index, EMPTY, owner) == EMPTY:
                    call.tells("filled", index, owner)
                    if not (yield from self.raised()):
                        return "IsLocked"
                    call.tells("granted", index, owner)
                    return index
            yield
            found = self.exchange(COUNTER, counter, counter)
            if found == counter:
                return self.full
            counter = found
        return "IsLocked"

    def empties(self, call, index, owner):
        """Whether the cell had this owner, and is empty now."""
        if self.exchange(CELLS + index, owner, EMPTY) != owner:
            return False
        call.tells("freed", index, owner)
        return True

    # Empties the cell and raises the counter. In mode `lock` it locks the set if no cell is filled.
    def released(self, call, index, owner, mode):
        yield
        if not self.empties(call, index, owner):
            return self.stranger
        yield from self.raised()
        return (yield from self.locked(call)) if mode == "lock" else "Unlocked"

    def acquire(self, call, owner):
        return self.acquired(call, owner)

    def release(self, call, index, owner, mode):
        return self.released(call, index, owner, mode)

    # Visits each cell of the owner, and asks after each whether to go on.
    def find(self, _, owner):
        found = 0
        for index in range(self.capacity):
            yield
            if self.words[CELLS + index] == owner:
                found += 1
                if not (yield ASKS):
                    break
        return found

    # Asks about each filled cell, and empties those that are answered with yes. Answers whether the set is
    # locked.
    def recover(self, call, mode):
        yield
        if self.words[COUNTER] == LOCKED:
            return "Locked"
        for index in range(self.capacity):
            yield
            owner = self.words[CELLS + index]
            if owner == EMPTY or not (yield from self.asks(call, index, owner)):
                continue
            yield
            if self.empties(call, index, owner):
                if not (yield from self.raised()):
                    return "Locked"
                if mode == "lock":
                    yield from self.locked(call)
        yield
        return "Locked" if self.words[COUNTER] == LOCKED else "Unlocked"

    def asks(self, call, index, owner):
        """Whether the answer to the question about an index is yes."""
        call.tells("asked", index, owner)
        call.owner = owner
        is_yes = yield ASKS
        if is_yes:
            call.tells("told", index, owner)
        return is_yes

    def borrowed_indices(self, _):
        return (yield from self.counted())[0] or 0

    def is_locked(self, _):
        yield
        return self.words[COUNTER] == LOCKED
