"""The unique index set: a head, for each index the one behind it in the list of free ones, and 64 claim flags a word.

The head is one word: 24 bits of the index that it proposes, 16 of a number that each exchange raises, and 24 of how many
indices are borrowed, which are all set once the set is locked."""
from machine import Machine, Refused

# The places of the head and of the first next index.
HEAD, NEXT = range(2)
LOCKED = 0xFFFFFF


def parts_of(head):
    """What a head proposes, its number and how many are borrowed."""
    return head >> 40, head >> 24 & 0xFFFF, head & LOCKED


# The head word of these three parts. The number keeps its low 16 bits.
def head_of(proposed, number, borrowed):
    return proposed << 40 | (number & 0xFFFF) << 24 | borrowed


# A unique index set. Its calls are generators of their steps, and `holders` says which party holds which
# index.
class UniqueIndexSet(Machine):
    def __init__(self, capacity, parties):
        super().__init__(parties, [0, *range(1, capacity + 1)] + [0] * ((capacity + 63) // 64))
        self.capacity, self.holders = capacity, {}

    # Refuses a release of an index that does not exist or that the party does not hold.
    def permits(self, call):
        if call.name == "release":
            if call.given[0] >= self.capacity:
                raise Refused("BadIndex")
            if self.holders.get(call.given[0]) != call.party:
                raise Refused("NotHeld")

    def claims(self, index):
        """Claims the flag of an index, and answers whether it was free."""
        at, flag = NEXT + self.capacity + index // 64, 1 << index % 64
        is_free = not self.words[at] & flag
        self.words[at] |= flag
        return is_free

    # Clears the claim flag of an index, and notes that nobody holds it.
    def frees(self, index):
        self.words[NEXT + self.capacity + index // 64] &= ~(1 << index % 64)
        self.holders.pop(index, None)

    def proposal(self):
        """Takes the proposed index out of the list, or counts one more if none is proposed. It answers why it cannot."""
        yield
        head = self.words[HEAD]
        while True:
            proposed, number, borrowed = parts_of(head)
            if borrowed == LOCKED:
                return "IsLocked"
            if borrowed == self.capacity:
                return "OutOfIndices"
            behind = proposed
            if proposed < self.capacity:
                yield
                behind = self.words[NEXT + proposed]
            yield
            found = self.exchange(HEAD, head, head_of(behind, number + 1, borrowed + 1))
            if found == head:
                return proposed
            head = found

    # Takes an index: it claims the proposed one, or else scans the claim flags from 0 on, again and again,
    # until one is free.
    def acquired(self, call):
        proposed = yield from self.proposal()
        if isinstance(proposed, str):
            return proposed
        places = [proposed] if proposed < self.capacity else []
        while True:
            for index in places:
                yield
                if self.claims(index):
                    call.tells("claimed", index)
                    return index
            places = range(self.capacity)

    def acquire(self, call):
        index = yield from self.acquired(call)
        if not isinstance(index, str):
            self.holders[index] = call.party
        return index

    # Frees the claim flag, puts the index in front of the list, and lowers the count. In mode `lock` the last
    # index locks. In mode `default` a count that has changed meanwhile is lowered in a step of its own.
    def released(self, call, index, mode):
        yield
        self.frees(index)
        call.tells("freed", index)
        yield
        head = self.words[HEAD]
        while True:
            proposed, number, borrowed = parts_of(head)
            yield
            self.words[NEXT + index] = proposed
            is_last = mode == "lock" and borrowed == 1
            yield
            found = self.exchange(HEAD, head, head_of(index, number + 1, LOCKED if is_last else borrowed - 1))
            if found == head:
                if is_last:
                    call.tells("locked")
                return "Locked" if is_last else "Unlocked"
            if mode == "default":
                yield
                self.words[HEAD] -= 1
                return "Unlocked"
            head = found

    def release(self, call, index, mode):
        del self.holders[index]
        return self.released(call, index, mode)

    def borrowed_indices(self, _):
        yield
        borrowed = parts_of(self.words[HEAD])[2]
        return 0 if borrowed == LOCKED else borrowed

    def is_locked(self, _):
        yield
        return parts_of(self.words[HEAD])[2] == LOCKED
