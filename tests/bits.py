"""Bit sets, with 64 flags a word behind the place where the next reset starts, and sets of counts."""
from machine import NOTHING, Machine, Refused

# The place of the word where the next reset starts, and that of the first word of flags.
START, FLAGS = range(2)


# A bit set. Each method with the name of a call is a generator of the steps of that call (`machine.py`).
class BitSet(Machine):
    def __init__(self, capacity, parties):
        super().__init__(parties, [0] + [0] * ((capacity + 63) // 64))
        self.capacity = capacity

    def permits(self, call):
        if call.name in ("set", "is_set") and call.given[0] >= self.capacity:
            raise Refused("BadIndex")

    def flips(self, place, is_set):
        """Flips the flag of a place, and answers whether it was not so already."""
        at, flag = FLAGS + place // 64, 1 << place % 64
        yield
        word = self.words[at]
        while bool(word & flag) != is_set:
            yield
            found = self.exchange(at, word, word ^ flag)
            if found == word:
                return True
            word = found
        return False

    def set(self, call, place):
        # The event belongs to the step that exchanges the word, which is the last step of a call that set the
        # flag.
        is_flipped = yield from self.flips(place, True)
        if is_flipped:
            call.tells("set", place)
        return is_flipped

    def is_set(self, call, place):
        yield
        return bool(self.words[FLAGS + place // 64] >> place % 64 & 1)

    # Clears the next flag that is set, from the start word's place on and then from 0, and stores the place
    # behind it.
    def reset_next(self, call):
        yield
        start = min(self.words[START], self.capacity)
        for place in (*range(start, self.capacity), *range(start)):
            if (yield from self.flips(place, False)):
                call.tells("cleared", place)
                yield
                self.words[START] = place + 1
                return f"some {place}"
        return "none"

    # Takes all flags of one word out in a step, one word after another.
    def reset_all(self, call):
        for at in range(FLAGS, len(self.words)):
            yield
            word = self.swap(at, 0)
            for place in range(64):
                if word >> place & 1:
                    call.tells("cleared", 64 * (at - FLAGS) + place)
        if len(self.words) == FLAGS:
            yield NOTHING
        return "done"


# A counting bit set, with a word for each count. A set adds 1 in one step, and a reset takes out one count in
# a step.
class CountingBitSet(Machine):
    def __init__(self, capacity, parties):
        super().__init__(parties, [0] * capacity)
        self.capacity = capacity

    def permits(self, call):
        if call.given and call.given[0] >= self.capacity:
            raise Refused("BadIndex")

    def set(self, call, place):
        yield
        self.words[place] += 1
        call.tells("counted", place)
        return self.words[place] - 1

    def count(self, call, place):
        yield
        return self.words[place]

    # Takes out one count after another. A set without places asks for one turn that touches no word.
    def reset_all(self, call):
        for place in range(self.capacity):
            yield
            count = self.swap(place, 0)
            if count:
                call.tells("taken_out", place, count)
        if self.capacity == 0:
            yield NOTHING
        return "done"
