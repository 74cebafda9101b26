"""The one value: a version, the word of the role, and two cells of two words, of which a version says the current one."""
from machine import Machine, Refused, halves, whole

# The places of the version, of the role's word and of the first cell.
VERSION, PRODUCER, CELLS = range(3)


# The single value. Its calls are generators of their steps.
class Value(Machine):
    def __init__(self, _, parties):
        super().__init__(parties, [1, 1] + [0] * 4)
        self.producer = None

    def permits(self, call):
        if call.name in ("store", "release_producer") and self.producer != call.party:
            raise Refused("NoRole")

    # Takes the producer's role, if it is free, in one step.
    def acquire_producer(self, call):
        yield
        if self.exchange(PRODUCER, 1, 0) != 1:
            return False
        self.producer = call.party
        return True

    def release_producer(self, _):
        yield
        self.words[PRODUCER] = 1
        self.producer = None
        return "done"

    def has_producer(self, _):
        yield
        return self.words[PRODUCER] != 1

    def version(self, _):
        yield
        return self.words[VERSION]

    # Writes the two words into the cell that is not current, and raises the version, by which the store takes
    # effect.
    def store(self, call, value):
        yield
        cell = CELLS + 2 * (self.words[VERSION] % 2)
        for at, word in enumerate(halves(value)):
            yield
            self.words[cell + at] = word
        yield
        self.words[VERSION] += 1
        call.acts("true")
        return True

    # Copies the current cell, and checks that the version has not moved; otherwise copies again.
    def load(self, call):
        yield
        version = self.words[VERSION]
        while True:
            cell, words = CELLS + 2 * ((version - 1) % 2), []
            for at in range(2):
                yield
                words.append(self.words[cell + at])
            yield
            found = self.exchange(VERSION, version, version)
            if found == version:
                return call.acts(whole(*words))
            version = found
