"""The container: the words of a robust index set, a number of changes, for each index an element number, which is odd
while a value stands there, and the two words of the value."""
from machine import ASKS, NOTHING, Refused, halves, whole
from owners import CELLS, COUNTER, EMPTY, LOCKED, RobustIndexSet


class State:
    """What a party has seen: the number of changes, the element numbers, and the values by their indices."""

    def __init__(self, capacity):
        self.changes, self.numbers, self.shown = 0, [0] * capacity, {}


# A container. Its calls are generators of their steps, made of those of a robust index set and of steps on
# the elements.
class Container(RobustIndexSet):
    full, stranger = "OutOfSpace", "ContainerHandleNotOwnedByContainer"
    of_living = {"add": 1, "remove": 1, "replace": 2}

    # The words behind those of the set are the number of changes, an element number for each index, and two
    # words for each value.
    def __init__(self, capacity, parties):
        super().__init__(capacity, parties, [0] * (1 + 3 * capacity))
        self.changes = CELLS + capacity
        self.numbers = self.changes + 1
        self.values = self.numbers + capacity
        self.states = [State(capacity) for _ in range(parties)]
        self.looks = []  # what each look has shown as it ended

    def permits(self, call):
        self.stops(call)
        if call.name == "recover" and call.given[0] not in self.dead:
            raise Refused("OwnerLives")

    # A container's recovery names its owner as it begins, so no answer to a question can be refused.
    def allows(self, call):
        pass

    # Loads the element number of an index.
    def number(self, index):
        yield
        return self.words[self.numbers + index]

    # Makes an element number even, if it is odd and has not changed, so that no value stands there any more.
    def hides(self, call, index, number):
        if number % 2:
            yield
            if self.exchange(self.numbers + index, number, number + 1) == number:
                call.tells("hidden", index)

    # Stores the two words of a value and raises the element number, by which the value stands there, and then
    # the number of changes.
    def places(self, call, index, value):
        for at, word in enumerate(halves(value)):
            yield
            self.words[self.values + 2 * index + at] = word
        yield
        self.words[self.numbers + index] += 1
        if self.words[self.numbers + index] % 2:
            call.tells("placed", index, value)
        yield from self.changed()

    # Raises the number of changes, by which looks find that something is new.
    def changed(self):
        yield
        self.words[self.changes] += 1

    def copied(self, call, index, number):
        """A copy of what stands under an odd number. It answers the number found: another one if it has changed."""
        words = []
        for at in range(2):
            yield
            words.append(self.words[self.values + 2 * index + at])
        yield
        found = self.exchange(self.numbers + index, number, number)
        if found == number:
            call.copy = whole(*words)
            call.tells("copied", index, call.copy)
        return found

    # Takes an index for the owner, and puts the value there. Answers why there is no index.
    def add(self, call, value, owner):
        index = yield from self.acquired(call, owner)
        if isinstance(index, str):
            return index
        number = yield from self.number(index)
        yield from self.hides(call, index, number)
        yield from self.places(call, index, value)
        return index

    # Frees the index of this owner, and then hides its value, if it is still the one that stood there.
    def remove(self, call, index, owner, mode):
        if index >= self.capacity:
            yield NOTHING
            return self.stranger
        number = yield from self.number(index)
        answer = yield from self.released(call, index, owner, mode)
        if answer != self.stranger:
            yield from self.hides(call, index, number)
            yield from self.changed()
        return answer

    # Puts another value at an index of this owner. A handle of another owner is refused in a turn that
    # changes no word.
    def replace(self, call, index, value, owner):
        yield NOTHING if index >= self.capacity else None
        if index >= self.capacity or self.words[CELLS + index] != owner:
            return self.stranger
        number = yield from self.number(index)
        yield from self.hides(call, index, number)
        yield from self.places(call, index, value)
        return "done"

    # Copies each value of the owner, and asks after each whether to go on.
    def find(self, call, owner):
        found = 0
        for index in range(self.capacity):
            yield
            if self.words[CELLS + index] == owner:
                found += 1
                number = yield from self.number(index)
                if number % 2 and (yield from self.copied(call, index, number)) == number and not (yield ASKS):
                    break
        return found

    def shown(self, call, index, owner):
        """Whether the index is to be freed, and the element number."""
        number = yield from self.number(index)
        while number % 2:
            found = yield from self.copied(call, index, number)
            if found == number:
                return (yield from self.asks(call, index, owner)), number
            number = found
        call.tells("shown", index)
        return True, number

    def recover(self, call, owner, mode):
        answer = yield from self.recovered(call, owner, mode)
        yield from self.changed()
        return answer

    # Asks about each value of the dead owner, and frees those that are answered with yes. Answers whether the
    # container is locked.
    def recovered(self, call, owner, mode):
        yield
        if self.words[COUNTER] == LOCKED:
            return "Locked"
        for index in range(self.capacity):
            yield
            if self.words[CELLS + index] != owner:
                continue
            is_free, number = yield from self.shown(call, index, owner)
            if not is_free:
                continue
            yield
            if self.empties(call, index, owner):
                yield from self.hides(call, index, number)
                if not (yield from self.raised()):
                    return "Locked"
                if mode == "lock":
                    yield from self.locked(call)
        yield
        return "Locked" if self.words[COUNTER] == LOCKED else "Unlocked"

    def updated(self, call, state):
        """Whether the state was brought up to date, because something has changed."""
        yield
        is_old = self.words[self.changes] != state.changes
        state.changes = self.words[self.changes]
        for index in range(self.capacity * is_old):
            number = yield from self.number(index)
            while number != state.numbers[index]:
                state.numbers[index] = number
                state.shown.pop(index, None)
                if number % 2:
                    number = yield from self.copied(call, index, number)
                    if number == state.numbers[index]:
                        state.shown[index] = call.copy
        self.looks.append(dict(state.shown))
        return is_old

    def state(self, party):
        return self.states[party].shown

    def update_state(self, call):
        return self.updated(call, self.states[call.party])

    def get_state(self, call):
        state = self.states[call.party] = State(self.capacity)
        yield from self.updated(call, state)
        return len(state.shown)

    def len(self, _):
        return (yield from self.counted())[0] or 0

    def is_empty(self, _):
        return not (yield from self.counted())[0]
