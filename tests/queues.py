"""The queues: a write and a read position, a word for each role, which is 1 while it is free, and cells."""
from machine import NOTHING, Machine, Refused, halves, some, whole

# The places of the two positions, of the roles' words and of the first cell; and the role that each call
# needs.
WRITE, READ, PRODUCER, CONSUMER, CELLS = range(5)
NEEDS = dict.fromkeys(("push", "release_producer"), PRODUCER) | dict.fromkeys(("pop", "peek", "release_consumer"), CONSUMER)


class Queue(Machine):
    """Its values are of one word or two, and it may have a cell more than its capacity."""

    width = 1
    spare = 0
    comes, leaves = "published", "handed_out"

    def __init__(self, capacity, parties):
        super().__init__(parties, [0, 0, 1, 1] + [0] * self.width * (capacity + self.spare))
        self.capacity, self.cells, self.holders = capacity, capacity + self.spare, {}

    def permits(self, call):
        if call.name in NEEDS and self.holders.get(NEEDS[call.name]) != call.party:
            raise Refused("NoRole")

    def is_held(self, role, party):
        return self.holders.get(role) == party

    # Takes a role, if it is free, in one step.
    def acquires(self, call, role):
        yield
        if self.exchange(role, 1, 0) != 1:
            return False
        self.holders[role] = call.party
        return True

    def releases(self, role):
        yield
        self.words[role] = 1
        del self.holders[role]
        return "done"

    def acquire_producer(self, call):
        return self.acquires(call, PRODUCER)

    def acquire_consumer(self, call):
        return self.acquires(call, CONSUMER)

    def release_producer(self, _):
        return self.releases(PRODUCER)

    def release_consumer(self, _):
        return self.releases(CONSUMER)

    def looks(self, role):
        yield
        return self.words[role] != 1

    def has_producer(self, _):
        return self.looks(PRODUCER)

    def has_consumer(self, _):
        return self.looks(CONSUMER)

    def cell(self, position):
        """The first word of the cell of a position."""
        return CELLS + self.width * (position % self.cells)

    # Stores the words of a value into the cell of a position, one in each step.
    def put(self, position, value):
        for at, word in enumerate([value] if self.width == 1 else halves(value)):
            yield
            self.words[self.cell(position) + at] = word

    # Loads the words of the cell of a position, one in each step, and answers the value.
    def get(self, position):
        words = []
        for at in range(self.width):
            yield
            words.append(self.words[self.cell(position) + at])
        return words[0] if self.width == 1 else whole(*words)

    def acted(self, call, answer):
        call.acts(answer)

    # Loads both positions, and then stores the value and the next write position, by which it is published;
    # or answers that the queue is full.
    def pushed(self, call, value):
        yield
        write = self.words[WRITE]
        yield
        if write - self.words[READ] == self.capacity:
            self.acted(call, "false")
            return False
        yield from self.put(write, value)
        yield
        self.words[WRITE] = write + 1
        call.tells(self.comes, value)
        self.acted(call, "true")
        return True

    # Loads both positions, and then the value, and stores the next read position, by which it is handed out;
    # or answers that nothing waits.
    def popped(self, call):
        yield
        read = self.words[READ]
        yield
        if self.words[WRITE] == read:
            self.acted(call, "none")
            return None
        value = yield from self.get(read)
        yield
        self.words[READ] = read + 1
        call.tells(self.leaves, value)
        self.acted(call, some(value))
        return value

    def push(self, call, value):
        return self.pushed(call, value)

    def pop(self, call):
        return some((yield from self.popped(call)))

    # Loads both positions and the oldest value, and changes nothing.
    def peek(self, _):
        yield
        read = self.words[READ]
        yield
        if self.words[WRITE] == read:
            return "none"
        return some((yield from self.get(read)))

    def both(self):
        """The positions, once each has been found twice the same."""
        while True:
            yield
            write = self.words[WRITE]
            yield
            read = self.words[READ]
            yield
            if self.words[WRITE] == write:
                yield
                if self.words[READ] == read:
                    return write - read

    def len(self, _):
        return self.both()

    def is_empty(self, _):
        return (yield from self.both()) == 0

    def is_full(self, _):
        return (yield from self.both()) == self.capacity


class IndexQueue(Queue):
    pass


class QueueOfValues(Queue):
    width = 2


class OverflowingQueue(Queue):
    """Has one cell more than its capacity, and no peek. A push that finds it full publishes, and then takes the oldest out,
    unless a pop is faster: that pop acts, and behind it the push."""

    spare = 1
    waits = None  # the push that has published and not acted

    # Publishes the value, and then takes the oldest one out if the queue was full. `waits` notes such a push
    # until it acts.
    def pushed(self, call, value):
        if self.capacity == 0:
            yield NOTHING
            self.acted(call, some(value))
            return value
        yield
        write = self.words[WRITE]
        yield
        read = self.words[READ]
        is_full = write - read == self.capacity
        yield from self.put(write, value)
        yield
        self.words[WRITE] = write + 1
        call.tells(self.comes, value)
        if is_full and self.words[READ] == read:
            self.waits = call
        else:
            self.acted(call, "none")
        return (yield from self.replaced(call, read)) if is_full else None

    def replaced(self, call, read):
        """The oldest value, which the push takes out if it still is at this position."""
        yield
        if self.exchange(READ, read, read + 1) != read:
            return None
        self.waits = None
        oldest = self.words[self.cell(read)]
        call.tells(self.leaves, oldest)
        self.acted(call, some(oldest))
        return (yield from self.get(read))

    # Takes the oldest value out by an exchange of the read position, and begins again where a push was
    # faster. It also lets a push act that waits for this.
    def popped(self, call):
        if self.capacity == 0:
            yield NOTHING
            self.acted(call, "none")
            return None
        yield
        read = self.words[READ]
        yield
        if self.words[WRITE] == read:
            self.acted(call, "none")
            return None
        while True:
            value = yield from self.get(read)
            yield
            found = self.exchange(READ, read, read + 1)
            if found == read:
                break
            read = found
        call.tells(self.leaves, value)
        self.acted(call, some(value))
        if self.waits:
            push, self.waits = self.waits, None
            self.acted(push, "none")
        return value

    def push(self, call, value):
        return some((yield from self.pushed(call, value)))
