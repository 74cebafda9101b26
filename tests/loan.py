"""The loan channel: a unique index set, an overflowing queue of what was sent, and an index queue of what comes back.

Party 0 is the sender. The receiver is party 1 and, once it is dead and a `reclaim` has ended, the next one."""
from indices import UniqueIndexSet
from machine import Machine, Refused, some
from queues import IndexQueue, OverflowingQueue

# The calls of the receiver, and the calls about an index that their party has to hold.
RECEIVES = ("receive", "give_back")
OF_INDEX = ("send", "give_up", "give_back")


class Completion(IndexQueue):
    """Its values return, and it has no acts of its own."""

    comes, leaves = "returned", "taken_back"

    def acted(self, call, answer):
        pass


# The channel: three structures whose words stand one after another. Its calls are made of theirs. `holders`
# has the indices that a party holds, and `sent` those that were sent and not freed.
class LoanChannel(Machine):
    has_owners = is_own = True

    # Only its parts have words of their own.
    def __init__(self, slots, queue, parties):
        super().__init__(parties, [])
        self.slots, self.receiver = slots, 1
        self.free = UniqueIndexSet(slots, 0)
        self.submission, self.completion = OverflowingQueue(queue, 0), Completion(slots, 0)
        self.holders, self.sent = self.free.holders, set()

    def all_words(self):
        return self.free.words + self.submission.words + self.completion.words

    # Refuses a call of a party that is not its sender or receiver, about an index that does not exist or that
    # the party does not hold, of a dead party, and a `reclaim` while the receiver lives.
    def permits(self, call):
        if call.name in OF_INDEX and call.given[0] >= self.slots:
            raise Refused("BadIndex")
        if call.party != (self.receiver if call.name in RECEIVES else 0):
            raise Refused("NoRole")
        if call.name in OF_INDEX and self.holders.get(call.given[0]) != call.party:
            raise Refused("NotHeld")
        self.stops(call)
        if call.name == "reclaim" and self.receiver not in self.dead:
            raise Refused("OwnerLives")

    def stops(self, call):
        if call.party in self.dead:
            raise Refused("OwnerIsDead")

    # Frees an index that was sent or loaned.
    def released(self, call, index):
        self.sent.discard(index)
        yield from self.free.released(call, index, "default")

    def loan(self, call):
        index = yield from self.free.acquired(call)
        if not isinstance(index, str):
            self.holders[index] = 0
        return index

    def give_up(self, call, index):
        del self.holders[index]
        yield from self.released(call, index)
        return "done"

    # Sends an index that the sender holds, and frees the one that the full queue hands back.
    def send(self, call, index):
        del self.holders[index]
        self.sent.add(index)
        back = yield from self.submission.pushed(call, index)
        if back is not None:
            yield from self.released(call, back)
        return some(back)

    def receive(self, call):
        index = yield from self.submission.popped(call)
        if index is not None:
            self.holders[index] = call.party
        return some(index)

    def give_back(self, call, index):
        del self.holders[index]
        return self.completion.pushed(call, index)

    def take_back(self, call):
        index = yield from self.completion.popped(call)
        if index is not None:
            yield from self.released(call, index)
        return some(index)

    # Pops a queue until nothing waits.
    def drained(self, queue, call):
        while (yield from queue.popped(call)) is not None:
            pass

    # Empties both queues of a dead receiver, and frees all that was sent, ascending. From then on the next
    # party receives.
    def reclaim(self, call):
        yield from self.drained(self.submission, Silent(call))
        yield from self.drained(self.completion, call)
        number = len(self.sent)
        for index in sorted(self.sent):
            yield from self.released(call, index)
        self.receiver += 1
        return number


class Silent:
    """A reclaim prints what it hands out, but no acts."""

    def __init__(self, call):
        self.tells = call.tells

    def acts(self, answer):
        return answer
