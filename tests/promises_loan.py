"""What a loan channel promises: each index is in one place, goes from place to place as the calls move it, and in order."""
from promises import Reading, want

# From which place to which an index goes, for each sort of event and the call that causes it. The places
# `with` and `passing` belong to a party.
MOVES = {
    ("begun", "send"): ("with", "passing"),
    ("begun", "give_up"): ("with", "passing"),
    ("begun", "give_back"): ("with", "passing"),
    ("claimed", "loan"): ("free", "passing"),
    ("published", "send"): ("passing", "sent"),
    ("handed_out", "send"): ("sent", "passing"),
    ("handed_out", "receive"): ("sent", "passing"),
    ("handed_out", "reclaim"): ("sent", "passing"),
    ("returned", "give_back"): ("passing", "returned"),
    ("taken_back", "take_back"): ("returned", "passing"),
    ("taken_back", "reclaim"): ("returned", "passing"),
    ("freed", "send"): ("passing", "free"),
    ("freed", "give_up"): ("passing", "free"),
    ("freed", "take_back"): ("passing", "free"),
    ("freed", "reclaim"): ("passing", "free"),
}
# What a call does for each answer: what it claims, publishes, hands out, returns, takes back and frees, of its own index or
# of the one that it answers.
DOES = {
    ("loan", "index"): [("claimed", "said")],
    ("loan", "OutOfIndices"): [],
    ("send", "none"): [("published", "own")],
    ("send", "some"): [("published", "own"), ("handed_out", "said"), ("freed", "said")],
    ("give_up", "done"): [("freed", "own")],
    ("take_back", "some"): [("taken_back", "said"), ("freed", "said")],
    ("take_back", "none"): [],
    ("receive", "some"): [("handed_out", "said")],
    ("receive", "none"): [],
    ("give_back", "true"): [("returned", "own")],
}
# What a reclaim does, in this order.
RECLAIMS = ["handed_out", "taken_back", "freed"]


# The promises of a loan channel. `places` has the place of each index.
class LoanReading(Reading):
    acting = ("send", "receive")

    def __init__(self, slots, queue, _, machine):
        super().__init__(queue, 0, machine)
        self.places, self.receiver, self.dead = ["free"] * slots, 1, set()
        # The list by the acts, what was published and not handed out, and what was returned and not taken
        # back.
        self.list, self.sent, self.returns = [], [], []

    # After each line an index that a party has may only be with the sender or the receiver, and one in
    # passing only in a call under way.
    def take(self, line):
        super().take(line)
        for place in self.places:
            if isinstance(place, tuple):
                want(place[1] in (0, self.receiver), "the sender or the receiver has an index, and nobody else")
                want(place[0] == "with" or self.span(place[1]).is_open, "an index is in passing in a call under way")

    def died(self, owner):
        want(owner not in self.dead, "a party dies once")
        self.dead.add(owner)

    # Moves an index as the call of this name may move it. A reclaim may also take what the dead receiver had.
    def moves(self, what, party, span, index):
        wanted = MOVES.get((what, span.name))
        want(wanted, "a call moves an index as calls of its name do")
        at, to = ((it, party) if it in ("with", "passing") else it for it in wanted)
        is_left = span.name == "reclaim" and self.receiver in self.dead
        left = [("with", self.receiver), ("passing", self.receiver)] * is_left
        want(self.places[index] in [at, *left], "an index is where the call takes it from")
        self.places[index] = to

    def begun(self, party, span):
        if ("begun", span.name) in MOVES:
            self.moves("begun", party, span, span.given[0])

    def acts(self, span):
        if span.name == "send":
            self.list.append(span.given[0])
            return "none" if len(self.list) <= self.capacity else f"some {self.list.pop(0)}"
        return f"some {self.list.pop(0)}" if self.list else "none"

    def claimed(self, party, span, index):
        self.moves("claimed", party, span, index)

    def published(self, party, span, index):
        self.moves("published", party, span, index)
        self.sent.append(index)

    def handed_out(self, party, span, index):
        self.moves("handed_out", party, span, index)
        want(self.sent.pop(0) == index, "the oldest that was sent is handed out")
        if span.name == "reclaim":
            want(self.list.pop(0) == index, "a reclaim acts as pops of that list")

    def returned(self, party, span, index):
        self.moves("returned", party, span, index)
        self.returns.append(index)

    def taken_back(self, party, span, index):
        self.moves("taken_back", party, span, index)
        want(self.returns.pop(0) == index, "the oldest that was returned is taken back")

    def freed(self, party, span, index):
        self.moves("freed", party, span, index)

    # The promises about what a call moved and answers, as it ends.
    def ends(self, party, span, answer):
        if span.name == "reclaim":
            return self.ends_reclaim(span, answer)
        sort, _, number = answer.partition(" ")
        index = int(number or sort) if (number or sort).isdecimal() else None
        does = DOES.get((span.name, "index" if sort.isdecimal() else sort))
        want(does is not None, "a call answers as calls of its name do")
        wanted = [(what, index if of == "said" else span.given[0]) for what, of in does]
        want(span.did == wanted, "a call moves its own index, or the one that it answers")
        if span.name in ("loan", "receive") and index is not None:
            want(self.places[index] == ("passing", party), "a call answers what it has")
            self.places[index] = ("with", party)
        want(answer != "OutOfIndices" or "free" not in self.places, "a loan fails where no index is free")
        is_empty = span.name == "take_back" and answer == "none"
        want(not is_empty or not self.returns, "a take-back of nothing finds nothing returned")

    # The promises about a reclaim, as it ends: it takes all that was sent, and leaves nothing in a queue.
    def ends_reclaim(self, span, answer):
        sorts = [RECLAIMS.index(it[0]) for it in span.did]
        freed = [index for (index,) in span.done("freed")]
        want(sorts == sorted(sorts) and freed == sorted(freed), "a reclaim hands out, takes back and then frees, ascending")
        want(answer == str(len(freed)), "a reclaim answers how many it freed")
        want(set(self.places) <= {"free", ("with", 0)}, "after a reclaim each index is free or with the sender")
        want(not self.sent and not self.returns, "after a reclaim nothing waits in a queue")
        self.receiver += 1

    def ended(self):
        want(self.list == self.sent[: self.capacity], "the list by the acts is what waits")
