"""Readings of what is printed that know no steps: what each structure promises of acts, effects and answers."""


class Broken(Exception):
    """Its argument is the promise that is broken."""


# Raises the promise as broken where `is_so` is false.
def want(is_so, promise):
    if not is_so:
        raise Broken(promise)


class Span:
    """A party's latest call, with what it has done and what stood in it."""

    def __init__(self, call, stands):
        self.call, self.name, *self.given = call, *((int(it) if it.isdecimal() else it) for it in call.split())
        self.is_open, self.acted, self.did = True, [], []
        # `ever` is what stood at some moment of the call, `always` what stood at each of its moments, and
        # `since` what stood at a moment after it took something away.
        self.ever, self.always, self.since = set(stands), set(stands), set()

    def done(self, *whats):
        """What it has done of these sorts."""
        return [it[1:] for it in self.did if it[0] in whats]

    @property
    def may_lock(self):
        return "lock" in self.given


NO_SPAN = Span("none", ())
NO_SPAN.is_open = False


class Reading:
    """Takes one line after another. A kind has a method for each sort of line, `acts` if its calls act, and `ends`."""

    acting = ()

    def __init__(self, capacity, _, machine):
        self.capacity, self.machine, self.spans, self.stands, self.is_locked = capacity, machine, {}, set(), False

    # Takes a line that was printed: a begin, an act, an end, or something that a call did. It checks what
    # holds of any kind, calls the method of the line's sort, and brings each span up to date.
    def take(self, line):
        words = line.split()
        if words[0] == "refused":
            return
        if words[0] == "died":
            self.died(int(words[1]))
        else:
            party, what = int(words[0]), words[1]
            if what == "begun":
                want(not self.span(party).is_open, "calls of a party do not overlap")
                self.spans[party] = Span(" ".join(words[2:]), self.stands)
                self.begun(party, self.spans[party])
            elif what in ("acted", "finished"):
                call, answer = " ".join(words[2:]).split(" -> ")
                span = self.span(party)
                want(span.is_open and span.call == call, "a call acts and ends within its span")
                (self.act if what == "acted" else self.end)(party, span, answer)
            else:
                span, numbers = self.span(party), [int(it) for it in words[2:]]
                want(span.is_open, "a call does something within its span")
                getattr(self, what)(party, span, *numbers)
                span.did.append((what, *numbers))
        for span in self.spans.values():
            span.ever |= self.stands
            span.always &= self.stands
            span.since |= self.stands

    def span(self, party):
        return self.spans.get(party, NO_SPAN)

    def begun(self, party, span):
        pass

    # A call takes effect: it may do so once, and with the answer that the list or the value of the kind
    # gives.
    def act(self, _, span, answer):
        want(span.name in self.acting and not span.acted, "pushes, pops, stores and loads act, and once")
        want(self.acts(span) == answer, "acts answer as those of one list or one value")
        span.acted.append(answer)

    def end(self, party, span, answer):
        want(span.acted == ([answer] if span.name in self.acting else []), "a call acts with what it answers")
        self.ends(party, span, answer)
        span.is_open = False

    def ended(self):
        """After the last line."""


def said(is_so):
    return "true" if is_so else "false"


class RolesReading(Reading):
    """Of a structure with roles, each of which one party has at a time."""

    def __init__(self, *given):
        super().__init__(*given)
        self.holders = {}

    # The promises about roles, as a call on a role ends.
    def ends(self, party, span, answer):
        verb, _, role = span.name.partition("_")
        if role in ("producer", "consumer"):
            want(not span.did, "a call on a role does nothing else")
            if verb == "release":
                want(self.holders.pop(role, None) == party, "who has a role gives it back")
            else:
                is_held = role in self.holders
                want(answer == said(is_held == (verb == "has")), "a role is granted, and looked at, as it is as the call ends")
                if verb == "acquire" and not is_held:
                    self.holders[role] = party


# The promises of a bounded queue. `list` is the list by the acts, and `waits` what was published and not
# handed out.
class QueueReading(RolesReading):
    acting = ("push", "pop")
    overflows = False

    def __init__(self, *given):
        super().__init__(*given)
        # The list by the acts, and what was published and not handed out.
        self.list, self.waits = [], []
        self.stands = {0}  # (how many wait)

    # What a push or pop that takes effect now has to answer, by the list of the acts.
    def acts(self, span):
        if span.name == "pop":
            want(self.list or not self.waits or self.overflows, "a pop finds nothing where nothing waits")
            return f"some {self.list.pop(0)}" if self.list else "none"
        has_room = len(self.list) < self.capacity
        if has_room or self.overflows:
            self.list.append(span.given[0])
        else:
            want(len(self.waits) == self.capacity, "a push answers false where the queue is full")
        if self.overflows:
            return "none" if has_room else f"some {self.list.pop(0)}"
        return said(has_room)

    def published(self, _, span, value):
        want(span.name == "push" and span.given[0] == value, "a push publishes its value")
        self.waits.append(value)
        self.stands = {len(self.waits)}

    def handed_out(self, _, span, value):
        want(span.name == "pop" or span.name == "push" and self.overflows, "a pop or an overflowing push hands out")
        want(self.waits and self.waits.pop(0) == value, "what is handed out is the oldest that was published")
        self.stands = {len(self.waits)}

    # The promises about what a call did and answers, as it ends.
    def ends(self, party, span, answer):
        super().ends(party, span, answer)
        if span.name == "push" and self.capacity:
            want(len(span.done("published")) == (answer != "false"), "a push publishes once, unless it answers false")
        if span.name in ("push", "pop") and self.capacity:
            handed_out = [f"some {value}" for (value,) in span.done("handed_out")]
            want(handed_out == [answer] * answer.startswith("some"), "a call answers what it handed out")
        if span.name == "len":
            want(int(answer) in span.ever, "so many waited at a moment of the call")
        if span.name in ("is_empty", "is_full"):
            number = 0 if span.name == "is_empty" else self.capacity
            is_so = number in span.ever if answer == "true" else span.ever - {number}
            want(is_so, "a question is answered as was so at a moment of the call")
        if span.name == "peek":
            want(not span.did, "a look does nothing")
            oldest = f"some {self.waits[0]}" if self.waits else "none"
            want(answer == oldest, "a peek answers the oldest value that waits as it ends")

    def ended(self):
        want(self.list == self.waits[: self.capacity], "the list by the acts is what waits")


# The promises of an overflowing queue: a full queue hands its oldest value out to the push.
class OverflowReading(QueueReading):
    overflows = True


# The promises of the single value: a load answers what was stored last, and a version counts the stores.
class ValueReading(RolesReading):
    acting = ("store", "load")
    value = stores = 0

    def acts(self, span):
        if span.name == "load":
            return str(self.value)
        self.value, self.stores = span.given[0], self.stores + 1
        return "true"

    def ends(self, party, span, answer):
        super().ends(party, span, answer)
        if span.name == "version":
            want(int(answer) == self.stores + 1, "a version is 1 more than the number of stores as the look ends")


# The promises of a bit set. `stands` has the places that are set.
class BitsReading(Reading):
    def set(self, _, span, place):
        want(span.name == "set" and span.given == [place], "a set sets its own flag")
        want(place < self.capacity and place not in self.stands, "a flag is set that was clear")
        self.stands.add(place)

    def cleared(self, _, span, place):
        want(span.name in ("reset_next", "reset_all"), "a reset clears")
        want(place in self.stands, "a flag is cleared that was set")
        self.stands.discard(place)
        span.always.discard(place)

    # The promises about what a call did and answers, as it ends.
    def ends(self, _, span, answer):
        cleared = [place for (place,) in span.done("cleared")]
        if span.name == "set":
            want(len(span.done("set")) == (answer == "true"), "a set answers true where it set")
            want(answer == "true" or span.given[0] in span.ever, "a set answers false where the flag was set")
        elif span.name == "is_set":
            want(not span.did, "a look does nothing")
            want((span.given[0] in self.stands) == (answer == "true"), "a look answers whether its flag stands as it ends")
        elif answer.startswith("some"):
            want([f"some {it}" for it in cleared] == [answer], "a reset answers what it cleared")
        else:
            want(not span.always, "what was set as a reset began was cleared since")
            want(span.name == "reset_all" or not cleared, "none where nothing was cleared")


# The promises of a counting bit set. `stands` has the places whose count is not 0.
class CountsReading(Reading):
    def __init__(self, *given):
        super().__init__(*given)
        self.counts = [0] * self.capacity

    # A set adds 1 to its own place; what was there before is noted for its answer.
    def counted(self, _, span, place):
        want(span.name == "set" and span.given == [place], "a set counts its own place")
        want(place < self.capacity, "a place below the capacity is counted")
        span.before = self.counts[place]
        self.counts[place] += 1
        self.stands.add(place)

    def taken_out(self, _, span, place, number):
        want(span.name == "reset_all", "a reset takes counts out")
        want(self.counts[place] == number > 0, "what is taken out was counted")
        self.counts[place] = 0
        self.stands.discard(place)

    # The promises about what a call did and answers, as it ends.
    def ends(self, _, span, answer):
        if span.name == "set":
            want(len(span.did) == 1 and str(span.before) == answer, "a set answers the count before it")
        elif span.name == "count":
            want(not span.did, "a look does nothing")
            want(str(self.counts[span.given[0]]) == answer, "a look answers the count of its place as it ends")
        else:
            want(not span.always, "what was counted as a reset began was taken out since")


# The promises of a unique index set. `stands` has the indices that are claimed.
class IndicesReading(Reading):
    def claimed(self, _, span, index):
        want(span.name == "acquire", "an acquire claims")
        want(not self.is_locked, "nothing is claimed once the set is locked")
        want(index < self.capacity and index not in self.stands, "an index is claimed that is free")
        self.stands.add(index)

    def freed(self, _, span, index):
        want(span.name == "release" and span.given[0] == index, "a release frees its own index")
        want(index in self.stands, "an index is freed that was claimed")
        self.stands.discard(index)

    def locked(self, _, span):
        want(not self.is_locked, "the lock comes once")
        want(not self.stands, "no index is held where the set is locked")
        want(span.may_lock and span.done("freed"), "who locks has freed an index in that mode")
        self.is_locked = True

    def in_use(self):
        """How many indices are claimed, being taken or being given back."""
        spans = [span for span in self.spans.values() if span.is_open]
        taking = sum(span.name == "acquire" and not span.did for span in spans)
        return len(self.stands) + taking + sum(bool(span.done("freed")) for span in spans)

    # The promises about what a call did and answers, as it ends.
    def ends(self, _, span, answer):
        if span.name == "acquire":
            claimed = [str(index) for (index,) in span.done("claimed")]
            want(claimed == [answer] * answer.isdecimal(), "an acquire answers what it claimed")
            # The call itself counts as one that uses an index.
            want(answer != "OutOfIndices" or self.in_use() > self.capacity, "as many are in use as there are")
            want(answer != "IsLocked" or self.is_locked, "IsLocked once the set is locked")
        elif span.name == "release":
            want(len(span.done("freed")) == 1, "a release frees once")
            want(bool(span.done("locked")) == (answer == "Locked"), "a release answers Locked where it has locked")
            want(answer == "Locked" or not span.may_lock or self.in_use() > 1, "Unlocked where another is in use")
        elif span.name == "is_locked":
            want(said(self.is_locked) == answer, "is_locked answers what is so")
        else:
            want(int(answer) <= self.in_use(), "at most as many are borrowed as are in use")
