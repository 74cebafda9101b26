"""What a robust set and a container promise. Some of it holds in a well-formed run alone, in which an index is given back,
or its value replaced, by one call at a time, and after the call has ended by which it was acquired."""
from promises import Reading, said, want

# The calls that give an index back, or replace its value.
GIVES_BACK = ("release", "remove", "replace")
# For each call, after which of its events each further one may come at the same index; "" is the begin of the
# call.
ORDER = {
    "add": {"filled": [""], "granted": ["filled"], "hidden": ["granted"], "placed": ["granted", "hidden"]},
    "acquire": {"filled": [""], "granted": ["filled"]},
    "remove": {"freed": [""], "locked": ["freed"], "hidden": ["freed", "locked"]},
    "release": {"freed": [""], "locked": ["freed"]},
    "replace": {"hidden": [""], "placed": ["", "hidden"]},
}
# What a call does at one index after another, ascending.
ROUNDS = {
    "find": ("copied",),
    "get_state": ("copied",),
    "update_state": ("copied",),
    "recover": ("copied", "shown", "asked", "told", "freed", "hidden", "locked"),
}


# The promises of a robust set and of a container. `is_well_formed` becomes false once the run is none, and
# promises that need it are not asked from then on.
class OwnersReading(Reading):
    def __init__(self, *given):
        super().__init__(*given)
        # The owner at each index: who has filled it, who holds it, and whose call has ended by which it was
        # acquired.
        self.filled_by, self.held_by, self.settled, self.dead, self.is_well_formed = {}, {}, {}, set(), True
        self.values, self.stays, self.copies, self.now = {}, [], {}, 0

    # Brings what is known of each call up to date after a line: what its owner had at a moment and at each
    # moment, and where a value stood.
    def take(self, line):
        super().take(line)
        self.now += 1
        for span in self.spans.values():
            span.gone |= {index for (index, _) in span.done("freed")} - set(self.values)
            span.stood &= set(self.values)
            span.bare |= set(range(self.capacity)) - set(self.values)
            its = {index for index, owner in self.filled_by.items() if owner == span.owner}
            span.its |= its
            span.its_always &= its
            span.still_its &= its | {index for (index, _) in span.done("freed")}
            span.was_unlocked |= not self.is_locked
            if span.name == "replace" and span.is_open and not span.is_settled and span.index in its:
                self.is_well_formed = False  # (it may find its owner)

    def died(self, owner):
        want(owner not in self.dead, "an owner dies once")
        self.dead.add(owner)

    # Notes the owner and the index of a call that begins, whether it is alone, and whether the index was
    # acquired by a call that has ended.
    def begun(self, party, span):
        places = {"acquire": 0, "add": 1, "release": 1, "remove": 1, "replace": 2, "find": 0, "recover": 0}
        span.index = span.given[0] if span.name in GIVES_BACK else None
        span.owner = span.given[places[span.name]] if span.name in places else None
        span.begun, span.index_at, span.was_unlocked = self.now, None, False
        span.gone, span.bare, span.its = set(), set(), set()
        span.stood, span.its_always, span.still_its = (set(range(self.capacity)) for _ in range(3))
        others = [it for it in self.spans.values() if it.is_open and it is not span]
        span.is_alone = not others
        for it in others:
            it.is_alone = False
        span.is_settled = True
        if span.name in GIVES_BACK:
            span.is_settled = self.settled.get(span.index) == span.owner
            if any(it.name == "replace" and (it.index, it.owner) == (span.index, span.owner) for it in others):
                self.is_well_formed = False
            if span.name != "replace" and span.is_settled:
                del self.settled[span.index]

    def wants_formed(self, is_so, promise):
        want(is_so or not self.is_well_formed, promise)

    def does(self, span, what, index):
        """Whether the call may do this next."""
        latest = span.did[-1][0] if span.did else ""
        index = span.index_at if index is None else index
        want(span.index in (None, index) and index < self.capacity, "a call does something at its own index")
        if span.name in ROUNDS:
            want(what in ROUNDS[span.name], "a call does what is its own")
            want(span.index_at is None or span.index_at <= index, "a call goes from index to index, ascending")
        else:
            want(latest in ORDER.get(span.name, {}).get(what, []), "a call does all in its order")
            want(span.index_at in (None, index), "a call does all at one index")
        span.index_at = index

    # An acquire or an `add` has filled a cell, for its own living owner, and has begun before the lock.
    def filled(self, _, span, index, owner):
        self.does(span, "filled", index)
        want(span.owner == owner and owner not in self.dead, "an index is filled for the owner of the call, who lives")
        want(index not in self.filled_by, "an index is filled that was empty")
        want(span.was_unlocked, "who fills has begun before the lock")
        self.filled_by[index] = owner
        self.stands.add(index)

    # The index is granted to the owner, before the lock. In a well-formed run nobody holds it.
    def granted(self, _, span, index, owner):
        self.does(span, "granted", index)
        want(span.owner == owner and owner not in self.dead, "an index is granted to the owner of the call, who lives")
        want(not self.is_locked, "nothing is granted once the set is locked")
        self.wants_formed(index not in self.held_by, "no index is granted that is held")
        self.held_by[index] = owner

    # A cell is emptied: by a call of its owner, who lives, or by a recovery of a dead owner that was told to.
    def freed(self, _, span, index, owner):
        self.does(span, "freed", index)
        want(self.filled_by.pop(index, None) == owner, "an index is freed that was the owner's")
        if span.name == "recover":
            want(owner in self.dead, "a recovery frees for the dead")
            want((index, owner) in span.done("told") or (index,) in span.done("shown"), "it frees what it was told to")
        else:
            want(span.owner == owner and owner not in self.dead, "a call frees for its owner, who lives")
        self.held_by.pop(index, None)
        self.settled.pop(index, None)
        self.stands.discard(index)
        span.since = set()
        self.is_well_formed &= span.is_settled

    # The set is locked, once, by a call in that mode that has freed an index. In a well-formed run no index
    # is held.
    def locked(self, _, span):
        self.does(span, "locked", None)
        want(not self.is_locked and span.may_lock, "the lock comes once, by a call in that mode")
        want(span.done("freed"), "who locks has freed an index")
        self.wants_formed(not self.held_by, "no index is held where the set is locked")
        self.is_locked = True

    # A recovery asks about an index that its owner has filled, once, and only if it began before the lock.
    def asked(self, _, span, index, owner):
        self.does(span, "asked", index)
        want(span.was_unlocked, "a recovery asks before the lock")
        if span.owner in (owner, "default", "lock"):
            want(index in span.its or self.filled_by.get(index) == owner, "it asks about what its owner filled")
        want((index,) not in [it[:1] for it in span.done("asked")], "it asks about an index once")

    def told(self, _, span, index, owner):
        self.does(span, "told", index)
        want(owner in self.dead, "a recovery is told to free what a dead owner had")
        want(span.did[-1] == ("asked", index, owner), "it is told what it has just asked")

    # A value is placed that the call was given, in a well-formed run where none stands.
    def placed(self, party, span, index, value):
        self.does(span, "placed", index)
        want(value in span.given, "an add or a replace places its own value")
        self.wants_formed(index not in self.values, "a value is placed where none stands")
        self.values[index] = value
        self.stays.append({"party": party, "index": index, "value": value, "settled": None, "hidden": None})

    # A value is hidden, in a well-formed run one that stands.
    def hidden(self, _, span, index):
        self.does(span, "hidden", index)
        self.wants_formed(index in self.values, "a value is hidden that stands")
        self.values.pop(index, None)
        for stay in self.stays:
            if stay["index"] == index and stay["hidden"] is None:
                stay["hidden"] = self.now

    def copied(self, party, span, index, value):
        self.does(span, "copied", index)
        self.wants_formed(self.values.get(index) == value, "what is copied stands there, whole")
        want(span.name != "find" or index in span.its, "a find copies what its owner filled")
        self.copies.setdefault(party, set()).add((index, value))

    def shown(self, _, span, index):
        self.does(span, "shown", index)
        self.wants_formed(index not in self.values, "a recovery is shown that nothing stands")
        want(index in span.its, "it is shown what its owner filled")

    def ends(self, party, span, answer):
        getattr(self, f"ends_{span.name}")(party, span, answer)
        left = {index for (index, _) in span.done("freed")} - span.gone - (set(range(self.capacity)) - set(self.values))
        self.wants_formed(not left, "what stood where it freed is hidden")
        for stay in self.stays:
            if stay["party"] == party and stay["settled"] is None:
                stay["settled"] = self.now
        if span.name in ("acquire", "add") and answer.isdecimal() and int(answer) in self.filled_by:
            self.settled[int(answer)] = self.filled_by[int(answer)]

    def ends_acquire(self, _, span, answer):
        filled = [str(index) for (index, _) in span.done("filled")]
        if answer.isdecimal():
            want(filled == [answer] and len(span.done("granted")) == 1, "an acquire answers what it was granted")
        elif answer == "IsLocked":
            want(self.is_locked and not span.done("granted"), "IsLocked once the set is locked")
        else:
            want(not filled and len(span.ever) == self.capacity, "each was filled at a moment of the call")

    # An add answers as an acquire, and has placed its value where it answers an index.
    def ends_add(self, party, span, answer):
        self.ends_acquire(party, span, answer)
        if answer.isdecimal():
            self.wants_formed(len(span.done("placed")) == 1, "an add has placed its value")

    # A release or remove that is refused does nothing, and is refused rightly. Another one has freed its
    # index once.
    def ends_release(self, _, span, answer):
        if answer.endswith(("NotOwnedByProvidedOwner", "NotOwnedByContainer")):
            want(not span.did, "what is refused does nothing")
            want(self.filled_by.get(span.index) != span.owner, "it is refused where the index is not its owner's")
            return
        want(len(span.done("freed")) == 1, "a call frees its index")
        self.ends_lock(span, answer)

    ends_remove = ends_release

    # The promises about the lock in what a release, a remove or a recovery answers.
    def ends_lock(self, span, answer):
        if answer == "Locked":
            want(self.is_locked, "Locked once the set is locked")
        else:
            is_recover, may_lock = span.name == "recover", span.may_lock and span.done("freed")
            want(is_recover or not span.done("locked"), "a release answers Locked where it has locked")
            want(span.was_unlocked or not (is_recover or may_lock), "Unlocked where it was so at a moment of the call")
            want(not may_lock or span.since, "Unlocked where another was filled since")

    # A replace is done where its owner has the index, and fails where not.
    def ends_replace(self, _, span, answer):
        if answer == "done":
            want(span.index in span.its, "a replace is done where the index was its owner's")
            self.wants_formed(len(span.done("placed")) == 1, "a replace has placed its value")
        else:
            is_not_its = self.filled_by.get(span.index) != span.owner
            want(not span.did and is_not_its, "a replace fails where the index is not its owner's")

    def ends_find(self, _, span, answer):
        want(int(answer) <= len(span.its), "a find counts what its owner filled")

    # A recovery that leaves the set unlocked has asked about, or was shown, all that its owner kept, and left
    # nothing that it was told to free.
    def ends_recover(self, _, span, answer):
        self.ends_lock(span, answer)
        told = {(index, owner) for index, owner in span.done("told")}
        told |= {(index, span.owner) for (index,) in span.done("shown")}
        if answer == "Unlocked":
            want(not told & set(self.filled_by.items()), "nothing that it was told of or shown is left")
            seen = {it[0] for it in span.done("asked", "shown")}
            stayed = span.still_its if isinstance(span.owner, int) else span.always
            want(stayed <= seen, "it asked about or was shown all that stayed")

    # A number of indices that are out was right at a moment of the call; it is 0 once the set is locked.
    def ends_len(self, _, span, answer):
        is_so = answer == "0" if self.is_locked else len(span.always) <= int(answer) <= len(span.ever)
        want(is_so, "so many were filled at a moment of the call")

    ends_borrowed_indices = ends_len

    def ends_is_empty(self, _, span, answer):
        is_so = self.is_locked or not span.always if answer == "true" else not self.is_locked and span.ever
        want(is_so, "is_empty answers what was so at a moment of the call")

    def ends_is_locked(self, _, span, answer):
        want(said(self.is_locked) == answer, "is_locked answers what is so")

    # A new state shows just what the call has copied.
    def ends_get_state(self, party, span, answer):
        shown = self.machine.looks.pop(0)
        copied = {index for index, _ in span.done("copied")}
        want(set(shown) == copied and answer == str(len(shown)), "a new state shows what the call has copied")
        self.shows(party, span, shown)

    def ends_update_state(self, party, span, answer):
        shown = self.machine.looks.pop(0)
        want(answer == "true" or not span.done("copied"), "false copies nothing")
        self.shows(party, span, shown)

    def shows(self, party, span, shown):
        """What a state says: it shows what its party has copied, and what was settled as the look began and still stands."""
        want(set(shown.items()) <= self.copies.get(party, set()), "a state shows what its party has copied")
        for stay in self.stays:
            if stay["settled"] is not None and stay["settled"] < span.begun and stay["hidden"] is None:
                self.wants_formed(shown.get(stay["index"]) == stay["value"], "a state shows what was settled and stayed")
        self.wants_formed(not span.is_alone or shown == self.values, "alone a state is the contents")
