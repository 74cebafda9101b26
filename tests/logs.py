"""Judges what threads wrote down of their calls: each has a name, an argument, an answer, and the times between which it was made.

Two calls overlap if neither had ended as the other began. Where one is judged by an order of calls, a call comes before those
that began after it had ended.
"""
from bisect import bisect_left
from collections import Counter, namedtuple

Call = namedtuple("Call", "who name given answer began ended")


def call_of(line):
    """The call of a line that the program prints."""
    who, name, given, answer, began, ended = line.split()
    return Call(int(who), name, int(given), None if answer == "-" else int(answer), int(began), int(ended))


def named(calls, *names):
    return [it for it in calls if it.name in names]


def overlaps(calls):
    """How many pairs of calls of different threads overlapped."""
    number, last = 0, {}
    for it in sorted(calls, key=lambda it: it.began):
        number += sum(it.began < ended for who, ended in last.items() if who != it.who)
        last[it.who] = max(it.ended, last.get(it.who, 0))
    return number


def each_once(calls):
    """Each number that was pushed was popped, handed back or left, once."""
    given = Counter(it.given for it in named(calls, "push"))
    came = Counter(it.answer for it in calls if it.name in ("pop", "left", "push") and it.answer is not None)
    if given != came:
        return f"pushed, but not once out: {sorted((given - came).keys() | (came - given).keys())[:9]}"
    return ""


def in_order(calls):
    """The numbers that were popped have the order in which they were pushed, those that are left follow them, and so do those
    that were handed back."""
    pushed = {it.given: at for at, it in enumerate(sorted(named(calls, "push"), key=lambda it: it.began))}
    for name in ("pop", "push"):
        came = [pushed.get(it.answer) for it in sorted(named(calls, name, "left"), key=lambda it: it.ended) if it.answer is not None]
        if None in came or came != sorted(set(came)):
            return f"{name}: out of order"
    return ""


def each_in_order(calls):
    """What each thread received has the order in which it was sent."""
    for who in {it.who for it in calls}:
        why = in_order([it for it in calls if it.name == "push" or it.who == who])
        if why:
            return why
    return ""


def register(calls, last):
    """Each load of the one value answers what was stored last at a moment of its call, and loads do not go back. A thread that
    loads up to a number ends with that."""
    stores = {it.given: it for it in named(calls, "store")}
    loads = sorted(named(calls, "load"), key=lambda it: it.began)
    ended = sorted((it.ended, it.answer) for it in loads)
    highest, tops = 0, []
    for _, answer in ended:
        highest = max(highest, answer)
        tops.append(highest)
    for it in loads:
        own, after = stores.get(it.answer), stores.get(it.answer + 1)
        if it.answer and (not own or own.began > it.ended) or after and after.ended < it.began:
            return f"load {it.answer} at {it.began} to {it.ended}"
        before = bisect_left(ended, (it.began, -1))
        if before and tops[before - 1] > it.answer:
            return f"load {it.answer} at {it.began} after {tops[before - 1]}"
    if last and {it.who for it in loads if it.answer == last} != {it.who for it in loads}:
        return f"a reader did not see {last}"
    return ""


def is_linear(calls, first, after):
    """Whether the calls have an order in which each answers what `after` says: the next state, or None where the answer would
    be another."""
    logs = [[it for it in calls if it.who == who] for who in sorted({it.who for it in calls})]
    logs = [sorted(log, key=lambda it: it.began) for log in logs]
    goal, seen, left = tuple(map(len, logs)), set(), [(tuple(0 for _ in logs), first)]
    while left:
        at, state = left.pop()
        if at == goal:
            return True
        latest = min(log[place].ended for log, place in zip(logs, at) if place < len(log))
        for who, log in enumerate(logs):
            if at[who] < len(log) and log[at[who]].began <= latest:
                then = after(state, log[at[who]])
                place = (at[:who] + (at[who] + 1,) + at[who + 1 :], then)
                if then is not None and place not in seen:
                    seen.add(place)
                    left.append(place)
    return False


def queue_after(capacity, overflows):
    """What a call on a queue of this capacity does to the tuple of the numbers that wait."""

    def after(waits, it):
        is_full = len(waits) == capacity
        if it.name == "push" and (overflows or not is_full):
            oldest = waits[0] if is_full else None
            return (*waits[is_full:], it.given) if it.answer == oldest else None
        if it.name == "refused":
            return waits if is_full else None
        if it.name == "pop":
            return waits[1:] if it.answer == (waits[0] if waits else None) else None
        return waits if it.name == "len" and it.answer == len(waits) else None

    return after


def value_after(value, it):
    """What a call on the value does to it."""
    if it.name == "store":
        return it.given
    return value if it.answer == value else None


def place_after(counts):
    """What a call does to one place: a flag or a count that is set, taken out and looked at, or an index that is held."""

    def after(stands, it):
        if it.name == "set":
            return (stands + 1 if counts else 1) if it.answer == stands else None
        if it.name == "out":
            return 0 if it.answer == stands else None
        if it.name == "look":
            return stands if it.answer == stands else None
        if it.name in ("take", "give"):
            return 1 - stands if stands == (it.name == "give") else None
        return stands

    return after


def linear(calls, structure, capacity):
    """One order of all calls gives the answers."""
    if structure == "value":
        return "" if is_linear(named(calls, "store", "load"), 0, value_after) else "no order of the calls"
    calls = [it for it in calls if it.name != "left"]
    return "" if is_linear(calls, (), queue_after(capacity, structure == "overflow")) else "no order of the calls"


def place_of(it):
    return it.answer if it.name == "take" else it.given


def places(calls, structure):
    """At each place the calls have an order that gives the answers."""
    calls = [it for it in named(calls, "set", "out", "look", "take", "give") if it.name != "take" or it.answer is not None]
    for place in sorted({place_of(it) for it in calls}):
        if not is_linear([it for it in calls if place_of(it) == place], 0, place_after(structure == "counts")):
            return f"no order of the calls at place {place}"
    return ""


def conserved(calls, structure):
    """At each place as much came out as was set."""
    sums = Counter()
    for it in named(calls, "set"):
        sums[it.given] += 1 if structure == "counts" else 1 - it.answer
    for it in named(calls, "out"):
        sums[it.given] -= it.answer
    return f"not even: {+sums} {-sums}" if any(sums.values()) else ""


Hold = namedtuple("Hold", "index take give")


def holds(calls):
    """Each time that an index was held: the call that took it, and the one that gave it back, if one did."""
    found, held = [], {}
    for it in sorted(calls, key=lambda it: it.ended):
        if it.name == "take" and it.answer is not None:
            held.setdefault(it.answer, []).append(it)
        elif it.name in ("give", "free"):
            index = it.given if it.name == "give" else it.answer
            own = [take for take in held.get(index, []) if take.who == it.who]
            if not own:
                return None, f"{it.name} of {index} at {it.ended}, which its thread did not hold"
            held[index].remove(own[0])
            found.append(Hold(index, own[0], it))
    found += [Hold(index, take, None) for index, takes in held.items() for take in takes]
    return found, ""


def holders(calls):
    """No index was held twice at a moment."""
    found, why = holds(calls)
    last = {}
    for it in sorted(found or [], key=lambda it: it.take.ended):
        if it.index in last and last[it.index] > it.take.ended:
            return f"index {it.index} had two holders at {it.take.ended}"
        last[it.index] = it.give.began if it.give else float("inf")
    return why


def bounds(spans, calls):
    """For each call the least and the greatest number of spans that stood at one moment of it, where spans are given by when
    they stand at the latest, and no more at the earliest."""
    events = sorted([(begin, 1) for begin, _ in spans] + [(end, -1) for _, end in spans if end is not None])
    times, sums, number = [-1], [0], 0
    for at, change in events:
        number += change
        times.append(at)
        sums.append(number)
    for it in calls:
        first = bisect_left(times, it.began) - 1
        yield it, sums[first : bisect_left(times, it.ended) or 1]


def counted(calls):
    """Each count is a number that were out at one moment of it."""
    found, why = holds(calls)
    if why:
        return why
    counts = named(calls, "count")
    surely = [(it.take.ended, it.give and it.give.began) for it in found]
    perhaps = [(it.take.began, it.give and it.give.ended) for it in found]
    for (it, least), (_, most) in zip(bounds(surely, counts), bounds(perhaps, counts)):
        if not min(least) <= it.answer <= max(most):
            return f"count {it.answer} at {it.began} to {it.ended}, not {min(least)} to {max(most)}"
    return ""


def justified(calls, capacity):
    """An index is refused only if at a moment of the call all may have been out or on their way."""
    found, why = holds(calls)
    refused = [it for it in named(calls, "take") if it.answer is None]
    ways = [(it.take.began, it.give and it.give.ended) for it in found or []] + [(it.began, it.ended) for it in refused]
    for it, most in bounds(ways, refused):
        if max(most) - 1 < capacity:
            return f"refused at {it.began} to {it.ended}, where {max(most) - 1} were out"
    return why


def free(calls):
    """In the end nothing is out, and nothing is locked."""
    ends = [it.answer for it in calls if it.name in ("count", "is_locked")][-2:]
    return "" if ends == [0, 0] else f"in the end: {ends}"


def locked(calls):
    """The structure is locked once, or by each call that is told so, and no index was held from then on."""
    found, why = holds(calls)
    locks = [it for it in named(calls, "give") if it.answer]
    if why or not locks or [it.answer for it in calls if it.name in ("count", "is_locked")][-2:] != [0, 1]:
        return why or "not locked in the end"
    end = min(it.ended for it in locks)
    late = [it for it in found if not it.give or it.give.began > end]
    return f"index {late[0].index} was held after the lock at {end}" if late else ""


def one_of_both(calls):
    """Either the last one locked, or the other one got in."""
    got = [it for it in named(calls, "take") if it.answer is not None]
    has_locked = any(it.answer for it in named(calls, "give"))
    return "" if has_locked == (len(got) == 1) else f"locked: {has_locked}, got in: {len(got) > 1}"


def recovered(calls):
    """Each owner that died had all its indices freed, and those alone."""
    for it in named(calls, "recover"):
        taken = [take for take in named(calls, "take") if take.given == it.given and take.who == it.who]
        freed = [freed for freed in named(calls, "free") if freed.given == it.given]
        if not taken or {take.answer for take in taken} != {it.answer for it in freed} or it.answer != len(taken):
            return f"owner {it.given} took {len(taken)}, {len(freed)} came back"
    return "" if named(calls, "recover") else "nobody was recovered"


def seen(calls):
    """Who looks sees something often, and nothing in the end."""
    looks = [it.answer for it in named(calls, "look")]
    if sum(map(bool, looks)) < 50 or looks[-1]:
        return f"seen {sum(map(bool, looks))} times, in the end {looks[-1:]}"
    return ""


def loans(calls):
    """Each index that is loaned goes one way: it is sent, and then received and taken back, or handed back, or left. What is
    sent comes out in its order."""
    sent, waits, out = [], [], {}
    calls = [it for it in calls if it.name not in ("loan", "receive") or it.answer is not None]
    for it in sorted(calls, key=lambda it: it.ended):
        if it.name == "loan" and it.answer in out:
            return f"loan {it.answer} at {it.ended}, which is out"
        if it.name == "loan":
            out[it.answer] = "loaned"
        if it.name == "send":
            sent.append(it)
            out[it.given] = "sent"
            if it.answer is not None:
                out.pop(it.answer)
        if it.name == "taken_back" and out.pop(it.given, "") != "sent":
            return f"taken_back {it.given} at {it.ended}, which was not sent"
    # What was handed back and what was received merge, in order, to a beginning of what was sent.
    states = {(0, 0)}
    backs = [it.answer for it in sent if it.answer is not None]
    comes = [it.answer for it in named(calls, "receive")]
    for at in range(len(backs) + len(comes)):
        index, further = sent[at].given, set()
        for one, two in states:
            if one < len(backs) and backs[one] == index:
                further.add((one + 1, two))
            if two < len(comes) and comes[two] == index:
                further.add((one, two + 1))
        states = further
    if not states:
        return "what came is not in the order of what was sent"
    given = Counter(it.given for it in named(calls, "give_back"))
    taken = Counter(it.given for it in named(calls, "taken_back"))
    return "" if not taken - given else f"taken back, but not given back: {taken - given}"


def reclaimed(calls):
    """The reclaim frees what is sent and neither taken back nor handed back, and in the end nothing is out."""
    out = Counter(it.given for it in named(calls, "send"))
    out.subtract(it.answer for it in named(calls, "send") if it.answer is not None)
    out.subtract(it.given for it in named(calls, "taken_back"))
    answers = [it.answer for it in named(calls, "reclaim")]
    last = named(calls, "count")[-1].answer
    return "" if answers == [sum(out.values())] and last == 0 else f"{answers} reclaimed of {+out}, {last} out in the end"


def some(calls):
    """What was received was sent."""
    given, came = {it.given for it in named(calls, "push")}, [it.answer for it in named(calls, "pop") if it.answer is not None]
    return "" if came and set(came) <= given else "received, but not sent"


def added(calls, number):
    """The numbers that lie in the buffers add up to this one."""
    total = sum(it.answer or 0 for it in named(calls, "sum"))
    return "" if total == number else f"{total}, not {number}"


def ended(calls, number):
    """As many numbers came, and then the end."""
    came, ends = sum(it.answer is not None for it in named(calls, "pop")), len(named(calls, "end"))
    return "" if (came, ends) == (number, 1) else f"{came} numbers and {ends} ends came"


def left(calls, number):
    """So many numbers are left."""
    found = len(named(calls, "left"))
    return "" if found == number else f"{found} are left"
