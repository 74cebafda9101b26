"""Draws schedules: each turn is chosen by what the reference has come to, so that most of them are not refused."""
from kinds import made

LARGE = (1 << 64) - 1
# Lines that are malformed, each with the cause that has to be told.
CAUSES = {
    "x next": "bad value",
    "0 go": "unknown turn",
    "0 next 0": "bad value",
    "0 next 1 1": "extra words",
    "0 begin": "missing value",
    "0 begin nothing": "unknown call",
    "0 yes no": "extra words",
    "die": "missing value",
    f"die {LARGE}": "bad value",
    "0": "missing value",
    f"{1 << 32} next": "bad value",
    "0  next": "unknown turn",
}


# A value to push or to store: small, at the bound, or any of 64 bits, or of 128 if `is_wide`.
def value(draw, is_wide):
    large = draw.getrandbits(128) if is_wide else draw.getrandbits(64)
    return draw.choice((0, draw.randrange(9), LARGE, large, large))


def below(draw, bound):
    """Mostly a number below it, at times the bound."""
    return draw.randrange(bound + (draw.random() < 0.06)) if bound else 0


# A call on a queue, mostly one for which the party has the role.
def queue_call(draw, machine, party):
    roles = [f"{verb}_{role}" for verb in ("acquire", "release") for role in ("producer", "consumer")]
    pops = ["pop", "peek"][: 2 - machine.spare]
    ours = ["push"] * 8 * machine.is_held(2, party) + (["pop"] * 7 + pops[1:] * 3) * machine.is_held(3, party)
    free = [f"acquire_{role}" for at, role in ((2, "producer"), (3, "consumer")) if machine.words[at]]
    looks = ["len", "is_empty", "is_full", draw.choice(("has_producer", "has_consumer"))]
    name = draw.choice(ours + free * 4 + looks + [draw.choice([*roles, "push", *pops])])
    return f"push {value(draw, machine.width == 2)}" if name == "push" else name


# A call on the single value, mostly one for which the party has the role.
def value_call(draw, machine, party):
    is_ours = machine.producer == party
    names = ["load"] * 4 + ["store"] * 5 * is_ours + ["acquire_producer"] * 3 * (machine.producer is None)
    names += ["version", "has_producer"]
    name = draw.choice(names + [draw.choice(("store", "acquire_producer", "release_producer"))])
    return f"store {value(draw, True)}" if name == "store" else name


def bits_call(draw, machine, _):
    name = draw.choice(["set"] * 6 + ["reset_next"] * 3 + ["is_set"] * 2 + ["reset_all"])
    return f"{name} {below(draw, machine.capacity)}" if name in ("set", "is_set") else name


def counts_call(draw, machine, _):
    name = draw.choice(["set"] * 6 + ["count"] * 2 + ["reset_all"] * 3)
    return f"{name} {below(draw, machine.capacity)}" if name != "reset_all" else name


def mode(draw):
    return "lock" if draw.random() < 0.2 else "default"


def indices_call(draw, machine, party):
    ours = [index for index, holder in machine.holders.items() if holder == party]
    name = draw.choice(["acquire"] * 8 + ["release"] * (7 if ours else 1) + ["borrowed_indices", "is_locked"])
    index = draw.choice(ours) if ours and draw.random() < 0.94 else below(draw, machine.capacity)
    return f"release {index} {mode(draw)}" if name == "release" else name


def filled(machine):
    return [(at, owner) for at, owner in enumerate(machine.words[1 : machine.capacity + 1]) if owner != LARGE]


def handle(draw, machine):
    """Mostly an index with its owner."""
    handles = [it for it in filled(machine) if it[1] not in machine.dead or draw.random() < 0.1]
    if handles and draw.random() < 0.93:
        return draw.choice(handles)
    return below(draw, machine.capacity), owner_of(draw, machine)


def owner_of(draw, machine):
    """Mostly one who lives."""
    owner = draw.choice((1, 2, 3, 4)) if draw.random() < 0.97 else draw.choice((0, LARGE - 1))
    return owner if owner not in machine.dead or draw.random() < 0.1 else 5


def is_left(machine):
    """Whether a dead owner has left an index."""
    return any(owner in machine.dead for _, owner in filled(machine))


# A call on a robust set: mostly for owners who live, and a recovery mostly where a dead owner has left an
# index.
def robust_call(draw, machine, _):
    recovers = ["recover"] * (8 if is_left(machine) else 1)
    name = draw.choice(["acquire"] * 7 + ["release"] * 6 + recovers + ["find", "borrowed_indices", "is_locked"])
    index, owner = handle(draw, machine)
    given = {
        "acquire": f" {owner_of(draw, machine)}",
        "release": f" {index} {owner} {mode(draw)}",
        "find": f" {owner}",
        "recover": f" {mode(draw)}",
    }
    return name + given.get(name, "")


# A call on a container: mostly for owners who live, and a recovery mostly for a dead one.
def container_call(draw, machine, _):
    looks = ["find", "get_state", "update_state", draw.choice(("len", "is_empty", "is_locked"))]
    recovers = ["recover"] * (10 if is_left(machine) else 1)
    name = draw.choice(["add"] * 6 + ["remove"] * 3 + ["replace"] * 2 + recovers + looks)
    index, owner = handle(draw, machine)
    dead = draw.choice(sorted(machine.dead)) if machine.dead and draw.random() < 0.95 else owner
    given = {
        "add": f" {value(draw, True)} {owner_of(draw, machine)}",
        "remove": f" {index} {owner} {mode(draw)}",
        "replace": f" {index} {value(draw, True)} {owner}",
        "find": f" {owner}",
        "recover": f" {dead} {mode(draw)}",
    }
    return name + given.get(name, "")


# A call on a loan channel, mostly one that the party may make. A `reclaim` comes where the receiver is dead.
def loan_call(draw, machine, party):
    ours = [index for index, holder in machine.holders.items() if holder == party]
    has = bool(ours) + (draw.random() < 0.05)
    index = draw.choice(ours) if ours and draw.random() < 0.95 else below(draw, machine.slots)
    if party == machine.receiver:
        names = ["receive"] * 4 + [f"give_back {index}"] * 6 * has + ["loan"] * (draw.random() < 0.2)
    else:
        names = ["loan"] * 3 + [f"send {index}"] * 5 * has + [f"give_up {index}"] * has + ["take_back"]
        names += ["receive"] * (draw.random() < 0.1)
        if machine.receiver in machine.dead and draw.random() < 0.4:
            names = ["reclaim"]
        if draw.random() < 0.02:
            names = ["reclaim", f"give_back {index}"]
    # So that a reclaim finds much, one of these two calls is never drawn for some channels, by their number
    # of parties.
    leaves = ("take_back", "receive", "")[machine.parties % 3]
    return draw.choice([it for it in names if it != leaves] or ["loan"])


# What draws a call, for each kind; and below the capacities from which those of a schedule are drawn.
CALLS = {
    "index_queue": queue_call,
    "queue": queue_call,
    "overflow": queue_call,
    "atomic": value_call,
    "bits": bits_call,
    "counts": counts_call,
    "indices": indices_call,
    "robust": robust_call,
    "container": container_call,
    "loan": loan_call,
}
CAPACITIES = {"atomic": (1,), "bits": (0, 1, 2, 5, 9, 64, 66), "counts": (0, 1, 2, 5), "indices": (1, 2, 3, 4, 66)}
CAPACITIES |= dict.fromkeys(("index_queue", "queue", "overflow"), (0, 1, 1, 2, 2, 3))
CAPACITIES |= dict.fromkeys(("robust", "container"), (1, 1, 2, 3, 4))


# The first line of a schedule: its kind, its capacity or sizes, and its parties.
def first_line(draw, kind):
    if kind == "loan":
        return f"loan {draw.randint(1, 4)} {draw.choice((1, 1, 2, 5))} {draw.randint(2, 5)}"
    return f"{kind} {draw.choice(CAPACITIES[kind])} {draw.choice((2, 2, 3, 4))}"


# A line by which an owner dies: mostly one whose death changes something.
def death(draw, machine):
    if machine.is_own:
        owner = machine.receiver if draw.random() < 0.8 else draw.randrange(machine.parties + 1)
    elif machine.has_owners and filled(machine) and draw.random() < 0.7:
        owner = draw.choice(filled(machine))[1]
    else:
        owner = draw.choice((1, 2, 3, 4))
    return f"die {owner}"


def decision(draw, machine, call):
    """Of a recovery mostly a yes about the dead, and a no about the living."""
    is_yes = draw.random() < (0.8 if call.name == "find" or call.owner in machine.dead else 0.15)
    return "yes" if is_yes else "no"


def turn(draw, kind, machine):
    """The next line."""
    if draw.random() < (0.015 if machine.has_owners else 0.003):
        return death(draw, machine)
    party = draw.randrange(machine.parties + (draw.random() < 0.02))
    if machine.is_own and draw.random() < 0.9:
        party = draw.choice((0, machine.receiver))
    if party in machine.stopped:  # (it has stopped for good, and others go on)
        party = next((it for it in range(machine.parties) if it not in machine.stopped), party)
    call = machine.calls.get(party)
    if call and draw.random() < 0.015:
        machine.stopped.add(party)
    is_wrong = draw.random() < 0.03
    if not call or (is_wrong and draw.random() < 0.5):
        return f"{party} next" if is_wrong and not call else f"{party} begin {CALLS[kind](draw, machine, party)}"
    if call.asks != is_wrong:
        return f"{party} {decision(draw, machine, call) if call.asks else draw.choice(('yes', 'no'))}"
    numbers = ("", " 40") if machine.is_own else ("", "", "", " 1", " 2", " 3", " 5", " 12", " 40")
    return f"{party} next{draw.choice(numbers)}"


def drawn(draw, kind):
    """A schedule, whose last line may be malformed."""
    lines = [first_line(draw, kind)]
    machine = made(lines[0])
    for _ in range(draw.randint(20, 120 if machine.is_own else 70)):
        lines.append(turn(draw, kind, machine))
        machine.turn(lines[-1])
        if draw.random() < 0.02:
            lines.append("")
    return lines + [draw.choice([*CAUSES])] * (draw.random() < 0.05)
