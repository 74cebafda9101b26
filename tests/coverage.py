"""What has to come among the schedules of a kind: each answer of each call, and each refusal."""

# Words for several answers: `N` stands for any number.
TRUTHS, DONE, NUMBER = "true false", "done", "N"
ROLES = dict.fromkeys(("acquire_producer", "acquire_consumer"), TRUTHS)
ROLES |= dict.fromkeys(("release_producer", "release_consumer"), DONE)
ROLES |= dict.fromkeys(("has_producer", "has_consumer"), TRUTHS)
LENGTHS = {"len": NUMBER, "is_empty": TRUTHS, "is_full": TRUTHS}
REFUSALS = "NoParty Busy Idle Undecided"
# For each kind, the answers that each of its calls has to give somewhere among the schedules, and the
# refusals that have to come.
ANSWERS = {
    "index_queue": {
        **ROLES,
        **LENGTHS,
        "push": TRUTHS,
        "pop": "some none",
        "peek": "some none",
        "refused": f"{REFUSALS} WrongCall NoRole",
    },
    "overflow": {**ROLES, **LENGTHS, "push": "some none", "pop": "some none", "refused": f"{REFUSALS} WrongCall NoRole"},
    "atomic": {
        "acquire_producer": TRUTHS,
        "release_producer": DONE,
        "has_producer": TRUTHS,
        "store": "true",
        "load": NUMBER,
        "version": NUMBER,
        "refused": f"{REFUSALS} WrongCall NoRole",
    },
    "bits": {
        "set": TRUTHS,
        "is_set": TRUTHS,
        "reset_next": "some none",
        "reset_all": DONE,
        "refused": f"{REFUSALS} WrongCall BadIndex",
    },
    "counts": {"set": NUMBER, "count": NUMBER, "reset_all": DONE, "refused": f"{REFUSALS} WrongCall BadIndex"},
    "indices": {
        "acquire": "N OutOfIndices IsLocked",
        "release": "Locked Unlocked",
        "borrowed_indices": NUMBER,
        "is_locked": TRUTHS,
        "refused": f"{REFUSALS} WrongCall BadIndex NotHeld",
    },
    "robust": {
        "acquire": "N OutOfIndices IsLocked",
        "release": "Locked Unlocked IndexIsNotOwnedByProvidedOwner",
        "find": NUMBER,
        "recover": "Locked Unlocked",
        "borrowed_indices": NUMBER,
        "is_locked": TRUTHS,
        "refused": f"{REFUSALS} BadIndex OwnerIsDead OwnerLives",
    },
    "container": {
        "add": "N OutOfSpace IsLocked",
        "remove": "Locked Unlocked ContainerHandleNotOwnedByContainer",
        "replace": "done ContainerHandleNotOwnedByContainer",
        "find": NUMBER,
        "recover": "Locked Unlocked",
        "get_state": NUMBER,
        "update_state": TRUTHS,
        "len": NUMBER,
        "is_empty": TRUTHS,
        "is_locked": TRUTHS,
        "refused": f"{REFUSALS} OwnerIsDead OwnerLives",
    },
    "loan": {
        "loan": "N OutOfIndices",
        "send": "some none",
        "give_up": DONE,
        "receive": "some none",
        "give_back": "true",
        "take_back": "some none",
        "reclaim": NUMBER,
        "refused": f"{REFUSALS} BadIndex NoRole NotHeld OwnerIsDead OwnerLives",
        "receivers": "1 2 3",
        "reclaimed": "handed_out taken_back",  # two indices at least, by one reclaim
    },
}
ANSWERS["queue"] = ANSWERS["index_queue"]


def come(machine):
    """What has come in the run of a machine."""
    spans = {}
    for line in machine.out:
        words = line.split()
        if words[0] == "refused":
            yield "refused", words[1]
        elif words[0] != "died":
            party, what, *rest = words
            if what == "finished":
                answer = rest[rest.index("->") + 1]
                yield rest[0], NUMBER if answer.isdecimal() else answer
            elif what == "begun":
                spans[party] = [rest[0]]
            elif spans[party][0] == "reclaim":
                if what in spans[party]:
                    yield "reclaimed", what
                spans[party].append(what)
    if hasattr(machine, "receiver"):
        yield "receivers", str(machine.receiver)


def missing(kind, machines):
    """What has not come among the runs of these machines."""
    have = {it for machine in machines for it in come(machine)}
    wanted = ((name, answer) for name, answers in ANSWERS[kind].items() for answer in answers.split())
    return [" ".join(it) for it in wanted if it not in have]
