"""The most steps of a call alone, and how many more for each time that it begins again, of a capacity C: those of
docs/FIELD.md, for values of two words."""

# The bounds of calls that several kinds have. Each is a function of the capacity that gives the steps of a
# call alone, and the further steps for each time that it begins again.
LENGTHS = dict.fromkeys(("len", "is_empty", "is_full"), lambda C: (4, 4))
ROLES = dict.fromkeys(
    (f"{verb}_{role}" for verb in ("acquire", "release", "has") for role in ("producer", "consumer")), lambda C: (1, 0)
)
COUNTS = dict.fromkeys(("borrowed_indices", "len", "is_empty"), lambda C: (C + 2, C + 2))
LOCKED = {"is_locked": lambda C: (1, 0)}
# The bounds of each kind's calls. A call in mode `lock` has a row of its own where its bound differs.
BOUNDS = {
    "index_queue": {**ROLES, **LENGTHS, "push": lambda C: (4, 0), "pop": lambda C: (4, 0), "peek": lambda C: (3, 0)},
    "queue": {**ROLES, **LENGTHS, "push": lambda C: (5, 0), "pop": lambda C: (5, 0), "peek": lambda C: (4, 0)},
    "overflow": {**ROLES, **LENGTHS, "push": lambda C: (6, 0), "pop": lambda C: (4, 2)},
    "atomic": {**ROLES, "store": lambda C: (4, 0), "load": lambda C: (4, 3), "version": lambda C: (1, 0)},
    "bits": {
        "set": lambda C: (2, 1),
        "reset_next": lambda C: (3 + C, 1),
        "reset_all": lambda C: ((C + 63) // 64, 0),
        "is_set": lambda C: (1, 0),
    },
    "counts": {"set": lambda C: (1, 0), "reset_all": lambda C: (C, 0), "count": lambda C: (1, 0)},
    "indices": {
        **LOCKED,
        "acquire": lambda C: (4 + C, max(2, C)),
        "release": lambda C: (5, 0),
        "release lock": lambda C: (4, 2),
        "borrowed_indices": lambda C: (1, 0),
    },
    "robust": {
        **LOCKED,
        **COUNTS,
        "acquire": lambda C: (C + 3, C + 1),
        "release": lambda C: (3, 1),
        "release lock": lambda C: (C + 6, C + 3),
        "find": lambda C: (C, 0),
        "recover": lambda C: (2 + 4 * C, 1),
        "recover lock": lambda C: (2 + C * (C + 7), C + 3),
    },
    "container": {
        **LOCKED,
        **COUNTS,
        "add": lambda C: (C + 9, C + 1),
        "remove": lambda C: (6, 1),
        "remove lock": lambda C: (C + 9, C + 3),
        "replace": lambda C: (7, 0),
        "find": lambda C: (5 * C, 0),
        "recover": lambda C: (3 + 9 * C, 3),
        "recover lock": lambda C: (3 + C * (C + 12), C + 6),
        "get_state": lambda C: (1 + 4 * C, 3),
        "update_state": lambda C: (1 + 4 * C, 3),
    },
    "loan": {
        "loan": lambda C: (4 + C, 0),
        "send": lambda C: (11, 0),
        "give_up": lambda C: (5, 0),
        "take_back": lambda C: (9, 0),
        "receive": lambda C: (4, 2),
        "give_back": lambda C: (4, 0),
        "reclaim": lambda C: (8 + 13 * C, 2),
    },
}


def is_within(kind, capacity, call, steps, backs, others):
    """Whether a call has kept within its bound, and has begun again only after a change of another."""
    name = f"{call.name} lock" if "lock" in call.given else call.name
    alone, each = BOUNDS[kind][name](capacity)
    return steps <= alone + each * backs and backs <= others
