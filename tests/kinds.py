"""The kinds of structures by their names: the machine of each, and the reading of what it promises."""
from bits import BitSet, CountingBitSet
from container import Container
from indices import UniqueIndexSet
from loan import LoanChannel
from owners import RobustIndexSet
from promises import BitsReading, Broken, CountsReading, IndicesReading, OverflowReading, QueueReading, ValueReading
from promises_loan import LoanReading
from promises_owners import OwnersReading
from queues import IndexQueue, OverflowingQueue, QueueOfValues
from values import Value

# The machine and the reading of each kind, by the name that schedules have for it.
KINDS = {
    "index_queue": (IndexQueue, QueueReading),
    "queue": (QueueOfValues, QueueReading),
    "overflow": (OverflowingQueue, OverflowReading),
    "atomic": (Value, ValueReading),
    "bits": (BitSet, BitsReading),
    "counts": (CountingBitSet, CountsReading),
    "indices": (UniqueIndexSet, IndicesReading),
    "robust": (RobustIndexSet, OwnersReading),
    "container": (Container, OwnersReading),
    "loan": (LoanChannel, LoanReading),
}


def made(first):
    """The machine of the first line of a schedule."""
    kind, *numbers = first.split()
    return KINDS[kind][0](*map(int, numbers))


def replayed(lines):
    """The machine of a schedule, after all of its turns."""
    machine = made(lines[0])
    for line in filter(None, lines[1:]):
        machine.turn(line)
    return machine


def broken(first, machine):
    """The promise that is broken by what the machine has printed, if one is."""
    kind, *numbers = first.split()
    reading = KINDS[kind][1](*map(int, numbers), machine)
    try:
        for line in machine.out:
            reading.take(line)
        reading.ended()
    except Broken as promise:
        return str(promise)
    return None
