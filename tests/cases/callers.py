"""The proved callers."""
from harness.asked import Asked
from harness.case import KINDS, case_of


@case_of(*KINDS)
def adds(*words):
    """Two values under one index key."""
    with Asked(*words) as index:
        index.ask("add x0b00 7", 1)
        index.ask("add x0b 8", 2)
        index.holds(b"\x0b", [8, 7] if index.inserts_first else [7, 8])


@case_of(*KINDS)
def replaces(*words):
    with Asked(*words) as index:
        index.fills(b"key", [2, 1])
        index.ask("replace x6b6579 3", "ok")
        index.holds(b"key", [3])
        index.counts(1, 1, 2)


@case_of(*KINDS)
def replaces_first(*words):
    """The first value of an absent key, of one with a value and of one with three."""
    with Asked(*words) as index:
        index.fills(b"one", [5])
        index.fills(b"three", [3, 2, 1])
        index.ask("replace_first x616273656e74 9", "false")
        index.holds(b"absent", [])
        index.ask("replace_first x6f6e65 6", "true")
        index.holds(b"one", [6])
        index.ask("replace_first x7468726565 7", "true")
        index.holds(b"three", [7, 2, 1])
        index.holds(b"one", [6])
        index.counts(2, 4, 0)


@case_of(*KINDS)
def updates(*words):
    """A value that stands there, and one that does not."""
    with Asked(*words) as index:
        index.fills(b"key", [3, 1, 2])
        index.ask("update x6b6579 1 4", "ok")
        index.holds(b"key", [3, 2, 4])
        index.counts(1, 3, 1)
        index.ask("update x6b6579 9 5", "ok")
        index.holds(b"key", [3, 2, 4, 5])
        index.counts(1, 4, 1)
        index.ask("update x6b6579 5 5", "unallowed")
