"""Cursors, moved step by step."""
from harness.asked import Asked
from harness.case import KINDS, case_of

# The list of k, the moves of a cursor there, its answers, what it leaves, and the counts then.
EDITS = [
    (
        [3, 1, 2],
        "next delete next insert:9 next next insert:7",
        "3 active ok need_next 1 active ok need_next 2 active end done ok done",
        [1, 9, 2, 7],
        (1, 4, 1),
    ),
    ([5], "next delete next insert:6 next", "5 active ok need_next end done ok done end done", [6], (1, 1, 1)),
    ([3, 1, 2], "next retain:0", "3 active 1 2 ok done", [3], (1, 1, 2)),
    # A closure that changes its mind at each ask.
    ([3, 1, 2], "retain:5", "3 1 2 ok done", [3, 2], (1, 2, 1)),
    (
        [3, 1, 2],
        "find:2 update:9 find:0 insert:7",
        "3 1 found active ok active 2 past done ok done",
        [3, 9, 2, 7],
        (1, 4, 0),
    ),
    # The only value of the index, with one behind it, and taken out.
    ([5], "next insert:6", "5 active ok need_next", [5, 6], (1, 2, 0)),
    ([5], "next delete", "5 active ok need_next", [], (0, 0, 1)),
]


@case_of(*KINDS)
def is_edited_by_cursors(*words):
    """Edits of k by a cursor that is dropped behind its last move."""
    for values, moves, answers, left, counts in EDITS:
        with Asked(*words) as index:
            index.fills(b"k", values)
            index.edits(b"k", moves, answers)
            index.holds(b"k", left)
            index.counts(*counts)


# What cursors of k that are dropped half way do, one after another, what they leave, and the counts then: before the
# first value, after 3 was taken out, on 8 in the place of 1, after 9 was put behind 8, and past the end.
DROPPED = [
    ("", "", [3, 1, 2], (1, 3, 0)),
    ("next delete", "3 active ok need_next", [1, 2], (1, 2, 1)),
    ("next update:8", "1 active ok active", [8, 2], (1, 2, 1)),
    ("next insert:9", "8 active ok need_next", [8, 9, 2], (1, 3, 1)),
    ("next next next next", "8 active 9 active 2 active end done", [8, 9, 2], (1, 3, 1)),
]


@case_of(*KINDS)
def serves_on_behind_cursors(*words):
    """Cursors that are dropped half way, one after another; the index serves on."""
    with Asked(*words) as index:
        index.fills(b"k", [3, 1, 2])
        for moves, answers, left, counts in DROPPED:
            index.edits(b"k", moves, answers)
            index.holds(b"k", left)
            index.counts(*counts)
        index.removes(b"k")
        index.inserts(b"k", 4)
        index.holds(b"k", [4])
        index.counts(1, 1, 4)


@case_of(*KINDS)
def loses_a_key_to_a_cursor(*words):
    """A key that lost its only value, 5, to a cursor that was dropped there, is gone, and takes a value again."""
    with Asked(*words) as index:
        index.fills(b"k", [3, 1, 2])
        index.inserts(b"j", 5)
        index.edits(b"j", "next delete", "5 active ok need_next")
        index.counts(1, 3, 1)
        index.ask("edit x6a", "none")
        index.holds(b"k", [3, 1, 2])
        index.inserts(b"j", 6)
        index.holds(b"j", [6])
        index.counts(2, 4, 1)
