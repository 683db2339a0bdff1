"""Each call of an index, with its answer."""
from harness.asked import Asked
from harness.case import KINDS, case_of
from harness.lists import PARTITION_BYTES, WIDTHS
from harness.session import word


@case_of(*KINDS)
def answers_by_place_and_key(*words):
    """The calls by place, and those by key that give no cursor."""
    with Asked(*words) as index:
        index.ask("inserts_first", "true" if index.inserts_first else "false")
        index.counts(0, 0, 0)
        index.ask("empty", "true")
        index.fills(b"\x0b", [2, 1])
        index.inserts(b"\x0c", 3)
        change_by_place(index)
        only_by_place(index)
        index.retains(b"\x0b", 0b101, [6, 4, 5])
        index.holds(b"\x0b", [6, 5])
        index.counts(2, 3, 3)
        index.retains(b"\x0d", 0, [])
        index.removes(b"\x0b")
        index.holds(b"\x0b", [])
        index.holds(b"\x0c", [3])
        index.counts(1, 1, 5)
        index.ask("empty", "false")
        index.retains(b"\x0c", 0, [3])
        index.counts(0, 0, 6)


def change_by_place(index):
    """The list 2, 1 of 0b, read by place, and changed so: 4 in the place of 1, 5 last, 6 between, and 2 taken out."""
    index.ask("len x0b", 2)
    index.ask("at x0b 0", 2)
    index.ask("at x0b 1", 1)
    index.ask("at x0b 2", "unallowed")
    index.ask("set_at x0b 4 1", "ok")
    index.ask("set_at x0b 4 2", "unallowed")
    index.ask("insert_at x0b 5 2", "ok")
    index.ask("insert_at x0b 5 4", "unallowed")
    index.ask("insert_at x0b 6 1", "ok")
    index.ask("len x0b", 4)
    index.holds(b"\x0b", [2, 6, 4, 5])
    index.ask("remove_at x0b 4", "unallowed")
    index.ask("remove_at x0b 0", 2)
    index.holds(b"\x0b", [6, 4, 5])


def only_by_place(index):
    """An absent key, 0d, which gets a value by place and loses it so."""
    index.ask("len x0d", 0)
    index.ask("insert_at x0d 7 0", "ok")
    index.holds(b"\x0d", [7])
    index.counts(3, 5, 1)
    index.ask("remove_at x0d 0", 7)
    index.counts(2, 4, 2)


@case_of(*KINDS)
def answers_by_cursor(*words):
    """The calls by key that look for a cursor, or for its list: of 0b, which has two values, and of absent keys."""
    with Asked(*words) as index:
        index.fills(b"\x0b", [2, 1])
        index.ask("reach x0b", 2)
        index.ask("reach x0c", 0)
        index.ask("reach_or_insert x0b 8", 2)
        index.ask("reach_or_insert x0c 8", 0)
        index.holds(b"\x0b", [2, 1])
        index.holds(b"\x0c", [8])
        index.ask("search x0b", "need_next")
        index.ask("search x0d", "none")
        index.ask("search_or_insert x0b 9", "need_next")
        index.ask("search_or_insert x0d 9", "inserted")
        index.holds(b"\x0d", [9])
        index.edits(b"\x0b", "", "")
        index.ask("edit x0e", "none")
        index.holds(b"\x0b", [2, 1])
        index.counts(3, 4, 0)


@case_of(*KINDS)
def finds_or_inserts(*words):
    """`edit_or_insert` of 8: under k, which has the list 3, 1, 2, and under j, which has none."""
    with Asked(*words) as index:
        index.fills(b"k", [3, 1, 2])
        index.ask("edit_or_insert x6b 8", "need_next")
        index.holds(b"k", [3, 1, 2])
        index.counts(1, 3, 0)
        index.ask("edit_or_insert x6a 8", "inserted")
        index.holds(b"j", [8])
        index.counts(2, 4, 0)


@case_of(*KINDS)
def files_by_index_key(*words):
    """The keys 01 and 0100 have one index key. Keys that differ from 1002ff in one byte have another one as far as
    index keys go."""
    with Asked(*words) as index:
        index.inserts(b"\x01", 1)
        index.inserts(b"\x01\x00", 2)
        index.counts(1, 2, 0)
        index.ask("same_slot x01 x0100", "true")
        for place, other in enumerate([b"\x11\x02\xff", b"\x10\x03\xff", b"\x10\x02\xfe"]):
            index.ask(f"same_slot x1002ff {word(other)}", "false" if place < WIDTHS[words[0]] else "true")
        if words[0] in PARTITION_BYTES:
            low, high, count = {1: (0x01, 0x10, 256), 2: (0x0100, 0x1002, 65536)}[PARTITION_BYTES[words[0]]]
            index.ask("partition x01", low)
            index.ask("partition x1002ff", high)
            index.ask("partitions", count)
        if words[0].startswith("pordered"):
            index.ask("threshold", words[1] if len(words) > 1 else 512)


# How a closure answers on 3, 1, 2 and 4, what stays, and how many values were taken out: those of at least 2 stay, none
# does, each other one, all but the newest, the new one alone.
RETAINED = [
    (0b1101, [3, 2, 4], 1),
    (0, [], 3),
    (0b0101, [3, 2], 1),
    (0b1110, [1, 2, 4], 1),
    (0b1000, [4], 3),
]


@case_of(*KINDS)
def inserts_and_retains(*words):
    """`insert_and_retain` of 4 under a key that has the list 3, 1, 2."""
    for bits, left, pruned in RETAINED:
        with Asked(*words) as index:
            index.fills(b"\x0b", [3, 1, 2])
            index.inserts_and_retains(b"\x0b", 4, bits, [3, 1, 2, 4])
            index.holds(b"\x0b", left)
            index.counts(1 if left else 0, len(left), pruned)


@case_of(*KINDS)
def retains_in_turn(*words):
    """`retain` of a key that has the list 3, 1, 2, by a closure that changes its mind at each ask."""
    with Asked(*words) as index:
        index.fills(b"\x0b", [3, 1, 2])
        index.retains(b"\x0b", 0b101, [3, 1, 2])
        index.holds(b"\x0b", [3, 2])
        index.counts(1, 2, 1)


@case_of(*KINDS)
def inserts_behind(*words):
    """`insert_and_retain` puts its value behind the held ones; of an absent key it asks on the new value alone."""
    with Asked(*words) as index:
        index.inserts_and_retains(b"\x0b", 4, 0, [4])
        index.holds(b"\x0b", [])
        index.counts(0, 0, 0)
        index.inserts_and_retains(b"\x0c", 4, 0b1, [4])
        index.holds(b"\x0c", [4])
        index.inserts(b"\x0b", 1)
        index.inserts_and_retains(b"\x0b", 2, 0b11, [1, 2])
        index.inserts(b"\x0b", 3)
        index.holds(b"\x0b", [3, 1, 2] if index.inserts_first else [1, 2, 3])
        index.holds(b"\x0c", [4])
        index.counts(2, 4, 0)
