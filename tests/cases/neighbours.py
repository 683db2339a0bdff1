"""The neighbours of a key, in indices that have an order."""
from harness.asked import Asked
from harness.case import IN_ORDER, case_of


@case_of("ordered")
def gives_neighbours(*words):
    """Three index keys, one of them with two values, in an index by the first byte that puts a value first."""
    with Asked(*words) as index:
        index.inserts(b"\x0b\x02\xaa", 1)
        index.inserts(b"\x1c\x04\xcc", 21)
        index.inserts(b"\x1c\x03\x11", 22)
        index.inserts(b"\x2d\x06\xee", 3)
        index.next_has(b"\x0b\x01\x02", [22, 21])
        index.next_has(b"\x1c\x01\x02", [3])
        index.next_has(b"\x2d\x06\xee", [1], cycled=True)
        index.next_has(b"", [1])
        index.prev_has(b"\x0b\x02\xaa", [3], cycled=True)
        index.prev_has(b"\x1c\x01\x02", [1])
        index.prev_has(b"\xcc\x01\x02", [3])
        index.prev_has(b"", [3], cycled=True)
        index.ends_are([1], [3])
        index.counts(3, 4, 0)
        index.removes(b"\x1c")
        index.next_has(b"\x0b\x01\x02", [3])
        index.prev_has(b"\x2d", [1])


def has_none(index, key):
    """No key has a neighbour, and there are no ends."""
    index.next_has(key, [])
    index.prev_has(key, [])
    index.ends_are([], [])


@case_of(*IN_ORDER)
def gives_one_key_round_the_ends(*words):
    """No key, and then one, with the value 1 and with the values 2 and 1."""
    with Asked(*words) as index:
        has_none(index, b"\x0b")
        index.inserts(b"\x0b", 1)
        index.next_has(b"\x0b", [1], cycled=True)
        index.prev_has(b"\x0b", [1], cycled=True)
        index.removes(b"\x0b")
        index.fills(b"\x0b", [2, 1])
        index.next_has(b"\x0b", [2, 1], cycled=True)
        index.prev_has(b"\x0b", [2, 1], cycled=True)
        index.next_has(b"\x0a", [2, 1])
        index.prev_has(b"\x0c", [2, 1])
        index.ends_are([2, 1], [2, 1])


@case_of(*IN_ORDER)
def gives_neighbours_across_gaps(*words):
    """Two keys with many partitions between them, the neighbours from there and round the ends, and once one or both
    are taken out."""
    with Asked(*words) as index:
        index.inserts(b"\x05\x01", 1)
        index.inserts(b"\xf0\x02", 2)
        index.next_has(b"\x80\x00", [2])
        index.prev_has(b"\x80\x00", [1])
        index.prev_has(b"\x05\x01", [2], cycled=True)
        index.removes(b"\x05\x01")
        index.prev_has(b"\x80\x00", [2], cycled=True)
        index.removes(b"\xf0\x02")
        has_none(index, b"\x80\x00")
