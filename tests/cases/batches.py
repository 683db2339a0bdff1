"""Batches: which values are visited with which places, in the order of each index."""
from harness.asked import Asked
from harness.case import case_of


def three(index):
    """Three keys by their first bytes: 0b with the value 1, 1c with 22 and 21, 2d with 3."""
    index.fills(b"\x0b\x02\xaa", [1])
    index.fills(b"\x1c\x04\xcc", [22, 21])
    index.fills(b"\x2d\x06\xee", [3])


@case_of("unordered", "unordered_by_hash", "plain")
def batch_goes_by_place(*words):
    with Asked(*words) as index:
        three(index)
        index.visits([b"\x2d", b"\x1c", b"\x1c\x00", b"\x55"], [(0, 3), (1, 22), (1, 21), (2, 22), (2, 21)])
        index.visits([], [])


@case_of("ordered")
def batch_goes_by_key(*words):
    """By index key, and of one index key by place."""
    with Asked(*words) as index:
        three(index)
        index.visits([b"\x2d", b"\x1c", b"\x1c\x00", b"\x55"], [(1, 22), (1, 21), (2, 22), (2, 21), (0, 3)])
        index.visits([b"\x2d", b"\x0b", b"\x2d", b"\x0b"], [(1, 1), (3, 1), (0, 3), (2, 3)])
        index.visits([], [])


@case_of("punordered")
def batch_goes_by_place_in_partitions(*words):
    with Asked(*words) as index:
        index.fills(b"\x10\x02", [2, 22])
        index.fills(b"\x20\x01", [5])
        index.fills(b"\x00", [7])
        keys = [b"\x20\x01", b"\x10\x02", b"", b"\x10\x02\xff"]
        index.visits(keys, [(0, 5), (1, 2), (1, 22), (2, 7), (3, 2), (3, 22)])


@case_of("pordered", "pordered_at_one", "pordered_at_two")
def batch_goes_by_partition(*words):
    """By partition, and in it by index key."""
    with Asked(*words) as index:
        index.fills(b"\x10\x02", [2, 22])
        index.fills(b"\x20\x01", [5])
        index.visits([b"\x20\x01", b"\x10\x02", b"\x10\x02\xff"], [(1, 2), (1, 22), (2, 2), (2, 22), (0, 5)])
        index.fills(b"\x10\x01", [9])
        index.fills(b"", [7])
        keys = [b"\x20\x01", b"\x10\x02", b"\x10\x01", b""]
        index.visits(keys, [(3, 7), (2, 9), (1, 2), (1, 22), (0, 5)])


@case_of("pordered", "pordered_at_one", "pordered_at_two")
def long_batch_goes_by_partition(*words):
    """Of 130 keys, in 100 partitions and then all in one."""
    for step in (37, 0):
        with Asked(*words) as index:
            held = [bytes([number * step % 256, number * 11 % 256]) for number in range(100)]
            for number, key in enumerate(held):
                index.fills(key, [number])
            keys = held[::-1] + held[:30]
            order = sorted(range(130), key=lambda place: (keys[place], place))
            index.visits(keys, [(place, held.index(keys[place])) for place in order])
