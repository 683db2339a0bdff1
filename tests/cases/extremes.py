"""Long lists and long keys, short keys, and cursors that are dropped behind each step."""
from harness.asked import Asked
from harness.case import KINDS, case, case_of
from harness.lists import WIDTHS, Lists, random_moves
from harness.session import word
from harness.xorshift import Numbers


@case_of(*KINDS)
def is_cut_at_each_step(*words):
    """Two hundred lists of eight steps, each cut behind each of its steps."""
    neighbour = b"\x11\x02" if WIDTHS[words[0]] == 1 else b"\x10\x02"
    with Asked(*words) as index:
        lists = Lists(words[0])
        for seed in range(1, 201):
            for count in range(9):
                cut_behind(index, lists, neighbour, random_moves(Numbers(seed), count))


def cut_behind(index, lists, neighbour, moves):
    """A cursor of 1001 makes moves and is dropped. The calls behind it, at its key and at a neighbouring one, answer by
    the list that the moves leave."""
    key = b"\x10\x01"
    index.fills(key, [0, 1, 2])
    lists.put(key, [0, 1, 2])
    index.inserts(neighbour, 4)
    lists.insert(neighbour, 4)
    answer, _ = lists.edit(key, moves)
    index.ask(" ".join(["edit", word(key), *moves]), answer)
    index.holds(key, lists.list_at(key))
    index.inserts(key, 9)
    lists.insert(key, 9)
    index.holds(key, lists.list_at(key))
    index.holds(neighbour, [4])
    for removed in [neighbour, key]:
        index.removes(removed)
        lists.remove(removed)
    index.counts(0, 0, lists.pruned)


@case_of(*KINDS)
def holds_a_long_list(*words):
    """A list of three thousand values: each closure is asked once on each of them, in order, and on nothing else."""
    values = list(range(3000))
    with Asked(*words) as index:
        index.fills(b"\x10", values)
        index.visits([b"\x10"], [(0, value) for value in values])
        asked = " ".join(map(str, values))
        index.edits(b"\x10", "find:0", f"{asked} past done")
        index.edits(b"\x10", "retain:5", f"{asked} ok done")
        index.holds(b"\x10", [0, 2])
        index.removes(b"\x10")
        index.fills(b"\x10", values)
        index.retains(b"\x10", 0b1011, values)
        index.holds(b"\x10", [0, 1, 3])
        index.removes(b"\x10")
        index.fills(b"\x10", values)
        index.inserts_and_retains(b"\x10", 3000, 0b10, [*values, 3000])
        index.holds(b"\x10", [1])
        index.counts(1, 1, 8999)


@case_of(*KINDS)
def holds_a_key_ten_thousand_times(*words):
    with Asked(*words) as index:
        values = list(range(10_000))
        for value in values:
            index.inserts(b"\x10", value)
        index.counts(1, 10_000, 0)
        index.holds(b"\x10", values[::-1] if index.inserts_first else values)


@case_of("ordered", "ordered_by_eight", "punordered", "pordered", "pordered_wide")
def cuts_long_keys(*words):
    """Keys of 1 to 70,000 zeros are one key, and those that differ from them in the last byte are others as far as the
    index key goes."""
    width = WIDTHS[words[0]]
    places = [0, 1, 2, 3, 7, 8, 9, 69_999]
    others = [zeros for zeros in places if zeros < width]
    with Asked(*words) as index:
        index.inserts(b"", 0)
        for zeros in places:
            index.inserts(bytes(zeros) + b"\x00", 0)
            index.inserts(bytes(zeros) + b"\x01", 1)
        for zeros in places:
            index.ask(f"len {word(bytes(zeros) + bytes([1]))}", 1 if zeros in others else 17 - len(others))
        index.counts(1 + len(others), 17, 0)


def short_keys(index):
    """Six short keys in an index by two bytes and then one more have three index keys."""
    for value, key in enumerate([b"", b"\x00", b"\x00\x00", b"\x00\x00\x00", b"\x00\x01", b"\x01"], 1):
        index.inserts(key, value)
    index.counts(3, 6, 0)
    index.holds(b"", [4, 3, 2, 1] if index.inserts_first else [1, 2, 3, 4])
    index.holds(b"\x00\x01\x00", [5])
    index.holds(b"\x01\x00\x00", [6])


@case
def short_keys_share_partitions():
    with Asked("punordered_by_two") as index:
        short_keys(index)
    with Asked("pordered_by_two") as index:
        short_keys(index)
        index.next_has(b"", [5])
        index.prev_has(b"", [6], cycled=True)
