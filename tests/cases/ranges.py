"""Ranges of partitions, built apart by cursors, walked and installed."""
from harness.asked import Asked
from harness.case import BY_ONE, case_of
from harness.lists import Lists, random_key, random_moves
from harness.session import word, words as in_words
from harness.xorshift import Numbers

# How many calls of ranges are made.
CALLS = 3000


def build(index):
    """A range at 0x80 of 2, with three keys, and a value behind the first one's."""
    index.ask("range 128 2", "ok")
    for key, value in [("x8001", 1), ("x8002", 2), ("x8107", 3)]:
        index.ask(f"range_edit_or_insert {key} 0 {value}", "inserted")
    index.ask("range_edit_or_insert x8001ff 0 4 next next insert:4", "need_next 1 active end done ok done")


@case_of(*BY_ONE)
def installs_a_range(*words):
    with Asked(*words) as index:
        build(index)
        index.ask("range_holds x8200 0", "false")
        index.ask("range_counts 0", "128 2 3 4 0")
        index.ask("range_values 0", "1 2 3 4")
        index.counts(0, 0, 0)
        index.ask("can_install 0", "true")
        index.ask("install 0", "ok")
        index.counts(3, 4, 0)
        index.holds(b"\x80\x01", [1, 4])
        index.holds(b"\x81\x07", [3])


@case_of(*BY_ONE)
def installs_an_edited_range(*words):
    """Edits where the cursor is on a value, before one, and past the end; values that were taken out are counted."""
    with Asked(*words) as index:
        index.inserts(b"\x82\x01", 7)
        build(index)
        moves = "next update:5 next delete next insert:6"
        answers = "1 active ok active 4 active ok need_next end done ok done"
        index.ask(f"range_edit_or_insert x8001 0 9 {moves}", f"need_next {answers}")
        index.ask("range_values 0", "2 3 5 6")
        index.ask("can_install 0", "true")
        index.ask("install 0", "ok")
        index.counts(4, 5, 1)
        index.holds(b"\x80\x01", [5, 6])
        index.holds(b"\x82\x01", [7])


@case_of(*BY_ONE)
def tells_what_is_free(*words):
    """Which partitions and ranges are empty in an index that holds 9 under [80,01], and a range of no partition."""
    with Asked(*words) as index:
        index.inserts(b"\x80\x01", 9)
        for number, (offset, count, has_room) in enumerate([(0x80, 2, "false"), (0x7F, 2, "false"), (0x81, 1, "true")]):
            index.ask(f"range {offset} {count}", "ok")
            index.ask(f"can_install {number}", has_room)
        index.ask("install 0", "unallowed")
        index.ask("range 256 1", "unallowed")
        index.ask("range 256 0", "ok")
        index.ask("can_install 3", "true")
        index.ask("install 3", "ok")
        index.counts(1, 1, 0)
        index.ask("partitions", 256)
        index.ask("free 128", "false")
        index.ask("free 129", "true")
        index.ask("free 256", "unallowed")
        index.ask("partition x8001", 0x80)


@case_of(*BY_ONE)
def range_gives_a_long_list(*words):
    """A range with one list of three thousand values gives each of them once."""
    with Asked(*words) as index:
        numbers = Numbers()
        values = [numbers.next() for _ in range(2999)]
        index.ask("range 128 1", "ok")
        index.ask("range_edit_or_insert x8001 0 1", "inserted")
        moves = " ".join(f"insert:{value}" for value in values)
        index.ask(f"range_edit x8001 0 find:0 {moves}", "need_next 1 past done" + " ok done" * len(values))
        index.ask("range_values 0", in_words(sorted([1, *values])))


@case_of(*BY_ONE, "punordered_by_two", "pordered_by_two", "pordered_wide")
def ranges_keep_lists(*words):
    """Two ranges that cover all partitions, called by keys that they hold, answer as lists do, and so does the index
    once they are installed."""
    with Asked(*words) as index:
        lists, numbers = Lists(words[0]), Numbers()
        cut = lists.partition(b"bb")
        index.ask(f"range 0 {cut}", "ok")
        index.ask(f"range {cut} {lists.partitions() - cut}", "ok")
        for _ in range(CALLS):
            key = random_key(numbers.next())
            is_high = lists.partition(key) >= cut
            index.ask(f"range_holds {word(key)} 0", "false" if is_high else "true")
            call(index, lists, numbers, key, 1 if is_high else 0)
        if lists.pruned == 0:
            raise ValueError("no value was taken out")
        has_values(index, lists, cut)
        index.ask("install 1", "ok")
        index.ask("install 0", "ok")
        lists.compare_all(index)


def call(index, lists, numbers, key, number):
    """One call of a range by a key that it holds: an insertion, or an edit where the key has values."""
    value, moves = numbers.next(), random_moves(numbers)
    if value % 8 == 0:
        index.ask(f"range_insert {word(key)} {number} {value}", lists.insert(key, value))
    elif value % 8 < 5:
        answer, _ = lists.edit_or_insert(key, value, moves)
        index.ask(" ".join(["range_edit_or_insert", word(key), str(number), str(value), *moves]), answer)
    else:
        answer, _ = lists.edit(key, moves)
        index.ask(" ".join(["range_edit", word(key), str(number), *moves]), answer)


def has_values(index, lists, cut):
    """The values of two ranges are those of the lists, each once."""
    low, high = [], []
    for slot in lists.slots:
        (high if lists.partition(slot) >= cut else low).extend(lists.list_at(slot))
    index.ask("range_values 0", in_words(sorted(low)))
    index.ask("range_values 1", in_words(sorted(high)))
