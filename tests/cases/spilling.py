"""Partitions that spill, on examples: when they do, what they then answer, and how ranges of them are installed."""
from harness.case import case
from harness.examples import example
from harness.session import words


def at(threshold, text):
    """The calls of a text, of an index whose partitions spill at a threshold."""
    example(("pordered", threshold), f"threshold -> {threshold}\ninserts_first -> false\n" + text)


@case
def values_go_behind():
    """Values are put in behind those of their key, and a partition tells how many it holds."""
    at(512, """
        insert x1002 1 -> ok
        insert x1002 2 -> ok
        insert x1002 3 -> ok
        get x1002 -> 1 2 3
        insert x1001 4 -> ok
        standing 16 -> false 4
        standing 17 -> false 0
        remove x1002 -> ok
        standing 16 -> false 1
        counts -> 1 1 3
    """)


def spilled_by_insertions():
    """Four insertions at a threshold of 2: the second one spills the partition, and the others go into the tree."""
    at(2, """
        insert x1001 1 -> ok
        standing 16 -> false 1
        insert x1002 2 -> ok
        standing 16 -> true 0
        insert x1003 3 -> ok
        insert x1002 22 -> ok
        get x1001 -> 1
        get x1002 -> 2 22
        get x1003 -> 3
        spilled_count -> 1
        moves -> 1 2
        counts -> 3 4 0
    """)


def spilled_by_one():
    """At a threshold of 1 each first value of a partition spills it."""
    at(1, """
        insert x1001 1 -> ok
        standing 16 -> true 0
        spilled_count -> 1
        moves -> 1 1
        counts -> 1 1 0
        remove x1001 -> ok
        spilled_count -> 0
        moves -> 1 1
        counts -> 0 0 1
        insert x1001 2 -> ok
        spilled_count -> 1
        moves -> 2 2
        counts -> 1 1 1
        get x1001 -> 2
    """)


def spilled_by_what_is_left():
    """At a threshold of 3, `insert_and_retain` goes by what it leaves: first two values of three, then three."""
    at(3, """
        insert x1001 3 -> ok
        insert x1001 1 -> ok
        insert_and_retain x1001 2 5 -> 3 1 2 ok
        standing 16 -> false 2
        spilled_count -> 0
        moves -> 0 0
        counts -> 1 2 1
        get x1001 -> 3 2
        insert_and_retain x1002 4 0 -> 4 ok
        standing 16 -> false 2
        insert_and_retain x1002 4 1 -> 4 ok
        standing 16 -> true 0
        spilled_count -> 1
        moves -> 1 3
        counts -> 2 3 1
        insert_and_retain x1001 5 5 -> 3 2 5 ok
        get x1001 -> 3 5
        get x1002 -> 4
        spilled_count -> 1
        moves -> 1 3
        counts -> 2 3 2
        retain x1001 0 -> 3 5 ok
        standing 16 -> false 1
        moves -> 1 4
        retain x1002 0 -> 4 ok
        spilled_count -> 0
        moves -> 1 4
        counts -> 0 0 5
    """)


GROWN_BY_CURSOR = """
    insert x4001 1 -> ok
    edit x4001 next next insert:2 -> need_next 1 active end done ok done
    standing 64 -> false 2
    spilled_count -> 0
    moves -> 0 0
"""


def spilled_by_each_call():
    """A cursor lets arrays grow to a threshold of 2, and each of these calls by key spills them."""
    for call, values in (
        ("remove x4002 -> ok", (1, 2)),
        ("retain x4002 0 -> ok", (1, 2)),
        ("edit x4002 -> none", (1, 2)),
        ("edit_or_insert x4001 9 -> need_next", (1, 2)),
        ("insert x4001 3 -> ok", (1, 2, 3)),
        ("insert_and_retain x4002 3 0 -> 3 ok", (1, 2)),
    ):
        at(2, f"""
            {GROWN_BY_CURSOR}
            {call}
            standing 64 -> true 0
            spilled_count -> 1
            moves -> 1 2
            get x4001 -> {words(values)}
            counts -> 1 {len(values)} 0
        """)


def spilled_and_emptied():
    """A call that leaves arrays that had reached the threshold without values has spilled them all the same."""
    at(2, f"""
        {GROWN_BY_CURSOR}
        remove x4001 -> ok
        standing 64 -> false 0
        spilled_count -> 0
        moves -> 1 2
        counts -> 0 0 2
    """)


def others_stand():
    """A call by key leaves the other partitions as they stand: spilled, at the threshold, or below it."""
    at(2, f"""
        {GROWN_BY_CURSOR}
        insert x4101 1 -> ok
        insert x4201 1 -> ok
        insert x4201 2 -> ok
        standing 64 -> false 2
        standing 65 -> false 1
        standing 66 -> true 0
        spilled_count -> 1
        moves -> 1 2
        remove x4301 -> ok
        remove x4201 -> ok
        standing 64 -> false 2
        standing 65 -> false 1
        spilled_count -> 0
        moves -> 1 2
        remove x4002 -> ok
        standing 64 -> true 0
        standing 65 -> false 1
        spilled_count -> 1
        moves -> 2 4
    """)


@case
def default_threshold_is_512():
    """One key of the default threshold, 512: the last of 512 insertions spills."""
    inserted = [f"insert x1001 {value} -> ok" for value in range(512)]
    example(["pordered"], "\n".join([
        "threshold -> 512",
        *inserted[:511],
        "standing 16 -> false 511",
        "spilled_count -> 0",
        "moves -> 0 0",
        inserted[511],
        "standing 16 -> true 0",
        "spilled_count -> 1",
        "moves -> 1 512",
        "counts -> 1 512 0",
        f"get x1001 -> {words(range(512))}",
    ]))


def spilled_by_two_bytes(threshold):
    """By two bytes the keys 01 and 0100 have one index key: their partition spills at a threshold of 1 or 2."""
    example(("pordered_by_two", threshold), f"""
        threshold -> {threshold}
        insert x01 1 -> ok
        insert x0100 2 -> ok
        counts -> 1 2 0
        same_slot x01 x0100 -> true
        same_slot x01 x1002ff -> false
        partition x01 -> 256
        partition x0100 -> 256
        partition x1002ff -> 4098
        standing 256 -> true 0
        moves -> 1 {threshold}
    """)


def lived():
    """A partition spills at a threshold of 2, is emptied by cursors, spills again, and is emptied by `remove`."""
    at(2, """
        spilled_count -> 0
        moves -> 0 0
        counts -> 0 0 0
        insert x1001 1 -> ok
        spilled_count -> 0
        moves -> 0 0
        counts -> 1 1 0
        insert x1002 2 -> ok
        spilled_count -> 1
        moves -> 1 2
        counts -> 2 2 0
        edit x1001 next delete -> need_next 1 active ok need_next
        spilled_count -> 1
        moves -> 1 2
        counts -> 1 1 1
        edit x1002 next delete -> need_next 2 active ok need_next
        spilled_count -> 0
        moves -> 1 2
        counts -> 0 0 2
        insert x1003 3 -> ok
        spilled_count -> 0
        moves -> 1 2
        counts -> 1 1 2
        insert x1004 4 -> ok
        spilled_count -> 1
        moves -> 2 4
        counts -> 2 2 2
        remove x1003 -> ok
        spilled_count -> 1
        moves -> 2 4
        counts -> 1 1 3
        remove x1004 -> ok
        spilled_count -> 0
        moves -> 2 4
        counts -> 0 0 4
    """)


def emptied_and_grown_by_cursor():
    """A cursor that empties a spilled partition and goes on puts its values into arrays, which spill later."""
    at(2, """
        insert x1001 1 -> ok
        insert x1002 2 -> ok
        edit x1002 next delete -> need_next 2 active ok need_next
        edit x1001 next delete next insert:5 insert:6 -> need_next 1 active ok need_next end done ok done ok done
        standing 16 -> false 2
        spilled_count -> 0
        moves -> 1 2
        counts -> 1 2 2
        get x1001 -> 5 6
        remove x1009 -> ok
        spilled_count -> 1
        moves -> 2 4
        counts -> 1 2 2
        get x1001 -> 5 6
    """)


def many_keys(count):
    """As many keys of the partition 10, from 1, each with its number as its value."""
    return "\n".join(f"insert x10{number:02x} {number} -> ok" for number in range(1, count + 1))


def within(bound, counts, moves):
    """Counts and moves. The bound of the moved values is two for each held value and three for each taken out."""
    _, items, pruned = counts
    assert 2 * items + 3 * pruned == bound and moves[1] <= bound
    return f"counts -> {words(counts)}\nmoves -> {words(moves)}"


def moved_back_by_remove():
    """At a threshold of 8, keys are removed: at four left the partition is spilled still, at three it is in arrays."""
    removed = [f"remove x10{number:02x} -> ok\nstanding 16 -> true 0\nmoves -> 1 8\n" for number in range(1, 5)]
    at(8, f"""
        {many_keys(8)}
        standing 16 -> true 0
        moves -> 1 8
        {"".join(removed)}
        remove x1005 -> ok
        standing 16 -> false 3
        {within(21, (3, 3, 5), (1, 11))}
        get x1006 -> 6
        get x1007 -> 7
        get x1008 -> 8
    """)


def moved_back_by_the_next_call():
    """Keys are deleted by cursors, which move nothing back, nor do calls that only find: the next `remove` does."""
    deleted = [f"edit x10{key:02x} next delete -> need_next {key} active ok need_next\n" for key in range(1, 6)]
    at(8, f"""
        {many_keys(8)}
        {"".join(deleted)}
        standing 16 -> true 0
        moves -> 1 8
        counts -> 3 3 5
        edit x1009 -> none
        edit_or_insert x1006 9 -> need_next
        standing 16 -> true 0
        remove x1009 -> ok
        standing 16 -> false 3
        {within(21, (3, 3, 5), (1, 11))}
    """)


def moved_back_and_spilled_again():
    """At a threshold of 3 a partition spills, is moved back, and spills again."""
    at(3, f"""
        {many_keys(3)}
        moves -> 1 3
        remove x1001 -> ok
        standing 16 -> true 0
        remove x1002 -> ok
        standing 16 -> false 1
        {within(8, (1, 1, 2), (1, 4))}
        insert x1001 1 -> ok
        standing 16 -> false 2
        insert x1002 2 -> ok
        standing 16 -> true 0
        {within(12, (3, 3, 2), (2, 7))}
    """)


def spilled_and_moved_back():
    """At a threshold of 8 a cursor lets a list grow to nine values; one call spills all and moves the two that it
    keeps back."""
    inserts = " ".join(f"insert:{value}" for value in range(1, 9))
    at(8, f"""
        insert x1001 0 -> ok
        edit x1001 next next {inserts} -> need_next 0 active end done{" ok done" * 8}
        standing 16 -> false 9
        moves -> 0 0
        insert_and_retain x1001 9 {0b11_0000_0000} -> 0 1 2 3 4 5 6 7 8 9 ok
        standing 16 -> false 2
        {within(28, (1, 2, 8), (1, 11))}
        get x1001 -> 8 9
    """)


def moved_back_in_order():
    """`retain` moves a partition back in its order: keys that rise, and each list as it was."""
    at(8, """
        insert x1003 3 -> ok
        insert x1003 1 -> ok
        insert x1003 2 -> ok
        insert x1005 7 -> ok
        insert x1005 8 -> ok
        insert x1005 9 -> ok
        insert x1005 6 -> ok
        insert x1001 5 -> ok
        standing 16 -> true 0
        retain x1003 5 -> 3 1 2 ok
        retain x1005 0 -> 7 8 9 6 ok
        standing 16 -> false 3
        moves -> 1 11
        get x1001 -> 5
        get x1003 -> 3 2
        next x1001 -> 3 2
        prev x1003 -> 5
    """)


def moved_back_where_installed():
    """A range that spilled at 2 is installed as it stands in an index that spills at 8: the next `remove` moves it
    back."""
    at(8, f"""
        range_at 16 1 2 -> ok
        range_edit_or_insert x1001 0 1 -> inserted
        range_edit_or_insert x1002 0 2 -> inserted
        range_standing 0 16 -> true 0
        range_moves 0 -> 1 2
        can_install 0 -> true
        install 0 -> ok
        spilled_count -> 1
        moves -> 1 2
        remove x1009 -> ok
        standing 16 -> false 2
        {within(4, (2, 2, 0), (1, 4))}
    """)


@case
def neighbours_stand_across_arrays_and_trees():
    """Neighbours at a threshold of 2, where the partitions 10 and 30 are spilled and 20 between them is not."""
    at(2, """
        insert x1001 1 -> ok
        insert x1002 2 -> ok
        insert x2005 5 -> ok
        insert x3007 7 -> ok
        insert x3008 8 -> ok
        spilled_count -> 2
        moves -> 2 4
        first -> 1
        last -> 8
        next x1001 -> 2
        next x1002 -> 5
        next x2005 -> 7
        prev x3007 -> 5
        prev x2005 -> 2
        next x3008 -> 1 cycled
    """)


GROWN_RANGE = """
    range_edit_or_insert x1001 0 1 -> inserted
    range_edit_or_insert x1001ff 0 9 next next insert:2 insert:3 -> need_next 1 active end done ok done ok done
    range_edit_or_insert x2001 0 4 -> inserted
    range_standing 0 16 -> false 3
    range_standing 0 32 -> false 1
    range_moves 0 -> 0 0
"""


def spilled_and_drained_in_range():
    """A range over all partitions spills one and drains it; the index has its counts once it is installed."""
    drained = " ".join(f"{value} active ok need_next" for value in (1, 2, 3))
    at(2, f"""
        range 0 256 -> ok
        {GROWN_RANGE}
        range_edit x1001 0 next delete next delete next delete -> need_next {drained}
        range_standing 0 16 -> false 0
        range_moves 0 -> 1 3
        spilled_count -> 0
        moves -> 0 0
        counts -> 0 0 0
        can_install 0 -> true
        install 0 -> ok
        spilled_count -> 0
        moves -> 1 3
        counts -> 1 1 3
        get x2001 -> 4
    """)


def installed_spilled():
    """A range with a spilled partition is installed as it stands."""
    at(2, """
        range 128 2 -> ok
        range_edit_or_insert x8001 0 1 -> inserted
        range_edit_or_insert x8002 0 2 -> inserted
        range_edit_or_insert x8107 0 3 -> inserted
        range_standing 0 128 -> true 0
        range_standing 0 129 -> false 1
        range_moves 0 -> 1 2
        spilled_count -> 0
        moves -> 0 0
        can_install 0 -> true
        install 0 -> ok
        standing 128 -> true 0
        standing 129 -> false 1
        spilled_count -> 1
        moves -> 1 2
        counts -> 3 3 0
        get x8002 -> 2
        get x8107 -> 3
    """)


def installed_grown():
    """A range with arrays past the threshold is installed as it stands, and they spill at the next call by key."""
    at(2, f"""
        range 16 17 -> ok
        {GROWN_RANGE}
        can_install 0 -> true
        install 0 -> ok
        standing 16 -> false 3
        spilled_count -> 0
        moves -> 0 0
        counts -> 2 4 0
        edit x1009 -> none
        standing 16 -> true 0
        spilled_count -> 1
        moves -> 1 3
        counts -> 2 4 0
        get x1001 -> 1 2 3
    """)


@case
def insertions_spill():
    """Which insertions spill."""
    spilled_by_insertions()
    spilled_by_one()
    spilled_by_what_is_left()


@case
def short_keys_spill():
    """Partitions by two bytes."""
    spilled_by_two_bytes(1)
    spilled_by_two_bytes(2)


@case
def each_call_spills_what_is_due():
    """Each call that spills what a cursor let grow."""
    spilled_by_each_call()
    spilled_and_emptied()
    others_stand()


@case
def spilled_partitions_live():
    """Partitions that are emptied and filled again."""
    lived()
    emptied_and_grown_by_cursor()


@case
def small_partitions_move_back():
    """Spilled partitions that move back."""
    moved_back_by_remove()
    moved_back_by_the_next_call()
    moved_back_and_spilled_again()
    spilled_and_moved_back()
    moved_back_in_order()
    moved_back_where_installed()


@case
def ranges_spill():
    """Ranges that spill."""
    spilled_and_drained_in_range()
    installed_spilled()
    installed_grown()
