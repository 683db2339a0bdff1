"""Snapshots: what they answer on examples, and beside a sorted list of full keys."""
from bisect import bisect_left, insort

from harness.case import case
from harness.examples import example
from harness.session import Session, word
from harness.xorshift import Numbers

# How many calls are made of each kind.
CALLS = 50_000

# How many snapshots are built.
BUILDS = 500


def set_and_unset(kind):
    """Three keys, of which one is set twice and one is taken out."""
    example(kind, """
        len -> 0 true
        set x0b02 7 -> ok
        set x0b05 8 -> ok
        set x1c01 9 -> ok
        set x0b02 10 -> ok
        len -> 3 false
        get x0b02 -> 10
        prev x0b02 -> none
        next x0b02 -> x0b05 8
        prev x1c01 -> x0b05 8
        next x1c01 -> none
        prev x0b05 -> x0b02 10
        next x0b05 -> x1c01 9
        get x0b03 -> none
        absent x0b03 -> x0b02 10 x0b05 8
        absent x0b05 -> held
        unset x0b05 -> true
        unset x0b05 -> false
        prev x0b02 -> none
        next x0b02 -> x1c01 9
        len -> 2 false
    """)


def zeros_tell_apart(kind):
    """Keys that zeros behind them tell apart."""
    example(kind, """
        set x 1 -> ok
        set x00 2 -> ok
        set x0000 3 -> ok
        prev x -> none
        next x -> x00 2
        prev x00 -> x 1
        next x00 -> x0000 3
        prev x0000 -> x00 2
        next x0000 -> none
        get x000000 -> none
    """)


def built(kind):
    """The last record of a key stands, and so do three under one index key."""
    example(kind, """
        + record x1001 1 -> +
        + record x9001 2 -> +
        + record x1001 3 -> +
        + record x 4 -> +
        + record x100107 5 -> +
        + record x100103 6 -> +
        build 0 128 256 -> ok
        len -> 5 false
        get x1001 -> 3
        get x -> 4
        prev x -> none
        next x -> x1001 3
        prev x1001 -> x 4
        next x1001 -> x100103 6
        prev x100103 -> x1001 3
        next x100103 -> x100107 5
        prev x100107 -> x100103 6
        next x100107 -> x9001 2
        prev xff -> x9001 2
        next xff -> none
    """)


class Keys:
    """Keys with their positions, in the order of the keys."""

    def __init__(self):
        self.keys = []
        self.positions = {}

    def set(self, key, position):
        if key not in self.positions:
            insort(self.keys, key)
        self.positions[key] = position

    def unset(self, key):
        """Tells whether the key was there."""
        if key not in self.positions:
            return False
        self.keys.remove(key)
        del self.positions[key]
        return True

    def entry(self, place):
        """The key at a place, with its position."""
        if not 0 <= place < len(self.keys):
            return "none"
        key = self.keys[place]
        return f"{word(key)} {self.positions[key]}"

    def compare(self, session, key):
        """All that is asked of a key."""
        is_held = key in self.positions
        place = bisect_left(self.keys, key)
        below = self.entry(place - 1)
        above = self.entry(place + is_held)
        name = word(key)
        session.ask(f"get {name}", self.positions.get(key, "none"))
        session.ask(f"prev {name}", below)
        session.ask(f"next {name}", above)
        session.ask("len", f"{len(self.keys)} {'false' if self.keys else 'true'}")
        session.ask(f"absent {name}", "held" if is_held else f"{below} {above}")


def random_key(number):
    """A key: none, one, two or eight of one byte, and up to two more of three that occur."""
    front = (0, 1, 2, 8)[number % 4]
    rest = number // 16
    ends = [b"\0a\xff"[rest // 3**place % 3] for place in range(number // 4 % 3)]
    return b"a" * front + bytes(ends)


def called_beside(kind):
    """Random calls, each of which is followed by what is asked of another key."""
    session = Session(*kind)
    kept = Keys()
    numbers = Numbers()
    for _ in range(CALLS):
        key = random_key(numbers.next())
        number = numbers.next()
        if number % 2 == 0:
            session.ask(f"set {word(key)} {number}", "ok")
            kept.set(key, number)
        else:
            session.ask(f"unset {word(key)}", "true" if kept.unset(key) else "false")
        kept.compare(session, random_key(numbers.next()))
    session.check()


def built_beside(kind):
    """A snapshot that is built of up to 63 records answers as the list does that they are put into one by one."""
    session = Session(*kind)
    numbers = Numbers()
    for _ in range(BUILDS):
        kept = Keys()
        for _ in range(numbers.next() % 64):
            key, position = random_key(numbers.next()), numbers.next()
            session.keep(f"record {word(key)} {position}")
            kept.set(key, position)
        session.ask("build 0 1 97 128 256", "ok")
        for _ in range(32):
            kept.compare(session, random_key(numbers.next()))
    session.check()


def over(*kind):
    """The examples and the random calls, over a kind."""
    set_and_unset(kind)
    zeros_tell_apart(kind)
    called_beside(kind)


def over_partitions(*kind):
    """The same, and the example and the random builds, over a kind whose partitions are by one byte."""
    over(*kind)
    built(kind)
    built_beside(kind)


@case
def snapshot_over_ordered():
    over("snapshot_ordered")


@case
def snapshot_over_ordered_by_two_bytes():
    over("snapshot_ordered_by_two")


@case
def snapshot_over_ordered_by_eight_bytes():
    over("snapshot_ordered_by_eight")


@case
def snapshot_over_partitioned_ordered():
    over_partitions("snapshot_pordered")


@case
def snapshot_over_partitions_that_spill_at_one():
    over_partitions("snapshot_pordered", 1)


@case
def snapshot_over_partitions_that_spill_at_two():
    over_partitions("snapshot_pordered", 2)
