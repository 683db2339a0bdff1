"""An index whose partitions spill, called some ten thousand times, stands as the rules say, and answers as lists do.
Ranges of it are made, called and installed on the way."""
from functools import partial

from harness.case import register
from harness.lists import Lists, random_key, random_moves
from harness.session import Session, word
from harness.xorshift import Numbers

# How many calls by key are made at each threshold.
CALLS = 20_000

# How many keys are drawn for a range, of which it holds some.
DRAWS = 200

# The partitions of the keys that occur: the one of the empty key, and one for each first byte.
PARTITIONS = (0, 0x61, 0x62, 0x63, 0x64)

THRESHOLDS = (1, 2, 3, 8, 64, 512)

# Calls of `Lists.call`: one that edits a list by a cursor, one that takes a key out and one that inserts a value; and
# behind them one that grows a list by a cursor.
EDIT = 2
REMOVE = 6
INSERT = 9
GROW = 16


class Standings:
    """How partitions stand, by the rules alone."""

    def __init__(self, threshold):
        self.threshold = threshold
        self.spilled = set()
        self.spills = 0
        self.moved = 0
        self.returns = 0

    def reaches(self, partition, entries):
        """A partition of so many values spills if its arrays have reached the threshold."""
        if entries >= self.threshold and partition not in self.spilled:
            self.spilled.add(partition)
            self.spills += 1
            self.moved += entries

    def goes_back(self, partition, entries):
        """A spilled partition of fewer values than half the threshold goes back to arrays."""
        if partition in self.spilled and 2 * entries < self.threshold:
            self.spilled.discard(partition)
            self.moved += entries
            self.returns += 1

    def follows(self, met, entries, chosen, was_empty):
        """A call by key was made, whose partition now has so many values. It spills what has reached the threshold
        first. An edit by its cursor never spills. A call that takes values out moves a small partition back last."""
        is_edit = chosen < 5 or chosen == GROW
        self.reaches(met.partition, met.entries)
        if is_edit and met.held > 0:
            if was_empty and met.entries == met.held:
                self.spilled.discard(met.partition)
            return
        self.reaches(met.partition, entries)
        if entries == 0:
            self.spilled.discard(met.partition)
        if 5 <= chosen < INSERT:
            self.goes_back(met.partition, entries)

    def owed(self, partition, entries, of_range):
        """What a partition of so many values is yet to pay for, of an index or of a range."""
        if partition in self.spilled:
            return entries if of_range else min(entries, max(0, self.threshold - entries))
        return 2 * entries if of_range else max(0, 2 * entries - self.threshold)

    def is_paid(self, held, partitions, of_range, pruned):
        """What was moved is paid for: with what all partitions owe, it is at most twice the values and three times
        those taken out."""
        owed = self.moved + sum(self.owed(partition, held[partition], of_range) for partition in partitions)
        assert owed <= 2 * sum(held[partition] for partition in partitions) + 3 * pruned

    def joins(self, others, partitions):
        """Those of a range of some partitions are put in the place of those here, and its spills are added."""
        self.spilled = self.spilled.difference(partitions) | others.spilled
        self.spills += others.spills
        self.moved += others.moved

    def moves(self):
        """How many spills there ever were, and how many values were ever moved."""
        return f"{self.spills} {self.moved}"

    def standing(self, held, partition):
        """Whether a partition is spilled, and how many of its values stand in arrays."""
        return "true 0" if partition in self.spilled else f"false {held[partition]}"


class Met:
    """What a call of a key meets: its partition, how many values that has, and how many the key has."""

    def __init__(self, lists, key):
        self.partition = lists.partition(key)
        self.entries = entries_of(lists)[self.partition]
        self.held = len(lists.list_at(key))


def entries_of(lists):
    """How many values each partition by one byte has."""
    held = dict.fromkeys(PARTITIONS, 0)
    for slot, values in lists.lists.items():
        held[slot[0]] += len(values)
    return held


class ShortNumbers(Numbers):
    """Numbers of 24 bits each, which keep the lines short that have some hundred of them."""

    def next(self):
        return super().next() >> 40


class Stood:
    """The calls of an index at a threshold, with what is kept beside it."""

    def __init__(self, threshold):
        self.session = Session("pordered", threshold)
        self.session.ask("threshold", threshold)
        self.lists = Lists("pordered")
        self.standings = Standings(threshold)
        self.numbers = ShortNumbers()

    def chosen(self, number, held):
        """Which call is made where a partition has so many values: any, and the more insertions the fewer there are."""
        threshold = self.standings.threshold
        any_call = number // 64 % 17
        is_near = threshold - 4 <= held <= threshold + 4
        rarely = threshold // (128 if is_near else 2)
        if number // 2048 % (rarely + 1) == 0:
            return any_call
        return GROW if any_call == 0 and (is_near or held < threshold // 2) else INSERT

    def growing(self, threshold):
        """The moves of a cursor that lets a list grow: at most by a quarter of the threshold and one more."""
        count = self.numbers.next() % (threshold // 4 + 2)
        return ["find:0", *(f"insert:{self.numbers.next()}" for _ in range(count))]

    def called(self, key, chosen):
        """One call by a key, which then has its list; its partition then stands as the rules say."""
        met = Met(self.lists, key)
        was_empty = False
        if chosen == GROW:
            moves = self.growing(self.standings.threshold)
            answer, _ = self.lists.edit(key, moves)
            self.session.ask(" ".join(["edit", word(key), *moves]), answer)
        else:
            was_empty = self.lists.call(self.session, self.numbers, key, chosen)
        self.session.ask(f"get {word(key)}", self.lists.get(key))
        self.standings.follows(met, entries_of(self.lists)[met.partition], chosen, was_empty)

    def has_kept(self):
        """The index has the counts of the lists, and stands as the rules say."""
        held = entries_of(self.lists)
        self.session.ask("counts", self.lists.counts())
        self.session.ask("moves", self.standings.moves())
        for partition in PARTITIONS:
            self.session.ask(f"standing {partition}", self.standings.standing(held, partition))
        self.session.ask("spilled_count", len(self.standings.spilled))
        self.standings.is_paid(held, PARTITIONS, False, self.lists.pruned)

    def round(self, is_emptying):
        """One call by any key, which takes values out where that is asked for."""
        number = self.numbers.next()
        key = random_key(number)
        chosen = self.chosen(number, entries_of(self.lists)[self.lists.partition(key)])
        self.called(key, min(chosen, REMOVE) if is_emptying else chosen)
        self.has_kept()

    def called_in_range(self, standings, partitions):
        """One call of the range by a key, if it holds that."""
        number = self.numbers.next()
        key = random_key(number)
        met = Met(self.lists, key)
        holds = met.partition in partitions
        self.session.ask(f"range_holds {word(key)} 0", "true" if holds else "false")
        if not holds:
            return
        is_growing = number // 64 % 8 == 0
        value = self.numbers.next()
        moves = self.growing(standings.threshold) if is_growing else random_moves(self.numbers)
        if is_growing or value % 8 >= 5:
            answer, was_empty = self.lists.edit(key, moves)
            self.session.ask(" ".join(["range_edit", word(key), "0", *moves]), answer)
        else:
            answer, was_empty = self.lists.edit_or_insert(key, value, moves)
            self.session.ask(" ".join(["range_edit_or_insert", word(key), "0", str(value), *moves]), answer)
        standings.follows(met, entries_of(self.lists)[met.partition], EDIT, was_empty)

    def install(self):
        """A range of some partitions, of an index that spills at any threshold, is called some hundred times, stands as
        the rules say, and is installed once its partitions are cleared."""
        number = self.numbers.next()
        first = number % 5
        partitions = PARTITIONS[first : first + 1 + number // 5 % 2]
        threshold = THRESHOLDS[self.numbers.next() % len(THRESHOLDS)]
        span = partitions[-1] - partitions[0] + 1
        self.session.ask(f"range_at {partitions[0]} {span} {threshold}", "ok")
        for key in map(random_key, range(48)):
            if self.lists.partition(key) in partitions:
                self.called(key, REMOVE)
        standings = Standings(threshold)
        pruned = self.lists.pruned
        for _ in range(DRAWS):
            self.called_in_range(standings, partitions)
            held = entries_of(self.lists)
            self.session.ask("range_moves 0", standings.moves())
            for partition in partitions:
                self.session.ask(f"range_standing 0 {partition}", standings.standing(held, partition))
            standings.is_paid(held, partitions, True, self.lists.pruned - pruned)
        self.session.ask("can_install 0", "true")
        self.session.ask("install 0", "ok")
        self.standings.joins(standings, partitions)
        self.lists.compare_all(self.session)
        self.has_kept()


def stands_at(threshold):
    """An index that spills at a threshold answers and stands as what is kept beside it, and so do ranges of others."""
    stood = Stood(threshold)
    filling = 4 * threshold + 96
    cycle = filling + 128
    for number in range(CALLS):
        turn = number % cycle
        stood.round(turn >= filling)
        if turn % 8 == 0:
            stood.lists.compare_any(stood.session, stood.numbers)
        if turn == cycle - 1:
            stood.install()
    assert stood.standings.spills > 0, "partitions were spilled"
    assert (stood.standings.returns > 0) == (threshold > 2), "and moved back"
    stood.session.check()


for threshold in THRESHOLDS:
    register(f"partitions_stand_at_{threshold}", partial(stands_at, threshold))
