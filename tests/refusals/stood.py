"""Sessions over partitions that spill: behind each call, refused or not, its partition stands as the rules say."""
from collections import Counter
from copy import deepcopy
from types import SimpleNamespace

from cases.standings import EDIT, INSERT, Standings
from harness.lists import Lists
from refusals.answers import REFUSED, Kept
from refusals.task import Calls, Wrong

# Calls by key that move a small partition back last, and those that want memory for a spill alone.
RETURNS = ("remove", "retain", "insert_and_retain")
INSERTS_NOTHING = ("edit", "remove", "retain")

# Calls by index key, before which no partition spills.
BY_INDEX_KEY = ("insert_at", "edit_at")

CALLS = ("insert", "edit_or_insert", *RETURNS, "edit", *BY_INDEX_KEY)
CALLS_OF_RANGE = ("range_edit", "range_edit_or_insert", "range_insert_at", "range_edit_at")

# The partitions of the range that sessions install.
INSTALLED = (0x80, 0x81)


def partition_of(word):
    """The partition of a key as a word, by its first byte."""
    return int(word[1:3] or "0", 16)


def looks(line):
    """Lines that tell how a partition stands behind a call."""
    words = line.split(" ")
    if words[0] in CALLS:
        return [f"standing {partition_of(words[1])}", "moves"]
    if words[0] in CALLS_OF_RANGE:
        return [f"range_standing 0 {partition_of(words[1])}", "range_moves 0"]
    if words[0] == "install":
        return [*(f"standing {partition}" for partition in INSTALLED), "moves"]
    return []


class Stood:
    """The lists of an index or a range, and how its partitions stand."""

    def __init__(self, threshold):
        self.lists = Lists("pordered")
        self.standings = Standings(threshold)

    def entries(self, partition):
        """How many values a partition has."""
        return sum(len(values) for slot, values in self.lists.lists.items() if slot[0] == partition)

    def told(self, standings, partitions):
        """What the lines of `looks` answer where partitions stand so."""
        held = {partition: self.entries(partition) for partition in partitions}
        return [*(standings.standing(held, partition) for partition in partitions), standings.moves()]

    def make(self, name, key, numbers, moves):
        """An accepted call. Tells whether the list had no value at some time of an edit."""
        if name in ("edit", "edit_at"):
            return self.lists.edit(key, moves)[1]
        if name == "edit_or_insert":
            return self.lists.edit_or_insert(key, numbers[0], moves)[1]
        if name == "insert_at":
            values = self.lists.list_at(key)
            values.insert(numbers[1], numbers[0])
            self.lists.put(key, values)
        elif name == "remove":
            self.lists.remove(key)
        else:
            getattr(self.lists, name)(key, *numbers[: 2 if name == "insert_and_retain" else 1])
        return False

    def call(self, words, answer):
        """A call by key: how its partition may stand then. Of two ways the first is that it was moved back."""
        name, key = words[0].replace("range_", ""), bytes.fromhex(words[1][1:])
        met = SimpleNamespace(partition=self.lists.partition(key), held=len(self.lists.list_at(key)))
        met.entries = self.entries(met.partition)
        settled = deepcopy(self.standings)
        if name not in BY_INDEX_KEY:
            settled.reaches(met.partition, met.entries)
        if answer == REFUSED:
            if name in INSERTS_NOTHING and settled.spills == self.standings.spills:
                raise Wrong(f"{' '.join(words)}: refused where no spill is due")
            return [self.standings, settled]
        if answer == "unallowed":
            return [self.standings]
        if any(word.startswith("insert:") for word in words):
            words, answer = Kept([], []).moved(words, answer)
        numbers = [int(word) for word in words[2:] if word.isdigit()]
        moves = [word for word in words[2:] if not word.isdigit()]
        was_empty = self.make(name, key, numbers[1:] if words[0] in CALLS_OF_RANGE else numbers, moves)
        entries = self.entries(met.partition)
        if name in BY_INDEX_KEY:
            if was_empty and met.entries == met.held:
                settled.spilled.discard(met.partition)
            return [settled]
        settled = deepcopy(self.standings)
        settled.follows(met, entries, EDIT if name.startswith("edit") else INSERT, was_empty)
        back = deepcopy(settled)
        if name in RETURNS:
            back.goes_back(met.partition, entries)
        return [settled] if back.returns == settled.returns else [back, settled]

    def joins(self, other):
        """A range is installed."""
        self.standings.joins(other.standings, INSTALLED)
        for slot, values in other.lists.lists.items():
            self.lists.put(slot, values)


class Standing(Calls):
    """A session of such an index, with lines that tell how it stands behind each call."""

    def __init__(self, name, command, lines, threshold, most=None, wanted=()):
        behind = [looks(line) for line in lines]
        looked = [told for line, more in zip(lines, behind) for told in [line, *more]]
        super().__init__(name, command, looked, most)
        self.threshold = threshold
        self.wanted = [told for answer, more in zip(wanted, behind) for told in [answer, *more]]

    def check(self, status, answers, error):
        tally = super().check(status, answers, error)
        returns = self.follow(answers)
        tally["refusals"] += returns["refused"]
        return tally + Counter({f"{self.name} return {outcome}": count for outcome, count in returns.items()})

    def follow(self, answers):
        """Compares how partitions stand. Counts how often a small one was moved back, and how often that was refused."""
        index, area, returns = Stood(self.threshold), Stood(self.threshold), Counter()
        for place, line in enumerate(self.lines[: len(answers)]):
            words, count = line.split(" "), len(looks(line))
            given = answers[place + 1 : place + 1 + count]
            if count == 0 or len(given) < count:
                continue
            if words[0] == "install":
                if answers[place] == "ok":
                    index.joins(area)
                stood, ways, partitions = index, [index.standings], INSTALLED
            else:
                stood = area if words[0] in CALLS_OF_RANGE else index
                ways, partitions = stood.call(words, answers[place]), [partition_of(words[1])]
            told = [stood.told(way, partitions) for way in ways]
            if given not in told:
                raise Wrong(f"{line}: {given} is not how it stands, {told}")
            stood.standings = ways[told.index(given)]
            if answers[place] != REFUSED and len(ways) == 2:
                returns["accepted" if told.index(given) == 0 else "refused"] += 1
        return returns
