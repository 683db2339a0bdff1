"""The immutable index, its table, a log in segments and the arrays of a partition, each beside a plain model: what it
has to answer to a line."""
from bisect import bisect_left, bisect_right

from harness.case import case
from harness.session import Session, Wrong, shown, word, words
from harness.xorshift import MASK, Numbers


class Among(str):
    """Numbers in ascending order, of which there are at least some, and at most some others too."""

    def __new__(cls, least, most):
        told = super().__new__(cls, f"{words(sorted(least))}, or with some of {words(sorted(most))}")
        told.least, told.most = set(least), set(most)
        return told

    def __eq__(self, answer):
        numbers = [] if answer == "none" else [int(number) for number in answer.split(" ")]
        return numbers == sorted(set(numbers)) and self.least <= set(numbers) <= self.most

    def __ne__(self, answer):
        return not self == answer


class AtLeast(str):
    """A number that is one or more."""

    def __new__(cls, least):
        told = super().__new__(cls, f"at least {least}")
        told.least = least
        return told

    def __eq__(self, answer):
        return int(answer) >= self.least

    def __ne__(self, answer):
        return not self == answer


class Model:
    """What has to be answered: by the method that is named as the line, from its keys and numbers."""

    def answer(self, line):
        name, *rest = line.split(" ")
        if name == "+":
            return self.keeps(*rest)
        given = [bytes.fromhex(text[1:]) if text.startswith("x") else int(text) for text in rest]
        return getattr(self, name)(*given)

    def follow(self, lines, answers):
        """Lines are answered so."""
        for line, answer in zip(lines, answers):
            wanted = self.answer(line)
            if answer != wanted:
                raise Wrong(f"{line}\n  wanted {shown(wanted)}\n  answer {shown(answer)}")
        agree(lines, answers)


def agree(lines, answers):
    """What a table contains by a hash are the candidates of the line before."""
    for place, line in enumerate(lines[: len(answers)]):
        if line.startswith("contains ") and answers[place] != answers[place - 1]:
            raise Wrong(f"{line}\n  answer {shown(answers[place])}\n  candidates {shown(answers[place - 1])}")


class Immutable(Model):
    """Positions, each with the index key that it has."""

    def __init__(self, width, start=0):
        self.width = width
        self.slots = {}
        self.start = self.end = start
        self.pruned_count = self.removals = 0
        self.marks = []

    def slot(self, key):
        return key[: self.width].ljust(self.width, b"\0")

    def is_free(self, position):
        return self.start <= position and position not in self.slots

    def insert(self, key, position):
        if not self.is_free(position):
            return "unallowed"
        self.slots[position] = self.slot(key)
        self.end = max(self.end, position + 1)
        return "ok"

    def get(self, key):
        return words(sorted(position for position, slot in self.slots.items() if slot == self.slot(key)))

    def prune(self, start):
        if start > self.start:
            self.removals += max(0, min(self.end, start) - self.start)
            pruned = [position for position in self.slots if position < start]
            self.pruned_count += len(pruned)
            for position in pruned:
                del self.slots[position]
            self.start, self.end = start, max(self.end, start)
        return "ok"

    def counts(self):
        return f"{len(self.slots)} {self.start} {self.pruned_count} {self.removals}"

    def indexed(self, start, count):
        return " ".join([*(str(position) for position in range(start, start + count) if position in self.slots), "ok"])

    def empty(self):
        return "false" if self.slots else "true"

    def keeps(self, name, *rest):
        self.marks.append(" ".join([name, *rest]))
        return "+"

    def run(self):
        told = [{"ok": "done", "unallowed": "skipped"}[self.answer(mark)] for mark in self.marks]
        self.marks = []
        return " ".join([*told, "ok"])


class Segments(Model):
    """A log whose segments have 4,096 records each."""

    def __init__(self):
        self.index = Immutable(2)

    def append(self, key):
        position = self.index.end
        self.index.insert(key, position)
        return str(position)

    def get(self, key):
        return self.index.get(key)

    def prune(self, segment):
        return self.index.prune(segment * 4096) if segment < 2**52 else "unallowed"


# Positions in a table are below this.
POSITIONS = 200


class Table(Model):
    """Positions, each with the hash that it is stored under, of which a table keeps the top eight bits."""

    def __init__(self):
        self.hashes = {}
        self.removals = 0

    def insert(self, number, position):
        if position in self.hashes or position >= POSITIONS:
            return "unallowed"
        self.hashes[position] = number
        return "ok"

    def remove(self, number, position):
        """By the position's own hash, or by one of another fingerprint."""
        stored = self.hashes.get(position)
        if stored is not None and stored != number and stored >> 56 == number >> 56:
            raise ValueError("it may be a candidate")
        if position >= POSITIONS:
            return "unallowed"
        self.removals += 1
        if stored == number:
            del self.hashes[position]
        return "true" if stored == number else "false"

    def candidates(self, number):
        least = [position for position, stored in self.hashes.items() if stored == number]
        most = [position for position, stored in self.hashes.items() if stored >> 56 == number >> 56]
        return Among(least, most)

    contains = candidates

    def counts(self):
        return f"{len(self.hashes)} {'false' if self.hashes else 'true'} {self.removals}"


class Arrays(Model):
    """The values of each key, in order."""

    def __init__(self):
        self.keys = []
        self.values = []
        self.least_room = 0

    def places(self, key):
        return bisect_left(self.keys, key), bisect_right(self.keys, key)

    def run(self, start, end):
        return words(self.values[start:end])

    def insert(self, key, value):
        end = self.places(key)[1]
        self.keys.insert(end, key)
        self.values.insert(end, value)
        self.least_room = max(0, self.least_room - 1)
        return "ok"

    def take(self, start, end):
        del self.keys[start:end]
        del self.values[start:end]
        self.least_room += end - start

    def remove(self, key):
        self.take(*self.places(key))
        return "ok"

    def get(self, key):
        return self.run(*self.places(key))

    def len(self, key):
        return words(self.places(key))

    def next(self, key):
        end = self.places(key)[1]
        return self.get(self.keys[end]) if end < len(self.keys) else "none"

    def prev(self, key):
        start = self.places(key)[0]
        return self.get(self.keys[start - 1]) if start else "none"

    def first(self):
        return self.get(self.keys[0]) if self.keys else "none"

    def last(self):
        return self.get(self.keys[-1]) if self.keys else "none"

    def at(self, place):
        return f"{self.keys[place]} {self.values[place]}" if place < len(self.keys) else "unallowed"

    def set_at(self, place, value):
        if place >= len(self.keys):
            return "unallowed"
        self.values[place] = value
        return "ok"

    def remove_at(self, place):
        if place >= len(self.keys):
            return "unallowed"
        value = self.values[place]
        self.take(place, place + 1)
        return str(value)

    def many(self):
        return " ".join([*map(str, self.values), "false" if self.values else "true"])

    def counts(self):
        return str(len(self.keys))

    def reserve(self, additional):
        self.least_room = max(self.least_room, additional)
        return "ok"

    def room(self):
        return AtLeast(self.least_room)

    def drain(self):
        told = [f"of {key} {self.get(key)}" for key in sorted(set(self.keys))]
        self.keys, self.values, self.least_room = [], [], 0
        return " ".join([*told, "ok"])

    def size(self):
        """Two vectors and no more."""
        return "48"


# What the program takes for an index of positions, and how many bytes of a key it keeps.
WIDTHS = {"immutable": 2, "immutable_by_eight": 8, "immutable_for_four": 8}


def model_of(kind, number=0):
    """The model of a kind that takes a number, which is 0 where it is left out."""
    if kind in WIDTHS:
        return Immutable(WIDTHS[kind], number)
    return {"segments": Segments, "table": Table, "arrays": Arrays}[kind]()


class Asked:
    """A session beside its model, whose calls are made at the end."""

    def __init__(self, kind, *number):
        self.session = Session(kind, *number)
        self.model = model_of(kind, *number)

    def ask(self, *lines):
        """Lines, answered as by the model."""
        for line in lines:
            self.session.ask(line, self.model.answer(line))

    def tells(self, line, wanted):
        """A line, answered so, as the model has it too."""
        if self.model.answer(line) != wanted:
            raise ValueError(f"{line} is not {wanted} by the model")
        self.session.ask(line, wanted)

    def put(self, key, position):
        """A key at a position that is free."""
        self.tells(f"insert {word(key)} {position}", "ok")
        self.tells(f"indexed {position} 1", f"{position} ok")

    def __enter__(self):
        return self

    def __exit__(self, kind, *rest):
        if kind is None:
            agree(self.session.lines, self.session.check())


def eight(byte):
    return bytes([byte]) * 8


def agreeing_keys(count, shift):
    """Keys of eight bytes, one at each position, whose numbers differ in some of their bits alone, from one on."""
    session = Session("immutable_by_eight")
    keys = [word((position << shift).to_bytes(8, "big")) for position in range(count)]
    for position, key in enumerate(keys):
        session.ask(f"insert {key} {position}", "ok")
    for position in range(0, count, 997):
        session.ask(f"get {keys[position]}", position)
    session.ask("counts", f"{count} 0 0 0")
    session.check()


@case
def immutable_keys_agree_in_their_low_half():
    """Where each search passed all positions before, this would take longer than a session may."""
    agreeing_keys(300_000, 32)


@case
def immutable_keys_agree_but_for_their_middle():
    agreeing_keys(20_000, 24)


@case
def immutable_keys_agree_in_their_high_half():
    agreeing_keys(20_000, 0)


@case
def immutable_is_pruned_from_the_front():
    with Asked("immutable_by_eight") as index:
        index.tells("empty", "true")
        for byte, position in enumerate([1, 3, 4, 9, 20]):
            index.put(eight(byte), position)
        index.tells("counts", "5 0 0 0")
        for start, counts in [(2, "4 2 1 2"), (1, "4 2 1 2"), (9, "2 9 3 9"), (100, "0 100 5 21")]:
            index.tells(f"prune {start}", "ok")
            index.tells("counts", counts)
        index.tells("empty", "true")
        index.put(eight(9), 101)
        index.tells(f"get {word(eight(9))}", "101")
        index.tells("empty", "false")
        index.tells("insert x09 100", "ok")
        index.tells("insert x09 100", "unallowed")
        index.tells("insert x09 99", "unallowed")


@case
def immutable_refuses_the_last_position_far_from_it():
    with Asked("immutable_by_eight") as index:
        index.tells(f"indexed {MASK} 1", "ok")
        index.session.ask(f"insert x01 {MASK}", "refused far")
        index.session.ask(f"insert x01 {MASK - 1}", "refused memory")
        index.tells("counts", "0 0 0 0")
        index.tells(f"indexed {MASK - 1} 2", "ok")


@case
def immutable_takes_the_last_position_near_it():
    with Asked("immutable_by_eight", MASK) as index:
        index.put(eight(1), MASK)
        index.tells("counts", f"1 {MASK} 0 0")
    with Asked("immutable_by_eight", MASK - 1) as index:
        index.put(eight(1), MASK)
        index.tells(f"prune {MASK}", "ok")
        index.tells("counts", f"1 {MASK} 0 1")


@case
def immutable_never_finds_a_skipped_cell():
    with Asked("immutable_by_eight") as index:
        index.put(eight(0), 1)
        index.put(eight(1), 3)
        index.tells("indexed 0 5", "1 3 ok")
        index.put(eight(7), 2)
        for byte, position in [(7, 2), (1, 3), (0, 1)]:
            index.tells(f"get {word(eight(byte))}", f"{position}")
        index.tells("counts", "3 0 0 0")


@case
def immutable_keys_share_their_positions():
    with Asked("immutable") as index:
        for key, position in [(b"aa1", 1), (b"aa2", 3), (b"bb1", 4)]:
            index.put(key, position)
        for key, positions in [(b"aa9", "1 3"), (b"bb1", "4"), (b"cc1", "none")]:
            index.tells(f"get {word(key)}", positions)
        index.tells("counts", "3 0 0 0")


# What a number is multiplied by for its hash.
GOLDEN = 0x9E3779B97F4A7C15


@case
def immutable_tells_keys_of_one_fingerprint_apart():
    first, second = 0x123456789ABCDEF0, 0x9615EFB00DF9DEF0
    if (second - first) * GOLDEN & MASK != 1 << 16:
        raise ValueError("the hashes are not next to each other")
    with Asked("immutable_by_eight") as index:
        for key, position in [(first, 1), (second, 3)]:
            index.put(key.to_bytes(8, "big"), position)
        for key, position in [(first, "1"), (second, "3")]:
            index.tells(f"get {word(key.to_bytes(8, 'big'))}", position)


@case
def immutable_begins_anywhere():
    with Asked("immutable_by_eight", 40_967) as index:
        index.put(b"first___", 40_967)
        index.put(b"second__", 45_967)
        index.tells("prune 40968", "ok")
        index.tells(f"get {word(b'first___')}", "none")
        index.tells(f"get {word(b'second__')}", "45967")
        index.tells("counts", "1 40968 1 1")


@case
def immutable_is_pruned_at_once():
    with Asked("immutable") as index:
        for number in range(20_000):
            key = (number % 5000).to_bytes(2, "big") + bytes([number // 5000])
            index.put(key, 2 * number + 1)
        index.tells("counts", "20000 0 0 0")
        index.tells("prune 20001", "ok")
        index.tells("counts", "10000 20001 10000 20001")
        index.tells("get x0000", "20001 30001")


@case
def immutable_has_the_room_that_it_was_made_with():
    with Asked("immutable_for_four") as index:
        for position in range(4):
            index.put(eight(position), position)
        index.tells("counts", "4 0 0 0")


def found_under_attack(first, step):
    """Positions of 20,000 keys whose hashes agree in part are found until they are pruned, and then again."""
    keys = [word((first + number * step & MASK).to_bytes(8, "big")) for number in range(20_000)]
    session = Session("immutable_by_eight")
    for start in (0, 30_000):
        for number, key in enumerate(keys):
            session.ask(f"insert {key} {start + number}", "ok")
            session.ask(f"indexed {start + number} 1", f"{start + number} ok")
        session.ask(f"prune {start + 10_000}", "ok")
        for number, key in enumerate(keys):
            session.ask(f"get {key}", "none" if number < 10_000 else start + number)
        session.ask(f"prune {start + 20_000}", "ok")
        session.ask("empty", "true")
    session.check()


@case
def immutable_tells_hashes_of_one_top_byte_apart():
    found_under_attack(0xAB << 56, 1)


@case
def immutable_tells_hashes_of_equal_low_bits_apart():
    found_under_attack(0xAB, 1 << 32)


def mark(index, line):
    """A mark for the next run."""
    index.tells(f"+ {line}", "+")


@case
def immutable_runs_marks():
    """Seven marks, of which three do nothing."""
    with Asked("immutable_by_eight") as index:
        lines = [f"insert {word(eight(1))} 3", f"insert {word(eight(2))} 3", "prune 2", f"insert {word(eight(3))} 1"]
        for line in [*lines, "prune 5", f"insert {word(eight(4))} 5"]:
            mark(index, line)
        index.session.ask(f"+ insert {word(eight(5))} {MASK}", "+")
        index.model.run()
        index.session.ask("run", "done skipped done skipped done done refused memory ok")
        index.tells("counts", "1 5 1 4")
        index.tells(f"get {word(eight(4))}", "5")
        index.tells("run", "ok")


@case
def immutable_answers_as_a_dict():
    """40,000 random marks, by hundreds."""
    with Asked("immutable") as index:
        numbers = Numbers()
        for _ in range(400):
            start = index.model.start
            for _ in range(100):
                number = numbers.next()
                position = max(0, start + number // 8 % 40 - 3)
                if number % 8:
                    mark(index, f"insert {word(bytes([number // 320 % 5]) * 3)} {position}")
                else:
                    mark(index, f"prune {position}")
                    start = max(start, position)
            index.ask("run", "counts", f"indexed {max(0, start - 5)} 60")
            index.ask(*(f"get {word(bytes([byte]) * 3)}" for byte in range(5)))


@case
def segments_are_dropped():
    with Asked("segments") as log:
        for position in range(3):
            log.tells(f"append {word(b'key')}", f"{position}")
        log.tells("prune 0", "ok")
        log.tells(f"get {word(b'ke')}", "0 1 2")
        log.tells(f"get {word(b'kf')}", "none")
        log.tells("prune 1", "ok")
        log.tells(f"get {word(b'key')}", "none")
        log.tells(f"append {word(b'key')}", "4096")
        log.tells(f"get {word(b'key')}", "4096")
        log.tells(f"prune {2**52}", "unallowed")


@case
def table_gives_what_it_was_given():
    with Asked("table") as table:
        table.tells("counts", "0 true 0")
        for number, position in [(5, 1), (5, 2), (9, 3)]:
            table.tells(f"insert {number} {position}", "ok")
            table.tells(f"insert {number} {position}", "unallowed")
        table.ask("candidates 5", "contains 5", "candidates 9", "contains 9")
        table.tells("counts", "3 false 0")
        table.ask(f"candidates {1 << 63}", f"contains {1 << 63}")
        table.tells("remove 5 1", "true")
        table.tells("remove 5 1", "false")
        table.tells(f"remove {1 << 63} 2", "false")
        table.ask("candidates 5", "contains 5")
        table.tells("insert 5 200", "unallowed")
        table.tells("remove 5 200", "unallowed")
        table.tells("counts", "2 false 3")


# Hashes with four different tops and sixteen different low ends. Three of the tops have one control byte.
HASHES = [number % 4 << 56 | number // 4 for number in range(64)]


@case
def table_answers_as_a_dict():
    """Few cells under 20,000 insertions and removals, of hashes that share home cells and fingerprints."""
    with Asked("table") as table:
        numbers = Numbers()
        for count in range(20_000):
            position = numbers.next() % (8 + count % 192)
            number = HASHES[numbers.next() % 64]
            stored = table.model.hashes.get(position)
            if stored is None and count % 3:
                table.tells(f"insert {number} {position}", "ok")
            elif stored is not None and stored >> 56 == number >> 56:
                table.tells(f"remove {stored} {position}", "true")
            else:
                table.tells(f"remove {number} {position}", "false")
            if count % 100 == 0:
                for other in HASHES:
                    table.ask(f"candidates {other}", f"contains {other}")
                table.ask("counts")


@case
def arrays_give_neighbours():
    with Asked("arrays") as arrays:
        for line in ("next 1", "prev 1", "first", "last"):
            arrays.tells(line, "none")
        for key, value in [(10, 100), (20, 200), (20, 222), (30, 300)]:
            arrays.tells(f"insert {key} {value}", "ok")
        for key, values in [(5, "100"), (10, "200 222"), (20, "300"), (30, "none")]:
            arrays.tells(f"next {key}", values)
        for key, values in [(10, "none"), (20, "100"), (25, "200 222"), (999, "300")]:
            arrays.tells(f"prev {key}", values)
        arrays.tells("first", "100")
        arrays.tells("last", "300")
        arrays.tells("get 25", "none")
        arrays.tells("len 25", "3 3")


@case
def arrays_give_runs():
    """While they stand, and those that are taken out."""
    with Asked("arrays") as arrays:
        for key, value in [(10, 1), (20, 2), (10, 11), (10, 111)]:
            arrays.tells(f"insert {key} {value}", "ok")
        arrays.tells("get 10", "1 11 111")
        arrays.tells("len 10", "0 3")
        arrays.tells("len 20", "3 4")
        arrays.tells("counts", "4")
        arrays.tells("many", "1 11 111 2 false")
        arrays.tells("drain", "of 10 1 11 111 of 20 2 ok")
        arrays.tells("many", "true")
        arrays.tells("counts", "0")
        arrays.tells("drain", "ok")


@case
def arrays_have_room():
    with Asked("arrays") as arrays:
        for key, value in [(10, 1), (20, 2), (10, 11)]:
            arrays.tells(f"insert {key} {value}", "ok")
        arrays.tells("reserve 3", "ok")
        arrays.ask("room")
        arrays.tells("insert 30 3", "ok")
        arrays.ask("room")
        arrays.tells("counts", "4")


@case
def arrays_are_edited():
    with Asked("arrays") as arrays:
        for key, value in [(10, 1), (20, 2), (10, 11), (30, 3)]:
            arrays.tells(f"insert {key} {value}", "ok")
        arrays.tells("set_at 1 12", "ok")
        arrays.tells("counts", "4")
        arrays.tells("at 1", "10 12")
        arrays.tells("remove_at 0", "1")
        arrays.tells("remove 20", "ok")
        arrays.tells("many", "12 3 false")
        for line in ("at 2", "set_at 2 1", "remove_at 2"):
            arrays.tells(line, "unallowed")


@case
def arrays_are_two_vectors():
    with Asked("arrays") as arrays:
        arrays.tells("size", "48")


@case
def arrays_answer_as_lists():
    """5,000 random calls."""
    with Asked("arrays") as arrays:
        numbers = Numbers()
        for _ in range(5000):
            number = numbers.next()
            key, value, place = number % 16 * 4096, number >> 32, number // 16 % 64
            line = f"insert {key} {value}"
            if number >> 60 > 8:
                line = [f"remove_at {place}", f"set_at {place} {value}", f"remove {key}"][number // 1024 % 3]
            if number % 997 == 0:
                line = "drain"
            if number % 101 == 0:
                line = f"reserve {place}"
            arrays.ask(line, "room", "many", "counts", f"get {key}", f"len {key}", f"next {key}", f"prev {key}")
            arrays.ask("first", "last", f"at {place}")
