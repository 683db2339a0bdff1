"""What an index of each kind holds: the list of each index key, done to by plain rules."""
from bisect import bisect_left, bisect_right, insort

from harness.session import word, words
from harness.walk import Walk, edit

# How many bytes of a key an index key of each kind has. Missing ones are zeros.
WIDTHS = {
    "unordered": 1,
    "unordered_by_hash": 1,
    "ordered": 1,
    "ordered_by_eight": 8,
    "ordered_by_arrays": 3,
    "plain": 1,
    "punordered": 2,
    "punordered_by_two": 3,
    "punordered_wide": 3,
    "pordered": 2,
    "pordered_by_two": 3,
    "pordered_wide": 3,
}

# How many of them tell the partition.
PARTITION_BYTES = {
    "punordered": 1,
    "punordered_by_two": 2,
    "punordered_wide": 1,
    "pordered": 1,
    "pordered_by_two": 2,
    "pordered_wide": 1,
}


class Lists:
    """What an index of a kind holds. A method that is named as a call does the call, and gives its answer."""

    def __init__(self, kind):
        self.kind = kind
        self.width = WIDTHS[kind]
        self.partition_bytes = PARTITION_BYTES.get(kind, 0)
        self.inserts_first = not kind.startswith("pordered")
        self.has_order = kind == "plain" or "unordered" not in kind
        self.batches_by_key = self.has_order and kind != "plain"
        self.lists = {}
        self.slots = []
        self.items = 0
        self.pruned = 0

    def slot(self, key):
        """The index key of a key, as bytes, which order as the index keys do."""
        return bytes(key)[: self.width].ljust(self.width, b"\0")

    def partition(self, key):
        """The partition of a key."""
        return int.from_bytes(self.slot(key)[: self.partition_bytes], "big")

    def partitions(self):
        """How many partitions there are."""
        return 256**self.partition_bytes

    def list_at(self, key):
        """The values of a key, in order."""
        return list(self.lists.get(self.slot(key), ()))

    def put(self, key, values):
        """A key has these values from now on."""
        slot = self.slot(key)
        before = self.lists.pop(slot, None)
        if before is not None:
            self.items -= len(before)
        if values:
            self.lists[slot] = list(values)
            self.items += len(values)
        if values and before is None:
            insort(self.slots, slot)
        elif before is not None and not values:
            del self.slots[bisect_left(self.slots, slot)]

    def counts(self):
        return f"{len(self.lists)} {self.items} {self.pruned}"

    def get(self, key):
        return words(self.list_at(key))

    def insert(self, key, value):
        values = self.list_at(key)
        self.put(key, [value, *values] if self.inserts_first else [*values, value])
        return "ok"

    def get_or_insert(self, key, value):
        """A key without values gets one. Tells whether it did."""
        if self.list_at(key):
            return False
        self.put(key, [value])
        return True

    def remove(self, key):
        self.pruned += len(self.list_at(key))
        self.put(key, [])
        return "ok"

    def retain(self, key, bits):
        walk = Walk(self.list_at(key))
        asked = walk.answer("retain", bits)
        self.leave(key, walk)
        return asked

    def insert_and_retain(self, key, value, bits):
        """Asks on the new value last. It doesn't count as taken out if it doesn't stay."""
        values = self.list_at(key)
        walk = Walk([*values, value])
        asked = walk.answer("retain", bits)
        stays = bits >> len(values) & 1
        self.leave(key, walk)
        self.pruned -= 0 if stays else 1
        return asked

    def leave(self, key, walk):
        """A key has the list that a walk leaves."""
        self.pruned += walk.taken
        self.put(key, walk.list())

    def edit(self, key, moves):
        """The answer, and whether the list had no value at some time of the edit."""
        if not self.list_at(key):
            return "none", False
        answer, walk = edit(self.list_at(key), moves)
        self.leave(key, walk)
        return answer, walk.was_empty

    def edit_or_insert(self, key, value, moves):
        """As `edit`."""
        if self.get_or_insert(key, value):
            return "inserted", False
        return self.edit(key, moves)

    def many(self, keys):
        """What a batch visits: by place, or by index key and then by place."""
        places = list(range(len(keys)))
        if self.batches_by_key:
            places.sort(key=lambda place: self.slot(keys[place]))
        visits = [f"{place} {value}" for place in places for value in self.list_at(keys[place])]
        return " ".join([*visits, "ok"])

    def next(self, key):
        return self.neighbour(bisect_right(self.slots, self.slot(key)), 0)

    def prev(self, key):
        return self.neighbour(bisect_left(self.slots, self.slot(key)) - 1, -1)

    def neighbour(self, place, other_end):
        """The values of the index key at a place, or else those at the other end, flagged."""
        if not self.slots:
            return "none"
        if 0 <= place < len(self.slots):
            return self.values_at(place)
        return self.values_at(other_end) + " cycled"

    def values_at(self, place):
        """The values of the index key at a place of all."""
        return words(self.lists[self.slots[place]])

    def first(self):
        return self.values_at(0) if self.slots else "none"

    def last(self):
        return self.values_at(-1) if self.slots else "none"

    def clear(self, session):
        """All keys are removed."""
        for slot in list(self.slots):
            session.ask(f"remove {word(slot)}", self.remove(slot))

    def call(self, session, numbers, key, chosen):
        """One of sixteen calls by key, asked and done. Those below 5 give a cursor, and 5 and 6 only take values out.
        Tells whether the list had no value at some time of an edit by a cursor."""
        name = word(key)
        if chosen < 2:
            value, moves = numbers.next(), random_moves(numbers)
            answer, was_empty = self.edit_or_insert(key, value, moves)
            session.ask(" ".join(["edit_or_insert", name, str(value), *moves]), answer)
            return was_empty
        if chosen < 5:
            moves = random_moves(numbers)
            answer, was_empty = self.edit(key, moves)
            session.ask(" ".join(["edit", name, *moves]), answer)
            return was_empty
        if chosen == 5:
            bits = numbers.next()
            session.ask(f"retain {name} {bits}", self.retain(key, bits))
        elif chosen == 6:
            session.ask(f"remove {name}", self.remove(key))
        elif chosen < 9:
            value, bits = numbers.next(), numbers.next()
            session.ask(f"insert_and_retain {name} {value} {bits}", self.insert_and_retain(key, value, bits))
        else:
            value = numbers.next()
            session.ask(f"insert {name} {value}", self.insert(key, value))
        return False

    def compare(self, session, key):
        """The list of a key, and the counts of all."""
        session.ask(f"get {word(key)}", self.get(key))
        session.ask("counts", self.counts())

    def compare_any(self, session, numbers):
        """The list of any key, by itself and in a batch behind the empty key. If there is an order, the neighbours of
        any key and the ends."""
        key = random_key(numbers.next())
        session.ask(f"get {word(key)}", self.get(key))
        session.ask(f"many x {word(key)}", self.many([b"", key]))
        if self.has_order:
            key = random_key(numbers.next())
            session.ask(f"next {word(key)}", self.next(key))
            session.ask(f"prev {word(key)}", self.prev(key))
            session.ask("first", self.first())
            session.ask("last", self.last())

    def compare_all(self, session):
        """The list of each key that occurs, and the counts."""
        for number in range(48):
            key = random_key(number)
            session.ask(f"get {word(key)}", self.get(key))
        session.ask("counts", self.counts())


def random_key(number):
    """A key of up to two bytes, of four that occur."""
    return bytes([97 + number % 4, 97 + number // 4 % 4])[: number // 16 % 3]


def random_move(number):
    """A move of a cursor, whether its state allows that or not."""
    chosen = number // 8 % 16
    if chosen < 2:
        return f"insert:{number}"
    if chosen < 6:
        return "delete" if number % 2 else f"update:{number}"
    if chosen < 8:
        return f"{'find' if chosen == 6 else 'retain'}:{number // 128}"
    return "next"


def random_moves(numbers, count=None):
    """So many moves, or up to seven."""
    count = numbers.next() % 8 if count is None else count
    return [random_move(numbers.next()) for _ in range(count)]
