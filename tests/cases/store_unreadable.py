"""The program key_index_store over files of which records no longer read beneath a session: what each of them hides, and how
many reads a key takes that is alike with many others."""
from itertools import combinations, product

from cases.store import (
    FRAME,
    HEAD,
    HEADER,
    IN_ORDER,
    KINDS,
    SUM,
    answers,
    case_of_store,
    compare,
    copy_of,
    file_of,
    is_head,
    is_summed,
    opened,
    record,
    run,
    shared_out,
    unchanged,
    word,
)
from cases.store_compact import live_places, turned
from cases.store_process import Talk
from harness.session import Wrong
from harness.xorshift import Numbers

# Which part of a record doesn't read, the first of them.
PARTS = ("head", "key", "value")

# What keys have in common that are alike in all that an index keeps of them.
FORTY = b"forty bytes that are alike in each key: "


def slot(kind, key):
    """What the index of a kind keeps of a key; keys of which that is the same share a list. Of the hashed one it is a number
    that is another one for each key here."""
    if kind == "hashed":
        return key
    length = 32 if kind.startswith("p") else 31
    return key[:length].ljust(length, b"\0")


def span(key, value, part):
    """Where a part of a record begins, with its checksum, and where it ends."""
    ends = [0, HEAD.size + SUM.size, HEAD.size + 2 * SUM.size + len(key), FRAME + len(key) + len(value)]
    return ends[PARTS.index(part) :][:2]


def unreadable(log, place):
    """The first part that doesn't read of a record at a place of a file, or none."""
    head = log[place : place + HEAD.size + SUM.size]
    if not is_head(head, place):
        return "head"
    _, key_length, value_length = HEAD.unpack_from(head)
    key = log[place + len(head) :][: key_length + SUM.size]
    if not is_summed(key):
        return "key"
    value = log[place + len(head) + len(key) :][: value_length + SUM.size]
    return None if is_summed(value) else "value"


class Held:
    """What a session has to answer, by the keys in their order and the records that don't read."""

    def __init__(self, kind, log):
        self.kind = kind
        self.log = bytearray(log)
        self.values = dict(opened(log)[0])
        self.places = live_places(log)
        self.lines, self.wanted = [], []
        self.status = 0
        self.look()

    def look(self):
        """Which records don't read, and in which part."""
        self.keys = sorted(self.values)
        found = {key: unreadable(self.log, place) for key, place in self.places.items()}
        self.broken = {key: part for key, part in found.items() if part is not None}

    def has_key(self, key):
        """Whether the key of a held record reads."""
        return self.broken.get(key) in (None, "value")

    def turn(self, key, part, number):
        """A bit of a part of a key's record changes, which one by a number; gives where."""
        begin, end = span(key, self.values[key], part)
        bit = number % (8 * (end - begin))
        place = self.places[key] + begin + bit // 8
        self.log[place] ^= 1 << bit % 8
        self.look()
        return place

    def located(self, key):
        """How many keys stand in front of a key, whether it is found, and whether it may be one of those that don't read: they
        stand right between the nearest keys of its list that do."""
        kept = slot(self.kind, key)
        front = sum(slot(self.kind, other) < kept for other in self.keys)
        own = [other for other in self.keys if slot(self.kind, other) == kept]
        below = [number for number, other in enumerate(own) if self.has_key(other) and other < key]
        place = below[-1] + 1 if below else 0
        if key in own and self.has_key(key):
            return front + own.index(key), True, False
        return front + place, False, place < len(own) and not self.has_key(own[place])

    def ask(self, line, *wanted):
        self.lines.append(line)
        self.wanted.append([*wanted])
        if any(want.startswith(("refused", "gap")) for want in wanted):
            self.status = 1

    def get(self, key):
        _, is_found, is_hidden = self.located(key)
        if is_hidden or is_found and key in self.broken:
            wanted = "refused damaged"
        else:
            wanted = f"value {word(self.values[key])}" if is_found else "none"
        self.ask(f"get {word(key)}", wanted)

    def has(self, key):
        _, is_found, is_hidden = self.located(key)
        self.ask(f"has {word(key)}", "refused damaged" if is_hidden else "yes" if is_found else "no")

    def put(self, key, value):
        if self.located(key)[2]:
            self.ask(f"put {word(key)} {word(value)}", "refused damaged")
            return
        self.places[key] = len(self.log)
        self.values[key] = value
        self.log += record(len(self.log) - len(HEADER), key, value)
        self.broken.pop(key, None)
        self.keys = sorted(self.values)
        self.ask(f"put {word(key)} {word(value)}", "ok")

    def delete(self, key):
        _, is_found, is_hidden = self.located(key)
        self.ask(f"delete {word(key)}", "refused damaged" if is_hidden else "ok" if is_found else "none")
        if is_found:
            self.log += record(len(self.log) - len(HEADER), key, None)
            del self.places[key], self.values[key]
            self.broken.pop(key, None)
            self.keys = sorted(self.values)

    def count(self):
        self.ask("count", f"count {len(self.values)}")

    def entry_at(self, number):
        """The line of the entry of a number in the order of the keys."""
        if not 0 <= number < len(self.keys):
            return "none"
        key = self.keys[number]
        return "refused damaged" if key in self.broken else f"entry {word(key)} {word(self.values[key])}"

    def neighbours(self, key):
        place, is_found, is_hidden = self.located(key)
        below, above = self.entry_at(place - 1), self.entry_at(place + is_found)
        self.ask(f"next {word(key)}", "refused damaged" if is_hidden else above)
        self.ask(f"prev {word(key)}", "refused damaged" if is_hidden else below)
        if is_hidden or not is_found and "refused damaged" in (below, above):
            wanted = "refused damaged"
        else:
            wanted = "held" if is_found else f"between {below.split()[-2:][0]} {above.split()[-2:][0]}"
        self.ask(f"absent {word(key)}", wanted)

    def ends(self):
        self.ask("first", self.entry_at(0))
        self.ask("last", self.entry_at(len(self.keys) - 1))

    def gap(self, key):
        """The line of a record that doesn't read."""
        length = 0 if self.broken[key] == "head" else FRAME + len(key) + len(self.values[key])
        return f"gap {self.places[key]} {length}"

    def scan(self, name, key, count):
        """A scan goes on behind records that don't read, up to the first that does and whose key doesn't begin as asked."""
        lines, entries = [], 0
        for number in range(self.located(key)[0], len(self.keys)):
            other = self.keys[number]
            if entries == count or name == "scan-prefix" and other not in self.broken and not other.startswith(key):
                break
            lines.append(self.gap(other) if other in self.broken else self.entry_at(number))
            entries += other not in self.broken
        self.ask(f"{name} {word(key)} {count}", *lines, "end")

    def read(self, keys):
        """Each call that reads, at each of some keys."""
        for key in keys:
            self.get(key)
            self.has(key)
            if self.kind in IN_ORDER:
                self.neighbours(key)
                self.scan("scan", key, 99)
                self.scan("scan", key, 2)
                self.scan("scan-prefix", key, 99)
        if self.kind in IN_ORDER:
            self.ends()
        self.count()

    def change(self, keys):
        """Each call that writes, at each of some keys, and back."""
        for key in keys:
            is_held = key in self.values
            if self.broken.get(key) != "value":
                self.put(key, b"new" * (len(key) % 3))
                self.get(key)
                self.delete(key)
                self.has(key)
                self.delete(key)
                if is_held:
                    self.put(key, b"again")
            self.count()

    def speak(self, session):
        """Says the lines, and compares the answers."""
        session.say("".join(line + "\n" for line in self.lines))
        for line, wanted in zip(self.lines, self.wanted):
            given = [session.hear() for _ in wanted]
            compare(f"{line}, where {self.shown()} over {self.kind}", given, wanted)
        self.lines, self.wanted = [], []

    def shown(self):
        return ", ".join(f"{word(key)} has no {part}" for key, part in self.broken.items()) or "all reads"


# Of nine keys which are alike: by two, three, four, or not at all.
MIXED = [b"a" * 40, b"a" * 40, b"a" * 40, b"b", b"c" * 40, b"c" * 40, b"d" * 32, b"e" * 31, b"e" * 31]


def keys_of(layout, count):
    """So many keys in order, alike or not."""
    if layout == "alone":
        return [bytes([16 * number + 16]) for number in range(count)]
    if layout == "alike":
        return [FORTY + bytes([16 * number]) * (number > 0) for number in range(count)]
    if layout == "zeros":
        return [b"zeros" + bytes(number) for number in range(count)]
    return [key + bytes([16 * number + 16]) for number, key in enumerate(MIXED)][(9 - count) // 2 :][:count]


LAYOUTS = ("alone", "alike", "zeros", "mixed")


def beside(keys):
    """Keys, and others between them, below and above all."""
    others = [b"", b"\xff" * 50, FORTY[:36], *(key[:36] for key in keys)]
    for key in keys:
        others += [key + b"\0", key[:-1] + bytes([max(0, key[-1] - 1)]) + b"\xff"]
    return sorted({*keys, *others})


def damages():
    """A layout, how many keys, and which parts of which of them don't read: one, two side by side or apart, or all."""
    for layout, count in product(LAYOUTS, range(1, 10)):
        for number, part in product(range(count), PARTS):
            yield layout, count, {number: part}
        for turn, (one, other) in enumerate(combinations(range(count), 2)):
            if other == one + 1 or turn % 5 == 0:
                yield layout, count, {one: PARTS[turn % 3], other: PARTS[(turn + count) % 3]}
        for part in PARTS:
            yield layout, count, dict.fromkeys(range(count), part)


def hides_its_own_key(file, kind, layout, count, damage, number):
    """Each call at each key and beside it, where some records don't read; then each is set whose value alone doesn't, and
    nothing of these is hidden any more; then all is deleted that can be."""
    keys = keys_of(layout, count)
    numbers = Numbers(number + 1)
    order = sorted(keys, key=lambda _: numbers.next())
    held = Held(kind, file_of(*((key, bytes([len(key)]) * (number % 4)) for number, key in enumerate(order))))
    file.write_bytes(held.log)
    with Talk(file, kind) as session:
        session.ask("count", f"count {count}")
        for place, part in damage.items():
            held.turn(keys[place], part, numbers.next())
        compare("what doesn't read, by the model", held.broken, {keys[place]: part for place, part in damage.items()})
        file.write_bytes(held.log)
        some = beside(keys)
        held.read(some)
        held.speak(session)
        held.change(some)
        held.speak(session)
        for key in keys:
            if held.broken.get(key) == "value":
                held.put(key, b"set anew")
        held.read(keys)
        held.speak(session)
        for key in keys:
            held.delete(key)
        held.read(some if number % 4 == 0 else keys)
        held.speak(session)
        left = [part for part in damage.values() if part != "value"]
        if len(held.values) < len(left) or not left and held.values:
            raise Wrong(f"{len(held.values)} keys are left of {len(left)} that don't read")
        session.end("", held.status)
    unchanged(file, bytes(held.log))


@case_of_store(*IN_ORDER)
def has_records_that_do_not_read(file, kind):
    for number, (layout, count, damage) in enumerate(damages()):
        hides_its_own_key(file, kind, layout, count, damage, number)


@case_of_store("unordered", "punordered", "hashed")
def has_records_that_do_not_read_in_no_order(file, kind):
    """Each kind takes each fifth."""
    for number, (layout, count, damage) in enumerate(shared_out(kind, damages())):
        hides_its_own_key(file, kind, layout, count, damage, number)


@case_of_store(*KINDS)
def has_each_bit_turned_in_a_list(file, kind):
    """Of the second of three keys that are alike; each kind takes each fifth. Where it is of the value, the key is found."""
    keys = [FORTY + end for end in (b"a", b"m", b"z")]
    log = file_of(*((key, b"five!") for key in keys))
    place = live_places(log)[keys[1]]
    behind = len(record(0, keys[1], b"five!"))
    for number in shared_out(kind, range(8 * behind)):
        held = Held(kind, log)
        held.log[:] = turned(log, 8 * place + number)
        held.look()
        compare("how many don't read", [*held.broken], [keys[1]])
        file.write_bytes(log)
        with Talk(file, kind) as session:
            session.ask("count", "count 3")
            file.write_bytes(held.log)
            held.read([*keys, FORTY, FORTY + b"b", FORTY + b"y", FORTY + b"zz"])
            held.put(FORTY + b"b", b"")
            held.put(FORTY + b"zz", b"")
            held.put(keys[1], b"anew")
            held.read(keys)
            held.speak(session)
            session.end("", held.status)
        unchanged(file, bytes(held.log))


@case_of_store(*KINDS)
def has_long_records_that_do_not_read(file, kind):
    """Keys that are longer than what is read of a record at first, and values that are; a bit of one of them turned."""
    numbers = Numbers(KINDS.index(kind) + 41)
    keys = [FORTY + b"k" * size for size in (0, 70, 71, 72, 500, 3000, 70_000)]
    values = [b"v" * size for size in (0, 100, 900, 1100, 66_000)]
    log = file_of(*((key, values[number % 5]) for number, key in enumerate(reversed(keys))))
    for key, part in product(keys, PARTS):
        held = Held(kind, log)
        file.write_bytes(log)
        with Talk(file, kind) as session:
            session.ask("count", f"count {len(keys)}")
            held.turn(key, part, numbers.next())
            file.write_bytes(held.log)
            for other in [*keys, key + b"\0", key[:-1]]:
                held.get(other)
                held.has(other)
                if kind in IN_ORDER:
                    held.neighbours(other)
                held.speak(session)
            if kind in IN_ORDER:
                held.scan("scan", b"", 99)
                held.speak(session)
            session.end("", held.status)
        unchanged(file, bytes(held.log))


@case_of_store(*KINDS)
def has_noise_in_its_lists(file, kind):
    """Spans of noise or of zeros in files of sixty calls, of 24 keys, some alike: each call at each of the keys."""
    keys = [*keys_of("mixed", 9), *keys_of("alike", 7), *keys_of("zeros", 5), *keys_of("alone", 3)]
    numbers = Numbers(KINDS.index(kind) + 61)
    hidden = 0
    for _ in range(60):
        calls, values = [], {}
        for _ in range(60):
            number = numbers.next()
            key, value = keys[number % len(keys)], bytes([number >> 32 & 0xFF]) * (number >> 40 & 15)
            if number >> 60 < 4 and key in values:
                calls.append((key, None))
                del values[key]
            else:
                calls.append((key, value))
                values[key] = value
        log = file_of(*calls)
        held = Held(kind, log)
        compare("the entries", held.values, values)
        for _ in range(1 + numbers.next() % 5):
            one, other = numbers.next(), numbers.next()
            place = len(HEADER) + one % (len(log) - len(HEADER))
            size = min(1 + other % (1, 20, 200, 1000)[one >> 40 & 3], len(log) - place)
            noise = bytes(numbers.next() & 0xFF for _ in range(size))
            held.log[place : place + size] = noise if one >> 50 & 1 else bytes(size)
        held.look()
        hidden += len(held.broken)
        file.write_bytes(log)
        with Talk(file, kind) as session:
            session.ask("count", f"count {len(values)}")
            file.write_bytes(held.log)
            held.read(beside(keys))
            held.speak(session)
            held.change(keys)
            held.read(keys)
            held.speak(session)
            session.end("", held.status)
        unchanged(file, bytes(held.log))
    if not 60 < hidden < 60 * len(keys) // 2:
        raise Wrong(f"{hidden} records don't read, in 60 files")


@case_of_store(*KINDS)
def goes_on_beside_records_that_do_not_read(file, kind):
    """Two thousand random calls, of 64 keys of which eight each are alike; each twentieth time a bit of a record is turned,
    or one that was is turned back, and then all of it reads as before."""
    keys = [FORTY[:39] + bytes([number // 8, number % 8]) for number in range(64)]
    numbers = Numbers(KINDS.index(kind) + 51)
    log = file_of(*((key, b"first") for key in keys[::3]))
    held = Held(kind, log)
    file.write_bytes(log)
    flips, refused = {}, 0
    with Talk(file, kind) as session:
        session.ask("count", f"count {len(held.values)}")
        for _ in range(100):
            for _ in range(20):
                number = numbers.next()
                key = keys[number % 64]
                if number >> 60 < 3:
                    held.delete(key)
                elif number >> 60 < 8:
                    held.put(key, bytes([number >> 32 & 0xFF]) * (number >> 40 & 3))
                elif number >> 60 < 10:
                    held.get(key)
                elif number >> 60 < 12 or kind not in IN_ORDER:
                    held.has(key)
                elif number >> 60 < 14:
                    held.neighbours(key)
                else:
                    name, length = ("scan", 41) if number >> 50 & 1 else ("scan-prefix", 40)
                    held.scan(name, key[:length], number >> 40 & 7)
            refused += sum(want == ["refused damaged"] for want in held.wanted)
            held.speak(session)
            one, other = numbers.next(), numbers.next()
            if len(flips) > 8 or one >> 62 == 0 and flips:
                place = [*flips][one % len(flips)]
                bit = flips.pop(place)
            else:
                key = held.keys[one % len(held.keys)]
                begin, end = span(key, held.values[key], PARTS[(one >> 32) % 3])
                place, bit = held.places[key] + begin + other % (end - begin), 1 << (other >> 32) % 8
                flips[place] = flips.get(place, 0) ^ bit
            held.log[place] ^= bit
            held.look()
            with file.open("r+b") as bytes_of_file:
                bytes_of_file.seek(place)
                bytes_of_file.write(held.log[place : place + 1])
        for place, bit in flips.items():
            held.log[place] ^= bit
        file.write_bytes(held.log)
        held.look()
        compare("what doesn't read", held.broken, {})
        held.read(keys)
        held.speak(session)
        session.end("", held.status)
    unchanged(file, bytes(held.log))
    compare("the entries when it is opened anew", dict(opened(bytes(held.log))[0]), held.values)
    if not 100 < refused < 1000:
        raise Wrong(f"{refused} calls of 2,000 are refused")


@case_of_store(*IN_ORDER)
def tells_gaps_where_a_scan_comes_by(file, kind):
    """Calls that come by no record that doesn't read tell nothing of it, and the status is 0. A gap has its place in the file
    that the session has, which is another one behind a move; also where the file is only read."""
    log = file_of((b"c", b"older"), (b"a", b"1"), (b"b", b"2"), (b"c", b"3"))
    place = live_places(log)[b"b"]
    lines = ["scan 61 1", "scan-prefix 61 1", "scan 63 9", "scan - 0", "get 61", "has 63", "prev 61", "next 63", "first", "last"]
    first, last = "entry 61 31", "entry 63 33"
    wanted = [first, "end", first, "end", last, "end", "end", "value 31", "yes", "none", "none", first, last]
    file.write_bytes(log)
    with Talk(file, kind) as session:
        session.ask("count", "count 3")
        file.write_bytes(turned(log, 8 * place))
        session.say("".join(line + "\n" for line in lines))
        compare("what is answered beside a gap", [session.hear() for _ in wanted], wanted)
        session.end()
    length = len(record(0, b"b", b"2"))
    for flags, (bit, told) in product([[], ["--read-only"], ["--headless"]], [(0, 0), (8 * length - 1, length)]):
        file.write_bytes(log)
        with Talk(*flags, file, kind) as session:
            session.ask("count", "count 3")
            file.write_bytes(turned(log, 8 * place + bit))
            wanted = ["entry 61 31", f"gap {place} {told}", "entry 63 33", "end"]
            session.say("scan - 2\n")
            compare("a scan", [session.hear() for _ in wanted], wanted)
            session.end("", 1)
    moved = file.with_name("moved.log")
    file.write_bytes(log)
    with Talk(file, kind) as session:
        session.ask(f"move {moved}", "ok")
        copy = moved.read_bytes()
        moved.write_bytes(turned(copy, 8 * live_places(copy)[b"b"]))
        wanted = ["entry 61 31", f"gap {live_places(copy)[b'b']} 0", "entry 63 33", "end"]
        session.say("scan 61 9\n")
        compare("a scan behind a move", [session.hear() for _ in wanted], wanted)
        session.end("", 1)
    unchanged(file, log)


def reads_of(file, kind, lines, most, is_fresh=False):
    """How many reads of the file a session makes, if not more than so many; over the file, or each time where there is none."""
    least, mark = 0, file.with_name("mark")
    while least < most:
        middle = (least + most) // 2
        mark.unlink(missing_ok=True)
        if is_fresh:
            file.unlink(missing_ok=True)
        run([file, kind], lines, FAIL="pread", FAIL_AT=middle + 1, FAIL_MARK=mark)
        least, most = (middle + 1, most) if mark.exists() else (least, middle)
    return least


@case_of_store(*KINDS)
def reads_few_of_many_alike(file, kind):
    """Of eight hundred keys that are alike in forty bytes, too few to be filed behind these, set in another order: how many reads
    opening takes, and each call behind it, at keys that are there and at others. Of the hashed kind a list has one key."""
    keys = [FORTY + b"%03d" % (number * 389 % 800) for number in range(800)]
    log = copy_of(dict.fromkeys(keys, b"value"))
    file.write_bytes(log)
    opening = reads_of(file, kind, [], 1 << 15)
    if not (8 * 750 if kind != "hashed" else 0) < opening <= 9_600:
        raise Wrong(f"opening takes {opening} reads")
    mark = file.with_name("mark")
    some = [FORTY + end for end in (b"", b"000", b"001", b"0010", b"199", b"200", b"399", b"400", b"7777", b"799", b"x")]
    for number, key in enumerate(some):
        above = min((other for other in keys if other > key), default=None)
        below = max((other for other in keys if other < key), default=None)
        above, below = ("none" if other is None else f"entry {word(other)} 76616c7565" for other in (above, below))
        wanted = {"get": "value 76616c7565", "has": "yes", "delete": "ok"}
        if key not in keys:
            wanted = {"get": "none", "has": "no", "delete": "none"}
        wanted["put"] = "ok"
        if kind in IN_ORDER:
            wanted |= {"next": above, "prev": below}
        for name, want in [*wanted.items()][number % 2 :: 2]:
            file.write_bytes(log)
            mark.unlink(missing_ok=True)
            line = f"{name} {word(key)}" + " 6e6577" * (name == "put")
            answers([file, kind], [line], [want], FAIL="pread", FAIL_AT=opening + 26, FAIL_MARK=mark)
            compare(f"{line}, and whether it takes more than 25 reads", mark.exists(), False)
