"""The program key_index_store: compactions over each kind of index, and over files of which bytes change beneath a session."""
from itertools import product

from cases.store import (
    DAMAGED,
    FRAME,
    HEAD,
    HEADER,
    KINDS,
    SUM,
    VALUE,
    Sessions,
    answers,
    case_of_store,
    compare,
    copy_of,
    dead_in,
    file_of,
    fresh_files,
    gaps,
    grown,
    headed,
    opened,
    reading,
    record,
    run,
    shared_out,
    step,
    summed,
    told_of,
    unchanged,
    word,
)
from cases.store_damage import ALIKE, thirty
from cases.store_process import Talk
from harness.session import Wrong
from harness.xorshift import Numbers


@case_of_store(*KINDS)
def copies_in_the_order_of_the_log(file, kind):
    """Of each key that has a value the newest record, where its place is among the others, whatever the order of keys."""
    log = file_of((b"c", b"1"), (b"a", b"2"), (b"d", b"3"), (b"b", b"4"), (b"c", b"5"), (b"d", None), (b"", b"6"))
    live = [(b"a", b"2"), (b"b", b"4"), (b"c", b"5"), (b"", b"6")]
    copy, moved = file.with_name("copy.log"), file.with_name("moved.log")
    file.write_bytes(log)
    dead = f"dead {len(record(0, b'c', b'1')) + len(record(0, b'd', b'3')) + len(record(0, b'd', None))}"
    lines = ["dead", f"compact {copy}", f"move {moved}", "dead", "put 61 37", "dead", "compact", "dead", "count"]
    wanted = [dead, "ok", "ok", "dead 0", "ok", f"dead {FRAME + 2}", "ok", "dead 0", "count 4"]
    answers([file, kind], lines, wanted)
    unchanged(file, log)
    unchanged(copy, file_of(*live))
    unchanged(moved, file_of(*live[1:], (b"a", b"7")))
    answers([file, kind], ["compact", "delete 62", "dead", "compact"], ["ok", "ok", f"dead {2 * FRAME + 3}", "ok"])
    unchanged(file, file_of(live[0], *live[2:]))


@case_of_store(*KINDS)
def compacts_as_it_goes(file, kind):
    """Two thousand random calls, of keys of which eight each are alike in their first 32 bytes; and each hundred of them a
    copy, a move and one in place, with calls behind each."""
    keys = [b"thirty-two bytes that are alike" + bytes([number // 8, 0, number % 8]) for number in range(64)]
    sessions = Sessions(file, kind)
    numbers = Numbers(KINDS.index(kind) + 3)
    for call in range(2000):
        number = numbers.next()
        key = keys[number % 64]
        if number >> 60 < 6:
            sessions.delete(key)
        else:
            sessions.put(key, bytes([number >> 32 & 0xFF]) * (number >> 40 & 31))
        if call % 100 == 99:
            sessions.dead()
            sessions.compact(file.with_name(f"{call}.copy"))
            sessions.move(file.with_name(f"{call}.log"))
            sessions.hold(keys)
            sessions.put(key, b"moved")
            sessions.delete(keys[number // 64 % 64])
            sessions.dead()
            sessions.compact()
            sessions.dead()
            sessions.put(key, b"in place")
            sessions.hold(keys)
            sessions.check()
            sessions.dead()


@case_of_store(*KINDS)
def reads_the_log_once(file, kind):
    """A compaction goes through the log, and makes no read for a key: fewer than one for ten of them."""
    entries = {b"%05d" % (number * 7919 % 10_007): b"v" * 19 for number in range(10_007)}
    log = copy_of(entries)
    mark, copy = file.with_name("mark"), file.with_name("copy.log")
    for line, wanted in [(f"compact {copy}", "ok"), ("dead", "dead 0"), ("compact", "ok")]:
        file.write_bytes(log)
        given = run([file, kind], [line], FAIL="pread", FAIL_AT=len(entries) // 10, FAIL_MARK=mark)
        compare(f"{line}, and whether there are so many reads", (given, mark.exists()), (([wanted], "", 0), False))
    unchanged(copy, log)
    unchanged(file, log)


def live_places(log):
    """Where the newest record stands in a file's bytes, of each key that has a value."""
    places, place = {}, len(HEADER)
    end = opened(log)[1]
    while place < end:
        key, value, length = reading(log, place)
        places.pop(key, None)
        if value is not None:
            places[key] = place
        place += length
    return places


class Beneath:
    """What a session has to answer and to write of a file of which bytes changed since it was opened."""

    def __init__(self, log, changed):
        """As it was opened, and as it is."""
        self.log, self.changed = log, changed
        self.entries, self.end, self.tail = opened(log)
        front = changed[: self.end]
        places = set(live_places(log).values())
        self.live, place = {}, len(HEADER)
        while place < self.end:
            found = reading(front, place)
            if place in places and not isinstance(found, str):
                self.live[found[0]] = found[1]
            place += step(front, place)
        is_whole = len(self.live) == len(self.entries)
        self.gaps = [] if is_whole else [f"gap {place} {length}" for place, length, _ in gaps(front)]
        self.is_refused = self.tail == DAMAGED or not is_whole
        self.dead = f"dead {dead_in(changed, self.live)}"

    def check(self, file, kind, flags=(), keys=()):
        """A session that counts, copies, compacts in place and moves. What reads is there, and can be changed; each of these
        keys has a value that no longer reads."""
        names = ["copy.log", "moved.log"]
        copy, moved = (file.with_name(name) for name in names)
        for left in file.parent.iterdir():
            left.unlink()
        file.write_bytes(self.log)
        with Talk(*flags, file, kind) as session:
            session.ask("count", f"count {len(self.entries)}")
            file.write_bytes(self.changed)
            self.asks(session, "dead", *self.gaps, self.dead)
            self.asks(session, f"compact {copy}", *self.gaps, "ok")
            if flags or self.is_refused:
                session.ask("compact", "refused read-only" if flags else "refused damaged")
            self.asks(session, "dead", *self.gaps, self.dead)
            unchanged(file, self.changed)
            self.asks(session, f"move {moved}", *self.gaps, "ok")
            for key, value in self.live.items():
                session.ask(f"get {word(key)}", f"value {word(value)}")
            for key in keys:
                session.ask(f"get {word(key)}", "none")
            session.ask("count", f"count {len(self.live)}")
            session.ask("put - 31", "ok")
            session.ask("compact", "ok")
            session.end(told_of(self.log), int(bool(flags) or self.is_refused))
        unchanged(copy, copy_of(self.live))
        others = [(key, value) for key, value in self.live.items() if key != b""]
        unchanged(moved, file_of(*others, (b"", b"1")))
        unchanged(file, self.changed)
        compare("what is there", sorted(path.name for path in file.parent.iterdir()), sorted([file.name, *names]))

    def check_in_place(self, file, kind):
        """A session that compacts in place: that is refused where a key is missing, or where the file was damaged before."""
        for left in file.parent.iterdir():
            left.unlink()
        file.write_bytes(self.log)
        with Talk(file, kind) as session:
            session.ask("count", f"count {len(self.entries)}")
            file.write_bytes(self.changed)
            if self.is_refused:
                session.ask("compact", "refused damaged")
                session.ask("count", f"count {len(self.entries)}")
                session.end(told_of(self.log), 1)
                unchanged(file, self.changed)
            else:
                session.ask("compact", "ok")
                session.ask("dead", "dead 0")
                for key, value in self.entries.items():
                    session.ask(f"get {word(key)}", f"value {word(value)}")
                session.end(told_of(self.log))
                unchanged(file, copy_of(self.entries))
        compare("fresh files that are left over", fresh_files(file), [])

    @staticmethod
    def asks(session, line, *wanted):
        """A line, and each of its answers."""
        session.say(line + "\n")
        for want in wanted:
            compare(line, session.hear(), want)


# A file of which the first and the third record are dead, and the fifth too: it deletes the key of the third.
SOME = [
    (b"one", b"older"),
    (b"two", b"first"),
    (b"three", b"dead"),
    (b"one", b"the newest one"),
    (b"three", None),
    (b"four", b""),
    (b"", b"last"),
]

# The numbers of those that are not.
LIVE = [1, 3, 5, 6]


def turned(log, bit):
    """A file's bytes with a bit of them changed."""
    return log[: bit // 8] + bytes([log[bit // 8] ^ 1 << bit % 8]) + log[bit // 8 + 1 :]


@case_of_store(*KINDS)
def has_a_bit_turned_beneath(file, kind):
    """Each bit of each record, in head, key, value and their checksums: where it is a live record, that is the gap, from its
    place to the next one's, and all others are copied; where it is a dead one, nothing is told, and the copy is whole. Each
    kind takes each fifth."""
    log = file_of(*SOME)
    places = [len(file_of(*SOME[:number])) for number in range(len(SOME) + 1)]
    for bit in shared_out(kind, range(8 * len(HEADER), 8 * len(log))):
        number = max(number for number, place in enumerate(places) if place <= bit // 8)
        key, _ = SOME[number]
        beneath = Beneath(log, turned(log, bit))
        told = [f"gap {places[number]} {places[number + 1] - places[number]}"] if number in LIVE else []
        compare(f"the gaps of the model, bit {bit}", beneath.gaps, told)
        left = {SOME[other][0]: SOME[other][1] for other in LIVE if other != number}
        compare(f"what the model copies, bit {bit}", [*beneath.live.items()], [*left.items()])
        beneath.check(file, kind, keys=[key] if number in LIVE else [])
        beneath.check_in_place(file, kind)


@case_of_store(*KINDS)
def has_two_bits_turned_beneath(file, kind):
    """In two records, at head, key and value of each: bytes of no known key that stand side by side are one gap, and a record
    of which head and key read is one of its own. A dead one is told too, where a live one is missing. Each kind takes each
    fifth."""
    log = file_of(*SOME)
    places = [len(file_of(*SOME[:number])) for number in range(len(SOME))]
    parts = [[0, HEAD.size + SUM.size, FRAME - SUM.size + len(key)] for key, _ in SOME]
    ways = [
        (first, one, second, other)
        for first, second in product(range(len(SOME)), repeat=2)
        for one, other in product(range(3), repeat=2)
        if first < second
    ]
    for number, (first, one, second, other) in enumerate(ways):
        if KINDS[number % len(KINDS)] == kind:
            changed = turned(log, 8 * (places[first] + parts[first][one]))
            changed = turned(changed, 8 * (places[second] + parts[second][other]))
            beneath = Beneath(log, changed)
            sizes = [len(record(0, *some)) for some in SOME]
            told = [f"gap {places[first]} {sizes[first]}", f"gap {places[second]} {sizes[second]}"]
            if second == first + 1 and one < 2 and other < 2:
                told = [f"gap {places[first]} {sizes[first] + sizes[second]}"]
            compare("the gaps of the model", beneath.gaps, told if {first, second} & set(LIVE) else [])
            beneath.check(file, kind)
            beneath.check_in_place(file, kind)


@case_of_store(*KINDS)
def has_noise_beneath(file, kind):
    """Spans of noise or of zeros in a file of thirty calls, which ends in a torn record, in damage, or in neither; in some
    sessions that only read."""
    log, _ = thirty()
    numbers = Numbers(KINDS.index(kind) + 21)
    refused = 0
    for number in range(120):
        some = log + (b"", b"torn", b"no record stands here")[number % 3]
        changed = bytearray(some)
        for _ in range(1 + number % 4):
            one, other = numbers.next(), numbers.next()
            place = len(HEADER) + one % (len(log) - len(HEADER))
            size = min(1 + other % (4, 4, 40, 200)[one >> 40 & 3], len(log) - place)
            noise = bytes(numbers.next() & 0xFF for _ in range(size))
            changed[place : place + size] = noise if one >> 50 & 1 else bytes(size)
        beneath = Beneath(some, bytes(changed))
        refused += bool(beneath.gaps)
        beneath.check(file, kind, ["--read-only"] if number % 5 == 0 else [])
        beneath.check_in_place(file, kind)
    if not 20 < refused < 100:
        raise Wrong(f"{refused} of 120 files miss a key")


@case_of_store(*KINDS)
def has_long_records_changed_beneath(file, kind):
    """Records that end about the ends of the blocks that are read, one of which has a bit turned: in its head, its key or its
    value."""
    sizes = [size + off for size in (1024, 65536) for off in (-21, -1, 0)]
    entries = {bytes([number]): b"w" * size for number, size in enumerate(sizes)}
    entries[b"k" * 3000] = b"long key"
    log, numbers = copy_of(entries), Numbers(KINDS.index(kind) + 31)
    for key, place in live_places(log).items():
        length = FRAME + len(key) + len(entries[key])
        for off in (numbers.next() % 13, 13 + numbers.next() % (len(key) + 4), length - 1 - numbers.next() % 12):
            beneath = Beneath(log, turned(log, 8 * (place + off) + numbers.next() % 8))
            compare("the gaps of the model", beneath.gaps, [f"gap {place} {length}"])
            beneath.check(file, kind, keys=[key])


@case_of_store(*KINDS)
def has_long_lists_beneath(file, kind):
    """Three hundred keys that are alike in their first 32 bytes, each seventh put twice, each tenth deleted: all records read, or
    some don't, whose keys stand side by side in their order. All others are copied."""
    keys = [b"thirty-two bytes that are alike, " + b"%03d" % number for number in range(300)]
    order = [keys[number * 7 % 300] for number in range(300)]
    calls = [(key, key[-3:]) for key in order] + [(key, b"newer") for key in keys[::7]] + [(key, None) for key in keys[::10]]
    log = file_of(*calls)
    places = live_places(log)
    for first, count in [(0, 0), *shared_out(kind, [(first, count) for first in range(0, 300, 60) for count in (1, 3, 70)])]:
        lost = [key for key in keys[first : first + count] if key in places]
        changed = log
        for key in lost:
            changed = turned(changed, 8 * (places[key] + HEAD.size + SUM.size))
        beneath = Beneath(log, changed)
        compare("how many the model copies", len(beneath.live), len(places) - len(lost))
        beneath.check(file, kind, keys=lost)
        beneath.check_in_place(file, kind)


@case_of_store(*KINDS)
def has_a_head_in_a_value_beneath(file, kind):
    """Of a record whose value holds a head that was made for the place where it stands, of a record of this length: where the
    own head is damaged, what that one spans is not looked at, and all of it is told as a gap, nothing taken out of it."""
    first, behind = (b"a", b"1"), [(bytes([number]), b"behind") for number in range(4)]
    place = len(file_of(first, (b"b", b""))) - SUM.size - len(HEADER)
    spans = [0, 7, len(record(0, *behind[0])), 3 * len(record(0, *behind[0])), 2**20]
    for span, bit in product(spans, shared_out(kind, range(8 * (HEAD.size + SUM.size)))):
        log = file_of(first, (b"b", headed(place, VALUE, 0, span) + summed(b"")), *behind)
        beneath = Beneath(log, turned(log, 8 * len(file_of(first)) + bit))
        told = sum(int(gap.split()[2]) for gap in beneath.gaps)
        compare("the bytes of the copy, and of the gaps", told + len(copy_of(beneath.live)), len(log))
        compare("what is copied", beneath.live.items() <= dict([first, *behind]).items(), True)
        beneath.check(file, kind, keys=[b"b"])
        beneath.check_in_place(file, kind)


@case_of_store(*KINDS)
def is_changed_over_a_gap(file, kind):
    """A key whose value doesn't read is put anew, or deleted: nothing is missing then, and a compaction in place is done."""
    log, key = file_of(*SOME), b"two"
    changed = turned(log, 8 * (live_places(log)[key] + len(record(0, key, b""))))
    compare("the gaps of the model", len(Beneath(log, changed).gaps), 1)
    for line, value in ((f"put {word(key)} 6e6577", b"new"), (f"delete {word(key)}", None)):
        file.write_bytes(log)
        after = grown(log, (key, value))
        entries = opened(after)[0]
        with Talk(file, kind) as session:
            session.ask("count", f"count {len(LIVE)}")
            file.write_bytes(changed)
            session.ask(f"get {word(key)}", "refused damaged")
            session.ask("compact", "refused damaged")
            session.ask(line, "ok")
            session.ask("dead", f"dead {dead_in(after, entries)}")
            unchanged(file, grown(changed, (key, value)))
            session.ask("compact", "ok")
            session.ask("dead", "dead 0")
            session.end("", 1)
        unchanged(file, copy_of(entries))


@case_of_store(*KINDS)
def has_no_record_left_beneath(file, kind):
    """Where none reads, the copy has no bytes, and the session goes on over it."""
    log, _ = thirty()
    changed = HEADER + bytes(len(log) - len(HEADER))
    beneath = Beneath(log, changed)
    compare("the gaps of the model", beneath.gaps, [f"gap {len(HEADER)} {len(log) - len(HEADER)}"])
    compare("the count of the model", beneath.dead, f"dead {len(log) - len(HEADER)}")
    beneath.check(file, kind, keys=ALIKE)
    beneath.check_in_place(file, kind)
