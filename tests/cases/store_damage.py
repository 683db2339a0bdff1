"""The program key_index_store over files that are torn, damaged or no stores: what it answers, and what is saved."""
from resource import RUSAGE_CHILDREN, getrusage

from cases.store import (
    DAMAGED,
    HEAD,
    HEADER,
    IN_ORDER,
    KINDS,
    NOTHING,
    SUM,
    TORN,
    VALUE,
    Sessions,
    answers,
    case_of_store,
    compare,
    file_of,
    header,
    headed,
    opened,
    record,
    salvaged,
    shared_out,
    summed,
    told_of,
    unchanged,
    word,
)
from harness.session import Wrong
from harness.xorshift import Numbers

# Two keys alike in their first 32 bytes, and shorter ones.
FRONT = b"thirty-two bytes that are alike:"
ALIKE = [FRONT + b"+", FRONT + b"!", b"thirty", b"thir", b"t", b""]


def thirty():
    """The bytes of a file of thirty calls, and where the record of each call ends, with the entries then."""
    entries, calls = {}, []
    ends = {len(HEADER): {}}
    for number in range(30):
        key = ALIKE[(0, 2, 3, 1, 4, 5, 3)[number % 7]]
        calls.append((key, None if number % 4 == 3 else bytes([number]) * (number % 3)))
        entries[key] = calls[-1][1]
        if entries[key] is None:
            del entries[key]
        ends[len(file_of(*calls))] = dict(entries)
    return file_of(*calls), ends


def is_read(file, kind, log, is_followed):
    """A file of these bytes answers by the records in front of the first place where none stands, and no byte of it
    changes. A salvage copies each whole record. If that is asked, the copy is opened, and the file is changed."""
    saved = file.with_name("saved.log")
    saved.unlink(missing_ok=True)
    sessions = Sessions(file, kind, log=log)
    sessions.hold(ALIKE)
    sessions.salvage(saved)
    sessions.check()
    if not is_followed:
        return
    copy = Sessions(saved, kind, log=saved.read_bytes())
    records = salvaged(log)
    compare("the records that are saved", opened(file_of(*records))[0], copy.entries)
    copy.hold(ALIKE)
    copy.put(b"thir", b"saved")
    copy.check()
    copy.hold(ALIKE)
    copy.check()
    is_changed(file, kind, log)


def is_changed(file, kind, log):
    """A put or a delete cuts a torn end off, and no byte more; over damage it is refused, and so is a compaction in
    place, until a cut."""
    for first in ("delete", "put"):
        sessions = Sessions(file, kind, log=log)
        sessions.delete(b"no key")
        present = next(iter(sessions.entries), b"no key")
        if first == "delete":
            sessions.delete(present)
        else:
            sessions.put(present, b"new")
        sessions.put(b"thirty", b"put")
        sessions.hold(ALIKE)
        if first == "delete":
            sessions.dead()
            sessions.compact()
        sessions.check()
        sessions.cut()
        sessions.put(b"", b"behind the cut")
        sessions.hold(ALIKE)
        sessions.check()
        sessions.hold(ALIKE)
        sessions.check()


def stands(log, ends, place, tail):
    """The file has the records that end at a place or in front of it, and no others, by the calls that made them."""
    entries, end, stood = opened(log)
    wanted = max(other for other in ends if other <= place)
    compare(f"the records in front of {place}", (entries, end, stood), (ends[wanted], wanted, tail))


@case_of_store(*KINDS)
def is_cut_at_each_byte(file, kind):
    """Each kind at each fifth place."""
    log, ends = thirty()
    for number, cut in enumerate(shared_out(kind, range(len(HEADER), len(log) + 1))):
        stands(log[:cut], ends, cut, NOTHING if cut in ends else TORN)
        is_read(file, kind, log[:cut], number % 3 == 0)


@case_of_store(*KINDS)
def has_each_bit_turned(file, kind):
    """One at a time: none is read as it was. Each kind takes each fifth."""
    log, ends = thirty()
    for number, turned in enumerate(shared_out(kind, range(8 * len(HEADER), 8 * len(log)))):
        place, bit = divmod(turned, 8)
        changed = log[:place] + bytes([log[place] ^ 1 << bit]) + log[place + 1 :]
        stands(changed, ends, place, DAMAGED)
        is_read(file, kind, changed, number % 37 == 0)


@case_of_store(*KINDS)
def ends_in_zeros(file, kind):
    """From each place to the end, and from some to a place behind it, or over a short span; each kind at each fifth."""
    log, ends = thirty()
    for number, place in enumerate(shared_out(kind, range(len(HEADER), len(log) + 1))):
        left = len(log) - place
        sizes = {0: [left + 100], 3: [number % 40 + 1]}.get(number % 6, [])
        for size in [left, *sizes]:
            changed = log[:place] + bytes(size) + log[place + size :]
            entries, end, _ = opened(changed)
            compare("the records in front", entries, ends.get(end))
            if end < max(other for other in ends if other <= place):
                raise Wrong(f"zeros from {place} reach back to {end}")
            is_read(file, kind, changed, number % 9 == 0)


def mixed(numbers, log):
    """A file of which a span is noise, has noise put in, is missing, or is there twice."""
    one, other = numbers.next(), numbers.next()
    place = len(HEADER) + one % (len(log) - len(HEADER))
    noise = b"".join(SUM.pack(numbers.next() & 0xFFFFFFFF) for _ in range(other % 30))[: other % 97 + 1]
    kept = place + (len(noise), 0, 1 + (other >> 20) % 99, 0)[one >> 62]
    if one >> 62 == 3:
        noise = log[len(HEADER) + other % len(log) :][: 1 + (other >> 20) % 300]
    return log[:place] + (noise if one >> 62 != 2 else b"") + log[kept:]


@case_of_store(*KINDS)
def has_spans_of_noise(file, kind):
    """Two hundred files, half of them with more than one such span."""
    log, _ = thirty()
    numbers = Numbers(KINDS.index(kind) + 1)
    for number in range(200):
        changed = log
        for _ in range(1 + number % 2 * (number % 5)):
            changed = mixed(numbers, changed)
        is_read(file, kind, changed, number % 4 == 0)


@case_of_store(*KINDS)
def has_records_of_no_meaning(file, kind):
    """Bytes with right checksums that are no record's: of another mark, and of a deletion with a value."""
    first, last = (b"thir", b"1"), (b"", b"3")
    front = file_of(first)
    for mark, key, value in [(0, b"thir", b""), (3, b"thir", b"2"), (255, b"thir", b"2"), (2, b"thir", b"2"), (2, b"", b"2")]:
        log = front + headed(len(front) - len(HEADER), mark, len(key), len(value)) + summed(key) + summed(value)
        log += record(len(log) - len(HEADER), *last)
        compare("what is read", opened(log), ({b"thir": b"1"}, len(front), DAMAGED))
        compare("what is saved", salvaged(log), [first, last])
        is_read(file, kind, log, True)


@case_of_store(*KINDS)
def has_records_of_other_places(file, kind):
    """Records that were written at other places are none: one of another file, and the same one a byte further on."""
    first, other = (b"thir", b"1"), (b"thir", b"2")
    front = file_of(first)
    for log in [front + record(0, *other), front + b"\0" + record(len(front) - len(HEADER), *other), HEADER + b"\0" + front[len(HEADER) :]]:
        compare("what is saved", salvaged(log), [first] if log.startswith(front) else [])
        is_read(file, kind, log, True)


@case_of_store(*KINDS)
def has_heads_of_great_length(file, kind):
    """Heads with right checksums of records that go past the end: torn, and a salvage takes nothing from behind them.
    With a wrong checksum it is damage, and no memory is taken."""
    front = file_of((b"thir", b"1"))
    for key_length, value_length in [(2**32 - 1, 2**32 - 1), (2**32 - 1, 0), (0, 2**32 - 1), (0, 48), (48, 0), (47, 0)]:
        head = headed(len(front) - len(HEADER), VALUE, key_length, value_length)
        for behind in (b"", b"and", record(len(front + head) - len(HEADER), b"", b"3")):
            compare("what is read", opened(front + head + behind)[1:], (len(front), TORN))
            is_read(file, kind, front + head + behind, True)
            damaged = front + head[:-1] + bytes([head[-1] ^ 1]) + behind
            compare("what is read", opened(damaged)[1:], (len(front), DAMAGED))
            is_read(file, kind, damaged, True)


@case_of_store(*KINDS)
def saves_long_records(file, kind):
    """Records that end about the ends of the blocks that are read, behind damage and in front of it."""
    numbers = Numbers(7)
    records, short = [], []
    for number, size in enumerate((65514, 65515, 65536, 9)):
        records.append((bytes([number]), bytes([number]) * size))
        short.append((len(file_of(*records)), 60))
        records.append((b"short", SUM.pack(number) * 8))
    records.append((FRONT * 3000, b"long key"))
    short.append((len(file_of(*records)), 100))
    records.append((b"thir", file_of((b"thirty", b"within"), (FRONT, None))))
    log = file_of(*records)
    for number in range(8):
        changed = bytearray(log)
        for place, length in short[number % 3 :: number % 2 + 1]:
            changed[place + numbers.next() % length] ^= 1 << number % 8
        is_read(file, kind, bytes(changed), number % 4 == 0)
    changed = bytearray(log)
    changed[-1] ^= 1
    compare("what is saved", salvaged(bytes(changed)), records[:-1])
    is_read(file, kind, bytes(changed), True)


@case_of_store(*KINDS)
def takes_no_record_out_of_a_value(file, kind):
    """A value may hold a record's bytes, also those of a record at the place where they stand. Whatever bit is turned of its
    own record's key or value, they are none of the file's, and the first neither where a bit of its head is."""
    own, front = (b"thir", b"own"), b"in front "
    place = len(file_of(own, (b"thirty", front))) - SUM.size - len(HEADER)
    for forged in (record(0, b"thir", b"forged"), record(place, b"thir", b"forged")):
        log = file_of(own, (b"thirty", front + forged + b" and behind"))
        head = len(file_of(own)) + HEAD.size + SUM.size
        begin = head if forged == record(place, b"thir", b"forged") else len(file_of(own))
        for turned in shared_out(kind, range(8 * begin, 8 * len(log))):
            changed = log[: turned // 8] + bytes([log[turned // 8] ^ 1 << turned % 8]) + log[turned // 8 + 1 :]
            compare("what is saved", salvaged(changed), [own])
            is_read(file, kind, changed, turned % 97 == 0)


@case_of_store(*KINDS)
def has_a_value_of_heads(file, kind):
    """A salvage reads each byte a few times, whatever a value holds: a megabyte of heads, behind one that is damaged."""
    front = file_of((b"thir", b"1"), (b"thirty", b""))[: -SUM.size]
    places = range(len(front) - len(HEADER), 2**20, HEAD.size + SUM.size)
    log = bytearray(file_of((b"thir", b"1"), (b"thirty", b"".join(headed(place, VALUE, 0, 2**20) for place in places))))
    log[len(file_of((b"thir", b"1")))] ^= 1
    sessions = Sessions(file, kind, log=bytes(log))
    sessions.salvage(file.with_name("saved.log"))
    before = getrusage(RUSAGE_CHILDREN).ru_utime
    sessions.check()
    if getrusage(RUSAGE_CHILDREN).ru_utime - before > 10:
        raise Wrong("a salvage takes more than ten seconds")


@case_of_store(*KINDS)
def begins_with_a_part_of_the_header(file, kind):
    """It has no keys. The first put makes the header whole, and nothing else changes the file."""
    for length in range(len(HEADER) + 1):
        sessions = Sessions(file, kind, log=HEADER[:length])
        sessions.hold([b"", b"a"])
        sessions.delete(b"a")
        sessions.cut()
        sessions.salvage(file.with_name(f"{length}.log"))
        sessions.dead()
        if kind in IN_ORDER:
            sessions.ends()
        sessions.check()
        sessions.put(b"a", b"1")
        sessions.check()
        sessions.hold([b"", b"a"])
        sessions.check()


# Files that are no store's.
FOREIGN = [
    b"a text\n",
    b"k",
    b"keyindeX",
    b"\n" + HEADER,
    b"\x89PNG\r\n\x1a\n\0\0\0\rIHDR\0\0\0\x10\0\0\0\x10\x08\x06\0\0\0\x1f\xf3\xffa",
    b"#!/bin/sh\nrm -rf nothing\n",
    b"SQLite format 3\0" + bytes(84),
    bytes(1),
    bytes(16),
    bytes(4096),
    record(0, b"thir", b"1"),
    record(0, b"thir", b"1") * 3,
    header(0),
    header(0) + record(0, b"thir", b"1"),
    b"keyindex" + SUM.pack(2) + bytes(4) + record(0, b"thir", b"1"),
    header(1)[:15],
    header(3)[:-1] + b"\0",
    HEADER[:-1] + b"\0",
]
FOREIGN = [log for log in FOREIGN if log != HEADER[: len(log)]]

NO_STORE = "refused no store: {}; --headless reads it all the same\n"


@case_of_store(*KINDS)
def is_no_store(file, kind):
    """A file of another program, and one with a bit of its header turned: it is refused, also as a place for a copy, and
    no byte of it changes."""
    whole, _ = thirty()
    turned = [
        HEADER[:place] + bytes([HEADER[place] ^ 1 << bit]) + HEADER[place + 1 :] + whole[len(HEADER) :]
        for place, bit in ((place, bit) for place in range(len(HEADER)) for bit in range(8))
    ]
    lines = ["put 61 31", "cut", "delete 74686972", "compact", f"salvage {file}.saved"]
    for log in [*FOREIGN, *shared_out(kind, turned), HEADER[:8] + bytes(3), HEADER[:15] + b"\xff"]:
        file.write_bytes(log)
        answers([file, kind], lines, [], NO_STORE.format(file), 1)
        unchanged(file, log)
    store = file.with_name("store.log")
    for log in FOREIGN:
        sessions = Sessions(store, kind, log=whole)
        sessions.ask(f"salvage {file}", "refused not empty")
        sessions.ask(f"compact {file}", "refused not empty")
        sessions.ask(f"move {file}", "refused not empty")
        part = store.with_name("store.log.part")
        part.write_bytes(log)
        sessions.logs[part] = log
        sessions.compact()
        file.write_bytes(log)
        sessions.logs[file] = log
        sessions.hold(ALIKE)
        sessions.check()
    compare("what is there", file.with_name("run.log.saved").exists(), False)


@case_of_store(*KINDS)
def is_read_without_its_header(file, kind):
    """A file of which a bit of each byte of the header is turned, and one that has zeros there: it is read by a flag of
    its own, and saved, and not changed."""
    whole, _ = thirty()
    fronts = [HEADER[:place] + bytes([HEADER[place] ^ 1 << place % 8]) + HEADER[place + 1 :] for place in range(len(HEADER))]
    for front in [*shared_out(kind, fronts), bytes(len(HEADER)), HEADER]:
        sessions = Sessions(file, kind, "--headless", log=front + whole[len(HEADER) :])
        for line in ("put 61 31", "delete 74686972", "cut", "compact"):
            sessions.ask(line, "refused read-only")
        sessions.hold(ALIKE)
        sessions.salvage(file.with_name("saved.log"))
        sessions.check()
        file.with_name("saved.log").unlink()
    file.unlink()
    missing = f"cannot open {file}: No such file or directory (os error 2)\n"
    answers(["--headless", file, kind], ["count"], [], missing, 1)


@case_of_store(*KINDS)
def is_of_another_version(file, kind):
    """The header of another version of the format, with and without records behind it: it is refused by that name, and no
    byte of it changes."""
    for version, told in ((1, "older"), (3, "newer"), (2**32 - 1, "newer")):
        for log in (header(version), header(version) + record(0, b"thir", b"1")):
            file.write_bytes(log)
            answers([file, kind], ["put 61 31", "cut", "count"], [], f"refused {told} version: {file}\n", 1)
            unchanged(file, log)


@case_of_store(*KINDS)
def is_cut_over_damage(file, kind):
    """What is behind is told and given up, and the session goes on."""
    log, ends = thirty()
    for end in ends:
        sessions = Sessions(file, kind, log=log[:end] + b"no record stands here" + log[end:])
        sessions.put(b"thir", b"2")
        sessions.cut()
        sessions.put(b"thir", b"2")
        sessions.cut()
        sessions.hold(ALIKE)
        sessions.check()
        sessions.hold(ALIKE)
        sessions.check()


@case_of_store(*KINDS)
def is_damaged_at_the_end(file, kind):
    """Then the status is 1, whatever was answered; and 0 once the damage is cut off, or the session is over a copy. A
    torn record is no damage."""
    log, ends = thirty()
    for behind, status in ((b"", 0), (b"torn", 0), (b"no record stands here", 1)):
        counted = ["none", f"count {len(ends[len(log)])}"]
        for lines, wanted in [([], []), (["quit"], []), (["get 7a", "count"], counted)]:
            for flags in ([], ["--read-only"]):
                file.write_bytes(log + behind)
                answers([*flags, file, kind], lines, wanted, told_of(log + behind), status)
    sessions = Sessions(file, kind, log=log + b"no record stands here")
    sessions.cut()
    sessions.count()
    sessions.check()
    sessions = Sessions(file, kind, log=log + b"no record stands here")
    sessions.move(file.with_name("moved.log"))
    sessions.count()
    sessions.check()


@case_of_store(*KINDS)
def is_copied_in_front_of_damage(file, kind):
    """By a word of its own: the copy has what the file answers, and the file keeps what is behind."""
    log, ends = thirty()
    for number, end in enumerate(ends):
        sessions = Sessions(file, kind, log=log[:end] + b"no record stands here" + log[end:])
        sessions.compact(file.with_name(f"{number}.log"))
        sessions.compact()
        sessions.dead()
        if kind in IN_ORDER:
            sessions.ends()
            sessions.scan(b"", 9)
            for key in ALIKE:
                sessions.neighbours(key)
        sessions.move(file.with_name(f"{number}.moved.log"))
        sessions.put(b"thir", word(b"moved").encode())
        sessions.hold(ALIKE)
        sessions.check()
        sessions.hold(ALIKE)
        sessions.check()
