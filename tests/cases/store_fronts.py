"""Sessions of the program key_index_store over files of which most keys begin alike, in more bytes than an index keeps."""
from cases.store import (
    IN_ORDER,
    KINDS,
    Sessions,
    answers,
    case_of_store,
    compare,
    copy_of,
    run,
    word,
)
from cases.store_unreadable import reads_of
from harness.session import Wrong
from harness.xorshift import Numbers

# The forty bytes with which most keys begin.
FRONT = b"https://www.example.com/articles/archive"

# Keys in front of all these and behind them, between, with the front's own bytes alone or fewer, and with zeros at the end.
OTHERS = [
    b"",
    b"\0",
    b"h",
    b"z" * 45,
    b"\xff" * 300,
    FRONT[:1] + b"\0",
    FRONT[:31],
    FRONT[:32],
    FRONT[:32] + bytes(8),
    FRONT[:39],
    FRONT[:39] + b"\0",
    FRONT[:39] + b"d" + b"\xff" * 40,
    FRONT[:39] + b"f",
    FRONT[:39] + b"f" + bytes(40),
    FRONT,
    FRONT + b"\0",
    FRONT + bytes(31),
    FRONT + bytes(32),
    FRONT + bytes(40),
    FRONT + b"\xff",
    FRONT + b"\xff" * 40,
]


def hexed(number):
    return b"%016x" % number


def alike(numbers, count):
    """So many keys that begin alike, in no order, each behind it with one of sixteen bytes that many have."""
    return [FRONT + hexed(numbers.next())[: 4 + 12 * (turn % 2)] for turn in range(count)]


def ask_all(sessions, keys, numbers):
    """What each of some keys has, and its neighbours; and some walks."""
    for key in keys:
        sessions.get(key)
        sessions.has(key)
        if sessions.kind in IN_ORDER:
            sessions.neighbours(key)
            sessions.scan(key, numbers.next() >> 60)
    if sessions.kind in IN_ORDER:
        sessions.ends()
        sessions.scan(FRONT, 40)
        sessions.scan(b"", 3000)
    sessions.count()


@case_of_store(*KINDS)
def begins_alike(file, kind):
    """Three thousand keys that begin alike, and some that don't: put in one session, which files them anew as it goes, asked there,
    and in others that change them, compact, move and salvage the file."""
    numbers = Numbers(KINDS.index(kind) + 7)
    keys = alike(numbers, 3000)
    for turn, other in enumerate(OTHERS):
        keys.insert(numbers.next() % (len(keys) if turn % 2 else 900), other)
    absent = [FRONT + hexed(numbers.next()) for _ in range(20)] + [FRONT[:38], FRONT[:39] + b"e\0\0", b"y", FRONT + bytes(33)]
    asked = [*OTHERS, *keys[::300], *absent]
    sessions = Sessions(file, kind)
    for number, key in enumerate(keys):
        sessions.put(key, hexed(number)[: number % 17])
        if number % 9 == 0:
            sessions.delete(keys[numbers.next() % (number + 1)])
        if number % 13 == 0:
            sessions.put(keys[numbers.next() % (number + 1)], b"again")
    ask_all(sessions, asked, numbers)
    sessions.check()
    for turn in range(4):
        ask_all(sessions, asked, numbers)
        for number in range(100):
            sessions.delete(keys[numbers.next() % len(keys)])
            sessions.put(keys[numbers.next() % len(keys)], hexed(number))
        for other in OTHERS[turn::4]:
            sessions.delete(other)
        sessions.dead()
        copy = file.with_name(f"{turn}.log")
        (sessions.compact, sessions.move, sessions.salvage, lambda _: sessions.compact())[turn](copy)
        for other in OTHERS[turn::4]:
            sessions.put(other, b"there again")
        ask_all(sessions, asked[turn::2], numbers)
        sessions.check()


@case_of_store(*KINDS)
def has_several_fronts(file, kind):
    """Of four thousand keys half begin alike, and the others in another way, or each in one of eight; or their numbers rise."""
    numbers = Numbers(KINDS.index(kind) + 70)
    eight = [bytes([97 + number]) * 40 for number in range(8)]
    layouts = [
        [(FRONT if number % 8 < 5 else eight[0]) + hexed(numbers.next()) for number in range(4000)],
        [eight[number % 8] + hexed(numbers.next()) for number in range(4000)],
        [FRONT + b"%016d" % number for number in range(4000)],
    ]
    for turn, keys in enumerate(layouts):
        sessions = Sessions(file.with_name(f"layout{turn}.log"), kind)
        for number, key in enumerate(keys):
            sessions.put(key, hexed(number)[:3])
        sessions.check()
        ask_all(sessions, keys[::500] + [FRONT, eight[0], eight[5] + b"\0"], numbers)
        for key in keys[::7]:
            sessions.delete(key)
        ask_all(sessions, keys[::700], numbers)
        sessions.check()


@case_of_store(*KINDS)
def opens_as_keys_that_do_not_begin_alike(file, kind):
    """Opening takes no more reads for five thousand keys that begin alike than for others, but for a few."""
    numbers = Numbers(3)
    ends = [hexed(numbers.next()) for _ in range(5000)]
    reads = []
    for keys in ([end[8:] + FRONT + end[:8] for end in ends], [FRONT + end for end in ends]):
        file.write_bytes(copy_of(dict.fromkeys(keys, b"value")))
        reads.append(reads_of(file, kind, [], 1 << 17))
    if not reads[0] <= 30 or not reads[1] <= reads[0] + 20:
        raise Wrong(f"opening takes {reads} reads")


@case_of_store(*KINDS)
def reads_few_behind_a_front(file, kind):
    """A session that puts two thousand keys that begin alike in a fresh file looks up each of the first thousand in their list, and
    no other. Where one of the reads fails by which it files them anew, it goes on as before, and nothing is told."""
    numbers = Numbers(KINDS.index(kind) + 5)
    keys = [FRONT + hexed(numbers.next()) for _ in range(2000)]
    lines = [f"put {word(key)} 31" for key in keys]
    before, behind, all_of_them = (reads_of(file, kind, lines[:count], 1 << 15, is_fresh=True) for count in (1023, 1024, 2000))
    if all_of_them > behind + 10 or not (8000 < before if kind != "hashed" else before == behind):
        raise Wrong(f"reads up to 1,023 puts, up to 1,024 and up to 2,000: {before}, {behind}, {all_of_them}")
    if kind == "hashed":
        return
    for number in range(behind, behind - 17, -3):
        file.unlink(missing_ok=True)
        given, told, status = run([file, kind], [*lines[:1024], *(f"get {word(key)}" for key in keys)], FAIL="pread", FAIL_AT=number)
        compare(f"where read {number} fails", (given, told, status), (["ok"] * 1024 + ["value 31"] * 1024 + ["none"] * 976, "", 0))
    file.unlink(missing_ok=True)
    answers([file, kind], lines[:1024], ["ok"] * 1024)
    for number in range(1, 20):
        given, told, status = run([file, kind], ["count"], FAIL="pread", FAIL_AT=number)
        compare(f"where read {number} fails of opening", (given, told, status), ([], f"refused read: {file}\n", 1))
