"""Sessions of the program key_index_store over files that are opened anew, beside a dict."""
import resource
import subprocess

from cases.store import (
    FRAME,
    HEADER,
    IN_ORDER,
    KINDS,
    Sessions,
    Store,
    answers,
    case_of_store,
    compare,
    file_of,
    fresh_files,
    grown,
    run,
    unchanged,
)
from harness.session import Wrong
from harness.xorshift import Numbers

# What keys have in common that are alike in all that an index keeps of them.
FRONT = b"thirty-two bytes that are alike:"


def random_key(number):
    """One of 64 keys, of which eight each are alike in their first 31 bytes, or 32."""
    return FRONT[:30] + bytes([number // 8 % 8, 0, number % 8])


@case_of_store(*KINDS)
def answers_as_a_dict(file, kind):
    """Four files of five thousand random calls each, opened anew each thousand of them."""
    keys = [random_key(number) for number in range(64)]
    for seed in range(1, 5):
        sessions = Sessions(file.with_name(f"{seed}.log"), kind)
        numbers = Numbers(seed)
        for _ in range(5):
            for _ in range(1000):
                number = numbers.next()
                key = random_key(number)
                if number >> 60 < 5:
                    sessions.delete(key)
                elif number >> 60 < 12:
                    sessions.put(key, bytes([number >> 32 & 0xFF]) * (number >> 40 & 3))
                elif number >> 60 < 14:
                    sessions.get(key)
                else:
                    sessions.has(key)
            sessions.hold(keys)
            sessions.check()


@case_of_store("ordered")
def is_the_same_for_each_kind(file, _kind):
    """A file that sessions of all kinds change in turn."""
    keys = [random_key(number) for number in range(64)]
    log = None
    numbers = Numbers()
    for turn in range(20):
        sessions = Sessions(file, KINDS[turn * 3 % 5], log=log)
        for _ in range(100):
            number = numbers.next()
            if number >> 60 < 6:
                sessions.delete(random_key(number))
            else:
                sessions.put(random_key(number), bytes([turn]))
        sessions.hold(keys)
        sessions.check()
        log = file.read_bytes()


@case_of_store(*IN_ORDER)
def finds_neighbours(file, kind):
    """A thousand random calls, and after each hundredth all neighbours and both ends, those in a copy and in place,
    behind calls there, and in the copy opened anew. Of 64 keys eight each are alike in their first 32 bytes."""
    keys = [FRONT[:27] + b"\0\xff\0" + bytes([number // 8, 0xFF, number % 8]) for number in range(64)]
    sessions = Sessions(file, kind)
    numbers = Numbers()
    for call in range(1000):
        number = numbers.next()
        key = keys[number % 64]
        if number >> 60 < 8:
            sessions.delete(key)
        else:
            sessions.put(key, bytes([number >> 32 & 0xFF]))
        if call % 100 == 0:
            compare_neighbours(sessions, keys)
            sessions.compact(file.with_name(f"{call}.copy"))
            sessions.move(file.with_name(f"{call}.log"))
            compare_neighbours(sessions, keys)
            sessions.put(key, b"moved")
            sessions.delete(keys[number // 64 % 64])
            sessions.dead()
            compare_neighbours(sessions, keys)
            sessions.compact()
            sessions.dead()
            sessions.put(key, b"in place")
            sessions.check()
            compare_neighbours(sessions, keys)


def compare_neighbours(sessions, keys):
    """Those of each key, of the empty one and of one above all; and both ends, and walks."""
    for key in [*keys, b"", b"z"]:
        sessions.neighbours(key)
    sessions.ends()
    for key, count in [(b"", 100), (keys[9], 3), (keys[9][:-2], 100), (keys[63], 2), (b"", 0), (b"z", 9), (FRONT, 5)]:
        sessions.scan(key, count)
    sessions.hold(keys)


@case_of_store(*IN_ORDER)
def walks_beside_a_dict(file, kind):
    """Keys of 0 to 3 bytes out of three, put and deleted at random: walks from each of them, of each prefix."""
    keys = [b""]
    for _ in range(3):
        keys = [b"", *(key + bytes([byte]) for key in keys for byte in (0, 0x7F, 0xFF))]
    sessions = Sessions(file, kind)
    numbers = Numbers(5)
    for _ in range(8):
        for _ in range(30):
            number = numbers.next()
            if number >> 62:
                sessions.put(keys[number % len(keys)], bytes([number >> 32 & 0xFF]))
            else:
                sessions.delete(keys[number % len(keys)])
        for key in keys:
            sessions.neighbours(key)
            sessions.scan(key, 40)
            sessions.scan(key, 2)
        sessions.ends()
        sessions.check()


@case_of_store(*KINDS)
def has_the_empty_key(file, kind):
    """It comes first, and is copied too; and an empty value is not none."""
    sessions = Sessions(file, kind)
    sessions.put(b"", b"none")
    sessions.put(b"\0", b"")
    sessions.has(b"")
    sessions.has(b"\0")
    keys = [b"", b"\0", b"\0\0"]
    sessions.move(file.with_name("copy.log"))
    if kind in IN_ORDER:
        compare_neighbours(sessions, [*keys, *keys, FRONT] * 10)
    sessions.hold(keys)
    sessions.check()
    sessions.delete(b"")
    sessions.delete(b"")
    sessions.hold(keys)
    sessions.check()
    sessions.hold(keys)
    sessions.check()


@case_of_store(*KINDS)
def has_no_keys(file, kind):
    """A new file: it has no byte, until the first put."""
    sessions = Sessions(file, kind)
    sessions.hold([b"", b"a"])
    sessions.delete(b"a")
    sessions.ask("sync", "ok")
    sessions.cut()
    sessions.salvage(file.with_name("none.log"))
    if kind in IN_ORDER:
        sessions.ends()
        sessions.neighbours(b"a")
        sessions.scan(b"", 5)
    sessions.dead()
    sessions.compact(file.with_name("empty.log"))
    sessions.compact()
    sessions.move(file.with_name("moved.log"))
    sessions.check()
    sessions.put(b"a", b"b")
    sessions.delete(b"a")
    sessions.check()
    sessions.count()
    if kind in IN_ORDER:
        sessions.ends()
    sessions.dead()
    sessions.compact()
    sessions.check()


# Texts, with the words that write them.
TEXTS = [
    (b"", '""'),
    (b"", "-"),
    (b"apple", '"apple"'),
    (b" ", '" "'),
    (b"two words  ", '"two words  "'),
    (b'"', r'"\""'),
    (b"\\", r'"\\"'),
    (b'a\\"b', r'"a\\\"b"'),
    (b"\\n", r'"\\n"'),
    (b"\\x41", r'"\\x41"'),
    (b"\n", r'"\n"'),
    (b"two\nlines\r\n", r'"two\nlines\x0D\n"'),
    (b"A\0z", r'"\x41\x00z"'),
    (b"~", "7E"),
    (b"\x7f", "7f"),
    (b"\x1f", "1F"),
    (b"\xff\0", "ff00"),
    (b"\xff", r'"\xff"'),
    (b"\xc3", r'"\xC3"'),
    (b"\xc2\x9b31m", r'"\xc2\x9b31m"'),
    (b"\xed\xa0\x80", "eda080"),
    ("\u00a0\u2028\U0001f34e".encode(), '"\u00a0\u2028\U0001f34e"'),
    ("\u00e9".encode(), '"\u00e9"'),
    (b"\t", '"\t"'),
    (b"-", '"-"'),
    (b"00", '"00"'),
    (b"none", '"none"'),
]


@case_of_store(*KINDS)
def reads_and_shows_texts(file, kind):
    """Keys and values as texts in quotes, in one form and the other, with the flag and without it."""
    for flags in ([], ["--text"]):
        file.unlink(missing_ok=True)
        sessions = Sessions(file, kind, *flags)
        for number, (key, key_word) in enumerate(TEXTS):
            value, value_word = TEXTS[-1 - number]
            sessions.put(key, value)
            sessions.lines[-1] = f"put {key_word} {value_word}"
            sessions.get(key)
            sessions.lines[-1] = f"get {key_word}"
            sessions.has(key)
            sessions.lines[-1] = f"has {key_word}"
        if kind in IN_ORDER:
            for key, key_word in TEXTS:
                sessions.neighbours(key)
                sessions.lines[-3:] = [f"{name} {key_word}" for name in ("next", "prev", "absent")]
            sessions.ends()
            sessions.scan(b"", 99)
        sessions.hold([key for key, _ in TEXTS])
        sessions.check()
        sessions.hold([key for key, _ in TEXTS])
        sessions.check()


@case_of_store(*IN_ORDER)
def reads_what_it_shows(file, kind):
    """Random keys and values of a few bytes, of which many are UTF-8, texts of all control characters, and one of a
    megabyte: the lines of a scan, as puts over another file, give the same bytes again."""
    chars = [char.encode() for char in '"\\\n\u00e9\u20ac\U0001f34e\u0085']
    pieces = [*(bytes([byte]) for byte in range(256)), *chars]
    numbers = Numbers(3)
    entries = {bytes(range(128)): bytes(range(256)), b"long": "\u00e9\n".encode() * 300_000}
    for number in range(2000):
        some = [pieces[numbers.next() % len(pieces)] for _ in range(2 + number % 5)]
        entries[b"".join(some[:-1])] = some[-1]
    log = file_of(*sorted(entries.items()))
    file.write_bytes(log)
    for flags in ([], ["--text"]):
        given, told, status = run([*flags, file, kind], [f"scan - {len(entries) + 1}"])
        compare("what is shown", (len(given), given[-1], told, status), (len(entries) + 1, "end", "", 0))
        again = file.with_name(f"again{len(flags)}.log")
        lines = [line.replace("entry", "put", 1) for line in given[:-1]]
        answers([*flags, again, kind], lines, ["ok"] * len(entries))
        unchanged(again, log)


@case_of_store(*KINDS)
def holds_long_records(file, kind):
    """Keys and values whose records end about the sizes of the blocks that are read, 1 KiB and 64 KiB, in one or over
    two; and of a megabyte."""
    sessions = Sessions(file, kind)
    numbers = Numbers()
    entries = []
    for size in (1024, 65536):
        for off in (-21, -17, -13, -1, 0, 1):
            front = bytes([len(entries) % 251, len(entries) // 251])
            entries.append((front + b"k" * (size + off - 2), b"v"))
            entries.append((front, b"w" * (size + off)))
            entries.append((front + b"half", bytes([size % 251]) * ((size + off) // 2)))
    entries.append((b"m" * 300_000, b"long"))
    entries.append((b"short", b"n" * 1_000_000))
    for key, value in entries:
        sessions.put(key, value)
    keys = [key for key, _ in entries]
    for key in keys[:12]:
        sessions.put(key, bytes([numbers.next() & 0xFF]))
    for key in keys[12:18]:
        sessions.delete(key)
    for key in keys:
        sessions.has(key)
    sessions.hold(keys)
    sessions.check()
    sessions.hold(keys)
    sessions.salvage(file.with_name("saved.log"))
    sessions.dead()
    sessions.compact()
    sessions.dead()
    sessions.hold(keys)
    sessions.check()


@case_of_store(*KINDS)
def is_not_copied_over_bytes(file, kind):
    """A file that has bytes is no place for a copy, nor is the file itself; an empty one is, and what is there beside it
    stays."""
    two = file_of((b"apple", b"1"), (b"berry", b"2"))
    for line in ("compact", "move", "salvage"):
        sessions = Sessions(file, kind, log=two)
        taken = file.with_name(f"{line}.log")
        for log in (b"x", HEADER, two):
            taken.write_bytes(log)
            sessions.logs[taken] = log
            sessions.ask(f"{line} {taken}", "refused not empty")
            sessions.hold([b"apple", b"berry"])
            sessions.check()
        sessions.ask(f"{line} {file}", "refused not empty")
        sessions.hold([b"apple", b"berry"])
        sessions.check()
        fresh = file.with_name(f"{line} fresh.log")
        part = file.with_name(f"{line} fresh.log.part")
        fresh.write_bytes(b"")
        part.write_bytes(b"a text")
        sessions.logs[part] = b"a text"
        getattr(sessions, line)(fresh)
        sessions.lines[-1] = f'{line} "{fresh}"'
        sessions.hold([b"apple", b"berry", b"old"])
        sessions.check()
        compare("fresh files that are left over", fresh_files(fresh), [])
        fresh.unlink()


@case_of_store(*KINDS)
def is_compacted_through_a_link(file, kind):
    """Where FILE is a link, the file that it leads to is replaced; the new file keeps the permissions."""
    link = file.with_name("link.log")
    link.symlink_to(file.name)
    sessions = Sessions(file, kind, log=file_of((b"a", b"1"), (b"a", b"2")))
    sessions.first = link
    file.chmod(0o640)
    sessions.compact()
    sessions.put(b"b", b"3")
    sessions.check()
    compare("the link", (link.is_symlink(), oct(file.stat().st_mode & 0o777)), (True, oct(0o640)))


def used():
    """Seconds of processor time of all processes before."""
    past = resource.getrusage(resource.RUSAGE_CHILDREN)
    return past.ru_utime + past.ru_stime


@case_of_store("ordered")
def takes_a_long_value(file, kind):
    """Of ten million bytes in hexadecimal digits, put and read. Of the time, which once was some three seconds, the
    limit is a guard, and no more."""
    before = used()
    sessions = Sessions(file, kind)
    sessions.put(b"long", bytes(range(250)) * 40_000)
    sessions.get(b"long")
    sessions.check()
    if used() - before > 2:
        raise Wrong("a value of 10 MB took more than two seconds of processor time")


@case_of_store("ordered", "pordered", "hashed")
def holds_many_alike(file, kind):
    """Two thousand keys alike in their first twenty bytes. Their time grows with their number, not with its square: of
    that, which once took some seconds for each thousand, the limit is a guard, and no more."""
    keys = [f"https://example.org/{number}".encode() for number in range(2000)]
    before = used()
    sessions = Sessions(file, kind)
    for key in keys:
        sessions.put(key, key[-8:])
    sessions.check()
    sessions.hold(keys)
    sessions.check()
    if used() - before > 10:
        raise Wrong("2,000 keys that are alike took more than ten seconds of processor time")


@case_of_store(*KINDS)
def tells_what_is_dead(file, kind):
    """Bytes of older records, of deletions, and of what stands behind the last whole record."""
    log = file_of((b"a", b"1"), (b"a", b"22"), (b"b", b""), (b"b", None))
    torn = grown(log, (b"torn", b"off"))[len(log) : -1]
    log += torn
    sessions = Sessions(file, kind, log=log)
    sessions.dead()
    compare("dead", sessions.wanted[-1], f"dead {3 * FRAME + 4 + len(torn)}")
    sessions.cut()
    sessions.dead()
    sessions.compact()
    sessions.dead()
    sessions.check()
    sessions.dead()
    sessions.check()


@case_of_store(*KINDS)
def answers_each_command(file, kind):
    """A kind without an order refuses the commands that ask for one, and goes on."""
    sessions = Sessions(file, kind)
    sessions.put(b"a", b"1")
    for line in ["next 61", "prev 61", "absent 61", "first", "last", "scan - 1", "scan-prefix - 1"]:
        if kind not in IN_ORDER:
            sessions.ask(line, "refused unordered")
    sessions.dead()
    sessions.compact()
    sessions.compact(file.with_name("copy.log"))
    sessions.move(file.with_name("moved.log"))
    sessions.ask("sync", "ok")
    sessions.cut()
    sessions.hold([b"a"])
    sessions.check()
    help_text = subprocess.run([Store.path, "--help"], capture_output=True, text=True, check=True).stdout
    named = ("put", "get", "has", "delete", "count", "sync", "cut", "dead", "compact", "move", "salvage", "next", "prev", "first")
    for line in named:
        compare(f"--help tells {line}", f"  {line} " in help_text or f"  {line}," in help_text, True)
    compare(f"--help tells {kind}", f"\n  {kind} " in help_text, True)
