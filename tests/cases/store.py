"""The program key_index_store over files: a model of its lines and of the bytes of its files, and what runs it."""
import os
import re
import struct
import subprocess
import tempfile
import unicodedata
import zlib
from functools import lru_cache
from pathlib import Path

from harness.case import register
from harness.session import Wrong, shown
from harness.streams import failing

KINDS = ("unordered", "ordered", "punordered", "pordered", "hashed")
IN_ORDER = ("ordered", "pordered")

# The mark of a record, and the lengths of its key and its value; a checksum; the place of a record behind the header, which a
# head's checksum goes over too.
HEAD = struct.Struct("<BII")
SUM = struct.Struct("<I")
PLACE = struct.Struct("<Q")

# The marks of a record with a value, and of the deletion of a key.
VALUE, DELETION = 1, 2

# How many bytes a record takes besides its key and its value.
FRAME = HEAD.size + 3 * SUM.size

# What stands behind the last whole record of a file.
NOTHING, TORN, DAMAGED = "nothing", "torn", "damaged"

# What is told where the standard streams are closed.
CLOSED = "failed: standard input or output is closed\n"


class Store:
    """Where the program is."""

    path = None


def case_of_store(*kinds):
    """A function that takes a file and a kind is a case of each of these kinds."""

    def register_each(function):
        for kind in kinds:
            register(f"store_{kind}_{function.__name__}", lambda kind=kind: in_folder(function, kind), function)
        return function

    return register_each


def in_folder(function, kind):
    with tempfile.TemporaryDirectory() as folder:
        function(Path(folder, "run.log"), kind)


def shared_out(kind, some):
    """Of many the ones that a kind takes, so that each is taken by one of the five."""
    return [one for number, one in enumerate(some) if KINDS[number % len(KINDS)] == kind]


def summed(part):
    """Bytes with their checksum behind them."""
    return part + SUM.pack(zlib.crc32(part))


def header(version):
    return summed(b"keyindex" + SUM.pack(version))


HEADER = header(2)


def headed(place, mark, key_length, value_length):
    """A head and its checksum, at a place behind the header."""
    head = HEAD.pack(mark, key_length, value_length)
    return head + SUM.pack(zlib.crc32(head + PLACE.pack(place)))


def record(place, key, value):
    """The bytes of a record at a place behind the header, of a key and a value or of the deletion of a key."""
    mark = DELETION if value is None else VALUE
    return headed(place, mark, len(key), len(value or b"")) + summed(key) + summed(value or b"")


def grown(log, *entries):
    """The bytes of a file, with records behind them."""
    for key, value in entries:
        log += record(len(log) - len(HEADER), key, value)
    return log


def file_of(*entries):
    return grown(HEADER, *entries)


def copy_of(entries):
    """The bytes of a file to which these are copied, where nothing was: without any entry it has no header."""
    return file_of(*entries.items()) if entries else b""


def dead_in(log, entries):
    """How many bytes behind the header of a file are no part of the records of these entries."""
    live = sum(FRAME + len(key) + len(value) for key, value in entries.items())
    return max(0, len(log) - len(HEADER) - live)


def is_summed(part):
    """Whether bytes end in the checksum of those in front."""
    return len(part) >= SUM.size and part == summed(part[: -SUM.size])


def is_head(head, place):
    """Whether bytes are a head with its checksum, at a place of a file."""
    return len(head) == HEAD.size + SUM.size and head == headed(place - len(HEADER), *HEAD.unpack_from(head))


def reading(log, place):
    """What stands at a place of a file: a record's key and value with its length, or what stands there else."""
    head = log[place : place + HEAD.size + SUM.size]
    if len(head) < HEAD.size + SUM.size:
        return TORN
    if not is_head(head, place):
        return DAMAGED
    mark, key_length, value_length = HEAD.unpack_from(head)
    length = FRAME + key_length + value_length
    whole = log[place : place + length]
    if len(whole) < length:
        return TORN
    key = whole[len(head) : len(head) + key_length + SUM.size]
    value = whole[len(head) + len(key) :]
    if not is_summed(key) or not is_summed(value) or mark not in (VALUE, DELETION) or mark == DELETION and value_length:
        return DAMAGED
    return key[: -SUM.size], value[: -SUM.size] if mark == VALUE else None, length


def opened(log):
    """The entries of a file's bytes in the order of their records, where its last whole record ends, and what stands behind
    it."""
    entries, end, tail = replayed(bytes(log))
    return dict(entries), end, tail


@lru_cache(maxsize=8)
def replayed(log):
    entries, end = {}, len(HEADER)
    if len(log) <= end:
        return entries, len(log), NOTHING
    while end < len(log):
        found = reading(log, end)
        if isinstance(found, str):
            return entries, end, found if any(log[end:]) else TORN
        key, value, length = found
        entries.pop(key, None)
        if value is not None:
            entries[key] = value
        end += length
    return entries, end, NOTHING


def step(log, place):
    """How far it is from a place to the next one that a salvage looks at."""
    head = log[place : place + HEAD.size + SUM.size]
    if not is_head(head, place):
        return 1
    _, key_length, value_length = HEAD.unpack_from(head)
    return FRAME + key_length + value_length


def salvaged(log):
    """The key and the value of each whole record of a file: where a head reads, the next one is looked for behind the whole
    record, and else a byte further on."""
    place, entries = len(HEADER), []
    while place < len(log):
        found = reading(log, place)
        if not isinstance(found, str):
            entries.append(found[:2])
        place += step(log, place)
    return entries


def gaps(log):
    """What a salvage leaves out: where it stands, how many bytes it is, and the key of the record that stood there, where
    head and key read. Bytes without a key that stand side by side are one gap."""
    place = since = len(HEADER)
    found = []
    while place < len(log):
        behind = min(place + step(log, place), len(log))
        head = log[place : place + HEAD.size + SUM.size]
        key = log[place + len(head) :][: HEAD.unpack_from(head)[1] + SUM.size] if is_head(head, place) else b""
        is_known = is_summed(key) and len(key) == HEAD.unpack_from(head)[1] + SUM.size
        is_left_out = isinstance(reading(log, place), str)
        if is_known or not is_left_out:
            found += [(since, place - since, None)] * (since < place)
            found += [(place, behind - place, key[: -SUM.size])] * is_left_out
            since = behind
        place = behind
    return found + [(since, place - since, None)] * (since < place)


def told_left_out(log, shown):
    """What a salvage of a file tells of what it leaves out, where keys are shown by a function."""
    told = ""
    for place, length, key in gaps(log):
        what = "keys that are set in front of it may have older values"
        if key is not None:
            what = f"a record of {shown(key)}, which may have an older value now"
        told += f"left out {length} bytes at {place}: {what}\n"
    return told


def told_of(log):
    """What is told of a file as it is opened."""
    _, end, tail = opened(log)
    return {
        NOTHING: "",
        TORN: f"a torn record at {end}, {len(log) - end} bytes: the next put or delete cuts it off\n",
        DAMAGED: f"damaged at {end}, {len(log) - end} bytes behind it: "
        "put and delete are refused; salvage FILE saves what reads\n",
    }[tail]


def fresh_files(file):
    """The fresh files that interrupted commands left beside a file, in the order of the folder."""
    named = re.compile(re.escape(file.name) + r"\.[0-9a-f]{16}\.part")
    return [file.parent / entry.name for entry in os.scandir(file.parent) if named.fullmatch(entry.name)]


def left_over(file):
    """What is told of them as the file is opened."""
    return "".join(f"left over: {part}\n" for part in fresh_files(file))


def word(some):
    """Bytes as a word."""
    return some.hex() or "-"


def text(some):
    """Bytes as a text in quotes where they are UTF-8, else as a word."""
    try:
        chars = some.decode()
    except UnicodeDecodeError:
        return word(some)
    return '"' + "".join(map(escaped, chars)) + '"'


def escaped(char):
    """A character of a text, as it is written."""
    if char in '"\\\n':
        return {"\n": "\\n"}.get(char, "\\" + char)
    if unicodedata.category(char) == "Cc":
        return "".join(f"\\x{byte:02x}" for byte in char.encode())
    return char


def run(words, lines, **rooms):
    """What a session answers, tells on standard error, and ends with."""
    done = subprocess.run(
        [Store.path, *map(str, words)],
        input="".join(line + "\n" for line in lines).encode(),
        env=failing(**rooms),
        capture_output=True,
        timeout=300,
        check=False,
    )
    return done.stdout.decode().split("\n")[:-1], done.stderr.decode(errors="replace"), done.returncode


def compare(place, answer, wanted):
    if answer != wanted:
        raise Wrong(f"{place}\n  wanted {shown(str(wanted))}\n  answer {shown(str(answer))}")


def answers(words, lines, wanted, told="", status=0, **rooms):
    """A session, each line with its answers, which are a text of one line, or a list of them."""
    given, error, ended = run(words, lines, **rooms)
    session = f"key_index_store {' '.join(map(str, words[1:]))} {rooms or ''}"
    place = 0
    for number, (line, want) in enumerate(zip(lines, wanted)):
        want = [want] if isinstance(want, str) else want
        if given[place : place + len(want)] != want:
            answer = given[place : place + len(want)] or error
            compare(f"{session}, line {number + 1}: {shown(line)}", answer, want)
        place += len(want)
    compare(f"{session}: answers, standard error, status", (len(given), error, ended), (place, told, status))


def unchanged(file, log):
    compare(f"the bytes of {file.name}", file.read_bytes().hex(), log.hex())


class Sessions:
    """Sessions over a file, and what they have to answer by the entries that were put and not deleted, in the order in which
    they were put last."""

    def __init__(self, file, kind, *flags, log=None):
        """Over a file that holds these bytes; without any, there is none."""
        self.first = self.file = file
        self.kind = kind
        self.flags = flags
        self.shown = text if "--text" in flags else word
        self.lines = []
        self.wanted = []
        self.status = 0
        self.told = "" if log is None else told_of(log)
        if log is not None:
            file.write_bytes(log)
        self.logs = {file: bytearray(log or b"")}
        self.entries, self.end, self.tail = opened(log or b"")

    def ask(self, line, wanted):
        """A line, and its answer, or a list of these."""
        self.lines.append(line)
        self.wanted.append(wanted)
        if isinstance(wanted, str) and wanted.startswith("refused"):
            self.status = 1

    def cut_off(self):
        del self.logs[self.file][self.end :]
        self.tail = NOTHING

    def log(self, key, value):
        """A record behind the last whole one, where what stands behind that is torn."""
        self.cut_off()
        if self.end < len(HEADER):
            self.logs[self.file][:] = HEADER
        self.logs[self.file] += record(len(self.logs[self.file]) - len(HEADER), key, value)
        self.end = len(self.logs[self.file])

    def put(self, key, value):
        if self.tail == DAMAGED:
            self.ask(f"put {word(key)} {word(value)}", "refused damaged")
            return
        self.entries.pop(key, None)
        self.entries[key] = value
        self.log(key, value)
        self.ask(f"put {word(key)} {word(value)}", "ok")

    def delete(self, key):
        if self.tail == DAMAGED:
            self.ask(f"delete {word(key)}", "refused damaged")
            return
        had = self.entries.pop(key, None) is not None
        if had:
            self.log(key, None)
        else:
            self.cut_off()
        self.ask(f"delete {word(key)}", "ok" if had else "none")

    def get(self, key):
        value = self.entries.get(key)
        self.ask(f"get {word(key)}", "none" if value is None else f"value {self.shown(value)}")

    def has(self, key):
        self.ask(f"has {word(key)}", "yes" if key in self.entries else "no")

    def count(self):
        self.ask("count", f"count {len(self.entries)}")

    def hold(self, keys):
        """The value of each key, and how many there are."""
        for key in keys:
            self.get(key)
        self.count()

    def shows(self, key):
        """The line of an entry, or of none."""
        return "none" if key is None else f"entry {self.shown(key)} {self.shown(self.entries[key])}"

    def neighbours(self, key):
        above = min((other for other in self.entries if other > key), default=None)
        below = max((other for other in self.entries if other < key), default=None)
        self.ask(f"next {word(key)}", self.shows(above))
        self.ask(f"prev {word(key)}", self.shows(below))
        sides = ["none" if side is None else self.shown(side) for side in (below, above)]
        self.ask(f"absent {word(key)}", "held" if key in self.entries else " ".join(["between", *sides]))

    def ends(self):
        """The first entry and the last one."""
        self.ask("first", self.shows(min(self.entries, default=None)))
        self.ask("last", self.shows(max(self.entries, default=None)))

    def scan(self, key, count):
        """Entries from a key on, and those of keys that begin with it."""
        found = sorted(other for other in self.entries if other >= key)
        self.ask(f"scan {word(key)} {count}", [*map(self.shows, found[:count]), "end"])
        found = [other for other in found if other.startswith(key)]
        self.ask(f"scan-prefix {word(key)} {count}", [*map(self.shows, found[:count]), "end"])

    def copied(self):
        """The bytes of a file that has the newest record of each key, in the order of the log."""
        return bytearray(copy_of(self.entries))

    def dead(self):
        self.ask("dead", f"dead {dead_in(self.logs[self.file], self.entries)}")

    def compact(self, file=None):
        """To a file, or in place."""
        if file is not None:
            self.ask(f"compact {file}", "ok")
            self.logs[file] = self.copied()
        elif self.tail == DAMAGED:
            self.ask("compact", "refused damaged")
        else:
            self.ask("compact", "ok")
            self.goes_on(self.copied())

    def move(self, file):
        """The session goes on over a copy."""
        self.ask(f"move {file}", "ok")
        self.file = file
        self.goes_on(self.copied())

    def goes_on(self, log):
        """Over a file of these bytes, without damage."""
        self.logs[self.file] = log
        self.end, self.tail = len(log), NOTHING

    def salvage(self, file):
        log = bytes(self.logs[self.file])
        records = salvaged(log)
        copied = file_of(*records)
        left_out = max(0, len(log) - len(HEADER)) - (len(copied) - len(HEADER))
        self.ask(f"salvage {file}", f"salvaged {len(records)} records, {left_out} bytes left out")
        self.logs[file] = copied if records else b""
        self.told += told_left_out(log, self.shown)

    def cut(self):
        log = bytes(self.logs[self.file])
        if self.end < len(log):
            whole = len(salvaged(log)) - len(salvaged(log[: self.end]))
            self.told += f"cuts off {len(log) - self.end} bytes at {self.end}, with {whole} whole records\n"
        self.cut_off()
        self.ask("cut", "ok")

    def check(self, **rooms):
        """Makes the calls, and compares each answer, and then the bytes of the files. The next session is over the file
        where this one ended."""
        words = [*self.flags, self.first, self.kind]
        told = left_over(self.first) + self.told
        status = 1 if self.tail == DAMAGED else self.status
        answers(words, self.lines, self.wanted, told, status, **rooms)
        for file, log in self.logs.items():
            compare(f"{file.name} over {self.kind}", file.read_bytes().hex(), bytes(log).hex())
        self.lines, self.wanted, self.status = [], [], 0
        log = bytes(self.logs[self.file])
        compare("the model", [*opened(log)[0].items()], [*self.entries.items()])
        self.told = told_of(log)
        self.first, self.logs = self.file, {self.file: self.logs[self.file]}
