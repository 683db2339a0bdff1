"""The program key_index_store where calls of the system fail: no record that was answered with `ok` is lost, and
nothing wrong is answered."""
import re
from itertools import count

from cases.store import (
    IN_ORDER,
    KINDS,
    TORN,
    Sessions,
    answers,
    case_of_store,
    compare,
    file_of,
    grown,
    left_over,
    opened,
    run,
    told_of,
    unchanged,
    word,
)
from cases.store_damage import thirty
from harness.session import Wrong

# Calls of the C library that the program makes on files, with the ways in which each fails besides doing nothing.
CALLS = {
    "statx": [],
    "open": [],
    "flock": [],
    "pread": ["short"],
    "pwrite": ["whole", "half", "short", "interrupted"],
    "ftruncate": ["whole"],
    "fsync": ["whole"],
    "rename": ["whole"],
    "link": ["whole"],
    "realpath": [],
    "fchmod": ["whole"],
    "unlink": ["whole"],
}

# Calls that a session makes so often that the kinds with an order share them out, and those without one.
SHARED = ("pread", "pwrite", "fsync")

# What a refusal may say where a call of the system fails.
REASON = re.compile("refused (read|write|sync|open|busy)")

# What may be told on standard error then.
MAY_BE_TOLD = re.compile(
    "(cannot (open|sync) .*|a torn record at .*|refused (read|busy): .*|failed: .*|cuts off .*|left out .*|)"
)


class Followed:
    """A session in which calls may be refused: each is answered as if those that were had not been there."""

    def __init__(self, file, entries):
        self.file = self.first = file
        self.entries = dict(entries)
        # What files have to hold if they are there.
        self.files = {}
        # The keys whose last put or delete was refused for a write that may have been made.
        self.doubted = None

    def change(self, key, value, answer, wanted):
        is_made = answer in (wanted, "refused sync")
        if is_made and value is not None:
            self.entries[key] = value
        if is_made and value is None:
            self.entries.pop(key, None)
        if answer != "none":
            self.doubted = key if answer == "refused write" else None

    def copy(self, name, file, answer):
        """The copy is whole, or not there; where it was made, it is there."""
        self.files[file] = dict(self.entries)
        if answer == "ok" and not file.exists():
            raise Wrong(f"{name} was answered with ok, and there is no {file.name}")
        if name == "move" and file.exists() and answer in ("ok", "refused sync"):
            entries = self.files.pop(file)
            if self.doubted is None:
                self.files[self.file] = entries
            self.file = file

    def wanted(self, name, words):
        """The answers to a line that is not refused."""
        key = bytes.fromhex(words[0].replace("-", "")) if words and name not in ("compact", "move", "salvage") else b""
        entries, keys = self.entries, sorted(self.entries)

        def entry(found):
            return [f"entry {word(found[0])} {word(entries[found[0]])}" if found else "none"]

        above = [other for other in keys if other > key]
        below = [other for other in reversed(keys) if other < key]
        ways = {
            "put": lambda: ["ok"],
            "delete": lambda: ["ok" if key in entries else "none"],
            "get": lambda: [f"value {word(entries[key])}" if key in entries else "none"],
            "has": lambda: ["yes" if key in entries else "no"],
            "count": lambda: [f"count {len(entries)}"],
            "next": lambda: entry(above),
            "prev": lambda: entry(below),
            "first": lambda: entry(keys),
            "last": lambda: entry(keys[::-1]),
            "scan": lambda: [line for other in keys for line in entry([other])] + ["end"],
            "absent": lambda: ["held"]
            if key in entries
            else [" ".join(["between", *(word(side[0]) if side else "none" for side in (below, above))])],
        }
        return ways.get(name, lambda: ["ok"])()

    def follow(self, lines, given):
        """Compares the answers. Gives how many lines were refused."""
        place = refused = 0
        for line in lines:
            name, *words = line.split(" ")
            wanted = self.wanted(name, words)
            answer = given[place : place + len(wanted)]
            at = next((number for number, one in enumerate(answer) if REASON.fullmatch(one)), None)
            if at is not None:
                answer = answer[: at + 1]
                refused += 1
            compare(f"{line}", answer[:at], wanted[:at])
            place += len(answer)
            self.take(name, words, answer[-1], wanted[-1])
        compare("answers", len(given), place)
        return refused

    def take(self, name, words, answer, wanted):
        if name in ("put", "delete"):
            key, *value = (bytes.fromhex(some.replace("-", "")) for some in words)
            self.change(key, value[0] if value else None, answer, wanted)
        elif name in ("compact", "move") and words:
            self.copy(name, self.first.with_name(words[0].split("/")[-1]), answer)


def lines_of(file, kind):
    """A session of all commands."""
    lines = ["get 61", "put 64 34", "put 61 3131", "delete 62", "delete 7a", "get 62", "has 63", "sync", "count"]
    scan = ["scan - 9"] * (kind in IN_ORDER)
    if kind in IN_ORDER:
        lines += ["next 61", "prev 64", "absent 6161", "first", "last"]
    lines += [*scan, f"compact {file}.one", "put 65 35", "compact", "put 66 -", "delete 61", "get 66", f"move {file}.two"]
    lines += ["put 67 37", *scan]
    return [*lines, "cut", "put 68 38", "delete 63", "get 61", "get 64", "count"]


def fails(file, kind, log, flags, **fault):
    """A session over a file of these bytes in which a call fails. Gives whether one did, and the session."""
    mark = file.with_name("mark")
    for made in file.parent.iterdir():
        made.unlink()
    if log is not None:
        file.write_bytes(log)
        file.chmod(0o640)
    lines = lines_of(file, kind)
    given, told, status = run([*flags, file, kind], lines, FAIL_MARK=mark, **fault)
    session = Followed(file, opened(log or b"")[0])
    place = f"{kind} {' '.join(flags)} {fault}"
    try:
        for line in told.split("\n"):
            if not MAY_BE_TOLD.fullmatch(line):
                raise Wrong(f"standard error has {line}")
        if not given:
            compare("the start", (status, told != ""), (1, True))
            unchanged_or_none(file, log)
        else:
            refused = session.follow(lines, given)
            is_told = "cannot sync" in told
            compare("status", status, 1 if refused or is_told else 0)
    except Wrong as wrong:
        raise Wrong(f"{place}: {wrong}") from None
    return mark.exists(), session, place


def unchanged_or_none(file, log):
    if log is None and not file.exists():
        return
    unchanged(file, log or b"")


def compare_files(session, kind, place):
    """What the files hold after a session, which opens anew without a fault."""
    for file, entries in session.files.items():
        if file.exists():
            found, _, tail = opened(file.read_bytes())
            if tail not in ("nothing", TORN) or found != entries:
                raise Wrong(f"{place}: {file.name} has {found}, {tail}, and not {entries}")
    file = session.file
    if not file.exists() and not session.entries:
        return
    log = file.read_bytes()
    keys = [bytes([number]) for number in range(0x60, 0x69)]
    lines = [f"get {word(key)}" for key in keys] + ["count"]
    wanted = [f"value {word(session.entries[key])}" if key in session.entries else "none" for key in keys]
    try:
        answers([file, kind], lines, [*wanted, f"count {len(session.entries)}"], left_over(file) + told_of(log))
    except Wrong as wrong:
        raise Wrong(f"{place}, opened anew: {wrong}") from None


THREE = file_of((b"a", b"0"), (b"b", b"2"), (b"a", b"1"), (b"c", b"3"))


def each_fails(file, kind, name):
    """Each call of a name fails in each way, alone and with those behind it. How many sessions that were."""
    sessions, first, step = 0, 1, 1
    if name in SHARED:
        alike = [other for other in KINDS if (other in IN_ORDER) == (kind in IN_ORDER)]
        first, step = 1 + alike.index(kind), len(alike)
    starts = [(THREE, []), (None, ["--durable"]), (grown(THREE, (b"d", b"torn"))[:-1], [])]
    for log, flags in starts[: 2 if name == "pread" else 3]:
        for how in ["none", *CALLS[name]]:
            for is_all in ({}, {"FAIL_ALL": 1}) if how != "short" else ({},):
                for number in count(first, step):
                    fault = {"FAIL": name, "FAIL_AT": number, "FAIL_HOW": how, **is_all}
                    failed, session, place = fails(file, kind, log, flags, **fault)
                    if not failed:
                        break
                    sessions += 1
                    if how == "whole" and session.doubted is not None:
                        # What may come back then is a case of its own.
                        continue
                    compare_files(session, kind, place)
    return sessions


def register_each_call():
    for name in CALLS:

        def fails_anywhere(file, kind, name=name):
            if each_fails(file, kind, name) == 0 and name != "unlink":
                raise Wrong(f"{name} is never called")

        fails_anywhere.__name__ = f"{name}_fails"
        case_of_store(*KINDS)(fails_anywhere)


register_each_call()


@case_of_store(*KINDS)
def is_refused_and_written(file, kind):
    """A write makes the whole record, and tells an error: the put or delete is refused, and not there where the file is
    opened anew, behind another one or at the end of a session."""
    for lines in (["put 61 34"], ["put 64 34"], ["delete 61"], ["put 64 34", "get 64", "count"]):
        file.write_bytes(THREE)
        given, _, status = run([file, kind], lines, FAIL="pwrite", FAIL_AT=1, FAIL_HOW="whole")
        compare("the answer, the status", (given[0], status), ("refused write", 1))
        sessions = Sessions(file, kind, log=file.read_bytes())
        sessions.entries = opened(THREE)[0]
        sessions.hold([b"a", b"b", b"c", b"d"])
        wanted, told = sessions.wanted, sessions.told
        answers([file, kind], sessions.lines, wanted, told)


@case_of_store(*KINDS)
def is_empty_by_no_failed_statx(file, kind):
    """A length that can't be read is not taken as none: the store is refused, or answers as it stands."""
    log, _ = thirty()
    for number in count(1):
        for is_all in ({}, {"FAIL_ALL": 1}):
            file.write_bytes(log)
            mark = file.with_name("mark")
            mark.unlink(missing_ok=True)
            lines = ["count", "put 61 31"]
            given, told, status = run([file, kind], lines, FAIL="statx", FAIL_AT=number, FAIL_MARK=mark, **is_all)
            if not mark.exists():
                return
            if given:
                compare("the answer", given, [f"count {len(opened(log)[0])}", "ok"])
                unchanged(file, grown(log, (b"a", b"1")))
            else:
                compare("the status, and that it is told", (status, told != ""), (1, True))
                unchanged(file, log)


@case_of_store(*KINDS)
def tells_a_place_that_it_knows(file, kind):
    """Of a torn end its place and length, or nothing, if these can't be read as it is told."""
    for number in count(1):
        file.write_bytes(THREE + b"torn")
        mark = file.with_name("mark")
        mark.unlink(missing_ok=True)
        given, told, _ = run([file, kind], ["count"], FAIL="statx", FAIL_AT=number, FAIL_MARK=mark)
        if given and told not in ("", told_of(THREE + b"torn")):
            compare("what is told", told, told_of(THREE + b"torn"))
        if not mark.exists():
            return
