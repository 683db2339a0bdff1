"""The program key_index_store over a disk that is full, is not read at a place, or does not confirm what was written."""
import subprocess

from cases.store import (
    FRAME,
    HEAD,
    HEADER,
    IN_ORDER,
    KINDS,
    SUM,
    Sessions,
    Store,
    answers,
    case_of_store,
    compare,
    file_of,
    grown,
    opened,
    run,
    summed,
    unchanged,
    word,
)
from cases.store_damage import ALIKE, thirty
from harness.session import Wrong


@case_of_store(*KINDS)
def is_full(file, kind):
    """A file that is full refuses, keeps what was there, and cuts off what was begun when there is room. With the
    header not made, it has no keys."""
    first = file_of((b"same", b"1"))
    for room in range(len(first), 2 * len(first) - len(HEADER)):
        file.unlink(missing_ok=True)
        torn = grown(first, (b"same", b"2"))[len(first) : room]
        sessions = Sessions(file, kind)
        sessions.put(b"same", b"1")
        sessions.ask("put 73616d65 32", "refused write")
        for line in ("put 6d6f7265 33", "delete 73616d65"):
            sessions.ask(line, "refused write")
        sessions.hold([b"same", b"more"])
        given, _, status = run([file, kind], sessions.lines, FILE_ROOM=room)
        compare("the answers, the status", (given, status), (sessions.wanted, 1))
        if file.read_bytes() not in (first, first + torn):
            raise Wrong(f"a file with room for {room} bytes has {file.read_bytes().hex()}")
        sessions = Sessions(file, kind, log=file.read_bytes())
        sessions.put(b"more", b"3")
        sessions.hold([b"same", b"more"])
        sessions.check()
    for room in range(len(first)):
        file.unlink(missing_ok=True)
        lines, wanted = ["put 73616d65 31", "get 73616d65", "count"], ["refused write", "none", "count 0"]
        answers([file, kind], lines, wanted, "", 1, FILE_ROOM=room)
        sessions = Sessions(file, kind, log=file.read_bytes())
        sessions.hold([b"same"])
        sessions.put(b"same", b"2")
        sessions.check()


@case_of_store(*KINDS)
def goes_on_when_there_is_room(file, kind):
    """In the session in which a write failed: what was begun is cut off, and the next session has the rest."""
    sessions = Sessions(file, kind)
    sessions.put(b"same", b"1")
    sessions.ask("put 6d6f7265 " + "33" * 40, "refused write")
    sessions.hold([b"same", b"more"])
    sessions.ask("cut", "ok")
    sessions.put(b"same", b"2")
    sessions.delete(b"same")
    sessions.hold([b"same", b"more"])
    given, _, status = run([file, kind], sessions.lines, FAIL="pwrite", FAIL_AT=2, FAIL_HOW="half")
    compare("the answers, the status", (given, status), (sessions.wanted, 1))
    unchanged(file, bytes(sessions.logs[file]))


@case_of_store(*KINDS)
def is_not_read_at_a_place(file, kind):
    """A file whose front or block isn't read is not opened; one that is not read at a record in a call refuses that
    call, and the map stays."""
    log, _ = thirty()
    for place in (0, len(HEADER)):
        file.write_bytes(log)
        answers([file, kind], ["count"], [], f"refused read: {file}\n", 1, UNREADABLE=place)
        unchanged(file, log)
    first = file_of((b"same", b"longer than what is read at first" * 99))
    sessions = Sessions(file, kind, log=grown(first, (b"other", b"2"), (b"third", b"3")))
    for line in ("get", "has", "put", "delete"):
        sessions.ask(f"{line} {word(b'other')}" + " 34" * (line == "put"), "refused read")
    sessions.get(b"nothing")
    sessions.get(b"same")
    sessions.count()
    for line in ("dead", f"compact {file}.copy", f"move {file}.copy", "compact"):
        sessions.ask(line, "refused read")
    if kind in IN_ORDER:
        for line in ("next 6f", "prev 73", "absent 70", "first", "scan - 9"):
            sessions.ask(line, "refused read")
        sessions.ask("last", sessions.shows(b"third"))
    sessions.put(b"same", b"4")
    sessions.check(UNREADABLE=len(first))
    sessions.hold([b"same", b"other", b"third"])
    sessions.check()
    compare("what remains", sorted(path.name for path in file.parent.iterdir()), [file.name])


@case_of_store(*KINDS)
def is_cut_where_it_is_not_read(file, kind):
    """Where a read fails as the records behind damage are counted: that is told, and they are cut off."""
    log, told_behind = file_of((b"a", b"1")), set()
    damaged = grown(log + b"no record stands here", (b"b", b"2"))
    for number in range(1, 9):
        file.write_bytes(damaged)
        given, told, status = run([file, kind], ["cut"], FAIL="pread", FAIL_AT=number)
        if given:
            compare("the answer, the status", (given, status), (["ok"], 0))
            unchanged(file, log)
            told_behind.add(told.split(", ")[-1])
    compare("what is told", told_behind, {"with 1 whole records\n", "with 0 whole records or more\n"})


@case_of_store(*KINDS)
def is_not_copied(file, kind):
    """Where a write fails: there is no copy, and no part of one, and the session goes on. An empty file that was there
    stays."""
    log = file_of((b"apple", b"1"), (b"berry", b"2"))
    for room in range(len(log)):
        sessions = Sessions(file, kind, log=log)
        copy = file.with_name("copy.log")
        for line in ("compact", f"compact {copy}", f"move {copy}", f"salvage {copy}"):
            if room % 2:
                copy.write_bytes(b"")
            sessions.lines, sessions.wanted = [], []
            sessions.ask(line, "refused write")
            sessions.hold([b"apple", b"berry"])
            sessions.check(FILE_ROOM=room)
            there = {path.name: path.read_bytes() for path in file.parent.iterdir()}
            compare(f"{line} with room for {room}", there, {file.name: log, **({copy.name: b""} if room % 2 else {})})
        copy.unlink(missing_ok=True)


@case_of_store(*KINDS)
def is_durable(file, kind):
    """With the flag a change is answered with `ok` only where it was forced to the disk; where that fails, it stands,
    and no later one is said to be forced."""
    lines = ["put 61 31", "put 62 32", "get 61", "delete 61", "sync", "count"]
    given, told, status = run(["--durable", file, kind], lines, FAIL="fsync", FAIL_AT=1, FAIL_ALL=1)
    refused = ["refused write", "refused write", "none", "refused write", "refused sync", "count 0"]
    reason = f"cannot sync {file}: Input/output error (os error 5)\n"
    compare("before the first write", (given, told, status), (refused, reason, 1))
    for number in (2, 3):
        file.unlink(missing_ok=True)
        given, told, status = run(["--durable", file, kind], lines, FAIL="fsync", FAIL_AT=number, FAIL_ALL=1)
        compare("get", given[2], "value 31")
        compare("changes", given[:2] + given[3:5], ["refused sync"] * 4)
        compare("the end", (given[5], "cannot sync" in told, status), ("count 1", True, 1))
        sessions = Sessions(file, kind, log=file.read_bytes())
        compare("what stands", sessions.entries, {b"b": b"2"})
        sessions.hold([b"a", b"b"])
        sessions.check()
    file.unlink(missing_ok=True)
    given, told, status = run([file, kind], lines[:4], FAIL="fsync", FAIL_AT=2, FAIL_ALL=1)
    compare("without the flag", (given, status), (["ok", "ok", "value 31", "ok"], 1))
    compare("the end", f"cannot sync {file}\n" in told, True)


@case_of_store("hashed")
def has_no_seed(file, kind):
    """Without a random seed there is no session, and no file is made."""
    given, told, status = run([file, kind], ["count"], FAIL="getentropy", FAIL_AT=1, FAIL_ALL=1)
    compare("no session", (given, told.startswith("failed: "), status, file.exists()), ([], True, 1, False))


@case_of_store(*KINDS)
def has_bytes_changed_beneath(file, kind):
    """Once a session has read them: a record that no longer reads is told, and never another value."""
    keys = [*ALIKE, b"no key"]
    log, _ = thirty()
    entries = opened(log)[0]
    for key, value in entries.items():
        place = log.rindex(summed(key) + summed(value)) - HEAD.size - SUM.size
        for off in (0, 1, 9, 13 + len(key), FRAME + len(key) + len(value) - 1):
            changed = bytearray(log)
            changed[place + off] ^= 0x10
            beneath(file, kind, log, changed, keys, entries)


def beneath(file, kind, log, changed, keys, entries):
    """A session that asks for keys once its file has other bytes."""
    file.write_bytes(log)
    session = subprocess.Popen(
        [Store.path, file, kind], stdin=subprocess.PIPE, stdout=subprocess.PIPE, stderr=subprocess.PIPE
    )
    session.stdin.write(b"count\n")
    session.stdin.flush()
    session.stdout.readline()
    file.write_bytes(changed)
    given, _ = session.communicate("".join(f"get {word(key)}\n" for key in keys).encode(), timeout=300)
    damaged = 0
    for key, answer in zip(keys, given.decode().split("\n"), strict=False):
        right = f"value {word(entries[key])}" if key in entries else "none"
        damaged += answer == "refused damaged"
        if answer not in (right, "refused damaged"):
            compare(f"get {word(key)}", answer, right)
    compare("some are damaged, and the status", (damaged > 0, session.returncode), (True, 1))
