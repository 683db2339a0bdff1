"""Two sessions of the program key_index_store at once, and sessions that are killed at any time."""
import os
import signal
import time
from itertools import count

from cases.store import (
    KINDS,
    TORN,
    Sessions,
    answers,
    case_of_store,
    compare,
    copy_of,
    file_of,
    fresh_files,
    grown,
    left_over,
    opened,
    run,
    unchanged,
    word,
)
from cases.store_damage import thirty
from cases.store_process import Talk
from harness.session import Wrong
from harness.xorshift import Numbers

# How often programs are killed in all cases together: KILLS=500 tests/run .. kill.
KILLS = int(os.environ.get("KILLS", "60"))


@case_of_store(*KINDS)
def is_busy(file, kind):
    """While a session has the file, also behind a compaction; behind a move the other file is busy and the first one
    free. Where the session ended, or was killed, the file opens."""
    log, _ = thirty()
    file.write_bytes(log)
    moved = file.with_name("moved.log")

    def is_refused(path):
        before = path.read_bytes()
        for other in ("ordered", kind):
            answers([path, other], ["put 61 31", "count"], [], f"refused busy: {path}\n", 1)
        unchanged(path, before)

    count = f"count {len(opened(log)[0])}"
    with Talk(file, kind) as first:
        first.ask("count", count)
        is_refused(file)
        first.ask("put 78 31", "ok")
        first.ask("delete 78", "ok")
        is_refused(file)
        first.ask("compact", "ok")
        is_refused(file)
        first.ask("put 78 31", "ok")
        first.ask("delete 78", "ok")
        first.ask(f"move {moved}", "ok")
        is_refused(moved)
        answers([file, kind], ["count"], [count])
        first.end()
    answers([file, kind], ["count"], [count])
    with Talk(file, kind) as killed:
        killed.ask("count", count)
        is_refused(file)
    answers([file, kind], ["count"], [count])


@case_of_store(*KINDS)
def is_busy_as_a_place(file, kind):
    """A file that another session has, empty or not, is no place for a copy."""
    log, _ = thirty()
    file.write_bytes(log)
    other = file.with_name("other.log")
    lines = ("salvage", "compact", "move")
    with Talk(other, "ordered") as second:
        second.ask("count", "count 0")
        for line in lines:
            wanted = ["refused busy", f"count {len(opened(log)[0])}"]
            answers([file, kind], [f"{line} {other}", "count"], wanted, "", 1)
        second.ask("put 61 31", "ok")
        for line in lines:
            wanted = ["refused not empty", f"count {len(opened(log)[0])}"]
            answers([file, kind], [f"{line} {other}", "count"], wanted, "", 1)
        second.end()
    answers([other], ["get 61", "count"], ["value 31", "count 1"])
    unchanged(file, log)


@case_of_store(*KINDS)
def is_no_part_of_another(file, kind):
    """A file whose name ends in `.part` is a file as each other one: copies to names beside it leave it."""
    part = file.with_name("b.part")
    for line in ("salvage", "compact", "move"):
        target = file.with_name("b")
        target.unlink(missing_ok=True)
        sessions = Sessions(part, kind, "--durable", log=file_of((b"a", b"1"), (b"b", b"2")))
        getattr(sessions, line)(target)
        sessions.put(b"c", b"3")
        sessions.hold([b"a", b"b", b"c"])
        sessions.check()
        sessions.hold([b"a", b"b", b"c"])
        sessions.check()


@case_of_store(*KINDS)
def is_made_while_it_is_copied(file, kind):
    """Another session makes the file to which a copy is on its way: what it was told is there stays there."""
    log = file_of(*((b"%05d" % number, b"v") for number in range(3000)))
    target = file.with_name("copy.log")
    for line in ("compact", "move", "salvage"):
        file.write_bytes(log)
        target.unlink(missing_ok=True)
        with Talk(file, kind) as first:
            first.ask("count", "count 3000")
            first.say(f"{line} {target}\n")
            for _ in range(100_000):
                if fresh_files(target) or target.exists():
                    break
            first.process.send_signal(signal.SIGSTOP)
            is_early = not target.exists()
            given, _, _ = run([target, kind], ["put 61 31"])
            first.process.send_signal(signal.SIGCONT)
            answer = first.hear()
            first.say("count\n")
            compare("count", first.hear(), "count 3000")
        if is_early and given == ["ok"]:
            compare(f"{line}: {answer}; what was put meanwhile", opened(target.read_bytes())[0].get(b"a"), b"1")


@case_of_store(*KINDS)
def is_killed_in_a_put(file, kind):
    """At some time: all that was answered is there, and of the rest the first ones."""
    numbers = Numbers(KINDS.index(kind) + 1)
    for _ in range(max(1, KILLS // 10)):
        file.unlink(missing_ok=True)
        calls = []
        for number in range(3000):
            key = b"%03d" % (numbers.next() % 300)
            calls.append((key, bytes([number & 0xFF]) * (numbers.next() % 90) if number % 5 else None))
        with Talk(file, kind) as talk:
            last = numbers.next() % 2500
            lines = [f"delete {word(one)}" if some is None else f"put {word(one)} {word(some)}" for one, some in calls]
            if os.fork() == 0:
                try:
                    talk.say("\n".join(lines) + "\n")
                finally:
                    os._exit(0)
            talk.process.stdin.close()
            heard = 0
            while heard < last and talk.hear() in ("ok", "none"):
                heard += 1
            talk.process.kill()
            while talk.hear() in ("ok", "none"):
                heard += 1
            talk.process.wait()
            os.wait()
            talk.process.stdin = open(os.devnull, "w", encoding="ascii")
        is_at_a_call(file, kind, calls, heard)


def is_at_a_call(file, kind, calls, heard):
    """The file has what so many calls leave, or more of them."""
    log = file.read_bytes() if file.exists() else b""
    found, _, tail = opened(log)
    entries = {}
    for number, (key, value) in enumerate(calls):
        if number >= heard and entries == found:
            break
        if value is None:
            entries.pop(key, None)
        else:
            entries[key] = value
    compare(f"what is there behind {heard} answers, {tail}", (found, tail in ("nothing", TORN)), (entries, True))
    sessions = Sessions(file, kind, log=log)
    sessions.hold(sorted({key for key, _ in calls})[:20])
    sessions.put(b"more", b"1")
    sessions.check()


@case_of_store(*KINDS)
def is_killed_in_a_compaction(file, kind):
    """At some time, in place or on the way to another file: the file is as it was, or whole, and the other one is whole
    or not there. A fresh file that is left over is told, and stays."""
    numbers = Numbers(3)
    records = [(b"%05d" % (number % 700), b"%d" % number * 9) for number in range(1400)]
    log = file_of(*records)
    entries = opened(log)[0]
    whole = copy_of(entries)
    for number in range(max(4, KILLS // 4)):
        for left in file.parent.iterdir():
            left.unlink()
        file.write_bytes(log)
        target = file if number % 2 else file.with_name("copy.log")
        with Talk(file, kind) as talk:
            talk.ask("count", "count 700")
            talk.say("compact\n" if number % 2 else f"compact {target}\n")
            time.sleep(numbers.next() % 1000 / 40_000)
        if target.exists() and target.read_bytes() not in ((log, whole) if target == file else (whole,)):
            raise Wrong(f"{target.name} has {target.stat().st_size} bytes where {len(whole)} are whole")
        if target != file:
            unchanged(file, log)
        parts = fresh_files(target)
        told = left_over(file)
        wanted = ["count 700", f"value {word(entries[b'00000'])}"]
        answers([file, kind], ["count", "get 3030303030"], wanted, told)
        again = "refused not empty" if target != file and target.exists() else "ok"
        line = "compact" if target == file else f"compact {target}"
        answers([file, kind], [line, "count"], [again, "count 700"], told, int(again != "ok"))
        unchanged(target, whole)
        compare("fresh files that are left over", fresh_files(target), parts)


# Seven calls, of which a copy has three records.
SEVEN = file_of(
    *((b"a", b"%d" % number) for number in range(3)),
    (b"b", b"1"),
    (b"b", None),
    (b"c", bytes(100)),
    (b"", b"empty"),
)


@case_of_store(*KINDS)
def is_killed_at_each_call(file, kind):
    """In front of each call of the system, and behind it: the file has what some of the lines leave, from the first one
    on, or is whole; a copy is whole, or not there; and both open, as if the part that remains were not there."""
    whole = copy_of(opened(SEVEN)[0])
    target = file.with_name("copy.log")
    put = (b"a", b"put")
    puts = [SEVEN, grown(SEVEN, put), grown(SEVEN, put, (b"c", None))]
    sessions = [(["put 61 707574", "delete 63"], puts, [None]), ([f"salvage {target}"], [SEVEN], [None, SEVEN])]
    sessions.append((["compact", "put 61 707574"], [SEVEN, whole, grown(whole, put)], [None]))
    sessions.append(([f"compact {target}"], [SEVEN], [None, whole]))
    sessions.append(([f"move {target}", "put 61 707574"], [SEVEN], [None, whole, grown(whole, put)]))
    for lines, files, targets in sessions:
        for flags in ([], ["--durable"]) if lines[0].startswith("put") else ([],):
            for name in ("open", "statx", "flock", "pread", "pwrite", "ftruncate", "fsync", "rename", "link", "unlink", "fchmod"):
                for how in ("kill", "killed"):
                    killed_at_each(file, target, [*flags, file, kind], lines, files, targets, FAIL=name, FAIL_HOW=how)


@case_of_store(*KINDS)
def is_killed_with_two_names(file, kind):
    """The process is killed as a copy has its name and that of the fresh file too: no later command changes the bytes of
    that copy, nor one in place those of its other names."""
    target, kept, third = (file.with_name(name) for name in ("copy.log", "kept.log", "third.log"))
    for line in ("compact", "move", "salvage"):
        file.write_bytes(SEVEN)
        target.unlink(missing_ok=True)
        run([file, kind], [f"{line} {target}"], FAIL="unlink", FAIL_AT=1, FAIL_HOW="kill")
        copy = target.read_bytes()
        (part,) = fresh_files(target)
        compare("two names of one file", part.samefile(target), True)
        target.rename(kept)
        given, told, status = run([file, kind], [f"{line} {target}"])
        compare("status, standard error", (status, told), (0, ""))
        unchanged(kept, copy)
        unchanged(target, copy)
        os.link(target, third)
        answers([target, kind], ["compact", "count"], ["ok", "count 3"], f"left over: {part}\n")
        unchanged(third, copy)
        unchanged(part, copy)
        part.unlink()
        third.unlink()


def killed_at_each(file, target, words, lines, files, targets, **fault):
    """The files are among these, wherever in a session the process was killed."""
    for number in count(1):
        for left in file.parent.iterdir():
            left.unlink()
        file.write_bytes(SEVEN)
        file.chmod(0o640)
        _, _, status = run(words, lines, FAIL_AT=number, **fault)
        there = target.read_bytes() if target.exists() else None
        if file.read_bytes() not in files or there not in targets:
            raise Wrong(f"{lines} {fault} {number}: {file.read_bytes().hex()}, {there}")
        if status == 0 or fault["FAIL_HOW"] == "killed" and fault["FAIL"] in ("open", "pread") and status == 1:
            break
        compare(f"{lines} {fault} {number}: the status", status, -9)
        sessions = Sessions(file, words[-1], log=file.read_bytes())
        if there is None:
            sessions.compact(target)
        sessions.put(b"more", b"1")
        sessions.hold([b"", b"a", b"b", b"c"])
        sessions.check()
