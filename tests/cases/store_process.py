"""The program key_index_store as a process: closed streams, pipes, devices, limits, permissions."""
import os
import pty
import shutil
import subprocess
import sys

from cases.store import (
    CLOSED,
    FRAME,
    HEADER,
    IN_ORDER,
    KINDS,
    TORN,
    Sessions,
    Store,
    answers,
    case_of_store,
    compare,
    copy_of,
    dead_in,
    file_of,
    grown,
    opened,
    record,
    told_left_out,
    told_of,
    unchanged,
    word,
)
from cases.store_damage import ALIKE, thirty
from harness.session import Wrong

STATUS = "the answers, standard error, and the status"


class Talk:
    """A session that is spoken to a line at a time."""

    def __init__(self, *words, before=()):
        self.process = subprocess.Popen(
            [*before, Store.path, *map(str, words)],
            stdin=subprocess.PIPE,
            stdout=subprocess.PIPE,
            stderr=subprocess.PIPE,
        )

    def __enter__(self):
        return self

    def __exit__(self, *_):
        self.process.kill()
        self.process.wait()
        for stream in (self.process.stdin, self.process.stdout, self.process.stderr):
            try:
                stream.close()
            except BrokenPipeError:
                pass

    def say(self, lines):
        self.process.stdin.write(lines.encode())
        self.process.stdin.flush()

    def hear(self):
        return self.process.stdout.readline().decode().rstrip("\n")

    def ask(self, line, wanted):
        self.say(line + "\n")
        compare(line, self.hear(), wanted)

    def end(self, told="", status=0):
        """The input ends."""
        given, error = self.process.communicate(timeout=300)
        compare(STATUS, (given.decode(), error.decode(), self.process.returncode), ("", told, status))


def in_shell(shell, *words, text=""):
    """Runs a command line of bash, in which "$@" is the program with words."""
    done = subprocess.run(
        ["bash", "-c", shell, "bash", Store.path, *map(str, words)],
        input=text.encode(),
        capture_output=True,
        timeout=300,
        check=False,
    )
    return done.stdout.decode(), done.stderr.decode(), done.returncode


@case_of_store(*KINDS)
def has_closed_streams(file, kind):
    """In each combination: where standard input or output is closed, the file is left as it is and the status is not 0;
    where standard error is, all goes on."""
    log, _ = thirty()
    logs = [None, b"", log, log + b"torn", log[:-1] + b"\xff", b"a text\n"]
    for log in logs:
        for closed in range(1, 8):
            file.unlink(missing_ok=True)
            if log is not None:
                file.write_bytes(log)
            ways = " ".join(way for bit, way in enumerate(("<&-", ">&-", "2>&-")) if closed >> bit & 1)
            text = "put 74686972 6e6577\nget 74686972\n"
            done = in_shell(f'"$@" {ways}', file, kind, text=text)
            if closed & 3:
                compare(f"{ways}: {STATUS}", done, ("", "" if closed & 4 else CLOSED, 1))
                compare(f"{ways}: whether there is a file", file.exists(), log is not None)
                if log is not None:
                    unchanged(file, log)
            elif log == b"a text\n":
                compare(f"{ways}: {STATUS}", done, ("", "", 1))
                unchanged(file, log)
            else:
                sessions = Sessions(file.with_name("other.log"), kind, log=log or b"")
                sessions.put(b"thir", b"new")
                sessions.get(b"thir")
                given = "".join(answer + "\n" for answer in sessions.wanted)
                compare(f"{ways}: {STATUS}", done, (given, "", sessions.status))
                unchanged(file, bytes(sessions.logs[sessions.file]))


@case_of_store("ordered")
def tells_nobody(file, _kind):
    """Help and usage where streams are closed or full: the status is not 0."""
    for words, ways, status in [
        (["--help"], ">&-", 1),
        (["--version"], ">&-", 1),
        (["--help"], ">/dev/full", 1),
        ([], "2>&-", 2),
        ([], ">&-", 2),
        ([], "<&-", 2),
        (["--none", file], "2>/dev/full", 2),
    ]:
        if "/dev/full" not in ways or os.path.exists("/dev/full"):
            compare(f"{words} {ways}", in_shell(f'"$@" {ways}', *words)[::2], ("", status))
    compare("whether there is a file", file.exists(), False)


@case_of_store(*KINDS)
def writes_to_a_full_device(file, kind):
    """What was done stands; that it can't be answered is told."""
    if not os.path.exists("/dev/full"):
        return
    given, told, status = in_shell('"$@" >/dev/full', file, kind, text="put 61 31\nput 62 32\n")
    compare("the answers, the status", (given, told.startswith("failed: "), status), ("", True, 1))
    compare("what stands", opened(file.read_bytes())[0], {b"a": b"1", b"b": b"2"})
    log = file.read_bytes() + b"torn"
    file.write_bytes(log)
    given, told, status = in_shell('"$@" 2>/dev/full', file, kind, text="get 61\nbad\n")
    compare("the answers, the status", (given, told, status), ("value 31\n", "", 1))
    unchanged(file, log)


@case_of_store(*KINDS)
def is_not_opened(file, kind):
    """A directory, a name in no folder, no name: what the system says."""
    answers([file.parent, kind], ["count"], [], f"cannot open {file.parent}: Is a directory (os error 21)\n", 1)
    nowhere = file.parent / "none" / "run.log"
    answers([nowhere, kind], ["count"], [], f"cannot open {nowhere}: No such file or directory (os error 2)\n", 1)
    answers(["", kind], ["count"], [], "cannot open : No such file or directory (os error 2)\n", 1)


@case_of_store("ordered")
def is_a_device(_file, kind):
    """It is no store, and nothing is written to it."""
    for place in ("/dev/null", "/dev/full"):
        answers([place, kind], ["put 61 31"], [], f"cannot open {place}: not a regular file\n", 1)


@case_of_store(*KINDS)
def answers_at_once(file, kind):
    """A program at a pipe gets each answer before it says the next line, and lines that come together are answered
    together; a line in two parts is answered behind the second."""
    with Talk(file, kind) as talk:
        for number in range(50):
            key = bytes([number])
            talk.ask(f"put {key.hex()} 31", "ok")
            talk.ask(f"get {key.hex()}", "value 31")
            unchanged_entries(file, number + 1)
        talk.say("get 00\nget 01\ncou")
        compare("the first of two", talk.hear(), "value 31")
        compare("the second of two", talk.hear(), "value 31")
        talk.ask("nt", "count 50")
        talk.say("count\n" * 20_000)
        for _ in range(20_000):
            compare("each of many", talk.hear(), "count 50")
        if kind in IN_ORDER:
            talk.say("scan - 2\n")
            compare("the answers", [talk.hear(), talk.hear(), talk.hear()], ["entry 00 31", "entry 01 31", "end"])
        talk.end()


def unchanged_entries(file, count):
    compare("the records of the file", len(opened(file.read_bytes())[0]), count)


@case_of_store(*KINDS)
def is_left_by_its_reader(file, kind):
    """Who reads the answers goes away: what was answered is there, and the program ends."""
    lines = "".join(f"put {number:06x} 31\n" for number in range(5000))
    given, _, _ = in_shell('"$@" | head -n 3', file, kind, text=lines)
    compare("three answers", given, "ok\nok\nok\n")
    entries, _, tail = opened(file.read_bytes())
    if tail not in ("nothing", TORN) or len(entries) < 3:
        raise Wrong(f"{len(entries)} entries are there, {tail}")


def in_blocks(blocks, file, kind, lines):
    """A session whose files may have so many blocks of 1,024 bytes."""
    shell = f'(ulimit -f {blocks}; exec "$@") | cat; exit "${{PIPESTATUS[0]}}"'
    given, told, status = in_shell(shell, file, kind, text="".join(f"{line}\n" for line in lines))
    return given.split("\n")[:-1], told, status


@case_of_store(*KINDS)
def has_a_limit_of_its_size(file, kind):
    """A put is refused, and what was there stays. The records before it are there, and in a session without the limit
    others. A record that ends at the limit is taken."""
    size = len(record(0, b"1", b"1" * 91))
    for blocks in (0, 1, 2):
        file.unlink(missing_ok=True)
        room = max(0, 1024 * blocks - len(HEADER)) // size
        left = 1024 * blocks - len(HEADER) - room * size
        lines = [f"put {number:02x} {'31' * 91}" for number in range(30)]
        wanted = ["ok"] * room + ["refused write"] * (30 - room)
        if room:
            lines += [f"put - {'32' * (left - FRAME + more)}" for more in (1, 0)] + ["delete 00", "delete ff"]
            wanted += ["refused write", "ok", "refused write", "none"]
        lines += ["get 00", "count", "put 00 -"]
        wanted += ["value " + "31" * 91 if room else "none", f"count {room + (room > 0)}", "refused write"]
        compare(STATUS, in_blocks(blocks, file, kind, lines), (wanted, "", 1))
        sessions = Sessions(file, kind, log=file.read_bytes())
        compare("the keys, the size", (len(sessions.entries), sessions.end), (room + (room > 0), 1024 * blocks))
        sessions.put(b"more", b"1" * 2000)
        sessions.count()
        sessions.check()


@case_of_store(*KINDS)
def is_copied_below_a_limit(file, kind):
    """A copy that is longer is refused, and leaves nothing; one that is not is made, also of a longer file."""
    sessions = Sessions(file, kind)
    for number in range(30):
        sessions.put(bytes([number]), b"1" * 90)
    sessions.check()
    log, copy = file.read_bytes(), file.with_name("copy.log")
    for line in (f"salvage {copy}", f"compact {copy}", f"move {copy}", "compact", "put 00 -", "delete 00"):
        compare(line, in_blocks(2, file, kind, [line, "count"]), (["refused write", "count 30"], "", 1))
        compare("what is there", {path.name: path.read_bytes() for path in file.parent.iterdir()}, {file.name: log})
    for number in range(10, 30):
        sessions.delete(bytes([number]))
    sessions.check()
    given = in_blocks(2, file, kind, [f"compact {copy}", "compact", "put 00 -", "count"])
    compare(STATUS, given, (["ok", "ok", "ok", "count 10"], "", 0))
    unchanged(file, grown(copy.read_bytes(), (b"\0", b"")))


def without_rights():
    """What comes in front of a command that root runs, so that permissions are kept; or nothing, if there is none."""
    if os.geteuid() != 0:
        return []
    rights = "-dac_override,-dac_read_search"
    before = ["setpriv", f"--bounding-set={rights}", f"--inh-caps={rights}"]
    if shutil.which("setpriv") is None or subprocess.run([*before, "true"], check=False).returncode != 0:
        print("skipped: files without rights, since root may write all and there is no setpriv", file=sys.stderr)
        return None
    return before


def as_reader(before, words, lines):
    done = subprocess.run(
        [*before, Store.path, *map(str, words)],
        input="".join(f"{line}\n" for line in lines).encode(),
        capture_output=True,
        timeout=300,
        check=False,
    )
    return done.stdout.decode().split("\n")[:-1], done.stderr.decode(), done.returncode


@case_of_store(*KINDS)
def speaks_at_a_terminal(file, kind):
    """The session goes on behind a line that is no command, is told what is wrong with it, and ends with status 1."""
    own, other = pty.openpty()
    pipes = {"stdout": subprocess.PIPE, "stderr": subprocess.PIPE}
    with subprocess.Popen([Store.path, file, kind], stdin=other, **pipes) as process:
        os.close(other)
        os.write(own, b"put 61\n\nput 61 31\ntypo\n# nothing\ncount\nquit\n")
        given, told = process.communicate(timeout=300)
    os.close(own)
    wrong = "bad line 1: put wants 2 words: put K V\nbad line 4: typo is no command; help lists them\n"
    compare(STATUS, (given.decode(), told.decode(), process.returncode), ("ok\ncount 1\n", wrong, 1))
    unchanged(file, file_of((b"a", b"1")))


def only_reads(file, kind, log, behind, before, flags):
    """A session that may only read, by these flags or by the file's permissions."""
    entries, words = opened(log)[0], [*flags, file, kind]
    saved = file.with_name("saved.log")
    saved.unlink(missing_ok=True)
    lines = ["put 61 31", "delete 74686972", "delete 61", "cut", "count", f"get {word(ALIKE[0])}"]
    lines += [f"salvage {saved}", "sync"]
    wanted = ["refused read-only"] * 4 + [f"count {len(entries)}"]
    wanted += [f"value {word(entries[ALIKE[0]])}" if ALIKE[0] in entries else "none"]
    wanted += [f"salvaged 30 records, {len(behind)} bytes left out", "ok"]
    told = told_of(log + behind) + told_left_out(log + behind, word)
    compare(STATUS, as_reader(before, words, lines), (wanted, told, 1))
    unchanged(file, log + behind)
    unchanged(saved, log)
    compare("the copy's permissions", oct(saved.stat().st_mode & 0o777), oct(0o644))
    with Talk(*words, before=before) as first:
        first.ask("count", f"count {len(entries)}")
        compare("two at once", as_reader(before, words, ["count"])[0], [f"count {len(entries)}"])
        answers([file, kind], ["count"], [], f"refused busy: {file}\n", 1)
    moved = file.with_name("moved.log")
    moved.unlink(missing_ok=True)
    lines = ["dead", "compact", f"move {moved}", "put 7a 31", "get 7a", "compact"]
    given = as_reader(before, words, lines)
    wanted = [f"dead {dead_in(log + behind, entries)}", "refused read-only", "ok", "ok", "value 31", "ok"]
    compare(STATUS, given, (wanted, told_of(log + behind), 1))
    unchanged(moved, copy_of({**entries, b"z": b"1"}))
    unchanged(file, log + behind)


@case_of_store(*KINDS)
def is_asked_to_be_read(file, kind):
    """By a flag: it is not made, it is read beside others that only read it, and never changed, whatever its
    permissions; a copy may be written."""
    missing = f"cannot open {file}: No such file or directory (os error 2)\n"
    answers(["--read-only", file, kind], ["count"], [], missing, 1)
    compare("no file is made", list(file.parent.iterdir()), [])
    log, _ = thirty()
    for behind in (b"", b"torn", b"damage, and more of it"):
        file.write_bytes(log + behind)
        only_reads(file, kind, log, behind, [], ["--read-only"])
    for part in (b"", HEADER[:5]):
        file.write_bytes(part)
        lines, wanted = ["count", "sync", "put - -"], ["count 0", "ok", "refused read-only"]
        answers(["--read-only", file, kind], lines, wanted, "", 1)
        unchanged(file, part)
    with Talk(file, kind) as writer:
        writer.ask("count", "count 0")
        answers([file, kind, "--read-only"], ["count"], [], f"refused busy: {file}\n", 1)
    answers(["--read-only", "/dev/null", kind], ["count"], [], "cannot open /dev/null: not a regular file\n", 1)


@case_of_store(*KINDS)
def may_only_be_read(file, kind):
    """It is read, also by two at once, and never changed; a copy may be written. One that may not be read is told with
    the system's reason."""
    before = without_rights()
    if before is None:
        return
    log, _ = thirty()
    entries = opened(log)[0]
    for behind in (b"", b"torn", b"damage, and more of it"):
        file.unlink(missing_ok=True)
        file.write_bytes(log + behind)
        file.chmod(0o444)
        only_reads(file, kind, log, behind, before, [])
    with Talk(file, kind) as writer:
        writer.ask("count", f"count {len(entries)}")
        given = as_reader(before, [file, kind], ["count"])
        compare("beside a writer", given, ([], f"refused busy: {file}\n", 1))
    file.chmod(0)
    given = as_reader(before, [file, kind], ["count"])
    compare("no rights", given, ([], f"cannot open {file}: Permission denied (os error 13)\n", 1))
    unchanged(file, log + behind)
    closed = file.parent / "closed"
    closed.mkdir()
    inner = closed / "inner.log"
    inner.write_bytes(log)
    closed.chmod(0o555)
    given = as_reader(before, [closed / "new.log", kind], ["count"])
    new = closed / "new.log"
    compare("no rights to make it", given, ([], f"cannot open {new}: Permission denied (os error 13)\n", 1))
    given, told, status = as_reader(before, [inner, kind], ["compact", "count"])
    compare("no rights to make a part", (given, status), (["refused open", f"count {len(entries)}"], 1))
    compare("the reason", told, f"cannot open {inner}: Permission denied (os error 13)\n")
    closed.chmod(0o755)
    unchanged(inner, log)
