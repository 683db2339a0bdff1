"""The program key_index_store where the name of its file is moved, removed, taken by another file, or a link: no other
file is replaced, and nothing is answered as durable that is in no file."""
import os
from itertools import count

from cases.store import (
    KINDS,
    Sessions,
    answers,
    case_of_store,
    compare,
    file_of,
    grown,
    left_over,
    opened,
    run,
    unchanged,
)
from cases.store_process import Talk, as_reader, without_rights

ONE = file_of((b"a", b"1"))


def gone(session, file, is_durable):
    """What a session answers whose file has lost its name, and how it goes on over a copy."""
    session.ask("get 61", "value 31")
    session.ask("sync", "refused gone")
    if is_durable:
        for line in ("put 63 33", "delete 61", "cut"):
            session.ask(line, "refused gone")
    session.ask("count", "count 1")
    saved = file.with_name("saved.log")
    session.ask(f"salvage {file.with_name('salvaged.log')}", "salvaged 1 records, 0 bytes left out")
    session.ask("dead", "dead 0")
    session.ask("compact", "refused gone")
    session.ask(f"compact {file.with_name('other.log')}", "ok")
    session.ask(f"move {saved}", "ok")
    session.ask("put 63 33", "ok")
    session.end("", 1)
    unchanged(file.with_name("salvaged.log"), ONE)
    unchanged(file.with_name("other.log"), ONE)
    unchanged(saved, grown(ONE, (b"c", b"3")))


@case_of_store(*KINDS)
def is_lost_under_a_session(file, kind):
    """The name is moved, removed, or another session's: that session's file stays, and the first one says so."""
    for number, flags in enumerate([[], ["--durable"]] * 3):
        for left in file.parent.iterdir():
            left.unlink()
        with Talk(*flags, file, kind) as session:
            session.ask("put 61 31", "ok")
            if number // 2 == 0:
                file.unlink()
            else:
                file.rename(file.with_name("moved.log"))
            if number // 2 == 2:
                answers(["--durable", file], ["put 62 32", "count"], ["ok", "count 1"])
            gone(session, file, bool(flags))
        compare("whether a file is there", file.exists(), number // 2 == 2)
        if number // 2 == 2:
            unchanged(file, file_of((b"b", b"2")))
        if number // 2:
            unchanged(file.with_name("moved.log"), ONE)


@case_of_store(*KINDS)
def is_a_link_to_another_folder(file, kind):
    """The file that it leads to is opened, made and replaced, and it is that one's folder that is brought to the disk: the
    link's folder is one that may not be read."""
    before = without_rights()
    if before is None:
        return
    links, real = file.with_name("links"), file.with_name("real")
    links.mkdir()
    real.mkdir()
    real.chmod(0o777)
    link = links / "link.log"
    link.symlink_to("../real/run.log")
    links.chmod(0o311)
    lines = ["put 61 30", "put 61 31", "compact", "put 62 32"]
    given = as_reader(before, ["--durable", link, kind], lines)
    compare("answers, standard error, status", given, (["ok"] * 4, "", 0))
    compare("whether it is a link", link.is_symlink(), True)
    compare("what is there", opened((real / "run.log").read_bytes())[0], {b"a": b"1", b"b": b"2"})
    compare("names", [path.name for path in real.iterdir()], ["run.log"])
    links.chmod(0o755)


def syncs_of(words, lines, mark):
    """How many syncs a session asks for."""
    for number in count(1):
        mark.unlink(missing_ok=True)
        yield run(words, lines, FAIL="fsync", FAIL_AT=number, FAIL_MARK=mark)[0]
        if not mark.exists():
            return


@case_of_store(*KINDS)
def has_its_name_on_the_disk(file, kind):
    """A session that did not make the file brings the name to the disk at its first durable answer: each sync that fails
    is told."""
    mark = file.with_name("mark")
    for lines in (["put 61 31"], ["put 61 31", "sync"]):
        given = []
        for answered in syncs_of(["--durable", file, kind], lines, mark):
            given.append(answered)
            file.unlink()
            answers([file, kind], ["count"], ["count 0"])
        compare("syncs", len(given) - 1, 2 + len(lines))
        for answered in given[:-1]:
            compare("whether one is refused", any(one.startswith("refused") for one in answered), True)
        compare("the last", given[-1], ["ok"] * len(lines))


@case_of_store(*KINDS)
def is_told_what_is_left_over(file, kind):
    """Fresh files beside a file, and none of other names; each stays, and no command takes it."""
    log = file_of((b"a", b"1"))
    fresh = [file.with_name(f"{file.name}.{number:016x}.part") for number in (0, 0x123456789ABCDEF)]
    others = [
        file.with_name(name)
        for name in (f"{file.name}.part", f"{file.name}.0.part", f"x{fresh[0].name}", f"{fresh[0].name}x", f"{file.name}.{'g' * 16}.part")
    ]
    for path in fresh + others:
        path.write_bytes(b"left")
    sessions = Sessions(file, kind, log=log)
    sessions.put(b"b", b"2")
    sessions.compact()
    sessions.compact(file.with_name("copy.log"))
    sessions.hold([b"a", b"b"])
    compare("how many are told", left_over(file).count("\n"), 2)
    sessions.check()
    for path in fresh + others:
        unchanged(path, b"left")
