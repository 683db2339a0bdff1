"""What is run: sessions of the programs."""
from cases.witness import ABSENT, GIVEN, WORDS
from refusals import sessions
from refusals.stood import Standing
from refusals.task import Calls, Modelled, Session, Stored, Verified

DIGITS = range(1, 10)


def calls(program):
    """Sessions of calls, behind two lines that take the memory which lines and short answers need."""
    widest = " ".join(["at", *["x" + "00" * 8] * 10, *["1"] * 10, *["next"] * 10])
    for kind in [*sessions.FLAT, *sessions.PARTITIONED]:
        session = sessions.randomly(kind)
        yield task_of(program, kind, "random", session.lines, most=40, wanted=session.wanted)
    for kind, name, lines in sessions.sessions():
        first = "absent x" if kind.startswith("snapshot") else widest
        yield task_of(program, kind, name, [first, first, *lines])
    for kind, name, lines in sessions.of_positions():
        yield Modelled(f"{kind} {name}", [program, kind], lines)


def task_of(program, kind, name, lines, **more):
    """A session of calls, which also tells how partitions stand where they spill."""
    words = sessions.words_of(kind)
    if kind.startswith("pordered") and name not in ("callers", "run", "build"):
        return Standing(f"{kind} {name}", [program, *words], lines, int([*words, 512][1]), **more)
    return Calls(f"{kind} {name}", [program, *words], lines, **more)


def program_lines():
    """Three keys, two of them of one partition."""
    lines = []
    for number in DIGITS:
        lines += [f"insert 0b0{number} {number}", f"insert 0b01 1{number}", f"insert 1c0{number} {number}"]
        lines += ["get 0b01", "counts"]
    return [*lines, "remove 0b01", "get 0b", "remove 1c03", "counts", "get 1c"]


def spilling_lines():
    """A partition of 18 values that spills at the second or the eighth one, loses all but three, which move back at a
    threshold of eight, and grows again."""
    lines = []
    for number in DIGITS:
        lines += [f"insert 100{number} {number}", f"insert 1001 1{number}"]
        lines += ["get 1001", f"get 100{number}", "next 1001", "counts"]
    for number in (1, 3, 4, 5, 7, 9):
        lines += [f"get 100{number}", f"prev 100{number}", f"remove 100{number}", "counts"]
    lines += ["get 1002", "get 1006", "get 1008", "first", "last"]
    for number in DIGITS:
        lines += [f"insert 100{number} 2{number}", "get 1006", "counts"]
    return lines + [f"get 100{number}" for number in DIGITS]


def immutable_lines():
    lines = []
    for position in (1, 2, 5, 9, 20, 21, 22, 30, 40, 50, 60, 70):
        lines += [f"insert 0b{position:02x} {position}", f"get 0b{position:02x}", "counts"]
    return [*lines, "prune 21"]


def of_program(program):
    """Sessions of key_index. One of partitions that spill is answered as without a threshold."""
    for kind in ("unordered", "ordered", "punordered", "pordered"):
        yield Session(f"key_index {kind}", [program, kind], program_lines())
    for threshold in ("2", "8"):
        command = [program, "pordered", threshold]
        yield Session(f"key_index pordered_at_{threshold}", command, spilling_lines(), alone=command[:2])
    yield Session("key_index immutable", [program, "immutable"], immutable_lines())


def of_store(program):
    """Sessions of key_index_store over a file with five records, of keys alike in their first 32 bytes, and a torn end;
    and over one with damage."""
    key = "616c696b6520696e207468656972206669727374207468697274792d74776f20" + "20" * 8
    for kind in ("unordered", "ordered", "punordered", "pordered", "hashed"):
        lines = [f"put {key}20 12", f"put {key}60 16", f"get {key}20", f"has {key}60", f"delete {key}10"]
        lines += [f"delete {key}99", "count", "salvage saved.log", 'put "text" "value"', 'get "text"', "sync"]
        if kind in ("ordered", "pordered"):
            lines += [f"next {key}20", f"prev {key}20", "absent 73", "first", "last", "scan 61 3", "scan-prefix 61 2"]
            lines += ["dead", "compact", f"put {key}60 18", "compact copy.log", "move moved.log"]
        lines += [f"get {key}60", f"put {key}60 17", f"get {key}60", "cut", "put 61 31", "count"]
        before = [f"put {key}{number}0 0{number}" for number in range(1, 6)]
        for end, behind in (("torn", b"torn"), ("damaged", b"damage, and more")):
            yield Stored(f"store_{end} {kind}", [program, "run.log", kind], lines, before, behind, most=60)


def of_verify(program):
    """A witness of a held key, and one of an absent key."""
    yield Verified("witness present", [program, *WORDS], GIVEN, "present 6278")
    yield Verified("witness absent", [program, WORDS[0], "62"], ABSENT, "absent")


def tasks(calls_program, program, store, verify):
    return [*calls(calls_program), *of_program(program), *of_store(store), *of_verify(verify)]
