"""Whole sessions of the program key_index: what it reads, what it writes, and how it ends."""
import subprocess
import tempfile
from os.path import commonprefix
from pathlib import Path

from harness.case import case
from harness.session import Wrong, shown
from harness.streams import failing

# Sessions, each line with its answer. A bad line is told on standard error, and ends the program with status 1.
SESSIONS = [
    (
        ["unordered"],
        """
        insert 0b02 1 -> ok
        insert 0bff 2 -> ok
        get 0b -> values 2 1
        remove 0b77 -> ok
        counts -> keys 0 items 0 pruned 2
        """,
    ),
    (
        ["unordered"],
        """
        insert - 7 -> ok
        get 00 -> values 7
        next 00 -> bad line 3
        """,
    ),
    (
        ["unordered"],
        """
        insert 0b 1 -> ok
        insert 0b 2 -> ok
        insert 0c 3 -> ok
        remove 0b -> ok
        get 0b -> none
        counts -> keys 1 items 1 pruned 2
        """,
    ),
    (
        ["ordered"],
        """
        insert 0b02aa 1 -> ok
        insert 1c04cc 21 -> ok
        insert 1c0311 22 -> ok
        insert 2d06ee 3 -> ok
        next 0b0102 -> values 22 21
        next 2d06ee -> values 1 wrapped
        prev cc0102 -> values 3
        first -> values 1
        last -> values 3
        counts -> keys 3 items 4 pruned 0
        """,
    ),
    (
        ["ordered"],
        """
        next 0b -> none
        prev 0b -> none
        first -> none
        last -> none
        insert 0b 1 -> ok
        next 0b -> values 1 wrapped
        prev 0b -> values 1 wrapped
        remove 0b -> ok
        last -> none
        """,
    ),
    (
        ["ordered"],
        """
        insert 0b02 1 -> ok
        insert 0bff 2 -> ok
        get 0b -> values 2 1
        remove 0b77 -> ok
        counts -> keys 0 items 0 pruned 2
        """,
    ),
    (
        ["ordered"],
        """
        first -> none
        last 0b -> bad line 2
        """,
    ),
    (
        ["ordered"],
        """
        insert 0b 0007 -> ok
        get 0b -> values 7
        insert 0b 18446744073709551616 -> bad line 3
        """,
    ),
    (
        ["punordered"],
        """
        insert 01 1 -> ok
        insert 0100 2 -> ok
        insert 0101 3 -> ok
        get 01 -> values 2 1
        counts -> keys 2 items 3 pruned 0
        """,
    ),
    (
        ["punordered"],
        """
        counts -> keys 0 items 0 pruned 0
        next 01 -> bad line 2
        """,
    ),
    (
        ["pordered"],
        """
        insert 1001 1 -> ok
        insert 1002 2 -> ok
        insert 1002 22 -> ok
        get 1002 -> values 2 22
        next 1001 -> values 2 22
        prev 1001 -> values 2 22 wrapped
        counts -> keys 2 items 3 pruned 0
        """,
    ),
    (
        ["pordered"],
        """
        first -> none
        insert 05 1 -> ok
        insert f0 2 -> ok
        next 80 -> values 2
        prev 80 -> values 1
        last -> values 2
        remove 05 -> ok
        prev 80 -> values 2 wrapped
        prune 0 -> bad line 9
        """,
    ),
    (
        ["immutable"],
        """
        insert 616131 1 -> ok
        insert 616132 3 -> ok
        insert 626231 4 -> ok
        get 616139 -> values 1 3
        get 636331 -> none
        prune 3 -> ok
        get 616139 -> values 3
        insert 6161 2 -> refused position
        counts -> items 2 pruned 1
        """,
    ),
    (
        ["immutable"],
        """
        insert 61 18446744073709551615 -> refused far
        insert 61 7 -> ok
        insert 62 7 -> refused position
        counts -> items 1 pruned 0
        remove 61 -> bad line 5
        """,
    ),
    (
        ["immutable"],
        """
        insert 61 9 -> ok
        insert 61 2 -> ok
        insert 61 5 -> ok
        get 61 -> values 2 5 9
        prune 5 -> ok
        prune 0 -> ok
        get 6100 -> values 5 9
        prune 61 1 -> bad line 8
        """,
    ),
]

# A session that every threshold answers alike, whether its partitions are arrays or trees.
AT_EACH_THRESHOLD = """
    insert 1001 1 -> ok
    insert 1002 2 -> ok
    insert 1002 22 -> ok
    get 1002 -> values 2 22
    next 1001 -> values 2 22
    prev 1001 -> values 2 22 wrapped
    counts -> keys 2 items 3 pruned 0
    insert 2005 5 -> ok
    first -> values 1
    last -> values 5
    next 1002 -> values 5
    prev 10 -> values 5 wrapped
    remove 1001 -> ok
    remove 1009 -> ok
    insert 1001 3 -> ok
    get 1001 -> values 3
    remove 1002 -> ok
    next 2005 -> values 3 wrapped
    counts -> keys 2 items 2 pruned 3
    prune 0 -> bad line 20
"""

# Without a threshold it is 512.
THRESHOLDS = [[], ["1"], ["2"], ["3"], ["4"], ["512"], ["18446744073709551615"]]

# Sessions by their bytes: the kind, what is read, what is written, what is told on standard error, and the status.
STREAMS = [
    # No line, no last newline, and an empty line.
    ("unordered", b"", b"", b"", 0),
    ("ordered", b"", b"", b"", 0),
    ("unordered", b"counts", b"keys 0 items 0 pruned 0\n", b"", 0),
    (
        "unordered",
        b"insert Ff 18446744073709551615\nget fF",
        b"ok\nvalues 18446744073709551615\n",
        b"",
        0,
    ),
    ("unordered", b"counts\n\ncounts\n", b"keys 0 items 0 pruned 0\n", b"bad line 2\n", 1),
    # A key of 500,000 bytes, and a number of 10,001 digits.
    (
        "unordered",
        b"insert " + b"0b" * 500_000 + b" 1\nget " + b"0B" * 500_000 + b"\ncounts\n",
        b"ok\nvalues 1\nkeys 1 items 1 pruned 0\n",
        b"",
        0,
    ),
    ("ordered", b"insert 0b " + b"0" * 10_000 + b"7\nget 0b", b"ok\nvalues 7\n", b"", 0),
    # A megabyte of NUL bytes, bytes that are no UTF-8, and a number that is too large by far.
    ("ordered", b"\0" * 1_048_576, b"", b"bad line 1\n", 1),
    ("ordered", b"\xff\xfe get" * 1000, b"", b"bad line 1\n", 1),
    ("ordered", b"insert 0b " + b"9" * 10_000, b"", b"bad line 1\n", 1),
]

# Lines that are no command of a kind.
BAD_LINES = {
    "unordered": [
        "",
        " ",
        "insert",
        "insert 0b",
        "insert  0b 1",
        "insert 0b  1",
        "insert 0b 1 ",
        " insert 0b 1",
        "insert 0b 1\r",
        "insert\t0b 1",
        "insert 0b 18446744073709551616",
        "insert 0b -1",
        "insert 0b +1",
        "insert 0b 0x1",
        "insert 0b 1 1",
        "insert 0 1",
        "insert 0b0 1",
        "insert 0g 1",
        "get 00112233445566778899AABBCCDDEEFF0f1e2d3g4b5a69788796a5b4c3d2e1f0",
        "get 00112233445566778899AABBCC/DEEFF0f1e2d3c4b5a69788796a5b4c3d2e1f0",
        "insert -- 1",
        "insert -0b 1",
        "remove",
        "remove ",
        "get 0b 0c",
        "Get 0b",
        "counts ",
        "next 00",
        "first",
        "prune 0",
    ],
    "ordered": [
        "",
        "next",
        "next 0",
        "prev 0b 0c",
        "first ",
        "last -",
        "insert 0 1",
        "insert  0b 1",
        "insert 0g 1",
        "insert 0b 1\r",
        "prune 1",
    ],
    "immutable": ["prune -1"],
}

# What is read before a read fails, and what is written by then.
FAILED_READS = [
    (b"", b""),
    (b"insert 0b 1\nget 0b\n", b"ok\nvalues 1\n"),
    (b"insert 0b 1\nget 0b", b"ok\n"),
    (b"insert 0b 1\nge", b"ok\n"),
]

# How many lines are read, and how many bytes of their answers are written before a write fails: at the first write, at
# one in mid-stream, and at the last one.
FAILED_WRITES = [(1, 0), (1000, 0), (1000, 10_000), (1, 23), (2, 24)]

# Arguments that name no kind.
BAD_ARGUMENTS = [
    [],
    ["sorted"],
    ["unordered", "512"],
    ["ordered", "2"],
    ["pordered", "0"],
    ["pordered", "-1"],
    ["pordered", "2", "2"],
    ["Unordered"],
    [""],
]


class Program:
    """Where the program is."""

    path = None


def check(words, given, ended, wanted):
    """Compares what the program wrote, what it told on standard error, and its status."""
    session = f"key_index {' '.join(words)} on {shown(repr(given))}"
    for name, answer, want in zip(("output", "standard error"), ended, wanted):
        if answer != want:
            place = len(commonprefix([repr(answer), repr(want)]))
            raise Wrong(
                f"{session}, {name}\n  wanted {shown(repr(want), place)}\n  answer {shown(repr(answer), place)}"
            )
    if ended[2] != wanted[2]:
        raise Wrong(f"{session}: status {ended[2]} in place of {wanted[2]}")


def run(words, stream, **rooms):
    """What the program writes, what it tells on standard error, and its status."""
    environment = failing(**rooms)
    done = subprocess.run(
        [Program.path, *words], **stream, env=environment, capture_output=True, timeout=300, check=False
    )
    return done.stdout, done.stderr, done.returncode


def answers(words, given, *wanted, **rooms):
    """The program on some bytes."""
    check(words, given, run(words, {"input": given}, **rooms), wanted)


def text_of(lines):
    """Lines as bytes, each with a newline."""
    return "".join(line + "\n" for line in lines).encode()


def answers_lines(words, text):
    """The program on the lines of a text, each of which has its answer behind an arrow."""
    lines, wanted = zip(*(line.strip().split(" -> ") for line in text.strip().splitlines()))
    told = [answer for answer in wanted if answer.startswith("bad line")]
    written = [answer for answer in wanted if not answer.startswith("bad line")]
    answers(words, text_of(lines), text_of(written), text_of(told), len(told))


def bytes_read(words, given, *wanted):
    """How many bytes of a file the program reads."""
    with tempfile.TemporaryFile(buffering=0) as file:
        file.write(given)
        file.seek(0)
        check(words, given, run(words, {"stdin": file}), wanted)
        return file.tell()


@case
def program_answers_sessions():
    for words, text in SESSIONS:
        answers_lines(words, text)


@case
def program_answers_alike_at_each_threshold():
    for threshold in THRESHOLDS:
        answers_lines(["pordered", *threshold], AT_EACH_THRESHOLD)


@case
def program_answers_as_the_rust_crate():
    """The five lines of the README's first run and 595 more, with the answers that the Rust crate's own code gives."""
    text = (Path(__file__).resolve().parent / "rust_answers.txt").read_text()
    if text.count("\n") != 600:
        raise ValueError("there are 600 lines")
    answers_lines(["ordered"], text)


@case
def program_reads_and_writes_bytes():
    for kind, *streams in STREAMS:
        answers([kind], *streams)


@case
def program_ends_at_failed_reads():
    for given, written in FAILED_READS:
        answers(["ordered"], given, written, b"failed\n", 1, READ_ROOM=len(given))
        answers(["ordered"], given, written, b"failed\n", 1, READ_ROOM=len(given), READ_STEP=5)


@case
def program_tries_interrupted_reads_again():
    given, written = b"insert 0b 1\ninsert 0b 2\nget 0b\ncounts", b"ok\nok\nvalues 2 1\nkeys 1 items 2 pruned 0\n"
    for step in range(1, 20):
        answers(["unordered"], given, written, b"", 0, READ_STEP=step)


@case
def program_ends_at_failed_writes():
    """Answers that wait can't be written behind a bad line either."""
    for count, room in FAILED_WRITES:
        written = (b"keys 0 items 0 pruned 0\n" * count)[:room]
        answers(["ordered"], b"counts\n" * count, written, b"failed\n", 1, WRITE_ROOM=room)
    answers(["unordered"], b"counts\nx\n", b"", b"failed\n", 1, WRITE_ROOM=0)


@case
def program_ends_alike_where_faults_are_not_told():
    for kind, given, status in [("unordered", b"x", 1), ("sorted", b"", 2), ("unordered", b"", 0)]:
        with open("/dev/full", "wb") as full:
            ended = subprocess.run(
                [Program.path, kind], input=given, stdout=subprocess.PIPE, stderr=full, timeout=300, check=False
            )
        check([kind], given, (ended.stdout, b"", ended.returncode), (b"", b"", status))


@case
def program_ends_at_bad_lines():
    for kind, lines in BAD_LINES.items():
        for line in lines:
            answers([kind], line.encode() + b"\n", b"", b"bad line 1\n", 1)


@case
def program_reads_nothing_behind_bad_arguments():
    usage = b"usage: key_index KIND [THRESHOLD]\n"
    for words in BAD_ARGUMENTS:
        if bytes_read(words, b"counts\n", b"", usage, 2) != 0:
            raise Wrong(f"key_index {' '.join(words)} reads")
    if bytes_read(["unordered"], b"counts\n", b"keys 0 items 0 pruned 0\n", b"", 0) != 7:
        raise Wrong("key_index unordered does not read")
