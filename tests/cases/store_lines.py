"""What the program key_index_store reads and how it ends: lines good and bad, their ends, arguments, statuses."""
import os
import re
import subprocess

from cases.store import (
    IN_ORDER,
    KINDS,
    Sessions,
    Store,
    answers,
    case_of_store,
    compare,
    file_of,
    grown,
    opened,
    run,
    unchanged,
)
from harness.xorshift import Numbers

USAGE = "usage: key_index_store [FLAGS] FILE [KIND]; all about it: --help\n"

# A word of a line: a text in quotes, or another one, to a space or the end.
WORD = re.compile(rb'"(?:[^"\\]|\\["\\n]|\\x[0-9a-fA-F]{2})*"|(?!")[^ ]*')

# An escape in a text.
ESCAPE = re.compile(rb'\\(?:x(..)|(.))', re.DOTALL)

# The words that follow a command: keys and values, numbers, files.
COMMANDS = {
    "put": "K V",
    "get": "K",
    "has": "K",
    "delete": "K",
    "count": "",
    "sync": "",
    "cut": "",
    "dead": "",
    "compact": "[FILE2]",
    "move": "FILE2",
    "salvage": "FILE2",
    "help": "",
    "quit": "",
    "next": "K",
    "prev": "K",
    "absent": "K",
    "first": "",
    "last": "",
    "scan": "K N",
    "scan-prefix": "K N",
}

# What is told of a word that is not the one that is wanted.
NO_WORD = {
    "K": "K is neither hexadecimal nor a text in quotes",
    "V": "V is neither hexadecimal nor a text in quotes",
    "N": "N is no decimal number below 2^64",
}


def bytes_of(some):
    """The bytes of a key or a value, or none if the word says none."""
    if some[:1] == b'"':
        return ESCAPE.sub(lambda found: bytes_of_escape(*found.groups()), some[1:-1])
    if some == b"-":
        return b""
    return bytes.fromhex(some.decode()) if re.fullmatch(rb"(?:[0-9a-fA-F]{2})+", some) else None


def bytes_of_escape(digits, char):
    return bytes.fromhex(digits.decode()) if digits else {b"n": b"\n"}.get(char, char)


def number_of(some):
    return int(some) if re.fullmatch(rb"[0-9]+", some) and int(some) < 2**64 else None


def wants(name):
    """What is told of a command that has more words or fewer than it wants."""
    words = COMMANDS[name].split()
    count = {0: "no words", 1: "1 word", 2: "2 words"}[len(words)]
    return f"{name} wants {count}{' at most' if '[FILE2]' in words else ''}: {' '.join([name, *words])}"


def parsed(line):
    """The command of a line and its words, or what is wrong with it."""
    front = line.split(b" ")[0]
    name, place, values = front.decode("latin-1"), len(front), []
    if name not in COMMANDS:
        return shown_bytes(front) + NO_COMMAND
    for wanted in COMMANDS[name].split():
        if line[place : place + 1] != b" ":
            return wants(name)
        found = WORD.match(line, place + 1)
        value = found and (number_of if wanted == "N" else bytes_of)(found[0])
        if value is None:
            return NO_WORD[wanted]
        values.append(value)
        place = found.end()
    return (name, values) if place == len(line) else wants(name)


def shown_bytes(some):
    """What is no command as it is shown: 32 bytes of it, none that a terminal would act on."""
    shown = ""
    for byte in some[:32]:
        plain = {0x09: "\\t", 0x0A: "\\n", 0x0D: "\\r", 0x22: '\\"', 0x27: "\\'", 0x5C: "\\\\"}
        shown += plain.get(byte, chr(byte) if 0x20 <= byte <= 0x7E else f"\\x{byte:02x}")
    return shown


def session_of(file, words, read):
    done = subprocess.run(
        [Store.path, *words[:-1], file, words[-1]], input=read, capture_output=True, timeout=300, check=False
    )
    return done.stdout.decode(), done.stderr.decode(), done.returncode


NO_KEY, NO_VALUE, NO_NUMBER = NO_WORD.values()
NO_FILE = "FILE2 is no name of a file"
NO_COMMAND = " is no command; help lists them"

# What is no command, as a line and as it is shown.
NO_COMMANDS = {
    **{name: name for name in ("end", "PUT", "Get", "keep-going", "--help", "help,", "a" * 32)},
    **{" ": "", " put 00 01": "", "put\t00 01": "put\\t00", "\t": "\\t", "count\r": "count\\r", "\0": "\\x00"},
    **{"\u00e9": "\\xc3\\xa9", "a" * 40: "a" * 32, 'get"a"': 'get\\"a\\"', '"get" 00': '\\"get\\"'},
}

# Lines that are no command, and what is wrong with them.
BAD_LINES = {
    **{line: shown + NO_COMMAND for line, shown in NO_COMMANDS.items()},
    **{line: wants("put") for line in ("put", "put 00", "put 00 01 02", "put 00 01 ", 'put "a" "b" "c"')},
    **{f"put {key} 01": NO_KEY for key in ("", "0", "0g", "apple", "0x00", '"', '"a', 'a"', '"\\')},
    **{f"get {key}": NO_KEY for key in (r'"\a"', r'"\x0"', r'"\x0g"', '"\\', r'"\x', "--", "-00", "", "\u00e9")},
    **{f"put 00 {value}": NO_VALUE for value in ("0", "g0", "red", '"red', " 01")},
    **{line: wants("put") for line in ('put "a"b 01', 'put 00 "red"s', 'put "a""b"')},
    **{line: wants(line.split(" ")[0]) for line in ("get", "get 00 01", 'get "a" ', "has", "has 00 00", "delete")},
    **{line: wants(line.split(" ")[0]) for line in ("delete 00 00", "next", "next 00 00", "prev", "absent", "scan")},
    **{line: wants(line.split(" ")[0]) for line in ("scan 00", "scan - 1 1", "scan-prefix -", "salvage")},
    **{line: wants(line.split(" ")[0]) for line in ("salvage a b", "move", "move a b", "compact a b", 'get "a"b')},
    **{f"{name}{more}": wants(name) for name, words in COMMANDS.items() if not words for more in (" ", " 00")},
    **{line: NO_FILE for line in ("salvage ", 'salvage ""', 'salvage "a', "move ", 'move ""', 'compact "', "compact ")},
    **{f"scan - {number}": NO_NUMBER for number in ("", "x", "-1", "-0", "+1", "1.0", "0x1", '"1"', str(2**64))},
    **{"scan-prefix - +0": NO_NUMBER, "scan x 1": NO_KEY, "absent 0": NO_KEY},
}


@case_of_store(*KINDS)
def refuses_bad_lines(file, kind):
    """One ends the session with status 1, what is wrong with it is told, and what stood in front of it is answered and
    there; with --keep-going the session goes on, and each is told."""
    log = file_of((b"a", b"1"))
    for number, (line, wrong) in enumerate(BAD_LINES.items()):
        file.write_bytes(log)
        lines = ["count", f"put {number:04x} 31", line + "\r" * ("\r" in line), "put 62 32"]
        answers([file, kind], lines, ["count 1", "ok"], f"bad line 3: {wrong}\n", 1)
        unchanged(file, grown(log, (number.to_bytes(2, "big"), b"1")))
    sessions = Sessions(file, kind, "--keep-going", log=log)
    sessions.hold([b"a"])
    for number, (line, wrong) in enumerate(BAD_LINES.items()):
        sessions.told += f"bad line {len(sessions.lines) + 1}: {wrong}\n"
        sessions.ask(line + "\r" * ("\r" in line), [])
        sessions.put(bytes([number]), b"2")
    sessions.status = 1
    sessions.count()
    sessions.check()


@case_of_store(*KINDS)
def passes_over_lines(file, kind):
    """Empty ones, and those that begin with a number sign: they have no answer, and count as lines."""
    nothing = ["", "# put 61 31", "#", "\r", "#\r", '#"']
    answers([file, kind], [*nothing, "put 61 31", *nothing, "get 61"], [[]] * 6 + ["ok"] + [[]] * 6 + ["value 31"])
    told = f"bad line 8: {NO_COMMAND}\n"
    answers([file, kind], [*nothing, "count", " #"], [[]] * 6 + ["count 1"], told, 1)


@case_of_store(*KINDS)
def is_helped_and_quit(file, kind):
    """`help` lists the commands as --help does; behind `quit` no line is read, and what was written is there."""
    shown = subprocess.run([Store.path, "--help"], capture_output=True, text=True, check=True).stdout
    given, told, status = run([file, kind], ["put 61 31", "help", "count", "quit", "put 62 32", "no command"])
    compare("the answers in front and behind", (given[0], given[-1], told, status), ("ok", "count 1", "", 0))
    listed = [line for line in given[1:-1] if line.startswith("  ")]
    compare("the help is a part", ("\n".join(given[1:-1]) in shown, given[1][:15]), (True, "K and V are byt"))
    compare("its rows", [" ".join(line.split("  ")[1].split()) for line in listed], [
        f"{name} {words}".rstrip() for name, words in COMMANDS.items()
    ])
    unchanged(file, file_of((b"a", b"1")))
    answers([file, kind], ["get 62", "quit"], ["none"])
    answers([file, kind], ["put 6", "quit"], [], f"bad line 1: {NO_KEY}\n", 1)
    answers(["--keep-going", file, kind], ["put 6", "quit"], [], f"bad line 1: {NO_KEY}\n", 1)


@case_of_store(*KINDS)
def reads_random_lines(file, kind):
    """Three thousand lines of pieces of lines: each is answered as the page reads it, or told as bad."""
    pieces = [b" ", b" ", b"  ", b'"', b'"', b"\\", b'\\"', b"\\\\", b"-", b"61", b"7A", b"6g", b"0", b"007", b"a"]
    pieces += [b"18446744073709551615", b"18446744073709551616", b"\t", b"\xff", b"\xc3\xa9", b"\0", b"\r", b"'"]
    pieces += [b"\x7f", b"\x1b[1m", b"\\n", b"\\x", b"\\x4", b"\\xE9"]
    some_commands = [name for name in COMMANDS if name not in ("cut", "salvage", "help", "quit", "compact", "move")]
    numbers = Numbers(KINDS.index(kind) + 11)
    sessions = Sessions(file, kind, "--keep-going", "--text")
    read = b""
    for number in range(1, 3001):
        kind_of_line = numbers.next()
        words = [some_commands[kind_of_line % len(some_commands)].encode()]
        for _ in range(kind_of_line >> 8 & 3):
            some = b"".join(pieces[numbers.next() % len(pieces)] for _ in range(numbers.next() % 4))
            is_text = numbers.next() >> 62
            quoted = b'"' + some.replace(b"\\", b"\\\\").replace(b'"', b'\\"') + b'"'
            words.append((some, quoted, some.hex().encode(), b"3")[is_text])
        line = b" ".join(words) if kind_of_line >> 60 else b"".join(words)
        line = line.removesuffix(b"\r")
        read += line + (b"\r\n" if kind_of_line >> 20 & 1 else b"\n")
        ask_parsed(sessions, number, line)
    wanted = "".join(
        "".join(answer + "\n" for answer in ([some] if isinstance(some, str) else some)) for some in sessions.wanted
    )
    given, told, status = session_of(file, ["--keep-going", "--text", kind], read)
    lines = read.split(b"\n")
    for place, (one, other) in enumerate(zip(told.split("\n"), sessions.told.split("\n"))):
        number = re.match("bad line ([0-9]+)", one)
        compare(f"told {place}, {lines[int(number[1]) - 1] if number else ''}", one, other)
    compare("standard error", told, sessions.told)
    compare("the answers", given.split("\n"), wanted.split("\n"))
    compare("the status", status, 1)
    unchanged(file, bytes(sessions.logs[file]))


def ask_parsed(sessions, number, line):
    """What a line is answered."""
    found = parsed(line)
    if isinstance(found, str):
        sessions.told += f"bad line {number}: {found}\n"
        return
    name, values = found
    if name in ("put", "delete", "get", "has", "count"):
        getattr(sessions, name)(*values)
    elif name == "sync":
        sessions.ask("sync", "ok")
    elif name == "dead":
        sessions.dead()
    elif sessions.kind not in IN_ORDER:
        sessions.ask(name, "refused unordered")
    elif name in ("scan", "scan-prefix"):
        sessions.scan(*values)
        del sessions.wanted[-1 if name == "scan" else -2]
    elif name in ("first", "last"):
        sessions.ends()
        del sessions.wanted[-1 if name == "first" else -2]
    else:
        sessions.neighbours(*values)
        sessions.wanted[-3:] = [sessions.wanted[-3:][("next", "prev", "absent").index(name)]]


@case_of_store(*KINDS)
def reads_ends_of_lines(file, kind):
    """LF and CR LF; a last line without its end is not carried out, and told."""
    for read, given, told, status in [
        (b"", "", "", 0),
        (b"put 61 31\r\nget 61\r\ncount\n", "ok\nvalue 31\ncount 1\n", "", 0),
        (b'put "a\r" "\r"\r\nget 610D\n', "ok\nvalue 0d\n", "", 0),
        (b"count\r\r\n", "", f"bad line 1: count\\r{NO_COMMAND}\n", 1),
        (b"put 61 31\nput 61 3132", "ok\n", "line 2 has no end\n", 1),
        (b"put 61 31\nput 61 3132\r", "ok\n", "line 2 has no end\n", 1),
        (b"put 61 31\ncount", "ok\n", "line 2 has no end\n", 1),
        (b"bad\ncount", "", f"bad line 1: bad{NO_COMMAND}\n", 1),
        (b"\r", "", "line 1 has no end\n", 1),
        (b"\n\r\n#\n", "", "", 0),
        (b"\n#\n\0\n", "", f"bad line 3: \\x00{NO_COMMAND}\n", 1),
        (b"#", "", "line 1 has no end\n", 1),
        (b"quit\ncount", "", "", 0),
    ]:
        file.unlink(missing_ok=True)
        compare(read, session_of(file, [kind], read), (given, told, status))
        there = {b"p": {}, b'"': {b"a\r": b"\r"}, b"6": {b"a": b"1"}}[read[4:5] if read.startswith(b"put") else b"p"]
        compare(f"what {read} leaves", opened(file.read_bytes())[0], there)
    done = session_of(file, ["--keep-going", kind], b"bad\ncount")
    compare("--keep-going", done, ("", f"bad line 1: bad{NO_COMMAND}\nline 2 has no end\n", 1))


@case_of_store("ordered")
def reads_a_long_line(file, kind):
    """A bad one of many megabytes is shown by its first bytes; the next one is read. NUL bytes too."""
    long = b"x" * 5_000_000
    for read, wrong in [
        (long, "x" * 32 + NO_COMMAND),
        (bytes(1_000_000), "\\x00" * 32 + NO_COMMAND),
        (b"get 6" + long, NO_KEY),
    ]:
        done = session_of(file, ["--keep-going", kind], read + b"\ncount\n")
        compare("a long line", done, ("count 0\n", f"bad line 1: {wrong}\n", 1))


def arguments(words, given, told, status, read=b"count\n", folder=None):
    done = subprocess.run([Store.path, *words], input=read, capture_output=True, timeout=300, check=False, cwd=folder)
    ended = (done.stdout.decode(), done.stderr.decode(), done.returncode)
    compare(f"{words}: what is answered and told, the status", ended, (given, told, status))


@case_of_store("ordered")
def reads_arguments(file, _kind):
    """Flags stand anywhere; wrong ones are told with the usage, status 2, and make no file; nor do --help, which ends
    with status 0, and --version."""
    folder = file.parent
    file = str(file)
    for words in [
        *[[], [file, "ordered", "more"], [file, "Ordered"], [file, ""], [file, "unknown"], ["--", file]],
        *[["--txt", file], ["--text=1", file], ["--x"], ["--text"], [file, "--durable", "--", "ordered"]],
        [file, "ordered", "--order"],
        *[[file, b"\xff"], [b"\xff"]],
    ]:
        arguments(words, "", USAGE, 2, folder=folder)
    compare("no file is made", list(folder.iterdir()), [])
    version = "key_index_store 2\n"
    for words in [["--version"], [file, "--version"], ["--text", "--version", file, "unknown", "more"]]:
        arguments(words, version, "", 0, folder=folder)
    for words in [["--help"], ["--help", file], [file, "ordered", "--text", "--help"], ["-h"], [file, "-h"]]:
        done = subprocess.run([Store.path, *words], input=b"", capture_output=True, check=False, cwd=folder)
        is_usage = done.stdout.startswith(b"usage: key_index_store [FLAGS] FILE [KIND]\n")
        compare("--help", (is_usage, done.stderr, done.returncode), (True, b"", 0))
    compare("no file is made", list(folder.iterdir()), [])
    for words in [["--text", "./--x"], ["-x", "--durable", "hashed"], ["--keep-going", "--text", "a b", "unordered"]]:
        arguments(words, "count 0\n", "", 0, folder=folder)
    compare("files are made", sorted(os.listdir(folder)), ["--x", "-x", "a b"])


@case_of_store(*KINDS)
def ends_with_a_status(file, kind):
    """0 where all went well, also where a key had no value; 1 where a line was refused, and the session went on."""
    no, opens = file.with_name("none") / "x", ["refused open", "count 1"]
    for lines, wanted, told, status in [
        ([], [], "", 0),
        (["get 61", "delete 61", "has 61"], ["none", "none", "no"], "", 0),
        (["put 61 31", "sync", "cut"], ["ok", "ok", "ok"], "", 0),
        ([f"salvage {file}", "count"], ["refused not empty", "count 1"], "", 1),
        ([f"salvage {no}", "count"], opens, f"cannot open {no}: No such file or directory (os error 2)\n", 1),
        (["salvage /", "count"], opens, "cannot open /: Is a directory (os error 21)\n", 1),
        (['salvage "a\0b"', "count"], opens, "cannot open a\0b: file name contained an unexpected NUL byte\n", 1),
        (["count"], ["count 1"], "", 0),
        (["dead", "compact", "count"], ["dead 0", "ok", "count 1"], "", 0),
        (["first"], ["entry 61 31"] if kind in IN_ORDER else ["refused unordered"], "", int(kind not in IN_ORDER)),
    ]:
        answers([file, kind], lines, wanted, told, status)
    compare("what is there", sorted(path.name for path in file.parent.iterdir()), [file.name])


@case_of_store(*KINDS)
def is_named_by_words_of_all_kinds(file, kind):
    """Files of copies: with spaces and quotes, and where a name is relative to the folder of the session."""
    sessions = Sessions(file, kind)
    sessions.put(b"a", b"1")
    sessions.check()
    folder = file.parent
    for name in ("plain", "two words", 'a "quoted" one', "back\\slash", "\u00e9", "-", "--text", "61"):
        for line in ("compact", "salvage"):
            text = '"' + f"{line} {name}".replace("\\", "\\\\").replace('"', '\\"') + '"'
            given = "ok\n" if line == "compact" else "salvaged 1 records, 0 bytes left out\n"
            arguments([file.name, kind], given, "", 0, f"{line} {text}\n".encode(), folder)
            unchanged(folder / f"{line} {name}", file_of((b"a", b"1")))
    arguments([file.name, kind], "ok\nok\n", "", 0, b"move -\nput 61 32\n", folder)
    unchanged(folder / "-", file_of((b"a", b"1"), (b"a", b"2")))
    unchanged(file, file_of((b"a", b"1")))
    compare("no part remains", [path for path in folder.iterdir() if path.suffix == ".part"], [])
