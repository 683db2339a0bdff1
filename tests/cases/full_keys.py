"""Records next to a full key, in indices that have an order."""
from harness.asked import Asked
from harness.case import case_of
from harness.session import word


def files(index, key, position):
    index.ask(f"file {word(key)} {position}", "ok")


def next_is(index, key, position):
    index.ask(f"next {word(key)}", position)


def prev_is(index, key, position):
    index.ask(f"prev {word(key)}", position)


@case_of("ordered", "plain", "pordered", "pordered_at_one", "pordered_at_two")
def resolves(kind, *threshold):
    words = (f"records_{kind}", *threshold)
    with Asked(*words) as index:
        resolve(index)
        exclude(index)
    with Asked(*words) as index:
        file_together(index)


def resolve(index):
    """Two records that share their first byte, and one further on."""
    next_is(index, b"", "none")
    prev_is(index, b"\xff", "none")
    files(index, b"\x0b\x02", 1)
    files(index, b"\x0b\x05", 2)
    files(index, b"\x1c\x01", 3)
    next_is(index, b"\x0b\x02", 2)
    next_is(index, b"\x0b\x05", 3)
    next_is(index, b"\x1c\x01", "none")
    prev_is(index, b"\x1c\x01", 2)
    prev_is(index, b"\x0b\x02", "none")
    next_is(index, b"\x0b\x03", 2)
    prev_is(index, b"\x0b\x03", 1)
    next_is(index, b"", 1)
    prev_is(index, b"\xff", 3)


def exclude(index):
    """An absent key among those of `resolve`, and below and above them all; and a held one."""
    index.ask("exclude x0b03", "1 2")
    index.ask("exclude x0c", "2 3")
    index.ask("exclude x", "none 1")
    index.ask("exclude x1c0100", "3 none")
    index.ask("exclude x0b05", "held")


def file_together(index):
    """The empty key and the byte 0, which share an index key; and two records of one full key, of which the first in
    the list is given."""
    index.ask("inserts_first", "true" if index.inserts_first else "false")
    files(index, b"", 1)
    files(index, b"\x00", 2)
    next_is(index, b"", 2)
    prev_is(index, b"\x00", 1)
    prev_is(index, b"", "none")
    files(index, b"\x0b\x05", 3)
    files(index, b"\x0b\x05", 4)
    first = 4 if index.inserts_first else 3
    next_is(index, b"\x0b", first)
    prev_is(index, b"\x0b\x06", first)
