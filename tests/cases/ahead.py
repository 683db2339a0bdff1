"""Batches that look ahead: which lists are found and which values are visited, in what order."""
from harness.case import case
from harness.lists import Lists
from harness.session import Session, word
from harness.xorshift import Numbers

# The keys of random batches.
KEYS = (
    *(b"", b"\0", b"a", b"b", b"aa", b"ab", b"ba", b"bb"),
    *(b"a\0", b"aaa", b"aab", b"aba", b"bab", b"baba", b"ab\0", b"\0\0a"),
)


def tells(session, keys, events):
    """A batch of these keys tells this, in this order, and one that doesn't look ahead visits the same."""
    keys = " ".join(keys)
    visits = [event[len("visit ") :] for event in events if event.startswith("visit ")]
    session.ask(f"ahead {keys}".strip(), " ".join([*events, "ok"]))
    session.ask(f"many {keys}".strip(), " ".join([*visits, "ok"]))


def four_lists_ahead(*kind):
    """Seven keys of five values, one of them without a value and two of one index key; and keys with two values."""
    session = Session(*kind)
    for key, value in (("x1001", 1), ("x1002", 2), ("x2005", 5), ("x3007", 7), ("x3008", 8)):
        session.ask(f"insert {key} {value}", "ok")
    tells(
        session,
        ["x3008", "x3007", "x2500", "x2005", "x1002", "x1001", "x1001aa"],
        [
            "found 5 1",
            "found 6 1",
            "found 4 1",
            "found 3 1",
            "found 2 0",
            "visit 5 1",
            "found 1 1",
            "visit 6 1",
            "found 0 1",
            "visit 4 2",
            "visit 3 5",
            "visit 1 7",
            "visit 0 8",
        ],
    )
    session.ask("remove x2005", "ok")
    session.ask("insert x1002 22", "ok")
    session.ask("insert x2001 5", "ok")
    tells(
        session,
        ["x2001", "x1002", "x1002ff"],
        [
            "found 1 2",
            "found 2 2",
            "found 0 1",
            "visit 1 2",
            "visit 1 22",
            "visit 2 2",
            "visit 2 22",
            "visit 0 5",
        ],
    )
    session.check()


def one_key(*kind):
    """Batches of one key, so many times: its value is visited at each place, and its list found four places before."""
    session = Session(*kind)
    session.ask("insert x1001 1", "ok")
    session.ask("insert x1002 2", "ok")
    for count in (0, 1, 3, 4, 5, 8, 9):
        events = [f"found {place} 1" for place in range(min(count, 4))]
        for place in range(count):
            if place + 4 < count:
                events.append(f"found {place + 4} 1")
            events.append(f"visit {place} 2")
        tells(session, ["x1002"] * count, events)
    session.check()


def wanted(lists, keys):
    """What a batch of keys tells: the lists of the first four keys are found, and then, for each key, that of the
    fourth behind it is found and its own is visited."""
    places = sorted(range(len(keys)), key=lambda place: (lists.slot(keys[place]), place))
    found = [f"found {place} {len(lists.list_at(keys[place]))}" for place in places]
    events = found[:4]
    for number, place in enumerate(places):
        events += found[number + 4 : number + 5]
        events += [f"visit {place} {value}" for value in lists.list_at(keys[place])]
    return events


def told_beside(*kind):
    """A thousand batches of up to 40 keys, with a value put in or a key taken out before each."""
    session = Session(*kind)
    lists = Lists(kind[0])
    numbers = Numbers()
    for _ in range(1000):
        key = KEYS[numbers.next() % 16]
        value = numbers.next()
        if value % 4 == 0:
            session.ask(f"remove {word(key)}", lists.remove(key))
        else:
            session.ask(f"insert {word(key)} {value}", lists.insert(key, value))
        keys = [KEYS[numbers.next() % 16] for _ in range(numbers.next() % 41)]
        tells(session, map(word, keys), wanted(lists, keys))
    session.check()


@case
def pordered_looks_ahead():
    four_lists_ahead("pordered")
    one_key("pordered")
    told_beside("pordered")
    told_beside("pordered_by_two")


@case
def pordered_at_two_looks_ahead():
    four_lists_ahead("pordered", 2)
    one_key("pordered", 2)
    told_beside("pordered", 2)
