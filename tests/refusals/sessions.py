"""Sessions of key_index_calls, by kind of index and a name. Calls stand twice, so that a refused one is made again."""
from harness.lists import Lists, random_key
from harness.session import Session, word
from harness.xorshift import Numbers

FLAT = ["unordered", "ordered", "plain"]
SPILLING = ["pordered_at_1", "pordered_at_2", "pordered"]
PARTITIONED = ["punordered", *SPILLING]

# How many calls a random session makes, apart from those that compare.
CALLS = 500


def words_of(kind):
    """What the program takes for a kind: `pordered_at_2` spills at two values."""
    return kind.replace("_at_", " ").split(" ")


def looks(kind, keys):
    """Lines that tell what an index holds, and need no memory."""
    lines = [f"get {key}" for key in keys] + ["counts"]
    if "unordered" not in kind:
        lines += [f"{name} {key}" for name in ("next", "prev") for key in keys] + ["first", "last"]
    return lines


def twice(calls, behind):
    """Each call twice, with these lines behind each."""
    return [line for call in calls for line in [call, *behind, call, *behind]]


def two_keys(kind):
    """Two keys, of one partition where there are some."""
    return ["x1001", "x1102" if kind in FLAT else "x1002"]


def worked(kind):
    """A list that grows by calls and by cursors, and loses some values and then all."""
    first, second = two_keys(kind)
    calls = [
        f"edit_or_insert {first} 3",
        f"edit {first} find:1 insert:1",
        f"edit {first} next next insert:2",
        f"insert_and_retain {first} 4 27",
        f"edit {first} next insert:7",
        f"edit {first} find:0 insert:8",
        f"insert_at {first} 9 1",
        f"edit_at {first} next insert:1",
        f"insert {second} 5",
        f"insert_and_retain {first} 6 5",
        f"many {first} x",
        f"retain {first} 2",
        f"remove {first}",
    ]
    return twice(calls, looks(kind, [first, second]))


def callers(kind):
    key = "x1001"
    calls = [f"add {key} {value}" for value in (1, 2, 3)]
    calls += [f"replace_first {key} 9", f"update {key} 3 4"]
    return twice(calls, looks(kind, [key]))


def run(kind):
    """Two lists of commands, among whose steps are some that aren't allowed."""
    first, second = two_keys(kind)
    lists = [
        [
            f"insert {first} 1",
            f"get_or_insert {second} 4",
            f"edit {first} update:9 next update:8 insert:7",
            f"remove {second}",
            f"retain {first} 1 8",
            f"edit {second} next",
        ],
        [
            f"get_or_insert {first} 3",
            f"insert_and_retain {first} 4 2 100",
            f"edit {first} next insert:9 next",
            f"insert {second} 5",
            f"retain {first} 2 100",
            f"remove {second}",
        ],
    ]
    lines = []
    for commands in lists + lists:
        lines += [f"+ {command}" for command in commands]
        lines += ["run", *looks(kind, [first, second])]
    return lines


def put_at(session, lists, key, number):
    """A value behind the others of an index key, or behind the first of them by a cursor that is made there."""
    values = lists.list_at(key)
    if number % 3 and values:
        moves = ["next", f"insert:{number}"]
        session.ask(" ".join(["edit_at", word(key), *moves]), lists.edit(key, moves)[0])
    else:
        lists.put(key, [*values, number])
        session.ask(f"insert_at {word(key)} {number} {len(values)}", "ok")


def randomly(kind):
    """Random calls of lists, and their answers."""
    words = words_of(kind)
    session, lists, numbers = Session(*words), Lists(words[0]), Numbers()
    for _ in range(CALLS):
        number = numbers.next()
        key = random_key(number)
        if number // 1024 % 8:
            lists.call(session, numbers, key, number // 64 % 16)
        else:
            put_at(session, lists, key, number)
        lists.compare(session, key)
        lists.compare_any(session, numbers)
    return session


def ranges(kind, filled):
    """A range that is filled and then installed: with three keys; with a value more behind the first of these; with a
    list that grows past a threshold of two, beside a value of the index."""
    fill = [f"range_edit_or_insert {key} 0 {value}" for key, value in [("x8001", 1), ("x8002", 2), ("x8107", 3)]]
    # one or the other takes memory, in an array, a map or a tree
    fill += ["range_insert_at x8107 0 5 1", "range_insert_at x8103 0 7 0"]
    fill += ["range_edit_at x8002 0 find:0 insert:6 insert:7 insert:8 insert:9"]
    longer = ["range_edit_or_insert x8001ff 0 4 find:0 insert:4"]
    overfill = [
        "range_edit_or_insert x8001 0 1",
        "range_edit x8001 0 find:1 insert:2",
        "range_edit x8001 0 find:1 insert:3 next insert:4",
        "range_edit x8001 0 find:2 insert:5",
        "range_edit_or_insert x8002 0 6",
        "insert x9001 7",
    ]
    calls = [fill, [*fill, *longer], overfill][filled]
    looked = looks(kind, ["x8001", "x8002", "x8107", "x9001"])
    beside = ["range_counts 0", "range_values 0", "range_edit x8001 0 next next next", *looked]
    return ["range 128 2", "range 128 2", *twice(calls, beside), "can_install 0", "install 0", *looked]


def build(kind):
    """A build in two ranges."""
    lines = [
        "+ get_or_insert x1001 1",
        "+ get_or_insert x9001 2",
        "+ edit x1001 next insert:3",
        "+ get_or_insert x900105 4",
        "+ edit x9001 next delete next insert:5",
        "build 0 128 256",
        *looks(kind, ["x1001", "x9001"]),
    ]
    return lines + lines


def crowded(kind):
    """Forty keys, of one partition where there are some, each with two values. With the 33rd the array of the older
    values becomes a map, and in a partition that of the newest ones too."""
    keys = [f"x{number:02x}" if kind in FLAT else f"x07{number:02x}" for number in range(40)]
    lines = []
    for number, key in enumerate(keys):
        lines += twice([f"insert {key} {number}"], [f"get {held}" for held in keys[: number + 1]] + ["counts"])
    return lines


def ahead(kind):
    keys = ["x1001", "x1002", "x9001"]
    calls = [f"insert {key} {number}" for number, key in enumerate(keys)]
    return twice([*calls, "ahead x x10 x1001 x1002 x4001 x8001 x9001"], looks(kind, keys))


def second(kind):
    """A value in arrays, and the insertion of one of another key, which spills them at two. A refused one leaves them
    so."""
    behind = [*looks(kind, ["x1001", "x1002"]), "spilled_count"]
    return ["insert x1001 1", *twice(["insert x1002 2"], behind)]


def overfull(kind):
    """Lists that a cursor let grow to a threshold of two, and then each of some calls."""
    lines = []
    for number, call in enumerate(["edit", "remove", "retain", "insert", "insert_and_retain", "edit_or_insert"]):
        key = f"x4{number}01"
        numbers = "" if call in ("edit", "remove") else " 3 2"
        calls = [f"edit_or_insert {key} 1", f"edit {key} next insert:2"]
        lines += twice(calls, looks(kind, [key]))
        lines += twice([f"{call} {key}{numbers}", f"many {key} x"], looks(kind, [key]))
    return lines


def shrunken(kind):
    """Spilled partitions of which cursors leave three values. Each of four calls moves those back, or a later call does
    if the memory for that is refused, and more values spill the partition once more."""
    lines = []
    due = ["remove x{}00", "remove x{}02", "retain x{}02 1", "insert_and_retain x{}01 5 2"]
    for number, call in enumerate(due):
        partition = 0x40 + number
        absent, first, other = (f"x{partition:x}0{end}" for end in range(3))
        looked = looks(kind, [first, other])
        for value in range(1, 6):
            lines += [f"insert {key} {value}" for key in (first, other)]
        lines += [f"edit {first} retain:1", *looked, f"edit {other} retain:3", *looked]
        calls = [call.format(f"{partition:x}"), f"retain {absent} 0", f"remove {absent}"]
        lines += twice(calls, looked)
        lines += twice([f"insert {first} {value}" for value in range(6, 11)], looked)
        lines += twice([f"many {first} x"], looked)
    return lines


def looks_of_snapshot():
    keys = ["x", "x10", "x1001", "x1002", "x4001", "x9001"]
    return [f"{name} {key}" for name in ("get", "next", "prev") for key in keys] + ["len"]


def changed():
    """A snapshot whose keys are set, set again and taken out."""
    calls = ["set x1001 7", "set x1002 8", "set x9001 9", "set x1001 10", "set x 11", "set x10 12"]
    calls += ["unset x1002", "unset x4001", "set x1002 13"]
    return twice(calls, looks_of_snapshot())


def built():
    """A snapshot that is built of records, two of them of one key, in the place of another one."""
    records = [("x1001", 1), ("x9001", 2), ("x1001", 3), ("x", 4)]
    lines = ["set x4001 9"]
    for moved in (0, 10):
        lines += [f"+ record {key} {position + moved}" for key, position in records]
        lines += ["build 0 128 256", *looks_of_snapshot()]
    return lines


# Keys of an immutable index.
KEYS = ["x", "x10", "x1001", "x1002", "x4001"]


def looks_of_positions():
    return [*(f"get {key}" for key in KEYS), "indexed 0 64", "counts"]


def behind(calls, looked):
    """These lines behind each call."""
    return [line for call in calls for line in [call, *looked]]


def grown():
    """So many positions that ring and table are made anew, each with another one before the next try."""
    pairs = range(21, 63, 2)
    positions = [position for low in pairs for position in (low + 1, low, low + 1, low)]
    return [*(f"insert {KEYS[position % 5]} {position}" for position in positions), "prune 40", "prune 64"]


def ring(count):
    """Positions from 1 on, so many, and then 20, for which the ring has to grow, and behind seven positions the table
    too; another position, and a pruning that tells where the ring ends."""
    calls = [f"insert x1001 {position}" for position in range(1, count + 1) for _ in range(2)]
    calls += ["insert x1002 20", f"insert x4001 {count + 4}"]
    return behind([*calls, "prune 21", *grown()], looks_of_positions())


def ring_as_it_is(count):
    """The same without that pruning, and with 20 tried again."""
    calls = [f"insert x1001 {position}" for position in range(1, count + 1)]
    calls += ["insert x1002 20", f"insert x4001 {count + 4}", "insert x1002 20"]
    return behind([*calls, *grown()], looks_of_positions())


def marks():
    """Three insertions and a pruning, as marks, and again."""
    lines = [f"+ {line}" for line in ("insert x1001 1", "insert x1002 20", "prune 2", "insert x4001 5")]
    return [*lines, "run", *looks_of_positions()] * 2


def table():
    """A table that is made for few positions, and grows three times. Between two tries comes another position. Hashes
    have three tops and four low ends, so that positions share fingerprints and home cells."""

    def hash_of(position):
        return position % 3 << 56 | position % 4

    positions = [position for low in range(0, 40, 2) for position in (low + 1, low, low + 1, low)]
    calls = [f"insert {hash_of(position)} {position}" for position in positions]
    looked = [f"{name} {hash_of(position)}" for position in range(12) for name in ("candidates", "contains")]
    return behind(calls, [*looked, "counts"])


def arrays():
    """Arrays that grow by one, take room, and are drained."""
    calls = [f"insert {key} {value}" for key, value in [(10, 1), (20, 2), (10, 11), (10, 111)]]
    return twice([*calls, "reserve 100", "drain"], ["get 10", "get 20", "many", "counts", "room"])


def of_positions():
    """The kind, the name and the lines of each session that a model answers."""
    for kind in ("immutable", "immutable_by_eight"):
        for count, name in [(1, "ring"), (7, "ring_and_table")]:
            yield kind, name, ring(count)
            yield kind, name, ring_as_it_is(count)
        yield kind, "marks", marks()
    four = [f"insert x1001 {position}" for position in range(4)]
    yield "immutable_for_four", "room", behind(four, looks_of_positions())
    yield "segments", "log", behind(["append x1001"] * 4, ["get x1001", "get x10"])
    yield "table", "table", table()
    yield "arrays", "arrays", arrays()


def sessions():
    """The kind, the name and the lines of each session, but those of random calls."""
    for kind in [*FLAT, *PARTITIONED]:
        for function in (worked, callers, run):
            yield kind, function.__name__, function(kind)
    for kind in PARTITIONED:
        for filled in range(3):
            yield kind, "range", ranges(kind, filled)
        yield kind, "build", build(kind)
    for kind in SPILLING:
        yield kind, "ahead", ahead(kind)
    for kind in ("unordered", "ordered", "punordered"):
        yield kind, "crowded", crowded(kind)
    for function in (second, overfull):
        yield "pordered_at_2", function.__name__, function("pordered_at_2")
    yield "pordered_at_8", "shrunken", shrunken("pordered_at_8")
    for kind in ("snapshot_ordered_by_two", "snapshot_pordered_at_2"):
        yield kind, "changed", changed()
    yield "snapshot_pordered_at_2", "built", built()
