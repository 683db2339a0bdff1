"""Lists of commands: examples, and those from the fixed run of numbers, which are also done to lists."""
from harness.asked import Asked
from harness.case import KINDS, case_of
from harness.lists import Lists, random_key
from harness.session import word
from harness.walk import Walk
from harness.xorshift import Numbers

# How many random lists of commands are run. Each has up to eight.
RUNS = 1000


def edits(index, steps, flags):
    """An edit of the list of k comes to these flags."""
    index.comes_to([f"edit x6b {steps}", "retain x6a 0 0"], [f"edited {flags}", "done"])


@case_of(*KINDS)
def runs_commands(*words):
    with Asked(*words) as index:
        index.fills(b"k", [3, 1, 2])
        edits(index, "next delete next insert:9 next next insert:7", "true true true true true true true")
        index.holds(b"k", [1, 9, 2, 7])
        index.counts(1, 4, 1)
    with Asked(*words) as index:
        index.fills(b"k", [5])
        edits(index, "next delete insert:4 next insert:6", "true true false true true")
        index.holds(b"k", [6])
        index.counts(1, 1, 1)
    with Asked(*words) as index:
        each_command(index)
    with Asked(*words) as index:
        index.comes_to(["insert x6b 1", "insert_and_retain x6b 2 2 3"], ["done", "done"])
        index.holds(b"k", [1, 2])
        index.counts(1, 2, 0)


def each_command(index):
    """Each command once, on an empty index."""
    commands = [
        "insert x6b 1",
        "get_or_insert x6a 4",
        "edit x6b update:9 next update:8 insert:7",
        "remove x6a",
        "retain x6b 1 8",
        "edit x6a next",
    ]
    index.comes_to(commands, ["done", "done", "edited false true true true", "done", "done", "edited false"])
    index.holds(b"k", [8])
    index.counts(1, 1, 2)


@case_of(*KINDS)
def runs_lists_of_commands(*words):
    with Asked(*words) as index:
        lists, numbers = Lists(words[0]), Numbers()
        for _ in range(RUNS):
            pairs = [command(lists, numbers) for _ in range(numbers.next() % 9)]
            index.comes_to([line for line, _ in pairs], [outcome for _, outcome in pairs])
            lists.compare_all(index)
        if lists.pruned == 0:
            raise ValueError("no value was taken out")


def command(lists, numbers):
    """A command of six kinds, done to the lists, and its outcome."""
    number = numbers.next()
    key = random_key(number)
    name = word(key)
    limit = number // 64 % 5
    chosen = number // 512 % 12
    if chosen == 0:
        lists.remove(key)
        return f"remove {name}", "done"
    if chosen == 1:
        leave_quarters(lists, key, limit)
        return f"retain {name} 3 {limit}", "done"
    if chosen == 2:
        lists.get_or_insert(key, number)
        return f"get_or_insert {name} {number}", "done"
    if chosen < 7:
        steps, flags = edit(lists, key, numbers)
        return " ".join(["edit", name, *steps]), " ".join(["edited", *flags])
    if chosen < 9:
        leave_quarters(lists, key, limit)
        if number // 4096 % 4 < limit:
            lists.put(key, [*lists.list_at(key), number])
        return f"insert_and_retain {name} {number} 3 {limit}", "done"
    lists.insert(key, number)
    return f"insert {name} {number}", "done"


def leave_quarters(lists, key, limit):
    """The values of a key of which the quarter is below a limit stay, of 0 to 3."""
    before = lists.list_at(key)
    left = [value for value in before if value // 4096 % 4 < limit]
    lists.put(key, left)
    lists.pruned += len(before) - len(left)


def step(number):
    """A step of an edit, whether its place allows that or not."""
    return {0: f"insert:{number}", 1: f"update:{number}", 2: "delete"}.get(number // 8 % 6, "next")


def edit(lists, key, numbers):
    """Up to seven steps of an edit, in any order, with the flag that each comes to. They are done to the list if it has
    values."""
    steps = [step(numbers.next()) for _ in range(numbers.next() % 8)]
    if not lists.list_at(key):
        return steps, ["false"] * len(steps)
    walk = Walk(lists.list_at(key))
    answers = [walk.move(move) for move in steps]
    lists.leave(key, walk)
    return steps, ["false" if answer.startswith("unallowed") else "true" for answer in answers]
