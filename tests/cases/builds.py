"""Indices that are built in ranges."""
from cases.commands import edit
from harness.asked import Asked
from harness.case import BY_ONE, case_of
from harness.lists import Lists, random_key
from harness.session import word
from harness.xorshift import Numbers


@case_of(*BY_ONE)
def is_built_in_ranges(*words):
    """Seven ops in two ranges: two values come behind others, a key loses both that it had, and two values are inserted, one where there
    is none."""
    with Asked(*words) as index:
        index.keep("get_or_insert x1001 1")
        index.keep("get_or_insert x9001 2")
        index.keep("edit x1001 next insert:3")
        index.keep("get_or_insert x900105 4")
        index.keep("edit x9001 next delete next insert:5")
        index.keep("insert x1001 6")
        index.keep("insert x9101 7")
        index.ask("build 0 128 256", "ok")
        index.holds(b"\x10\x01", [6, 1, 3] if words[0].startswith("punordered") else [1, 3, 6])
        index.holds(b"\x90\x01", [5])
        index.holds(b"\x91\x01", [7])
        index.counts(3, 5, 1)


@case_of(*BY_ONE)
def is_built_two_thousand_times(*words):
    build_beside(words, 2000)


@case_of("punordered_by_two", "pordered_by_two", "pordered_wide")
def is_built_a_hundred_times(*words):
    build_beside(words, 100)


def build_beside(words, builds):
    """An index is built by up to 23 ops in ranges by random cuts, and then has the lists that the ops come to one by
    one. All keys are removed before the next build."""
    with Asked(*words) as index:
        lists, numbers = Lists(words[0]), Numbers()
        for _ in range(builds):
            lists.clear(index)
            line = " ".join(["build", *map(str, cuts(lists, numbers))])
            for _ in range(numbers.next() % 24):
                index.keep(op(lists, numbers))
            index.ask(line, "ok")
            lists.compare_all(index)


def cuts(lists, numbers):
    """Cuts at up to five partitions that keys have, or one behind."""
    drawn = [numbers.next() for _ in range(numbers.next() % 6)]
    inner = [lists.partition(random_key(number)) + number // 64 % 2 for number in drawn]
    return sorted({0, *inner, lists.partitions()})


def op(lists, numbers):
    """An op, which is also done to its key's list."""
    number = numbers.next()
    key = random_key(number)
    kind = number // 64 % 4
    if kind < 2:
        name = ["get_or_insert", "insert"][kind]
        getattr(lists, name)(key, number)
        return f"{name} {word(key)} {number}"
    steps, _ = edit(lists, key, numbers)
    return " ".join(["edit", word(key), *steps])
