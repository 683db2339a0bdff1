"""Floods: many keys in one partition and many values under one key, by calls and by cursors."""
from harness.case import case
from harness.session import Session, word, words

# The thresholds that floods are tried at.
THRESHOLDS = (1, 2, 3, 7, 512, 2**64 - 1)

# In which order the thousand keys of a flood come: the number of the key at each place.
ORDERS = (
    list(range(1000)),
    list(range(999, -1, -1)),
    [place * 617 % 1000 for place in range(1000)],
)


def wide(threshold):
    """The calls of an index by one byte and then two more, whose partitions spill at a threshold."""
    session = Session("pordered_wide", threshold)
    session.ask("threshold", threshold)
    return session


def key_of(number):
    """A number's key, in the partition 10."""
    return word([0x10, number >> 8, number & 0xFF])


def stands(session, is_spilled, entries):
    """The partition 10 is spilled, or has so many values in arrays."""
    session.ask("standing 16", "true 0" if is_spilled else f"false {entries}")


@case
def floods_spill():
    """Two thousand keys of one partition, and then six hundred values of one key of another."""
    session = wide(512)
    for number in range(2000):
        session.ask(f"insert {key_of(number)} {number}", "ok")
    session.ask("counts", "2000 2000 0")
    session.ask("standing 16", "true 0")
    session.ask("spilled_count", 1)
    session.ask("moves", "1 512")
    session.ask("next x100000", "1")
    session.ask("next x1007cf", "0 cycled")
    session.ask("next x0f", "0")
    for value in range(600):
        session.ask(f"insert x110000 {value}", "ok")
    session.ask("get x110000", words(range(600)))
    session.ask("counts", "2001 2600 0")
    session.ask("spilled_count", 2)
    session.ask("moves", "2 1024")
    session.ask("remove x110000", "ok")
    session.ask("counts", "2000 2000 600")
    session.ask("spilled_count", 1)
    session.ask("moves", "2 1024")
    session.check()


def many_keys(threshold, order):
    """A thousand keys of one partition, and then every second one taken out, which moves nothing back to arrays."""
    session = wide(threshold)
    for place, number in enumerate(order):
        session.ask(f"insert {key_of(number)} {place}", "ok")
        stands(session, place + 1 >= threshold, place + 1)
    session.ask("counts", "1000 1000 0")
    for place, number in enumerate(order):
        session.ask(f"get {key_of(number)}", place)
        if number > 0:
            session.ask(f"next {key_of(number - 1)}", place)
    for place, number in enumerate(order[::2]):
        session.ask(f"remove {key_of(number)}", "ok")
        stands(session, threshold <= 1000, 999 - place)
    for place, number in enumerate(order[1::2]):
        session.ask(f"get {key_of(number)}", 2 * place + 1)
    session.ask("counts", "500 500 500")
    session.check()


@case
def floods_of_keys_stand():
    """A thousand keys at each threshold, in each order."""
    for threshold in THRESHOLDS:
        for order in ORDERS:
            many_keys(threshold, order)


def many_values(threshold):
    """A thousand values of one key."""
    session = wide(threshold)
    for value in range(1000):
        session.ask(f"insert x10 {value}", "ok")
        stands(session, value + 1 >= threshold, value + 1)
    session.ask("get x10", words(range(1000)))
    session.ask("remove x10", "ok")
    session.ask("standing 16", "false 0")
    session.check()


def many_by_cursor(threshold):
    """A cursor puts a thousand values behind the first one, which moves none of them. The next call spills them where
    they have reached the threshold."""
    session = wide(threshold)
    values = range(1000, 2000)
    session.ask("insert x10 7", "ok")
    inserts = " ".join(f"insert:{value}" for value in values)
    session.ask(f"edit x10 find:0 {inserts}", "need_next 7 past done" + " ok done" * 1000)
    session.ask("get x10", words([7, *values]))
    stands(session, threshold == 1, 1001)
    session.ask("remove x1001", "ok")
    session.ask("get x10", words([7, *values]))
    stands(session, threshold <= 1001, 1001)
    session.ask("counts", "1 1001 0")
    session.check()


@case
def floods_of_values_stand():
    """A thousand values at each threshold, by calls and by a cursor."""
    for threshold in THRESHOLDS:
        many_values(threshold)
        many_by_cursor(threshold)


def come_and_go(kind, key, count):
    """So many keys of one partition come and go, the first one first. All of them are looked up after each call."""
    session = Session(kind)
    for number in range(count):
        session.ask(f"insert {key(number)} {number}", "ok")
        for held in range(number + 1):
            session.ask(f"get {key(held)}", held)
        session.ask(f"get {key(count)}", "none")
    session.ask("counts", f"{count} {count} 0")
    for number in range(count):
        session.ask(f"remove {key(number)}", "ok")
        session.ask(f"get {key(number)}", "none")
        for held in range(number + 1, count):
            session.ask(f"get {key(held)}", held)
    session.ask("counts", f"0 0 {count}")
    session.check()


@case
def punordered_keys_come_and_go():
    """Up to 70 keys of one partition, by one byte, by two, and by one and two more."""
    for count in (1, 16, 17, 32, 33, 70):
        come_and_go("punordered", lambda number: word([0x10, number]), count)
        come_and_go("punordered_by_two", key_of, count)
        come_and_go("punordered_wide", key_of, count)


# About the sizes at which a hashed map doubles: 4, 8 and 16 pairs, and then seven eighths of 32, 64 and 128 cells.
MAP_SIZES = (3, 4, 5, 8, 9, 14, 15, 16, 17, 28, 29, 31, 32, 33, 56, 57, 112, 113)


def lists_come_and_go(kind, count):
    """So many keys get two values each, so that as many lists have a tail, and lose them, the first key first."""
    session = Session(kind)
    for number in range(count):
        session.ask(f"insert {word([number])} {number}", "ok")
    for number in range(count):
        session.ask(f"insert {word([number])} {number + 1000}", "ok")
        for held in range(count):
            session.ask(f"get {word([held])}", f"{held + 1000} {held}" if held <= number else held)
    session.ask("counts", f"{count} {2 * count} 0")
    for number in range(count):
        session.ask(f"remove {word([number])}", "ok")
        for held in range(count):
            session.ask(f"get {word([held])}", "none" if held <= number else f"{held + 1000} {held}")
    session.ask("counts", f"0 0 {2 * count}")
    session.check()


@case
def unordered_maps_double():
    """Keys, and lists of two values, about the sizes at which a map doubles."""
    for count in MAP_SIZES:
        come_and_go("unordered", lambda number: word([number]), count)
        lists_come_and_go("unordered", count)


@case
def unordered_keys_come_round():
    """Keys that come and go in turn while as many stay, so that a map is full of marks of removed pairs again and again."""
    for count in (4, 16, 28, 56):
        session = Session("unordered")
        for number in range(200):
            session.ask(f"insert {word([number])} {number}", "ok")
            if count <= number:
                session.ask(f"remove {word([number - count])}", "ok")
            for held in (number - count, number - count + 1, number - count // 2, number):
                if 0 <= held:
                    session.ask(f"get {word([held])}", held if number - count < held else "none")
        session.ask("counts", f"{count} {count} {200 - count}")
        session.check()


def hash_of(number):
    """The hash of an index key of two bytes, as the standard library's hasher makes it: the key's bytes, the last one twice,
    in a folded multiplication."""
    low, high = number & 0xFF, number >> 8
    product = (0x243F6A8885A308D3 ^ (low | high << 8 | high << 16)) * (0x9E3779B97F4A7C15 ^ 4)
    return (product ^ product >> 64) & 2**64 - 1


def agreeing(count, groups):
    """So many index keys of two bytes whose hashes agree in the top byte, which is a pair's tag in a map, and in the one of so many
    groups at which a search begins."""
    alike = {}
    for number in range(2**16):
        keys = alike.setdefault((hash_of(number) >> 56, hash_of(number) % groups), [])
        keys.append(number)
        if len(keys) == count:
            return keys
    raise ValueError(f"no {count} keys agree")


@case
def punordered_hashes_agree():
    """Keys of one partition that a map tells apart by comparing them alone: their searches all begin at one of its groups, fill it, and
    go on to the next ones. They come and go, from the first one on."""
    for count in (33, 40, 56):
        keys = agreeing(count + 1, 4)
        come_and_go("punordered_wide", lambda number, keys=keys: key_of(keys[number]), count)
