"""An index that is called some thousand times answers as lists do."""
from harness.asked import Asked
from harness.case import KINDS, case_of
from harness.lists import Lists, random_key
from harness.session import word
from harness.xorshift import Numbers

# How many calls by key are made.
CALLS = 3000


@case_of(*KINDS)
def keeps_lists(*words):
    """Behind each call the index has the called key's list, the counts, any other list, a batch's visits and
    neighbours. In each second run of 64 calls more values are taken out than put in."""
    with Asked(*words) as index:
        lists, numbers = Lists(words[0]), Numbers()
        for count in range(CALLS):
            number = numbers.next()
            key = random_key(number)
            chosen = number // 64 % 16
            lists.call(index, numbers, key, min(chosen, 6) if count // 64 % 2 else chosen)
            lists.compare(index, key)
            lists.compare_any(index, numbers)
        if lists.pruned == 0:
            raise ValueError("no value was taken out")


def key_beside(lists, number):
    """One of 80 keys of one partition, each with an index key of its own."""
    return bytes([0x10] * lists.partition_bytes + [number % 80])


@case_of(*KINDS)
def keeps_eighty_lists(*words):
    """Eighty keys of one partition get two values each, so that neither the first values nor the others stand in one
    array any more; three thousand calls are made, and then all keys are removed. Behind each call the called key and
    another one are looked up."""
    with Asked(*words) as index:
        lists, numbers = Lists(words[0]), Numbers()
        for value in range(160):
            key = key_beside(lists, value)
            index.ask(f"insert {word(key)} {value}", lists.insert(key, value))
            lists.compare(index, key_beside(lists, numbers.next()))
        for count in range(CALLS):
            number = numbers.next()
            key = key_beside(lists, number)
            chosen = number // 128 % 16
            lists.call(index, numbers, key, min(chosen, 6) if count // 256 % 2 else chosen)
            lists.compare(index, key)
            lists.compare(index, key_beside(lists, numbers.next()))
        lists.clear(index)
        for number in range(80):
            lists.compare(index, key_beside(lists, number))
