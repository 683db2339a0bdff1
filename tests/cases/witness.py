"""The program verify beside another verifier, harness/witness.py: right witnesses of random trees of any shape, each of them changed at
random, and each bit of some turned; then its words, its streams and its bound."""
import os
import random
import subprocess
import tempfile
from pathlib import Path

from harness.case import case
from harness.session import Wrong, shown
from harness.streams import failing
from harness.witness import bound, digest, verify

# How many witnesses are changed at random, and of how many each bit is turned: CHANGES=20000 BITS=30 tests/run .. witness_.
CHANGES = int(os.environ.get("CHANGES", "1500"))
BITS = int(os.environ.get("BITS", "2"))

# The most bytes that the program takes for a witness.
LIMIT = 1 << 26

USAGE = b"usage: verify ROOT KEY < WITNESS, where ROOT is 64 hexadecimal digits, and KEY two for each byte, or - for none\n"
LONG = b"standard input has more than 67108864 bytes\n"


class Verify:
    """Where the program is."""

    path = None


def says(root, key, witness):
    """What the program says of a witness, without its newline. A file in memory is its standard input, which takes a third of the time
    of a pipe."""
    given, said = os.memfd_create("given"), os.memfd_create("said")
    try:
        os.write(given, witness)
        os.lseek(given, 0, os.SEEK_SET)
        streams = [(os.POSIX_SPAWN_DUP2, given, 0), (os.POSIX_SPAWN_DUP2, said, 1), (os.POSIX_SPAWN_DUP2, said, 2)]
        words = [Verify.path, root.hex(), key.hex() or "-"]
        status = os.waitstatus_to_exitcode(os.waitpid(os.posix_spawn(words[0], words, os.environ, file_actions=streams), 0)[1])
        answer = os.pread(said, 1 << 20, 0).decode()
    finally:
        os.close(given)
        os.close(said)
    if not answer.endswith("\n") or status != (answer == "refused\n"):
        raise Wrong(f"status {status} with {shown(answer)}")
    return answer[:-1]


def same(root, key, witness):
    """What both say of a witness."""
    answer, wanted = says(root, key, witness), verify(root, key, witness)
    if answer != wanted:
        raise Wrong(f"{root.hex()} {key.hex()} < {witness.hex()}: {shown(answer)} where {shown(wanted)} is wanted")
    return answer


def key_field(key):
    return b"\0" if key is None else b"\1" + len(key).to_bytes(8, "little") + key


class Tree:
    """A tree of any shape over the records of a dict, in any order."""

    def __init__(self, held, numbers):
        self.held, keys = held, sorted(held)
        self.links = list(zip([None, *keys], [numbers.randbytes(3), *map(held.get, keys)], [*keys, None]))
        self.paths = {}
        self.root = self.grow(numbers.sample(self.links, len(self.links)), 1, numbers)

    def grow(self, links, place, numbers):
        """The digest of a tree of some records at a place, from which each path then goes on."""
        if len(links) == 1:
            key, value, above = links[0]
            self.paths[key] = place, []
            return digest(b"\0" + bound(key) + digest(value) + bound(above))
        cut = numbers.randrange(1, len(links)) if place < 1 << 40 else len(links) // 2
        left, right = self.grow(links[:cut], 2 * place, numbers), self.grow(links[cut:], 2 * place + 1, numbers)
        for some, beside in ((links[:cut], right), (links[cut:], left)):
            for key, _, _ in some:
                self.paths[key][1].append(beside)
        return digest(b"\1" + left + right)

    def witness(self, key):
        """The bytes that show what the tree has of a key."""
        below, value, above = max((link for link in self.links if link[0] is None or link[0] <= key), key=self.links.index)
        place, path = self.paths[below]
        given = bound(above) if key in self.held else digest(value)
        rest = value if key in self.held else key_field(below) + key_field(above)
        return bytes([key not in self.held]) + place.to_bytes(8, "little") + given + bytes([len(path)]) + b"".join(path) + rest

    def answer(self, key):
        return f"present {self.held[key].hex() or '-'}" if key in self.held else "absent"


def random_key(numbers):
    """A key of up to four bytes, mostly of few, so that keys begin alike, follow one another, and come again."""
    return bytes(numbers.choice((0, 1, 97, 98, 255)) for _ in range(numbers.randrange(5)))


def random_tree(numbers):
    keys = [random_key(numbers) for _ in range(numbers.randrange(40))]
    return Tree({key: numbers.randbytes(numbers.choice((0, 1, 7, 32, 100))) for key in keys}, numbers)


def changed(witness, other, numbers):
    """A witness changed at random, by another one too."""
    at, end, behind = numbers.randrange(len(witness)), numbers.randrange(len(witness) + 1), numbers.randrange(len(other) + 1)
    head, tail = witness[:at], witness[at + 1 :]
    first, second = (42 + 32 * numbers.randrange(max(1, witness[41])) for _ in range(2))
    parts = [bytearray(witness), bytearray(witness)]
    parts[0][first : first + 32] = witness[second : second + 32]
    parts[1][1:9] = (int.from_bytes(witness[1:9], "little") ^ 1 << numbers.randrange(64)).to_bytes(8, "little")
    return numbers.choice(
        [
            head + bytes([witness[at] ^ 1 << numbers.randrange(8)]) + tail,
            head + numbers.randbytes(1) + tail,
            head + tail,
            head + numbers.randbytes(1) + witness[at:],
            witness[:end],
            witness[end:],
            witness + numbers.randbytes(numbers.randrange(1, 40)),
            witness[:41] + bytes([numbers.randrange(256)]) + witness[42:],
            witness[:end] + other[behind:],
            bytes([1 - witness[0]]) + witness[1:],
            *map(bytes, parts),
        ]
    )


@case
def witness_right_or_changed():
    """What is changed tells nothing. What is right tells what is held of its key, and of another one nothing else than the other's own
    witness would, or nothing. Seeds 1, 2, .., a tree of each."""
    count = seed = 0
    while count < CHANGES:
        seed += 1
        numbers = random.Random(seed)
        tree = random_tree(numbers)
        asked = [*numbers.sample(sorted(tree.held), min(len(tree.held), 6)), *(random_key(numbers) for _ in range(6))]
        for key in asked:
            witness, other = tree.witness(key), tree.witness(numbers.choice(asked))
            told = same(tree.root, key, witness)
            if told != tree.answer(key):
                raise Wrong(f"seed {seed}, {key.hex()}: {told} where {tree.answer(key)} is wanted")
            if same(tree.root, key, other) not in ("refused", tree.answer(key)):
                raise Wrong(f"seed {seed}, {key.hex()}: another key's witness tells something wrong")
            if same(digest(tree.root), key, witness) != "refused":
                raise Wrong(f"seed {seed}, {key.hex()}: another root has the witness too")
            for _ in range(5):
                bad = changed(witness, other, numbers)
                if same(tree.root, key, bad) != "refused" and bad not in (witness, tree.witness(key)):
                    raise Wrong(f"seed {seed}, {key.hex()}: {bad.hex()} tells something, {witness.hex()} changed")
                count += 1


@case
def witness_with_a_bit_turned():
    """Of a tree of each seed from 1001 on one witness, of a held key and of an absent one in turn."""
    for seed in range(1001, 1001 + BITS):
        numbers = random.Random(seed)
        tree = random_tree(numbers)
        keys = sorted(tree.held) if seed % 2 and tree.held else [key for key in map(random_key, [numbers] * 200) if key not in tree.held]
        key = numbers.choice(keys)
        witness = tree.witness(key)
        if same(tree.root, key, witness) != tree.answer(key):
            raise Wrong(f"seed {seed}: the witness of {key.hex()} tells something else")
        for bit in range(8 * len(witness)):
            bad = bytearray(witness)
            bad[bit // 8] ^= 1 << bit % 8
            if same(tree.root, key, bytes(bad)) != "refused":
                raise Wrong(f"seed {seed}: {witness.hex()} tells something with the bit {bit} turned")


def run(words, streams, **rooms):
    """A run: its output, its errors and its status."""
    streams = {"stdout": subprocess.PIPE, "stderr": subprocess.PIPE, **streams}
    done = subprocess.run([Verify.path, *words], env=failing(**rooms), timeout=300, check=False, **streams)
    return done.stdout, done.stderr, done.returncode


def check(words, given, output, error, status, **rooms):
    """What the program answers to some words and some bytes."""
    ended = run(words, {"input": given}, **rooms)
    if ended != (output, error, status):
        raise Wrong(f"verify {' '.join(words)}: {[shown(str(part)) for part in ended]}")


# One record of the key 61, with the value 6278, and nothing above. Its digest is the root.
RECORD = b"\0" + bound(b"a") + digest(b"bx") + bound(None)
WORDS = [digest(RECORD).hex(), "61"]
GIVEN = b"\0" + (1).to_bytes(8, "little") + bound(None) + b"\0" + b"bx"
ABSENT = b"\1" + (1).to_bytes(8, "little") + digest(b"bx") + b"\0" + key_field(b"a") + key_field(None)


@case
def witness_of_any_depth():
    """A place has 64 bits, so a path of more than 63 digests ends nowhere, though it leads to the root. Seed 2001."""
    numbers = random.Random(2001)
    for steps in (0, 1, 2, 31, 62, 63, 64, 65, 128, 254, 255):
        path = [numbers.randbytes(32) for _ in range(steps)]
        least = 1 << min(steps, 63)
        for place in (least, 2 * least - 1, least + numbers.randrange(least), least // 2, min(2 * least, 2**64 - 1), 0):
            node = digest(RECORD)
            for step, beside in enumerate(path):
                node = digest(b"\1" + (beside + node if place >> step & 1 else node + beside))
            witness = b"\0" + place.to_bytes(8, "little") + bound(None) + bytes([steps]) + b"".join(path) + b"bx"
            if same(node, b"a", witness) != ("present 6278" if place >> steps == 1 else "refused"):
                raise Wrong(f"the place {place} with a path of {steps}")


@case
def witness_words():
    """Two words in hexadecimal, of either case. Of other ones the program reads nothing."""
    root = WORDS[0]
    check(WORDS, GIVEN, b"present 6278\n", b"", 0)
    check([root.upper(), "61"], GIVEN, b"present 6278\n", b"", 0)
    check([root, "6B"], ABSENT, b"absent\n", b"", 0)
    for key in ("61", "60", "-", "00"):
        check([root, key], ABSENT, b"refused\n", b"", 1)
    for key in ("62", "-", "6100"):
        check([root, key], GIVEN, b"refused\n", b"", 1)
    empty = digest(b"\0" + bound(b"") + digest(b"") + bound(None)).hex()
    check([empty, "-"], GIVEN[:-2], b"present -\n", b"", 0)
    check([empty, "61"], ABSENT[:9] + digest(b"") + b"\0" + key_field(b"") + key_field(None), b"absent\n", b"", 0)
    bad = [[], [root], [root, "61", "61"], [root, ""], [root, "6"], [root, "616"], [root, "6g"], [root, "--"], [root, " 61"]]
    bad += [["", "61"], [root[1:], "61"], [root[2:], "61"], [root + "00", "61"], [root[:-1] + "g", "61"], ["-", "61"], ["--help"]]
    for words in bad:
        with tempfile.TemporaryFile(buffering=0) as file:
            file.write(GIVEN)
            file.seek(0)
            ended = run(words, {"stdin": file})
            if ended != (b"", USAGE, 2) or file.tell() != 0:
                raise Wrong(f"verify {' '.join(words)}: {ended}, {file.tell()} bytes read")
    if run([b"\xff" * 64, "61"], {"input": GIVEN}) != (b"", USAGE, 2):
        raise Wrong("a word that is no text is taken")


@case
def witness_streams():
    """Reads in steps, some interrupted; a stream that fails, is closed or is full; and standard error that takes nothing."""
    for step in range(1, len(GIVEN) + 1):
        check(WORDS, GIVEN, b"present 6278\n", b"", 0, READ_STEP=step)
    for room in range(len(GIVEN)):
        check(WORDS, GIVEN, b"", b"cannot read standard input: Input/output error (os error 5)\n", 2, READ_ROOM=room)
    for room in range(len(b"present 6278\n")):
        told = b"cannot write standard output: No space left on device (os error 28)\n"
        check(WORDS, GIVEN, b"present 6278\n"[:room], told, 2, WRITE_ROOM=room)
    for closed, told in (("<&-", b"cannot read standard input: Bad file descriptor (os error 9)\n"), (">&-", b"cannot write standard output: Bad file descriptor (os error 9)\n")):
        shell = ["sh", "-c", f'"$0" "$@" {closed}', Verify.path, *WORDS]
        done = subprocess.run(shell, input=GIVEN, capture_output=True, timeout=300, check=False)
        if (done.stdout, done.stderr, done.returncode) != (b"", told, 2):
            raise Wrong(f"{closed}: {done}")
    for given, words, output, status in ((GIVEN, WORDS, b"present 6278\n", 0), (b"", WORDS, b"refused\n", 1), (GIVEN, [], b"", 2)):
        with open("/dev/full", "wb") as full:
            if run(words, {"input": given, "stderr": full}) != (output, None, status):
                raise Wrong("another end where standard error is full")


@case
def witness_longest():
    """The bound is met by a value, and one byte more is no witness."""
    value = bytes(LIMIT - 42)
    root = digest(b"\0" + bound(b"a") + digest(value) + bound(None)).hex()
    output, error, status = run([root, "61"], {"input": GIVEN[:-2] + value})
    if (output, error, status) != (b"present " + b"00" * len(value) + b"\n", b"", 0):
        raise Wrong(f"status {status}, {len(output)} bytes, {error}")
    check([root, "61"], GIVEN[:-2] + value + b"\0", b"", LONG, 2)
    with open("/dev/zero", "rb") as endless:
        if run([root, "61"], {"stdin": endless}) != (b"", LONG, 2):
            raise Wrong("an input without an end")
