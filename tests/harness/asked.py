"""The calls of an index by name, each with the answer that is wanted."""
from harness.session import Session, word, words


class Asked(Session):
    """A session that is checked at the end of its block."""

    def __init__(self, *words):
        super().__init__(*words)
        self.inserts_first = not self.words[0].replace("records_", "").startswith("pordered")

    def __enter__(self):
        return self

    def __exit__(self, kind, _error, _trace):
        if kind is None:
            self.check()

    def inserts(self, key, value):
        self.ask(f"insert {word(key)} {value}", "ok")

    def fills(self, key, values):
        """A key that has no value gets these, in this order."""
        for value in reversed(values) if self.inserts_first else values:
            self.inserts(key, value)

    def removes(self, key):
        self.ask(f"remove {word(key)}", "ok")

    def holds(self, key, values):
        self.ask(f"get {word(key)}", words(values))

    def counts(self, keys, items, pruned):
        self.ask("counts", f"{keys} {items} {pruned}")

    def retains(self, key, bits, asked):
        """`retain` asks on these values."""
        self.ask(f"retain {word(key)} {bits}", " ".join([*map(str, asked), "ok"]))

    def inserts_and_retains(self, key, value, bits, asked):
        """`insert_and_retain` asks on these values."""
        self.ask(f"insert_and_retain {word(key)} {value} {bits}", " ".join([*map(str, asked), "ok"]))

    def edits(self, key, moves, answers):
        """A cursor of a key answers these moves so."""
        self.ask(" ".join(["edit", word(key), *moves.split()]), " ".join(["need_next", *answers.split()]))

    def visits(self, keys, visits):
        """A batch visits these places with these values, in this order."""
        line = " ".join(["many", *map(word, keys)])
        self.ask(line, " ".join([*(f"{place} {value}" for place, value in visits), "ok"]))

    def comes_to(self, commands, outcomes):
        """Commands come to these outcomes."""
        for command in commands:
            self.keep(command)
        self.ask("run", " ".join([*outcomes, "ok"]))

    def next_has(self, key, values, cycled=False):
        self.ask(f"next {word(key)}", words(values) + " cycled" * cycled)

    def prev_has(self, key, values, cycled=False):
        self.ask(f"prev {word(key)}", words(values) + " cycled" * cycled)

    def ends_are(self, first, last):
        self.ask("first", words(first))
        self.ask("last", words(last))
