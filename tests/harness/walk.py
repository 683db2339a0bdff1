"""A cursor's way along a list, by the rules of a cursor alone."""


class Walk:
    """A list with a place in it: the values before the place, the one at it if the cursor is on one, and those behind
    it, the last of them first."""

    def __init__(self, values):
        self.before = []
        self.on = None
        self.behind = list(reversed(values))
        self.is_done = False
        self.taken = 0
        self.was_empty = False

    def state(self):
        if self.is_done:
            return "done"
        return "need_next" if self.on is None else "active"

    def step(self):
        """Goes to the next value, and gives it."""
        if self.on is not None:
            self.before.append(self.on)
        self.on = self.behind.pop() if self.behind else None
        self.is_done = self.on is None
        return self.on

    def drop(self):
        """Takes out the value that it is on."""
        self.on = None
        self.taken += 1
        self.was_empty = self.was_empty or not (self.before or self.behind)

    def list(self):
        """The list, without a place."""
        on = [] if self.on is None else [self.on]
        return self.before + on + self.behind[::-1]

    def move(self, move):
        """Makes a move as a line has it, and gives its answer."""
        name, _, number = move.partition(":")
        number = int(number or 0)
        answer = self.answer(name, number)
        return f"{answer} {self.state()}"

    def answer(self, name, number):
        if name == "next":
            value = self.step()
            return "end" if value is None else str(value)
        if name == "insert":
            if self.state() == "need_next":
                return "unallowed"
            if self.on is not None:
                self.before.append(self.on)
            self.on = None
            self.before.append(number)
            return "ok"
        if name in ("update", "delete"):
            if self.on is None:
                return "unallowed"
            if name == "update":
                self.on = number
            else:
                self.drop()
            return "ok"
        asked = []
        while self.behind:
            asked.append(str(self.step()))
            stays = number >> (len(asked) - 1) & 1 if len(asked) <= 64 else 0
            if name == "find" and stays:
                return " ".join([*asked, "found"])
            if name == "retain" and not stays:
                self.drop()
        self.step()
        return " ".join([*asked, "past" if name == "find" else "ok"])


def edit(values, moves):
    """What a cursor of a list with values answers to moves, and the walk that it takes."""
    walk = Walk(values)
    return " ".join(["need_next", *[walk.move(move) for move in moves]]), walk
