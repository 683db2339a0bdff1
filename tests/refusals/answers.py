"""What a session's answers say about refused calls, and the session without those."""
import re
from collections import Counter

REFUSED = "refused memory"

# The answer of a move, and the cursor's state behind it.
MOVED = re.compile(r"(.*?) ?\b(need_next|active|done)\b ?")

# Lines that tell how partitions stand, which a refused call may change though it changes no other answer.
STANDS = ("standing", "moves", "range_standing", "range_moves")

OUTCOME = re.compile(REFUSED + r"|done|skipped|edited(?: true| false)*")


class Kept:
    """The lines of a session without the calls, moves and commands that were refused, the answers to these lines, and
    how often each call was accepted and refused."""

    def __init__(self, lines, answers):
        self.lines = []
        self.answers = []
        self.tally = Counter()
        # those that wait for a run or a build
        self.commands = []
        for line, answer in zip(lines, answers):
            self.take(line.split(" "), answer)

    def tell(self, name, accepted):
        self.tally[f"{name} {'accepted' if accepted else 'refused'}"] += 1

    def keep(self, words, answer):
        self.lines.append(" ".join(words))
        self.answers.append(answer)

    def take(self, words, answer):
        """A line and its answer."""
        name = words[0]
        if name == "+":
            self.commands.append(words)
        elif name not in STANDS:
            self.tell(name, answer != REFUSED)
            self.call(words, answer)

    def call(self, words, answer):
        """A call, with the commands that it takes."""
        commands = []
        if words[0] in ("run", "build"):
            commands, self.commands = self.commands, []
        if answer == REFUSED:
            return
        if words[0] == "run":
            commands, answer = self.ran(commands, answer)
        elif any(word.startswith("insert:") for word in words):
            words, answer = self.moved(words, answer)
        for command in commands:
            self.keep(command, "+")
        self.keep(words, answer)

    def moved(self, words, answer):
        """An edit without the insertions that were refused and left the cursor's state."""
        moves = [word for word in words[1:] if word[0] not in "x0123456789"]
        told = MOVED.findall(answer)
        if len(told) != len(moves) + 1:
            return words, answer
        kept_moves, kept_told = [], [told[0]]
        for move, (text, state), (_, before) in zip(moves, told[1:], told):
            if move.startswith("insert:"):
                self.tell("insert:", text != REFUSED)
                self.tell(f"{words[0]}:insert", text != REFUSED)
            if text != REFUSED or state != before:
                kept_moves.append(move)
                kept_told.append((text, state))
        words = [*words[: len(words) - len(moves)], *kept_moves]
        return words, " ".join(f"{text} {state}".strip() for text, state in kept_told)

    @staticmethod
    def ran(commands, answer):
        """Commands without those that were refused, and without the insertions of edits that were not made."""
        kept, told = [], []
        for words, outcome in zip(commands, OUTCOME.findall(answer)):
            if outcome == REFUSED:
                continue
            if outcome.startswith("edited"):
                flags = outcome.split(" ")[1:]
                made = [
                    (move, flag)
                    for move, flag in zip(words[3:], flags)
                    if flag == "true" or not move.startswith("insert:")
                ]
                words = [*words[:3], *(move for move, _ in made)]
                outcome = " ".join(["edited", *(flag for _, flag in made)])
            kept.append(words)
            told.append(outcome)
        return kept, " ".join([*told, "ok"])
