"""A program that runs while its allocations fail."""
import os
import re
import subprocess
import tempfile
from collections import Counter
from pathlib import Path

from cases.positions import model_of
from cases.store import told_of
from harness import session
from refusals.answers import REFUSED, Kept

# One allocation is refused alone, or with each behind it.
ALONE = "REFUSE_NONE"
MODES = (ALONE, "REFUSE_ALL")


class Wrong(Exception):
    """A run is not as it has to be."""


class Task:
    """A program with its arguments, and lines that it reads. With `most` at most so many of its allocations are refused
    in turn."""

    # The file of refuse.c, compiled.
    library = None

    def __init__(self, name, command, lines=(), most=None):
        self.name = name
        self.command = command
        self.lines = list(lines)
        self.most = most
        self.folder = None

    def start(self, command, lines, **refused):
        """A run: its status, its answers and its errors."""
        done = subprocess.run(
            command,
            input="".join(line + "\n" for line in lines),
            capture_output=True,
            text=True,
            env={**os.environ, **refused},
            cwd=self.folder,
            timeout=100,
            check=False,
        )
        return done.returncode, done.stdout.split("\n")[:-1], done.stderr.strip()

    def numbers(self):
        """Which allocations are refused in turn."""
        shell = ["sh", "-c", 'exec "$@" 9>&1 >/dev/null 2>&1', "sh", *self.command]
        _, told, _ = self.start(shell, self.lines, LD_PRELOAD=self.library)
        count = int(told[-1]) if told else 0
        return range(1, count + 1, count // self.most + 1 if self.most else 1)

    def sweep(self):
        """Refuses the allocations in turn. Counts runs, refusals, and how often each call was accepted and refused."""
        tally = Counter()
        with tempfile.TemporaryDirectory() as self.folder:
            self.begin()
            numbers = self.numbers()
            if not numbers:
                raise Wrong("no allocation is made")
            for number in numbers:
                for mode in MODES:
                    try:
                        tally += self.refuse(number, mode)
                    except Wrong as wrong:
                        raise Wrong(f"allocation {number} refused ({mode}): {wrong}") from None
        return tally

    def begin(self):
        """What comes before the first run."""

    def refuse(self, number, mode):
        """A run with the allocation of a number refused."""
        environment = {"LD_PRELOAD": self.library, "REFUSE": str(number), mode: "1"}
        tally = self.check(*self.start(self.command, self.lines, **environment))
        if mode == ALONE and tally["refusals"] > 1:
            raise Wrong("more than one call was refused")
        return tally + Counter(runs=1)

    def check(self, status, answers, error):
        """What a run came to."""
        raise NotImplementedError


class Verified(Task):
    """A witness that the program verify answers, or there was no memory for it."""

    errors = re.compile("(failed|cannot read standard input): (out of memory|memory allocation failed)")

    def __init__(self, name, command, witness, answer):
        super().__init__(name, command)
        self.witness = witness
        self.answer = answer

    def start(self, command, lines, **refused):
        environment = {**os.environ, **refused}
        done = subprocess.run(command, input=self.witness, capture_output=True, env=environment, timeout=100, check=False)
        return done.returncode, done.stdout.decode().split("\n")[:-1], done.stderr.decode().strip()

    def check(self, status, answers, error):
        is_told = (status, answers, error) == (0, [self.answer], "")
        if not is_told and (status != 2 or answers or not self.errors.fullmatch(error)):
            raise Wrong(f"status {status}, {'; '.join(answers)}, {error}")
        return Counter([f"{self.name} verify {'accepted' if is_told else 'refused'}", *["refusals"] * (not is_told)])


class Session(Task):
    """A session, in which what is not refused is answered as if the rest had not been there: as by the command `alone`
    where nothing is refused."""

    # What may be written where an allocation outside a call fails.
    errors = ("failed", "")

    def __init__(self, name, command, lines, most=None, alone=None):
        super().__init__(name, command, lines, most)
        self.alone = alone or command
        self.runs = {}

    def check(self, status, answers, error):
        self.ends(status, answers, error)
        kept = Kept(self.lines, answers)
        self.compare(kept)
        tally = Counter({f"{self.name} {call}": count for call, count in kept.tally.items()})
        tally["refusals"] = sum(answer.count(REFUSED) for answer in answers)
        return tally

    def ends(self, status, answers, error):
        """A run answers each line, or ends early and says why."""
        is_whole = (status, len(answers), error) == (0, len(self.lines), "")
        if not is_whole and (status != 1 or error not in self.errors):
            raise Wrong(f"status {status} with {len(answers)} answers to {len(self.lines)} lines, {error}")

    def compare(self, kept):
        """The same lines are answered so where nothing is refused."""
        lines = tuple(kept.lines)
        if lines not in self.runs:
            self.runs[lines] = self.start(self.alone, lines)
        status, answers, error = self.runs[lines]
        for line, given, wanted in zip(lines, kept.answers, answers):
            if given != wanted:
                raise Wrong(f"{line}: {given} is not the answer without refusals, {wanted}")
        if (status, len(answers), error) != (0, len(lines), ""):
            raise Wrong(f"status {status} without refusals, {error}")


class Calls(Session):
    """A session of key_index_calls, of which the answers may be known."""

    errors = ("failed",)

    def __init__(self, name, command, lines, most=None, wanted=()):
        super().__init__(name, command, lines, most)
        self.wanted = wanted

    def begin(self):
        self.compare(Kept(self.lines, self.wanted))

    def check(self, status, answers, error):
        """The construction of the index is a call as well."""
        if (status, answers, error) == (1, [], REFUSED):
            return Counter([f"{self.name} new refused", "refusals"])
        tally = super().check(status, answers, error)
        tally[f"{self.name} new accepted"] += bool(answers)
        return tally


class Modelled(Calls):
    """A session of which a model tells the answers."""

    def compare(self, kept):
        super().compare(kept)
        try:
            model_of(self.command[1]).follow(kept.lines, kept.answers)
        except session.Wrong as wrong:
            raise Wrong(str(wrong)) from None


class Stored(Session):
    """A session of key_index_store over the file run.log, in which some lines put records beforehand, and behind them
    stand some bytes. It may make other files, whose names end in .log too."""

    # What may be told on standard error besides what stands behind the records.
    tells = re.compile(
        "failed: (out of memory|memory allocation failed)|refused memory: run.log|cannot open run.log: out of memory|"
        "cannot sync run.log|cuts off .*|left out .*|"
    )

    def __init__(self, name, command, lines, before, behind, most=None):
        super().__init__(name, command, lines, most)
        self.before = before
        self.behind = behind
        self.content = self.told = None

    def begin(self):
        super().start(self.command, self.before)
        self.content = Path(self.folder, "run.log").read_bytes() + self.behind
        self.told = told_of(self.content)

    def start(self, command, lines, **refused):
        for made in Path(self.folder).glob("*.log*"):
            made.unlink()
        Path(self.folder, "run.log").write_bytes(self.content)
        status, answers, error = super().start(command, lines, **refused)
        return status, list(self.joined(lines, answers)), error

    @staticmethod
    def joined(lines, answers):
        """Answers, those to a scan as one, which is refused where its last line is."""
        answers = iter(answers)
        for line, answer in zip(lines, answers):
            told = [answer]
            while line.startswith("scan") and told[-1].startswith("entry"):
                told.append(next(answers, REFUSED))
            # a file's header stands in front of its first record by an allocation, and what fails there is the write
            is_first_write = line.startswith(("salvage", "compact", "move")) and answer == "refused write"
            yield REFUSED if told[-1] == REFUSED or is_first_write else " ".join(told)
        yield from answers

    def ends(self, status, answers, error):
        """A run answers each line, or ends early and says why. It tells what stands behind the records, if it came that
        far, and its status is 1 where a line was refused."""
        rest = error.removeprefix(self.told.strip()).strip().split("\n")
        is_early = len(answers) < len(self.lines)
        is_refused = any(answer.startswith("refused") for answer in answers) or "cannot sync" in error
        is_told = self.told.strip() in error or not answers
        if not all(map(self.tells.fullmatch, rest)) or not is_told or is_early and rest == [""]:
            raise Wrong(f"status {status} with {len(answers)} answers to {len(self.lines)} lines, {error}")
        if status != int(is_refused or is_early):
            raise Wrong(f"status {status}, {'; '.join(answers)}, {error}")

    def compare(self, kept):
        """The same lines are answered so where nothing is refused."""
        lines = tuple(kept.lines)
        if lines not in self.runs:
            self.runs[lines] = self.start(self.alone, lines)
        for line, given, wanted in zip(lines, kept.answers, self.runs[lines][1], strict=True):
            if given != wanted:
                raise Wrong(f"{line}: {given} is not the answer without refusals, {wanted}")

    def check(self, status, answers, error):
        """A start that fails is a call that was refused."""
        tally = super().check(status, answers, error)
        tally[f"{self.name} open {'accepted' if answers else 'refused'}"] += 1
        return tally
