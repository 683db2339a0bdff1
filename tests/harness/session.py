"""Lines for the program key_index_calls, with the answers that are wanted."""
import subprocess
from os.path import commonprefix


class Wrong(Exception):
    """An answer is not the one that is wanted."""


class Session:
    """The calls of one index, which are all made when the session is checked."""

    program = None

    def __init__(self, *words):
        self.words = [str(word) for word in words]
        self.lines = []
        self.wanted = []

    def ask(self, line, wanted):
        """A call, and its answer."""
        self.lines.append(line)
        self.wanted.append(wanted if isinstance(wanted, str) else str(wanted))

    def keep(self, line):
        """A line that is kept for the next call that takes such lines."""
        self.ask("+ " + line, "+")

    def check(self):
        """Makes the calls, compares each answer, and gives them."""
        done = subprocess.run(
            [Session.program, *self.words],
            input="".join(line + "\n" for line in self.lines),
            capture_output=True,
            text=True,
            timeout=300,
            check=False,
        )
        given = done.stdout.split("\n")[:-1]
        for number, (line, wanted) in enumerate(zip(self.lines, self.wanted)):
            answer = given[number] if number < len(given) else "nothing"
            if answer != wanted:
                behind = self.lines[max(0, number - 5) : number]
                place = len(commonprefix([wanted, answer]))
                raise Wrong(
                    f"{' '.join(self.words)}, line {number + 1}: {shown(line)}\n"
                    f"  wanted {shown(wanted, place)}\n  answer {shown(answer, place)}\n"
                    f"  behind {'; '.join(shown(text) for text in behind)}\n  {done.stderr.strip()}"
                )
        if (done.returncode, done.stderr, len(given)) != (0, "", len(self.lines)):
            raise Wrong(f"{' '.join(self.words)}: status {done.returncode}, {len(given)} answers, {done.stderr}")
        return given


def shown(text, place=0):
    """A text, or 400 characters of it if it is long, about a place."""
    start = max(0, place - 200) if len(text) > 400 else 0
    return ".." * (start > 0) + text[start : start + 400] + ".." * (start + 400 < len(text))


def word(key):
    """A key as a word."""
    return "x" + bytes(key).hex()


def words(values):
    """Values as words, or none."""
    return " ".join(str(value) for value in values) or "none"
