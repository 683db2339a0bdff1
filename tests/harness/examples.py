"""Calls that are written down with their answers."""
from harness.session import Session


def example(words, text):
    """The calls of a text, one in each line, with the answer behind an arrow."""
    session = Session(*words)
    for line in text.splitlines():
        if line.strip():
            call, answer = line.strip().split(" -> ")
            session.ask(call, answer)
    session.check()
