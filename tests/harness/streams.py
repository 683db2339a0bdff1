"""Streams and files that fail."""
import os


class Streams:
    """The library of streams.c."""

    library = None


def failing(**rooms):
    """The environment of a process whose streams and files fail at these places, or no other one."""
    if not rooms:
        return None
    return {**os.environ, "LD_PRELOAD": Streams.library, **{name: str(room) for name, room in rooms.items()}}
