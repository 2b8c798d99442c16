"""Pipes between the program and the converters."""

import contextlib
import fcntl

ROOM = 1 << 20
SET_SIZE = getattr(fcntl, "F_SETPIPE_SZ", None)


def widen(pipe):
    """Gives a pipe more room, where the system allows it."""
    if SET_SIZE:
        with contextlib.suppress(OSError):
            fcntl.fcntl(pipe, SET_SIZE, ROOM)
