"""Ports of this machine."""

import contextlib
import random
import socket

# Above these, Linux gives ports to connections that begin, so one that was free is taken a moment later.
LOWEST, HIGHEST = 10_000, 32_767


def free_port() -> int:
    """A port of 127.0.0.1 that nobody listens at and that no connection is given."""
    while True:
        number = random.randint(LOWEST, HIGHEST)
        with contextlib.suppress(OSError), socket.socket() as tried:
            tried.bind(("127.0.0.1", number))
            return number
