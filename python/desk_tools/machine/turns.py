"""One at a time changes how this machine is set up: desk-setup, to-main, and the package while dpkg has it in its hands."""

from __future__ import annotations

import contextlib
import os
from collections.abc import Iterator

from desk_tools.machine.settings import Failure
from desk_tools.ops import ending, locking

# The scripts of the package look at the first; dpkg and apt hold the other one.
LOCK, OF_DPKG = "/run/desk-setup.lock", "/var/lib/dpkg/lock-frontend"
AGAIN = "nothing was changed. Give the same command again when it has ended"


@contextlib.contextmanager
def alone(patience: int = 0, then: str = AGAIN) -> Iterator[None]:
    """Nobody else sets this machine up meanwhile. One waits so many seconds for another setup, and never for apt."""
    # (dpkg says in this way that it has started a script of the package)
    is_of_dpkg = bool(os.environ.get("DPKG_MAINTSCRIPT_PACKAGE"))
    if not is_of_dpkg and os.path.exists(OF_DPKG) and locking.is_locked(OF_DPKG):
        raise Failure(f"apt or dpkg is at work on this machine: {then}")
    os.close(os.open(LOCK, os.O_RDWR | os.O_CREAT | os.O_CLOEXEC, 0o600))
    try:
        with locking.alone(
            LOCK, patience, f"another desk-setup is at work on this machine: {then}"
        ):
            yield
    except ending.Failure as failure:
        raise Failure(str(failure)) from None
