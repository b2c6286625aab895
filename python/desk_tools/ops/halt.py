"""A desk that does not run for as long as its files are copied, and goes on in any case."""

from __future__ import annotations

import contextlib
import glob
import os
import select
import signal
import time
from collections.abc import Iterator

from .ending import Failure

PATIENCE = 5


def is_stopped(process: int) -> bool:
    """Each thread of the process is stopped."""
    states = []
    for path in glob.glob(f"/proc/{process}/task/*/stat"):
        with contextlib.suppress(OSError), open(path, encoding="utf-8", errors="replace") as stat:
            states.append(stat.read().rpartition(") ")[2][:1])
    return bool(states) and all(it == "T" for it in states)


def guarded(process: int, seconds: int) -> tuple[int, int]:
    """Starts a guard, which lets the process go on after so many seconds, or as soon as this process ends."""
    reads, writes = os.pipe()
    guard = os.fork()
    if guard:
        os.close(reads)
        return guard, writes
    status = 1
    try:
        os.setsid()
        os.close(writes)
        for number in (signal.SIGHUP, signal.SIGINT, signal.SIGTERM):
            signal.signal(number, signal.SIG_IGN)
        status = 0 if select.select([reads], [], [], seconds)[0] else 1
        os.kill(process, signal.SIGCONT)
    except BaseException:
        status = status or 2
    finally:
        os._exit(status)


class Halt:
    """From `begin` to `end` the process does nothing. Then `milliseconds` and `since` tell how long, from when on."""

    def __init__(self, process: int, most: int) -> None:
        self.process, self.most = process, most
        self.guard: int | None = None
        self.line: int | None = None
        self.since, self.milliseconds = 0.0, 0

    def begin(self) -> None:
        self.since = time.time()
        self.guard, self.line = guarded(self.process, self.most)
        os.kill(self.process, signal.SIGSTOP)
        for _ in range(PATIENCE * 1000):
            if is_stopped(self.process):
                return
            time.sleep(0.001)
        raise Failure(f"process {self.process} cannot be halted")

    def end(self) -> bool:
        """Lets the process go on. True where it did nothing until now."""
        if self.guard is None or self.line is None:
            return True
        with contextlib.suppress(ProcessLookupError):
            os.kill(self.process, signal.SIGCONT)
        self.milliseconds = int((time.time() - self.since) * 1000)
        os.close(self.line)
        _, status = os.waitpid(self.guard, 0)
        self.guard = None
        return os.waitstatus_to_exitcode(status) == 0


@contextlib.contextmanager
def halted(process: int, most: int) -> Iterator[Halt]:
    """Halts the process for the block, which has to end before the guard lets the process go on."""
    halt = Halt(process, most)
    try:
        halt.begin()
        yield halt
    except BaseException:
        halt.end()
        raise
    if not halt.end():
        raise Failure(f"the copy takes longer than {most} seconds: give more of them in MOST")
