"""Runs the command of a channel, with the message on standard input and within its time."""

import contextlib
import os
import signal
import subprocess
import tempfile

from desk_tools.reminders.settings import Hook

# What a command gets of the environment: nothing that this program knows.
PASSED_ON = ("PATH", "LANG", "LC_ALL", "TZ", "HOME", "TMPDIR")
LONGEST_WHY = 200


class TooLong(Exception):
    """The command did not end in time, so nobody knows whether the message went out."""


class Failed(Exception):
    """The command says that the message did not go out: one sentence."""


def send(hook: Hook, to: str, message: bytes) -> None:
    """Gives a message to the command. It was taken where the command ends with status 0.

    Files stand for its streams, so that neither a command that reads nothing nor a child that it leaves behind keeps
    this program waiting.
    """
    named = {it: os.environ[it] for it in PASSED_ON if it in os.environ}
    with tempfile.TemporaryFile() as given, tempfile.TemporaryFile() as said:
        given.write(message)
        given.seek(0)
        try:
            running = subprocess.Popen(
                hook.words(to),
                stdin=given,
                stdout=subprocess.DEVNULL,
                stderr=said,
                env=named,
                start_new_session=True,
            )
        except (OSError, ValueError) as error:
            why = getattr(error, "strerror", None) or error
            raise Failed(f"{hook.command[0]}: {why}") from None
        try:
            status = running.wait(hook.seconds)
        except subprocess.TimeoutExpired:
            _end(running)
            raise TooLong(f"{hook.command[0]} did not end in {hook.seconds} seconds") from None
        except BaseException:
            _end(running)
            raise
        if status:
            raise Failed(f"{hook.command[0]} ended with status {status}{_last_line(said.fileno())}")


def _end(running: "subprocess.Popen[bytes]") -> None:
    with contextlib.suppress(ProcessLookupError, PermissionError):
        os.killpg(running.pid, signal.SIGKILL)
    running.wait()


def _last_line(number: int) -> str:
    size = os.fstat(number).st_size
    text = os.pread(number, 2_000, max(0, size - 2_000)).decode("utf-8", "replace")
    last = ([it.strip() for it in text.splitlines() if it.strip()] or [""])[-1]
    shown = "".join(it if it.isprintable() else " " for it in last)[:LONGEST_WHY]
    return f": {shown}" if shown else ""
