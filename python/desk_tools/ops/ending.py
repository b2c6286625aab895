"""How a script ends: with one sentence and a status, never with a traceback."""

from __future__ import annotations

import signal
import sqlite3
import subprocess
import sys
from collections.abc import Callable
from typing import Any

from desk_tools import ending


WRONG_WORDS, FAILED = 2, 1


class Failure(Exception):
    """A sentence for the person who ran the script, and the exit status."""

    def __init__(self, sentence: str, status: int = FAILED) -> None:
        super().__init__(sentence)
        self.status = status


ENDING_SIGNALS = (signal.SIGHUP, signal.SIGINT, signal.SIGTERM)


def end_by_signals() -> None:
    """A signal that asks the script to end lets it put things back first."""

    def ended(number: Any, _frame: Any) -> None:
        raise Failure(f"ended by {signal.Signals(number).name}")

    for number in ENDING_SIGNALS:
        signal.signal(number, ended)


def pass_over_signals() -> None:
    """From now on such a signal does nothing, as what is half done has to be put back."""
    for number in ENDING_SIGNALS:
        signal.signal(number, signal.SIG_IGN)


def sentence_of(error: Any) -> str:
    """What went wrong, as one line."""
    if isinstance(error, subprocess.CalledProcessError):
        said = error.stderr or b""
        said = said.decode(errors="replace") if isinstance(said, bytes) else said
        words = error.cmd if isinstance(error.cmd, str) else " ".join(error.cmd)
        return f"{words}: ended with status {error.returncode}" + (
            f": {said.strip()}" if said.strip() else ""
        )
    if isinstance(error, OSError) and error.filename:
        return f"{error.filename}: {error.strerror}"
    return " ".join(str(error).split()) or type(error).__name__


def run_script(name: str, task: Callable[..., Any], words: list[str]) -> int:
    """Runs `task(words)`. What it raises is told as one sentence; the exit status."""
    if not ending.has_output(f"deploy/{name}"):
        return FAILED
    end_by_signals()
    try:
        return ending.flushed(f"deploy/{name}", task(words) or 0)
    except BrokenPipeError:
        ending.leave_out_rest()
        return FAILED
    except SystemExit as ended:
        return ending.flushed(
            f"deploy/{name}", ended.code if isinstance(ended.code, int) else FAILED
        )
    except Failure as failure:
        status = failure.status
        told = str(failure)
    except (
        OSError,
        sqlite3.Error,
        subprocess.SubprocessError,
        MemoryError,
        OverflowError,
    ) as error:
        if getattr(error, "filename", None) == ending.OUTPUT:
            ending.leave_out_rest()
        status = FAILED
        told = sentence_of(error)
    except RecursionError:
        status = WRONG_WORDS
        told = ending.TOO_DEEP
    print(f"deploy/{name}: {told}", file=sys.stderr)
    return status
