"""The shortest list of calls that still differs: calls are left out, first by halves, at last one by one."""

from __future__ import annotations

import time
from collections.abc import Callable

from second.trials.calls import Call


def without(
    calls: list[Call], size: int, differs: Callable[[list[Call]], bool], until: float
) -> list[Call]:
    """The calls without each piece of this size that is not needed for a difference."""
    at = 0
    while at < len(calls) and time.monotonic() < until:
        fewer = calls[:at] + calls[at + size :]
        if differs(fewer):
            calls = fewer
        else:
            at += size
    return calls


def shrunk(calls: list[Call], differs: Callable[[list[Call]], bool], seconds: float) -> list[Call]:
    """A list that differs and of which, where the seconds were enough, no single call may be left out."""
    until, size = time.monotonic() + seconds, max(1, len(calls) // 2)
    while time.monotonic() < until:
        fewer = without(calls, size, differs, until)
        if size == 1 and len(fewer) == len(calls):
            break
        calls, size = fewer, max(1, size // 2)
    return calls
