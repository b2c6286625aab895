"""Calls made at `desk rehearse`, where each has its moment before it. Travel tables have no place there."""

from __future__ import annotations

import subprocess

from suites.rehearsals import replies_in
from second.trials.calls import ADMINS_KEY, Call, rehearsal_of

SECONDS = 120


def answered(program: str, calls: list[Call]) -> list[bytes | str]:
    """The reply to each call, or what came in its place."""
    ran = subprocess.run(
        [program, "rehearse", ADMINS_KEY],
        input=rehearsal_of(calls),
        capture_output=True,
        timeout=SECONDS,
    )
    got = replies_in(ran.stdout)
    more = [f"no reply: exit status {ran.returncode}, {ran.stderr!r}"] * (len(calls) - len(got))
    return [*got, *more]
