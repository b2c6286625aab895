"""A call of the desk: as a line of a script of bin/rehearsal, as bytes, and as the second desk answers it."""

from __future__ import annotations

import datetime
from collections.abc import Iterable
from typing import NamedTuple

from desk_tools.commands import rehearsal
from second import travel
from second.desk import Desk

ADMINS_KEY = "abc"
# The method of a call that is no request but the command `desk travel`: its path is the table's first day, its body the CSV.
TRAVEL = "TRAVEL"


class Call(NamedTuple):
    """A call: a write has a number, and a read the body ""."""

    day: str
    minute: int
    method: str
    path: str
    key: str
    number: str | None
    body: str


def line_of(call: Call) -> str:
    """The call as a line of a script; a travel table, which no script can give, as a remark."""
    if call.method == TRAVEL:
        rows = " ".join(call.body.splitlines()[1:])
        return f"# (here `desk travel` by {call.key} as number {call.number} gives from {call.path} on the rows {rows})"
    return " ".join(str(it) for it in call if it not in (None, ""))


def script_of(calls: Iterable[Call]) -> str:
    return "".join(f"{line_of(call)}\n" for call in calls)


def rehearsal_of(calls: Iterable[Call]) -> bytes:
    """The bytes that `desk rehearse` reads."""
    return rehearsal.written(script_of(calls).encode())


def message_of(call: Call) -> bytes:
    """The bytes of the request alone, without the line of its moment."""
    return rehearsal.message_of(line_of(call)).partition(b"\n")[2]


def wanted_reply(desk: Desk, call: Call) -> bytes | str:
    """What the second desk answers: the bytes of a reply, or the word that `desk travel` prints."""
    day = datetime.date.fromisoformat(call.day)
    if call.method == TRAVEL:
        rows = travel.rows_in(call.body)
        first = datetime.date.fromisoformat(call.path)
        return desk.give_travel(call.key, int(call.number or 0), first, rows)
    body = rehearsal.with_digest(call.body) if call.body else ""
    return desk.answer((day, call.minute), call.method, call.path, call.key, call.number, body)


def wanted_replies(calls: Iterable[Call]) -> tuple[list[bytes | str], Desk]:
    """What the second desk answers to each, and the desk then."""
    desk = Desk(ADMINS_KEY)
    return [wanted_reply(desk, call) for call in calls], desk
