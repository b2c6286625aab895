"""Letters of decisions, and what is told of a rider's standing."""

from __future__ import annotations

import datetime
from typing import TYPE_CHECKING, Any

from second import booking, case_files, riders, visitors
from second.replies import Denied

if TYPE_CHECKING:
    from second.desk import Desk

DECISIONS = {
    "grant": "granted",
    "appeal-granted": "appeal granted",
    "refuse": "refused",
    "appeal-denied": "appeal denied",
    "notice": "notice",
    "suspend": "suspended",
    "overturn": "suspension overturned",
}


def letter(desk: Desk, number: int, place: int) -> str:
    rider = riders.need(desk, number)
    file = desk.files.get(number, [])
    if place >= len(file) or file[place].kind not in DECISIONS:
        raise Denied("desk.unknown")
    entry, values = file[place], file[place].values
    lines = [f"RIDER {number}", f"DATE {entry.day}", f"DECISION {DECISIONS[entry.kind]}"]
    if "conditions" in values:
        lines += [f"UNTIL {values['until']}", f"CONDITIONS {'; '.join(values['conditions'])}"]
        lines += [f"ATTENDANT {'yes' if rider.attendant else 'no'}"]
    if "starts" in values:
        lines += [f"FROM {values['starts']}", f"TO {values['ends']}"]
    lines += [f"REASONS {values[name]}" for name in ("reasons", "basis") if name in values]
    return "".join(f"{line}\n" for line in lines)


def standing(desk: Desk, number: int, day: datetime.date, today: datetime.date) -> dict[str, Any]:
    rider, file = riders.need(desk, number), desk.files.get(number, [])
    if rider.kind == "visitor":
        may = visitors.may(booking.days_of_use(desk, number), day)
        return {"standing": "visitor" if may else "visitor-used", "suspended": False}
    found = case_files.standing(file, day, today)
    told: dict[str, Any] = {"standing": found, "suspended": case_files.is_suspended(file, day)}
    grant = case_files.last_grant(file)
    if found == "granted" and grant:
        told.update(conditions=grant["conditions"], until=str(grant["until"]))
    return told
