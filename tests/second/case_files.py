"""Case files of residents: what may be entered, who has standing, and who is suspended."""

from __future__ import annotations

import datetime
from typing import TYPE_CHECKING, Any, NamedTuple

from second import days, riders
from second.replies import Denied

if TYPE_CHECKING:
    from second.desk import Desk

MOST_ENTRIES = 200
DAYS_TO_PRESUMPTION, DAYS_TO_APPEAL, DAYS_AFTER_HEARING, DAYS_OF_SUSPENSION = 21, 60, 30, 30


class Entry(NamedTuple):
    """An entry of a case file, and the fields that it has."""

    kind: str
    day: datetime.date
    author: int
    values: dict[str, Any]


GRANTS = ["grant", "appeal-granted"]
APPEALS_END = ["appeal-granted", "appeal-denied", "overturn"]


def last_place(file: list[Entry], kinds: list[str], after: int = -1) -> int | None:
    """The place of the last entry of one of these kinds after a place, or None."""
    places = [place for place, entry in enumerate(file) if place > after and entry.kind in kinds]
    return places[-1] if places else None


def has(file: list[Entry], kinds: list[str], after: int) -> bool:
    return last_place(file, kinds, after) is not None


def unanswered(file: list[Entry]) -> int | None:
    """The place of the application that waits for its decision, or None."""
    place = last_place(file, ["complete"])
    return None if place is None or has(file, ["grant", "refuse"], place) else place


def pending(file: list[Entry]) -> int | None:
    """The place of the appeal that waits for its decision, or None."""
    place = last_place(file, ["appeal"])
    return None if place is None or has(file, APPEALS_END, place) else place


def appealed(file: list[Entry], place: int) -> Entry:
    """The entry that the appeal at this place is against."""
    against: int = file[place].values["against"]
    return file[against]


def last_grant(file: list[Entry]) -> dict[str, Any] | None:
    place = last_place(file, GRANTS)
    return None if place is None else file[place].values


def is_overdue(file: list[Entry], today: datetime.date) -> bool:
    appeal = pending(file)
    if appeal is None or appealed(file, appeal).kind != "refuse":
        return False
    hearing = last_place(file, ["heard"], appeal)
    return hearing is not None and today >= days.plus(file[hearing].day, DAYS_AFTER_HEARING)


def standing(file: list[Entry], day: datetime.date, today: datetime.date) -> str:
    waits = unanswered(file)
    if waits is not None and today >= days.plus(file[waits].day, DAYS_TO_PRESUMPTION):
        return "presumed"
    if is_overdue(file, today):
        return "appeal-overdue"
    grant = last_grant(file)
    return "granted" if grant and day <= grant["until"] else "none"


def is_lifted(file: list[Entry], suspension: int) -> bool:
    """Whether an appeal against the suspension at this place is pending, or overturned it."""
    for place, entry in enumerate(file):
        if entry.kind == "appeal" and entry.values["against"] == suspension:
            ends = [it.kind for it in file[place:] if it.kind in APPEALS_END]
            return not ends or ends[0] == "overturn"
    return False


def is_suspended(file: list[Entry], day: datetime.date) -> bool:
    return any(
        entry.kind == "suspend"
        and entry.values["starts"] <= day <= entry.values["ends"]
        and not is_lifted(file, place)
        for place, entry in enumerate(file)
    )


def is_pattern(desk: Desk, rider: int, today: datetime.date) -> bool:
    """Whether the rider missed so many trips, and such a share, of the policy's days before today."""
    begin = days.plus(today, -desk.policy["span_days"])
    ends = [
        it.status
        for it in desk.trips.values()
        if it.rider == rider and begin <= it.wish.day < today
    ]
    ended = [it for it in ends if it not in ("booked", "cancelled")]
    missed = ended.count("missed-rider")
    return missed >= desk.policy["min_missed"] and missed * 100 >= desk.policy["percent"] * len(
        ended
    )


def may_appeal(file: list[Entry], against: int, today: datetime.date) -> bool:
    if against >= len(file) or file[against].kind not in ("refuse", "suspend"):
        return False
    is_first = all(it.kind != "appeal" or it.values["against"] != against for it in file)
    return (
        is_first and today <= days.plus(file[against].day, DAYS_TO_APPEAL) and pending(file) is None
    )


def may_decide(file: list[Entry], kind: str, author: int) -> bool:
    """Whether the appeal was heard, is of this kind, and its author another than who is appealed against."""
    appeal = pending(file)
    if appeal is None or not has(file, ["heard"], appeal):
        return False
    about = appealed(file, appeal)
    kinds = {
        "appeal-granted": ["refuse"],
        "overturn": ["suspend"],
        "appeal-denied": ["refuse", "suspend"],
    }[kind]
    return about.kind in kinds and about.author != author


def may_suspend(file: list[Entry], values: dict[str, Any], today: datetime.date) -> bool:
    notice = last_place(file, ["notice"])
    if notice is None or has(file, ["suspend"], notice) or not has(file, ["notice-heard"], notice):
        return False
    lasts = (values["ends"] - values["starts"]).days + 1
    return bool(values["starts"] > today and 1 <= lasts <= DAYS_OF_SUSPENSION)


def allow(
    desk: Desk, file: list[Entry], values: dict[str, Any], today: datetime.date, author: int
) -> None:
    """Denies the entry by the first of its kind's rules that fails."""
    kind = values["entry"]
    if (
        kind == "complete"
        and unanswered(file) is not None
        or kind in ("grant", "refuse")
        and unanswered(file) is None
    ):
        raise Denied("37.125(c)")
    if kind == "appeal" and not may_appeal(file, values["against"], today):
        raise Denied("37.125(g)")
    appeal = pending(file)
    if kind == "heard" and (appeal is None or has(file, ["heard"], appeal)):
        raise Denied("37.125(g)")
    if kind in APPEALS_END and not may_decide(file, kind, author):
        raise Denied("37.125(g)")
    if kind in GRANTS and values["until"] < today:
        raise Denied("37.125(e)")
    if kind == "notice" and not is_pattern(desk, values["rider"], today):
        raise Denied("37.125(h)")
    if kind == "notice-heard" and not is_notice_open(file):
        raise Denied("37.125(h)")
    if kind == "suspend" and not may_suspend(file, values, today):
        raise Denied("37.125(h)")


def is_notice_open(file: list[Entry]) -> bool:
    notice = last_place(file, ["notice"])
    return notice is not None and not has(file, ["notice-heard", "suspend"], notice)


def enter(desk: Desk, values: dict[str, Any], today: datetime.date, author: int) -> int:
    """Puts the entry at the end of the file, and gives its place."""
    rider = riders.need(desk, values["rider"])
    file = desk.files.setdefault(values["rider"], [])
    if len(file) >= MOST_ENTRIES:
        raise Denied("desk.full")
    if rider.kind != "resident":
        raise Denied("37.127")
    allow(desk, file, values, today, author)
    file.append(Entry(values["entry"], today, author, values))
    return len(file) - 1
