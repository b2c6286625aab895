"""What a rider's case file has: which entry waits for another one, and from which day on. What stands on a day is asked of
the desk; the days here are told beforehand."""

from __future__ import annotations

from typing import Any, NamedTuple, TYPE_CHECKING

from desk_tools import law
from desk_tools.letters import on_record

if TYPE_CHECKING:
    from desk_tools.reports.copies import Entry
    from desk_tools.reports.copies import Policy

# From so many days on an application stands first.
DAYS_UNTIL_PRESSING = 15
# An appeal stands first that was not heard for so many days.
DAYS_UNTIL_UNHEARD = 30
# A grant is listed where it ends within so many days.
DAYS_BEFORE_END = 60

GRANTS = ("grant", "appeal granted")
DECISIONS_OF_APPEALS = ("appeal granted", "appeal denied", "overturn")


class Appeal(NamedTuple):
    """An appeal that nobody decided: its entry, what it is against, and its hearing or None."""

    entry: Entry
    against: Entry | None
    heard: Entry | None


class Pattern(NamedTuple):
    """A pattern of missed trips: of so many trips with an outcome so many were missed."""

    ended: int
    missed: int


def application(entries: list[Entry]) -> Entry | None:
    """The application that was complete and is not answered, or None."""
    waiting = None
    for it in entries:
        if it.kind == "complete":
            waiting = it
        elif it.kind in ("grant", "refuse"):
            waiting = None
    return waiting


def part_waiting(entries: list[Entry]) -> tuple[Entry, bool] | None:
    """The refusal of a grant in part that no grant follows, and whether a new application is taken since; or None."""
    refusal, is_taken = None, False
    for it in entries:
        if it.kind in ("grant", "refuse"):
            refusal, is_taken = (
                it if it.kind == "refuse" and on_record.part_in(it.words) else None
            ), False
        elif it.kind == "complete":
            is_taken = True
    return (refusal, is_taken) if refusal else None


def presumed_on(complete: Entry) -> int:
    """The number of the first day of the presumption."""
    return complete.day + law.DAYS_UNTIL_PRESUMED


def appeal(entries: list[Entry]) -> Appeal | None:
    """The appeal that is pending, or None."""
    pending = None
    for it in entries:
        if it.kind == "appeal":
            against = next((other for other in entries if other.place == it.a), None)
            pending = Appeal(it, against, None)
        elif it.kind == "heard" and pending:
            pending = pending._replace(heard=it)
        elif it.kind in DECISIONS_OF_APPEALS:
            pending = None
    return pending


def is_against(pending: Appeal, kind: str) -> bool:
    return bool(pending and pending.against and pending.against.kind == kind)


def overdue_on(pending: Appeal) -> int | None:
    """The number of the day on which an appeal is overdue, or None where no day is counted yet."""
    if not is_against(pending, "refuse") or not pending.heard:
        return None
    return pending.heard.day + law.DAYS_UNTIL_OVERDUE


def grant(entries: list[Entry]) -> Entry | None:
    """The last grant, or None."""
    return next((it for it in reversed(entries) if it.kind in GRANTS), None)


def suspensions(entries: list[Entry]) -> list[Entry]:
    """The suspensions that were entered. Whether one holds on a day is asked of the desk."""
    return [it for it in entries if it.kind == "suspend"]


def notice(entries: list[Entry]) -> tuple[Any, Any]:
    """The last notice that led to no suspension yet, and its hearing; each may be None."""
    told = heard = None
    for it in entries:
        if it.kind == "notice":
            told, heard = it, None
        elif it.kind == "notice heard" and told:
            heard = it
        elif it.kind == "suspend":
            told = heard = None
    return told, heard


def is_pattern(pattern: Pattern, policy: Policy) -> bool:
    """Whether trips would make a pattern under a policy that need not be in force (37.125(h)): the desk knows only its own."""
    return (
        pattern.missed >= policy.min_missed
        and policy.percent * pattern.ended <= 100 * pattern.missed
    )
