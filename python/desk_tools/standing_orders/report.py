"""What a night's run came to: a page of text, and a CSV."""

from __future__ import annotations

import collections
import csv
import datetime
import io
from typing import Any, TYPE_CHECKING

from desk_tools.standing_orders.night import BOOKED, OFFERED, REFUSED, THERE

if TYPE_CHECKING:
    from desk_tools.standing_orders.night import Outcome

HEADER = tuple(
    """
    day order rider wish from to result rule reason trip vehicle window_from window_to
    """.split()
)


def clock(minute: int, hours: int = 12) -> str:
    """A minute of the day by the agency's clock."""
    if hours == 24:
        return f"{minute // 60:02}:{minute % 60:02}"
    return f"{(minute // 60 + 11) % 12 + 1}:{minute % 60:02} {'am' if minute < 720 else 'pm'}"


def csv_of(outcomes: list[Outcome]) -> str:
    text = io.StringIO()
    writer = csv.writer(text, lineterminator="\n")
    writer.writerow(HEADER)
    for it in outcomes:
        trip, (rule, _, reason) = it.trip, it.reason.partition(": ")
        asked = it.order.rider, clock(it.order.wish, 24), it.order.origin, it.order.goal
        window = (
            clock(trip[name], 24) if name in trip else "" for name in ("window_from", "window_to")
        )
        booked = trip.get("trip", ""), trip.get("vehicle", ""), *window
        writer.writerow([it.day, it.order.name, *asked, it.result, rule, reason, *booked])
    return text.getvalue()


def text_of(
    today: datetime.date, outcomes: list[Outcome], faults: list[Any], notes: list[str], hours: int
) -> str:
    """The page: what was refused first, since somebody has to see to it."""
    groups = collections.defaultdict(list)
    for it in outcomes:
        groups[it.result].append(it)
    lines = [
        f"Standing orders, {today}: {len(groups[BOOKED])} booked, {len(groups[THERE])} there already, "
        f"{len(groups[REFUSED])} refused, {len(faults)} lines that are wrong"
        + (f", {len(groups[OFFERED])} at another time" if groups[OFFERED] else "")
    ]
    lines += [f"  note: {it}" for it in notes]
    lines += [f"  wrong: {what}: {said}" for what, said in faults]
    lines += [
        f"  ask the rider: {said_of(it, hours)}: {window_of(it, hours)}. It counts as a denial until the rider agrees: "
        "leave it, or cancel it"
        for it in groups[OFFERED]
    ]
    lines += [f"  refused: {said_of(it, hours)}: {it.reason}" for it in groups[REFUSED]]
    lines += [
        f"  cancelled: {said_of(it, hours)}: trip {it.trip['trip']} was cancelled, and is not booked again"
        for it in groups[THERE]
        if it.trip["status"] == "cancelled"
    ]
    lines += [f"  booked: {said_of(it, hours)}: {window_of(it, hours)}" for it in groups[BOOKED]]
    return "\n".join(lines) + "\n"


def window_of(it: Outcome, hours: int) -> str:
    window = f"{clock(it.trip['window_from'], hours)} to {clock(it.trip['window_to'], hours)}"
    return f"trip {it.trip['trip']}, pickup from {window}"


def said_of(it: Outcome, hours: int) -> str:
    return (
        f"{it.day:%a} {it.day}, {it.order.name}, rider {it.order.rider} at {clock(it.order.wish, hours)} "
        f"from {it.order.origin} to {it.order.goal}"
    )
