"""Whom a reminder did not reach, and who answered one: lists out of the folder of bin/reminders."""

from __future__ import annotations

import datetime
import pathlib
from typing import Any, TYPE_CHECKING

from desk_tools.reminders import kept, settings as reminder_settings
from desk_tools.reports import copies
from desk_tools.days import number_of
from desk_tools.reports.copies import day_of
from desk_tools.days import clock
from desk_tools.reports.lists import Listed, NOT_KNOWN
from desk_tools.setup.limits import Wrong

if TYPE_CHECKING:
    from desk_tools.reports.lists import Names

DAYS_OF_ANSWERS, LAST_DIGITS = 7, 10


def lists_of(
    copy: copies.Copy, folder: str | None, today: datetime.date, names: Names
) -> list[Listed]:
    """Both lists. Only trips that are booked in the copy stand in them."""
    if folder is None:
        return []
    try:
        sent, answered = (
            kept.read(pathlib.Path(folder, name)) for name in (kept.NAME, kept.ANSWERS)
        )
    except reminder_settings.Wrong as error:
        raise Wrong(str(error)) from None
    booked = {
        trip: (number, begins, ends)
        for trip, number, begins, ends in copy.rows(
            "SELECT id, day, window_from, window_to FROM trips WHERE status = ? AND day >= ?",
            copies.BOOKED,
            number_of(today),
        )
    }
    return [failed(sent, booked, today, names), answers(sent, answered, booked, today, names)]


def failed(
    sent: kept.Kept, booked: dict[int, tuple[int, int, int]], today: datetime.date, names: Names
) -> Listed:
    """The riders whom a person calls."""
    rows = []
    for it in sent.to_call(today):
        if it.trip in booked:
            day, begins, ends = booked[it.trip]
            rows.append(
                (
                    *names.rider(it.rider),
                    day_of(day),
                    f"{clock(begins)} to {clock(ends)}",
                    it.trip,
                    f"{it.channel}: {it.to}" if it.to else it.channel,
                    it.why or (kept.WAITS if it.key in sent.left else kept.UNKNOWN),
                )
            )
    ran = (today.isoformat(), reminder_settings.EVENING) in sent.runs
    note = "Call these riders: their reminder did not go out, or nobody knows whether it did. A trip that was canceled since is not here."
    return Listed(
        "reminders",
        "Reminders that did not go out",
        "dispatcher",
        note if ran else f"{note} {kept.NO_RUN}",
        ("Rider", "Name", "Day", "Window", "Trip", "Sent to", "Why not"),
        rows,
        None if ran else f"{len(rows)}, others {NOT_KNOWN}" if rows else NOT_KNOWN,
    )


def answers(
    sent: kept.Kept,
    answered: kept.Kept,
    booked: dict[int, tuple[int, int, int]],
    today: datetime.date,
    names: Names,
) -> Listed:
    """What riders answered, beside the trips of which they were reminded. Nothing was canceled by an answer."""
    rows: list[tuple[Any, ...]] = []
    for it in sorted(answered.answers.values(), key=lambda it: it.at):
        reminded = [
            one
            for one in sent.reminders.values()
            if one.to and one.to[-LAST_DIGITS:] == it.sender[-LAST_DIGITS:]
        ]
        still = [one for one in reminded if one.trip in booked]
        rows += [
            (
                *names.rider(one.rider),
                day_of(booked[one.trip][0]),
                one.trip,
                it.sender,
                it.text,
                it.at.replace("T", " "),
            )
            for one in still
        ]
        if not reminded and (today - day_of_text(it.at)).days <= DAYS_OF_ANSWERS:
            rows.append(("?", "", "", "", it.sender, it.text, it.at.replace("T", " ")))
    return Listed(
        "answers",
        "Answers to reminders",
        "clerk",
        "Call the rider. An answer such as C cancels nothing: cancel the trip at the desk once the rider has said so. A trip that was canceled or ridden leaves the list.",
        ("Rider", "Name", "Day", "Trip", "From", "Answer", "At"),
        list(dict.fromkeys(rows)),
        len({row[4:] for row in rows}),
    )


def day_of_text(at: str) -> datetime.date:
    return datetime.date.fromisoformat(at[:10])
