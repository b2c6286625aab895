"""What is told of the site's log: denials by month and rule, the taps of drivers, and cancellations."""

from __future__ import annotations

import collections
import csv
import datetime
import html
import io
from collections import Counter
from collections.abc import Iterable, Iterator
from typing import Any

from desk_tools.setup.rules import NO_VEHICLE, RULES
from desk_tools.setup.tally_log import EVENTS, NAMES, PAGE

CHANNELS = EVENTS["denials"].all_fields["channel"].words
CHANNEL_NAMES = {
    PAGE: "on the desk's pages",
    "telephone": "by a telephone system",
    "app": "by a rider's app",
    "standing-order": "by standing orders",
}

STYLE = """
body { font: 12pt/1.4 sans-serif; margin: 2rem; color: #000; background: #fff; }
table { border-collapse: collapse; margin-bottom: 1rem; }
caption { text-align: left; font-weight: bold; padding-bottom: .5rem; }
th, td { border: 1px solid #666; padding: .25rem .6rem; text-align: right; vertical-align: bottom; }
th:first-child { text-align: left; }
thead { display: table-header-group; }
tr { break-inside: avoid; }
@media print { body { margin: 0; font-size: 10pt; } @page { margin: 15mm; } }
"""


def months_of(denials: list[Any] | Iterable[Any]) -> dict[tuple[int, int], Counter[str]]:
    """The counts of each month from the first to the last one, months without a denial too, by rule."""
    counts: dict[tuple[int, int], Counter[str]] = collections.defaultdict(collections.Counter)
    for it in denials:
        counts[it.day.year, it.day.month][it.rule] += 1
    return {month: counts[month] for month in months_between(counts)}


def months_between(months: dict[tuple[int, int], Counter[str]]) -> Iterator[tuple[int, int]]:
    """Each month from the first to the last of these, which are pairs of a year and a month."""
    if not months:
        return
    (year, month), end = min(months), max(months)
    while (year, month) <= end:
        yield year, month
        year, month = (year + 1, 1) if month == 12 else (year, month + 1)


def denials_csv(denials: list[Any]) -> str:
    """A row for each month and channel, a column for each rule."""
    months, rows = [*months_of(denials)], []
    for channel in CHANNELS:
        counts = months_of(it for it in denials if it.channel == channel)
        rows += [
            (
                month_in_digits(month),
                channel,
                *(counts.get(month, Counter()).get(it, 0) for it in RULES),
                sum(counts.get(month, Counter()).values()),
            )
            for month in months
        ]
    return csv_of(
        [
            ("month", "channel", *RULES, "all"),
            *sorted(rows, key=lambda it: (it[0], CHANNELS.index(it[1]))),
        ]
    )


def month_in_digits(month: tuple[int, int]) -> str:
    return "{}-{:02}".format(*month)


def events_csv(kind: str, events: list[Any]) -> str:
    """A row for each event of a kind, by the moment at which it was."""
    names = [it for it in NAMES[kind] if it not in ("day", "at")]
    rows = [
        (
            day_of(it),
            *(getattr(it, name) for name in names),
            it.at.time(),
            it.received.isoformat(),
            it.told_by,
        )
        for it in sorted(events, key=lambda it: (it.at, it.received))
    ]
    return csv_of([("day", *names, "at", "received", "told_by"), *rows])


def day_of(event: Any) -> datetime.date:
    """The day that an event is about, or on which it was."""
    found: datetime.date = event.day if hasattr(event, "day") else event.at.date()
    return found


def csv_of(rows: list[Any], end: str = "\n") -> str:
    text = io.StringIO()
    csv.writer(text, lineterminator=end).writerows(rows)
    return text.getvalue()


def denials_page(denials: list[Any], name: str, broken: int) -> str:
    """The page of denials, which prints."""
    rules = [it for it in RULES if it == NO_VEHICLE or any(denial.rule == it for denial in denials)]
    channels = [it for it in CHANNELS if any(denial.channel == it for denial in denials)]
    title = "Denied trips by month" + (f", {name}" if name else "")
    notes = [f"{it}: {RULES[it]}." for it in rules]
    notes += [
        "A trip is counted in the month for which it was asked, once for each time it was denied."
    ]
    lost = sum(it.leg is not None for it in denials)
    notes += (
        [f"{lost} of these are ways back that were lost, since the way there was denied."]
        if lost
        else []
    )
    notes += (
        [f"{broken} lines of the log could not be read, and are not counted."] if broken else []
    )
    return "\n".join(
        [
            "<!DOCTYPE html>",
            '<html lang="en">',
            f'<head><meta charset="utf-8"><title>{html.escape(title)}</title>',
            f"<style>{STYLE}</style></head>",
            "<body>",
            f"<h1>{html.escape(title)}</h1>",
            *table_of(
                "Trips that were asked for and denied, by the rule of the denial", denials, rules
            ),
            *(
                line
                for it in channels
                if len(channels) > 1 or it != PAGE
                for line in table_of(
                    f"Of these: {CHANNEL_NAMES[it]}",
                    [one for one in denials if one.channel == it],
                    rules,
                )
            ),
            *(f"<p>{html.escape(it)}</p>" for it in notes),
            "</body>",
            "</html>",
            "",
        ]
    )


def table_of(caption: str, denials: list[Any], rules: list[str]) -> list[str]:
    """The lines of a table: a row for each month, a column for each rule."""
    total = collections.Counter(it.rule for it in denials)
    rows = [
        row_of("td", month_in_digits(month), [counts[it] for it in rules] + [sum(counts.values())])
        for month, counts in months_of(denials).items()
    ]
    rows.append(row_of("td", "all", [total[it] for it in rules] + [len(denials)]))
    return [
        "<table>",
        f"<caption>{html.escape(caption)}</caption>",
        f"<thead>{row_of('th', 'month', [*rules, 'all'])}</thead>",
        "<tbody>",
        *rows,
        "</tbody>",
        "</table>",
    ]


def row_of(kind: str, head: str, cells: Any) -> str:
    scope = "col" if kind == "th" else "row"
    inner = "".join(
        f"<{kind}{' scope=col' if kind == 'th' else ''}>{html.escape(str(it))}</{kind}>"
        for it in cells
    )
    return f"<tr><th scope={scope}>{html.escape(head)}</th>{inner}</tr>"
