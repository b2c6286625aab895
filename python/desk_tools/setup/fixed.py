"""The fixed routes of the desk that a feed's routes become.

Whatever a run of the feed serves, at any minute of any of its weekdays, some fixed route serves too. Lines that lie
near each other become one, whose width grows by what that moves a line; hours that begin and end alike become one fixed
route of several weekdays.
"""

from __future__ import annotations

from collections.abc import Iterator
from typing import Any, NamedTuple, TYPE_CHECKING

from desk_tools.setup import plane as geometry
from desk_tools.setup.carry import Progress
from desk_tools.setup.limits import GREATEST_WIDTH, MOST_POINTS, Wrong

if TYPE_CHECKING:
    from desk_tools.setup.feed import Feed
    from desk_tools.setup.feed import Route
    from desk_tools.setup.feed import Run

MINUTES_OF_DAY, MINUTES_OF_WEEK = 1440, 7 * 1440
# What shortens the comparing of lines: how near a line's shorter form stays to it, and the feet that are tried.
LIGHTER, STEPS = 15, (5, 25, 50, 100, 200, 350, 500, 750, 1000, 1500, 2000, 3000)
# (commuter and intercity rail and coaches, by GTFS's kinds)
NOT_OWED = {"2", *map(str, range(100, 108)), *map(str, range(200, 210))}
WEEKDAYS = ["", "Mon", "Tue", "Wed", "Thu", "Fri", "Sat", "Sun"]


class Fixed(NamedTuple):
    """A fixed route as the desk takes it, with the keys and the name of the feed's routes, and what
    is told of its line."""

    keys: Any
    name: str
    width: int
    points: Any
    days: Any
    first: int
    last: int
    accessible: bool
    told: Any


class Span(NamedTuple):
    """Minutes of a weekday in which runs are under way, and whether all of them are accessible."""

    weekday: int
    first: int
    last: int
    accessible: bool


class Making(NamedTuple):
    """How fixed routes are made: the least width, the feet within which lines are put together, the
    minutes of a pause, those by which hours of weekdays may differ, and whether each bus takes a
    wheelchair."""

    width: int
    tolerance: int
    pause: int
    rounding: int
    all_accessible: bool


class Kept(NamedTuple):
    """A line that is kept: its points, by how many feet lines were moved, what is told of it, the
    keys of the lines that it stands for, and the points of their stops."""

    points: Any
    moved: int
    told: Any
    keys: Any
    stops: Any


def projected(feed: Feed, plane: geometry.Plane) -> dict[str, tuple[int, int]]:
    """The points of the feed's stops."""
    points = {}
    for key, stop in feed.stops.items():
        try:
            points[key] = plane.point(stop.latitude, stop.longitude)
        except Wrong as wrong:
            raise Wrong(f"stops.txt: the stop {key!r} is out of place: {wrong}") from None
    return points


def kept_line(
    key: tuple[str, ...] | str, feed: Feed, plane: geometry.Plane, stops: dict[str, tuple[int, int]]
) -> Kept:
    """The line of the feed in at most 200 points."""
    line = feed.lines[key]
    try:
        whole = geometry.without_repeats([plane.point(*it) for it in line.positions])
    except Wrong as wrong:
        raise Wrong(f"shapes.txt: the shape {key!r} is out of place: {wrong}") from None
    points, moved = geometry.simplified(whole, MOST_POINTS)
    told = (
        [] if line.has_shape else ["it has no shape, so its line goes straight from stop to stop"]
    )
    if moved:
        told.append(
            f"its line of {len(whole):,} points was simplified to {len(points)}, "
            f"which moves it by {moved:,} feet at most"
        )
    return Kept(points, moved, told, [key], {it: stops[it] for it in line.stops})


def put_together(lines: list[Kept], making: Making) -> list[Kept]:
    """The lines, without those that lie near enough to another, which then stands for them too."""
    kept: list[Kept] = []
    for line in sorted(lines, key=lambda it: -geometry.length_of(it.points)):
        for at, other in enumerate(kept):
            moved = feet_beside(line, other, making.tolerance)
            if moved is not None and moved <= GREATEST_WIDTH - making.width:
                told = list(dict.fromkeys(other.told + line.told))
                keys, stops = other.keys + line.keys, {**other.stops, **line.stops}
                kept[at] = Kept(other.points, max(other.moved, moved), told, keys, stops)
                break
        else:
            kept.append(line)
    return kept


def edges(line: Kept) -> set[frozenset[tuple[int, int]]]:
    """The segments of a line, whichever way it goes."""
    return {frozenset(it) for it in geometry.segments(line.points)}


def feet_beside(line: Kept, other: Kept, most: int) -> int | None:
    """By how many feet the other has to be wider to stand for this line too; None where it lies too far aside."""
    if edges(line) <= edges(other):
        return line.moved
    light, aside = geometry.simplified(line.points, MOST_POINTS, LIGHTER)
    if not geometry.lies_within(light, other.points, most):
        return None
    step = next(
        it for it in (*STEPS, most) if it >= most or geometry.lies_within(light, other.points, it)
    )
    return line.moved + aside + min(step, most)


def width_of(line: Kept, least: int) -> tuple[int, list[str]]:
    """The width that a line needs so that nothing which its lines and stops serve is lost, and what is told of it."""
    told, width = list(line.told), least + line.moved
    if len(line.keys) > 1:
        told.append(f"{len(line.keys)} lines that lie near each other are one")
    if line.moved:
        told.append(f"{line.moved:,} feet are added to the width")
    distances = (
        (geometry.feet_from_line(point, line.points), key) for key, point in line.stops.items()
    )
    farthest, key = max(distances, default=(0, None))
    if farthest > width:
        told.append(f"the stop {key} lies {farthest:,} feet from the line, so the width is that")
    return max(width, farthest), told


# Weekdays and minutes.


def by_weekday(runs: list[Run], pause: int) -> Iterator[Span]:
    """The spans in which runs are under way, pauses of at most so many minutes included, each within one weekday.

    They are put together along three weeks, so that a pause over midnight, or from Sunday to Monday, is one too; the
    middle week counts.
    """
    under_way = [
        Span(0, at + run.first, at + run.last, run.accessible)
        for run in runs
        for weekday in run.weekdays
        for at in range((weekday - 1) * MINUTES_OF_DAY, 3 * MINUTES_OF_WEEK, MINUTES_OF_WEEK)
    ]
    for span in with_pauses(under_way, pause):
        for day in range(
            max(span.first // MINUTES_OF_DAY, 7), min(span.last // MINUTES_OF_DAY, 13) + 1
        ):
            first, last = (it - day * MINUTES_OF_DAY for it in (span.first, span.last))
            yield Span(day - 6, max(first, 0), min(last, MINUTES_OF_DAY - 1), span.accessible)


def with_pauses(spans: list[Span], pause: int) -> list[Span]:
    """The spans put together where the pause between them is at most so many minutes."""
    joint: list[Span] = []
    for span in sorted(spans, key=lambda it: (it.first, it.last)):
        if joint and span.first - joint[-1].last <= pause:
            last, accessible = (
                max(joint[-1].last, span.last),
                joint[-1].accessible and span.accessible,
            )
            joint[-1] = joint[-1]._replace(last=last, accessible=accessible)
        else:
            joint.append(span)
    return joint


def hours_of(runs: list[Run], making: Making) -> list[list[Span]]:
    """The hours of fixed routes: lists of weekdays' spans that begin and end alike."""
    groups: list[list[Span]] = []
    for span in sorted(
        by_weekday(runs, making.pause), key=lambda it: (it.first, it.last, it.weekday)
    ):
        group = next((it for it in groups if may_join(it, span, making.rounding)), None)
        groups.append([span]) if group is None else group.append(span)
    return groups


def may_join(group: list[Span], span: Span, rounding: int) -> bool:
    """Whether a weekday's span begins and ends so near to those of other weekdays that they are one fixed route."""
    firsts, lasts = [it.first for it in [*group, span]], [it.last for it in [*group, span]]
    is_near = max(firsts) - min(firsts) <= rounding and max(lasts) - min(lasts) <= rounding
    return is_near and all(it.weekday != span.weekday for it in group)


# Fixed routes.


def lines_of(feed: Feed, plane: geometry.Plane, making: Making) -> dict[str, list[Kept]]:
    """For each route of the feed the lines that are kept of it."""
    stops, kept, progress = (
        projected(feed, plane),
        {},
        Progress("lines of routes", len(feed.routes), after=2),
    )
    for at, route in enumerate(feed.routes):
        progress.show(at)
        keys = dict.fromkeys(run.line for run in route.runs)
        kept[route.key] = put_together([kept_line(it, feed, plane, stops) for it in keys], making)
    progress.end()
    return kept


def fixed_routes(
    feed: Feed, lines: dict[str, list[Kept]], making: Making
) -> tuple[list[Fixed], list[tuple[str, str]]]:
    """The fixed routes, and the routes of the feed that are refused, each with the reason."""
    made: list[Fixed] = []
    refused: list[tuple[str, str]] = []
    for route in feed.routes:
        widths = [width_of(it, making.width) for it in lines[route.key]]
        wide = next((it for it in widths if it[0] > GREATEST_WIDTH), None)
        if wide:
            reason = f"it would be {wide[0]:,} feet wide, and {GREATEST_WIDTH:,} is the most: {'; '.join(wide[1])}"
            refused.append((f"route {route.key} {route.name}", reason))
        else:
            for line, (width, told) in zip(lines[route.key], widths):
                made += along(route, line, width, told, making)
    return made, refused


def along(route: Route, line: Kept, width: int, told: list[str], making: Making) -> Iterator[Fixed]:
    """The fixed routes along one line."""
    for spans in hours_of([it for it in route.runs if it.line in line.keys], making):
        is_accessible = making.all_accessible or all(it.accessible for it in spans)
        first, last = min(it.first for it in spans), max(it.last for it in spans)
        days = sorted(it.weekday for it in spans)
        yield Fixed(
            (route.key,), route.name, width, line.points, days, first, last, is_accessible, told
        )


def days_text(days: list[int]) -> str:
    """Weekdays as Mon-Fri or Mon Wed."""
    if len(days) > 2 and days == list(range(days[0], days[-1] + 1)):
        return f"{WEEKDAYS[days[0]]}-{WEEKDAYS[days[-1]]}"
    return " ".join(WEEKDAYS[it] for it in days) or "no day"


def body_of(number: int, fixed: Fixed) -> dict[str, Any]:
    return {
        "id": number,
        "width": fixed.width,
        "points": [list(it) for it in fixed.points],
        "accessible": fixed.accessible,
        "days": fixed.days,
        "first": fixed.first,
        "last": fixed.last,
    }
