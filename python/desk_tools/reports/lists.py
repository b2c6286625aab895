"""What waits, as lists: each has its rows by the day on which somebody has to act.

docs/WORKLIST.md says what each means.
"""

from __future__ import annotations

import collections
import datetime
import operator
from collections.abc import Callable, Iterator, Sequence
from dataclasses import dataclass
from typing import Any, NamedTuple, TYPE_CHECKING

from desk_tools.tables import RIDERS
from desk_tools.days import clock
from desk_tools import law, offers as told_offers, rebooking
from desk_tools import today as day_file
from desk_tools.reports import case_files, copies
from desk_tools.days import number_of
from desk_tools.reports.copies import day_of
from desk_tools.reports.corrected import OUTCOMES
from desk_tools.setup.limits import MANY_VERSIONS, MOST_VERSIONS
from desk_tools.setup.tally_log import AGENCY

if TYPE_CHECKING:
    from desk_tools.served_copy import ServedCopy
    from desk_tools.setup.tally_log import Log

# Over so many days it is looked whom a no-show policy would have met, and which policies.
DAYS_LOOKED_BACK = 90
POLICIES = [
    copies.Policy(*it)
    for it in [(1, 100, 1), (2, 10, 30), (3, 10, 30), (4, 15, 30), (4, 10, 60), (6, 10, 90)]
]
# What is to be done next for a grant in part; pages/words/on-record.js has the same words.
TAKE, GRANT = "Take the new application", "Grant it with its conditions"


@dataclass(frozen=True)
class Listed:
    """A list: its name, title, who works with it, what it means, its columns, and its rows of
    numbers, days and texts. The count stands in the title where it is not that of the rows: a
    number, NOT_KNOWN, or UNCOUNTED."""

    name: str
    title: str
    reader: str
    note: str
    columns: Sequence[Any]
    rows: Sequence[Any]
    count: int | str | None = None


NOT_KNOWN, UNCOUNTED = "not known", ""


class Rider(NamedTuple):
    """A rider, whom the roster may name."""

    number: int


class Number(NamedTuple):
    """A figure or the head of a column of figures, which go to the right."""

    text: str


# Lists of riders on whom an examiner or an officer has to decide.
DECIDED_ON = ("applications", "in-part", "appeals", "missed")


class Names:
    """The names of riders and vehicles, where the agency gives them. Without them all goes by numbers."""

    def __init__(self, riders: dict[int, str], vehicles: dict[int, str]) -> None:
        self.riders, self.vehicles = riders, vehicles

    def rider(self, number: Any) -> tuple[Rider, str]:
        return (Rider(number), self.riders.get(number, ""))


def all_lists(
    copy: copies.Copy,
    desk: ServedCopy,
    today: datetime.date,
    names: Names,
    log: Log | None = None,
    corrected: dict[int, str] | None = None,
    closed: dict[datetime.date, str] | None = None,
) -> tuple[list[Listed], dict[int, list[copies.Entry]]]:
    """Each list, for today, and the riders whose case files somebody has to decide on. The desk serves the same copy, and
    says what stands. The log is the site's; corrected has the outcomes of corrections.csv, by trip, and is None where there
    is no such file; closed has the words of the days on which nobody is served, and is None where nobody knows them.
    """
    files, now = copy.case_files(), number_of(today)
    lists = [
        first(files, desk, now, names),
        applications(files, now, names),
        in_part(files, now, names),
        appeals(files, now, names),
        grants(files, now, names),
        missed(files, missed_of(copy, now), desk, now, names),
        suspended_trips(copy, files, desk, now, names),
        without_outcome(copy, now, names),
        vehicles(copy, now, names),
        *rebooked(copy, log, now, names, closed),
        on_closed_days(copy, log, now, names, closed),
        versions(copy, names),
        no_shows(copy, log, now, names),
        disagreements(copy, log, now, names),
        corrections(copy, log, corrected, names),
        offers(copy, log, today, names),
        policies(copy, now),
    ]
    deciding = {row[0].number for it in lists if it.name in DECIDED_ON for row in it.rows}
    return lists, {rider: files.get(rider, []) for rider in sorted(deciding)}


def days_from(now: int, day: int) -> str:
    """How far a day is from today, in words."""
    if day == now:
        return "today"
    count = abs(day - now)
    return f"{'in ' if day > now else ''}{count} day{'' if count == 1 else 's'}{'' if day > now else ' ago'}"


def first(files: dict[int, list[copies.Entry]], desk: ServedCopy, now: int, names: Names) -> Listed:
    """Applications and appeals for which the time is nearly over, or over: what has waited longest comes first."""
    found = []
    for rider, entries in files.items():
        waiting, pending = case_files.application(entries), case_files.appeal(entries)
        found += [
            (it, rider, *rest)
            for it, *rest in (
                pressing_application(rider, waiting, desk, now),
                pressing_appeal(rider, pending, desk, now),
            )
            if it is not None
        ]
    rows = [
        (*names.rider(rider), reader, said, day_of(day), f"{now - day} days")
        for day, rider, reader, said in sorted(found)
    ]
    return Listed(
        "first",
        "What comes first",
        "examiner and officer",
        f"Applications from day {case_files.DAYS_UNTIL_PRESSING} on, of the {law.DAYS_UNTIL_PRESUMED} days after which the rider is presumed "
        f"eligible. Appeals that nobody heard for {case_files.DAYS_UNTIL_UNHEARD} days, or that were heard and not decided for {law.DAYS_UNTIL_OVERDUE}.",
        ("Rider", "Name", "Who decides", "What waits", "Since", "How long"),
        rows,
    )


def pressing_application(
    rider: int, waiting: copies.Entry | None, desk: ServedCopy, now: int
) -> Any:
    """Since which day an application waits, for whom, and what is said of it; or None three times."""
    if waiting is None or now - waiting.day < case_files.DAYS_UNTIL_PRESSING:
        return None, None, None
    is_presumed = desk.standing(rider, day_of(now)).word == "presumed"
    said = f"application; presumed eligible {'since' if is_presumed else 'from'} {day_of(case_files.presumed_on(waiting))}"
    return waiting.day, "examiner", said


def pressing_appeal(
    rider: int, pending: case_files.Appeal | None, desk: ServedCopy, now: int
) -> Any:
    """The same of an appeal: since it was entered, or since it was heard."""
    if pending is None:
        return None, None, None
    if pending.heard is None:
        is_late = now - pending.entry.day >= case_files.DAYS_UNTIL_UNHEARD
        return (
            (pending.entry.day, "officer", "appeal, not heard") if is_late else (None, None, None)
        )
    is_late = case_files.is_against(pending, "refuse") and desk.is_overdue(rider, day_of(now))
    return (
        (pending.heard.day, "officer", "appeal, heard and not decided")
        if is_late
        else (None, None, None)
    )


def applications(files: dict[int, list[copies.Entry]], now: int, names: Names) -> Listed:
    found = [
        (rider, it) for rider, entries in files.items() if (it := case_files.application(entries))
    ]
    found.sort(key=lambda it: (it[1].day, it[0]))
    rows = [
        (
            *names.rider(rider),
            day_of(it.day),
            day_of(case_files.presumed_on(it)),
            days_from(now, case_files.presumed_on(it)),
        )
        for rider, it in found
    ]
    return Listed(
        "applications",
        "Applications to decide",
        "examiner",
        f"Complete and not answered. {law.DAYS_UNTIL_PRESUMED} days after it was complete, the rider is "
        "presumed eligible until somebody decides.",
        ("Rider", "Name", "Complete on", "Presumed from", "When"),
        rows,
    )


def in_part(files: dict[int, list[copies.Entry]], now: int, names: Names) -> Listed:
    """Grants in part of which the grant is not entered yet: the refusal's reasons name its conditions."""
    found = [
        (rider, *it) for rider, entries in files.items() if (it := case_files.part_waiting(entries))
    ]
    rows = [
        (
            *names.rider(rider),
            refusal.place,
            day_of(refusal.day),
            GRANT if is_taken else TAKE,
            days_from(now, refusal.day),
        )
        for rider, refusal, is_taken in sorted(found, key=lambda it: (it[1].day, it[0]))
    ]
    return Listed(
        "in-part",
        "Grants in part to finish",
        "clerk and examiner",
        "What is not granted was refused with reasons. A clerk takes the new application, and the examiner grants it with "
        "its conditions. Both decisions are one letter.",
        ("Rider", "Name", "Entry", "Refused on", "Next", "When"),
        rows,
    )


def appeals(files: dict[int, list[copies.Entry]], now: int, names: Names) -> Listed:
    found = [(rider, it) for rider, entries in files.items() if (it := case_files.appeal(entries))]
    order = {rider: case_files.overdue_on(it) for rider, it in found}
    found.sort(key=lambda it: (order[it[0]] is None, order[it[0]] or it[1].entry.day, it[0]))
    rows = []
    for rider, it in found:
        day, against = order[rider], it.against
        rows.append(
            (
                *names.rider(rider),
                f"{against.kind} (entry {against.place})" if against else f"entry {it.entry.a}",
                day_of(it.entry.day),
                day_of(it.heard.day) if it.heard else "not heard",
                day_of(day) if day is not None else "no day",
                days_from(now, day) if day is not None else "",
                f"caller {against.author}" if against else "",
            )
        )
    return Listed(
        "appeals",
        "Appeals to decide",
        "officer",
        f"An appeal against a refusal is overdue {law.DAYS_UNTIL_OVERDUE} days after its hearing, and the rider "
        "may ride until somebody decides. No suspension holds while an appeal against it waits. Who decided before may "
        "not decide the appeal.",
        (
            "Rider",
            "Name",
            "Against",
            "Filed on",
            "Heard on",
            "Overdue from",
            "When",
            "Decided before by",
        ),
        rows,
    )


def grants(files: dict[int, list[copies.Entry]], now: int, names: Names) -> Listed:
    rows = []
    for rider, entries in files.items():
        last, waiting = case_files.grant(entries), case_files.application(entries)
        if last and now <= last.a <= now + case_files.DAYS_BEFORE_END:
            rows.append(
                (
                    *names.rider(rider),
                    day_of(last.a),
                    days_from(now, last.a),
                    last.conditions,
                    day_of(waiting.day) if waiting else "no",
                )
            )
    rows.sort(key=lambda it: (it[2], it[0]))
    return Listed(
        "grants",
        "Grants that end soon",
        "examiner",
        f"Grants whose last day is within {case_files.DAYS_BEFORE_END} days, that day included. A new application "
        "keeps the rider from a gap.",
        ("Rider", "Name", "Last day", "When", "Conditions", "New application"),
        rows,
    )


def missed_of(copy: copies.Copy, now: int) -> dict[int, case_files.Pattern]:
    """How many trips of the policy's days had an outcome, and how many the rider missed, by rider who missed any."""
    found = copy.rows(
        "SELECT rider, count(*), sum(status = ?) FROM trips WHERE day >= ? AND day < ? AND status IN (?, ?, ?) "
        "GROUP BY rider",
        copies.MISSED_BY_RIDER,
        now - copy.policy.span_days,
        now,
        copies.RIDDEN,
        copies.MISSED_BY_RIDER,
        copies.MISSED_BY_OPERATOR,
    )
    return {
        rider: case_files.Pattern(ended, missed_by)
        for rider, ended, missed_by in found
        if missed_by
    }


def riders_meeting(
    copy: copies.Copy, now: int, policy: copies.Policy, days: int = DAYS_LOOKED_BACK
) -> tuple[int, int]:
    """How many riders would have met a no-show policy on some of the last days, and how many had a trip in them."""
    found = collections.defaultdict(list)
    for rider, day, status in copy.rows(
        "SELECT rider, day, status FROM trips WHERE day >= ? AND day < ? AND status IN (?, ?, ?) ORDER BY rider, day",
        now - days - policy.span_days,
        now,
        copies.RIDDEN,
        copies.MISSED_BY_RIDER,
        copies.MISSED_BY_OPERATOR,
    ):
        found[rider].append((day, status == copies.MISSED_BY_RIDER))
    recent = [trips for trips in found.values() if trips[-1][0] >= now - days]
    return sum(
        any(meets(trips, day, policy) for day in range(now - days + 1, now + 1)) for trips in recent
    ), len(recent)


def meets(trips: list[tuple[int, bool]], today: int, policy: copies.Policy) -> bool:
    """Whether a rider's trips with an outcome make a pattern on a day. A trip is its day and whether the rider missed it."""
    counted = [is_missed for day, is_missed in trips if today - policy.span_days <= day < today]
    return bool(counted) and case_files.is_pattern(
        case_files.Pattern(len(counted), sum(counted)), policy
    )


def policies(copy: copies.Copy, now: int) -> Listed:
    """How many riders some no-show policies would have met, that in force first."""
    own = copy.policy
    rows = [
        (
            it.min_missed,
            f"{it.percent} %",
            it.span_days,
            *riders_meeting(copy, now, it),
            "in force" if it == own else "",
        )
        for it in [own, *(it for it in POLICIES if it != own)]
    ]
    return Listed(
        "policies",
        "What a no-show policy would mean",
        "officer and manager",
        f"How many riders would have met each on some of the last {DAYS_LOOKED_BACK} days. What is beyond a rider's control "
        "is no ground (37.125(h)(1)): where many riders meet a policy, look at the vans first.",
        ("No-shows", "Share", "Days", "Riders who meet it", "Riders with trips", ""),
        rows,
        UNCOUNTED,
    )


def missed(
    files: dict[int, list[copies.Entry]],
    counts: dict[int, case_files.Pattern],
    desk: ServedCopy,
    now: int,
    names: Names,
) -> Listed:
    patterns = {
        rider: it for rider, it in counts.items() if rider in files and desk.has_pattern(rider)
    }
    rows = [
        (
            *names.rider(rider),
            it.missed,
            it.ended,
            f"{100 * it.missed // it.ended} %",
            steps(rider, files[rider], desk, now),
        )
        for rider, it in sorted(patterns.items(), key=lambda it: (-it[1].missed, it[0]))
    ]
    return Listed(
        "missed",
        "Patterns of missed trips",
        "officer",
        "As the agency's policy has it: the trips of its days before today that have an outcome. What the agency "
        "missed is never counted as missed by the rider. A notice and a hearing come before a suspension.",
        ("Rider", "Name", "Missed", "Trips with an outcome", "Share", "Notice"),
        rows,
    )


def steps(rider: int, entries: list[copies.Entry], desk: ServedCopy, now: int) -> str:
    """How far a suspension has come."""
    ahead = [
        it
        for it in case_files.suspensions(entries)
        if it.b >= now and desk.standing(rider, day_of(it.b)).is_suspended
    ]
    if ahead:
        return f"suspended {day_of(ahead[-1].a)} to {day_of(ahead[-1].b)}"
    notice, heard = case_files.notice(entries)
    if not notice:
        return "none"
    return f"heard on {day_of(heard.day)}" if heard else f"given on {day_of(notice.day)}, not heard"


def suspended_trips(
    copy: copies.Copy,
    files: dict[int, list[copies.Entry]],
    desk: ServedCopy,
    now: int,
    names: Names,
) -> Listed:
    suspended = {rider for rider, entries in files.items() if case_files.suspensions(entries)}
    # (all booked trips at once: tables of version 1 have no index by which to find those of a rider)
    booked = copy.rows(
        "SELECT id, rider, day, vehicle, window_from FROM trips WHERE status = ? AND day >= ? "
        "ORDER BY day, window_from, id",
        copies.BOOKED,
        now,
    )
    rows = [
        (*names.rider(rider), day_of(day), clock(begins), trip, vehicle_named(vehicle, names))
        for trip, rider, day, vehicle, begins in booked
        if rider in suspended and desk.standing(rider, day_of(day)).is_suspended
    ]
    return Listed(
        "suspended",
        "Booked trips inside a suspension",
        "dispatcher",
        "These were booked before the rider was suspended. They stay until somebody cancels them.",
        ("Rider", "Name", "Day", "Window from", "Trip", "Vehicle"),
        rows,
    )


def without_outcome(copy: copies.Copy, now: int, names: Names) -> Listed:
    days = collections.defaultdict(list)
    for trip, day, vehicle in copy.rows(
        "SELECT id, day, vehicle FROM trips WHERE status = ? AND day < ? ORDER BY day, vehicle, id",
        copies.BOOKED,
        now,
    ):
        days[day, vehicle].append(trip)
    rows = [
        (day_of(day), vehicle_named(vehicle, names), len(trips), ", ".join(map(str, trips)))
        for (day, vehicle), trips in days.items()
    ]
    return Listed(
        "outcomes",
        "Trips without an outcome",
        "dispatcher",
        "Days before today. Until it has an outcome, a trip counts as neither ridden nor missed.",
        ("Day", "Vehicle", "Trips", "Their numbers"),
        rows,
        sum(map(len, days.values())),
    )


WITHOUT_LOG = "The site's log (--tally) was not given, so nobody knows what "
# What of no-shows and disagreements is looked at.
OF_LAST_DAYS = f"Of the last {day_file.DAYS_KEPT} days."


def by_log(log: Log | None, count: int | str | None = None) -> int | str | None:
    """The count of a list that comes from the site's log: NOT_KNOWN where there is no log."""
    return count if log else NOT_KNOWN


def on_closed_days(
    copy: copies.Copy,
    log: Log | None,
    now: int,
    names: Names,
    closed: dict[datetime.date, str] | None,
) -> Listed:
    """Trips of days on which nobody is served: those that are booked, and those that were canceled by the agency, or by nobody
    knows whom."""
    days, by = {number_of(it): word for it, word in dict(closed or ()).items()}, {
        it.trip: it.by for it in log.cancellations
    } if log else {}
    found = [
        row
        for row in copy.rows(
            "SELECT id, rider, day, vehicle, window_from, window_to, status FROM trips WHERE day >= ? "
            "ORDER BY day, window_from, id",
            now,
        )
        if row[2] in days
    ]
    rows = [
        (
            *names.rider(rider),
            day_of(day),
            days[day],
            f"{clock(begins)} to {clock(ends)}",
            trip,
            vehicle_named(vehicle, names),
            "booked: cancel it" if status == copies.BOOKED else CANCELED_BY[by.get(trip)],
        )
        for trip, rider, day, vehicle, begins, ends, status in found
        if status == copies.BOOKED
        or log
        and status == copies.CANCELLED
        and by.get(trip) in CANCELED_BY
    ]
    count = (
        None
        if log or not any(it[-1] == copies.CANCELLED for it in found)
        else f"{len(rows)} booked, canceled ones {NOT_KNOWN}"
    )
    return Listed(
        "closed",
        "Trips on closed days",
        "dispatcher",
        closed_told(log, closed),
        ("Rider", "Name", "Day", "Closed for", "Window", "Trip", "Vehicle", "What to do"),
        rows,
        NOT_KNOWN if closed is None else count,
    )


CANCELED_BY = {
    AGENCY: "canceled: call the rider",
    None: "canceled, not known by whom: call the rider",
}


def closed_told(log: Log | None, closed: dict[datetime.date, str] | None) -> str:
    """What the list of closed days means, and what it lacks."""
    if closed is None:
        return "The agency's file (--agency) was not given, so nobody knows which days are closed."
    means = "The agency's file names these days as closed. Cancel what is booked as the agency, and call each rider."
    return means if log else f"{means} {WITHOUT_LOG}the agency canceled: those trips are not here."


def rebooked(
    copy: copies.Copy,
    log: Log | None,
    now: int,
    names: Names,
    closed: dict[datetime.date, str] | None = None,
) -> list[Listed]:
    """Trips from today on that the agency canceled: those whose riders have no other trip in their place, and those whose
    riders have one at another time and were not called. One of which the log says nothing may be the agency's: where a
    browser ended in the middle, its last word did not come. Days on which nobody is served are a list of their own.
    """
    by, free = {it.trip: it.by for it in log.cancellations} if log else {}, {
        number_of(it) for it in dict(closed or ())
    }
    # (whoever said no to an offer has lost no trip)
    declined, rows, rides, lost = (
        told_offers.declined_offers(log.events) if log else set(),
        {},
        {},
        [],
    )
    for row in copy.rows(
        "SELECT id, rider, day, vehicle, origin, goal, window_from, window_to, status FROM trips "
        "WHERE day >= ? ORDER BY day, window_from, id",
        now,
    ):
        is_ours = (
            log
            and by.get(row[0], AGENCY) == AGENCY
            and row[2] not in free
            and row[0] not in declined
        )
        rows[row[0]], rides[row[0]] = row, rebooking.Ride(
            row[0], row[1], row[2], row[4], row[5], (row[6], row[7])
        )
        if row[-1] == copies.CANCELLED and is_ours:
            lost.append(row[0])
    found = rebooking.in_place(rides.values(), lost, rebooking.times_in(log.events if log else ()))
    return [
        not_again(rows, [it for it in lost if it not in found], by, calls_of(log), log, names),
        moved_to(rows, rebooking.heads(found), rides, found, calls_of(log), log, names),
    ]


def not_again(
    rows: dict[int, tuple[int, ...]],
    trips: list[int],
    by: dict[int, str],
    calls: dict[int, str],
    log: Log | None,
    names: Names,
) -> Listed:
    """Trips of which none stands in their place; in the order in which riders wait for them."""
    unknown = sum(it not in by for it in trips)
    told = [
        (
            *names.rider(rider),
            day_of(day),
            window_told(rows[trip]),
            trip,
            origin,
            goal,
            vehicle_named(vehicle, names),
            by.get(trip, NOT_KNOWN),
            calls.get(trip, ""),
        )
        for trip, rider, day, vehicle, origin, goal, *_ in (rows[it] for it in trips)
    ]
    return Listed(
        "canceled",
        "Canceled by the agency and not booked again",
        "dispatcher",
        "The agency canceled these for a vehicle out of service, or the log does not say who did. No trip stands in their place: "
        "none of that rider, day and way was booked since. Call the rider, and book again."
        if log
        else f"{WITHOUT_LOG}the agency canceled.",
        ("Rider", "Name", "Day", "Window", "Trip", "From", "To", "Vehicle", "Canceled by", "Call"),
        told,
        by_log(
            log,
            f"{len(told) - unknown}, and {unknown} by nobody knows whom" if unknown else len(told),
        ),
    )


def moved_to(
    rows: dict[int, tuple[int, ...]],
    firsts: list[int],
    rides: dict[int, rebooking.Ride],
    found: dict[int, rebooking.Ride],
    calls: dict[int, str],
    log: Log | None,
    names: Names,
) -> Listed:
    """Trips whose riders know another window than the one that they have now."""
    called, moved = {trip for trip, word in calls.items() if word == CALLED}, []
    for first in firsts:
        old, new = rebooking.known_and_now(rides[first], found, called)
        if rows[new.trip][-1] == copies.BOOKED and not rebooking.is_same_window(
            old.window, new.window
        ):
            moved.append(
                (
                    *names.rider(old.rider),
                    day_of(old.day),
                    window_told(rows[old.trip]),
                    old.trip,
                    window_told(rows[new.trip]),
                    new.trip,
                    vehicle_named(rows[new.trip][3], names),
                    calls.get(old.trip, ""),
                )
            )
    moved.sort(key=lambda it: (it[2], it[3], it[4]))
    return Listed(
        "moved",
        "Moved by the agency, rider not called",
        "dispatcher",
        "The agency canceled these for a vehicle out of service, and the window of the trip in their place is neither the same "
        "nor within the old one. Call the rider; a tick on the call list takes the row away."
        if log
        else f"{WITHOUT_LOG}the agency moved.",
        (
            "Rider",
            "Name",
            "Day",
            "Old window",
            "Old trip",
            "New window",
            "New trip",
            "Vehicle",
            "Call",
        ),
        moved,
        by_log(log),
    )


def window_told(row: tuple[int, ...]) -> str:
    """The pickup window of a trip's row."""
    return f"{clock(row[6])} to {clock(row[7])}"


CALLED, NOT_HERE = "called", "not in this copy"
AT: Callable[[Any], datetime.datetime] = operator.attrgetter("at")


def calls_of(log: Log | None) -> dict[int, str]:
    """What came of the last call about each trip, on whatever list; nothing where the tick was taken back."""
    found = {}
    for it in sorted(log.of["calls"], key=AT) if log else ():
        found[it.trip] = {"called": CALLED, "not-reached": "not reached"}.get(it.result, "")
    return found


# What dispatch has to look at.


def reviewed(log: Log | None) -> dict[int, Any]:
    """The last review of each trip."""
    return {it.trip: it for it in sorted(log.of["reviews"], key=AT)} if log else {}


def waiting(log: Log | None, kind: str, now: int) -> Iterator[tuple[Any, int]]:
    """The events of a kind of the last days at which nobody has looked since, each with its day's number."""
    seen = reviewed(log)
    for it in sorted(log.of[kind], key=AT) if log else ():
        day = number_of(getattr(it, "day", it.at.date()))
        if now - day_file.DAYS_KEPT <= day <= now and not (
            it.trip in seen and seen[it.trip].at >= it.at
        ):
            yield it, day


def trips_named(copy: copies.Copy, numbers: set[int]) -> dict[int, tuple[int, str]]:
    """The rider of trips and how each ended, by number."""
    return {
        trip: (rider, copy.status_of(trip, status))
        for trip, rider, status in copy.rows("SELECT id, rider, status FROM trips")
        if trip in numbers
    }


def outcome_named(outcome: str) -> str:
    """An outcome of the log, as lists say it."""
    return copies.STATUSES[OUTCOMES[outcome]]


def no_shows(copy: copies.Copy, log: Log | None, now: int, names: Names) -> Listed:
    found = [*waiting(log, "no-shows", now)]
    known, rows = trips_named(copy, {it.trip for it, _ in found}), []
    for it, day in found:
        rider, status = known.get(it.trip, (None, NOT_HERE))
        rows.append(
            (
                *(names.rider(rider) if rider else ("", "")),
                day_of(day),
                it.trip,
                f"{clock(it.window_from)} to {clock(it.window_to)}",
                "not tapped" if it.arrived is None else clock(it.arrived),
                it.wait,
                vehicle_named(it.vehicle, names),
                status,
                doubt_of(it),
            )
        )
    return Listed(
        "no-shows",
        "No-shows to confirm",
        "dispatcher and officer",
        f"{OF_LAST_DAYS} What the driver's phone has of each, until dispatch has settled it on Day. A van that came after the window was "
        "missed by the agency."
        if log
        else f"{WITHOUT_LOG}speaks for a no-show.",
        (
            "Rider",
            "Name",
            "Day",
            "Trip",
            "Window",
            "Arrived",
            "Minutes waited",
            "Vehicle",
            "On record",
            "Doubt",
        ),
        rows,
        by_log(log, len({it.trip for it, _ in found})),
    )


def doubt_of(it: Any) -> str:
    """What makes a no-show doubtful, in words; how long a driver waits is the agency's."""
    if it.arrived is None:
        return "no arrival"
    if it.arrived > it.window_to:
        return f"{it.arrived - it.window_to} minutes after the window"
    return "before the window" if 60 * it.at.hour + it.at.minute < it.window_from else ""


# Taps that say that a rider is aboard, or was, and how a trip ended that says that nobody was.
ABOARD = ("aboard", "dropped")
NOBODY_ABOARD = (
    copies.STATUSES[copies.MISSED_BY_RIDER],
    copies.STATUSES[copies.MISSED_BY_OPERATOR],
)


def said_aboard(
    copy: copies.Copy, log: Log | None, now: int, but: set[int]
) -> Iterator[tuple[Any, int]]:
    """The first tap aboard of each trip that is on record as missed, at which nobody has looked since, and its day."""
    taps = [(it, day) for it, day in waiting(log, "stops", now) if it.event in ABOARD]
    known = trips_named(copy, {it.trip for it, _ in taps})
    for it, day in taps:
        if it.trip not in but and known.get(it.trip, (0, ""))[1] in NOBODY_ABOARD:
            but = but | {it.trip}
            yield it, day


def disagreements(copy: copies.Copy, log: Log | None, now: int, names: Names) -> Listed:
    found = [*waiting(log, "disagreements", now)]
    found += said_aboard(copy, log, now, {it.trip for it, _ in found})
    known = trips_named(copy, {it.trip for it, _ in found})
    rows = []
    for it, day in found:
        rider, status = known.get(it.trip, (None, NOT_HERE))
        rows.append(
            (
                *(names.rider(rider) if rider else ("", "")),
                day_of(day),
                it.trip,
                vehicle_named(it.vehicle, names),
                status,
                outcome_named(it.told) if hasattr(it, "told") else "aboard",
                clock(60 * it.at.hour + it.at.minute),
            )
        )
    return Listed(
        "disagreements",
        "Entries that disagree",
        "dispatcher",
        f"{OF_LAST_DAYS} A driver entered another outcome than the one on record, or has the rider aboard. Ask the driver, and settle it on Day."
        if log
        else f"{WITHOUT_LOG}was entered twice.",
        ("Rider", "Name", "Day", "Trip", "Vehicle", "On record", "Entered too", "At"),
        rows,
        by_log(log),
    )


def corrections(
    copy: copies.Copy, log: Log | None, corrected: dict[int, str] | None, names: Names
) -> Listed:
    """Trips of which dispatch found another outcome right than the one on record, and which no correction names."""
    right = {trip: it.outcome for trip, it in reviewed(log).items()}
    ended, rows = {copies.STATUSES[it]: word for word, it in OUTCOMES.items()}, []
    for trip, (rider, status) in sorted(trips_named(copy, set(right)).items()):
        record = ended.get(status)
        if record and record != right[trip] and (corrected or {}).get(trip) != right[trip]:
            rows.append((*names.rider(rider), trip, record, right[trip]))
    return Listed(
        "corrections",
        "Corrections to write down",
        "dispatcher and manager",
        (
            "Dispatch found another outcome right than the one on record. Add a line to corrections.csv, so that reports count it."
            + (
                ""
                if corrected is not None
                else " That file (--corrections) was not given: what it has already is here too."
            )
        )
        if log
        else f"{WITHOUT_LOG}dispatch found right.",
        ("Rider", "Name", "Trip", "On record", "Right"),
        rows,
        by_log(log),
    )


MEANT = {"around": "around", "not-before": "not before", "by": "be there by"}


def offers(copy: copies.Copy, log: Log | None, today: datetime.date, names: Names) -> Listed:
    """Trips that the desk holds at another time than the rider asked for, and of which nobody told an answer."""
    found = told_offers.open_offers(log.events, today) if log else {}
    rows = []
    for trip, rider, day, begins, ends, origin, goal in copy.rows(
        "SELECT id, rider, day, window_from, window_to, origin, goal FROM trips WHERE status = ? AND day >= ? "
        "ORDER BY day, window_from, id",
        copies.BOOKED,
        number_of(today),
    ):
        it = found.get(trip)
        if it and (it.fields["from"], it.fields["to"]) == (begins, ends):
            asked = (
                f"{MEANT.get(str(it.fields['mode']), 'at')} {clock(int(str(it.fields['minute'])))}"
            )
            rows.append(
                (
                    *names.rider(rider),
                    day_of(day),
                    asked,
                    f"{clock(begins)} to {clock(ends)}",
                    trip,
                    origin,
                    goal,
                )
            )
    note = (
        "The desk holds these trips more than an hour from what the rider asked for, and the rider has not answered. "
        "Call the rider: the trip is kept on a yes, and canceled as the agency's on a no."
    )
    return Listed(
        "offers",
        "Offers that wait for an answer",
        "clerk",
        note if log else f"{WITHOUT_LOG}was offered.",
        ("Rider", "Name", "Day", "Asked for", "Window", "Trip", "From", "To"),
        rows,
        by_log(log),
    )


def vehicles(copy: copies.Copy, now: int, names: Names) -> Listed:
    counts: dict[int, dict[int, int]] = collections.defaultdict(dict)
    for vehicle, day, count in copy.rows(
        "SELECT vehicle, day, count(*) FROM trips WHERE day >= ? AND status <> ? "
        "GROUP BY vehicle, day",
        now,
        copies.CANCELLED,
    ):
        counts[vehicle][day] = count
    rows = []
    for vehicle, begins in copy.rows(
        "SELECT id, max(from_day) FROM vehicles GROUP BY id ORDER BY id"
    ):
        days = {day: count for day, count in counts[vehicle].items() if day >= begins}
        if days:
            rows.append(
                (
                    vehicle_named(vehicle, names),
                    day_of(begins),
                    sum(days.values()),
                    day_of(min(days)),
                    day_of(max(days)),
                    day_of(max(days) + 1),
                )
            )
    return Listed(
        "vehicles",
        "Vehicles with trips ahead",
        "dispatcher and manager",
        "Trips from today on that stand after the vehicle's last version begins. A new version can begin on the last "
        "column's day; for an earlier day those trips have to be moved or canceled first.",
        ("Vehicle", "Last version from", "Trips", "First day", "Last day", "Free from"),
        rows,
    )


def versions(copy: copies.Copy, names: Names) -> Listed:
    """Vehicles that come near the versions for which the desk has room."""
    rows = [
        (vehicle_named(vehicle, names), count, MOST_VERSIONS - count)
        for vehicle, count in copy.rows(
            "SELECT id, count(*) FROM vehicles GROUP BY id HAVING count(*) >= ? ORDER BY count(*) DESC, id",
            MANY_VERSIONS,
        )
    ]
    return Listed(
        "versions",
        "Vehicles with many versions",
        "dispatcher and manager",
        f"The desk takes {MOST_VERSIONS} versions of a vehicle, for good. After the last one nothing of the vehicle can change, and only another number helps. "
        "Off duty and back are two versions. For a holiday take closed days in their place.",
        ("Vehicle", "Versions", "Left"),
        rows,
    )


def vehicle_named(vehicle: int, names: Names) -> str:
    name = names.vehicles.get(vehicle)
    return f"{vehicle} ({name})" if name else str(vehicle)


# One rider's case file.


def case_file(rider: int, entries: list[copies.Entry], names: Names) -> Listed:
    """All entries of a rider, as a list."""
    rows = [(it.place, day_of(it.day), it.kind, f"caller {it.author}", told(it)) for it in entries]
    name = names.riders.get(rider)
    return Listed(
        f"rider-{rider}",
        f"Case file of rider {rider}" + (f", {name}" if name else ""),
        "",
        "",
        ("Entry", "Day", "What", "Entered by", "What it says"),
        rows,
    )


def told(entry: copies.Entry) -> str:
    """What an entry says beside its kind."""
    if entry.kind in case_files.GRANTS:
        return f"until {day_of(entry.a)}; {entry.conditions}"
    if entry.kind == "suspend":
        return f"{day_of(entry.a)} to {day_of(entry.b)}; {entry.words}"
    if entry.kind == "appeal":
        return f"against entry {entry.a}"
    if entry.kind == "refuse":
        return f"{entry.words} (may be appealed until {day_of(entry.day + law.DAYS_TO_APPEAL)})"
    return entry.words


def standing_told(
    copy: copies.Copy, desk: ServedCopy, rider: int, entries: list[copies.Entry], now: int
) -> list[str] | None:
    """What stands for today, in sentences; or nothing where the rider is not in the copy."""
    records = copy.rows("SELECT kind, attendant FROM riders WHERE id = ?", rider)
    if not records:
        return None
    kind, attendant = records[0]
    if kind not in range(len(RIDERS)):
        return [f"The kind {kind!r} of this rider is none that the desk knows."]
    chairs = copy.version > 1 and copy.rows("SELECT 1 FROM rider_chairs WHERE rider = ?", rider)
    sentences = [
        f"A {RIDERS[kind]}, {'with' if attendant else 'without'} an attendant"
        f"{', in a wheelchair' if chairs else ''}."
    ]
    if RIDERS[kind] == "visitor":
        return [*sentences, "A visitor has no case file."]
    standing = desk.standing(rider, day_of(now))
    sentences.append(
        f"Standing today: {standing.word}{f' until {standing.until}' if standing.until else ''}."
    )
    if standing.is_suspended:
        sentences.append("Suspended today.")
    if not entries:
        sentences.append("The case file has no entry.")
    return [*sentences, *missed_told(copy, rider, now)]


def missed_told(copy: copies.Copy, rider: int, now: int) -> list[str]:
    """Each trip that the rider missed in the days of the policy, on which an officer decides."""
    found = copy.rows(
        "SELECT id, day, origin, goal, window_from, window_to FROM trips WHERE rider = ? AND status = ? AND day >= ? "
        "AND day < ? ORDER BY day, window_from, id",
        rider,
        copies.MISSED_BY_RIDER,
        now - copy.policy.span_days,
        now,
    )
    return [
        f"Missed by the rider on {day_of(day)}: trip {trip} from place {origin} to place {goal}, "
        f"window {clock(begins)} to {clock(ends)}."
        for trip, day, origin, goal, begins, ends in found
    ]
