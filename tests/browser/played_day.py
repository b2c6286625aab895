"""A day of many vans, trips and riders that goes wrong: three vans break down, a key is replaced, phones disagree, drivers have no line. At its end
each rider who had a trip has it or stands on a list, and each list is true.

The short form has 12 vans and 140 trips; PAGES_WHOLE_DAY=1 has 50 vans, 700 trips and 300 riders. The checks are the hours of one day, in their order.
"""
import csv
import hashlib
import html
import io
import os
import re
import subprocess
import time
import urllib.parse
from collections import Counter
from typing import Any

import driver as phone
from browser import Browser
from checks import Place, check, holds, same
from database import PATIENCE, ROOT, Trouble, until
from people import key_for
from played_drivers import (
    DELAYS,
    MISSED,
    NO_SHOWS,
    Drivers,
    Stop,
    Teller,
    acts_of,
    moment,
    stops_of,
)
from played_town import (
    BACK,
    DAY,
    LATER_DAYS,
    TOMORROW,
    PlayedTown,
    is_whole,
    name_of,
    settings_of,
    size,
    telephone_of,
)
from scripts import SAVED

TOWN, PACKED = PlayedTown, True
ALL_DAYS = [DAY, *LATER_DAYS, "2025-03-15", "2025-03-16", "2025-03-19", "2025-03-20"]
NOON, NINE, END = 720, 540, 1_439
AFTER_TOMORROW = "2025-03-13"
ENDED = {"ridden", "missed-rider", "missed-operator"}
NEW_KEY = key_for("the dispatcher's next")
# The search of the day is measured with this name, which many riders have.
TYPED = "okonkwo"


class Story:
    """What is known of the day so far, from one check to the next."""

    drivers: Drivers
    disputed: Stop
    no_show: int
    called: tuple[str, Any]
    second: Place | None = None
    correction = ""

    def __init__(self) -> None:
        self.before: dict[int, dict[str, Any]] = {}
        self.vans: dict[str, Any] = {}
        self.moves: dict[str, Any] = {}
        self.figures: dict[str, Any] = {}
        self.anew: list[int] = []
        self.unclosed: list[int] = []


STORY = Story()


def rows_of(at: Place, day: str) -> list[Any]:
    return [
        {name: int(value) if value.isdigit() else value for name, value in row.items()}
        for row in csv.DictReader(io.StringIO(at.town.get("dispatcher", f"/days/{day}/trips.csv")))
    ]


def all_rows(at: Place) -> dict[Any, Any]:
    return {row["trip"]: {**row, "day": day} for day in ALL_DAYS for row in rows_of(at, day)}


def van_name(van: Any) -> str:
    return f"Van {100 + van}"


def clock(minute: Any) -> str:
    hour = minute // 60 % 24
    return f"{hour % 12 or 12}:{minute % 60:02} {'AM' if hour < 12 else 'PM'}"


def at_minute(at: Place, minute: int) -> None:
    at.town.set_clock(DAY, f"{minute // 60:02}:{minute % 60:02}")


def stops_on(at: Place, van: Any, day: str = DAY) -> list[Stop]:
    return stops_of(at.town.get("dispatcher", f"/vehicles/{van}/manifest/{day}"))


def today_file(at: Place) -> Any:
    """The file of the day as its unit makes it, where nginx can read it."""
    told = at.town.make_today()
    os.chmod(f"{at.town.folder}/site/staff/today.json", 0o644)
    return told


def saved_files(at: Place, count: int) -> list[Any]:
    """The rows of each file that the page has saved since SAVED was run."""
    until("nothing is saved", lambda: len(at.browser.script("return window.saved")) >= count)
    texts = [bytes(it).decode("utf-8-sig") for it in at.browser.script("return window.saved")]
    return [list(csv.DictReader(io.StringIO(it))) for it in texts]


def show_out(at: Place, van: Any, day: str, back: str | None = None) -> None:
    at.browser.fill("Vehicle", van_name(van))
    at.browser.fill("Out of service from", day)
    if back:
        at.browser.fill("Back in service on (optional)", back)
    at.browser.press("Show its trips")
    until(
        "its trips are not shown",
        lambda: re.search("What happens next|No trips. Save the vehicle", at.browser.text()),
    )


def trips_words(count: int) -> str:
    return "1 trip" if count == 1 else f"{count} trips"


def press_move(at: Place, count: int) -> None:
    at.browser.press(f"Take it out of service and book {trips_words(count)} again")


def say_yes(at: Place, count: int) -> None:
    at.browser.press(f"Yes, book {trips_words(count)} again")


def long_enough(count: int) -> Any:
    """How many seconds a move of so many trips may take: it reads the riders' lists three times, of which the site lets two a second through."""
    return PATIENCE + 4 * count


def shown_of(at: Place) -> str:
    """What the page says of the moves, where one does not end."""
    return " / ".join(
        at.browser.script(
            "return [...document.querySelectorAll('#out-status, .denial, .note, #line')].map((it) => it.textContent)"
        )
    )


def ended(at: Place, van: Any, count: int) -> None:
    until(
        lambda: f"the move of {van} does not end: {shown_of(at)}",
        lambda: re.search(
            f"{van_name(van)} is out of service from|Not finished", at.browser.text()
        ),
        long_enough(count),
    )


def finish(at: Place, van: Any, count: int) -> None:
    """Presses Go on until the move is at its end."""

    def done() -> bool:
        if f"{van_name(van)} is out of service from" in at.browser.text():
            return True
        if at.browser.is_there("button", "Go on"):
            at.browser.press("Go on")
            at.browser.settled(300)
        return False

    until(lambda: f"the move of {van} does not end: {shown_of(at)}", done, long_enough(count))


def fill_settings(at: Place, van: Any) -> None:
    """What the van has when it comes back, where the page asks for it."""
    it = settings_of(van)
    if not at.browser.all("field", "Seats"):
        return
    at.browser.fill_all(
        {
            "Seats": it["capacity"],
            "Wheelchair places": it["chairs"],
            "Leaves its depot from": clock(it["opens"]),
            "Is back by": clock(it["closes"]),
            "Minutes that it may be out": it["duration"],
            "Depot": it["depot"],
        }
    )


def thread_milliseconds(at: Place) -> Any:
    """How long the main thread has worked, in milliseconds."""
    found = at.browser.devtools("Performance.getMetrics")["metrics"]
    return 1000 * next(it["value"] for it in found if it["name"] == "TaskDuration")


def second_dispatcher(at: Place) -> Place:
    """Another machine, where one acts beside the first."""
    if STORY.second is None:
        STORY.second = Place(at.town, Browser(at.town.origin, at.folder), at.keys, at.folder)
        STORY.second.browser.go()
    return STORY.second


def pickups_after(at: Place, van: Any, minute: int) -> list[Any]:
    """The pickups of a van within two hours after a minute at which the rider is there."""
    return [
        it
        for it in stops_on(at, van)
        if it.kind == "PICK"
        and minute < it.minute < minute + 120
        and it.trip % NO_SHOWS != 7
        and it.trip % MISSED != 5
    ]


# 5:30 to 9:00.


@check
def the_day_begins_with_each_trip_in_its_van(at: Place) -> None:
    same("the trips of the day", size().trips, len(rows_of(at, DAY)))
    STORY.before = all_rows(at)
    later = Counter(row["vehicle"] for row in STORY.before.values() if row["day"] != DAY)
    week, *rest = [van for van, _ in later.most_common() if van % 4 != 3][:3]
    noon, both = sorted(rest, key=lambda van: -sum(it.minute > NOON for it in stops_on(at, van)))
    STORY.vans = {"week": week, "noon": noon, "both": both}
    vans = sorted({row["vehicle"] for row in STORY.before.values() if row["day"] == DAY})
    STORY.drivers = Drivers(at.town, {van: acts_of(van, stops_on(at, van)) for van in vans})
    # (two vans have phones of their own; they break down nowhere)
    others = [van for van in vans if van not in STORY.vans.values()]
    STORY.vans["phone"] = next(
        van for van in others if any(NINE < it.minute < NOON - 60 for it in stops_on(at, van))
    )
    STORY.vans["disputed"] = next(
        van
        for van in sorted(others, key=lambda it: bool(it % 4 != 3))
        if van != STORY.vans["phone"] and pickups_after(at, van, 840)
    )
    STORY.vans["silent"] = [
        van
        for van in [*others, both, week]
        if van not in (STORY.vans["phone"], STORY.vans["disputed"])
        and any(NINE <= it.minute < NOON for it in STORY.drivers.acts[van])
    ][:3]
    same("vans without a line", 3, len(STORY.vans["silent"]))


@check
def the_board_is_drawn_and_of_the_whole_day_its_work_is_measured(at: Place) -> None:
    at_minute(at, 330)
    today_file(at)
    at.browser.sign_in(at.keys["dispatcher"], "dispatcher", "day")
    at.browser.sees(f"{size().trips} trips ·")
    if not is_whole():
        return
    with at.browser.screen(1366, 768):
        at.browser.devtools("Performance.enable", timeDomain="threadTicks")
        at.browser.reload()
        drawn = until(
            "the board is not drawn",
            lambda: at.browser.script(
                "const it = document.querySelector('.lane-row'); return it && (window.drawnAt ??= performance.now())"
            ),
        )
        at.browser.settled(400)
        STORY.figures["Day drawn, wall ms at most"] = round(drawn)
        STORY.figures["Day drawn, thread ms"] = round(thread_milliseconds(at))
        STORY.figures["Day search, thread ms a letter"] = letters(at, "day-search")
        STORY.figures["Day redraw, thread ms, where nothing has changed"] = redraw(at)
        STORY.figures["Day redraw, thread ms, where a trip has ended in each"] = redraw(
            at, ENDS_TRIPS
        )
        at.browser.press("Trips", "link")
        until(
            "no trips",
            lambda: at.browser.script(
                "return document.querySelector('.day-trips tbody tr') !== null"
            ),
        )
        at.browser.settled(400)
        STORY.figures["Trips search, thread ms a letter"] = letters(at, "trip-search")
        at.browser.devtools("Performance.disable")
        print_figures()


def print_figures() -> None:
    for figure, value in STORY.figures.items():
        print(f"{figure}: {value}", flush=True)


def letters(at: Place, field: str) -> list[Any]:
    at.browser.script("document.getElementById(arguments[0]).focus()", field)
    spent = []
    for letter in TYPED:
        before = thread_milliseconds(at)
        at.browser.keys(letter)
        at.browser.settled(100)
        spent.append(round(thread_milliseconds(at) - before))
    return spent


# From now on each reading of the day has one more trip that has ended.
ENDS_TRIPS = """
const real = window.fetch;
let ended = 0;
window.fetch = async (path, options) => {
    const reply = await real(path, options);
    if (!String(path).endsWith("/trips.csv")) return reply;
    let at = 0;
    ended += 1;
    const text = (await reply.text()).replace(/,booked$/gm, (status) => ((at += 1) % 40 === 0 && at <= 40 * ended ? ",ridden" : status));
    return new Response(text, { headers: reply.headers });
};
"""


def redraw(at: Place, script: str = "") -> list[Any]:
    """What one renewal takes, as where the window is looked at again. A script says how the replies differ."""
    count, spent = (
        "return performance.getEntriesByType('resource').filter((it) => it.name.endsWith('/sheet')).length",
        [],
    )
    at.browser.reload()
    at.browser.sees(f"{size().trips} trips ·")
    at.browser.script(script)
    at.browser.settled(1500)
    for _ in range(4):
        first, before = at.browser.script(count), thread_milliseconds(at)
        at.browser.script("window.dispatchEvent(new Event('focus'))")
        until("nothing is renewed", lambda first=first: at.browser.script(count) > first)
        at.browser.settled(400)
        spent.append(round((thread_milliseconds(at) - before) / (at.browser.script(count) - first)))
    at.browser.reload()
    return spent


@check
def at_nine_the_board_says_who_is_late(at: Place) -> None:
    at_minute(at, NINE)
    STORY.drivers.drive(NINE)
    same("outcomes that the desk denied", [], STORY.drivers.denied)
    told = today_file(at)
    same(
        "taps of the file",
        sum(it < NINE for it in STORY.drivers.told.values()),
        sum(len(van["taps"]) for van in told["vehicles"].values()),
    )
    at.browser.sign_in(at.keys["dispatcher"], "dispatcher", "day")
    late = [
        van
        for van in STORY.drivers.acts
        if DELAYS[van % len(DELAYS)] > 5
        and any(it.minute < NINE for it in STORY.drivers.acts[van])
        and any(it.minute >= NINE for it in STORY.drivers.acts[van])
    ]
    holds("no van is late", late)
    at.browser.sees("Late, min")
    until(
        f"vans that are late: {late}",
        lambda: {van_name(van) for van in late[:3]} <= vans_of_group(at, "late"),
    )


# 9:00 to noon: four vans without a line, one of them with a phone that is looked at.


def sign_in_phone(place: Any, van: Any) -> None:
    place.browser.sign_in(place.keys[f"driver {van}"], "driver")
    phone.show_manifest(place, van)
    place.browser.sees("All stops")


def go_on_from(place: Any, stop: Any) -> None:
    """Opens a stop of the phone's list, and has the phone go on from there."""
    name = f"stop-{stop.kind}-{stop.trip}"
    until(
        f"there is no {name}",
        lambda: place.browser.script("return Boolean(document.getElementById(arguments[0]))", name),
    )
    place.browser.script("document.getElementById(arguments[0]).click()", name)
    if place.browser.all("button", "This is my next stop"):
        place.browser.press("This is my next stop")
        place.browser.press("Yes: go on from here")
    until(
        f"{name} is not next",
        lambda: place.browser.script("return document.querySelector('.driver-row.next')?.id")
        == name,
    )


@check
def four_vans_without_a_line_for_three_hours_lose_nothing(at: Place) -> None:
    place, van = second_dispatcher(at), STORY.vans["phone"]
    browser = place.browser
    with browser.clock(hurry=20):
        sign_in_phone(place, van)
        # (the first pickup after nine, and its drop)
        pick = next(
            it
            for it in stops_on(at, van)
            if it.kind == "PICK" and it.minute > NINE and it in pickups_after(at, van, NINE)
        )
        go_on_from(place, pick)
        browser.line(offline=True)
        browser.passes(60 * (pick.minute - NINE))
        browser.press("Aboard")
        go_on_from(
            place,
            next(it for it in stops_on(at, van) if it.kind == "DROP" and it.trip == pick.trip),
        )
        browser.press("Dropped off")
        browser.press("Yes: dropped off")
        browser.sees("to be sent")
        silent = [van, *STORY.vans["silent"]]
        at_minute(at, NOON)
        STORY.drivers.acts[van] = [it for it in STORY.drivers.acts[van] if it.trip != pick.trip]
        STORY.drivers.drive(NOON, but=silent)
        told = today_file(at)
        same(
            "taps of vans without a line",
            0,
            sum(
                tap["minute"] >= NINE
                for it in silent
                for tap in told["vehicles"].get(str(it), {"taps": []})["taps"]
            ),
        )
        at.browser.sign_in(at.keys["dispatcher"], "dispatcher", "day")
        overdue = [
            it for it in silent if any(NINE < stop.minute < NOON - 40 for stop in stops_on(at, it))
        ]
        at.browser.sees("No update")
        until(
            f"vans without an update: {overdue}",
            lambda: {van_name(it) for it in overdue} <= silent_now(at),
        )
        same("the trip of the phone", "booked", trip_now(at, pick)["status"])
        browser.line()
        browser.script("window.dispatchEvent(new Event('online'))")
        until("the phone's outcome is not there", lambda: trip_now(at, pick)["status"] == "ridden")
        until(
            "the phone's taps are not there",
            lambda: sum(
                it["trip"] == str(pick.trip) and it["event"] in ("aboard", "dropped")
                for it in phone.events(at, "stops")
            )
            == 2,
        )
    STORY.drivers.told[pick.trip, "aboard"] = STORY.drivers.told[pick.trip, "dropped"] = None
    STORY.drivers.outcomes[pick.trip] = "ridden"
    STORY.drivers.drive(NOON)
    same("outcomes that the desk denied", [], STORY.drivers.denied)
    told = today_file(at)
    taps = {
        (tap["trip"], tap["kind"]): tap["minute"]
        for it in told["vehicles"].values()
        for tap in it["taps"]
    }
    for (trip, event), minute in STORY.drivers.told.items():
        if minute is not None and event in ("arrived", "aboard", "dropped"):
            same(f"{event} of trip {trip}", minute, taps.get((trip, event)))
    same("the phone's moment of aboard", pick.minute, taps[pick.trip, "aboard"])
    at.browser.sign_in(at.keys["dispatcher"], "dispatcher", "day")
    at.browser.sees(f"{size().trips} trips ·")
    until(
        "they are still without update",
        lambda: not silent_now(at) & {van_name(it) for it in silent},
    )


def vans_of_group(at: Place, name: str) -> set[Any]:
    """The vans of a group of what needs attention, also those that are folded away."""
    return set(
        at.browser.script(
            "return [...document.querySelectorAll(`.need.${arguments[0]} button`)].map((it) => it.getAttribute('aria-label').split(':')[0])",
            name,
        )
    )


def silent_now(at: Place) -> Any:
    return vans_of_group(at, "silent")


def trip_now(at: Place, stop: Any) -> Any:
    return next(it for it in at.town.trips_of(stop.rider) if it["trip"] == stop.trip)


# Noon: a van breaks down.


@check
def at_noon_a_van_breaks_down_and_its_riders_are_on_a_list(at: Place) -> None:
    van = STORY.vans["noon"]
    at.browser.sign_in(at.keys["dispatcher"], "dispatcher", "out")
    at.browser.script(SAVED)
    show_out(at, van, DAY, AFTER_TOMORROW)
    paper = at.browser.print_by("Print the call list")
    at.browser.script("window.dispatchEvent(new Event('afterprint'))")
    at.browser.press(
        "Save the call list as CSV",
        within=at.browser.script(
            "return document.querySelector('section[aria-labelledby=out-today]')"
        ),
    )
    [rows] = saved_files(at, 1)
    drops = {it.trip: it.minute for it in stops_on(at, van) if it.kind == "DROP"}
    left = [
        row
        for row in rows_of(at, DAY)
        if row["vehicle"] == van and row["status"] == "booked" and drops[row["trip"]] >= NOON
    ]
    holds("nobody is left", left)
    same(
        "whom to call, by pickup",
        [str(it["trip"]) for it in sorted(left, key=lambda it: (it["window_from"], it["trip"]))],
        [it["Trip"] for it in rows],
    )
    holds(
        "names and telephones are on paper",
        all(telephone_of(it["rider"]) in paper.text for it in left),
    )
    same(
        "names of the file",
        [(name_of(int(it["Rider"])), telephone_of(int(it["Rider"]))) for it in rows],
        [(it["Name"], it["Telephone"]) for it in rows],
    )
    # (the first one is called; a colleague at another machine sees it)
    called = rows[0]["Trip"]
    at.browser.fill(re.compile(f"^Call to .* trip {called}$"), "Called")
    until(
        "the tick is not told",
        lambda: any(it["trip"] == called for it in phone.events(at, "calls")),
    )
    move(at, van, TOMORROW)
    # (who is aboard no van any more is told so by dispatch, for today)
    STORY.drivers.acts[van] = [it for it in STORY.drivers.acts[van] if it.minute < NOON]
    for row in left:
        reply = at.town.post(
            "dispatcher", f"/trips/{row['trip']}/outcome", {"outcome": "missed-operator"}
        )
        holds(f"an outcome is {reply}", "denied" not in reply)
        STORY.drivers.outcomes[row["trip"]] = "missed-operator"


def later_trips(at: Place, van: Any, day: str) -> list[Any]:
    return [
        row
        for it in ALL_DAYS
        if it >= day
        for row in rows_of(at, it)
        if row["vehicle"] == van and row["status"] == "booked"
    ]


def move(at: Place, van: Any, day: str) -> None:
    """Carries a move out to its end, over the list that is shown."""
    fill_settings(at, van)
    count = len(later_trips(at, van, day))
    press_move(at, count)
    say_yes(at, count)
    ended(at, van, count)


@check
def a_tick_of_another_machine_is_seen_here(at: Place) -> None:
    today_file(at)
    place = second_dispatcher(at)
    place.browser.sign_in(at.keys["second dispatcher"], "dispatcher", "out")
    show_out(place, STORY.vans["noon"], DAY)
    # (its trips of today have their outcomes by now, so it is asked at a list that is the same: that of a van which runs)
    other = next(
        van
        for van in STORY.drivers.acts
        if van not in STORY.vans.values() and any(it.minute > NOON + 60 for it in stops_on(at, van))
    )
    at.browser.sign_in(at.keys["dispatcher"], "dispatcher", "out")
    show_out(at, other, DAY)
    trip = min(
        it["trip"]
        for it in rows_of(at, DAY)
        if it["vehicle"] == other and it["status"] == "booked" and it["window_from"] > NOON + 60
    )
    at.browser.fill(re.compile(f"^Call to .* trip {trip}$"), "Not reached")
    until(
        "the tick is not told",
        lambda: any(it["trip"] == str(trip) for it in phone.events(at, "calls")),
    )
    at_minute(at, NOON + 1)
    told = today_file(at)
    same("the tick in the file", "not-reached", told["calls"][f"today-{other}-{DAY}"][str(trip)])
    show_out(place, other, DAY)
    name = re.compile(f"^Call to .* trip {trip}$")
    until(
        "the tick of the other machine is not seen",
        lambda: place.browser.find("field", name).get_attribute("value") == "not-reached",
    )
    place.browser.sees("by another computer")
    STORY.called = (f"today-{other}-{DAY}", trip)
    # (what is ticked here afterwards counts there)
    at_minute(at, NOON + 2)
    place.browser.fill(name, "Called")
    until(
        "the second tick is not told",
        lambda: sum(it["trip"] == str(trip) for it in phone.events(at, "calls")) == 2,
    )
    today_file(at)
    at.browser.script("window.dispatchEvent(new Event('focus'))")
    until(
        "the later tick is not seen",
        lambda: at.browser.find("field", name).get_attribute("value") == "called",
    )


# One o'clock: a van for a week, and the dispatcher's key is replaced in the middle.


def canceled_at(at: Place, trip: int) -> Any:
    """When a trip was canceled, as the site has been told, or None."""
    with open(f"{at.town.folder}/tally.log", encoding="utf-8") as log:
        parts = [
            urllib.parse.parse_qs(line.split("\t")[2])
            for line in log
            if "\t/tally/cancellations\t" in line
        ]
    return next((it["at"][0] for it in parts if it["trip"] == [str(trip)]), None)


def replace_key(at: Place) -> None:
    digest = hashlib.sha256(NEW_KEY.encode()).hexdigest()
    at.town.number += 1_000_000
    reply = at.town.desk.ask(
        "POST",
        "/callers",
        at.keys["admin"],
        at.town.number,
        {"id": 3, "role": "dispatcher", "subject": 0, "digest": digest},
    )
    if "denied" in reply:
        raise Trouble(f"the key is not replaced: {reply}")
    at.keys["dispatcher"] = NEW_KEY


@check
def a_van_goes_for_a_week_and_a_new_key_goes_on_where_the_old_one_ended(at: Place) -> None:
    at_minute(at, 780)
    STORY.drivers.drive(780)
    van = STORY.vans["week"]
    rows = later_trips(at, van, TOMORROW)
    at.browser.sign_in(at.keys["dispatcher"], "dispatcher", "out")
    show_out(at, van, TOMORROW, BACK)
    fill_settings(at, van)
    # (before the yes, a rider of the list is moved to another day by a clerk, and told so)
    changed = rows[-1]
    reply = at.town.post(
        "third clerk",
        f"/trips/{changed['trip']}/change",
        {
            "day": "2025-03-20",
            "wish": 700,
            "from": changed["from"],
            "to": changed["to"],
            "attendant": False,
            "companions": 0,
        },
    )
    holds(f"the change is {reply}", "trip" in reply)
    STORY.before[changed["trip"]] = {**changed, "day": "2025-03-20", "changed": True}
    at.town.middle.writes()
    # (of the noon's move some may be left that no van took)
    left = [int(it[4]) for it in today_lists(at)["canceled"]]
    press_move(at, len(rows))
    at.browser.script(SAVED)
    say_yes(at, len(rows))
    half = max(2, min(14, len(rows) // 2))
    until(
        lambda: f"{half} of {len(rows)} are not cancelled: {shown_of(at)}",
        lambda: sum(it.endswith("/cancel") for it in at.town.middle.seen) >= half,
    )
    replace_key(at)
    until(
        "the page does not say that its key is gone",
        lambda: re.search("Not finished|Sign in", at.browser.text()),
    )
    gone = [row for row in rows if trip_status(at, row) == "cancelled"]
    holds(f"{len(gone)} of {len(rows)} are cancelled", gone)
    # (one of them rings, and a clerk books her again)
    anew = next(
        row
        for row in gone
        if canceled_at(at, row["trip"])
        and not any(
            it["rider"] == row["rider"] and it["day"] == row["day"] and it["trip"] != row["trip"]
            for it in rows
        )
    )
    STORY.anew.append(
        at.town.book(
            anew["rider"],
            anew.get("day") or day_of(anew),
            anew["window_from"] + 30,
            anew["from"],
            anew["to"],
        )
    )
    Teller(at.town).tells_as(
        "third clerk",
        "bookings",
        {
            "id": key_for("booked anew"),
            "day": anew.get("day") or day_of(anew),
            "trip": STORY.anew[-1],
            "mode": "around",
            "minute": anew["window_from"],
            "from": anew["window_from"],
            "to": anew["window_to"],
            "channel": "page",
            "at": canceled_at(at, anew["trip"]),
        },
    )
    worklist = today_lists(at)["canceled"]
    same(
        "cancelled and not booked again, by What waits",
        sorted([*left, *(row["trip"] for row in gone if row["trip"] != anew["trip"])]),
        sorted(int(it[4]) for it in worklist),
    )
    at.browser.sign_in(NEW_KEY, "dispatcher", "out")
    at.browser.sees("Not finished")
    finish(at, van, len(rows))
    # (a trip that the clerk booked in the same van was moved with the others, and is the rider's row)
    if (
        next(it for it in at.town.trips_of(anew["rider"]) if it["trip"] == STORY.anew[-1])[
            "vehicle"
        ]
        != van
    ):
        at.browser.sees("booked anew by somebody else")
    same(
        "trips that are left in it",
        [],
        [row["trip"] for row in later_trips(at, van, TOMORROW) if row["day"] < BACK],
    )
    keep_report(at, "week")


def day_of(row: Any) -> Any:
    return STORY.before[row["trip"]]["day"]


def trip_status(at: Place, row: Any) -> Any:
    return next(it["status"] for it in at.town.trips_of(row["rider"]) if it["trip"] == row["trip"])


def keep_report(place: Place, name: str) -> None:
    """Saves the list of what became of each trip, as it is shown, and keeps its rows."""
    place.browser.script(SAVED)
    place.browser.press(
        "Save the call list as CSV",
        within=place.browser.script(
            "return document.querySelector('section[aria-labelledby=out-report]')"
        ),
    )
    STORY.moves[name] = saved_files(place, 1)[0], trips_by_rider(place)


# Three o'clock: two dispatchers take one van off duty at once.


@check
def two_dispatchers_at_once_each_have_a_true_list(at: Place) -> None:
    at_minute(at, 900)
    STORY.drivers.drive(900)
    van, place = STORY.vans["both"], second_dispatcher(at)
    rows = later_trips(at, van, TOMORROW)
    for one, holder in ((at, "dispatcher"), (place, "second dispatcher")):
        one.browser.sign_in(at.keys[holder], "dispatcher", "out")
        show_out(one, van, TOMORROW, BACK)
        fill_settings(one, van)
        press_move(one, len(rows))
    say_yes(at, len(rows))
    say_yes(place, len(rows))
    for one, name in ((at, "both"), (place, "both again")):
        finish(one, van, len(rows))
    for one, name in ((at, "both"), (place, "both again")):
        one.browser.press("Check again")
        one.browser.settled(800)
        keep_report(one, name)
    same(
        "trips that are left in it",
        [],
        [row["trip"] for row in later_trips(at, van, TOMORROW) if row["day"] < BACK],
    )


# Four o'clock: two phones disagree about a rider; a no-show after a late van.


@check
def two_phones_disagree_and_dispatch_settles_it_on_the_board(at: Place) -> None:
    at_minute(at, 905)
    place, van = second_dispatcher(at), STORY.vans["disputed"]
    pick = pickups_after(at, van, 905)[0]
    STORY.drivers.acts[van] = [it for it in STORY.drivers.acts[van] if it.trip != pick.trip]
    STORY.drivers.drive(pick.minute)
    with place.browser.clock(hurry=20):
        at_minute(at, pick.minute)
        sign_in_phone(place, van)
        go_on_from(place, pick)
        place.browser.press("Aboard")
        # (the other phone of the van tells a no-show, though the van came within the window)
        reply = at.town.post(
            f"driver {van}", f"/trips/{pick.trip}/outcome", {"outcome": "missed-rider"}
        )
        holds(f"the other phone's outcome is {reply}", "denied" not in reply)
        tell_no_show(at, van, pick)
        go_on_from(
            place,
            next(it for it in stops_on(at, van) if it.kind == "DROP" and it.trip == pick.trip),
        )
        place.browser.press("Dropped off")
        place.browser.press("Yes: dropped off")
        # (a phone that reads the record before has no *Dropped off* any more)
        at.town.write_drivers_files()
        place.browser.sees(
            "The desk did not take “dropped off”.",
            "On record: no-show.",
            "If “dropped off” is right, call dispatch now.",
        )
        at_minute(at, pick.minute + 2)
        place.browser.script("window.dispatchEvent(new Event('online'))")
        until(
            "dispatch does not hear of it",
            lambda: any(it["trip"] == str(pick.trip) for it in phone.events(at, "disagreements")),
        )
    STORY.disputed, STORY.drivers.outcomes[pick.trip] = pick, "missed-rider"
    told = today_file(at)
    same(
        "what waits for dispatch",
        [pick.trip],
        [it["trip"] for it in told["unreviewed"]["disagreements"]],
    )
    at.browser.sign_in(at.keys["dispatcher"], "dispatcher", "day")
    at.browser.sees("Entries that disagree", "No-shows to confirm")
    group = at.browser.script("return document.querySelector('.need.disagree')")
    at.browser.press(re.compile("two entries disagree"), within=group)
    at.browser.sees(f"Trip {pick.trip} of {name_of(pick.rider)}", "Another entry in", "On record: ")
    at.browser.press("The rider rode")
    at.browser.fill_all(
        {"Your name": "Dana O'Neill", "Why it is corrected": "the phone of the van, and the rider"}
    )
    line = at.browser.value("Line for corrections.csv")
    same(
        "the line", f'{pick.trip},ridden,Dana O\'Neill,"the phone of the van, and the rider"', line
    )
    STORY.correction = line
    at.browser.press("It is on record")
    until(
        "it stays on the list",
        lambda: not at.browser.script("return document.querySelector('.need.disagree')"),
    )
    until(
        "the review is not told",
        lambda: any(it["trip"] == str(pick.trip) for it in phone.events(at, "reviews")),
    )
    told = today_file(at)
    same("what still waits", [], [it["trip"] for it in told["unreviewed"]["disagreements"]])
    holds(
        "its no-show still waits",
        pick.trip not in [it["trip"] for it in told["unreviewed"]["no_shows"]],
    )
    no_show = told["unreviewed"]["no_shows"][0]
    press_no_show(at, no_show)
    at.browser.sees("Van arrived", "Waited", clock(no_show["from"]).rpartition(" ")[0])
    at.browser.press("No-show is right")
    until(
        "the review is not told",
        lambda: any(it["trip"] == str(no_show["trip"]) for it in phone.events(at, "reviews")),
    )
    STORY.no_show = no_show["trip"]


def press_no_show(at: Place, _row: Any) -> None:
    """Opens the first no-show of the list."""
    at.browser.press(
        re.compile("a no-show to confirm"),
        within=at.browser.script("return document.querySelector('.need.no-show')"),
    )


def tell_no_show(at: Place, van: Any, pick: Any) -> None:
    """What the other phone tells the site of its no-show."""
    for kind, fields in [
        ("stops", {"vehicle": van, "trip": pick.trip, "event": "no-show-rider"}),
        (
            "no-shows",
            {
                "vehicle": van,
                "day": DAY,
                "trip": pick.trip,
                "from": pick.window[0],
                "to": pick.window[1],
                "arrived": pick.minute,
                "wait": 5,
            },
        ),
    ]:
        Teller(at.town).tells(
            van, kind, {"id": key_for(f"other phone {kind}"), **fields, "at": moment(pick.minute)}
        )


# The evening: vans are closed out, and some trips stay without an outcome.


@check
def in_the_evening_the_vans_are_closed_out(at: Place) -> None:
    at_minute(at, END)
    # (two vans tell nothing more: one is closed out by dispatch, the other is not)
    left = {
        van: [it for it in rows_of(at, DAY) if it["vehicle"] == van and it["status"] == "booked"]
        for van in STORY.drivers.acts
    }
    closed, forgotten = [van for van in sorted(left, key=lambda it: -len(left[it])) if left[van]][
        :2
    ]
    STORY.drivers.drive(END, but=[closed, forgotten])
    same("outcomes that the desk denied", [], STORY.drivers.denied)
    STORY.unclosed = [it["trip"] for it in left[forgotten]]
    at.browser.sign_in(at.keys["dispatcher"], "dispatcher", "trips")
    until(
        "no van can be closed out",
        lambda: at.browser.script(
            "const it = document.querySelector('.closing'); if (it) it.open = true; return Boolean(it)"
        ),
    )
    count = len(left[closed])
    at.browser.press(f"Mark the remaining {trips_words(count)} of {van_name(closed)} completed")
    began = time.monotonic()
    at.browser.press(f"Yes: {trips_words(count)} completed")
    until(
        "they are not done",
        lambda: f"{van_name(closed)}: {trips_words(count)} completed." in at.browser.text(),
    )
    STORY.figures[f"closing out {trips_words(count)}, seconds"] = round(time.monotonic() - began, 1)
    for row in left[closed]:
        STORY.drivers.outcomes[row["trip"]] = "ridden"


# The night: what holds of each rider, and of each list.


def today_lists(at: Place, day: str = DAY) -> dict[Any, list[list[str]]]:
    """The lists of bin/worklist over a copy of the desk as it is now, as rows by the lists' names."""
    words = [
        f"{ROOT}/bin/worklist",
        at.town.copied(),
        "--html",
        f"{at.town.folder}/waits.html",
        "--tally",
        f"{at.town.folder}/tally.log",
        "--today",
        day,
        "--program",
        at.town.desk.program,
        "--agency",
        f"{at.town.folder}/source-agency.json",
        "--roster",
        f"{at.town.folder}/source-roster.csv",
    ]
    if os.path.exists(f"{at.town.folder}/corrections.csv"):
        words += ["--corrections", f"{at.town.folder}/corrections.csv"]
    ran = subprocess.run(words, capture_output=True, text=True)
    same("what bin/worklist says is wrong", (0, ""), (ran.returncode, ran.stderr))
    with open(f"{at.town.folder}/waits.html", encoding="utf-8") as text:
        page = text.read()
    found = {}
    for name, section in re.findall(r'<section id="?([a-z0-9-]+)"?.*?>(.*?)</section>', page, re.S):
        rows = [
            re.findall(r"<t[dh][^>]*>(.*?)</t[dh]>", row, re.S)
            for row in re.findall(r"<tr>(.*?)</tr>", section.partition("<tbody>")[2], re.S)
        ]
        found[name] = [
            [html.unescape(re.sub("<[^>]+>", "", cell)) for cell in row] for row in rows if row
        ]
    return found


def trips_by_rider(at: Place) -> dict[Any, Any]:
    """Each rider's own list, as the desk gives it."""
    riders = sorted({row["rider"] for row in STORY.before.values()})
    return {
        rider: at.town.desk.ask("GET", f"/riders/{rider}/trips", at.keys["clerk"])["trips"]
        for rider in riders
    }


def replaced(old: Any, trips: Any, taken: set[Any]) -> Any:
    """The trip that stands for one that was cancelled."""
    return next(
        (
            it
            for it in trips
            if it["trip"] > LAST_BEFORE()
            and it["day"] == old["day"]
            and it["status"] != "cancelled"
            and it["trip"] not in taken
            and {it["from"], it["to"]} == {old["from"], old["to"]}
            and it["from"] == old["from"]
        ),
        None,
    )


def LAST_BEFORE() -> Any:
    """The last trip that was there when the day began; a clerk's own change is later."""
    return max(number for number, row in STORY.before.items() if not row.get("changed"))


@check
def each_rider_who_had_a_trip_has_it_or_stands_on_a_list(at: Place) -> None:
    now, lists = trips_by_rider(at), today_lists(at)
    unplaced: list[int] = []
    taken: set[int] = set()
    for number, old in STORY.before.items():
        trips = now[old["rider"]]
        it = next(one for one in trips if one["trip"] == number)
        if old["day"] == DAY:
            same(
                f"how trip {number} ended",
                STORY.drivers.outcomes.get(number, "booked"),
                it["status"],
            )
            holds(
                f"trip {number} has no outcome and is not known to have none",
                it["status"] != "booked" or number in STORY.unclosed,
            )
        elif it["status"] == "booked":
            same(f"the day of trip {number}", old["day"], it["day"])
            out = STORY.vans["noon"] if TOMORROW <= it["day"] < AFTER_TOMORROW else None
            gone = [STORY.vans["week"], STORY.vans["both"], out] if it["day"] < BACK else []
            holds(
                f"trip {number} is in a van that is out",
                it["vehicle"] not in gone or old.get("changed"),
            )
        else:
            same(f"trip {number}", "cancelled", it["status"])
            new = replaced(old, trips, taken)
            taken |= {new["trip"]} if new else set()
            unplaced += [] if new else [number]
    for rider, trips in now.items():
        for day in ALL_DAYS:
            before = sum(it["rider"] == rider and it["day"] == day for it in STORY.before.values())
            holds(
                f"rider {rider} has more trips on {day} than before",
                sum(it["day"] == day and it["status"] != "cancelled" for it in trips) <= before,
            )
    same(
        "cancelled and not booked again, by What waits",
        sorted(unplaced),
        sorted(int(it[4]) for it in lists["canceled"]),
    )
    STORY.figures["trips that were moved"] = len(taken)
    STORY.figures["trips that could not be placed"] = len(unplaced)


@check
def each_list_of_a_move_says_what_the_desk_has(_at: Place) -> None:
    for name, (rows, now) in STORY.moves.items():
        holds(f"the list {name} has no rows", rows)
        for row in rows:
            said, number, rider = row["What to say"], int(row["Trip"]), int(row["Rider"])
            old = next(it for it in now[rider] if it["trip"] == number)
            new = [
                it
                for it in now[rider]
                if it["trip"] > LAST_BEFORE()
                and it["day"] == row["Day"]
                and it["status"] == "booked"
            ]
            words = [
                f"{van_name(it['vehicle'])}" in said and clock(it["window_to"]) in said
                for it in new
            ]
            if old["status"] == "booked":
                holds(
                    f"list {name}, trip {number} is booked: {said}",
                    "Passed over" in said or "Still booked" in said,
                )
            elif new:
                holds(f"list {name}, trip {number} was replaced by {new}: {said}", any(words))
            else:
                holds(
                    f"list {name}, trip {number} has none in its place: {said}",
                    re.search("not placed|No other trip|not booked again", said),
                )


@check
def the_printed_lists_and_the_reports_count_what_the_desk_has(at: Place) -> None:
    with open(f"{at.town.folder}/corrections.csv", "w", encoding="utf-8") as text:
        text.write(f"trip,outcome,who,why\n{STORY.correction}\n")
    before = today_lists(at)
    same("corrections that nobody wrote down", [], before["corrections"])
    no_shows = {trip for trip, how in STORY.drivers.outcomes.items() if how == "missed-rider"} - {
        STORY.no_show,
        STORY.disputed.trip,
    }
    same("no-shows to confirm", sorted(no_shows), sorted(int(it[3]) for it in before["no-shows"]))
    same("disagreements", [], before["disagreements"])
    lists = today_lists(at, TOMORROW)
    numbers = [int(it) for row in lists["outcomes"] for it in row[3].split(", ")]
    same("trips without an outcome, by What waits", sorted(STORY.unclosed), sorted(numbers))
    counts = (
        Counter(STORY.drivers.outcomes.values())
        + Counter({"ridden": 1})
        - Counter({"missed-rider": 1})
    )
    words = [
        f"{ROOT}/bin/reports",
        "months",
        at.town.copied(),
        "--from",
        DAY,
        "--to",
        DAY,
        "--tally",
        f"{at.town.folder}/tally.log",
        "--corrections",
        f"{at.town.folder}/corrections.csv",
        "--program",
        at.town.desk.program,
    ]
    ran = subprocess.run(words, capture_output=True, text=True)
    holds(
        f"bin/reports: {ran.stderr}",
        ran.returncode == 0 and "1 outcome is counted as corrected" in ran.stderr,
    )
    row = next(csv.DictReader(io.StringIO(ran.stdout)))
    same(
        "the day's report",
        [size().trips, counts["ridden"], counts["missed-rider"], counts["missed-operator"]],
        [int(row[it]) for it in ("booked", "ridden", "missed_by_rider", "missed_by_operator")],
    )


@check
def the_file_of_the_day_has_each_tap_once_at_its_moment(at: Place) -> None:
    told = today_file(at)
    taps = Counter(
        (tap["trip"], tap["kind"]) for it in told["vehicles"].values() for tap in it["taps"]
    )
    kinds = {"no-show-rider": "no-show", "no-show-agency": "missed"}
    wanted = {(trip, kinds.get(event, event)) for trip, event in STORY.drivers.told}
    same("taps that are lost", set(), wanted - set(taps))
    same(
        "taps that count twice",
        [],
        [it for it, count in taps.items() if count > 1 and it[0] not in (STORY.disputed.trip,)],
    )
    list_name, trip = STORY.called
    same("the last tick", "called", told["calls"][list_name][str(trip)])
    print_figures()
    second_dispatcher(at).browser.__exit__()
