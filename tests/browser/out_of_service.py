"""A vehicle out of service: its plan, whom to call, what becomes of each trip, and the vehicles' own records."""
import csv
import hashlib
import io
import re
from typing import Any

from browser import pause
from checks import Place, check, holds, same
from database import until
from middle import UNHEARD
from people import callers_of, key_for
from scripts import SAVED

VANS = 6
DAY, LATER, BACK, AFTER = "2025-03-11", "2025-03-12", "2025-03-14", "2025-03-17"
VAN_1 = "Van 1, blue"
SECOND = "second dispatcher"
NEW_LINES = {
    "Seats": 4,
    "Wheelchair places": 2,
    "Leaves its depot from": "5 am",
    "Is back by": "11 pm",
    "Minutes that it may be out": 1080,
    "Depot": "5",
}
# The plan that this browser keeps: its first item is made one that is under way, as it is where a tab is closed in the
# middle of a booking.
BROKEN_OFF = """
const done = arguments[arguments.length - 1], opened = indexedDB.open("desk-out", 1);
opened.onsuccess = () => {
    const store = opened.result.transaction("plans", "readwrite").objectStore("plans"), asked = store.openCursor();
    asked.onsuccess = () => {
        const plan = asked.result.value;
        plan.done = false;
        Object.assign(plan.items[0], { step: arguments[0], ticket: null });
        asked.result.update(plan).onsuccess = () => { opened.result.close(); done(plan.items[0]); };
    };
};
"""
# What the rider of a trip said, as the browser keeps it.
KEEP_SAID = """
const [name, trip, named] = arguments;
localStorage.setItem(name, JSON.stringify({ ...JSON.parse(localStorage.getItem(name) ?? "{}"), [trip]: named }));
"""


def rows_of(at: Place, day: str) -> list[Any]:
    return list(csv.DictReader(io.StringIO(at.town.get("dispatcher", f"/days/{day}/trips.csv"))))


def booked_on(at: Place, day: str, vehicle: int | None = None) -> list[Any]:
    return [
        row
        for row in rows_of(at, day)
        if row["status"] == "booked" and vehicle in (None, row["vehicle"])
    ]


def sign_in(at: Place, hour: str = "10:30", part: str = "out", holder: str = "dispatcher") -> None:
    at.town.set_clock(DAY, hour)
    at.browser.sign_in(at.keys[holder], "dispatcher", part)


def many(count: int) -> str:
    return f"{count} trips" if count != 1 else "1 trip"


def fill_van(at: Place) -> Any:
    """Trips of the next day; the van that has most of them, and its trips."""
    for rider, wish in [(1005, 540), (1006, 600), (1007, 660), (1001, 720), (1002, 780)]:
        if not any(
            it["status"] == "booked" and it["day"] == LATER for it in at.town.trips_of(rider)
        ):
            at.town.book(rider, LATER, wish, 5, 6)
    vans = [row["vehicle"] for row in booked_on(at, LATER)]
    van = max(set(vans), key=vans.count)
    return van, booked_on(at, LATER, van)


def put_on_duty(at: Place, van: int) -> Any:
    fields = {
        "id": int(van),
        "from_day": LATER,
        "days": [1, 2, 3, 4, 5, 6, 7],
        "depot": 5,
        "capacity": 6,
        "chairs": 2,
        "opens": 300,
        "closes": 1380,
        "duration": 1080,
    }
    return at.town.post("dispatcher", "/vehicles", fields)


def show_out(at: Place, vehicle: str | int, day: str, back: str | None = None) -> None:
    at.browser.fill("Vehicle", vehicle)
    at.browser.fill("Out of service from", day)
    if back:
        at.browser.fill("Back in service on (optional)", back)
    at.browser.press("Show its trips")


def begin(at: Place, how: str, _count: int) -> None:
    at.browser.press(f"Take it out of service and {how}")
    at.browser.press(f"Yes, {how}")


def ended(at: Place) -> None:
    """Waits until a plan is at its end, or has to stop."""
    until(
        "it does not end",
        lambda: re.search("is out of service from Wed|Not finished", at.browser.text()),
    )


def finish(at: Place) -> None:
    """Presses Go on until a plan is at its end. (Right after a press the page still says why it stood still.)"""

    def done() -> bool:
        if "is out of service from Wed" in at.browser.text():
            return True
        if at.browser.is_there("button", "Go on"):
            at.browser.press("Go on")
            at.browser.settled(300)
        return False

    until("it does not end", done)


def trip_now(at: Place, rider: int, number: int) -> Any:
    return next(it for it in at.town.trips_of(rider) if it["trip"] == number)


def booked_of(at: Place, rider: int) -> list[Any]:
    return [
        it for it in at.town.trips_of(int(rider)) if it["status"] == "booked" and it["day"] == LATER
    ]


def discard(at: Place) -> None:
    at.browser.press("Discard this list")
    if at.browser.is_there("button", "Yes, discard it"):
        at.browser.press("Yes, discard it")
    until("the list stays", lambda: not at.browser.is_there("button", "Discard this list"))


@check
def todays_trips_stand_by_pickup_and_what_is_over_stands_apart(at: Place) -> None:
    sign_in(at, "12:30")
    show_out(at, "blue", DAY)
    at.browser.sees(
        "Today's trips can't be rebooked", "Print the call list", "Riders to call, by pickup"
    )
    rows = [
        (int(it["window_from"]), it["trip"])
        for it in rows_of(at, DAY)
        if it["vehicle"] == "1" and it["status"] == "booked"
    ]
    text = at.town.get("dispatcher", f"/vehicles/1/manifest/{DAY}")
    drops = {
        it[3]: int(it[1]) * 60 + int(it[2])
        for it in re.finditer(r"(\d\d):(\d\d) DROP trip (\d+)", text)
    }
    ahead = [trip for _, trip in sorted(rows) if drops[trip] >= 750]
    shown = at.browser.script(
        """return [...document.querySelectorAll('section[aria-labelledby=out-today] > .scroll tbody tr')]
        .map((it) => /Trip (\\d+)/.exec(it.textContent)[1])"""
    )
    same("the trips to call", ahead, shown)
    past = len(rows) - len(ahead)
    if past:
        at.browser.sees(f"Over by the plan, no outcome yet: {many(past)}")
    paper = at.browser.print_by("Print the manifest for another driver")
    same("words beyond the edge", [], paper.outside())
    at.browser.script("window.dispatchEvent(new Event('afterprint'))")
    paper = at.browser.print_by("Print the call list")
    holds("the paper has no title", f"Whom to call: {VAN_1}" in paper.text)
    at.browser.script("window.dispatchEvent(new Event('afterprint'))")


@check
def a_list_that_is_shown_is_read_no_more_until_somebody_asks(at: Place) -> None:
    van, _ = fill_van(at)
    sign_in(at)
    # (the server's clock stands still here, so each reply sets the page's back by what went by since the one before)
    pause(6)
    show_out(at, van, LATER)
    at.browser.sees("What happens next")
    at.browser.script("performance.clearResourceTimings()")
    pause(8)
    read = at.browser.script("return performance.getEntriesByType('resource').map((it) => it.name)")
    same(
        "days that were read again",
        [],
        sorted({it[-20:] for it in read if it.endswith("trips.csv") and DAY not in it}),
    )


@check
def a_trip_that_the_clerk_changed_after_the_list_was_read_is_left_alone(at: Place) -> None:
    van, before = fill_van(at)
    sign_in(at)
    show_out(at, van, LATER)
    at.browser.sees("What happens next")
    row = before[0]
    changed = at.town.post(
        "third clerk",
        f"/trips/{row['trip']}/change",
        {
            "day": BACK,
            "wish": 610,
            "from": int(row["from"]),
            "to": int(row["to"]),
            "attendant": False,
            "companions": 0,
        },
    )
    holds(f"the clerk's change is {changed}", "trip" in changed)
    at.browser.press(f"Take it out of service and book {many(len(before))} again")
    at.browser.press(f"Yes, book {many(len(before))} again")
    ended(at)
    now = trip_now(at, int(row["rider"]), int(row["trip"]))
    same("the changed trip", ["booked", BACK, 610], [now["status"], now["day"], now["wish"]])
    same("a trip of the old day", [], booked_of(at, row["rider"]))
    holds(
        "the change is not said",
        re.search("because it was changed:|Changed meanwhile, and still", at.browser.text()),
    )
    finish(at)
    # (of the others each has one trip, and as many windows as can be are the old ones)
    for it in before[1:]:
        same(f"trips of rider {it['rider']}", 1, len(booked_of(at, it["rider"])))
    discard(at)
    at.town.post(
        "third clerk",
        f"/trips/{max(it['trip'] for it in at.town.trips_of(int(row['rider'])))}/cancel",
        {},
    )
    holds(f"the van is not on duty again: {van}", "denied" not in put_on_duty(at, van))


@check
def each_rider_keeps_the_window_where_a_van_can(at: Place) -> None:
    van, before = fill_van(at)
    sign_in(at)
    show_out(at, van, LATER)
    begin(at, f"book {many(len(before))} again", len(before))
    at.browser.sees("is out of service from Wednesday, March 12, 2025", "booked again")
    after = {row["rider"]: row for row in booked_on(at, LATER)}
    kept = 0
    for row in before:
        start, end = (
            int(after[row["rider"]][it]) - int(row[it]) for it in ("window_from", "window_to")
        )
        moved = 0 if start >= 0 >= end else start or end
        held = "Within the old window:" if start or end else "Same window,"
        at.browser.sees(
            f"{abs(moved)} minutes {'later' if moved > 0 else 'earlier'}" if moved else held
        )
        kept += moved == 0
    holds(f"{kept} of {len(before)} windows are kept", kept * 5 >= len(before) * 3)
    holds("the focus is lost", "out of service" in at.browser.focused())


@check
def what_a_rider_asked_for_outlives_the_van(at: Place) -> None:
    """The desk has other minutes of a trip than the rider's: those of the page."""
    van, before = fill_van(at)
    row, named = before[0], {"mode": "not-before", "minute": int(before[0]["window_from"])}
    sign_in(at)
    kept = f"desk.said.{hashlib.sha256(at.keys['dispatcher'].encode()).hexdigest()}"
    at.browser.script(KEEP_SAID, kept, row["trip"], named)
    show_out(at, van, LATER)
    begin(at, f"book {many(len(before))} again", len(before))
    at.browser.sees("is out of service from Wednesday, March 12, 2025", "booked again")
    new = next(it for it in booked_on(at, LATER) if it["rider"] == row["rider"])
    said = at.browser.script("return JSON.parse(localStorage.getItem(arguments[0]))", kept)
    same(
        "what is kept of the new trip",
        [named["mode"], named["minute"], int(new["window_from"])],
        [said[new["trip"]][it] for it in ("mode", "minute", "from")],
    )
    discard(at)
    holds(f"the van is not on duty again: {van}", "denied" not in put_on_duty(at, van))


@check
def a_booking_that_broke_off_is_found_again_and_not_done_twice(at: Place) -> None:
    count = len(booked_on(at, LATER))
    item = at.browser.driver.execute_async_script(BROKEN_OFF, "booking")
    sign_in(at)
    at.browser.sees("Not finished", "Going on reads each rider's trips first")
    at.browser.press("Go on")
    at.browser.sees("is out of service from")
    same("booked trips", count, len(booked_on(at, LATER)))
    same("trips of the rider", 1, len(booked_of(at, item["rider"])))


@check
def a_rider_whom_the_clerk_booked_anew_is_not_booked_twice(at: Place) -> None:
    item = at.browser.driver.execute_async_script(BROKEN_OFF, "nowhere")
    old, rider = item["old"], item["rider"]
    for it in booked_of(at, rider):
        at.town.post("third clerk", f"/trips/{it['trip']}/cancel", {})
    trip = at.town.book(rider, LATER, old["wish"] + 45, old["from"], old["to"])
    sign_in(at)
    at.browser.press("Go on")
    at.browser.sees("Booked anew by somebody else:", f"Trip {trip}")
    same("trips of the rider", [trip], [it["trip"] for it in booked_of(at, rider)])
    discard(at)


@check
def another_dispatchers_key_goes_on_where_one_was_replaced(at: Place) -> None:
    # (the van has been off duty since the checks before)
    for van in range(1, VANS + 1):
        put_on_duty(at, van)
    van, before = fill_van(at)
    at.keys[SECOND] = key_for(SECOND)
    digest = hashlib.sha256(at.keys[SECOND].encode()).hexdigest()
    made = at.town.post(
        "admin", "/callers", {"id": 90, "role": "dispatcher", "subject": 0, "digest": digest}
    )
    holds(f"no second dispatcher: {made}", "denied" not in made)
    sign_in(at)
    show_out(at, van, LATER)
    at.browser.sees("What happens next")
    at.town.middle.writes()
    at.town.middle.breaks(UNHEARD, times=50)
    begin(at, f"cancel {many(len(before))}", len(before))
    until(
        "nothing is sent", lambda: any(path.endswith("/cancel") for path in at.town.middle.writes())
    )
    at.browser.script("sessionStorage.clear()")
    at.browser.driver.get(f"{at.browser.origin}/icon.svg")
    at.town.middle.planned.clear()
    sign_in(at, holder=SECOND)
    at.browser.sees("Not finished")
    at.browser.press("Go on")
    at.browser.sees("is out of service from", f"{many(len(before))} canceled.")
    same("trips that are left in it", [], booked_on(at, LATER, van))
    discard(at)


def put_dispatchers_key(at: Place, key: str) -> None:
    digest = hashlib.sha256(key.encode()).hexdigest()
    number = next(it[0] for it in callers_of(VANS) if it[3] == "dispatcher")
    reply = at.town.post(
        "admin", "/callers", {"id": number, "role": "dispatcher", "subject": 0, "digest": digest}
    )
    holds(f"the key is put: {reply}", "denied" not in reply)


@check
def going_on_with_a_dead_key_says_how_another_key_goes_on(at: Place) -> None:
    for van in range(1, VANS + 1):
        put_on_duty(at, van)
    van, before = fill_van(at)
    sign_in(at)
    show_out(at, van, LATER)
    at.browser.sees("What happens next")
    begin(at, f"cancel {many(len(before))}", len(before))
    ended(at)
    at.browser.driver.execute_async_script(BROKEN_OFF, "booked")
    sign_in(at)
    at.browser.sees("Not finished")
    put_dispatchers_key(at, "another key of the dispatcher")
    try:
        at.browser.press("Go on")
        at.browser.sees(
            "We don't recognize this key.",
            "Sign out, then sign in here with another dispatcher’s key.",
        )
        same(
            "what has the focus",
            True,
            "out of service" in at.browser.focused() or "Not finished" in at.browser.focused(),
        )
        # (the part that is opened anew shows no list to a key that is nobody's, and says the same)
        at.browser.go_part("dispatcher", "vehicles")
        at.browser.go_part("dispatcher", "out")
        at.browser.sees("Sign out, then sign in here with another dispatcher’s key.")
        sign_in(at, holder=SECOND)
        at.browser.sees("Not finished")
        at.browser.press("Go on")
        at.browser.sees("is out of service from")
        discard(at)
    finally:
        put_dispatchers_key(at, at.keys["dispatcher"])


@check
def a_riders_key_sees_no_plan(at: Place) -> None:
    at.browser.sign_in(
        at.keys["rider 1001"] if "rider 1001" in at.keys else at.keys["clerk"], "dispatcher", "out"
    )
    at.browser.settled(300)
    same("lists", 0, at.browser.script("return document.querySelectorAll('#out-report').length"))


@check
def what_a_colleague_cancelled_is_said_so_and_never_that_it_is_too_late(at: Place) -> None:
    for van in range(1, VANS + 1):
        put_on_duty(at, van)
    van, before = fill_van(at)
    sign_in(at)
    show_out(at, van, LATER)
    row = before[0]
    at.browser.sees("What happens next")
    at.town.post(SECOND, f"/trips/{row['trip']}/cancel", {})
    other: Any = at.town.book(
        int(row["rider"]), LATER, int(row["wish"]), int(row["from"]), int(row["to"])
    )
    if trip_now(at, int(row["rider"]), other)["vehicle"] == int(van):
        at.town.post(SECOND, f"/trips/{other}/cancel", {})
        other = None
    begin(at, f"cancel {many(len(before))}", len(before))
    at.browser.sees(
        "is out of service from",
        "Somebody else canceled it.",
        f"Trip {other}" if other else "No other trip",
    )
    at.browser.sees_no("too late to cancel")
    discard(at)


@check
def a_report_waits_until_what_a_colleague_does_with_the_same_trips_stands_still(at: Place) -> None:
    for van in range(1, VANS + 1):
        put_on_duty(at, van)
    van, before = fill_van(at)
    sign_in(at)
    show_out(at, van, LATER)
    row = before[0]
    at.browser.sees("What happens next")
    at.town.post("dispatcher", f"/trips/{row['trip']}/cancel", {})
    begin(at, f"cancel {many(len(before))}", len(before))
    at.browser.sees(
        "Somebody else is moving the trips of",
        "The list is read again until nothing changes.",
        "It may be booked again right now. Don't call yet.",
    )
    at.browser.sees_no("No other trip of that day")
    other = at.town.book(
        int(row["rider"]), LATER, int(row["wish"]), int(row["from"]), int(row["to"])
    )
    until("the list is not read again by itself", lambda: f"Trip {other}" in at.browser.text())
    at.browser.sees("is out of service from", f"Trip {other}")
    at.browser.sees_no("No other trip of that day", "Somebody else is moving")
    discard(at)


@check
def the_call_list_is_on_disk_before_the_first_trip_is_cancelled_and_the_van_comes_back(
    at: Place,
) -> None:
    for van in range(1, VANS + 1):
        put_on_duty(at, van)
    van, before = fill_van(at)
    sign_in(at)
    at.browser.script(SAVED)
    show_out(at, van, LATER, BACK)
    at.browser.sees("when it is back on Friday, March 14, 2025")
    at.browser.fill_all(NEW_LINES)
    at.town.middle.writes()
    begin(at, f"book {many(len(before))} again", len(before))
    at.browser.sees("is out of service from", "is back in service on Friday, March 14, 2025.")
    paths = at.town.middle.writes()
    first, back = paths.index(next(it for it in paths if it.endswith("/cancel"))), paths.index(
        "/vehicles"
    )
    holds(
        f"the order of the writes: {paths}",
        first < back
        and paths[back + 1] == "/vehicles"
        and all(it == "/trips" for it in paths[back + 2 :]),
    )
    saved = [bytes(it).decode("utf-8-sig") for it in at.browser.script("return window.saved")]
    same("files", 1, len(saved))
    rows = list(csv.DictReader(io.StringIO(saved[0])))
    same("the file's trips", sorted(it["trip"] for it in before), sorted(it["Trip"] for it in rows))
    same(
        "what was said of them then",
        {"Still booked in this vehicle."},
        {it["What to say"] for it in rows},
    )
    sheet = at.town.get("dispatcher", f"/days/{BACK}/sheet")
    holds("the van is not on duty on its day back", f"VEHICLE {van} DAY {BACK}" in sheet)
    holds(
        "the van is on duty",
        f"VEHICLE {van} DAY {LATER}" not in at.town.get("dispatcher", f"/days/{LATER}/sheet"),
    )


@check
def who_was_called_is_ticked_and_the_tick_stays_with_its_list(at: Place) -> None:
    sign_in(at)
    at.browser.sees("is back in service on")
    name = at.browser.script(
        """const it = document.querySelector("section[aria-labelledby=out-report] select");
        return it.getAttribute('aria-label')"""
    )
    at.browser.fill(name, "Not reached")
    sign_in(at)
    at.browser.sees("is back in service on")
    same(
        "the tick",
        "not-reached",
        at.browser.script(
            """return document.querySelector(
        `select[aria-label="${arguments[0]}"]`).value""",
            name,
        ),
    )
    at.browser.script(SAVED)
    at.browser.press("Save the call list as CSV")
    until("nothing is saved", lambda: at.browser.script("return window.saved.length") == 1)
    text = bytes(at.browser.script("return window.saved[0]")).decode("utf-8-sig")
    holds("the file does not say who was not reached", "Not reached" in text)
    discard(at)


@check
def a_van_comes_back_with_what_it_had(at: Place) -> None:
    van, _ = fill_van(at)
    sign_in(at, part="vehicles")
    at.browser.fill_all({"Vehicle": van, "This holds from": AFTER, **NEW_LINES})
    at.browser.press("Save vehicle")
    at.browser.sees("is on record from Monday, March 17, 2025.")
    at.browser.go_part("dispatcher", "out")
    show_out(at, van, LATER, "2025-03-20")
    at.browser.sees("As it was saved from this browser")
    same("its seats", "4", at.browser.value("Seats"))
    same("its hours", "5:00 AM", at.browser.value("Leaves its depot from"))
