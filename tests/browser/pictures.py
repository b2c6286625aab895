"""The pictures of docs/pictures, made anew by `tests/pages --pictures PROGRAM`."""
import glob
import json
import os
import re
from typing import Any

from selenium.webdriver.common.keys import Keys

import large_day
from browser import PICTURES
from checks import Place, check, holds
from story import BOOK, WISH

VANS = 6
MOST_BYTES, MOST_OF_ONE = 1_300_000, 150_000
PHONE = (390, 844)


# The office's screen in the pictures, and the day and the minute of the call.
OFFICE, CALL, CALLED = (1366, 768), "2025-03-13", "08:12"
# Trips of Dorothy O'Neill and of those who called before her: rider, day, wish, from, to.
BOOKED = [
    (1002, CALL, 545, 12, 6),
    (1002, CALL, 810, 6, 12),
    (1002, "2025-03-14", 545, 12, 6),
    (1002, "2025-03-14", 810, 6, 12),
    (1002, "2025-03-17", 700, 12, 9),
    (1003, CALL, 520, 13, 2),
]
EARLIER_CALLERS, CALL_BACKS = (1004, 1007, 1003), {
    1006: "wants a later return",
    1001: "not reached",
}


def pictured(at: Place, name: str, dark: bool = False) -> None:
    """A picture of the office's screen, and one of the same in the dark."""
    at.browser.settled()
    at.browser.picture(name, OFFICE[1])
    if dark:
        with at.browser.media(prefers_color_scheme="dark"):
            at.browser.settled()
            at.browser.picture(f"{name}-dark", OFFICE[1])


@check
def who_signs_in_chooses_a_job(at: Place) -> None:
    with at.browser.screen(*OFFICE):
        at.browser.fresh()
        at.browser.find("button", "Sign in")
        at.browser.choose_job("clerk")
        pictured(at, "signin")


def told_by_drivers(at: Place) -> None:
    """What the van of the call has told: its last tap is of another rider."""
    vans = {
        it["rider"]: it
        for rider in (1002, 1003)
        for it in [{**trip, "rider": rider} for trip in at.town.trips_of(rider)]
        if str(it["day"]) == CALL
    }
    van = str(vans[1002]["vehicle"])
    taps = [{"trip": vans[1003]["trip"], "kind": "aboard", "minute": 484}]
    at.town.write_file(
        "staff/today.json",
        json.dumps(
            {
                "day": CALL,
                "made": f"{CALL}T12:11:40Z",
                "vehicles": {van: {"taps": taps}},
                "notes": [],
                "unreviewed": {"no_shows": [], "disagreements": []},
            }
        ),
    )


@check
def the_clerks_pictures_are_the_first_minute_a_call_and_its_ticket(at: Place) -> None:
    for rider, day, wish, start, end in BOOKED:
        at.town.book(rider, day, wish, start, end)
    at.town.set_clock(CALL, CALLED)
    told_by_drivers(at)
    with at.browser.screen(*OFFICE):
        at.browser.sign_in(at.keys["clerk"], "clerk", "trips")
        for rider in (*EARLIER_CALLERS, *CALL_BACKS):
            at.browser.fill("Find a rider", rider)
            at.browser.keys(Keys.ENTER)
            at.browser.find("button", re.compile(rf"^Book the trip for .*\({rider}\)"))
            if rider in CALL_BACKS:
                at.browser.press("Add this caller")
                at.browser.fill("Why", CALL_BACKS[rider])
                at.browser.keys(Keys.ENTER)
                at.browser.find("button", re.compile("^Called back"))
        at.browser.fill("Find a rider", 1002)
        at.browser.keys(Keys.ENTER)
        at.browser.find("button", BOOK)
        at.browser.sees("Pickup window")
        pictured(at, "call", dark=True)
        at.browser.fill_all(
            {
                **WISH,
                "From": "309 Willow Court",
                "Day": "Tuesday, March 18, 2025",
                "Return pickup": "2:30 pm",
            }
        )
        at.browser.press(BOOK)
        at.browser.sees("2 trips are booked for Dorothy O'Neill (1002)")
        at.browser.script("scrollTo(0, 0)")
        pictured(at, "clerk")
    at.town.write_file("staff/today.json", None)


# The day of the dispatcher's picture, the minute at which it is seen, and what went wrong on it.
DAY, NOW = "2025-03-11", 782
LATE, NO_SHOWS, MISSED = {3: 8, 9: 11, 17: 24, 28: 17}, 37, 61


def drivers_of_the_picture() -> Any:
    """What drivers told until the minute of the picture, and how trips ended, as (taps by van, outcome by trip)."""
    taps: dict[Any, Any] = {}
    ended: dict[Any, Any] = {}
    for van in range(1, large_day.VANS + 1):
        for minute, what, trip, *_ in sorted(large_day.stops_of(van)):
            at_stop = minute + LATE.get(van, 0) * (minute > 690)
            if at_stop >= NOW:
                continue
            is_no_show, is_missed = trip % NO_SHOWS == 5, trip % MISSED == 9
            kind = (
                "no-show"
                if is_no_show
                else "missed"
                if is_missed
                else "aboard"
                if what == "PICK"
                else "dropped"
            )
            if what == "PICK" or not (is_no_show or is_missed):
                taps.setdefault(str(van), {"taps": []})["taps"].append(
                    {"trip": trip, "kind": kind, "minute": at_stop}
                )
            if kind in ("no-show", "missed", "dropped"):
                ended[trip] = {
                    "no-show": "missed-rider",
                    "missed": "missed-operator",
                    "dropped": "ridden",
                }[kind]
    return taps, ended


@check
def the_dispatchers_picture_has_a_day(at: Place) -> None:
    large_day.write(at.town)
    taps, ended = drivers_of_the_picture()
    rows = "".join(
        f"{line.removesuffix('booked')}{ended.get(int(line.split(',')[0]), 'booked')}\n"
        if line[0].isdigit()
        else f"{line}\n"
        for line in large_day.rows(DAY).splitlines()
    )
    at.town.write_file(
        "staff/today.json",
        json.dumps(
            {
                "day": DAY,
                "made": f"{DAY}T17:02:00Z",
                "vehicles": taps,
                "notes": [],
                "unreviewed": {"no_shows": [], "disagreements": []},
            }
        ),
    )
    at.town.set_clock(DAY, "13:02")
    with at.browser.screen(1366, 768):
        at.browser.sign_in(at.keys["dispatcher"], "dispatcher", "trips")
        at.browser.script(large_day.READS_DAY, large_day.sheet(DAY), rows)
        at.browser.go_part("dispatcher", "day")
        at.browser.press(re.compile("^Van 117[.]"))
        at.browser.settled(800)
        at.browser.picture("dispatcher")
        with at.browser.media(prefers_color_scheme="dark"):
            at.browser.settled(800)
            at.browser.picture("dispatcher-dark")
    at.town.write_file("staff/today.json", None)
    at.town.write_files()


@check
def the_admins_picture_has_the_map(at: Place) -> None:
    with at.browser.screen(*OFFICE):
        at.browser.sign_in(at.keys["admin"], "admin", "places")
        at.browser.settled(800)
        pictured(at, "admin")


REASON = (
    "In your assessment on March 5 you walked 1,100 feet without resting, boarded a low-floor bus without help, and named your stop and your transfer. "
    "The sidewalks and curb ramps to stop 7 are complete."
)
WAITING = [
    (1009, "Peter Lange", "2025-02-18", "2025-03-11"),
    (1010, "Grace Kim", "2025-02-22", "2025-03-15"),
    (1005, "Samuel Grant", "2025-03-01", "2025-03-22"),
]
CALLERS = [
    {"id": 1, "name": "Ana Whitcomb", "role": "admin", "subject": 0, "day": "2025-01-06"},
    {"id": 2, "name": "Denise Kuhn", "role": "clerk", "subject": 0, "day": "2025-01-06"},
    {"id": 3, "name": "Carla Benedetti", "role": "dispatcher", "subject": 0, "day": "2025-02-10"},
    {"id": 4, "name": "Priscilla Ong", "role": "examiner", "subject": 0, "day": "2025-01-06"},
    {"id": 101, "name": "Joe Alvarado", "role": "driver", "subject": 1, "day": "2025-03-03"},
    {
        "id": 102,
        "name": "Lost phone",
        "role": "driver",
        "subject": 2,
        "day": "2025-01-20",
        "until": "2025-03-10",
    },
]


@check
def the_examiners_pictures_are_the_queue_and_a_case_with_its_letter(at: Place) -> None:
    at.town.set_clock("2025-03-10")
    rows = "".join(
        f"<tr><td>{rider}<td>{name}<td>{since}<td>{due}" for rider, name, since, due in WAITING
    )
    at.town.write_file(
        "staff/worklist.html",
        "<main><section id=applications><h2>Applications to decide</h2><table><thead><tr><th>Rider<th>Name<th>Complete on<th>Presumed from"
        f"<tbody>{rows}</table></section></main>",
    )
    with at.browser.screen(1366, 768):
        at.browser.sign_in(at.keys["examiner"], "examiner")
        at.browser.sees("3 applications to decide")
        pictured(at, "examiner")
        at.browser.press("Decide: Peter Lange (1009)")
        at.browser.sees("Decide for Peter Lange (1009)")
        at.browser.script("document.querySelector('input[value=refuse]').click()")
        at.browser.fill("Reasons, as they stand in the letter", REASON)
        pictured(at, "case", dark=True)


@check
def the_admins_keys_have_names(at: Place) -> None:
    with at.browser.screen(1366, 768):
        at.browser.sign_in(at.keys["admin"], "admin", "callers")
        at.browser.script(
            "localStorage.setItem('admin.notes', JSON.stringify({ callers: arguments[0] })); location.reload()",
            CALLERS,
        )
        at.browser.find("button", re.compile("^Staff"))
        pictured(at, "keys")


@check
def the_drivers_picture_is_that_of_a_phone(at: Place) -> None:
    at.town.set_clock("2025-03-11", "06:30")
    with at.browser.screen(*PHONE, mobile=True):
        at.browser.sign_in(at.keys["driver 1"], "driver")
        at.browser.fill("Van, by name or number", 1)
        at.browser.keys(Keys.ENTER)
        at.browser.press("Done here")
        at.browser.sees("Pick up")
        at.browser.settled(800)
        at.browser.picture("driver", highest=PHONE[1])
        at.browser.press("Aboard")
        at.browser.sees("Marked aboard")
        with at.browser.media(prefers_color_scheme="dark"):
            at.browser.settled(800)
            at.browser.picture("driver-dark", highest=PHONE[1])


@check
def the_riders_picture_is_that_of_a_phone(at: Place) -> None:
    at.town.set_clock("2025-03-10")
    with at.browser.screen(*PHONE, mobile=True):
        at.browser.sign_in(at.keys["rider 1002"], "rider")
        at.browser.fill("Your rider number", 1002)
        at.browser.keys(Keys.ENTER)
        at.browser.sees("Pickup window")
        at.browser.settled(800)
        at.browser.picture("rider", highest=PHONE[1])
        with at.browser.media(prefers_color_scheme="dark"):
            at.browser.settled(800)
            at.browser.picture("rider-dark", highest=PHONE[1])


@check
def all_pictures_stay_small(_at: Place) -> None:
    sizes = {os.path.basename(it): os.path.getsize(it) for it in glob.glob(f"{PICTURES}/*.png")}
    holds(f"the pictures have {sum(sizes.values())} bytes", sum(sizes.values()) < MOST_BYTES)
    large = {name: size for name, size in sizes.items() if size > MOST_OF_ONE}
    holds(f"these are too large: {large}", not large)
