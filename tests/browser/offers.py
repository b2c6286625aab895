"""Offers that nobody has answered yet: another rider, another screen, another clerk, midnight and an idle sign-out never lead to a wrong answer."""
import contextlib
import json
import re
from collections.abc import Iterator
from typing import Any

from booking import BOOK, LATER, begin, clock, kept_as_offered, last_trip, late_van, wish
from checks import Place, check, holds, same
from counted import lines, waiting
from database import until
from left_open import write_file_of_the_day
from people import TODAY

VANS = 1
WAITS = "An offer waits for an answer of Ana María Núñez (1006)"
BEFORE_IT = "2025-03-21"
# Found and pressed in one step: a page that reads by itself may draw between two.
PRESS = """const it = [...document.querySelectorAll('button')].find(({ textContent }) => textContent === arguments[0]);
it?.click();
return Boolean(it);"""


def offered(at: Place) -> Any:
    """A trip that the desk offers two hours from what was said, and its buttons."""
    late_van(at)
    begin(at, "1006")
    wish(at, start="library", goal="senior", day=LATER, wish="9 am", matters="not-before")
    at.browser.press(BOOK)
    at.browser.sees("The desk offers 10:", "minutes after 9:00 AM")
    trip = last_trip(at, 1006)
    # (what the site has counts, and not what this browser's own log still knows of)
    until(
        lambda: f"the site's log has no denial of trip {trip['trip']}; the browser keeps {waiting(at)}",
        lambda: denials_of(at, trip),
    )
    return trip


def denials_of(at: Place, trip: dict[str, Any]) -> list[Any]:
    named = re.compile(rf"/tally/denials\t.*\brule=no\b.*\btrip={trip['trip']}\b")
    return [it for it in lines(at, "/tally/denials") if named.search(it)]


@contextlib.contextmanager
def offer(at: Place) -> Iterator[Any]:
    """An offer as offered() makes it; at the end its trip stands no more, and meets none of the next check."""
    trip = offered(at)
    try:
        yield trip
    finally:
        at.town.set_clock(TODAY)
        at.town.post("third clerk", f"/trips/{trip['trip']}/cancel", {})


def status_of(at: Place, trip: dict[str, Any]) -> Any:
    return next(it["status"] for it in at.town.trips_of(1006) if it["trip"] == trip["trip"])


def answers(at: Place, trip: dict[str, Any]) -> list[Any]:
    """How many answers to this offer the page has."""
    return [
        len(at.browser.all("button", f"{words} trip {trip['trip']}"))
        for words in ("Yes, keep", "No, cancel")
    ]


def told_of(at: Place, trip: dict[str, Any], kind: str) -> list[Any]:
    return [it for it in lines(at, f"trip={trip['trip']}&") if f"/tally/{kind}" in it]


def shown(at: Place, number: str) -> None:
    at.browser.fill("Find a rider", number)
    at.browser.press("Show")
    at.browser.find("heading", re.compile(rf"^Book for .*\({number}\)"))


@check
def an_offer_outlives_another_rider_and_another_screen_and_is_asked_once(at: Place) -> None:
    trip = offered(at)
    shown(at, "1002")
    at.browser.sees_no("The desk offers")
    same("answers at another rider's", [0, 0], answers(at, trip))
    shown(at, "1006")
    at.browser.sees(f"The desk offers {clock(trip['window_from'])}")
    until(f"it is asked once: {answers(at, trip)}", lambda: answers(at, trip) == [1, 1])
    write_file_of_the_day(at)
    try:
        at.browser.go_part("clerk", "waits")
        at.browser.sees("Offers that wait for an answer", str(trip["trip"]))
        at.browser.go_part("clerk", "trips")
        until(f"it is asked once: {answers(at, trip)}", lambda: answers(at, trip) == [1, 1])
        same(
            "nobody has answered",
            ("booked", [], []),
            (
                status_of(at, trip),
                told_of(at, trip, "bookings"),
                told_of(at, trip, "cancellations"),
            ),
        )
        at.browser.press(f"No, cancel trip {trip['trip']}")
        at.browser.sees("The offer was not taken, and is given up.")
        same("its own rider's trip alone is given up", ["cancelled"], [status_of(at, trip)])
    finally:
        at.town.write_file("staff/today.json", None)


@check
def a_no_to_what_was_cancelled_meanwhile_cancels_nothing(at: Place) -> None:
    trip = offered(at)
    at.town.post("third clerk", f"/trips/{trip['trip']}/cancel", {})
    at.browser.requests()
    # (a page that has read the trips again by now has no question any more)
    if at.browser.script(PRESS, f"No, cancel trip {trip['trip']}"):
        at.browser.sees("The offer was not taken, and is given up.")
    asked = at.browser.requests()
    holds(f"it is cancelled again: {asked}", not any("/cancel" in it for it in asked))


@check
def a_no_to_what_another_clerk_has_kept_just_now_cancels_nothing(at: Place) -> None:
    trip = offered(at)
    try:
        at.town.write_file(
            "staff/today.json",
            json.dumps(
                {
                    "bookings": kept_as_offered(trip),
                    "offers": {},
                }
            ),
        )
        # (the page read that file before)
        at.browser.press(f"No, cancel trip {trip['trip']}")
        at.browser.sees(f"Trip {trip['trip']} is booked for Ana María Núñez (1006)")
        same("the trip", "booked", status_of(at, trip))
        same("cancellations of it", [], told_of(at, trip, "cancellations"))
    finally:
        at.town.write_file("staff/today.json", None)
    at.town.post("third clerk", f"/trips/{trip['trip']}/cancel", {})


@check
def a_no_waits_for_what_another_clerk_has_answered_just_before(at: Place) -> None:
    trip = offered(at)
    kept = kept_as_offered(trip)
    try:
        at.town.write_file(
            "staff/today.json",
            json.dumps({"made": "2020-01-01T00:00:00Z", "bookings": {}, "offers": {}}),
        )
        # (another window than the one that got the offer)
        at.browser.reload()
        begin(at, "1006")
        at.browser.sees(WAITS)
        at.browser.requests()
        at.browser.press(f"No, cancel trip {trip['trip']}")
        at.browser.sees("Looking whether somebody else has answered")
        same("the trip", "booked", status_of(at, trip))
        at.town.write_file(
            "staff/today.json",
            json.dumps({"made": "2099-01-01T00:00:00Z", "bookings": kept, "offers": {}}),
        )
        at.browser.sees(f"Trip {trip['trip']} is kept.")
        asked = at.browser.requests()
        holds(f"it is cancelled: {asked}", not any("/cancel" in it for it in asked))
        same("the trip", "booked", status_of(at, trip))
    finally:
        at.town.write_file("staff/today.json", None)
    at.town.post("third clerk", f"/trips/{trip['trip']}/cancel", {})


@check
def an_answer_to_what_was_put_to_another_time_says_so(at: Place) -> None:
    for answer in ["Yes, keep", "No, cancel"]:
        with offer(at) as trip:
            moved = at.town.post(
                "third clerk",
                f"/trips/{trip['trip']}/change",
                {
                    "day": LATER,
                    "wish": 900,
                    "from": trip["from"],
                    "to": trip["to"],
                    "by": None,
                    "attendant": False,
                    "companions": 0,
                },
            )
            holds(f"it was moved: {moved}", moved["window_from"] > trip["window_from"])
            # (a page that has read the trips again by now has no question any more)
            if at.browser.script(PRESS, f"{answer} trip {trip['trip']}"):
                at.browser.sees(
                    f"Trip {trip['trip']} was put to another time meanwhile: Sat, Mar 22, pickup {clock(moved['window_from'])[:-3]}"
                )
            same("the trip", "booked", status_of(at, trip))
            same(
                "what is told of it",
                ([], []),
                (told_of(at, trip, "bookings"), told_of(at, trip, "cancellations")),
            )


@check
def once_its_pickup_window_has_begun_an_offer_takes_no_answer(at: Place) -> None:
    at.town.set_clock(BEFORE_IT)
    try:
        trip = offered(at)
        # (midnight alone changes nothing: the van has not come yet)
        at.town.set_clock(LATER, "07:00")
        begin(at, "1006")
        at.browser.sees(WAITS)
        same("answers in the morning", [1, 1], answers(at, trip))
        at.town.set_clock(LATER, clock24(trip["window_from"] + 1))
        at.browser.requests()
        # (a page that has read by itself meanwhile has no button any more)
        at.browser.script(PRESS, f"No, cancel trip {trip['trip']}")
        at.browser.sees(
            "Its pickup window has begun, so it cannot be answered any more. Call the rider and dispatch."
        )
        same("answers", [0, 0], answers(at, trip))
        holds("something is cancelled", not any("/cancel" in it for it in at.browser.requests()))
        same("the trip", "booked", status_of(at, trip))
        at.town.set_clock("2025-03-23")
        begin(at, "1006")
        at.browser.sees("Trips of Ana María Núñez")
        at.browser.settled()
        holds("yesterday's is asked", WAITS not in at.browser.text())
    finally:
        at.town.set_clock(TODAY)
    at.town.post("third clerk", f"/trips/{trip['trip']}/cancel", {})


def clock24(minute: Any) -> str:
    return f"{minute // 60:02}:{minute % 60:02}"


@check
def an_offer_outlives_an_idle_sign_out(at: Place) -> None:
    at.town.write_files(idle_minutes=2)
    try:
        at.town.set_clock(TODAY)
        trip = offered(at)
        with at.browser.clock(hurry=20):
            begin(at, "1006")
            at.browser.sees(WAITS)
            at.browser.script("const real = Date.now; Date.now = () => real() + 130000")
            at.browser.sees("Nobody did anything for 2 minutes, so this window was signed out.")
        same(
            "nobody has answered",
            ("booked", []),
            (status_of(at, trip), told_of(at, trip, "cancellations")),
        )
        begin(at, "1006")
        at.browser.sees(WAITS)
        at.browser.press(f"Yes, keep trip {trip['trip']}")
        at.browser.sees(f"Trip {trip['trip']} is kept.")
        until("it is told as booked", lambda: told_of(at, trip, "bookings"))
        same("the trip", "booked", status_of(at, trip))
    finally:
        at.town.write_files()
    at.town.post("third clerk", f"/trips/{trip['trip']}/cancel", {})


def looked_at(at: Place) -> None:
    """The window is looked at again: the store of reads reads anew."""
    at.browser.script("window.dispatchEvent(new Event('focus'))")


@check
def a_rider_reads_on_the_open_page_that_a_clerk_has_ended_the_offer(at: Place) -> None:
    moved = {
        "day": LATER,
        "wish": 900,
        "from": 7,
        "to": 9,
        "by": None,
        "attendant": False,
        "companions": 0,
    }
    for is_in_form in [True, False]:
        for act, says in [
            (
                "cancel",
                "The offer was not taken, and is given up."
                if is_in_form
                else "was canceled meanwhile, so the offer is over.",
            ),
            ("change", "was put to another time meanwhile: Sat, Mar 22, pickup "),
        ]:
            late_van(at)
            at.browser.sign_in(at.keys["rider 1006"], "rider", "book")
            at.browser.fill("Your rider number", "1006")
            at.browser.press("Show my pages")
            wish(at, start="library", goal="senior", day=LATER, wish="9 am", matters="not-before")
            at.browser.press(BOOK)
            at.browser.sees("The desk offers 10:", "It is kept only if you say yes.")
            trip = last_trip(at, 1006)
            if not is_in_form:
                at.browser.reload()
                at.browser.sees("An offer waits for your answer")
            same("answers", [1, 1], answers(at, trip))
            at.browser.requests()
            reply = at.town.post(
                "third clerk", f"/trips/{trip['trip']}/{act}", moved if act == "change" else {}
            )
            holds(f"the clerk did it: {reply}", "denied" not in reply)
            looked_at(at)
            at.browser.sees(says)
            same("answers after it", [0, 0], answers(at, trip))
            same(
                "what the page did",
                [],
                [it for it in at.browser.requests() if "/cancel" in it or "/change" in it],
            )
            at.town.post("third clerk", f"/trips/{trip['trip']}/cancel", {})


@check
def a_rider_gives_an_offer_up_on_the_own_page_after_a_reload(at: Place) -> None:
    late_van(at)
    at.browser.sign_in(at.keys["rider 1006"], "rider", "book")
    at.browser.fill("Your rider number", "1006")
    at.browser.press("Show my pages")
    wish(at, start="library", goal="senior", day=LATER, wish="9 am", matters="not-before")
    at.browser.press(BOOK)
    at.browser.sees("The desk offers 10:")
    trip = last_trip(at, 1006)
    at.browser.reload()
    at.browser.press(f"No, cancel trip {trip['trip']}")
    at.browser.sees(f"Cancel trip {trip['trip']}?", "It does not count against you.")
    at.browser.press("No, go back")
    at.browser.sees(f"Trip {trip['trip']} stands as it is. Nothing is canceled.")
    same("the trip", "booked", status_of(at, trip))
    at.browser.press(f"No, cancel trip {trip['trip']}")
    at.browser.press(f"Yes, cancel trip {trip['trip']}")
    at.browser.sees("The offer was not taken, and is given up.")
    same("the trip", "cancelled", status_of(at, trip))
    until(
        "it is told as the agency's",
        lambda: any("by=agency" in it for it in told_of(at, trip, "cancellations")),
    )
