"""Windows that are closed in the middle, and other computers: what came of it is said once, and any clerk answers an offer."""
import json
import os
import re
import subprocess
from collections.abc import Callable
from typing import Any

from booking import (
    BOOK,
    LATER,
    begin,
    clock,
    counted_in,
    kept_as_offered,
    last_trip,
    late_van,
    wait_for,
    wish,
)
from checks import Place, check, holds, same
from database import ROOT, clocked, matched, until

VANS = 1
THURSDAY, FRIDAY = "2025-03-13", "2025-03-14"
# The answers to writes never come from now on; it says how many writes the desk has answered.
NO_ANSWERS = """const real = window.fetch; window.answered = 0;
window.fetch = async (path, options) => {
    const reply = await real(path, options);
    if (options?.method !== "POST" || String(path).includes("/tally/")) return reply;
    window.answered += 1;
    return new Promise(() => {});
};"""
MINUTE = 61


def closed_while(at: Place, act: Callable[..., Any]) -> None:
    """A window is closed while the answer to what act sends is on its way."""
    at.browser.script(NO_ANSWERS)
    act()
    until("nothing was sent", lambda: at.browser.script("return window.answered") > 0)
    at.browser.script("sessionStorage.clear()")
    at.browser.reload()


def opened_again(at: Place, holder: str = "second clerk") -> None:
    """A window that has nothing of the closed one but the browser's own store."""
    at.browser.script("sessionStorage.clear()")
    at.browser.reload()
    begin(at, None, holder)


def modes_told(at: Place, trip: int) -> Any:
    """The modes that the site's log has of a trip's bookings."""

    def found() -> list[Any]:
        with open(f"{at.folder}/tally.log", encoding="utf-8") as log:
            return [
                matched(r"mode=([a-z-]+)", it)[1]
                for it in log
                if "/tally/bookings" in it and f"trip={trip}&" in it
            ]

    return until(f"no booking of {trip} is told", found)


@check
def what_came_of_a_booking_whose_window_was_closed_is_said_once(at: Place) -> None:
    before = {it["trip"] for it in at.town.trips_of(1005)}
    begin(at, "1005")
    wish(at, start="riverside", goal="library", day=FRIDAY, wish="1 pm", back="3 pm")
    closed_while(at, lambda: at.browser.press(BOOK))
    made = [it["trip"] for it in at.town.trips_of(1005) if it["trip"] not in before]
    same("trips that the desk has of it", 1, len(made))
    opened_again(at)
    at.browser.sees(
        "This is what came of them:", f"Trip {made[0]} was booked for Samuel Grant (1005) at "
    )
    same("what the rider said is told", ["around"], modes_told(at, made[0]))
    lost = "Not booked for Samuel Grant (1005): Fri, Mar 14, not before 3:00 PM, from Public Library to Riverside Market."
    holds("what may be on its way is not told as lost", lost not in at.browser.text())
    with at.browser.clock(seconds=MINUTE):
        opened_again(at)
        at.browser.sees(lost, "The window was closed while it was being asked. Book it again.")
        at.browser.sees_no(f"Trip {made[0]} was booked for")
        opened_again(at)
        at.browser.settled()
        holds("it is said once", lost not in at.browser.text())
    same(
        "trips of it",
        made,
        [it["trip"] for it in at.town.trips_of(1005) if it["trip"] not in before],
    )
    at.town.post("third clerk", f"/trips/{made[0]}/cancel", {})


@check
def what_came_of_other_times_whose_window_was_closed_is_said_and_told(at: Place) -> None:
    before = {it["trip"] for it in at.town.trips_of(1003)}
    begin(at, "1003")
    wish(at, start="7 Elm", goal="Riverside", day=FRIDAY, wish="9 am", by="8:05 am", back="2 pm")
    at.browser.press(BOOK)
    at.browser.sees("We looked for pickups between 8:00 AM and 10:00 AM")
    closed_while(at, lambda: at.browser.press(re.compile("^(Try|Only) earlier")))
    made = [it["trip"] for it in at.town.trips_of(1003) if it["trip"] not in before]
    same("trips that the desk has of it", 1, len(made))
    with at.browser.clock(seconds=MINUTE):
        opened_again(at)
        at.browser.sees(
            f"Trip {made[0]} was booked for",
            "not before 2:00 PM, from Riverside Market",
            "The window was closed while it was being asked. Book it again.",
        )
    same("what the rider said is told", ["around"], modes_told(at, made[0]))
    at.town.post("third clerk", f"/trips/{made[0]}/cancel", {})


@check
def what_came_of_a_change_and_a_cancellation_whose_windows_were_closed_is_said(at: Place) -> None:
    trip = at.town.book(1005, THURSDAY, 600, 1, 2)
    begin(at, "1005")
    at.browser.press(f"Change trip {trip} of Samuel Grant (1005)")
    wait_for(at, "the form of the change", f"document.activeElement.id === 'change-{trip}'")
    whole = at.browser.script("return document.querySelector('.trips-card form')")
    at.browser.fill("Pickup time", "2 pm", whole)
    closed_while(
        at, lambda: at.browser.press(f"Change trip {trip} of Samuel Grant (1005)", within=whole)
    )
    opened_again(at)
    at.browser.sees(f"Trip {trip} of Samuel Grant (1005) was changed at ", ": Thu, Mar 13, pickup")
    begin(at, "1005")
    at.browser.press(f"Cancel trip {trip} of Samuel Grant (1005)")
    closed_while(at, lambda: at.browser.press(f"Yes, cancel trip {trip}"))
    opened_again(at)
    at.browser.sees(f"Trip {trip} of Samuel Grant (1005) is canceled: Thu, Mar 13, pickup")


def write_file_of_the_day(at: Place) -> None:
    """deploy/today makes the file for staff out of the site's log."""
    output = f"{at.folder}/site/staff/today.json"
    made = subprocess.run(
        [
            f"{ROOT}/deploy/today",
            f"{at.folder}/tally.log",
            output,
            "--once",
            "--agency",
            f"{at.folder}/site/agency.json",
        ],
        env=clocked(at.town.desk.clock),
        capture_output=True,
        text=True,
    )
    same("deploy/today", (0, ""), (made.returncode, made.stderr))
    os.chmod(output, 0o644)


@check
def an_offer_is_answered_by_any_clerk_at_any_computer(at: Place) -> None:
    late_van(at)
    try:
        for answer, status in [("^No, cancel trip", "cancelled"), ("^Yes, keep trip", "booked")]:
            begin(at, "1006")
            wish(at, start="library", goal="senior", day=LATER, wish="9 am", matters="not-before")
            at.browser.requests()
            at.browser.press(BOOK)
            at.browser.sees("The desk offers 10:", "minutes after 9:00 AM")
            trip = last_trip(at, 1006)
            counted_in(
                at, "denials", "rule=no", f"trip={trip['trip']}", "rider=1006", "offer=booking"
            )
            write_file_of_the_day(at)
            # (another person's key, and nothing that this browser keeps)
            at.browser.script("localStorage.clear(); sessionStorage.clear()")
            at.browser.sign_in(at.keys["clerk"], "clerk", "waits")
            at.browser.sees(
                "Offers that wait for an answer", "not before 9:00 AM", str(trip["trip"])
            )
            at.browser.press("Show rider 1006")
            at.browser.sees(
                "An offer waits for an answer of Ana María Núñez (1006)",
                f"The desk offers {clock(trip['window_from'])}, {trip['window_from'] - 540} minutes after 9:00 AM",
            )
            at.browser.press(re.compile(answer))
            at.browser.sees(
                "is given up." if status == "cancelled" else f"Trip {trip['trip']} is kept."
            )
            same("how the trip stands", status, last_trip(at, 1006)["status"])
            told = "cancellations" if status == "cancelled" else "bookings"
            counted_in(at, told, f"trip={trip['trip']}")
            until(
                "it is in the log",
                lambda trip=trip, told=told: re.search(
                    rf"/tally/{told}\t\S*trip={trip['trip']}&",
                    open(f"{at.folder}/tally.log", encoding="utf-8").read(),
                ),
            )
            write_file_of_the_day(at)
            begin(at, "1006")
            at.browser.sees("Trips of Ana María Núñez")
            at.browser.settled()
            holds("it is asked once", "An offer waits" not in at.browser.text())
        at.town.post("third clerk", f"/trips/{trip['trip']}/cancel", {})
    finally:
        at.town.write_file("staff/today.json", None)


@check
def an_offer_that_another_clerk_has_answered_is_not_answered_again(at: Place) -> None:
    """The desk's trips say that it was given up, and the site's log that it is kept."""
    late_van(at)

    def offered() -> Any:
        begin(at, "1006")
        wish(at, start="library", goal="senior", day=LATER, wish="9 am", matters="not-before")
        at.browser.requests()
        at.browser.press(BOOK)
        at.browser.sees("The desk offers 10:", "minutes after 9:00 AM")
        trip = last_trip(at, 1006)
        counted_in(at, "denials", "rule=no", f"trip={trip['trip']}")
        return trip

    trip = offered()
    at.town.post("third clerk", f"/trips/{trip['trip']}/cancel", {})
    at.browser.press(re.compile("^Yes, keep trip"))
    at.browser.sees("The offer was not taken, and is given up.")
    at.browser.sees_no("is booked for Ana")
    holds(
        "nothing is told as booked",
        not any("/tally/bookings" in it for it in at.browser.requests()),
    )
    trip = offered()
    try:
        at.town.write_file(
            "staff/today.json",
            json.dumps(
                {
                    "bookings": kept_as_offered(trip),
                    "offers": {},
                }
            ),
        )
        begin(at, "1006")
        at.browser.sees("Trips of Ana María Núñez")
        at.browser.settled()
        holds("what is kept is asked about", "An offer waits" not in at.browser.text())
        same("the trip", "booked", last_trip(at, 1006)["status"])
    finally:
        at.town.write_file("staff/today.json", None)
    at.town.post("third clerk", f"/trips/{trip['trip']}/cancel", {})
