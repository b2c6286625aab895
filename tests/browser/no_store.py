"""Browsers that keep nothing: site data is blocked, or there is no room. The pages come up, say so, and lose nothing that was confirmed."""
import contextlib
import re
from collections.abc import Iterator

from booking import BOOK, LATER, last_trip, late_van, wish
from browser import Browser
from checks import Place, check, holds, same
from database import until
from counted import lines
from left_open import write_file_of_the_day

VANS = 1
FRIDAY = "2025-03-14"
# As Chromium's setting "Block all site data" leaves them: each look at a store throws, or what it gives is refused.
BLOCKED = {"profile.default_content_setting_values.cookies": 2}
# Each store is there and takes nothing.
FULL = """Storage.prototype.setItem = () => { throw new DOMException("full", "QuotaExceededError"); };
for (const name of ["put", "add"]) IDBObjectStore.prototype[name] = () => { throw new DOMException("full", "QuotaExceededError"); };"""
KEEPS_NOTHING = (
    "This browser stores nothing for these pages: it is full, or it is set to block site data."
)
FIRST_OF_SCREENS = {
    "clerk": "clerk",
    "rider": "rider 1003",
    "dispatcher": "dispatcher",
    "driver": "driver 1",
    "examiner": "examiner",
    "officer": "officer",
    "admin": "admin",
}


@contextlib.contextmanager
def blocked(at: Place) -> Iterator[Browser]:
    """A browser whose site data is blocked, in place of the other."""
    first = at.browser
    with Browser(at.town.origin, at.folder, preferences=BLOCKED) as browser:
        at.browser = browser
        try:
            yield browser
        finally:
            at.browser = first


def signed_in(at: Place, holder: str, screen: str) -> None:
    browser = at.browser
    browser.driver.get(f"{at.town.origin}/icon.svg")
    browser.driver.get(f"{at.town.origin}/#{screen}")
    browser.fill("Key", at.keys[holder])
    browser.choose_job(screen)
    browser.press("Sign in")
    browser.signed_in()
    browser.shown(screen)


def refuses(at: Place) -> None:
    """That this browser is one that refuses its stores."""
    told = at.browser.script(
        """try { localStorage.getItem("x"); return "given"; } catch (error) { return error.name; }"""
    )
    same("a look at the store", "SecurityError", told)


@check
def each_screen_comes_up_and_says_that_nothing_is_kept(at: Place) -> None:
    with blocked(at):
        for screen, holder in FIRST_OF_SCREENS.items():
            signed_in(at, holder, screen)
            refuses(at)
            at.browser.sees(KEEPS_NOTHING)
            at.browser.settled()
            holds(f"{screen} is drawn", "could not be" not in at.browser.text())
            at.browser.no_errors()


def rider_shown(at: Place, number: str) -> None:
    at.browser.fill("Find a rider", number)
    at.browser.press("Show")
    at.browser.find("heading", re.compile("^Book for"))


@check
def a_booking_is_made_and_counted_without_stores(at: Place) -> None:
    with blocked(at):
        signed_in(at, "second clerk", "clerk")
        rider_shown(at, "1002")
        wish(at, start="school", goal="senior", day=FRIDAY, wish="9 am")
        at.browser.press(BOOK)
        at.browser.sees("is booked for Dorothy O'Neill (1002)")
        trip = last_trip(at, 1002)["trip"]
        until("the booking is in the log", lambda: lines(at, f"trip={trip}&"))
        at.browser.press(re.compile(f"^Cancel trip {trip}"))
        at.browser.press(f"Yes, cancel trip {trip}")
        at.browser.sees(f"Trip {trip} of Dorothy O'Neill (1002) is canceled.")
        until(
            "the cancellation is in the log",
            lambda: [it for it in lines(at, f"trip={trip}&") if "cancellations" in it],
        )
        at.browser.driver.refresh()
        at.browser.sees("Sign in", KEEPS_NOTHING)
        same(
            "the desk has it once",
            ["cancelled"],
            [it["status"] for it in at.town.trips_of(1002) if it["day"] == FRIDAY],
        )


@check
def an_offer_is_asked_again_after_a_reload_of_a_browser_without_stores(at: Place) -> None:
    late_van(at)
    with blocked(at):
        signed_in(at, "second clerk", "clerk")
        rider_shown(at, "1006")
        wish(at, start="library", goal="senior", day=LATER, wish="9 am", matters="not-before")
        at.browser.press(BOOK)
        at.browser.sees("The desk offers 10:", "It is kept only if the rider says yes.")
        trip = last_trip(at, 1006)["trip"]
        until("the offer is in the log", lambda: lines(at, f"trip={trip}&"))
        write_file_of_the_day(at)
        at.browser.driver.refresh()
        signed_in(at, "second clerk", "clerk")
        rider_shown(at, "1006")
        at.browser.sees("An offer waits for an answer of Ana María Núñez (1006)")
        at.browser.press(re.compile("^No, cancel trip"))
        at.browser.sees("The offer was not taken, and is given up.")
        until(
            "it is the agency's",
            lambda: [
                it
                for it in lines(at, f"trip={trip}&")
                if "cancellations" in it and "by=agency" in it
            ],
        )


@check
def a_browser_without_room_says_so_and_loses_nothing(at: Place) -> None:
    made = at.browser.devtools("Page.addScriptToEvaluateOnNewDocument", source=FULL)
    try:
        at.browser.fresh()
        signed_in(at, "second clerk", "clerk")
        at.browser.sees(KEEPS_NOTHING)
        rider_shown(at, "1003")
        wish(at, start="school", goal="senior", day=FRIDAY, wish="1 pm")
        at.browser.press(BOOK)
        at.browser.sees("is booked for Henry Park (1003)")
        trip = last_trip(at, 1003)["trip"]
        until("the booking is in the log", lambda: lines(at, f"trip={trip}&"))
        at.browser.fill("From", "Public Library")
        rider_shown(at, "1002")
        rider_shown(at, "1003")
        same(
            "what was typed is there as long as the page",
            "Public Library",
            at.browser.value("From"),
        )
    finally:
        at.browser.devtools(
            "Page.removeScriptToEvaluateOnNewDocument", identifier=made["identifier"]
        )
    at.browser.fresh()
