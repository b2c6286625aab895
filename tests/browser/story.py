"""A call as a clerk takes it: denials in words, the 21st day, a visitor's days, whose trip it is, and midnight."""
import re
from typing import Any

from selenium.webdriver.common.keys import Keys

from booking import INERT
from checks import Place, check, holds, same
from database import until

VANS = 1
BOOK = re.compile(r"^Book (the|[0-9]+) trip")
WISH = {
    "From": "Town Hall",
    "To": "General Hospital",
    "Day": "Tuesday, March 11, 2025",
    "Pickup time": "10:00 am",
}
DAYS = "return [...document.querySelectorAll('.day-grid input')].map((it) => it.value)"


def show(at: Place, rider: int, part: str = "trips") -> None:
    """The clerk's part with this rider on it, as typed."""
    at.browser.sign_in(at.keys["clerk"], "clerk", part)
    at.browser.fill("Find a rider", rider)
    at.browser.keys(Keys.ENTER)


def book(at: Place, **values: Any) -> None:
    given = {**WISH, **{name.replace("_", " "): value for name, value in values.items()}}
    at.browser.find("button", BOOK)
    for name in ["From", "To", "Pickup time"]:
        at.browser.fill(name, given[name])
    at.browser.fill("Day", given["Day"])
    for name in set(given) - set(WISH):
        at.browser.fill(name, given[name])
    at.browser.press(BOOK)


def booked(at: Place) -> int:
    """The number of the trip of which the page says that it is booked."""

    def missing() -> str:
        return f"no trip is booked, but: {at.browser.text()[-1500:]!r}"

    return int(until(missing, lambda: re.search(r"Trip (\d+) is booked", at.browser.text()))[1])


def trips(at: Place, rider: int) -> int:
    return len(at.town.trips_of(rider))


@check
def what_a_field_can_know_is_told_at_the_field_and_nothing_is_sent(at: Place) -> None:
    show(at, 1005)
    before = trips(at, 1005)
    at.browser.press(BOOK)
    at.browser.sees("Choose a place")
    same("the focus", True, at.browser.focused().startswith("From"))
    book(at, Pickup_time="25:00")
    at.browser.sees("Enter a time")
    book(at, And_be_there_by="8:00 am")
    at.browser.sees("You can't get there that early with this pickup time.")
    same("the trips", before, trips(at, 1005))


@check
def a_booked_trip_says_whose_it_is_when_it_comes_and_what_it_costs(at: Place) -> None:
    show(at, 1005)
    book(at, Day="Thursday, March 13, 2025", **{"Companion (same fare)": True})
    number = booked(at)
    trip = [it for it in at.town.trips_of(1005) if it["trip"] == number][0]
    same("what was booked", (1, 2, 1), (trip["from"], trip["to"], trip["companions"]))
    holds(f"the van comes around 10:00: {trip}", 585 <= trip["window_from"] <= 660)
    at.browser.sees(
        "Samuel Grant", "$3.50 each", "$7.00", "Van 1, blue", "Town Hall", "General Hospital"
    )


@check
def many_clicks_book_one_trip(at: Place) -> None:
    show(at, 1006)
    before = trips(at, 1006)
    at.browser.find("button", BOOK)
    at.browser.fill_all({**WISH, "Day": "Friday, March 14, 2025"})
    at.browser.script(
        "const it = arguments[0]; it.click(); it.click(); it.click();",
        at.browser.find("button", BOOK),
    )
    booked(at)
    at.browser.settled()
    same("the trips", before + 1, trips(at, 1006))


@check
def each_denial_of_a_booking_is_a_sentence_and_a_section(at: Place) -> None:
    at.town.post("clerk", "/riders", {"id": 1020, "kind": "resident", "attendant": False})
    attendant = "Attendant (free)"
    denied: list[tuple[int, list[str], dict[str, Any]]] = [
        (1020, ["The rider isn't eligible on this day", "49 CFR 37.125"], {}),
        (
            1010,
            ["This trip isn't covered by the rider's eligibility conditions.", "49 CFR 37.123(b)"],
            {},
        ),
        (1005, ["This party is too large", "49 CFR 37.123(f)"], {attendant: True}),
        (1005, ["too far from every bus route", "49 CFR 37.131(a)"], {"To": "Old Farm"}),
        (1005, ["No bus route serves both ends", "49 CFR 37.131(e)"], {"Pickup time": "11:45 pm"}),
        (1005, ["No vehicle can take this trip", "49 CFR 37.131"], {"Pickup time": "11:00 pm"}),
    ]
    for rider, says, values in denied:
        show(at, rider)
        book(at, Day="Wednesday, March 12, 2025", **values)
        at.browser.sees(*says)


@check
def a_rider_who_is_not_there_is_said_to_be_so(at: Place) -> None:
    show(at, 99)
    at.browser.sees("There is no rider of this number.")


@check
def a_day_that_has_come_while_the_form_was_open_is_not_booked(at: Place) -> None:
    show(at, 1005)
    at.browser.find("button", BOOK)
    before = trips(at, 1005)
    at.browser.fill_all(WISH)
    at.town.set_clock("2025-03-11", "00:05")
    at.browser.press(BOOK)
    until(
        "nothing says that the day has come",
        lambda: any(
            it in at.browser.text()
            for it in [
                "The day you chose has come.",
                "A trip is booked from tomorrow to 14 days ahead.",
                "Choose a day from tomorrow",
            ]
        ),
    )
    same("the trips", before, trips(at, 1005))
    at.town.set_clock("2025-03-10")


@check
def the_21st_day_after_a_complete_application_lets_a_rider_ride(at: Place) -> None:
    at.town.set_clock("2025-03-09")
    show(at, 1009)
    at.browser.sees("May not ride today")
    at.town.set_clock("2025-03-10")
    show(at, 1009)
    at.browser.sees("May ride: presumed eligible")


@check
def a_visitor_who_has_used_21_days_is_told_so(at: Place) -> None:
    for day in range(11, 32):
        at.town.set_clock(f"2025-03-{max(10, day - 13):02}")
        at.town.book(1008, f"2025-03-{day:02}", 800, 1, 3)
    at.town.set_clock("2025-03-20")
    show(at, 1008)
    book(at, Day="Tuesday, April 1, 2025")
    at.browser.sees("The visitor has used the 21 days of this year.", "49 CFR 37.127(e)")
    at.town.set_clock("2025-03-10")


@check
def a_key_of_another_role_is_denied_in_words(at: Place) -> None:
    at.browser.sign_in(at.keys["driver 1"], "clerk", "trips")
    at.browser.fill("Find a rider", 1005)
    at.browser.keys(Keys.ENTER)
    at.browser.sees("This key may not do this.")


@check
def a_form_keeps_what_is_typed_where_the_desk_denies(at: Place) -> None:
    show(at, 1010)
    book(at, Day="Wednesday, March 12, 2025")
    at.browser.sees("49 CFR 37.123(b)")
    same("what was typed", True, at.browser.value("Pickup time").startswith("10"))
    holds("the place is gone", "General Hospital" in at.browser.value("To"))


# Who is meant, and what came of it.


@check
def a_number_that_is_typed_but_not_shown_leaves_nothing_to_act_on(at: Place) -> None:
    show(at, 1002)
    at.browser.find("button", BOOK)
    at.browser.fill("Find a rider", 1005)
    until(
        "the rider who was shown before can still be booked for",
        lambda: not at.browser.is_there("button", BOOK),
    )
    holds(
        "something of the rider who was shown before can be pressed",
        at.browser.script(INERT, "Dorothy"),
    )


@check
def the_rider_is_named_in_heading_button_and_ticket(at: Place) -> None:
    show(at, 1003)
    at.browser.sees("Book for Henry Park (1003)", "Trips of Henry Park (1003)")
    book(at, Day="Monday, March 17, 2025")
    number = booked(at)
    ticket = at.browser.find("heading", re.compile(f"^Trip {number} "))
    same(
        "the heading of the ticket",
        f"Trip {number} is booked for Henry Park (1003)",
        at.browser.text(ticket),
    )


@check
def a_ticket_goes_where_the_next_try_fails_at_a_field(at: Place) -> None:
    show(at, 1003)
    book(at, Day="Tuesday, March 18, 2025")
    at.browser.sees("is booked for")
    at.browser.fill("Pickup time", "25:00")
    at.browser.press(BOOK)
    at.browser.sees("Enter a time")
    at.browser.sees_no("is booked for")


@check
def what_came_of_a_cancel_is_where_it_was_asked_and_has_the_focus(at: Place) -> None:
    number = at.town.book(1003, "2025-03-19", 600, 1, 2)
    show(at, 1003)
    at.browser.press(f"Cancel trip {number} of Henry Park (1003)")
    at.browser.press(f"Yes, cancel trip {number}")
    at.browser.sees(f"Trip {number} of Henry Park (1003) is canceled.")
    at.browser.settled()
    shown = at.browser.script(
        "const it = document.activeElement, box = it.getBoundingClientRect(); "
        "return [it.textContent, box.top >= 0 && box.top < innerHeight, it === document.body];"
    )
    holds(f"the focus is on {shown}", "is canceled" in shown[0] and shown[1] and not shown[2])
    same(
        "the trip",
        "cancelled",
        [it["status"] for it in at.town.trips_of(1003) if it["trip"] == number][0],
    )


@check
def a_trip_whose_window_has_begun_offers_no_cancel(at: Place) -> None:
    number = at.town.book(1006, "2025-03-12", 600, 1, 2)
    trip = [it for it in at.town.trips_of(1006) if it["trip"] == number][0]
    begun = trip["window_from"] + 2
    at.town.set_clock("2025-03-12", f"{begun // 60:02}:{begun % 60:02}")
    show(at, 1006)
    at.browser.sees("Trips of")
    at.browser.settled()
    offered = at.browser.all("button", re.compile(f"^Cancel trip {number} "))
    holds("a cancel is offered that is sure to be denied", not offered)
    at.town.set_clock("2025-03-10")


def record(at: Place, number: int, kind: str, attendant: bool, wheelchair: bool | None) -> None:
    at.browser.sign_in(at.keys["clerk"], "clerk", "rider")
    at.browser.fill("Rider number", number)
    at.browser.fill("Kind", kind)
    for group, value in [
        ("May bring an attendant", attendant),
        ("Comes in a wheelchair", wheelchair),
    ]:
        if value is not None:
            within = at.browser.find("group", re.compile(f"^{group}"))
            at.browser.fill("Yes" if value else "No", True, within)
    at.browser.press("Save the record")


@check
def a_record_that_is_there_is_changed_only_after_a_question_that_says_whose(at: Place) -> None:
    record(at, 1004, "resident", True, True)
    at.browser.sees("Lucille Baker (1004) is on record already. Change the record?")
    at.browser.press("No, go back")
    at.browser.press("Save the record")
    at.browser.press("Yes, change the record of rider 1004")
    at.browser.sees("The record of Lucille Baker (1004) is changed.", "Comes in a wheelchair.")


@check
def nothing_is_assumed_of_an_attendant_and_a_wheelchair(at: Place) -> None:
    record(at, 1004, "resident", True, None)
    at.browser.sees("Choose yes or no.")
    same(
        "the dialogs",
        0,
        at.browser.script("return document.querySelectorAll('dialog[open]').length"),
    )


@check
def a_new_record_is_said_to_be_new_and_the_other_kind_is_denied(at: Place) -> None:
    record(at, 1021, "visitor", False, False)
    at.browser.sees("is new on record.")
    record(at, 1021, "resident", False, False)
    at.browser.press("Yes, change the record of rider 1021")
    at.browser.sees("This rider is there as the other kind")


@check
def a_rider_with_anothers_number_is_told_that_it_is_not_the_own_one(at: Place) -> None:
    at.browser.sign_in(at.keys["rider 1005"], "rider")
    at.browser.fill("Your rider number", 1006)
    at.browser.keys(Keys.ENTER)
    at.browser.sees("This is not the number that your key is for.")


@check
def a_dispatcher_who_is_not_told_the_standing_books_for_a_rider(at: Place) -> None:
    at.browser.sign_in(at.keys["dispatcher"], "dispatcher", "riders")
    at.browser.fill("Find a rider", 1006)
    at.browser.keys(Keys.ENTER)
    at.browser.sees("Trips of Ana María Núñez (1006)")
    book(at, Day="Thursday, March 20, 2025")
    booked(at)
    at.browser.sees_no("This key may not do this.")


@check
def a_booking_for_a_known_number_takes_forty_keys(at: Place) -> None:
    at.browser.sign_in(at.keys["clerk"], "clerk")
    at.browser.settled()
    at.browser.script("document.querySelector('main').focus()")
    keys = at.browser.tab_to("Find a rider")

    def typed(text: str) -> int:
        at.browser.keys(*text)
        return len(text)

    keys += typed("1005") + typed(Keys.ENTER)
    at.browser.find("button", BOOK)
    at.browser.settled()
    keys += typed("b")
    same("the focus", "From", at.browser.focused())
    keys += typed("town")
    for name, text in [("To", "hosp"), ("\\w+day, March", "Sat"), ("Pickup time", "9:15a")]:
        keys += at.browser.tab_to(re.compile(f"^{name}")) + typed(text)
    keys += typed(Keys.ENTER)
    number = booked(at)
    trip = [it for it in at.town.trips_of(1005) if it["trip"] == number][0]
    same("what was booked", ("2025-03-15", 1, 2), (trip["day"], trip["from"], trip["to"]))
    holds(f"the van comes around 9:15: {trip}", 540 <= trip["window_from"] <= 615)
    holds(f"it took {keys} keys", keys <= 40)


@check
def a_machine_whose_clock_is_wrong_has_the_servers_days(at: Place) -> None:
    with at.browser.clock(seconds=5 * 86_400):
        show(at, 1005)
        at.browser.find("button", BOOK)
        days = at.browser.script(DAYS)
    same(
        "the days that are offered",
        ("2025-03-11", "2025-03-24", 14),
        (days[0], days[-1], len(days)),
    )


@check
def after_midnight_a_form_that_is_open_offers_the_new_days(at: Place) -> None:
    at.town.set_clock("2025-03-10", "23:50")
    with at.browser.clock(hurry=30):
        show(at, 1005)
        at.browser.find("button", BOOK)
        same("the first day before midnight", "2025-03-11", at.browser.script(DAYS)[0])
        at.town.set_clock("2025-03-11", "00:01")
        at.browser.passes(11 * 60)
        until(
            "the days stay those of yesterday", lambda: at.browser.script(DAYS)[0] == "2025-03-12"
        )
    at.town.set_clock("2025-03-10")
