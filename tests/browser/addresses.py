"""Addresses: one is found by any part of it, the booking names it, and the ticket and the manifest show it."""
import json

import people
from booking import BOOK, FRIDAY, begin, counted_in, last_trip, results, wish
from checks import Place, check, holds, same
from database import until
from dispatcher import print_view
from people import TODAY
from scripts import SAVED

VANS = 1
ADDRESSES = [
    {"id": 701, "street": "17 Quillfeather Rd", "place": 3, "note": "rear door, code 4411"},
    {"id": 702, "street": "4 Thistledown Ave", "place": 9, "latitude": 41.5, "longitude": -87.5},
    {"id": 703, "street": "99 Somebody's Home", "place": 3, "riders": [1001]},
]


def with_addresses(at: Place) -> None:
    at.town.write_file("staff/addresses.json", json.dumps({"addresses": ADDRESSES}).encode())


def with_grouped_homes(at: Place) -> None:
    """The home of rider 1001 at a place that bin/move-in gather made for homes alone, as bin/site-files serves it."""
    places = people.agency_file(VANS)["places"]
    at.town.write_files(
        places=[{**it, "name": "Area 11"} if it["id"] == 11 else it for it in places]
    )
    home = json.dumps(
        {"addresses": [{"id": 704, "street": "10 Elm St", "place": 11, "riders": [1001]}]}
    ).encode()
    for name in ("staff/addresses.json", "own/1001/addresses.json"):
        at.town.write_file(name, home)


@check
def a_booking_finds_an_address_by_any_part_and_names_it(at: Place) -> None:
    with_addresses(at)
    begin(at, "1002")
    wish(at, start="quillf", goal="thistledown", day=FRIDAY, wish="9:00 AM")
    at.browser.press(BOOK)
    told = results(at, 1)
    trip = last_trip(at, 1002)
    same("the places of the addresses", (3, 9), (trip["from"], trip["to"]))
    holds(
        f"the ticket has the street and the place: {told}",
        "17 Quillfeather Rd, at " in told and "4 Thistledown Ave, at " in told,
    )
    holds(f"the note is not the rider's: {told}", "4411" not in told)
    counted_in(at, "bookings", f"trip={trip['trip']}", "from_address=701", "to_address=702")


@check
def another_riders_home_is_not_offered(at: Place) -> None:
    with_addresses(at)
    begin(at, "1002")
    wish(at, start="somebody")
    at.browser.press(BOOK)
    at.browser.sees("Choose")
    begin(at, "1001")
    wish(at, start="somebody", goal="library")
    same(
        "the own home",
        "99 Somebody's Home (address 703)",
        at.browser.script("return document.querySelector('input[name=from]').value"),
    )


@check
def the_card_the_trips_and_the_letter_have_the_street_of_a_home_in_a_group(at: Place) -> None:
    with_grouped_homes(at)
    at.town.book(1001, FRIDAY, 600, 11, 2)
    begin(at, "1001")
    at.browser.sees("10 Elm St, gate code 4411#")
    at.browser.sees_no("Reading the trips")
    shown = at.browser.text()
    holds(
        f"the trips have the street and not the group: {shown}",
        "10 Elm St" in shown.split("Trips")[-1] and "Area 11" not in shown,
    )
    at.browser.sign_in(at.keys["clerk"], "clerk", "file")
    at.browser.fill("Find a rider", "1001")
    at.browser.press("Show")
    at.browser.find("button", "Print letter 1 of rider 1001")
    at.browser.fill("Print in", "English")
    plain = " ".join(at.browser.print_by("Print letter 1 of rider 1001").text.split())
    holds(
        f"the street stands under the name: {plain}",
        "Rosa Álvarez 10 Elm St Rider number 1001" in plain,
    )


@check
def staff_and_papers_have_the_street_and_not_the_group_at_whose_place_it_is(at: Place) -> None:
    with_grouped_homes(at)
    trip = at.town.book(1001, FRIDAY, 660, 11, 2)
    try:
        at.town.set_clock(FRIDAY, "12:30")
        at.browser.sign_in(at.keys["dispatcher"], "dispatcher", "trips")
        at.browser.sees(f"{trip}", "10 Elm St")
        holds("the trips of the day name the group", "Area 11" not in at.browser.text())
        at.browser.fill("Search trips", "10 elm")
        at.browser.sees("Rosa Álvarez")
        at.browser.script(SAVED)
        at.browser.press("Save or print")
        at.browser.press("Save for a spreadsheet, with names")
        until("nothing is saved", lambda: at.browser.script("return window.saved.length") == 1)
        sheet = bytes(at.browser.script("return window.saved")[0]).decode("utf-8-sig")
        holds(f"the spreadsheet: {sheet}", "10 Elm St" in sheet and "Area 11" not in sheet)
        at.browser.sign_in(at.keys["dispatcher"], "dispatcher", "day")
        paper = print_view(at, "Print the day sheet").text
        holds("the day sheet", "10 Elm St" in paper and "Area 11" not in paper)
        at.town.post("dispatcher", f"/trips/{trip}/outcome", {"outcome": "missed-rider"})
        at.browser.sign_in(at.keys["clerk"], "clerk", "file")
        at.browser.fill("Find a rider", "1001")
        at.browser.press("Show")
        at.browser.sees("notice of a proposed suspension")
        said = at.browser.script(
            "return [...document.querySelectorAll('[data-entry=notice] label')].map((it) => it.textContent).join('; ')"
        )
        holds(
            f"the no-show: {said}",
            f"Trip {trip}:" in said and "10 Elm St" in said and "Area 11" not in said,
        )
    finally:
        at.town.set_clock(TODAY)
