"""What riders get on paper by right: one language for all letters, notices that name each no-show, receipts, what waits."""
import json
import re
from typing import Any

import large_day
from cases import newcomer, opened_entry, show
from checks import Place, check, holds, same
from database import until
from dispatcher import print_view
from people import TODAY

VANS = 1
PRINT = "Print this as a letter"


def open_file(at: Place, rider: int) -> None:
    """A clerk's Standing and letters of a rider."""
    at.browser.sign_in(at.keys["clerk"], "clerk", "file")
    at.browser.fill("Find a rider", str(rider))
    at.browser.press("Show")
    at.browser.sees("The case of")


def on_paper(at: Place, button: str, *words: str) -> None:
    plain = " ".join(at.browser.print_by(button).text.split())
    for it in words:
        holds(f"{it!r} is not on the paper: {plain}", it in plain)


@check
def one_choice_of_language_holds_for_letters_that_rest_on_no_decision(at: Place) -> None:
    waiting, refused = newcomer(at, 1061), newcomer(at, 1062)
    waiting("clerk", "complete")
    refused("clerk", "complete")
    refused("examiner", "refuse", reasons="You told us that you ride Line 1 each day.")
    at.town.set_clock("2025-03-31")
    try:
        open_file(at, 1061)
        at.browser.sees("may ride on Monday, March 31, 2025.", "There is no letter yet.")
        at.browser.fill("Print in", "Español")
        on_paper(
            at, PRINT, "Puede viajar hasta que decidamos su solicitud", "lunes 31 de marzo de 2025"
        )
        at.browser.fill("Print in", "English and Spanish")
        on_paper(
            at,
            PRINT,
            "You can ride until we decide your application",
            "Puede viajar hasta que decidamos su solicitud",
        )
        open_file(at, 1062)
        at.browser.press("Enter rider 1062's appeal against letter 1")
        at.browser.press("Yes, enter the appeal of rider 1062")
        at.browser.sees("is on record. An officer must hold a hearing.")
        at.browser.fill("Print in", "Español")
        on_paper(at, PRINT, "Recibimos su apelación")
        on_paper(at, "Print letter 1 of rider 1062", "Puede apelar hasta el")
    finally:
        at.town.set_clock(TODAY)


MISSED = """<main><section id=missed><h2>Patterns of missed trips</h2></section><details id=rider-1001><summary>Case file of rider 1001</summary>
<p>Missed by the rider on 2025-03-04: trip 7 from place 1 to place 2, window 06:56 to 07:26.</p></details></main>"""


@check
def an_officer_reads_places_by_their_names_and_times_by_the_agencys_clock(at: Place) -> None:
    at.town.write_file("staff/worklist.html", MISSED)
    try:
        show(at, "officer", "officer", 1001)
        at.browser.sees("window 6:56–7:26 AM")
        holds(
            f"a place is a number: {at.browser.text()}",
            not re.search(r"(from|to) place \d", at.browser.text()),
        )
    finally:
        at.town.write_file("staff/worklist.html", "<!doctype html><p>Nothing waits.</p>")


@check
def what_waits_is_said_with_its_day_and_an_application_has_its_receipt(at: Place) -> None:
    newcomer(at, 1063)
    open_file(at, 1063)
    at.browser.sees(
        "Waiting for rider 1063", "No application or appeal is waiting, as far as this page knows."
    )
    opened_entry(at, "complete")
    at.browser.sees("Take the application of rider 1063")
    at.browser.press("Rider 1063's application is complete")
    at.browser.press(re.compile("^Yes: rider 1063's application is complete"))
    at.browser.sees("An application has waited since Mon, Mar 10.")
    at.browser.fill("Print in", "English and Spanish")
    on_paper(
        at,
        PRINT,
        "We have your application of Monday, March 10, 2025. It is complete.",
        "If we have not decided by Monday, March 31, 2025, you can ride from that day until we decide.",
        "Recibimos su solicitud",
    )


TRIPS: list[dict[str, Any]] = [
    {
        "trip": 900 + at,
        "day": f"2025-03-0{1 + at % 9}",
        "window_from": 545,
        "window_to": 575,
        "from": 1,
        "to": 2,
        "status": "missed-rider",
        "wish": 545,
        "by": None,
        "attendant": False,
        "companions": 0,
        "vehicle": 1,
        "fare": 0,
        "due": 0,
    }
    for at in range(12)
]
READS_TRIPS = """const before = window.fetch, trips = arguments[0];
    window.fetch = (path, how) => (/riders\\/1001\\/trips/.test(String(path)) ? Promise.resolve(new Response(JSON.stringify({ trips }), { headers: { "Content-Type": "application/json" } })) : before(path, how));"""


@check
def a_notice_counts_its_characters_and_says_which_trips_it_leaves_out(at: Place) -> None:
    seen = {
        str(it["trip"]): {
            "vehicle": 1,
            "day": it["day"],
            "from": 545,
            "to": 575,
            "arrived": 550 if it["trip"] % 2 else None,
            "wait": 8,
            "minute": 580,
        }
        for it in TRIPS
    }
    at.town.write_file(
        "staff/no-shows.json",
        json.dumps({"made": "2025-03-10T16:00:00Z", "since": "2025-01-01", "no_shows": seen}),
    )
    try:
        at.browser.sign_in(at.keys["clerk"], "clerk", "trips")
        at.browser.script(READS_TRIPS, TRIPS)
        at.browser.go_part("clerk", "file")
        at.browser.fill("Find a rider", "1001")
        at.browser.press("Show")
        at.browser.sees("Give Rosa Álvarez (1001) notice of a proposed suspension")
        opened_entry(at, "notice")
        boxes = [
            (trip, at.browser.find("field", re.compile(f"^Trip {trip}:")))
            for trip in range(900, 912)
        ]
        same(
            "only those for which something speaks are checked",
            [trip for trip in range(900, 912) if trip % 2],
            [trip for trip, box in boxes if box.is_selected()],
        )
        at.browser.sees(" of 500 characters.")
        for _, box in boxes:
            if not box.is_selected():
                box.click()
        at.browser.fill("Anything else for the letter (optional)", "x" * 150)
        until(
            "it does not say what it leaves out",
            lambda: "Only the trips that the notice names count." in at.browser.text(),
        )
        count = re.search(r"The text of the notice has (\d+) of 500 characters", at.browser.text())
        holds(f"the count is {count}", count and int(count[1]) <= 500)
    finally:
        at.town.write_file("staff/no-shows.json", None)


@check
def the_mark_of_a_trial_program_is_counted_into_each_sheet_of_a_manifest(at: Place) -> None:
    large_day.write(at.town)
    path = f"{at.town.folder}/site/agency.json"
    with open(path, encoding="utf-8") as file:
        agency = json.load(file)
    at.town.write_file("agency.json", json.dumps({**agency, "unproved": True}))
    at.town.set_clock("2025-03-11", "11:00")
    try:
        at.browser.sign_in(at.keys["dispatcher"], "dispatcher", "trips")
        at.browser.script(
            large_day.READS_DAY, large_day.sheet("2025-03-11"), large_day.rows("2025-03-11")
        )
        at.browser.go_part("dispatcher", "day")
        paper = print_view(at, "Print all 32 manifests")
        for sheet in paper.page_texts:
            holds(
                f"a sheet has no page number or no mark: {sheet[:200]}",
                re.search(r"Page \d+ of \d+", sheet)
                and "Nothing of it was proved." in " ".join(sheet.split()),
            )
    finally:
        at.town.write_files()
        at.town.set_clock(TODAY)
