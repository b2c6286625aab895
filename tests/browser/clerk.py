"""The clerk's counter: riders found by name, what is known of them and how old it is, their records."""
import contextlib
import csv
import datetime
import json
import operator
import os
import re
from collections.abc import Callable, Iterator
from pathlib import Path
from typing import Any

from selenium.webdriver.common.action_chains import ActionChains
from selenium.webdriver.common.by import By
from selenium.webdriver.common.keys import Keys

from booking import BOOK, THURSDAY, Keystrokes, begin, results, wait_for, wish
from checks import Place, check, holds, same
from database import until
from people import TODAY, TOMORROW, ZONE

VANS = 1
MANY = 20_000
# Far above what is seen (a second and 50 milliseconds are the aim): a busy machine is no fault of the pages.
MOST_LOADING, MOST_SEARCHING = 10, 0.5
# How long the opened roster of this window takes to find what is typed, in milliseconds: the longest of some searches,
# each the shortest of some tries, since the machine does other things beside.
SEARCHES = """
const [typed, done] = arguments;
import("/parts/roster.js").then(({ findRiders }) => {
    const tried = (text) => {
        const began = performance.now();
        findRiders(text, 12);
        return performance.now() - began;
    };
    done(Math.max(...typed.map((text) => Math.min(...Array.from({ length: 5 }, () => tried(text))))));
});
"""
# From now on the seconds until the page says how many riders there are.
LOADING = """
const [text] = arguments, file = document.getElementById("roster-file");
file.addEventListener("change", () => {
    const began = performance.now(), watch = new MutationObserver(() => {
        if (!document.body.innerText.includes(text)) return;
        watch.disconnect();
        window.loading = (performance.now() - began) / 1000;
    });
    watch.observe(document.body, { subtree: true, childList: true, characterData: true });
}, { once: true, capture: true });
"""


def found_by(at: Place, typed: str) -> Any:
    at.browser.fill("Find a rider", "")
    at.browser.find("field", "Find a rider").send_keys(typed)
    at.browser.find("option", re.compile("."))
    return at.browser.script(
        """return [...document.querySelectorAll('[role=option]')]
        .map((it) => it.firstChild.textContent)"""
    )


@check
def a_number_that_nobody_has_leaves_the_focus_beside_the_answer(at: Place) -> None:
    at.browser.sign_in(at.keys["clerk"], "clerk", "trips")
    at.browser.fill("Find a rider", "4003")
    at.browser.keys(Keys.ENTER)
    at.browser.sees("Make the record of rider 4003")
    at.browser.settled(500)
    holds(
        "the focus is on nothing",
        at.browser.script("return document.activeElement !== document.body"),
    )


@check
def riders_are_found_by_parts_of_their_names_without_accents(at: Place) -> None:
    begin(at)
    same("by a part", ["Rosa Álvarez (1001)"], found_by(at, "alva"))
    same("by two parts in any order", ["Ana María Núñez (1006)"], found_by(at, "nun ana"))
    same("by a telephone number", ["Lucille Baker (1004)"], found_by(at, "555-0104"))
    same("by a number", "Dorothy O'Neill (1002)", found_by(at, "1002")[0])


@check
def a_number_that_begins_others_shows_that_very_rider(at: Place) -> None:
    begin(at)
    at.browser.keys(*"100", Keys.ENTER)
    at.browser.sees("Rider 100", "There is no rider of this number.")


@check
def what_is_known_of_a_rider_is_told(at: Place) -> None:
    begin(at, "1001")
    at.browser.sees(
        "May ride until Feb 28, 2026",
        "555-0101",
        "12 Oak Street",
        "cane",
        "speaks Spanish",
        "Español",
    )
    begin(at, "1009")
    at.browser.sees("May ride: presumed eligible")
    begin(at, "1010")
    at.browser.sees("April and May", "Conditional")
    begin(at, "1008")
    at.browser.sees("May ride: a visitor")


@check
def an_attendant_and_a_wheelchair_are_on_the_card(at: Place) -> None:
    head = "rider,name,telephone,language,home,usual,aid,note,attendant"
    at.town.write_file(
        "staff/roster.csv",
        f"{head}\n1003,Henry Park,555-0103,en,13,,white cane,,yes\n1004,Lucille Baker,555-0104,en,14,,power wheelchair,,no\n",
    )
    try:
        for rider, words in [
            ("1003", ["white cane", "Travels with an attendant"]),
            ("1004", ["power wheelchair", "No attendant"]),
        ]:
            begin(at, rider)
            card = until(
                "there is no card",
                lambda: at.browser.script(
                    "return document.querySelector('.rider-card .chips')?.innerText"
                ),
            )
            holds(f"{words} are on the card: {card}", all(it in card for it in words))
    finally:
        at.town.write_files()


@check
def a_roster_from_disk_is_read_in_this_window_alone(at: Place) -> None:
    at.town.write_file("staff/roster.csv", None)
    path = os.path.join(at.folder, "own roster.csv")
    Path(path).write_text(
        'Name,RIDER,telephone,unknown\n"O\'Neill, Dorothy ""Dot""",1002,555-7777,x\n'
        "Nobody,zero,,\nTwice,1002,,\n",
        "utf-8-sig",
    )
    try:
        begin(at)
        at.browser.press("Find riders by name: open a roster")
        at.browser.requests()
        at.browser.driver.find_element(By.ID, "roster-file").send_keys(path)
        at.browser.sees(
            "From own roster.csv: 1 rider.",
            "Row 3 of the roster: “zero” is no rider's number.",
            "rider 1002 is there twice",
        )
        same(
            "sent, but for what the page reads by itself",
            [],
            [it for it in at.browser.requests() if "/staff/" not in it],
        )
        same("found", ['O\'Neill, Dorothy "Dot" (1002)'], found_by(at, "dot"))
    finally:
        at.town.write_files()


def big_roster(path: str) -> None:
    """A spreadsheet's file of many riders, with the names that many have."""
    firsts, lasts = ["Ana", "José", "Mary", "Wei", "Fatima", "John"], [
        "García",
        "O'Neill",
        "Smith",
        "Núñez",
        "Lee",
    ]
    with open(path, "w", encoding="utf-8-sig", newline="") as file:
        rows = csv.writer(file)
        rows.writerow(["rider", "name", "telephone", "language", "home", "usual", "aid", "note"])
        rows.writerows(
            [
                number,
                f"{lasts[number % 5]} {number % 997}, {firsts[number % 6]}",
                f"555-{number:07}",
                "es",
                "",
                "6 2",
                "walker",
                "rings twice, then waits",
            ]
            for number in range(1, MANY)
        )
        rows.writerow([MANY, "Brontë, Zoë", "555-9999", "en", "", "", "", ""])


@check
def twenty_thousand_riders_are_opened_and_searched_at_once(at: Place) -> None:
    path = os.path.join(at.folder, "many riders.csv")
    big_roster(path)
    begin(at)
    at.browser.press(re.compile("^Roster: "))
    at.browser.script(LOADING, f"{MANY:,} riders")
    at.browser.driver.find_element(By.ID, "roster-file").send_keys(path)
    at.browser.sees(f"From many riders.csv: {MANY:,} riders.")
    loading = until("it was not measured", lambda: at.browser.script("return window.loading"))
    typed = ["g", "garcia", "nunez 5", "555-0012345", "19999", "zz"]
    searching = at.browser.driver.execute_async_script(SEARCHES, typed)
    holds(f"it took {loading:.2f} s to load", loading <= MOST_LOADING)
    holds(f"a search took {searching:.1f} ms", searching <= MOST_SEARCHING * 1000)
    told(f"{MANY} riders load in {loading:.2f} s, the slowest search takes {searching:.1f} ms")
    same("who is found", [f"Brontë, Zoë ({MANY})"], found_by(at, "zoe bron"))


def told(figure: str) -> None:
    """Where the environment asks for times, the figures too."""
    if os.environ.get("PAGES_TIMES"):
        print(f"clerk: {figure}", flush=True)


@check
def a_record_that_is_there_is_changed_only_after_a_question(at: Place) -> None:
    at.browser.sign_in(at.keys["clerk"], "clerk", "rider")
    at.browser.fill("Rider number", "1004")
    at.browser.fill("Kind", "resident")
    at.browser.press("Save the record")
    at.browser.sees("Choose yes or no.")
    for group, answer in [
        ("May bring an attendant, who rides free", "No"),
        ("Comes in a wheelchair, and takes a wheelchair place", "Yes"),
    ]:
        at.browser.press(answer, "field", at.browser.find("group", group))
    at.browser.press("Save the record")
    at.browser.sees(
        "Lucille Baker (1004) is on record already. Change the record?",
        "The desk does not tell the rest.",
        "Comes in a wheelchair.",
    )
    at.browser.press("Yes, change the record of rider 1004")
    at.browser.sees("The record of Lucille Baker (1004) is changed. Resident. Brings no attendant.")
    at.browser.fill("Rider number", "1500")
    at.browser.press("Save the record")
    at.browser.sees("Rider 1500 is new on record.")


@check
def the_skip_link_moves_the_focus_and_nothing_else(at: Place) -> None:
    begin(at, "1006")
    at.browser.fill("From", "library")
    at.browser.script("document.getElementById('skip').focus()")
    at.browser.keys(Keys.ENTER)
    same("the focus", "main", at.browser.script("return document.activeElement.id"))
    same("what was typed", "Public Library (7)", at.browser.value("From"))
    holds("the address", at.browser.script("return location.hash") == "#clerk/trips")


@check
def an_address_of_no_part_is_corrected(at: Place) -> None:
    begin(at)
    at.browser.script("location.hash = 'clerk/nosuch'")
    wait_for(at, "the address is that of the first part", "location.hash === '#clerk/trips'")


@check
def a_note_of_one_kind_is_there_once(at: Place) -> None:
    begin(at, "1006", "clerk")
    for _ in range(3):
        # (another device writes with the same key and a number that is higher by far, however slow this is)
        at.town.number += 100_000
        at.town.post(
            "clerk",
            "/riders",
            {"id": 1600, "kind": "resident", "attendant": False, "wheelchair": False},
        )
        at.browser.fill_all(
            {"From": "library", "To": "senior", "Day": "2025-03-20", "Pickup time": "2 pm"}
        )
        at.browser.press(BOOK)
        until(
            "the booking is answered or asked about",
            lambda: at.browser.script(
                "return !!document.querySelector('.legs .ticket, .legs .refused, dialog')"
            ),
        )
        if at.browser.is_there("button", "Yes, book once more"):
            at.browser.press("Yes, book once more")
            wait_for(
                at,
                "the second",
                "!document.querySelector('dialog') && !!document.querySelector('.legs .ticket')",
            )
    same(
        "notes",
        1,
        at.browser.script("return document.querySelectorAll('[data-note=others]').length"),
    )
    at.browser.press("Close this note")
    same("notes", 0, at.browser.script("return document.querySelectorAll('[data-note]').length"))


@check
def nothing_is_offered_where_the_key_may_not_or_nobody_is_there(at: Place) -> None:
    for key, number, words in [
        ("driver 1", "1001", "This key may not do this."),
        ("clerk", "1999", "There is no rider of this number."),
    ]:
        at.browser.sign_in(at.keys[key], "clerk", "trips")
        at.browser.fill("Find a rider", number)
        at.browser.press("Show")
        at.browser.sees(words)
        same("how often it is told", 1, at.browser.text().count(words))
        holds("the form is there", not at.browser.is_there("button", BOOK))


@check
def nothing_is_entered_for_nobody_and_for_a_visitor(at: Place) -> None:
    at.browser.sign_in(at.keys["clerk"], "clerk", "file")
    for number, words in [
        ("1999", "There is no rider of this number."),
        ("1008", "This rider is a visitor, who has no case file."),
    ]:
        at.browser.fill("Find a rider", number)
        at.browser.press("Show")
        at.browser.sees(words)
        same(
            "entries that are offered",
            0,
            at.browser.script("return document.querySelectorAll('.entry').length"),
        )
    at.browser.sees("may ride on Monday, March 10, 2025")


@check
def a_rider_of_the_roster_without_a_record_gets_one(at: Place) -> None:
    file = Path(at.folder, "new rider.csv")
    file.write_text("rider,name\n1700,Nora Quinn\n", "utf-8")
    begin(at)
    at.browser.press(re.compile("^Roster: "))
    at.browser.driver.find_element(By.ID, "roster-file").send_keys(str(file))
    at.browser.sees("From new rider.csv: 1 rider.")
    at.browser.fill("Find a rider", "nora")
    at.browser.keys(Keys.ENTER)
    at.browser.sees("There is no rider of this number.")
    at.browser.press("Make the record of Nora Quinn (1700)", "link")
    at.browser.find("button", "Save the record")
    same("the number in the form", "1700", at.browser.value("Rider number"))


@check
def who_does_nothing_for_long_is_signed_out(at: Place) -> None:
    at.town.write_files(idle_minutes=2)
    try:
        with at.browser.clock(hurry=20):
            begin(at, "1001")
            at.browser.script("const real = Date.now; Date.now = () => real() + 70000")
            at.browser.sees("You will be signed out in a minute.")
            # (the note moves the page, which is no use of it)
            at.browser.script("document.dispatchEvent(new Event('scroll', { bubbles: true }))")
            at.browser.settled()
            at.browser.sees("You will be signed out in a minute.")
            at.browser.script("scrollTo(0, 500)")
            top = at.browser.script(
                "return document.querySelector('[data-note]').getBoundingClientRect().top"
            )
            holds(f"the warning is at {top}", 0 <= top < 300)
            at.browser.keys(Keys.TAB)
            at.browser.sees_no("You will be signed out in a minute.")
            at.browser.script("const now = Date.now; Date.now = () => now() + 121000")
            at.browser.sees("Nobody did anything for 2 minutes", "Sign in")
        kept = at.browser.script(
            "return JSON.stringify([{ ...localStorage }, { ...sessionStorage }])"
        )
        for secret in ["1001", at.keys["second clerk"], "desk.number"]:
            holds(f"{secret} is kept: {kept}", secret not in kept)
    finally:
        at.town.write_files()


# How old what is shown is.


def list_of(at: Place) -> Any:
    return at.browser.script(
        """return [...document.querySelectorAll('h2')].find((it) => /^Trips of/.test(it.textContent))
        ?.closest('.trips-card').innerText ?? ''"""
    )


def changed_beside(at: Place, trip: int, minute: int) -> str:
    """Another device moves a trip; the new window as the page writes it."""
    told = at.town.post(
        "third clerk",
        f"/trips/{trip}/change",
        {
            "day": THURSDAY,
            "wish": minute,
            "from": 1,
            "to": 2,
            "by": None,
            "attendant": False,
            "companions": 0,
        },
    )
    return clock_of(told["window_from"]).removesuffix(" AM").removesuffix(" PM")


def clock_of(minute: Any) -> str:
    return f"{minute // 60 % 12 or 12}:{minute % 60:02} {'AM' if minute < 720 else 'PM'}"


@check
def a_list_is_read_again_at_show_at_a_look_and_by_itself(at: Place) -> None:
    trip = at.town.book(1005, THURSDAY, 600, 1, 2)
    with at.browser.clock(hurry=20):
        begin(at, "1005")
        until("the trip is not listed", lambda: str(trip) in list_of(at))
        acts: list[tuple[str, int, Callable[[], object]]] = [
            ("the search", 660, lambda: at.browser.keys("/", *"1005", Keys.ENTER)),
            ("a look", 720, lambda: at.browser.script("window.dispatchEvent(new Event('focus'))")),
            ("half a minute", 780, lambda: at.browser.passes(31)),
        ]
        for what, minute, act in acts:
            moved = changed_beside(at, trip, minute)
            act()
            until(f"{what} shows {moved}", lambda moved=moved: moved in list_of(at), 10)
    at.town.post("third clerk", f"/trips/{trip}/cancel", {})


@check
def what_another_window_writes_is_seen_at_once(at: Place) -> None:
    trip = at.town.book(1005, THURSDAY, 600, 1, 2)
    begin(at, "1005", "clerk")
    until(
        "the trip is not listed", lambda: f"\n{trip}\t" in list_of(at) or str(trip) in list_of(at)
    )
    with at.browser.second_window() as (first, second):
        begin(at, "1005")
        at.browser.press(f"Cancel trip {trip} of Samuel Grant (1005)")
        at.browser.press(f"Yes, cancel trip {trip}")
        at.browser.sees(f"Trip {trip} of Samuel Grant (1005) is canceled.")
        first()
        until(
            "the other window's list",
            lambda: not at.browser.is_there("button", re.compile(f"^Cancel trip {trip} ")),
        )
        second()


@check
def what_nothing_answers_for_stays_and_says_its_age(at: Place) -> None:
    at.town.book(1005, THURSDAY, 600, 1, 2)
    begin(at, "1005")
    at.browser.sees("Upcoming", "May ride until")
    at.town.stop_desk()
    try:
        at.browser.script("window.dispatchEvent(new Event('focus'))")
        at.browser.sees(
            "As of 12:00 PM. There is no answer to a newer question yet.",
            "May ride until",
            "Upcoming",
        )
    finally:
        at.town.start_desk()
    at.browser.script("window.dispatchEvent(new Event('focus'))")
    at.browser.sees_no("As of 12:00 PM")
    at.browser.sees("Upcoming")


@check
def the_same_trip_of_another_clerk_is_asked_about(at: Place) -> None:
    begin(at, "1005")
    at.browser.sees("Trips of Samuel Grant")
    at.town.book(1005, THURSDAY, 900, 3, 7)
    wish(at, start="school", goal="library", day=THURSDAY, wish="3 pm")
    at.browser.press(BOOK)
    at.browser.find("button", "Yes, book once more")
    at.browser.press("No, go back")


# Where the van of today is.


def made_at(minute: Any) -> str:
    """A minute of the day after, by the agency's clocks, as the file of the day has it."""
    there = datetime.datetime.fromisoformat(TOMORROW).replace(
        hour=minute // 60, minute=minute % 60, tzinfo=ZONE
    )
    return there.astimezone(datetime.timezone.utc).strftime("%Y-%m-%dT%H:%M:%SZ")


@contextlib.contextmanager
def late(at: Place, rider: int, minutes: int = 2) -> Iterator[Any]:
    """So many minutes after the window of a rider's first trip of the day after."""
    trip = min(
        (
            it
            for it in at.town.trips_of(rider)
            if it["day"] == TOMORROW and it["status"] == "booked"
        ),
        key=operator.itemgetter("window_from"),
    )
    minute = trip["window_to"] + minutes
    at.town.set_clock(TOMORROW, f"{minute // 60:02}:{minute % 60:02}")
    try:
        yield trip, minute
    finally:
        at.town.write_file("staff/today.json", None)
        at.town.set_clock(TODAY)


@check
def where_a_late_van_is_is_answered_without_scrolling(at: Place) -> None:
    with late(at, 1001) as (trip, minute):
        taps = [
            {"trip": trip["trip"] + 1, "kind": "aboard", "minute": minute - 5},
            {"trip": "x"},
            None,
        ]
        at.town.write_file(
            "staff/today.json",
            json.dumps(
                {
                    "day": TOMORROW,
                    "made": made_at(minute),
                    "vehicles": {str(trip["vehicle"]): {"taps": taps}},
                }
            ),
        )
        with at.browser.screen(1366, 625):
            begin(at, "1001")
            at.browser.sees(
                "Today",
                "Window over, no update from Van 1, blue",
                "Ask dispatch where Van 1, blue is.",
                f"Van 1, blue picked up trip {trip['trip'] + 1} at {clock_of(minute - 5)}.",
            )
            seen = at.browser.script(
                """const it = document.querySelector('[data-trip] .state').getBoundingClientRect();
                return [it.top >= 0, it.bottom <= innerHeight, scrollY]"""
            )
            same("the state is in view, and nothing was scrolled", [True, True, 0], seen)
        at.browser.sign_in(at.keys["dispatcher"], "dispatcher", "riders")
        at.browser.fill("Find a rider", "1001")
        at.browser.press("Show")
        at.browser.sees(
            "Window over, no update from Van 1, blue", "Call the driver of Van 1, blue."
        )
        at.town.write_file("staff/today.json", "no JSON")
        begin(at, "1001")
        at.browser.sees("Window over, no update from Van 1, blue")


@check
def when_is_my_van_is_answered_without_scrolling(at: Place) -> None:
    """A window of 1366 by 768 shows 625 lines of the page. The rider of the longest card, and one who is suspended."""
    at.town.book(1001, "2025-03-20", 600, 11, 6)
    with at.browser.screen(1366, 625):
        begin(at, "1001")
        at.browser.sees("Upcoming")
        until(
            "the first trip is not there",
            lambda: at.browser.script("return !!document.querySelector('table.trips tbody tr')"),
        )
        at.browser.settled()
        seen = at.browser.script(
            """const row = document.querySelector('table.trips tr[data-trip]');
            const [window, , van] = [...row.querySelectorAll('th, td')].map((it) => it.getBoundingClientRect());
            return [window, van].map((it) => it.top >= 0 && it.bottom <= innerHeight && it.left >= 0 && it.right <= innerWidth).concat(scrollY)"""
        )
    same(
        "the pickup and the van of the next trip are in view, and nothing was scrolled",
        [True, True, 0],
        seen,
    )


@check
def what_was_booked_is_read_out_without_scrolling(at: Place) -> None:
    with at.browser.screen(1366, 625):
        for back in ["", "3p"]:
            keys = begin(at, "1002")
            keys.press(
                "b",
                "school",
                Keys.TAB,
                "senior",
                Keys.TAB,
                "f",
                Keys.TAB,
                "9a",
                Keys.TAB,
                Keys.TAB,
                *([back] if back else []),
                Keys.ENTER,
            )
            until(
                "nothing is booked",
                lambda back=back: at.browser.script(
                    "return document.querySelectorAll('.legs .ticket').length"
                )
                == (2 if back else 1),
            )
            at.browser.settled()
            seen = at.browser.script(
                """return [...document.querySelectorAll('.legs .ticket .window')].map((it) => it.getBoundingClientRect())
                .map((it) => it.top >= 0 && it.bottom <= innerHeight)"""
            )
            holds(f"the pickup is in view: {seen}", seen[0])
            for trip in [
                it["trip"]
                for it in at.town.trips_of(1002)
                if it["day"] == "2025-03-14" and it["status"] == "booked"
            ]:
                at.town.post("third clerk", f"/trips/{trip}/cancel", {})


@check
def a_question_does_not_outlive_its_screen(at: Place) -> None:
    trip = at.town.book(1005, THURSDAY, 700, 7, 8)
    begin(at, "1005")
    for part in ["waits", "trips"]:
        at.browser.go_part("clerk", part)
        at.browser.shown(f"clerk/{part}")
    at.browser.press(f"Cancel trip {trip} of Samuel Grant (1005)")
    at.browser.find("button", f"Yes, cancel trip {trip}")
    at.browser.driver.back()
    at.browser.shown("clerk/waits")
    until(
        "the question is still there",
        lambda: not at.browser.script("return document.querySelector('dialog[open]')"),
        10,
    )
    same(
        "the trip",
        ["booked"],
        [it["status"] for it in at.town.trips_of(1005) if it["trip"] == trip],
    )
    at.town.post("third clerk", f"/trips/{trip}/cancel", {})


@check
def a_trip_of_today_is_earlier_once_it_has_an_outcome(at: Place) -> None:
    with late(at, 1002) as (trip, _):
        begin(at, "1002")
        at.browser.sees("Window over, no update from Van 1, blue")
        at.town.post("dispatcher", f"/trips/{trip['trip']}/outcome", {"outcome": "ridden"})
        at.browser.keys("/", *"1002", Keys.ENTER)
        until(
            "it is under Today still",
            lambda: not at.browser.script(
                "return !!document.querySelector(`[data-trip='${arguments[0]}']`)", trip["trip"]
            ),
        )
        at.browser.sees("1 earlier")


# Lists that are searched.


def from_disk(at: Place, *rows: str) -> None:
    path = os.path.join(at.folder, "names.csv")
    Path(path).write_text("\n".join(["rider,name,telephone", *rows]), "utf-8")
    at.browser.press(re.compile("^Roster: "))
    at.browser.driver.find_element(By.ID, "roster-file").send_keys(path)
    at.browser.sees(f"From names.csv: {len(rows)} riders.")


@check
def names_are_found_however_their_signs_are_typed(at: Place) -> None:
    begin(at)
    from_disk(at, "1002,Dorothy O'Neill,", "1005,Seán O’Brien,", "1006,Ana Núñez-Ortiz,")
    for typed, name in [
        ("oneill", "Dorothy O'Neill (1002)"),
        ("O\u2019Neill", "Dorothy O'Neill (1002)"),
        ("o neill", "Dorothy O'Neill (1002)"),
        ("O'Brien", "Seán O’Brien (1005)"),
        ("obrien", "Seán O’Brien (1005)"),
        ("Ana Núñez-Ortiz", "Ana Núñez-Ortiz (1006)"),
        ("nunez ortiz", "Ana Núñez-Ortiz (1006)"),
        ("nunez-ortiz", "Ana Núñez-Ortiz (1006)"),
        ("#1006", "Ana Núñez-Ortiz (1006)"),
    ]:
        same(typed, name, (found_by(at, typed) or [""])[0])


@check
def a_telephone_number_is_searched_before_riders_numbers(at: Place) -> None:
    begin(at)
    from_disk(
        at,
        "1007,Walter Kowalski,315-555-0133",
        "1008,Irene Kowalski,(315) 555-0133",
        "1005,Samuel Grant,315-555-0177",
    )
    for typed in ["3155550133", "+1 315 555-0133"]:
        same(typed, ["Walter Kowalski (1007)", "Irene Kowalski (1008)"], found_by(at, typed))
    at.browser.keys(Keys.ENTER)
    at.browser.sees("Trips of Walter Kowalski (1007)")
    at.browser.fill("Find a rider", "3155550199")
    at.browser.keys(Keys.ENTER)
    at.browser.sees("No rider has this telephone number.")
    holds(
        "a record of it is offered", not at.browser.is_there("link", re.compile("Make the record"))
    )


@check
def tab_leaves_a_long_list_for_the_next_field(at: Place) -> None:
    begin(at, "1001")
    for keys, value in [
        (["e"], "e"),
        ([Keys.ARROW_DOWN], None),
        ([Keys.ARROW_DOWN, Keys.ARROW_DOWN], "St. Mary's Dialysis (6)"),
    ]:
        at.browser.fill("From", "")
        at.browser.find("field", "From").click()
        at.browser.keys(*keys)
        at.browser.find("option", re.compile("."))
        at.browser.keys(Keys.TAB)
        same(f"the focus after {keys!r}", "To", at.browser.focused())
        if value:
            same("what stands in the field", value, at.browser.value("From"))


@check
def a_tap_opens_the_places_with_the_riders_own_first(at: Place) -> None:
    begin(at, "1001")
    at.browser.find("field", "From").click()
    at.browser.find("option", re.compile("^12 Oak Street"))
    shown = at.browser.script(
        "return [...document.querySelectorAll('[role=option]')].map((it) => it.firstChild.textContent)"
    )
    same(
        "the first ones",
        ["12 Oak Street (11)", "St. Mary's Dialysis (6)", "General Hospital (2)"],
        shown[:3],
    )
    holds("all can be reached", len(shown) >= 10)
    at.browser.press(re.compile("^12 Oak Street"), "option")
    same("what stands in the field", "12 Oak Street (11)", at.browser.value("From"))
    same("the focus", "From", at.browser.focused())


@check
def a_slash_leads_to_the_search_from_anywhere_but_a_text_field(at: Place) -> None:
    begin(at, "1001")
    same("the focus", "who", at.browser.script("return document.activeElement.id"))
    at.browser.keys("/")
    same("the focus after a slash", "Find a rider", at.browser.focused())
    same("what is in the field, for who calls next", "", at.browser.value("Find a rider"))
    at.browser.find("field", "From").click()
    at.browser.keys("/")
    same("in a text field", ("From", "/"), (at.browser.focused(), at.browser.value("From")))
    at.browser.go_part("clerk", "rider")
    at.browser.shown("clerk/rider")
    at.browser.keys("/")
    until("the search has the focus", lambda: at.browser.focused() == "Find a rider")
    at.browser.keys(*"1002", Keys.ENTER)
    at.browser.shown("clerk/trips")
    at.browser.sees("Trips of Dorothy O'Neill (1002)")


@check
def a_note_that_is_closed_leaves_the_focus_where_it_was(at: Place) -> None:
    begin(at, "1001")
    at.browser.script(
        """return import("/parts/notes.js").then(({ note }) => { note("one", "One note."); note("two", "Two notes."); })"""
    )
    at.browser.find("field", "From").click()
    one, two = (
        at.browser.driver.find_element(By.CSS_SELECTOR, f"[data-note={it}] button")
        for it in ("one", "two")
    )
    one.click()
    same(
        "the next note has it",
        "two",
        at.browser.script("return document.activeElement.closest('[data-note]')?.dataset.note"),
    )
    two.click()
    same("and then what had it before", "From", at.browser.focused())


# How many keys a call takes, from the search, where the rider's name is known.


def known(at: Place) -> Keystrokes:
    """Three letters of a name, and Enter."""
    keys = begin(at)
    keys.press("alv")
    at.browser.find("option", re.compile("Rosa"))
    keys.press(Keys.ENTER)
    wait_for(at, "the rider", "document.activeElement.id === 'who'")
    at.browser.find("button", re.compile("^More for trip"))
    return keys


def back_to(at: Place, keys: Any, name: str) -> None:
    for _ in range(12):
        if re.search(name, at.browser.focused()):
            return
        ActionChains(at.browser.driver).key_down(Keys.SHIFT).send_keys(Keys.TAB).key_up(
            Keys.SHIFT
        ).perform()
        keys.count += 1
    raise AssertionError(f"no focus on {name}")


def on_to(at: Place, keys: Any, name: str) -> None:
    for _ in range(12):
        if re.search(name, at.browser.focused()):
            return
        keys.press(Keys.TAB)
    raise AssertionError(f"no focus on {name}")


@check
def frequent_calls_take_few_keys(at: Place) -> None:
    counts = {}
    for task, day, time, back in [
        ("one-way, name known", "f", "1p", ()),
        ("round trip", "m", "9a", (Keys.TAB, Keys.TAB, "2p")),
    ]:
        keys = known(at)
        keys.press("b", "sch", Keys.TAB, "sen", Keys.TAB, day, Keys.TAB, time, *back, Keys.ENTER)
        results(at, 2 if back else 1)
        counts[task] = keys.count
        holds(f"{task}: {keys.count} keys", keys.count <= 30)
    at.town.book(1001, "2025-03-21", 600, 11, 6)
    keys = known(at)
    holds(f"may I ride, when is my van: {keys.count} keys", keys.count <= 10)
    counts |= {"when is my van": keys.count, "may I ride": keys.count}
    at.browser.sees("May ride until", "Pickup")
    keys.press("t")
    on_to(at, keys, "^More for trip")
    keys.press(Keys.ENTER)
    wait_for(at, "the menu", "document.activeElement.role === 'menuitem'")
    keys.press(Keys.ENTER)
    wait_for(at, "the day has the focus", "!!document.activeElement.closest('.day-grid')")
    keys.press("f", Keys.ENTER)
    results(at, 1)
    holds(f"the same trip on another day: {keys.count} keys", keys.count <= 13)
    counts["same trip on another day"] = keys.count
    keys = known(at)
    keys.press("t")
    on_to(at, keys, "^Change trip")
    keys.press(Keys.ENTER)
    wait_for(at, "the change has the focus", "document.activeElement.id.startsWith('change-')")
    while at.browser.focused() != "Pickup time":
        keys.press(Keys.TAB)
    keys.press("3p", Keys.ENTER)
    at.browser.sees("is changed for Rosa Álvarez (1001)")
    holds(f"an hour later: {keys.count} keys", keys.count <= 15)
    counts["return an hour later"] = keys.count
    keys = known(at)
    keys.press("t")
    on_to(at, keys, "^Cancel trip")
    keys.press(Keys.ENTER)
    back_to(at, keys, "^Yes")
    keys.press(Keys.ENTER)
    at.browser.sees("is canceled.")
    holds(f"a trip is given up: {keys.count} keys", keys.count <= 11)
    counts["cancel"] = keys.count
    print(f"keys of the seven tasks: {counts}")
    keys.press("/")
    same("one key leads back to the search", "Find a rider", at.browser.focused())


# The call screen.

LARGEST = """return [...document.querySelectorAll("body *")].filter((it) => it.checkVisibility() && [...it.childNodes].some((one) => one.nodeType === 3 && one.nodeValue.trim()))
    .map((it) => [parseFloat(getComputedStyle(it).fontSize), it.textContent.trim()]).sort((one, other) => other[0] - one[0])"""


@check
def rider_trips_and_booking_stand_above_the_fold(at: Place) -> None:
    at.town.book(1002, "2025-03-20", 600, 12, 6)
    with at.browser.screen(1366, 625):
        begin(at, "1002")
        at.browser.find("button", re.compile("^More for trip"))
        at.browser.settled()
        places = at.browser.script(
            """return ["#who", "tr[data-trip]", "form.wish [name=from]", "form.wish button[type=submit]"]
            .map((it) => document.querySelector(it).getBoundingClientRect()).map(({ top, bottom, left, right }) => [top, bottom, left, right])"""
        )
    holds(
        f"all of it is in view: {places}",
        all(top >= 0 and bottom <= 625 for top, bottom, *_ in places),
    )
    holds(f"the booking is beside the rider: {places}", places[2][2] > places[0][3])


@check
def the_pickup_window_is_the_largest_line(at: Place) -> None:
    trip = at.town.book(1002, "2025-03-20", 600, 12, 6)
    begin(at, "1002")
    largest = at.browser.script(LARGEST)
    holds(f"nothing is as large as a window: {largest[:3]}", largest[0][0] < 30)
    wish(at, start="school", goal="senior", day="2025-03-21", wish="2 pm")
    at.browser.press(BOOK)
    results(at, 1)
    (size, text), (other, _), *_ = at.browser.script(LARGEST)
    holds(
        f"{text!r} at {size}", size == 40 and re.fullmatch(r"\d+:\d\d.*[AP]M", text) and other < 30
    )
    at.browser.press("Next caller")
    same("the next caller", "Find a rider", at.browser.focused())
    for it in (trip, max(it["trip"] for it in at.town.trips_of(1002))):
        at.town.post("third clerk", f"/trips/{it}/cancel", {})


def rail(at: Place, heading: str) -> Any:
    return at.browser.script(
        """const [heading] = arguments, it = [...document.querySelectorAll("h2")].find((it) => it.textContent === heading)?.closest("section");
        return [...it?.querySelectorAll("li") ?? []].map((it) => it.innerText)""",
        heading,
    )


TOO_WIDE = """return [...document.querySelectorAll(".rail li small:not(.cut)")].filter(
    (it) => it.scrollWidth > it.clientWidth).map((it) => it.innerText)"""


@check
def who_called_and_whom_to_call_back_stand_beside_the_rider(at: Place) -> None:
    begin(at, "1004")
    wish(at, start="88 Pine", goal="senior", day="2025-03-21", wish="2 pm")
    at.browser.press(BOOK)
    results(at, 1)
    at.browser.fill("Find a rider", "1002")
    at.browser.keys(Keys.ENTER)
    at.browser.sees("Book for Dorothy")
    recent = rail(at, "Recent")
    same(
        "recent callers",
        ["Dorothy O'Neill\n1002 · now", True],
        [recent[0], recent[1].endswith("booked 1")],
    )
    at.browser.press("Add this caller")
    at.browser.fill("Why", "wants to know of a later return")
    at.browser.keys(Keys.ENTER)
    until(
        "nobody is to be called back",
        lambda: [
            it for it in rail(at, "Call back") if "Dorothy" in it and "later return · since" in it
        ],
    )
    same("reasons that do not fit", [], at.browser.script(TOO_WIDE))
    at.browser.sign_out()
    at.browser.sign_in(at.keys["second clerk"], "clerk")
    until("the list is gone", lambda: [it for it in rail(at, "Call back") if "Dorothy" in it], 10)
    same("recent callers of who signed out", [], rail(at, "Last callers"))
    at.browser.sign_in(at.keys["third clerk"], "clerk")
    at.browser.sees("Nobody waits for a call.")
    begin(at)
    at.browser.press(re.compile("^Dorothy"))
    at.browser.press(re.compile("^Called back"))
    until("she is still to be called", lambda: rail(at, "Call back") == [])
    at.browser.reload()
    at.browser.find("button", BOOK)
    same("after a reload", [], rail(at, "Call back"))
    at.town.post(
        "third clerk", f"/trips/{max(it['trip'] for it in at.town.trips_of(1004))}/cancel", {}
    )


@check
def matches_come_in_groups_and_escape_leads_back_to_the_rider(at: Place) -> None:
    begin(at, "1001")
    at.browser.keys("/", *"4003")
    at.browser.find("option", re.compile("^Rider 4003"))
    same(
        "the group",
        "This number",
        at.browser.script(
            "return document.querySelector('#find [role=group]').getAttribute('aria-label')"
        ),
    )
    holds("what is shown cannot be pressed meanwhile", not at.browser.is_there("button", BOOK))
    at.browser.keys(Keys.ESCAPE, Keys.ESCAPE)
    same("the focus", "who", at.browser.script("return document.activeElement.id"))
    at.browser.find("button", BOOK)
    same("what is in the field", "", at.browser.value("Find a rider"))


@check
def a_menu_of_a_trip_is_used_by_the_keyboard(at: Place) -> None:
    trip = at.town.book(1005, "2025-03-21", 600, 7, 9)
    begin(at, "1005")
    more = at.browser.find("button", f"More for trip {trip}")
    at.browser.script("arguments[0].focus()", more)
    at.browser.keys(Keys.ENTER)
    wait_for(
        at, "the first item has the focus", "document.activeElement.textContent === 'Book again'"
    )
    at.browser.keys(Keys.ARROW_DOWN)
    same("the next one", f"Print the ticket of trip {trip}", at.browser.focused())
    at.browser.keys("b")
    same("a letter", f"Book trip {trip} again on another day", at.browser.focused())
    at.browser.keys(Keys.ESCAPE)
    same(
        "after Escape",
        (f"More for trip {trip}", "false"),
        (at.browser.focused(), more.get_attribute("aria-expanded")),
    )
    at.town.post("third clerk", f"/trips/{trip}/cancel", {})


def faults_of(at: Place, state: str) -> list[str]:
    """What axe finds in a state of the screen, in light and dark; and what is too wide for 320 pixels."""
    at.browser.settled(400)
    faults = [f"{state}: {it}" for it in at.browser.axe()["violations"]]
    with at.browser.media(prefers_color_scheme="dark"):
        # (colors fade)
        at.browser.settled(400)
        faults += [f"{state}, dark: {it}" for it in at.browser.axe()["violations"]]
    with at.browser.screen(320, 640):
        wide, what = at.browser.sideways()
        faults += [f"{state}: {wide} pixels too wide at 320: {what}"] if wide else []
    return faults


@check
def each_state_of_a_call_is_for_everybody(at: Place) -> None:
    begin(at)
    faults = faults_of(at, "nobody calls")
    at.browser.keys(*"555")
    at.browser.find("option", re.compile("Rosa"))
    faults += faults_of(at, "matches")
    begin(at, "1003")
    wish(at, start="7 Elm", goal="Riverside", day="2025-03-21", wish="9 am", by="8:05 am")
    at.browser.press(BOOK)
    results(at, 1)
    faults += faults_of(at, "a denial")
    wish(at, start="7 Elm", goal="senior", day="2025-03-21", wish="2 pm", by="")
    at.browser.press(BOOK)
    results(at, 1)
    faults += faults_of(at, "a ticket")
    trip = max(it["trip"] for it in at.town.trips_of(1003))
    at.browser.press(f"More for trip {trip}")
    at.browser.find("button", f"Print the ticket of trip {trip}")
    faults += faults_of(at, "a menu")
    at.browser.keys(Keys.ESCAPE)
    at.browser.ask_for_help()
    at.browser.sees("Keys on this screen")
    faults += faults_of(at, "help")
    at.browser.press("Close")
    same("faults", [], faults)
    at.town.post("third clerk", f"/trips/{trip}/cancel", {})


# Help.


@check
def a_question_mark_lists_the_keys_of_the_screen(at: Place) -> None:
    begin(at, "1001")
    at.browser.keys("?")
    at.browser.sees(
        "Keys on this screen",
        "Find a rider by name, number, or phone",
        "Start a booking for this rider",
    )
    at.browser.find("field", "Use single keys (/, ? and letters)").click()
    at.browser.keys(Keys.ESCAPE)
    until(
        "the list is still there",
        lambda: not at.browser.script("return document.querySelector('dialog')"),
    )
    same("the focus is where it was", "who", at.browser.script("return document.activeElement.id"))
    for key in "b/":
        at.browser.keys(key)
        same(
            f"{key} is no key any more",
            "who",
            at.browser.script("return document.activeElement.id"),
        )
    at.browser.ask_for_help()
    at.browser.find("field", "Use single keys (/, ? and letters)").click()
    at.browser.press("Close")
    at.browser.script("document.getElementById('who').focus()")
    at.browser.keys("b")
    same("b leads to the booking", "From", at.browser.focused())
    at.browser.keys("?")
    same("a sign that is typed is no key", "?", at.browser.value("From"))


@check
def a_first_visit_is_told_what_the_screen_is_for_once(at: Place) -> None:
    first = "Press ? for the keys of this screen."
    begin(at)
    at.browser.sees_no(first)
    at.browser.script("localStorage.removeItem('desk.visited')")
    at.browser.reload()
    at.browser.sees(first)
    at.browser.go_part("clerk", "waits")
    at.browser.shown("clerk/waits")
    at.browser.sees(first)
    at.browser.reload()
    at.browser.shown("clerk/waits")
    at.browser.settled()
    at.browser.sees_no(first)


# What is half filled.

COMPANION = "Companion (same fare)"


def typed(at: Place) -> list[Any]:
    return [at.browser.value(name) for name in ["From", "To", "Day"]]


@check
def a_half_filled_form_outlives_the_next_call_a_part_a_reload_and_the_idle_sign_out(
    at: Place,
) -> None:
    at.town.write_files(idle_minutes=20)
    wanted = ["Mill Road School (3)", "Public Library (7)", THURSDAY]
    try:
        with at.browser.clock(hurry=20):
            begin(at, "1005")
            wish(at, start="school", goal="library", day=THURSDAY)
            at.browser.find("field", "To").click()
            for number in ["1006", "1005"]:
                at.browser.fill("Find a rider", number)
                at.browser.press("Show")
                at.browser.sees(f"({number})")
                until(
                    f"the form of {number}",
                    lambda number=number: typed(at)
                    == (wanted if number == "1005" else ["", "", ""]),
                )
            at.browser.go_part("clerk", "file")
            at.browser.shown("clerk/file")
            at.browser.driver.back()
            at.browser.shown("clerk/trips")
            same("after Back", wanted, typed(at))
            at.browser.reload()
            at.browser.find("button", BOOK)
            same("after a reload", wanted, typed(at))
            at.browser.passes(1205)
            at.browser.sees("Nobody did anything for 20 minutes")
            kept = at.browser.script(
                "return JSON.stringify([{ ...localStorage }, { ...sessionStorage }])"
            )
            holds(f"something of it is kept: {kept}", "School" not in kept and "1005" not in kept)
            at.browser.fill("Key", at.keys["second clerk"])
            at.browser.press("Sign in")
            at.browser.fill("Find a rider", "1005")
            at.browser.press("Show")
            at.browser.find("button", BOOK)
            same("after the idle sign-out", wanted, typed(at))
        at.browser.sign_out()
        begin(at, "1005")
        same("after signing out by hand", ["", "", ""], typed(at))
    finally:
        at.town.write_files()


@check
def a_change_has_a_draft_until_it_is_sent_or_somebody_signs_out(at: Place) -> None:
    trip = at.town.book(1005, "2025-03-20", 600, 1, 2)
    name = f"Change trip {trip} of Samuel Grant (1005)"

    def opened() -> Any:
        at.browser.press(name)
        wait_for(at, "the form of the change", f"document.activeElement.id === 'change-{trip}'")
        whole = at.browser.script("return document.querySelector('.trips-card form')")
        return whole, at.browser.find("field", "Pickup time", whole).get_property("value")

    begin(at, "1005")
    whole, before = opened()
    at.browser.fill("Pickup time", "1:05 pm", whole)
    at.browser.find("field", COMPANION, whole).click()
    for number in ["1006", "1005"]:
        at.browser.fill("Find a rider", number)
        at.browser.press("Show")
        at.browser.sees(f"({number})")
    whole, again = opened()
    same("after another rider's call", "1:05 pm", again.lower())
    at.browser.reload()
    whole, again = opened()
    same("after a reload", "1:05 pm", again.lower())
    same("and its tick", True, at.browser.find("field", COMPANION, whole).get_property("checked"))
    at.browser.sign_out()
    begin(at, "1005")
    same("after signing out by hand", before, opened()[1])
    whole = at.browser.script("return document.querySelector('.trips-card form')")
    at.browser.fill("Pickup time", "2 pm", whole)
    at.browser.press(name, within=whole)
    at.browser.sees("is changed for Samuel Grant (1005)")
    at.browser.reload()
    whole, again = opened()
    holds(
        f"after sending it the form has the trip: {again}",
        again.lower() != "2 pm" or "around" in list_of(at),
    )
    same(
        "nobody comes along",
        False,
        at.browser.find("field", COMPANION, whole).get_property("checked"),
    )
    at.town.post("third clerk", f"/trips/{trip}/cancel", {})


@check
def each_tick_of_a_half_filled_form_is_kept(at: Place) -> None:
    begin(at, "1005")
    wish(at, start="school", goal="library", day=THURSDAY)
    for name in ["Friday, March 14, 2025", "Monday, March 17, 2025"]:
        at.browser.find("field", re.compile(f"^{name}")).click()
    at.browser.find("field", COMPANION).click()
    at.browser.reload()
    at.browser.find("button", BOOK)
    ticked = at.browser.script(
        """return [...document.querySelectorAll('form.wish input[type=checkbox]')].filter((it) => it.checked)
        .map((it) => (it.getAttribute("aria-label") ?? it.labels[0].textContent).replace(", has trips", ""))"""
    )
    same(
        "what is ticked after a reload",
        ["Thursday, March 13, 2025", "Friday, March 14, 2025", "Monday, March 17, 2025", COMPANION],
        ticked,
    )
    at.browser.sign_out()


@check
def a_question_goes_with_who_signed_out_and_is_answered_no(at: Place) -> None:
    trip = at.town.book(1005, THURSDAY, 600, 1, 2)
    at.town.write_files(idle_minutes=20)
    try:
        with at.browser.clock(hurry=20):
            begin(at, "1005")
            at.browser.press(f"Cancel trip {trip} of Samuel Grant (1005)")
            at.browser.find("button", f"Yes, cancel trip {trip}")
            at.browser.passes(1205)
            at.browser.sees("Nobody did anything for 20 minutes")
            same(
                "questions that are open",
                0,
                at.browser.script("return document.querySelectorAll('dialog[open]').length"),
            )
            holds("the question names nobody any more", "Samuel Grant" not in at.browser.text())
    finally:
        at.town.write_files()
    same(
        "the trip",
        ["booked"],
        [it["status"] for it in at.town.trips_of(1005) if it["trip"] == trip],
    )
    at.town.post("third clerk", f"/trips/{trip}/cancel", {})


SAID = "return document.getElementById('said').textContent"


@check
def what_was_said_is_not_said_of_the_next_rider_or_to_who_signs_in_next(at: Place) -> None:
    begin(at, "1002")
    at.browser.press(BOOK)
    until("nothing is said of a field", lambda: at.browser.script(SAID))
    at.browser.fill("Find a rider", "1001")
    at.browser.press("Show")
    until(
        lambda: f"{at.browser.script(SAID)!r} is said of the next rider",
        lambda: at.browser.script(SAID) == "",
    )
    at.browser.sign_out()
    until("the sign-out is not said", lambda: at.browser.script(SAID))
    at.browser.fill("Key", at.keys["second clerk"])
    at.browser.press("Sign in")
    at.browser.find("field", "Find a rider")
    until(
        lambda: f"{at.browser.script(SAID)!r} is said after the next sign-in",
        lambda: at.browser.script(SAID) == "",
    )


# What a clerk has to know of a case.

# (as bin/worklist writes its cells)
WORKLIST = """<main><section id=applications><h2>Applications to decide</h2><table><thead><tr><th scope="col">Rider</th><th scope="col">Name</th><th scope="col">Complete on</th>
<th scope="col">Presumed from</th><th scope="col">When</th></tr></thead><tbody><tr><th scope="row"><a href="#rider-1009">1009</a></th><td>Peter Lange</td>
<td><time datetime="2025-02-17">Mon, Feb 17, 2025</time></td><td><time datetime="2025-03-10">Mon, Mar 10, 2025</time></td><td>today</td></tr></tbody></table></section>
<section id=appeals><h2>Appeals to decide</h2><table><thead><tr><th>Rider<th>Name<th>Against<th>Filed on<th>Heard on<tbody>
<tr><td>1006<td>Ana<td>refuse (entry 3)<td><time datetime="2025-02-20">Thu, Feb 20, 2025</time><td><time datetime="2025-02-25">Tue, Feb 25, 2025</time>
<tr><td>1003<td>Henry<td>entry 1<td><time datetime="2025-03-01">Sat, Mar 1, 2025</time><td>not heard"""


@check
def what_waits_is_on_the_card_and_a_part_of_the_clerks_screen(at: Place) -> None:
    at.town.write_file("staff/worklist.html", WORKLIST)
    try:
        for rider, words in [
            ("1009", "An application has waited since Mon, Feb 17."),
            ("1003", "An appeal has waited since Sat, Mar 1. It has not been heard."),
            ("1006", "An appeal has waited since Thu, Feb 20. It was heard on Tue, Feb 25."),
        ]:
            begin(at, rider)
            at.browser.sees(words)
        at.browser.go_part("clerk", "waits")
        at.browser.sees("Applications to decide", "Peter Lange", "Mon, Feb 17")
        at.browser.press("Show rider 1009")
        at.browser.sees("The case of Peter Lange (1009)")
    finally:
        at.town.write_files()


@check
def an_application_that_was_taken_here_is_on_the_card(at: Place) -> None:
    at.town.post(
        "third clerk",
        "/riders",
        {"id": 1710, "kind": "resident", "attendant": False, "wheelchair": False},
    )
    begin(at, "1710")
    at.browser.sees("May not ride today: no eligibility on record")
    at.browser.go_part("clerk", "file")
    at.browser.press("Take the application of rider 1710")
    at.browser.press("Rider 1710's application is complete")
    at.browser.press("Yes: rider 1710's application is complete")
    at.browser.sees("It waits for the examiner.")
    at.browser.go_part("clerk", "trips")
    at.browser.sees("An application has waited since Mon, Mar 10. It counts from its 21st day")
    at.town.post(
        "examiner",
        "/riders/1710/entries",
        {"entry": "refuse", "reasons": "lives by the stop, walks well"},
    )
    at.browser.keys("/", *"1710", Keys.ENTER)
    at.browser.sees_no("An application has waited")


def suspended(at: Place, rider: int) -> None:
    """A rider who missed the first trip of the day after, was told of it and heard, and is suspended a day later."""
    trip = min(
        it["trip"]
        for it in at.town.trips_of(rider)
        if it["day"] == TOMORROW and it["status"] == "booked"
    )
    at.town.set_clock(TOMORROW, "22:00")
    at.town.post("dispatcher", f"/trips/{trip}/outcome", {"outcome": "missed-rider"})
    at.town.set_clock("2025-03-12")
    for holder, entry in [
        ("clerk", {"entry": "notice", "basis": "March 11, the first trip"}),
        ("officer", {"entry": "notice-heard"}),
        (
            "officer",
            {
                "entry": "suspend",
                "starts": "2025-03-13",
                "ends": "2025-03-20",
                "reasons": "a pattern of missed trips",
            },
        ),
    ]:
        same(
            entry["entry"],
            True,
            "entered" in at.town.post(holder, f"/riders/{rider}/entries", entry),
        )
    at.town.set_clock("2025-03-14")


@check
def a_suspension_has_days_of_its_own_on_the_card(at: Place) -> None:
    try:
        suspended(at, 1007)
        begin(at, "1007")
        at.browser.sees(
            "May not ride today: suspended from Thursday, March 13, 2025 through Thursday, March 20, 2025",
            "Eligibility on file through Saturday, February 28, 2026.",
        )
        card = at.browser.script("return document.querySelector('.rider-card .verdict').innerText")
        holds(f"the grant's day is in the verdict: {card}", "2026" not in card)
        at.browser.sign_in(at.keys["rider 1007"], "rider", "standing")
        at.browser.fill("Your rider number", "1007")
        at.browser.press("Show my pages")
        at.browser.sees(
            "You may not ride on Friday, March 14, 2025.",
            "Suspended from Thursday, March 13, 2025 through Thursday, March 20, 2025.",
            "You may appeal until Sunday, May 11, 2025, on the page “Letters and appeal”. While your appeal waits, you may ride.",
        )
        same(
            "it is entered",
            True,
            "entered"
            in at.town.post(
                "rider 1007", "/riders/1007/entries", {"entry": "appeal", "against": 4}
            ),
        )
        at.browser.reload()
        at.browser.sees("You may ride on Friday, March 14, 2025.")
    finally:
        at.town.set_clock(TODAY)
