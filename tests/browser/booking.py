"""Booking a trip, by a clerk: who is meant, wishes, other times, round trips, changes, cancels; and how many keys."""
import json
import operator
import re
from typing import Any

from selenium.webdriver.common.keys import Keys

from checks import Place, check, holds, same
from database import until
from people import EVERY_DAY, LINES, TODAY, TOMORROW
from browser import Browser

VANS = 1
BOOK = re.compile(r"^Book (the|[0-9]+) trip")
WEDNESDAY, THURSDAY, FRIDAY = "2025-03-12", "2025-03-13", "2025-03-14"
# Keystrokes that a call may take.
MOST_KNOWN, MOST_ROUND_TRIP, MOST_FIVE_DAYS, MOST_OTHER = 40, 60, 60, 3
# Clicks of a booking by mouse, and the signs that are typed beside them.
MOST_CLICKS, MOST_TYPED = 8, 24


class Keystrokes:
    """Presses keys and counts them."""

    def __init__(self, browser: Browser) -> None:
        self.browser, self.count = browser, 0

    def press(self, *keys: Any) -> None:
        for key in keys:
            self.count += len(key)
            self.browser.keys(*key)


class Mouse:
    """Clicks, types where the click was, and counts both."""

    def __init__(self, browser: Browser) -> None:
        self.browser, self.clicks, self.typed = browser, 0, 0

    def click(self, kind: str, name: str | re.Pattern[str], typed: str = "") -> None:
        self.clicks += 1
        self.typed += len(typed)
        self.browser.press(name, kind)
        self.browser.keys(*typed)

    def choose(self, name: str, text: str) -> None:
        """A list takes two clicks: one opens it, one takes a line of it."""
        self.clicks += 2
        self.browser.fill(name, text)


def wait_for(at: Place, what: str, script: str) -> None:
    until(what, lambda: at.browser.script(f"return {script}"))


def begin(at: Place, number: str | None = None, holder: str = "second clerk") -> Keystrokes:
    """The clerk's first screen, as it is after signing in; with a number, that rider's, whose name has the focus."""
    at.browser.sign_in(at.keys[holder], "clerk", "trips")
    wait_for(
        at,
        "the search has the focus",
        "!!document.querySelector('.roster') && document.activeElement.matches('[data-search]')",
    )
    keys = Keystrokes(at.browser)
    if number:
        keys.press(number, Keys.ENTER)
        wait_for(at, "the form", "document.activeElement.id === 'who'")
    return keys


def results(at: Place, count: int) -> Any:
    wait_for(
        at,
        f"{count} results",
        f"""document.querySelectorAll('.legs .ticket, .legs .refused').length === {count}
        && !document.querySelector('.legs .waiting') && document.activeElement !== document.body""",
    )
    return at.browser.script(
        "return [...document.querySelectorAll('.results')].map((it) => it.innerText).join('\\n')"
    )


MATTERS = {"around": "Around", "not-before": "Not before", "by": "Arrive by"}


def modes_of(at: Place, legend: str) -> Any:
    return at.browser.script(
        """return [...document.querySelectorAll('fieldset.modes')].filter((it) => !it.hidden)
        .find((it) => it.querySelector('legend').textContent === arguments[0])""",
        legend,
    )


# Whether each text of the page that has a name is where nothing can be pressed.
INERT = """
const walker = document.createTreeWalker(document.getElementById("main"), NodeFilter.SHOW_TEXT), those = [];
while (walker.nextNode()) if (walker.currentNode.nodeValue.includes(arguments[0])) those.push(walker.currentNode.parentElement);
return those.length > 0 && those.every((it) => it.closest("[inert]"));"""
# (a day of which no other check knows)
QUIET = "2025-03-19"


def wish(at: Place, **values: Any) -> None:
    """Fills the form of a wish: start, goal, day, wish and what else is given by its label."""
    names = {
        "start": "From",
        "goal": "To",
        "day": "Day",
        "wish": "Pickup time",
        "back": "Return pickup",
        "by": "And be there by",
    }
    legends = {
        "matters": "Which matters more?",
        "back_matters": "Which matters more for the return?",
    }
    for name, value in values.items():
        if name in legends:
            at.browser.fill(MATTERS[value], True, modes_of(at, legends[name]))
        else:
            at.browser.fill(names[name], value)


def clock(minute: Any) -> str:
    return f"{minute // 60 % 12 or 12}:{minute % 60:02} {'AM' if minute < 720 else 'PM'}"


def counted_in(at: Place, kind: str, *parts: str) -> list[Any]:
    """Waits until the site is told an event of a kind with these parts; all that was asked until then."""
    asked = []

    def is_there() -> bool:
        asked.extend(at.browser.requests())
        return any(f"/tally/{kind}?" in it and all(part in it for part in parts) for it in asked)

    until(
        lambda: f"no {kind} with {parts} was told: {[it for it in asked if '/tally/' in it]}",
        is_there,
    )
    return asked


def row_of(at: Place, trip: int) -> Any:
    def row() -> Any:
        return at.browser.script(
            """return [...document.querySelectorAll('table.trips tbody tr')]
            .find((it) => it.dataset.trip === arguments[0])?.innerText""",
            str(trip),
        )

    return until(f"trip {trip} is not in the list", row)


def printed_again(at: Place, trip: int) -> Any:
    """The paper of a ticket of the list."""
    at.browser.press(f"More for trip {trip}")
    menu = until(
        "there is no menu",
        lambda: at.browser.script("return document.querySelector('[role=menu]')"),
    )
    at.browser.papers()
    at.browser.press(f"Print the ticket of trip {trip}", within=menu)
    wait_for(at, "it is printed", "window.papers > 0")
    return at.browser.printed()


def last_trip(at: Place, rider: int) -> Any:
    return max(at.town.trips_of(rider), key=operator.itemgetter("trip"))


@check
def a_booking_for_a_known_number_takes_forty_keys_at_most(at: Place) -> None:
    keys = begin(at, "1002")
    keys.press("b", "school", Keys.TAB, "senior", Keys.TAB, "f", Keys.TAB, "9a", Keys.ENTER)
    told = results(at, 1)
    holds(f"{keys.count} keys", keys.count <= MOST_KNOWN)
    trip = last_trip(at, 1002)
    same("the trip", (3, 9, FRIDAY), (trip["from"], trip["to"], trip["day"]))
    holds(
        f"the van comes at most a quarter of an hour before 9:00: {trip}",
        525 <= trip["window_from"] <= 600,
    )
    holds(
        f"the ticket names the rider: {told}",
        f"Trip {trip['trip']} is booked for Dorothy O'Neill (1002)" in told,
    )


@check
def a_booking_for_a_known_number_takes_eight_clicks_at_most(at: Place) -> None:
    begin(at)
    mouse = Mouse(at.browser)
    mouse.click("field", "Find a rider", "1002")
    mouse.click("button", "Show")
    wait_for(at, "the form", "document.activeElement.id === 'who'")
    mouse.click("field", "From", "library")
    mouse.click("field", "To", "school")
    mouse.choose("Day", FRIDAY)
    mouse.click("field", "Pickup time", "1p")
    mouse.click("button", BOOK)
    told = results(at, 1)
    holds(
        f"{mouse.clicks} clicks, {mouse.typed} signs",
        mouse.clicks <= MOST_CLICKS and mouse.typed <= MOST_TYPED,
    )
    trip = last_trip(at, 1002)
    same("the trip", (7, 3, FRIDAY), (trip["from"], trip["to"], trip["day"]))
    holds(
        f"the van comes at most a quarter of an hour before 1:00: {trip}",
        765 <= trip["window_from"] <= 840,
    )
    holds(
        f"the ticket: {told}", f"Trip {trip['trip']} is booked for Dorothy O'Neill (1002)" in told
    )


@check
def a_call_from_a_name_to_a_round_trip_takes_sixty_keys_at_most(at: Place) -> None:
    keys = begin(at)
    keys.press("alv")
    at.browser.find("option", re.compile("Rosa Álvarez"))
    keys.press(Keys.ENTER)
    wait_for(at, "the form", "document.activeElement.id === 'who'")
    keys.press("b", "oak", Keys.TAB, "dial", Keys.TAB, "w", Keys.TAB, "9", Keys.TAB, Keys.TAB, "12")
    keys.press(Keys.ENTER)
    told = results(at, 2)
    holds(f"{keys.count} keys", keys.count <= MOST_ROUND_TRIP)
    holds(f"one list: {told}", "2 trips are booked for Rosa Álvarez (1001)" in told)
    there, back = sorted(at.town.trips_of(1001), key=operator.itemgetter("trip"))[-2:]
    same("the way there", (11, 6, WEDNESDAY), (there["from"], there["to"], there["day"]))
    same("the way back", (6, 11, WEDNESDAY), (back["from"], back["to"], back["day"]))
    holds(f"the van comes around 9:00: {there}", 525 <= there["window_from"] <= 600)
    holds(
        f"the van comes back no sooner than the rider is ready: {back}",
        720 <= back["window_from"] <= 780,
    )


@check
def a_round_trip_on_five_days_takes_sixty_keys_at_most(at: Place) -> None:
    keys = begin(at, "1005")
    keys.press("b", "hall", Keys.TAB, "dial", Keys.TAB, "w")
    for day in [
        "Thursday, March 13, 2025",
        "Friday, March 14, 2025",
        "Saturday, March 15, 2025",
        "Sunday, March 16, 2025",
    ]:
        keys.press(Keys.ARROW_RIGHT, " ")
        holds(f"the next day: {at.browser.focused()}", at.browser.focused().startswith(day))
    while at.browser.focused() != "Pickup time":
        keys.press(Keys.TAB)
    keys.press("10a", Keys.TAB, Keys.TAB, "2p", Keys.ENTER)
    told = results(at, 10)
    holds(f"{keys.count} keys", keys.count <= MOST_FIVE_DAYS)
    holds(
        f"what was booked is one list: {told[:200]}",
        re.search("^(10|[0-9] of 10) trips are booked for Samuel Grant \\(1005\\)", told, re.M)
        is not None,
    )


@check
def a_denied_wish_gets_another_time_in_three_keys(at: Place) -> None:
    begin(at, "1003")
    wish(at, start="7 Elm", goal="Riverside", day=FRIDAY, wish="9 am", by="8:05 am")
    at.browser.requests()
    at.browser.press(BOOK)
    told = results(at, 1)
    for words in [
        "We looked for pickups between 8:00 AM and 10:00 AM",
        "Pickup 7:30–9:30 AM\nPickup 7:00–9:00 AM",
        "Counted as a capacity denial, 49 CFR 37.131",
    ]:
        holds(f"it says what was searched: {told}", words in told)
    counted_in(at, "denials", "rule=no", "minute=540", "mode=around")
    keys = Keystrokes(at.browser)
    keys.press(Keys.TAB, Keys.ENTER)
    wait_for(at, "a ticket", "document.querySelectorAll('.legs .ticket').length === 1")
    holds(f"{keys.count} keys", keys.count <= MOST_OTHER)
    trip = last_trip(at, 1003)
    minutes = 540 - trip["window_from"]
    at.browser.sees(f"{minutes} minutes before 9:00 AM")
    same("the wish that was taken", 510, trip["wish"])
    asked = counted_in(
        at,
        "bookings",
        f"trip={trip['trip']}",
        "mode=around",
        "minute=540",
        f"from={trip['window_from']}",
    )
    holds("another time is no second denial", not any("/tally/denials" in it for it in asked))
    until(
        "the call is not said to have booked a trip",
        lambda: at.browser.script(
            "return document.querySelector('#main').innerText.includes('1003 · now · booked 1')"
        ),
    )


@check
def where_only_earlier_times_were_tried_the_later_ones_are_still_offered(at: Place) -> None:
    # (the trip of the check before goes the same way, and would be asked about where the page has read it by then)
    for it in at.town.trips_of(1003):
        if it["status"] == "booked" and it["day"] == FRIDAY:
            at.town.post("third clerk", f"/trips/{it['trip']}/cancel", {})
    begin(at, "1003")
    wish(at, start="7 Elm", goal="Riverside", day=FRIDAY, wish="9 am", by="8:05 am")
    # (the same plan without its bound: no vehicle takes what this window asks for)
    at.browser.script(
        """const real = window.fetch;
        window.fetch = async (path, options) => (options?.method === "POST" && String(path).endsWith("/trips")
            ? new Response('{"denied":"no vehicle"}', { status: 422, headers: { "Content-Type": "application/json" } }) : real(path, options));"""
    )
    at.browser.fill("And be there by", "")
    at.browser.press(BOOK)
    results(at, 1)
    at.browser.press("Only earlier times")
    at.browser.sees(
        "The earlier times were tried too, and no vehicle could take them.", "Pickup 9:15–11:15 AM"
    )
    holds("it says that all were tried", "The other times were tried too" not in at.browser.text())
    at.browser.press("Only later times")
    at.browser.sees(
        "The other times were tried too, and no vehicle could take them. Try another day."
    )
    holds(
        "what was tried is offered again", not at.browser.is_there("button", re.compile("^Only "))
    )


@check
def a_trip_that_another_clerk_canceled_is_said_to_be_canceled(at: Place) -> None:
    trip = at.town.book(1006, FRIDAY, 600, 3, 7)
    begin(at, "1006")
    at.browser.press(f"Cancel trip {trip} of Ana María Núñez (1006)")
    at.browser.find("button", f"Yes, cancel trip {trip}")
    at.town.post("third clerk", f"/trips/{trip}/cancel", {})
    at.browser.press(f"Yes, cancel trip {trip}")
    at.browser.sees(f"Trip {trip} of Ana María Núñez (1006) was already canceled.")
    holds("it is too late", "It is too late to cancel" not in at.browser.text())
    at.town.set_clock(FRIDAY, "00:05")
    try:
        # (what the page hears of the server's clock with each reply)
        at.browser.script(
            """import('/parts/clock.js').then((it) => it.hearServersTime('Fri, 14 Mar 2025 04:05:00 GMT'))"""
        )
        at.browser.sees("Canceled. No van comes.")
    finally:
        at.town.set_clock(TODAY)


@check
def a_weekdays_letter_chooses_the_day_and_stays_there(at: Place) -> None:
    """T is Tuesday or Thursday in the days, and the first trip everywhere else."""
    begin(at, "1001").press("b", "hall", Keys.TAB, "dial", Keys.TAB, "t")
    same("the day", "Thursday, March 13, 2025", at.browser.focused()[:24])
    at.browser.keys(Keys.TAB, *"10a")
    same("the time that is typed next", "10a", at.browser.value("Pickup time"))


@check
def the_button_says_how_many_trips_are_booked(at: Place) -> None:
    keys = begin(at, "1005")
    keys.press("b", "hall", Keys.TAB, "dial", Keys.TAB, "t")
    at.browser.find("button", "Book the trip for Samuel Grant (1005)")
    keys.press(Keys.ARROW_RIGHT, " ")
    at.browser.find("button", "Book 2 trips for Samuel Grant (1005)")
    at.browser.fill("Return pickup", "2p")
    at.browser.find("button", "Book 4 trips for Samuel Grant (1005)")


@check
def staff_mark_a_denial_so_that_its_state_is_kept(at: Place) -> None:
    begin(at, "1003")
    wish(at, start="7 Elm", goal="Riverside", day=THURSDAY, wish="9 am", by="8:05 am")
    at.browser.press(BOOK)
    results(at, 1)
    at.browser.requests()
    at.browser.press(re.compile("^Keep a copy for the rider's advocate"))
    wait_for(
        at,
        "the focus on what was marked",
        "document.activeElement.textContent.startsWith('Marked at ')",
    )
    asked = counted_in(at, "marks", f"day={THURSDAY}", "minute=540", "mode=around", "at=")
    same("marks of one denial", 1, len([it for it in asked if "/tally/marks?" in it]))
    at.browser.sees_no("Keep a copy for the rider's advocate")


@check
def a_way_back_that_is_lost_with_the_way_there_is_a_denial_too(at: Place) -> None:
    """It is told once the form is used again."""
    begin(at, "1003")
    wish(at, start="7 Elm", goal="Riverside", day=WEDNESDAY, wish="9 am", by="8:05 am", back="2 pm")
    at.browser.requests()
    at.browser.press(BOOK)
    wait_for(at, "a denial", "!!document.querySelector('.legs .refused')")
    wish(at, wish="4 am", by="", back="")
    at.browser.press(BOOK)
    asked = counted_in(at, "denials", "minute=240")
    if not any("leg=lost" in it for it in asked):
        asked += counted_in(at, "denials", "minute=840", "mode=not-before", "leg=lost")
    same("lost ways back", 1, len({it for it in asked if "leg=lost" in it}))


@check
def a_way_back_that_is_lost_is_told_once_its_form_is_left(at: Place) -> None:
    begin(at, "1003")
    wish(
        at,
        start="7 Elm",
        goal="Riverside",
        day=WEDNESDAY,
        wish="9 am",
        by="8:05 am",
        back="2:15 pm",
    )
    at.browser.requests()
    at.browser.press(BOOK)
    wait_for(at, "a denial", "!!document.querySelector('.legs .refused')")
    at.browser.go_part("clerk", "waiting")
    asked = counted_in(at, "denials", "minute=855", "mode=not-before", "leg=lost")
    same("lost ways back", 1, len({it for it in asked if "leg=lost" in it}))


@check
def a_number_that_is_not_shown_can_be_done_nothing_with(at: Place) -> None:
    begin(at, "1002")
    wish(at, start="school", goal="senior", day=FRIDAY, wish="3 pm")
    before = len(at.town.trips_of(1002))
    at.browser.fill("Find a rider", "1006")
    at.browser.sees("1006 is not shown yet")
    for name in [BOOK, re.compile("^Cancel trip")]:
        holds(
            f"there is still something to act on: {name}", not at.browser.is_there("button", name)
        )
    holds(
        "what is shown of the other rider cannot be acted on", at.browser.script(INERT, "Dorothy")
    )
    at.browser.fill("Find a rider", "1002")
    at.browser.find("button", BOOK)
    same("what was typed is still there", "3 pm", at.browser.value("Pickup time"))
    at.browser.fill("Find a rider", "1006")
    at.browser.press("Show")
    at.browser.sees("Book for Ana María Núñez (1006)")
    same("nothing was booked", before, len(at.town.trips_of(1002)))


@check
def the_rider_is_named_in_each_heading_and_button(at: Place) -> None:
    begin(at, "1001")
    for words in ["Book for", "Trips of", "Book the trip for"]:
        at.browser.sees(f"{words} Rosa Álvarez (1001)")
    trip = min(it["trip"] for it in at.town.trips_of(1001) if it["status"] == "booked")
    at.browser.find("button", f"Change trip {trip} of Rosa Álvarez (1001)")
    at.browser.press(f"Cancel trip {trip} of Rosa Álvarez (1001)")
    at.browser.sees(f"Cancel trip {trip} of Rosa Álvarez (1001)?")
    at.browser.press("No, go back")


@check
def the_answer_to_a_cancel_is_where_its_button_was_and_has_the_focus(at: Place) -> None:
    at.town.book(1006, THURSDAY, 600, 3, 7)
    trip = last_trip(at, 1006)["trip"]
    begin(at, "1006")
    at.browser.press(f"Cancel trip {trip} of Ana María Núñez (1006)")
    at.browser.press(f"Yes, cancel trip {trip}")
    wait_for(at, "the answer has the focus", f"document.activeElement.id === 'answer-{trip}'")
    told = at.browser.script("return document.activeElement.innerText")
    same("the answer", f"Trip {trip} of Ana María Núñez (1006) is canceled.", told)
    row = at.browser.script("return document.activeElement.closest('tr').dataset.below")
    same("it is below the trip's own row", str(trip), row)
    holds(
        "it can be seen",
        at.browser.script(
            "const it = document.activeElement.getBoundingClientRect(); return it.top >= 0 && it.bottom <= innerHeight"
        ),
    )
    holds(
        "it is not offered again",
        not at.browser.is_there("button", f"Cancel trip {trip} of Ana María Núñez (1006)"),
    )
    counted = [it for it in at.browser.requests() if "/tally/cancellations?" in it]
    same(
        "it is counted once, as the rider's own",
        [True],
        [f"trip={trip}&by=rider&at=" in it for it in counted],
    )


@check
def nothing_is_offered_that_is_sure_to_be_denied(at: Place) -> None:
    trips = [
        it for it in at.town.trips_of(1001) if it["day"] == TOMORROW and it["status"] == "booked"
    ]
    trips.sort(key=operator.itemgetter("window_from"))
    begun, later = trips[0], trips[-1]
    at.town.set_clock(TOMORROW, f"{begun['window_from'] // 60:02}:{begun['window_from'] % 60:02}")
    try:
        begin(at, "1001")
        at.browser.find("button", re.compile(f"^Cancel trip {later['trip']} "))
        for name in [f"^Cancel trip {begun['trip']} ", f"^Change trip {later['trip']} "]:
            holds(f"{name} is offered", not at.browser.is_there("button", re.compile(name)))
    finally:
        at.town.set_clock(TODAY)


@check
def the_old_ticket_is_gone_when_the_next_try_fails_at_a_field(at: Place) -> None:
    begin(at, "1006")
    wish(at, start="library", goal="riverside", day=FRIDAY, wish="2 pm")
    at.browser.press(BOOK)
    holds("a ticket", "is booked for" in results(at, 1))
    at.browser.fill("Pickup time", "9 o'clock")
    at.browser.press(BOOK)
    at.browser.sees("Enter a time, such as 9:15 AM.")
    left = at.browser.script("return document.querySelector('.results').innerText.trim()")
    same("what is left of the ticket", "", left)


@check
def days_to_choose_go_on_at_midnight(at: Place) -> None:
    with at.browser.clock(hurry=20):
        begin(at, "1006")
        at.browser.fill("Day", TOMORROW)
        at.town.set_clock(TOMORROW, "00:01")
        try:
            # (what the page hears of the server's clock with each reply)
            at.browser.script(
                """import('/parts/clock.js')
                .then((it) => it.hearServersTime('Tue, 11 Mar 2025 04:01:00 GMT'))"""
            )
            there = "!!document.querySelector('.day-grid input[value=\"%s\"]')"
            wait_for(at, "the days go on", "!" + there % "2025-03-11")
            holds("the last day", at.browser.script("return " + there % "2025-03-25"))
        finally:
            at.town.set_clock(TODAY)


@check
def no_pickup_comes_before_a_wish_that_says_so(at: Place) -> None:
    begin(at, "1007")
    wish(at, start="senior", goal="library", day=FRIDAY, wish="10", matters="not-before")
    at.browser.press(BOOK)
    at.browser.sees("Pickup time: 10:00 AM or 10:00 PM?")
    at.browser.keys("a")
    results(at, 1)
    trip = last_trip(at, 1007)
    same("what is sent is an hour later", 660, trip["wish"])
    holds("the promise begins within the hour", 600 <= trip["window_from"] <= 660)
    counted_in(at, "bookings", f"trip={trip['trip']}", "mode=not-before", "minute=600")
    row = row_of(at, trip["trip"])
    holds(
        f"the list says what was said, and no minute to be there by: {row}",
        "not before 10:00 AM" in row and "11:" not in row,
    )
    paper = printed_again(at, trip["trip"])
    holds(
        f"so does a ticket that is printed again: {paper.text}",
        "10:00 AM" in paper.text and "11:" not in paper.text,
    )


@check
def where_only_the_appointment_matters_the_latest_pickup_is_asked_for_first(at: Place) -> None:
    begin(at, "1004")
    wish(at, start="88 Pine", goal="senior", day=THURSDAY, by="11 am", matters="by")
    holds("no pickup time is asked for", not at.browser.is_there("field", "Pickup time"))
    at.browser.press(BOOK)
    told = results(at, 1)
    trip = last_trip(at, 1004)
    same("the time to be there", 660, trip["by"])
    holds(f"the pickup is within the hour before: {trip}", 600 <= trip["window_from"] < 660)
    holds(f"the ticket says so: {told}", "be there by 11:00 AM" in told)
    at.browser.fill("Be there by", "")
    at.browser.press(BOOK)
    at.browser.sees("Enter the time to be there by.")


@check
def a_form_under_way_is_not_sent_a_second_time(at: Place) -> None:
    begin(at, "1003")
    wish(at, start="7 Elm", goal="Riverside", day=WEDNESDAY, wish="9 am", by="8:05 am")
    at.browser.press(BOOK)
    results(at, 1)
    at.browser.script(
        """const real = window.fetch; window.wishes = [];
        window.fetch = async (path, options) => {
            if (path === "/trips") { window.wishes.push(JSON.parse(options.body).wish); await new Promise((go) => setTimeout(go, 2000)); }
            return real(path, options);
        };"""
    )
    at.browser.press(re.compile("^(Try|Only) earlier"))
    until("other times are not asked for", lambda: at.browser.script("return window.wishes.length"))
    at.browser.script("document.querySelector('form.wish').requestSubmit()")
    at.browser.script("document.querySelector('form.wish').requestSubmit()")
    wait_for(at, "a ticket", "document.querySelectorAll('.legs .ticket').length === 1")
    at.browser.settled()
    wishes = at.browser.script("return window.wishes")
    same("the wishes that were sent", sorted(set(wishes)), sorted(wishes))
    holds(f"the form itself was sent again: {wishes}", not any(it > 540 - 15 for it in wishes))
    at.town.post("third clerk", f"/trips/{last_trip(at, 1003)['trip']}/cancel", {})


@check
def the_same_trip_on_a_day_is_asked_about(at: Place) -> None:
    at.town.book(1002, THURSDAY, 700, 7, 9)
    trip, before = last_trip(at, 1002)["trip"], len(at.town.trips_of(1002))
    begin(at, "1002")
    wish(at, start="library", goal="senior", day=THURSDAY, wish="1 pm")
    at.browser.press(BOOK)
    at.browser.sees(
        "Dorothy O'Neill (1002) goes the same way that day at another time. Book this trip too?",
        f"Trip {trip}: Thursday, March 13, 2025",
    )
    at.browser.press("No, go back")
    # (the desk gave it 10:40 AM)
    wish(at, wish="11 am")
    at.browser.press(BOOK)
    at.browser.sees(
        "Dorothy O'Neill (1002) has this trip already. Book it once more?",
        f"Trip {trip}: Thursday, March 13, 2025",
    )
    at.browser.press("No, go back")
    same("trips", before, len(at.town.trips_of(1002)))


@check
def the_way_back_waits_for_the_way_there(at: Place) -> None:
    before = len(at.town.trips_of(1002))
    begin(at, "1002")
    wish(at, start="Old Farm", goal="library", day=THURSDAY, wish="1 pm", back="4 pm")
    at.browser.press(BOOK)
    wait_for(at, "the denial", "document.querySelectorAll('.legs .refused').length === 1")
    at.browser.sees(
        "too far from every bus route",
        "not requested, because the trip there isn't booked.",
        "0 of 2 trips are booked",
    )
    same("trips", before, len(at.town.trips_of(1002)))


@check
def a_trip_is_copied_with_its_way_back(at: Place) -> None:
    at.town.book(1005, FRIDAY, 480, 8, 7)
    there = last_trip(at, 1005)["trip"]
    at.town.book(1005, FRIDAY, 720, 7, 8)
    begin(at, "1005")
    at.browser.press(f"More for trip {there}")
    at.browser.press(f"Book trip {there} again on another day")
    holds(
        "the focus is on a day",
        at.browser.script("return document.activeElement.closest('.day-grid') !== null"),
    )
    out, back = [clock(it["window_from"]) for it in at.town.trips_of(1005) if it["trip"] >= there]
    for name, value in [
        ("From", "Riverside Market (8)"),
        ("To", "Public Library (7)"),
        ("Pickup time", out),
        ("Return pickup", back),
    ]:
        same(name, value, at.browser.value(name))


@check
def a_trip_is_changed_where_it_is(at: Place) -> None:
    at.town.book(1007, THURSDAY, 600, 8, 1)
    trip = last_trip(at, 1007)["trip"]
    begin(at, "1007")
    at.browser.press(f"Change trip {trip} of Walter Hughes (1007)")
    wait_for(at, "the form of the change", f"document.activeElement.id === 'change-{trip}'")
    whole = at.browser.script(
        """return [...document.querySelectorAll('form')]
        .find((it) => it.getAttribute('aria-label').startsWith('Change trip'))"""
    )
    filled = at.browser.find("field", "Pickup time", whole).get_property("value")
    same(
        "the promised time, where nobody knows what was said",
        clock(last_trip(at, 1007)["window_from"]),
        filled,
    )
    at.browser.fill("Pickup time", "1330", whole)
    at.browser.keys(Keys.ENTER)
    at.browser.sees(f"Trip {trip} is changed for Walter Hughes (1007)")
    changed = next(it for it in at.town.trips_of(1007) if it["trip"] == trip)
    holds(f"the trip is around 1:30: {changed}", 795 <= changed["window_from"] <= 870)


@check
def times_are_taken_as_people_write_them(at: Place) -> None:
    begin(at, "1006")
    for typed, read in [
        ("9am", "9:00 AM"),
        ("9:30a", "9:30 AM"),
        ("noon", "12:00 PM"),
        ("1330", "1:30 PM"),
        ("1:30", "1:30 PM"),
        ("9 p.m.", "9:00 PM"),
        ("0915", "9:15 AM"),
    ]:
        at.browser.fill("Pickup time", typed)
        at.browser.sees(f"Read as {read}")
    at.browser.fill("Pickup time", "9")
    at.browser.sees("9:00 AM or 9:00 PM?")


@check
def places_are_found_by_any_part_of_the_name(at: Place) -> None:
    begin(at, "1006")
    at.browser.keys("b", *"dialysis")
    at.browser.find("option", re.compile("St. Mary's Dialysis"))
    at.browser.keys(Keys.ENTER)
    same("the place", "St. Mary's Dialysis (6)", at.browser.value("From"))
    at.browser.fill("To", "e")
    at.browser.keys(Keys.TAB)
    at.browser.press(BOOK)
    at.browser.sees("places have this in their names")


@check
def a_ticket_is_printed_in_the_riders_language_too(at: Place) -> None:
    at.town.book(1001, THURSDAY, 800, 1, 7)
    trip = last_trip(at, 1001)["trip"]
    begin(at, "1001")
    paper = printed_again(at, trip)
    for text in [
        "Rosa Álvarez",
        "Pasajero n.º 1001",
        "Pickup window",
        "Horario de recogida",
        "Example Town Transit",
        "555-0100",
        "jueves 13 de marzo de 2025",
        "Thursday, March 13, 2025",
    ]:
        holds(f"the paper has no {text}: {paper.text}", text in paper.text)
    same("pages", 1, paper.pages)
    line = next(it for it in paper.text.splitlines() if "Thursday, March 13, 2025" in it)
    holds(
        "the rider's language comes first",
        "jueves 13 de marzo de 2025" in line.split("Thursday")[0],
    )
    spanish = "\n".join(it[: line.index("Thursday")] for it in paper.text.splitlines())
    holds(
        f"its times are those of the language: {spanish}",
        re.search(r"\d p\. m\.", spanish) and "p. m.." not in paper.text and "PM" not in spanish,
    )
    holds("a rider reads nothing that a driver has to know", "main door" not in paper.text)
    same("pages", 1, paper.pages)


@check
def trips_are_cards_as_soon_as_the_page_is_zoomed(at: Place) -> None:
    begin(at, "1001")
    at.browser.sees("Trips of Rosa Álvarez (1001)", "Change")
    count = "return [document.querySelectorAll('table.trips').length, document.querySelectorAll('ul.cards').length]"
    same("tables and lists on a wide screen", [1, 0], at.browser.script(count))
    with at.browser.zoomed():
        # (half a minute later they would be drawn anew in any case)
        until("there are no cards", lambda: at.browser.script(count) == [0, 1], 10)
        same("what can be moved sideways", 0, at.browser.sideways()[0])


# What a page says is what the desk said.


LATER, LATE_VAN = "2025-03-22", 650


def lines_until(at: Place, last: int | None) -> None:
    """All lines end at this minute; None puts them back."""
    for number, _, points, first, end in LINES:
        at.town.post(
            "admin",
            "/routes",
            {
                "id": number,
                "width": 3960,
                "points": points,
                "accessible": True,
                "days": [1, 2, 3, 4, 5, 6, 7],
                "first": first,
                "last": last or end,
            },
        )


def asked_of_desk(at: Place) -> list[Any]:
    return [it for it in at.browser.requests() if it.endswith("/trips") or "/change" in it]


@check
def the_last_hour_of_the_lines_is_booked_and_no_rule_is_told(at: Place) -> None:
    lines_until(at, 1260)
    try:
        begin(at, "1002")
        wish(at, start="library", goal="senior", day=FRIDAY, by="8:45 pm", matters="by")
        at.browser.press(BOOK)
        told = results(at, 1)
        trip = last_trip(at, 1002)
        holds(
            f"it is booked: {told}", f"Trip {trip['trip']} is booked" in told and trip["by"] == 1245
        )
    finally:
        lines_until(at, None)


@check
def before_the_lines_end_no_pickup_before_a_minute_asks_nearer_minutes(at: Place) -> None:
    lines_until(at, 1260)
    try:
        begin(at, "1002")
        wish(at, start="senior", goal="library", day=FRIDAY, wish="8:30 pm", matters="not-before")
        at.browser.press(BOOK)
        wait_for(
            at,
            "an answer",
            "!!document.querySelector('.legs .ticket, .legs .offer, .legs .refused')",
        )
        told = at.browser.script("return document.querySelector('.results').innerText")
        holds(
            f"a rule of the lines is told of a minute at which they run: {told}",
            "37.131(e)" not in told,
        )
        holds(
            f"the earlier pickup is an offer: {told}",
            re.search(r"The desk offers 8:\d\d PM, \d+ minutes before 8:30 PM", told),
        )
        at.browser.press(re.compile("^No, cancel trip"))
        at.browser.sees("The offer was not taken, and is given up.")
    finally:
        lines_until(at, None)


@check
def at_the_end_of_the_day_the_desk_is_asked(at: Place) -> None:
    begin(at, "1002")
    wish(at, start="school", goal="riverside", day=FRIDAY, wish="11:00 pm", matters="not-before")
    at.browser.requests()
    at.browser.press(BOOK)
    told = results(at, 1)
    holds("the desk was asked", len(asked_of_desk(at)) > 0)
    holds(f"each minute is one: {told}", "NaN" not in told and "undefined" not in told)
    at.browser.sees("We looked for pickups between 11:00 PM and 11:59 PM.")


def late_van(at: Place) -> None:
    """From that day on the van opens so late that a morning's trip is offered two hours later."""
    body: dict[str, Any] = {
        "id": 1,
        "from_day": LATER,
        "days": EVERY_DAY,
        "depot": 5,
        "capacity": 6,
        "chairs": 1,
    }
    body |= {"opens": LATE_VAN, "closes": 1320, "duration": 960}
    at.town.post("dispatcher", "/vehicles", body)


def kept_as_offered(trip: dict[str, Any]) -> dict[int, Any]:
    """What the file of the day has of a trip that was offered, once it is kept."""
    window = {"from": trip["window_from"], "to": trip["window_to"]}
    return {trip["trip"]: {"mode": "not-before", "minute": 540, **window}}


@check
def a_later_offer_is_kept_on_a_yes_alone(at: Place) -> None:
    late_van(at)
    for answer, status in [("^No, cancel trip", "cancelled"), ("^Yes, keep trip", "booked")]:
        begin(at, "1006")
        wish(at, start="library", goal="senior", day=LATER, wish="9 am", matters="not-before")
        at.browser.requests()
        at.browser.press(BOOK)
        at.browser.sees(
            "The desk offers 10:", "minutes after 9:00 AM", "It is kept only if the rider says yes."
        )
        trip = last_trip(at, 1006)
        far = trip["window_from"] - 540
        at.browser.sees(
            f"The desk offers {clock(trip['window_from'])}, {far} minutes after 9:00 AM"
        )
        asked = counted_in(at, "denials", "rule=no", "minute=540", "mode=not-before")
        holds("nothing is told as booked", not any("/tally/bookings" in it for it in asked))
        # (a window that is closed, or a line that breaks, leaves the offer as it is)
        at.browser.reload()
        at.browser.sees(
            "An offer waits for an answer of Ana María Núñez (1006)",
            f"The desk offers {clock(trip['window_from'])}, {far} minutes after 9:00 AM",
        )
        at.browser.press(re.compile(answer))
        if status == "booked":
            at.browser.sees(f"Trip {trip['trip']} is kept.")
            asked = counted_in(
                at, "bookings", f"trip={trip['trip']}", "mode=not-before", "minute=540"
            )
        else:
            at.browser.sees("The offer was not taken, and is given up.")
            asked = counted_in(at, "cancellations", f"trip={trip['trip']}", "by=agency")
        holds("it is counted as a denial once", not any("/tally/denials" in it for it in asked))
        same(
            "the trip",
            status,
            next(it for it in at.town.trips_of(1006) if it["trip"] == trip["trip"])["status"],
        )


@check
def a_change_that_is_denied_says_how_the_trip_stands(at: Place) -> None:
    at.town.book(1007, WEDNESDAY, 780, 8, 1)
    trip = last_trip(at, 1007)
    begin(at, "1007")
    at.browser.press(f"Change trip {trip['trip']} of Walter Hughes (1007)")
    wait_for(at, "the form of the change", f"document.activeElement.id === 'change-{trip['trip']}'")
    whole = at.browser.script("return document.querySelector('.trips-card form')")
    at.browser.fill("Pickup time", "4:00 am", whole)
    at.browser.requests()
    for _ in range(2):
        at.browser.press(f"Change trip {trip['trip']} of Walter Hughes (1007)", within=whole)
        told = results(at, 1)
    window = f"{clock(trip['window_from']).rsplit(' ', 1)[0]}–{clock(trip['window_to'])}"
    stays = f"Not changed. Trip {trip['trip']} stays as it was: Wed, Mar 12, pickup {window}."
    holds(f"how it stands: {told}", stays in told)
    holds(f"nothing is said of a booking: {told}", "Not booked" not in told)
    stands = next(it for it in at.town.trips_of(1007) if it["trip"] == trip["trip"])
    same("the trip", trip, stands)
    asked = counted_in(at, "denials", "minute=240")
    same("its denial is counted once", 1, len({it for it in asked if "/tally/denials" in it}))


@check
def a_second_change_in_the_same_form_starts_from_the_first(at: Place) -> None:
    at.town.book(1007, THURSDAY, 660, 9, 7)
    number = last_trip(at, 1007)["trip"]
    begin(at, "1007")
    name = f"Change trip {number} of Walter Hughes (1007)"
    at.browser.press(name)
    wait_for(at, "the form of the change", f"document.activeElement.id === 'change-{number}'")
    whole = at.browser.script("return document.querySelector('.trips-card form')")
    at.browser.fill("Pickup time", "3:00 pm", whole)
    at.browser.press(name, within=whole)
    holds("it is changed", f"Trip {number} is changed" in results(at, 1))
    trip = next(it for it in at.town.trips_of(1007) if it["trip"] == number)
    at.browser.fill("Pickup time", "4:00 am", whole)
    at.browser.press(name, within=whole)
    at.browser.sees(
        f"Not changed. Trip {number} stays as it was: Thu, Mar 13, pickup "
        f"{clock(trip['window_from']).rsplit(' ', 1)[0]}–{clock(trip['window_to'])}."
    )


@check
def a_change_opens_with_what_was_said(at: Place) -> None:
    begin(at, "1005")
    wish(at, start="senior", goal="library", day=THURSDAY, by="3 pm", matters="by")
    at.browser.press(BOOK)
    results(at, 1)
    trip = last_trip(at, 1005)
    holds("the list says it", "be there by 3:00 PM" in row_of(at, trip["trip"]))
    other = at.town.book(1005, WEDNESDAY, 900, 9, 7, by=960)
    begin(at, "1005")
    for number, by in [(other, "4:00 PM")]:
        at.browser.press(f"Change trip {number} of Samuel Grant (1005)")
        wait_for(at, "the form of the change", f"document.activeElement.id === 'change-{number}'")
        whole = at.browser.script("return document.querySelector('.trips-card form')")
        same(
            "the time to be there",
            by,
            at.browser.find("field", "Be there by", whole).get_property("value"),
        )
        same(
            "what matters",
            True,
            at.browser.find("field", MATTERS["by"], whole).get_property("checked"),
        )


@check
def what_the_sites_log_knows_of_a_trip_is_shown(at: Place) -> None:
    trip = at.town.book(1003, WEDNESDAY, 660, 13, 7)
    at.town.write_file(
        "staff/today.json",
        json.dumps({"bookings": {str(trip): {"mode": "not-before", "minute": 600}}}),
    )
    try:
        begin(at, "1003")
        wait_for(
            at,
            "what was said",
            "document.querySelector('table.trips')?.innerText.includes('not before 10:00 AM')",
        )
    finally:
        at.town.write_file("staff/today.json", None)


@check
def what_is_sure_to_be_a_slip_is_asked_about_first(at: Place) -> None:
    trip = at.town.book(1003, THURSDAY, 600, 13, 7)
    before = len(at.town.trips_of(1003))
    begin(at, "1003")
    wish(at, start="library", goal="library", day=FRIDAY, wish="3 pm")
    at.browser.press(BOOK)
    at.browser.sees("From and To are the same place, Public Library. Book all the same?")
    at.browser.press("No, go back")
    at.town.book(1003, FRIDAY, 840, 13, 7)
    other = last_trip(at, 1003)
    # (the trips that the page has read do not have this one yet)
    wish(at, start="7 Elm", goal="senior", day=FRIDAY, wish=clock(other["window_from"]))
    at.browser.press(BOOK)
    at.browser.sees(
        "Henry Park (1003) has a trip at that time. Book all the same?",
        f"Trip {other['trip']}: Friday, March 14, 2025",
    )
    at.browser.press("No, go back")
    same("trips", before + 1, len(at.town.trips_of(1003)))
    holds("the trip before is untouched", trip < other["trip"])


@check
def morning_or_evening_is_asked_only_where_both_are_possible(at: Place) -> None:
    begin(at, "1004")
    wish(at, start="88 Pine", goal="senior", day=WEDNESDAY, wish="9", by="10", back="5")
    at.browser.press(BOOK)
    results(at, 2)
    same(
        "no question was asked",
        ["9:00 AM", "10:00 AM", "5:00 PM"],
        [at.browser.value(name) for name in ["Pickup time", "And be there by", "Return pickup"]],
    )


@check
def the_way_there_stands_where_the_way_back_is_denied(at: Place) -> None:
    begin(at, "1005")
    wish(
        at,
        start="library",
        goal="senior",
        day=FRIDAY,
        wish="3 pm",
        back="11:15 pm",
        back_matters="around",
    )
    at.browser.press(BOOK)
    told = results(at, 2)
    trip = last_trip(at, 1005)
    for words in [
        f"The trip there is booked: trip {trip['trip']}, Fri, Mar 14",
        "There is no return yet.",
        "Not booked: Fri, Mar 14, around 11:15 PM, from Senior Center to Public Library",
    ]:
        holds(f"what stands, and why there is no way back: {told}", words in told)


@check
def a_closed_day_is_said_at_the_field_before_anything_is_sent(at: Place) -> None:
    right = at.town.answer("/agency.json")[2]
    closed = {**json.loads(right), "closed": [{"day": FRIDAY, "name": "Founders Day"}]}
    at.town.write_file("agency.json", json.dumps(closed).encode())
    try:
        before = len(at.town.trips_of(1005))
        begin(at, "1005")
        wish(at, start="library", goal="senior", day=FRIDAY, wish="3 pm")
        at.browser.sees("There is no service on Fri, Mar 14 (Founders Day). Choose another day.")
        at.browser.press(BOOK)
        at.browser.sees("There is no service on Fri, Mar 14 (Founders Day). Choose another day.")
        same("trips", before, len(at.town.trips_of(1005)))
    finally:
        at.town.write_file("agency.json", right if isinstance(right, bytes) else right.encode())


@check
def a_way_back_does_not_begin_before_the_way_there_arrives(at: Place) -> None:
    for press, is_later in [
        ("^Ask for a return not before", True),
        ("^Ask for it as said: not before 9:05 AM", False),
    ]:
        before = len(at.town.trips_of(1003))
        begin(at, "1003")
        wish(at, start="7 Elm", goal="Riverside", day=THURSDAY, wish="9 am", back="9:05 am")
        at.browser.press(BOOK)
        at.browser.sees(
            "The trip there may arrive as late as 9:",
            "after this return begins",
            "There is no return yet.",
            "1 of 2 trips are booked",
        )
        same(
            "trips until the rider has said when to leave", before + 1, len(at.town.trips_of(1003))
        )
        there = last_trip(at, 1003)
        at.browser.press(re.compile(press))
        at.browser.sees("2 trips are booked")
        back = last_trip(at, 1003)
        same("the ways", (there["from"], there["to"]), (back["to"], back["from"]))
        holds(
            f"{there}, {back}", back["window_from"] >= (there["window_to"] + 1 if is_later else 545)
        )
        for trip in (there, back):
            at.town.post("third clerk", f"/trips/{trip['trip']}/cancel", {})


@check
def a_way_back_that_the_desk_promises_before_the_arrival_is_an_offer(at: Place) -> None:
    for answer, status in [("^Yes, keep trip", "booked"), ("^No, cancel trip", "cancelled")]:
        before = {it["trip"] for it in at.town.trips_of(1003)}
        begin(at, "1003")
        wish(
            at,
            start="7 Elm",
            goal="Riverside",
            day=QUIET,
            wish="9 am",
            back="9:10 am",
            back_matters="around",
        )
        at.browser.press(BOOK)
        at.browser.sees("The return begins at ", "and the trip there may arrive as late as 9:10 AM")
        there, back = sorted(
            (it for it in at.town.trips_of(1003) if it["trip"] not in before),
            key=operator.itemgetter("trip"),
        )
        holds(
            f"it begins too early: {there}, {back}", back["window_from"] < there["window_to"] + 10
        )
        at.browser.press(re.compile(answer))
        at.browser.sees(
            "2 trips are booked"
            if status == "booked"
            else "The offer was not taken, and is given up."
        )
        stands = {it["trip"]: it["status"] for it in at.town.trips_of(1003)}
        same("the trips", ("booked", status), (stands[there["trip"]], stands[back["trip"]]))
        for trip in (there, back):
            at.town.post("third clerk", f"/trips/{trip['trip']}/cancel", {})


@check
def a_clerk_books_to_another_riders_home_by_what_is_typed(at: Place) -> None:
    begin(at, "1003")
    at.browser.find("field", "To").send_keys("pine")
    at.browser.find("option", re.compile("88 Pine Road.*Another rider’s place", re.S))
    at.browser.find("field", "To").clear()
    wish(at, start="7 Elm", goal="88 Pine", day=FRIDAY, wish="1 pm")
    at.browser.press(BOOK)
    at.browser.sees("is booked for Henry Park (1003)")
    same("where to", 14, last_trip(at, 1003)["to"])
    at.town.post("third clerk", f"/trips/{last_trip(at, 1003)['trip']}/cancel", {})


HIDDEN = """const it = document.activeElement, last = it.closest("form.wish")?.querySelector(":scope > .row:last-child");
if (!last || last.contains(it)) return null;
const one = it.getBoundingClientRect(), over = last.getBoundingClientRect();
return [it.name, one.bottom > over.top + 1 && one.top < over.bottom - 1];"""


@check
def what_has_the_focus_is_not_below_the_button_that_stays_in_sight(at: Place) -> None:
    keys = begin(at, "1005", "clerk")
    with at.browser.screen(1280, 500):
        at.browser.settled()
        # (between the rider's name and the form stand the buttons of each trip, however many there are)
        keys.press("b")
        wait_for(at, "the booking has the focus", "document.activeElement.name === 'from'")
        seen: list[Any] = [at.browser.script(HIDDEN)]
        for _ in range(20):
            keys.press(Keys.TAB)
            seen.append(at.browser.script(HIDDEN))
    holds(f"Tab came to the time: {seen}", ["wish", False] in seen)
    same(
        "what is hidden while it has the focus",
        [],
        [it[0] for it in seen if it and it[1]],
    )
