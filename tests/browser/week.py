"""The week of docs/GUIDE.md, played on the screens by its people, with the paper that each gets."""
import csv
import io
import operator
import re
import subprocess
from typing import Any

from selenium.webdriver.common.keys import Keys

from checks import Place, check, holds, same
from database import ROOT, Trouble, matched, until
from dispatcher import open_popup, print_view

VANS = 2
MONDAY, TUESDAY, WEDNESDAY, THURSDAY, FRIDAY = (f"2025-03-{day}" for day in (10, 11, 12, 13, 14))
# A newcomer, one who is refused and appeals, one who misses a trip, and one whom the agency misses.
NEWCOMER, REFUSED, MISSED, TRAVELER = 1701, 1009, 1002, 1005
# The entry of the case file, and so the letter, that is the suspension: granted, notice and hearing come before it.
SUSPENSION = 4
GRANTED = {"Last day of the grant": "2026-02-28"}
REASONS = "Reasons, as they stand in the letter"


def words_of(paper: Any) -> str:
    return " ".join(paper.text.split())


def has(paper: Any, *words: str) -> None:
    plain = words_of(paper)
    for it in words:
        holds(f"{it!r} is not on the paper: {plain}", it in plain)
    same("words beyond the edge", [], paper.outside())


def begin(
    at: Place, holder: str, screen: str, part: str = "", day: str = MONDAY, hour: str = "10:00"
) -> None:
    at.town.set_clock(day, hour)
    at.browser.sign_in(at.keys[holder], screen, part)


def show(at: Place, number: int) -> None:
    at.browser.fill("Find a rider", str(number))
    at.browser.keys(Keys.ENTER)


def case_of(at: Place, holder: str, number: int, part: str = "", day: str = MONDAY) -> None:
    begin(at, holder, holder, part, day)
    at.browser.fill("Find a rider", str(number))
    at.browser.press("Show the case")
    at.browser.sees("Case file")


FORM = """const radio = document.querySelector(`input[name^=decision][value="${arguments[0]}"]`);
    if (radio && !radio.checked) radio.click();
    const it = document.querySelector(`[data-entry="${arguments[0]}"]`);
    if (it?.localName === "details") it.open = true;
    return it;"""


def enter(at: Place, kind: str, act: str, fields: tuple[()] | dict[Any, Any] = ()) -> None:
    """Opens an entry's form, fills it in, and says yes to its question."""
    form = until(f"there is no form {kind}", lambda: at.browser.script(FORM, kind))
    for name, value in dict(fields).items():
        at.browser.fill(name, value, form)
    at.browser.press(act)
    at.browser.press(f"Yes: {act[0].lower()}{act[1:]}")


def denial_of(at: Place, rider: int) -> str | None:
    """The rule by which a trip within the suspension is denied, or None."""
    try:
        at.town.book(rider, "2025-03-18", 660, 3, 6)
    except Trouble as trouble:
        return matched(r"'denied': '(.*?)'", str(trouble))[1]
    return None


def trip_of(at: Place, number: int) -> Any:
    return max(at.town.trips_of(number), key=operator.itemgetter("trip"))


def answer_yes_no(at: Place, **answers: bool) -> None:
    for group, answer in answers.items():
        within = at.browser.find("group", re.compile(f"^{group.replace('_', ' ')}"))
        at.browser.fill("Yes" if answer else "No", True, within)


@check
def on_monday_a_newcomer_gets_a_record_and_an_application(at: Place) -> None:
    begin(at, "clerk", "clerk", "rider")
    at.browser.fill("Rider number", str(NEWCOMER))
    at.browser.fill("Kind", "resident")
    answer_yes_no(at, May_bring_an_attendant=False, Comes_in_a_wheelchair=False)
    at.browser.press("Save the record")
    at.browser.sees(f"Rider {NEWCOMER} is new on record.")
    at.browser.sign_in(at.keys["clerk"], "clerk", "file")
    show(at, NEWCOMER)
    enter(at, "complete", f"Rider {NEWCOMER}'s application is complete")
    at.browser.sees("is on record. It waits for the examiner.")


@check
def an_examiner_grants_one_and_refuses_another_each_with_a_letter(at: Place) -> None:
    case_of(at, "examiner", NEWCOMER)
    enter(at, "grant", f"Grant rider {NEWCOMER}'s application", GRANTED)
    at.browser.sees("is granted. The letter is ready to print.")
    paper = at.browser.print_by(f"Print letter 1 of rider {NEWCOMER}")
    has(paper, "1 Market Street", "555-0100", "DECISION granted", "Monday, March 10, 2025")
    case_of(at, "examiner", REFUSED)
    enter(
        at,
        "refuse",
        f"Deny rider {REFUSED}'s application",
        {REASONS: "walks to the bus stop alone"},
    )
    at.browser.sees("is denied. The letter is ready to print.")
    paper = at.browser.print_by(f"Print letter 1 of rider {REFUSED}")
    has(paper, "DECISION refused", "walks to the bus stop alone", "You can appeal through")


@check
def on_the_telephone_a_trip_is_booked_for_thursday_with_a_ticket(at: Place) -> None:
    begin(at, "clerk", "clerk", "trips", hour="11:00")
    show(at, NEWCOMER)
    at.browser.find("button", re.compile(r"^Book (the|[0-9]+) trip"))
    for name, value in {
        "From": "Town Hall",
        "To": "General Hospital",
        "Pickup time": "10:00 am",
        "Day": "Thursday, March 13, 2025",
    }.items():
        at.browser.fill(name, value)
    at.browser.press(re.compile(r"^Book (the|[0-9]+) trip"))
    until("no trip is booked", lambda: re.search(r"Trip (\d+) is booked", at.browser.text()))
    trip = trip_of(at, NEWCOMER)
    same("the day", THURSDAY, trip["day"])
    holds(f"the van comes around 10:00: {trip}", 585 <= trip["window_from"] <= 660)
    holds("the window is at most half an hour", trip["window_to"] - trip["window_from"] <= 30)
    paper = at.browser.print_by(re.compile("^Print (the|this) ticket"))
    has(paper, f"{NEWCOMER}", "Pickup window", "Example Town Transit", "General Hospital")


@check
def on_tuesday_the_trip_is_changed_and_keeps_its_number(at: Place) -> None:
    begin(at, "clerk", "clerk", "trips", TUESDAY)
    number = trip_of(at, NEWCOMER)["trip"]
    show(at, NEWCOMER)
    at.browser.press(re.compile(f"^Change trip {number} of"))
    form = until(
        "no form of the change",
        lambda: at.browser.script(
            """return [...document.querySelectorAll('form')]
        .find((it) => (it.getAttribute('aria-label') ?? '').startsWith('Change trip'))"""
        ),
    )
    at.browser.fill("Pickup time", "1:30 pm", form)
    at.browser.keys(Keys.ENTER)
    at.browser.sees(f"Trip {number} is changed for")
    trip = trip_of(at, NEWCOMER)
    same("its number", number, trip["trip"])
    holds(f"the van comes around 1:30: {trip}", 795 <= trip["window_from"] <= 870)
    paper = at.browser.print_by(f"Print the ticket of trip {number}")
    has(paper, f"{NEWCOMER}", "General Hospital")


@check
def on_wednesday_evening_thursday_is_printed(at: Place) -> None:
    at.town.book(MISSED, THURSDAY, 660, 3, 6)
    at.town.book(TRAVELER, THURSDAY, 720, 6, 8)
    begin(at, "dispatcher", "dispatcher", "", WEDNESDAY, "18:00")
    open_popup(at, "day-pop")
    at.browser.fill("Day", THURSDAY)
    at.browser.sees("Thursday, March 13, 2025")
    lines = at.town.get("dispatcher", f"/days/{THURSDAY}/sheet").splitlines()
    open_popup(at)
    at.browser.fill("Print with the original text", True)
    paper = at.browser.print_by("Print the day sheet")
    printed = words_of(paper)
    same(
        "lines that are not on the day sheet",
        [],
        [it for it in lines if it and " ".join(it.split()) not in printed],
    )
    paper = print_view(at, "Print the manifest of the day")
    has(paper, f"rider {NEWCOMER}", "Dorothy O'Neill", "Odometer out", "Signature")


@check
def on_thursday_outcomes_are_entered(at: Place) -> None:
    trips = {rider: trip_of(at, rider) for rider in (NEWCOMER, MISSED, TRAVELER)}
    begin(at, "dispatcher", "dispatcher", "trips", THURSDAY, "20:00")
    for rider, button, wanted in (
        (NEWCOMER, "Completed", "ridden"),
        (MISSED, "No-show", "missed-rider"),
        (TRAVELER, "Missed by us", "missed-operator"),
    ):
        number = trips[rider]["trip"]
        at.browser.press(re.compile(f"^Set outcome of trip {number} of"))
        at.browser.press(button)
        at.browser.press(
            re.compile(f"^(Yes: {button.lower()}|Record (a |as )?{button.lower()} anyway)$")
        )
        until(f"trip {number} is no {wanted}", lambda: trip_of(at, rider)["status"] == wanted)
        same(f"trip {number}", wanted, trip_of(at, rider)["status"])
    at.browser.go_part("dispatcher", "day")
    open_popup(at)
    paper = at.browser.print_by("Print the day sheet")
    has(paper, "Outcome", "completed", "no-show", "missed by us")


@check
def on_friday_the_one_who_was_refused_appeals_and_is_heard(at: Place) -> None:
    begin(at, "clerk", "clerk", "file", FRIDAY)
    show(at, REFUSED)
    at.browser.press(f"Enter rider {REFUSED}'s appeal against letter 1")
    at.browser.press(f"Yes, enter the appeal of rider {REFUSED}")
    at.browser.sees("is on record. An officer must hold a hearing.")
    case_of(at, "officer", REFUSED, day=FRIDAY)
    enter(at, "heard", f"Rider {REFUSED}'s appeal was heard")
    at.browser.sees("is on record. A decision is due within 30 days.")
    enter(at, "appeal-granted", f"Grant rider {REFUSED}'s appeal", {**GRANTED, "Every trip": True})
    at.browser.sees("is granted. The letter is ready to print.")
    paper = at.browser.print_by(f"Print letter 4 of rider {REFUSED}")
    has(paper, "DECISION appeal granted")


@check
def on_friday_the_one_who_missed_gets_a_notice_is_heard_and_suspended(at: Place) -> None:
    begin(at, "clerk", "clerk", "file", FRIDAY)
    show(at, MISSED)
    # (the site has no report of the trip of March 13, so it starts unchecked)
    enter(
        at,
        "notice",
        f"Give rider {MISSED} notice",
        {re.compile(r"^Trip \d+:"): True, "Proposed last day": "2025-04-20"},
    )
    at.browser.sees("is on record, with its letter.")
    case_of(at, "officer", MISSED, day=FRIDAY)
    enter(at, "notice-heard", f"Rider {MISSED} was heard on the notice")
    at.browser.sees("on the notice is on record.")
    days = {"First day of the suspension": "2025-03-15", "Last day": "2025-03-24"}
    enter(at, "suspend", f"Suspend rider {MISSED}", {**days, REASONS: "missed trips"})
    at.browser.sees("is suspended. The letter is ready to print.")
    paper = at.browser.print_by(f"Print letter {SUSPENSION} of rider {MISSED}")
    has(paper, "DECISION suspended", "You can appeal through")
    same("a trip within the suspension", "37.125(h)", denial_of(at, MISSED))


@check
def while_the_appeal_is_pending_the_rider_travels(at: Place) -> None:
    begin(at, "clerk", "clerk", "file", FRIDAY)
    show(at, MISSED)
    at.browser.press(f"Enter rider {MISSED}'s appeal against letter {SUSPENSION}")
    at.browser.press(f"Yes, enter the appeal of rider {MISSED}")
    at.browser.sees("is on record. An officer must hold a hearing.")
    same("a trip within the suspension", None, denial_of(at, MISSED))


@check
def at_the_months_end_the_report_has_the_week(at: Place) -> None:
    copy = at.town.copied()

    def report(name: str) -> subprocess.CompletedProcess[str]:
        asked = ["--program", at.town.desk.program]
        words = [f"{ROOT}/bin/reports", name, copy, "--month", "2025-03", *asked]
        return subprocess.run(words, capture_output=True, text=True)

    made = report("months")
    holds(made.stderr, made.returncode == 0)
    rows = list(csv.DictReader(io.StringIO(made.stdout)))
    same("months", ["2025-03", "all"], [it["month"] for it in rows])
    ended = {name: rows[0][name] for name in ("ridden", "missed_by_rider", "missed_by_operator")}
    same(
        "how trips ended", {"ridden": "1", "missed_by_rider": "1", "missed_by_operator": "1"}, ended
    )
    listed = report("trips")
    holds(listed.stderr, listed.returncode == 0 and str(NEWCOMER) in listed.stdout)
