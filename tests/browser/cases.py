"""Cases: standing, letters, applications, appeals, suspensions, and what waits."""
import json
import os
import re
import subprocess
from collections.abc import Callable
from pathlib import Path
from typing import Any

from checks import Place, check, holds, same
from database import ROOT, Trouble, clocked, matched, until
from people import TODAY, TOMORROW

VANS = 1
AFTER = "2025-03-12"
WORKLIST = "staff/worklist.html"


def show(at: Place, key: str, screen: str, number: int, part: str = "") -> None:
    at.browser.sign_in(at.keys[key], screen, part)
    at.browser.fill("Find a rider", str(number))
    at.browser.press("Show the case")


def focused_id(at: Place) -> Any:
    return at.browser.script("return document.activeElement.id")


UNTIL = "2026-02-28"
LINE_1 = "You told us that you ride Line 1 each day."


def newcomer(at: Place, rider: int) -> Callable[..., Any]:
    """A rider whom no other check knows; what enters into the case."""
    at.town.post(
        "clerk",
        "/riders",
        {"id": rider, "kind": "resident", "attendant": False, "wheelchair": False},
    )
    return lambda holder, entry, **fields: at.town.post(
        holder, f"/riders/{rider}/entries", {"entry": entry, **fields}
    )


def refused(at: Place, rider: int, reasons: str = LINE_1) -> Any:
    """A newcomer whose application is refused by letter 1."""
    enter = newcomer(at, rider)
    enter("clerk", "complete")
    enter("examiner", "refuse", reasons=reasons)
    return enter


def granted_in_part(at: Place, rider: int) -> int:
    """A newcomer whose application is granted in part: letter 1 refuses, and letter 3 grants."""
    enter = refused(
        at, rider, f"Granted in part through {UNTIL} for farther:2640. Not granted: {LINE_1}"
    )
    enter("clerk", "complete")
    enter("examiner", "grant", until=UNTIL, conditions=["farther:2640"])
    return rider


@check
def a_case_is_shown_of_the_number_in_the_field_and_of_no_other(at: Place) -> None:
    show(at, "examiner", "examiner", 1009)
    at.browser.sees("Case file", "Peter Lange", "Rider 1009", "Standing of")
    holds("it is offered", at.browser.is_there("button", "Show the standing"))
    at.browser.fill("Find a rider", "1002")
    at.browser.sees("1002 is not shown yet")
    holds(
        "something of the other rider is left",
        not at.browser.is_there("button", "Show the standing"),
    )


@check
def a_visitor_and_nobody_have_no_case(at: Place) -> None:
    show(at, "examiner", "examiner", 1008)
    at.browser.sees("This rider is a visitor, who has no case file.")
    at.browser.fill("Find a rider", "1999")
    at.browser.press("Show the case")
    at.browser.sees("There is no rider of this number.")
    holds("a decision is offered", not at.browser.is_there("button", re.compile("application")))


@check
def a_refusal_names_the_rider_and_is_asked_once(at: Place) -> None:
    show(at, "examiner", "examiner", 1009)
    at.browser.sees("Case file")
    opened_entry(at, "refuse")
    at.browser.fill("Reasons, as they stand in the letter", "walks to the “bus” stop – alone")
    at.browser.press("Deny rider 1009's application")
    at.browser.sees('walks to the "bus" stop - alone', "can’t be undone")
    at.browser.press("No, go back")
    same(
        "entries",
        404,
        at.town.answer("/riders/1009/letters/1", {"Desk-Key": at.keys["examiner"]})[0],
    )
    at.browser.press("Deny rider 1009's application")
    at.browser.press("Yes: deny rider 1009's application")
    at.browser.sees("is denied. The letter is ready to print.")
    same("the focus", "decided-1009", focused_id(at))
    at.browser.sees(
        'Reasons: walks to the "bus" stop - alone', "This decision can be appealed through"
    )


@check
def another_decision_is_chosen_while_the_reasons_of_the_first_have_the_focus(at: Place) -> None:
    newcomer(at, 1060)("clerk", "complete")
    show(at, "examiner", "examiner", 1060)
    at.browser.sees("Case file")
    opened_entry(at, "refuse")
    at.browser.fill("Reasons, as they stand in the letter", LINE_1)
    opened_entry(at, "grant")
    at.browser.sees("Case file", "Paratransit eligibility: granted")
    opened_entry(at, "refuse")
    same("what was typed", LINE_1, at.browser.value("Reasons, as they stand in the letter"))


@check
def a_letter_on_paper_has_head_text_and_the_right_of_appeal(at: Place) -> None:
    refused(at, 1031)
    show(at, "examiner", "examiner", 1031)
    at.browser.sees("Case file")
    paper = at.browser.print_by("Print letter 1 of rider 1031")
    plain = " ".join(paper.text.split())
    for words in [
        "1 Market Street",
        "555-0100",
        "Monday, March 10, 2025",
        "DECISION refused",
        "The Appeals Officer",
        "You can appeal through Friday, May 9, 2025",
        "555-0199",
        "You have the right to a hearing",
        "no part in this decision",
    ]:
        holds(f"{words!r} is not on the paper: {plain}", words in plain)
    holds(f"small print: {paper.smallest()}", paper.smallest()[0] >= 9.9)
    at.browser.fill("Print in", "Español")
    paper = at.browser.print_by("Large print of letter 1 of rider 1031")
    plain = " ".join(paper.text.split())
    for words in [
        "Puede apelar hasta el viernes 9 de mayo de 2025",
        "DECISION refused",
        "Tiene derecho a una audiencia",
    ]:
        holds(f"{words!r} is not on the paper: {plain}", words in plain)
    holds(f"small print: {paper.smallest()}", paper.smallest()[0] >= 17.9)
    same("words beyond the edge", [], paper.outside())


@check
def a_rider_reads_of_the_own_right_in_the_second_person(at: Place) -> None:
    at.browser.sign_in(at.keys["rider 1001"], "rider", "standing")
    at.browser.fill("Your rider number", "1001")
    at.browser.press("Show my pages")
    at.browser.sees("You may ride on Monday, March 10, 2025.")
    at.browser.sign_in(at.keys["rider 1001"], "rider", "standing")
    at.browser.fill("Your rider number", "1002")
    at.browser.press("Show my pages")
    at.browser.sees("This is not the number that your key is for.")


@check
def an_appeal_is_a_button_below_its_letter(at: Place) -> None:
    refused(at, 1032)
    at.browser.sign_in(at.keys["clerk"], "clerk", "file")
    at.browser.fill("Find a rider", "1032")
    at.browser.press("Show")
    at.browser.press("Enter rider 1032's appeal against letter 1")
    at.browser.press("Yes, enter the appeal of rider 1032")
    at.browser.sees("is on record. An officer must hold a hearing.")
    same("the focus", "answer-letter-1", focused_id(at))


@check
def an_officer_denies_an_appeal_and_is_asked(at: Place) -> None:
    refused(at, 1033)("clerk", "appeal", against=1)
    show(at, "officer", "officer", 1033)
    at.browser.sees("Case file")
    holds(
        "an officer is offered to appeal",
        not at.browser.is_there("button", re.compile("appeal against")),
    )
    for at_kind, do in [
        ("heard", "Rider 1033's appeal was heard"),
        ("appeal-denied", "Deny rider 1033's appeal"),
    ]:
        opened_entry(at, at_kind)
        if at_kind == "appeal-denied":
            field = at.browser.find("field", "Reasons, as they stand in the letter")
            field.send_keys("lives by the stop")
        at.browser.press(do)
        at.browser.press(f"Yes: {do[0].lower()}{do[1:]}")
        at.browser.sees(
            "on record" if at_kind == "heard" else "is denied. The letter is ready to print."
        )
        until(f"the focus is on {focused_id(at)!r}", lambda: focused_id(at) == "decided-1033")
    at.browser.sees(
        "has denied the appeal. It was decided by a person who had no part",
        "No decision of this rider can be appealed",
    )
    holds(
        "what was decided can be decided again",
        not at.browser.is_there("button", re.compile("appeal$|appeal was heard")),
    )


APPEALS = """<main><section id=appeals><h2>Appeals to decide</h2><table><thead><tr><th>Rider<th>Name<th>Against<th>Filed on<th>Heard on<tbody>
<tr><td>1034<td>?<td>refuse (entry 1)<td>2025-03-10<td>{heard}</table></section>"""


def entries_of_appeals(at: Place) -> Any:
    return at.browser.script(
        "return [...document.querySelectorAll('input[name^=decision]')].map((it) => [it.value, it.checked]).filter(([kind]) => !['notice-heard', 'suspend'].includes(kind))"
    )


@check
def of_an_appeal_an_officer_is_offered_what_fits_and_reads_since_when_it_waits(at: Place) -> None:
    show(at, "officer", "officer", 1001)
    at.browser.sees(
        "No decision of this rider can be appealed: every denial and suspension has had its appeal, or there is none."
    )
    same("forms for a rider whom nobody refused", [], entries_of_appeals(at))
    refused(at, 1034)
    show(at, "officer", "officer", 1034)
    at.browser.sees("This page knows of no appeal.", "the decision of Monday, March 10, 2025")
    same(
        "folded forms, and none that lifts a suspension",
        [["heard", False], ["appeal-granted", False], ["appeal-denied", False]],
        entries_of_appeals(at),
    )
    try:
        for heard, state, forms in [
            (
                "not heard",
                "An appeal has waited since Mon, Mar 10. It has not been heard.",
                [["heard", True], ["appeal-granted", False], ["appeal-denied", False]],
            ),
            (
                "2025-03-10",
                "An appeal has waited since Mon, Mar 10. It was heard on Mon, Mar 10.",
                [["appeal-granted", False], ["appeal-denied", False]],
            ),
        ]:
            at.town.write_file(WORKLIST, APPEALS.format(heard=heard))
            show(at, "officer", "officer", 1034)
            at.browser.sees(state)
            same(f"forms where it was {heard}", forms, entries_of_appeals(at))
    finally:
        at.town.write_file(WORKLIST, "<!doctype html><p>Nothing waits.</p>")


@check
def reasons_that_say_nothing_are_asked_about_and_go_once_they_are_sent(at: Place) -> None:
    newcomer(at, 1035)("clerk", "complete")
    show(at, "examiner", "examiner", 1035)
    at.browser.sees("Case file")
    opened_entry(at, "refuse")
    at.browser.fill(REASONS, "no")
    at.browser.press("Deny rider 1035's application")
    at.browser.sees(
        "These reasons are very short. The letter must say specifically why. (49 CFR 37.125(d))"
    )
    at.browser.press("No, go back")
    at.browser.fill(REASONS, "takes the bus to work alone five days a week, and climbs its steps")
    at.browser.press("Deny rider 1035's application")
    holds("enough is asked about", "These reasons are very short" not in at.browser.text())
    at.browser.press("Yes: deny rider 1035's application")
    at.browser.sees("is denied. The letter is ready to print.")
    opened_entry(at, "refuse")
    same("what was typed for it", "", at.browser.value(REASONS))


@check
def the_second_of_two_examiners_reads_the_first_ones_letter(at: Place) -> None:
    enter = newcomer(at, 1036)
    enter("clerk", "complete")
    show(at, "examiner", "examiner", 1036)
    at.browser.sees("There is no letter yet.")
    opened_entry(at, "refuse")
    at.browser.fill(REASONS, "takes the bus to work alone five days a week")
    enter("examiner", "grant", until="2026-02-28", conditions=["always"])
    at.browser.press("Deny rider 1036's application")
    at.browser.press("Yes: deny rider 1036's application")
    at.browser.sees("Read the letters of this case.")
    at.browser.sees_no("There is no letter yet.")
    at.browser.sees("Read letter 1")
    holds(
        f"the focus is on the answer: {at.browser.focused()!r}",
        "Read the letters of this case." in at.browser.focused(),
    )
    same(
        "what was typed stays",
        "takes the bus to work alone five days a week",
        at.browser.value(REASONS),
    )


@check
def a_suspension_is_of_thirty_days_at_most(at: Place) -> None:
    show(at, "officer", "officer", 1001)
    at.browser.sees("Case file")
    at.browser.sees("Decide for Rosa Álvarez (1001)")
    opened_entry(at, "suspend")
    at.browser.sees("No notice is on record. A clerk gives it")
    same(
        "the first day, so that an appeal can come first",
        "2025-03-25",
        at.browser.find("field", "First day of the suspension").get_attribute("value"),
    )
    at.browser.fill("Reasons, as they stand in the letter", "missed trips")
    at.browser.fill("First day of the suspension", "2025-03-11")
    at.browser.fill("Last day", "2025-04-10")
    at.browser.press("Suspend rider 1001")
    at.browser.sees(
        "Choose a last day from Tuesday, March 11, 2025 to Wednesday, April 9, 2025: 30 days at most."
    )
    at.browser.fill("Last day", "2025-04-09")
    at.browser.press("Suspend rider 1001")
    at.browser.sees(
        "From Tuesday, March 11, 2025 through Wednesday, April 9, 2025.",
        "These reasons are very short.",
    )
    at.browser.press("Yes: suspend rider 1001")
    at.browser.sees("This step of a suspension can’t be entered yet.")


# What waits, and the missed trips on which an officer decides.


def make_worklist(at: Place, today: str) -> None:
    """Of a copy of the desk's file, as each night's unit makes it."""
    folder = at.town.folder
    words = [
        f"{ROOT}/bin/worklist",
        at.town.copied(),
        "--html",
        f"{folder}/site/{WORKLIST}",
        "--today",
        today,
        "--program",
        at.town.desk.program,
        "--agency",
        f"{folder}/source-agency.json",
        "--roster",
        f"{folder}/source-roster.csv",
    ]
    made = subprocess.run(words, capture_output=True, text=True)
    if made.returncode:
        raise Trouble(f"bin/worklist: {made.stderr}")


@check
def an_officer_reads_of_the_missed_trips_on_which_to_decide(at: Place) -> None:
    trip = min(it["trip"] for it in at.town.trips_of(1001) if it["day"] == TOMORROW)
    at.town.set_clock(TOMORROW, "22:00")
    at.town.post("dispatcher", f"/trips/{trip}/outcome", {"outcome": "missed-rider"})
    at.town.set_clock(AFTER)
    try:
        make_worklist(at, AFTER)
        show(at, "officer", "officer", 1001)
        at.browser.press("View the case file as a table")
        at.browser.sees(
            "No-shows of rider 1001",
            "The desk shows trips only to clerks and dispatchers.",
            "For Wed, Mar 12, from the copy of ",
            "Patterns of missed trips: 1",
            "100 %",
            "Case file of rider 1001, Rosa Álvarez",
            "complete",
            "grant",
        )
        at.browser.fill("Find a rider", "1006")
        at.browser.press("Show the case")
        at.browser.sees("The work list shows no pattern of no-shows for this rider")
    finally:
        at.town.set_clock(TODAY)


@check
def what_waits_leads_to_the_case(at: Place) -> None:
    at.browser.sign_in(at.keys["officer"], "officer", "waits")
    at.browser.sees("Appeals to decide", "Patterns of missed trips: 1", "Rosa Álvarez")
    at.browser.sees_no("Applications to decide")
    at.browser.press("Lists for others")
    at.browser.sees("Applications to decide", "Vehicles with trips ahead")
    paper = at.browser.print_by("Print these lists")
    for words in [
        "Waiting for action",
        "Patterns of missed trips: 1",
        "Rosa Álvarez",
        "Vehicles with trips ahead",
    ]:
        holds(f"{words} is not on the paper", words in paper.text)
    at.browser.press("Show rider 1001")
    at.browser.sees("Decide for Rosa Álvarez (1001)", "No-shows of rider 1001")
    for screen, title in [
        ("examiner", "Applications to decide"),
        ("dispatcher", "Trips without an outcome"),
    ]:
        at.browser.sign_in(at.keys[screen], screen, "waits")
        at.browser.sees(title)


QUEUE = """return [...document.querySelectorAll(".case-queue tbody tr")].map((row) => [...row.children].map((it) => it.innerText.trim().replace(/\\s+/g, " ")));"""


@check
def an_examiner_begins_with_the_cases_that_wait_and_one_click_opens_one(at: Place) -> None:
    newcomer(at, 3301)("clerk", "complete")
    make_worklist(at, AFTER)
    at.browser.sign_in(at.keys["examiner"], "examiner")
    rows = until("no queue", lambda: at.browser.script(QUEUE))
    mine = next(row for row in rows if "3301" in row[0])
    same(
        "what is said of it",
        ["Application", "21 days left", "Mon, Mar 31", "Complete Mon, Mar 10", "Decide"],
        mine[1:],
    )
    order = [
        -int(it.split()[0]) if "over" in it else 0 if "today" in it else int(it.split()[0])
        for it in [row[2] for row in rows]
    ]
    same("the fewest days left first", sorted(order), order)
    at.browser.press(f"This week {len([it for it in order if it <= 7])}")
    same(
        "those of this week",
        [it for it in order if it <= 7],
        [
            -int(row[2].split()[0]) if "over" in row[2] else int(row[2].split()[0])
            for row in at.browser.script(QUEUE)
        ],
    )
    at.browser.press(f"All {len(rows)}")
    paper = at.browser.print_by("Print list")
    for words in ["Rides from, if undecided", "21 days left", "Complete Mon, Mar 10"]:
        holds(f"{words} is not on the paper: {paper.text}", words in " ".join(paper.text.split()))
    at.browser.press("Decide: rider 3301")
    at.browser.sees("Decide for rider 3301")
    holds("the queue is still there", not at.browser.script(QUEUE))
    at.browser.press("All cases")
    until("the queue does not come back", lambda: at.browser.script(QUEUE))
    same("where the focus is", "rider-none", focused_id(at))


@check
def back_closes_a_case_and_what_was_typed_is_there_when_it_is_opened_again(at: Place) -> None:
    reasons, asked = "Reasons, as they stand in the letter", "can’t be undone"
    for rider in (3311, 3312):
        newcomer(at, rider)("clerk", "complete")
    make_worklist(at, AFTER)
    at.browser.sign_in(at.keys["examiner"], "examiner", "case")
    at.browser.press("Decide: rider 3311")
    opened_entry(at, "refuse")
    at.browser.fill(reasons, LINE_1)
    at.browser.press("Deny rider 3311's application")
    at.browser.sees(asked)
    for move, is_open in (
        (at.browser.driver.back, False),
        (at.browser.driver.forward, True),
        (at.browser.driver.back, False),
        (lambda: at.browser.press("Decide: rider 3311"), True),
        (at.browser.driver.back, False),
    ):
        move()
        until("the queue is not as it was", lambda of=is_open: bool(at.browser.script(QUEUE)) != of)
        at.browser.sees_no(asked)
        same("where it is", "#examiner/case", at.browser.script("return location.hash"))
        if is_open:
            at.browser.sees("Decide for rider 3311")
            same("what was typed", LINE_1, at.browser.value(reasons))
        else:
            same("where the focus is", "rider-none", focused_id(at))
    at.browser.press("Decide: rider 3312")
    at.browser.sees("Decide for rider 3312")
    at.browser.press("All cases")
    until("the queue does not come back", lambda: at.browser.script(QUEUE))
    at.browser.driver.forward()
    at.browser.sees("Decide for rider 3312")
    told = at.browser.script("return JSON.stringify(history.state)")
    holds(f"the history has a rider: {told}", "3312" not in told)


@check
def a_work_list_that_is_missing_wrong_or_not_for_this_key_is_told(at: Place) -> None:
    at.browser.sign_in(at.keys["rider 1001"], "officer", "waits")
    at.browser.sees("This key may not read the work list.")
    at.town.write_file(
        WORKLIST,
        "<main><p>Old.</p><section id=missed><h2>Two <img src=x><b>bold</b></h2>"
        "<script>document.title = 'x'</script><table><tbody><tr><td><form>1001",
    )
    at.browser.sign_in(at.keys["officer"], "officer", "waits")
    at.browser.sees("Old.", "Two bold")
    markup = at.browser.script(
        "return document.querySelectorAll('main img, main b, main script, main form').length"
    )
    same("markup of the file", 0, markup)
    at.town.write_file(WORKLIST, None)
    at.browser.sign_in(at.keys["officer"], "officer", "waits")
    at.browser.sees("This site has no work list.")
    make_worklist(at, AFTER)
    at.browser.press("Read it again")
    at.browser.sees("Patterns of missed trips: 1")


def first_letter_text(at: Place, rider: int, entry: int) -> Any:
    return at.town.answer(f"/riders/{rider}/letters/{entry}", {"Desk-Key": at.keys["officer"]})


def opened_entry(at: Place, kind: str) -> None:
    """The form of one kind of entry: a clerk unfolds it, and who decides chooses it."""
    until(
        f"there is no form of {kind}",
        lambda: at.browser.script(
            """const [kind] = arguments, radio = document.querySelector(`input[name^=decision][value="${kind}"]`);
        if (radio && !radio.checked) radio.click();
        const it = document.querySelector(`[data-entry="${kind}"]`);
        if (it?.localName === "details") it.open = true;
        return Boolean(it)""",
            kind,
        ),
    )


SEEN = {"vehicle": 1, "day": TOMORROW, "from": 540, "to": 570, "wait": 8, "minute": 580}


@check
def a_notice_says_what_was_seen_of_each_no_show_and_asks_where_nothing_speaks_for_it(
    at: Place,
) -> None:
    trip = min(it["trip"] for it in at.town.trips_of(1001) if it["day"] == TOMORROW)
    at.town.set_clock(AFTER)
    try:
        rows: list[tuple[dict[str, Any] | None, str, bool]] = [
            (None, "This site does not have what drivers reported", True),
            ({}, "The driver reported nothing about this trip.", True),
            ({"arrived": None}, "The driver entered no arrival.", True),
            ({"arrived": 595}, "The van came at 9:55 AM, 25 minutes after the window.", True),
            ({"arrived": 565, "wait": 1}, "waited 1 minute of 5", True),
            ({"arrived": 565}, "The van was there at 9:25 AM and waited 8 minutes.", False),
        ]
        for row, words, is_doubted in rows:
            file = {
                "made": f"{AFTER}T16:00:00Z",
                "since": "2025-01-01",
                "no_shows": {str(trip): {**SEEN, **row}} if row else {},
            }
            at.town.write_file("staff/no-shows.json", None if row is None else json.dumps(file))
            at.browser.sign_in(at.keys["clerk"], "clerk", "file")
            at.browser.fill("Find a rider", "1001")
            at.browser.press("Show")
            at.browser.sees("notice of a proposed suspension")
            opened_entry(at, "notice")
            at.browser.sees(words)
            at.browser.fill("Proposed last day", "2025-04-17")
            box = at.browser.find("field", re.compile(f"^Trip {trip}:"))
            same(f"it is ticked where {words}", not is_doubted, box.is_selected())
            if not box.is_selected():
                box.click()
            at.browser.press("Give rider 1001 notice")
            at.browser.sees("can’t be undone")
            same(
                f"it is asked where {words}",
                is_doubted,
                f"waited: trip {trip}" in at.browser.text(),
            )
            at.browser.press("No, go back")
    finally:
        at.town.write_file("staff/no-shows.json", None)
        at.town.set_clock(TODAY)


@check
def a_notice_names_each_missed_trip_and_the_days_that_are_proposed(at: Place) -> None:
    at.town.set_clock(AFTER)
    try:
        at.browser.sign_in(at.keys["clerk"], "clerk", "file")
        at.browser.fill("Find a rider", "1006")
        at.browser.press("Show")
        at.browser.sees("no no-show on record")
        at.browser.fill("Find a rider", "1001")
        at.browser.press("Show")
        at.browser.sees("Give Rosa Álvarez (1001) notice of a proposed suspension")
        opened_entry(at, "notice")
        same(
            "the first day that is proposed",
            "2025-04-11",
            at.browser.find("field", "Proposed first day of the suspension").get_attribute("value"),
        )
        at.browser.fill("Proposed last day", "2025-04-17")
        at.browser.find("field", re.compile(r"^Trip \d+:")).click()
        at.browser.fill("Anything else for the letter (optional)", "x" * 450)
        at.browser.press("Give rider 1001 notice")
        at.browser.sees("The notice takes 500 characters, and this has ")
        at.browser.fill("Anything else for the letter (optional)", "Called twice.")
        at.browser.press("Give rider 1001 notice")
        at.browser.sees(
            "Missed trips (no-shows): 2025-03-11 0",
            "Proposed suspension: 2025-04-11 through 2025-04-17. Called twice.",
        )
        at.browser.press("Yes: give rider 1001 notice")
        at.browser.sees(
            "proposes to suspend Rosa Álvarez (1001)'s paratransit service from Friday, April 11, 2025 through "
            "Thursday, April 17, 2025, because of missed trips (no-shows)."
        )
    finally:
        at.town.set_clock(TODAY)


@check
def the_notice_on_paper_says_what_is_proposed_why_and_how_to_be_heard(at: Place) -> None:
    at.town.set_clock(AFTER)
    try:
        show(at, "officer", "officer", 1001)
        at.browser.sees(
            "The notice proposed Friday, April 11, 2025 through Thursday, April 17, 2025."
        )
        last = max(it for it in range(12) if first_letter_text(at, 1001, it)[0] == 200)
        at.browser.fill("Print in", "English")
        plain = " ".join(at.browser.print_by(f"Print letter {last} of rider 1001").text.split())
        for words in [
            "Notice of proposed suspension",
            "from Friday, April 11, 2025 through Thursday, April 17, 2025",
            "2025-03-11 0",
            "Tuesday, March 11, 2025, pickup window",
            "reasons beyond your control",
            "right to a hearing",
            "Ask for a hearing by Thursday, March 27, 2025",
            "bring someone with you",
            "No suspension begins before we decide",
        ]:
            holds(f"{words!r} is not on the paper: {plain}", words in plain)
        holds(
            "the desk's own words come first",
            plain.index("On record, word for word") > plain.index("Ask for a hearing"),
        )
        at.browser.fill("Print in", "Español")
        plain = " ".join(at.browser.print_by(f"Print letter {last} of rider 1001").text.split())
        for words in [
            "Aviso de propuesta de suspensión",
            "propone suspender su servicio",
            "escritas en inglés",
            "Pida una audiencia",
        ]:
            holds(f"{words!r} is not on the paper: {plain}", words in plain)
        opened_entry(at, "suspend")
        same(
            "the days of the suspension",
            ["2025-04-11", "2025-04-17"],
            [
                at.browser.find("field", it).get_attribute("value")
                for it in ("First day of the suspension", "Last day")
            ],
        )
    finally:
        at.town.set_clock(TODAY)


# A grant in part, and each letter on paper.

REASONS = "Reasons, as they stand in the letter"
IN_PART = 1040


def told_today(at: Place) -> Any:
    """What the site was told, as deploy/today has it."""
    output = f"{at.folder}/site/staff/today.json"
    words = [
        f"{ROOT}/deploy/today",
        f"{at.folder}/tally.log",
        output,
        "--agency",
        f"{at.folder}/site/agency.json",
        "--once",
    ]
    made = subprocess.run(words, env=clocked(at.town.desk.clock), capture_output=True, text=True)
    same("deploy/today", (0, ""), (made.returncode, made.stderr))
    os.chmod(output, 0o644)
    return at.town.get("clerk", "/staff/today.json")["partial_grants"]


def step_told(at: Place, step: str) -> None:
    until(
        f"the site is not told that it is {step}",
        lambda: [it["step"] for it in told_today(at)] == [step],
    )


def waits(at: Place, screen: str, *words: str) -> None:
    """What waits on another machine, which knows nothing of what was done here."""
    at.browser.fresh()
    at.browser.sign_in(at.keys[screen], screen, "waits")
    at.browser.sees(*words)


@check
def a_grant_in_part_is_led_from_the_examiner_to_the_clerk_and_back(at: Place) -> None:
    enter = newcomer(at, IN_PART)
    enter("clerk", "complete")
    show(at, "examiner", "examiner", IN_PART)
    at.browser.sees("Case file")
    opened_entry(at, "in-part")
    form = at.browser.script("return document.querySelector('[data-entry=in-part]')")
    at.browser.fill("Last day of the grant", UNTIL, form)
    at.browser.fill(re.compile("^Trips with one end more"), "2640", form)
    at.browser.fill("Why no more is granted, as it stands in the letter", "ñ" * 490, form)
    at.browser.press(f"Grant rider {IN_PART}'s application in part")
    at.browser.sees("With the conditions the letter takes 500 characters")
    at.browser.fill(
        "Why no more is granted, as it stands in the letter",
        "You told us that you ride Line 1 from the stop at your corner.",
        form,
    )
    at.browser.press(f"Grant rider {IN_PART}'s application in part")
    at.browser.sees(
        "To be granted through Saturday, February 28, 2026: trips with one end more than 2,640 feet",
        "All other trips are denied.",
    )
    at.browser.press(f"Yes: grant rider {IN_PART}'s application in part")
    at.browser.sees(
        "It is on their page “Waiting for action”.",
        "The grant that goes with this denial is not entered yet.",
        "The grant waits for the new application",
    )
    step_told(at, "refused")

    waits(at, "clerk", f"Take the new application of rider {IN_PART} today")
    at.town.write_file("staff/today.json", None)
    make_worklist(at, TODAY)
    waits(at, "clerk", f"Take the new application of rider {IN_PART} today")
    at.browser.press(f"Show rider {IN_PART}")
    at.browser.sees(
        f"The application of rider {IN_PART} was granted in part on Monday, March 10, 2025. Enter it again today"
    )
    opened_entry(at, "complete")
    at.browser.press(f"Rider {IN_PART}'s application is complete")
    at.browser.press(re.compile("^Yes: rider 1040's application is complete"))
    at.browser.sees("is on record. It waits for the examiner.")
    at.browser.sees_no("Enter it again today")
    step_told(at, "applied")

    waits(at, "clerk", "Applications to decide")
    at.browser.sees_no("Take the new application of")
    waits(at, "examiner", f"Grant rider {IN_PART}'s new application with its conditions")
    at.browser.press(f"Show rider {IN_PART}")
    form = until(
        "the last step is not offered",
        lambda: at.browser.script("return document.querySelector('[data-entry=rest]')"),
    )
    same(
        "the last day that was named",
        UNTIL,
        at.browser.find("field", "Last day of the grant", form).get_attribute("value"),
    )
    same(
        "the condition that was named",
        "2640",
        at.browser.find("field", re.compile("^Trips with one end more"), form).get_attribute(
            "value"
        ),
    )
    at.browser.press(f"Grant rider {IN_PART}'s new application with its conditions")
    at.browser.press(re.compile("^Yes: grant rider 1040's new application"))
    at.browser.sees(
        "Letter 3", "Monday, March 10, 2025", "Paratransit eligibility: granted in part"
    )
    at.browser.press("Read letter 1")
    at.browser.sees("This decision and letter 3 are one letter.")
    step_told(at, "granted")
    waits(at, "examiner", "Applications to decide")
    at.browser.sees_no("Grants in part to finish")


@check
def a_grant_in_part_out_of_order_is_denied_and_what_is_left_undone_still_waits(at: Place) -> None:
    """Two examiners decide at once; and an examiner grants before the clerk took the new application."""
    out_of_turn, rider, waiting = "an application is already pending, or none is", 1046, 1047
    enter = newcomer(at, rider)
    enter("clerk", "complete")
    show(at, "examiner", "examiner", rider)
    at.browser.sees("Case file")
    opened_entry(at, "in-part")
    form = at.browser.script("return document.querySelector('[data-entry=in-part]')")
    at.browser.fill("Last day of the grant", UNTIL, form)
    at.browser.fill(re.compile("^Trips with one end more"), "2640", form)
    at.browser.fill(
        "Why no more is granted, as it stands in the letter",
        "You told us that you ride Line 1 from the stop at your corner.",
        form,
    )
    enter("examiner", "refuse", reasons=LINE_1)
    at.browser.press(f"Grant rider {rider}'s application in part")
    at.browser.press(f"Yes: grant rider {rider}'s application in part")
    at.browser.sees(out_of_turn)
    same("what is on record after the second examiner", 404, first_letter_text(at, rider, 2)[0])
    refused(at, waiting, f"Granted in part through {UNTIL} for farther:2640. Not granted: {LINE_1}")
    show(at, "examiner", "examiner", waiting)
    at.browser.sees("The grant waits for the new application")
    at.browser.press(f"Grant rider {waiting}'s new application with its conditions")
    at.browser.press(f"Yes: grant rider {waiting}'s new application with its conditions")
    at.browser.sees(out_of_turn, "The grant waits for the new application")
    at.browser.press("Read letter 1")
    at.browser.sees("The grant that goes with this denial is not entered yet.")
    same("what is on record before the clerk's step", 404, first_letter_text(at, waiting, 2)[0])
    make_worklist(at, TODAY)
    waits(at, "clerk", f"Take the new application of rider {waiting} today")


MADE = "Print this as a letter"


def paper_says(at: Place, button: str, own: str, *words: str) -> str:
    """The plain text of a letter on paper, which has these words and no others' marks."""
    if button != MADE:
        at.browser.fill("Print in", {"en": "English", "es": "Español"}[own])
    paper = at.browser.print_by(button)
    plain = " ".join(paper.text.split())
    for it in words:
        holds(f"{it!r} is not on the paper of {button} in {own}: {plain}", it in plain)
    holds(f"a sentence has a hole: {plain}", not re.search(r"undefined|NaN|null|[{}]", plain))
    same("words beyond the edge", [], paper.outside())
    holds(f"small print: {paper.smallest()}", paper.smallest()[0] >= 9.9)
    return plain


def both(at: Place, button: str, english: list[str], spanish: list[str]) -> None:
    """A letter on paper in each language. Of several letters that one is read first, as its name on the page has it."""
    at.browser.press(f"Read {matched(r'^Print (letter [0-9]+) of', button)[1]}")
    paper_says(at, button, "en", *english)
    paper_says(at, button, "es", *spanish)


@check
def each_letter_on_paper_has_what_the_regulation_asks_in_english_and_spanish(at: Place) -> None:
    agency, call = ["Example Town Transit", "555-0100", "To get this letter in large print"], [
        "Example Town Transit",
        "555-0100",
        "letra grande",
    ]
    appeal = [
        "You can appeal through Friday, May 9, 2025",
        "That is 60 days after the decision of Monday, March 10, 2025.",
        "The Appeals Officer",
        "You have the right to a hearing.",
        "present information and arguments",
        "a person who had no part in this decision",
        "decision and its reasons in writing",
    ]
    apelar = [
        "Puede apelar hasta el viernes 9 de mayo de 2025",
        "The Appeals Officer",
        "Tiene derecho a una audiencia.",
        "no participó en esta decisión",
        "sus razones por escrito",
    ]
    partly = granted_in_part(at, 1048)
    show(at, "examiner", "examiner", partly)
    at.browser.sees("Case file")
    both(
        at,
        f"Print letter 3 of rider {partly}",
        [
            *agency,
            "granted in part",
            "ADA Paratransit Eligible at Example Town Transit until Saturday, February 28, 2026",
            "more than 2,640 feet",
            "No personal care attendant",
            "What is not granted, and why",
            "Reasons: You told us that you ride Line 1",
            *appeal,
            "You keep what is granted",
        ],
        [
            *call,
            "aprobada en parte",
            "(ADA Paratransit Eligible)",
            "más de 2,640 pies",
            "Las razones están escritas en inglés",
            *apelar,
        ],
    )
    grant = newcomer(at, 1041)
    grant("clerk", "complete")
    grant("examiner", "grant", until="2025-05-31", conditions=["always"])
    granted, denied = refused(at, 1042), refused(at, 1043)
    for enter in (granted, denied):
        enter("clerk", "appeal", against=1)
        enter("officer", "heard")
    granted("officer", "appeal-granted", until="2026-02-28", conditions=["always"])
    denied(
        "officer",
        "appeal-denied",
        reasons="At the hearing you said that nothing keeps you from the bus.",
    )
    for rider, letter, english, spanish in [
        (
            1041,
            1,
            [
                *agency,
                "Name: ____",
                "Rider 1041 is ADA Paratransit Eligible at Example Town Transit until Saturday, May 31, 2025.",
                "for every trip",
                "No personal care attendant",
                "apply again before it",
            ],
            [
                *call,
                "hasta el sábado 31 de mayo de 2025",
                "todos los viajes",
                "presente otra solicitud antes",
            ],
        ),
        (
            1042,
            1,
            [
                *agency,
                "has denied Rider 1042's application",
                "Reasons: You told us that you ride Line 1 each day.",
                *appeal,
                "within 30 days after your hearing",
            ],
            [
                *call,
                "negó la solicitud",
                "Las razones están escritas en inglés",
                *apelar,
                "en los 30 días después de la audiencia",
            ],
        ),
        (
            1042,
            4,
            [
                *agency,
                "Your appeal: granted",
                "After the hearing, a person who had no part in the first decision",
                "ADA Paratransit Eligible",
            ],
            [*call, "Su apelación: concedida"],
        ),
        (
            1043,
            4,
            [
                *agency,
                "Your appeal: denied",
                "decided by a person who had no part in the first decision",
                "Reasons: At the hearing you said",
                "You may apply again",
            ],
            [
                *call,
                "Su apelación: negada",
                "no participó en la primera decisión",
                "puede apelar una vez",
            ],
        ),
    ]:
        show(at, "examiner", "examiner", rider)
        at.browser.sees("Case file")
        both(at, f"Print letter {letter} of rider {rider}", english, spanish)


@check
def on_paper_of_any_width_numbers_and_addresses_stay_together(at: Place) -> None:
    refused(at, 1049)
    show(at, "examiner", "examiner", 1049)
    at.browser.sees("Case file")
    for own in "English", "Español":
        at.browser.fill("Print in", own)
        for tenths in range(34, 56, 2):
            paper = at.browser.print_by(
                "Print letter 1 of rider 1049",
                preferCSSPageSize=False,
                paperWidth=tenths / 10,
                paperHeight=tenths / 10,
            )
            holds(
                f"a number is broken on paper {tenths / 10} inches wide: {paper.text}",
                not re.search(r"\b555-?\s*\n", paper.text),
            )
            pages = [" ".join(it.split()) for it in paper.page_texts]
            whole = [
                it
                for it in pages
                if "The Appeals Officer 1 Market Street" in it
                and "555-0199" in it.split("The Appeals Officer")[1]
            ]
            holds(
                f"the address is broken on paper {tenths / 10} inches wide: {pages}",
                len(whole) == 1,
            )


@check
def what_rests_on_no_decision_has_a_letter_too(at: Place) -> None:
    enter = newcomer(at, 1044)
    enter("clerk", "complete")
    refused(at, 1045)
    at.browser.sign_in(at.keys["clerk"], "clerk", "file")
    at.browser.fill("Find a rider", "1045")
    at.browser.press("Show")
    at.browser.press("Enter rider 1045's appeal against letter 1")
    at.browser.press("Yes, enter the appeal of rider 1045")
    at.browser.sees("is on record. An officer must hold a hearing.")
    paper_says(
        at,
        MADE,
        "en",
        "We have your appeal",
        "has had your appeal since Monday, March 10, 2025",
        "against the decision of Monday, March 10, 2025",
        "We will write or call to set a day for the hearing.",
        "You have the right to a hearing.",
        "within 30 days after your hearing",
    )
    at.town.set_clock("2025-03-31")
    try:
        for rider, words in [
            (
                1044,
                [
                    "You can ride until we decide your application",
                    "21 days passed without a decision",
                    "from Monday, March 31, 2025",
                ],
            ),
            (1008, ["You can ride as a visitor", "on 21 days within a period of 365 days"]),
        ]:
            at.browser.sign_in(at.keys["clerk"], "clerk", "file")
            at.browser.fill("Find a rider", str(rider))
            at.browser.press("Show")
            at.browser.sees("May ride" if rider == 0 else "may ride on Monday, March 31, 2025.")
            paper_says(at, MADE, "en", "Example Town Transit", "555-0100", *words)
    finally:
        at.town.set_clock(TODAY)


@check
def a_suspension_and_its_lifting_are_letters_in_both_languages(at: Place) -> None:
    at.town.set_clock(AFTER, "14:00")
    try:

        def enter(holder: str, entry: str, **fields: Any) -> Any:
            return at.town.post(holder, "/riders/1001/entries", {"entry": entry, **fields})

        enter("officer", "notice-heard")
        at_suspension = enter(
            "officer",
            "suspend",
            starts="2025-04-11",
            ends="2025-04-17",
            reasons="The van waited at each of the trips.",
        )["entered"]
        enter("clerk", "appeal", against=at_suspension)
        enter("second officer", "heard")
        lifted = enter("second officer", "overturn")["entered"]
        show(at, "officer", "officer", 1001)
        at.browser.sees("Case file")
        both(
            at,
            f"Print letter {at_suspension} of rider 1001",
            [
                "suspends Rosa Álvarez's paratransit service from Friday, April 11, 2025 through Thursday, April 17, 2025",
                "Reasons: The van waited",
                "You can appeal through Sunday, May 11, 2025",
                "the suspension waits: you can ride until the appeal is decided",
            ],
            ["suspende el servicio", "la suspensión espera"],
        )
        both(
            at,
            f"Print letter {lifted} of rider 1001",
            ["The suspension has been lifted", "no part in the first decision"],
            ["La suspensión quedó anulada"],
        )
    finally:
        at.town.set_clock(TODAY)


@check
def a_rider_prints_the_own_letter_with_the_own_name(at: Place) -> None:
    at.browser.sign_in(at.keys["rider 1001"], "rider", "letters")
    at.browser.fill("Your rider number", "1001")
    at.browser.press("Show my pages")
    # (the newest letter is open by itself)
    at.browser.find("button", "Read letter 1")
    at.browser.script(
        "document.querySelectorAll('.letter-text:not([open]) > summary').forEach((it) => it.click())"
    )
    at.browser.sees("You are ADA Paratransit Eligible at Example Town Transit")
    plain = " ".join(at.browser.print_by("Print letter 1 of rider 1001").text.split())
    holds(
        f"the name is not on it: {plain}",
        "Rosa Álvarez is ADA Paratransit Eligible at Example Town Transit until" in plain,
    )


@check
def the_program_for_letters_says_what_the_page_says(at: Place) -> None:
    """The text that a page saves is that of bin/letters, which asks the desk."""
    folder, partly = at.town.folder, granted_in_part(at, 1050)
    Path(f"{folder}/key-of-letters").write_text(at.keys["examiner"], "ascii")
    words = [
        f"{ROOT}/bin/letters",
        "text",
        f"{folder}/letter.txt",
        "--url",
        f"http://127.0.0.1:{at.town.desk.port}",
        "--key",
        f"{folder}/key-of-letters",
        "--agency",
        f"{folder}/source-agency.json",
        "--roster",
        f"{folder}/source-roster.csv",
        "--rider",
    ]
    made = subprocess.run([*words, str(partly)], capture_output=True, text=True)
    same("bin/letters", (0, ""), (made.returncode, made.stderr))
    show(at, "examiner", "examiner", partly)
    at.browser.sees("Case file")
    at.browser.fill("Print in", "English")
    at.browser.script(
        """window.saved = [];
        const before = URL.createObjectURL;
        URL.createObjectURL = (blob) => { blob.text().then((text) => window.saved.push(text)); return before(new Blob(['x'])); };"""
    )
    at.browser.press(f"Text for e-mail of letter 3 of rider {partly}")
    saved = until("no text is saved", lambda: at.browser.script("return window.saved[0]"))
    same("the text of the letter", Path(f"{folder}/letter.txt").read_text("utf-8"), saved)
    for rider, entry, said in [
        ("9999", None, "the desk has no letter to rider 9999"),
        (str(partly), "7", "the desk has no letter 7 to rider 1050, but 1, 3"),
    ]:
        os.remove(f"{folder}/letter.txt") if os.path.exists(f"{folder}/letter.txt") else None
        made = subprocess.run(
            [*words, rider, *(["--entry", entry] if entry else [])], capture_output=True, text=True
        )
        same(
            "a letter that is not there",
            (1, f"bin/letters: {said}\n"),
            (made.returncode, made.stderr),
        )
        holds("something was written", not os.path.exists(f"{folder}/letter.txt"))


@check
def a_complaint_and_a_request_for_a_modification_print_with_the_agency(at: Place) -> None:
    at.browser.sign_in(at.keys["clerk"], "clerk", "file")
    at.browser.fill("Find a rider", "1002")
    at.browser.press("Show")
    at.browser.sees("Forms: a complaint, a request for a modification")
    at.browser.script(
        """[...document.querySelectorAll('summary')].find((it) => it.textContent.startsWith('Forms:')).parentElement.open = true"""
    )
    for button, words in [
        (
            "Print a complaint form",
            [
                "Complaint about paratransit service",
                "What happened, and who saw it",
                "Queja sobre el servicio",
            ],
        ),
        (
            "Print a request for a reasonable modification",
            [
                "Why do you need it to use the service",
                "(49 CFR 37.169)",
                "Solicitud de modificación razonable",
            ],
        ),
    ]:
        paper = at.browser.print_by(button)
        plain = " ".join(paper.text.split())
        for it in ["Example Town Transit", "1 Market Street", "555-0100", *words]:
            holds(f"{it!r} is not on the paper: {plain}", it in plain)
        same(f"pages of {button}: one for each language", 2, len(paper.page_texts))
