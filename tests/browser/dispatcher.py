"""The dispatcher's day: picture, trips, outcomes, vehicles out of service, paper."""
import csv
import io
import json
import re
from collections.abc import Callable, Sequence
from typing import Any

from selenium.webdriver.common.keys import Keys

from checks import Place, check, holds, same
from database import Trouble, matched, until
from large_day import READS_DAY
from middle import UNHEARD
from people import RIDERS, TRAVELERS, vans_of
from scripts import SAVED

VANS = 6
DAY, LATER, BUSY = "2025-03-11", "2025-03-12", "2025-03-14"
# A day of so many trips is closed by so many clicks.
CLOSED_TRIPS, MOST_CLICKS = 96, 20
VAN_1, VAN_2 = "Van 1, blue", "Van 2, white"
SMALLEST = 9
VEHICLE = {
    "This holds from": DAY,
    "Seats": 4,
    "Leaves its depot from": "8 am",
    "Is back by": "5 pm",
    "Minutes that it may be out": 480,
    "Depot": "5",
}
# A day sheet of so many vans and trips, as the desk writes it.
SHEET = """
const two = (minute) => `${String(Math.floor(minute / 60)).padStart(2, "0")}:${String(minute % 60).padStart(2, "0")}`;
function sheetOf(vans, trips) {
    const lines = [];
    for (let van = 1, trip = 1; van <= vans; van += 1) {
        lines.push(`VEHICLE ${van} DAY 2025-03-11`, "06:00 DEPOT 5");
        for (let at = 0; at < trips / vans; at += 1, trip += 1) {
            const pick = 380 + at * 60, rider = 1001 + trip % 10;
            const who = `trip ${trip} rider ${rider} place`, window = `window ${two(pick)}-${two(pick + 15)}`;
            lines.push(`${two(pick)} PICK ${who} ${1 + trip % 14} load 1 chairs 0 ${window}`,
                `${two(pick + 20)} DROP ${who} ${1 + (trip + 3) % 14} load 0 chairs 0`);
        }
        lines.push("21:00 DEPOT 5");
    }
    return `${lines.join("\\n")}\\nTRIPS ${trips}\\n`;
}
"""
# Such a sheet given to the pages' own printing; it gives the text, and the seconds until it is laid out.
PRINTS_MADE = (
    SHEET
    + """
const [vans, trips, whole, original, done] = arguments, text = sheetOf(vans, trips);
Promise.all([import("/parts/paper-day.js"), import("/parts/texts.js")]).then(([paper, texts]) => {
    window.print = () => {};
    const began = performance.now(), manifests = texts.manifestsIn(text);
    if (whole) paper.printDaySheet("2025-03-11", manifests, text, { original });
    else paper.printManifests(manifests, new Map(), { original });
    document.getElementById("paper").getBoundingClientRect();
    done([text, (performance.now() - began) / 1000]);
}).catch((error) => done([String(error), -1]));
"""
)
# From now on the page reads such a sheet, in place of the desk's.
READS_MADE = (
    SHEET
    + """
const [vans, trips] = arguments, real = window.fetch, type = { "Content-Type": "text/plain" };
window.fetch = async (path, options) => {
    if (path.endsWith("/sheet")) return new Response(sheetOf(vans, trips), { headers: type });
    return path.endsWith("/trips.csv") ? new Response("trip,status", { headers: type }) : real(path, options);
};
"""
)


def words_of(text: str) -> str:
    return " ".join(text.split())


def sign_in(at: Place, day: str, hour: str, part: str = "") -> None:
    at.town.set_clock(day, hour)
    at.browser.sign_in(at.keys["dispatcher"], "dispatcher", part)


def rows_of(at: Place, day: str = DAY) -> list[Any]:
    return list(csv.DictReader(io.StringIO(at.town.get("dispatcher", f"/days/{day}/trips.csv"))))


def booked_on(at: Place, day: str, vehicle: str | None = None) -> list[Any]:
    return [
        row
        for row in rows_of(at, day)
        if row["status"] == "booked" and vehicle in (None, row["vehicle"])
    ]


def lacking(lines: Any, paper: Any) -> list[Any]:
    """Lines of the desk that are not on the paper."""
    printed = words_of(paper.text)
    return [line for line in lines if line and words_of(line) not in printed]


def is_right(paper: Any) -> None:
    size, text = paper.smallest()
    holds(f"{text!r} is printed in {size:.1f} points", size >= SMALLEST - 0.1)
    same("words beyond the edge", [], paper.outside())


def over(at: Place) -> None:
    at.browser.script("window.dispatchEvent(new Event('afterprint'))")


def vehicle_row(name: str) -> re.Pattern[Any]:
    return re.compile(f"^{re.escape(name)}[.,]")


def open_popup(at: Place, which: str = "view-pop") -> None:
    """Opens what a button of the day or of the trips opens beside it."""
    until(
        f"there is no {which}",
        lambda: at.browser.script(
            "const it = document.getElementById(arguments[0]); if (it) it.open = true; return Boolean(it)",
            which,
        ),
    )


def press_view(at: Place, name: str) -> None:
    open_popup(at)
    at.browser.press(name)


def print_view(at: Place, name: str) -> Any:
    open_popup(at)
    return at.browser.print_by(name)


def manifest_heading(van: str, day: str = "Tuesday, March 11, 2025") -> str:
    return f"Manifest, {van}, {day}"


# What is read of a day.


def looked(at: Place) -> None:
    at.browser.script("window.dispatchEvent(new Event('focus'))")


@check
def a_day_is_read_again_at_a_look_and_says_its_age_where_nothing_answers(at: Place) -> None:
    sign_in(at, DAY, "12:00", "trips")
    at.browser.press("Day after")

    def words(part: str) -> str:
        rows = rows_of(at, LATER)
        stand = sum(row["status"] != "cancelled" for row in rows)
        return f"{len(rows)} of {len(rows)} trips" if part == "trips" else f"{stand} trips ·"

    made = [at.town.book(rider, LATER, 780, 3, 7) for rider in [1001, 1003]]
    for part in ["trips", "day"]:
        at.browser.go_part("dispatcher", part)
        at.browser.sees(words(part))
        trip = at.town.book(1005, LATER, 600, 1, 2)
        looked(at)
        until(f"{part} has not the new trip", lambda part=part: words(part) in at.browser.text(), 6)
        at.town.stop_desk()
        try:
            looked(at)
            at.browser.sees("As of 12:00 PM. There is no answer to a newer question yet.", "trips")
        finally:
            at.town.start_desk()
        looked(at)
        at.browser.sees_no("As of 12:00 PM")
        made.append(trip)
    for trip in made:
        at.town.post("third clerk", f"/trips/{trip}/cancel", {})


# The picture.


@check
def the_picture_says_how_each_trip_does_and_the_table_says_the_same(at: Place) -> None:
    trips = sorted(
        (int(row["window_from"]), int(row["trip"])) for row in rows_of(at) if row["vehicle"] == "1"
    )
    at.town.set_clock(DAY, "10:30")
    for (_, trip), outcome in zip(trips, ["ridden", "missed-rider", "missed-operator"]):
        at.town.post("dispatcher", f"/trips/{trip}/outcome", {"outcome": outcome})
    sign_in(at, DAY, "10:30")
    at.browser.find("button", re.compile(f"^{VAN_1}[.] 3 of .* No outcome of .* 2 missed"))
    drawn = at.browser.script(
        """return ["done", "missed", "lost", "unsure"].map((it) => document.querySelector(`.lane .win.${it}`) !== null)"""
    )
    same("the picture has these outcomes", [True, True, True, True], drawn)
    press_view(at, "View as table")
    at.browser.sees(
        "Each stop of the day",
        "no-show",
        "missed by us",
        "under way by the plan",
        "no update for",
        "to come",
    )
    press_view(at, "View as table")


@check
def the_chosen_manifest_is_beside_the_picture_and_in_view(at: Place) -> None:
    with at.browser.screen(1366, 768):
        at.browser.press(vehicle_row(VAN_2))
        at.browser.find("heading", manifest_heading(VAN_2))
        same("the focus", f"Manifest, {VAN_2}, Tuesday, March 11, 2025", at.browser.focused())
        box, picture = at.browser.script(
            """return [".one-van", "#picture"]
            .map((it) => document.querySelector(it).getBoundingClientRect().toJSON())"""
        )
        holds(
            f"it is not beside: {box} {picture}",
            box["left"] >= picture["right"] and 0 <= box["top"] < 768,
        )
        same(
            "chosen vehicles",
            1,
            at.browser.script(
                "return document.querySelectorAll('.lane-row [aria-pressed=true]').length"
            ),
        )


@check
def of_fifty_vans_the_hours_the_names_and_the_manifest_stay_in_view(at: Place) -> None:
    sign_in(at, DAY, "10:30", "trips")
    with at.browser.screen(1366, 768):
        at.browser.script(READS_MADE, 50, 300)
        at.browser.press("Day", "link")
        at.browser.sees("300 trips ·")
        at.browser.press(vehicle_row("Vehicle 50"))
        at.browser.find("heading", manifest_heading("Vehicle 50"))
        at.browser.script("document.getElementById('picture').scrollLeft = 300")
        frame, hours, name, manifest = at.browser.script(
            """return ["#picture", ".hours", "#vehicle-50", ".one-van"]
            .map((it) => document.querySelector(it).getBoundingClientRect().toJSON())"""
        )
        holds(f"the hours are not on top: {hours} {frame}", abs(hours["top"] - frame["top"]) < 4)
        holds(f"the name is not at the edge: {name} {frame}", abs(name["left"] - frame["left"]) < 4)
        holds(f"the manifest is not in view: {manifest}", 0 <= manifest["top"] < 300)
    sign_in(at, DAY, "10:30")
    at.browser.press(vehicle_row(VAN_2))


@check
def arrow_keys_go_from_stop_to_stop_and_escape_takes_the_label_away(at: Place) -> None:
    at.browser.script("document.querySelector('#vehicle-1').focus()")
    at.browser.keys(Keys.ARROW_RIGHT, Keys.ARROW_RIGHT)
    label = "return document.querySelector('.tip')?.textContent ?? ''"
    until("no label", lambda: re.search("pick up|drop", at.browser.script(label)))
    at.browser.keys(Keys.ESCAPE)
    until("the label stays", lambda: at.browser.script(label) == "")
    same("the label", "", at.browser.script(label))


@check
def a_renewal_keeps_focus_scroll_and_what_is_open(at: Place) -> None:
    at.browser.script(
        """document.querySelectorAll('.one-van details').forEach((it) => { it.open = true; });
        document.querySelector('#vehicle-2').focus();
        document.querySelector('.van-stops').scrollTop = 120;"""
    )
    trip = next(
        row["trip"] for row in rows_of(at) if row["vehicle"] == "1" and row["status"] == "booked"
    )
    name = "return document.querySelector('#vehicle-1').textContent"
    before = at.browser.script(name)
    at.town.post("dispatcher", f"/trips/{trip}/outcome", {"outcome": "ridden"})
    until("it is not renewed", lambda: at.browser.script(name) != before)
    same(
        "kept",
        ["vehicle-2", True, True],
        at.browser.script(
            """return [document.activeElement.id,
        [...document.querySelectorAll('.one-van details')].every((it) => it.open), document.querySelector('.van-stops').scrollTop > 100]"""
        ),
    )


@check
def the_chosen_vehicle_is_marked_in_forced_colors(at: Place) -> None:
    with at.browser.media(forced_colors="active"):
        same(
            "outlined",
            ["solid", "none"],
            at.browser.script(
                """document.activeElement.blur();
            return [2, 1].map((id) => getComputedStyle(document.getElementById(`vehicle-${id}`)).outlineStyle)"""
            ),
        )


@check
def at_midnight_the_day_says_that_it_is_over(at: Place) -> None:
    sign_in(at, DAY, "23:59")
    at.browser.sees("today", "Today")
    at.browser.find("button", vehicle_row(VAN_1))
    at.town.set_clock(LATER, "00:01")
    at.browser.passes(120)
    at.browser.sees("Tuesday, March 11, 2025 is over. Today is Wednesday, March 12, 2025.")
    at.browser.press("Show today")
    at.browser.sees("Wednesday, March 12, 2025")
    at.browser.sees_no("is over")


@check
def nothing_moves_sideways_on_320_pixels(at: Place) -> None:
    with at.browser.screen(320, 640):
        for part in ["day", "trips", "out", "vehicles"]:
            sign_in(at, DAY, "10:30", part)
            at.browser.settled(600)
            same(f"{part} is too wide", 0, at.browser.sideways()[0])
            at.browser.space_text()
            same(f"{part} with spaced text is too wide", 0, at.browser.sideways()[0])


# Paper.


@check
def a_manifest_is_printed_for_a_driver_without_a_phone(at: Place) -> None:
    sign_in(at, DAY, "10:30")
    at.browser.press(vehicle_row(VAN_2))
    open_popup(at)
    at.browser.fill("Print with the original text", True)
    paper = at.browser.print_by("Print this manifest")
    is_right(paper)
    lines = at.town.get("dispatcher", f"/vehicles/2/manifest/{DAY}").splitlines()
    same("lines that are not printed", [], lacking(lines, paper))
    text = words_of(paper.text)
    holds("a place has no note", re.search("St[.] Mary's.{0,150}Dialysis.{0,150}ring twice", text))
    for it in [
        "Manifest, Van 2, white",
        "Odometer out",
        "Signature",
        "Arrived",
        "Fare",
        "$3.50",
        "1 person",
        "wheelchair",
        "555-0100",
        "Pick up",
        "Drop off",
    ]:
        holds(f"{it!r} is not printed", it in text)
    holds(
        "no rider's name is printed",
        any(name in text for name in ["Samuel Grant (1005)", "Walter Hughes"]),
    )
    over(at)
    same(
        "what is left of it",
        ["", False],
        at.browser.script(
            """return [document.getElementById("paper").textContent,
        document.body.classList.contains("papered")]"""
        ),
    )


@check
def all_manifests_and_the_day_sheet_have_every_line_of_the_desk(at: Place) -> None:
    lines = at.town.get("dispatcher", f"/days/{DAY}/sheet").splitlines()
    busy = [
        line
        for line in lines
        if not re.match("NO STOPS|TRIPS", line) and not re.match("VEHICLE [3-6] ", line)
    ]
    open_popup(at)
    at.browser.fill("Print with the original text", True)
    # (one click prints them, with nothing opened)
    at.browser.script("document.getElementById('view-pop').open = false")
    paper = at.browser.print_by(re.compile("^Print all 2 manifests"))
    is_right(paper)
    same("lines that are not printed", [], lacking(busy, paper))
    same(
        "pages that name two vans",
        [],
        [page[:200] for page in paper.page_texts if page.count("Manifest, Van") > 1],
    )
    over(at)
    paper = print_view(at, "Print the day sheet")
    is_right(paper)
    same("lines that are not on the day sheet", [], lacking(lines, paper))
    over(at)


@check
def fifty_vans_are_printed_each_on_its_page(at: Place) -> None:
    for vans, trips in [(1, 6), (6, 36), (50, 300)]:
        text, seconds = at.browser.driver.execute_async_script(
            PRINTS_MADE, vans, trips, False, False
        )
        paper = at.browser.printed()
        same(f"pages of {vans} vans", vans, paper.pages)
        stops = re.findall(r"(PICK|DROP) trip (\d+)", text)
        printed = words_of(paper.text)
        same(
            "stops that are not printed",
            [],
            [
                it
                for it in stops
                if not re.search(
                    rf"\b{it[1]}\s+{'Pick up' if it[0] == 'PICK' else 'Drop off'} ", printed
                )
            ],
        )
        over(at)
        text, laid = at.browser.driver.execute_async_script(PRINTS_MADE, vans, trips, True, True)
        paper = at.browser.printed()
        is_right(paper)
        same("lines that are not on the day sheet", [], lacking(text.splitlines(), paper))
        holds(f"the printing failed: {text}", seconds >= 0 and laid >= 0)
        over(at)


# Trips of the day.


def sure_of(how: str) -> re.Pattern[Any]:
    """The answer that enters an outcome, also where something speaks against it."""
    return re.compile(f"^(Yes: {how.lower()}|Record (a |as )?{how.lower()} anyway)$")


def end_trip(at: Place, trip: int, how: str, press: Callable[..., Any] | None = None) -> None:
    """Says how a trip ended, by its row."""
    (press or at.browser.press)(re.compile(f"^Set outcome of trip {trip} of"))
    (press or at.browser.press)(how)
    (press or at.browser.press)(sure_of(how))
    at.browser.sees(f"Trip {trip}: {how}.")


def open_closing(at: Place) -> None:
    until(
        "no van can be closed out",
        lambda: at.browser.script(
            "const it = document.querySelector('.closing'); if (it) it.open = true; return Boolean(it)"
        ),
    )


@check
def one_trip_ends_and_its_answer_is_where_it_was(at: Place) -> None:
    sign_in(at, DAY, "23:00", "trips")
    trip = next(
        row["trip"] for row in rows_of(at) if row["vehicle"] == "2" and row["status"] == "booked"
    )
    end_trip(at, trip, "No-show")
    same("the focus", f"Trip {trip}: No-show.", at.browser.focused())
    same(
        "what the desk has",
        "missed-rider",
        next(row["status"] for row in rows_of(at) if row["trip"] == trip),
    )


@check
def trips_and_day_say_which_trips_they_count(at: Place) -> None:
    day = "2025-03-20"
    at.town.book(1005, day, 600, 3, 7)
    gone = at.town.book(1006, day, 700, 7, 9)
    at.town.post("third clerk", f"/trips/{gone}/cancel", {})
    rows = rows_of(at, day)
    canceled = sum(row["status"] == "cancelled" for row in rows)
    sign_in(at, day, "05:00", "trips")
    at.browser.find("button", f"All, with canceled {len(rows)}")
    at.browser.go_part("dispatcher", "day")
    at.browser.sees(f"{canceled} canceled, not counted")
    found = matched(r"(\d+) trips? · ", at.browser.text())
    same("trips of the day", len(rows) - canceled, int(found.group(1)))


def middle_of(row: Any) -> int:
    """A minute within the pickup window of a trip, as the desk has it."""
    return (int(row["window_from"]) + int(row["window_to"])) // 2


def outcome_question(at: Place, row: Any, how: str, taps: list[Any]) -> Any:
    """Opens the question before an outcome of a trip, in its window, where drivers have tapped this; its text."""
    minute = middle_of(row)
    told_file(at, minute, [{"trip": int(row["trip"]), **it} for it in taps])
    sign_in(at, DAY, f"{minute // 60:02}:{minute % 60:02}", "trips")
    at.browser.fill("Search trips", f"{row['rider']} {row['trip']}")
    at.browser.press(re.compile(f"^Set outcome of trip {row['trip']} of"))
    at.browser.press(how)
    return until(
        "nothing is asked",
        lambda: at.browser.script("return document.querySelector('dialog')?.innerText"),
    )


def trip_with_outcome(at: Place, row: Any) -> Any:
    return next(it["status"] for it in rows_of(at) if it["trip"] == row["trip"])


@check
def an_outcome_against_what_a_driver_tapped_is_asked_about_with_the_tap(at: Place) -> None:
    # (of van 1, whose taps the file has; of trip 1 the file has a tap of another phone too. The trip is not ended here,
    # so the checks below find it as it was)
    row = next(it for it in booked_on(at, DAY, "1") if it["trip"] != "1")
    minute = middle_of(row) - 2
    asked = [
        ("No-show", "aboard", "A driver’s phone has this rider aboard since", "no-show"),
        ("Missed by us", "aboard", "A driver’s phone has this rider aboard since", "missed by us"),
        ("Completed", "no-show", "A driver’s phone has a no-show of this rider at", "completed"),
        ("No-show", "missed", "A driver’s phone says that we missed this pickup, at", "no-show"),
    ]
    for how, kind, words, anyway in asked:
        text = outcome_question(at, row, how, [{"kind": kind, "minute": minute}])
        holds(
            f"{how} against {kind}: {text!r}",
            f"{words} {spoken(minute)}" in text and "Call the driver before you decide." in text,
        )
        at.browser.find("button", re.compile(f"^Record (a |as )?{anyway} anyway$"))
        holds(
            f"what has the focus: {at.browser.focused()!r}",
            at.browser.focused() == "No, go back",
        )
        at.browser.press("No, go back")
        same(f"{how} that was not said yes to", "booked", trip_with_outcome(at, row))
    text = outcome_question(at, row, "Completed", [{"kind": "aboard", "minute": minute}])
    holds(
        f"what speaks for an outcome: {text!r}", "driver" not in text and "Yes: completed" in text
    )
    at.browser.press("No, go back")
    at.town.write_file("staff/today.json", None)
    sign_in(at, DAY, "23:00", "trips")


@check
def an_outcome_is_asked_about_once(at: Place) -> None:
    row = booked_on(at, DAY, "2")[-1]
    sign_in(at, DAY, "23:00", "trips")
    at.town.middle.writes()
    at.browser.fill("Search trips", f"{row['rider']} {row['trip']}")
    at.browser.press(re.compile(f"^Set outcome of trip {row['trip']} of"))
    at.browser.press("Completed")
    at.browser.sees("You can’t change it afterward.")
    same(
        "questions at once",
        1,
        at.browser.script("return document.querySelectorAll('dialog').length"),
    )
    at.browser.press(sure_of("completed"))
    at.browser.sees(f"Trip {row['trip']}: Completed.")
    same(
        "questions after the answer",
        0,
        at.browser.script("return document.querySelectorAll('dialog').length"),
    )
    same("the trip", "ridden", trip_with_outcome(at, row))
    same(
        "writes",
        [f"/trips/{row['trip']}/outcome"],
        [it for it in at.town.middle.writes() if "outcome" in it],
    )
    same(
        "an outcome can be set again",
        [],
        at.browser.all("button", re.compile(f"^Set outcome of trip {row['trip']} of")),
    )


# The buttons that close a van, also where they are folded away.
CLOSED = "return [...document.querySelectorAll('.closing button')].map((it) => it.textContent).filter((it) => it.includes(`of ${arguments[0]} completed`))"


@check
def a_van_is_closed_by_its_planned_drops_and_who_is_still_aboard_stays(at: Place) -> None:
    text = at.town.get("dispatcher", f"/vehicles/1/manifest/{DAY}")
    drops = {
        it[3]: int(it[1]) * 60 + int(it[2])
        for it in re.finditer(r"(\d\d):(\d\d) DROP trip (\d+)", text)
    }
    rows = [it for it in booked_on(at, DAY) if it["vehicle"] == "1"]
    # (the last one who is aboard after the window: others have been dropped off before)
    row = max(
        (it for it in rows if drops[it["trip"]] > int(it["window_to"]) + 2),
        key=lambda it: drops[it["trip"]],
    )
    minute = drops[row["trip"]] - 1
    aboard = [it["trip"] for it in rows if int(it["window_to"]) < minute <= drops[it["trip"]]]
    holds(f"nobody is aboard at {minute}: {row} {drops}", aboard)
    past = [it["trip"] for it in rows if drops[it["trip"]] < minute]
    sign_in(at, DAY, f"{minute // 60:02}:{minute % 60:02}", "trips")
    at.browser.find("field", "Search trips")
    at.browser.settled(500)
    # (what can be closed is folded away, and is there all the same)
    offered = at.browser.script(CLOSED, VAN_1)
    same("buttons that close the van", bool(past), bool(offered))
    if past:
        open_closing(at)
        at.browser.press(offered[0])
        listed = re.findall(
            r"trip (\d+)",
            at.browser.script(
                "return [...document.querySelectorAll('dialog .long-list li')].map((it) => it.textContent).join('\\n')"
            ),
        )
        same("the trips that are closed", sorted(past), sorted(listed))
        at.browser.keys(Keys.ESCAPE)
    sign_in(at, DAY, "23:00", "trips")


@check
def one_search_finds_by_all_words_and_opens_the_manifest_at_the_stop(at: Place) -> None:
    row = booked_on(at, DAY)[-1]
    rider = int(row["rider"])
    name, telephone = next((it.name, it.telephone) for it in RIDERS if it.number == rider)
    sign_in(at, DAY, "10:30")
    for words in [
        name.split()[-1],
        telephone,
        f"{name.split()[0]} van {row['vehicle']}",
        f"{row['trip']} {rider}",
    ]:
        at.browser.fill("Search trips, vans, and riders", words)
        at.browser.find("option", re.compile(f"trip {row['trip']}\\b.*{telephone}.*{van_of(row)}"))
    at.browser.press(re.compile(f"trip {row['trip']}\\b"), "option")
    marked = until(
        "no stop is marked",
        lambda: at.browser.script(
            """const it = document.querySelector('.van-stops .marked');
        if (!it) return null;
        const list = it.parentElement.getBoundingClientRect(), box = it.getBoundingClientRect();
        return [it.textContent, box.top >= list.top - 2 && box.top < list.bottom]"""
        ),
    )
    holds(f"another stop is marked: {marked}", str(row["trip"]) in marked[0] and marked[1])
    sign_in(at, DAY, "23:00", "trips")
    at.browser.fill("Search trips", f"{name.split()[-1]} {row['vehicle']}")
    until("it is not found", lambda: str(row["trip"]) in at.browser.text())
    at.browser.press(re.compile(f"show trip {row['trip']} on the day"))
    until(
        "the day is not open at it",
        lambda: at.browser.script("return document.querySelector('.van-stops .marked') !== null"),
    )
    sign_in(at, DAY, "23:00", "trips")


def van_of(row: Any) -> Any:
    return dict(vans_of(VANS))[int(row["vehicle"])]


def spoken(minute: int) -> str:
    hour = minute // 60
    return f"{(hour + 11) % 12 + 1}:{minute % 60:02} {'AM' if hour < 12 else 'PM'}"


# What drivers told of vans 1 and 2, and a phone of van 9 of a trip on which entries disagree.
def told_file(
    at: Place, minute: int, taps: list[Any], settled: Sequence[dict[str, Any]] = ()
) -> None:
    made = at.town.get("dispatcher", f"/days/{DAY}/sheet") and json.dumps(
        {
            "day": DAY,
            "made": f"{DAY}T{minute // 60 + 4:02}:{minute % 60:02}:00Z",
            "vehicles": {
                "1": {"taps": taps},
                "9": {"taps": [{"trip": 1, "kind": "aboard", "minute": minute - 30}]},
            },
            "notes": [],
            "bookings": {},
            "no_shows": [],
            "calls": {},
            "unreviewed": {
                "no_shows": [],
                "disagreements": [
                    {
                        "day": DAY,
                        "trip": 1,
                        "vehicle": 2,
                        "record": "ridden",
                        "told": "missed-rider",
                        "minute": minute,
                    }
                ],
            },
            "settled": [*settled],
        }
    )
    at.town.write_file("staff/today.json", made)


def van_1_is_late(at: Place) -> Any:
    """A driver of van 1 has tapped the next pickup 24 minutes late, a minute ago: the minute of the tap, the stops as (minute, what, trip, rider), and the place of that pickup."""
    text = at.town.get("dispatcher", f"/vehicles/1/manifest/{DAY}")
    stops = [
        (int(it[1]) * 60 + int(it[2]), it[3], int(it[4]), int(it[5]))
        for it in re.finditer(r"(\d\d):(\d\d) (PICK|DROP) trip (\d+) rider (\d+)", text)
    ]
    open_trips = {int(row["trip"]) for row in rows_of(at, DAY) if row["status"] == "booked"}
    # (where the van is goes by the last stop of a trip that ended, too)
    begun = (
        max(
            [index for index, (_, _, trip, _) in enumerate(stops) if trip not in open_trips],
            default=-1,
        )
        + 1
    )
    here = next(
        index
        for index in range(begun, len(stops) - 1)
        if stops[index][1] == "PICK" and stops[index + 1][0] > stops[index][0] + 1
    )
    minutes, _, trip, _ = stops[here]
    late = minutes + 24
    told_file(at, late + 1, [{"trip": trip, "kind": "aboard", "minute": late}])
    return late, stops, here


@check
def what_needs_a_person_stands_on_top_and_leads_to_its_row(at: Place) -> None:
    late, _, _ = van_1_is_late(at)
    sign_in(at, DAY, f"{(late + 1) // 60:02}:{(late + 1) % 60:02}")
    at.browser.sees("Late, min", "24 min late", "Entries that disagree")
    at.browser.press(f"{VAN_1}: 24 minutes late")
    at.browser.find("heading", manifest_heading(VAN_1))
    at.browser.press(f"{VAN_2}: two entries disagree")
    at.browser.sees("what is right?", "Tapped", f"Aboard at {spoken(late - 29)}, Vehicle 9")
    offered = at.browser.script(
        "return [...document.querySelectorAll('dialog button')].map((it) => it.textContent)"
    )
    same("the first answer", "The rider rode", offered[0])
    at.browser.press("Decide later")
    open_popup(at)
    at.browser.fill("Only vans that need attention", True)
    first = at.browser.script("return document.querySelector('.lane-row').dataset.row")
    same("the first row", "1", first)
    at.town.write_file("staff/today.json", None)
    sign_in(at, DAY, "10:30")
    at.browser.sees("Driver updates aren't available, so late vans can't be shown.")
    sign_in(at, DAY, "23:00", "trips")


@check
def a_clerk_is_told_the_lateness_that_the_board_has(at: Place) -> None:
    late, stops, here = van_1_is_late(at)
    booked = {int(row["trip"]) for row in booked_on(at, DAY, "1")}
    minute, _, trip, rider = next(
        it for it in stops[here + 1 :] if it[1] == "PICK" and it[2] in booked
    )
    clock = f"{(late + 1) // 60:02}:{(late + 1) % 60:02}"
    sign_in(at, DAY, clock)
    at.browser.press(f"{VAN_1}: 24 minutes late")
    at.browser.find("heading", manifest_heading(VAN_1))
    # (what the board has beside that stop: when the van gets there)
    board = until(
        f"the board has no such stop: {trip}",
        lambda: at.browser.script(
            """const it = [...document.querySelectorAll('.van-stops > *')].find((it) => it.textContent.includes(`Pick up`) && it.textContent.includes(`trip ${arguments[0]} `));
        return it && [...it.querySelectorAll('small')].map((it) => it.textContent.trim()).find((it) => it.startsWith('now '))""",
            trip,
        ),
    )
    at.browser.sign_in(at.keys["clerk"], "clerk", "trips")
    at.browser.fill("Find a rider", rider)
    at.browser.keys(Keys.ENTER)
    at.browser.sees(f"{VAN_1} is 24 minutes behind.", f"Planned {spoken(minute)}.")
    card = at.browser.script(
        "return document.querySelector(`.todays [data-trip='${arguments[0]}']`).innerText", trip
    )
    holds(
        f"when it comes is not what the board has, {board!r}: {card!r}",
        f" about {board.removeprefix('now ')} " in card
        or f" about {board.removeprefix('now ')}." in card
        or "This stop is next." in card,
    )
    holds(f"as of when: {card!r}", f"As of {spoken(late + 1)}." in card)
    # (without the plans the card is as it was)
    plans = at.town.file("staff/plans.json")
    at.town.write_file("staff/plans.json", None)
    at.browser.sign_in(at.keys["clerk"], "clerk", "trips")
    at.browser.fill("Find a rider", rider)
    at.browser.keys(Keys.ENTER)
    at.browser.sees(f"Trip {trip}.")
    at.browser.settled(500)
    at.browser.sees_no("minutes behind")
    at.town.write_file("staff/plans.json", plans)
    at.town.write_file("staff/today.json", None)
    sign_in(at, DAY, "23:00", "trips")


@check
def who_settles_what_a_colleague_has_settled_is_told_first(at: Place) -> None:
    told_file(at, 601, [])
    sign_in(at, DAY, "10:02")
    at.browser.press(f"{VAN_2}: two entries disagree")
    at.browser.sees("what is right?")
    told_file(at, 602, [], [{"day": DAY, "trip": 1, "outcome": "missed-rider", "minute": 601}])
    at.browser.requests()
    at.browser.press("The rider rode")
    at.browser.sees(
        "Settled at 10:01 AM by another dispatcher: No-show. Do you want to change it?",
        "Ask the other dispatcher before you change it.",
    )
    at.browser.press("No, leave it as settled")
    same(
        "reviews that were told",
        [],
        [it for it in at.browser.requests() if "/tally/reviews?" in it],
    )
    at.town.write_file("staff/today.json", None)
    sign_in(at, DAY, "23:00", "trips")


@check
def denials_of_today_wait_for_a_copy_and_are_marked_once(at: Place) -> None:
    denied = {
        "day": LATER,
        "minute": 540,
        "mode": "not-before",
        "channel": "telephone",
        "at": f"{DAY}T10:10:00",
        "marked": None,
    }
    marked = {**denied, "minute": 600, "at": f"{DAY}T09:00:00", "marked": f"{DAY}T09:01:00"}
    at.town.write_file(
        "staff/today.json",
        json.dumps(
            {
                "day": DAY,
                "made": f"{DAY}T14:30:00Z",
                "denials": [{**denied, "id": "a" * 26}, {**marked, "id": "b" * 26}],
            }
        ),
    )
    sign_in(at, DAY, "10:30", "waits")
    at.browser.sees(
        "Denied today for lack of a vehicle",
        "not before 9:00 AM",
        "telephone",
        "Marked at 9:01 AM.",
    )
    at.browser.requests()
    at.browser.press(re.compile("^Keep a copy for the rider's advocate: .*not before 9:00 AM"))
    until(
        "what was marked has the focus",
        lambda: at.browser.script(
            "return document.activeElement.textContent.startsWith('Marked at 10:3')"
        ),
    )
    at.browser.sees_no("Keep a copy for the rider's advocate")
    told: list[Any] = []

    def is_told() -> list[Any]:
        told.extend(it for it in at.browser.requests() if "/tally/marks?" in it)
        return told

    until("the site is told of no mark", is_told)
    same(
        "marks",
        [True],
        [f"day={LATER}&minute=540" in it and "mode=not-before" in it for it in told],
    )
    at.town.write_file("staff/today.json", None)
    sign_in(at, DAY, "23:00", "trips")


@check
def the_day_fills_the_window_and_trips_begin_above_the_fold(at: Place) -> None:
    sign_in(at, DAY, "23:00", "trips")
    for width, height, of, vans in [
        (1366, 768, 36, 16),
        (1920, 1080, 32, 32),
        (2560, 1440, 36, 32),
    ]:
        with at.browser.screen(width, height):
            at.browser.script(READS_MADE, of, 700)
            at.browser.press("Day", "link")
            at.browser.sees("700 trips ·")
            at.browser.settled(300)
            seen = until(
                "no rows",
                lambda: at.browser.script(
                    """const frame = document.querySelector('#picture')?.getBoundingClientRect();
                return [...document.querySelectorAll('.lane-row')].filter((it) => it.getBoundingClientRect().bottom <= frame.bottom + 1
                    && frame.bottom <= innerHeight).length"""
                ),
            )
            holds(f"{seen} vans are in view at {width}x{height}", seen >= vans)
            at.browser.press("Trips", "link")
    sign_in(at, DAY, "23:00", "trips")
    with at.browser.screen(1366, 768):
        top = until(
            "no trip",
            lambda: at.browser.script(
                "return document.querySelector('.day-trips tbody tr')?.getBoundingClientRect().top"
            ),
        )
        holds(f"the first trip begins at {top}", top <= 135)


@check
def the_arrow_keys_go_from_van_to_van_and_bars_are_as_high_as_vans_are_full(at: Place) -> None:
    aboard = [1, 2, 4, 8, 5, 0]
    lines = [
        f"VEHICLE 1 DAY {DAY}",
        "06:00 DEPOT 5",
        *(
            f"{7 + hour:02}:00 PICK trip {hour + 1} rider 1001 place 1 load {load} chairs 0 window 07:00-07:30"
            for hour, load in enumerate(aboard)
        ),
        "14:00 DEPOT 5",
    ]
    more = [
        line
        for van in range(2, 41)
        for line in (
            f"VEHICLE {van} DAY {DAY}",
            "06:00 DEPOT 5",
            "07:00 PICK trip 99 rider 1002 place 2 load 1 window 07:00-07:30",
        )
    ]
    sign_in(at, DAY, "23:00", "trips")
    with at.browser.screen(1366, 768):
        at.browser.script(READS_DAY, "\n".join([*lines, *more, "TRIPS 45"]) + "\n", "trip,status")
        at.browser.press("Day", "link")
        at.browser.sees("45 trips ·")
        high = [
            float(it)
            for it in re.findall(
                r"v([\d.]+)h-",
                at.browser.script(
                    "return document.querySelector('[data-row=\"1\"] .load').getAttribute('d')"
                ),
            )
        ]
        holds(
            f"heights of the bars: {high}",
            len(high) == 5
            and all(abs(it / high[3] - count / 8) < 0.02 for it, count in zip(high, aboard)),
        )
        at.browser.script("document.querySelector('#vehicle-1').focus()")
        at.browser.keys(*[Keys.ARROW_DOWN] * 17, Keys.ARROW_UP)
        van, within = at.browser.script(
            """const row = document.activeElement.closest('[data-row]'), edge = row.getBoundingClientRect();
            const hours = document.querySelector('.hours').getBoundingClientRect(), frame = document.querySelector('#picture').getBoundingClientRect();
            return [row.dataset.row, edge.top >= hours.bottom - 1 && edge.bottom <= frame.bottom + 1]"""
        )
        same("the van after 17 down and one up", ["17", True], [van, within])
        same(
            "rows to which Tab leads",
            ["17"],
            at.browser.script(
                "return [...document.querySelectorAll('[data-vehicle][tabindex=\"0\"]')].map((it) => it.dataset.vehicle)"
            ),
        )
        at.browser.keys(*[Keys.ARROW_UP] * 17)
        same(
            "the first van is the last one upward",
            "1",
            at.browser.script("return document.activeElement.closest('[data-row]').dataset.row"),
        )
        at.browser.keys(Keys.END, Keys.ARROW_LEFT)
        until(
            "the last stop is not labelled and in view",
            lambda: at.browser.script(
                """const frame = document.querySelector('#picture').getBoundingClientRect(),
            tip = document.querySelector('.tip')?.getBoundingClientRect(); return tip && tip.left >= frame.left && tip.right <= frame.right + 1"""
            ),
        )
        at.browser.keys(Keys.ENTER)
        at.browser.find("heading", manifest_heading("Van 1, blue"))
    sign_in(at, DAY, "23:00", "trips")


def thread_time(at: Place) -> Any:
    """The milliseconds that the main thread has worked."""
    found = at.browser.devtools("Performance.getMetrics")["metrics"]
    return 1000 * next(it["value"] for it in found if it["name"] == "TaskDuration")


@check
def a_letter_in_the_search_is_cheap_on_a_day_of_seven_hundred_trips(at: Place) -> None:
    sign_in(at, DAY, "13:00", "trips")
    with at.browser.screen(1366, 768):
        at.browser.script(READS_MADE, 36, 700)
        at.browser.press("Day", "link")
        at.browser.sees("700 trips ·")
        at.browser.settled(500)
        at.browser.devtools("Performance.enable", timeDomain="threadTicks")
        at.browser.script("document.getElementById('day-search').focus()")
        spent = []
        for letter in "alvarez":
            before = thread_time(at)
            at.browser.keys(letter)
            at.browser.settled(100)
            spent.append(round(thread_time(at) - before))
        at.browser.devtools("Performance.disable")
    print(f"milliseconds of the main thread for each letter: {spent}")
    holds("nothing was measured", max(spent) > 0)
    sign_in(at, DAY, "23:00", "trips")


ROW = """const row = document.activeElement.closest('tbody tr'), head = document.querySelector('.day-trips thead th').getBoundingClientRect();
return row && [[...row.parentElement.children].indexOf(row), [...row.children].findIndex((it) => it.contains(document.activeElement)),
    document.activeElement.getBoundingClientRect().top >= head.bottom - 1];"""


@check
def the_arrow_keys_go_through_the_trips_of_the_day(at: Place) -> None:
    sign_in(at, DAY, "23:00", "trips")
    with at.browser.screen(1366, 400):
        at.browser.find("field", "Search trips")
        count = until(
            "no trips",
            lambda: at.browser.script(
                "return document.querySelectorAll('.day-trips tbody tr').length"
            ),
        )
        at.browser.script("document.getElementById('trip-search').focus()")
        at.browser.keys(Keys.ARROW_DOWN)
        row, column, _ = at.browser.script(ROW)
        same("the first row", 0, row)
        seen = [row]
        for _ in range(count):
            at.browser.keys(Keys.ARROW_DOWN)
            row, now, is_seen = at.browser.script(ROW)
            same("the column, and whether it is in view", [column, True], [now, is_seen])
            seen += [row] if row != seen[-1] else []
        holds(f"rows of {count}: {seen}", seen == sorted(seen) and len(seen) >= count - 2)
        at.browser.keys(*[Keys.ARROW_UP] * len(seen))
        same("above the first row", "Search trips", at.browser.focused())


@check
def the_head_stays_and_no_button_is_cut(at: Place) -> None:
    with at.browser.screen(1366, 768):
        at.browser.script("document.querySelector('.tall > .scroll').scrollTop = 900")
        top, head, cut = at.browser.script(
            """const box = document.querySelector('.tall > .scroll');
            const edge = box.getBoundingClientRect(), buttons = [...box.querySelectorAll('td:last-child button')];
            return [edge.top, box.querySelector('thead th').getBoundingClientRect().top,
                buttons.filter((it) => it.getBoundingClientRect().right > edge.right).length]"""
        )
        holds(f"the head is at {head}, the box at {top}", abs(head - top) < 4)
        same("buttons that are cut", 0, cut)


# From now on what the line of progress says, each text once: the table is drawn as often.
PROGRESS = """
window.said = [];
new MutationObserver(() => {
    const text = document.getElementById("bulk").textContent;
    if (text && window.said.at(-1) !== text) window.said.push(text);
}).observe(document.getElementById("bulk"), { childList: true, subtree: true, characterData: true });
"""


@check
def all_the_rest_of_a_van_is_asked_once_and_done_once_though_the_line_breaks(at: Place) -> None:
    rest = [
        row["trip"] for row in rows_of(at) if row["vehicle"] == "2" and row["status"] == "booked"
    ]
    at.town.middle.breaks(UNHEARD, times=2)
    open_closing(at)
    at.browser.press(f"Mark the remaining {len(rest)} trips of {VAN_2} completed")
    at.browser.sees(f"{VAN_2}: mark {len(rest)} trips completed?", f"trip {rest[0]}")
    at.browser.script(PROGRESS)
    at.browser.press(f"Yes: {len(rest)} trips completed")
    until(
        "they are not done", lambda: f"{VAN_2}: {len(rest)} trips completed." in at.browser.text()
    )
    said = at.browser.script("return window.said")
    holds(f"of {len(rest)} trips the page draws: {said}", len(said) <= len(rest) // 4 + 2)
    states = {row["trip"]: row["status"] for row in rows_of(at)}
    same("not ridden", [], [trip for trip in rest if states[trip] != "ridden"])


@check
def the_export_is_the_desks_own_or_one_for_a_spreadsheet(at: Place) -> None:
    at.browser.script(SAVED)
    for count, name in enumerate(["Save as CSV", "Save for a spreadsheet, with names"], 1):
        at.browser.press("Save or print")
        at.browser.press(name)
        until("nothing is saved", lambda: at.browser.script("return window.saved.length") == count)
    own, sheet = [bytes(it) for it in at.browser.script("return window.saved")]
    same("the desk's own", at.town.get("dispatcher", f"/days/{DAY}/trips.csv"), own.decode())
    rows = list(csv.DictReader(io.StringIO(sheet.decode("utf-8-sig"))))
    told = {row["trip"]: row for row in rows_of(at)}
    same("rows", len(told), len(rows))
    row = next(it for it in rows if it["Rider"] == "1001")
    minute = int(told[row["Trip"]]["window_from"])
    shown = f"{minute // 60 % 12 or 12}:{minute % 60:02} {'PM' if minute >= 720 else 'AM'}"
    same("a row", ["Rosa Álvarez", shown], [row["Name"], row["Window from"]])
    holds(f"no dollars: {row['Due ($)']}", re.fullmatch(r"\d+\.\d\d", row["Due ($)"]))


# Vehicles.


@check
def a_vehicle_with_trips_is_denied_with_what_works(at: Place) -> None:
    sign_in(at, DAY, "10:30", "vehicles")
    at.browser.fill_all({"Vehicle": 1, **VEHICLE})
    at.browser.press("Save vehicle")
    at.browser.sees("A trip stands in this vehicle on that day or later.")
    at.browser.press("Take Van 1, blue out of service")
    at.browser.sees("A vehicle out of service")
    same("the vehicle", "Van 1, blue (1)", at.browser.value("Vehicle"))


@check
def a_vehicle_without_a_name_keeps_none_in_this_browser(at: Place) -> None:
    sign_in(at, DAY, "10:30", "vehicles")
    at.browser.fill_all({"Vehicle": 40, **VEHICLE})
    at.browser.press("Save vehicle")
    at.browser.sees("is on record from", "Number 40 has no name yet")
    same(
        "what this browser keeps",
        None,
        at.browser.script("return localStorage.getItem('desk.agency')"),
    )


# A whole day.


def book_a_busy_day(at: Place) -> None:
    """So many trips of one day, beside the pages, from the day before on."""
    at.town.set_clock(DAY, "06:00")
    goals, booked = [2, 6, 7, 9, 3, 8], 0
    for number in range(3 * CLOSED_TRIPS):
        fields = {
            "rider": TRAVELERS[number % len(TRAVELERS)],
            "day": BUSY,
            "wish": 420 + number * 37 % 780,
            "from": goals[number % 6],
            "to": goals[(number + 1 + number // 6 % 5) % 6],
            "attendant": False,
            "companions": 0,
        }
        booked += "trip" in at.town.post("third clerk", "/trips", fields)
        if booked == CLOSED_TRIPS:
            return
    raise Trouble(f"only {booked} trips are booked on {BUSY}")


@check
def a_day_of_ninety_six_trips_is_closed_in_twenty_clicks(at: Place) -> None:
    book_a_busy_day(at)
    sign_in(at, BUSY, "23:30")
    clicks = 0

    def click(*arguments: str) -> None:
        nonlocal clicks
        clicks += 1
        at.browser.press(*arguments)

    click("Trips", "link")
    at.browser.sees(f"{CLOSED_TRIPS} of {CLOSED_TRIPS}")
    missed = [
        row["trip"] for row in sorted(booked_on(at, BUSY), key=lambda it: int(it["window_from"]))
    ][:2]
    for trip, how in zip(missed, ["No-show", "Missed by us"]):
        end_trip(at, trip, how, click)
    names = {**dict(vans_of(VANS)), 40: "Vehicle 40"}
    for van in sorted({int(row["vehicle"]) for row in booked_on(at, BUSY)}):
        count = len(booked_on(at, BUSY, str(van)))
        many = f"{count} trips completed" if count > 1 else "1 trip completed"
        open_closing(at)
        clicks += 1
        click(
            f"Mark the remaining {count} trip{'s' if count > 1 else ''} of {names[van]} completed"
        )
        click(f"Yes: {many}")
        until(f"{names[van]} is not closed", lambda: f"{names[van]}: {many}." in at.browser.text())
    holds(f"{clicks} clicks", clicks <= MOST_CLICKS)
    states = [row["status"] for row in rows_of(at, BUSY)]
    same(
        "how the trips ended",
        [CLOSED_TRIPS - 2, 1, 1],
        [states.count(it) for it in ["ridden", "missed-rider", "missed-operator"]],
    )


# Notes of the day, who drives, where is room, and the day on a wall.


@check
def a_note_of_the_day_is_on_the_manifest_on_trips_and_on_paper(at: Place) -> None:
    at.town.write_file("staff/duty.json", json.dumps({DAY: {"1": "Joe Smith, in Van 44"}}))
    trip = next(row["trip"] for row in rows_of(at, DAY) if row["vehicle"] == "1")
    sign_in(at, DAY, "10:00")
    at.browser.sees("Joe Smith, in Van 44")
    at.browser.press(vehicle_row(VAN_1))
    at.browser.script(
        "document.querySelectorAll('.one-van details').forEach((it) => { it.open = true; })"
    )
    notes: list[tuple[str | re.Pattern[str], str]] = [
        ("Note about the van", "flat tire 10:15"),
        (re.compile(f"^Add a note: PICK UP trip {trip} "), "left at the side door"),
    ]
    for button, text in notes:
        at.browser.press(button)
        at.browser.fill("What dispatchers and reports should know", text)
        at.browser.press("Save note")
        at.browser.sees(f"10:00 AM: {text}")

    def told() -> list[Any]:
        with open(f"{at.folder}/tally.log", encoding="utf-8") as log:
            return [line for line in log if "/tally/notes" in line]

    until("the site has not both notes", lambda: len(told()) == 2)
    holds(
        f"the log has {told()}",
        f"trip={trip}&" in told()[1] and "trip=0&" in told()[0] and f"day={DAY}" in told()[0],
    )
    paper = at.browser.print_by("Print this manifest")
    for text in ["Joe Smith, in Van 44", "flat tire 10:15", "left at the side door"]:
        holds(f"{text} is not printed", text in words_of(paper.text))
    over(at)
    at.browser.go_part("dispatcher", "trips")
    at.browser.fill("Search trips", f"{trip} van 1")
    at.browser.sees("10:00 AM: left at the side door")
    at.town.write_file("staff/duty.json", None)


@check
def where_is_room_has_each_van_and_those_without_trips(at: Place) -> None:
    sign_in(at, DAY, "06:00")
    press_view(at, "Open capacity")
    table = "return [...document.querySelectorAll('.room tbody tr')].map((it) => [...it.children].map((cell) => cell.textContent))"
    rows = until("there is no table of room", lambda: at.browser.script(table))
    manifests = at.town.get("dispatcher", f"/days/{DAY}/sheet").split("VEHICLE ")[1:]
    same("vans in it", len(manifests), len(rows))
    busy = [it for it in manifests if " PICK trip " in it]
    same(
        "vans without trips",
        len(manifests) - len(busy),
        len([it for it in rows if "free all day" in it[1]]),
    )
    holds(
        f"nobody is ever aboard: {rows}",
        any(re.search("[1-9]", cell) for row in rows for cell in row[1:]),
    )
    press_view(at, "Open capacity")
    at.browser.sees_no("Vans with nobody aboard")


IS_BOARD = "return [document.body.classList.contains('board'), document.body.classList.contains('nameless')]"


@check
def a_day_on_a_wall_stays_without_use_redraws_and_a_touch_signs_out(at: Place) -> None:
    at.town.write_files(idle_minutes=1, board_minutes=600, board_names=False)
    try:
        with at.browser.clock(hurry=60):
            sign_in(at, DAY, "09:00", "day")
            at.browser.find("button", vehicle_row(VAN_1))
            at.browser.settled()
            at.browser.passes(61)
            until("it is no board", lambda: at.browser.script(IS_BOARD) == [True, True])
            now = "return document.querySelector('.now-line line')?.getAttribute('x1') ?? ''"
            before = at.browser.script(now)
            at.browser.passes(7_200)
            at.town.set_clock(DAY, "13:00")
            until("the board is not drawn anew", lambda: at.browser.script(now) not in ("", before))
            same("a board after two hours", [True, True], at.browser.script(IS_BOARD))
            holds("nobody is signed in", not at.browser.is_there("button", "Sign in"))
            inert = at.browser.script(
                "return document.querySelector('main').inert && document.querySelector('.top').inert"
            )
            same("something can be done on a board", True, inert)
            text = at.browser.text()
            same("names on the wall", [], [it.name for it in RIDERS if it.name in text])
            at.browser.devtools(
                "Input.dispatchMouseEvent",
                type="mousePressed",
                x=400,
                y=400,
                button="left",
                clickCount=1,
            )
            at.browser.devtools(
                "Input.dispatchMouseEvent",
                type="mouseReleased",
                x=400,
                y=400,
                button="left",
                clickCount=1,
            )
            until("a touch does not sign out", lambda: at.browser.is_there("button", "Sign in"))
    finally:
        at.town.write_files()
