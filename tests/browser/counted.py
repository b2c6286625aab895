"""What is counted is counted: from a click to bin/tally's row, over a site that is away, reloads, windows and no room."""
import csv
import io
import os
import subprocess
from typing import Any

from booking import BOOK, begin, results, wish
from browser import pause
from checks import Place, check, holds, same
from database import ROOT, Trouble, clocked, until
from people import EVERY_DAY, TODAY

VANS = 1
FULL, BEFORE, ASKING = "2025-03-19", "2025-03-13", 1002
COUNT = """
const [kind, fields] = arguments;
import("/parts/tally.js").then((tally) => tally.count(kind, fields));
"""
QUEUE = """
const done = arguments[0], opened = indexedDB.open("desk-counts", 1);
opened.onsuccess = () => {
    const database = opened.result;
    if (!database.objectStoreNames.length) return done([]);
    const all = database.transaction("events").objectStore("events").getAll();
    all.onsuccess = () => { database.close(); done(all.result); };
};
opened.onupgradeneeded = () => opened.transaction.abort();
opened.onerror = () => done([]);
"""
LATER = """
const [minute, day] = arguments, fields = { day, minute, rule: "no vehicle", mode: "not-before", leg: "lost" };
import("/parts/tally.js").then((tally) => { window.heldHere = tally.countLater("denials", fields, 600_000); });
"""
NO_DATABASE = "Object.defineProperty(window, 'indexedDB', { value: undefined });"


def rows(at: Place, kind: str) -> list[Any]:
    """What bin/tally says of the site's log, and what it names as broken."""
    ran = subprocess.run(
        [f"{ROOT}/bin/tally", kind, f"{at.folder}/tally.log"], capture_output=True, text=True
    )
    if ran.returncode or ran.stderr:
        raise Trouble(f"bin/tally: {ran.stderr}")
    return list(csv.DictReader(io.StringIO(ran.stdout)))


def lines(at: Place, part: str) -> list[Any]:
    """The lines of the site's log that have this in them."""
    with open(f"{at.folder}/tally.log", encoding="utf-8") as log:
        return [line for line in log.read().splitlines() if part in line]


def waiting(at: Place) -> Any:
    return at.browser.driver.execute_async_script(QUEUE)


def count(at: Place, kind: str, **fields: str | int) -> None:
    at.browser.script(COUNT, kind, fields)


def denial(at: Place, minute: int) -> None:
    count(at, "denials", day=FULL, minute=minute, rule="no vehicle")


def fill_the_van(at: Place) -> None:
    """The one van is small and on the road for an hour that day, and others book until it takes no trip."""
    small = {
        "id": 1,
        "from_day": FULL,
        "days": EVERY_DAY,
        "depot": 5,
        "capacity": 1,
        "opens": 520,
        "closes": 580,
        "duration": 60,
        "chairs": 0,
    }
    same("a small van", {"done": True}, at.town.post("dispatcher", "/vehicles", small))
    for rider in (1003, 1005, 1006, 1001, 1003, 1005, 1006, 1001):
        fields = {
            "rider": rider,
            "day": FULL,
            "wish": 540,
            "from": 3,
            "to": 9,
            "attendant": False,
            "companions": 0,
        }
        if at.town.post("third clerk", "/trips", fields) == {"denied": "no vehicle"}:
            return
    raise Trouble("the van is not full")


@check
def a_capacity_denial_goes_from_the_click_to_the_row_of_bin_tally(at: Place) -> None:
    fill_the_van(at)
    begin(at, str(ASKING))
    wish(at, start="school", goal="senior", day=FULL, wish="9 am")
    at.browser.press(BOOK)
    told = results(at, 1)
    holds(f"it is denied: {told}", "No vehicle" in told)
    until(
        lambda: f"the log has no denial; the browser keeps {waiting(at)}",
        lambda: lines(at, f"day={FULL}&minute=540&rule=no"),
    )
    row = next(
        it for it in rows(at, "denials") if it["month"] == FULL[:7] and it["channel"] == "page"
    )
    same("the row", ("1", "1"), (row["no vehicle"], row["all"]))
    same("whose key told it", ["office"], [it.split("\t")[3] for it in lines(at, "/tally/denials")])
    until("the event has left the browser", lambda: not waiting(at))


@check
def a_count_outlives_a_site_that_is_away_and_a_page_that_is_loaded_anew(at: Place) -> None:
    begin(at)
    with at.town.middle.gone():
        denial(at, 601)
        until("it is kept", lambda: [it for it in waiting(at) if "minute=601" in it["path"]])
        pause(0.5)
        same("nothing in the log", [], lines(at, "minute=601"))
        same(
            "the site's answer is no fault of the count",
            [None],
            [it["refused"] for it in waiting(at)],
        )
    at.browser.reload()
    until("it is in the log", lambda: lines(at, "minute=601"))
    until("it has left the browser", lambda: not waiting(at))
    same("it stands there once", 1, len(lines(at, "minute=601")))


def hold_back(at: Place, minute: int) -> None:
    """A count that is held back for ten minutes, unless its page is left."""
    at.browser.script(LATER, minute, FULL)
    until("it is kept", lambda: [it for it in waiting(at) if f"minute={minute}&" in it["path"]])


@check
def a_count_that_is_held_back_is_told_where_its_page_is_left(at: Place) -> None:
    begin(at)
    hold_back(at, 611)
    at.browser.script("window.dispatchEvent(new Event('online'))")
    pause(1)
    same("it is held back", [], lines(at, "minute=611"))
    at.browser.reload()
    until(
        lambda: f"a page that is loaded anew tells it: {lines(at, 'minute=611')}, {waiting(at)}",
        lambda: lines(at, "minute=611") and not waiting(at),
        30,
    )
    hold_back(at, 612)
    at.browser.sign_out()
    until("who signs out tells it", lambda: lines(at, "minute=612"), 30)
    at.browser.fresh()
    begin(at)
    hold_back(at, 613)
    at.browser.script("window.heldHere.drop()")
    until("it is dropped", lambda: not waiting(at))
    at.browser.reload()
    begin(at)
    same("what came to nothing is not told", [], lines(at, "minute=613"))


@check
def a_count_of_a_window_that_was_closed_on_a_broken_line_is_sent_by_another(at: Place) -> None:
    begin(at)
    with at.browser.second_window() as (first, second):
        second()
        begin(at, holder="second clerk")
        hold_back(at, 614)
        with at.town.middle.gone():
            at.browser.driver.get(f"{at.browser.origin}/icon.svg")
            until(
                lambda: f"it is due: {waiting(at)}",
                lambda: [it["from"] for it in waiting(at)] == [0],
                30,
            )
            same("nothing of it is in the log", [], lines(at, "minute=614"))
        first()
        until("it is in the log", lambda: lines(at, "minute=614") and not waiting(at))


@check
def a_count_that_is_sent_too_often_waits_for_its_turn(at: Place) -> None:
    begin(at)
    at.browser.script(
        """
        const fetched = window.fetch;
        window.tries = [];
        window.fetch = (path, options) => {
            if (!String(path).startsWith("/tally/")) return fetched(path, options);
            window.tries.push(performance.now());
            return window.tries.length < 2 ? Promise.resolve(new Response("", { status: 429 })) : fetched(path, options);
        };"""
    )
    denial(at, 602)
    until("it is in the log", lambda: lines(at, "minute=602"))
    tries = at.browser.script("return window.tries")
    holds(f"there is a pause: {tries}", len(tries) == 2 and tries[1] - tries[0] >= 1_900)


@check
def what_the_site_refuses_stays_and_staff_read_it(at: Place) -> None:
    begin(at)
    count(at, "denials", day=FULL, minute=603, rule="no van")
    at.browser.sees("1 count could not be kept: a denial (rule)")
    at.browser.script(
        """import("/parts/tally.js").then((tally) => tally.countPath(`/tally/stops?id=${"b".repeat(26)}&more=1`));"""
    )
    at.browser.sees("2 counts could not be kept", "a stop (400)")
    at.browser.reload()
    at.browser.sees("2 counts could not be kept")
    same("they wait", {"400", "rule"}, {it["refused"] for it in waiting(at)})
    denial(at, 604)
    until("others go on", lambda: lines(at, "minute=604"))
    same("nothing of it in the log", [], lines(at, "minute=603"))
    at.browser.sign_in(at.keys["rider 1001"], "rider")
    at.browser.settled()
    at.browser.sees_no("could not be kept")
    at.browser.fresh()


@check
def two_windows_send_a_count_once(at: Place) -> None:
    begin(at)
    with at.browser.second_window() as (first, second):
        second()
        begin(at, holder="second clerk")
        with at.town.middle.gone():
            denial(at, 605)
            until("it is kept", lambda: waiting(at))
            first()
            denial(at, 606)
            until("both are kept", lambda: len(waiting(at)) == 2)
        for window in (first, second):
            window()
            at.browser.script("window.dispatchEvent(new Event('online'))")
        until("both have left the browser", lambda: not waiting(at))
        same(
            "each stands in the log once",
            [1, 1],
            [len(lines(at, f"minute={it}")) for it in (605, 606)],
        )
        first()


@check
def a_browser_without_a_database_counts_and_says_what_waits(at: Place) -> None:
    made = at.browser.devtools("Page.addScriptToEvaluateOnNewDocument", source=NO_DATABASE)
    try:
        begin(at)
        denial(at, 607)
        until("it is in the log", lambda: lines(at, "minute=607"))
        with at.town.middle.gone():
            denial(at, 608)
            at.browser.sees("Leave this window open: 1 count waits in it.")
        at.browser.script("window.dispatchEvent(new Event('online'))")
        until("it is in the log", lambda: lines(at, "minute=608"))
        at.browser.sees_no("Leave this window open")
    finally:
        at.browser.devtools(
            "Page.removeScriptToEvaluateOnNewDocument", identifier=made["identifier"]
        )


@check
def a_cancel_is_told_once_and_a_denied_one_is_not(at: Place) -> None:
    trip = at.town.book(1006, BEFORE, 600, 3, 7)
    begin(at)
    at.browser.script(
        """
        const [trip] = arguments;
        import("/parts/tally.js").then((tally) => tally.cancelTrip(trip, "rider").then(() => tally.cancelTrip(trip, "rider")));
        """,
        trip,
    )
    until("it is in the log", lambda: lines(at, f"/tally/cancellations\tid=") and not waiting(at))
    same(
        "once",
        1,
        len([it for it in lines(at, "/tally/cancellations") if f"trip={trip}&by=rider" in it]),
    )


@check
def a_tap_and_a_note_go_from_the_drivers_phone_to_the_file_of_the_day(at: Place) -> None:
    at.browser.sign_in(at.keys["driver 1"], "driver")
    count(at, "stops", vehicle=1, trip=7, event="arrived")
    count(at, "notes", vehicle=1, day=TODAY, trip=0, text="llanta ponchada ñ 🚐")
    count(at, "stops", vehicle=2, trip=7, event="arrived")
    until("they are in the log", lambda: lines(at, "/tally/notes") and lines(at, "/tally/stops"))
    until("another van's tap stays", lambda: [it["refused"] for it in waiting(at)] == ["403"])
    output = f"{at.folder}/site/staff/today.json"
    words = [
        f"{ROOT}/deploy/today",
        f"{at.folder}/tally.log",
        output,
        "--agency",
        f"{at.folder}/site/agency.json",
    ]
    made = subprocess.run(
        [*words, "--once"], env=clocked(at.town.desk.clock), capture_output=True, text=True
    )
    same("deploy/today", (0, ""), (made.returncode, made.stderr))
    os.chmod(output, 0o644)
    told = at.town.get("dispatcher", "/staff/today.json")
    same("its day", TODAY, told["day"])
    same(
        "the tap, by the agency's clock",
        {"1": {"taps": [{"trip": 7, "kind": "arrived", "minute": 720}]}},
        told["vehicles"],
    )
    same("the note", ["llanta ponchada ñ 🚐"], [it["text"] for it in told["notes"]])
    same(
        "a driver's key gets none of it",
        {"denied": "desk.caller"},
        at.town.get("driver 1", "/staff/today.json"),
    )
    at.browser.fresh()
