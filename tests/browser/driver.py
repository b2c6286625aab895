"""The driver's phone: what is shown next, what is kept without a line, and what the desk has of it in the end."""
import datetime
import hashlib
import json
import re
import shutil
import time
import urllib.parse
from collections.abc import Callable
from typing import Any

from selenium.webdriver.common.keys import Keys

from browser import pause
from checks import Place, check, holds, same
from database import matched, until
from middle import UNHEARD
from people import TODAY, TOMORROW
from scripts import LOW

VANS = 1
# (the pages as a site has them; the other files of checks have them as they are written)
PACKED = True
VAN_FIELD = "Van, by name or number"
AFTER = "2025-03-12"
PHONE: dict[str, Any] = {"width": 390, "height": 844, "mobile": True}
KEPT = """
const done = arguments[0], opened = indexedDB.open("desk", 1);
opened.onsuccess = () => {
    const change = opened.result.transaction(["entries", "copies"]), [entries, copies] = ["entries", "copies"].map((it) => change.objectStore(it).getAll());
    change.oncomplete = () => { opened.result.close(); done([entries.result, copies.result.map(({ name }) => name)]); };
};
"""
FILES = """
const done = arguments[0];
(async () => {
    const names = await caches.keys(), all = await Promise.all(names.map(async (name) => (await (await caches.open(name)).keys()).map(({ url }) => url)));
    done([names, all.flat().map((url) => new URL(url).pathname)]);
})();
"""
STALE = """
const done = arguments[0];
(async () => {
    const name = (await caches.keys()).find((it) => it.startsWith("desk-pages-")), cache = await caches.open(name);
    await cache.put("/css/driver.css", new Response(":root { --stale: 1; }", { headers: { "Content-Type": "text/css" } }));
    done(name);
})();
"""
HAS_STALE = "return getComputedStyle(document.documentElement).getPropertyValue('--stale')"
# As a full disk does it: the change is given up after it was asked for.
FULL = """
const real = IDBObjectStore.prototype.add;
IDBObjectStore.prototype.add = function add(...given) {
    const request = real.apply(this, given);
    this.transaction.abort();
    return request;
};
"""
# What waits first was told by a window whose clock is half a minute ahead.
AHEAD = """
const done = arguments[0], opened = indexedDB.open("desk", 1);
opened.onsuccess = () => {
    const change = opened.result.transaction("entries", "readwrite"), entries = change.objectStore("entries"), all = entries.getAll();
    all.onsuccess = () => all.result.filter(({ state }) => state === "waiting").slice(0, 1).forEach((entry) => entries.put({ ...entry, since: entry.since + 30_000 }));
    change.oncomplete = () => { opened.result.close(); done(); };
};
"""
SMALL = """
const small = (it) => { const { width, height } = it.getBoundingClientRect(); return width < 64 || height < 64; };
return [...document.querySelectorAll(".tap, .driver-link, .driver-day, .driver-row")].filter((it) => it.checkVisibility() && small(it)).map((it) => it.textContent);
"""


def show_manifest(at: Place, vehicle: int = 1) -> None:
    """The number of the vehicle, where it is asked for: this phone knows it from before."""
    until(
        "neither a vehicle's field nor a manifest",
        lambda: at.browser.all("field", VAN_FIELD)
        or re.search("All stops|No stops|no copy", at.browser.text()),
    )
    if at.browser.all("field", VAN_FIELD):
        at.browser.fill(VAN_FIELD, str(vehicle))
        at.browser.keys(Keys.ENTER)


def sign_in(at: Place, clock: str = "05:30", day: str = TOMORROW, holder: str = "driver 1") -> None:
    at.town.set_clock(day, clock)
    at.browser.sign_in(at.keys[holder], "driver")
    show_manifest(at)
    at.browser.sees("All stops")


def begin(at: Place, clock: str, stop: str, day: str = TOMORROW) -> None:
    """A phone that knows nothing from before, whose next stop is the one of this name."""
    at.browser.fresh()
    sign_in(at, clock, day)
    press_stop(at, stop)
    until(
        f"{stop} is not shown",
        lambda: re.search(stop, next_stop(at)) or at.browser.all("button", "This is my next stop"),
    )
    if not re.search(stop, next_stop(at)):
        at.browser.press("This is my next stop")
        at.browser.press("Yes: go on from here")
    is_next(at, stop)


def press_stop(at: Place, stop: str) -> None:
    """Opens a stop from the list of all stops, where those that are done are folded away."""
    at.browser.press("All stops")
    at.browser.script(
        "document.querySelectorAll('.driver-stops details:not([open]) > summary').forEach((it) => it.click())"
    )
    at.browser.press(
        re.compile(stop), within=at.browser.script("return document.querySelector('.driver-stops')")
    )


def press(at: Place, name: str) -> None:
    """Presses a button of the stop, also one that is folded away."""

    def is_shown() -> Any:
        if not at.browser.all("button", name):
            at.browser.script(
                "document.querySelector('.driver-more:not([open]) > summary')?.click()"
            )
        return at.browser.all("button", name)

    until(lambda: f"{name!r} is not offered, but {offered(at)}", is_shown)
    at.browser.press(name)


def offered(at: Place) -> Any:
    """What can be tapped at the stop, seen or folded away."""
    return at.browser.script(
        "return [...document.querySelectorAll('.driver-choices button')].map((it) => it.textContent.trim())"
    )


def title(at: Place) -> Any:
    return at.browser.script(
        "return document.getElementById('driver-stop-title')?.textContent ?? ''"
    )


def shows_stop(at: Place, stop: str) -> None:
    """Waits until the card is that of a stop whose heading begins so."""
    until(
        lambda: f"the card is that of {title(at)!r}, not {stop}", lambda: title(at).startswith(stop)
    )


def card(at: Place) -> Any:
    return at.browser.text(at.browser.script("return document.querySelector('.driver-stop')"))


def next_stop(at: Place) -> Any:
    return at.browser.script(
        "return document.querySelector('.driver-row.next')?.innerText.replaceAll('\\n', ' ') ?? ''"
    )


def is_next(at: Place, stop: str) -> None:
    until(
        lambda: f"the next stop is {next_stop(at)!r}, not {stop}",
        lambda: re.search(stop, next_stop(at)),
    )


def row(at: Place, stop: str) -> Any:
    return next(it for it in rows(at) if re.search(stop, it))


def rows(at: Place) -> Any:
    return at.browser.script(
        "return [...document.querySelectorAll('.driver-row')].map((it) => it.innerText.replaceAll('\\n', ' '))"
    )


def tell(at: Place, what: str, yes: str) -> None:
    press(at, what)
    at.browser.press(yes)


def no_show(at: Place, doubt: str) -> None:
    """A no-show that is doubtful: it asks once more, and says why."""
    press(at, "No-show")
    at.browser.sees(doubt)
    at.browser.press("Mark as a no-show anyway")
    at.browser.press("Yes: no-show")


def moves_to(at: Place, clock: str, day: str = TOMORROW) -> None:
    """The clock goes on, and the phone hears of it with the next answer of the desk."""
    at.town.set_clock(day, clock)
    at.browser.script("window.dispatchEvent(new Event('online'))")


def status(at: Place, trip: int, day: str = TOMORROW) -> Any:
    lines = at.town.get("dispatcher", f"/days/{day}/trips.csv").splitlines()
    return next(line.split(",")[10] for line in lines if line.startswith(f"{trip},"))


def becomes(at: Place, trip: int, wanted: str, day: str = TOMORROW) -> None:
    until(
        lambda: f"trip {trip} is {status(at, trip, day)}", lambda: status(at, trip, day) == wanted
    )
    same(f"trip {trip}", wanted, status(at, trip, day))


def close_tab(at: Place) -> None:
    """The tab is closed, and a new one is opened."""
    old = at.browser.driver.current_window_handle
    at.browser.driver.switch_to.new_window("tab")
    new = at.browser.driver.current_window_handle
    at.browser.driver.switch_to.window(old)
    at.browser.driver.close()
    at.browser.driver.switch_to.window(new)


def kept(at: Place) -> Any:
    """What this phone keeps: the log, and the names of the copies."""
    return at.browser.driver.execute_async_script(KEPT)


def files_are_kept(at: Place) -> None:
    until(
        "the files are not kept",
        lambda: "/whole" in at.browser.driver.execute_async_script(FILES)[1],
    )


def waits(at: Place) -> list[Any]:
    return [entry for entry in kept(at)[0] if entry["state"] == "waiting"]


@check
def the_next_days_trips_are_booked(at: Place) -> None:
    at.town.set_clock(TODAY)
    for rider, wish, start, end in [(1005, 600, 6, 8), (1006, 700, 3, 2)]:
        at.town.book(rider, AFTER, wish, start, end)
    same(
        "the town's own trips",
        13,
        len(at.town.get("dispatcher", f"/days/{TOMORROW}/trips.csv").splitlines()) - 1,
    )


# Of these no outcome comes to the desk: the checks behind them end the day's trips, and a phone then reads on record what it has not tapped.


def asks_and_forgets(at: Place) -> None:
    press_stop(at, "4:16 PM Pick up Samuel Grant")
    tell(at, "We missed it", "Yes: we missed it")
    at.browser.sees("is waiting to be sent", "Marked missed by us. Next: ")
    # (a button that is drawn again while it is pressed is not pressed)
    at.browser.settled()
    at.browser.press("Sign out")
    at.browser.sees(
        "Sign out while 1 outcome is waiting to be sent?",
        "sent when you sign in here again with the same key",
    )
    at.browser.press("Stay signed in")
    at.browser.sees("All stops")
    until("the copies are not there", lambda: "manifest 1 2025-03-11" in kept(at)[1])
    at.browser.press("Sign out")
    at.browser.press(
        "Sign out", within=at.browser.script("return document.querySelector('dialog')")
    )
    at.browser.find("button", "Sign in")
    entries, copies = kept(at)
    same("copies after signing out", [], copies)
    same(
        "what waits after signing out",
        1,
        len([it for it in entries if it["state"] == "waiting"]),
    )
    at.browser.fill("Key", at.keys["driver 1"])
    at.browser.press("Sign in")
    at.browser.sees("does not answer")
    holds("a key that was signed out sees a manifest", "All stops" not in at.browser.text())


@check
def signing_out_asks_where_something_waits_and_takes_the_copies_away(at: Place) -> None:
    at.browser.fresh()
    sign_in(at, "06:00")
    with at.browser.no_line(at.town):
        try:
            asks_and_forgets(at)
        finally:
            # (the form asks until the desk answers, and would send what waits)
            at.browser.driver.get("about:blank")


@check
def the_phone_goes_to_the_new_day_by_itself(at: Place) -> None:
    at.browser.fresh()
    with at.browser.clock(hurry=20):
        sign_in(at, "23:58")
        at.browser.sees("Tuesday, March 11, 2025")
        press_stop(at, "6:17 AM Pick up Rosa")
        at.browser.press("Aboard", within=None)
        at.town.set_clock(AFTER, "00:01")
        at.browser.sees(
            "A new day has begun: Wednesday, March 12, 2025.", "Samuel Grant", "St. Mary's Dialysis"
        )
        at.browser.sees("Tue, Mar 11 is not closed: 1 entry needs you.")
        at.browser.press("Show Tue, Mar 11")
        at.browser.sees("This day is over.")
        # (also once the desk's answer is there: the van's files have the names of the new day alone)
        at.browser.settled(1000)
        at.browser.press("All stops")
        at.browser.sees("Drop off Rosa Álvarez", "12 Oak Street")
        at.browser.press("Next stop")
        at.browser.press("Today")
        at.browser.sees("Wednesday, March 12, 2025", "Samuel Grant")


@check
def times_of_taps_are_told_the_sites_log_once(at: Place) -> None:
    at.browser.fresh()
    before = len(tallied(at))
    with at.browser.clock(hurry=20):
        sign_in(at, "06:20")
        press_stop(at, "6:17 AM Pick up Rosa")
        at.browser.press("This is my next stop")
        at.browser.press("Yes: go on from here")
        at.browser.press("Arrived")
        at.browser.press("Undo “arrived”")
        at.browser.press("Arrived")
        at.browser.press("Aboard")
        pause(1)
        same("what is told before it can be taken back", [], tallied(at)[before:])
        at.town.set_clock(TOMORROW, "06:23")
        until("nothing is told", lambda: "event=aboard" in "".join(tallied(at)[before:]))
    lines = tallied(at)[before:]
    same(
        "what was told",
        ["arrived", "aboard"],
        [matched("event=([a-z-]+)", line)[1] for line in lines],
    )
    holds(
        f"a line has vehicle, trip and time: {lines[0]}",
        "vehicle=1&trip=1" in lines[0] and re.search("at=2025-03-11T06(:|%3A)2", lines[0]),
    )


def taps_of_today(at: Place, vehicle: int = 1) -> list[Any]:
    """The taps of a van in the file of the day, as its unit makes it now. The site of these checks keeps none: a phone would read it."""
    told = at.town.make_today()["vehicles"].get(str(vehicle), {"taps": []})
    at.town.write_file("staff/today.json", None)
    return sorted((it["trip"], it["kind"]) for it in told["taps"])


@check
def a_tap_that_is_undone_once_the_site_has_it_counts_no_more(at: Place) -> None:
    at.browser.fresh()
    before = taps_of_today(at), len(events(at, "stops"))
    with at.browser.clock(hurry=20):
        sign_in(at, "06:30")
        press_stop(at, "6:17 AM Pick up Rosa")
        at.browser.press("This is my next stop")
        at.browser.press("Yes: go on from here")
        at.browser.press("Arrived")
        at.town.set_clock(TOMORROW, "06:33")
        until("the tap is not told", lambda: len(events(at, "stops")) > before[1])
        same("the taps of the day", sorted([*before[0], (1, "arrived")]), taps_of_today(at))
        at.browser.press("Undo “arrived”")
        until("nobody is told that it is taken back", lambda: events(at, "undone"))
        at.browser.settled()
    same(
        "what was taken back",
        [("1", "1", events(at, "stops")[-1]["at"])],
        [(it["vehicle"], it["trip"], it["tapped"]) for it in events(at, "undone")],
    )
    same("the taps of the day", before[0], taps_of_today(at))


@check
def it_is_used_with_one_hand_on_a_small_phone(at: Place) -> None:
    at.browser.fresh()
    sign_in(at, "06:05")
    at.browser.press("Done here")
    for width in [390, 320]:
        with at.browser.screen(width, 700, mobile=True):
            for view in ["All stops", "Next stop"]:
                at.browser.press(view)
                same(f"targets below 64 pixels at {width}, {view}", [], at.browser.script(SMALL))
                same(f"sideways at {width}, {view}", [0, []], at.browser.sideways())
            # (without motion no color is on its way from light to dark)
            with at.browser.media(prefers_color_scheme="dark", prefers_reduced_motion="reduce"):
                same(f"axe at {width}, dark", [], at.browser.axe()["violations"])
    at.browser.space_text()
    with at.browser.screen(320, 640):
        same("sideways with spaced text", [0, []], at.browser.sideways())
    at.browser.script("document.documentElement.style.fontSize = '200%'")
    with at.browser.screen(390, 844, mobile=True):
        same("sideways with large text", [0, []], at.browser.sideways())
    with at.browser.media(forced_colors="active", prefers_reduced_motion="reduce"):
        same("axe with forced colors", [], at.browser.axe()["violations"])


@check
def it_is_used_by_keyboard(at: Place) -> None:
    at.browser.fresh()
    sign_in(at, "06:05")
    at.browser.press("Done here")
    at.browser.tab_to("Arrived")
    at.browser.keys(Keys.ENTER)
    at.browser.sees("Arrived at 6:05 AM.")
    at.browser.tab_to("No-show")
    at.browser.keys(Keys.ENTER)
    at.browser.sees("Mark Rosa Álvarez, rider 1001 as a no-show?")
    same("the harmless answer has the focus", "Keep waiting", at.browser.focused())
    at.browser.keys(Keys.ESCAPE)
    same("the focus after the question", "No-show", at.browser.focused())


# From now on no time passes on this phone but what the desk's answers tell.
STOPPED = "const began = Date.now(); Date.now = () => began;"


@check
def a_wrong_aboard_is_undone_where_it_was_pressed(at: Place) -> None:
    at.browser.fresh()
    sign_in(at, "06:05")
    at.browser.script(STOPPED)
    at.browser.press("Done here")
    shows_stop(at, "Pick up Rosa Álvarez")
    at.browser.press("Aboard")
    shows_stop(at, "Pick up Dorothy O'Neill")
    at.browser.sees("Marked aboard: Rosa Álvarez.")
    at.browser.press("Undo “aboard”")
    shows_stop(at, "Pick up Rosa Álvarez")
    at.browser.sees_no("Marked aboard: Rosa Álvarez.")
    until(
        lambda: f"the focus is on {at.browser.focused()!r} after the undoing",
        lambda: at.browser.focused() == "Pick up Rosa Álvarez, rider 1001",
    )
    # (some seconds later the bar is gone, and the way back is in the stop)
    at.browser.press("Aboard")
    shows_stop(at, "Pick up Dorothy O'Neill")
    at.browser.sees("Marked aboard: Rosa Álvarez.")
    moves_to(at, "06:05:30")
    at.browser.sees_no("Marked aboard: Rosa Álvarez.")
    press(at, "Back to the last stop: Pick up Rosa Álvarez")
    shows_stop(at, "Pick up Rosa Álvarez")
    at.browser.press("Undo “aboard”")
    is_next(at, "Pick up Rosa Álvarez")
    # (a rider who was not aboard after all, found out at the drop)
    at.browser.press("Aboard")
    press_stop(at, "Drop off Rosa Álvarez")
    press(at, "Undo “aboard”")
    is_next(at, "Pick up Rosa Álvarez")


@check
def the_depot_asks_for_nothing_once_the_pull_out_was_entered(at: Place) -> None:
    at.browser.fresh()
    sign_in(at, "05:40")
    shows_stop(at, "Leave the depot")
    at.browser.press("Pull out: enter the odometer")
    at.browser.fill("Odometer now, in whole miles", "48210")
    at.browser.press("Save")
    for _ in range(2):
        shows_stop(at, "Pick up Rosa Álvarez")
        is_next(at, "Pick up Rosa Álvarez")
        same("what the depot asks", [], at.browser.all("button", "Done here"))
        same(
            "what the odometer asks",
            [],
            at.browser.all("button", "Pull out: enter the odometer"),
        )
        at.browser.reload()


@check
def an_open_no_show_learns_that_another_phone_has_the_rider(at: Place) -> None:
    at.browser.fresh()
    sign_in(at, "06:05")
    at.browser.press("Done here")
    at.browser.press("Arrived")
    press(at, "No-show")
    at.browser.sees("Mark Rosa Álvarez, rider 1001 as a no-show?")
    trip = int(
        matched(
            r"PICK trip (\d+) rider 1001",
            at.town.get("dispatcher", f"/vehicles/1/manifest/{TOMORROW}"),
        )[1]
    )
    at.town.write_file(
        "drivers/1/outcomes.json",
        json.dumps({"outcomes": {}, "taps": {trip: {"kind": "aboard", "minute": 366}}}),
    )
    at.browser.press("Mark as a no-show anyway")
    at.browser.press("Yes: no-show")
    at.browser.sees(
        "Another phone has Rosa Álvarez, rider 1001: aboard.",
        "If you are not sure, call dispatch first.",
    )
    at.browser.press("No, go back")
    same(
        "the no-show is not kept",
        [],
        [it["tap"]["what"] for it in kept(at)[0] if it["tap"]["what"] == "missed-rider"],
    )
    at.town.write_drivers_files()


@check
def it_is_there_in_spanish(at: Place) -> None:
    at.browser.fresh()
    sign_in(at, "06:05")
    at.browser.switch_to("es")
    at.browser.sees("Próxima parada", "Todas las paradas", "Llamar a la central, 555-0100")
    at.browser.press("Listo")
    shows_stop(at, "Recoger a Rosa Álvarez, pasajero 1001")
    at.browser.press("Más para esta parada")
    at.browser.sees("A bordo", "No se presentó", "Falla nuestra", "Llegué")
    same("axe", [], at.browser.axe()["violations"])
    at.browser.press("No se presentó")
    at.browser.sees("¿No se presentó Rosa Álvarez, pasajero 1001?")
    at.browser.press("Seguir esperando")
    at.browser.switch_to("en")


@check
def the_drop_of_a_rider_aboard_is_next_in_its_order(at: Place) -> None:
    at.browser.fresh()
    sign_in(at)
    at.browser.press("Done here")
    shows_stop(at, "Pick up Rosa Álvarez, rider 1001")
    at.browser.sees("Pickup window", "1 person", "speaks Spanish")
    largest = at.browser.script(
        """const size = (it) => parseFloat(getComputedStyle(it).fontSize);
        return [...document.querySelectorAll('.driver-stop *')].filter((it) => it.children.length === 0).sort((a, b) => size(b) - size(a))[0].textContent"""
    )
    holds(f"the largest line is the window: {largest}", largest.startswith("5:49"))
    at.browser.press("Aboard")
    shows_stop(at, "Pick up Dorothy O'Neill, rider 1002")
    until(
        lambda: f"the focus is on {at.browser.focused()!r} after a tap",
        lambda: at.browser.focused() == "Pick up Dorothy O'Neill, rider 1002",
    )
    at.browser.press("Aboard")
    shows_stop(at, "Drop off Dorothy O'Neill, rider 1002")
    tell(at, "Dropped off", "No, go back")
    same("an outcome that was not said yes to", "booked", status(at, 2))
    tell(at, "Dropped off", "Yes: dropped off")
    is_next(at, "Drop off Rosa Álvarez")
    at.browser.sees("General Hospital", "door of the day clinic")
    becomes(at, 2, "ridden")
    same("the first rider", "booked", status(at, 1))
    holds(
        f"aboard and ridden are shown: {rows(at)[:5]}",
        "aboard" in rows(at)[1] and "dropped off" in rows(at)[3],
    )
    tell(at, "Dropped off", "Yes: dropped off")
    becomes(at, 1, "ridden")
    same("stops that are shown", 28, len(rows(at)))


@check
def a_pickup_that_was_not_tapped_is_told_at_the_drop(at: Place) -> None:
    begin(at, "07:20", "7:26 AM Pick up Henry Park")
    press(at, "Skip to next stop")
    shows_stop(at, "Drop off Henry Park")
    for name in ["Dropped off", "No-show", "We missed it"]:
        at.browser.find("button", name)
    tell(at, "Dropped off", "Yes: dropped off")
    becomes(at, 3, "ridden")


@check
def the_wait_is_the_agencys_and_begins_with_the_promised_time(at: Place) -> None:
    with at.browser.clock(hurry=20):
        begin(at, "08:10", "8:19 AM Pick up Lucille Baker")
        at.browser.sees("2 people, 1 in a wheelchair", "ramp needed", "in 9 minutes")
        at.browser.press("More for this stop")
        at.browser.sees("tap “Arrived” and wait 5 minutes")
        at.browser.press("Arrived")
        at.browser.sees("Your 5-minute wait starts at 8:19 AM", "Arrived at 8:10 AM.")
        press(at, "No-show")
        at.browser.sees("The pickup window has not opened.")
        at.browser.press("Keep waiting")
        at.town.set_clock(TOMORROW, "08:21")
        at.browser.sees("Wait until 8:24 AM", "2 minutes ago")
        timer, waited, whole = at.browser.script(
            """const [timer, meter] = [document.querySelector('[role=timer]'), document.querySelector('.meter progress')];
            return [timer.textContent, meter.value, meter.max]"""
        )
        holds(
            f"the wait is a clock: {timer}, {waited} of {whole} seconds",
            re.fullmatch(r"[23]:\d\d", timer) and 120 <= waited <= 180 and whole == 300,
        )
        press(at, "No-show")
        at.browser.sees("The 5-minute wait is not over.", "You arrived\n8:10 AM", "2 of 5 min")
        same("what has the focus", "Keep waiting", at.browser.focused())
        at.browser.press("Mark as a no-show anyway")
        at.browser.sees(
            "It counts as a no-show against the rider.", "You can undo this for 60 seconds."
        )
        at.browser.press("No, go back")
        at.town.set_clock(TOMORROW, "08:25")
        at.browser.sees("The 5-minute wait is over.")
        tell(at, "No-show", "Yes: no-show")
        at.browser.sees("Marked no-show: Lucille Baker, rider 1004. It is sent in")
        same("a no-show that can be undone", "booked", status(at, 4))
        is_next(at, "Pick up Samuel Grant")
        moves_to(at, "08:27")
        becomes(at, 4, "missed-rider")
    at.browser.sees_no("It is sent in")
    holds(
        f"the drop stays in the list: {rows(at)[7:9]}",
        "no-show" in row(at, "Drop off Lucille.*88 Pine Road"),
    )


@check
def two_outcomes_without_a_line_are_done_once_after_a_reload(at: Place) -> None:
    begin(at, "09:10", "9:12 AM Pick up Samuel Grant")
    files_are_kept(at)
    at.town.middle.writes()
    with at.browser.no_line(at.town):
        at.browser.press("Aboard")
        tell(at, "Dropped off", "Yes: dropped off")
        shows_stop(at, "Pick up Ana María Núñez")
        tell(at, "We missed it", "Yes: we missed it")
        at.browser.sees("2 outcomes are waiting to be sent")
        holds(
            f"they wait where they belong: {rows(at)[10:12]}",
            all("waiting" in it for it in rows(at)[10:12]),
        )
        at.browser.reload()
        at.browser.sees(
            "You’re offline", "loaded", "2 outcomes are waiting to be sent", "Walter Hughes"
        )
        shows_stop(at, "Pick up Walter Hughes")
        at.browser.sees("General Hospital", "Call dispatch, 555-0100")
        holds(
            f"they wait after a reload: {rows(at)[10:12]}",
            all("waiting" in it for it in rows(at)[10:12]),
        )
    becomes(at, 5, "ridden")
    becomes(at, 6, "missed-operator")
    at.browser.sees_no("to be sent")
    same(
        "the writes that the desk got",
        ["/trips/5/outcome", "/trips/6/outcome"],
        [it for it in at.town.middle.writes() if "outcome" in it],
    )
    until("nothing waits", lambda: not waits(at))
    same("what waits", [], waits(at))


@check
def what_waits_can_be_taken_back(at: Place) -> None:
    begin(at, "10:50", "10:58 AM Pick up Walter Hughes")
    at.browser.press("Aboard")
    is_next(at, "Drop off Walter Hughes")
    press_stop(at, "Pick up Walter Hughes")
    at.browser.press("Undo “aboard”")
    is_next(at, "Pick up Walter Hughes")
    at.town.middle.writes()
    with at.browser.no_line(at.town):
        tell(at, "We missed it", "Yes: we missed it")
        until("it waits", lambda: "missed by us, waiting" in row(at, "Pick up Walter Hughes"))
        press_stop(at, "Pick up Walter Hughes")
        at.browser.press("Undo “missed by us”")
        is_next(at, "Pick up Walter Hughes")
        until("nothing waits", lambda: not waits(at))
        same("what waits", [], waits(at))
    pause(2)
    same("the writes that the desk got", [], at.town.middle.writes())
    same("the trip", "booked", status(at, 7))


@check
def a_denial_is_shown_at_its_stop_and_never_lost(at: Place) -> None:
    begin(at, "10:55", "10:58 AM Pick up Walter Hughes")
    with at.browser.no_line(at.town):
        tell(at, "We missed it", "Yes: we missed it")
        at.browser.sees("1 outcome is waiting to be sent")
    pause(0)
    at.town.post("dispatcher", "/trips/8/outcome", {"outcome": "missed-rider"})
    becomes(at, 7, "missed-operator")
    is_next(at, "Pick up Visitor Ellen Stone")
    tell(at, "We missed it", "Yes: we missed it")
    at.browser.sees(
        "The desk did not take “missed by us”.",
        "Somebody else entered how this trip ended",
        "call dispatch now",
    )
    at.browser.sees_no("Nothing has to be done")
    denied = at.browser.script("return document.querySelector('.driver-denied')")
    same(
        "the call",
        "tel:5550100",
        at.browser.find("link", "Call dispatch, 555-0100", within=denied).get_attribute("href"),
    )
    holds(
        f"it is shown at its stop: {row(at, 'Pick up Visitor')}",
        "missed by us: denied" in row(at, "Pick up Visitor"),
    )
    at.browser.reload()
    at.browser.sees("The desk did not take “missed by us”.")
    at.browser.press("Open this stop")
    at.browser.sees("Not taken by the desk: missed by us.")
    same(
        "what is offered that is sure to be denied",
        [],
        [it for it in offered(at) if it in ("No-show", "We missed it", "Dropped off", "Aboard")],
    )
    at.browser.press("I have read this")
    at.browser.sees_no("The desk did not take")
    holds(
        f"the list still has it: {row(at, 'Pick up Visitor')}",
        "missed by us: denied" in row(at, "Pick up Visitor"),
    )
    same("the trip", "missed-rider", status(at, 8))


@check
def a_reply_that_is_lost_does_nothing_twice(at: Place) -> None:
    begin(at, "12:40", "12:44 PM Pick up Rosa Álvarez")
    at.town.middle.writes()
    at.town.middle.breaks(UNHEARD)
    tell(at, "We missed it", "Yes: we missed it")
    until("nothing waits any more", lambda: not waits(at) and len(kept(at)[0]) > 3)
    same("the trip", "missed-operator", status(at, 9))
    # (with another number the desk would not know it again, and deny it as told before)
    same(
        "what the phone says of it",
        ("done", None),
        tuple(kept(at)[0][-1][it] for it in ("state", "denied")),
    )
    same("the writes that the desk got", ["/trips/9/outcome"] * 2, at.town.middle.writes())


@check
def another_device_with_a_higher_number_is_in_nobodys_way(at: Place) -> None:
    begin(at, "13:30", "1:37 PM Pick up Dorothy")
    at.town.number += 3_000_000
    at.town.post("driver 1", "/trips/11/outcome", {"outcome": "missed-operator"})
    tell(at, "We missed it", "Yes: we missed it")
    becomes(at, 10, "missed-operator")
    until("nothing waits", lambda: not waits(at))
    at.browser.sees_no("The desk did not take")


@check
def a_closed_tab_sends_when_the_same_key_is_back_and_no_other_key_sees_it(at: Place) -> None:
    begin(at, "15:20", "3:23 PM Pick up Lucille Baker")
    with at.browser.no_line(at.town):
        tell(at, "We missed it", "Yes: we missed it")
        at.browser.sees("1 outcome is waiting to be sent")
        close_tab(at)
    at.browser.sign_in(at.keys["dispatcher"], "driver")
    show_manifest(at)
    at.browser.sees("All stops", "Next stop")
    pause(2)
    at.browser.sees_no("to be sent", "missed by us, waiting")
    same("the trip", "booked", status(at, 12))
    at.browser.press("Sign out")
    at.browser.sign_in(at.keys["driver 1"], "driver")
    at.browser.sees("All stops")
    becomes(at, 12, "missed-operator")
    holds(
        f"the list has it: {row(at, '3:23 PM Pick up')}",
        "missed by us" in row(at, "3:23 PM Pick up"),
    )


@check
def without_a_line_the_same_key_signs_in_to_its_copy_and_no_other_key_does(at: Place) -> None:
    begin(at, "16:10", "4:16 PM Pick up Samuel Grant")
    with at.browser.no_line(at.town):
        at.browser.driver.get("about:blank")
        at.browser.driver.get(f"{at.browser.origin}/#driver")
        at.browser.script("sessionStorage.clear()")
        at.browser.reload()
        at.browser.fill("Key", at.keys["driver 1"])
        at.browser.press("Sign in")
        at.browser.sees("You’re offline", "All stops", "Samuel Grant")
        at.browser.script("sessionStorage.clear()")
        at.browser.reload()
        at.browser.fill("Key", at.keys["clerk"])
        at.browser.press("Sign in")
        at.browser.sees("does not answer")
        holds("another key sees the copy", "Samuel Grant" not in at.browser.text())


@check
def a_phone_without_room_says_so_and_does_not_show_it_as_kept(at: Place) -> None:
    begin(at, "16:10", "4:16 PM Pick up Samuel Grant")
    at.browser.script(FULL)
    with at.browser.no_line(at.town):
        tell(at, "We missed it", "Yes: we missed it")
        at.browser.sees(
            "This phone has no room to keep this outcome. It is not kept, and it was not sent."
        )
        is_next(at, "4:16 PM Pick up Samuel Grant")
        holds("it is shown as kept", "waiting" not in " ".join(rows(at)))
    same("the trip", "booked", status(at, 13))
    at.browser.press("Aboard")
    at.browser.sees("It is forgotten when this page is closed.", "Samuel Grant")
    shows_stop(at, "Drop off Samuel Grant")
    tell(at, "Dropped off", "Yes: dropped off")
    becomes(at, 13, "ridden")
    is_next(at, "Back at the depot")


@check
def a_browser_without_a_database_says_so(at: Place) -> None:
    at.browser.fresh()
    made = at.browser.devtools(
        "Page.addScriptToEvaluateOnNewDocument",
        source="Object.defineProperty(window, 'indexedDB', { value: undefined });",
    )
    sign_in(at, "10:00", AFTER)
    at.browser.press("Done here")
    at.browser.sees("It is forgotten when this page is closed.")
    with at.browser.no_line(at.town):
        tell(at, "We missed it", "Yes: we missed it")
        at.browser.sees("This phone has no room to keep this outcome.")
    at.browser.devtools("Page.removeScriptToEvaluateOnNewDocument", identifier=made["identifier"])


@check
def two_windows_use_one_queue_and_no_number_twice(at: Place) -> None:
    at.browser.fresh()
    sign_in(at, "09:50", AFTER)
    press_stop(at, "Pick up Samuel Grant")
    with at.browser.second_window() as (first, second):
        sign_in(at, "09:50", AFTER)
        press_stop(at, "Pick up Ana María")
        with at.town.middle.gone():
            for window in [second, first]:
                window()
                at.browser.devtools("Page.bringToFront")
                tell(at, "We missed it", "Yes: we missed it")
            at.browser.sees("2 outcomes are waiting to be sent")
            at.browser.driver.execute_async_script(AHEAD)
        until("something waits", lambda: not waits(at))
        numbers = [entry["write"]["number"] for entry in kept(at)[0] if entry["write"]]
        holds(
            f"each has its number, and they rise: {numbers}",
            len(set(numbers)) == 2 and numbers == sorted(numbers),
        )
    for trip in [14, 15]:
        same(f"trip {trip}", "missed-operator", status(at, trip, AFTER))


@check
def tomorrow_can_be_read_and_nothing_is_told_there(at: Place) -> None:
    at.browser.fresh()
    sign_in(at, "12:00")
    at.browser.press("Tomorrow")
    at.browser.sees("Wednesday, March 12, 2025", "This is a later day.")
    for name in ["Done here", "Aboard", "Dropped off", "No-show"]:
        holds(f"{name} is offered for tomorrow", name not in offered(at))
    # (what came of them is on record already, and then they are no next stops)
    at.browser.press("All stops")
    at.browser.sees("Samuel Grant")
    at.browser.press("Next stop")
    at.browser.press("Today")
    at.browser.sees("Tuesday, March 11, 2025", "Leave the depot")


@check
def a_phone_whose_clock_is_wrong_has_the_servers_day(at: Place) -> None:
    at.browser.fresh()
    with at.browser.clock(seconds=400_000):
        sign_in(at, "06:05")
        at.browser.sees("Tuesday, March 11, 2025", "5 minutes ago")
        files_are_kept(at)
        with at.browser.no_line(at.town):
            at.browser.reload()
            at.browser.sees("You’re offline", "Tuesday, March 11, 2025", "ago")


@check
def the_place_is_in_the_phones_own_map_and_dispatch_is_a_call_away(at: Place) -> None:
    at.browser.fresh()
    from people import agency_file

    places = [
        {**it, "latitude": 42.5, "longitude": -73.25} if it["id"] == 9 else it
        for it in agency_file(1)["places"]
    ]
    at.town.write_files(places=places)
    sign_in(at, "06:05")
    at.browser.requests()
    press_stop(at, "Pick up Dorothy.*Senior Center")
    link = at.browser.find("link", "Directions to Senior Center").get_attribute("href")
    holds(f"the address of a place: {link}", "42.5" in link and "-73.25" in link)
    same(
        "the telephone",
        "tel:5550100",
        at.browser.find("link", "Call dispatch, 555-0100").get_attribute("href"),
    )
    press_stop(at, "7:26 AM Pick up Henry")
    holds(
        "a place without coordinates has a map",
        not at.browser.all("link", re.compile("Directions")),
    )
    same(
        "what is asked elsewhere",
        [],
        [
            it
            for it in at.browser.requests()
            if it.startswith("http") and not it.startswith(at.town.origin)
        ],
    )
    at.town.write_files()


@check
def a_driver_finds_private_places_where_the_site_has_the_file(at: Place) -> None:
    at.browser.fresh()
    sign_in(at, "06:05")
    press_stop(at, "6:17 AM Pick up Rosa")
    at.browser.sees("12 Oak Street", "gate code 4411#")
    at.town.write_file("drivers/1/places.json", None)
    try:
        at.browser.fresh()
        sign_in(at, "06:05")
        press_stop(at, "6:17 AM Pick up Rosa")
        at.browser.sees("Stop 11")
        at.browser.sees_no("12 Oak Street")
    finally:
        at.town.write_files()


@check
def a_fare_is_shown_to_a_key_that_may_know_it(at: Place) -> None:
    at.browser.fresh()
    sign_in(at, "06:05", holder="dispatcher")
    press_stop(at, "7:26 AM Pick up Henry")
    at.browser.sees("Fare due: $")


def tallied(at: Place) -> list[Any]:
    """What the site's log has of stops."""
    try:
        with open(f"{at.folder}/tally.log", encoding="utf-8") as log:
            return [line for line in log.read().splitlines() if "/tally/stops" in line]
    except FileNotFoundError:
        return []


@check
def a_manifest_that_changes_says_what_is_gone(at: Place) -> None:
    at.browser.fresh()
    at.town.set_clock(TOMORROW, "01:00")
    trip = at.town.book(1005, AFTER, 900, 7, 2)
    with at.browser.clock(hurry=20):
        sign_in(at, "09:00", AFTER)
        at.browser.press("All stops")
        at.browser.sees("Public Library")
        at.town.post("clerk", f"/trips/{trip}/cancel", {})
        at.browser.sees("These stops are not in it any more")
        at.browser.press("I have read this")
        at.browser.sees_no("not in it any more")


@check
def the_files_are_the_sites_with_a_line_and_the_kept_ones_without(at: Place) -> None:
    at.browser.fresh()
    sign_in(at, "06:05")
    files_are_kept(at)
    names, paths = at.browser.driver.execute_async_script(FILES)
    same("sets of files", 1, len([it for it in names if it.startswith("desk-pages-")]))
    strange = [
        it
        for it in paths
        if not re.search(r"\.(js|css|svg)$", it) and it not in ("/", "/whole", "/agency.json")
    ]
    same("what is kept beside the files of the pages", [], strange)
    for path in """
        / /parts/main.js /css/phone.css /css/driver.css /words/en/driver.js /words/es/driver.js
    """.split():
        holds(f"{path} is kept", path in paths)
    same(
        "styles of other screens that are kept",
        [],
        [
            it
            for it in paths
            if it.startswith("/css/") and it not in ("/css/phone.css", "/css/driver.css")
        ],
    )
    at.browser.driver.execute_async_script(STALE)
    at.browser.reload()
    at.browser.sees("All stops")
    same("a kept file is used with a line", "", at.browser.script(HAS_STALE).strip())
    at.browser.driver.execute_async_script(STALE)
    with at.browser.no_line(at.town):
        at.browser.reload()
        at.browser.sees("You’re offline")
        same("a kept file is used without a line", "1", at.browser.script(HAS_STALE).strip())


# A day of its own for what goes wrong: each check has a trip of it.
BAD_DAY, GRANT, NUNEZ, HUGHES, ALVAREZ, ONEILL = "2025-03-13", 1005, 1006, 1007, 1001, 1002
WISHES = [
    (GRANT, 500, 6, 8),
    (NUNEZ, 560, 3, 2),
    (HUGHES, 620, 9, 8),
    (ALVAREZ, 700, 11, 2),
    (ONEILL, 760, 12, 6),
    (GRANT, 840, 8, 6),
]
BOOKED: dict[int, int] = {}
EVERYTHING = """
const done = arguments[0];
(async () => {
    const all = [JSON.stringify({ ...localStorage }), JSON.stringify({ ...sessionStorage }), document.documentElement.outerHTML];
    for (const { name } of await indexedDB.databases()) await new Promise((go) => {
        const opened = indexedDB.open(name);
        opened.onsuccess = () => {
            const stores = [...opened.result.objectStoreNames], change = opened.result.transaction(stores), read = stores.map((it) => change.objectStore(it).getAll());
            change.oncomplete = () => { opened.result.close(); all.push(JSON.stringify(read.map(({ result }) => result))); go(); };
        };
    });
    for (const name of await caches.keys()) {
        const cache = await caches.open(name);
        for (const request of await cache.keys()) if (!/\\.(js|css|svg)$/.test(request.url)) all.push(await (await cache.match(request)).text());
    }
    done(all.join("\\n"));
})();
"""
NAMES = re.compile(
    "Álvarez|O'Neill|Samuel Grant|Núñez|Hughes|12 Oak Street|gate code|speaks Spanish|hard of hearing|VEHICLE 1"
)


def names_here(at: Place) -> list[Any]:
    """The names, notes and manifests that are anywhere on this phone."""
    return sorted(set(NAMES.findall(at.browser.driver.execute_async_script(EVERYTHING))))


def events(at: Place, kind: str) -> list[Any]:
    """What the site's log has of a kind of event, as its fields."""
    try:
        with open(f"{at.folder}/tally.log", encoding="utf-8") as log:
            parts = [line.split("\t") for line in log.read().splitlines()]
    except FileNotFoundError:
        return []
    return [dict(urllib.parse.parse_qsl(it[2])) for it in parts if it[1] == f"/tally/{kind}"]


def put_key(at: Place, key: str) -> None:
    """The admin gives driver 1 another key, by another device that the line of this phone does not matter to."""
    at.town.number += 1_000
    fields = {
        "id": 101,
        "role": "driver",
        "subject": 1,
        "digest": hashlib.sha256(key.encode()).hexdigest(),
    }
    reply = at.town.desk.ask("POST", "/callers", at.keys["admin"], at.town.number, fields)
    holds(f"the key is put: {reply}", "denied" not in reply)


def begin_bad(at: Place, clock: str, index: int) -> Any:
    """A phone whose next stop is the pickup of one of the trips of the bad day; the trip's number."""
    if not BOOKED:
        at.town.set_clock(AFTER, "12:00")
        BOOKED.update(
            {
                at_: at.town.book(rider, BAD_DAY, wish, start, end)
                for at_, (rider, wish, start, end) in enumerate(WISHES)
            }
        )
    at.browser.fresh()
    sign_in(at, clock, BAD_DAY)
    name = f"stop-PICK-{BOOKED[index]}"
    until(
        f"there is no {name}",
        lambda: at.browser.script("return Boolean(document.getElementById(arguments[0]))", name),
    )
    at.browser.script("document.getElementById(arguments[0]).click()", name)
    if at.browser.all("button", "This is my next stop"):
        at.browser.press("This is my next stop")
        at.browser.press("Yes: go on from here")
    until(
        f"{name} is not next",
        lambda: at.browser.script("return document.querySelector('.driver-row.next')?.id") == name,
    )
    return BOOKED[index]


@check
def a_key_that_was_replaced_takes_all_names_off_the_phone(at: Place) -> None:
    trip = begin_bad(at, "08:00", 0)
    files_are_kept(at)
    holds("the phone has names before", len(names_here(at)) > 3)
    at.browser.press("Note about the van")
    at.browser.fill("What dispatch has to know", "Mrs. O'Neill asks for a call")
    at.browser.press("Save note")
    with at.browser.no_line(at.town):
        tell(at, "We missed it", "Yes: we missed it")
        at.browser.sees("1 outcome is waiting to be sent")
        put_key(at, "another key of driver 1")
    try:
        at.browser.sees(
            "This key was replaced or canceled. 1 outcome was not sent: tell dispatch.",
            f"Trip {trip}, rider 1005: missed by us, Thu, Mar 13",
        )
        at.browser.find("button", "Sign in")
        same("names on the phone", [], names_here(at))
        entries, copies = kept(at)
        same(
            "what is left",
            [("waiting", trip)],
            [(it["state"], it["tap"]["trip"]) for it in entries],
        )
        same("copies", [], copies)
        at.browser.press("I have told dispatch")
        until("it is forgotten once it was told", lambda: not kept(at)[0])
        at.browser.fill("Key", "another key of driver 1")
        at.browser.press("Sign in")
        show_manifest(at)
        at.browser.sees("All stops", "Samuel Grant")
        at.browser.press("Sign out")
        at.browser.find("button", "Sign in")
        at.browser.reload()
        at.browser.find("button", "Sign in")
        same("names after a reload", [], names_here(at))
        same("the trip", "booked", status(at, trip, BAD_DAY))
    finally:
        put_key(at, at.keys["driver 1"])


@check
def a_phone_that_only_reads_forgets_all_names_with_its_key(at: Place) -> None:
    # (nothing waits to be sent: the reading alone has to notice it)
    begin_bad(at, "08:00", 0)
    until("nothing waits", lambda: not waits(at))
    holds("the phone has names before", len(names_here(at)) > 3)
    put_key(at, "another key of driver 1")
    try:
        at.town.middle.writes()
        at.browser.script("window.dispatchEvent(new Event('online'))")
        at.browser.sees("This key was replaced or canceled.")
        at.browser.find("button", "Sign in")
        same("what was written", [], at.town.middle.writes())
        same("names on the phone", [], names_here(at))
        same("copies", [], kept(at)[1])
    finally:
        put_key(at, at.keys["driver 1"])


@check
def without_a_line_the_phone_locks_in_time_and_a_clock_that_is_set_back_does_not_open_it(
    at: Place,
) -> None:
    at.town.write_files(lock_minutes=60)
    try:
        with at.browser.clock(hurry=20):
            begin_bad(at, "08:00", 1)
            files_are_kept(at)
            with at.browser.no_line(at.town):
                at.browser.reload()
                at.browser.sees(
                    "You’re offline.", "They stay on screen until 9:0", "Ana María Núñez"
                )
                at.browser.passes(59 * 60)
                at.browser.settled(500)
                at.browser.sees("Ana María Núñez")
                at.browser.passes(2 * 60)
                at.browser.sees("The desk has not answered for 1 hour", "Call dispatch, 555-0100")
                same("names of a locked phone", [], names_here(at))
                at.browser.passes(-60 * 60)
                at.browser.settled(500)
                same("names once the clock is set back", [], names_here(at))
                at.browser.reload()
                at.browser.sees(
                    "The clock of this phone was changed, so this phone no longer shows names."
                )
                same("names after a reload", [], names_here(at))
            at.browser.sees("Ana María Núñez", "All stops")
            at.browser.sees_no("has not answered", "was changed")
    finally:
        at.town.write_files()


@check
def manifests_of_days_that_are_over_are_dropped_whoever_opens_the_page(at: Place) -> None:
    begin_bad(at, "08:00", 0)
    at.browser.press("Tomorrow")
    at.browser.sees("Friday, March 14, 2025")
    until(
        "both days are kept",
        lambda: {"manifest 1 2025-03-13", "manifest 1 2025-03-14"} <= set(kept(at)[1]),
    )
    at.town.set_clock("2025-03-14", "08:00")
    at.browser.reload()
    at.browser.sees("Friday, March 14, 2025")
    until("the day before is dropped", lambda: "manifest 1 2025-03-13" not in kept(at)[1])
    at.browser.script("sessionStorage.clear()")
    at.town.set_clock("2025-03-16", "08:00")
    at.browser.reload()
    at.browser.find("button", "Sign in")
    until("all are dropped", lambda: not [it for it in kept(at)[1] if it.startswith("manifest")])
    same("names on the phone", [], names_here(at))


@check
def a_no_show_after_a_late_van_is_asked_about_and_can_be_undone_also_after_a_reload(
    at: Place,
) -> None:
    before = len(events(at, "no-shows"))
    trip = begin_bad(at, "09:00", 1)
    until("the wait for the window", lambda: "Pickup window" in card(at))
    at.browser.sees("Arrived")
    moves_to(at, "09:58", BAD_DAY)
    at.browser.press("Arrived")
    at.browser.sees("Arrived at 9:58 AM", "The pickup window has closed.")
    big = at.browser.script(
        "return [...document.querySelectorAll('.driver-choices button')].map((it) => [it.innerText, it.offsetWidth * it.offsetHeight])"
    )
    names = [name for name, _ in big]
    holds(
        f"our fault comes before a no-show, and is larger: {big}",
        names.index("We missed it") < names.index("No-show")
        and dict(big)["We missed it"] > dict(big)["No-show"],
    )
    moves_to(at, "10:05", BAD_DAY)
    at.browser.sees("wait is over")
    no_show(at, "You arrived after the pickup window closed.")
    at.browser.sees("Marked no-show: Ana María Núñez, rider 1006. It is sent in")
    at.browser.reload()
    at.browser.sees("Marked no-show: Ana María Núñez, rider 1006. It is sent in")
    same("what the desk has", "booked", status(at, trip, BAD_DAY))
    at.browser.press("Undo “no-show”")
    at.browser.sees_no("It is sent in")
    until("nothing waits", lambda: not waits(at))
    with at.browser.clock(hurry=20):
        at.browser.reload()
        press_stop(at, "Pick up Ana María")
        no_show(at, "You arrived after the pickup window closed.")
        at.browser.sees("It is sent in")
        moves_to(at, "10:07", BAD_DAY)
        becomes(at, trip, "missed-rider", BAD_DAY)
        until("the evidence is not told", lambda: len(events(at, "no-shows")) > before)
    told = events(at, "no-shows")[before:]
    window = next(it for it in at.town.trips_of(NUNEZ) if it["trip"] == trip)
    same("no-shows of the log", 1, len(told))
    same(
        "its evidence",
        (str(trip), "1", str(window["window_from"]), str(window["window_to"]), str(9 * 60 + 58)),
        tuple(told[0][it] for it in ("trip", "vehicle", "from", "to", "arrived")),
    )
    # (the wait goes on until the yes, on a clock that hurries)
    holds(f"the wait of the evidence: {told[0]['wait']}", int(told[0]["wait"]) >= 7)


@check
def a_second_outcome_of_a_trip_reads_what_is_on_record_and_dispatch_sees_it(at: Place) -> None:
    before = len(events(at, "disagreements"))
    trip = begin_bad(at, "10:20", 2)
    with at.browser.clock(hurry=20):
        at.browser.reload()
        at.browser.press("Aboard")
        # (another phone of the same van)
        at.town.post("driver 1", f"/trips/{trip}/outcome", {"outcome": "missed-rider"})
        moves_to(at, "10:50", BAD_DAY)
        shows_stop(at, "Drop off Walter Hughes")
        # (a phone that reads the record before has no *Dropped off* any more, and one that reads it late tells dispatch that it is unknown)
        with at.browser.no_line(at.town):
            tell(at, "Dropped off", "Yes: dropped off")
            at.town.write_drivers_files()
        moves_to(at, "10:51", BAD_DAY)
        at.browser.sees(
            "The desk did not take “dropped off”.",
            "On record: no-show.",
            "If “dropped off” is right, call dispatch now.",
        )
        denied = at.browser.script("return document.querySelector('.driver-denied')")
        same(
            "the call",
            "tel:5550100",
            at.browser.find("link", "Call dispatch, 555-0100", within=denied).get_attribute("href"),
        )
        moves_to(at, "10:52", BAD_DAY)
        until("dispatch does not hear of it", lambda: len(events(at, "disagreements")) > before)
    told = events(at, "disagreements")[before:]
    same(
        "disagreements",
        [(str(trip), "missed-rider", "ridden")],
        [(it["trip"], it["record"], it["told"]) for it in told],
    )


@check
def a_driver_who_takes_over_a_van_reads_how_its_trips_ended(at: Place) -> None:
    begin_bad(at, "09:30", 0)
    at.town.set_clock(BAD_DAY, "11:00")
    rider = next(it["trip"] for it in at.town.trips_of(GRANT) if it["trip"] == BOOKED[0])
    if status(at, rider, BAD_DAY) == "booked":
        at.town.post("driver 1", f"/trips/{rider}/outcome", {"outcome": "ridden"})
    how = {"ridden": "dropped off", "missed-rider": "no-show", "missed-operator": "missed by us"}[
        status(at, rider, BAD_DAY)
    ]
    aboard = {"trip": BOOKED[3], "kind": "aboard", "minute": 640}
    at.town.write_file(
        "staff/today.json",
        json.dumps(
            {"day": BAD_DAY, "made": f"{BAD_DAY}T15:00:00Z", "vehicles": {"1": {"taps": [aboard]}}}
        ),
    )
    at.town.write_drivers_files()
    try:
        at.browser.fresh()
        sign_in(at, "11:00", BAD_DAY)
        texts: Callable[[int], Any] = lambda trip: at.browser.script(
            "return [...document.querySelectorAll(`#stop-PICK-${arguments[0]}, #stop-DROP-${arguments[0]}`)].map((it) => it.querySelector('.driver-state').textContent)",
            trip,
        )
        until(lambda: f"trip {rider} reads {texts(rider)}", lambda: texts(rider) == [how, how])
        until(
            lambda: f"trip {BOOKED[3]} reads {texts(BOOKED[3])}",
            lambda: texts(BOOKED[3])[0] == "aboard",
        )
        at.browser.script("document.getElementById(`stop-DROP-${arguments[0]}`).click()", rider)
        at.browser.sees(f"On record: {how}.")
        same(
            "what is sure to be denied",
            [],
            [it for it in offered(at) if it in ("Dropped off", "No-show", "We missed it")],
        )
        # (also where the driver goes on from a later stop, and without a line)
        at.browser.script("document.getElementById(`stop-DROP-${arguments[0]}`).click()", BOOKED[4])
        at.browser.press("This is my next stop")
        at.browser.press("Yes: go on from here")
        same("after earlier stops were passed", [how, how], texts(rider))
        is_next(at, "Drop off Rosa Álvarez")
        files_are_kept(at)
        with at.browser.no_line(at.town):
            at.browser.reload()
            at.browser.sees("You’re offline.")
            same("without a line", [how, how], texts(rider))
    finally:
        at.town.write_file("staff/today.json", None)
        at.town.write_drivers_files()


@check
def a_tap_that_was_taken_back_is_not_read_as_one_of_another_phone(at: Place) -> None:
    trip = begin_bad(at, "13:40", 5)
    # (a phone that has tapped nothing else on this day)
    at.browser.fresh()
    sign_in(at, "13:40", BAD_DAY)
    state_of: Callable[[int], Any] = lambda it: at.browser.script(
        "return document.querySelector(`#stop-PICK-${arguments[0]} .driver-state`)?.textContent ?? null",
        it,
    )
    for name in ["Aboard", "Undo “aboard”"]:
        at.browser.script("document.getElementById(`stop-PICK-${arguments[0]}`).click()", trip)
        at.browser.press(name)
        at.browser.settled()
    taps = [
        {"trip": it, "kind": "aboard", "minute": minute}
        for it, minute in [(BOOKED[3], 640), (trip, 820)]
    ]
    at.town.write_file(
        "staff/today.json",
        json.dumps(
            {"day": BAD_DAY, "made": f"{BAD_DAY}T17:45:00Z", "vehicles": {"1": {"taps": taps}}}
        ),
    )
    at.town.write_drivers_files()
    try:
        at.browser.reload()
        until(
            lambda: f"trip {BOOKED[3]} reads {state_of(BOOKED[3])!r}",
            lambda: state_of(BOOKED[3]) == "aboard",
        )
        same("what was taken back", "", state_of(trip).replace("next", ""))
        at.browser.script("document.getElementById(`stop-PICK-${arguments[0]}`).click()", trip)
        at.browser.find("button", "Aboard")
        same("what can be taken back", False, at.browser.is_there("button", re.compile("Undo")))
    finally:
        at.town.write_file("staff/today.json", None)
        at.town.write_drivers_files()


@check
def no_tap_is_dropped_while_another_is_under_way(at: Place) -> None:
    begin_bad(at, "11:35", 3)
    at.browser.find("button", "Arrived")
    at.browser.script(
        "for (const name of ['Arrived', 'Aboard']) [...document.querySelectorAll('.driver-choices button')].find((it) => it.innerText === name).click()"
    )
    is_next(at, "Drop off Rosa Álvarez")
    same(
        "the taps",
        ["arrived", "aboard"],
        [it["tap"]["what"] for it in kept(at)[0] if it["tap"]["what"] != "left"],
    )


@check
def notes_and_lateness_are_there_and_the_log_has_the_moment_of_the_tap(at: Place) -> None:
    before = len(events(at, "notes"))
    trip = begin_bad(at, "12:30", 4)
    with at.browser.clock(hurry=20):
        at.browser.reload()
        at.browser.sees("Planned")
        hour, minutes, half = matched(r"Planned (\d+):(\d+) ([AP])M", card(at)).groups()
        minute = (int(hour) % 12 + 12 * (half == "P")) * 60 + int(minutes) + 11
        moves_to(at, f"{minute // 60:02}:{minute % 60:02}", BAD_DAY)
        at.browser.sees("11 min late")
        at.browser.press("Arrived")
        at.browser.press("Aboard")
        at.browser.sees("now about", "11 min late")
        press_stop(at, "Pick up Dorothy")
        with at.browser.no_line(at.town):
            press(at, "Add a note")
            at.browser.fill("What dispatch has to know", "left at the side door, señora dijo «sí»")
            at.browser.press("Save note")
            at.browser.sees("left at the side door, señora dijo «sí»")
        moves_to(at, f"{minute // 60 + 2:02}:{minute % 60:02}", BAD_DAY)
        until("the note is not told", lambda: len(events(at, "notes")) > before)
    told = events(at, "notes")[-1]
    same(
        "the note",
        (str(trip), "1", "left at the side door, señora dijo «sí»"),
        tuple(told[it] for it in ("trip", "vehicle", "text")),
    )
    holds(
        f"it has its own moment: {told['at']}",
        told["at"].startswith(f"{BAD_DAY}T{minute // 60:02}:{minute % 60:02}"),
    )


@check
def a_drivers_files_hold_the_riders_and_places_of_the_own_stops_alone(at: Place) -> None:
    at.town.set_clock(BAD_DAY, "12:00")
    key = {"Desk-Key": at.keys["driver 1"]}
    _, _, roster = at.town.answer("/drivers/1/roster.csv", key)
    _, _, places = at.town.answer("/drivers/1/places.json", key)
    riders = [line.split(",")[0] for line in roster.splitlines()[1:]]
    same("riders of the own stops", ["1001", "1002", "1005", "1006", "1007"], sorted(riders))
    numbers = {it["id"] for it in json.loads(places)["places"]}
    holds(
        f"places of the own stops: {numbers}", {5, 11, 12} <= numbers and not numbers & {10, 13, 14}
    )
    same("all riders", 404, at.town.answer("/drivers/roster.csv", key)[0])


def types_van(at: Place, typed: str) -> bool:
    if at.browser.all("field", VAN_FIELD):
        at.browser.fill(VAN_FIELD, typed)
        at.browser.keys(Keys.ENTER)
        at.browser.settled()
    return "All stops" in at.browser.text()


def offers_van(at: Place, name: str) -> Any:
    """Whether the names of vans are there by now, which come after the first sight."""
    at.browser.fill(VAN_FIELD, name)
    at.browser.settled()
    return at.browser.is_there("option", re.compile(re.escape(name)))


@check
def a_van_is_typed_by_its_name_or_its_number(at: Place) -> None:
    at.town.write_files(vehicles=[{"id": 1, "name": "Van 30"}, {"id": 30, "name": "Van 130"}])
    try:
        for typed in ["Van 30", "1"]:
            at.browser.fresh()
            at.browser.sign_in(at.keys["driver 1"], "driver")
            # (names of vans come after the first sight; who types sooner types again)
            until("the van is not shown", lambda: types_van(at, typed))
            at.browser.sees("All stops", "Van 30")
        at.browser.fresh()
        at.browser.sign_in(at.keys["driver 1"], "driver")
        until("no names of vans come", lambda: offers_van(at, "Van 30"))
        at.browser.fill(VAN_FIELD, "30")
        at.browser.keys(Keys.ENTER)
        at.browser.sees("Several vans fit. Choose one from the list.")
        at.browser.fill(VAN_FIELD, "130")
        at.browser.keys(Keys.ENTER)
        at.browser.sees("Your key is not for Van 130.")
    finally:
        at.town.write_files()


@check
def everything_that_is_tapped_on_a_drivers_phone_is_as_high_as_a_finger(at: Place) -> None:
    with at.browser.screen(390, 844, mobile=True):
        at.browser.fresh()
        sign_in(at)
        same("what is lower than 44 pixels", [], at.browser.script(LOW))


# From nothing, over a phone's line: 400 kilobits a second, and 400 milliseconds to each answer.
SLOW: dict[str, Any] = {"milliseconds": 400, "bytes_a_second": 50_000}
SIGHT = """
const watch = new MutationObserver(() => {
    const it = document.querySelector(%s);
    if (it && it.getClientRects().length && !window.sight) { window.sight = performance.now(); watch.disconnect(); }
});
watch.observe(document, { childList: true, subtree: true, attributes: true });
const real = window.fetch;
window.asked = [];
window.fetch = (path, ...more) => { window.asked.push(String(path)); return real(path, ...more); };
"""
# Seconds: 3 are aimed at, and the machine may be busy. Bytes and files are those of pages that esbuild has packed: a file costs a packet of its own,
# so 34 files of 69,000 bytes took longer than 20 of 72,000.
# (the form needs the browser's stores, for what a browser keeps that refuses them, and so far the addresses)
MOST_SECONDS, MOST_BYTES, MOST_FILES = (
    6,
    {"the form to sign in": 51_500, "the next stop": 73_000},
    22,
)


@check
def the_odometer_is_kept_and_told_the_sites_log_once(at: Place) -> None:
    at.browser.fresh()
    before = {kind: len(events(at, kind)) for kind in ("pull_out", "pull_in")}
    with at.browser.clock(hurry=20):
        sign_in(at, "05:10")
        at.browser.sees_no("Pull in: enter the odometer")
        at.browser.press("Pull out: enter the odometer")
        at.browser.fill("Odometer now, in whole miles", "many")
        at.browser.press("Save")
        at.browser.sees("Enter whole miles, such as 48210.")
        at.browser.fill("Odometer now, in whole miles", "48,210")
        at.browser.press("Save")
        at.browser.sees("Pulled out", "odometer 48,210")
        at.browser.press("Pull in: enter the odometer")
        at.browser.fill("Odometer now, in whole miles", "48200")
        at.browser.press("Save")
        at.browser.sees("This is less than at the pull-out, 48,210. Correct one of them.")
        at.browser.fill("Odometer now, in whole miles", "48310")
        at.browser.fill("Odometer at the first pickup, if you wrote it down", "48214")
        at.browser.press("Save")
        at.browser.sees("Pulled in", "odometer 48,310")
        at.town.set_clock(TOMORROW, "05:20")
        until("nothing is told", lambda: len(events(at, "pull_in")) > before["pull_in"])
    out, back = (
        events(at, "pull_out")[before["pull_out"] :],
        events(at, "pull_in")[before["pull_in"] :],
    )
    same(
        "the pull-out",
        [("1", "48210", TOMORROW)],
        [(it["vehicle"], it["odometer"], it["day"]) for it in out],
    )
    same(
        "the pull-in",
        [("48310", "48214", None)],
        [(it["odometer"], it["first_pickup"], it.get("last_drop")) for it in back],
    )


def first_sight(at: Place, what: str, selector: str, kept: Any, wrong: int = 0) -> Any:
    """The seconds until something is seen on a phone that has nothing of these pages, the bytes of each file that came, and when each file for the van's
    driver was asked for, in milliseconds. `wrong` is by how many seconds the phone's clock is wrong.
    """
    at.browser.driver.get(f"{at.browser.origin}/icon.svg")
    at.browser.devtools("Storage.clearDataForOrigin", origin=at.browser.origin, storageTypes="all")
    at.browser.script(
        "sessionStorage.clear(); for (const [name, value] of Object.entries(arguments[0])) sessionStorage.setItem(name, value)",
        kept,
    )
    at.browser.devtools("Network.clearBrowserCache")
    made = at.browser.devtools(
        "Page.addScriptToEvaluateOnNewDocument", source=SIGHT % json.dumps(selector)
    )
    at.browser.line(**SLOW)
    try:
        # (a phone whose clock has the agency's day, or another one)
        noon = datetime.datetime.fromisoformat(f"{TOMORROW}T12:00:00+00:00").timestamp()
        with at.browser.clock(seconds=round(noon - time.time()) + wrong):
            at.browser.go("#driver")
            milliseconds = until(
                f"{what} is not seen", lambda: at.browser.script("return window.sight")
            )
        loaded = at.browser.script(
            "return performance.getEntriesByType('resource').map((it) => [it.name, it.transferSize, it.startTime])"
        )
        early = [it[1] for it in loaded if it[2] < milliseconds]
        asked = {urllib.parse.urlsplit(it[0]).path: it[2] for it in loaded if "/drivers/" in it[0]}
    finally:
        at.browser.line()
        at.browser.devtools(
            "Page.removeScriptToEvaluateOnNewDocument", identifier=made["identifier"]
        )
    print(
        f"driver: {what} is seen from nothing after {milliseconds / 1000:.2f} s at 400 kbit/s and 400 ms; {len(early)} files, {sum(early)} bytes",
        flush=True,
    )
    return milliseconds / 1000, early, asked


@check
def each_screen_of_the_packed_pages_opens(at: Place) -> None:
    at.town.set_clock(TOMORROW, "05:30")
    for screen, holder in {
        "rider": "rider 1001",
        "clerk": "clerk",
        "examiner": "examiner",
        "officer": "officer",
        "dispatcher": "dispatcher",
        "admin": "admin",
    }.items():
        parts = list(at.browser.each_part(at.keys[holder], screen))
        holds(f"{screen} has no part", parts)
        at.browser.sees_no("could not be loaded", "undefined")
        at.browser.sign_out()
        at.browser.find("button", "Sign in")


@check
def the_first_sight_on_a_phones_line_is_soon_there(at: Place) -> None:
    at.town.set_clock(TOMORROW, "05:30")
    at.town.write_file("drivers/1/addresses.json", json.dumps({"addresses": {}}))
    with at.browser.screen(**PHONE):
        for what, selector, kept in [
            ("the form to sign in", "input[type=password]", {}),
            (
                "the next stop",
                ".driver-stop h2",
                {"desk.key": at.keys["driver 1"], "desk.subject.vehicle": "1"},
            ),
        ]:
            seconds, early, asked = first_sight(at, what, selector, kept)
            holds(f"{what} is seen after {seconds:.2f} s", seconds <= MOST_SECONDS)
            holds(
                f"{what} takes {len(early)} files of {sum(early)} bytes",
                len(early) <= MOST_FILES
                and sum(early) <= MOST_BYTES[what]
                or not shutil.which("esbuild"),
            )
            # (what is asked for late keeps the driver waiting for one more answer)
            holds(
                f"the driver's files are not asked for at once: {asked}",
                not asked or max(asked.values()) - min(asked.values()) < SLOW["milliseconds"],
            )
    same(
        "the driver's files",
        ["addresses.json", "outcomes.json", "places.json", "roster.csv"],
        sorted(path.rpartition("/")[2] for path in asked),
    )


@check
def the_day_is_asked_for_before_the_agencys_file_is_there_and_a_wrong_date_costs_one_more_question(
    at: Place,
) -> None:
    at.town.set_clock(TOMORROW, "05:30")
    with at.browser.screen(**PHONE):
        for wrong, days in [
            (0, [TOMORROW]),
            (86_400, [AFTER, TOMORROW]),
            (-40 * 86_400, ["2025-01-30", TOMORROW]),
        ]:
            first_sight(
                at,
                "the next stop",
                ".driver-stop h2",
                {"desk.key": at.keys["driver 1"], "desk.subject.vehicle": "1"},
                wrong,
            )
            at.browser.sees("All stops", "Tuesday, March 11")
            same(
                f"the manifests that are asked for, where the phone is {wrong} seconds wrong",
                days,
                [it[-10:] for it in at.browser.script("return window.asked") if "/manifest/" in it][
                    : len(days)
                ],
            )
