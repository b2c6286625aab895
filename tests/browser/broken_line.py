"""A line that breaks at each step of a write, a desk that is slow or gone, two windows, other devices: done once."""
import json
import re
from collections.abc import Callable
from typing import Any

from selenium.webdriver.common.keys import Keys

from booking import BOOK, begin
from browser import pause
from checks import Place, check, holds, same
from database import matched, until
from late_files import given
from middle import CROWDED, HALF, LOST, NO_MEMORY, NO_STORE, NONSENSE, UNHEARD

VANS = 1
DAY, RIDER = "2025-03-14", 1005
SIGN = "The desk does not answer."
ASK = """
const [name, given] = arguments;
window.replies ??= [];
import("/parts/desk.js").then((desk) => desk[name](...given)).then((reply) => window.replies.push(reply));
"""
# Something before the site answers the next two writes: a page, of the kind that is given.
CROWDED_PAGE = """
const real = window.fetch, [kind] = arguments, page = "<html>429 Too Many Requests</html>";
let left = 2;
window.fetch = async (path, options) => (options?.method !== "POST" || (left -= 1) < 0 ? real(path, options)
    : new Response(page, { status: 429, headers: { "Content-Type": kind } }));
"""


def asks(at: Place, name: str, *given: dict[Any, Any] | int) -> None:
    """The page's own part that speaks to the desk is asked, and nobody waits for its answer."""
    at.browser.script(ASK, name, given)


def replies(at: Place, count: int = 1) -> Any:
    def there() -> str:
        return f"{count} replies do not come, but {at.browser.script('return window.replies')}"

    found = until(
        there,
        lambda: (at.browser.script("return window.replies?.length") or 0) >= count
        and at.browser.script("return window.replies"),
    )
    at.browser.script("window.replies = []")
    return found


def wish(minute: int, **more: Any) -> dict[Any, Any]:
    return {
        "rider": RIDER,
        "day": DAY,
        "wish": minute,
        "from": 1,
        "to": 2,
        "by": None,
        "attendant": False,
        "companions": 0,
        **more,
    }


def signed_in(at: Place, _part: str = "record") -> None:
    at.browser.sign_in(at.keys["clerk"], "clerk")
    at.browser.settled()


def trips(at: Place, rider: int = RIDER) -> int:
    return len(at.town.trips_of(rider))


@check
def a_write_whose_line_breaks_at_any_step_is_done_once(at: Place) -> None:
    signed_in(at)
    for number, how in enumerate([LOST, UNHEARD, HALF, NO_MEMORY, NO_STORE, NONSENSE]):
        before = trips(at)
        at.town.middle.breaks(how)
        asks(at, "book", wish(400 + 40 * number))
        reply = replies(at)[0]
        holds(f"{how}: the reply is {reply}", "trip" in (reply.get("value") or {}))
        same(f"{how}: the trips", before + 1, trips(at))
        at.browser.sees_no(SIGN)


@check
def a_write_that_breaks_many_times_is_done_once_and_a_sign_says_so_meanwhile(at: Place) -> None:
    signed_in(at)
    before = trips(at)
    at.town.middle.breaks(UNHEARD, times=3)
    asks(at, "book", wish(700))
    at.browser.sees(SIGN)
    holds("no reply", "trip" in replies(at)[0]["value"])
    at.browser.sees_no(SIGN)
    same("the trips", before + 1, trips(at))


@check
def while_the_site_asks_to_wait_a_write_waits(at: Place) -> None:
    signed_in(at)
    for kind, minute in [(None, 760), ("text/html", 780), ("application/json", 800)]:
        before = trips(at)
        if kind:
            at.browser.script(CROWDED_PAGE, kind)
        else:
            at.town.middle.breaks(CROWDED, times=2)
        asks(at, "book", wish(minute))
        at.browser.sees("Many requests at once")
        holds("no reply", "trip" in replies(at)[0]["value"])
        at.browser.sees_no("Many requests at once")
        same(f"the trips, {kind}", before + 1, trips(at))


@check
def without_a_desk_a_sign_says_so_and_it_goes_on_with_the_desk(at: Place) -> None:
    signed_in(at)
    before = trips(at)
    at.town.stop_desk()
    asks(at, "book", wish(820))
    at.browser.sees(SIGN, "What you typed is kept.")
    at.town.start_desk()
    holds("no reply", "trip" in replies(at)[0]["value"])
    at.browser.sees_no(SIGN)
    same("the trips", before + 1, trips(at))


@check
def a_site_that_falls_after_the_desk_has_booked_leaves_one_trip(at: Place) -> None:
    signed_in(at)
    before = trips(at)
    with at.town.middle.hold():
        at.town.middle.writes()
        asks(at, "book", wish(880))
        until("the write comes", at.town.middle.writes)
        at.town.stop_site()
        at.browser.sees(SIGN)
    at.town.start_site()
    holds("no reply", "trip" in replies(at)[0]["value"])
    same("the trips", before + 1, trips(at))


@check
def a_page_that_is_loaded_anew_while_it_sends_says_that_it_is_done_once(at: Place) -> None:
    signed_in(at)
    before = trips(at)
    with at.town.middle.hold():
        at.town.middle.writes()
        asks(at, "book", wish(940))
        until("the write comes", at.town.middle.writes)
        at.browser.reload()
    at.browser.sees(
        "These trips were asked for earlier.",
        "was booked for Samuel Grant (1005) at ",
        ": Fri, Mar 14, pickup",
    )
    same("the trips", before + 1, trips(at))


@check
def without_a_line_what_was_being_sent_outlives_a_reload(at: Place) -> None:
    signed_in(at)
    before = trips(at)
    with at.town.middle.gone():
        asks(at, "book", wish(1000))
        at.browser.sees(SIGN)
        at.browser.script("location.reload()")
    at.browser.sees(
        "These trips were asked for earlier.",
        "was booked for Samuel Grant (1005) at ",
        ": Fri, Mar 14, pickup",
    )
    same("the trips", before + 1, trips(at))


@check
def another_device_with_the_same_key_is_told_and_nothing_is_lost(at: Place) -> None:
    signed_in(at)
    at.town.number += 5000
    at.town.post("clerk", "/riders", {"id": 1011, "kind": "visitor", "attendant": False})
    asks(at, "putRider", {"id": 1012, "kind": "visitor", "attendant": False})
    same("the reply", {"value": {"done": True}}, replies(at)[0])
    at.browser.sees("Another window or device wrote with the same key")


@check
def notes_of_another_device_do_not_pile_up(at: Place) -> None:
    for number in [1013, 1014, 1015]:
        at.town.number += 50_000
        at.town.post("clerk", "/riders", {"id": 1011, "kind": "visitor", "attendant": False})
        asks(at, "putRider", {"id": number, "kind": "visitor", "attendant": False})
        replies(at)
    shown = at.browser.text().count("Another window or device wrote")
    same("the notes", 1, shown)


@check
def a_line_that_breaks_while_another_device_writes_says_that_nobody_knows(at: Place) -> None:
    signed_in(at)
    at.town.middle.breaks(LOST)
    asks(at, "putRider", {"id": 1016, "kind": "visitor", "attendant": False})
    at.town.number += 500_000
    at.town.post("clerk", "/riders", {"id": 1011, "kind": "visitor", "attendant": False})
    reply = replies(at)[0]
    holds(
        f"the reply is {reply}",
        reply.get("denied") == "desk.number" or reply == {"value": {"done": True}},
    )


@check
def two_windows_of_one_key_write_at_once_and_all_is_done_once(at: Place) -> None:
    signed_in(at)
    before = trips(at)
    kept = at.browser.script("return JSON.stringify({...sessionStorage})")
    with at.browser.second_window() as (first, second):
        at.browser.go()
        at.browser.script(
            "for (const [name, value] of Object.entries(JSON.parse(arguments[0]))) "
            "sessionStorage.setItem(name, value)",
            kept,
        )
        at.browser.go("#clerk")
        at.browser.signed_in()
        for number in range(3):
            asks(at, "book", wish(420 + 40 * number, day="2025-03-17"))
        first()
        for number in range(3):
            asks(at, "book", wish(720 + 40 * number, day="2025-03-17"))
        holds(
            "a reply is a denial", all("trip" in (it.get("value") or {}) for it in replies(at, 3))
        )
        second()
        holds(
            "a reply is a denial", all("trip" in (it.get("value") or {}) for it in replies(at, 3))
        )
    same("the trips", before + 6, trips(at))


OTHER_SIGNS_IN = """
const [key, done] = arguments;
import("/parts/desk.js").then(async (desk) => {
    desk.signOut();
    await desk.signIn(key);
}).then(done);
"""


@check
def a_write_that_waits_does_not_go_on_under_the_next_persons_key(at: Place) -> None:
    signed_in(at)
    before = trips(at)
    at.town.middle.breaks(LOST, times=1000)
    try:
        asks(at, "book", wish(1060))
        at.browser.sees(SIGN)
        at.browser.driver.execute_async_script(OTHER_SIGNS_IN, at.keys["second clerk"])
    finally:
        at.town.middle.planned.clear()
    same("the reply", {"denied": "left"}, replies(at)[0])
    same("the trips", before, trips(at))


@check
def a_slow_desk_leaves_the_page_usable(at: Place) -> None:
    signed_in(at)
    with at.town.middle.hold():
        at.browser.go("#clerk")
        at.browser.signed_in()
        pause(1)
        holds("the page is empty", len(at.browser.text()) > 100)
    at.browser.settled()
    at.browser.sees_no(SIGN)


@check
def who_signs_in_without_a_desk_is_signed_in_as_soon_as_it_answers(at: Place) -> None:
    at.browser.fresh()
    with at.town.middle.gone():
        at.browser.fill("Key", at.keys["clerk"])
        at.browser.choose_job("clerk")
        at.browser.press("Sign in")
        at.browser.sees(SIGN)
    at.browser.signed_in()


@check
def a_read_goes_on_by_itself_once_the_line_is_there_again(at: Place) -> None:
    signed_in(at)
    with at.browser.no_line(at.town):
        asks(at, "tripsOf", RIDER)
        at.browser.sees(SIGN)
    holds("no reply", "trips" in replies(at)[0]["value"])
    at.browser.sees_no(SIGN)


FULL_STORES = """Storage.prototype.setItem = () => { throw new DOMException("full", "QuotaExceededError"); };"""


@check
def a_browser_whose_stores_are_full_or_shut_still_works(at: Place) -> None:
    made = at.browser.devtools("Page.addScriptToEvaluateOnNewDocument", source=FULL_STORES)
    try:
        at.browser.fresh()
        signed_in(at)
        before = trips(at)
        for minute in (1000, 1040):
            asks(at, "book", wish(minute))
            reply = replies(at)[0]
            holds(f"the reply is {reply}", "trip" in (reply.get("value") or {}))
        same("the trips", before + 2, trips(at))
        at.browser.go_part("clerk", "trips")
        at.browser.fill("Find a rider", "1005")
        at.browser.press("Show")
        at.browser.sees("Trips of Samuel Grant (1005)")
    finally:
        at.browser.devtools(
            "Page.removeScriptToEvaluateOnNewDocument", identifier=made["identifier"]
        )
        at.browser.fresh()


@check
def numbers_of_writes_are_used_once(at: Place) -> None:
    signed_in(at)
    sent = []
    for entry in at.browser.driver.get_log("performance"):
        message = json.loads(entry["message"])["message"]
        request = (
            message["params"].get("request", {})
            if message["method"] == "Network.requestWillBeSent"
            else {}
        )
        if request.get("method") == "POST" and "Desk-Number" in request.get("headers", {}):
            sent.append((request["headers"]["Desk-Number"], request.get("postData")))
    holds("no write is seen", len(sent) > 5)
    bodies: dict[str, set[Any]] = {}
    for number, body in sent:
        bodies.setdefault(number, set()).add(body)
    same(
        "numbers of two writes", [], [number for number, those in bodies.items() if len(those) > 1]
    )


# What was sent while nobody could see the answer.

LISTED = """const it = document.querySelector(`[data-sent-list="${arguments[0] ?? 1005}"]`);
return [...(it?.querySelectorAll('li') ?? [])].map((it) => it.innerText.split("\\n")[0])"""


def asks_for_two_days(
    at: Place, day: str = "2025-03-19", further: str = "Thursday, March 20, 2025"
) -> None:
    """A clerk asks for a round trip on two days."""
    at.browser.fill_all(
        {"From": "town", "To": "hosp", "Day": day, "Pickup time": "9 am", "Return pickup": "2 pm"}
    )
    at.browser.fill(re.compile(f"^{further}"), True)
    at.browser.press(BOOK)


@check
def what_was_sent_while_the_clerk_took_the_next_call_is_listed(at: Place) -> None:
    begin(at, "1005", "clerk")
    before = trips(at)
    with at.town.middle.gone():
        asks_for_two_days(at)
        at.browser.sees(SIGN)
        at.browser.keys("/")
        at.browser.fill("Find a rider", "1006")
        at.browser.keys(Keys.ENTER)
        at.browser.find("button", re.compile("^Book the trip for Ana"))
    until("four trips", lambda: trips(at) == before + 4)
    at.browser.sees("These trips were asked for earlier. This is what came of them:")
    booked = sorted(it["trip"] for it in at.town.trips_of(RIDER))[-4:]
    for trip in booked:
        at.browser.sees(f"Trip {trip} was booked for Samuel Grant (1005) at ")
    at.browser.switch_to("es")
    at.browser.sees(f"El viaje {booked[0]} se reservó para Samuel Grant (1005) a l")
    at.browser.switch_to("en")
    at.browser.fill("Find a rider", "1005")
    at.browser.press("Show")
    at.browser.sees("Sent earlier: what came of it")
    same(
        "legs that are listed",
        [str(it) for it in booked],
        [matched(r"Trip (\d+)", it)[1] for it in at.browser.script(LISTED)],
    )
    same("legs that stand", 4, sum("It is booked now." in it for it in at.browser.script(LISTED)))
    at.town.post("third clerk", f"/trips/{booked[0]}/cancel", {})
    moved = at.town.post(
        "third clerk",
        f"/trips/{booked[1]}/change",
        {
            "day": "2025-03-19",
            "wish": 1000,
            "from": 2,
            "to": 1,
            "by": None,
            "attendant": False,
            "companions": 0,
        },
    )
    holds(f"it was moved: {moved}", "window_from" in moved)
    at.browser.keys("/", *"1005", Keys.ENTER)
    until(
        "what became of them since is not said",
        lambda: [
            bool(re.search(words, it))
            for words, it in zip(
                [
                    "It was canceled since[.]$",
                    "It was changed since: Wed, Mar 19, pickup ",
                    "It is booked now[.]$",
                    "It is booked now[.]$",
                ],
                at.browser.script(LISTED),
            )
        ]
        == [True] * 4,
    )
    at.browser.script("arguments[0].focus()", at.browser.find("button", "I have read this"))
    at.browser.keys(Keys.ENTER)
    at.browser.sees_no("Sent earlier: what came of it", "These trips were asked for earlier")
    at.browser.settled()
    holds(
        "the focus is on nothing",
        at.browser.script("return document.activeElement !== document.body"),
    )


@check
def a_denial_that_came_late_is_listed_with_its_reason(at: Place) -> None:
    begin(at, "1005", "clerk")
    with at.town.middle.gone():
        asks(at, "book", wish(600, **{"from": 1, "to": 4}))
        at.browser.sees(SIGN)
    at.browser.sees("Not booked for Samuel Grant (1005): Fri, Mar 14", "49 CFR 37.131")


@check
def a_reload_in_the_middle_of_four_legs_loses_none_silently(at: Place) -> None:
    begin(at, "1005", "clerk")
    before = trips(at)
    at.town.middle.breaks(LOST, times=1000)
    try:
        asks_for_two_days(at, "2025-03-21", "Saturday, March 22, 2025")
        at.browser.sees(SIGN)
        at.browser.script("location.reload()")
        at.browser.find("field", "Find a rider")
    finally:
        at.town.middle.planned.clear()
    until(
        "the list has four legs",
        lambda: len(at.browser.script(LISTED)) == 4
        and "Being" not in "".join(at.browser.script(LISTED)),
    )
    listed = at.browser.script(LISTED)
    holds(
        f"the first is {listed[0]}",
        listed[0].startswith("Trip ")
        and "was booked for Samuel Grant (1005) at" in listed[0]
        and ": Fri, Mar 21" in listed[0],
    )
    same(
        "the others",
        ["Not sent for Samuel Grant (1005)"] * 3,
        [it.split(":")[0] for it in listed[1:]],
    )
    same("trips at the desk", before + 1, trips(at))


LEFT = "You left before we could look for other trips at that time. What you typed is kept. Press Book."


def pressed_and_not_looked(at: Place, action: Callable[..., Any], part: Callable[..., Any]) -> None:
    """A button of the booking, and what the part is left by before the desk has answered the look at the rider's trips."""
    with at.town.middle.hold():
        at.browser.requests()
        action()
        until(
            "it is planned",
            lambda: '"planned"'
            in (at.browser.script("return sessionStorage.getItem('desk.sent')") or ""),
        )
        until(
            "the rider's trips are asked for",
            lambda: any(f"/riders/1003/trips" in it for it in at.browser.requests()),
        )
        part()
        at.town.middle.writes()
    at.browser.settled()
    same("what was sent", [], [it for it in at.town.middle.writes() if it.startswith("/trips")])


@check
def what_is_booked_and_left_within_a_second_is_said_not_to_be_sent(at: Place) -> None:
    begin(at, "1003", "clerk")
    before = trips(at, 1003)
    at.browser.fill_all(
        {
            "From": "town",
            "To": "hosp",
            "Day": "2025-03-18",
            "Pickup time": "9 am",
            "Return pickup": "2 pm",
        }
    )
    pressed_and_not_looked(
        at, lambda: at.browser.press(BOOK), lambda: at.browser.go_part("clerk", "file")
    )
    at.browser.sees(
        "These trips were asked for earlier.",
        "Not sent for Henry Park (1003): Tue, Mar 18, around 9:00 AM",
        LEFT,
    )
    at.browser.go_part("clerk", "trips")
    at.browser.sees("Sent earlier: what came of it")
    same(
        "what is listed",
        ["Not sent for Henry Park (1003)"] * 2,
        [it.split(":")[0] for it in at.browser.script(LISTED, "1003")],
    )
    same("what was typed", "9 am", at.browser.value("Pickup time"))
    at.browser.press(BOOK)
    at.browser.sees("2 trips are booked for Henry Park (1003)")
    at.browser.sees_no("Sent earlier: what came of it", LEFT)
    same("trips at the desk", before + 2, trips(at, 1003))


@check
def a_change_that_is_pressed_and_left_within_a_second_is_said_not_to_be_sent(at: Place) -> None:
    trip = at.town.book(1003, "2025-03-24", 600, 1, 2)
    begin(at, "1003", "clerk")
    at.browser.press(f"Change trip {trip} of Henry Park (1003)")
    whole = until(
        "the form", lambda: at.browser.script("return document.querySelector('.trips-card form')")
    )
    at.browser.fill("Pickup time", "2 pm", whole)
    pressed_and_not_looked(
        at,
        lambda: at.browser.press(f"Change trip {trip} of Henry Park (1003)", within=whole),
        lambda: at.browser.go_part("clerk", "file"),
    )
    at.browser.sees(
        f"The change of trip {trip} of Henry Park (1003) was not sent: Mon, Mar 24, around 2:00 PM",
        "Press Change.",
    )
    at.browser.go_part("clerk", "trips")
    at.browser.press(f"Change trip {trip} of Henry Park (1003)")
    whole = until(
        "the form", lambda: at.browser.script("return document.querySelector('.trips-card form')")
    )
    until(
        "what was typed is there",
        lambda: at.browser.script(
            "return document.querySelector('.trips-card form [name=wish]').value"
        )
        == "2 pm",
    )
    at.browser.press(f"Change trip {trip} of Henry Park (1003)", within=whole)
    at.browser.sees_no("was not sent")
    until(
        "the trip is changed",
        lambda: next(it for it in at.town.trips_of(1003) if it["trip"] == trip)["wish"] > 800,
    )


@check
def a_page_that_is_loaded_anew_before_the_rider_is_looked_at_says_so_and_a_no_says_nothing(
    at: Place,
) -> None:
    begin(at, "1003", "clerk")
    wish = {"From": "town", "To": "hosp", "Day": "2025-03-18", "Pickup time": "9 am"}
    at.browser.fill_all(wish)
    pressed_and_not_looked(
        at, lambda: at.browser.press(BOOK), lambda: at.browser.script("location.reload()")
    )
    at.browser.sees(
        "Not sent for Henry Park (1003): Tue, Mar 18, around 9:00 AM",
        "The page was loaded again before its turn.",
    )
    begin(at, "1003", "clerk")
    at.browser.fill_all(wish)
    at.browser.press(BOOK)
    at.browser.sees("has this trip already. Book it once more?")
    at.browser.press("No, go back")
    at.browser.reload()
    at.browser.find("button", BOOK)
    at.browser.settled()
    holds(
        "a no is told as not sent",
        at.browser.script(LISTED, "1003") == [] and "Not sent" not in at.browser.text(),
    )


@check
def a_form_that_waits_for_the_desk_says_so(at: Place) -> None:
    begin(at, "1003", "clerk")
    at.browser.fill_all({"From": "town", "To": "hosp", "Day": "2025-03-20", "Pickup time": "9 am"})
    with at.town.middle.hold():
        at.browser.press(BOOK)
        at.browser.sees("Waiting for the desk to answer…")
    at.browser.sees("is booked for Henry Park (1003)")
    at.browser.sees_no("Waiting for the desk to answer")


@check
def a_record_that_is_saved_and_left_within_a_second_is_said_not_to_be_saved(at: Place) -> None:
    at.browser.sign_in(at.keys["clerk"], "clerk", "rider")
    at.browser.fill_all({"Rider number": "1017", "Kind": "visitor"})
    for legend in [
        "May bring an attendant, who rides free",
        "Comes in a wheelchair, and takes a wheelchair place",
    ]:
        group = at.browser.script(
            "return [...document.querySelectorAll('fieldset')].find((it) => it.querySelector('legend').textContent === arguments[0])",
            legend,
        )
        at.browser.fill("No", True, group)
    with at.town.middle.hold():
        at.browser.requests()
        at.browser.press("Save the record")
        until(
            "the rider is asked for",
            lambda: any("/riders/1017/standing" in it for it in at.browser.requests()),
        )
        at.browser.go_part("clerk", "waits")
        at.town.middle.writes()
    at.browser.sees(
        "The record of rider 1017 was not saved: you left before we could look at what is on record. What you typed is kept. Save it again."
    )
    same("what was sent", [], at.town.middle.writes())
    at.browser.go_part("clerk", "rider")
    same("what was typed", "1017", at.browser.value("Rider number"))


# The agency's own files.


@check
def files_that_were_missed_are_asked_for_again(at: Place) -> None:
    at.browser.sign_in(at.keys["clerk"], "clerk", "trips")
    at.browser.keep_subjects()
    with at.town.middle.gone():
        at.browser.reload()
        at.browser.sees(SIGN)
    at.browser.sees("Trips of", "12 Oak Street")
    at.browser.fill("Find a rider", "")
    at.browser.find("field", "Find a rider").send_keys("alva")
    at.browser.find("option", re.compile("Rosa Álvarez"))


# The files of the pages.

FILES = [
    "/screens/admin-names.js",
    "/screens/admin.js",
    "/words/en/admin.js",
    "/parts/addresses.js",
    "/parts/main.js",
]
NOT_LOADED, NOT_DRAWN = "This screen could not be loaded", "This part could not be shown."
STYLED = "return [...document.querySelectorAll('link[rel=stylesheet]')].every((it) => it.sheet) && Boolean(document.querySelector('link[href=\"css/admin.css\"]'))"
NOTES = "window.notes = 0; new MutationObserver(() => { if (document.querySelector('main > [role=alert]')) window.notes += 1; }).observe(document.querySelector('main'), { childList: true })"


def opened(at: Place, screen: str = "admin") -> Any:
    """Signs in, and watches whether the screen is said not to come."""
    at.browser.fresh()
    at.browser.fill("Key", at.keys[screen])
    at.browser.script(NOTES)
    at.browser.choose_job(screen)
    at.browser.press("Sign in")
    at.browser.shown(screen)
    return at.browser.script("return window.notes")


@check
def a_file_that_the_site_refuses_once_is_asked_for_again(at: Place) -> None:
    for path in FILES:
        with given(at.town, path, refusals=1) as answers:
            same(f"how often {path} is said not to come", 0, opened(at))
            until(lambda: f"{path} is asked for {answers.asked} times", lambda: answers.asked >= 2)
            until("a style is missing", lambda: at.browser.script(STYLED))


# Files of the dispatcher's screen: what is asked for by name, what these take, and words.
OF_DISPATCHER = [
    "/screens/dispatcher.js",
    "/screens/dispatcher-day.js",
    "/parts/timeline.js",
    "/parts/delay.js",
    "/words/en/dispatcher.js",
]


@check
def a_line_that_is_cut_while_the_dispatchers_files_come_keeps_no_screen_away(at: Place) -> None:
    for path in OF_DISPATCHER:
        with given(at.town, path, is_cut=True, refusals=1) as answers:
            same(f"how often {path} is said not to come", 0, opened(at, "dispatcher"))
            at.browser.find("link", "Trips")
            until(lambda: f"{path} is asked for {answers.asked} times", lambda: answers.asked >= 2)
    at.browser.forget_errors()


@check
def a_file_that_takes_twelve_seconds_is_waited_for(at: Place) -> None:
    for path in ["/screens/admin.js", "/css/admin.css"]:
        with given(at.town, path, seconds=12) as answers:
            same(f"how often {path} is said not to come", 0, opened(at))
            same(f"how often {path} is asked for", 1, answers.asked)


@check
def another_key_waits_for_no_answer_to_the_first_one(at: Place) -> None:
    at.browser.fresh()
    at.browser.choose_job("clerk")
    at.browser.line(offline=True)
    try:
        at.browser.fill("Key", "23456789abcdefghijkmnpqrst")
        at.browser.press("Sign in")
        at.browser.sees("Waiting for the desk to answer")
        at.browser.fill("Key", at.keys["clerk"])
        at.browser.sees_no("Waiting for the desk to answer")
    finally:
        at.browser.line()
    at.browser.press("Sign in")
    at.browser.shown("clerk")
    at.browser.forget_errors()


@check
def a_screen_that_comes_late_says_that_it_is_still_loading(at: Place) -> None:
    with at.browser.clock(hurry=10), given(at.town, "/screens/admin.js", seconds=8):
        at.browser.fresh()
        at.browser.fill("Key", at.keys["admin"])
        at.browser.choose_job("admin")
        at.browser.press("Sign in")
        at.browser.sees("This screen is still loading. Nothing that you sent is lost.", "Try again")
        holds("the form to sign in stays", not at.browser.is_there("field", "Key"))
        until("the screen never comes", lambda: at.browser.is_shown("admin"))
        at.browser.sees_no("This screen is still loading.")


@check
def the_agencys_file_is_not_said_to_be_missing_where_the_pages_come_late(at: Place) -> None:
    with given(at.town, "/parts/main.js", seconds=7):
        at.browser.sign_in(at.keys["clerk"], "clerk")
        at.browser.reload()
        at.browser.shown("clerk")
        at.browser.sees("Example Town Transit", "Roster: ")
        holds(
            "a file that came is said to be missing",
            not re.search("agency.json|go by their numbers", at.browser.text()),
        )


@check
def a_style_that_does_not_come_at_all_leaves_its_screen_and_is_asked_for_again_at_the_next_part(
    at: Place,
) -> None:
    with given(at.town, "/css/admin.css", refusals=5) as answers:
        same("how often the screen is said not to come", 0, opened(at))
        until(lambda: f"it is asked for {answers.asked} times", lambda: answers.asked == 5)
        pause(0.5)
        holds("a style that was refused is there", not at.browser.script(STYLED))
        at.browser.go_part("admin", "places")
        until(
            lambda: f"it is asked for {answers.asked} times, and a style is missing",
            lambda: answers.asked == 6 and at.browser.script(STYLED),
        )
    at.browser.forget_errors()


@check
def a_screen_that_does_not_come_is_said_and_comes_by_itself(at: Place) -> None:
    with given(at.town, "/screens/admin.js", refusals=7):
        holds("nothing is said", opened(at) > 0)
        at.browser.sees_no(NOT_LOADED)
    at.browser.forget_errors()


@check
def a_screen_that_was_left_says_nothing_of_its_files(at: Place) -> None:
    with given(at.town, "/screens/admin.js", refusals=1000) as answers:
        at.browser.fresh()
        at.browser.fill("Key", at.keys["admin"])
        at.browser.choose_job("admin")
        at.browser.press("Sign in")
        until("the screen is asked for", lambda: answers.asked)
        at.browser.script("location.hash = '#rider'")
        at.browser.shown("rider")
        until("no try is the last one", lambda: answers.asked >= 5)
        pause(0.5)
        at.browser.sees_no(NOT_LOADED)
        at.browser.shown("rider")
    at.browser.forget_errors()


@check
def a_screen_that_cannot_be_drawn_says_so(at: Place) -> None:
    broken = 'export const admin = () => [{ id: "names", name: "Names", draw() { throw new Error("planned"); } }];\n'
    with given(at.town, "/screens/admin.js", content=broken):
        at.browser.fresh()
        at.browser.fill("Key", at.keys["admin"])
        at.browser.choose_job("admin")
        at.browser.press("Sign in")
        at.browser.sees(NOT_DRAWN)
        holds("the form to sign in stays", not at.browser.is_there("field", "Key"))
    at.browser.forget_errors()
