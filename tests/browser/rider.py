"""The rider's own pages: own trips, own places, two languages."""
import hashlib
import json
import re
from typing import Any

from selenium.webdriver.common.keys import Keys

from addresses import with_grouped_homes
from booking import BOOK, begin, last_trip, wish
from checks import Place, check, holds, same
from clerk import clock_of, late
from database import until
from people import TODAY, TOMORROW
from scripts import LOW, SAVED

VANS = 1


def sign_in(at: Place, rider: int, part: str, language: str = "en") -> None:
    at.browser.sign_in(
        at.keys[f"rider {rider}"],
        "rider",
        part,
        **({} if language == "en" else {"language": language}),
    )


def show(
    at: Place, number: int, words: str = "Your rider number", action: str = "Show my pages"
) -> None:
    at.browser.fill(words, str(number))
    at.browser.press(action)


def open_trip(at: Place, trip: int) -> None:
    """Opens the row of a trip; the next one is open by itself."""
    until(
        f"trip {trip} is not shown",
        lambda: at.browser.script(
            "return Boolean(document.querySelector(`[data-trip='${arguments[0]}']`))", trip
        ),
    )
    at.browser.script(
        "document.querySelector(`[data-trip='${arguments[0]}'] > details:not([open]) > summary`)?.click()",
        trip,
    )


def trips_ahead(at: Place) -> Any:
    """The trips that are shown as next or to come, in their order."""
    return at.browser.script(
        "return [...document.querySelectorAll('.next-trip, ul[aria-label=\"Upcoming\"] > li')].map((it) => Number(it.dataset.trip))"
    )


@check
def a_riders_own_pages_speak_to_the_rider_and_a_clerks_of_the_rider(at: Place) -> None:
    attendant = "Attendant (free)"
    sign_in(at, 1005, "book")
    show(at, 1005)
    wish(at, start="library", goal="senior", day="2025-03-14", wish="10 am")
    at.browser.fill(attendant, True)
    at.browser.press(BOOK)
    at.browser.sees(
        "an attendant only where your record names one.", "ask the agency to change your record"
    )
    at.town.book(1006, "2025-03-14", 600, 7, 9)
    sign_in(at, 1006, "book")
    show(at, 1006)
    wish(at, start="library", goal="senior", day="2025-03-14", wish="10 am")
    at.browser.press(BOOK)
    at.browser.sees("You have this trip already. Book it once more?")
    at.browser.press("Yes, book once more")
    at.browser.sees("is booked for rider 1006")
    for part in ["trips", "book", "standing", "letters"]:
        at.browser.go_part("rider", part)
        at.browser.settled()
        shown = at.browser.text()
        holds(
            f"{part} speaks of the rider: {shown}",
            not re.search(r"\b(the|this) rider\b(?! number)", shown, re.I),
        )
    begin(at, "1005", "clerk")
    wish(at, start="library", goal="senior", day="2025-03-14", wish="10 am")
    at.browser.fill(attendant, True)
    at.browser.press(BOOK)
    at.browser.sees("an attendant only where the rider's record names one.")


@check
def another_riders_number_is_told_in_the_riders_own_words(at: Place) -> None:
    sign_in(at, 1001, "trips")
    show(at, 1002)
    at.browser.sees(
        "This is not the number that your key is for.",
        "Look at the letter or card that brought your key",
    )
    at.browser.sees_no("Sign in with the key of the person whose work it is")
    folded = "return document.querySelector('details.folded').open"
    until("the field for the number opens", lambda: at.browser.script(folded))
    show(at, 1001)
    until("the field is folded away again", lambda: not at.browser.script(folded))


@check
def a_key_of_the_staff_is_said_to_be_no_riders_key(at: Place) -> None:
    for holder in ["admin", "examiner"]:
        at.browser.sign_in(at.keys[holder], "rider", "trips")
        show(at, 1002)
        at.browser.sees("This is not a rider’s key.")
        at.browser.sees_no("This is not the number that your key is for.")


@check
def own_places_have_names_and_others_are_not_offered(at: Place) -> None:
    sign_in(at, 1001, "book")
    show(at, 1001)
    at.browser.find("button", re.compile(r"^Book (the|[0-9]+) trip"))
    at.browser.find("field", "From").send_keys("oak")
    at.browser.find("option", re.compile("12 Oak Street"))
    for others in ["Willow", "shelter", "stop 12"]:
        at.browser.fill("To", others)
        holds(f"{others} is offered", not at.browser.is_there("option", re.compile(".")))


@check
def the_next_trip_is_first_and_cancelled_ones_are_apart(at: Place) -> None:
    at.town.book(1006, "2025-03-13", 600, 3, 7)
    trip = last_trip(at, 1006)["trip"]
    at.town.post("clerk", f"/trips/{trip}/cancel", {})
    sign_in(at, 1006, "trips")
    show(at, 1006)
    at.browser.sees("Your next trip", "Pickup window", "1 canceled")
    ahead = trips_ahead(at)
    holds(f"the cancelled trip is not among those to come: {ahead}", ahead and trip not in ahead)
    by_time = [
        it["trip"]
        for it in sorted(at.town.trips_of(1006), key=lambda it: (it["day"], it["window_from"]))
        if it["status"] == "booked" and it["day"] >= TODAY
    ]
    same("the trips in their order", by_time, ahead)
    largest = at.browser.script(
        """const size = (it) => parseFloat(getComputedStyle(it).fontSize);
        return [...document.querySelectorAll('main *')].filter((it) => it.checkVisibility() && it.innerText && !it.children.length).sort((a, b) => size(b) - size(a))[0].className"""
    )
    same("the largest line", "huge-time", largest)


@check
def the_calendar_file_has_the_street_when_to_be_there_and_what_was_canceled(at: Place) -> None:
    with_grouped_homes(at)
    kept, off = (at.town.book(1001, "2025-03-14", wish, 11, 7, by=wish + 90) for wish in (600, 840))
    at.town.post("clerk", f"/trips/{off}/cancel", {})
    sign_in(at, 1001, "trips")
    show(at, 1001)
    at.browser.sees("Your next trip", "10 Elm St")
    holds("no group of homes", "Area 11" not in at.browser.text())
    at.browser.script(SAVED)
    at.browser.press("Save my trips for my calendar")
    saved = until("no file is saved", lambda: at.browser.script("return window.saved[0]"))
    events = [
        it.split("END:VEVENT")[0]
        for it in bytes(saved).decode().replace("\r\n ", "").split("BEGIN:VEVENT")[1:]
    ]
    of = {
        number: next(it for it in events if f"UID:trip-{number}@" in it) for number in (kept, off)
    }
    for number, status in ((kept, "CONFIRMED"), (off, "CANCELLED")):
        holds(
            f"the event of trip {number}: {of[number]}",
            "LOCATION:10 Elm St\r\n" in of[number]
            and f"STATUS:{status}" in of[number]
            and re.search(r"\r\nSEQUENCE:\d{8}\r\n", of[number]) is not None,
        )
    holds(f"by when: {of[kept]}", "Be there by 11:30 AM." in of[kept])
    holds(
        f"that it is off: {of[off]}",
        "SUMMARY:Canceled: ride with" in of[off] and "save your trips again" not in of[off],
    )


@check
def who_chooses_where_to_by_an_arrow_goes_on_to_the_days_by_tab(at: Place) -> None:
    sign_in(at, 1001, "book")
    show(at, 1001)
    at.browser.find("button", re.compile(r"^Book (the|[0-9]+) trip"))
    at.browser.fill("From", "12 Oak Street")
    at.browser.find("field", "To").click()
    at.browser.sees("Where to? Your places:")
    at.browser.keys(Keys.ARROW_DOWN)
    at.browser.keys(Keys.TAB)
    holds("nothing was chosen", at.browser.value("To") != "")
    holds(
        f"the focus is at {at.browser.focused()}",
        at.browser.script("return Boolean(document.activeElement.closest('.day-grid'))"),
    )


@check
def a_trip_is_booked_again_from_its_card(at: Place) -> None:
    at.town.book(1006, "2025-03-14", 900, 7, 9)
    trip = last_trip(at, 1006)["trip"]
    sign_in(at, 1006, "trips")
    show(at, 1006)
    open_trip(at, trip)
    at.browser.press(f"Book trip {trip} again on another day")
    at.browser.find("button", re.compile(r"^Book (the|[0-9]+) trip"))
    at.browser.sees("Pickup time")
    # (what was said is not known here, so it begins with the window that was promised)
    same("the wish", "2:00 PM", at.browser.value("Pickup time"))


@check
def the_pages_are_spanish_for_who_reads_spanish(at: Place) -> None:
    sign_in(at, 1001, "trips")
    at.browser.switch_to("es")
    at.browser.sees(
        "Mis viajes", "Viajes", "Reservar", "¿Puedo viajar?", "Cartas", "Llamar", "Salir"
    )
    same(
        "the language of the page", "es", at.browser.script("return document.documentElement.lang")
    )
    show(at, 1001, "Su número de pasajero", "Mostrar mis páginas")
    at.browser.sees(
        "Su próximo viaje",
        "Mañana, martes 11 de marzo",
        "Horario de recogida",
        "El conductor espera 5 minutos.",
    )
    at.browser.press("Reservar un viaje", "link")
    at.browser.sees(
        "Reservar un viaje para el pasajero 1001", "Hora de recogida", "Recogida de regreso"
    )
    at.browser.switch_to("en")
    at.browser.sees("Pickup time")


@check
def a_trip_on_a_closed_day_warns_the_rider_and_the_clerk(at: Place) -> None:
    right, day = at.town.file("agency.json"), "2025-03-17"
    at.town.book(1006, day, 600, 3, 7)
    trip = last_trip(at, 1006)["trip"]
    at.town.write_file(
        "agency.json",
        json.dumps(
            {**json.loads(right), "closed": [{"day": day, "name": "Founders Day"}]}
        ).encode(),
    )
    try:
        sign_in(at, 1006, "trips")
        show(at, 1006)
        at.browser.sees("Closed that day: Founders Day. The agency will call you.")
        at.browser.switch_to("es")
        at.browser.sees("Ese día no hay servicio: Founders Day. La agencia le llamará.")
        at.browser.switch_to("en")
        begin(at, "1006")
        at.browser.sees("Closed that day: Founders Day. Call the rider.")
        rows = at.browser.script(
            "return [...document.querySelectorAll('.trips tbody tr')].filter((it) => it.querySelector('.closed-day')).map((it) => it.innerText)"
        )
        holds(f"trip {trip} alone is warned of: {rows}", len(rows) == 1 and str(trip) in rows[0])
    finally:
        at.town.write_file("agency.json", right)
        at.town.post("clerk", f"/trips/{trip}/cancel", {})


@check
def a_rider_cancels_and_is_told_there(at: Place) -> None:
    trip = min(it["trip"] for it in at.town.trips_of(1005) if it["day"] == TOMORROW)
    sign_in(at, 1005, "trips")
    show(at, 1005)
    open_trip(at, trip)
    at.browser.press(f"Cancel trip {trip} of rider 1005")
    at.browser.press(f"Yes, cancel trip {trip}")
    at.browser.sees(f"Trip {trip} of rider 1005 is canceled.")
    same("the focus", f"answer-{trip}", at.browser.script("return document.activeElement.id"))


@check
def a_late_van_is_not_forgotten_and_says_whom_to_call(at: Place) -> None:
    with late(at, 1003) as (_, minute), at.browser.screen(390, 844, mobile=True):
        at.town.write_file("staff/today.json", "{}")
        sign_in(at, 1003, "trips")
        show(at, 1003)
        at.browser.sees(
            "Today",
            "Your pickup window is over",
            "This page can’t see where Van 1, blue is. If you’re waiting, please stay where you are.",
            "A late van never counts against you.",
        )
        same(
            "whom to call",
            "tel:5550100",
            at.browser.find("link", "Call 555-0100").get_attribute("href"),
        )
        window = at.browser.script(
            "return document.querySelector('[data-trip] .window strong').innerText"
        )
        holds(f"the window is {window}", clock_of(minute - 2) in window)
        same("what can be moved sideways", 0, at.browser.sideways()[0])
        low = at.browser.script(
            """return [...document.querySelectorAll('main :is(button, summary, a)')].filter((it) => it.checkVisibility())
            .map((it) => it.getBoundingClientRect().height).filter((it) => it < 44)"""
        )
        same("buttons that are too low for a finger", [], low)


@check
def a_trip_that_is_cancelled_elsewhere_goes_from_the_open_page(at: Place) -> None:
    trip = at.town.book(1006, "2025-03-15", 600, 3, 7)
    sign_in(at, 1006, "trips")
    show(at, 1006)
    open_trip(at, trip)
    at.browser.find("button", f"Cancel trip {trip} of rider 1006")
    at.town.post("clerk", f"/trips/{trip}/cancel", {})
    at.browser.script("window.dispatchEvent(new Event('focus'))")
    until("it is still shown", lambda: trip not in trips_ahead(at))
    until(
        "nobody says so",
        lambda: at.browser.script("return document.getElementById('said').textContent")
        == f"Trip {trip} was canceled.",
    )
    holds(
        "it is still offered",
        not at.browser.is_there("button", f"Cancel trip {trip} of rider 1006"),
    )


# Appeals.


@check
def an_appeal_that_is_filed_is_known_after_a_reload_and_signing_in_again(at: Place) -> None:
    at.town.post(
        "examiner",
        "/riders/1009/entries",
        {"entry": "refuse", "reasons": "lives by the stop, walks well"},
    )
    sign_in(at, 1009, "letters")
    show(at, 1009)
    at.browser.sees("If you have appealed already, you need not appeal again.")
    at.browser.press("Appeal this decision (letter 1)")
    at.browser.press("Yes, appeal")
    at.browser.sees("We have your appeal.", "We have your appeal of Monday, March 10, 2025.")
    at.browser.reload()
    at.browser.sees("We have your appeal of Monday, March 10, 2025. You need not appeal again.")
    holds(
        "it is offered again",
        not at.browser.is_there("button", re.compile("^Appeal this decision")),
    )
    at.browser.press("Sign out")
    kept = at.browser.script("return JSON.stringify({ ...localStorage })")
    holds(f"who appealed is kept: {kept}", "1009" not in kept.replace(at.keys["rider 1009"], ""))
    sign_in(at, 1009, "letters")
    show(at, 1009)
    at.browser.sees("We have your appeal of Monday, March 10, 2025.")


@check
def a_second_appeal_from_another_browser_is_denied_in_fitting_words(at: Place) -> None:
    at.browser.fresh()
    sign_in(at, 1009, "letters")
    show(at, 1009)
    at.browser.press("Appeal this decision (letter 1)")
    at.browser.press("Yes, appeal")
    at.browser.sees("We already have your appeal. You need not appeal again.")


# A home that two riders share.


@check
def each_rider_of_a_shared_home_is_offered_it_and_reads_no_drivers_note(at: Place) -> None:
    from people import PLACES, agency_file

    places = [
        {**it, "private": [1001, 1005]} if it["id"] == 11 else it for it in agency_file(1)["places"]
    ]
    at.town.write_files(places=places)
    try:
        for rider in (1001, 1005):
            sign_in(at, rider, "book")
            show(at, rider)
            at.browser.find("button", re.compile(r"^Book (the|[0-9]+) trip"))
            at.browser.press("From", "field")
            at.browser.find("option", "12 Oak Street (11)")
            first = at.browser.script("return document.querySelector('[role=option]').innerText")
            same(f"the first place of {rider}", "12 Oak Street (11)", first.strip())
            notes = [note for _, _, note, *_ in PLACES if note]
            shown = at.browser.script("return document.body.textContent")
            same("drivers' notes that are shown", [], [it for it in notes if it in shown])
    finally:
        at.town.write_files()


# Staying signed in, on a phone of one's own.

STAY, STAYS = "Stay signed in on this phone or computer", "This browser keeps your key"
PHONE: dict[str, Any] = {"width": 390, "height": 844, "mobile": True}


def kept(at: Place) -> Any:
    return at.browser.script("return JSON.stringify({ ...localStorage })")


def sign_in_to_stay(at: Place, holder: str, rider: int) -> None:
    at.browser.fresh()
    at.browser.fill("Key", at.keys[holder])
    at.browser.choose_job("rider")
    holds("it is ticked already", not at.browser.find("field", STAY).is_selected())
    at.browser.fill(STAY, True)
    at.browser.press("Sign in")
    at.browser.find("button", "Sign out")
    show(at, rider)


def opens_anew(at: Place) -> None:
    """The browser's window is closed, and another one is opened: it keeps nothing but what the browser keeps."""
    at.browser.driver.get(f"{at.town.origin}/icon.svg")
    at.browser.script("sessionStorage.clear()")
    at.browser.go()


@check
def a_rider_who_wants_it_stays_signed_in_until_signing_out(at: Place) -> None:
    sign_in_to_stay(at, "rider 1005", 1005)
    at.browser.sees(STAYS)
    holds("the key is not kept", at.keys["rider 1005"] in kept(at))
    opens_anew(at)
    at.browser.sees("Pickup window", STAYS)
    at.browser.press("Sign out")
    at.browser.find("button", "Sign in")
    holds(f"the key stays after signing out: {kept(at)}", at.keys["rider 1005"] not in kept(at))
    opens_anew(at)
    at.browser.find("button", "Sign in")


@check
def a_rider_who_does_not_want_it_and_staff_do_not_stay(at: Place) -> None:
    at.browser.fresh()
    sign_in(at, 1005, "trips")
    show(at, 1005)
    at.browser.sees("Pickup window")
    at.browser.sees_no(STAYS)
    holds("a key is kept that nobody wanted kept", at.keys["rider 1005"] not in kept(at))
    for holder in ["clerk", "dispatcher", "examiner", "officer", "admin", "driver 1"]:
        sign_in_to_stay(at, holder, 1005)
        at.browser.settled(1000)
        at.browser.sees_no(STAYS)
        holds(f"the key of {holder} is kept", at.keys[holder] not in kept(at))
    at.browser.fresh()
    at.browser.find("button", "Sign in")
    at.browser.choose_job("clerk")
    holds("staff are asked whether to stay", not at.browser.all("field", STAY))


@check
def a_key_that_was_replaced_is_kept_no_longer(at: Place) -> None:
    sign_in_to_stay(at, "rider 1006", 1006)
    at.browser.sees(STAYS)
    put = {"id": 1006, "role": "rider", "subject": 1006}
    at.town.post("admin", "/callers", {**put, "digest": hashlib.sha256(b"another").hexdigest()})
    try:
        opens_anew(at)
        at.browser.find("button", "Sign in")
        at.browser.sees("This key is no longer valid")
        holds("the dead key is kept", at.keys["rider 1006"] not in kept(at))
    finally:
        at.town.post(
            "admin",
            "/callers",
            {**put, "digest": hashlib.sha256(at.keys["rider 1006"].encode()).hexdigest()},
        )
    at.browser.fresh()


@check
def who_signs_out_in_one_window_is_signed_out_in_the_other(at: Place) -> None:
    sign_in_to_stay(at, "rider 1005", 1005)
    at.browser.sees(STAYS)
    with at.browser.second_window() as (first, second):
        at.browser.go()
        at.browser.sees("Pickup window", STAYS)
        first()
        at.browser.press("Sign out")
        at.browser.find("button", "Sign in")
        second()
        at.browser.find("button", "Sign in")
        at.browser.sees_no("Pickup window")
        same(
            "the key in this window",
            None,
            at.browser.script("return sessionStorage.getItem('desk.key')"),
        )
        holds("the key is kept", at.keys["rider 1005"] not in kept(at))


@check
def another_rider_who_stays_takes_the_place_of_the_first_in_each_window(at: Place) -> None:
    at.browser.fresh()
    with at.browser.second_window() as (first, second):
        at.browser.go()
        at.browser.find("button", "Sign in")
        first()
        sign_in_to_stay(at, "rider 1005", 1005)
        at.browser.sees(STAYS)
        second()
        # (it was opened before, so it still asks for a key)
        at.browser.fill("Key", at.keys["rider 1006"])
        at.browser.choose_job("rider")
        at.browser.fill(STAY, True)
        at.browser.press("Sign in")
        show(at, 1006)
        at.browser.sees(STAYS)
        same(
            "whose keys are kept",
            [False, True],
            [at.keys[f"rider {it}"] in kept(at) for it in (1005, 1006)],
        )
        first()
        at.browser.find("button", "Sign in")
        at.browser.sees_no("Pickup window")
        second()
        at.browser.press("Sign out")
        at.browser.find("button", "Sign in")
        same(
            "whose keys are kept",
            [False, False],
            [at.keys[f"rider {it}"] in kept(at) for it in (1005, 1006)],
        )


# A window that hears nothing of what other windows keep, as one that the phone has put to sleep.
DEAF = """window.addEventListener("storage", (event) => event.stopImmediatePropagation(), true);
document.addEventListener("visibilitychange", (event) => event.stopImmediatePropagation(), true);"""
# Another window signs out while this one's database does not answer: what is shown before anything is waited for.
SHOWN_AT_ONCE = """indexedDB.constructor.prototype.open = () => ({});
localStorage.removeItem("desk.stay");
window.dispatchEvent(new Event("storage"));
return document.querySelector("main").innerText + document.getElementById("notes").innerText"""


def key_here(at: Place) -> Any:
    """The key that this window keeps."""
    return at.browser.script("return sessionStorage.getItem('desk.key')")


def is_away(at: Place) -> None:
    """The window shows no page of the site: it hears nothing, and keeps what it has."""
    at.browser.driver.get(f"{at.town.origin}/icon.svg")


@check
def a_window_that_slept_through_a_sign_out_shows_nobody_once_it_is_loaded_again(at: Place) -> None:
    for other in [None, 1006]:
        sign_in_to_stay(at, "rider 1005", 1005)
        at.browser.sees(STAYS)
        with at.browser.second_window() as (first, second):
            at.browser.go()
            at.browser.sees("Pickup window", STAYS)
            is_away(at)
            first()
            at.browser.press("Sign out")
            at.browser.find("button", "Sign in")
            if other:
                at.browser.fill("Key", at.keys[f"rider {other}"])
                at.browser.choose_job("rider")
                at.browser.fill(STAY, True)
                at.browser.press("Sign in")
                show(at, other)
                at.browser.sees(STAYS)
            second()
            for _ in range(2):
                at.browser.go()
                at.browser.find("button", "Sign in")
                at.browser.sees_no("Pickup window", "1005")
                same("the key in this window", None, key_here(at))
            if other:
                at.browser.sees(f"Rider {other} stays signed in")
                at.browser.press(f"Go on as rider {other}")
                at.browser.sees(STAYS)
                same("the key in this window", at.keys[f"rider {other}"], key_here(at))
                at.browser.press("Sign out")
                at.browser.find("button", "Sign in")
    at.browser.fresh()


@check
def a_button_that_names_a_rider_never_shows_another_ones_trips(at: Place) -> None:
    at.browser.fresh()
    sign_in_to_stay(at, "rider 1005", 1005)
    at.browser.sees(STAYS)
    with at.browser.second_window() as (first, second):
        made = at.browser.devtools("Page.addScriptToEvaluateOnNewDocument", source=DEAF)
        try:
            # (whose rider was signed out in another window: it asks before it shows who stays)
            is_away(at)
            at.browser.script("sessionStorage.setItem('desk.stay-ended', 'yes')")
            at.browser.go()
            at.browser.find("button", "Go on as rider 1005")
            first()
            at.browser.press("Sign out")
            at.browser.find("button", "Sign in")
            at.browser.fill("Key", at.keys["rider 1006"])
            at.browser.choose_job("rider")
            at.browser.fill(STAY, True)
            at.browser.press("Sign in")
            show(at, 1006)
            at.browser.sees(STAYS)
            second()
            at.browser.press("Go on as rider 1005")
            at.browser.sees("Rider 1006 stays signed in")
            at.browser.find("button", "Go on as rider 1006")
            same("the key in this window", None, key_here(at))
        finally:
            at.browser.devtools(
                "Page.removeScriptToEvaluateOnNewDocument", identifier=made["identifier"]
            )
    at.browser.fresh()


@check
def who_signs_in_where_the_same_rider_stays_is_signed_out_with_that_rider(at: Place) -> None:
    at.browser.fresh()
    with at.browser.second_window() as (first, second):
        at.browser.go()
        at.browser.find("button", "Sign in")
        first()
        sign_in_to_stay(at, "rider 1005", 1005)
        at.browser.sees(STAYS)
        second()
        # (without the tick: but the browser has this key, and the page says that it keeps it)
        at.browser.fill("Key", at.keys["rider 1005"])
        at.browser.choose_job("rider")
        at.browser.press("Sign in")
        at.browser.sees("Pickup window", STAYS)
        first()
        at.browser.press("Sign out")
        at.browser.find("button", "Sign in")
        second()
        at.browser.find("button", "Sign in")
        at.browser.sees_no("Pickup window")
        same("the key in this window", None, key_here(at))
    at.browser.fresh()


@check
def nothing_stays_in_sight_while_a_window_forgets(at: Place) -> None:
    sign_in_to_stay(at, "rider 1005", 1005)
    at.browser.sees("Pickup window", STAYS)
    same("what is in sight", "", at.browser.script(SHOWN_AT_ONCE).strip())
    at.browser.find("button", "Sign in")
    at.browser.fresh()


@check
def a_number_of_somebody_else_keeps_no_key(at: Place) -> None:
    sign_in_to_stay(at, "rider 1005", 1006)
    at.browser.sees("This is not the number that your key is for.")
    at.browser.settled(1000)
    at.browser.sees_no(STAYS)
    holds("a key is kept", at.keys["rider 1005"] not in kept(at))


@check
def a_browser_without_room_keeps_no_key_and_does_not_say_so(at: Place) -> None:
    at.browser.fresh()
    made = at.browser.devtools(
        "Page.addScriptToEvaluateOnNewDocument",
        source="""const real = Storage.prototype.setItem;
        Storage.prototype.setItem = function setItem(name, value) { if (this === localStorage && name === "desk.stay") throw new DOMException("full", "QuotaExceededError"); real.call(this, name, value); };""",
    )
    try:
        sign_in_to_stay(at, "rider 1005", 1005)
        at.browser.sees("Pickup window")
        at.browser.settled(1000)
        at.browser.sees_no(STAYS)
        opens_anew(at)
        at.browser.find("button", "Sign in")
    finally:
        at.browser.devtools(
            "Page.removeScriptToEvaluateOnNewDocument", identifier=made["identifier"]
        )


@check
def a_key_that_was_typed_wrong_says_what_is_wrong_at_the_key(at: Place) -> None:
    at.browser.fresh()
    key = at.keys["rider 1005"]
    for typed, wanted in [
        (key[:18], "We don't recognize this key. It is too short: 18 of 26 characters."),
        (key + "4", "We don't recognize this key. It is too long: 27 characters"),
        ("o" + key[1:], "We don't recognize this key. Check this in it: o."),
        ("rider-104-m03s-pft3", "We don't recognize this key. Type it again"),
        ("x" * 250, "a key has at most 200 characters"),
        ("ключ", "letters of other alphabets"),
    ]:
        at.browser.fill("Key", typed)
        at.browser.press("Sign in")
        at.browser.sees(wanted)
        same("the focus", "key", at.browser.script("return document.activeElement.name"))
        told = at.browser.script(
            """const it = document.activeElement, by = it.getAttribute('aria-describedby') ?? '';
            return by.split(' ').map((id) => document.getElementById(id)?.textContent ?? '').join(' ')"""
        )
        holds(f"it is told at the key: {told}", wanted in told)


# The phone.


@check
def everything_that_is_tapped_on_a_riders_phone_is_as_high_as_a_finger(at: Place) -> None:
    found = {}
    with at.browser.screen(**PHONE):
        at.browser.fresh()
        at.browser.find("button", "Sign in")
        found["signing in"] = at.browser.script(LOW)
        for address in at.browser.each_part(at.keys["rider 1001"], "rider"):
            found[address] = at.browser.script(LOW)
    same("what is lower than 44 pixels", {}, {part: low for part, low in found.items() if low})


@check
def the_next_pickup_is_the_first_sight_of_a_riders_phone(at: Place) -> None:
    with at.browser.screen(**PHONE):
        sign_in(at, 1003, "trips")
        show(at, 1003)
        at.browser.sees("Pickup window")
        at.browser.script("window.scrollTo(0, 0)")
        top, bottom, height = at.browser.script(
            """const it = document.querySelector('.next-trip').getBoundingClientRect();
            return [it.top, it.bottom, innerHeight]"""
        )
        holds(
            f"the next trip is from {top} to {bottom} of {height}",
            0 < top < height / 2 and bottom <= height,
        )
