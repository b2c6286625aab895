"""Walks: windows with somebody at each, one act after another, and what has to hold after each of them."""

import contextlib
import datetime
import os
import random
import re
import time
from collections.abc import Callable
from dataclasses import dataclass
from typing import Any

import people
from browser import Browser
from database import Trouble
from middle import CROWDED, HALF, LOST, NO_MEMORY, NO_STORE, NONSENSE, UNHEARD
from selenium.common.exceptions import WebDriverException

from walk_parts import acts, asked, case_holding, invariants, shown, speech
from walk_parts.acts import Act, Task
from walk_parts.ledger import Ledger, Permit, Write
from walk_parts.page import Control, Look, Page
from walk_parts.report import Report
from walk_parts.towns import WalkTown
from walk_parts.words import Words

# Seconds after which a comparison counts, after which a list has to know what another device wrote, and a new day.
PATIENCE, OUTSIDE, NEW_DAY = 10.0, 42.0, 55.0
# Seconds by which the clock of a page goes on then, so that it reads again by itself at once.
HALF_A_MINUTE = 31
# The hour from which on the next thing that the clock does is to pass midnight; and so many windows.
LATE, MOST_WINDOWS = 20, 3
# How often somebody who looked at another role's screen goes back to the own one.
RETURNS = 0.3
# How much more often the one thing is done that is mostly done.
MOSTLY = 10
# Steps after which a walk that ends at its first breach holds what was counted against the log.
OFTEN = 40
# Steps after which the browser's console is read.
READ = 4
BREAKS = [LOST, UNHEARD, HALF, NO_MEMORY, NO_STORE, NONSENSE, CROWDED]
RARE = ("suspended", "suspension appealed", "conditional", "presumed", "temporary")
NO_ANSWERS = ("common.no-go-back", "common.no")
IGNORED = (r"favicon", r"Failed to load resource", r"net::ERR", r"service-worker|ServiceWorker")


@dataclass
class Window:
    """A window, who sits at it and what that person has in mind."""

    handle: str
    holder: str
    role: str
    task: Task | None = None


class Walker:
    """The walk of one seed."""

    def __init__(
        self,
        town: WalkTown,
        browser: Browser,
        words: Words,
        report: Report,
        roles: list[str],
        does: str = "",
    ) -> None:
        self.town, self.browser, self.words, self.report, self.roles = (
            town,
            browser,
            words,
            report,
            roles,
        )
        self.page, self.ledger, self.number, self.does = Page(browser), Ledger(), 0, does
        self.choice = random.Random(report.seed)
        self.recorded, self.offline, self.grace = 0, 0, 0.0
        self.stale: dict[int, float] = {}
        self.windows: list[Window] = []
        self.here: Window
        self.look: Look
        self.before: Look
        self.foreign = {it: words.foreign_to(it) for it in ("en", "es")}
        self.places = {number: name for number, name, *_ in people.PLACES}
        self.names = shown.Names(
            {number: name for number, name, _, _, _, private in people.PLACES if not private}
        )
        self.parts: set[str] = set()
        self.expected: dict[str, tuple[str, float]] = {}
        self.confirmed: tuple[Permit, int, str] | None = None
        self.entry: tuple[str, int] | None = None
        self.entered: tuple[Permit, int, str] | None = None
        self.in_part: set[int] = set()

    # Who and where.

    def some_rider(self) -> tuple[int, str, str]:
        """A rider's number, name and telephone; seldom nobody's."""
        if self.choice.random() < 0.03:
            return 4000 + self.choice.randrange(10), "Nobody Known", "999-0000"
        if self.choice.random() < 0.3:
            rider = self.choice.choice(people.RIDERS)
            return rider[0], rider[1], rider[2]
        rare = [it for it in self.town.riders if it.standing in RARE]
        person = self.choice.choice(rare if self.choice.random() < 0.4 else self.town.riders)
        return person.number, person.name, person.telephone

    def place_name(self, place: int) -> str:
        """The name of a place, as staff know it."""
        return self.places[place]

    def some_places(self) -> tuple[int, int]:
        """Where somebody goes from and to; the rider's home often."""
        public = [1, 2, 3, 6, 7, 8, 9, 4]
        home = next((it.home for it in self.town.riders if it.number == self.look.subject), None)
        start = home if home and self.choice.random() < 0.5 else self.choice.choice(public)
        end = self.choice.choice(
            public if self.choice.random() < 0.05 else [it for it in public if it != start]
        )
        return (start, end) if self.choice.random() < 0.6 else (end, start)

    def holder_for(self, role: str) -> str:
        """Whose key a window of this role has."""
        if role == "rider":
            may = [
                it.number
                for it in self.town.riders
                if it.standing
                in (
                    "always",
                    "presumed",
                    "temporary",
                    "suspended",
                    "refused sixty",
                    "conditional",
                    "refused",
                )
            ]
            return f"rider {self.choice.choice(may)}"
        return self.choice.choice(
            {
                "clerk": ["clerk", "second clerk"],
                "dispatcher": ["dispatcher"],
                "driver": ["driver 1"],
                "examiner": ["examiner"],
                "officer": ["officer", "second officer"],
                "admin": ["admin"],
            }[role]
        )

    def open_window(self, role: str) -> None:
        """A window with somebody who signs in."""
        if self.windows:
            self.browser.driver.switch_to.new_window("tab")
        # (a dialog of printing would hold the window)
        self.browser.devtools(
            "Page.addScriptToEvaluateOnNewDocument", source="window.print = () => {};"
        )
        holder = self.holder_for(role)
        self.here = Window(self.browser.driver.current_window_handle, holder, role)
        self.windows.append(self.here)
        self.sign_in()

    def sign_in(self) -> None:
        """Signs this window in."""
        language = "es" if self.choice.random() < 0.2 else "en"
        self.browser.driver.get(f"{self.town.origin}/icon.svg")
        self.browser.script("localStorage.setItem('desk.language', arguments[0])", language)
        self.browser.sign_in(self.town.keys[self.here.holder], self.here.role, language=language)
        if self.here.role == "rider" and self.choice.random() < 0.9:
            self.browser.script(
                "sessionStorage.setItem('desk.subject.rider', arguments[0])",
                self.here.holder.split()[1],
            )
            self.browser.reload()
        self.here.task, self.confirmed = None, None
        self.look = self.page.still()
        self.note_parts()

    def note_parts(self) -> None:
        """The names of the parts of this screen."""
        self.parts = set(
            self.browser.script(
                "return [...document.querySelectorAll('#parts a')].map((it) => it.textContent.replace(/\\s+/g, ' ').trim())"
            )
        )

    def go_to(self, window: Window) -> None:
        """Another window comes to the front."""
        self.browser.driver.switch_to.window(window.handle)
        with contextlib.suppress(WebDriverException):
            self.browser.devtools("Page.bringToFront")
        self.here = window
        self.look = self.page.still()
        self.note_parts()

    # What is done next.

    def is_shunned(self, control: Control) -> bool:
        """What a curious person leaves alone, so that the walk goes on: signing out, downloads, printing, other screens."""
        name = control.name.lower()
        return (
            any(
                it in name
                for it in (
                    "sign out",
                    "salir",
                    "skip to",
                    "saltar",
                    "print",
                    "imprim",
                    "csv",
                    "save",
                    "guardar",
                    "tel:",
                )
            )
            or (control.kind == "link" and control.name not in self.parts)
            or (self.here.role == "admin" and control.submits)
        )

    def tasks(self) -> list[tuple[float, Callable[["Walker"], Task]]]:
        """What somebody of this role does, with weights."""
        from walk_parts import roles

        return [
            (weight * (MOSTLY if made.__name__ == self.does else 1), made)
            for weight, made in roles.TASKS[self.here.role]
        ]

    def next_act(self) -> Act:
        """One act: an answer where something is asked, else what somebody has in mind, or something unexpected."""
        if self.look.dialog:
            return self.answer_dialog(0.75)
        if not self.look.signed_in:
            return Act("signs in", self.sign_in)
        if self.number % 13 == 0 and (event := self.next_role() or self.world()):
            return event
        if self.number % 13 == 6 and len(self.windows) > 1 and self.choice.random() < 0.6:
            return self.another_window()
        if self.choice.random() < 0.06:
            for act in acts.anything(self):
                return act
        if self.choice.random() < RETURNS and (home := acts.home(self)):
            self.here.task = None
            return home
        for _ in range(12):
            if self.here.task is None:
                weights = self.tasks()
                made = self.choice.choices(
                    [it for _, it in weights], [weight for weight, _ in weights]
                )[0]
                self.here.task = made(self)
            found: Act | None = next(self.here.task, None)
            if found:
                return found
            self.here.task = None
        return acts.keys(self, "/")

    def answer_dialog(self, yes: float) -> Act:
        """Answers a question: mostly with what goes on."""
        buttons = [it for it in self.look.of("button") if not it.off]
        stays = [
            it for it in buttons if any(self.words.is_text(it.name, key) for key in NO_ANSWERS)
        ]
        goes = [it for it in buttons if it not in stays] or buttons
        if not buttons:
            return acts.keys(self, "\ue00c")
        if self.choice.random() < yes or not stays:
            return acts.press(self, self.choice.choice(goes))
        if self.choice.random() < 0.3:
            key = self.town.keys[self.here.holder]

            def escape() -> None:
                self.answered_no(key)
                self.page.keys("\ue00c")

            return Act("Escape", escape, True)
        return acts.press(self, stays[0])

    # Permits.

    def answered_no(self, key: str) -> None:
        """A question is answered no: what it was about may not be done. Whether to cancel a trip is asked before
        anything is sent, so a form that was sent before goes on."""
        if all(
            self.number_in(it.name, "booking.cancel-yes") is None for it in self.look.of("button")
        ):
            self.ledger.revoke_armed(key)

    def before_press(self, control: Control) -> None:
        """What is confirmed by this press."""
        key, name, step = self.town.keys[self.here.holder], control.name, self.number
        words = self.words
        if self.look.dialog:
            if any(words.is_text(name, it) for it in NO_ANSWERS):
                self.answered_no(key)
                self.entry = None
                return
            if case_holding.is_yes(self, name):
                case_holding.confirm(self)
                return
            if found := self.number_in(name, "booking.cancel-yes"):
                self.ledger.give(Permit("cancel", key, step, trip=found))
            elif (
                words.is_text(name, "booking.same-yes")
                or words.is_text(name, "booking.all-the-same")
                or words.is_text(name, "booking.change-yes")
            ):
                for permit in [it for it in self.ledger.permits if it.armed and it.key == key][-1:]:
                    permit.same = True
            else:
                self.ledger.give(
                    Permit(
                        "form",
                        key,
                        step,
                        path=r"/riders|/trips/\d+/outcome|/vehicles|/callers|/trips/\d+/(change|cancel)",
                    )
                )
            return
        case_holding.before_entry(self, name)
        if control.submits and words.is_text(name, "booking.book"):
            self.confirm(self.booking(key))
        elif control.submits and (found := self.number_in(name, "booking.change-of")):
            self.confirm(
                Permit("change", key, step, rider=self.look.subject, trip=found, armed=True)
            )
        elif found := self.number_in(name, "booking.offer-no"):
            self.ledger.give(Permit("cancel", key, step, trip=found))
        elif found := self.number_in(name, "booking.offer-back"):
            self.ledger.give(Permit("change", key, step, trip=found))
        elif any(
            words.is_text(name, it)
            for it in ("booking.try-either", "booking.try-earlier", "booking.try-later")
        ):
            for permit in [
                it for it in self.ledger.permits if it.key == key and it.what in ("book", "change")
            ][-3:]:
                permit.armed = False
        elif control.submits or self.here.role == "driver":
            self.ledger.give(
                Permit(
                    "form",
                    key,
                    step,
                    path=r"/riders|/trips/\d+/outcome|/vehicles|/callers|/policy|/places|/routes",
                )
            )

    def sent_by_enter(self) -> Control | None:
        """The button of the form that Enter sends from where the focus is: from a box or a field of text."""
        at = (
            self.look.controls[self.look.at]
            if 0 <= self.look.at < len(self.look.controls)
            else None
        )
        if not at or not at.form or at.kind not in ("checkbox", "radio", "text"):
            return None
        return next(
            (it for it in self.look.controls if it.submits and it.form == at.form and not it.off),
            None,
        )

    def confirm(self, permit: Permit) -> None:
        """A form of a trip is sent: what comes of it is held against the replies from here on."""
        self.ledger.give(permit)
        self.confirmed = (permit, self.town.recorder.count(), self.place())

    def place(self) -> str:
        """The window and the part of the screen. Who leaves it before a form is sent is told so."""
        return f"{self.here.handle} {self.look.address}"

    def number_in(self, text: str, key: str) -> int | None:
        """The trip's number in the text of a key."""
        return (
            int(re.findall(r"\d+", text)[0])
            if self.words.is_text(text, key) and re.search(r"\d", text)
            else None
        )

    def booking(self, key: str) -> Permit:
        """What the form of a trip asks for, as it stands there."""
        start, end = (
            self.place_meant(acts.field(self, it, ("combo",)))
            for it in ("booking.from", "booking.to")
        )
        days = {
            it.value
            for it in self.look.of("checkbox")
            if it.checked and it.value in self.bookable()
        }
        back = acts.field(self, "booking.back", ("text",)) or acts.field(
            self, "booking.back-by", ("text",)
        )
        legs: dict[tuple[str, int, int], int | None] = {}
        modes = {it: self.mode_chosen(f"booking.{it}") for it in ("mode", "back-mode")}
        said: dict[tuple[str, int, int], str] = {}
        for it in sorted(days):
            for one in start:
                for other in end:
                    legs[(it, one, other)], said[(it, one, other)] = None, modes["mode"]
                    if back and back.value.strip():
                        legs[(it, other, one)], said[(it, other, one)] = None, modes["back-mode"]
        until = acts.field(self, "booking.by", ("text",))
        return Permit(
            "book",
            key,
            self.number,
            rider=self.look.subject,
            legs=legs,
            modes=said,
            armed=True,
            both=bool(until and until.value.strip()),
        )

    def mode_chosen(self, group: str) -> str:
        """What matters of the way there or back, as it is chosen in the form of a new trip; nothing where that is not shown."""
        radios = [
            it
            for it in self.look.of("radio")
            if it.checked
            and self.words.is_text(it.group, group)
            and not self.words.is_text(it.form, "booking.change-of")
        ]
        return next(
            (
                mode
                for it in radios
                for mode in asked.MODES
                if self.words.is_text(it.name, f"booking.mode-{mode}")
            ),
            "",
        )

    def bookable(self) -> list[str]:
        """The days for which trips are taken today."""
        today = datetime.date.fromisoformat(self.town.today)
        return [(today + datetime.timedelta(days=it)).isoformat() for it in range(1, 15)]

    def place_meant(self, control: Control | None) -> list[int]:
        """The places that a field may mean: by the whole name, the number, or a part of the name."""
        text = (control.value if control else "").strip().lower()
        same = [
            number
            for number, name in self.places.items()
            if text and (name.lower() == text or text == str(number) or text.endswith(f" {number}"))
        ]
        part = [
            number
            for number, name in self.places.items()
            if text and all(it in name.lower() for it in text.split())
        ]
        return same or part or ([int(text)] if text.isdigit() else list(self.places))

    # What happens around the windows.

    def next_role(self) -> Act | None:
        """The roles come one after another, each with a window of its own; somebody who is there by then goes on."""
        if len(self.windows) >= min(MOST_WINDOWS, len(self.roles)):
            return None
        role = self.roles[len(self.windows)]
        return Act(f"opens a window as {role}", lambda: self.open_window(role))

    def another_window(self) -> Act:
        """Somebody at another window goes on."""
        other = self.choice.choice([it for it in self.windows if it is not self.here])
        return Act(f"goes to the window of {other.holder}", lambda: self.go_to(other))

    def world(self) -> Act | None:
        """Something that nobody at this window does."""
        way = self.choice.choice(
            [
                "reload",
                "back",
                "offline",
                "breaks",
                "breaks",
                "clock",
                "outside",
                "outside",
                "window",
                "window",
                "new window",
                "midnight",
            ]
        )
        if way == "reload":
            return Act("reloads", self.browser.reload)
        if way == "back":
            return Act("goes back", self.back)
        if way == "offline":
            return Act("the line is cut for some steps", self.cut)
        if way == "breaks":
            how = self.choice.choice(BREAKS)
            return Act(f"the next write meets: {how}", lambda: self.breaks_next(how))
        if way in ("clock", "midnight"):
            return Act(
                "time passes" if way == "clock" else "midnight passes",
                lambda: self.time_passes(way == "midnight"),
            )
        if way == "outside":
            return Act("another device writes", self.outside)
        if way == "window" and len(self.windows) > 1:
            return self.another_window()
        if way == "new window" and len(self.windows) < MOST_WINDOWS:
            role = self.choice.choice(self.roles)
            return Act(f"opens a window as {role}", lambda: self.open_window(role))
        return None

    def breaks_next(self, how: str) -> None:
        """The next write goes wrong on its way."""
        self.town.recorder.breaks(how)

    def back(self) -> None:
        """The browser's Back, but not to what was there before the pages."""
        history = self.browser.devtools("Page.getNavigationHistory")
        at = history["currentIndex"]
        if at and "#" in history["entries"][at - 1]["url"]:
            self.browser.script("history.back()")

    def cut(self) -> None:
        """The line of this window is gone for three steps."""
        self.browser.line(offline=True)
        self.offline = 3

    def time_passes(self, midnight: bool) -> None:
        """The town's clock goes on: by some hours, or beyond midnight."""
        now, more = self.town.now(), self.choice.choice([10, 60, 200])
        self.grace = time.monotonic() + NEW_DAY
        if midnight or now.hour >= LATE:
            self.town.goes_to((now + datetime.timedelta(days=1)).replace(hour=0, minute=5))
        else:
            self.town.goes_to(now + datetime.timedelta(minutes=more))
        self.half_a_minute()

    def half_a_minute(self) -> None:
        """So much passes by the clock of this page: what it shows is due to be read again."""
        with contextlib.suppress(WebDriverException):
            self.browser.passes(HALF_A_MINUTE)

    def outside(self) -> None:
        """Another device cancels or books a trip of the rider who is shown, beside the site."""
        rider = self.look.subject or self.some_rider()[0]
        stands = [
            it
            for it in self.town.trips(rider)
            if it["status"] == "booked" and it["day"] > self.town.today
        ]
        self.stale[rider] = time.monotonic() + OUTSIDE
        if stands and self.choice.random() < 0.5:
            self.town.ask("third clerk", f"/trips/{self.choice.choice(stands)['trip']}/cancel", {})
        else:
            self.town.book_one(rider, self.choice.choice(self.bookable()), self.choice)
        self.half_a_minute()

    # The loop.

    def walk(self, steps: int, until: float, first: bool = False) -> None:
        """So many steps, or as many as there is time for. Where the first breach ends it, counts are held against the log every now and then."""
        self.open_window(self.roles[0])
        while (
            self.number < steps
            and time.monotonic() < until
            and not (first and self.report.breaches)
        ):
            self.number += 1
            self.choice = random.Random(f"{self.report.seed} {self.number}")
            self.one_step()
            if first and self.number % OFTEN == 0 and not self.report.breaches:
                here = self.here
                self.at_the_end()
                self.go_to(here)
        self.at_the_end()

    def one_step(self) -> None:
        """One act and what has to hold after it."""
        if self.offline:
            self.offline -= 1
            if not self.offline:
                self.browser.line()
        try:
            act = self.next_act()
        except (WebDriverException, Trouble) as error:
            self.report.did(self.number, f"(could not go on: {str(error)[:100]})")
            self.here.task = None
            self.look = self.page.look()
            return
        self.report.did(self.number, f"[{self.here.holder}] {act.words}")
        loaded, self.before = self.look.loaded, self.look
        try:
            act.do()
        except Trouble as error:
            self.report.breaks("the page can be used", str(error), self.here.role)
            self.recover()
            return
        except WebDriverException as error:
            # (what was not pressed was not confirmed)
            self.report.did(self.number, f"(not done: {str(error).splitlines()[0][:100]})")
            self.here.task, self.confirmed, self.entered = None, None, None
        try:
            self.settle()
            self.hold(act, loaded)
        except WebDriverException as error:
            self.report.did(self.number, f"(not looked at: {str(error).splitlines()[0][:100]})")
            self.recover()

    def recover(self) -> None:
        """After what cannot be gone on with: signed in once more."""
        with contextlib.suppress(Exception):
            self.browser.line()
            self.offline = 0
            self.sign_in()

    def settle(self) -> None:
        """Waits until the page is still and nothing is under way, as long as a person would."""
        end = time.monotonic() + (1.0 if self.offline else PATIENCE)
        self.look = self.page.still()
        while time.monotonic() < end and (self.look.busy or self.town.recorder.open):
            time.sleep(0.05)
            self.look = self.page.still()

    # What has to hold.

    def hold(self, act: Act, loaded: float) -> None:
        """Takes in what was written, and holds the page against the desk until it agrees or the patience is over."""
        self.take_writes()
        if self.look.loaded != loaded:
            self.note_parts()
        began = time.monotonic()
        while True:
            faults = list(self.faults(act, loaded))
            if all(self.report.is_known(rule, text) for rule, text, _ in faults):
                break
            if late := [it for it in faults if time.monotonic() > max(began + PATIENCE, it[2])]:
                for rule, text, _ in late:
                    self.report.breaks(rule, text, self.here.role)
                break
            time.sleep(0.3)
            self.take_writes()
            self.look = self.page.look()
        self.legs(loaded)
        case_holding.hold_entry(self, loaded)
        if self.number % READ == 0:
            self.errors()

    def legs(self, loaded: float) -> None:
        """What came of a form that was sent, once it has come to its end."""
        if not self.confirmed or self.look.dialog:
            return
        permit, at, place = self.confirmed
        if (
            place != self.place()
            or self.look.loaded != loaded
            or self.offline
            or not permit.rider
            or self.look.subject != permit.rider
        ):
            self.confirmed = None
            if (
                place.split(" ")[0] == self.here.handle
                and not self.offline
                and permit in self.ledger.permits
            ):
                self.left(permit, at)
            return
        end = time.monotonic() + PATIENCE
        while True:
            self.take_writes()
            found = [
                it
                for it in self.browser.script(shown.LEGS)
                if it["inner"] == (permit.what == "change")
            ]
            exchanges = [it for it in self.town.recorder.since(at) if it.key == permit.key]
            told = bool(found) or bool(self.browser.script(shown.FAULTS))
            self.look = self.page.look()
            if self.look.dialog or self.look.sign or time.monotonic() > end:
                break
            if told and not any(it["waiting"] for it in found) and not self.look.busy:
                break
            time.sleep(0.1)
        if self.look.dialog or self.look.busy or self.look.sign:
            return
        self.confirmed = None
        trips = {it["trip"]: it for it in self.town.trips(permit.rider)}
        halves = self.halves()
        checks = [
            *asked.tickets(found, trips, halves),
            *asked.denials(found, exchanges, self.words),
        ]
        if permit.armed and permit in self.ledger.permits:
            checks += [it for it in [asked.never_asked(permit, exchanges, told)] if it]
        if permit.what == "book" and not permit.same:
            checks += asked.same_trips(found, trips)
        if permit.what == "change":
            checks += asked.not_changed(found, permit, self.words)
        sent: dict[str, Any] = next(
            (it.fields for it in reversed(exchanges) if it.is_write and "companions" in it.fields),
            {},
        )
        for leg in found:
            checks += [it for it in self.leg(leg, permit, trips, sent) if it]
        for rule, text in checks:
            self.report.breaks(rule, text, self.here.role)
        if not checks:
            self.report.holds(asked.DONE, len(found) or 1)

    def left(self, permit: Permit, at: int) -> None:
        """Who leaves a form that was sent reads that nothing of it went out; or something did, and then it goes on."""
        end = time.monotonic() + PATIENCE
        while fault := asked.left_unsaid(
            permit,
            [it for it in self.town.recorder.since(at) if it.key == permit.key],
            self.browser.script(shown.LEFT),
        ):
            self.look = self.page.look()
            if self.look.sign or self.look.dialog or not self.look.signed_in:
                return
            if time.monotonic() > end:
                self.report.breaks(*fault, self.here.role)
                return
            time.sleep(0.2)
        self.report.holds(asked.DONE)

    def leg(
        self,
        leg: dict[str, Any],
        permit: Permit,
        trips: dict[int, dict[str, Any]],
        sent: dict[str, Any],
    ) -> list[asked.Fault | None]:
        """One leg: as it was said, or denied as the desk itself denies it; and what has to be counted of it. sent is what was asked last: who comes along."""
        said = asked.said_in(leg["text"], self.words, self.look.language)
        number = re.search(r"\d+", leg["heading"])
        if leg["ticket"] and number:
            self.expect(f"/tally/bookings trip={number[0]}")
            trip = trips.get(int(number[0]))
            said = said or asked.said_far(leg, permit)
            return [asked.kept_as_said(leg, said, trip)] if said and trip else []
        names = asked.names_of(leg["denial"], self.words) if leg["denial"] else []
        if (
            not names
            or leg["offer"]
            or not said
            or not (names[0] == "no vehicle" or names[0][0].isdigit())
        ):
            return []
        ends, rule = self.leg_meant(leg, permit), names[0].split(" ")[0]
        if not ends:
            self.expect(f"/tally/denials minute={said.minute} rule={rule}")
            return []
        day, start, end = ends
        self.expect(f"/tally/denials day={day} minute={said.minute} rule={rule}")
        if (
            names[0] not in ("no vehicle", "37.131(e)")
            or permit.what != "book"
            or not permit.rider
            or (permit.both and said.mode != "by")
        ):
            return []
        fields = {
            "rider": permit.rider,
            "day": day,
            "from": start,
            "to": end,
            "attendant": sent.get("attendant", False),
            "companions": sent.get("companions", 0),
        }
        return [asked.denied_wrongly(leg, said, fields, self.probe, sent)]

    def leg_meant(self, leg: dict[str, Any], permit: Permit) -> tuple[str, int, int] | None:
        """The day and the ends of a leg that was not booked; None where they are not sure."""
        if self.look.language == "es" and len({day for day, _, _ in permit.legs}) > 1:
            return None
        for day, start, end in permit.legs:
            # (a trip from a place to itself names it twice; one that only ends there is another leg)
            last = leg["text"].rfind if start == end else leg["text"].find
            ways = leg["text"].find(self.places.get(start, "?")), last(self.places.get(end, "?"))
            if (
                min(ways) >= 0
                and ways[0] < ways[1]
                and (self.look.language == "es" or speech.day_short(day) in leg["text"])
            ):
                return day, start, end
        return None

    def probe(self, fields: dict[str, Any]) -> dict[str, Any]:
        """Asks the desk beside the pages, and gives up what it books."""
        reply: dict[str, Any] = self.town.ask("third clerk", "/trips", fields)
        if "trip" in reply:
            self.town.ask("third clerk", f"/trips/{reply['trip']}/cancel", {})
            self.stale[fields["rider"]] = time.monotonic() + OUTSIDE
            self.half_a_minute()
        return reply

    def halves(self) -> tuple[str, str]:
        """How the halves of the day are written."""
        texts = self.words.texts[self.look.language]
        return texts.get("common.am", "AM"), texts.get("common.pm", "PM")

    def faults(self, act: Act, loaded: float) -> list[tuple[str, str, float]]:
        """What does not hold at this moment: the rule, the words, and the moment before which it does not count."""
        look = self.look
        found: list[tuple[str, str, float]] = []

        def held(rule: str, texts: list[str]) -> None:
            found.extend((rule, text, 0.0) for text in texts)
            if not texts:
                self.report.holds(rule)

        held("words", list(invariants.broken_words(look, self.words)))
        held("language", list(invariants.other_language(look, self.foreign)))
        held(
            "a sentence about the desk comes from a reply",
            list(
                invariants.denials_without_reply(
                    look, self.denied(look.loaded / 1000), self.denied(0.0), self.words
                )
            ),
        )
        if act.by_key and look.loaded == loaded and look.signed_in and self.keeps_focus(act):
            held("focus", [] if look.focus else [f"the focus is nowhere after {act.words}"])
        if not self.offline and look.signed_in:
            found.extend(self.faults_of_lists())
            focused = look.controls[look.at] if 0 <= look.at < len(look.controls) else None
            if (
                act.offers
                and not look.dialog
                and focused
                and focused.kind == "combo"
                and focused.value == act.offers
            ):
                held(
                    "a place is found by its name",
                    []
                    if any(it.name.startswith(act.offers) for it in look.of("option"))
                    else [
                        f"{act.offers!r} was typed, and {[it.name for it in look.of('option')]} are offered"
                    ],
                )
        return found

    def denied(self, since: float) -> set[str]:
        """The denials that this window's key got from a moment on."""
        return {
            it.denied
            for it in self.town.recorder.of_key(self.town.keys[self.here.holder], since)
            if it.denied
        }

    def keeps_focus(self, act: Act) -> bool:
        """Whether the focus was somewhere, and the keys do not lead beyond the ends of the page."""
        at, last = self.before.at, len(self.before.controls) - 1
        if "TAB" in act.words:
            return 0 < at < last and self.before.dialog == self.look.dialog
        return bool(self.before.focus)

    def faults_of_lists(self) -> list[tuple[str, str, float]]:
        """Lists and cards that differ from the desk's present answer."""
        found: list[tuple[str, str, float]] = []
        halves, look, role, given = self.halves(), self.look, self.here.role, self.look.shown
        for card in given["trips"]:
            if card["empty"] and "…" in card["text"]:
                found.append(
                    (
                        "what is shown has an age",
                        f"the list of rider {card['rider']} is not read: {card['text'][:100]}",
                        self.grace,
                    )
                )
                continue
            fault = shown.fault_of_trips(
                card,
                self.town.trips(card["rider"]),
                self.names,
                self.words,
                (self.town.today, halves),
            )
            if fault:
                found.append(
                    (
                        "what is shown has an age",
                        fault,
                        max(self.grace, self.stale.get(card["rider"], 0.0)),
                    )
                )
            else:
                self.report.holds("what is shown has an age")
        found.extend(
            self.faults_of_days(
                given["day"] if role == "dispatcher" else None,
                given["stops"] if role == "driver" else None,
                halves,
            )
        )
        found.extend(case_holding.faults(self, given["case"] if look.subject else None))
        card = given["card"]
        if card and look.subject and role == "clerk" and look.address.startswith("#clerk"):
            standing = self.town.ask(
                "third clerk", f"/riders/{look.subject}/standing/{self.town.today}"
            )
            fault = shown.fault_of_card(card, standing, self.words, look.language)
            if fault:
                found.append(("what is shown has an age", fault, self.grace))
            else:
                self.report.holds("what is shown has an age")
        return found

    def faults_of_days(
        self, trips: dict[str, Any] | None, stops: dict[str, Any] | None, halves: tuple[str, str]
    ) -> list[tuple[str, str, float]]:
        """The trips of a day at the dispatcher's, and the stops at a driver's."""
        rule, fault = "what is shown has an age", None
        if trips:
            if not re.fullmatch(r"\d{4}-\d\d-\d\d", trips["day"]):
                return []
            csv = self.town.ask("dispatcher", f"/days/{trips['day']}/trips.csv")
            fault = (
                shown.fault_of_day(trips, csv, self.words, self.look.language, halves)
                if isinstance(csv, str)
                else None
            )
        elif stops:
            if self.look.language == "en" and stops["day"] != speech.day_long(self.town.today):
                return []
            text = self.town.ask("driver 1", f"/vehicles/1/manifest/{self.town.today}")
            fault = (
                shown.fault_of_stops(stops, text, halves)
                if isinstance(text, str) and self.look.language == "en"
                else None
            )
        else:
            return []
        if fault:
            return [(rule, fault, max([self.grace, *self.stale.values()]))]
        self.report.holds(rule)
        return []

    def take_writes(self) -> None:
        """Each write that the desk did was confirmed, and each denial is remembered with its key."""
        for it in self.town.recorder.since(self.recorded):
            self.recorded += 1
            if it.is_write and it.denied and f"denials.{it.denied}" not in self.words.texts["en"]:
                self.report.breaks(
                    "no denial without words", f"{it.path} is denied {it.denied}", self.here.role
                )
            if not it.is_done:
                continue
            fault = self.ledger.take(Write(it.path, it.key, it.number, it.fields, it.reply))
            if fault:
                self.report.breaks("nothing is done that was not confirmed", fault, self.here.role)
            else:
                self.report.holds("nothing is done that was not confirmed")
            if it.path.endswith("/cancel"):
                self.expect(f"/tally/cancellations trip={it.path.split('/')[2]}")

    def expect(self, what: str) -> None:
        """An event that the site's log has to have at the end."""
        self.expected.setdefault(what, (f"step {self.number}", time.monotonic()))

    def errors(self) -> None:
        """Errors of the console that nobody caught."""
        with contextlib.suppress(WebDriverException):
            for line in self.browser.driver.get_log("browser"):
                if (
                    line["level"] == "SEVERE"
                    and line["source"] not in ("network", "recommendation")
                    and not any(re.search(it, line["message"]) for it in IGNORED)
                    and not self.is_said(line["message"])
                ):
                    self.report.breaks(
                        "no error in the console", line["message"][:400], self.here.role
                    )

    def is_said(self, message: str) -> bool:
        """Whether an error is that of a file which did not come over a broken line, and the page says so."""
        said = self.words.texts[self.look.language]["common.not-loaded"]
        return (
            bool(self.offline)
            and "Failed to fetch dynamically imported module" in message
            and self.look.shows(said)
        )

    def at_the_end(self) -> None:
        """What was counted is in the site's log, and nothing waits."""
        self.errors()
        self.browser.line()
        self.offline = 0
        self.town.recorder.planned.clear()
        for window in self.windows:
            self.leaves_form(window)
        expected, end = self.expected, time.monotonic() + 4 * PATIENCE
        while True:
            lines = self.town.tally_lines()
            missing = [
                what
                for what in self.expected
                if not any(all(part in line for part in what.split(" ")) for line in lines)
            ]
            if not missing or time.monotonic() > end:
                break
            time.sleep(0.5)
        found, self.expected = len(self.expected) - len(missing), {}
        for what in missing:
            self.report.breaks(
                "what is counted is counted",
                f"{what} ({expected[what][0]}) is not in the site's log",
                "any",
            )
        self.report.holds("what is counted is counted", found)
        self.nothing_waits()

    def leaves_form(self, window: Window) -> None:
        """Whoever sits at a window leaves what stands there in one of the ways in which people do: then nothing is held back any more."""
        with contextlib.suppress(WebDriverException, Trouble):
            self.go_to(window)
            window.task, self.confirmed, self.entered = None, None, None
            self.browser.line()
            if self.look.dialog:
                self.page.keys("\ue00c")
                self.settle()
            others = [it for it in self.look.of("link") if it.name in self.parts]
            way = self.choice.choice(["part", "reload", "sign in"])
            self.report.did(self.number, f"[{window.holder}] at the end: {way}")
            if not self.look.signed_in or way == "sign in":
                self.sign_in()
            elif way == "part" and others:
                for it in (others[0], others[-1]):
                    self.page.press(it, False)
                    self.settle()
            else:
                self.browser.reload()

    def nothing_waits(self) -> None:
        """No event waits in this browser that one of its windows could send, and the site refused none."""
        import hashlib

        from counted import QUEUE

        digests = {
            hashlib.sha256(self.town.keys[it.holder].encode()).hexdigest() for it in self.windows
        }
        end = time.monotonic() + 4 * PATIENCE
        while True:
            waits = [
                it
                for it in self.browser.driver.execute_async_script(QUEUE)
                if it.get("digest") in digests
            ]
            if not waits or time.monotonic() > end:
                break
            time.sleep(0.5)
        path = f"{self.town.folder}/access.log"
        with open(
            path if os.path.exists(path) else os.devnull, encoding="utf-8", errors="replace"
        ) as log:
            refused = re.findall(r'"POST (/tally/\S+) [^"]*" (4\d\d)', log.read())
        for text in [
            *(f"{it['path']} waits, {it['refused']}" for it in waits),
            *(f"the site refused {path}: {status}" for path, status in refused if status != "429"),
        ]:
            self.report.breaks("what is counted is counted", text, "any")
        self.report.holds("what is counted is counted")


Any
