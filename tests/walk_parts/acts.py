"""What somebody does at one step, and what somebody has in mind over several: generators that give one act after another."""

import random
import re
import time
from collections.abc import Callable, Iterator
from dataclasses import dataclass
from typing import TYPE_CHECKING

from selenium.webdriver.common.keys import Keys

from walk_parts import shown, speech
from walk_parts.page import Control

if TYPE_CHECKING:
    from walk_parts.walker import Walker


@dataclass(frozen=True)
class Act:
    """One act. by_key says that it was done by keys, so that the focus has to be somewhere afterwards; offers is a name that has to be offered then."""

    words: str
    do: Callable[[], None]
    by_key: bool = False
    offers: str = ""


Task = Iterator[Act]
DAY = re.compile(r"\d{4}-\d\d-\d\d")
# Seconds in which a form says what is wrong in its fields; and how often somebody is gone before the desk has answered.
SENT, LEAVES = 0.15, 0.12
OPEN = "return Boolean(document.querySelector('dialog[open]'))"


def press(walker: "Walker", control: Control, by_key: bool | None = None) -> Act:
    """Presses a control, by a click or by keys."""
    keyed = walker.choice.random() < 0.6 if by_key is None else by_key
    twice = control.submits and walker.choice.random() < 0.15

    def do() -> None:
        walker.before_press(control)
        walker.page.press(control, keyed, twice)

    return Act(
        f"{'twice ' if twice else ''}{'Enter on' if keyed else 'click on'} {control.kind} {control.name!r}",
        do,
        keyed,
    )


def leave_at_once(walker: "Walker", control: Control) -> Act | None:
    """Sends a form and goes to another part before the desk has answered anything; None where there is no other part."""
    others = [it for it in walker.look.of("link") if it.name in walker.parts]
    if not others:
        return None
    other = walker.choice.choice(others)

    def do() -> None:
        walker.before_press(control)
        with walker.town.recorder.hold():
            walker.page.press(control, True)
            time.sleep(SENT)
            if not walker.browser.script(shown.FAULTS) and not walker.browser.script(OPEN):
                walker.page.press(other, False)

    return Act(
        f"Enter on {control.kind} {control.name!r}, and on to {other.name!r} before the desk answers",
        do,
    )


def type_into(walker: "Walker", control: Control, text: str) -> Act:
    """Types into a field."""
    return Act(
        f"types {text!r} into {control.name!r}", lambda: walker.page.type_into(control, text), True
    )


def choose(walker: "Walker", control: Control, text: str) -> Act:
    """Chooses in a list."""
    return Act(f"chooses {text!r} of {control.name!r}", lambda: walker.page.choose(control, text))


def keys(walker: "Walker", *pressed: str) -> Act:
    """Presses keys where the focus is."""
    named = {value: name for name, value in vars(Keys).items() if not name.startswith("_")}

    def do() -> None:
        sends = walker.sent_by_enter() if pressed == (Keys.ENTER,) else None
        if sends:
            walker.before_press(sends)
        walker.page.keys(*pressed)

    return Act(
        "keys " + " ".join("+".join(named.get(sign, sign) for sign in it) for it in pressed),
        do,
        True,
    )


def field(
    walker: "Walker", key: str, kinds: tuple[str, ...] = ("text", "combo", "list")
) -> Control | None:
    """The field with the label of a key of words, in whatever language is shown."""
    found = [
        it for it in walker.look.controls if it.kind in kinds and walker.words.is_text(it.name, key)
    ]
    return found[-1] if found else None


def button(walker: "Walker", *names: str, submits: bool | None = None) -> list[Control]:
    """The buttons with the text of one of these keys, as far as they are not switched off."""
    return [
        it
        for it in walker.look.controls
        if it.kind in ("button", "summary", "link")
        and not it.off
        and (submits is None or it.submits == submits)
        and any(walker.words.is_text(it.name, name) for name in names)
    ]


# Whose record is shown.


def name_typed(choice: random.Random, number: int, name: str, telephone: str) -> str:
    """One of the ways in which a rider is looked for."""
    parts = name.split(" ")
    ways = [
        str(number),
        str(number),
        name,
        name.lower(),
        parts[-1],
        parts[0][:4],
        telephone,
        re.sub(r"\D", "", telephone),
        name.replace("’", "'"),
        name.replace("'", ""),
        f" {number} ",
    ]
    return choice.choice(ways)


def show_rider(walker: "Walker") -> Task:
    """Looks for a rider and shows the record."""
    search = field(walker, "cases.rider") or field(walker, "rider.number")
    if not search:
        return
    number, name, telephone = walker.some_rider()
    typed = name_typed(walker.choice, number, name, telephone)
    yield type_into(walker, search, typed)
    options = walker.look.of("option")
    way = walker.choice.random()
    if options and way < 0.35:
        yield press(walker, walker.choice.choice(options[:4]), by_key=False)
    elif options and way < 0.55:
        yield keys(walker, Keys.ARROW_DOWN)
        yield keys(walker, Keys.ENTER)
    elif way < 0.85:
        yield keys(walker, Keys.ENTER)
    else:
        yield keys(walker, Keys.TAB)
        shows = button(walker, "cases.show", "rider.show")
        if shows:
            yield press(walker, shows[0])
    if (
        walker.look.subject != number
        and walker.choice.random() < 0.8
        and (again := field(walker, "cases.rider"))
    ):
        yield type_into(walker, again, str(number))
        yield keys(walker, Keys.ENTER)


# Booking.


def fill_place(walker: "Walker", key: str, place: int) -> Task:
    """Chooses a place in one of the ways in which people do."""
    if (
        (control := field(walker, key, ("combo",)))
        and not control.value
        and walker.choice.random() < 0.25
    ):
        # (the whole list is opened, which is longer than it is high, and left again)
        yield press(walker, control, by_key=False)
        yield keys(walker, walker.choice.choice([Keys.ARROW_DOWN, Keys.TAB]))
        yield keys(walker, Keys.TAB)
    control = field(walker, key, ("combo",))
    if not control:
        return
    name = walker.place_name(place)
    way = walker.choice.randrange(6)
    typed = [name, name.split(" ")[0].lower(), str(place), name[:3], name.split(" ")[-1], name][way]
    typing = type_into(walker, control, typed)
    yield Act(typing.words, typing.do, True, name if typed == name else "")
    options = walker.look.of("option")
    fitting = [it for it in options if it.name.startswith(name)] or options
    act = walker.choice.random()
    if fitting and act < 0.4:
        yield press(walker, fitting[0], by_key=False)
    elif options and act < 0.6:
        yield keys(walker, Keys.ARROW_DOWN)
        yield keys(walker, Keys.ENTER)
    else:
        yield keys(walker, Keys.TAB)
    later = field(walker, key, ("combo",))
    if later and later.value != name and walker.choice.random() < 0.85:
        yield type_into(walker, later, name)
        yield keys(walker, Keys.TAB)


def some_minute(choice: random.Random) -> int:
    """A minute that somebody names: at any hour, and often at the ends of the day."""
    if choice.random() < 0.3:
        return choice.choice(
            [0, 1, 300, 330, 1260, 1290, 1320, 1350, 1365, 1380, 1395, 1410, 1425, 1439, 720]
        )
    return choice.randrange(360, 1300, 15) if choice.random() < 0.8 else choice.randrange(1440)


def fill_time(walker: "Walker", key: str, minute: int) -> Task:
    """Types a time."""
    if control := field(walker, key, ("text",)):
        yield type_into(walker, control, speech.minute_typed(minute, walker.choice.randrange(6)))


def tick(walker: "Walker", key: str, last: bool = False) -> Task:
    """Ticks a box, or takes one of some radios: the first or the last of this name."""
    found = [
        it
        for it in walker.look.controls
        if it.kind in ("checkbox", "radio") and walker.words.is_text(it.name, key)
    ]
    if found and not found[-1 if last else 0].checked:
        yield press(walker, found[-1 if last else 0], by_key=walker.choice.random() < 0.5)


MODES = ["around", "around", "not-before", "by"]


def to_part(walker: "Walker", *names: str) -> Task:
    """Goes to a part of the screen, where it is another one."""
    found = [
        it
        for it in walker.look.of("link")
        if any(walker.words.is_text(it.name, name) for name in names)
    ]
    if found:
        yield press(walker, found[0])


def book(walker: "Walker") -> Task:
    """Fills the form of a new trip, and sends it."""
    if not field(walker, "booking.from", ("combo",)):
        yield from to_part(walker, "clerk.trips", "rider.book", "dispatcher.riders")
        if not field(walker, "booking.from", ("combo",)):
            yield from show_rider(walker)
    if not field(walker, "booking.from", ("combo",)):
        return
    start, end = walker.some_places()
    yield from fill_place(walker, "booking.from", start)
    yield from fill_place(walker, "booking.to", end)
    yield from fill_when(walker, several=True)
    if sends := button(walker, "booking.book", submits=True):
        yield (walker.choice.random() < LEAVES and leave_at_once(walker, sends[-1])) or press(
            walker, sends[-1]
        )
        yield from after_booking(walker)
    sends = button(walker, "booking.book", submits=True)
    if sends and walker.choice.random() < 0.2:
        # (somebody who is not sure that it was sent)
        yield press(walker, sends[-1])
        yield from after_booking(walker)


def choose_day(walker: "Walker", at: int, several: bool) -> Task:
    """Chooses a day among those for which trips are taken, by its place: beside those that are chosen, where there may be several, or in place of them."""
    kind = "checkbox" if several else "radio"
    if several and walker.choice.random() < 0.6:
        while chosen := [
            it for it in walker.look.of(kind) if it.checked and DAY.fullmatch(it.value)
        ]:
            yield press(walker, chosen[0])
            if walker.look.dialog or [
                it.value for it in walker.look.of(kind) if it.checked and DAY.fullmatch(it.value)
            ] == [it.value for it in chosen]:
                break
    days = [it for it in walker.look.of(kind) if DAY.fullmatch(it.value)]
    if days and not days[min(at, len(days)) - 1].checked:
        yield press(walker, days[min(at, len(days)) - 1])


def fill_when(walker: "Walker", several: bool) -> Task:
    """The day, the time and what matters of a wish."""
    yield from choose_day(walker, walker.choice.choice([1, 1, 2, 3, 4, 5, 6, 14]), several)
    mode = walker.choice.choice(MODES)
    yield from tick(walker, f"booking.mode-{mode}")
    minute = some_minute(walker.choice)
    if mode != "by":
        yield from fill_time(walker, "booking.wish", minute)
    if mode == "by" or walker.choice.random() < 0.1:
        yield from fill_time(
            walker, "booking.by" if mode == "by" else "booking.by-too", min(1439, minute + 60)
        )
    if several and walker.choice.random() < 0.3:
        yield from fill_time(
            walker, "booking.back", min(1439, minute + walker.choice.choice([60, 120, 300]))
        )
        yield from tick(walker, f"booking.mode-{walker.choice.choice(MODES)}", last=True)
    if walker.choice.random() < 0.1:
        yield from tick(walker, "booking.with-companion")


def after_booking(walker: "Walker") -> Task:
    """Answers what the desk offers, or tries other times."""
    for _ in range(6):
        if not walker.look.dialog:
            break
        yield walker.answer_dialog(0.85)
    if offers := button(walker, "booking.offer-yes", "booking.offer-no", "booking.offer-back"):
        if walker.choice.random() < 0.9:
            yield press(walker, walker.choice.choice(offers))
    elif others := button(walker, "booking.try-either", "booking.try-earlier", "booking.try-later"):
        if walker.choice.random() < 0.5:
            yield press(walker, walker.choice.choice(others))


def change(walker: "Walker") -> Task:
    """Changes a trip of the list."""
    if not button(walker, "booking.change-of", submits=False):
        yield from to_part(walker, "clerk.trips", "rider.my-trips", "dispatcher.riders")
    if changes := button(walker, "booking.change-of", submits=False):
        yield press(walker, walker.choice.choice(changes))
        yield from fill_when(walker, several=False)
        if sends := button(walker, "booking.change-of", submits=True):
            yield (walker.choice.random() < LEAVES and leave_at_once(walker, sends[0])) or press(
                walker, sends[0]
            )
            yield from after_booking(walker)
        if closes := button(walker, "booking.leave"):
            if walker.choice.random() < 0.5:
                yield press(walker, closes[0])


def cancel(walker: "Walker") -> Task:
    """Cancels a trip of the list, or thinks better of it."""
    if not button(walker, "booking.cancel-of", submits=False):
        yield from to_part(walker, "clerk.trips", "rider.my-trips", "dispatcher.riders")
    if cancels := button(walker, "booking.cancel-of"):
        yield press(walker, walker.choice.choice(cancels))
        if walker.look.dialog:
            yield walker.answer_dialog(0.7)


def book_again(walker: "Walker") -> Task:
    """Books a trip of the list on another day; where a row has a menu, by that."""
    if menus := button(walker, "booking.more-of"):
        yield press(walker, walker.choice.choice(menus))
    if agains := button(walker, "booking.again-of"):
        yield press(walker, walker.choice.choice(agains))
        yield from choose_day(walker, walker.choice.randint(1, 7), several=True)
        if sends := button(walker, "booking.book", submits=True):
            yield press(walker, sends[-1])
            yield from after_booking(walker)


def earlier_trips(walker: "Walker") -> Task:
    """Opens the trips of the list that are over or canceled, or folds them away."""
    if found := button(walker, "booking.count-past", "booking.count-off"):
        yield press(walker, walker.choice.choice(found))


# Elsewhere.


def other_part(walker: "Walker") -> Task:
    """Goes to another part of the screen."""
    parts = [it for it in walker.look.of("link") if it.name in walker.parts]
    if parts:
        yield press(walker, walker.choice.choice(parts))


def appeal(walker: "Walker") -> Task:
    """Appeals a decision, by its letter."""
    if not button(walker, "cases.appeal-own", "cases.appeal-for"):
        yield from to_part(walker, "rider.letters", "clerk.file")
    if appeals := button(walker, "cases.appeal-own", "cases.appeal-for"):
        yield press(walker, appeals[0])
        if walker.look.dialog:
            yield walker.answer_dialog(0.7)


def by_slash(walker: "Walker") -> Task:
    """A slash goes to the search."""
    yield keys(walker, "/")


def by_tabs(walker: "Walker") -> Task:
    """Goes on by Tab."""
    for _ in range(walker.choice.randint(1, 4)):
        yield keys(
            walker, walker.choice.choice([Keys.TAB, Keys.TAB, Keys.SHIFT + Keys.TAB, Keys.ESCAPE])
        )


def notes_closed(walker: "Walker") -> Task:
    """Closes what was noted."""
    if closes := button(walker, "common.close-note", "sent.read"):
        yield press(walker, closes[0])


def another_day(walker: "Walker") -> Task:
    """Goes to the day before or after."""
    if found := button(walker, "dispatcher.day-before", "dispatcher.today", "dispatcher.day-after"):
        yield press(walker, walker.choice.choice(found))


def outcome(walker: "Walker") -> Task:
    """Says how a trip ended."""
    if found := button(walker, "dispatcher.set-outcome-of"):
        yield press(walker, walker.choice.choice(found))
        if told := button(
            walker,
            "dispatcher.told-ridden",
            "dispatcher.told-missed-rider",
            "dispatcher.told-missed-operator",
        ):
            yield press(walker, walker.choice.choice(told))


def searches_trips(walker: "Walker") -> Task:
    """Searches the trips of the day, and goes back to all of them."""
    if control := field(walker, "dispatcher.search", ("text", "combo")):
        number, name, telephone = walker.some_rider()
        yield type_into(
            walker,
            control,
            walker.choice.choice([str(number), name.split(" ")[0], telephone, "van 1", "hospital"]),
        )
        if later := field(walker, "dispatcher.search", ("text", "combo")):
            yield type_into(walker, later, "")


def choose_van(walker: "Walker") -> Task:
    """A driver says which van it is."""
    found = [it for it in walker.look.controls if it.kind == "combo"]
    if found:
        yield type_into(walker, found[0], walker.choice.choice(["1", "Van 1", "blue"]))
        yield keys(walker, Keys.ENTER)


STOP_WORDS = tuple(
    """
    driver.arrived driver.aboard driver.ridden driver.missed-rider driver.missed-operator
    driver.left driver.done-here driver.start-here driver.to-next driver.take-back driver.all-stops
    driver.next
    """.split()
)


def at_the_stop(walker: "Walker") -> Task:
    """A driver tells what happens at the stop."""
    if found := button(walker, *STOP_WORDS):
        yield press(walker, walker.choice.choice(found))
        if walker.look.dialog:
            yield walker.answer_dialog(0.8)


def home(walker: "Walker") -> Act | None:
    """Goes back to the screen of one's own role, for whoever is curious at another one; None for who is there, or has no choice."""
    if walker.look.address.startswith(f"#{walker.here.role}"):
        return None
    # (the office has a menu: what is in it comes once it is open)
    if there := button(walker, "common.go-to"):
        jobs = tuple(texts[f"signing.{walker.here.role}"] for texts in walker.words.texts.values())
        mine = [it for it in there if it.name.endswith(jobs)]
        return press(walker, mine[0]) if mine else None
    if menu := button(walker, f"signing.{walker.look.address.lstrip('#').partition('/')[0]}"):
        return press(walker, menu[0])
    screens = field(walker, "common.screen", ("list",))
    own = (
        next(
            (
                it
                for it in screens.choices
                if walker.words.is_text(it, f"signing.{walker.here.role}")
            ),
            None,
        )
        if screens
        else None
    )
    return choose(walker, screens, own) if screens and own else None


HARMLESS = ("button", "summary", "link", "checkbox", "radio", "list", "combo")


def anything(walker: "Walker") -> Task:
    """Whatever stands there, as a curious person."""
    found = [
        it
        for it in walker.look.controls
        if it.kind in HARMLESS and not it.off and it.name and not walker.is_shunned(it)
    ]
    if not found:
        return
    control = walker.choice.choice(found)
    if control.kind == "list":
        if control.choices:
            yield choose(walker, control, walker.choice.choice(control.choices))
    elif control.kind == "combo":
        yield press(walker, control, by_key=False)
        yield keys(walker, walker.choice.choice([Keys.TAB, Keys.ESCAPE, Keys.ARROW_DOWN]))
        yield keys(walker, Keys.TAB)
    else:
        yield press(walker, control)
