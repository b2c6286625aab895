"""What the office does with a case: an application, a decision, an appeal, a notice; and who looks at what waits."""

import datetime
from collections.abc import Iterator
from typing import TYPE_CHECKING

from selenium.webdriver.common.keys import Keys

from walk_parts import acts
from walk_parts.acts import Act, Task
from walk_parts.page import Control

if TYPE_CHECKING:
    from walk_parts.walker import Walker

# What each role enters, and on which part of the screen.
PARTS: dict[str, list[tuple[str, str]]] = {
    "clerk": [("complete", "clerk.file"), ("notice", "clerk.file")],
    "examiner": [(it, "cases.cases") for it in ("grant", "refuse", "in-part", "rest")],
    "officer": [
        (it, "cases.cases")
        for it in "heard appeal-granted appeal-denied overturn notice-heard suspend".split()
    ],
}
# Whose case fits an entry, by the standing on the first day.
FITS = {
    "complete": ("refused", "refused sixty", "refused long", "appeal denied", "temporary"),
    "grant": ("waits", "presumed", "presumed tomorrow"),
    "refuse": ("waits", "presumed", "presumed tomorrow"),
    "in-part": ("waits", "presumed", "presumed tomorrow"),
    "heard": ("appeal waits",),
    "appeal-granted": ("appeal waits", "appeal overdue"),
    "appeal-denied": ("appeal waits", "appeal overdue"),
    "overturn": ("suspension appealed",),
    "notice": ("noticed", "suspended", "suspension appealed"),
    "notice-heard": ("noticed",),
    "suspend": ("noticed",),
}
REASONS = [
    "The rider can reach each bus stop near the home, and each bus of these lines has a ramp.",
    "no",
    "Missed on May 2, 5 and 9 – “without” a call; the van waited.",
    "The hearing of the appeal showed that the stairs at the stop cannot be climbed in winter.",
]


def fitting_rider(walker: "Walker", kind: str) -> int:
    """The number of a rider in whose case such an entry is due; at times any other's."""
    if walker.choice.random() < 0.15:
        return walker.some_rider()[0]
    if kind in ("rest", "complete") and walker.in_part and walker.choice.random() < 0.7:
        return walker.choice.choice(sorted(walker.in_part))
    fits = [it.number for it in walker.town.riders if it.standing in FITS.get(kind, ("waits",))]
    return walker.choice.choice(fits) if fits else walker.some_rider()[0]


def show_case(walker: "Walker", number: int) -> Task:
    """Shows the case of a rider."""
    search = acts.field(walker, "cases.rider") or acts.field(walker, "clerk.who")
    if search and walker.look.subject != number:
        yield acts.type_into(walker, search, str(number))
        yield acts.keys(walker, Keys.ENTER)


def of_form(walker: "Walker", kind: str) -> list[Control]:
    """The fields of the form of a kind."""
    return [
        it
        for it in walker.look.controls
        if it.form and walker.words.is_text(it.form, f"cases.heading-{kind}")
    ]


def day_after(walker: "Walker", days: int, first: str = "") -> str:
    """A day so many days after another one, or after today."""
    return (
        datetime.date.fromisoformat(first or walker.town.today) + datetime.timedelta(days=days)
    ).isoformat()


def fill_day(walker: "Walker", control: Control) -> Iterator[Act]:
    """Chooses a day of a form: what is there stays where it is a first day; at times it is a wrong one."""
    if walker.choice.random() < 0.1:
        yield acts.choose(walker, control, day_after(walker, -3))
    elif walker.words.is_text(control.name, "cases.ends") or walker.words.is_text(
        control.name, "cases.ends-proposed"
    ):
        starts = [
            it.value
            for it in walker.look.controls
            if it.form == control.form and it.type == "date" and it.value and it.at < control.at
        ]
        yield acts.choose(
            walker,
            control,
            day_after(walker, walker.choice.choice([0, 6, 20, 29]), starts[-1] if starts else ""),
        )
    elif not control.value or walker.choice.random() < 0.3:
        yield acts.choose(walker, control, day_after(walker, walker.choice.choice([20, 60, 300])))


def fill_entry(walker: "Walker", kind: str) -> Task:
    """Fills the form of a kind."""
    for name in [it.name for it in of_form(walker, kind) if it.kind == "text"]:
        control = next((it for it in of_form(walker, kind) if it.name == name), None)
        if control is None:
            return
        if control.type == "date":
            yield from fill_day(walker, control)
        elif walker.words.is_text(name, "cases.tick-farther"):
            if walker.choice.random() < 0.5:
                yield acts.type_into(walker, control, str(walker.choice.randint(1, 5000)))
        elif not walker.words.is_text(name, "cases.basis-more") or walker.choice.random() < 0.2:
            yield acts.type_into(walker, control, walker.choice.choice(REASONS))
    ticks = [it for it in of_form(walker, kind) if it.kind == "checkbox" and not it.checked]
    if (
        ticks
        and (kind in ("in-part", "rest", "appeal-granted", "notice"))
        and walker.choice.random() < 0.7
    ):
        yield acts.press(walker, walker.choice.choice(ticks))


def decide(walker: "Walker") -> Task:
    """Shows a case in which something is due, and enters it."""
    kind, part = walker.choice.choice(PARTS[walker.here.role])
    yield from acts.to_part(walker, part)
    yield from show_case(walker, fitting_rider(walker, kind))
    heads = [
        it
        for it in walker.look.of("summary")
        if walker.words.is_text(it.name, f"cases.heading-{kind}")
    ]
    heads += [
        it
        for it in walker.look.of("radio")
        if walker.words.is_text(it.name, f"cases.choice-{kind}") and not it.checked
    ]
    if heads and not of_form(walker, kind):
        yield acts.press(walker, heads[0])
    yield from fill_entry(walker, kind)
    if sends := acts.button(walker, f"cases.do-{kind}", submits=True):
        yield acts.press(walker, sends[0])
        for _ in range(2):
            if walker.look.dialog:
                yield walker.answer_dialog(0.8)


def standing_on_a_day(walker: "Walker") -> Task:
    """Asks for the standing on another day."""
    control = next(
        (
            it
            for it in walker.look.controls
            if it.type == "date" and walker.words.is_text(it.name, "cases.day")
        ),
        None,
    )
    if control:
        yield acts.choose(
            walker, control, day_after(walker, walker.choice.choice([-30, 0, 1, 8, 30, 120, 400]))
        )
        if shows := acts.button(walker, "cases.show-standing", submits=True):
            yield acts.press(walker, shows[0])


def what_waits(walker: "Walker") -> Task:
    """Looks at what waits, and goes to a case of it."""
    yield from acts.to_part(walker, "cases.waits")
    if opens := acts.button(walker, "cases.waits-open"):
        yield acts.press(walker, walker.choice.choice(opens))


def reads_letters(walker: "Walker") -> Task:
    """A rider, or a clerk of a case, looks at the letters and opens one as it is on record."""
    yield from acts.to_part(walker, "rider.letters", "clerk.file", "cases.cases")
    if reads := acts.button(walker, "cases.line-letter"):
        yield acts.press(walker, walker.choice.choice(reads))
    if opens := [
        it for it in walker.look.of("summary") if walker.words.is_text(it.name, "cases.on-record")
    ]:
        yield acts.press(walker, walker.choice.choice(opens))
    languages = [
        it for it in walker.look.of("list") if walker.words.is_text(it.name, "cases.print-language")
    ]
    if languages and walker.choice.random() < 0.3:
        yield acts.choose(walker, languages[0], walker.choice.choice(languages[0].choices))
