"""Holds what a case shows against the desk: standing, letters, what was entered, what waits; and each yes to an entry is one entry."""

import time
from collections.abc import Iterator
from typing import TYPE_CHECKING, Any

from walk_parts import cases, shown
from walk_parts.asked import DONE, REPLY
from walk_parts.ledger import Permit

if TYPE_CHECKING:
    from walk_parts.walker import Walker

AGE = "what is shown has an age"
# Lists of what waits that a screen has from the site's log in place of the night's list.
LIVE = {
    "clerk": {"offers", "in-part"},
    "dispatcher": {"offers"},
    "examiner": {"in-part"},
    "officer": set[str](),
}
PATIENCE = 10.0


def faults(walker: "Walker", given: dict[str, Any] | None) -> Iterator[tuple[str, str, float]]:
    """What a case shows otherwise than the desk has it: given is what stands there. What agrees is counted."""
    rider, language, town = walker.look.subject or 0, walker.look.language, walker.town
    case = given or {"standings": [], "letters": [], "done": [], "files": []}
    for it in case["standings"]:
        day = cases.first_day(it["verdict"], language)
        standing = (
            town.ask("third clerk", f"/riders/{rider}/standing/{day}")
            if day
            else {"standing": "none", "suspended": False}
        )
        suspension = (
            cases.suspension_on(day, town.letters(rider))
            if day and standing.get("suspended")
            else None
        )
        yield from told(
            walker,
            AGE,
            cases.fault_of_standing(it, standing, walker.words, language, suspension)
            if day
            else f"a standing without a day: {it['verdict']!r}",
        )
    texts = walker.words.texts[language]
    for it in case["letters"]:
        if it["letters"] or it["says"] == texts["cases.letters-none"]:
            yield from told(
                walker,
                AGE,
                cases.fault_of_letters(
                    it,
                    town.letters(rider),
                    appealed(walker, rider),
                    town.today,
                    walker.words,
                    language,
                ),
            )
    for it in case["files"]:
        if it["entries"]:
            yield from told(
                walker, AGE, cases.fault_of_file(it, town.letters(rider), walker.words, language)
            )
    yield from said_as_done(walker, case["done"])
    reader, _, part = walker.look.address.lstrip("#").partition("/")
    if (
        part == "waits"
        and reader in LIVE
        and walker.here.role in LIVE
        and (rows := walker.browser.script(cases.ROWS))
    ):
        found = [
            cases.fault_of_lists(rows, text, LIVE[reader], town.today, language)
            for text in town.worklists[-2:]
        ]
        yield from told(walker, AGE, None if None in found else found[-1])


def appealed(walker: "Walker", rider: int) -> set[int]:
    """The letters against which this window's key has entered an appeal."""
    taken = walker.town.recorder.of_key(walker.town.keys[walker.here.holder], 0.0)
    return {
        it.fields["against"]
        for it in taken
        if it.is_done
        and it.path == f"/riders/{rider}/entries"
        and it.fields.get("entry") == "appeal"
    }


def told(walker: "Walker", rule: str, fault: str | None) -> Iterator[tuple[str, str, float]]:
    """A fault, which counts once a new day has been read; or one more thing that holds."""
    if fault:
        yield rule, fault, walker.grace
    else:
        walker.report.holds(rule)


def said_as_done(walker: "Walker", done: list[list[str]]) -> Iterator[tuple[str, str, float]]:
    """What is said to be done was accepted since the page was loaded."""
    key, rider = walker.town.keys[walker.here.holder], walker.look.subject
    for form, text in done:
        kind = cases.done_kind(form, text, walker.words)
        entry = cases.ENTRIES.get(kind, kind)
        taken = [
            it
            for it in walker.town.recorder.of_key(key, walker.look.loaded / 1000)
            if it.is_done
            and it.path == f"/riders/{rider}/entries"
            and it.fields.get("entry") == entry
        ]
        yield from told(
            walker,
            REPLY,
            None
            if taken
            else f"{text[:160]!r} is said, and the desk took no {entry} of rider {rider}",
        )


def before_entry(walker: "Walker", name: str) -> None:
    """A button is pressed: what it asks about, if that is an entry."""
    kind = cases.kind_of(name, walker.words)
    walker.entry = (kind, walker.look.subject) if kind and walker.look.subject else None


def is_yes(walker: "Walker", name: str) -> bool:
    """Whether a button of a question enters what it asks about. Other questions have such answers too."""
    words = walker.words
    if walker.entry is None:
        return False
    begins = [cases.begin_of(words, "cases.yes", it) for it in words.patterns]
    return any(name.startswith(it) for it in begins) or any(
        words.is_text(name, it) for it in ("cases.appeal-yes", "cases.appeal-yes-own")
    )


def confirm(walker: "Walker") -> None:
    """The question about an entry was answered yes: it may be entered once."""
    if walker.entry:
        kind, rider = walker.entry
        permit = Permit(
            "entry",
            walker.town.keys[walker.here.holder],
            walker.number,
            rider=rider,
            entry=cases.ENTRIES.get(kind, kind),
            path=kind,
        )
        walker.ledger.give(permit)
        walker.entered = (permit, walker.town.recorder.count(), walker.here.handle)
        walker.entry = None


def hold_entry(walker: "Walker", loaded: float) -> None:
    """A yes to an entry led to a request, and the page says what came of it."""
    if not walker.entered or walker.look.dialog:
        return
    permit, at, handle = walker.entered
    walker.entered = None
    if (
        handle != walker.here.handle
        or walker.look.loaded != loaded
        or walker.offline
        or walker.look.subject != permit.rider
    ):
        return
    end = time.monotonic() + PATIENCE
    while True:
        fault = fault_of_entry(walker, permit, at)
        walker.look = walker.page.look()
        if not fault or walker.look.sign or walker.look.loaded != loaded:
            break
        if time.monotonic() > end:
            walker.report.breaks(DONE, fault, walker.here.role)
            return
        time.sleep(0.2)
    if not fault:
        walker.report.holds(DONE)


def fault_of_entry(walker: "Walker", permit: Permit, at: int) -> str | None:
    """What is wrong of an entry that was confirmed, or None."""
    tries = [
        it
        for it in walker.town.recorder.since(at)
        if it.key == permit.key
        and it.path == f"/riders/{permit.rider}/entries"
        and it.fields.get("entry") == permit.entry
    ]
    says, denials = [
        cases.done_kind(kind, text, walker.words)
        for kind, text in walker.browser.script(cases.CASE)["done"]
    ], walker.browser.script(shown.FAULTS)
    if not tries:
        return f"{permit} ({permit.path}) was confirmed, and nothing was asked"
    if any(it.is_done for it in tries):
        if permit.path == "rest":
            walker.in_part.discard(permit.rider or 0)
        if permit.path == "in-part":
            walker.in_part.add(permit.rider or 0)
        return (
            None
            if permit.path in says
            else f"{permit} ({permit.path}) is done, and the page says {says}"
        )
    if tries[-1].denied and not (walker.look.denials or denials):
        return f"{permit} ({permit.path}) is denied {tries[-1].denied}, and no sentence says so"
    return None
