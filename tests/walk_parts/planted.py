"""Faults put back into a copy of the pages, one at a time: what a walk is to find. Each names a file, what stands there and what is put there."""

import os
import re
import shutil
import subprocess
import tempfile
from dataclasses import dataclass
from pathlib import Path

WALK = os.path.join(os.path.dirname(os.path.dirname(os.path.realpath(__file__))), "walk")
SECONDS = 600
REPLY, AGE, COUNTED = (
    "a sentence about the desk comes from a reply",
    "what is shown has an age",
    "what is counted is counted",
)
CONFIRMED, DONE, PLAN = (
    "nothing is done that was not confirmed",
    "what is confirmed is done once",
    "a plan means what the rider said",
)
PLACE, WORDS, LANGUAGE, FOCUS = "a place is found by its name", "words", "language", "focus"


@dataclass(frozen=True)
class Planted:
    """A fault, the rule by which a walk finds it with what that says of it (a pattern), and the walk: does is what is mostly done in it."""

    name: str
    rule: str
    says: str
    file: str
    old: str
    new: str
    seed: int = 21
    steps: int = 400
    role: str = "clerk"
    does: str = "book"


FAULTS = [
    Planted(
        "a word is missing",
        WORDS,
        "trips.list-coming",
        "words/en/trips.js",
        '    "trips.list-coming": "Upcoming",\n',
        "",
        does="show_rider",
    ),
    Planted(
        "a window is an hour off",
        AGE,
        "has the window",
        "screens/ticket.js",
        "export const windowOf = ({ window_from: from, window_to: to }) => between(from, to);",
        "export const windowOf = ({ window_from: from, window_to: to }) => between(from + 60, to + 60);",
        does="show_rider",
    ),
    Planted(
        "from and to are exchanged in a list",
        AGE,
        "goes to",
        "screens/trips.js",
        '"aria-label": t("trips.to") }, "→"), " ", to)',
        '"aria-label": t("trips.to") }, "→"), " ", from)',
        does="show_rider",
    ),
    Planted(
        "bookings are not counted",
        COUNTED,
        "/tally/bookings",
        "screens/booking-plan.js",
        '    count("bookings",',
        '    if (ticket.trip < 0) count("bookings",',
    ),
    Planted(
        "cancellations are not counted",
        COUNTED,
        "/tally/cancellations",
        "parts/tally.js",
        "    if (reply.denied === undefined) await keep({ ...event, from: 0 });",
        "    if (reply.denied === undefined) await drop(event.id);",
        does="cancel",
    ),
    Planted(
        "Spanish is English",
        LANGUAGE,
        "For a round trip",
        "screens/booking-fields.js",
        'hint: t("booking.back-hint")',
        'hint: "For a round trip. Otherwise leave it empty."',
        seed=36,
        does="show_rider",
    ),
    Planted(
        "another trip is cancelled",
        CONFIRMED,
        "/cancel",
        "screens/trips.js",
        'reply = await cancelTrip(trip.trip, "rider");',
        'reply = await cancelTrip(trip.trip - 1, "rider");',
        does="cancel",
    ),
    Planted(
        "a scrolling list is a stop of Tab",
        FOCUS,
        "TAB",
        "parts/combo.js",
        '"aria-label": label, hidden: true, tabindex: -1,',
        '"aria-label": label, hidden: true,',
    ),
    Planted(
        "a suspension ends with the grant",
        AGE,
        "a suspension is said to end with the grant",
        "screens/rider-card.js",
        "if (suspended) return days ?",
        'if (suspended) return `${t("clerk.suspended")} ${t("clerk.until", { day: dayInWords(String(until)) })}`;\n    if (suspended) return days ?',
        does="show_rider",
    ),
    Planted(
        "what this window wrote is not read again",
        AGE,
        "lacks trips",
        "parts/reads.js",
        '    others?.postMessage("written");\n    readSoon();',
        '    others?.postMessage("written");',
    ),
    Planted(
        "denials are not counted",
        COUNTED,
        "/tally/denials",
        "screens/booking-plan.js",
        '    count("denials",',
        '    if (minute < 0) count("denials",',
    ),
    Planted(
        "a no is a yes",
        CONFIRMED,
        "nobody confirmed it",
        "parts/ask.js",
        '    return answer === "yes";',
        '    return answer !== "";',
        does="cancel",
    ),
    Planted(
        "a note is closed, and the focus goes with it",
        FOCUS,
        "focus is nowhere",
        "parts/notes.js",
        '    target.focus({ preventScroll: target.id === "main" });',
        "",
    ),
    Planted(
        "a denial is made where nothing was asked",
        REPLY,
        "no reply had it|the replies since the press were",
        "screens/booking-plan.js",
        "const reply = await sent(rider, { ...leg.wish, wish, by }, again);",
        'const reply = wish > 1200 ? /** @type {any} */ ({ denied: "no vehicle" }) : await sent(rider, { ...leg.wish, wish, by }, again);',
    ),
    Planted(
        "NaN in what was searched",
        WORDS,
        "NaN",
        "parts/wishes.js",
        'if (mode === "around") return [cut(minute - NEGOTIATED_MINUTES), cut(minute + NEGOTIATED_MINUTES)];',
        'if (mode === "around") return [cut(minute - NEGOTIATED_MINUTES), cut(minute + NaN)];',
    ),
    Planted(
        "the first rule ends the plan",
        PLAN,
        "but the desk takes wish",
        "parts/wishes.js",
        "const OF_MINUTE = [FULL, ",
        "const OF_MINUTE = [FULL], REST = [FULL, ",
    ),
    Planted(
        "not before is booked at any time after",
        PLAN,
        "is booked without a question",
        "parts/wishes.js",
        'return from <= minute + NEGOTIATED_MINUTES && from >= (mode === "around" ? minute - NEGOTIATED_MINUTES : minute);',
        "return true;",
    ),
    Planted(
        "a list stays as it was first read",
        AGE,
        "lacks trips",
        "parts/reads.js",
        "setInterval(look, LOOKED);",
        "",
        does="show_rider",
    ),
    Planted(
        "a change that is denied says not booked",
        PLAN,
        "is denied, and told as",
        "screens/booking.js",
        "const heading = trip ? standsWords(trip) : t(",
        "const heading = t(",
        does="change",
    ),
    Planted(
        "what broke is sent as something new",
        CONFIRMED,
        "/trips ",
        "parts/desk.js",
        "const reply = await post(pending.path, pending.body, pending.number);",
        "const reply = await post(pending.path, pending.body, pending.resent ? pending.number = takeNumber() : pending.number);",
    ),
    Planted(
        "an appeal is said to be taken until another day",
        AGE,
        "it is (refused|suspended) of",
        "screens/letters.js",
        "const lastDay = ({ date }) => plus(date, APPEAL_DAYS);",
        "const lastDay = ({ date }) => plus(date, APPEAL_DAYS - 1);",
        role="examiner",
        does="decide",
    ),
    Planted(
        "the standing of a day is that of today",
        AGE,
        "of a standing",
        "screens/cases.js",
        "read: reading(desk.pathOf.standing(rider, day)) }),",
        "read: reading(desk.pathOf.standing(rider, today())) }),",
        role="examiner",
        does="standing_on_a_day",
    ),
    Planted(
        "one condition or another is both",
        AGE,
        "choice of conditions",
        "screens/cases.js",
        'conditions: anyOf(conditions.map((it) => conditionInWords(it))) }), " (49',
        'conditions: conditions.map((it) => conditionInWords(it)).join(" and ") }), " (49',
        role="examiner",
        does="show_rider",
    ),
    Planted(
        "letters after an entry without one are not read",
        AGE,
        "letters are shown",
        "screens/letters.js",
        "const WITHOUT_LETTER = 4;",
        "const WITHOUT_LETTER = 0;",
        role="examiner",
        does="decide",
    ),
    Planted(
        "a decision that is denied is said to be done",
        REPLY,
        "the desk took no",
        "screens/cases.js",
        "send: (given) => enter(rider, { entry, ...entryOf(given) }),",
        "send: (given) => enter(rider, { entry, ...entryOf(given) }).then((it) => (it.denied === undefined ? it : /** @type {any} */ ({ value: { entered: 1 } }))),",
        role="officer",
        does="decide",
    ),
    Planted(
        "an entry is sent twice",
        DONE,
        "is done, and the page says",
        "parts/entered.js",
        "    const reply = await desk.enter(rider, fields);",
        "    await desk.enter(rider, fields);\n    const reply = await desk.enter(rider, fields);",
        role="examiner",
        does="decide",
    ),
    Planted(
        "a filed appeal is offered again",
        AGE,
        "it may be entered again",
        "screens/letters.js",
        "const filed = appealedHere(letter, letters, entered);",
        "const filed = /** @type {any} */ (null) && appealedHere(letter, letters, entered);",
        role="rider",
        does="appeal",
    ),
    Planted(
        "a list of what waits loses its last row",
        AGE,
        "what waits lacks",
        "screens/worklist.js",
        '[...it.querySelectorAll("tbody tr")].map((row)',
        '[...it.querySelectorAll("tbody tr")].slice(0, -1).map((row)',
        role="officer",
        does="what_waits",
    ),
    Planted(
        "the same trip twice is not asked about",
        DONE,
        "was booked without a question",
        "screens/booking.js",
        "const nowhere = legs.some(({ wish }) => wish.from === wish.to), same = booked.filter(isSame),",
        "const nowhere = legs.some(({ wish }) => wish.from === wish.to), same = booked.filter((it) => isSame(it) && it.trip < 0),",
    ),
    Planted(
        "the home of two people is one's alone",
        PLACE,
        "was typed",
        "parts/agency.js",
        "return rider === undefined || [whose].flat().map(Number).includes(rider);",
        "return rider === undefined || [whose].flat().slice(0, 1).map(Number).includes(rider);",
    ),
    Planted(
        "a form that is left goes without a word",
        DONE,
        "its part left",
        "screens/booking.js",
        "            if (question === undefined) left(rider);\n",
        "",
    ),
    Planted(
        "two sends of one form",
        CONFIRMED,
        "nobody confirmed it",
        "parts/fields.js",
        "        busy = true;\n        drawInto(box, []);",
        "        drawInto(box, []);",
    ),
]


def planted_in(pages: str, fault: Planted, folder: str) -> str:
    """A copy of the pages with the fault; it raises ValueError where what it replaces is not there."""
    copy = os.path.join(folder, "pages")
    shutil.copytree(pages, copy)
    path = os.path.join(copy, fault.file)
    text = Path(path).read_text("utf-8")
    if fault.old not in text:
        raise ValueError(f"{fault.file} has no {fault.old!r}")
    Path(path).write_text(text.replace(fault.old, fault.new, 1), "utf-8")
    return copy


def found(pages: str, program: str, towns: str, fault: Planted) -> list[str]:
    """What the walk says of a fault: each breach with its seed and its step, none where it is not found."""
    with tempfile.TemporaryDirectory(prefix="desk-planted-") as folder:
        words = [
            WALK,
            "--seed",
            str(fault.seed),
            "--steps",
            str(fault.steps),
            "--role",
            fault.role,
            "--does",
            fault.does,
            "--towns",
            towns,
            "--first",
            "--seconds",
            str(SECONDS),
            program,
        ]
        ran = subprocess.run(
            words,
            env={**os.environ, "PAGES_FOLDER": planted_in(pages, fault, folder)},
            capture_output=True,
            text=True,
            check=False,
        )
        lines = ran.stdout.splitlines()
        if not lines or not lines[-1].endswith(" failed"):
            raise ValueError(f"the walk ended early: {ran.stderr[-300:]}")
        return [
            f"{line.partition('FAILED: ')[2]} {lines[at + 1].split(', as')[0].strip()}"
            for at, line in enumerate(lines[:-1])
            if line.startswith("walk: FAILED: ")
        ]


def is_its_own(fault: Planted, breach: str) -> bool:
    """Whether a breach is that of the fault: by its rule, and with what that says of it."""
    return breach.startswith(f"{fault.rule}: ") and bool(re.search(fault.says, breach))
