"""What a screen shows, read from it, and what it has to show by the desk's present answer."""

import re
from dataclasses import dataclass
from typing import Any

from walk_parts import speech
from walk_parts.cases import CASE
from walk_parts.words import Words

TRIPS = """
const plain = (text) => (text ?? "").replace(/\\s+/g, " ").trim();
const seen = (it) => it.checkVisibility({ visibilityProperty: true });
const heads = [...document.querySelectorAll("h2[id^='trips-']")].filter(seen), wholeOf = (head) => (head.closest(".trips-card") ?? head).parentElement;
return heads.map((head) => [head, wholeOf(head)]).map(([head, whole]) => {
    const rows = [...whole.querySelectorAll("[data-trip]")].map((it) => [Number(it.dataset.trip), plain(it.textContent)]);
    const items = [...whole.querySelectorAll("ul.cards > li")].map((it) => [Number(/\\d+/.exec(it.querySelector(".hint")?.textContent ?? "")?.[0]), plain(it.textContent)]);
    const folds = [...whole.querySelectorAll(".trips-card > .head button[aria-expanded=false]")].map((it) => plain(it.textContent));
    return { rider: Number(head.id.slice(6)), rows: [...rows, ...items], folds, age: plain(whole.querySelector(".age")?.textContent),
        denied: Boolean(whole.querySelector(":scope > .denial, :scope > .trips-card > .denial")), empty: !rows.length && !items.length && !folds.length, text: plain(whole.textContent).slice(0, 300) };
});
"""
CARD = """
const plain = (text) => (text ?? "").replace(/\\s+/g, " ").trim();
const seen = (it) => it.checkVisibility({ visibilityProperty: true });
const card = [...document.querySelectorAll(".rider-card")].filter(seen)[0];
return card ? { verdict: plain(card.querySelector(".verdict")?.textContent), chip: card.querySelector(".verdict")?.closest(".chip")?.className ?? "", whole: plain(card.textContent), age: plain(card.querySelector(".age")?.textContent),
    denied: plain(card.querySelector(".denial")?.textContent) } : null;
"""
DAY_TRIPS = """
const plain = (text) => (text ?? "").replace(/\\s+/g, " ").trim();
const seen = (it) => it.checkVisibility({ visibilityProperty: true });
const table = [...document.querySelectorAll("table.day-trips")].filter(seen)[0];
if (!table) return null;
const heads = [...table.querySelectorAll("thead th")].map((it) => it.querySelector("button")?.id ?? "");
const at = heads.indexOf("sort-trip");
return { day: document.querySelector("main input[type=date]")?.value ?? "", typed: document.querySelector("#trip-search")?.value ?? "",
    filtered: document.querySelector(".trip-tools .filter[aria-pressed=true]")?.textContent !== document.querySelector(".trip-tools .filter[data-filter=all]")?.textContent,
    age: [...document.querySelectorAll("main .age")].filter(seen).map((it) => plain(it.textContent)).join(" "),
    rows: [...table.querySelectorAll("tbody tr")].map((row) => [Number(plain(row.children[at]?.textContent)), plain(row.textContent)]) };
"""
STOPS = """
const plain = (text) => (text ?? "").replace(/\\s+/g, " ").trim();
const seen = (it) => it.checkVisibility({ visibilityProperty: true });
const list = [...document.querySelectorAll(".driver-stops")].filter(seen)[0];
if (!list) return null;
return { rows: [...list.querySelectorAll("li")].map((it) => [plain(it.querySelector(".driver-row .t")?.textContent), plain(it.textContent)]),
    day: plain(document.querySelector("#driver-day")?.textContent), line: plain(document.querySelector("#driver-line")?.textContent) };
"""
LEGS = """
const plain = (text) => (text ?? "").replace(/\\s+/g, " ").trim();
const seen = (it) => it.checkVisibility({ visibilityProperty: true });
return [...document.querySelectorAll(".legs > li")].filter((it) => seen(it) && !it.closest("[data-sent-list], #notes")).map((it) => ({ ticket: Boolean(it.querySelector(".ticket")), text: plain(it.textContent),
    heading: plain(it.querySelector("h3")?.textContent), denial: plain(it.querySelector(".denial strong")?.textContent),
    window: plain(it.querySelector(".ticket .window")?.textContent), far: plain(it.querySelector(".ticket .far")?.textContent), offer: Boolean(it.querySelector(".offer")), waiting: it.classList.contains("waiting") && it.textContent.includes("…"),
    refused: Boolean(it.querySelector(".refused")), inner: Boolean(it.closest(".inner")) }));
"""
LEFT = """
const plain = (text) => (text ?? "").replace(/\\s+/g, " ").trim();
const seen = (it) => it.checkVisibility({ visibilityProperty: true });
return [...document.querySelectorAll("[data-sent-list] li, #notes li")].filter((it) => seen(it) && it.matches(".left, .unsent")).map((it) => plain(it.textContent)).filter(Boolean);
"""
FAULTS = """
const plain = (text) => (text ?? "").replace(/\\s+/g, " ").trim();
const seen = (it) => it.checkVisibility({ visibilityProperty: true });
return [...document.querySelectorAll(".fault, [role=alert]")].filter(seen).map((it) => plain(it.textContent)).filter(Boolean);
"""
# The parts of screens that show a case.
SCREENS = ("#clerk/file", "#examiner", "#officer", "#rider/standing", "#rider/letters")
IS_CASE = f"{list(SCREENS)}.some((it) => location.hash.startsWith(it))"
# What is compared after each step, as a value of a script: trips, the card of a rider, the trips of a day, a driver's stops, a case.
ALL = (
    "{ "
    + ", ".join(
        f"{name}: (() => {{ {script} }})()"
        for name, script in (
            ("trips", TRIPS),
            ("card", CARD),
            ("day", DAY_TRIPS),
            ("stops", STOPS),
            ("case", f"if (!{IS_CASE}) return null; {CASE}"),
        )
    )
    + " }"
)
# Where a text chooses among words by its count, its pattern is not known.
COUNTS_ES = {"past": ("anterior", "anteriores"), "off": ("cancelado", "cancelados")}
TICKS = {"presumed", "appeal-overdue", "granted", "visitor"}


@dataclass(frozen=True)
class Names:
    """The names of places that everybody may read."""

    places: dict[int, str]


def folded_away(folds: list[str], words: Words) -> dict[str, int]:
    """How many trips the buttons name that open what is folded away: earlier ones, and canceled ones."""
    counts = {"past": 0, "off": 0}
    for text in folds:
        for name in counts:
            if words.is_text(text, f"booking.count-{name}") or any(
                re.fullmatch(rf"\d+ {it}", text) for it in COUNTS_ES[name]
            ):
                counts[name] += int(text.split()[0])
    return counts


def lacking(
    rows: set[int], trips: list[dict[str, Any]], folded: dict[str, int], today: str
) -> tuple[list[int], list[int]]:
    """The trips that a list lacks, and those that are canceled or over, where the buttons that open them count more or fewer."""
    gone = [it for it in trips if it["trip"] not in rows]
    off = [it["trip"] for it in gone if it["status"] == "cancelled"]
    past = [
        it["trip"]
        for it in gone
        if it["status"] != "cancelled"
        and (it["day"] < today or (it["day"] == today and it["status"] != "booked"))
    ]
    miscounted = [*off, *past] or [0]
    return (
        sorted(it["trip"] for it in gone if it["trip"] not in off and it["trip"] not in past),
        [] if folded == {"past": len(past), "off": len(off)} else miscounted,
    )


def fault_of_trips(
    shown: dict[str, Any],
    trips: list[dict[str, Any]],
    names: Names,
    words: Words,
    when: tuple[str, tuple[str, str]],
) -> str | None:
    """How a list of trips differs from the desk's, or None. What says as of when it is is not held against now. when is today and the names of a day's halves."""
    if shown["age"] or shown["denied"]:
        return None
    (today, halves), folded = when, folded_away(shown["folds"], words)
    rows = {int(number): text for number, text in shown["rows"] if number}
    wanted = {it["trip"]: it for it in trips}
    (lacks, miscounted), has = lacking(set(rows), trips, folded, today), sorted(
        set(rows) - set(wanted)
    )
    if lacks or has or miscounted:
        hidden = f", and folds {shown['folds']} away for {miscounted}" if miscounted else ""
        return f"the list of rider {shown['rider']} lacks trips {lacks} and has {has} of others{hidden}: {shown['text'][:160]!r}"
    for number, trip in wanted.items():
        if number not in rows:
            continue
        text = rows[number]
        window = speech.window(trip["window_from"], trip["window_to"], halves)
        if not any(it in text for it in speech.in_words(window)):
            return f"trip {number} of rider {shown['rider']} has the window {window}, but {text[:200]!r}"
        for end in ("from", "to"):
            name = names.places.get(trip[end])
            if name and name not in text:
                return f"trip {number} goes {end} {name}, but {text[:200]!r}"
    return None


def fault_of_card(
    shown: dict[str, Any], standing: dict[str, Any], words: Words, language: str
) -> str | None:
    """How the card of a rider differs from the desk's standing of today, or None."""
    if shown["age"]:
        return None
    if "denied" in standing:
        return (
            None
            if shown["denied"]
            else f"the card has {shown['verdict']!r}, and the desk denies {standing['denied']}"
        )
    verdict, kind = shown["verdict"], standing["standing"]
    may = kind in TICKS and not standing["suspended"]
    if ("good" if may else "bad") not in shown["chip"].split():
        return f"the card says {verdict!r} ({shown['whole'][:120]!r}), and the desk {standing}"
    texts = words.texts[language]
    said = (
        texts.get("clerk.suspended", "")
        if standing["suspended"]
        else texts.get(f"clerk.standing-{kind}", "")
    )
    if said and said.split(":")[0] not in verdict:
        return f"the card says {verdict!r}, and the desk {standing}"
    until = standing.get("until")
    if language == "en" and until:
        has = speech.day_long(until) in verdict or speech.day_of_year(until) in verdict
        if standing["suspended"] and has:
            return f"a suspension is said to end with the grant: {verdict!r}"
        if not standing["suspended"] and not has:
            return f"the grant ends on {until}, but the card says {verdict!r}"
    return None


STATUSES = ("booked", "cancelled", "ridden", "missed-rider", "missed-operator")


# How a trip that is over stands in the list of a day.
STANDS = {
    "ridden": ["completed"],
    "missed-rider": ["no-show", "confirm"],
    "missed-operator": ["missed"],
    "cancelled": ["canceled"],
}


def fault_of_day(
    given: dict[str, Any], csv: str, words: Words, language: str, halves: tuple[str, str]
) -> str | None:
    """How the trips of a day differ from the desk's, or None. What is searched shows some of them."""
    if given["age"]:
        return None
    lines = [it.split(",") for it in csv.splitlines()[1:]]
    wanted = {int(it[0]): it for it in lines if it and it[0].isdigit()}
    rows = {int(number): text for number, text in given["rows"]}
    strange = sorted(set(rows) - set(wanted))
    if strange or (
        not given["typed"]
        and not given["filtered"]
        and len(wanted) <= 60
        and set(rows) != set(wanted)
    ):
        return (
            f"the trips of {given['day']} lack {sorted(set(wanted) - set(rows))} and have {strange}"
        )
    for number, text in rows.items():
        line = wanted[number]
        window, known = speech.window(int(line[7]), int(line[8]), halves), words.texts[language]
        ended = {
            status: [known[f"dispatcher.stands-{it}"] for it in names]
            for status, names in STANDS.items()
        }
        is_said = (
            any(it in text for it in ended[line[10]])
            if line[10] in ended
            else not any(it in text for names in ended.values() for it in names)
        )
        if window not in text or not is_said:
            return f"trip {number} of {given['day']} is {window} {line[10]} at the desk, but {text[:200]!r}"
    return None


def fault_of_stops(given: dict[str, Any], manifest: str, halves: tuple[str, str]) -> str | None:
    """How a driver's list differs from the manifest, or None."""
    if given["line"]:
        return None
    times = [it.split(" ", 1)[0] for it in manifest.splitlines()[1:] if it[:2].isdigit()]
    wanted = [speech.clock(int(it[:2]) * 60 + int(it[3:]), halves) for it in times]
    got = [time for time, _ in given["rows"]]
    return (
        None
        if sorted(wanted) == sorted(got)
        else f"the driver's stops are at {got}, and the manifest's at {wanted}"
    )
