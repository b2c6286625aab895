"""What a case shows: standing, letters, what was entered and what waits, and how it has to be by the desk's present answer. No browser here."""

import datetime
import re
from html.parser import HTMLParser
from typing import Any

from walk_parts import speech
from walk_parts.words import Words

HEAD = """
const plain = (text) => (text ?? "").replace(/\\s+/g, " ").trim();
const seen = (it) => it.checkVisibility({ visibilityProperty: true });
"""
CASE = (
    HEAD
    + """
const standings = [...document.querySelectorAll("#standing-answer")].filter(seen).map((it) => ({ verdict: plain(it.querySelector(".verdict")?.textContent),
    text: plain(it.querySelector(".standing")?.innerText), age: plain(it.closest(".card").querySelector(":scope > .age")?.textContent) })).filter((it) => it.verdict);
const letters = [...document.querySelectorAll(".card")].filter((it) => seen(it) && it.querySelector(":scope > ol.letters, :scope > [role=status]") && !it.querySelector(":scope > table, #standing-answer"))
    .map((card) => ({ age: plain(card.querySelector(":scope > .age")?.textContent), says: plain(card.querySelector(":scope > [role=status]")?.textContent),
        letters: [...card.querySelectorAll(":scope > ol.letters > li")].map((it) => ({ heading: plain(it.querySelector("h3")?.textContent), day: plain(it.querySelector(":scope > .letter-top > p")?.textContent), text: it.querySelector("pre")?.textContent ?? "",
            whole: plain(`${it.innerText} ${it.querySelector(":scope > .letter-text > .stack")?.textContent ?? ""}`),
            offers: Boolean(it.querySelector(":scope > .row button:is(.danger, .main)")), parts: [...it.querySelectorAll(":scope > p, :scope > .letter-text > .stack > p")].map((one) => plain(one.textContent)) })) }));
const done = [...[...document.querySelectorAll("details.entry[data-entry] p.good")].map((it) => [it.closest("details").dataset.entry, it]),
    ...[...document.querySelectorAll("[id^=answer-letter-] p.good")].map((it) => ["appeal", it]),
    ...[...document.querySelectorAll("[id^=decided-] p.good")].map((it) => ["", it])].filter(([, it]) => seen(it)).map(([kind, it]) => [kind, plain(it.textContent)]);
const files = [...document.querySelectorAll(".case")].filter(seen).map((it) => ({ age: plain(it.querySelector(".case-letter > .age")?.textContent),
    entries: [...it.querySelectorAll(".entries button[aria-pressed]")].map((one) => Number(/\\d+/.exec(one.textContent)?.[0])), records: [...it.querySelectorAll(".letter-sheet .on-record pre")].map((one) => one.textContent.trim()),
    parts: [...it.querySelectorAll(".case-letter > p")].map((one) => plain(one.textContent)) }));
return { standings, letters, done, files };
"""
)
ROWS = (
    HEAD
    + """
return [...document.querySelectorAll("main section[lang=en]")].filter((it) => it.closest("main") && it.querySelector("h2")).map((it) => ({ title: plain(it.querySelector("h2").textContent),
    rows: [...it.querySelectorAll("tbody tr")].map((row) => [...row.children].map((cell) => plain(cell.textContent))) }));
"""
)
RIDES = {"presumed", "appeal-overdue", "granted", "visitor"}
APPEALABLE, ANSWERED, APPEAL_DAYS = (
    ("refused", "suspended"),
    ("appeal granted", "appeal denied", "suspension overturned"),
    60,
)
# The desk's name of what the form of a kind enters, where it is another one.
ENTRIES = {"in-part": "refuse", "rest": "grant"}
KINDS = tuple(
    """
    complete grant in-part rest refuse heard appeal-granted appeal-denied overturn notice
    notice-heard suspend
    """.split()
)
# Of entries in a row at most four have no letter.
WITHOUT_LETTER = 4
# A cell that is marked as a day: a page writes it in its reader's language.
DAY = re.compile(r"@?\b(\d{4}-\d\d-\d\d)\b")
LONG_EN, LONG_ES = re.compile(r"[A-Z]\w+day, ([A-Z]\w+ \d{1,2}, \d{4})"), re.compile(
    r"(\d{1,2}) de (\w+) de (\d{4})"
)


def lines_of(letter: str) -> dict[str, str]:
    """The lines of the desk's text of a letter, by their names."""
    return {
        name: rest
        for name, _, rest in (line.partition(" ") for line in letter.rstrip("\n").split("\n"))
    }


def first_day(text: str, language: str) -> str | None:
    """The first day in a text, as the page writes days in full."""
    if language == "en":
        found = LONG_EN.search(text)
        return (
            datetime.datetime.strptime(found[1], "%B %d, %Y").date().isoformat() if found else None
        )
    found = LONG_ES.search(text)
    if not found or found[2] not in speech.MONTHS_ES:
        return None
    return f"{found[3]}-{speech.MONTHS_ES.index(found[2]) + 1:02}-{int(found[1]):02}"


def suspension_on(day: str, letters: list[tuple[int, str]]) -> tuple[str, str] | None:
    """The first and the last day of the suspension that holds on a day, by the rider's letters; None where they have none."""
    known = [lines_of(text) for _, text in letters]
    found = [
        at
        for at, it in enumerate(known)
        if it.get("DECISION") == "suspended" and it["FROM"] <= day <= it["TO"]
    ]
    is_lifted = not found or any(
        it.get("DECISION") == "suspension overturned" for it in known[found[-1] + 1 :]
    )
    return None if is_lifted else (known[found[-1]]["FROM"], known[found[-1]]["TO"])


def fault_of_standing(
    shown: dict[str, Any],
    standing: dict[str, Any],
    words: Words,
    language: str,
    suspension: tuple[str, str] | None = None,
) -> str | None:
    """How a standing differs from the desk's of that day, or None. suspension has the days of the one that holds, as far as a letter has them."""
    if shown["age"]:
        return None
    text, kind = shown["text"], standing.get("standing", "none")
    if "denied" in standing:
        return f"the standing says {shown['verdict']!r}, and the desk denies {standing['denied']}"
    texts, may = words.texts[language], kind in RIDES and not standing["suspended"]
    has_days = begin_of(words, "cases.suspended-days", language) in text
    wanted = [
        ("verdict", shown["verdict"].startswith("✓" if may else "✗")),
        ("reason", texts.get(f"cases.why-{kind}", "") in text),
        (
            "suspension",
            (texts["cases.suspended"] in text or has_days) == bool(standing["suspended"]),
        ),
        (
            "days of the suspension",
            not has_days
            or (
                suspension is not None
                and all(speech.day_of(it, language) in text for it in suspension)
            ),
        ),
        (
            "last day",
            not standing.get("until") or speech.day_of(standing["until"], language) in text,
        ),
    ]
    several = standing.get("conditions") or []
    wanted += [
        (
            "choice of conditions",
            len(several) < 2 or (" or " if language == "en" else " o ") in text,
        )
    ]
    wanted += [
        ("conditions", f"{int(it.split(':')[1]):,}" in text)
        for it in several
        if it.startswith("farther:")
    ]
    wrong = [name for name, holds in wanted if not holds]
    return (
        f"the {' and '.join(wrong)} of a standing: {text[:240]!r}, and the desk has {standing}"
        if wrong
        else None
    )


def fault_of_letters(
    shown: dict[str, Any],
    letters: list[tuple[int, str]],
    appealed: set[int],
    today: str,
    words: Words,
    language: str,
) -> str | None:
    """How the letters of a rider differ from the desk's, or None. appealed are those that this browser's key has appealed."""
    if shown["age"]:
        return None
    got, wanted = [it["text"].strip() for it in shown["letters"]], [
        text.strip() for _, text in letters
    ]
    if got != wanted:
        return f"{len(got)} letters are shown ({shown['says'][:80]!r}), and the desk has {len(wanted)}; the last ones are {got[-1:]} and {wanted[-1:]}"
    known = [lines_of(text) for _, text in letters]
    for at, (one, lines) in enumerate(zip(shown["letters"], known, strict=True)):
        fault = fault_of_letter(one, lines, known[at + 1 :], today, words, language)
        if (
            not fault
            and letters[at][0] in appealed
            and one["offers"]
            and not any(it.get("DECISION") in ANSWERED for it in known[at + 1 :])
        ):
            fault = "an appeal against it was entered here, and it may be entered again"
        if fault:
            return f"letter {letters[at][0]}: {fault}"
    return None


def fault_of_file(
    shown: dict[str, Any], letters: list[tuple[int, str]], words: Words, language: str
) -> str | None:
    """How the letters that a case file offers differ from the desk's, or None; the one that is read is one of them, word for word, with its last day to appeal."""
    if shown["age"]:
        return None
    wanted = sorted(entry for entry, _ in letters)
    if sorted(shown["entries"]) != wanted:
        return f"the letters are shown as {sorted(shown['entries'])}, and the desk has {wanted}"
    texts = {text.strip() for _, text in letters}
    other = [it for it in shown["records"] if it not in texts]
    if other:
        return f"letters are shown that the desk has not: {other[0][:200]!r}"
    said = [
        it for it in shown["parts"] if it.startswith(begin_of(words, "cases.appeal-by", language))
    ]
    if not said:
        return None
    lines = lines_of(shown["records"][0])
    last = (
        datetime.date.fromisoformat(lines["DATE"]) + datetime.timedelta(days=APPEAL_DAYS)
    ).isoformat()
    fits = lines["DECISION"] in APPEALABLE and first_day(said[0], language) == last
    return None if fits else f"it is {lines['DECISION']} of {lines['DATE']}, and {said[0]!r}"


def fault_of_letter(
    one: dict[str, Any],
    lines: dict[str, str],
    later: list[dict[str, str]],
    today: str,
    words: Words,
    language: str,
) -> str | None:
    """How one letter differs from the desk's: its day, the days in it, and until when it may be appealed."""
    decision, date = lines.get("DECISION", ""), lines.get("DATE", "")
    beside = speech.day_of_year(date) if language == "en" else speech.day_of(date, language)
    if (
        one.get("day") != beside
        if one.get("day")
        else speech.day_of(date, language) not in one["heading"].split(": ")[0]
    ):
        return f"its day is {date}, and its heading {one['heading']!r} with {one.get('day', '')!r}"
    is_part = any(words.is_text(it, "cases.part-of-letter") for it in one["parts"])
    for name in ("UNTIL", "FROM", "TO") if not is_part else ():
        if name in lines and speech.day_of(lines[name], language) not in one["whole"]:
            return f"{name} is {lines[name]}, and the page says {one['whole'][:300]!r}"
    said = [
        it
        for it in one["parts"]
        if any(
            it.startswith(begin_of(words, key, language))
            for key in ("cases.appeal-by", "rider.appeal-by")
        )
    ]
    last = (datetime.date.fromisoformat(date) + datetime.timedelta(days=APPEAL_DAYS)).isoformat()
    if said and (decision not in APPEALABLE or first_day(said[0], language) != last):
        return f"it is {decision} of {date}, and {said[0]!r}"
    filed = [
        it
        for it in one["parts"]
        if any(
            it.startswith(begin_of(words, key, language))
            for key in ("cases.appeal-filed", "cases.appeal-filed-own")
        )
    ]
    is_open = (
        decision in APPEALABLE
        and today <= last
        and not any(it.get("DECISION") in ANSWERED for it in later)
    )
    if is_open and not said and not filed:
        return f"it is {decision} of {date} and may be appealed until {last}, of which nothing is said: {one['whole'][:200]!r}"
    return f"it may not be appealed any more: {said[0]!r}" if said and not is_open else None


def begin_of(words: Words, key: str, language: str) -> str:
    """How a text begins, up to its first value."""
    pattern = words.patterns[language][key].pattern
    return re.sub(r"\\(.)", r"\1", pattern.split("(.+?)")[0])


def done_kind(kind: str, text: str, words: Words) -> str:
    """Which kind of entry is said to be done: that of its form, or by its words where the form has gone with what it decided."""
    return kind or next((it for it in KINDS if words.is_text(text, f"cases.done-{it}")), text)


def kind_of(name: str, words: Words) -> str | None:
    """Which kind of entry a button of a form stands for, by its name."""
    if words.is_text(name, "cases.appeal-own") or words.is_text(name, "cases.appeal-for"):
        return "appeal"
    return next((it for it in KINDS if words.is_text(name, f"cases.do-{it}")), None)


class Lists(HTMLParser):
    """The lists of the page of what waits, as bin/worklist writes it: the rows of each list by its name."""

    def __init__(self, text: str) -> None:
        super().__init__()
        self.rows: dict[str, list[list[str]]] = {}
        self.list, self.cell, self.in_body, self.day = "", False, False, ""
        self.feed(text)

    def handle_starttag(self, tag: str, attrs: list[tuple[str, str | None]]) -> None:
        name = dict(attrs).get("id")
        if tag in ("section", "details"):
            self.list = name or "" if tag == "section" else "folded"
            self.rows.setdefault(self.list, [])
        if tag in ("tbody", "thead"):
            self.in_body = tag == "tbody"
        if tag == "tr" and self.in_body and self.list:
            self.rows[self.list].append([])
        if tag in ("td", "th") and self.in_body and self.list and self.rows[self.list]:
            self.cell = True
            self.rows[self.list][-1].append("")
        if tag == "time":
            self.day = dict(attrs).get("datetime") or ""

    def handle_endtag(self, tag: str) -> None:
        if tag in ("td", "th"):
            self.cell = False
        if tag == "time":
            self.day = ""

    def handle_data(self, data: str) -> None:
        if self.cell:
            self.rows[self.list][-1][-1] += f"@{self.day}" if self.day else data


def is_cell(shown: str, cell: str, today: str, language: str) -> bool:
    """Whether a cell is shown: its conditions in words, each day as the reader's language has it, without its year where that is this one."""
    cell, pattern, at = speech.conditions(cell), "", 0
    for found in DAY.finditer(cell):
        day = found[1]
        if language == "en":
            words = re.escape(
                speech.day_short(day) if day[:4] == today[:4] else speech.day_long(day)
            )
        else:
            words = rf"[^\d]*(?<!\d){int(day[8:])}(?!\d).*?"
        pattern += re.escape(cell[at : found.start()]) + words
        at = found.end()
    return bool(re.fullmatch(pattern + re.escape(cell[at:]), shown))


def fault_of_lists(
    shown: list[dict[str, Any]],
    text: str,
    left_out: set[str],
    today: str = "",
    language: str = "en",
) -> str | None:
    """How the lists of what waits differ from the night's list, or None."""
    lists = {
        name: rows
        for name, rows in Lists(text).rows.items()
        if name and name not in left_out | {"folded"}
    }
    lacks = [[" ".join(cell.split()) for cell in row] for rows in lists.values() for row in rows]
    has = []
    for got in ([" ".join(cell.split()) for cell in row] for it in shown for row in it["rows"]):
        same = next(
            (
                row
                for row in lacks
                if len(row) == len(got)
                and all(
                    is_cell(one, cell, today, language) for one, cell in zip(got, row, strict=True)
                )
            ),
            None,
        )
        if same is None:
            has.append(got)
        else:
            lacks.remove(same)
    return f"what waits lacks {lacks[:3]} and has {has[:3]} of its own" if lacks or has else None
