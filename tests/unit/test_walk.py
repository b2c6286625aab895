"""The rules of tests/walk without a browser: what a page may say, what an entry allows, and that no reload forgets a reply."""

from pathlib import Path
from typing import Any

import pytest

TOP = Path(__file__).resolve().parents[2]

from walk_parts import (
    asked,
    cases,
    shown as screens,
    speech,
)  # pylint: disable=wrong-import-position
from walk_parts.ledger import Ledger, Permit, Write
from walk_parts.recorder import Exchange, Recorder
from walk_parts.words import Words, read_words
from suites import walk as gate

KEY, OTHER = "a" * 26, "b" * 26
REFUSED = "RIDER 7\nDATE 2025-05-01\nDECISION refused\nREASONS It is near.\n"
GRANTED = "RIDER 7\nDATE 2025-05-02\nDECISION granted\nUNTIL 2025-09-30\nCONDITIONS always\n"


@pytest.fixture(scope="module", name="words")
def words_fixture() -> Words:
    """The pages' own words."""
    return read_words(str(TOP / "pages"))


def request(method: str, path: str, key: str, body: str = "") -> bytes:
    """A request as the site passes it on."""
    head = f"{method} {path} HTTP/1.1\r\nDesk-Key: {key}\r\nDesk-Number: 5\r\n"
    return f"{head}Content-Length: {len(body)}\r\n\r\n{body}".encode()


class Said(Recorder):
    """A recorder before a desk that says what the test says."""

    says = '{"denied":"37.125"}'

    def passed_on(self, _request: bytes) -> bytes:
        head = "HTTP/1.1 200 OK\r\nContent-Type: application/json\r\n\r\n"
        return (head + self.says).encode()


@pytest.fixture(name="recorder")
def recorder_fixture() -> Any:
    """A recorder on a port of its own."""
    made = Said(0, 0)
    yield made
    made.close()


def test_a_reply_stays_on_record_until_who_got_it_is_asked_about(recorder: Said) -> None:
    recorder.asked(request("GET", "/riders/7/standing/2025-05-01", KEY))
    first = recorder.exchanges[-1].at
    recorder.asked(request("GET", "/riders/8/standing/2025-05-01", KEY))
    assert [it.path for it in recorder.of_key(KEY, first)] == [
        "/riders/7/standing/2025-05-01",
        "/riders/8/standing/2025-05-01",
    ]
    assert recorder.of_key(OTHER, 0.0) == []
    assert recorder.of_key(KEY, recorder.exchanges[-1].at + 1) == []
    assert {it.denied for it in recorder.of_key(KEY, 0.0)} == {"37.125"}


def entry(name: str, number: int, rider: int = 7) -> Write:
    """An entry that the desk took."""
    return Write(f"/riders/{rider}/entries", KEY, number, {"entry": name}, {"entered": 1})


def test_a_yes_to_an_entry_allows_that_entry_once() -> None:
    ledger = Ledger()
    ledger.give(Permit("entry", KEY, 1, rider=7, entry="grant"))
    assert ledger.take(entry("refuse", 1)) is not None
    assert ledger.take(entry("grant", 2, rider=8)) is not None
    assert ledger.take(entry("grant", 3)) is None
    assert ledger.take(entry("grant", 3)) is None
    assert ledger.take(entry("grant", 4)) is not None


def shown(text: str, heading: str, *parts: str, offers: bool = False) -> dict[str, Any]:
    """The letters of a card with one letter."""
    letter = {"heading": heading, "text": text, "parts": list(parts), "offers": offers}
    letter["whole"] = " ".join([heading, *parts])
    return {"age": "", "says": "", "letters": [letter]}


BY = "This decision can be appealed through Monday, June 30, 2025."
DAY = "Thursday, May 1, 2025: We refused your application"


def test_a_letter_is_the_desks_with_its_days(words: Words) -> None:
    def fault(
        card: dict[str, Any], appealed: set[int] | None = None, today: str = "2025-05-20"
    ) -> str | None:
        own = [(1, card["letters"][0]["text"])]
        return cases.fault_of_letters(card, own, appealed or set(), today, words, "en")

    assert fault(shown(REFUSED, DAY, BY, offers=True)) is None
    assert "may be appealed" in str(fault(shown(REFUSED, DAY)))
    assert "June 29" in str(fault(shown(REFUSED, DAY, BY.replace("30", "29"))))
    assert "not be appealed any more" in str(fault(shown(REFUSED, DAY, BY), today="2025-07-01"))
    assert "entered again" in str(fault(shown(REFUSED, DAY, BY, offers=True), {1}))
    assert "its day" in str(fault(shown(REFUSED, DAY.replace("May 1", "May 2"), BY)))
    granted = shown(GRANTED, "Friday, May 2, 2025: Granted", "You may ride through May 1.")
    assert "UNTIL is 2025-09-30" in str(fault(granted))
    gone = cases.fault_of_letters(
        shown(REFUSED, DAY, BY), [(1, REFUSED), (3, GRANTED)], set(), "2025-05-20", words, "en"
    )
    assert gone is not None and "1 letters are shown" in gone


def test_a_case_file_offers_the_letters_of_the_desk(words: Words) -> None:
    def fault(entries: list[int], record: str, *parts: str, age: str = "") -> str | None:
        file = {"age": age, "entries": entries, "records": [record.strip()], "parts": list(parts)}
        return cases.fault_of_file(file, [(1, REFUSED), (3, GRANTED)], words, "en")

    assert fault([3, 1], REFUSED, BY) is None
    assert fault([1], REFUSED, age="as of 9:00 AM") is None
    assert "letters are shown" in str(fault([1], REFUSED, BY))
    assert "letters are shown" in str(fault([1, 3], REFUSED.replace("refused", "denied")))
    assert "it is refused of" in str(fault([1, 3], REFUSED, BY.replace("30", "29")))


def test_a_standing_is_that_of_its_day(words: Words) -> None:
    desk = {"standing": "granted", "suspended": False, "until": "2025-09-30"}
    both = {**desk, "conditions": ["months:1,2", "farther:2640"]}
    text = (
        "✓ You may ride on Monday, May 19, 2025. Reason: granted until Tuesday, September 30, 2025."
    )
    far = " For trips in January and February, or trips farther than 2,640 feet."

    def fault(said: str, standing: dict[str, Any]) -> str | None:
        card = {"age": "", "verdict": said[:40], "text": said}
        return cases.fault_of_standing(card, standing, words, "en")

    assert cases.first_day(text, "en") == "2025-05-19"
    assert cases.first_day("el lunes 19 de mayo de 2025", "es") == "2025-05-19"
    assert fault(text, desk) is None
    assert fault(text + far, both) is None
    assert "choice of conditions" in str(fault(text + far.replace(", or", " and"), both))
    assert "verdict" in str(fault(text.replace("✓", "✗"), desk))
    assert "last day" in str(fault(text.replace("30", "29"), desk))
    assert "suspension" in str(fault(text, {**desk, "suspended": True}))
    days = f"✗ Rider 7 may not ride. Suspended from Wednesday, May 14, 2025 through Tuesday, May 27, 2025. {text}"
    letter = (4, "DATE 2025-05-13\nDECISION suspended\nFROM 2025-05-14\nTO 2025-05-27\n")
    later = (5, "DATE 2025-05-15\nDECISION suspension overturned\n")
    held = cases.suspension_on("2025-05-19", [letter])
    assert held == ("2025-05-14", "2025-05-27")
    assert cases.suspension_on("2025-05-28", [letter]) is None
    assert cases.suspension_on("2025-05-19", [letter, later]) is None
    shown = {"verdict": "✗ Rider 7 may not ride.", "text": days, "age": ""}
    suspended = {**desk, "suspended": True}
    assert cases.fault_of_standing(shown, suspended, words, "en", held) is None
    other = ("2025-05-14", "2025-05-28")
    assert "days" in str(cases.fault_of_standing(shown, suspended, words, "en", other))
    assert "days" in str(cases.fault_of_standing(shown, suspended, words, "en", None))
    assert "suspension" in str(cases.fault_of_standing(shown, desk, words, "en", None))
    assert "denies" in str(fault(text, {"denied": "desk.unknown"}))


def trip(number: int, day: str, status: str = "booked") -> dict[str, Any]:
    """A trip as the desk lists it."""
    ends = {"window_from": 560, "window_to": 590, "from": 1, "to": 2}
    return {"trip": number, "day": day, "status": status, **ends}


def test_trips_that_are_folded_away_are_counted(words: Words) -> None:
    trips = [trip(1, "2025-05-18", "ridden"), trip(2, "2025-05-19", "cancelled")]
    trips += [trip(3, "2025-05-19"), trip(4, "2025-05-20")]
    row = "9:20–9:50 AM Town Hall → General Hospital"

    def fault(numbers: list[int], *folds: str) -> str | None:
        card = {"rider": 7, "age": "", "denied": False, "folds": list(folds), "text": ""}
        names = screens.Names({1: "Town Hall", 2: "General Hospital"})
        when = ("2025-05-19", ("AM", "PM"))
        card["rows"] = [[it, row] for it in numbers]
        return screens.fault_of_trips(card, trips, names, words, when)

    assert fault([1, 2, 3, 4]) is None
    assert fault([3, 4], "1 earlier", "1 canceled") is None
    assert fault([3, 4], "1 anterior", "1 cancelado") is None
    assert fault([1, 3, 4], "1 canceled") is None
    assert "lacks trips [4]" in str(fault([3], "1 earlier", "1 canceled"))
    assert "lacks trips [3]" in str(fault([4], "2 earlier", "1 canceled"))
    assert "away for [2, 1]" in str(fault([3, 4], "1 earlier"))
    assert "away for [0]" in str(fault([1, 2, 3, 4], "1 earlier"))
    assert "has [9]" in str(fault([1, 2, 3, 4, 9]))


def test_a_window_in_a_sentence_has_its_article() -> None:
    halves = ("a. m.", "p. m.")
    assert "12:48 y la 1:18 p. m." in speech.in_words(speech.window(768, 798, halves))
    assert "12:48 y las 1:18 p. m." not in speech.in_words(speech.window(768, 798, halves))
    assert "11:45 y las 11:59 p. m." in speech.in_words(speech.window(1425, 1439, halves))
    assert "10:00 AM and 1:00 PM" in speech.in_words(speech.window(600, 780))


def test_a_form_that_was_left_says_so_or_goes_on() -> None:
    permit = Permit("book", KEY, 3, rider=7, armed=True)
    read = Exchange("GET", "/riders/7/trips", KEY, 1, {}, 200, {"trips": []}, "", 5.0)
    write = Exchange("POST", "/trips", KEY, 2, {"rider": 7}, 200, {"trip": 1}, "", 6.0)
    assert asked.left_unsaid(permit, [read, write], []) is None
    assert asked.left_unsaid(permit, [read], ["Not sent for rider 7: you left."]) is None
    fault = asked.left_unsaid(permit, [read], [])
    assert fault is not None and "its part left" in fault[1]


PAGE = """<main><section id=first><h2>First</h2><table><thead><tr><th>Rider</th></tr></thead><tbody>
<tr><th>7</th><td>by <b>Monday</b></td></tr><tr><td>8</td><td>now</td></tr></tbody></table></section>
<section id=offers><h2>Offers</h2><table><tbody><tr><td>9</td></tr></tbody></table></section></main>"""


def test_what_waits_is_the_nights_list() -> None:
    def fault(*rows: list[str]) -> str | None:
        return cases.fault_of_lists([{"title": "First", "rows": list(rows)}], PAGE, {"offers"})

    assert fault(["7", "by Monday"], ["8", "now"]) is None
    assert "lacks" in str(fault(["7", "by Monday"]))
    assert "of its own" in str(fault(["7", "by Monday"], ["8", "now"], ["9", ""]))
    day = '<section id=first><table><tbody><tr><td><time datetime="2025-05-19">Mon, May 19, 2025</time></td></tr></tbody></table></section>'

    def of_day(shown: str, today: str, language: str = "en") -> str | None:
        return cases.fault_of_lists([{"rows": [[shown]]}], day, set(), today, language)

    assert of_day("Mon, May 19", "2025-05-20") is None
    assert "lacks" in str(of_day("Mon, May 18", "2025-05-20"))
    assert of_day("Monday, May 19, 2025", "2026-01-02") is None
    assert "lacks" in str(of_day("Mon, May 19", "2026-01-02"))
    assert of_day("lun, 19 may", "2025-05-20", "es") is None
    day = "<section id=first><table><tbody><tr><td>presumed since 2025-05-19, 22 days</td></tr></tbody></table></section>"
    assert of_day("presumed since Mon, May 19, 22 days", "2025-05-20") is None
    assert "lacks" in str(of_day("presumed since 2025-05-19, 22 days", "2025-05-20"))
    assert "lacks" in str(of_day("presumed since Mon, May 19, 23 days", "2025-05-20"))
    assert of_day("presumed since lun, 19 may, 22 days", "2025-05-20", "es") is None
    assert "lacks" in str(of_day("presumed since lun, 18 may, 22 days", "2025-05-20", "es"))
    assert cases.is_cell("every trip", "always", "2025-05-20", "en")
    both = "trips in January, February, and December; trips with one end more than 2,640 feet from any bus line that is running"
    assert cases.is_cell(both, "months:1,2,12;farther:2640", "2025-05-20", "en")
    assert not cases.is_cell("nolift", "nolift", "2025-05-20", "en")


def test_the_steps_that_a_walk_took_are_read_from_what_it_printed() -> None:
    said = "walk: seed 11, clerk,rider: 120 steps in 34 s"
    assert gate.steps_of(["walk: held: words: 7", said, "9 passed, 0 failed"]) == 120
    assert gate.steps_of(["walk: held: words: 7"]) == 0
