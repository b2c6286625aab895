"""The numbers that tools tell beforehand are those of the core's specs, so that a change of the law fails here first."""

from __future__ import annotations

import json
import re
from pathlib import Path

import pytest

from desk_tools import law
from desk_tools.setup import limits, rules
from desk_tools.standing_orders import plan

ROOT = Path(__file__).resolve().parents[2]
SENTENCES = ROOT / "python/desk_tools/letters/sentences.json"
FILES, BOOKING = "pt_rights_files/specs/Limits", "pt_desk_booking/specs/Window"
VISITORS, STATE = "pt_rights_visitors/specs/Periods", "pt_desk_rules/specs/State"
RANGES, POLICY = "pt_base_values/specs/Ranges", "pt_http_request/specs/Policy"
VEHICLES, DAY = "pt_http_request/specs/Vehicles", "pt_base_values/specs/Day"
# Each number, the file that has it, and what stands before it there.
NUMBERS = [
    (law.DAYS_UNTIL_PRESUMED, FILES, r"^days_to_presumption = "),
    (law.DAYS_TO_APPEAL, FILES, r"^days_to_appeal = "),
    (law.DAYS_UNTIL_OVERDUE, FILES, r"^days_to_decide = "),
    (law.DAYS_AHEAD, DAY, r"^IsBookable .*day ≤ today \+ "),
    (law.MINUTES_TO_NEGOTIATE, BOOKING, r"^wished_leeway = "),
    (plan.HALF_WINDOW, BOOKING, r"^promised_leeway = "),
    (law.DAYS_OF_A_VISITOR, VISITORS, r"^most_days = "),
    (law.DAYS_OF_A_VISITORS_PERIOD, VISITORS, r"^is_in_period .*opening \+ "),
    (limits.MOST_MISSED, POLICY, r"field\.MinMissed 1 "),
    (limits.MOST_SPAN_DAYS, POLICY, r"field\.SpanDays 1 "),
    (limits.LAST_MINUTE, RANGES, r"^last_minute = "),
    (limits.MOST_ROUTES, STATE, r"^most_routes = "),
    (limits.MOST_PLACES, STATE, r"^most_places = "),
    (limits.MOST_VERSIONS, STATE, r"^most_versions = "),
    (limits.HIGHEST_NUMBER, STATE, r"^last_trip_number = "),
]

# The name that the pages have for one, the file of the core that has it too, and what stands before it there.
OF_PAGES = [
    ("DAYS_AHEAD", DAY, r"^IsBookable .*day ≤ today \+ "),
    ("APPEAL_DAYS", FILES, r"^days_to_appeal = "),
    ("PRESUMED_DAYS", FILES, r"^days_to_presumption = "),
    ("OVERDUE_DAYS", FILES, r"^days_to_decide = "),
    ("LAST_MINUTE", RANGES, r"^last_minute = "),
    ("NEGOTIATED_MINUTES", BOOKING, r"^wished_leeway = "),
    ("HIGHEST_ID", STATE, r"^last_trip_number = "),
    ("HIGHEST_NUMBER", STATE, r"^last_trip_number = "),
    ("MOST_ENTRIES", FILES, r"^most_entries = "),
    ("MOST_REASONS", "pt_rights_files/specs/Reasons", r"^longest_reasons = "),
    ("HIGHEST_FARE", RANGES, r"^highest_fare = "),
    ("MOST_SERVICE", POLICY, r"field\.Service 0 "),
    ("MOST_EXTRA_RIDE", POLICY, r"field\.ExtraRide 0 "),
    ("MOST_MISSED", POLICY, r"field\.MinMissed 1 "),
    ("MOST_PERCENT", POLICY, r"field\.Percent 1 "),
    ("MOST_SPAN", POLICY, r"field\.SpanDays 1 "),
    ("LEAST_CORRIDOR", "pt_corridor/specs/Route", r"^HasWidth route = IsInRange "),
    ("MOST_CORRIDOR", "pt_corridor/specs/Route", r"^HasWidth route = IsInRange [\d_]+ "),
    ("MOST_POINTS", "pt_http_request/specs/Routes", r"nat_le \(length points\) "),
    ("MOST_SEATS", VEHICLES, r"field\.Capacity 1 "),
    ("MOST_CHAIRS", VEHICLES, r"ranged_at field\.Chairs 0 "),
    ("MOST_DURATION", RANGES, r"^last_minute = "),
]


def number_in(text: str, before: str) -> int:
    """The number that stands behind these words, which stand there once."""
    found = re.findall(rf"(?m){before}([\d_]+)", text)
    assert len(found) == 1, before
    return int(found[0])


@pytest.mark.parametrize("number, spec, before", NUMBERS)
def test_a_number_is_that_of_the_core(number: int, spec: str, before: str) -> None:
    """Each number is the one that the spec has."""
    text = (ROOT / f"crates/{spec}.antt").read_text(encoding="utf-8")
    assert number == number_in(text, before)


def number_of_pages(name: str) -> int:
    """The number of this name that the pages have."""
    text = (ROOT / "pages/parts/limits.js").read_text(encoding="utf-8")
    return number_in(text, rf".*\b{name} = ")


@pytest.mark.parametrize("name, spec, before", OF_PAGES)
def test_a_limit_of_the_pages_is_that_of_the_core(name: str, spec: str, before: str) -> None:
    """Each limit that the pages tell before the desk is asked is the one that the spec has."""
    text = (ROOT / f"crates/{spec}.antt").read_text(encoding="utf-8")
    assert number_of_pages(name) == number_in(text, before)


def test_the_longest_suspension_of_the_pages_has_its_first_day_too() -> None:
    """The core counts the days after the first."""
    text = (ROOT / f"crates/{FILES}.antt").read_text(encoding="utf-8")
    assert number_of_pages("SUSPENSION_DAYS") == number_in(text, "^days_after_first = ") + 1


def test_a_number_that_stands_twice_is_no_answer() -> None:
    """Nor is one that is not there: the test would read another line than it says."""
    for text in ("days_to_appeal = 60\ndays_to_appeal = 61\n", "days = 60\n"):
        with pytest.raises(AssertionError):
            number_in(text, "^days_to_appeal = ")
    assert number_in("most_places = 1_000\n", "^most_places = ") == 1000


def test_sentences_say_these_numbers() -> None:
    """The letters' sentences, in each language, and the words of the rules."""
    said = json.loads(SENTENCES.read_text(encoding="utf-8"))["texts"]
    wanted = {
        "appeal-late": [law.DAYS_UNTIL_OVERDUE],
        "presumed": [law.DAYS_UNTIL_PRESUMED],
        "presumed/you": [law.DAYS_UNTIL_PRESUMED],
        "overdue": [law.DAYS_UNTIL_OVERDUE],
        "visitor-days": [law.DAYS_OF_A_VISITOR, law.DAYS_OF_A_VISITORS_PERIOD],
    }
    for language, sentences in said.items():
        for key, numbers in wanted.items():
            found = [int(it) for it in re.findall(r"\d+", sentences[key])]
            assert found == numbers, (language, key)
    assert f"{law.DAYS_OF_A_VISITOR} days" in rules.RULES["37.127(e)"]
    assert f"{law.DAYS_AHEAD} days ahead" in rules.RULES["37.131(b)"]
