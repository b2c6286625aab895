"""The table of events: what is spelled is let by and read as it was meant, by pages, programs and the site alike."""

import datetime
import json
import random
import re
import shutil
import subprocess
from typing import Any

import pytest
from hypothesis import given
from hypothesis import strategies as some

from desk_tools import event_log, events
from desk_tools.events import EVENTS, TOP, Event, Form

from desk_tools.setup.rules import RULES

AT = "2026-11-28T09:24:40-06:00"
SIGNS = [
    chr(it)
    for it in (*range(0x20, 0x7F), *range(0xA1, 0x250), 0x65E5, 0xFFFD, 0x1F690, 0x10FFFD, 0xD7FF)
]


def value_for(form: Form, chance: random.Random) -> Any:
    """A value that the form allows."""
    if form.kind == "id":
        return "".join(chance.choice(events.ALPHABET) for _ in range(events.SIGNS))
    if form.kind == "number":
        return chance.choice([form.low, form.high, chance.randint(form.low, form.high)])
    if form.kind == "word":
        return chance.choice(form.words)
    if form.kind == "text":
        text = "".join(chance.choice(SIGNS) for _ in range(chance.choice([1, 7, form.most])))
        return text if text.strip() else "x"
    day = datetime.date(2000, 1, 1) + datetime.timedelta(days=chance.randint(0, 36_524))
    time = datetime.time(chance.randint(0, 23), chance.randint(0, 59), chance.randint(0, 59))
    return day if form.kind == "day" else datetime.datetime.combine(day, time)


def fields_for(event: Event, chance: random.Random) -> dict[str, Any]:
    """Fields that the event allows; some that may be left out are."""
    return {
        name: value_for(form, chance)
        for name, form in event.all_fields.items()
        if name in event.fields or chance.random() < 0.6
    }


def filled(event: Event, fields: dict[str, Any]) -> dict[str, Any]:
    return {name: fields.get(name) for name in event.all_fields}


def test_what_is_made_of_the_table_is_up_to_date() -> None:
    assert events.main(["--check"]) == 0


def test_the_rules_are_those_of_the_desk() -> None:
    assert list(EVENTS["denials"].fields["rule"].words) == list(RULES)


@pytest.mark.parametrize("kind", EVENTS)
@given(seed=some.integers(0, 2**32))
def test_what_a_program_spells_is_let_by_and_read(kind: str, seed: int) -> None:
    event = EVENTS[kind]
    fields = fields_for(event, random.Random(seed))
    path, _, query = events.path_of(kind, fields).partition("?")
    assert path == f"/tally/{kind}"
    assert re.search(events.pattern_of(event), query)
    told = event_log.told_of(f"{AT}\t{path}\t{query}\toffice".encode())
    assert (told.fields, told.by) == (filled(event, fields), "office")


SPELL = """
import { pathOf, faultOf, namedIn } from "./pages/parts/counting.js";
import { readFileSync } from "fs";
const cases = JSON.parse(readFileSync(0, "utf8"));
console.log(JSON.stringify(cases.map(([kind, fields]) => {
    const fault = faultOf(kind, fields), path = pathOf(kind, fields), named = namedIn(path);
    return [fault, path, named && named.kind, named && named.id];
})));
"""


def spelled_by_the_pages(cases: list[tuple[str, dict[str, Any]]]) -> list[list[str | None]]:
    """For each kind with its fields: the fault, the path, and the kind and id that are read from the path."""
    given_cases = [
        (
            kind,
            {
                name: it.isoformat() if isinstance(it, datetime.date) else it
                for name, it in fields.items()
            },
        )
        for kind, fields in cases
    ]
    ran = subprocess.run(
        ["node", "--input-type=module", "-e", SPELL],
        input=json.dumps(given_cases),
        cwd=TOP,
        capture_output=True,
        text=True,
        check=True,
    )
    found: list[list[str | None]] = json.loads(ran.stdout)
    return found


@pytest.mark.skipif(not shutil.which("node"), reason="nodejs is not installed")
def test_what_a_page_spells_is_let_by_and_read() -> None:
    chance = random.Random(20261129)
    cases = [(kind, fields_for(EVENTS[kind], chance)) for kind in EVENTS for _ in range(60)]
    for (kind, fields), (fault, path, named, key) in zip(cases, spelled_by_the_pages(cases)):
        assert (fault, named, key) == (None, kind, fields["id"])
        query = str(path).partition("?")[2]
        assert re.search(events.pattern_of(EVENTS[kind]), query), query
        told = event_log.told_of(f"{AT}\t/tally/{kind}\t{query}\tother".encode())
        assert told.fields == filled(EVENTS[kind], fields)


WRONG: list[tuple[str, str, Any]] = [
    ("denials", "minute", 1440),
    ("denials", "minute", -1),
    ("denials", "minute", None),
    ("denials", "day", "2026-02-30"),
    ("denials", "day", "1999-12-31"),
    ("denials", "rule", "no van"),
    ("denials", "more", 1),
    ("denials", "id", "u" * 26),
    ("stops", "at", "2026-11-28T24:00:00"),
    ("stops", "at", "2026-11-28 09:00:00"),
    ("stops", "vehicle", 0),
    ("stops", "trip", 2**32),
    ("stops", "event", "flew"),
    ("notes", "text", "é" * 201),
    ("notes", "text", "  "),
    ("notes", "text", "two\nlines"),
    ("bookings", "lead", 61),
]


@pytest.mark.parametrize(("kind", "name", "value"), WRONG)
def test_what_is_wrong_is_spelled_by_nobody(kind: str, name: str, value: Any) -> None:
    fields = {**fields_for(EVENTS[kind], random.Random(1)), name: value}
    with pytest.raises(ValueError):
        events.path_of(kind, fields)
    if shutil.which("node"):
        assert spelled_by_the_pages([(kind, fields)])[0][0] == name


@given(some.binary(max_size=300))
def test_any_bytes_are_an_event_or_named(line: bytes) -> None:
    try:
        event_log.told_of(line)
    except ValueError as error:
        assert str(error)


@given(some.integers(0, 5000), some.integers(0, 5000), some.integers(0, 60_000))
def test_the_pattern_of_a_range_is_that_range(low: int, more: int, number: int) -> None:
    pattern = events._numbers(low, low + more)
    assert bool(re.fullmatch(pattern, str(number))) == (low <= number <= low + more)
