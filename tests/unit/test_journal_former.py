"""Who removes a row or a name from callers.csv removes it from no answer of the record."""

import re
from dataclasses import replace
from pathlib import Path

import pytest
from test_journal_questions import ADMIN, asked_of, at, digest, put_key, request, took

from desk_tools.journal import people, questions, reading
from desk_tools.journal.people import People, Person
from desk_tools.journal.questions import Asked

FOUND = [
    put_key(1, "abc", 7, "own", role="clerk", name="Rosa Peña"),
    request(2, "own", "GET", "/riders/7/trips"),
    put_key(3, "abc", 7, "next", role="clerk", name="Luis Vega"),
]
GONE = re.compile(
    r"Rosa Peña, clerk \(caller 7; callers\.csv had no row of this key by \d{4}-\d\d-\d\d\)"
)


def now_of(asked: Asked) -> Asked:
    """The same question over the files as they are now."""
    return replace(asked, people=reading.people_of(asked.places))


def lose(asked: Asked, **which: object) -> None:
    """Takes the rows with these fields out of callers.csv, as a person does with a spreadsheet."""
    known = people.read(asked.places.callers)
    known.put_rows(
        [it for it in known.rows if any(getattr(it, name) != of for name, of in which.items())]
    )
    people.keep(asked.places.callers, known)


def who_read(asked: Asked) -> list[str]:
    return [str(it[1]) for it in questions.of_rider(now_of(asked), 7, False).rows]


@pytest.mark.parametrize("is_kept", [True, False])
def test_a_caller_whose_row_was_removed_is_still_named(
    tmp_path: Path, is_kept: bool, caplog: pytest.LogCaptureFixture
) -> None:
    """Also where it was removed before any row was kept: then the record's own line of the key says it."""
    asked = asked_of(tmp_path / "journal", FOUND, [ADMIN])
    assert took(tmp_path) == 0 and who_read(asked) == ["Rosa Peña, clerk (caller 7)"]
    lose(asked, number=7, name="Rosa Peña")
    if is_kept:
        assert GONE.fullmatch(who_read(asked)[0]), who_read(asked)
    else:
        asked.places.kept_callers.unlink()
    caplog.clear()
    assert took(tmp_path) == 0 and "callers.csv lacks a row that it had" in caplog.text
    assert GONE.fullmatch(who_read(asked)[0]), who_read(asked)
    told = questions.of_caller(now_of(asked), 7)
    assert [GONE.fullmatch(str(it[1])) is not None for it in told.rows] == [True], told
    caplog.clear()
    assert took(tmp_path) == 0 and "lacks" not in caplog.text
    assert "Rosa" not in asked.places.callers.read_text(encoding="utf-8")


def test_a_row_by_hand_that_was_removed_names_its_caller(tmp_path: Path) -> None:
    """The key of a first admin is older than the record, so no line of that says whose it is."""
    asked = asked_of(tmp_path / "journal", FOUND, [replace(ADMIN, name="Ada Marsh")])
    assert took(tmp_path) == 0
    lose(asked, number=1)
    assert took(tmp_path) == 0
    told = questions.of_keys(now_of(asked))
    assert {str(it[1])[:40] for it in told.rows} == {"Ada Marsh, admin (caller 1; callers.csv "}
    told = questions.of_caller(now_of(asked), 1)
    assert told.title.count("Ada Marsh") == 1 and len(told.rows) == 2, told


def test_a_name_that_was_removed_stays_and_one_that_was_corrected_counts(tmp_path: Path) -> None:
    asked = asked_of(tmp_path / "journal", FOUND, [ADMIN])
    assert took(tmp_path) == 0
    text = asked.places.callers.read_text(encoding="utf-8")
    for name, named in (("", "Rosa Peña"), ("Rosa Pena", "Rosa Pena"), ("", "Rosa Pena")):
        asked.places.callers.write_text(text.replace("Rosa Peña", name), encoding="utf-8")
        assert took(tmp_path) == 0
        assert who_read(asked) == [f"{named}, clerk (caller 7)"]


def test_a_row_that_is_back_is_gone_no_more(tmp_path: Path) -> None:
    asked = asked_of(tmp_path / "journal", FOUND, [ADMIN])
    assert took(tmp_path) == 0
    text = asked.places.callers.read_text(encoding="utf-8")
    lose(asked, number=7, name="Rosa Peña")
    assert took(tmp_path) == 0
    asked.places.callers.write_text(text, encoding="utf-8")
    assert took(tmp_path) == 0 and who_read(asked) == ["Rosa Peña, clerk (caller 7)"]
    assert not reading.people_of(asked.places).gone.rows


def test_a_row_that_is_there_counts_before_one_that_is_gone(tmp_path: Path) -> None:
    """A wrong row by hand that was put right accuses nobody, and marks no keys as alike or borrowed."""
    older = Person(8, "Wrong", "clerk", 0, "", "", digest("old")[:12])
    found = [*FOUND, request(4, "old", "GET", "/riders/7/trips")]
    asked = asked_of(tmp_path / "journal", found, [ADMIN, older])
    assert took(tmp_path) == 0
    lose(asked, number=8)
    known = people.read(asked.places.callers)
    known.add(replace(older, number=9, name="Right"))
    people.keep(asked.places.callers, known)
    assert took(tmp_path) == 0
    assert who_read(asked)[1] == "Right, clerk (caller 9)"
    assert not now_of(asked).people.alike()


def test_whoever_had_a_key_at_the_moment_counts_before_who_has_it_later() -> None:
    """A row that is gone names its own time, also where the same key is another caller's now."""
    digits = digest("own")[:12]
    known = People([Person(9, "Later", "clerk", 0, at(5), "", digits)])
    known.gone = People([Person(7, "Then", "clerk", 0, at(1), at(5), digits, "2026-11-30")])
    assert [[it.name for it in known.of_digits(digits, at(when))] for when in (2, 6)] == [
        ["Then"],
        ["Later"],
    ]
