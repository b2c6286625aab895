"""Borrowed keys and roles in the record's answers: however they are put back, and whatever callers.csv has."""

import json
from pathlib import Path

import pytest
from test_journal_questions import ADMIN, asked_of, at, digest, notes_of, put_key, request, took

from desk_tools.journal import chain, people, questions
from desk_tools.journal.people import Person


def as_role(minute: int, caller: int, key: str, role: str, subject: int = 0) -> bytes:
    return put_key(minute, "abc", caller, key, role=role, subject=subject)


def test_a_role_that_was_changed_and_put_back_is_a_borrowed_role(tmp_path: Path) -> None:
    """With one key all the while: an admin makes somebody an officer for one decision."""
    found = [
        as_role(1, 60, "own", "admin"),
        as_role(2, 60, "own", "officer"),
        request(3, "own", "POST", "/riders/7/entries", body={"entry": "heard"}),
        as_role(4, 60, "own", "admin"),
        request(5, "own", "GET", "/riders/7/trips"),
    ]
    asked = asked_of(tmp_path, found, [ADMIN])
    told = questions.of_keys(asked)
    assert len(told.rows) == 3, told.rows
    notes = notes_of(told)
    assert ["BORROWED ROLE" in it for it in notes] == [False, False, True], notes
    assert "officer" in notes[2] and "used once" in notes[2], notes
    rows = questions.of_rider(asked, 7, False).rows
    assert ["BORROWED role" in str(it[1]) for it in rows] == [True, False], rows


def test_a_rider_is_not_accused_of_what_another_person_read(tmp_path: Path) -> None:
    """A caller's subject is changed to rider 7 for a while, and back: the rider's own copy does not say "you"."""
    found = [
        as_role(1, 62, "other", "rider", 115),
        as_role(2, 62, "other", "rider", 7),
        request(3, "other", "GET", "/riders/7/trips"),
        as_role(4, 62, "other", "rider", 115),
    ]
    asked = asked_of(tmp_path, found, [ADMIN])
    read = [str(it[1]) for it in questions.of_own(asked, 7).rows if "trips" in str(it[2])]
    assert read and not any(it == "you" for it in read) and "BORROWED" in read[0], read
    assert "BORROWED ROLE" in notes_of(questions.of_keys(asked))[-1]


@pytest.mark.parametrize("is_known", [True, False])
def test_a_key_that_was_parked_meanwhile_is_put_back(tmp_path: Path, is_known: bool) -> None:
    rows = [ADMIN, *([Person(5, "", "examiner", 0, "", "", digest("own")[:12])] * is_known)]
    found = [
        request(0, "own", "GET", "/riders/7/trips"),
        put_key(1, "abc", 5, "mine"),
        put_key(2, "abc", 63, "own"),
        request(3, "mine", "POST", "/trips/9/cancel", reply={"done": True}),
        put_key(4, "abc", 63, "spare"),
        put_key(5, "abc", 5, "own"),
    ]
    asked = asked_of(tmp_path, found, rows)
    notes = notes_of(questions.of_keys(asked))
    assert ["BORROWED" in it for it in notes] == [False, False, False, True], notes
    assert "BORROWED" in str(questions.of_trip(asked, 9).rows[0][1])


def test_each_of_two_keys_in_a_row_is_borrowed(tmp_path: Path) -> None:
    found = [
        put_key(1, "abc", 6, "own"),
        put_key(2, "abc", 6, "k1"),
        request(3, "k1", "GET", "/riders/7/trips"),
        put_key(4, "abc", 6, "k2"),
        request(5, "k2", "GET", "/riders/7/trips"),
        request(6, "k2", "GET", "/riders/7/trips"),
        put_key(7, "abc", 6, "own"),
        request(8, "own", "GET", "/riders/7/trips"),
    ]
    asked = asked_of(tmp_path, found, [ADMIN])
    rows = questions.of_rider(asked, 7, False).rows
    assert ["BORROWED" in str(it[1]) for it in rows] == [True, True, True, False], rows
    last = notes_of(questions.of_keys(asked))[-1]
    assert f"({digest('k1')[:12]}) was used once" in last, last
    assert f"({digest('k2')[:12]}) was used 2 times" in last, last


def test_a_person_who_puts_the_own_former_key_back_borrowed_nothing(tmp_path: Path) -> None:
    found = [
        put_key(1, "abc", 2, "own", role="admin"),
        put_key(2, "own", 2, "new", role="admin"),
        put_key(3, "new", 2, "own", role="admin"),
    ]
    [*_, last] = notes_of(questions.of_keys(asked_of(tmp_path, found, [ADMIN])))
    assert "BORROWED" not in last and "same person" in last and "was used once" in last, last
    found[2] = put_key(3, "abc", 2, "own", role="admin")
    [*_, last] = notes_of(questions.of_keys(asked_of(tmp_path / "other", found, [ADMIN])))
    assert "BORROWED" in last and "was not used" in last, last


def test_marks_stay_where_callers_csv_lost_its_rows(tmp_path: Path) -> None:
    found = [
        put_key(1, "abc", 11, "own"),
        put_key(2, "abc", 11, "mine"),
        request(3, "mine", "GET", "/riders/7/trips"),
        put_key(4, "abc", 11, "own"),
    ]
    asked = asked_of(tmp_path, found, [ADMIN])
    asked.people.put_rows([it for it in asked.people.rows if it.digits != digest("own")[:12]])
    assert "BORROWED" in str(questions.of_rider(asked, 7, False).rows[0][1])
    assert "BORROWED" in notes_of(questions.of_keys(asked))[-1]


def test_a_name_belongs_to_its_key(tmp_path: Path) -> None:
    """What a caller does after the former key was put back is not under the borrower's name."""
    for first in ({"name": "Rosa Peña"}, {}):
        found = [
            put_key(1, "abc", 4, "own", **first),
            put_key(2, "abc", 4, "mine", name="Borrowed Name"),
            put_key(3, "abc", 4, "own"),
            request(4, "own", "GET", "/riders/7/trips"),
        ]
        asked = asked_of(tmp_path, found, [ADMIN])
        [row] = questions.of_rider(asked, 7, False).rows
        name = "Rosa Peña, " if first else ""
        assert row[1] == f"{name}examiner (caller 4)", row


@pytest.mark.parametrize(
    "name, shown",
    [
        ("A" * 5_000, "A" * 60),
        ("Ann\n\u202eBo\u2066b\x07 ", "Ann Bob"),
        ("Ann, clerk (caller 2), by a BORROWED key", "“Ann, clerk (caller 2), by a BORROWED key”"),
        ("Ann”, clerk (caller 2)", "“Ann', clerk (caller 2)”"),
        ("O'Neil-Peña Jr.", "O'Neil-Peña Jr."),
    ],
)
def test_a_name_is_no_mark_and_steers_nothing(tmp_path: Path, name: str, shown: str) -> None:
    """Whether it came with a key or was written into callers.csv by hand."""
    found = [put_key(1, "abc", 4, "own", name=name), request(2, "own", "GET", "/riders/7/trips")]
    rows = [ADMIN, Person(9, name, "clerk", 0, "", "", digest("nine")[:12])]
    asked = asked_of(tmp_path, [*found, request(3, "nine", "GET", "/riders/7/trips")], rows)
    told = [it[1] for it in questions.of_rider(asked, 7, False).rows]
    assert told == [f"{shown}, examiner (caller 4)", f"{shown}, clerk (caller 9)"]
    assert f"({shown}, examiner)" in str(questions.of_keys(asked).rows[0][2])


@pytest.mark.parametrize(
    "content, said",
    [
        (b"number;name;role;from;to;digits\n11;Rosa;nobody;;;abc\n", "row 2"),
        (b"number,name,role,subject,from,to,digits\n11,Rosa,exam", "row 2"),
        (b"number,name,role,digits\n11,Rosa \xff\xfe\x81\x8d,clerk,abc\n", "row 2"),
        (b"number,name,role,subject,from,to,digits\n11,Rosa,clerk,,2026-11-2", "row 2"),
        (b"what,ever\n1,2\n", "number"),
        (b"number,name,role,subject,from,to,digits\n11,Rosa,clerk,,,,abcabcabcabc\n\xff", "row 3"),
        (
            b"number,name,role,digits\n11,Rosa,clerk,1.23457E+11\n",
            "row 2: its digits '1.23457E+11'",
        ),
        (
            b"number,name,role,digits\n11,Rosa,clerk,12345678901\n",
            "row 2: its digits '12345678901'",
        ),
        (
            b"number,name,role,from,digits\n11,Rosa,clerk,11/29/2026,abcabcabcabc\n",
            "row 2: from is",
        ),
    ],
)
def test_a_damaged_callers_csv_is_named_by_its_row(
    tmp_path: Path, content: bytes, said: str
) -> None:
    path = tmp_path / "callers.csv"
    path.write_bytes(content)
    with pytest.raises(people.Damaged) as wrong:
        people.read(path)
    assert said in str(wrong.value) and "codec" not in str(wrong.value), wrong.value


def test_callers_csv_with_semicolons_is_read(tmp_path: Path) -> None:
    path = tmp_path / "callers.csv"
    path.write_text(
        "number;name;role;subject;from;to;digits\n11;Rosa;clerk;;;;ABCABCABCABC\n;;;;;;up to entry 7\n"
    )
    known = people.read(path)
    assert known.rows == [Person(11, "Rosa", "clerk", 0, "", "", "abc" * 4)] and known.upto == 7


def test_an_answer_from_a_changed_record_says_so_first(tmp_path: Path) -> None:
    line = request(
        1, "own", "POST", "/riders/7/entries", body={"entry": "grant", "until": "2027-01-01"}
    )
    asked = asked_of(tmp_path, [], [ADMIN])
    asked.places.record.mkdir()
    writer = chain.Writer(asked.places.record)
    writer.open("2026-11-29", "desk", at(0))
    writer.add(line)
    assert not questions.of_standing(asked, 7).warning
    assert writer.file is not None
    text = writer.file.path.read_bytes()
    writer.file.path.write_bytes(text.replace(b"2027-01-01", b"2029-01-01"))
    for told in (
        questions.of_standing(asked, 7),
        questions.of_keys(asked),
        questions.of_own(asked, 7),
        questions.of_trip(asked, 7),
    ):
        assert told.warning.startswith("This record does not hold: 000001-2026-11-29, line 2"), told


@pytest.mark.parametrize("kind", ["each another", "one caller's", "put back", "two callers'"])
def test_thousands_of_changes_are_taken_in_with_little_work_each(
    tmp_path: Path, monkeypatch: pytest.MonkeyPatch, kind: str
) -> None:
    """A change looks at a few fields of rows, however many rows there are: work is counted, since clocks differ."""
    changes = {
        "each another": lambda it: (it + 1, f"key {it}"),
        "one caller's": lambda it: (7, f"key {it}"),
        "put back": lambda it: (7, f"key {it % 2}"),
        "two callers'": lambda it: (7 + it % 2, f"key {it // 2 % 2}"),
    }
    count, looked = 600, 0

    def look(row: object, name: str) -> object:
        nonlocal looked
        looked += not name.startswith("__")
        return object.__getattribute__(row, name)

    found = []
    for it in range(count):
        caller, key = changes[kind](it)
        line = json.loads(put_key(0, "abc", caller, key, role="clerk"))
        line["at"] = f"2026-11-29T12:{it // 60:02}:{it % 60:02}.000Z"
        found.append(json.dumps(line).encode())
    asked = asked_of(tmp_path / "journal", found, [ADMIN])
    monkeypatch.setattr(Person, "__getattribute__", look)
    assert took(tmp_path) == 0
    taking, looked = looked, 0
    assert len(questions.of_keys(asked).rows) == count
    assert taking < 150 * count, taking
    assert looked < 150 * count, looked
