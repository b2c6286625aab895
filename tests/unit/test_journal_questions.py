"""What the record answers: people by their digits at each moment, borrowed keys, words, and cells of a spreadsheet."""

import csv
import hashlib
import io
import json
import string
from dataclasses import replace
from datetime import date, timezone
from pathlib import Path

import pytest
from hypothesis import given
from hypothesis import strategies as some

from desk_tools.journal import chain, command, lines, people, questions, reading, sheets, words
from desk_tools.journal.names import Names
from desk_tools.journal.people import People, Person
from desk_tools.journal.places import Places
from desk_tools.journal.words import Words


def digest(key: str) -> str:
    return hashlib.sha256(key.encode()).hexdigest()


def at(minute: int) -> str:
    return f"2026-11-29T12:{minute:02}:00.000Z"


def request(
    minute: int, key: str, method: str, path: str, status: int = 200, **more: object
) -> bytes:
    """A line as the site writes it."""
    body = {"body": json.dumps(more.pop("body"))} if "body" in more else {}
    reply = {"reply": json.dumps(more.pop("reply"))} if "reply" in more else {}
    told = {
        "at": at(minute),
        "door": "site",
        "from": "192.0.2.1",
        "who": digest(key)[:12],
        "method": method,
    }
    return json.dumps(
        {**told, "path": path, "status": status, "took": 0.001, "number": "1", **body, **reply}
    ).encode()


def put_key(
    minute: int, by: str, caller: int, key: str, status: int = 200, **more: object
) -> bytes:
    body = {"id": caller, "role": "examiner", "subject": 0, "digest": digest(key), **more}
    return request(minute, by, "POST", "/callers", status, body=body, reply={"done": True})


def asked_of(folder: Path, found: list[bytes], rows: list[Person]) -> questions.Asked:
    folder.mkdir(exist_ok=True)
    places = Places(folder, "desk", timezone.utc)
    places.requests.write_bytes(b"".join(it + b"\n" for it in found))
    people.keep(places.callers, People(rows))
    return questions.Asked(places, reading.people_of(places), Names(riders={7: "Ana"}), {})


def notes_of(answer: questions.Answer) -> list[str]:
    return [str(it[-1]) for it in answer.rows]


ADMIN = Person(1, "", "admin", 0, "", "", digest("abc")[:12])


@pytest.mark.parametrize("is_known", ["by a row", "by its uses", "by the record"])
def test_a_borrowed_key_is_found(tmp_path: Path, is_known: str) -> None:
    """Also of a caller whose first key is on record, and of one whose first key is older."""
    rows = [ADMIN] + (
        [Person(11, "", "examiner", 0, "", "", digest("own")[:12])]
        if is_known == "by a row"
        else []
    )
    first = [request(1, "own", "GET", "/riders/7/trips")] if is_known == "by its uses" else []
    first = [put_key(1, "abc", 11, "own")] if is_known == "by the record" else first
    used = request(
        3,
        "mine",
        "POST",
        "/riders/7/entries",
        body={"entry": "refuse", "reasons": "x"},
        reply={"entered": 1},
    )
    asked = asked_of(
        tmp_path, [*first, put_key(2, "abc", 11, "mine"), used, put_key(4, "abc", 11, "own")], rows
    )
    notes = notes_of(questions.of_keys(asked))
    assert "BORROWED" in notes[-1] and "used once" in notes[-1], notes
    assert not any("BORROWED" in it for it in notes[:-1])
    assert [it[2] for it in questions.of_caller(asked, 11).rows if "refusal" in str(it[2])]


def test_a_deed_by_a_borrowed_key_says_so_and_the_own_key_is_not_accused(tmp_path: Path) -> None:
    """A trip that was canceled by the key that an admin put over a clerk's, twice, is not simply the clerk's deed."""
    found = [
        put_key(1, "abc", 11, "own"),
        request(2, "own", "POST", "/trips/9/change", body={}, reply={}),
        put_key(3, "abc", 11, "mine"),
        request(4, "mine", "POST", "/trips/9/cancel", reply={"done": True}),
        put_key(5, "abc", 11, "own"),
        put_key(6, "abc", 11, "mine"),
        put_key(7, "abc", 11, "own"),
        request(8, "own", "POST", "/trips/9/outcome", body={"outcome": "ridden"}, reply={}),
    ]
    asked = asked_of(tmp_path, found, [ADMIN])
    told = questions.of_trip(asked, 9)
    assert ["BORROWED" in str(it[1]) for it in told.rows] == [False, True, False], told.rows
    assert any("BORROWED" in it for it in told.notes)
    notes = notes_of(questions.of_keys(asked))
    assert ["BORROWED" in it for it in notes] == [False, False, True, False, True], notes


def test_a_lost_key_that_is_replaced_once_is_not_borrowed(tmp_path: Path) -> None:
    found = [
        put_key(1, "abc", 11, "own"),
        put_key(2, "abc", 11, "new"),
        put_key(3, "abc", 11, "new"),
        put_key(4, "abc", 12, "own"),
    ]
    assert not any(
        "BORROWED" in it for it in notes_of(questions.of_keys(asked_of(tmp_path, found, [ADMIN])))
    )


def test_keys_that_nobody_is_named_for_say_what_to_do(tmp_path: Path) -> None:
    """Without a row of the admin each change of a key is nobody's, also who borrowed one."""
    found = [put_key(1, "abc", 11, "own"), put_key(2, "abc", 11, "new", 422)]
    assert any(
        "journal callers" in it for it in questions.of_keys(asked_of(tmp_path, found, [])).notes
    )
    known = questions.of_keys(asked_of(tmp_path, found, [ADMIN])).notes
    refused = questions.of_keys(asked_of(tmp_path, found[1:], [])).notes
    assert not any("journal callers" in it for it in known + refused), (known, refused)


def test_a_key_that_was_refused_is_no_deed(tmp_path: Path) -> None:
    asked = asked_of(tmp_path, [put_key(1, "abc", 11, "own", 422)], [ADMIN])
    [row] = questions.of_keys(asked).rows
    assert str(row[2]).startswith("asked to put a key for caller 11") and str(row[3]).startswith(
        "refused"
    )
    assert asked.people.now(11) is None


def test_the_same_first_digits_are_shown(tmp_path: Path) -> None:
    rows = [ADMIN, Person(5, "", "officer", 0, "", "", digest("own")[:12])]
    assert (
        "begins with the same 12 digits as that of caller 5"
        in notes_of(questions.of_keys(asked_of(tmp_path, [put_key(1, "abc", 11, "own")], rows)))[0]
    )


def test_a_person_keeps_what_was_done_under_an_earlier_key_and_role(tmp_path: Path) -> None:
    """An admin who gives himself a new key keeps his past, and a role is that of the moment."""
    again = {"id": 1, "role": "admin", "subject": 0, "digest": digest("new")}
    clerk = {"id": 11, "role": "clerk", "subject": 0, "digest": digest("desk")}
    found = [
        put_key(1, "abc", 11, "own", name="Rosa Peña"),
        request(2, "own", "GET", "/riders/7/trips"),
        request(3, "abc", "POST", "/callers", body=again, reply={"done": True}),
        request(4, "new", "POST", "/callers", body=clerk, reply={"done": True}),
        request(5, "desk", "GET", "/riders/7/trips"),
        request(6, "own", "GET", "/riders/7/trips", 401),
    ]
    asked = asked_of(tmp_path, found, [ADMIN])
    assert len(questions.of_caller(asked, 1).rows) == 3
    roles = [str(it[1]) for it in questions.of_rider(asked, 7, False).rows]
    assert roles == [
        "Rosa Peña, examiner (caller 11)",
        "Rosa Peña, clerk (caller 11)",
        "Rosa Peña, examiner (caller 11)",
    ]
    own = questions.of_own(asked, 7)
    assert [it[1] for it in own.rows][:2] == ["the agency (examiner)", "the agency (clerk)"]
    assert "Rosa" not in sheets.as_csv(own.columns, own.rows)
    # (who read a manifest is no row, and the rider has to know that)
    assert own.notes[-1].endswith("Who read them is not in this copy.")


def test_taking_in_the_callers_twice_changes_nothing(tmp_path: Path) -> None:
    found = [
        put_key(1, "abc", 11, "a"),
        put_key(2, "abc", 11, "b"),
        put_key(3, "abc", 11, "a"),
        put_key(4, "abc", 11, "a"),
    ]
    asked = asked_of(tmp_path, found, [ADMIN])
    rows = list(asked.people.rows)
    people.keep(asked.places.callers, asked.people)
    assert reading.people_of(asked.places).rows == rows
    assert [(it.since, it.until) for it in rows if it.number == 11] == [
        (at(1), at(2)),
        (at(2), at(3)),
        (at(3), ""),
    ]


def test_rows_by_hand_stay(tmp_path: Path) -> None:
    path = tmp_path / "callers.csv"
    path.write_text(
        'number,name,role,subject,from,to,digits\n11,"Peña, Rosa",examiner,,,,ABCABCABCABC\n,,,,,,\n',
        encoding="utf-8-sig",
    )
    known = people.read(path)
    people.keep(path, known)
    assert people.read(path).rows == [Person(11, "Peña, Rosa", "examiner", 0, "", "", "abc" * 4)]


@pytest.mark.parametrize("question", ["trip", "rider", "caller", "standing", "own"])
@pytest.mark.parametrize("number", ["0", "-1", "4294967296", "9" * 5000, "٣", "1.0"])
def test_a_question_is_about_a_number(
    tmp_path: Path, capsys: pytest.CaptureFixture[str], question: str, number: str
) -> None:
    """A line that names nobody has 0: a rider's own copy of rider 0 would be everybody's lines."""
    asked_of(tmp_path, [request(1, "own", "POST", "/policy", body={}, reply={})], [ADMIN])
    with pytest.raises(SystemExit) as ended:
        command.main(["--folder", str(tmp_path), question, "--", number])
    said = capsys.readouterr()
    assert ended.value.code == 2 and not said.out and "number" in said.err


def test_a_change_shows_what_was_promised_before(tmp_path: Path) -> None:
    wish = {
        "day": "2026-12-03",
        "wish": 500,
        "from": 1,
        "to": 2,
        "by": 600,
        "attendant": False,
        "companions": 0,
    }
    promise = {"trip": 3, "vehicle": 1, "due": 350, "fare": 350}
    found = [
        request(
            1,
            "abc",
            "POST",
            "/trips",
            body={"rider": 7, **wish},
            reply={**promise, "window_from": 740, "window_to": 755},
        ),
        request(
            2, "abc", "POST", "/trips/3/change", 422, body=wish, reply={"denied": "no vehicle"}
        ),
        request(
            3,
            "abc",
            "POST",
            "/trips/3/change",
            body=wish,
            reply={**promise, "window_from": 800, "window_to": 815},
        ),
        request(4, "abc", "POST", "/trips/3/cancel", 499, body={}),
    ]
    rows = questions.of_trip(asked_of(tmp_path, found, [ADMIN]), 3).rows
    assert "promised before: 2026-12-03, pickup 12:20 PM to 12:35 PM" in str(rows[2][4])
    assert [str(it[2]).split()[0] for it in rows] == ["booked", "asked", "changed", "asked"]
    assert rows[1][3] == "refused (no vehicle)" and "may have been done, or not" in str(rows[3][3])


@pytest.mark.parametrize("text", ["=1+1", "+1 555", "-x", "@sum", "\t=1", "\r=1", "\n=1"])
def test_no_cell_is_a_formula(text: str) -> None:
    [_, [got]] = list(csv.reader(io.StringIO(sheets.as_csv(["a"], [[text]]), newline="")))
    assert got == "'" + text.replace("\r", "\n")


@pytest.mark.parametrize("value", ["", None, 5, -5, "-5", "plain", "-"])
def test_a_cell_that_is_no_formula_stays(value: object) -> None:
    assert sheets.cell(value) == ("" if value is None else str(value))


@given(some.text())
def test_a_terminal_is_sent_no_signs_that_steer_it(text: str) -> None:
    assert sheets.plain(text).isprintable()


@given(
    some.dictionaries(
        some.text(),
        some.none() | some.booleans() | some.integers() | some.text() | some.lists(some.integers()),
    )
)
def test_no_line_makes_telling_fail(fields: dict[str, object]) -> None:
    teller = questions.Teller(People(), Names())
    for path in (
        "/trips",
        "/trips/3/change",
        "/trips/3/outcome",
        "/riders",
        "/riders/7/entries",
        "/callers",
        "/policy",
        "/tally/x",
    ):
        raw = {
            "at": at(1),
            "who": "-",
            "method": "POST",
            "path": path,
            "status": 200,
            "took": 0,
            "body": json.dumps(fields),
        }
        line = lines.of_fields(1, {**raw, "reply": json.dumps(fields)})
        assert line is not None and isinstance(teller.event(line).what, str)


def fields_in(text: str) -> set[str]:
    return {name for _, name, _, _ in string.Formatter().parse(text) if name}


def test_each_language_has_each_text_with_the_same_fields() -> None:
    english, spanish = words.TEXTS["en"], words.TEXTS["es"]
    assert list(english) == list(spanish)
    assert {it: fields_in(english[it]) for it in english} == {
        it: fields_in(spanish[it]) for it in spanish
    }
    assert all(fields_in(it) == fields_in(spanish[key]) for key, it in words.ASKED["es"].items())


def test_an_answer_in_spanish_has_no_english(tmp_path: Path) -> None:
    """Articles are those that names want, and what people wrote stays as it is."""
    reasons = "he told us of pasajero 7, de pasajero 8"
    found = [
        request(1, "abc", "POST", "/trips", body={"rider": 8, "day": "2026-12-03", "wish": 65}),
        request(
            2, "abc", "POST", "/riders/8/entries", 422, body={"entry": "refuse", "reasons": reasons}
        ),
        request(3, "abc", "GET", "/riders/8/trips"),
        put_key(4, "abc", 11, "own", name="Rosa Peña"),
    ]
    asked = asked_of(tmp_path, found, [ADMIN])
    asked.names = Names(riders={7: "Ana"}, words=Words("es"))
    told = questions.of_caller(asked, 1)
    assert told.title == "Qué hizo administrador (usuario 1)"
    said = [str(it[2]) for it in told.rows]
    assert said == [
        "reservó el viaje 0 para el pasajero 8",
        "pidió anotar una negativa del pasajero 8",
        "leyó todos los viajes del pasajero 8",
        "puso una clave para el usuario 11 (Rosa Peña, examinador)",
    ]
    assert "recogida a la 1:05 a. m." in str(told.rows[0][4])
    assert f"razones: {reasons}" in str(told.rows[1][4])
    assert sheets.heads_of(told.columns, asked.words)[:3] == ["cuándo", "quién", "qué"]
    page = sheets.as_page(told.title, ["cuándo"], [], [], asked.words)
    assert '<html lang="es">' in page and "No hay nada en el registro" in page


ALIKE = "00c0ffee1234"


def alike_rows() -> list[Person]:
    return [
        ADMIN,
        Person(4, "Rosa Peña", "examiner", 0, at(0), "", ALIKE),
        Person(12, "Luis Vega", "officer", 0, at(2), "", ALIKE),
    ]


def with_digits(minute: int, digits: str, path: str) -> bytes:
    fields = json.loads(request(minute, "x", "POST", path, body={"entry": "heard"}))
    return json.dumps({**fields, "who": digits}).encode()


def test_keys_that_begin_alike_are_named_both(tmp_path: Path) -> None:
    """Before the second key was made, the line is the first one's; later nobody can say whose it is."""
    found = [with_digits(1, ALIKE, "/riders/7/entries"), with_digits(3, ALIKE, "/riders/7/entries")]
    asked = asked_of(tmp_path, found, alike_rows())
    both = "not certain: Rosa Peña, examiner (caller 4) or Luis Vega, officer (caller 12)"
    first = questions.of_caller(asked, 4)
    assert [it[1] for it in first.rows] == ["Rosa Peña, examiner (caller 4)", both]
    assert "begin with the same 12 digits" in " ".join(first.notes)
    assert [it[1] for it in questions.of_caller(asked, 12).rows] == [both]
    assert [it[1] for it in questions.of_standing(asked, 7).rows][1] == both
    own = questions.of_own(asked, 7)
    assert [it[1] for it in own.rows] == [
        "the agency (examiner)",
        "the agency (examiner) or the agency (officer)",
    ]
    assert not asked_of(tmp_path, found, alike_rows()[:2]).people.alike()


def test_callers_csv_marks_keys_that_begin_alike(tmp_path: Path) -> None:
    path = tmp_path / "callers.csv"
    people.keep(path, People(alike_rows()))
    rows = list(csv.DictReader(io.StringIO(path.read_text(encoding="utf-8"))))
    assert [it["alike"] for it in rows if it["number"]] == ["", "12", "4"]
    assert people.read(path).rows == sorted(alike_rows(), key=lambda it: it.number)


def test_a_moment_in_seconds_is_the_same_as_one_in_utc() -> None:
    """nginx writes plain reads by itself, with seconds since 1970."""
    assert lines.moment_of("1796003605.976") == lines.moment_of("2026-11-30T01:53:25.976Z")
    for wrong in ("", "1796003605", "1796003605.97", "-1796003605.976", "99999999999999.000"):
        with pytest.raises(ValueError):
            lines.moment_of(wrong)


def test_an_answer_without_lines_says_what_it_cannot_know(tmp_path: Path) -> None:
    """A caller whom callers.csv lacks may have done much, and days before the record are not days without deeds."""
    asked = asked_of(tmp_path, [request(1, "own", "GET", "/riders/7/trips")], [ADMIN])
    told = questions.of_caller(asked, 11)
    assert not told.rows and "callers.csv has no caller 11" in told.notes[0], told
    assert not questions.of_caller(asked, 1).notes
    asked.places.record.mkdir()
    writer = chain.Writer(asked.places.record)
    writer.open("2026-11-29", "desk", at(0))
    early = replace(asked, first=date(2026, 10, 1))
    for answer in questions.of_rider(early, 7, False), questions.of_own(early, 7):
        assert answer.title.endswith(", from 2026-10-01 on"), answer.title
        assert answer.rows and "begins on 2026-11-29" in answer.notes[0], answer
    assert "begins on" in questions.of_trip(asked, 5).notes[0]
    assert "begins on 2026-11-29" in questions.of_keys(asked).notes[0]
    assert not questions.of_rider(asked, 7, False).notes


def test_a_riders_own_copy_calls_nobody_what_they_are_not(tmp_path: Path) -> None:
    """Another rider is not the agency, and a key that the desk took is not that of a stranger."""
    other = Person(22, "", "rider", 8, "", "", digest("other")[:12])
    asks = [("other", 403), ("older", 200), ("guess", 401)]
    found = [
        request(it, key, "GET", "/riders/7/trips", status) for it, (key, status) in enumerate(asks)
    ]
    told = questions.of_own(asked_of(tmp_path, found, [other]), 7)
    assert [it[1] for it in told.rows] == [
        "another rider",
        "somebody whose key is not on the list of callers",
        "somebody without a key of the agency",
    ]


def test_days_that_are_turned_around_are_wrong_words(
    tmp_path: Path, capsys: pytest.CaptureFixture[str]
) -> None:
    said = ["--folder", str(tmp_path), "trip", "7", "--from", "2026-12-05", "--to", "2026-12-01"]
    with pytest.raises(SystemExit) as ended:
        command.main(said)
    assert ended.value.code == 2 and "is after --to" in capsys.readouterr().err


def test_a_folder_without_a_record_is_named(
    tmp_path: Path, capsys: pytest.CaptureFixture[str]
) -> None:
    assert command.main(["--folder", str(tmp_path), "keys"]) == 1
    assert capsys.readouterr().err == f"bin/journal: there is no record in {tmp_path}\n"


def took(folder: Path, *more: str) -> int:
    """The status of `journal take` over a folder without nginx."""
    words = ["--folder", str(folder / "journal"), "--agency", str(folder / "none"), "take"]
    files = ["--nginx-pid", str(folder / "none"), "--key", str(folder / "none")]
    return command.main([*words, *files, "--corrections", str(folder / "corrections.csv"), *more])


@pytest.mark.parametrize("sep, encoding", [(",", "utf-8-sig"), (";", "cp1252"), ("\t", "utf-16")])
def test_corrections_are_read_as_a_spreadsheet_saves_them(
    tmp_path: Path, sep: str, encoding: str
) -> None:
    asked = asked_of(tmp_path / "journal", [request(1, "own", "POST", "/trips/3/cancel")], [ADMIN])
    rows = [("Trip", "Outcome", "Who", "Why"), ("3", "ridden", "Rosa Peña", "it was there")]
    text = "".join(sep.join(it) + "\r\n" for it in rows)
    (tmp_path / "corrections.csv").write_bytes(text.encode(encoding))
    assert (took(tmp_path), took(tmp_path)) == (0, 0)
    told = [it for it in questions.of_trip(asked, 3).rows if it[2] == "corrected the outcome"]
    assert [(it[1], it[4]) for it in told] == [
        ("Rosa Peña", "outcome: ridden; who: Rosa Peña; why: it was there")
    ]


def test_corrections_that_are_no_table_keep_nothing_from_being_sent(
    tmp_path: Path, caplog: pytest.LogCaptureFixture
) -> None:
    asked_of(tmp_path / "journal", [put_key(1, "abc", 11, "own")], [ADMIN])
    (tmp_path / "corrections.csv").write_bytes(b"PK\x03\x04 a workbook")
    (tmp_path / "elsewhere").mkdir()
    assert took(tmp_path, "--offsite", str(tmp_path / "elsewhere")) == 1
    assert "save it as CSV" in caplog.text
    assert list((tmp_path / "elsewhere").glob("*.now"))
    assert people.read(tmp_path / "journal" / "callers.csv").now(11)
