"""A copy's tables as CSV: each column of the file has its meaning, keys stay away, and no half of a folder is left."""

import contextlib
import csv
import re
import sqlite3
import struct
import tempfile
from pathlib import Path

import pytest
from hypothesis import given
from hypothesis import strategies as some

from desk_tools import warehouse
from desk_tools.reports import copies
from desk_tools.setup.limits import Wrong
from desk_tools.tables import ENTRIES, FIRST_TABLES, KEYS, LISTS, TABLES, Form

TOP = Path(__file__).resolve().parents[2]
SCHEMA = (TOP / "crates/pt_tables_rows/src/schema.rt").read_text(encoding="utf-8")
FORMATS = (TOP / "docs/FORMATS.md").read_text(encoding="utf-8")
DAY = 20_454  # 2026-01-01
DIGEST = b"\xabsixteen signs..\xcd" * 2


def statements() -> list[str]:
    """What makes the tables of the newest version, as the program has it."""
    texts = re.findall(r'(?s)"(CREATE TABLE .*?)",', SCHEMA)
    return [re.sub(r"\\\n\s*", "", it) for it in texts]


def made(path: Path) -> sqlite3.Connection:
    """A file with all tables and a row here and there."""
    file = sqlite3.connect(path)
    for text in statements():
        file.execute(text)
    file.execute("INSERT INTO desk VALUES (1, 2, 175, 50, 400, 2, 20, 3, 10, 30, 1)")
    file.execute("INSERT INTO callers VALUES (4, 2, 0, ?)", (DIGEST,))
    file.execute("INSERT INTO callers VALUES (9, 0, 7, ?)", (DIGEST + b"2",))
    file.execute("INSERT INTO kept VALUES (4, 12, ?, ?)", (b"secret" + DIGEST, b"secret"))
    file.execute("INSERT INTO places VALUES (1, -5, 0, 1), (2, 9, 0, 0)")
    points = struct.pack(">iiii", 0, 0, -20_000, 5)
    file.execute("INSERT INTO fixed VALUES (1, 3960, ?, 1, 31, 0, 1439)", (points,))
    file.execute("INSERT INTO vehicles VALUES (1, ?, 65, 1, 4, 300, 1380, 900)", (DAY,))
    file.execute("INSERT INTO riders VALUES (7, 0, 1)")
    for place, (kind, a, b) in enumerate(
        ((0, -1, -1), (1, DAY, -1), (3, 1, -1), (10, DAY, DAY + 9))
    ):
        row = (7, place, kind, DAY, 4, a, b, "always", 'a "word",\r\nand =1+1')
        file.execute("INSERT INTO entries VALUES (?, ?, ?, ?, ?, ?, ?, ?, ?)", row)
    file.execute(
        "INSERT INTO trips VALUES (1, 7, ?, 600, 1, 2, -1, 0, 1, 350, 2, 40, 1, 590, 605, 3)",
        (DAY,),
    )
    file.execute("INSERT INTO stops VALUES (1, ?, 0, 1, 0), (1, ?, 1, 1, 1)", (DAY, DAY))
    file.execute("INSERT INTO travel VALUES (?, 0, 0, 0)", (DAY,))
    file.execute("INSERT INTO vehicle_chairs VALUES (1, ?, 2)", (DAY,))
    file.commit()
    return file


def written(file: sqlite3.Connection, folder: Path) -> dict[str, list[dict[str, str]]]:
    """Each table's rows as they were written."""
    warehouse.write(warehouse.Copy(file), folder, lambda said: None)
    found = {}
    for path in folder.iterdir():
        with open(path, encoding="utf-8", newline="") as text:
            found[path.stem] = list(csv.DictReader(text))
    return found


def test_the_tables_are_those_of_the_program() -> None:
    file = sqlite3.connect(":memory:")
    for text in statements():
        file.execute(text)
    assert [re.split(r"\W+", it)[2] for it in statements()] == [*TABLES]
    for name, table in TABLES.items():
        there = file.execute(f"PRAGMA table_info({name})").fetchall()
        assert [*dict.fromkeys(it.source for it in table.columns)] == [it[1] for it in there], name
        assert KEYS[name] == tuple(it[1] for it in there if it[5]), name
        secret = {it.source for it in table.columns if it.form is Form.SECRET}
        blobs = {it[1] for it in there if it[2] == "BLOB"} - {"points"}
        assert secret == blobs, name
    count = len(re.findall(r"1 => (\d+),", SCHEMA)) and int(re.findall(r"1 => (\d+),", SCHEMA)[0])
    assert count == FIRST_TABLES


def test_the_kinds_and_columns_are_those_of_the_formats() -> None:
    for form, name in zip(LISTS, ("roles", "riders", "entries", "trips", "stops")):
        assert f"| {name} | {', '.join(LISTS[form])} |" in FORMATS
    for name, table in TABLES.items():
        row = re.search(rf"(?m)^\| `{name}` \| (.*) \|$", FORMATS)
        assert row, name
        named = [it for it in re.findall(r"`(\w+)`", row[1]) if it not in TABLES]
        assert named == [*dict.fromkeys(it.source for it in table.columns)], name


def test_what_is_written(tmp_path: Path) -> None:
    found = written(made(tmp_path / "desk.db"), tmp_path / "out")
    assert found["callers"] == [
        {"id": "4", "role": "examiner", "subject": ""},
        {"id": "9", "role": "rider", "subject": "7"},
    ]
    assert found["kept"] == [{"caller": "4", "number": "12"}]
    assert found["fixed"][0] | {"id": ""} == {
        "id": "",
        "width": "3960",
        "points": "0 0;-20000 5",
        "accessible": "yes",
        "days": "1;2;3;4;5",
        "first": "0",
        "last": "1439",
    }
    assert [(it["until"], it["against"], it["starts"], it["ends"]) for it in found["entries"]] == [
        ("", "", "", ""),
        ("2026-01-01", "", "", ""),
        ("", "1", "", ""),
        ("", "", "2026-01-01", "2026-01-10"),
    ]
    assert found["entries"][0]["words"] == 'a "word",\r\nand =1+1'
    trip = found["trips"][0]
    assert (trip["latest"], trip["status"], trip["attendant"]) == ("", "missed by the rider", "no")
    assert [it["kind"] for it in found["stops"]] == ["pickup", "drop-off"]
    assert {it["table"]: it["rows"] for it in found["tables"]}["entries"] == "4"
    assert {it["form"] for it in found["dictionary"] if it["column"] == "digest"} == {
        "never written"
    }


def test_no_key_is_written(tmp_path: Path) -> None:
    written(made(tmp_path / "desk.db"), tmp_path / "out")
    text = b"".join(it.read_bytes() for it in (tmp_path / "out").iterdir())
    assert b"secret" not in text and b"sixteen signs.." not in text
    assert DIGEST.hex().encode() not in text.lower()
    assert (tmp_path / "out").stat().st_mode & 0o777 == 0o700
    assert {it.stat().st_mode & 0o777 for it in (tmp_path / "out").iterdir()} == {0o600}


def test_each_written_column_is_in_the_dictionary(tmp_path: Path) -> None:
    found = written(made(tmp_path / "desk.db"), tmp_path / "out")
    for name in TABLES:
        told = [it for it in found["dictionary"] if it["table"] == name]
        assert told and all(it["meaning"] and it["form"] for it in told)
        with open(tmp_path / f"out/{name}.csv", encoding="utf-8", newline="") as text:
            head = next(csv.reader(text))
        assert head == [it["column"] for it in told if it["form"] != "never written"]


def test_a_first_version_has_no_wheelchairs(tmp_path: Path) -> None:
    file = made(tmp_path / "desk.db")
    file.execute("UPDATE desk SET version = 1")
    for name in [*TABLES][FIRST_TABLES:]:
        file.execute(f"DROP TABLE {name}")
    found = written(file, tmp_path / "out")
    assert found["rider_chairs"] == found["vehicle_chairs"] == found["trip_chairs"] == []


@pytest.mark.parametrize("name", TABLES)
def test_a_table_that_the_copy_lacks_is_named(tmp_path: Path, name: str) -> None:
    file = made(tmp_path / "desk.db")
    file.execute(f"DROP TABLE {name}")
    with pytest.raises(warehouse.Unsound, match=f"the copy has no table {name}, "):
        warehouse.write(warehouse.Copy(file), tmp_path / "out", lambda said: None)
    assert not (tmp_path / "out").exists()


@pytest.mark.parametrize(
    "change, said",
    [
        (
            f"UPDATE entries SET kind = {len(ENTRIES)} WHERE place = 1",
            "table entries, row 7, 1: kind",
        ),
        ("UPDATE trips SET day = -1", "table trips, row 1: day is -1"),
        ("UPDATE trips SET day = 47483", "table trips, row 1: day is 47483"),
        ("UPDATE places SET core = 2 WHERE id = 1", "table places, row 1: core is 2"),
        ("UPDATE fixed SET points = x'00'", "table fixed, row 1: points is"),
        ("UPDATE vehicles SET days = 128", "table vehicles, row 1, 20454: days is 128"),
        ("UPDATE callers SET role = -1 WHERE id = 4", "table callers, row 4: role is -1"),
    ],
)
def test_a_value_of_no_desk_is_named_and_nothing_is_left(
    tmp_path: Path, change: str, said: str
) -> None:
    file = made(tmp_path / "desk.db")
    file.execute(change)
    with pytest.raises(warehouse.Unsound) as raised:
        warehouse.write(warehouse.Copy(file), tmp_path / "out", lambda _: None)
    assert str(raised.value).startswith(said) and not (tmp_path / "out").exists()


def test_a_folder_that_holds_something_stays_as_it_is(tmp_path: Path) -> None:
    file = made(tmp_path / "desk.db")
    (tmp_path / "out").mkdir()
    (tmp_path / "out/mine.txt").write_text("mine", encoding="utf-8")
    for path in (tmp_path / "out", tmp_path / "desk.db"):
        with pytest.raises(warehouse.Unwritable, match="is no empty folder"):
            warehouse.write(warehouse.Copy(file), path, lambda _: None)
    assert [it.name for it in (tmp_path / "out").iterdir()] == ["mine.txt"]
    with pytest.raises(warehouse.Unwritable):
        warehouse.write(warehouse.Copy(file), tmp_path / "desk.db/out", lambda _: None)


def test_a_write_that_fails_leaves_nothing(tmp_path: Path, monkeypatch: pytest.MonkeyPatch) -> None:
    def full(*_: object) -> None:
        raise OSError(28, "No space left on device", "stops.csv")

    file = made(tmp_path / "desk.db")
    (tmp_path / "out").mkdir()
    monkeypatch.setattr(warehouse, "list_of", full)
    with pytest.raises(warehouse.Unwritable, match="No space left on device"):
        warehouse.write(warehouse.Copy(file), tmp_path / "out", lambda _: None)
    assert not [*(tmp_path / "out").iterdir()]


def test_a_long_table_says_how_far_it_is(monkeypatch: pytest.MonkeyPatch) -> None:
    said: list[str] = []
    monkeypatch.setattr(warehouse, "SECONDS_STILL", 0.0)
    rows = ([str(at)] for at in range(25_000))
    assert sum(1 for _ in warehouse.Progress(said.append).through("trips", rows)) == 25_000
    assert said == ["trips: 10,000 rows so far", "trips: 20,000 rows so far"]


@given(some.sampled_from(sorted(TABLES)), some.data())
def test_any_value_is_read_or_named(name: str, data: some.DataObject) -> None:
    columns = warehouse.shown(TABLES[name])
    values = tuple(
        data.draw(
            some.binary(max_size=20)
            if it.form is Form.POINTS
            else some.text(max_size=9)
            if it.form is Form.TEXT
            else some.integers(-(2**63), 2**63 - 1)
        )
        for it in columns
    )
    kind = next((at for at, it in enumerate(columns) if it.form is Form.ENTRY), -1)
    with contextlib.suppress(warehouse.Unsound):
        assert len(warehouse.row_of(name, columns, values, kind)) == len(columns)


@given(some.lists(some.text(some.characters(blacklist_categories=("Cs",)), max_size=9), max_size=9))
def test_any_text_comes_back(texts: list[str]) -> None:
    with tempfile.TemporaryDirectory() as room:
        folder = warehouse.Folder(Path(room))
        folder.write("a.csv", [["x", it] for it in texts])
        with open(Path(room, "a.csv"), encoding="utf-8", newline="") as file:
            assert [it[1] for it in csv.reader(file)] == texts


def test_a_plain_copy_without_its_log_is_named(tmp_path: Path) -> None:
    """What `cp desk.db` makes after an orderly stop: a file of SQLite's with no table."""
    path = tmp_path / "copy.db"
    with contextlib.closing(sqlite3.connect(path)) as database:
        database.execute("VACUUM")
        database.execute("PRAGMA user_version = 1")
    with pytest.raises(Wrong, match="has no tables: .* ends in -wal. Copy with deploy/backup"):
        copies.Copy(str(path))
