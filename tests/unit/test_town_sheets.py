"""Spreadsheets as people save them, one table of riders cut, and agency.json that the next command takes."""

import argparse
import contextlib
import csv
import datetime
import errno
import io
import os
import random
from pathlib import Path

import pytest
from hypothesis import example, given, settings
from hypothesis import strategies as st


from desk_tools.town import cells, people, sheets
from desk_tools.town.addresses import Address
from desk_tools.town.joining import NoPlace
from desk_tools import sponsors
from desk_tools.reminders import riders as riders_of_reminders
from desk_tools.reminders import settings as settings_of_reminders
from desk_tools.setup import example as agency_example
from desk_tools.setup import (
    carry,
    commands,
    desk,
    duty_file,
    feed,
    gathering,
    limits,
    riders,
    roster_file,
    tables,
    whole_file,
)

COLUMNS = {"number": ("id",), "name": (), "until": ()}
PATH = Path("t.csv")
CELL = st.text(st.characters(blacklist_categories=("Cs", "Cc"), max_codepoint=0xFF), max_size=12)


def read(content: bytes, most: int | None = None) -> sheets.Sheet:
    """A sheet of these bytes."""
    return sheets.of_bytes(content, PATH, COLUMNS, most)


def is_utf_8_too(line: bytes) -> bool:
    """Whether a line of Windows-1252 has letters that are UTF-8 too."""
    try:
        return not line.isascii() and bool(line.decode("utf-8"))
    except UnicodeDecodeError:
        return False


@given(
    st.lists(st.tuples(CELL, CELL, CELL), max_size=8),
    st.sampled_from([",", ";", "\t"]),
    st.sampled_from(["utf-8", "utf-8-sig", "cp1252", "utf-16"]),
    st.sampled_from(["\n", "\r\n", "\r"]),
)
def test_a_table_is_the_same_however_it_was_saved(
    rows: list[tuple[str, str, str]], delimiter: str, encoding: str, end: str
) -> None:
    """In UTF-8, Windows-1252 or UTF-16, with commas, semicolons or tabs, and any line ends."""
    text = io.StringIO()
    csv.writer(text, delimiter=delimiter, lineterminator=end, quoting=csv.QUOTE_ALL).writerows(
        [("Number", " NAME ", "until"), *rows]
    )
    try:
        content = text.getvalue().encode(encoding)
    except UnicodeEncodeError:
        return
    if encoding == "cp1252" and any(map(is_utf_8_too, sheets.LINE.findall(content))):
        return
    sheet = read(content)
    wanted = [[" ".join(it.split()) for it in row] for row in rows if any(it.strip() for it in row)]
    assert sheet.header == ["number", "name", "until"] and not sheet.refused
    assert [[*it.fields.values()] for it in sheet.rows] == wanted


@given(st.binary(max_size=400))
def test_any_bytes_are_a_sentence_or_rows(content: bytes) -> None:
    """Each row is read or refused, and nothing else is raised."""
    try:
        sheet = read(content)
    except sheets.Unreadable as error:
        assert "\n" not in str(error)
        return
    numbers = [it.number for it in sheet.rows] + [it.number for it in sheet.refused]
    assert len(numbers) == len(set(numbers))


def test_what_is_wrong_is_named_by_its_row() -> None:
    """Quotation marks, more cells than columns, a lost byte; the other rows are read."""
    sheet = read(b'id,name,until\n1,a,\n2,"b" c,\n3,c,,x\n4,\x81,\n5,e,\n')
    assert [it.number for it in sheet.rows] == [2, 6]
    assert [(it.number, it.reason.split(":")[0]) for it in sheet.refused] == [
        (3, "its quotation marks are wrong (',' expected after '\"')"),
        (4, "it has 4 cells, and row 1 names 3 columns"),
        (5, "name has a byte that is no letter"),
    ]
    with pytest.raises(sheets.Unreadable, match="more than 1 rows"):
        read(b"id,name\n1,a\n2,b\n", 1)
    with pytest.raises(sheets.Unreadable, match="workbook"):
        read(b"PK\3\4")


@given(st.dates(datetime.date(2000, 1, 1), datetime.date(2099, 12, 31)))
def test_a_day_is_read_in_each_form(day: datetime.date) -> None:
    """As Excel shows it, as it counts it, and as the desk has it."""
    serial = (day - datetime.date(1899, 12, 30)).days
    assert cells.day(day.isoformat()) == (day.isoformat(), cells.ISO)
    assert cells.day(f"{day.month}/{day.day}/{day.year}") == (day.isoformat(), cells.MONTH_FIRST)
    assert cells.day(f"{day:%m/%d/%y}") == (day.isoformat(), cells.MONTH_FIRST)
    assert cells.day(str(serial)) == (day.isoformat(), cells.COUNTED)
    assert tables.any_day(f"{day:%m/%d/%Y}") == day.isoformat()


@pytest.mark.parametrize(
    "text", ["30-Jun-27", "30-June-2027", "June 30, 2027", "jun. 30 2027", "30 JUN 2027"]
)
def test_a_day_with_the_months_name_is_read(text: str) -> None:
    """As a spreadsheet shows it."""
    assert cells.day(text) == ("2027-06-30", cells.NAMED)


@pytest.mark.parametrize(
    "cell, name",
    [
        ("ID #", "number"),
        ("Cert. Until", "cert_until"),
        (" Name:", "name"),
        ("E-Mail", "e_mail"),
        ("#", ""),
        ("Año", "año"),
    ],
)
def test_columns_go_by_their_letters(cell: str, name: str) -> None:
    """Signs and blanks in the name of a column are nothing."""
    assert sheets.named(cell, COLUMNS) == name


def test_a_title_above_the_columns_is_said() -> None:
    """With the row that names them; and where none does, that is all that is said."""
    titled = read(b"All our riders\n\nID,Name,Until\n1,Ana,\n")
    with pytest.raises(sheets.Unreadable, match="row 3 names them, so take away the rows above"):
        sheets.require(titled, ("number", "name"), COLUMNS)
    with pytest.raises(
        sheets.Unreadable, match="row 1, which names the columns: number, name, until$"
    ):
        sheets.require(read(b"a,b\n1,2\n"), ("number",), COLUMNS)
    sheets.require(read(b"ID\n1\n"), ("number",), COLUMNS)


@pytest.mark.parametrize(
    "text",
    [
        "30/6/2027",
        "2/30/2027",
        "Juno 3, 2027",
        "31-Jun-27",
        "6-Xyz-27",
        "46388x",
        "6/30",
        "٤٦٣٨٨",
        "1999-01-01",
        "",
    ],
)
def test_what_is_no_day_is_said(text: str) -> None:
    """With the two forms that people may write."""
    with pytest.raises(cells.WrongCell, match="such as 2027-06-30 or 6/30/2027"):
        cells.day(text)


def test_numbers_and_words_are_read_as_a_spreadsheet_has_them() -> None:
    """Leading zeros, a `.0`, any case."""
    assert cells.number("00102") == cells.number("102.0") == 102
    assert cells.yes_or_no("YES") and not cells.yes_or_no("No")
    with pytest.raises(cells.WrongCell):
        cells.number("4294967296")


REASON = "until '2/30/2027' is no day such as 2027-06-30 or 6/30/2027 of 2000 to 2099"
RIDERS = """Rider ID;Name;Phone;Address;Type;Until;Conditions;PCA
0101;Ana Peña;555-0101;12 Oak St.;Resident;6/30/2027;Always;Yes
102;Bo Lind;555-0102;99 New Rd;RESIDENT;46388;;no
101.0;Ana Again;;;;;;
103;Cy Odum;front desk;;;;;
104;Di Park;;;;2/30/2027;;
105;Ed Poe;;;visitor;;;
"""


def nowhere(address: Address, _: tuple[str, ...]) -> Address:
    raise NoPlace(f"{address.street} lies outside every corridor")


def moved_in(text: bytes, tmp_path: Path, known: list[Address]) -> people.Cut:
    """A table cut, where new homes are nowhere."""
    path = tmp_path / "people.csv"
    path.write_bytes(text)
    return people.cut(path, None, known, nowhere)


def test_who_waits_sees_how_many_riders_are_read(tmp_path: Path) -> None:
    """Also of a table of few rows: a home that joins a place takes long."""
    path, shown = tmp_path / "riders.csv", list[tuple[int, int, str]]()
    path.write_text("number,name\n101,Ana\n102,Bo\n103,Cy\n", encoding="utf-8")
    people.cut(path, None, [], nowhere, show=lambda *it: shown.append(it))
    assert shown == [(1, 3, "riders read"), (2, 3, "riders read"), (3, 3, "riders read")]


def test_one_table_of_riders_is_cut(tmp_path: Path) -> None:
    """Each rider's home is the address of the table, whose place the roster has; a refused row is whole."""
    known = [Address(1, "12 Oak St", (0, 0), place=17)]
    made = moved_in(RIDERS.encode("cp1252"), tmp_path, known)
    texts = people.texts_of(made)
    assert texts["cut-riders.csv"] == (
        "number,kind,attendant,wheelchair,until,conditions,home\n"
        "101,resident,yes,no,2027-06-30,always,\n"
        "105,visitor,no,no,,,\n"
    )
    assert texts["cut-roster.csv"].splitlines()[1] == "101,Ana Peña,555-0101,,17,,,,,"
    assert made.addresses == [Address(1, "12 Oak St", (0, 0), place=17, riders=(101,))]
    assert [(it.number, it.cells[1], it.reason) for it in made.sheet.refused] == [
        (3, "Bo Lind", "home_address '99 New Rd' is in no table of addresses, and has no position"),
        (4, "Ana Again", "row 2 has the number 101 already"),
        (5, "Cy Odum", "telephone 'front desk' has no digits"),
        (6, "Di Park", REASON),
    ]
    notes = people.told(made)
    assert "note: semicolons between the columns" in notes
    assert "note: 1 lines are no UTF-8 and were read as Windows-1252" in notes
    assert any("read as M/D/YYYY" in it for it in notes)


@pytest.mark.parametrize(
    "table, private, home",
    [
        ("number,name,home_address\n101,Ana,12 Oak St\n", (), ""),
        ("number,name,home_address\n101,Ana,12 Oak St\n", ("17",), "17"),
        ("number,name,home_address,home\n101,Ana,12 Oak St,0017\n", (), "17"),
        ("number,name,home\n101,Ana,17\n", (), "17"),
    ],
)
def test_a_home_that_was_grouped_to_a_clinic_leaves_the_clinic_to_all(
    tmp_path: Path, table: str, private: tuple[str, ...], home: str
) -> None:
    """`move-in riders` makes the place of the column `home` private, so it is there only where people said it."""
    path = tmp_path / "people.csv"
    path.write_text(table, encoding="utf-8")
    known = [Address(1, "12 Oak St", (0, 0), place=17), Address(2, "14 Oak St", (0, 0), place=17)]
    made = people.cut(path, None, known, nowhere, private=private)
    assert [it.rider["home"] for it in made.people] == [home]
    assert [it.roster["home"] for it in made.people] == ["17"]


TABLE = "number,name,kind,until,conditions,usual,reminder,mail\n101,Ana,{}\n102,Bo,,,,4;5,SMS,bo@example.org\n"


@pytest.mark.parametrize(
    "row, said",
    [
        (
            ',,"months:12,1,2",,,',
            "conditions 'months:12,1,2' are none such as always, nolift, months:1,2,12 (rising) or farther:5280",
        ),
        (",2026-11-29,,,,", "the certification ended on 2026-11-29, and nothing could be granted"),
        ("visitor,2027-11-29,,,,", "a visitor has no certification here, so until has to be empty"),
        (",,,x,,", "usual 'x' is no whole number from 1 to 4,294,967,295"),
        (",,,,fax,", "reminder 'fax' is none of sms, mail, voice, none"),
        (",,,,mail,ana", "mail 'ana' is no mail address"),
    ],
)
def test_one_table_refuses_what_the_next_command_refuses(
    tmp_path: Path, row: str, said: str
) -> None:
    """Its row is refused with the reason; the next one keeps all that the roster has of it."""
    path = tmp_path / "people.csv"
    path.write_text(TABLE.format(row), encoding="utf-8")
    made = people.cut(path, None, [], lambda it, _: it, lambda *_: "", datetime.date(2026, 11, 30))
    assert [(it.number, it.reason) for it in made.sheet.refused] == [(2, said)]
    assert people.texts_of(made)["cut-roster.csv"].splitlines() == [
        "rider,name,telephone,language,home,usual,aid,note,reminder,mail",
        "102,Bo,,,,4;5,,,sms,bo@example.org",
    ]
    assert not any("is not read" in it for it in people.told(made))


def test_a_wrong_grant_is_named_and_the_others_go_on(tmp_path: Path) -> None:
    """What `gather --riders` reads, with the subject of what is wrong."""
    path = tmp_path / "riders.csv"
    rows = ['101,"months:12,1,2"', "102,nolift", "x,", "103,", "104,nolift,more"]
    path.write_text("\n".join(["number,conditions", *rows]), encoding="utf-8")
    grants, faults = gathering.grants_of(str(path))
    assert grants == {102: ["nolift"], 103: ["always"]}
    said = "conditions 'months:12,1,2' are none such as always, nolift"
    assert faults[0].startswith(f"{path}, row 2: {said}")
    assert [it.partition(": ")[0] for it in faults] == [f"{path}, row {at}" for at in (2, 4, 6)]


NAME = st.text(st.characters(), max_size=20)


@settings(max_examples=60)
@example("a\nb", "\x00", "\n", 1)
@given(NAME, NAME, NAME, st.integers(1, 4294967295))
def test_agency_json_is_always_one_that_the_next_command_takes(
    tmp_path_factory: pytest.TempPathFactory, route: str, place: str, agency: str, number: int
) -> None:
    """Whatever signs the names of a feed and of tables have; a second writing changes nothing."""
    folder = tmp_path_factory.mktemp("agency")
    records = {
        "name": agency,
        "routes": {"1": {"name": route, "width": 3960, "points": [[0, 0], [1, 1]]}},
        "places": {str(number): {"name": place, "note": place, "x": 1, "y": 2}},
        "vehicles": {"1": {"name": route}},
    }
    carry.keep_agency(str(folder), records)
    kept = carry.kept_agency(str(folder))
    assert kept["places"].keys() == {str(number)} and len(kept["routes"]) == 1
    before = (folder / "agency.json").read_bytes()
    carry.keep_agency(str(folder), kept)
    assert (folder / "agency.json").read_bytes() == before


@given(NAME, NAME)
def test_what_agency_json_may_not_say_stays_unwritten(route: str, telephone: str) -> None:
    """A value of a wrong kind is one sentence, and the file stays as it was."""
    folder = Path("/nonexistent-desk-town")
    bad = {
        "clock": 13,
        "name": telephone,
        "routes": {},
        "places": {},
        "vehicles": {"1": {"name": route}},
    }
    with pytest.raises(limits.Wrong, match="stays as it was"):
        carry.keep_agency(str(folder), bad)


@pytest.mark.parametrize("name", ["Line\nBreak", "a\r\nb", " tab\there "])
def test_a_feeds_names_are_one_line(name: str) -> None:
    """Of routes and of the agency."""

    class Table:
        """A table of one row."""

        def rows(self, *_needed: str) -> list[dict[str, str]]:
            """The row."""
            return [
                {
                    "route_id": "r",
                    "route_type": "3",
                    "route_long_name": name,
                    "agency_name": name,
                }
            ]

    class Rows(Table):
        """The same, as an iterator."""

        def rows(self, *needed: str):  # type: ignore[no-untyped-def]
            """The row."""
            return iter(super().rows(*needed))

    assert [it[1] for it in feed.names_of(Rows())] == [" ".join(name.split())]
    assert feed.agency_of(Rows())["name"] == " ".join(name.split())


def test_many_rows_take_no_longer_than_they_must() -> None:
    """A hundred thousand rows with wrong quotation marks here and there."""
    chance = random.Random(1)
    rows = [f'{at},"x" y,\n' if chance.random() < 0.02 else f"{at},z,\n" for at in range(20_000)]
    sheet = read(("id,name,until\n" + "".join(rows)).encode())
    assert len(sheet.rows) + len(sheet.refused) == 20_000


def test_a_run_that_is_cut_off_leaves_no_files_that_do_not_belong_together(
    tmp_path: Path, monkeypatch: pytest.MonkeyPatch
) -> None:
    """New places beside the addresses of an earlier run would put riders at wrong ones."""
    for name in ("a.csv", "b.csv"):
        (tmp_path / name).write_text("earlier", encoding="utf-8")
    write = whole_file.written

    def cut_off(path: str, text: str) -> None:
        if path.endswith("b.csv"):
            raise OSError(28, "No space left on device", path)
        write(path, text)

    monkeypatch.setattr(whole_file, "written", cut_off)
    words = argparse.Namespace(folder=str(tmp_path), plan=False)
    with pytest.raises(limits.Wrong, match="b.csv: No space left"):
        gathering.put(words, {"a.csv": "new", "b.csv": "new"}, None)
    assert [it.name for it in sorted(tmp_path.iterdir())] == ["a.csv"]


TITLED = b"Our town\n\n"


@pytest.mark.parametrize(
    "kind, header",
    [
        ("places", b"number,name,x,y\n1,Hall,0,0\n"),
        ("vehicles", b"number,from_day,depot,capacity,opens,closes,duration\n"),
        ("callers", b"number,name,role\n2,Ana,clerk\n"),
        ("riders", b"number,kind\n101,resident\n"),
    ],
)
def test_a_title_above_any_table_is_said(tmp_path: Path, kind: str, header: bytes) -> None:
    path = tmp_path / f"{kind}.csv"
    path.write_bytes(TITLED + header)
    with pytest.raises(limits.Wrong, match="row 3 names them, so take away the rows above it"):
        tables.records_in(str(path), kind, lambda record: None)


def test_a_title_above_a_roster_sponsors_and_duties_is_said(tmp_path: Path) -> None:
    path = tmp_path / "t.csv"
    path.write_bytes(TITLED + b"rider,name\n101,Ana\n")
    with pytest.raises(limits.Wrong, match="row 3 names them"):
        roster_file.read(str(path))
    with pytest.raises(settings_of_reminders.Wrong, match="row 3 names them"):
        riders_of_reminders.read(path)
    path.write_bytes(TITLED + b"rider,sponsor,from,to,rate,by\n")
    with pytest.raises(sponsors.Unreadable, match="row 3 names them"):
        sponsors.read(path, ())
    path.write_bytes(TITLED + b"day,vehicle,label\n")
    with pytest.raises(limits.Wrong, match="row 3 names them"):
        duty_file.read(str(path))


@pytest.mark.parametrize("content", [b"", b"[]", b"\x00\x01"])
def test_another_file_is_no_table_of_duties(tmp_path: Path, content: bytes) -> None:
    path = tmp_path / "duty.csv"
    path.write_bytes(content)
    with pytest.raises(limits.Wrong, match="has no column day in row 1"):
        duty_file.read(str(path))


def test_duties_are_read_as_a_spreadsheet_saves_them(tmp_path: Path) -> None:
    path = tmp_path / "duty.csv"
    path.write_bytes(
        "day;vehicle;label\n12/7/2026;109;Joe Núñez\n12/7/2026;x;Bo\n".encode("cp1252")
    )
    assert duty_file.read(str(path)) == (
        {"2026-12-07": {"109": "Joe Núñez"}},
        ["row 3: 'x' is no number of a vehicle"],
    )


@pytest.mark.parametrize("text", ["6:00 AM", "06:00", "6:00:00 AM"])
def test_a_vehicles_time_is_read_as_excel_saves_it(tmp_path: Path, text: str) -> None:
    path = tmp_path / "vehicles.csv"
    head = "number,from_day,depot,capacity,opens,closes,duration"
    path.write_text(f"{head}\n1,2026-12-07,1,4,{text},8:30 PM,600\n")
    records, refused, _, _ = tables.records_in(str(path), "vehicles", lambda record: None)
    assert not refused
    assert (records[0]["opens"], records[0]["closes"]) == (360, 1230)


def test_a_home_at_no_place_says_how_the_rider_is_taken(tmp_path: Path) -> None:
    path = tmp_path / "people.csv"
    path.write_text("number,name,home_address,x,y\n101,Ana,1 Far Rd,9,9\n")

    def join(address: Address, conditions: tuple[str, ...]) -> Address:
        raise NoPlace(f"{address.street} lies outside every corridor")

    made = people.cut(path, None, [], join)
    said = "1 Far Rd lies outside every corridor. An empty home_address takes the rider without"
    assert made.sheet.refused[0].reason.startswith(said)
    path.write_text("number,name,home_address,x,y\n101,Ana,,,\n")
    made = people.cut(path, None, [], join)
    assert people.told(made) == ["1 rider; 0 addresses, 0 of them homes", "1 rider has no home"]


def test_no_empty_key_is_left_where_there_is_no_room(
    tmp_path: Path, monkeypatch: pytest.MonkeyPatch
) -> None:
    def no_room(number: int) -> None:
        raise OSError(errno.ENOSPC, os.strerror(errno.ENOSPC))

    monkeypatch.setattr(os, "fsync", no_room)
    with pytest.raises(OSError) as said:
        commands.made_key(str(tmp_path / "2-clerk"))
    assert said.value.filename == str(tmp_path / "2-clerk")
    assert not list(tmp_path.iterdir())


def test_a_plan_of_one_rider_says_one(capsys: pytest.CaptureFixture[str]) -> None:
    riders.told_riders([{"kind": "resident", "until": None, "wheelchair": True}])
    assert capsys.readouterr().out.splitlines() == [
        "1 rider: 0 visitors, 1 resident",
        "  0 residents get an application and its grant, to the day in the table",
        "  1 resident has no last day in the table: a record alone, and no ride yet",
        "  1 rider comes in a wheelchair: their vehicles need a wheelchair place",
    ]


def test_no_part_of_a_feed_is_left_where_there_is_no_room(
    tmp_path: Path, monkeypatch: pytest.MonkeyPatch
) -> None:
    def no_room(path: str, _found: object) -> None:
        Path(path).touch()
        raise OSError(errno.ENOSPC, os.strerror(errno.ENOSPC))

    monkeypatch.setattr(agency_example, "write_feed", no_room)
    with pytest.raises(OSError) as said:
        agency_example.write_agency(str(tmp_path / "ex"), datetime.date(2026, 11, 30))
    assert said.value.filename == str(tmp_path / "ex/feed.zip")
    assert not list((tmp_path / "ex").iterdir())


@pytest.mark.parametrize("status, is_kept", [(422, False), (503, True), (200, True)])
def test_the_key_of_a_refused_caller_is_not_kept(
    tmp_path: Path, status: int, is_kept: bool
) -> None:
    class Admin:
        """A desk that answers each write alike."""

        def post(self, _path: str, _body: dict[str, object]) -> desk.Reply:
            return desk.Reply(status, '{"error":"desk.invalid"}')

    path = tmp_path / "7-driver"
    record = {"number": 7, "role": "driver", "subject": 9, "name": "Joe"}
    put = commands.put_caller(Admin(), record, str(path))
    if status == 200:
        put()
    else:
        with pytest.raises(carry.CannotBe):
            put()
    assert path.exists() == is_kept
    path.write_text("hello")
    with contextlib.suppress(carry.CannotBe):
        put()
    assert path.read_text() == "hello", "a key that was there before stays"
