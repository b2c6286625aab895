"""The files of each van's driver: what is in them, and what never is."""

import csv
import datetime
import io
import json
import os
from pathlib import Path

import pytest
from hypothesis import given
from hypothesis import strategies as st

from desk_tools import driver_files
from desk_tools.driver_files import Need, Wrong, needs_in, plans_in, put, texts_of

SHEET = """VEHICLE 1 DAY 2025-03-11
08:00 DEPOT 5
09:00 PICK trip 3 rider 8 place 1 load 0 chairs 1 window 09:00-09:15
09:02 DROP trip 3 rider 8 place 10 load 0 chairs 0
09:04 DEPOT 5
VEHICLE 2 DAY 2025-03-11
NO STOPS
VEHICLE 3 DAY 2025-03-11
10:00 DEPOT 6
10:05 PICK trip 4 rider 9 place 2 load 1 window 10:05-10:20
10:20 DROP trip 4 rider 9 place 3 load 0
10:30 DEPOT 6
TRIPS 2
"""
HEADS = "trip,rider,day,wish,from,to,vehicle,window_from,window_to,due,status\n"
EXPORT = f"""{HEADS}3,8,2025-03-11,540,1,10,1,540,555,400,missed-rider
4,9,2025-03-11,600,2,3,3,605,620,400,booked
5,9,2025-03-11,700,2,3,2,705,720,400,cancelled
"""
PLACES = [
    {"id": 1, "name": "Town Hall", "x": 0, "y": 0},
    {"id": 10, "name": "Shelter", "note": "call first", "private": True},
    {"id": 2, "name": "12 Oak", "note": "gate code 4411#", "private": 9, "latitude": 42.5},
    {"id": 5, "name": "Depot"},
    {"id": 14, "name": "Another shelter", "private": True},
]
ROSTER = [
    {"rider": "8", "name": "Núñez, Ana", "note": 'says "hi"'},
    {"rider": "9", "name": "Bo", "note": ""},
    {"rider": "10", "name": "Cy", "note": "oxygen"},
]


def test_a_van_has_the_riders_and_places_of_its_own_stops() -> None:
    needs = needs_in([SHEET], [EXPORT])
    assert {van: (it.riders, it.places) for van, it in needs.items()} == {
        1: ({8}, {5, 1, 10}),
        3: ({9}, {6, 2, 3}),
    }
    assert needs[1].outcomes == {3: "missed-rider"}
    assert needs[3].outcomes == {}


def test_the_plans_have_times_and_outcomes_and_no_rider_and_no_place() -> None:
    made = datetime.datetime(2025, 3, 11, 13, 4, 20, tzinfo=datetime.timezone.utc)
    plans = plans_in("2025-03-11", SHEET, EXPORT, made)
    assert (plans["day"], plans["made"]) == ("2025-03-11", "2025-03-11T13:04:20Z")
    assert plans["outcomes"] == {"3": "missed-rider", "5": "cancelled"}
    assert plans["vehicles"]["3"] == [
        {"at": 600, "what": "DEPOT"},
        {"at": 605, "what": "PICK", "trip": 4, "load": 1, "chairs": 0, "window": [605, 620]},
        {"at": 620, "what": "DROP", "trip": 4, "load": 0, "chairs": 0},
        {"at": 630, "what": "DEPOT"},
    ]
    assert [it.get("chairs") for it in plans["vehicles"]["1"]] == [None, 1, 0, None]
    # (a van without stops has no plan)
    assert set(plans["vehicles"]) == {"1", "3"}
    assert "rider" not in json.dumps(plans["vehicles"]) and "place" not in json.dumps(plans)


def test_two_days_are_one_need() -> None:
    tomorrow = SHEET.replace("VEHICLE 1 ", "VEHICLE 3 ").replace("2025-03-11", "2025-03-12")
    assert needs_in([SHEET, tomorrow], [])[3].riders == {8, 9}


def test_the_files_hold_what_the_driver_needs_and_nothing_else() -> None:
    texts = texts_of(needs_in([SHEET], [EXPORT])[1], PLACES, ROSTER)
    rows = list(csv.reader(io.StringIO(texts["roster.csv"])))
    assert rows == [["rider", "name", "note"], ["8", "Núñez, Ana", 'says "hi"']]
    places = json.loads(texts["places.json"])["places"]
    # (the shelter is a stop of the day; another shelter and a rider's home are not)
    assert [it["id"] for it in places] == [1, 10, 5]
    assert all(set(it) <= set(driver_files.PLACE_FIELDS) for it in places)
    assert json.loads(texts["outcomes.json"]) == {"outcomes": {"3": "missed-rider"}, "taps": {}}


def test_a_driver_reads_the_last_tap_of_each_trip_of_the_day(tmp_path: Path) -> None:
    taps = [(7, "arrived", 500), (7, "aboard", 505), (8, "skipped", 510), (7, "dropped", 530)]
    told = [{"trip": trip, "kind": kind, "minute": minute} for trip, kind, minute in taps]
    (tmp_path / "staff").mkdir()
    today = tmp_path / "staff/today.json"
    today.write_text(json.dumps({"day": "2025-03-11", "vehicles": {"3": {"taps": told}}}))
    wanted = {3: {7: {"kind": "dropped", "minute": 530}}}
    assert driver_files.taps_in(tmp_path, "2025-03-11") == wanted
    assert driver_files.taps_in(tmp_path, "2025-03-12") == {}
    text = texts_of(Need(taps=wanted[3]), [], [])["outcomes.json"]
    assert json.loads(text)["taps"] == {"7": {"kind": "dropped", "minute": 530}}


@pytest.mark.parametrize(
    "content", [None, "[]", "{", '{"day": "2025-03-11", "vehicles": {"x": 1}}']
)
def test_a_file_of_the_day_that_is_wrong_is_passed_over(
    tmp_path: Path, content: str | None
) -> None:
    (tmp_path / "staff").mkdir()
    if content is not None:
        (tmp_path / "staff/today.json").write_text(content)
    assert driver_files.taps_in(tmp_path, "2025-03-11") == {}


@given(st.sets(st.integers(1, 20)), st.sets(st.integers(1, 20)))
def test_no_file_names_anybody_who_is_no_stop(riders: set[int], places: set[int]) -> None:
    roster = [{"rider": str(it), "name": f"name-{it}-", "note": ""} for it in range(1, 21)]
    town = [{"id": it, "name": f"place-{it}-", "private": True} for it in range(1, 21)]
    texts = "".join(texts_of(Need(riders, places), town, roster).values())
    for number in range(1, 21):
        assert (f"name-{number}-" in texts) == (number in riders)
        assert (f"place-{number}-" in texts) == (number in places)


def test_files_are_written_whole_and_once_and_taken_away(tmp_path: Path) -> None:
    texts = {1: {"roster.csv": "rider,name,note\n"}, 12: {"roster.csv": "x\n"}}
    assert put(tmp_path, texts) == 2
    assert put(tmp_path, texts) == 0
    path = tmp_path / "drivers/1/roster.csv"
    assert oct(path.stat().st_mode & 0o777) == "0o640"
    (tmp_path / "drivers/12/roster.csv.new").write_text("half")
    (tmp_path / "drivers/roster.csv").write_text("all of them")
    assert put(tmp_path, {1: texts[1]}) == 2
    assert sorted(os.listdir(tmp_path / "drivers")) == ["1", "roster.csv"]


def test_a_link_in_the_way_of_a_file_is_not_followed(tmp_path: Path) -> None:
    (tmp_path / "drivers/1").mkdir(parents=True)
    (tmp_path / "secret").write_text("stays")
    (tmp_path / "drivers/1/roster.csv.new").symlink_to(tmp_path / "secret")
    with pytest.raises(OSError):
        put(tmp_path, {1: {"roster.csv": "x\n"}})
    assert (tmp_path / "secret").read_text() == "stays"


def test_days_are_the_agencys() -> None:
    assert driver_files.days_from("2025-12-31", None) == ["2025-12-31", "2026-01-01"]
    with pytest.raises(Wrong):
        driver_files.days_from("soon", None)
    with pytest.raises(Wrong):
        driver_files.days_from(None, "Mars/Olympus")


@pytest.mark.parametrize("content", ["[]", "{", "\xff"])
def test_a_wrong_file_is_one_sentence_and_leaves_the_files(tmp_path: Path, content: str) -> None:
    put(tmp_path, {1: {"roster.csv": "x\n"}})
    (tmp_path / "agency.json").write_bytes(content.encode("latin-1"))
    key = tmp_path / "key"
    key.write_text("hello\n")
    assert driver_files.main([str(tmp_path), "--key", str(key)]) == 1
    assert (tmp_path / "drivers/1/roster.csv").read_text() == "x\n"


def test_a_desk_that_does_not_answer_leaves_the_files(
    tmp_path: Path, caplog: pytest.LogCaptureFixture
) -> None:
    put(tmp_path, {1: {"roster.csv": "x\n"}})
    (tmp_path / "staff").mkdir()
    (tmp_path / "staff/places.json").write_text('{"places": []}\n')
    key = tmp_path / "key"
    key.write_text("hello\n")
    words = [str(tmp_path), "--key", str(key), "--url", "http://127.0.0.1:9"]
    assert driver_files.main(words) == 1
    assert "does not answer" in caplog.text
    assert (tmp_path / "drivers/1/roster.csv").read_text() == "x\n"
    assert driver_files.main([str(tmp_path), "--key", str(tmp_path / "none")]) == 1


def test_a_folder_that_is_not_the_sites_gets_no_files(
    tmp_path: Path, caplog: pytest.LogCaptureFixture
) -> None:
    key = tmp_path / "key"
    key.write_text("hello\n")
    folder = tmp_path / "elsewhere"
    folder.mkdir()
    words = [str(folder), "--key", str(key), "--url", "http://127.0.0.1:9"]
    assert driver_files.main(words) == 1
    assert "has no staff/places.json of bin/site-files" in caplog.text
    assert not list(folder.iterdir())
