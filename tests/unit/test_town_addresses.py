"""Files of addresses: who may read what, which address a trip means, and a new one at a place that is right."""

import json

import pytest
from hypothesis import given
from hypothesis import strategies as st

from desk_tools.driver_files import Town, needs_in, texts_of
from desk_tools.town.addresses import Address
from desk_tools.town.corridor import Line
from desk_tools.town.joining import NoPlace, joined, with_row
from desk_tools.town.places import Place
from desk_tools.town.site_addresses import End, Known, checked, name_near, name_of_homes
from desk_tools.town.site_addresses import texts_of as site_texts

PLACES = {5: False, 6: 101, 7: True}
ADDRESSES = [
    Address(1, "12 Oak St", position=(44.9, -93.2), place=5, note="rear door"),
    Address(2, "14 Oak St", place=5, riders=(101, 102), note="code 4411"),
    Address(3, "9 Mill St", place=6, note="lobby"),
    Address(4, "5 Shelter Lane", place=7),
]
SHEET = """VEHICLE 3 DAY 2026-12-07
05:00 DEPOT 1
09:00 PICK trip 11 rider 101 place 5 load 1 chairs 0 window 09:00-09:15
09:16 DROP trip 11 rider 101 place 6 load 0 chairs 0
09:33 DEPOT 1
"""


def listed(text: str) -> list[int]:
    """The numbers of a file's addresses."""
    return [it["id"] for it in json.loads(text)["addresses"]]


def test_a_home_is_shown_to_staff_and_its_riders() -> None:
    """Notes are staff's, and so is a private place's address; each rider reads of the own ones alone."""
    texts = site_texts(ADDRESSES, PLACES)
    assert listed(texts["staff/addresses.json"]) == [1, 2, 3, 4]
    assert listed(texts["addresses.json"]) == [1]
    assert listed(texts["own/101/addresses.json"]) == [2, 3]
    assert listed(texts["own/102/addresses.json"]) == [2]
    assert json.loads(texts["own/102/addresses.json"])["addresses"][0]["riders"] == [102]
    for path, text in texts.items():
        if not path.startswith("staff/"):
            assert "note" not in text and "rear door" not in text and "5 Shelter" not in text


@given(
    st.lists(
        st.builds(
            Address,
            st.integers(1, 99),
            st.text(min_size=1),
            place=st.sampled_from([5, 6, 7]),
            note=st.sampled_from(["", "secret note"]),
            riders=st.sampled_from([(), (101,), (102, 103)]),
        ),
        unique_by=lambda it: it.number,
    )
)
def test_no_rider_reads_of_another_ones_home(addresses: list[Address]) -> None:
    """In any file but that of staff."""
    texts = site_texts(addresses, PLACES)
    homes = {it.number: it for it in addresses if it.riders}
    assert not set(listed(texts["addresses.json"])) & homes.keys()
    for path, text in texts.items():
        if path.startswith("own/"):
            rider = int(path.split("/")[1])
            for number in listed(text):
                assert number not in homes or rider in homes[number].riders
        assert path.startswith("staff/") or "secret note" not in text


def test_an_address_without_a_place_is_named_by_its_row() -> None:
    """And left out."""
    right, faults = checked(
        [*ADDRESSES, Address(8, "A", place=9, row=4), Address(9, "B", row=5)], PLACES
    )
    assert [it.number for it in right] == [1, 2, 3, 4]
    assert faults == [
        "row 4: there is no place 9, so it is left out",
        "row 5: it has no place, so it is left out",
    ]


def known() -> Known:
    """As a driver's file is made of staff's."""
    text = site_texts(ADDRESSES, PLACES)["staff/addresses.json"]
    return Known(json.loads(text)["addresses"])


@pytest.mark.parametrize(
    ("rider", "place", "named", "meant"),
    [
        (101, 5, 1, 1),
        (101, 5, None, 2),
        (101, 5, 3, 2),
        (109, 5, None, None),
        (101, 6, None, None),
        (101, 6, 3, 3),
        (101, 5, "1", 2),
    ],
)
def test_which_address_is_meant(rider: int, place: int, named: object, meant: int | None) -> None:
    """What the booking named at that place, else the rider's home there, else none."""
    found = known().meant(End(rider, place), named)
    assert (found and found["id"]) == meant


def test_a_driver_has_the_addresses_of_the_own_trips() -> None:
    """With the note and the position, by trip and end, and no more."""
    town = Town(known(), {"11": {"from_address": 1, "to_address": 3}, "12": {"from_address": 2}})
    need = needs_in([SHEET], [])[3]
    found = json.loads(texts_of(need, [], [], town)["addresses.json"])["addresses"]
    assert found == {
        "11": {
            "from": {
                "id": 1,
                "street": "12 Oak St",
                "note": "rear door",
                "latitude": 44.9,
                "longitude": -93.2,
            },
            "to": {"id": 3, "street": "9 Mill St", "note": "lobby"},
        }
    }
    assert "addresses.json" not in texts_of(need, [], [])


LINES = [
    Line(1, "1 Main", 3_960, ((-20_000, 0), (20_000, 0)), True),
    Line(2, "2 Oak", 3_960, ((0, -20_000), (0, 20_000)), True),
]
STAND = [
    Place(1, "Both", (0, 0)),
    Place(2, "Main alone", (9_000, 0)),
    Place(3, "Home", (9_100, 0), private=(101,)),
    Place(4, "Shelter", (9_200, 0), private=True),
]


def test_a_new_address_joins_the_nearest_place_that_has_its_lines() -> None:
    """A home joins the rider's own place; a private place takes nobody else."""
    assert joined(Address(9, "A", (9_150, 0)), STAND, LINES).place.number == 2
    assert joined(Address(9, "A", (9_150, 0), riders=(101,)), STAND, LINES).place.number == 3
    assert joined(Address(9, "A", (3_900, 3_900)), STAND, LINES).place.number == 1
    with pytest.raises(NoPlace, match="1,040 feet are missing to that of 1 Main"):
        joined(Address(9, "A", (9_000, 5_000)), STAND, LINES)
    with pytest.raises(NoPlace, match=r"\(1 Main, 2 Oak\): it takes a new place"):
        joined(Address(9, "A", (0, 0)), STAND[1:], LINES)
    assert [it.number for it in with_row(ADDRESSES, Address(2, "B"))] == [1, 2, 3, 4]


GROUPED = [
    {"id": 1, "street": "12 Oak St", "place": 5},
    {"id": 2, "street": "14 Oak St", "place": 5, "riders": [101]},
    {"id": 3, "street": "9 Mill St", "place": 6, "riders": [101, 102]},
    {"id": 4, "street": "11 Mill St", "place": 6, "riders": [102]},
]


@pytest.mark.parametrize(
    "place, name, rider, number, wanted",
    [
        (6, name_of_homes(6), 101, None, "9 Mill St"),
        (6, name_of_homes(6), 102, None, ""),
        (6, name_of_homes(6), 102, 4, "11 Mill St"),
        (5, name_near("12 Oak St"), 101, None, "14 Oak St"),
        (5, name_near("12 Oak St"), 103, 1, "12 Oak St"),
        (5, "Mercy Hospital", 103, 1, "12 Oak St, Mercy Hospital"),
        (5, "Mercy Hospital", 103, None, "Mercy Hospital"),
        (7, "Near North Clinic", 103, None, "Near North Clinic"),
    ],
)
def test_a_rider_reads_the_street_and_never_the_name_of_a_group_of_homes(
    place: int, name: str, rider: int, number: int | None, wanted: str
) -> None:
    assert Known(GROUPED).read_by_rider(End(rider, place), name, number) == wanted


@pytest.mark.parametrize(
    "rider, home, name, wanted",
    [
        (101, 5, name_near("12 Oak St"), "14 Oak St"),
        (102, 6, name_of_homes(6), ""),
        (102, 5, "Mercy Hospital", ""),
        (102, 7, "10 Elm St", "10 Elm St"),
        (102, 62, name_of_homes(62), ""),
        (101, None, "", ""),
        (103, None, "", ""),
    ],
)
def test_a_letter_goes_to_the_own_home_or_to_no_address(
    rider: int, home: int | None, name: str, wanted: str
) -> None:
    assert Known(GROUPED).mailing(rider, home, name) == wanted


def test_a_rider_with_one_home_needs_no_place_in_the_roster() -> None:
    assert Known(GROUPED[:2]).mailing(101, None, "") == "14 Oak St"
