"""The agency's files wrong in every way: each page works, what is right is used, and one line says what is wrong."""
import json
from typing import Any

import people
from checks import Place, check, holds, same
from common import PARTS
from database import until

VANS = 1
AGENCY = people.agency_file(1)


def setting(**changed: Any) -> dict[Any, Any]:
    whole = {**AGENCY, **changed}
    return {
        name: value for name, value in whole.items() if name not in ("places", "routes", "vehicles")
    }


def records(**changed: Any) -> dict[Any, Any]:
    return {
        "places": AGENCY["places"],
        "routes": AGENCY["routes"],
        "vehicles": AGENCY["vehicles"],
        **changed,
    }


# A file, what is in it, and what the line about it has.
WRONG_AGENCY = [
    (None, "agency.json is missing"),
    (b"", "agency.json"),
    (b"\xff\xfe{}\x00", "agency.json"),
    (b"[]", "agency.json"),
    (b"null", "agency.json"),
    (b"7", "agency.json"),
    (b'{"name": "Half', "agency.json"),
    (setting(zone="Chicago"), "Chicago"),
    (setting(zone="EST5EDT,M3.2.0,M11.1.0"), "EST5EDT,M3.2.0"),
    (setting(zone=5), "zone"),
    (setting(first_weekday=9), "first_weekday"),
    (setting(clock=13), "clock"),
    (setting(languages="en"), "languages"),
    (setting(languages=[]), "languages"),
    (setting(place_word=5), "place_word"),
    (setting(appeal="court"), "appeal"),
    (setting(wait_minutes=-1), "wait_minutes"),
    (setting(lead=61), "lead"),
    (setting(idle_minutes="soon"), "idle_minutes"),
    (setting(brand={"mark": "LAKE"}), "brand"),
    (setting(brand={"light": {"accent": "#5b2a86"}}), "brand"),
    (setting(brand="teal"), "brand"),
    (setting(name=["a"]), "name"),
    (setting(telephone=5550100), "telephone"),
]
WRONG_PLACES = [
    (b"", "places.json"),
    (b"{", "places.json"),
    (b"[]", "places.json"),
    (records(places="many"), "places"),
    (records(places=[None, *AGENCY["places"]]), "place"),
    (records(places=[{"name": "No number"}, *AGENCY["places"]]), "place"),
    (records(places=[{"id": 0, "name": "Zero"}, *AGENCY["places"]]), "0"),
    (records(places=[{"id": 99, "name": 5}]), "99"),
    (
        records(
            routes=[
                {"id": 9, "name": "No points", "points": None, "width": "wide"},
                *AGENCY["routes"],
            ]
        ),
        "9",
    ),
    (records(routes=[{"id": 9, "points": [[0, "x"]]}]), "9"),
    (records(routes=7), "routes"),
    (records(vehicles=["van"]), "vehicle"),
    (records(vehicles=[{"id": "one"}]), "vehicle"),
]
RIGHT_PLACES = [
    records(places={str(it["id"]): {**it, "id": it["id"]} for it in AGENCY["places"]}),
    records(places=[{**it, "id": str(it["id"])} for it in AGENCY["places"]]),
    records(routes=[]),
    records(routes=None),
]
WRONG_ROSTER = [
    (b"", "roster"),
    (b"name,telephone\nAnn,5\n", "rider"),
    (b"rider,name\nseven,Ann\n", "seven"),
    (b"rider,name\n1001,Ann\n1001,Bob\n", "1001"),
    (b"\xff\xfe\x00", "roster"),
    (b'rider,name\n1001,"Ann\n', None),
]


def as_bytes(content: Any) -> bytes | None:
    return (
        content if content is None or isinstance(content, bytes) else json.dumps(content).encode()
    )


def named(file: str, content: Any) -> str:
    """A file with the end of what was in it: records begin with the places, which are mostly right."""
    return (
        f"{file} …{(as_bytes(content) or b'')[-120:]!r}"
        if content is not None
        else f"{file}, which is missing"
    )


def faults_of(at: Place, file: str, wrong: list[Any]) -> list[str]:
    """What is not as it should be, of each wrong content of a file, where a clerk looks at a rider's trips."""
    faults, right = [], at.town.file(file)
    at.browser.sign_in(at.keys["clerk"], "clerk", "trips")
    at.browser.script("sessionStorage.setItem('desk.subject.rider', 1001)")
    for content, said in wrong:
        at.town.write_file(file, as_bytes(content))
        try:
            at.browser.go("#clerk/trips")
            at.browser.sees("Trips of", "Book for")
            at.browser.settled(150)
            at.browser.no_errors()
            note = at.browser.script("return document.getElementById('notes')?.innerText ?? ''")
            if said and said not in note:
                faults.append(f"{named(file, content)}: nothing says {said!r}, but {note!r}")
        except Exception as trouble:
            faults.append(f"{named(file, content)}: {str(trouble)[:400]}")
            at.browser.forget_errors()
    at.town.write_file(file, right)
    return faults


@check
def a_public_file_that_is_wrong_leaves_the_page_and_is_told_in_a_line(at: Place) -> None:
    same("faults", [], faults_of(at, "agency.json", WRONG_AGENCY))


@check
def a_file_of_places_that_is_wrong_leaves_the_page_and_is_told_in_a_line(at: Place) -> None:
    same("faults", [], faults_of(at, "staff/places.json", WRONG_PLACES))


@check
def places_by_number_and_numbers_as_texts_are_read(at: Place) -> None:
    same("faults", [], faults_of(at, "staff/places.json", [(it, None) for it in RIGHT_PLACES]))


@check
def without_a_file_of_places_the_pages_go_by_numbers(at: Place) -> None:
    for name in ["staff/places.json", "places.json"]:
        at.town.write_file(name, None)
    at.browser.sign_in(at.keys["dispatcher"], "dispatcher")
    at.browser.settled()
    holds("the day is not shown", "Dispatcher" in at.browser.script("return document.title"))
    at.town.write_files()


@check
def a_roster_that_is_wrong_leaves_the_page(at: Place) -> None:
    same(
        "faults",
        [],
        faults_of(at, "staff/roster.csv", [(content, None) for content, _ in WRONG_ROSTER]),
    )


LOOK = "const it = document.querySelector('.mark'), look = it && getComputedStyle(it); return it && [it.textContent, look.backgroundColor, look.color]"


@check
def an_agencys_mark_and_color_are_on_each_page_and_not_on_paper(at: Place) -> None:
    """As bin/site-files makes them of one color for each scheme."""
    at.browser.sign_in(at.keys["clerk"], "clerk", "trips")
    own = at.browser.script(LOOK)
    same("the mark of an agency without one", "ET", own[0])
    at.town.write_files(
        brand={"mark": "LT", "light": {"accent": "#5b2a86"}, "dark": {"accent": "#c9a6ee"}}
    )
    try:
        at.browser.go("#clerk/trips")
        for scheme, ground, text in [
            ("light", "rgb(91, 42, 134)", "rgb(255, 255, 255)"),
            ("dark", "rgb(201, 166, 238)", "rgb(0, 0, 0)"),
        ]:
            with at.browser.media(prefers_color_scheme=scheme):
                until(
                    lambda: f"the mark in {scheme} is {at.browser.script(LOOK)}",
                    lambda: at.browser.script(LOOK) == ["LT", ground, text],
                )
                until(
                    f"no button has the color of {scheme}",
                    lambda: at.browser.script(
                        "const it = document.querySelector('button.main'); return it && getComputedStyle(it).backgroundColor"
                    )
                    == ground,
                )
        with at.browser.media("print"):
            same(
                "the color of what is printed",
                "#000",
                at.browser.script(
                    "return getComputedStyle(document.documentElement).getPropertyValue('--accent').trim()"
                ),
            )
        at.town.write_files(brand={"mark": "LT", "light": {"accent": "#12a5b8"}})
        at.browser.go("#clerk/trips")
        until(
            "a color that was refused is shown", lambda: at.browser.script(LOOK) == ["LT", *own[1:]]
        )
    finally:
        at.town.write_files()


STRUCK = "return [window.struck ?? null, document.querySelectorAll('main img, main script').length]"


@check
def names_that_are_markup_are_shown_as_they_are(at: Place) -> None:
    strike = "<img src=x onerror='window.struck = 1'><script>window.struck = 1</script>"
    places = [{**it, "name": f"{it['id']} {strike}", "note": strike} for it in AGENCY["places"]]
    at.town.write_files(
        name=strike, telephone=strike, places=places, vehicles=[{"id": 1, "name": strike}]
    )
    at.town.write_file("staff/roster.csv", f'rider,name,note\n1001,"{strike}","{strike}"\n')
    at.town.set_clock("2025-03-11", "07:00")
    for screen, holder in PARTS.items():
        for address in at.browser.each_part(at.keys[holder], screen):
            struck = at.browser.script(STRUCK)
            same(f"what names do on {address}", [None, 0], struck)
    at.town.set_clock(people.TODAY)
    at.town.write_files()
