"""Tries bin/site-files: what it names as wrong, what it publishes, and what a kill leaves.

The last line is 'N passed, M failed', and the exit status 1 where something failed.
"""
import json
import os
import random
import re
import signal
import stat
import subprocess
import sys
import tempfile
from pathlib import Path

from desk_tools.tree import TOP
from desk_tools.setup import agency_file, site_files
from desk_tools import brand
from serving import difference, tally

SITE_FILES, SECONDS, SEED = f"{TOP}/bin/site-files", 60, 20261128
SECRETS = [
    "main door",
    "309 Willow Ct",
    "code 4411#",
    "5 Shelter Lane",
    "ring twice",
    "-93.1234",
    "44.5678",
    "71234",
]
PUBLIC = {
    "name": "Lake Town Transit",
    "telephone": "555-0100",
    "address": "1 Main St\nLake Town",
    "zone": "America/Chicago",
    "first_weekday": 7,
    "place_word": "stop",
    "clock": 12,
    "languages": ["en", "es"],
    "wait_minutes": 5,
    "lead": 0,
    "idle_minutes": 30,
    "appeal": {"to": "Appeals", "address": "2 Main St", "telephone": "555-0101", "days": 60},
}
HALL = {
    "id": 1,
    "name": "Hall",
    "note": "main door",
    "x": 0,
    "y": 0,
    "core": False,
    "private": False,
}
HOME = {
    "id": 2,
    "name": "309 Willow Ct",
    "note": "code 4411#",
    "x": 71_234,
    "y": -3,
    "core": True,
    "private": 101,
    "latitude": 44.5678,
    "longitude": -93.1234,
}
SHELTER = {"id": 3, "name": "5 Shelter Lane", "note": "ring twice", "private": True}
LISTS = {
    "places": [HALL, HOME, SHELTER],
    "routes": [
        {
            "id": 1,
            "name": "Line 1",
            "width": 3_960,
            "points": [[0, 0], [20_000, 0]],
            "accessible": True,
            "days": [1, 2],
            "first": 360,
            "last": 1_320,
        }
    ],
    "vehicles": [{"id": 1, "name": "Van 1"}],
}
WHOLE = {**PUBLIC, "subscription_share": 50, **LISTS}
ROSTER = (
    '\ufeffname,rider,Telephone,home,usual,secret\n"Núñez, Ana",101,555-0101,2,1;9,x\n,102,,,,\n'
)


def made(folder, agency, *words):
    """How the program ends over an agency's file, given as bytes, text or a value."""
    content = agency if isinstance(agency, (bytes, str)) else json.dumps(agency)
    with open(f"{folder}/agency.json", "wb") as file:
        file.write(content if isinstance(content, bytes) else content.encode())
    command = [SITE_FILES, f"{folder}/agency.json", *words, f"{folder}/site"]
    return subprocess.run(command, capture_output=True, text=True, timeout=SECONDS)


def files_in(folder):
    return sorted(
        os.path.relpath(f"{path}/{name}", folder)
        for path, _, names in os.walk(folder)
        for name in names
    )


def text_in(folder, path):
    return Path(f"{folder}/site/{path}").read_text("utf-8")


# What is published.


def faults_of_whole(folder):
    """A file that is right becomes the files of the site, and a private place is published nowhere else."""
    run = made(folder, WHOLE)
    yield difference("a file that is right", (0, ""), (run.returncode, run.stderr))
    hidden = [{"id": 2, "private": True}, {"id": 3, "private": True}]
    hall, home = (
        {name: value for name, value in it.items() if name != "note"} for it in (HALL, HOME)
    )
    wanted = {
        "agency.json": PUBLIC,
        "places.json": {**LISTS, "places": [{**hall, "noted": True}, *hidden]},
        "staff/places.json": LISTS,
        "own/101/places.json": {"places": [home]},
    }
    yield difference("the site's files", sorted(wanted), files_in(f"{folder}/site"))
    for path, value in wanted.items():
        yield difference(path, value, json.loads(text_in(folder, path)))
        mode = stat.S_IMODE(os.stat(f"{folder}/site/{path}").st_mode)
        yield difference(f"the mode of {path}", 0o640, mode)
    open_texts = text_in(folder, "agency.json") + text_in(folder, "places.json")
    yield difference("secrets that anybody reads", [], [it for it in SECRETS if it in open_texts])
    for value, wanted in ((True, {"unproved": True}), (False, {}), ("yes", {})):
        agency = agency_file.of_bytes(
            json.dumps({"unproved": value}).encode(), "agency.json"
        ).agency
        yield difference(
            f"unproved {value}", wanted, json.loads(site_files.texts_of(agency)["agency.json"])
        )
    yield difference(
        "the example of the pages",
        [],
        agency_file.of_bytes(Path(f"{TOP}/pages/agency.json").read_bytes(), "agency.json").faults,
    )


def faults_of_shared_homes(folder):
    """A home of several riders is each one's own, no file of a rider names another one, and none has a driver's note."""
    run = made(folder, {**WHOLE, "places": [HALL, {**HOME, "private": [102, 101, 102]}]})
    yield difference("a home of two", (0, ""), (run.returncode, run.stderr))
    for rider in (101, 102):
        home = {**{name: value for name, value in HOME.items() if name != "note"}, "private": rider}
        yield difference(
            f"the home, to rider {rider}",
            {"places": [home]},
            json.loads(text_in(folder, f"own/{rider}/places.json")),
        )
    yield difference(
        "the home, to others",
        {"id": 2, "private": True},
        json.loads(text_in(folder, "places.json"))["places"][1],
    )
    yield difference(
        "the home, to staff",
        [101, 102],
        json.loads(text_in(folder, "staff/places.json"))["places"][1]["private"],
    )
    yield difference(
        "the note, to staff",
        "code 4411#",
        json.loads(text_in(folder, "staff/places.json"))["places"][1]["note"],
    )


def faults_of_rosters(folder):
    """Rosters are given where they are named, and taken away where they are not; other files stay."""
    Path(f"{folder}/roster.csv").write_text(ROSTER, "utf-8")
    path = f"{folder}/roster.csv"
    run = made(folder, WHOLE, "--roster", path, "--drivers", path)
    told = [f"{path}: row 2: usual 9 is no place of the agency", f"{path}: row 3: name is missing"]
    wanted = 1, "".join(f"bin/site-files: {it}\n" for it in told * 2)
    yield difference("rosters with faults", wanted, (run.returncode, run.stderr))
    wanted = 'rider,name,telephone,home,usual\n101,"Núñez, Ana",555-0101,2,1\n'
    yield difference("the roster of staff", wanted, text_in(folder, "staff/roster.csv"))
    wanted = 'rider,name,note\n101,"Núñez, Ana",\n'
    yield difference("the roster of drivers", wanted, text_in(folder, "drivers/roster.csv"))
    Path(f"{folder}/site/staff/worklist.html").write_text("kept", "utf-8")
    made(folder, {**WHOLE, "places": [HALL, {**HOME, "private": 102}]})
    wanted = [
        "agency.json",
        "own/102/places.json",
        "places.json",
        "staff/places.json",
        "staff/worklist.html",
    ]
    yield difference("files after a run without rosters", wanted, files_in(f"{folder}/site"))


# What is wrong.

LINE = {"id": 1, "width": 3_960, "points": [[0, 0], [9, 9]]}
NO_ZONE = 'is not an IANA zone, such as "America/New_York"'
WRONG = [
    ({"zone": "EST5EDT,M3.2.0,M11.1.0"}, f'zone: "EST5EDT,M3.2.0,M11.1.0" {NO_ZONE}'),
    ({"zone": "Chicago"}, f'zone: "Chicago" {NO_ZONE}'),
    ({"zone": None}, f"zone: null {NO_ZONE}"),
    ({"zone": ["UTC"]}, f'zone: ["UTC"] {NO_ZONE}'),
    ({"name": 5}, "name: 5 is not a text"),
    ({"name": "a\nb"}, "name: the sign 0x000a can't be in it"),
    ({"name": "\ud800"}, "name: the sign 0xd800 can't be in it"),
    ({"telephone": "none"}, 'telephone: "none" has no digits'),
    ({"first_weekday": 0}, "first_weekday: 0 is no whole number from 1 to 7"),
    ({"first_weekday": True}, "first_weekday: true is no whole number from 1 to 7"),
    ({"first_weekday": 1.0}, "first_weekday: 1.0 is no whole number from 1 to 7"),
    ({"clock": "12"}, 'clock: "12" is neither 12 nor 24'),
    (
        {"languages": ["en", "Spanish"]},
        'languages[1]: "Spanish" is no language, such as "en" or "es"',
    ),
    ({"languages": []}, "languages: it holds none that is right"),
    ({"subscription_share": 101}, "subscription_share: 101 is no whole number from 0 to 100"),
    (
        {"appeal": {"days": 90}},
        "appeal.days: 90 is not 60, the days within which the desk takes an appeal",
    ),
    ({"appeal": []}, "appeal: not an object"),
    ({"telefone": "1"}, "telefone: there is no such field"),
    ({"places": {}}, None),
    ({"places": "x"}, "places: not a list"),
    ({"places": [HALL, None]}, "places[1]: not an object"),
    ({"places": [{"id": "9"}]}, 'places[0].id: "9" is no whole number from 1 to 4294967295'),
    ({"places": [{"name": "x"}]}, "places[0]: it is left out, since id is missing"),
    ({"places": [{"id": 9, "x": 1}]}, "places[0]: x and y go together"),
    (
        {"places": [{"id": 9, "latitude": 91, "longitude": 0}]},
        "places[0].latitude: 91 is no number of degrees from -90 to 90",
    ),
    ({"places": [HALL, HALL]}, "places[1]: it is left out, since its id 1 stands above already"),
    ({"routes": [{"id": 1, "width": 3_960}]}, "routes[0]: it is left out, since points is missing"),
    (
        {"routes": [{**LINE, "width": 3_959}]},
        "routes[0].width: 3959 is no whole number from 3960 to 7920",
    ),
    (
        {"routes": [{**LINE, "points": [[0, 0], [1, "2"]]}]},
        'routes[0].points[1]: "2" is no whole number from -1000000 to 1000000',
    ),
    (
        {"routes": [{**LINE, "points": [[0, 0]]}]},
        "routes[0].points: 1 points, and a line has 2 to 200",
    ),
    (
        {"routes": [{**LINE, "first": 9, "last": 8}]},
        "routes[0]: first and last go together, and first is not later",
    ),
    ({"routes": [{**LINE, "days": [1, 8]}]}, "routes[0].days[1]: 8 is no whole number from 1 to 7"),
    ({"vehicles": [{"id": 0}]}, "vehicles[0].id: 0 is no whole number from 1 to 4294967295"),
    ({"vehicles": 7}, "vehicles: not a list"),
]
UNREADABLE = [
    (b"", "is not JSON: Expecting value: line 1 column 1 (char 0)"),
    (b"[]", "is not a JSON object"),
    (b'{"clock": NaN}', "is not JSON: NaN is no number of JSON"),
    (b'{"name": "\xff"}', "is not UTF-8: its byte 11 is 0xff"),
    (b"[" * 100_000, "is not JSON: maximum recursion depth exceeded"),
    (b"9" * 5_000, "is not JSON: Exceeds the limit"),
]


def faults_of_duty(folder):
    """Who drives what: rows that are right, by day and vehicle, and a sentence for each other row."""
    Path(f"{folder}/duty.csv").write_text(
        'day,vehicle,label\n2026-12-07,9,Ann\n2026-12-07,109,"Joe Núñez, in Van 144"\n2026-12-07,9,Bo\n2026-13-07,1,x\n'
        "2026-12-07,0,y\n2026-12-07,5,\n2026-12-07,5," + "z" * 61 + "\n",
        "utf-8",
    )
    run = made(folder, WHOLE, "--duty", f"{folder}/duty.csv")
    wanted = {"2026-12-07": {"9": "Bo", "109": "Joe Núñez, in Van 144"}}
    yield difference(
        "who drives what",
        (1, wanted),
        (run.returncode, json.loads(text_in(folder, "staff/duty.json"))),
    )
    for row, said in (
        (5, "'2026-13-07' is no day"),
        (6, "'0' is no number of a vehicle"),
        (7, "one line of 1 to 60"),
        (8, "one line of 1 to 60"),
    ):
        yield None if f"row {row}: " in run.stderr and said in run.stderr else f"row {row} of duty.csv: {run.stderr}"
    Path(f"{folder}/duty.csv").write_text("a,b\n1,2\n", "utf-8")
    run = made(folder, WHOLE, "--duty", f"{folder}/duty.csv")
    yield difference(
        "a file without its columns",
        (1, True),
        (run.returncode, "has no column day in row 1, which names the columns" in run.stderr),
    )
    made(folder, WHOLE)
    yield difference(
        "a run without --duty", False, os.path.exists(f"{folder}/site/staff/duty.json")
    )
    made(folder, {**WHOLE, "board_names": False, "unproved": False})
    told = json.loads(text_in(folder, "agency.json"))
    yield difference(
        "a no to names on the wall", (False, None), (told.get("board_names"), told.get("unproved"))
    )


def faults_of_wrong(folder):
    """Each thing that is wrong is named, and what is right beside it is used."""
    for change, sentence in WRONG:
        read = agency_file.of_bytes(
            json.dumps({"place_word": "stop", **change}).encode(), "agency.json"
        )
        is_told = sentence in read.faults if sentence else not read.faults
        yield None if is_told and read.agency[
            "place_word"
        ] == "stop" else f"{change} is read as {read}"
    run = made(folder, {"place_word": "stop", **WRONG[0][0], **WRONG[-1][0]})
    wanted = [f"bin/site-files: {folder}/agency.json: {WRONG[it][1]}" for it in (0, -1)]
    yield difference(
        "a file of two faults", (1, wanted), (run.returncode, run.stderr.splitlines()[:2])
    )
    yield difference(
        "what is right in it", {"place_word": "stop"}, json.loads(text_in(folder, "agency.json"))
    )
    run = made(folder, '{"place_word": "a", "place_word": "b"}')
    yield None if '"place_word" stands twice in one object' in run.stderr and run.returncode == 1 else f"twice: {run}"
    run = made(folder, b'\xef\xbb\xbf{"name": "With a mark"}')
    yield None if run.returncode == 0 and "With a mark" in text_in(
        folder, "agency.json"
    ) else f"a mark: {run}"


def faults_of_brand(folder):
    """A color is served with the four that are made of it; one that can't be read on a ground is refused with its contrast."""
    run = made(
        folder,
        {
            **WHOLE,
            "brand": {
                "mark": "LT",
                "light": {"accent": "#5B2A86"},
                "dark": {"accent": "#c9a6ee", "on_accent": "#1d0f2b"},
            },
        },
    )
    told = json.loads(text_in(folder, "agency.json")).get("brand", {})
    yield difference(
        "a run with a color",
        (0, "LT", "#5b2a86", "#ffffff", "#1d0f2b"),
        (
            run.returncode,
            told.get("mark"),
            *(
                told[theme][name]
                for theme, name in (
                    ("light", "accent"),
                    ("light", "on_accent"),
                    ("dark", "on_accent"),
                )
            ),
        ),
    )
    yield difference(
        "the colors of each theme",
        [list(brand.TOKENS)] * 2,
        [list(told[theme]) for theme in brand.THEMES],
    )
    run = made(
        folder,
        {"brand": {"mark": "LT", "light": {"accent": "#12a5b8"}, "dark": {"accent": "#0a5c69"}}},
    )
    for sentence in (
        "brand.light: accent #12a5b8 on surface #ffffff has a contrast of 2.95:1, and text needs 4.5:1",
        "brand.dark: accent #0a5c69 on ground #0d1314 has a contrast of 2.45:1, and text needs 4.5:1",
        "brand.light: it is left out, and the pages keep their own color",
    ):
        yield None if sentence in run.stderr and run.returncode == 1 else f"not said: {sentence}: {run.stderr}"
    yield difference(
        "the mark of a color that is refused",
        {"mark": "LT"},
        json.loads(text_in(folder, "agency.json"))["brand"],
    )
    for change, sentence in BRANDS:
        read = agency_file.of_bytes(json.dumps({"brand": change}).encode(), "agency.json")
        yield None if sentence in read.faults else f"{change} is read as {read}"
    yield from faults_of_contrast()


BRANDS = [
    ({"mark": "Lake"}, 'brand.mark: "Lake" is no mark of 1 to 3 characters, such as "LT"'),
    ({"light": {"accent": "teal"}}, 'brand.light.accent: "teal" is no color, such as "#0a5c69"'),
    ({"light": {}}, "brand.light: it is left out, since accent is missing"),
    (
        {"dark": {"accent": "#74cbd8", "shade": "#000000"}},
        "brand.dark.shade: there is no such field",
    ),
    (
        {"light": {"accent": "#0a5c69", "on_accent": "#9fcdd2"}},
        "brand.light: on_accent #9fcdd2 on accent #0a5c69 has a contrast of 4.41:1, and text needs 4.5:1",
    ),
    ("teal", "brand: not an object"),
]


def faults_of_contrast():
    """The grounds are those of the pages, whose own colors pass; contrast is that of WCAG."""
    with open(f"{TOP}/pages/desk.css", encoding="utf-8") as file:
        light, dark = re.findall(r"^( *):root \{\n(.*?)\n\1\}", file.read(), re.S | re.M)[:2]
    for theme, (_, text) in {"light": light, "dark": dark}.items():
        tokens = {
            name.replace("-", "_"): value
            for name, value in re.findall(r"--([a-z0-9-]+): (#[0-9a-f]{6});", text)
        }
        yield difference(
            f"the grounds of {theme}",
            {it: tokens.get(it) for it in brand.GROUNDS[theme]},
            brand.GROUNDS[theme],
        )
        yield difference(
            f"the pages' own color of {theme}",
            [],
            brand.faults_of(theme, {it: tokens.get(it) for it in brand.TOKENS}),
        )
    yield difference(
        "black on white",
        (21.0, 21.0),
        (brand.contrast("#000000", "#ffffff"), brand.contrast("#ffffff", "#000000")),
    )
    yield difference(
        "a gray that just passes, and the next",
        ("4.54", "4.47"),
        (
            brand.shown(brand.contrast("#767676", "#ffffff")),
            brand.shown(brand.contrast("#777777", "#ffffff")),
        ),
    )


def faults_of_privacy(_folder):
    """However the mark of a private place is spoiled, nobody but staff reads the place."""
    for mark in (
        '"private": "101"',
        '"private": null',
        '"private": -1',
        '"private": 1.5',
        '"private": []',
        '"private": [101, "102"]',
        '"private": [true]',
        '"private": [[101]]',
        '"Private": true',
        '"privat": 101',
        '"private": true, "private": false',
        '"private": 101, "private": false',
    ):
        told = published('{"places": [{"id": 2, "name": "309 Willow Ct", %s}]}' % mark)
        yield difference(f"a place with {mark}", [{"id": 2, "private": True}], told)
    told = published(json.dumps({"places": [{"id": 2, "name": "309 Willow Ct"}, HOME]}))
    yield difference("two places of one number", [{"id": 2, "private": True}], told)


def published(text):
    """The places of places.json."""
    agency = agency_file.of_bytes(text.encode(), "agency.json").agency
    return json.loads(site_files.texts_of(agency)["places.json"])["places"]


def faults_of_unreadable(folder):
    """A file that can't be read at all ends with one sentence, and the site keeps what it has."""
    made(folder, WHOLE)
    before = {it: text_in(folder, it) for it in files_in(f"{folder}/site")}
    for content, said in UNREADABLE:
        run = made(folder, content)
        is_told = (
            run.returncode == 1
            and run.stderr.count("\n") == 1
            and f"agency.json {said}" in run.stderr
        )
        yield None if is_told else f"{content[:20]}: {run}"
    run = made(folder, WHOLE, "--roster", f"{folder}/none.csv")
    yield None if run.returncode == 1 and "can't be read: No such file" in run.stderr else f"no roster: {run}"
    run = subprocess.run([SITE_FILES], capture_output=True, text=True, timeout=SECONDS)
    yield difference("no words", 2, run.returncode)
    run = subprocess.run(
        [SITE_FILES, f"{folder}/agency.json", f"{folder}/agency.json"],
        capture_output=True,
        text=True,
    )
    yield None if run.returncode == 1 and run.stderr.count(
        "\n"
    ) == 1 else f"a folder that is none: {run}"
    yield difference(
        "the site after them",
        before,
        {it: text_in(folder, it) for it in files_in(f"{folder}/site")},
    )


def faults_of_noise(_folder):
    """Values of any kind in place of others never end the program otherwise than by its two statuses."""
    chance, values = random.Random(SEED), [
        None,
        True,
        -1,
        1e308,
        "",
        "x",
        [],
        [None],
        {},
        {"id": 1},
        [[1]],
        "\u0000",
    ]
    for _ in range(400):
        agency = json.loads(json.dumps(WHOLE))
        for _ in range(chance.randint(1, 4)):
            at = agency
            while isinstance(at, (dict, list)) and at and chance.random() < 0.8:
                key = chance.choice(list(at) if isinstance(at, dict) else range(len(at)))
                holder, at = at, at[key]
            if at is not agency:
                holder[key] = chance.choice(values)
        read = agency_file.of_bytes(json.dumps(agency).encode(), "agency.json")
        again = agency_file.of_bytes(agency_file.text_of(read.agency).encode(), "agency.json")
        yield None if again == (
            read.agency,
            [],
        ) else f"{agency} is read as {read}, and that as {again}"


# Old files, and kills.


def faults_of_old_form(_folder):
    """What an earlier move-in wrote is read as the same agency."""
    hall = {"name": "Hall", "x": 0, "y": 0, "core": False}
    old = {
        "name": "Lake Town",
        "first_day_of_week": 0,
        "place_word": "place",
        "places": {"1": hall},
        "routes": {},
        "vehicles": {"3": {"name": "Van"}},
    }
    wanted = {
        "name": "Lake Town",
        "place_word": "place",
        "places": [{"id": 1, **hall}],
        "routes": [],
        "vehicles": [{"id": 3, "name": "Van"}],
    }
    yield difference(
        "the old form",
        (wanted, []),
        tuple(agency_file.of_bytes(json.dumps(old).encode(), "agency.json")),
    )
    odd = {**old, "places": {"x": {}, "2": None}}
    faults = agency_file.of_bytes(json.dumps(odd).encode(), "agency.json").faults
    wanted = ["places[0]: it is left out, since id is missing", "places[1]: not an object"]
    yield difference("an old form with faults", wanted, faults)


def faults_of_kills(folder):
    """A run that is killed at any moment leaves whole files; the next one ends what it began."""
    chance = random.Random(SEED)
    many = {**WHOLE, "places": [{**HOME, "id": it, "private": it} for it in range(1, 101)]}
    for turn in range(10):
        Path(f"{folder}/agency.json").write_text(json.dumps(many if turn % 2 else WHOLE), "utf-8")
        run = subprocess.Popen(
            [SITE_FILES, f"{folder}/agency.json", f"{folder}/site"], stdout=subprocess.DEVNULL
        )
        try:
            run.wait(0.1 + chance.random() * 0.3)
        except subprocess.TimeoutExpired:
            run.send_signal(signal.SIGKILL)
            run.wait()
        whole = [it for it in files_in(f"{folder}/site") if it.endswith(".json")]
        try:
            yield None if all(
                json.loads(text_in(folder, it)) for it in whole
            ) else f"turn {turn}: an empty file"
        except ValueError as error:
            yield f"turn {turn}: {error}"
    made(folder, WHOLE)
    wanted = ["agency.json", "own/101/places.json", "places.json", "staff/places.json"]
    yield difference("the files in the end", wanted, files_in(f"{folder}/site"))


def all_faults():
    tries = (
        faults_of_whole,
        faults_of_shared_homes,
        faults_of_rosters,
        faults_of_duty,
        faults_of_wrong,
        faults_of_brand,
        faults_of_privacy,
        faults_of_unreadable,
        faults_of_noise,
        faults_of_old_form,
        faults_of_kills,
    )
    for each in tries:
        with tempfile.TemporaryDirectory() as folder:
            yield from each(folder)


if __name__ == "__main__":
    sys.exit(tally("tests/site_files", all_faults()))
