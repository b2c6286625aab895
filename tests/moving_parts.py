"""What tests/move_in tries without a desk: feeds that are refused, lines, hours, driving times, numbers of writes."""

from __future__ import annotations

import csv
import datetime
import json
import math
import os
import random
import re
import shutil
import subprocess
from collections.abc import Callable, Iterator, Mapping, Sequence
from pathlib import Path
from typing import Any, cast

import moving_city
from desk_tools.setup import (
    carry,
    desk as client,
    example,
    feed as feeds,
    fewer_routes as fewer,
    fixed,
    plane as geometry,
)
from desk_tools.setup.limits import Wrong
from moving_stands import Counting, Stand
from serving import TODAY, ZONE, difference, free_port, message_of

ROOT = os.path.dirname(os.path.dirname(os.path.realpath(__file__)))
MOVE_IN = f"{ROOT}/bin/move-in"
CLOCK = {**os.environ, "TZ": ZONE}
SECONDS, SEED, LEAST = 300, 20261125, 3_960
Point = tuple[int, int]
Files = moving_city.Files


def moved(folder: str, *words: object) -> subprocess.CompletedProcess[str]:
    """How bin/move-in ends with these words in a folder."""
    command = [MOVE_IN, *map(str, words)]
    return subprocess.run(
        command, cwd=folder, env=CLOCK, capture_output=True, text=True, timeout=SECONDS
    )


def agency_of(folder: str) -> carry.Agency:
    """What agency.json has, its records by their numbers."""
    return carry.kept_agency(folder)


# What puts the example's agency, as docs/MOVING-IN.md does.
PUTTING = [
    ["routes", "feed.zip", "--admin", "keys/1-admin"],
    ["places", "places.csv", "--admin", "keys/1-admin"],
    ["callers", "callers.csv", "--admin", "keys/1-admin"],
    ["write", "/policy", "policy.json", "--admin", "keys/1-admin"],
    ["vehicles", "vehicles.csv", "--dispatcher", "keys/3-dispatcher"],
    ["riders", "riders.csv", "--clerk", "keys/2-clerk", "--examiner", "keys/4-examiner"],
]


# Whom the corridors serve, by the desk.


def rehearsed(
    program: str,
    fixed_routes: Sequence[dict[str, Any]],
    points: Sequence[Point],
    trips: Sequence[tuple[int, int, int]],
) -> list[str]:
    """What the desk says to trips at points, each a point's place in the list, a weekday and a minute.

    It is the name of a denial. Without a vehicle that is `no vehicle` where the place and the minute are served.
    """
    monday = TODAY - datetime.timedelta(days=TODAY.isoweekday() - 1)
    posts = [
        ("/callers", "abc", 1, {"id": 2, "role": "clerk", "subject": 0, "key": "hello"}),
        ("/riders", "hello", 1, {"id": 1, "kind": "visitor", "attendant": False}),
    ]
    posts += [
        ("/routes", "abc", 100 + at, {**it, "id": at}) for at, it in enumerate(fixed_routes, 1)
    ]
    posts += [
        ("/places", "abc", 200 + at, {"id": at, "x": x, "y": y, "core": False})
        for at, (x, y) in enumerate(points, 1)
    ]
    setting = len(posts)
    for at, weekday, wish in trips:
        # (a Monday is the next one, since no trip is booked for today)
        day = monday + datetime.timedelta(days=weekday - 1 if weekday > 1 else 7)
        ends = {"from": at + 1, "to": at + 1}
        trip = {"rider": 1, "day": day, "wish": wish, **ends, "attendant": False, "companions": 0}
        posts.append(("/trips", "hello", 2, trip))
    script = b"".join(f"@ {monday} 480\n".encode() + message_of("POST", *it) for it in posts)
    run = subprocess.run(
        [program, "rehearse", "abc"], input=script, capture_output=True, timeout=SECONDS
    )
    bodies = re.findall(rb"\r\n\r\n(\{[^\r\n]*?\})(?=HTTP/1\.1 |\Z)", run.stdout)
    told = [json.loads(it).get("denied", "done") for it in bodies]
    is_right = len(told) == len(posts) and {*told[:setting]} == {"done"}
    return told[setting:] if is_right else [f"no rehearsal: {run}"]


# Lines and hours, beside plain second ways to say the same.


def faults_of_lines() -> Iterator[str | None]:
    """Lines that are simplified or put together lose nobody: what lies near the old lines lies in the new corridors."""
    chance = random.Random(SEED)
    for turn in range(16):
        lines = [wandering(chance, turn) for _ in range(3)]
        making = fixed.Making(LEAST, chance.choice([0, 300, 1_500, LEAST]), 120, 0, False)
        kept = fixed.put_together([as_kept(str(at), it) for at, it in enumerate(lines)], making)
        yield next((f"turn {turn}: {it}" for it in lost_points(chance, lines, kept, making)), None)


def lost_points(
    chance: random.Random, lines: list[list[Point]], kept: list[fixed.Kept], making: fixed.Making
) -> Iterator[str]:
    """Points that lie in the corridor of a line, and not in that of the line which stands for it."""
    for key, line in enumerate(lines):
        holder = next(it for it in kept if str(key) in it.keys)
        width = fixed.width_of(holder, making.width)[0]
        for _ in range(20):
            x, y = chance.choice(line)
            point = x + chance.randint(-LEAST, LEAST), y + chance.randint(-LEAST, LEAST)
            if (
                geometry.feet_from_line(point, line) <= LEAST
                and geometry.feet_from_line(point, holder.points) > width
            ):
                yield f"the point {point} of line {key} is lost"


def wandering(chance: random.Random, turn: int) -> list[Point]:
    """A line of some hundreds of points, the same way each turn but for noise."""
    same = random.Random(turn)
    way = [(0, 0)]
    for _ in range(same.choice([20, 260, 500])):
        way.append((way[-1][0] + same.randint(20, 300), way[-1][1] + same.randint(-200, 200)))
    noise = chance.choice([0, 30, 400])
    return geometry.without_repeats(
        [(x + chance.randint(-noise, noise), y + chance.randint(-noise, noise)) for x, y in way]
    )


def as_kept(key: str, line: list[Point]) -> fixed.Kept:
    points, aside = geometry.simplified(line, 200)
    return fixed.Kept(points, aside, [], [key], {})


def faults_of_hours() -> Iterator[str | None]:
    """Random trips are under way within the hours that they become; with no pause and no rounding nothing else is."""
    chance = random.Random(SEED)
    for turn in range(60):
        runs = [random_run(chance) for _ in range(6)]
        is_exact = turn % 2 == 0
        pause, rounding = (0, 0) if is_exact else (120, 60)
        wanted = {
            ((day - 1 + minute // 1440) % 7 + 1, minute % 1440)
            for run in runs
            for day in run.weekdays
            for minute in range(run.first, run.last + 1)
        }
        got = set()
        for spans in fixed.hours_of(runs, fixed.Making(LEAST, 0, pause, rounding, False)):
            first, last = min(it.first for it in spans), max(it.last for it in spans)
            got |= {(it.weekday, minute) for it in spans for minute in range(first, last + 1)}
        is_right = wanted == got if is_exact else wanted <= got
        yield None if is_right else f"hours of turn {turn}: {runs} became others"


def random_run(chance: random.Random) -> feeds.Run:
    first = chance.randint(0, 1_700)
    weekdays = frozenset(chance.sample(range(1, 8), chance.randint(1, 4)))
    return feeds.Run("a", weekdays, first, first + chance.randint(5, 400), True)


# Cities that are more fixed routes than the desk takes.


CITIES = (24, 60)


def faults_of_cities(folder: str) -> Iterator[str | None]:
    """Cities of so many lines have room, and whoever is owed service has it; nobody is promised more than is said."""
    for lines in CITIES:
        os.makedirs(f"{folder}/{lines}")
        example.write_feed(
            f"{folder}/{lines}/feed.zip", moving_city.city(lines, TODAY, trips=1 / 8)
        )
        feed = feeds.read_feed(f"{folder}/{lines}/feed.zip", TODAY, 28)
        plane = geometry.plane_round([it[1:] for it in feed.stops.values()])
        making = fixed.Making(LEAST, 500, 120, 0, True)
        made, refused, said = fewer.fewer(feed, plane, making, 50)
        yield difference(f"refused lines of a city of {lines}", [], refused)
        yield None if len(made) <= 50 else f"a city of {lines} lines becomes {len(made)}"
        widest = max(map(reach_of, made))
        yield None if f"at most {widest:,} feet" in said and widest <= 500 else f"what is said of {lines} lines: {said}"
        yield from faults_of_owed(feed, plane, made)
        yield from faults_of_promised(feed, plane, made)


def reach_of(made: fixed.Fixed) -> int:
    """How many feet are said to be added to a corridor."""
    found = re.search(r"reaches at most ([\d,]+) feet", " ".join(made.told))
    assert found
    return int(found[1].replace(",", ""))


def faults_of_owed(
    feed: feeds.Feed, plane: geometry.Plane, made: list[fixed.Fixed]
) -> Iterator[str | None]:
    """Random points in the corridor of a line, at minutes at which it runs, lie in that of a fixed route which runs."""
    chance = random.Random(SEED)
    shapes = {key: [plane.point(*it) for it in line.positions] for key, line in feed.lines.items()}
    for route in feed.routes:
        own = [it for it in made if route.key in it.keys]
        lost = []
        for run in chance.choices(route.runs, k=8):
            point = near_line(chance, shapes[run.line])
            day, minute = chance.choice(sorted(run.weekdays)), chance.randint(run.first, run.last)
            day, minute = (day - 1 + minute // 1440) % 7 + 1, minute % 1440
            if not any(
                day in it.days
                and it.first <= minute <= it.last
                and geometry.feet_from_line(point, it.points) <= it.width
                for it in own
            ):
                lost.append((point, day, minute))
        yield f"{route.name} loses {lost[0]}" if lost else None


def near_line(chance: random.Random, shape: list[Point]) -> Point:
    """A point that is served by a line, near the edge of its corridor."""
    while True:
        (x, y), angle, far = (
            chance.choice(shape),
            chance.uniform(0, 2 * math.pi),
            chance.randint(LEAST - 6, LEAST),
        )
        point = round(x + far * math.cos(angle)), round(y + far * math.sin(angle))
        feet = geometry.feet_from_line(point, shape)
        if LEAST - 40 <= feet <= LEAST:
            return point


def faults_of_promised(
    feed: feeds.Feed, plane: geometry.Plane, made: list[fixed.Fixed]
) -> Iterator[str | None]:
    """Random points in the corridor of a fixed route lie no farther from its lines than is said."""
    chance = random.Random(SEED)
    for it in made:
        lines = {
            run.line: None for route in feed.routes if route.key in it.keys for run in route.runs
        }
        shapes = [
            [plane.point(*position) for position in feed.lines[key].positions] for key in lines
        ]
        reach = reach_of(it)
        far = []
        for _ in range(10):
            x, y = chance.choice(it.points)
            angle = chance.uniform(0, 2 * math.pi)
            point = round(x + (it.width - 2) * math.cos(angle)), round(
                y + (it.width - 2) * math.sin(angle)
            )
            if not any(geometry.feet_from_line(point, shape) <= LEAST + reach for shape in shapes):
                far.append(point)
        yield f"{it.name} reaches {far[0]}, farther than {reach} feet" if far else None


# Feeds that are refused.


def without(*names: str) -> Callable[[Files], object]:
    return lambda found: [found.pop(it) for it in names]


def changed(name: str, row: int, column: int, value: str) -> Callable[[Files], object]:
    """Replaces one field of a file of the feed."""

    def change(found: Files) -> None:
        fields = list(found[name][row])
        fields[column] = value
        found[name][row] = tuple(fields)

    return change


def of_many_routes(found: Files) -> None:
    """51 routes of one trip each, none of which meets another."""
    numbers = range(51)
    found["routes"][1:] = [(f"r{at}", "a", str(at), "", "3") for at in numbers]
    found["trips"][1:] = [(f"r{at}", "every", f"t{at}", "", 1) for at in numbers]
    found["stops"][1:] = [
        (f"s{at}-{end}", "", *example.position(9_000 * end, 4_000 * (at - 25)))
        for at in numbers
        for end in (0, 1)
    ]
    found["stop_times"][1:] = [
        (f"t{at}", time, time, f"s{at}-{end}", end)
        for at in numbers
        for end, time in enumerate(("10:00:00", "10:30:00"))
    ]


NO_ROOM = (
    "the feed becomes 51 fixed routes, which come down to 51 where lines meet, and there is room for 50; leave "
    "routes out with --leave-out, such as those along which nothing is owed"
)
FEEDS: list[tuple[Callable[[Files], object], str]] = [
    (without("stops"), "feed.zip has no file stops.txt"),
    (without("trips"), "feed.zip has no file trips.txt"),
    (
        without("calendar", "calendar_dates"),
        "feed.zip has neither calendar.txt nor calendar_dates.txt",
    ),
    (
        changed("calendar", 2, 8, "20260231"),
        "calendar.txt, row 3: start_date '20260231' is no date YYYYMMDD",
    ),
    (
        changed("calendar_dates", 1, 1, "soon"),
        "calendar_dates.txt, row 2: date 'soon' is no date YYYYMMDD",
    ),
    (changed("stops", 3, 3, ""), "stops.txt, row 4: the stop 'main2' has no position"),
    (changed("stops", 3, 3, "west"), "stops.txt, row 4: stop_lon 'west' is no number"),
    (
        changed("stops", 3, 3, "0"),
        "stops.txt: the stop 'main2' is out of place: 44.9668291, 0.0 is farther than "
        "1,000,000 feet from the plane's middle, 44.9778, -93.265",
    ),
    (
        changed("stop_times", 5, 1, "5 am"),
        "stop_times.txt, row 6: arrival_time '5 am' is no time HH:MM:SS",
    ),
    (
        changed("stop_times", 5, 3, "gone"),
        "stop_times.txt names the stop 'gone', which stops.txt has not",
    ),
    (changed("routes", 1, 0, "mane"), "trips.txt names the route 'main', which routes.txt has not"),
    (changed("stops", 0, 2, "latitude"), "stops.txt has no column stop_lat"),
    (of_many_routes, NO_ROOM),
]


def faults_of_feeds(folder: str) -> Iterator[str | None]:
    """A feed that can't be taken ends with one sentence, and nothing is sent or kept."""
    os.makedirs(folder)
    for change, sentence in FEEDS:
        found = example.tables(TODAY)
        change(found)
        example.write_feed(f"{folder}/feed.zip", found)
        yield refused_feed(folder, sentence)
    Path(f"{folder}/feed.zip").write_text("no zip", "utf-8")
    yield refused_feed(folder, "feed.zip is no zip")
    os.remove(f"{folder}/feed.zip")
    yield refused_feed(folder, "there is no file feed.zip")
    yield difference("files that a refused feed left", [], os.listdir(folder))
    yield from faults_of_wild_lines(folder)


def refused_feed(folder: str, sentence: str) -> str | None:
    # (nobody listens there: had it sent anything, it would end with 3)
    url = f"http://127.0.0.1:{free_port()}"
    run = moved(folder, "routes", "feed.zip", "--url", url, "--patience", 0, "--admin", "feed.zip")
    wanted = 2, "", f"bin/move-in: {sentence}\n"
    return difference(
        f"a feed that is refused: {sentence}", wanted, (run.returncode, run.stdout, run.stderr)
    )


def faults_of_wild_lines(folder: str) -> Iterator[str | None]:
    """A route whose line needs a wider corridor than there is, is refused with its reason, and the others are not."""
    found = example.tables(TODAY)
    found["shapes"] = [it for it in found["shapes"] if it[0] != "river"]
    found["shapes"] += [
        ("river", *example.position(60 * at, 18_000 * (-1) ** at), at) for at in range(-400, 401)
    ]
    example.write_feed(f"{folder}/feed.zip", found)
    run = moved(folder, "routes", "feed.zip", "--plan")
    told = "refused: route river 2 River Road: it would be "
    is_right = (
        run.returncode == 1 and told in run.stdout and "6 fixed routes of 4 routes" in run.stdout
    )
    yield None if is_right else f"a line that can't be simplified: {run}"


# Driving times.


def seconds_between(a: int, b: int) -> int | None:
    """What the stand-ins of servers tell."""
    return None if (a, b) == (6, 7) else 600 + 60 * a + b


def faults_of_times(town: str, folder: str) -> Iterator[str | None]:
    """The stand-ins tell the same of both kinds, whatever is asked at once; straight lines are as by hand."""
    straight = table_of(f"{town}/times.csv")
    # 2,121 feet are 1.35 minutes and 18,944 feet 12.06, at 25 miles an hour, 1.4 times as long.
    yield difference("straight lines", (2, 13), (straight[1, 2], straight[2, 3]))
    places = many_places(town, folder)
    pairs = [(a, b, seconds_between(a, b)) for a in places for b in places if a != b]
    wanted = {(a, b): (seconds + 59) // 60 for a, b, seconds in pairs if seconds}
    plane = geometry.kept_plane(folder)
    assert plane
    positions = {number: plane.position(it["x"], it["y"]) for number, it in places.items()}
    for kind in ("osrm", "valhalla"):
        run = asked_stand(folder, kind, positions, "--output", f"{kind}.csv")
        is_told = run.returncode == 0 and "1 pairs have no way, such as 6 to 7" in run.stdout
        yield None if is_told else f"times --{kind}: {run}"
        yield difference(f"times by {kind}", wanted, table_of(f"{folder}/{kind}.csv"))
        run = asked_stand(folder, kind, positions, is_broken=True)
        is_told = run.returncode == 2 and "did not answer with a table" in run.stderr
        yield None if is_told else f"times --{kind} by a broken server: {run}"
    asked_stand(folder, "osrm", positions, "--symmetric", "--output", "both.csv")
    longer = {(a, b): max(it, wanted.get((b, a), it)) for (a, b), it in wanted.items()}
    yield difference("times that are symmetric", longer, table_of(f"{folder}/both.csv"))
    yield from faults_of_checks(town)


def asked_stand(
    folder: str,
    kind: str,
    positions: Mapping[int, tuple[float, float]],
    *words: object,
    is_broken: bool = False,
) -> subprocess.CompletedProcess[str]:
    """How the command times ends that asks a stand-in."""
    with Stand(kind, positions, seconds_between, is_broken) as stand:
        return moved(folder, "times", f"--{kind}", f"http://127.0.0.1:{stand.port}", *words)


def many_places(town: str, folder: str) -> dict[int, Any]:
    """The places of a folder that has sixty more than the town."""
    os.makedirs(folder)
    shutil.copy(f"{town}/plane.json", folder)
    agency = agency_of(town)
    more = {
        str(it): {"name": "", "x": 700 * it, "y": 300 * it % 5_000, "core": False}
        for it in range(8, 68)
    }
    agency["places"] |= more
    # (in the form of an earlier move-in)
    Path(f"{folder}/agency.json").write_text(json.dumps(agency), "utf-8")
    return {int(number): it for number, it in agency["places"].items()}


def table_of(path: str) -> dict[tuple[int, int], int]:
    with open(path, encoding="utf-8") as file:
        return {(int(it[0]), int(it[1])): int(it[2]) for it in list(csv.reader(file))[1:]}


def faults_of_checks(town: str) -> Iterator[str | None]:
    """From place 2 to place 3 it is 18,944 feet, which takes 3.08 minutes at 70 miles an hour."""
    with open(f"{town}/bad.csv", "w", encoding="utf-8") as file:
        file.write("from,to,minutes\n2,3,3\n3,2,4\n1,9,5\n1,2\n2,3,4\n4,1,1440\n")
    run = moved(town, "times", "--check", "bad.csv")
    wanted = [
        "row 2: from 2 to 3 in 3 minutes nobody can drive: the straight line takes 3.1",
        "row 4: there is no place 9",
        "row 5: it has not three whole numbers",
        "row 6: 2 to 3 stands above with 3 minutes",
        "row 7: 1440 minutes are more than 1439",
        *(f"place {it} has no row from it to another place" for it in (1, 4, 5, 6, 7)),
    ]
    got = [it.removeprefix("bad.csv, ") for it in run.stdout.splitlines()[:-1]]
    yield difference("times --check", (1, wanted), (run.returncode, got))


# Numbers of writes, and what has no room.


def caller_of(line: Counting, journal: client.Journal, key: str) -> client.Caller:
    """A caller of what stands for the way to a desk."""
    return client.Caller(cast(client.Line, line), journal, key)


def faults_of_numbers(folder: str) -> Iterator[str | None]:
    """A caller's last number is found by few questions; a journal that tells of more is another database's."""
    os.makedirs(folder)
    key, url = f"{folder}/key", "http://desk"
    Path(key).write_text("abc\n", "ascii")
    for last in (0, 1, 2, 1_000, 1_795_000_000, 4_294_967_294, 4_294_967_295):
        line = Counting(last)
        found = caller_of(line, client.Journal(folder, url), key).last_number(0)
        yield difference(f"the last number {last}", (last, True), (found, line.asked <= 70))
    journal = client.Journal(folder, url)
    name, label = caller_of(Counting(0), journal, key).name, client.label_of("/policy", {}, "")
    journal.add(name, 9, label, client.Reply(200, {}))
    with open(journal.path, "a", encoding="utf-8") as file:
        file.write('{"url":"http://desk","cal')
    try:
        caller_of(Counting(8), client.Journal(folder, url), key).settle()
        yield "a journal that tells of a write more than the desk has: nothing was said"
    except Wrong as wrong:
        yield None if "has another database" in str(
            wrong
        ) else f"a journal of another database: {wrong}"


def faults_of_room(folder: str) -> Iterator[str | None]:
    """101 places, and a command without an address."""
    os.makedirs(folder)
    with open(f"{folder}/places.csv", "w", encoding="utf-8") as file:
        file.write("number,x,y\n" + "".join(f"{it},0,0\n" for it in range(1, 102)))
    for words, sentence in [
        (
            ["places", "places.csv", "--plan"],
            "with these there are 101 places, and the desk has room for 100",
        ),
        (["places", "places.csv"], "this takes either --plan or --url, the address of the desk"),
        (["places", "none.csv", "--plan"], "none.csv can't be read: No such file or directory"),
        (
            ["riders", "places.csv", "--plan"],
            "places.csv has no column kind in row 1, which names the columns: "
            "number, kind, attendant, wheelchair, until, conditions, "
            "home",
        ),
        (["vehicles", "places.csv", "--folder", "none", "--plan"], "there is no folder none"),
    ]:
        run = moved(folder, *words)
        yield difference(
            " ".join(words), (2, f"bin/move-in: {sentence}\n"), (run.returncode, run.stderr)
        )
