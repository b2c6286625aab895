"""Tries `bin/move-in gather` and holds it against the desk: `gather PROGRAM`.

A town of twelve lines and three thousand addresses goes into a hundred places. The desk is asked where and when addresses
at the edges of corridors are served, and where and when their places are. Tables that are cut, of a million rows, of any bytes
and outside every corridor are refused by their rows, and nothing is half written. The last line is 'N passed, M failed', and
the exit status 1 where something failed.
"""
import csv
import os
import random
import shutil
import subprocess
import sys
import tempfile
from pathlib import Path

from desk_tools.tree import TOP
import town_parts as parts
from desk_tools.setup import carry, plane as geometry, whole_file
from desk_tools.town import corridor
from moving_parts import moved, rehearsed
from serving import TODAY, difference, tally, told_program

# So many addresses are looked at one by one, and of so many the desk is asked.
ADDRESSES, RIDERS, LOOKED, SAMPLE, SEED = 3_000, 500, 200, 60, 20261130
WRITTEN = ("gathered-places.csv", "gathered-addresses.csv", "gathered.svg", "refused-gather.csv")
# Weekdays and minutes at which the desk is asked.
ASKED = [(2, 600), (2, 1_260), (6, 400), (7, 700), (7, 1_100)]


def write_town(folder):
    """The town's folder, as `move-in routes` and two places leave it, with its addresses."""
    parts.write_feed(f"{folder}/feed.zip", TODAY)
    plane, routes = parts.fixed_routes_of(f"{folder}/feed.zip", TODAY)
    geometry.keep_plane(folder, plane, 0.0)
    places = {
        "1": {"name": "Garage", "x": 500, "y": -2_000, "core": False},
        "2": {"name": "Home of 1001", "x": 0, "y": 100, "core": False, "private": 1001},
    }
    carry.keep_agency(folder, {"routes": routes, "places": places, "vehicles": {}})
    points = parts.points_near(routes, ADDRESSES)
    parts.write_addresses(f"{folder}/addresses.csv", parts.rows_of(points, RIDERS))
    return routes, points


def table(path):
    with open(path, encoding="utf-8", newline="") as file:
        return list(csv.DictReader(file))


def faults_of_town(program, folder, routes, points):
    """Every address in a corridor is at a place that is served wherever and whenever the address is."""
    plan = moved(folder, "gather", "addresses.csv", "--plan")
    yield None if plan.returncode == 1 and "addresses farthest from their places" in plan.stdout else f"plan: {plan}"
    yield difference(
        "what a plan writes",
        ["gathered.svg"],
        [it for it in WRITTEN if os.path.exists(f"{folder}/{it}")],
    )
    run = moved(folder, "gather", "addresses.csv")
    yield None if run.returncode == 1 else f"gather: {run}"
    lines, chance = corridor.lines_of(routes), random.Random(SEED)
    refused = table(f"{folder}/refused-gather.csv")
    near = [
        it["id"]
        for it in refused
        if corridor.nearest(points[int(it["id"]) - 1], lines)[0] <= 0
        or it["street"] not in it["reason"]
    ]
    yield difference(
        "refused rows that lie in a corridor, or whose reason has another street", [], near
    )
    found, new = table(f"{folder}/gathered-addresses.csv"), table(f"{folder}/gathered-places.csv")
    yield difference("all others are at a place", ADDRESSES - len(refused), len(found))
    yield difference("places", True, len(new) + 2 <= 100)
    spots = {
        1: (500, -2_000),
        2: (0, 100),
        **{int(it["number"]): (int(it["x"]), int(it["y"])) for it in new},
    }
    served = {int(it["id"]): int(it["place"]) for it in found}
    looked = chance.sample(sorted(served), LOOKED)
    masks = {number: corridor.lines_at(points[number - 1], False, lines) for number in looked}
    at_place = {place: corridor.lines_at(point, False, lines) for place, point in spots.items()}
    yield difference(
        "addresses whose place lacks one of their lines, or that have none",
        [],
        [it for it in looked if masks[it] & ~at_place[served[it]] or not masks[it]],
    )
    homes = {points[int(it["id"]) - 1] for it in found if it["rider"]}
    yield difference(
        "places at the very point of a home",
        [],
        [it for number, it in spots.items() if number > 2 and it in homes],
    )
    yield difference(
        "addresses at another rider's home",
        [],
        [it["id"] for it in found if it["place"] == "2" and it["rider"] != "1001"],
    )
    yield from faults_by_desk(program, routes, points, served, spots, looked)


def faults_by_desk(program, routes, points, served, spots, looked):
    """The desk's own answers: of addresses at the edge of a corridor, and of their places at the same minutes."""
    lines, chance = corridor.lines_of(routes), random.Random(SEED)
    edge = sorted(
        looked,
        key=lambda it: min(abs(corridor.feet_missing(points[it - 1], line)) for line in lines),
    )[: SAMPLE // 2]
    asked = [*edge, *chance.sample(looked, SAMPLE // 2)]
    bodies = [{name: it[name] for name in it if name != "name"} for it in routes.values()]
    trips = [(at, *when) for at in range(len(asked)) for when in ASKED]
    at_address = rehearsed(program, bodies, [points[it - 1] for it in asked], trips)
    at_place = rehearsed(program, bodies, [spots[served[it]] for it in asked], trips)
    denied = [
        (asked[at], *when)
        for (at, *when), one, two in zip(trips, at_address, at_place)
        if one == "no vehicle" != two
    ]
    yield difference("served at the address and not at its place, by the desk", [], denied)
    yield difference("the desk's answers", {"no vehicle", "37.131(e)"}, {*at_address})
    wanted = [
        "no vehicle" if runs(points[asked[at] - 1], routes, weekday, minute) else "37.131(e)"
        for at, weekday, minute in trips
    ]
    yield difference("the corridor test beside the desk's answers", wanted, at_address)
    beside = [edge_point(line, chance) for line in lines for _ in range(2)][:100]
    told = rehearsed(program, bodies, beside, [(at, 2, 600) for at in range(len(beside))])
    wanted = [corridor.lines_at(it, False, lines) == 0 for it in beside]
    yield difference("points on both sides of an edge", wanted, [it == "37.131(a)" for it in told])
    yield difference("some of them are outside", True, 0 < sum(wanted) < len(wanted))


def runs(point, routes, weekday, minute):
    """Whether some line of a point runs then, by the exact test."""
    return any(
        weekday in it["days"]
        and it["first"] <= minute <= it["last"]
        and corridor.feet_from_line(point, it["points"]) <= it["width"]
        for it in routes.values()
    )


def edge_point(line, chance):
    """A point about as far from the line's end as the corridor reaches."""
    (ax, ay), (bx, by) = line.points[-2:]
    length = max(1.0, ((bx - ax) ** 2 + (by - ay) ** 2) ** 0.5)
    feet = line.width + chance.choice([0, 1, 2])
    return round(bx + (bx - ax) / length * feet), round(by + (by - ay) / length * feet)


def faults_of_joining(folder):
    """A new address, one table of riders, and the site's files of them."""
    agency = carry.kept_agency(folder)
    agency["places"].update(
        {
            it["number"]: {"name": it["name"], "x": int(it["x"]), "y": int(it["y"])}
            for it in table(f"{folder}/gathered-places.csv")
        }
    )
    carry.keep_agency(folder, agency)
    near = table(f"{folder}/gathered-addresses.csv")[0]
    given = ["--folder", folder, "--at", f"{near['latitude']},{near['longitude']}"]
    run = ran(
        "address",
        f"{folder}/gathered-addresses.csv",
        "--street",
        "1 New St",
        "--note",
        "code 12",
        *given,
    )
    yield None if run.returncode == 0 and ": 1 New St: at place " in run.stdout else f"a new address: {run}"
    yield from faults_of_six_at_once(folder, given)
    yield from faults_of_two_at_once(folder)
    yield from faults_of_a_grant(folder, near)
    run = ran(
        "address",
        f"{folder}/gathered-addresses.csv",
        "--street",
        "1 Far St",
        "--folder",
        folder,
        "--at",
        "45.9,-93.2",
    )
    yield None if run.returncode == 1 and "lies outside every corridor" in run.stdout else f"an address outside: {run}"
    yield from faults_of_rewriting(folder, given)
    Path(f"{folder}/people.csv").write_text(
        f"Number;Name;Phone;Home Address;Until\n0101;Ana Peña;555;1 new st.;6/30/2027\n102;Bo;555;{near['street']};46568\n103;Cy;x;;\n",
        "cp1252",
    )
    run = moved(folder, "people", "people.csv")
    is_right = (
        run.returncode == 1
        and "1 days were read as M/D/YYYY" in run.stdout
        and "row 4: telephone 'x' has no digits" in run.stdout
    )
    yield None if is_right else f"one table of riders: {run}"
    yield difference(
        "the refused row",
        ["103", "Cy", "x"],
        list(table(f"{folder}/refused-people.csv")[0].values())[:3],
    )
    joined = {it["street"]: it for it in table(f"{folder}/cut-addresses.csv")}
    yield difference(
        "the home of a rider",
        ("101", "code 12"),
        (joined["1 New St"]["rider"], joined["1 New St"]["note"]),
    )
    yield difference(
        "its place", joined["1 New St"]["place"], table(f"{folder}/cut-roster.csv")[0]["home"]
    )
    words = [
        f"{folder}/agency.json",
        "--roster",
        f"{folder}/cut-roster.csv",
        "--addresses",
        f"{folder}/cut-addresses.csv",
        f"{folder}/site",
    ]
    run = ran("site-files", *words, "--plan")
    yield None if "Nothing was written." in run.stdout and " 0 changed, 0 taken away" in run.stdout and not os.path.exists(
        f"{folder}/site"
    ) else f"site-files --plan: {run}"
    run = ran("site-files", *words)
    yield None if run.returncode == 0 else f"site-files: {run}"
    stood = {
        it: os.stat(f"{folder}/site/{it}").st_mtime_ns
        for it in ("agency.json", "staff/addresses.json")
    }
    run = ran("site-files", *words, "--plan")
    yield None if "0 would be new, 0 changed, 0 taken away" in run.stdout else f"site-files --plan again: {run}"
    ran("site-files", *words)
    yield difference(
        "files that stand already",
        stood,
        {it: os.stat(f"{folder}/site/{it}").st_mtime_ns for it in stood},
    )
    everybody, staff = (
        open(f"{folder}/site/{it}addresses.json", encoding="utf-8").read() for it in ("", "staff/")
    )
    yield difference(
        "a home, to everybody and to staff",
        (False, True),
        ("1 New St" in everybody, "code 12" in staff),
    )


def faults_of_rewriting(folder, given):
    """A table of the agency's own keeps its columns and its rows, and it as it was stays beside it."""
    own = "Parcel No;Address;ID;Note\nP-9;3 Señor St;7;gate\n\n;4 Oak St;8;\n".encode("cp1252")
    Path(f"{folder}/own.csv").write_bytes(own)
    run = ran("address", f"{folder}/own.csv", "--street", "1 New St", *given)
    said = f"{folder}/own.csv is written anew, as UTF-8 with commas (1 lines are no UTF-8 and were read as Windows-1252; semicolons between the columns;"
    is_told = (
        run.returncode == 0
        and said in run.stdout
        and f"The table as it was is {folder}/own.csv.before" in run.stdout
    )
    yield None if is_told else f"a table of one's own: {run}"
    yield difference("the table as it was", own, Path(f"{folder}/own.csv.before").read_bytes())
    rows = [
        (it["id"], it["street"], it["note"], it["parcel_no"]) for it in table(f"{folder}/own.csv")
    ]
    yield difference(
        "its rows",
        [("7", "3 Señor St", "gate", "P-9"), ("8", "4 Oak St", "", ""), ("9", "1 New St", "", "")],
        rows,
    )
    os.remove(f"{folder}/own.csv.before")
    run = ran("address", f"{folder}/own.csv", "--street", "2 New St", *given)
    is_plain = (
        run.returncode == 0
        and run.stdout.endswith("own.csv is written\n")
        and not os.path.exists(f"{folder}/own.csv.before")
    )
    yield None if is_plain else f"a table that a tool wrote: {run}"
    run = ran("address", f"{folder}/own.csv", "--street", "2 new st.", *given)
    yield difference(
        "the same address again",
        (2, "bin/address: 2 new st.: it is 10 already. Name --id 10 to replace it\n"),
        (run.returncode, run.stderr),
    )


def faults_of_six_at_once(folder, given):
    """Runs at the same time: who was told that the table is written has an address in it, and the others are told why not."""
    path = f"{folder}/together.csv"
    words = [f"{TOP}/bin/address", path, *given]
    runs = [
        subprocess.Popen(
            [*words, "--street", f"{it} Elm St"],
            stdout=subprocess.PIPE,
            stderr=subprocess.STDOUT,
            text=True,
        )
        for it in range(6)
    ]
    said = [it.communicate(timeout=300)[0] for it in runs]
    written = {f"{it} Elm St" for it, run in enumerate(runs) if run.returncode == 0}
    yield difference(f"six at once: {said}", written, {it["street"] for it in table(path)})
    others = [
        (run.returncode, "another run is under way" in text)
        for run, text in zip(runs, said)
        if run.returncode
    ]
    yield difference("who came second", {(2, True)} if others else set(), set(others))


def faults_of_two_at_once(folder):
    """A second run in a folder is refused, and the files stay as they are."""
    before = {it: open(f"{folder}/{it}", encoding="utf-8").read() for it in WRITTEN}
    for held, words in (
        (whole_file.alone(f"{folder}/gathered-places.csv"), ("gather", "addresses.csv")),
        (
            whole_file.alone_in(folder),
            ("places", "gathered-places.csv", "--url", "http://127.0.0.1:9", "--admin", "feed.zip"),
        ),
    ):
        with held:
            run = moved(folder, *words)
        is_told = run.returncode == 2 and "another run is under way" in run.stderr
        yield None if is_told else f"a second run of {words[0]}: {run}"
    yield difference(
        "the files after it",
        before,
        {it: open(f"{folder}/{it}", encoding="utf-8").read() for it in WRITTEN},
    )


def faults_of_a_grant(folder, near):
    """A home that joins later is at no place where its rider's grant holds less, and a rider who is in no right row is named."""
    Path(f"{folder}/grants.csv").write_text(
        "Rider #,Name,Conditions\n501,Ana,No Lift; farther:100000\n502,Bo,always\n503,Cy,sometimes\n",
        "utf-8",
    )
    given = [
        f"{folder}/gathered-addresses.csv",
        "--folder",
        folder,
        "--street",
        "3 New St",
        "--at",
        f"{near['latitude']},{near['longitude']}",
        "--plan",
        "--riders",
        f"{folder}/grants.csv",
    ]
    run = ran("address", *given, "--rider", "502")
    yield None if run.returncode == 0 and "at place " in run.stdout else f"a home of a rider with always: {run}"
    run = ran("address", *given, "--rider", "501")
    # (an address of the town is at its own place only where that is so by luck)
    is_right = run.returncode == 0 or "hold as at the home" in run.stdout
    yield None if is_right else f"a home of a rider with nolift: {run}"
    for rider in ("503", "504"):
        run = ran("address", *given, "--rider", rider)
        is_named = (
            run.returncode == 2 and f"has no row that is right of rider {rider}" in run.stderr
        )
        yield None if is_named else f"a home of rider {rider}: {run}"


def ran(name, *words):
    """How a command of bin/ ends."""
    return subprocess.run(
        [f"{TOP}/bin/{name}", *words], capture_output=True, text=True, timeout=300
    )


def faults_of_bad_input(folder):
    """Nothing is written where a table can't be read, and a wrong row is named."""
    good = "id,street,x,y\n1,1 Oak St,0,0\n"
    a_million = "id,street,x,y\n" + "".join(f"{it},Oak St,0,0\n" for it in range(1, 1_000_001))
    chance = random.Random(SEED)
    tables = {
        "no rows": (b"", 2, "no column id"),
        "a million rows": (a_million.encode(), 2, "more than 100,000 rows"),
        "any bytes": (chance.randbytes(20_000), 2, "no column"),
        "a workbook": (b"PK\3\4" + chance.randbytes(99), 2, "workbook"),
        "a row cut": (
            (good + "2,2 Oak St,1").encode(),
            1,
            "row 3: one of its two coordinates is missing",
        ),
        "a repeated id": (
            (good + "01,2 Oak St,1,1\n").encode(),
            1,
            "row 3: row 2 has the id 1 already",
        ),
        "marks": (
            (good + '2,"2 Oak" St,1,1\n').encode(),
            1,
            "row 3: its quotation marks are wrong",
        ),
        "outside": (
            (good + "2,2 Far St,900000,900000\n").encode(),
            1,
            "row 3: 2 Far St lies outside every corridor",
        ),
        "no such place": (
            b"id,street,place,x,y\n1,1 Oak St,4294967295,0,0\n",
            1,
            "row 2: there is no place 4294967295",
        ),
    }
    for name, (content, status, said) in tables.items():
        for it in WRITTEN:
            if os.path.exists(f"{folder}/{it}"):
                os.remove(f"{folder}/{it}")
        Path(f"{folder}/bad.csv").write_bytes(content)
        run = moved(folder, "gather", "bad.csv")
        is_right = (
            run.returncode == status
            and said in run.stdout + run.stderr
            and "Traceback" not in run.stderr
        )
        yield None if is_right else f"{name}: {run.returncode} {run.stdout[-400:]} {run.stderr[-400:]}"
        if status == 2:
            yield difference(
                f"{name}: what is written",
                [],
                [it for it in WRITTEN if os.path.exists(f"{folder}/{it}")],
            )


def faults(program):
    folder = tempfile.mkdtemp(prefix="desk-gather-")
    try:
        routes, points = write_town(folder)
        yield from faults_of_town(program, folder, routes, points)
        yield from faults_of_joining(folder)
        yield from faults_of_bad_input(folder)
    finally:
        shutil.rmtree(folder)


if __name__ == "__main__":
    named, _ = told_program(sys.argv[1:], __doc__)
    sys.exit(tally("tests/gather", faults(named)))
