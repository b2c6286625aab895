"""Tries bin/roster: what it names as wrong by row, the drivers' file, and a roster of 20,000 rows.

The last line is 'N passed, M failed', and the exit status 1 where something failed.
"""
import csv
import json
import random
import subprocess
import sys
import tempfile

from desk_tools.tree import TOP
from desk_tools.setup import roster_file
from desk_tools.setup.limits import Wrong
from serving import difference, tally

ROSTER, SECONDS, SEED, MANY = f"{TOP}/bin/roster", 60, 20261128, 20_000
HEADER = "rider,name,telephone,language,home,usual,aid,note\n"
# A row below the header, what is said of it, and the rider that it becomes (None where it is left out).
ANA = {"rider": "101", "name": "Ana Ruiz"}
ROWS = [
    ("101,Ana Ruiz", None, ANA),
    (' 0101 ," Ana  Ruiz "', None, ANA),
    (
        '101,"Núñez, Ana",555-0101,es,14,2 3;5,walker,"rings ""twice"""',
        None,
        {
            "rider": "101",
            "name": "Núñez, Ana",
            "telephone": "555-0101",
            "language": "es",
            "home": "14",
            "usual": "2 3 5",
            "aid": "walker",
            "note": 'rings "twice"',
        },
    ),
    ("101,", "name is missing", None),
    (",Ana", "rider '' is no number from 1 to 4294967295", None),
    ("0,Ana", "rider '0' is no number from 1 to 4294967295", None),
    ("4294967296,Ana", "rider '4294967296' is no number from 1 to 4294967295", None),
    ("1e3,Ana", "rider '1e3' is no number from 1 to 4294967295", None),
    ("101.0,Ana", None, {"rider": "101", "name": "Ana"}),
    ("101.5,Ana", "rider '101.5' is no number from 1 to 4294967295", None),
    ("٣,Ana", "rider '٣' is no number from 1 to 4294967295", None),
    ("101,Ana Ruiz,call her son", "telephone 'call her son' has no digits", ANA),
    ("101,Ana Ruiz,,Spanish", "language 'Spanish' is no language such as en or es", ANA),
    ("101,Ana Ruiz,,,99", "home 99 is no place of the agency", ANA),
    ("101,Ana Ruiz,,,Main", "home 'Main' is no number of a place", ANA),
    ("101,Ana Ruiz,,,,2 x 3", "usual 'x' is no number of a place", {**ANA, "usual": "2 3"}),
    ("101,Ana Ruiz,,,2 3", "home '2 3' is more than one place", {**ANA, "home": "2"}),
    (
        "101,Ana Ruiz,,,,,,gate,code",
        "it has 9 cells, and row 1 names 8 columns",
        {**ANA, "note": "gate"},
    ),
    ('101,Ana "Annie" Ruiz', None, {**ANA, "name": 'Ana "Annie" Ruiz'}),
    (
        '101,"Ana" Ruiz',
        "its quotation marks are wrong (',' expected after '\"'), so it is left out",
        None,
    ),
    ('101,"Ana', "its quotation marks are wrong (unexpected end of data), so it is left out", None),
    (b"101,Nu\xf1ez", None, {**ANA, "name": "Nu\xf1ez"}),
    (
        b"101,Ana Ruiz,,,,,,gate\x81\xff",
        "note has a byte that is no letter: was the file damaged?",
        {**ANA, "note": "gate\xff"},
    ),
    (
        b"101,Ana Ruiz,,,,,,ga\0te",
        "note has the sign 0x00: was the file damaged?",
        {**ANA, "note": "gate"},
    ),
]
UNREADABLE = [
    (
        b"",
        "has no column rider in row 1, which names the columns: rider, name, telephone, language, home, usual, aid, note, attendant, reminder, mail",
    ),
    (
        b"rider,telephone\n",
        "has no column name in row 1, which names the columns: rider, name, telephone, language, home, usual, aid, note, attendant, reminder, mail",
    ),
    (b"PK\x03\x04", "is a workbook and no CSV: save it as CSV"),
    (b"rider,name,NAME\n", ", row 1: the column name stands twice"),
]
# The same riders as different programs save them.
AS_SAVED = [
    "rider,name,note\r\n7,Núñez,gate\r\n".encode(it)
    for it in ("utf-8", "utf-8-sig", "utf-16", "cp1252")
]
AS_SAVED += [
    "Rider;NAME;Note\n007;Núñez;gate\n".encode(),
    "sep=\t\nrider\tname\tnote\n7.0\tNúñez\tgate".encode(),
]


def run_of(folder, content, *words):
    with open(f"{folder}/roster.csv", "wb") as file:
        file.write(content if isinstance(content, bytes) else content.encode())
    return subprocess.run(
        [ROSTER, *words], capture_output=True, text=True, timeout=SECONDS, cwd=folder
    )


def faults_of_rows():
    """Each row says what is wrong with it, and is used as far as it is right."""
    for row, said, wanted in ROWS:
        content = HEADER.encode() + (row if isinstance(row, bytes) else row.encode()) + b"\n"
        got = roster_file.of_bytes(content, "roster.csv", {2, 3, 5, 14})
        riders = [{name: it for name, it in rider.items() if it} for rider in got.riders]
        right = [wanted] if wanted else [], [f"row 2: {said}"] if said else []
        yield difference(f"the row {row!r}", right, (riders, got.faults))
    for content, said in UNREADABLE:
        try:
            yield f"{content!r} is read as {roster_file.of_bytes(content, 'roster.csv')}"
        except Wrong as wrong:
            yield difference(
                f"{content!r}", f"roster.csv{'' if said.startswith(',') else ' '}{said}", str(wrong)
            )
    for content in AS_SAVED:
        yield difference(
            f"{content!r}",
            ([{"rider": "7", "name": "Núñez", "note": "gate"}], []),
            roster_file.of_bytes(content, "roster.csv")[1:],
        )


def faults_of_files(folder):
    """Rows are numbered as a spreadsheet does; a fault in one leaves the others as they are."""
    lines = [
        "\ufeffNote,NAME,extra,rider",
        '"two',
        'lines",Ana,,101',
        "",
        ",Bo,,101",
        ",,,",
        ',"Cy,,103',
        ",Di,,104",
        ",Ed,,x",
        "",
    ]
    text = "\r\n".join(lines)
    run = run_of(folder, text, "check", "roster.csv")
    wanted = [
        "roster.csv, row 4: rider 101 stands in row 2 already",
        "roster.csv, row 6: its quotation marks are wrong (unexpected end of data), so it is left out",
        "roster.csv, row 8: rider 'x' is no number from 1 to 4294967295",
        "2 riders, 3 faults",
    ]
    yield difference("a roster with faults", (1, wanted), (run.returncode, run.stdout.splitlines()))
    run = run_of(folder, text, "drivers", "roster.csv")
    wanted = "rider,name,note\n101,Ana,two lines\n104,Di,\n"
    yield difference("its drivers' file", wanted, run.stdout.replace("\r", ""))
    yield difference("what is said of it", (1, 3), (run.returncode, len(run.stderr.splitlines())))
    run = run_of(
        folder,
        "rider,name,telephone\n7,Ana,555-0101\n",
        "drivers",
        "roster.csv",
        "--output",
        "drivers.csv",
    )
    with open(f"{folder}/drivers.csv", encoding="utf-8") as file:
        yield difference(
            "a drivers' file", (0, "rider,name,note\n7,Ana,\n"), (run.returncode, file.read())
        )
    with open(f"{folder}/agency.json", "w", encoding="utf-8") as file:
        json.dump({"places": [{"id": 2}]}, file)
    run = run_of(
        folder,
        "rider,name,home\n7,Ana,3\n8,Bo,2\n",
        "check",
        "roster.csv",
        "--agency",
        "agency.json",
    )
    wanted = "roster.csv, row 2: home 3 is no place of the agency\n2 riders, 1 fault\n"
    yield difference("homes beside an agency's places", (1, wanted), (run.returncode, run.stdout))
    wrong = [
        (["check", "none.csv"], 1),
        (["check"], 2),
        (["drivers", "roster.csv", "--output", "no/x"], 1),
    ]
    for words, status in wrong:
        run = run_of(folder, "rider,name\n", *words)
        is_told = run.returncode == status and "Traceback" not in run.stderr and run.stderr
        yield None if is_told else f"{words}: {run}"


def faults_of_noise():
    """Bytes of any kind are read, or refused with one sentence; what is read is written and read as the same."""
    pieces = [b",", b'"', b"\n", b"\r", b"101", b"Ana", b"\xff", b"\0", b" ", b"\xe2\x82", b";"]
    chance = random.Random(SEED)
    for _ in range(500):
        content = HEADER.encode() + b"".join(
            chance.choice(pieces) for _ in range(chance.randint(0, 80))
        )
        got = roster_file.of_bytes(content, "roster.csv")
        again = roster_file.of_bytes(
            roster_file.text_of(got.riders, got.columns).encode(), "roster.csv"
        )
        kept = [{it: rider.get(it, "") for it in got.columns} for rider in got.riders]
        is_same = (again.riders, again.faults) == (kept, [])
        yield None if is_same else f"{content!r} is read as {got}, and that as {again}"


def faults_of_many(folder):
    """A large roster, of riders with accents and commas, is read whole."""
    with open(f"{folder}/many.csv", "w", encoding="utf-8", newline="") as file:
        writer = csv.writer(file)
        writer.writerow(roster_file.COLUMNS)
        writer.writerows(
            (
                it,
                f"Núñez, Ana {it}",
                f"555-01{it % 100:02}",
                "es",
                it % 100 + 1,
                "3 4;5",
                "walker",
                f"gate, code {it}",
            )
            for it in range(1, MANY + 1)
        )
    run = run_of(folder, b"", "check", "many.csv")
    yield difference("many riders", f"{MANY:,} riders, 0 faults\n", run.stdout)


def all_faults():
    yield from faults_of_rows()
    yield from faults_of_noise()
    for each in (faults_of_files, faults_of_many):
        with tempfile.TemporaryDirectory() as folder:
            yield from each(folder)


if __name__ == "__main__":
    sys.exit(tally("tests/roster", all_faults()))
