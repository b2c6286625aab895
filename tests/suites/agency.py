"""Tries the commands over a database: `agency [--install | --all | --plain] PROGRAM`.

Plain, which is the default, needs nothing but Python: every exit status and every fault of the commands, a small agency's day and the
rows that it leaves, records that are replaced, five hundred requests over a file that is opened again and again, spoilt rows, connections
that fail, writes that come again, and what is left after the program was killed. With --all come the
waits of slow clients, examples/day and deploy/try; what cannot be tried here is said. --install is --all, once what those take was
installed by apt, which takes root's rights. The last line is 'N passed, M failed', and the exit status 1 where something failed.
"""
import collections
import contextlib
import datetime
import hashlib
import ipaddress
import os
import random
import re
import shutil
import socket
import sqlite3
import struct
import subprocess
import sys
import tempfile
import threading
import time
from pathlib import Path

from desk_tools.ops.content import TABLES
from desk_tools.tree import TOP
from conversations import asked_in
from serving import (
    ADMINS_KEY,
    LAST_DAY,
    LINE,
    POLICY,
    TODAY,
    TOMORROW,
    TRIP,
    VAN,
    ZONE,
    Desk,
    Refused,
    Reply,
    asked_in_turn,
    copy_database,
    difference,
    faults_of_database,
    faults_of_indexes,
    free_port,
    make_agency,
    message_of,
    ran,
    rows,
    tally,
    told_program,
    with_database,
)
from unsound import faults_of_unsound

# What a trip is asked about with.
QUESTION = ["RIDER", "DAY", "WISH", "FROM", "TO", "BY", "ATTENDANT", "COMPANIONS"]
COMMANDS = {
    "rehearse": ["KEY"],
    "init": ["FILE", "KEY"],
    "serve": ["FILE", "ZONE", "PORT", "COUNT"],
    "travel": ["FILE", "ZONE", "KEY", "NUMBER", "DAY", "CSV"],
    "manifest": ["FILE", "ZONE", "KEY", "VEHICLE", "DAY"],
    "trips": ["FILE", "ZONE", "KEY", "DAY"],
    "explain": ["FILE", "ZONE", "KEY", *QUESTION],
    "audit": ["LOG", "FILE", "ZONE", "KEY", *QUESTION],
    "migrate": ["FILE"],
}
DONE, DENIED, WRONG_WORDS, NO_STORE, OTHER = range(5)
# What examples/day and deploy/try take, each the name of a program and of its package.
TOOLS = ["curl", "sqlite3", "openssl", "nginx"]
KILLS, FIRST_RIDER = 5, 1000
SEED, MANY_REQUESTS, OPENED_EVERY = 20251122, 500, 20
# So many trips that the reply of all is more than a connection holds while nobody reads.
MANY_TRIPS = 16_000
EPOCH = datetime.date(1970, 1, 1).toordinal()
# How /proc/net tells a socket that listens.
LISTENS = "0A"


def ends(label, run, status, out=b"", fault=None):
    """None where a run ends with this status, output and line of standard error, else how it ends."""
    said = "" if fault is None else f"fault {fault[0]} row {fault[1]}\n"
    return difference(label, (status, out, said), (run.returncode, run.stdout, run.stderr.decode()))


# Words.


def faults_of_words(program):
    """Help of each command and of none, and words that are refused."""
    help_of_all = ran(program, "--help")
    named = all(re.search(rf"(?m)^ +{it}\b", help_of_all.stdout.decode()) for it in COMMANDS)
    yield None if help_of_all.returncode == DONE and named else f"--help: {help_of_all}"
    version = ran(program, "--version")
    is_told = version.returncode == DONE and re.fullmatch(rb"desk \d+\.\d+\.\d+\n", version.stdout)
    yield None if is_told else f"--version: {version}"
    for command, places in COMMANDS.items():
        told = ran(program, command, "--help")
        names = re.findall(
            r"<(\w+)>", told.stdout.decode().partition("\n\n")[0] + told.stdout.decode()
        )
        has_example = f"For example: desk {command} " in " ".join(told.stdout.decode().split())
        is_told = told.returncode == DONE and {*places} <= {*names} and has_example
        yield None if is_told else f"{command} --help: {told}"
        short = ran(program, command, *["x"] * (len(places) - 1))
        yield difference(
            f"{command} with a word too few", (WRONG_WORDS, b""), (short.returncode, short.stdout)
        )
    wrong = [
        [],
        ["sing"],
        ["serve", "x", ZONE, 0, 1],
        ["serve", "x", ZONE, 65536, 1],
        ["serve", "x", ZONE, 8080, 0],
        ["serve", "x", ZONE, 8080, 1_000_001],
        ["serve", "x", ZONE, "eighty", 1],
        ["travel", "x", ZONE, "radio", 4294967296, TODAY, "x"],
        ["manifest", "x", ZONE, "radio", 0, TODAY],
        ["manifest", "x", ZONE, "radio", 1, "2025-02-30"],
        ["trips", "x", ZONE, "radio", "2100-01-01"],
        ["trips", "x", ZONE, "radio", "2025-3-10"],
        ["init", "x", "key", "more"],
    ]
    for words in wrong:
        told = ran(program, *words)
        is_right = (told.returncode, told.stdout) == (WRONG_WORDS, b"") and told.stderr
        yield None if is_right else f"{words}: {told}"
    told = subprocess.run([program, "rehearse", b"\xff"], capture_output=True)
    yield None if told.returncode == WRONG_WORDS else f"a word that is not UTF-8: {told}"


# Exit statuses and faults of files.


def faults_of_rehearsals(program, folder):
    yield ends("an empty rehearsal", ran(program, "rehearse", "abc", input=b""), DONE)
    yield ends(
        "a rehearsal with a bad line",
        ran(program, "rehearse", "abc", input=b"@ today\n"),
        OTHER,
        fault=(48, 0),
    )
    unread = os.open(folder, os.O_RDONLY)
    run = subprocess.run([program, "rehearse", "abc"], stdin=unread, capture_output=True)
    os.close(unread)
    yield ends("a rehearsal whose input is a folder", run, OTHER, fault=(46, 0))
    if os.path.exists("/dev/full"):
        message = f"@ {TODAY} 480\n".encode() + message_of(
            "GET", f"/riders/7/standing/{TODAY}", "xyz"
        )
        with open("/dev/full", "wb") as full:
            run = subprocess.run(
                [program, "rehearse", "abc"], input=message, stdout=full, stderr=subprocess.PIPE
            )
        yield difference(
            "a rehearsal whose output is full",
            (OTHER, b"fault 47 row 0\n"),
            (run.returncode, run.stderr),
        )


def faults_of_denials(program, file, times):
    """What commands are told: status 1 and the rule's name on standard output."""
    denied = [
        (b"desk.key\n", ["manifest", file, ZONE, "nobody", 1, TOMORROW]),
        (b"desk.caller\n", ["manifest", file, ZONE, "hello", 1, TOMORROW]),
        (b"desk.unknown\n", ["manifest", file, ZONE, "radio", 4_294_967_295, TOMORROW]),
        (b"desk.caller\n", ["trips", file, ZONE, "wheel", TOMORROW]),
        (b"desk.key\n", ["trips", file, ZONE, "", TOMORROW]),
        (b"desk.number\n", ["travel", file, ZONE, "radio", 1, TODAY, times]),
        (b"desk.number\n", ["travel", file, ZONE, "radio", 0, TODAY, times]),
        (b"desk.caller\n", ["travel", file, ZONE, ADMINS_KEY, 4_294_967_295, TODAY, times]),
        (b"desk.booked\n", ["travel", file, ZONE, "radio", 3, TODAY, times]),
    ]
    for name, words in denied:
        yield ends(" ".join(map(str, [words[0], *words[3:]])), ran(program, *words), DENIED, name)


def faults_of_tables(program, file, folder):
    """Each fault of a travel table with its row, and a table that was given before."""
    named = {
        "no-header": ("1,2,18\n", (21, 1)),
        "empty": ("", (21, 1)),
        "two-fields": ("from,to,minutes\n1,2,18\n1,3\n", (20, 3)),
        "no-place": ("from,to,minutes\n1,2,18\n2,8,18\n", (22, 3)),
        "too-long": ("from,to,minutes\n1,2,1440\n", (23, 2)),
        "no-minutes": ("from,to,minutes\n1,2,\n", (23, 2)),
        "less-than-none": ("from,to,minutes\n1,2,-1\n", (23, 2)),
        "five-digits": ("from,to,minutes\n1,2,00010\n", (23, 2)),
        "two-fields-before-no-place": ("from,to,minutes\n1,4\n", (20, 2)),
        "four-fields": ("from,to,minutes\n1,2,3,4\n", (20, 2)),
        "place-before-minutes": ("from,to,minutes\n1,2,3\n1,4,x\n", (22, 3)),
        "eleven-digits": ("from,to,minutes\n1,00000000002,3\n", (22, 2)),
        "signed": ("from,to,minutes\n+1,2,3\n", (22, 2)),
        "other-header": ("from,to,time\n1,2,3\n", (21, 1)),
        "twice": ("from,to,minutes\n1,2,18\n2,1,18\n1,2,19\n", (24, 4)),
    }
    for name, (text, fault) in named.items():
        times = f"{folder}/{name}.csv"
        Path(times).write_text(text, "utf-8")
        run = ran(program, "travel", file, ZONE, "radio", 9, TODAY, times)
        yield ends(f"travel with the table {text!r}", run, OTHER, fault=fault)
    run = ran(program, "travel", file, ZONE, "radio", 9, TODAY, f"{folder}/not-there.csv")
    yield ends("travel with no table", run, OTHER, fault=(5, 0))
    same = ran(program, "travel", file, ZONE, "radio", 2, TODAY, f"{folder}/times.csv")
    yield ends("travel that comes again", same, DONE, b"done\n")


def over_file(file, times, port):
    """The words of each command that opens a file."""
    return [
        ["serve", file, ZONE, port, 1],
        ["travel", file, ZONE, "radio", 9, TODAY, times],
        ["manifest", file, ZONE, "radio", 1, TOMORROW],
        ["explain", file, ZONE, "radio", 1, TOMORROW, 540, 2, 3, "none", 0, 0],
        ["trips", file, ZONE, "radio", TOMORROW],
    ]


def faults_of_files(program, file, folder):
    times, port = f"{folder}/times.csv", free_port()
    yield ends(
        "init of a file that is there", ran(program, "init", file, "abc"), OTHER, fault=(7, 0)
    )
    yield ends(
        "init in no folder",
        ran(program, "init", f"{folder}/none/desk.db", "abc"),
        NO_STORE,
        fault=(32, 0),
    )
    for words in over_file(f"{folder}/not-there.db", times, port):
        yield ends(f"{words[0]} of no file", ran(program, *words), OTHER, fault=(5, 0))
    for words in over_file(file, times, port):
        words[2] = "Eastern"
        yield ends(f"{words[0]} in no zone", ran(program, *words), OTHER, fault=(3, 0))
    with socket.socket() as taken:
        taken.bind(("127.0.0.1", 0))
        taken.listen()
        words = ["serve", file, ZONE, taken.getsockname()[1], 1]
        yield ends("serve on a port that is taken", ran(program, *words), OTHER, fault=(6, 0))
    others = {
        "other.db": lambda path: with_database(
            path, lambda it: it.execute("CREATE TABLE trips(id)")
        ),
        "empty.db": lambda path: open(path, "w").close(),
    }
    for name, make in others.items():
        path = f"{folder}/{name}"
        make(path)
        for words in over_file(path, times, port)[-1 if name != "other.db" else 0 :]:
            yield ends(f"{words[0]} of {name}", ran(program, *words), NO_STORE, fault=(30, 0))
    Path(f"{folder}/text.db").write_text("no database " * 1000, "utf-8")
    run = ran(program, "trips", f"{folder}/text.db", ZONE, "radio", TOMORROW)
    yield ends("trips of a text", run, NO_STORE, fault=(32, 0))


def faults_of_locks(program, file, folder):
    """A file is one process's at a time."""
    with Desk(program, file) as desk:
        for words in over_file(file, f"{folder}/times.csv", free_port()):
            yield ends(
                f"{words[0]} while the file is served",
                ran(program, *words),
                NO_STORE,
                fault=(32, 0),
            )
        try:
            told = rows(file, "SELECT count(*) FROM trips")
        except sqlite3.OperationalError as error:
            told = str(error)
        yield difference("Python's SQLite while the file is served", "database is locked", told)
        told = desk.get(f"/days/{TOMORROW}/trips.csv", "radio")
        yield None if told and told.status == 200 else f"a read after others tried the file: {told}"
    with contextlib.closing(sqlite3.connect(file)) as other:
        other.execute("BEGIN IMMEDIATE")
        run = ran(program, "trips", file, ZONE, "radio", TOMORROW)
        yield ends("trips while another writes", run, NO_STORE, fault=(32, 0))
        other.rollback()
    yield ends(
        "trips after that", ran(program, "trips", file, ZONE, "radio", TOMORROW), DONE, CSV.encode()
    )


# A small agency's day.

CSV = f"""trip,rider,day,wish,from,to,vehicle,window_from,window_to,due,status
1,7,{TOMORROW},600,1,2,1,540,555,350,booked
2,9,{TOMORROW},660,1,3,1,600,615,350,booked
3,9,{TOMORROW},900,2,1,1,840,855,350,cancelled
"""
MANIFEST = f"""VEHICLE 1 DAY {TOMORROW}
05:00 DEPOT 1
09:00 PICK trip 1 rider 7 place 1 load 1 window 09:00-09:15
09:20 DROP trip 1 rider 7 place 2 load 0
10:00 PICK trip 2 rider 9 place 1 load 1 window 10:00-10:15
10:13 DROP trip 2 rider 9 place 3 load 0
10:26 DEPOT 1
"""
DAY = TOMORROW.toordinal() - EPOCH
RIDER, CLERK, EXAMINER, OFFICER, DISPATCHER, DRIVER, ADMIN = range(7)
BOOKED, CANCELLED = 0, 1
PICKUP, DROP = 0, 1


def caller_row(number, role, subject, key):
    return number, role, subject, hashlib.sha256(key.encode()).digest()


WANTED_ROWS = {
    "SELECT * FROM desk": [(1, 2, 175, 50, 400, 2, 20, 3, 10, 30, 3)],
    "SELECT * FROM callers": [
        caller_row(1, ADMIN, 0, ADMINS_KEY),
        caller_row(2, CLERK, 0, "hello"),
        caller_row(3, DISPATCHER, 0, "radio"),
        caller_row(4, EXAMINER, 0, "panel"),
        caller_row(5, OFFICER, 0, "bench"),
        caller_row(6, DRIVER, 1, "wheel"),
        caller_row(7, RIDER, 7, "mine"),
    ],
    "SELECT caller, number FROM kept": [(1, 11), (2, 6), (3, 2), (4, 1), (7, 1)],
    "SELECT * FROM places": [(1, 0, 0, 0), (2, 15000, 3000, 0), (3, 9000, 1000, 1)],
    "SELECT * FROM fixed": [(1, 3960, struct.pack(">4i", 0, 0, 20000, 0), 1, 127, 0, 1439)],
    "SELECT * FROM vehicles": [(1, DAY - 1, 127, 1, 4, 300, 1380, 1080)],
    "SELECT * FROM riders": [(7, 0, 1), (9, 1, 0)],
    "SELECT * FROM entries": [
        (7, 0, 0, DAY - 1, 2, -1, -1, "", ""),
        (7, 1, 1, DAY - 1, 4, LAST_DAY.toordinal() - EPOCH, -1, "months:1,2,12;always", ""),
    ],
    "SELECT * FROM trips": [
        (1, 7, DAY, 600, 1, 2, 720, 0, 0, 350, 2, 38, 1, 540, 555, BOOKED),
        (2, 9, DAY, 660, 1, 3, -1, 0, 0, 350, 2, 31, 1, 600, 615, BOOKED),
        (3, 9, DAY, 900, 2, 1, -1, 0, 0, 350, 2, 38, 1, 840, 855, CANCELLED),
    ],
    "SELECT * FROM stops": [
        (1, DAY, 0, 1, PICKUP),
        (1, DAY, 1, 1, DROP),
        (1, DAY, 2, 2, PICKUP),
        (1, DAY, 3, 2, DROP),
    ],
    "SELECT * FROM travel": [
        (DAY - 1, *row)
        for row in [(0, 0, 0), (1, 2, 18), (1, 3, 11), (2, 1, 18), (2, 3, 9), (3, 1, 11), (3, 2, 9)]
    ],
    **{f"SELECT * FROM {table}": [] for table in TABLES[11:]},
}
# What takes the place of rows and takes rows away, on a copy of that day, and the rows in the end.
REPLACING = [
    ("/callers", ADMINS_KEY, 12, {"id": 5, "role": "clerk", "subject": 0, "key": "stool"}),
    ("/policy", ADMINS_KEY, 13, {**POLICY, "base": 200, "percent": 20}),
    ("/routes", ADMINS_KEY, 14, {**LINE, "width": 5280, "days": [6, 7]}),
    ("/vehicles", "radio", 3, {**VAN, "id": 2, "from_day": LAST_DAY, "capacity": 6}),
    ("/vehicles", "radio", 4, {**VAN, "id": 2, "from_day": TOMORROW, "capacity": 8}),
    ("/riders", "hello", 7, {"id": 7, "kind": "resident", "attendant": False}),
    ("/trips/2/cancel", "hello", 8, {}),
]
REPLACED_ROWS = {
    "SELECT * FROM callers WHERE id = 5": [caller_row(5, CLERK, 0, "stool")],
    "SELECT base, percent, last_trip FROM desk": [(200, 20, 3)],
    "SELECT width, days FROM fixed": [(5280, 96)],
    "SELECT id, from_day, capacity FROM vehicles": [(1, DAY - 1, 4), (2, DAY, 8)],
    "SELECT * FROM riders": [(7, 0, 0), (9, 1, 0)],
    "SELECT id, status FROM trips": [(1, BOOKED), (2, CANCELLED), (3, CANCELLED)],
    "SELECT * FROM stops": [(1, DAY, 0, 1, PICKUP), (1, DAY, 1, 1, DROP)],
    "SELECT caller, number FROM kept": [(1, 14), (2, 8), (3, 4), (4, 1), (7, 1)],
}
# A van with places for wheelchairs, a visitor in one, and a trip; the rows of that, and what takes them away.
CHAIRS = [
    ("/vehicles", "radio", 60, {**VAN, "id": 3, "chairs": 2}),
    ("/riders", "hello", 60, {"id": 11, "kind": "visitor", "attendant": False, "wheelchair": True}),
    ("/trips", "hello", 61, {"rider": 11, **TRIP, "wish": 660, "to": 3}),
]
NO_CHAIRS = [
    ("/trips/4/cancel", "hello", 62, {}),
    ("/vehicles", "radio", 61, {**VAN, "id": 3}),
    ("/riders", "hello", 63, {"id": 11, "kind": "visitor", "attendant": False}),
]
CHAIRS_ROWS = {
    "rider_chairs": ([(11,)], []),
    "vehicle_chairs": ([(3, DAY - 1, 2)], []),
    "trip_chairs": ([(4,)], [(4,)]),
}


def faults_of_day(program, file):
    """The rows that the day left, and what is told of them over HTTP and by the commands."""
    yield from faults_of_database(file)
    names = {name for name, in rows(file, "SELECT name FROM sqlite_master WHERE type = 'table'")}
    yield difference("the tables", {*TABLES}, names)
    yield from faults_of_indexes(file)
    for query, wanted in WANTED_ROWS.items():
        yield difference(query, wanted, sorted(rows(file, query)))
    with Desk(program, file) as desk:
        told = desk.get(f"/days/{TOMORROW}/trips.csv", "radio")
        yield difference("the export", Reply(200, CSV), told)
        told = desk.get(f"/vehicles/1/manifest/{TOMORROW}", "wheel")
        yield difference("the manifest", Reply(200, MANIFEST), told)
    yield ends("trips", ran(program, "trips", file, ZONE, "radio", TOMORROW), DONE, CSV.encode())
    yield ends(
        "manifest",
        ran(program, "manifest", file, ZONE, "wheel", 1, TOMORROW),
        DONE,
        MANIFEST.encode(),
    )


def faults_of_replaced(program, file, folder):
    """The rows that are left where records take the place of others, and where they are taken away."""
    path = f"{folder}/replaced.db"
    copy_database(file, path)
    with Desk(program, path) as desk:
        asked_in_turn(desk, REPLACING)
    yield from faults_of_database(path)
    for query, wanted in REPLACED_ROWS.items():
        yield difference(f"{query}, once replaced", wanted, sorted(rows(path, query)))
    told = ran(program, "trips", path, ZONE, "radio", TOMORROW)
    changed = CSV.replace("1,3,1,600,615,350,booked", "1,3,1,600,615,350,cancelled")
    yield ends("trips once replaced", told, DONE, changed.encode())


def faults_of_chairs(program, file, folder):
    """The rows of wheelchairs and their places, and what is left of them once they are taken away."""
    path = f"{folder}/chairs.db"
    copy_database(file, path)
    for at, asked in enumerate((CHAIRS, NO_CHAIRS)):
        with Desk(program, path) as desk:
            asked_in_turn(desk, asked)
        yield from faults_of_database(path)
        for table, wanted in CHAIRS_ROWS.items():
            yield difference(
                f"{table}, {'taken away' if at else 'put'}",
                wanted[at],
                rows(path, f"SELECT * FROM {table}"),
            )
        told = ran(program, "trips", path, ZONE, "radio", TOMORROW)
        wanted = f"{CSV}4,11,{TOMORROW},660,1,3,3,600,615,350,{'cancelled' if at else 'booked'}\n"
        yield ends("trips with a wheelchair", told, DONE, wanted.encode())


# Requests of every kind, over a desk that goes on and over one that is stopped and opened again and again.

WORDS = "walks to the stop"
ROLES = ["clerk", "dispatcher", "examiner", "officer", "admin", "driver", "rider"]
KINDS = ["resident", "visitor"]
ENTRIES = [
    {"entry": "complete"},
    {"entry": "heard"},
    {"entry": "overturn"},
    {"entry": "notice-heard"},
    {"entry": "grant", "until": LAST_DAY, "conditions": ["nolift", "farther:2000"]},
    {"entry": "appeal-granted", "until": LAST_DAY, "conditions": ["always"]},
    {"entry": "refuse", "reasons": WORDS},
    {"entry": "appeal-denied", "reasons": WORDS},
    {"entry": "appeal", "against": 1},
    {"entry": "notice", "basis": WORDS},
    {"entry": "suspend", "starts": TOMORROW, "ends": LAST_DAY, "reasons": WORDS},
]
# Who may mostly ask for what, and how often.
ASKED = [
    (
        2,
        [ADMINS_KEY],
        lambda it: (
            "/callers",
            {
                "id": it.randint(8, 12),
                "role": it.choice(ROLES),
                "subject": it.choice([0, 1, 7]),
                "key": f"key {it.randint(8, 12)}",
            },
        ),
    ),
    (
        1,
        [ADMINS_KEY],
        lambda it: (
            "/policy",
            {**POLICY, "base": it.randint(100, 300), "extra_ride": it.randint(0, 40)},
        ),
    ),
    (
        2,
        [ADMINS_KEY],
        lambda it: (
            "/places",
            {
                "id": it.randint(1, 9),
                "x": it.randint(0, 20000),
                "y": it.randint(-4000, 4000),
                "core": False,
            },
        ),
    ),
    (
        1,
        [ADMINS_KEY],
        lambda it: ("/routes", {**LINE, "id": it.randint(1, 3), "width": it.randint(3960, 7920)}),
    ),
    (
        4,
        ["hello"],
        lambda it: (
            "/riders",
            {"id": it.randint(7, 16), "kind": it.choice(KINDS), "attendant": it.random() < 0.5},
        ),
    ),
    (
        2,
        ["radio"],
        lambda it: (
            "/vehicles",
            {**VAN, "id": it.randint(1, 4), "from_day": some_day(it), "capacity": it.randint(2, 9)},
        ),
    ),
    (
        6,
        ["hello", "panel", "bench"],
        lambda it: (f"/riders/{it.choice([7, 9, *range(10, 17)])}/entries", it.choice(ENTRIES)),
    ),
    (
        12,
        ["hello", "mine"],
        lambda it: (
            "/trips",
            {"rider": it.choice([7, 7, 9, 9, it.randint(10, 16)]), **some_trip(it)},
        ),
    ),
    (3, ["hello"], lambda it: (f"/trips/{it.randint(1, 60)}/change", some_trip(it))),
    (3, ["hello", "mine"], lambda it: (f"/trips/{it.randint(1, 60)}/cancel", {})),
    (
        1,
        ["wheel", "radio"],
        lambda it: (f"/trips/{it.randint(1, 60)}/outcome", {"outcome": "ridden"}),
    ),
    (
        2,
        ["hello", "mine"],
        lambda it: (f"/riders/{it.randint(7, 12)}/standing/{some_day(it)}", None),
    ),
    (2, ["hello", "mine"], lambda it: (f"/riders/{it.randint(7, 12)}/trips", None)),
    (
        1,
        ["hello", "mine"],
        lambda it: (f"/riders/{it.randint(7, 12)}/letters/{it.randint(0, 5)}", None),
    ),
    (
        2,
        ["wheel", "radio"],
        lambda it: (f"/vehicles/{it.randint(1, 3)}/manifest/{some_day(it)}", None),
    ),
    (1, ["radio"], lambda it: (f"/days/{some_day(it)}/sheet", None)),
    (1, ["radio"], lambda it: (f"/days/{some_day(it)}/trips.csv", None)),
]


def some_day(chance):
    return TODAY + datetime.timedelta(days=chance.randint(1, 8))


def some_trip(chance):
    start, goal = chance.sample([1, 2, 3], 2)
    return {
        "day": some_day(chance),
        "wish": chance.randint(320, 1200),
        "from": start,
        "to": goal,
        "attendant": False,
        "companions": 0,
    }


def random_requests(seed, count):
    """So many requests of every kind from a seed. One write in ten comes again as it was."""
    chance, number, last = random.Random(seed), 100, None
    for _ in range(count):
        if last and chance.random() < 0.1:
            yield last
            continue
        _, keys, make = chance.choices(ASKED, [weight for weight, *_ in ASKED])[0]
        key = chance.choice(
            keys if chance.random() < 0.9 else ["hello", "radio", "panel", "wheel", "key 9"]
        )
        path, body = make(chance)
        number += body is not None
        last = ("GET", path, key, None, None) if body is None else ("POST", path, key, number, body)
        yield last


def faults_of_many(program, file, folder):
    """The same replies, and in the end the same rows."""
    paths = f"{folder}/going-on.db", f"{folder}/opened-again.db"
    for path in paths:
        copy_database(file, path)
    told = collections.Counter()
    with Desk(program, paths[0]) as desk, contextlib.ExitStack() as other:
        for at, request in enumerate(random_requests(SEED, MANY_REQUESTS)):
            if at % OPENED_EVERY == 0:
                other.close()
                again = other.enter_context(Desk(program, paths[1]))
            wanted, got = desk.ask(*request), again.ask(*request)
            if wanted != got:
                yield difference(
                    f"request {at}, {request}, over a file that was opened again", wanted, got
                )
                return
            body = wanted.body if wanted and isinstance(wanted.body, dict) else {}
            told[wanted.status if wanted else None, body.get("denied")] += 1
    is_varied = told[200, None] > MANY_REQUESTS / 4 and len(told) > 10
    yield None if is_varied and not any(
        it in (None, 503) for it, _ in told
    ) else f"many requests: {told}"
    for path in paths:
        yield from faults_of_database(path)
    for table in TABLES:
        query = f"SELECT * FROM {table}"
        yield difference(
            f"{query}, opened again", sorted(rows(paths[0], query)), sorted(rows(paths[1], query))
        )


# Connections that fail.


def leave(desk, sent, is_reset):
    """Sends these bytes and closes, without reading."""
    with desk.connected() as connection:
        connection.sendall(sent)
        if is_reset:
            connection.setsockopt(socket.SOL_SOCKET, socket.SO_LINGER, struct.pack("ii", 1, 0))


def faults_of_connections(program, file):
    """Whatever one connection does, the next is served."""
    read = message_of("GET", f"/riders/7/standing/{TOMORROW}", "mine")
    write = message_of(
        "POST", "/riders", "hello", 90, {"id": 70, "kind": "resident", "attendant": False}
    )
    parts = {
        "nothing": b"",
        "half a line": read[:9],
        "half a head": read[:40],
        "half a body": write[:-9],
        "a request": read,
        "a request and more": read + read,
        "no HTTP": b"\x16\x03\x01\x00\xf1" * 10,
    }
    with Desk(program, file) as desk:
        for name, sent in parts.items():
            for is_reset in (False, True):
                leave(desk, sent, is_reset)
                told = desk.sent(read)
                yield None if told and told.status == 200 else f"after {name}, {'reset' if is_reset else 'closed'}: {told}"
        for name in ("nothing", "half a head", "no HTTP"):
            told = desk.sent_and_ended(parts[name])
            yield difference(f"{name} and no more", Reply(400, {"denied": "http.head"}), told)
        told = desk.sent_and_ended(parts["half a body"])
        yield difference("half a body and no more", Reply(400, {"denied": "http.length"}), told)
        told = desk.get("/riders/70/trips", "hello")
        yield difference("what half a body did", Reply(404, {"denied": "desk.unknown"}), told)
    with Desk(program, file, count=2) as desk:
        told = [desk.sent(read) for _ in range(3)]
        desk.process.wait(10)
        yield difference(
            "three requests at a desk of two connections",
            [200, 200, None],
            [it and it.status for it in told],
        )
        yield difference("its exit status", DONE, desk.process.returncode)


def own_addresses():
    """The addresses of this machine but 127.0.0.1, and one more by which it reaches itself."""
    with open("/proc/net/fib_trie", encoding="ascii") as trie, open(
        "/proc/net/if_inet6", encoding="ascii"
    ) as sixth:
        fourth = re.findall(r"\|-- (\S+)\n +/32 host LOCAL", trie.read())
        found = [(line.split()[0], line.split()[-1]) for line in sixth]
    told = [(ipaddress.IPv6Address(int(digits, 16)), interface) for digits, interface in found]
    wider = [
        f"{address}%{interface}" if address.is_link_local else str(address)
        for address, interface in told
    ]
    return sorted({"127.0.0.2", *fourth, *wider} - {"127.0.0.1"})


def is_reached(address, port):
    with contextlib.suppress(OSError):
        socket.create_connection((address, port), timeout=5).close()
        return True
    return False


def open_addresses():
    """Those of them by which a program that listens on all of them is reached."""
    port = free_port()
    with socket.create_server(("", port)), contextlib.suppress(
        OSError
    ), contextlib.ExitStack() as more:
        sixth = more.enter_context(socket.socket(socket.AF_INET6))
        sixth.setsockopt(socket.IPPROTO_IPV6, socket.IPV6_V6ONLY, 1)
        sixth.bind(("::", port))
        sixth.listen()
        return [it for it in own_addresses() if is_reached(it, port)]


def listeners_on(port):
    """Where anybody listens on the port, as the kernel has it."""
    for table in ("tcp", "tcp6"):
        with open(f"/proc/net/{table}", encoding="ascii") as sockets:
            for line in sockets.readlines()[1:]:
                _, local, _, state, *_ = line.split()
                if state == LISTENS and local.endswith(f":{port:04X}"):
                    yield local


def faults_of_addresses(program, file):
    """The desk listens on 127.0.0.1 alone: by no other address of the machine is it reached."""
    if not os.path.exists("/proc/net/tcp"):
        print("tests/agency: skipped: who listens where, which /proc/net tells, and there is none")
        return
    with Desk(program, file) as desk:
        yield difference(
            "where the desk listens", [f"0100007F:{desk.port:04X}"], [*listeners_on(desk.port)]
        )
        yield difference("127.0.0.1", True, is_reached("127.0.0.1", desk.port))
        for address in open_addresses():
            yield difference(f"the desk by {address}", False, is_reached(address, desk.port))


# Writes that come again, and a program that is killed.


def faults_of_repeats(program, file):
    """The same write is told the same and done once, also after the program was killed."""
    booking = message_of("POST", "/trips", "mine", 50, {"rider": 7, **TRIP, "wish": 1200})
    spelled_anew = message_of(
        "POST", "/trips", "mine", "050", {**TRIP, "by": None, "wish": 1200, "rider": 7, "more": [1]}
    )
    other = message_of("POST", "/trips", "mine", 50, {"rider": 7, **TRIP, "wish": 1201})
    before = rows(file, "SELECT count(*) FROM trips")[0][0]
    with Desk(program, file) as desk:
        first = desk.sent(booking)
        yield None if first and first.status == 200 else f"a booking: {first}"
        yield difference("the same again", first, desk.sent(booking))
        yield difference("the same, spelled anew", first, desk.sent(spelled_anew))
        leave(desk, booking, True)
        yield difference("the same after a line that broke", first, desk.sent(booking))
        yield difference(
            "another with its number", Reply(409, {"denied": "desk.number"}), desk.sent(other)
        )
    with Desk(program, file) as desk:
        yield difference(
            "the same at a desk that was killed and started", first, desk.sent(booking)
        )
        yield difference(
            "another with its number there", Reply(409, {"denied": "desk.number"}), desk.sent(other)
        )
    yield difference(
        "how many trips there are", before + 1, rows(file, "SELECT count(*) FROM trips")[0][0]
    )


def faults_of_kills(program, file):
    """What was answered is there after SIGKILL, which comes as soon as the reply is read."""
    wanted = []
    for turn in range(KILLS):
        with Desk(program, file) as desk:
            for _ in range(turn + 1):
                rider = FIRST_RIDER + len(wanted)
                wanted.append((rider, 1, rider % 2))
                told = desk.post(
                    "/riders",
                    "hello",
                    rider,
                    {"id": rider, "kind": "visitor", "attendant": rider % 2 == 1},
                )
                yield difference(f"rider {rider}", Reply(200, {"done": True}), told)
    kept = rows(
        file, f"SELECT id, kind, attendant FROM riders WHERE id >= {FIRST_RIDER} ORDER BY id"
    )
    yield difference("riders that were answered", wanted, kept)
    yield from faults_of_database(file)


def faults_of_failed_stores(program, file):
    """Once the store has failed all is answered 503; started again, the desk takes the same write, and has lost nothing."""
    read = message_of("GET", f"/riders/7/standing/{TOMORROW}", "mine")
    with Desk(program, file, longest=os.path.getsize(file) + 400_000) as desk:
        for number in range(2 * FIRST_RIDER, 3 * FIRST_RIDER):
            told = desk.post(
                "/riders", "hello", number, {"id": number, "kind": "visitor", "attendant": False}
            )
            if told != Reply(200, {"done": True}):
                break
        yield difference("a write that finds no room", Reply(503, {"denied": "desk.store"}), told)
        yield difference("a read after it", Reply(503, {"denied": "desk.store"}), desk.sent(read))
        yield difference("the program then", None, desk.process.poll())
    yield difference(
        "the riders before it", [(number - 1,)], rows(file, "SELECT max(id) FROM riders")
    )
    with Desk(program, file) as desk:
        told = desk.post(
            "/riders", "hello", number, {"id": number, "kind": "visitor", "attendant": False}
        )
        yield difference(
            "the same write at a desk that was started", Reply(200, {"done": True}), told
        )
    yield from faults_of_database(file)


# What the crates' own tests showed once: lines of moments, travel tables, spellings of what is kept, windows and fares with drives.

NOWHERE = b"GET / HTTP/1.1\r\n\r\n"
NO_PATH = (
    b"HTTP/1.1 404 Not Found\r\nContent-Type: application/json\r\nContent-Length: 22\r\nConnection: close\r\n\r\n"
    b'{"denied":"http.path"}'
)
MOMENTS = [
    b"@ 2025-02-17 480\n",
    b"@ 2025-02-17 480\r\n",
    b"@ 2000-01-01 0000\n",
    b"@ 2099-12-31 1439\r\n",
]
NO_MOMENTS = [
    b"@ 2025-02-17 1440\n",
    b"@ 2025-02-17 01439\n",
    b"@ 2025-02-17 +480\n",
    b"@ 2025-02-17 \n",
    b"@ 2025-02-29 480\n",
    b"@ 1999-12-31 480\n",
    b"@ 2100-01-01 480\n",
    b"@ 2025-02-17  480\n",
    b"@  2025-02-17 480\n",
    b"@ 2025-02-17 480 \n",
    b"@ 2025-02-17 480 GET\n",
    b"@ 2025-02-17 480\r\r\n",
    b"@ 2025-02-17 480",
    b"\n@ 2025-02-17 480\n",
    b"@ 2025-02-17 \xff480\n",
]
MOST_MESSAGES = 100_000


def faults_of_moments(program):
    """Lines that are moments and lines that are none, input in pieces of seven bytes, and a message too many."""
    run = ran(program, "rehearse", "abc", input=b"".join(it + NOWHERE for it in MOMENTS))
    yield ends("each line of a moment", run, DONE, NO_PATH * len(MOMENTS))
    for line in NO_MOMENTS:
        run = ran(program, "rehearse", "abc", input=MOMENTS[0] + NOWHERE + line)
        yield ends(f"a rehearsal with the line {line}", run, OTHER, NO_PATH, fault=(48, 0))
    conversation = f"{TOP}/tests/rehearsals/rights/from-the-presumption-to-a-grant"
    yield difference(
        "input in pieces of seven bytes",
        Path(f"{conversation}.out").read_bytes(),
        rehearsed_in_pieces(program, asked_in(conversation), 7),
    )
    for count, status, said in (MOST_MESSAGES, DONE, b""), (
        MOST_MESSAGES + 1,
        OTHER,
        b"fault 46 row 0\n",
    ):
        run = subprocess.run(
            [program, "rehearse", "abc"],
            input=(MOMENTS[0] + NOWHERE) * count,
            capture_output=True,
            timeout=600,
        )
        told = run.returncode, run.stdout == NO_PATH * MOST_MESSAGES, run.stderr
        yield difference(f"{count} messages", (status, True, said), told)


# What a rehearsal replies to a head, and to a body, that breaks off.
NO_HEAD, NO_LENGTH = (
    b"HTTP/1.1 400 Bad Request\r\nContent-Type: application/json\r\n"
    b"Content-Length: %d\r\nConnection: close\r\n\r\n%b" % (len(it), it)
    for it in (b'{"denied":"http.head"}', b'{"denied":"http.length"}')
)


def ends_in(content):
    """Where the moment, the head and the body of each message of a conversation end."""
    at = 0
    while at < len(content):
        moment = content.index(b"\n", at) + 1
        head = content.index(b"\r\n\r\n", moment) + 4
        length = re.search(rb"Content-Length: (\d+)", content[moment:head])
        at = head + (int(length[1]) if length else 0)
        yield moment, head, at


def told_of_front(length, places):
    """How many messages are whole in a front of so many bytes, and the reply and the fault that what follows them gets."""
    whole = sum(end <= length for _, _, end in places)
    moment, head, _ = places[whole]
    if length == (places[whole - 1][2] if whole else 0):
        return whole, b"", None
    if length < moment:
        return whole, b"", (48, 0)
    return whole, NO_HEAD if length < head else NO_LENGTH, None


def faults_of_fronts(program):
    """Each proper front of a conversation: its whole messages are answered, and what breaks off is told."""
    conversation = f"{TOP}/tests/rehearsals/rights/from-the-presumption-to-a-grant"
    content = asked_in(conversation)
    replies = re.split(rb"(?=HTTP/1\.1 )", Path(f"{conversation}.out").read_bytes())[1:]
    places = list(ends_in(content))
    for length in range(len(content)):
        whole, last, fault = told_of_front(length, places)
        run = ran(program, "rehearse", "abc", input=content[:length])
        out = b"".join(replies[:whole]) + last
        yield ends(f"a front of {length} bytes", run, OTHER if fault else DONE, out, fault=fault)


def rehearsed_in_pieces(program, content, size):
    """What a rehearsal answers whose input comes in pieces of this size."""
    with subprocess.Popen(
        [program, "rehearse", "abc"], stdin=subprocess.PIPE, stdout=subprocess.PIPE, bufsize=0
    ) as process:
        for at in range(0, len(content), size):
            process.stdin.write(content[at : at + size])
            time.sleep(0.002)
        return process.communicate(timeout=60)[0]


# Texts that are travel tables, each of the same rows.
TABLES_OF_THREE_ROWS = [
    b"from,to,minutes\n2,1,0\n1,3,7\n1,2,10\n1,2,10\n",
    b"\xef\xbb\xbffrom,to,minutes\r\n2,1,0000\r\n1,3,07\r\n1,2,10",
    b'"from","to","minutes"\n\n"2","1","0"\n1,"3",7\n0000000001,2,10\n',
]
CUT = b"from,to,minutes\n1,2,10\n2,3,10\n"


def fault_of_cut(length):
    """The fault of a front of so many bytes."""
    found = {20: (23, 2), 27: (23, 3)}
    found.update({it: (21, 1) for it in range(15)})
    found.update({it: (20, 2) for it in range(17, 20)})
    found.update({it: (20, 3) for it in range(24, 27)})
    return found.get(length)


def faults_of_table_texts(program, file, folder):
    """Texts that are one table, and each front of a text."""
    path, times = f"{folder}/texts.db", f"{folder}/text.csv"
    copy_database(file, path)
    cases = [(text, None) for text in TABLES_OF_THREE_ROWS]
    cases += [(CUT[:length], fault_of_cut(length)) for length in range(len(CUT) + 1)]
    for number, (text, fault) in enumerate(cases, 10):
        Path(times).write_bytes(text)
        run = ran(program, "travel", path, ZONE, "radio", number, LAST_DAY, times)
        yield ends(
            f"travel with {text}", run, OTHER if fault else DONE, b"" if fault else b"done\n", fault
        )
        if text in TABLES_OF_THREE_ROWS:
            kept = rows(
                path,
                "SELECT a, b, minutes FROM travel WHERE from_day = ? ORDER BY a, b",
                LAST_DAY.toordinal() - EPOCH,
            )
            yield difference(
                f"the rows of {text}", [(0, 0, 0), (1, 2, 10), (1, 3, 7), (2, 1, 0)], kept
            )


def faults_of_full_table(program, file, folder):
    """A table of 100 places, in four minutes to the next and in a thousand to each other one; and a row too many."""
    path, times, day = f"{folder}/full.db", f"{folder}/full.csv", TODAY + datetime.timedelta(days=5)
    copy_database(file, path)
    places = [1, 2, 3, *range(4_294_967_199, 4_294_967_296)]
    with_database(
        path,
        lambda it: it.executemany(
            "INSERT INTO places VALUES(?, 0, 0, 0)", [(place,) for place in places[3:]]
        ),
    )
    pairs = [(i, j) for i in range(100) for j in range(100) if i != j]
    text = "from,to,minutes\n" + "".join(
        f"{places[i]},{places[j]},{4 if j == i + 1 else 1000}\n" for i, j in pairs
    )
    for more, status, out, fault in ("1,2,5\n", OTHER, b"", (24, 9902)), (
        "",
        DONE,
        b"done\n",
        None,
    ):
        Path(times).write_text(text + more, "utf-8")
        yield ends(
            f"travel with 9,900 rows and {more!r}",
            ran(program, "travel", path, ZONE, "radio", 9, day, times),
            status,
            out,
            fault,
        )
    yield difference(
        "the length of its spelling",
        [(118_809,)],
        rows(path, "SELECT length(request) FROM kept WHERE caller = 3"),
    )
    yield difference(
        "its rows",
        [(9_901,)],
        rows(path, "SELECT count(*) FROM travel WHERE from_day = ?", day.toordinal() - EPOCH),
    )
    with Desk(program, path) as desk:
        asked_in_turn(
            desk,
            [
                (
                    "/vehicles",
                    "radio",
                    10,
                    {**VAN, "id": 2, "opens": 0, "closes": 1439, "duration": 1439},
                ),
                (
                    "/trips",
                    "hello",
                    10,
                    {"rider": 9, **TRIP, "day": day, "wish": 0, "to": places[-1]},
                ),
            ],
        )
        told = desk.get(f"/vehicles/2/manifest/{day}", "radio")
    wanted = (
        f"VEHICLE 2 DAY {day}\n00:00 DEPOT 1\n00:00 PICK trip 4 rider 9 place 1 load 1 window 00:00-00:15\n"
        f"06:38 DROP trip 4 rider 9 place {places[-1]} load 0\n23:20 DEPOT 1\n"
    )
    yield difference("a drive over 98 places and the way back", Reply(200, wanted), told)


# A town of a depot and three places, 20,000 feet apart, where windows, schedules and fares are known.
TOWN_TIMES = "from,to,minutes\n1,2,20\n1,3,40\n2,1,20\n2,3,30\n2,4,10\n3,1,40\n3,2,30\n3,4,25\n4,2,10\n4,3,25\n"
FIRST, SECOND = {"rider": 7, "wish": 540, "from": 2, "to": 3}, {"rider": 7, "from": 4, "to": 3}
# The day ahead, the wishes of its trips, the last one's window and the minutes of the manifest.
DRIVES = [
    (1, [{**FIRST}], (485, 515), (480, 500, 532, 574)),
    (2, [FIRST, {**SECOND, "wish": 595}], (535, 550), (480, 512, 535, 562, 564, 606)),
    (3, [FIRST, {**SECOND, "wish": 620}], (560, 575), (480, 500, 532, 560, 587, 629)),
    (4, [{**FIRST, "wish": 600}], (540, 555), (514, 540, 572, 614)),
    (5, [FIRST], (485, 515), (480, 500, 532, 574)),
    (6, [{**FIRST, "wish": 566}], (506, 521), (486, 506, 538, 580)),
    (14, [FIRST], (485, 515), (480, 500, 532, 574)),
]
# The policy's base, transfer charge and own fare, whether one fixed route has both ends, and the fare of one person.
FARES = [
    (175, 50, 400, True, 350),
    (175, 50, 400, False, 400),
    (175, 0, 400, False, 350),
    (100, 0, 200, True, 200),
    (0, 0, 0, True, 0),
    (0, 0, 100_000, False, 0),
    (100_000, 100_000, 0, False, 0),
    (100_000, 100_000, 100_000, False, 100_000),
    (0, 100_000, 100_000, True, 0),
    (0, 100_000, 100_000, False, 100_000),
]


def ahead(days):
    return TODAY + datetime.timedelta(days=days)


def make_town(program, folder):
    file, times = f"{folder}/town.db", f"{folder}/town.csv"
    Path(times).write_text(TOWN_TIMES, "utf-8")
    ran(program, "init", file, ADMINS_KEY)
    van = {**VAN, "opens": 480, "closes": 1020, "duration": 480}
    with Desk(program, file) as desk:
        asked_in_turn(
            desk,
            [
                (
                    "/callers",
                    ADMINS_KEY,
                    1,
                    {"id": 2, "role": "clerk", "subject": 0, "key": "hello"},
                ),
                (
                    "/callers",
                    ADMINS_KEY,
                    2,
                    {"id": 3, "role": "dispatcher", "subject": 0, "key": "radio"},
                ),
                *[
                    (
                        "/places",
                        ADMINS_KEY,
                        3 + it,
                        {"id": 1 + it, "x": 20_000 * it, "y": 0, "core": False},
                    )
                    for it in range(4)
                ],
                ("/policy", ADMINS_KEY, 7, POLICY),
                ("/routes", ADMINS_KEY, 8, {**LINE, "points": [[0, 0], [60_000, 0]]}),
                ("/vehicles", "radio", 1, van),
                ("/vehicles", "radio", 2, {**van, "from_day": ahead(4), "duration": 100}),
                ("/vehicles", "radio", 3, {**van, "from_day": ahead(5), "duration": 94}),
                ("/vehicles", "radio", 4, {**van, "from_day": ahead(7)}),
                ("/riders", "hello", 1, {"id": 7, "kind": "visitor", "attendant": True}),
            ],
        )
    given = ran(program, "travel", file, ZONE, "radio", 5, TODAY, times)
    if given.stdout != b"done\n":
        raise Refused(f"travel of the town: {given}")
    return file


def faults_of_town(program, folder):
    """Windows, least service times and fares where the vehicle drives."""
    file, number = make_town(program, folder), 10
    with Desk(program, file) as desk:
        for days, wishes, window, minutes in DRIVES:
            for wish in wishes:
                number += 1
                told = desk.post("/trips", "hello", number, {**TRIP, "day": ahead(days), **wish})
            got = (
                told
                and told.status == 200
                and (told.body["window_from"], told.body["window_to"], told.body["due"])
            )
            yield difference(f"the window of {wishes[-1]} on day {days}", (*window, 350), got)
            manifest = desk.get(f"/vehicles/1/manifest/{ahead(days)}", "radio")
            times = [it.split()[0] for it in str(manifest and manifest.body).splitlines()[1:]]
            yield difference(
                f"the minutes of day {days}",
                [f"{it // 60:02}:{it % 60:02}" for it in minutes],
                times,
            )
        yield from faults_of_fares(desk, number)


def faults_of_fares(desk, number):
    """What one person pays and what is due, by one fixed route or two, alone and with a companion and an attendant."""
    asked_in_turn(
        desk, [("/routes", ADMINS_KEY, 20, {**LINE, "id": 2, "points": [[40_000, 0], [60_000, 0]]})]
    )
    for at, (base, transfer, own, is_one, fare) in enumerate(FARES):
        length = 60_000 if is_one else 20_000
        asked_in_turn(
            desk,
            [
                (
                    "/policy",
                    ADMINS_KEY,
                    21 + 2 * at,
                    {**POLICY, "base": base, "transfer": transfer, "fare": own},
                ),
                ("/routes", ADMINS_KEY, 22 + 2 * at, {**LINE, "points": [[0, 0], [length, 0]]}),
            ],
        )
        for companions, attendant in (0, False), (1, False), (1, True), (0, True):
            number += 1
            wish = {
                **TRIP,
                **FIRST,
                "day": ahead(8),
                "companions": companions,
                "attendant": attendant,
            }
            told = desk.post("/trips", "hello", number, wish)
            got = told and told.status == 200 and (told.body["fare"], told.body["due"])
            yield difference(
                f"the fare by {base, transfer, own, is_one} with {companions, attendant}",
                (fare, fare * (1 + companions)),
                got,
            )
            number += 1
            desk.post(
                f"/trips/{told.body['trip']}/cancel" if got else "/trips/0/cancel",
                "hello",
                number,
                {},
            )


# How requests that were kept are spelled.


def big(*numbers):
    """Each number in four bytes."""
    return b"".join(it.to_bytes(4, "big", signed=it < 0) for it in numbers)


RESIDENT = {"kind": "resident", "attendant": True}
GRANTED = ["months:1,2,12", "farther:5280", "nolift", "always"]
SUSPENDED = {"entry": "suspend", "starts": TOMORROW, "ends": TOMORROW, "reasons": "late"}
DIGEST = b"the thirty-two bytes of a digest"
# Who asks, for what, and the bytes of the request and of the reply. Every caller asks once, so each is its last.
SPELLED = [
    (
        "admin",
        "/places",
        {"id": 4, "x": -1, "y": 1_000_000, "core": True},
        b"\3" + big(4, -1, 1_000_000) + b"\1",
        b"\0",
    ),
    (
        "admin",
        "/routes",
        {
            **LINE,
            "id": 9,
            "points": [[0, 0], [20000, -5]],
            "days": [1, 7],
            "first": 360,
            "last": 1320,
        },
        b"\4" + big(9, 3960, 2, 0, 0, 20000, -5) + b"\1\x41" + big(360, 1320),
        b"\0",
    ),
    ("admin", "/routes", {**LINE, "id": 8, "points": [[it, 0] for it in range(200)]}, 1623, b"\0"),
    (
        "dispatcher",
        "/vehicles",
        {**VAN, "id": 5, "from_day": "2025-03-11", "opens": 0, "closes": 1439, "duration": 94},
        b"\5" + big(5, 20158) + b"\x7f" + big(1, 4, 0, 1439, 94),
        b"\0",
    ),
    (
        "admin",
        "/callers",
        {"id": 2, "role": "driver", "subject": 5, "digest": DIGEST.hex()},
        b"\1" + big(2) + b"\5" + big(5) + DIGEST,
        b"\0",
    ),
    (
        "clerk",
        "/riders",
        {"id": 8, "kind": "visitor", "attendant": True},
        b"\6" + big(8) + b"\1\1",
        b"\0",
    ),
    ("clerk", "/riders", {"id": 7, **RESIDENT}, b"\6" + big(7) + b"\0\1", b"\0"),
    ("clerk", "/riders", {"id": 9, **RESIDENT}, b"\6" + big(9) + b"\0\1", b"\0"),
    ("clerk", "/riders/7/entries", {"entry": "complete"}, b"\7" + big(7) + b"\0", b"\1" + big(0)),
    (
        "examiner",
        "/riders/7/entries",
        {"entry": "grant", "until": LAST_DAY, "conditions": GRANTED},
        b"\7"
        + big(7)
        + b"\1"
        + big(LAST_DAY.toordinal() - EPOCH, 4)
        + b"".join(big(len(it)) + it.encode() for it in GRANTED),
        b"\1" + big(1),
    ),
    ("clerk", "/riders/9/entries", {"entry": "complete"}, b"\7" + big(9) + b"\0", b"\1" + big(0)),
    (
        "examiner",
        "/riders/9/entries",
        {"entry": "refuse", "reasons": "walks a mile"},
        b"\7" + big(9) + b"\2" + big(12) + b"walks a mile",
        b"\1" + big(1),
    ),
    (
        "clerk",
        "/riders/9/entries",
        {"entry": "appeal", "against": 1},
        b"\7" + big(9) + b"\3" + big(1),
        b"\1" + big(2),
    ),
    ("clerk", "/riders/9/entries", {"entry": "complete"}, b"\7" + big(9) + b"\0", b"\1" + big(3)),
    (
        "examiner",
        "/riders/9/entries",
        {"entry": "refuse", "reasons": "x" * 500},
        510,
        b"\1" + big(4),
    ),
    (
        "admin",
        "/policy",
        {**POLICY, "service": 4},
        b"\2" + big(175, 50, 400, 4, 20, 3, 10, 30),
        b"\0",
    ),
]


def faults_of_spellings(program, folder):
    """The bytes in which each kind of request and its reply are kept."""
    file = f"{folder}/spelled.db"
    ran(program, "init", file, ADMINS_KEY)
    with Desk(program, file) as desk:
        asked_in_turn(desk, [("/places", ADMINS_KEY, 1, {"id": 1, "x": 0, "y": 0, "core": False})])
        for at, (role, path, body, *_) in enumerate(SPELLED):
            key = f"key {at}"
            asked_in_turn(
                desk,
                [
                    (
                        "/callers",
                        ADMINS_KEY,
                        2 + at,
                        {"id": 100 + at, "role": role, "subject": 0, "key": key},
                    ),
                    (path, key, 1, body),
                ],
            )
    for at, (_, path, body, request, reply) in enumerate(SPELLED):
        kept = rows(file, "SELECT request, reply FROM kept WHERE caller = ?", 100 + at)
        got = [(len(asked) if isinstance(request, int) else asked, told) for asked, told in kept]
        yield difference(f"the spelling of {path} {str(body)[:60]}", [(request, reply)], got)


def faults_of_spelled_trips(program, file, folder):
    """The bytes of a booking, a change, a cancellation, an outcome and a suspension, at the ends of their ranges."""
    path, day, today = f"{folder}/trips.db", DAY, TODAY.toordinal() - EPOCH
    copy_database(file, path)
    last, cents = 4_294_967_295, 100_000
    with_database(
        path,
        lambda it: [
            it.execute(each)
            for each in (
                f"UPDATE desk SET last_trip = {last - 1}",
                f"INSERT INTO trips SELECT 4, rider, {today}, wish, origin, goal, latest, attendant, companions, fare, service, ride, vehicle, "
                "window_from, window_to, 0 FROM trips WHERE id = 1",
                f"INSERT INTO stops SELECT vehicle, {today}, place, 4, kind FROM stops WHERE trip = 1",
                f"INSERT INTO entries VALUES(7, 2, 8, {today}, 2, -1, -1, '', 'x')",
                f"INSERT INTO entries VALUES(7, 3, 9, {today}, 5, -1, -1, '', '')",
            )
        ],
    )
    with Desk(program, path) as desk:
        asked_in_turn(
            desk,
            [
                ("/policy", ADMINS_KEY, 50, {**POLICY, "base": cents, "fare": cents}),
                (
                    "/vehicles",
                    "radio",
                    50,
                    {
                        **VAN,
                        "id": last,
                        "capacity": 9,
                        "opens": 1425,
                        "closes": 1439,
                        "duration": 14,
                    },
                ),
                ("/riders/7/entries", "bench", 50, SUSPENDED),
                ("/trips/4/outcome", "wheel", 50, {"outcome": "missed-operator"}),
            ],
        )
        told = desk.post(
            "/trips", "hello", 51, {"rider": 9, **TRIP, "wish": 1439, "to": 1, "companions": 1}
        )
        booked = {
            "due": 2 * cents,
            "fare": cents,
            "trip": last,
            "vehicle": last,
            "window_from": 1410,
            "window_to": 1439,
        }
        yield difference("the longest confirmation", Reply(200, booked), told)
    kept = lambda caller: rows(path, "SELECT request, reply FROM kept WHERE caller = ?", caller)
    wish = big(day, 1439, 1, 1)
    wanted = b"\2" + big(last, last, 1410, 1439, cents, 2 * cents)
    yield difference(
        "the spelling of a booking", [(b"\x08" + big(9) + wish + b"\0\0" + big(1), wanted)], kept(2)
    )
    yield difference("of an outcome", [(b"\x0b" + big(4) + b"\2", b"\0")], kept(6))
    yield difference(
        "of a suspension",
        [(b"\7" + big(7) + b"\x0a" + big(day, day, 4) + b"late", b"\1" + big(4))],
        kept(5),
    )
    with Desk(program, path) as desk:
        told = desk.post(
            f"/trips/{last}/change", "hello", 52, {**TRIP, "wish": 1439, "to": 1, "by": 1430}
        )
        yield None if told and told.status == 200 else f"a change of the last trip: {told}"
    yield difference(
        "of a change",
        [b"\x09" + big(last) + wish + b"\1" + big(1430) + b"\0" + big(0)],
        [it for it, _ in kept(2)],
    )
    with Desk(program, path) as desk:
        asked_in_turn(desk, [(f"/trips/{last}/cancel", "hello", 53, {})])
        full = desk.post("/trips", "hello", 54, {"rider": 9, **TRIP})
        yield difference("a trip after the last number", Reply(422, {"denied": "desk.full"}), full)
    yield difference("of a cancellation", [(b"\x0a" + big(last), b"\0")], kept(2))


# Slow clients, and what needs more than Python.


def waited(desk, slow, least, most, label, read):
    """None where the next request is answered, so many seconds after a client has begun to be slow."""
    begun = time.monotonic()
    with slow:
        told = desk.sent(read)
    seconds = time.monotonic() - begun
    is_right = least <= seconds <= most and told and told.status == 200
    return None if is_right else f"{label}: the next is answered {told} after {seconds:.1f} seconds"


def drip(connection):
    """Sends a byte each half second, and never ends, until the line breaks."""

    def send():
        with contextlib.suppress(OSError):
            while True:
                connection.sendall(b"G")
                time.sleep(0.5)

    threading.Thread(target=send, daemon=True).start()


def add_cancelled_trips(database):
    """Many trips like number 3, which was cancelled."""
    database.execute(
        f"""
        WITH RECURSIVE turns(turn) AS (SELECT 1 UNION ALL SELECT turn + 1 FROM turns WHERE turn < {MANY_TRIPS})
        INSERT INTO trips SELECT last_trip + turn, rider, day, wish, origin, goal, latest, attendant, companions, trips.fare, trips.service,
            ride, vehicle, window_from, window_to, status FROM turns, desk, trips WHERE trips.id = 3"""
    )
    database.execute(f"UPDATE desk SET last_trip = last_trip + {MANY_TRIPS}")


def read_nothing(port):
    """A connection that asks for a long reply, and takes none of it."""
    unread = socket.socket()
    unread.setsockopt(socket.SOL_SOCKET, socket.SO_RCVBUF, 2048)
    unread.connect(("127.0.0.1", port))
    unread.sendall(message_of("GET", "/riders/9/trips", "hello"))
    return unread


def faults_of_slow_clients(program, file):
    """A client that is slow holds the desk up for its bounds, and then the next is answered."""
    read = message_of("GET", f"/riders/7/standing/{TOMORROW}", "mine")
    with_database(file, add_cancelled_trips)
    with Desk(program, file) as desk:
        yield waited(desk, desk.connected(), 9, 13, "a client that sends nothing", read)
        begun = desk.connected()
        begun.sendall(read[:40])
        yield waited(desk, begun, 9, 13, "a client that sends half a head", read)
        dripping = desk.connected()
        drip(dripping)
        yield waited(desk, dripping, 14, 18, "a client that sends a byte each half second", read)
        yield waited(
            desk,
            read_nothing(desk.port),
            9,
            45,
            "a client that reads nothing of a long reply",
            read,
        )


def faults_of_scripts(program):
    """What examples/day and deploy/try say of themselves."""
    ports = {**os.environ, "PORT": str(free_port()), "TLS_PORT": str(free_port())}
    day = subprocess.run([f"{TOP}/examples/day", program], capture_output=True, env=ports)
    yield None if day.returncode == 0 else f"examples/day ends with {day.returncode}:\n{(day.stdout + day.stderr).decode()}"
    tried = subprocess.run(
        [f"{TOP}/deploy/try", program], stdout=subprocess.PIPE, stderr=subprocess.STDOUT, env=ports
    )
    print(tried.stdout.decode(), end="")
    yield None if tried.returncode == 0 else f"deploy/try ends with {tried.returncode}"


def plain_faults(program, folder):
    file = make_agency(program, folder)
    yield from faults_of_words(program)
    yield from faults_of_rehearsals(program, folder)
    yield from faults_of_moments(program)
    yield from faults_of_fronts(program)
    yield from faults_of_day(program, file)
    yield from faults_of_table_texts(program, file, folder)
    yield from faults_of_full_table(program, file, folder)
    yield from faults_of_town(program, folder)
    yield from faults_of_spellings(program, folder)
    yield from faults_of_spelled_trips(program, file, folder)
    yield from faults_of_replaced(program, file, folder)
    yield from faults_of_chairs(program, file, folder)
    yield from faults_of_many(program, file, folder)
    yield from faults_of_denials(program, file, f"{folder}/times.csv")
    yield from faults_of_tables(program, file, folder)
    yield from faults_of_files(program, file, folder)
    yield from faults_of_unsound(program, file, folder)
    yield from faults_of_locks(program, file, folder)
    yield from faults_of_connections(program, file)
    yield from faults_of_addresses(program, file)
    yield from faults_of_repeats(program, file)
    yield from faults_of_kills(program, file)
    yield from faults_of_failed_stores(program, file)


def all_faults(program, is_plain):
    with tempfile.TemporaryDirectory() as folder:
        try:
            yield from plain_faults(program, folder)
            if is_plain:
                print(
                    "tests/agency: skipped: slow clients, examples/day, deploy/try (tests/agency --all PROGRAM has them)"
                )
            else:
                yield from faults_of_slow_clients(program, f"{folder}/agency.db")
                yield from faults_of_scripts(program)
        except (Refused, OSError) as error:
            yield str(error)
    print(
        "tests/agency: skipped: fault 2, since no test sets the machine's clock; fault 0, want of memory, which tests/memory has; "
        "fault 25, since no sound desk has 101 places"
    )


def has_ports():
    """Whether this machine lets a program listen on 127.0.0.1, and another connect to it."""
    with socket.socket() as listener, contextlib.suppress(OSError):
        listener.bind(("127.0.0.1", 0))
        listener.listen()
        socket.create_connection(listener.getsockname(), timeout=5).close()
        return True
    return False


def install():
    """Installs what is missing of the tools."""
    missing = [it for it in TOOLS if not shutil.which(it, path=os.environ["PATH"] + ":/usr/sbin")]
    for words in (["update"], ["install", "--yes", *missing]) if missing else ():
        subprocess.run(["apt-get", "--quiet", *words], check=True, stdout=subprocess.DEVNULL)


def main(words):
    program, flags = told_program(words, __doc__)
    if flags not in ([], ["--plain"], ["--all"], ["--install"]):
        print(__doc__, end="", file=sys.stderr)
        return 2
    if not has_ports():
        print("tests/agency: skipped: all of it, since nothing may be reached on 127.0.0.1 here")
        return tally("tests/agency", [])
    if flags == ["--install"]:
        install()
    return tally("tests/agency", all_faults(program, flags not in (["--all"], ["--install"])))


if __name__ == "__main__":
    sys.exit(main(sys.argv[1:]))
