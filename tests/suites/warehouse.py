"""Tries bin/warehouse: `warehouse PROGRAM`.

A small agency is made by the desk's own commands, copied, and written as CSV. What the CSV says is compared with the desk's
own replies. Copies that are none, a folder that is taken, wrong words and a large table get what each should. The last line is
'N passed, M failed', and the exit status 1 where something failed.
"""
import csv
import datetime
import hashlib
import os
import stat
import subprocess
import sys
import tempfile
from pathlib import Path

from desk_tools.tree import TOP
import serving
from desk_tools import warehouse
from serving import TODAY, TOMORROW, difference, tally, told_program

SECONDS, TRIPS = 300, 100_000
KEYS = [it["key"] for _, _, _, it in serving.AGENCY if "key" in it] + [serving.ADMINS_KEY]


def ran(*words):
    return subprocess.run(
        [f"{TOP}/bin/warehouse", *map(str, words)],
        capture_output=True,
        text=True,
        timeout=SECONDS,
        check=False,
    )


def refused(label, run, wanted, status=1):
    is_so = run.returncode == status and wanted in run.stderr and "Traceback" not in run.stderr
    return None if is_so else f"{label}: {run}"


def table(folder, name):
    with open(f"{folder}/{name}.csv", encoding="utf-8", newline="") as file:
        return list(csv.DictReader(file))


def faults_of_tables(program, file, copy, folder):
    """What is written beside what the desk says."""
    run = ran(copy, folder, "--plan")
    yield difference(
        f"--plan: {run}",
        (0, True, False),
        (run.returncode, "Nothing was written." in run.stdout, os.path.exists(folder)),
    )
    run = ran(copy, folder)
    yield difference(f"the tables: {run}", (0, ""), (run.returncode, run.stderr))
    names = {f"{it}.csv" for it in (*warehouse.TABLES, "dictionary", "tables")}
    yield difference("the files", names, set(os.listdir(folder)))
    yield difference(
        "the rows that it counts",
        {it["table"]: int(it["rows"]) for it in table(folder, "tables")},
        {it: len(table(folder, it)) for it in warehouse.TABLES},
    )
    yield difference(
        "as many rows as the file has",
        {it: serving.rows(copy, f"SELECT count(*) FROM {it}")[0][0] for it in warehouse.TABLES},
        {it: len(table(folder, it)) for it in warehouse.TABLES},
    )
    with serving.Desk(program, file) as desk:
        export = list(
            csv.DictReader(desk.get(f"/days/{TOMORROW}/trips.csv", "radio").body.splitlines())
        )
        letter = desk.get("/riders/7/letters/1", "hello").body
    names = ("rider", "day", "wish", "vehicle", "window_from", "window_to")
    wanted = [[it["trip"], *(it[name] for name in names)] for it in export]
    yield difference(
        "the trips of the desk's own export",
        wanted,
        [[it["id"], *(it[name] for name in names)] for it in table(folder, "trips")],
    )
    yield difference(
        "their fares",
        [int(it["due"]) for it in export],
        [int(it["fare"]) * (1 + int(it["companions"])) for it in table(folder, "trips")],
    )
    yield difference(
        "its states",
        [it["status"].replace("cancelled", "canceled") for it in export],
        [it["status"] for it in table(folder, "trips")],
    )
    grant = table(folder, "entries")[1]
    yield None if f"UNTIL {grant['until']}\nCONDITIONS {grant['conditions'].replace(';', '; ')}\n" in letter else f"the grant is {grant}, the letter {letter}"
    yield difference(
        "days and weekdays",
        (str(TODAY), "1;2;3;4;5;6;7"),
        (table(folder, "vehicles")[0]["from_day"], table(folder, "vehicles")[0]["days"]),
    )
    modes = {stat.S_IMODE(os.stat(f"{folder}/{it}").st_mode) for it in os.listdir(folder)}
    yield difference(
        "who may read it", (0o700, {0o600}), (stat.S_IMODE(os.stat(folder).st_mode), modes)
    )


def faults_of_keys(folder):
    """No digest of a key is in any file, as bytes, digits or Python's words."""
    content = b"\n".join(open(f"{folder}/{it}", "rb").read() for it in sorted(os.listdir(folder)))
    for key in KEYS:
        digest = hashlib.sha256(key.encode())
        spelled = (
            digest.digest(),
            repr(digest.digest())[2:-1].encode(),
            digest.hexdigest().encode(),
            digest.hexdigest().upper().encode(),
        )
        found = [it for it in spelled if it in content]
        yield f"the digest of {key} is written" if found else None


def faults_of_words(room, file, copy, folder):
    before = {it: open(f"{folder}/{it}", "rb").read() for it in os.listdir(folder)}
    yield refused(
        "a folder that holds something", ran(copy, folder), "is there and is no empty folder"
    )
    yield difference(
        "it stays", before, {it: open(f"{folder}/{it}", "rb").read() for it in os.listdir(folder)}
    )
    for label, path, said in (
        ("no file", f"{room}/none.db", "No such file"),
        ("a text", __file__, "no database of SQLite"),
        ("the desk's own file", file, "this is a desk's own file"),
    ):
        yield refused(label, ran(path, f"{room}/x"), said)
    other = f"{room}/other.db"
    serving.with_database(other, lambda it: it.execute("CREATE TABLE notes (a)"))
    yield refused(
        "another program's file", ran(other, f"{room}/x"), "no sound copy of a desk's file"
    )
    content = Path(copy).read_bytes()
    Path(f"{room}/cut.db").write_bytes(content[: len(content) // 2])
    yield refused("a copy that was cut", ran(f"{room}/cut.db", f"{room}/x"), "was cut")
    serving.copy_database(copy, f"{room}/odd.db")
    serving.with_database(f"{room}/odd.db", lambda it: it.execute("UPDATE stops SET kind = 7"))
    yield refused(
        "a kind that is none", ran(f"{room}/odd.db", f"{room}/x"), "kind is 7, which no desk writes"
    )
    yield difference("what is left of these", False, os.path.exists(f"{room}/x"))
    yield refused("no folder", ran(copy), "this takes FOLDER, or --plan", 2)
    yield refused("no words", ran(), "required", 2)
    backups = f"{room}/backups"
    os.mkdir(backups)
    serving.copy_database(copy, f"{backups}/desk-2026-01-02-0305.db")
    run = ran(backups, f"{room}/newest")
    yield None if run.returncode == 0 and "desk-2026-01-02-0305.db" in run.stdout else f"a folder of backups: {run}"


def faults_of_many(room, copy):
    """So many trips take a while, of which something is said."""
    many = f"{room}/many.db"
    serving.copy_database(copy, many)
    row = "SELECT value + 10, rider, day, wish, origin, goal, latest, attendant, companions, fare, service, ride, vehicle, window_from, window_to, 1"
    numbers = f"WITH RECURSIVE numbers (value) AS (SELECT 1 UNION ALL SELECT value + 1 FROM numbers WHERE value < {TRIPS})"
    serving.with_database(
        many,
        lambda it: it.execute(
            f"INSERT INTO trips {numbers} {row} FROM trips, numbers WHERE id = 1"
        ),
    )
    began = datetime.datetime.now()
    run = ran(many, f"{room}/many")
    took = (datetime.datetime.now() - began).total_seconds()
    is_said = "rows so far" in run.stderr or took < 3
    yield None if run.returncode == 0 and is_said and f"trips: {TRIPS + 3:,} rows" in run.stdout else f"{TRIPS} trips in {took:.0f} s: {run}"


def faults(program):
    with tempfile.TemporaryDirectory(prefix="desk-warehouse-") as room:
        file, copy, folder = (
            serving.make_agency(program, room),
            f"{room}/desk-copy.db",
            f"{room}/out",
        )
        serving.copy_database(file, copy)
        yield from faults_of_tables(program, file, copy, folder)
        yield from faults_of_keys(folder)
        # (a log beside it, as the desk that was killed leaves one)
        yield from faults_of_words(room, file, copy, folder)
        yield from faults_of_many(room, copy)


if __name__ == "__main__":
    named, _ = told_program(sys.argv[1:], __doc__)
    sys.exit(tally("tests/warehouse", faults(named)))
