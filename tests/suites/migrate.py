"""Tries `desk migrate` over a file of version 1: `migrate PROGRAM`, or `migrate` with the program's path in DESK.

tests/migration has the file, as a program of before wrote it, and what that program told of it. The file is refused until it is migrated.
Then it has the tables and indexes of version 2 with the rows of before, is read as before, and a write that comes again gets its reply.
What is no file of version 1 is refused and keeps its bytes. A migration that is killed, or torn at a sector, or finds no room, leaves a
file of version 1 or of version 2, and nothing is lost. The last line is 'N passed, M failed', and the exit status 1 where something failed.
"""
import contextlib
import json
import os
import random
import resource
import shutil
import sqlite3
import subprocess
import sys
import tempfile
import time

from desk_tools.ops.content import FIRST_TABLES
from desk_tools.tree import TOP
from serving import (
    ADMINS_KEY,
    INDEXES,
    TODAY,
    ZONE,
    Desk,
    Reply,
    difference,
    faults_of_database,
    faults_of_indexes,
    free_port,
    ran,
    received_from,
    rows,
    tally,
    told_program,
    with_database,
)
from tearing import files_of, put_files, sectors_of, torn

KEPT = f"{TOP}/tests/migration"
FIRST = f"{KEPT}/first-version.desk"
# The tables of later versions, with how SQLite lists them.
OTHERS = {
    "rider_chairs": "CREATE TABLE rider_chairs (rider INTEGER PRIMARY KEY REFERENCES riders (id)) STRICT",
    "vehicle_chairs": "CREATE TABLE vehicle_chairs (id INTEGER NOT NULL, from_day INTEGER NOT NULL, chairs INTEGER NOT NULL, "
    "PRIMARY KEY (id, from_day), FOREIGN KEY (id, from_day) REFERENCES vehicles (id, from_day)) STRICT",
    "trip_chairs": "CREATE TABLE trip_chairs (trip INTEGER PRIMARY KEY REFERENCES trips (id)) STRICT",
}
DONE, NO_STORE, OTHER = 0, 3, 4
OTHER_TABLES, STORE, UNREAD = 30, 32, 5
# The length of a log that has nothing: the program makes one wherever it opens a file.
EMPTY_LOG = 41
KILLS, SETS, SEED = 20, 40, 37131
# A day on which the file has trips, as the program that wrote it had them.
with open(f"{KEPT}/reads.json", encoding="utf-8") as told_before:
    READS = json.load(told_before)
DAY = READS[0]["path"].split("/")[2]
TRIPS = READS[0]["reply"].partition("\r\n\r\n")[2].encode()


def ends(label, run, status, out=b"", fault=None):
    """None where a run ends with this status, output and fault, else how it ends."""
    said = b"" if fault is None else f"fault {fault} row 0\n".encode()
    return difference(label, (status, out, said), (run.returncode, run.stdout, run.stderr))


def copied(path):
    """The file of version 1, there."""
    shutil.copy(FIRST, path)
    return path


def changed(path, *statements):
    """The file of version 1, there, after these statements."""
    with_database(copied(path), lambda it: [it.execute(statement) for statement in statements])
    return path


def migrated(program, path):
    run = ran(program, "migrate", copied(path))
    return None if run.returncode == DONE else f"migrate of {path}: {run}"


def content(file, tables=(*FIRST_TABLES, *OTHERS)):
    """The rows of the tables, with no version."""
    found = {table: sorted(rows(file, f"SELECT * FROM {table}")) for table in tables}
    found["desk"] = [row[:1] + row[2:] for row in found["desk"]]
    return found


# What stands in the file once it is migrated; the rows of the first tables are read from it before.
WANTED = {table: [] for table in OTHERS}


def trips(program, file):
    return ran(program, "trips", file, ZONE, "radio", DAY)


def faults_of_migrated(program, file, label):
    """The file is of version 2, whole, and has all that it had."""
    yield from faults_of_database(file)
    yield from faults_of_indexes(file)
    yield difference(f"{label}: the version", [(2,)], rows(file, "SELECT version FROM desk"))
    yield difference(f"{label}: the rows", WANTED, content(file))
    yield ends(f"{label}: trips", trips(program, file), DONE, TRIPS)


# A migration.


def schema_of(file):
    return dict(rows(file, "SELECT name, sql FROM sqlite_master WHERE type = 'table'"))


def over_file(file):
    """The words of each command that opens a file."""
    return [
        ["serve", file, ZONE, free_port(), 1],
        ["travel", file, ZONE, "radio", 9, TODAY, __file__],
        ["manifest", file, ZONE, "radio", 1, DAY],
        ["trips", file, ZONE, "radio", DAY],
    ]


def faults_of_first(program, file):
    """Other commands refuse the file, and leave it as it is."""
    before = files_of(file)
    for words in over_file(file):
        yield ends(
            f"{words[0]} of a file of version 1", ran(program, *words), NO_STORE, fault=OTHER_TABLES
        )
        yield difference(f"the bytes after {words[0]}", "unchanged", kept_bytes(file, before))


def faults_of_tables(program, file):
    """The file as SQLite reads it, before and after."""
    schema = schema_of(file)
    yield difference("the tables before", {*FIRST_TABLES}, {*schema})
    yield difference("the version before", [(1,)], rows(file, "SELECT version FROM desk"))
    yield ends("migrate", ran(program, "migrate", file), DONE, b"done\n")
    yield difference("the tables", {**schema, **OTHERS}, schema_of(file))
    yield from faults_of_migrated(program, file, "migrated")


def faults_of_reads(program, file):
    """What the program of before told, to the byte."""
    with Desk(program, file) as desk:
        for read in READS:
            message = f"GET {read['path']} HTTP/1.1\r\nDesk-Key: {read['key']}\r\n\r\n".encode()
            yield difference(
                f"{read['path']} as {read['key']}", read["reply"].encode(), raw(desk, message)
            )
    for read in READS:
        _, kind, number, *more = read["path"].split("/")
        body = read["reply"].partition("\r\n\r\n")[2].encode()
        if kind == "vehicles":
            run = ran(program, "manifest", file, ZONE, read["key"], number, more[1])
            yield ends(f"manifest of {number} on {more[1]}", run, DONE, body)


def raw(desk, message):
    """The bytes of the reply to these."""
    with desk.connected() as connection:
        connection.sendall(message)
        return received_from(connection)


def faults_of_kept_write(program, file):
    """The last write comes again, before others and after; then the desk takes new ones, also of wheelchairs."""
    with open(f"{KEPT}/last-write.http", "rb") as asked, open(
        f"{KEPT}/last-write.out", "rb"
    ) as told:
        message, reply = asked.read(), told.read()
    before = content(file)
    with Desk(program, file) as desk:
        yield difference("the last write once more", reply, raw(desk, message))
    yield difference("the rows after it", before, content(file))
    with Desk(program, file) as desk:
        told = desk.sent(message.replace(b'"wish":1200', b'"wish":1201'))
        yield difference(
            "another write with its number", Reply(409, {"denied": "desk.number"}), told
        )
        told = desk.post(
            "/riders",
            "hello",
            50,
            {"id": 9, "kind": "visitor", "attendant": False, "wheelchair": True},
        )
        yield difference("a rider in a wheelchair", Reply(200, {"done": True}), told)
        yield difference("the last write after others", reply, raw(desk, message))
    yield difference("the row of that", [(9,)], rows(file, "SELECT * FROM rider_chairs"))
    yield difference("the trips after all", before["trips"], content(file)["trips"])


# What is refused.


def kept_bytes(file, before):
    """'unchanged' where the file has the bytes of before and its log nothing new, else what is another."""
    name, now = os.path.basename(file), files_of(file)
    log, log_before = now.pop(f"{name}-wal", b""), before.get(f"{name}-wal")
    is_same = now == {it: before[it] for it in before if it == name}
    is_same_log = log == log_before if log_before is not None else len(log) <= EMPTY_LOG
    return (
        "unchanged"
        if is_same and is_same_log
        else f"other bytes: file {'as before' if is_same else 'changed'}, log of {len(log)}"
    )


def faults_of_refused(program, file, label, status=NO_STORE, fault=OTHER_TABLES):
    before = files_of(file)
    for turn in "", ", again":
        yield ends(f"migrate of {label}{turn}", ran(program, "migrate", file), status, fault=fault)
        yield difference(f"the bytes of {label}{turn}", "unchanged", kept_bytes(file, before))


# What makes a file of version 1 none.
OTHER_FILES = {
    "a file of version 9": ["UPDATE desk SET version = 9"],
    "a file of version 2 with the tables of version 1": ["UPDATE desk SET version = 2"],
    "a file of version 0": ["UPDATE desk SET version = 0"],
    "a file with no row of the desk": ["DELETE FROM desk"],
    "a file with two rows of the desk": [
        "INSERT INTO desk SELECT 2, version, base, transfer, fare, service, extra_ride, min_missed, "
        "percent, span_days, last_trip FROM desk"
    ],
    "a file with a table more": ["CREATE TABLE more(id)"],
    "a file with a table less": ["DROP TABLE travel"],
    "a file with a column more": ["ALTER TABLE places ADD COLUMN more INTEGER"],
    "a file with a column less": ["ALTER TABLE places DROP COLUMN core"],
    "a file with an index more": ["CREATE INDEX more ON trips(rider)"],
    "a file with a view": ["CREATE VIEW more AS SELECT id FROM trips"],
    "a file with one of the new tables": [OTHERS["rider_chairs"]],
    "a file with one of the new indexes": [INDEXES["trips_day"]],
    "a file with the new indexes": list(INDEXES.values()),
    "a file of version 1 with the new tables": list(OTHERS.values()),
    "a file of version 1 with the tables and indexes of version 2": [
        *OTHERS.values(),
        *INDEXES.values(),
    ],
}


def faults_of_other_files(program, folder):
    for at, (label, statements) in enumerate(OTHER_FILES.items()):
        yield from faults_of_refused(
            program, changed(f"{folder}/other-{at}.db", *statements), label
        )
    new = f"{folder}/new.db"
    ran(program, "init", new, ADMINS_KEY)
    yield from faults_of_refused(program, new, "a new desk")
    twice = f"{folder}/twice.db"
    yield migrated(program, twice)
    yield from faults_of_refused(program, twice, "a file that was migrated")
    yield from faults_of_migrated(program, twice, "refused")
    text, empty, missing = (f"{folder}/{name}.db" for name in ("text", "empty", "missing"))
    put_files(folder, {"text.db": b"no database " * 1000, "empty.db": b""})
    yield from faults_of_refused(program, text, "a text", fault=STORE)
    # (of an empty file each command makes a database that has nothing, before it looks at the tables)
    yield ends(
        "migrate of an empty file", ran(program, "migrate", empty), NO_STORE, fault=OTHER_TABLES
    )
    yield difference("the tables of an empty file", {}, schema_of(empty))
    yield ends("migrate of no file", ran(program, "migrate", missing), OTHER, fault=UNREAD)
    yield difference("files after that", {}, files_of(missing))


def faults_of_locks(program, folder):
    """A file that another process has."""
    served, first = f"{folder}/served.db", copied(f"{folder}/locked.db")
    yield migrated(program, served)
    with Desk(program, served):
        yield from faults_of_refused(program, served, "a file that is served", fault=STORE)
    before = files_of(first)
    with contextlib.closing(sqlite3.connect(first)) as other:
        other.execute("BEGIN IMMEDIATE")
        yield ends(
            "migrate while another writes", ran(program, "migrate", first), NO_STORE, fault=STORE
        )
        other.rollback()
    yield difference(
        "the bytes after that",
        before[os.path.basename(first)],
        files_of(first)[os.path.basename(first)],
    )
    yield ends("migrate after that", ran(program, "migrate", first), DONE, b"done\n")
    yield from faults_of_migrated(program, first, "after a lock")


# A migration that does not come to its end.


def faults_of_left(program, file, label):
    """What a stop left is of version 1, and is then migrated, or of version 2; nothing is lost."""
    version = version_of(file)
    yield None if version in ([(1,)], [(2,)]) else f"{label}: the version is {version}"
    if version == [(1,)]:
        yield ends(
            f"{label}: trips of version 1", trips(program, file), NO_STORE, fault=OTHER_TABLES
        )
        yield ends(f"{label}: migrate", ran(program, "migrate", file), DONE, b"done\n")
    else:
        yield ends(f"{label}: trips of version 2", trips(program, file), DONE, TRIPS)
        yield ends(
            f"{label}: migrate of version 2",
            ran(program, "migrate", file),
            NO_STORE,
            fault=OTHER_TABLES,
        )
    yield from faults_of_migrated(program, file, label)


def version_of(file):
    """The version that SQLite reads, in a copy, so that the program finds what a stop left."""
    with tempfile.TemporaryDirectory() as folder:
        put_files(folder, files_of(file))
        return rows(f"{folder}/{os.path.basename(file)}", "SELECT version FROM desk")


def faults_of_kills(program, folder):
    begun = time.monotonic()
    yield migrated(program, f"{folder}/timed.db")
    seconds, chance, versions = time.monotonic() - begun, random.Random(SEED), []
    for at in range(KILLS):
        file = copied(f"{folder}/killed-{at}.db")
        run = subprocess.Popen(
            [program, "migrate", file], stdout=subprocess.DEVNULL, stderr=subprocess.DEVNULL
        )
        time.sleep(chance.uniform(0, 1.2 * seconds))
        run.kill()
        run.wait()
        versions += version_of(file)
        yield from faults_of_left(program, file, f"kill {at}")
    print(
        f"tests/migrate: {KILLS} migrations were killed: {versions.count((1,))} left version 1, {versions.count((2,))} version 2"
    )


def sets_of(sectors):
    """The first sectors, so many and then one more, to all of them; and sets that chance chooses."""
    yield from (sectors[:count] for count in range(len(sectors) + 1))
    chance = random.Random(SEED)
    yield from ([it for it in sectors if chance.random() < 0.9] for _ in range(SETS))


def faults_of_cuts(program, folder):
    """What is left of a migration of whose sectors only some were written."""
    file = copied(f"{folder}/torn.db")
    before = files_of(file)
    yield ends("migrate that is torn", ran(program, "migrate", file), DONE, b"done\n")
    after, versions = files_of(file), []
    # (the log is made longer than it has to be: of what is zero at its end the first sector stands for all)
    written = {name: len(content.rstrip(b"\0")) for name, content in after.items()}
    sectors = [(name, at) for name, at in sectors_of(before, after) if at <= written[name]]
    yield None if len(sectors) > 10 else f"a migration writes {sectors}"
    for at, some in enumerate(sets_of(sectors)):
        os.mkdir(f"{folder}/torn-{at}")
        put_files(f"{folder}/torn-{at}", torn(before, after, some))
        versions += version_of(f"{folder}/torn-{at}/torn.db")
        yield from faults_of_left(
            program, f"{folder}/torn-{at}/torn.db", f"cut {at} of {len(sectors)}"
        )
        shutil.rmtree(f"{folder}/torn-{at}")
    yield difference("versions after a cut", {(1,), (2,)}, {*versions})


def faults_of_no_room(program, folder):
    """A migration that finds no room is refused, and the file stays of version 1 until there is room."""
    file = copied(f"{folder}/room.db")
    before = files_of(file)["room.db"]
    limit = lambda: resource.setrlimit(resource.RLIMIT_FSIZE, (8192, 8192))
    run = ran(program, "migrate", file, preexec_fn=limit, restore_signals=False)
    yield ends("migrate with no room", run, NO_STORE, fault=STORE)
    yield difference("the file after that", before, files_of(file)["room.db"])
    yield from faults_of_left(program, file, "no room")


def faults_of_log(program, folder):
    """A file whose last writes stand in its log alone."""
    file = copied(f"{folder}/before-log.db")
    with contextlib.closing(sqlite3.connect(file)) as writer:
        writer.execute("UPDATE desk SET percent = 11")
        writer.commit()
        files = files_of(file)
    put_files(folder, {name.replace("before-log", "log"): bytes_ for name, bytes_ in files.items()})
    is_log = len(files.get("before-log.db-wal", b"")) > EMPTY_LOG
    yield None if is_log else "no log beside the file"
    yield ends(
        "migrate of a file with a log", ran(program, "migrate", f"{folder}/log.db"), DONE, b"done\n"
    )
    yield difference(
        "what stood in the log",
        [(2, 11)],
        rows(f"{folder}/log.db", "SELECT version, percent FROM desk"),
    )


def all_faults(program):
    with tempfile.TemporaryDirectory() as folder:
        try:
            # (SQLite writes beside a file that it reads)
            WANTED.update(content(copied(f"{folder}/read.db"), FIRST_TABLES))
            file = copied(f"{folder}/desk.db")
            yield from faults_of_first(program, file)
            yield from faults_of_tables(program, file)
            yield from faults_of_reads(program, file)
            yield from faults_of_kept_write(program, file)
            yield from faults_of_other_files(program, folder)
            yield from faults_of_locks(program, folder)
            yield from faults_of_log(program, folder)
            yield from faults_of_no_room(program, folder)
            yield from faults_of_kills(program, folder)
            yield from faults_of_cuts(program, folder)
        except (OSError, sqlite3.Error, subprocess.TimeoutExpired) as error:
            yield f"{type(error).__name__}: {error}"


def main(words):
    given = os.environ.get("DESK")
    program, more = told_program(words or ([given] if given else []), __doc__)
    if more:
        sys.exit(__doc__)
    return tally("tests/migrate", all_faults(program))


if __name__ == "__main__":
    sys.exit(main(sys.argv[1:]))
