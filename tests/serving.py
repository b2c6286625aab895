"""A desk that serves on a free port, a day of a small agency, and rows of its database: for tests/ and bench/."""
import collections
import contextlib
import datetime
import hashlib
import json
import os
import random
import resource
import shutil
import socket
import sqlite3
import subprocess
import sys
import tempfile
import time
from collections.abc import Callable, Iterable, Iterator
from pathlib import Path
from typing import Any

ADMINS_KEY = "abc"
SECONDS = 60
HIGHEST_PORT = 32_767
# One zone for all, whose clocks show midday when the program starts: so no midnight comes between two requests.
HOURS_EAST = 12 - time.gmtime().tm_hour
ZONE = f"<MID>{-HOURS_EAST:+d}"
TODAY = (datetime.datetime.now(datetime.timezone.utc) + datetime.timedelta(hours=HOURS_EAST)).date()
TOMORROW = TODAY + datetime.timedelta(days=1)
LAST_DAY = TODAY + datetime.timedelta(days=365)
TIMES = "from,to,minutes\n1,2,18\n2,1,18\n1,3,11\n3,1,11\n2,3,9\n3,2,9\n"

Reply = collections.namedtuple("Reply", "status body")


@contextlib.contextmanager
def variables(**given: str) -> Iterator[None]:
    """The environment of what is started meanwhile."""
    before = dict(os.environ)
    os.environ.update(given)
    try:
        yield
    finally:
        os.environ.clear()
        os.environ.update(before)


def ran(
    program: str, *words: str | int | datetime.date | None, **named: Any
) -> subprocess.CompletedProcess[Any]:
    """How the program ends with these words."""
    return subprocess.run(
        [program, *map(str, words)], capture_output=True, timeout=SECONDS, **named
    )


def head_of(
    method: str, path: str, key: str, number: int | str | None = None, length: int | None = None
) -> bytes:
    lines = [f"{method} {path} HTTP/1.1", f"Desk-Key: {key}"]
    lines += [f"Desk-Number: {number}"] if number is not None else []
    lines += [f"Content-Length: {length}"] if length is not None else []
    return "\r\n".join([*lines, "", ""]).encode()


def message_of(
    method: str,
    path: str,
    key: str,
    number: int | str | None = None,
    body: dict[Any, Any] | None = None,
) -> bytes:
    """The bytes of a request; a body's "key" stands for the digest of it."""
    if body is None:
        return head_of(method, path, key, number)
    fields = dict(body)
    if "key" in fields:
        fields["digest"] = hashlib.sha256(fields.pop("key").encode()).hexdigest()
    content = json.dumps(fields, separators=(",", ":"), default=str).encode()
    return head_of(method, path, key, number, len(content)) + content


def reply_in(received: bytes) -> Reply | None:
    """The reply whose bytes these are, or None where they are not one that is whole."""
    head, gap, body = received.partition(b"\r\n\r\n")
    lengths = [
        int(it[15:]) for it in head.split(b"\r\n") if it.lower().startswith(b"content-length:")
    ]
    if not gap or lengths != [len(body)]:
        return None
    text = body.decode()
    return Reply(int(head.split()[1]), json.loads(text) if b"application/json" in head else text)


def received_from(connection: socket.socket) -> bytes:
    pieces = []
    while piece := connection.recv(65_536):
        pieces.append(piece)
    return b"".join(pieces)


# The numbers that this process was given last. Each is a socket of Linux's abstract names, gone when the process ends.
PORTS_GIVEN: collections.deque[socket.socket] = collections.deque(maxlen=64)


def free_port() -> int:
    """A port that nobody listens on, below those that connections are given. No other test takes it meanwhile."""
    while True:
        number, given = random.randint(10_000, HIGHEST_PORT), socket.socket(socket.AF_UNIX)
        with contextlib.suppress(OSError), socket.socket() as tried:
            given.bind(f"\0desk-test-port-{number}")
            tried.bind(("127.0.0.1", number))
            PORTS_GIVEN.append(given)
            return number
        given.close()


def forget_clock(number: int) -> None:
    """Removes what libfaketime leaves in shared memory of a killed process. A later process of the same number would have
    the machine's own clock."""
    for name in f"faketime_shm_{number}", f"sem.faketime_sem_{number}":
        with contextlib.suppress(OSError):
            os.unlink(f"/dev/shm/{name}")


class Desk:
    """A desk that serves a file. It is killed, as by a fall of the power, when it is left."""

    def __init__(
        self, program: str, file: str, count: int = 1_000_000, longest: int | None = None
    ) -> None:
        self.port = free_port()
        words = [program, "serve", file, ZONE, str(self.port), str(count)]
        # (a write beyond that length is to fail; the signal that it would be else is one that Python ignores)
        limited: dict[str, Any] = {
            "preexec_fn": lambda: resource.setrlimit(
                resource.RLIMIT_FSIZE, (longest or 0, longest or 0)
            ),
            "restore_signals": False,
        }
        self.process = subprocess.Popen(
            words, stdin=subprocess.DEVNULL, stderr=subprocess.PIPE, **(limited if longest else {})
        )
        assert self.process.stderr
        self.said = self.process.stderr.readline().decode()
        if not self.said.startswith("listening"):
            self.kill()
            raise OSError(f"{' '.join(words)} says {self.said!r}")

    def __enter__(self) -> "Desk":
        return self

    def __exit__(self, *_: object) -> None:
        self.kill()

    def kill(self) -> None:
        self.process.kill()
        self.process.wait()
        if self.process.stderr:
            self.process.stderr.close()
        forget_clock(self.process.pid)

    def connected(self) -> socket.socket:
        return socket.create_connection(("127.0.0.1", self.port), SECONDS)

    def sent(self, message: Any) -> Reply | None:
        """The reply to these bytes, or None where the line broke before it was whole."""
        try:
            with self.connected() as connection:
                connection.sendall(message)
                return reply_in(received_from(connection))
        except OSError:
            return None

    def sent_and_ended(self, message: Any) -> Reply | None:
        """The reply to these bytes and no more."""
        with self.connected() as connection:
            connection.sendall(message)
            connection.shutdown(socket.SHUT_WR)
            return reply_in(received_from(connection))

    def ask(
        self, method: str, path: str, key: str, number: int | None = None, body: Any = None
    ) -> Any:
        return self.sent(message_of(method, path, key, number, body))

    def get(self, path: str, key: str) -> Any:
        return self.ask("GET", path, key)

    def post(self, path: str, key: str, number: int, body: Any) -> Any:
        return self.ask("POST", path, key, number, body)


# A small agency: three places on one bus line, one van, one visitor and one resident, and each role.

EACH_DAY = [1, 2, 3, 4, 5, 6, 7]
POLICY: dict[str, Any] = {
    "base": 175,
    "transfer": 50,
    "fare": 400,
    "service": 2,
    "extra_ride": 20,
    "min_missed": 3,
    "percent": 10,
    "span_days": 30,
}
LINE: dict[str, Any] = {
    "id": 1,
    "width": 3960,
    "points": [[0, 0], [20000, 0]],
    "accessible": True,
    "days": EACH_DAY,
    "first": 0,
    "last": 1439,
}
VAN: dict[str, Any] = {
    "id": 1,
    "from_day": TODAY,
    "days": EACH_DAY,
    "depot": 1,
    "capacity": 4,
    "opens": 300,
    "closes": 1380,
    "duration": 1080,
}
TRIP: dict[str, Any] = {
    "day": TOMORROW,
    "wish": 600,
    "from": 1,
    "to": 2,
    "attendant": False,
    "companions": 0,
}

AGENCY = [
    ("/callers", ADMINS_KEY, 1, {"id": 2, "role": "clerk", "subject": 0, "key": "hello"}),
    ("/callers", ADMINS_KEY, 2, {"id": 3, "role": "dispatcher", "subject": 0, "key": "radio"}),
    ("/callers", ADMINS_KEY, 3, {"id": 4, "role": "examiner", "subject": 0, "key": "panel"}),
    ("/callers", ADMINS_KEY, 4, {"id": 5, "role": "officer", "subject": 0, "key": "bench"}),
    ("/policy", ADMINS_KEY, 5, POLICY),
    ("/places", ADMINS_KEY, 6, {"id": 1, "x": 0, "y": 0, "core": False}),
    ("/places", ADMINS_KEY, 7, {"id": 2, "x": 15000, "y": 3000, "core": False}),
    ("/places", ADMINS_KEY, 8, {"id": 3, "x": 9000, "y": 1000, "core": True}),
    ("/routes", ADMINS_KEY, 9, LINE),
    ("/vehicles", "radio", 1, VAN),
    ("/callers", ADMINS_KEY, 10, {"id": 6, "role": "driver", "subject": 1, "key": "wheel"}),
    ("/riders", "hello", 1, {"id": 7, "kind": "resident", "attendant": True}),
    ("/riders", "hello", 2, {"id": 9, "kind": "visitor", "attendant": False}),
    ("/callers", ADMINS_KEY, 11, {"id": 7, "role": "rider", "subject": 7, "key": "mine"}),
]
# With the travel table, which the dispatcher gives as number 2:
TRIPS = [
    ("/riders/7/entries", "hello", 3, {"entry": "complete"}),
    (
        "/riders/7/entries",
        "panel",
        1,
        {"entry": "grant", "until": LAST_DAY, "conditions": ["months:1,2,12", "always"]},
    ),
    ("/trips", "mine", 1, {"rider": 7, **TRIP, "by": 720}),
    ("/trips", "hello", 4, {"rider": 9, **TRIP, "wish": 660, "to": 3}),
    ("/trips", "hello", 5, {"rider": 9, **TRIP, "wish": 900, "from": 2, "to": 1}),
    ("/trips/3/cancel", "hello", 6, {}),
]


class Refused(Exception):
    """A request that makes the agency was not taken."""


def asked_in_turn(desk: Desk, requests: Iterable[Any]) -> None:
    for path, key, number, body in requests:
        reply = desk.post(path, key, number, body)
        if reply is None or reply.status != 200:
            raise Refused(f"POST {path} {json.dumps(body, default=str)} as {key} {number}: {reply}")


def make_agency(program: str, folder: str) -> str:
    """A database with the agency, its driving times and its trips, by every command."""
    file, times = f"{folder}/agency.db", f"{folder}/times.csv"
    Path(times).write_text(TIMES, "utf-8")
    made = ran(program, "init", file, ADMINS_KEY)
    if made.returncode:
        raise Refused(f"init: {made}")
    with Desk(program, file) as desk:
        asked_in_turn(desk, AGENCY)
    given = ran(program, "travel", file, ZONE, "radio", 2, TODAY, times)
    if given.stdout != b"done\n":
        raise Refused(f"travel: {given}")
    with Desk(program, file) as desk:
        asked_in_turn(desk, TRIPS)
    return file


# Its database, by the SQLite of Python.


def with_database(file: str, task: Callable[..., Any]) -> Any:
    with contextlib.closing(sqlite3.connect(file)) as database:
        told = task(database)
        database.commit()
        return told


def copy_database(file: str, path: str) -> None:
    """A copy of the file, with what stands in its log."""
    with_database(file, lambda it: with_database(path, it.backup))


def rows(file: str, query: str, *values: int) -> Any:
    return with_database(file, lambda database: database.execute(query, values).fetchall())


def content_of(file: str) -> dict[Any, Any]:
    """The rows of each table."""
    tables = [name for name, in rows(file, "SELECT name FROM sqlite_master WHERE type = 'table'")]
    return {table: sorted(rows(file, f"SELECT * FROM {table}")) for table in tables}


def content_of_copy(file: str) -> dict[Any, Any]:
    """The content of a copy that nothing else has open: SQLite may write beside what it opens."""
    with tempfile.TemporaryDirectory() as folder:
        shutil.copyfile(file, f"{folder}/copy.db")
        return content_of(f"{folder}/copy.db")


def faults_of_database(file: str) -> Iterator[str | None]:
    """For the file as a whole and for what its rows refer to: None, or what SQLite finds wrong."""
    whole = rows(file, "PRAGMA integrity_check")
    yield None if whole == [("ok",)] else f"integrity_check of {file} finds {whole}"
    lost = rows(file, "PRAGMA foreign_key_check")
    yield f"foreign_key_check of {file} finds {lost}" if lost else None


# The indexes beside the keys, with how SQLite lists them.
INDEXES = {
    "trips_rider": "CREATE INDEX trips_rider ON trips (rider)",
    "trips_day": "CREATE INDEX trips_day ON trips (day)",
}


def put_back(database: Any) -> None:
    """Makes the tables those of version 1."""
    for table in ("trip_chairs", "vehicle_chairs", "rider_chairs"):
        database.execute(f"DROP TABLE {table}")
    for index in INDEXES:
        database.execute(f"DROP INDEX {index}")
    database.execute("UPDATE desk SET version = 1")


def faults_of_indexes(file: str) -> Iterator[str | None]:
    """SQLite lists the indexes, and finds the trips of a rider and of a day by them."""
    listed = dict(
        rows(file, "SELECT name, sql FROM sqlite_master WHERE type = 'index' AND sql IS NOT NULL")
    )
    yield difference(f"the indexes of {file}", INDEXES, listed)
    for column in "rider", "day":
        plan = rows(file, f"EXPLAIN QUERY PLAN SELECT * FROM trips WHERE {column} = ?", 1)
        is_used = len(plan) == 1 and f" USING INDEX trips_{column} ({column}=?)" in plan[0][3]
        yield None if is_used else f"the trips of a {column} in {file} are found by {plan}"


def write(path: str, text: str, mode: int | None = None) -> str:
    """Gives a file this text, and these permissions where they are named. The path."""
    Path(path).write_text(text, "utf-8")
    if mode is not None:
        os.chmod(path, mode)
    return path


def difference(label: str, wanted: Any, got: Any) -> str | None:
    """None where both are the same, else what is told of them."""
    return None if wanted == got else f"{label}: wanted {wanted!r}, got {got!r}"


# What a script says at its end.


def told_program(words: list[str], usage: str) -> Any:
    """The program that the words name, and the words before it."""
    if not words or not os.path.isfile(words[-1]):
        print(usage, end="", file=sys.stderr)
        sys.exit(2)
    return os.path.abspath(words[-1]), words[:-1]


def tally(name: str, faults: Any) -> int:
    """Prints each fault as it comes, and the tally; the exit status."""
    passed = failed = 0
    for fault in faults:
        passed, failed = passed + (fault is None), failed + (fault is not None)
        if fault is not None:
            print(f"{name}: FAILED: {fault}", flush=True)
    print(f"{passed} passed, {failed} failed")
    return 1 if failed else 0
