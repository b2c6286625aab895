"""Asks for the longest answers and gives the greatest values that the desk takes: `full_size PROGRAM`.

A body that answers "out of memory" to a long list, or that cuts it, would meet every contract. So a rider with 300 trips, a
day of 1,500 trips, the longest letter, an opening of 50,000 trips and the log of twelve full vans are read whole here; keys,
ports and counts are tried at both ends of their ranges, and one desk answers more connections than 16 bits can count. The last
line is 'N passed, M failed', and the exit status 1 where something failed.
"""
import collections
import contextlib
import csv
import io
import socket
import subprocess
import sys
import tempfile

import many_rows
from many_rows import CLERK, DISPATCHER, FullRoutes, OnePlace, day_of, digest_of, number_of
from serving import ADMINS_KEY, TOMORROW, ZONE, Desk, difference, ran, tally, told_program

A_DAY, FIRST_DATE = OnePlace.A_DAY, day_of(OnePlace.FIRST_DAY)
RIDERS_TRIPS, MANY_TRIPS = 300, 50_000
REASONS = "x" * 500
REFUSE = 2
# A head has at most 8,192 bytes; this key leaves room for its other lines.
LONGEST_KEY = "k" * 8_000
MOST_CONNECTIONS = 1_000_000
WRONG_WORDS = 2
# Each of 5,151 places of a full van takes two lines of a log.
FULL_VANS, LONG_LOG = 12, 50_000
# More than 16 bits count. A source address has some 28,000 ports.
CONNECTIONS, OF_ONE_ADDRESS = 70_000, 20_000


def fill(file, count):
    """Writes an agency with so many trips into a new desk's tables. The first 300 are rider 1's."""
    many_rows.fill(
        file,
        [
            (
                "callers",
                [(2, DISPATCHER, 0, digest_of("radio")), (3, CLERK, 0, digest_of("hello"))],
            ),
            ("places", [(1, 0, 0, 0)]),
            ("vehicles", OnePlace.vehicles()),
            ("riders", [(1, 0, 0), (2, 0, 0)]),
            ("entries", [(1, 0, REFUSE, OnePlace.FIRST_DAY, 1, -1, -1, "", REASONS)]),
            ("trips", OnePlace.trips(count, lambda at: 1 if at < RIDERS_TRIPS else 2)),
            ("stops", OnePlace.stops(count)),
        ],
        last_trip=count,
    )


def made(program, folder, name, key=ADMINS_KEY):
    file = f"{folder}/{name}.db"
    told = ran(program, "init", file, key)
    return file, difference(
        f"init with a key of {len(key)} characters", (0, b""), (told.returncode, told.stderr)
    )


def faults_of_long_answers(program, file):
    """Each long list comes whole."""
    with Desk(program, file) as desk:
        own = desk.get("/riders/1/trips", "hello")
        listed = [trip["trip"] for trip in own.body["trips"]] if own.status == 200 else own
        yield difference(
            "the trips of a rider with 300", list(range(1, RIDERS_TRIPS + 1)), sorted(listed)
        )
        export = desk.get(f"/days/{FIRST_DATE}/trips.csv", "radio")
        exported = (
            [int(row["trip"]) for row in csv.DictReader(io.StringIO(export.body))]
            if export.status == 200
            else export
        )
        yield difference(
            "the export of a day with 1,500 trips", list(range(1, A_DAY + 1)), exported
        )
        sheet = desk.get(f"/days/{FIRST_DATE}/sheet", "radio")
        lines = sheet.body.rstrip("\n").split("\n") if sheet.status == 200 else [sheet]
        yield difference("the last line of that day's sheet", f"TRIPS {A_DAY}", lines[-1])
        yield difference(
            "pickups on that day's sheet", A_DAY, sum(" PICK " in line for line in lines)
        )
        yield difference(
            "drops on that day's sheet", A_DAY, sum(" DROP " in line for line in lines)
        )
        letter = desk.get("/riders/1/letters/0", "hello")
        yield difference(
            "the longest reasons stand in the letter",
            1,
            letter.body.count(REASONS) if letter.status == 200 else letter,
        )


def faults_of_keys(program, folder):
    """The shortest and the longest key of an admin are keys: the admin may not read a standing, and is not unknown."""
    for name, key in ("empty", ""), ("longest", LONGEST_KEY):
        file, fault = made(program, folder, name, key)
        yield fault
        with Desk(program, file) as desk:
            for held, status in (key, 403), (f"{key}x" if name == "empty" else key[:-1], 401):
                got = desk.get(f"/riders/1/standing/{FIRST_DATE}", held)
                yield difference(
                    f"a key of {len(held)} where the admin's has {len(key)}",
                    status,
                    got and got.status,
                )


def says_listening(program, file, port):
    """Whether a desk serves on this port, as one client sees it."""
    process = subprocess.Popen(
        [program, "serve", file, ZONE, str(port), "1"],
        stdin=subprocess.DEVNULL,
        stderr=subprocess.PIPE,
    )
    try:
        said = process.stderr.readline().decode()
        if not said.startswith("listening"):
            return f"{said!r}, status {process.wait()}"
        with socket.create_connection(("127.0.0.1", port), 30) as connection:
            connection.sendall(b"GET /riders/1/trips HTTP/1.1\r\n\r\n")
            received = connection.recv(65_536)
        return (str(port) in said, received[:12], process.wait(60))
    finally:
        process.kill()
        process.wait()
        process.stderr.close()


def free_port_in(least, most):
    """A port in this range that nobody listens on; none where this user may not take one."""
    for port in range(least, most + 1):
        with socket.socket() as tried, contextlib.suppress(OSError):
            tried.bind(("127.0.0.1", port))
            return port
    return None


def faults_of_ports(program, file):
    """A port is served as it is given, below 1,024 and above 60,000; COUNT 1 ends after one connection, with status 0."""
    for least, most in (600, 1_023), (60_001, 65_535):
        port = free_port_in(least, most)
        if port is None:
            print(f"tests/full_size: ports {least} to {most} are not this user's to take: left out")
            continue
        yield difference(
            f"port {port}", (True, b"HTTP/1.1 401", 0), says_listening(program, file, port)
        )


def faults_of_counts(program, file):
    """COUNT goes from 1 to a million."""
    for count in 0, MOST_CONNECTIONS + 1:
        told = ran(program, "serve", file, ZONE, free_port_in(20_000, 30_000), count)
        yield difference(f"COUNT {count}", WRONG_WORDS, told.returncode)
    with Desk(program, file, MOST_CONNECTIONS) as desk:
        got = desk.get(f"/riders/1/standing/{FIRST_DATE}", "hello")
        yield difference("a desk with the greatest COUNT answers", 200, got and got.status)


def faults_of_opening(program, folder):
    """A file of 50,000 trips is opened, and its last trip is read."""
    file, fault = made(program, folder, "many")
    yield fault
    fill(file, MANY_TRIPS)
    days = MANY_TRIPS // A_DAY
    last = day_of(OnePlace.FIRST_DAY + days)
    told = subprocess.run(
        [program, "trips", file, ZONE, "radio", str(last)], capture_output=True, timeout=600
    )
    lines = told.stdout.decode().rstrip("\n").split("\n")
    yield difference(
        f"the trips of the last day of {MANY_TRIPS}",
        (0, MANY_TRIPS - days * A_DAY),
        (told.returncode, len(lines) - 1),
    )
    yield difference("the last trip", str(MANY_TRIPS), lines[-1].split(",")[0])


def faults_of_a_long_log(program, folder):
    """The log of a day of full vans is written and accepted, and it is refused once one of its last cases is gone."""
    file, fault = made(program, folder, "full")
    yield fault
    day = FullRoutes("full", 50, 4, 0)
    day.fill(file, number_of(TOMORROW), FULL_VANS)
    asked = [file, ZONE, *day.question(FULL_VANS, TOMORROW)]
    told = ran(program, "explain", *asked)
    lines = told.stdout.splitlines(keepends=True)
    yield difference(
        f"the log of {FULL_VANS} full vans", (0, True), (told.returncode, len(lines) > LONG_LOG)
    )
    for name, kept, answer in ("whole", lines, b"yes"), (
        "without its last case",
        lines[:-3] + lines[-1:],
        b"no",
    ):
        log = f"{folder}/log"
        with open(log, "wb") as written:
            written.writelines(kept)
        audit = ran(program, "audit", log, *asked)
        yield difference(
            f"an audit of {len(kept)} lines, {name}",
            answer,
            audit.stdout.strip() or (audit.returncode, audit.stderr),
        )


def faults_of_many_connections(program, file):
    """One desk answers more connections than 16 bits count, the last as the first."""
    with Desk(program, file, CONNECTIONS) as desk:
        request, heads = b"GET /riders/1/trips HTTP/1.1\r\n\r\n", collections.Counter()
        for turn in range(CONNECTIONS):
            source = (f"127.0.0.{1 + turn // OF_ONE_ADDRESS}", 0)
            with socket.create_connection(("127.0.0.1", desk.port), 30, source) as connection:
                connection.sendall(request)
                heads[connection.recv(65_536)[:12]] += 1
        yield difference(
            f"the replies to {CONNECTIONS} connections", {b"HTTP/1.1 401": CONNECTIONS}, dict(heads)
        )
        yield difference("the end after the last of them", 0, desk.process.wait(60))


def faults(program, folder):
    file, fault = made(program, folder, "day")
    yield fault
    fill(file, A_DAY)
    yield from faults_of_long_answers(program, file)
    yield from faults_of_keys(program, folder)
    yield from faults_of_ports(program, file)
    yield from faults_of_counts(program, file)
    yield from faults_of_opening(program, folder)
    yield from faults_of_a_long_log(program, folder)
    yield from faults_of_many_connections(program, file)


def main():
    program, _ = told_program(sys.argv[1:], __doc__)
    with tempfile.TemporaryDirectory(prefix="full-size-") as folder:
        return tally("full_size", faults(program, folder))


if __name__ == "__main__":
    sys.exit(main())
