"""What the record costs the site: `bench/record PROGRAM [ROUNDS] [REQUESTS]`.

Two nginx over one desk, one with the record and one without, take turns within each round (11), each with so many requests (1,500) by
TLS on four connections that stay. The desk is that of an agency of 50 vans and 1,000 trips a day. There are three kinds of request:

- a read of a rider's trips (`h2load --h1` of Debian's nghttp2-client);
- a booking and its cancellation, each with a number of its own, so that the desk does each (a client in this file);
- a booking sent again with its number, which costs the desk least (h2load).

Each line has a request's microseconds of processor (user and system) of nginx, and of nginx and the desk. If the processors are the limit,
requests a second are as many as that time allows. A third line has them by the clock. Each figure is the median of
the rounds with its lowest and highest, and the difference is the median of the rounds' own. It does so with one worker, and as deployed,
with one for each processor. The last line of each kind says whether the record costs at most 5 percent of the requests a second as deployed.
The processor's time says more on a machine that others work on.

Then the lines of a day are told: as bytes, and packed as the nightly unit packs them; and what it takes the unit to chain a line.
"""
import contextlib
import datetime
import gzip
import http.client
import itertools
import json
import os
import re
import shutil
import socket
import ssl
import statistics
import subprocess
import sys
import tempfile
import threading
import time

from desk_tools.tree import TOP
from desk_tools.commands import site as site_maker
from desk_tools.journal import chain
from many_rows import CLERK, Years, digest_of
from measuring import machine, processor_of
from serving import ADMINS_KEY, TODAY, TOMORROW, Desk, free_port

CONNECTIONS, SECONDS = 4, 60
# The agency: trips of two weeks ahead, and no past.
RIDERS, DAYS_AHEAD = 2_000, 14
RIDER, WISH = 40, {"day": TOMORROW, "wish": 700, "from": 12, "to": 57, "attendant": False, "companions": 0}
ROUNDS, REQUESTS = 11, 1_500
# How many come first, so that each worker's Lua is compiled, as it is after the first minutes of a day.
WARM, WARM_WRITES = 2_000, 400
# What the record may cost of the requests a second, in percent.
MOST_COST = 5
WITH, WITHOUT = "with", "without"
# A day of 1,000 trips: what is asked for each trip, and what 50 drivers' pages ask in ten hours.
TRIPS, DRIVERS, HOURS = 1_000, 50, 10


class Site:
    """nginx over a desk, in a folder of its own."""

    def __init__(self, folder, desk, kind, workers):
        self.desk = desk.process.pid
        self.folder, self.port, self.count = f"{folder}/{kind}-{workers}", free_port(), workers
        os.makedirs(f"{self.folder}/site", exist_ok=True)
        for name in "key.pem", "certificate.pem":
            shutil.copy(f"{folder}/{name}", f"{self.folder}/{name}")
        words = [f"{TOP}/deploy/site", "--trial", self.folder, "--desk", desk.port, "--tls", self.port, "--plain", free_port()]
        settings = subprocess.run([*map(str, words)], check=True, capture_output=True, text=True).stdout
        settings = re.sub(r"rate=\d+r/s", "rate=100000r/s", settings)
        if kind == WITHOUT:
            settings = site_maker.without_record(settings)
        # (each has a door for programs of its own)
        settings = settings.replace(f"127.0.0.2:{desk.port}", f"127.0.0.2:{free_port()}")
        settings = settings.replace("worker_processes 1;", f"worker_processes {workers};")
        with open(f"{self.folder}/nginx.conf", "w", encoding="utf-8") as file:
            file.write(settings)
        self.process = subprocess.Popen(["nginx", "-g", "daemon off;", "-e", f"{self.folder}/nginx.log", "-c", file.name])
        self.workers = []

    def __enter__(self):
        for _ in range(200):
            # (nginx's master writes its number when its workers are there)
            told = subprocess.run(["ps", "-o", "pid=,args=", "--ppid", str(self.process.pid)], capture_output=True, text=True).stdout
            # (what loads the cache ends after a minute)
            self.workers = [int(it.split()[0]) for it in told.splitlines() if "worker process" in it]
            with contextlib.suppress(OSError), socket.create_connection(("127.0.0.1", self.port), SECONDS):
                if len(self.workers) == self.count:
                    return self
            time.sleep(0.05)
        self.__exit__()
        raise TimeoutError("nginx does not answer")

    def __exit__(self, *_):
        self.process.terminate()
        self.process.wait()

    def processor(self):
        """Seconds in which a processor worked for nginx."""
        return sum(processor_of(it) for it in self.workers)


class Office(Years):
    """The agency of `Years`, with a clerk for each connection."""

    def callers(self):
        yield from super().callers()
        for at in range(CONNECTIONS):
            yield 100 + at, CLERK, 0, digest_of(f"clerk-{at}")


# The numbers of writes. They rise from run to run, so that no number comes twice.
NUMBERS = itertools.count(1_000)


def book_and_cancel(site, clerk, count, kept):
    """So many bookings, each with its cancellation, by one clerk over one connection."""
    trusting = ssl.create_default_context()
    trusting.check_hostname, trusting.verify_mode = False, ssl.CERT_NONE
    line = http.client.HTTPSConnection("127.0.0.1", site.port, timeout=SECONDS, context=trusting)

    def post(path, body):
        head = {"Desk-Key": f"clerk-{clerk}", "Desk-Number": str(next(NUMBERS)), "Content-Type": "application/json"}
        line.request("POST", path, json.dumps(body, default=str), head)
        reply = line.getresponse()
        content = reply.read()
        if reply.status != 200:
            raise OSError(f"{path} was answered {reply.status} {content!r}")
        return json.loads(content)

    try:
        for at in range(count):
            told = post("/trips", {"rider": RIDER + clerk, **WISH, "wish": WISH["wish"] + at % 60})
            post(f"/trips/{told['trip']}/cancel", {})
    except (OSError, http.client.HTTPException, KeyError) as fault:
        kept.append(fault)
    finally:
        line.close()


def load_writes(site, count):
    """Writes a second: bookings and their cancellations."""
    kept = []
    clerks = [threading.Thread(target=book_and_cancel, args=(site, it, count // CONNECTIONS // 2, kept)) for it in range(CONNECTIONS)]
    began = time.monotonic()
    for it in clerks:
        it.start()
    for it in clerks:
        it.join()
    if kept:
        sys.exit(f"not all bookings were answered: {kept[0]}")
    return count / (time.monotonic() - began)


def load(site, count, path=None, number=None, body=None):
    """Requests a second; without a path, of bookings and cancellations."""
    if path is None:
        return load_writes(site, count)
    words = ["h2load", "--h1", "-n", count, "-c", min(CONNECTIONS, count), "-H", "Desk-Key: hello", f"https://127.0.0.1:{site.port}{path}"]
    with tempfile.NamedTemporaryFile("w", encoding="ascii") as file:
        if body is not None:
            file.write(json.dumps(body, default=str))
            file.flush()
            words += ["-d", file.name, "-H", f"Desk-Number: {number}", "-H", "Content-Type: application/json"]
        told = subprocess.run([*map(str, words)], capture_output=True, text=True, timeout=SECONDS * 10).stdout
    done = re.search(r"(\d+) succeeded, 0 failed", told)
    rate = re.search(r"finished in [^,]+, ([0-9.]+) req/s", told)
    good = re.search(r"status codes: (\d+) 2xx", told)
    if not (done and rate and good) or int(good[1]) != count:
        sys.exit(f"not all of {path} were answered: {told}")
    return float(rate[1])


def round_of(sites, count, *asked):
    """For each site microseconds of nginx's processor and of all, and requests a second."""
    found = {}
    for kind, site in sites:
        before, others = site.processor(), processor_of(site.desk)
        rate = load(site, count, *asked)
        nginx = site.processor() - before
        whole = nginx + processor_of(site.desk) - others
        found[kind] = nginx / count * 1_000_000, whole / count * 1_000_000, rate
    return found


def told(name, rounds, at, unit):
    """A line of the median and the spread of each, and of the difference."""
    parts = []
    for kind in WITHOUT, WITH:
        values = [it[kind][at] for it in rounds]
        parts.append(f"{kind} {statistics.median(values):,.0f} ({min(values):,.0f} to {max(values):,.0f})")
    change = [it[WITH][at] / it[WITHOUT][at] * 100 - 100 for it in rounds]
    print(f"{name}, {unit}: {'; '.join(parts)}; change {statistics.median(change):+.1f} % ({min(change):+.0f} to {max(change):+.0f})", flush=True)
    return statistics.median(change)


def cost(sites, rounds, count):
    """Tells the cost of each kind of request, and whether it is within the limit."""
    workers = "one worker" if sites[0][1].count == 1 else f"{sites[0][1].count} workers, as deployed"
    kinds = ("a read", f"/riders/{RIDER}/trips"), ("a booking or cancellation",), ("a booking sent again", "/trips", 1, {"rider": RIDER + 9, **WISH})
    for name, *asked in kinds:
        for _, site in sites:
            load(site, WARM if asked else WARM_WRITES, *asked)
        found = [round_of(sites if at % 2 else sites[::-1], count, *asked) for at in range(rounds)]
        told(f"{name}, {workers}", found, 0, "microseconds of nginx's processor a request")
        change = told(f"{name}, {workers}", found, 1, "microseconds of nginx and the desk a request")
        told(f"{name}, {workers}", found, 2, "requests a second by the clock")
        if sites[0][1].count > 1:
            lost = 100 - 10_000 / (100 + change)
            print(f"{name}: {lost:.1f} % of the requests a second, {'within' if lost <= MOST_COST else 'NOT within'} {MOST_COST} %", flush=True)


def disk(site):
    """Bytes of a line of each kind, chained and packed, and of a day of them."""
    with open(f"{site.folder}/journal/requests", "rb") as file:
        found = [it for it in file.read().split(b"\n") if it]
    kinds = {"read": [it for it in found if b'"GET"' in it and b"trips" in it], "write": [it for it in found if b'"POST"' in it]}
    print(f"lines: {len(found)}; bytes of a read {statistics.median(map(len, kinds['read'])):.0f}, of a booking {statistics.median(map(len, kinds['write'])):.0f}")
    reads, writes = DRIVERS * HOURS * 60 + 10 * TRIPS, 3 * TRIPS
    day, digest, place, seconds = [], chain.FIRST, 0, 0.0
    start = datetime.datetime(2026, 11, 30, 6, tzinfo=datetime.timezone.utc).timestamp()
    for at in range(reads + writes):
        # (each line has a moment, a number and a path of its own, as those of a day have)
        moment = start + at * HOURS * 3_600 / (reads + writes)
        is_write = at % ((reads + writes) // writes) == 0
        fields = json.loads(kinds["write" if is_write else "read"][at % 50])
        fields.update(at=f"{moment:.3f}", who=f"{hash(at % 60) * 2_654_435_761 % 2**48:012x}", took=at * 7 % 90 / 1_000, **{"from": f"192.0.2.{at % 60}"})
        if is_write:
            fields.update(number=str(1_764_000_000 + at), body=fields["body"].replace("700", str(420 + at % 700)).replace('"rider": 9', f'"rider": {at * 31 % 9_000}'),
                          reply=fields["reply"].replace('"trip":', f'"trip":{at}'))
        else:
            fields.update(path=f"/vehicles/{at % DRIVERS + 1}/manifest/{TOMORROW}" if at % 5 else f"/riders/{at * 31 % 9_000}/trips")
        line, place = json.dumps(fields, separators=(",", ":")).encode(), place + 1
        began = time.process_time()
        digest = chain.digest(digest, place, chain.safe(line))
        seconds += time.process_time() - began
        day.append(b'{"n":%d,"chain":"%s","line":' % (place, digest.encode()) + line + b"}\n")
    content = b"".join(day)
    packed = len(gzip.compress(content))
    print(f"a day of {TRIPS} trips: {len(day)} lines, {len(content) / 1e6:.1f} MB, packed {packed / 1e6:.1f} MB; five years {packed * 1_826 / 1e9:.1f} GB")
    print(f"chaining a line: {seconds / len(day) * 1e6:.0f} microseconds of processor, of the unit")


def main(words):
    program, rounds, count = words[0], *map(int, [*words[1:], *[ROUNDS, REQUESTS][len(words) - 1 :]])
    print(machine(), flush=True)
    with tempfile.TemporaryDirectory(prefix="desk-record-") as folder:
        os.chmod(folder, 0o755)
        pair = ["openssl", "req", "-x509", "-newkey", "ec", "-pkeyopt", "ec_paramgen_curve:P-256", "-nodes", "-days", "2", "-subj", "/CN=localhost",
                "-keyout", f"{folder}/key.pem", "-out", f"{folder}/certificate.pem"]
        subprocess.run(pair, check=True, capture_output=True, timeout=SECONDS)
        file = Office(0, RIDERS, TODAY, DAYS_AHEAD).make(program, f"{folder}/desk.db", ADMINS_KEY)
        with Desk(program, file) as desk:
            for workers in dict.fromkeys((1, os.cpu_count() or 1)):
                with Site(folder, desk, WITH, workers) as one, Site(folder, desk, WITHOUT, workers) as other:
                    cost([(WITH, one), (WITHOUT, other)], rounds, count)
                    disk(one) if workers == 1 else None


if __name__ == "__main__":
    if len(sys.argv) < 2:
        sys.exit(__doc__)
    main(sys.argv[1:])
