"""Tries the site of deploy/desk.nginx with nginx and openssl: `try-site PROGRAM`.

Who gets which of the agency's files, who may tell what and how it is logged, the file of the day, what is never kept; keys that are empty or refused; how many
requests one address and one key may send; four thousand idle connections of one address; TLS, port 80, a desk that is
down and a machine that is fenced. Addresses are 127.0.0.x. Where nginx or openssl is missing, all is left out, and
that is said. The last line is 'N passed, M failed', and the exit status 1 where something failed.
"""
import collections
import concurrent.futures
import contextlib
import datetime
import hashlib
import http.client
import itertools
import json
import os
import re
import shutil
import socket
import ssl
import subprocess
import sys
import tempfile
import threading
import time

from desk_tools.tree import TOP
from desk_tools import agencies, event_log, events
from desk_tools.setup import keys
from serving import SECONDS, Desk, asked_in_turn, difference, free_port, ran, tally, told_program
from serving import AGENCY, ADMINS_KEY, VAN
from trying import missing_files, missing_firewall, skipped

MAIN = agencies.Agency()
FILES = {
    "agency.json": '{"name":"Town"}',
    "places.json": '{"places":["some"]}',
    "addresses.json": '{"addresses":["some"]}',
    "staff/addresses.json": '{"addresses":["all"]}',
    "own/7/addresses.json": '{"addresses":["home"]}',
    "drivers/2/addresses.json": '{"addresses":{}}',
    "staff/places.json": '{"places":["all"]}',
    "staff/roster.csv": "rider,name\n7,Ana\n",
    "staff/worklist.html": "<!doctype html><title>Worklist</title>",
    "own/7/places.json": '{"places":["home"]}',
    "drivers/roster.csv": "rider,name\n7,Ana\n8,Bo\n",
    "drivers/places.json": '{"places":["homes"]}',
    "drivers/1/roster.csv": "rider,name\n7,Ana\n",
    "drivers/2/places.json": '{"places":["a home"]}',
    "drivers/2/outcomes.json": '{"outcomes":{}}',
    "away.html": "<p>Call 555-0100</p>",
    "away.json": '{"denied":"site.away","telephone":"555-0100"}',
}
STAFF = ("hello", "radio", "panel", "bench")
EVERYBODY = ("abc", *STAFF, "wheel", "wheel 2", "mine", "9")
# Who gets which file; the others are answered 403, and a key of nobody 401.
MAY = {
    "/places.json": EVERYBODY,
    "/staff/places.json": STAFF,
    "/staff/roster.csv": STAFF,
    "/staff/worklist.html": STAFF,
    "/addresses.json": EVERYBODY,
    "/staff/addresses.json": STAFF,
    "/own/7/addresses.json": ("mine", *STAFF),
    "/drivers/2/addresses.json": ("wheel 2", "radio"),
    "/own/7/places.json": ("mine", *STAFF),
    "/drivers/1/roster.csv": ("wheel", "radio"),
    "/drivers/2/places.json": ("wheel 2", "radio"),
    "/drivers/2/outcomes.json": ("wheel 2", "radio"),
}
TYPES = {"json": "application/json", "csv": "text/csv", "html": "text/html"}
MORE_CALLERS = [
    ("/vehicles", "radio", 2, {**VAN, "id": 2}),
    ("/callers", ADMINS_KEY, 12, {"id": 8, "role": "driver", "subject": 2, "key": "wheel 2"}),
    ("/callers", ADMINS_KEY, 13, {"id": 9, "role": "rider", "subject": 9, "key": "9"}),
]
NO_KEY, NO_PATH = (401, '{"denied":"desk.key"}'), (404, '{"denied":"http.path"}')
IDLE, GUESSES, GUESSING = 4_000, 150, 66

Reply = collections.namedtuple("Reply", "status headers body")


def replaced(text, old, new):
    if old not in text:
        raise ValueError(f"desk.nginx has no {old}")
    return text.replace(old, new)


class Site:
    """nginx over a desk, with the agency's files in a folder."""

    def __init__(self, folder, port):
        self.folder, self.tls, self.plain, self.process = folder, free_port(), free_port(), None
        self.addresses = (f"127.0.{it // 250 + 10}.{it % 250 + 1}" for it in itertools.count())
        for name, text in FILES.items():
            os.makedirs(os.path.dirname(f"{folder}/site/{name}"), exist_ok=True)
            with open(f"{folder}/site/{name}", "w", encoding="utf-8") as file:
                file.write(text)
        words = [
            f"{TOP}/deploy/site",
            "--trial",
            folder,
            "--desk",
            port,
            "--tls",
            self.tls,
            "--plain",
            self.plain,
        ]
        settings = subprocess.run(
            [*map(str, words)], check=True, capture_output=True, text=True
        ).stdout
        with open(f"{folder}/nginx.conf", "w", encoding="utf-8") as file:
            # (all lines are open before the first one asks, which takes longer on a busy machine; and nginx says here
            # of each request which count it went beyond)
            settings = replaced(
                settings,
                f"error_log {folder}/error.log crit",
                f"error_log {folder}/nginx.log error",
            )
            file.write(replaced(settings, "client_header_timeout 10s", "client_header_timeout 60s"))
        self.context = ssl._create_unverified_context()

    def __enter__(self):
        words = [
            "nginx",
            "-g",
            "daemon off;",
            "-e",
            f"{self.folder}/nginx.log",
            "-c",
            f"{self.folder}/nginx.conf",
        ]
        self.process = subprocess.Popen(words)
        for _ in range(100):
            with contextlib.suppress(OSError):
                self.ask("/agency.json")
                return self
            time.sleep(0.1)
        raise TimeoutError("nginx does not answer")

    def __exit__(self, *_):
        self.process.terminate()
        self.process.wait(SECONDS)

    def ask(self, path, key=None, address=None, method="GET", body=None, more=()):
        """The reply to one request. Each comes from an address of its own, where none is given."""
        line = http.client.HTTPSConnection(
            "127.0.0.1",
            self.tls,
            timeout=SECONDS,
            context=self.context,
            source_address=(address or next(self.addresses), 0),
        )
        with contextlib.closing(line):
            line.request(
                method, path, body, {**({} if key is None else {"Desk-Key": key}), **dict(more)}
            )
            reply = line.getresponse()
            return Reply(reply.status, reply.headers, reply.read().decode("latin-1"))

    def told(self, path, key=None, **named):
        """The status and the body."""
        reply = self.ask(path, key, **named)
        return reply.status, reply.body

    def statuses(self, requests, within=SECONDS):
        """How many replies of each status come to these (path, key, address), asked at once. None is one that waits."""
        ready = threading.Barrier(len(requests))
        with concurrent.futures.ThreadPoolExecutor(len(requests)) as pool:
            asked = [pool.submit(self.status_within, ready, within, *it) for it in requests]
            return collections.Counter(it.result() for it in asked)

    def status_within(self, ready, seconds, path, key, address, more=()):
        line = http.client.HTTPSConnection(
            "127.0.0.1",
            self.tls,
            timeout=SECONDS,
            context=self.context,
            source_address=(address, 0),
        )
        with contextlib.closing(line), contextlib.suppress(TimeoutError):
            line.connect()
            ready.wait(SECONDS)
            line.sock.settimeout(seconds)
            line.request("GET", path, headers={"Desk-Key": key, **dict(more)})
            return line.getresponse().status
        return None


# The agency's files.


def faults_of_files(site):
    for path, may in MAY.items():
        text = FILES[path[1:]]
        kind = f"{TYPES[path.rpartition('.')[2]]}; charset=utf-8"
        for key in EVERYBODY:
            reply = site.ask(path, key)
            wanted = (
                (200, text, kind)
                if key in may
                else (403, '{"denied":"desk.caller"}', "application/json")
            )
            yield difference(
                f"{path} for {key}",
                wanted,
                (reply.status, reply.body, reply.headers["Content-Type"]),
            )
        for key in "nobody", "", None:
            yield difference(f"{path} for {key!r}", NO_KEY, site.told(path, key))
        reply = site.ask(path, may[0], more={"Accept-Encoding": "gzip"})
        kept = reply.headers["Cache-Control"], reply.headers["Content-Encoding"]
        yield difference(f"{path} is kept nowhere", ("no-store", None), kept)
    yield difference(
        "the agency's file is everybody's", (200, FILES["agency.json"]), site.told("/agency.json")
    )
    for path, key in (
        ("/own/9/places.json", "9"),
        ("/drivers/2/none.csv", "wheel 2"),
        ("/staff/none.csv", "hello"),
    ):
        yield difference(f"{path}, which is not there", NO_PATH, site.told(path, key))
    for path in (
        "/drivers/roster.csv",
        "/drivers/places.json",
        "/drivers/1/../roster.csv",
        "/drivers/1/roster.csv.new",
    ):
        yield difference(
            f"{path}, which is nobody's", True, site.ask(path, "wheel").status in (400, 403, 404)
        )
    for path in (
        "/staff/../staff/roster.csv",
        "/staff%2froster.csv",
        "/own/7/places.json/",
        "//staff/roster.csv",
        "/staff/roster.csv/",
        "/x/../own/7/places.json",
    ):
        yield difference(f"{path} for a rider", True, site.ask(path, "9").status in (400, 403, 404))


def event(kind, **fields):
    """The path that tells an event, with an id of its own."""
    return events.path_of(kind, {"id": keys.made(), **fields})


AT = "2026-11-28T09:15:00"
NOTE = "Ünï 日本 🚐 100% “left” & + = ?"
TOLD = [
    (
        event(
            "denials",
            day="2026-11-28",
            minute=540,
            rule="no vehicle",
            channel="app",
            mode="by",
            at=AT,
        ),
        "mine",
        "other",
    ),
    (event("denials", day="2026-11-28", minute=540, rule="37.131(a)"), "hello", "office"),
    (
        event(
            "bookings",
            day="2026-11-28",
            trip=4,
            mode="around",
            minute=0,
            **{"from": 0, "to": 30},
            channel="page",
            at=AT,
            lead=15,
        ),
        "9",
        "other",
    ),
    (event("cancellations", trip=7, by="rider", at=AT), "radio", "dispatcher"),
    (event("stops", vehicle=1, trip=4, event="arrived", at=AT), "wheel", "vehicle"),
    (event("stops", vehicle=2, trip=4, event="arrived", at=AT), "radio", "vehicle"),
    (
        event(
            "no-shows",
            vehicle=2,
            day="2026-11-28",
            trip=4,
            **{"from": 540, "to": 555},
            wait=5,
            at=AT,
            arrived=541,
        ),
        "wheel 2",
        "vehicle",
    ),
    (event("notes", vehicle=1, day="2026-11-28", trip=0, text=NOTE, at=AT), "wheel", "vehicle"),
    (
        event("notes", vehicle=1, day="2026-11-28", trip=4294967295, text="é" * 200, at=AT),
        "radio",
        "vehicle",
    ),
    (
        event("disagreements", vehicle=1, trip=4, record="ridden", told="missed-rider", at=AT),
        "wheel",
        "vehicle",
    ),
    (
        event("calls", list="out of service 1", trip=4, result="not-reached", at=AT),
        "radio",
        "dispatcher",
    ),
    (event("calls", list="out of service 1", trip=4, result="called", at=AT), "panel", "office"),
]
# What the site refuses of them, and how.
OTHERS = [
    ("another driver's stop", 403, TOLD[4][0], "wheel 2"),
    ("a rider's stop", 403, TOLD[4][0], "mine"),
    ("a clerk's note on a van", 403, TOLD[7][0], "hello"),
    ("a rider's call", 403, TOLD[10][0], "mine"),
    ("a driver's call", 403, TOLD[10][0], "wheel"),
    ("a key of nobody", 401, TOLD[4][0], "nobody"),
    ("no key", 401, TOLD[4][0], None),
    ("no words", 400, "/tally/stops", "wheel"),
    ("other signs", 400, "/tally/stops?id=<b>", "wheel"),
    ("another order", 400, re.sub("(id=[^&]+)&(.*)", r"\2&\1", TOLD[4][0]), "wheel"),
    ("a field more", 400, f"{TOLD[4][0]}&more=1", "wheel"),
    ("a field twice", 400, f"{TOLD[4][0]}&vehicle=2", "wheel"),
    ("a rule that is none", 400, TOLD[0][0].replace("no%20vehicle", "no%20way"), "mine"),
    ("a minute too late", 400, TOLD[0][0].replace("=540", "=1440"), "mine"),
    ("a note of 201 characters", 400, TOLD[8][0].replace("text=", "text=x"), "radio"),
    (
        "a note of half a character",
        400,
        TOLD[8][0].replace("text=", "text=%C3").replace("%C3%A9&", "&"),
        "radio",
    ),
    ("a note of two lines", 400, TOLD[7][0].replace("text=", "text=%0A"), "wheel"),
    ("another tally", 404, "/tally/other?id=1", "wheel"),
]


def faults_of_tally(site):
    """What each key may tell, and that the log has it as bin/tally reads it."""
    plus = TOLD[0][0].replace("no%20vehicle", "no+vehicle")
    for path, key, _ in [*TOLD, (plus, "mine", "other")]:
        yield difference(
            f"{path} for {key}", (204, ""), site.told(path, key, method="POST", body="x")
        )
    for what, wanted, path, key in OTHERS:
        yield difference(f"a tally: {what}", wanted, site.ask(path, key, method="POST").status)
    yield difference(
        "a tally that is read", (405, '{"denied":"http.method"}'), site.told(TOLD[4][0], "wheel")
    )
    with open(f"{site.folder}/tally.log", encoding="utf-8") as file:
        lines = [line.rstrip("\n").split("\t") for line in file]
    wanted = [[*path.split("?"), by] for path, _, by in [*TOLD, (plus, "mine", "other")]]
    yield difference("the log of the tally", wanted, [it[1:] for it in lines])
    read = event_log.read([f"{site.folder}/tally.log"])
    yield difference("the log as it is read", (len(TOLD), []), (len(read.events), read.broken))
    yield difference(
        "notes as they are read", [NOTE, "é" * 200], [it.fields["text"] for it in read.of("notes")]
    )
    yield difference("its moments", {25}, {len(it[0]) for it in lines})


def faults_of_today(site):
    """The file of the day is made out of the log, and staff alone may read it."""
    day = f"{datetime.date.today()}"
    told = [
        (event("stops", vehicle=1, trip=4, event="aboard", at=f"{day}T00:00:00"), "wheel"),
        (event("notes", vehicle=1, day=day, trip=0, text=NOTE, at=f"{day}T00:00:00"), "radio"),
    ]
    for path, key in told:
        yield difference(f"today: {path}", 204, site.ask(path, key, method="POST").status)
    os.makedirs(f"{site.folder}/today")
    words = [
        f"{TOP}/deploy/today",
        f"{site.folder}/tally.log",
        f"{site.folder}/today/today.json",
        "--once",
    ]
    made = subprocess.run(
        [*words, "--group", "www-data"] if os.getuid() == 0 else words,
        capture_output=True,
        text=True,
    )
    yield difference("deploy/today", (0, ""), (made.returncode, made.stderr))
    os.symlink(f"{site.folder}/today/today.json", f"{site.folder}/site/staff/today.json")
    for key in EVERYBODY:
        wanted = 200 if key in STAFF else 403
        yield difference(f"today.json for {key}", wanted, site.ask("/staff/today.json", key).status)
    yield difference("today.json without a key", NO_KEY, site.told("/staff/today.json"))
    read = json.loads(site.ask("/staff/today.json", "hello").body.encode("latin-1"))
    yield difference(
        "its taps", {"1": {"taps": [{"trip": 4, "kind": "aboard", "minute": 0}]}}, read["vehicles"]
    )
    yield difference("its notes", [NOTE], [it["text"] for it in read["notes"]])
    yield difference("its day", day, read["day"])
    os.remove(f"{site.folder}/today/today.json")
    yield difference(
        "today.json where nothing makes it", NO_PATH, site.told("/staff/today.json", "hello")
    )


def faults_of_pages(site):
    for path, scope in (
        ("/", None),
        ("/index.html", None),
        ("/desk.css", None),
        ("/service-worker.js", "/"),
    ):
        reply = site.ask(path, more={"Accept-Encoding": "gzip"})
        seen = [
            reply.headers[it]
            for it in ("Cache-Control", "Content-Encoding", "Service-Worker-Allowed")
        ]
        yield difference(f"{path}", (200, ["no-cache", "gzip", scope]), (reply.status, seen))
        policy = reply.headers["Content-Security-Policy"]
        yield difference(f"{path} runs nothing of others", True, "default-src 'self'" in policy)
    for path in (
        "/none.js",
        "/README.md",
        "/tsconfig.json",
        "/types.d.ts",
        "/away.html",
        "/desk-seen",
        "/desk-any",
        "/metrics",
    ):
        yield difference(f"{path} is no page", NO_PATH, site.told(path))
    reply = site.ask("/riders/7/trips", "mine", more={"Accept-Encoding": "gzip"})
    seen = reply.status, reply.headers["Cache-Control"], reply.headers["Content-Encoding"]
    yield difference("a reply of the desk", (200, "no-store", None), seen)
    yield difference(
        "one strict header", 1, len(reply.headers.get_all("Strict-Transport-Security"))
    )


# Keys.


def faults_of_empty_keys(site, desk):
    """The digest of the empty text is a caller's. The desk itself would take no key for it."""
    digest = hashlib.sha256(b"").hexdigest()
    put = desk.post(
        "/callers", ADMINS_KEY, 14, {"id": 10, "role": "admin", "subject": 0, "digest": digest}
    )
    yield difference("a caller with the empty key", 200, put.status)
    yield difference("the desk itself", 403, desk.get("/days/2026-01-01/sheet", "").status)
    for key in "", None, " ", "\t", " \t ":
        reply = site.ask("/days/2026-01-01/sheet", key)
        told = reply.status, reply.body, reply.headers.get_all("WWW-Authenticate")
        yield difference(f"the key {key!r}", (*NO_KEY, ["Desk-Key"]), told)


def faults_of_refused_keys(site):
    """Keys of nobody, asked at once: some are answered, then one a second, and others of that address get 429."""
    named = "guesses that name addresses", "127.0.0.10", {"Desk-Address": "10.0.0"}
    for what, address, sent in (("guesses", "127.0.0.9", {}), named):
        asked = [
            (
                "/riders/7/trips",
                f"guess {it}",
                address,
                {name: f"{value}.{it}" for name, value in sent.items()},
            )
            for it in range(GUESSES)
        ]
        counts = site.statuses(asked, within=5)
        is_slowed = 5 <= counts[401] <= 25 and counts[429] >= GUESSES // 3 and counts[None]
        yield None if is_slowed else f"{what}: {dict(counts)}"
        # Those who left still take their places, so that leaving early makes no guess faster.
        again = site.statuses(
            [("/riders/7/trips", f"guess {it}", address) for it in range(60)], within=5
        )
        yield None if again[429] >= 5 else f"{what}, after leaving: {dict(again)}"
        yield difference(
            f"another address beside {what}", 200, site.ask("/riders/7/trips", "mine").status
        )
    # Where the door itself turned one away, the desk had been asked: that would be a guess that did not wait.
    with open(f"{site.folder}/nginx.log", encoding="utf-8") as file:
        yield difference(
            "guesses that did not wait", 0, sum('by zone "desk_refused"' in line for line in file)
        )


def faults_of_neighbours(site):
    """Threads without a key send all that they may from one address; a clerk there is refused nothing."""
    address, end, answers = "127.0.0.13", time.monotonic() + 6, collections.Counter()
    site.ask("/vehicles/1/manifest/2026-01-01", "radio", address)

    def guess(thread):
        for at in itertools.count():
            if time.monotonic() > end:
                return
            with contextlib.suppress(OSError, TimeoutError):
                answers[
                    site.status_within(
                        threading.Barrier(1), 1.5, "/riders/7/trips", f"{thread} {at}", address
                    )
                ] += 1
            time.sleep(1)

    with concurrent.futures.ThreadPoolExecutor(GUESSING) as pool:
        for thread in range(GUESSING):
            pool.submit(guess, thread)
        time.sleep(1)
        seen = collections.Counter()
        while time.monotonic() < end:
            seen[site.ask("/vehicles/1/manifest/2026-01-01", "radio", address).status] += 1
            seen[site.ask("/places.json", "radio", address).status] += 1
            time.sleep(0.3)
    yield difference("a clerk beside those without a key", [200], sorted(seen))
    yield None if answers[429] >= 30 and 5 <= answers[
        401
    ] <= 14 else f"those without a key: {dict(answers)}"
    kept = [name for _, _, names in os.walk(f"{site.folder}/keys") for name in names]
    yield difference("what is kept of keys on the disk", [], kept)


# How much.


def faults_of_limits(site):
    """By key whatever the addresses are, and no key by another one at its address; what costs the desk most, by itself."""
    asked = [
        ("/vehicles/1/manifest/2026-01-01", "radio", f"127.0.3.{it % 20 + 1}") for it in range(160)
    ]
    counts = site.statuses(asked)
    yield None if counts[200] >= 60 and counts[
        429
    ] >= 10 else f"one key of 20 addresses: {dict(counts)}"
    keys = ("hello", "panel", "bench", "mine")
    for key in keys:
        site.ask("/riders/7/standing/2026-01-01", key)
    time.sleep(1)
    asked = [("/riders/7/standing/2026-01-01", keys[it % 4], "127.0.0.11") for it in range(240)]
    counts = site.statuses(asked)
    yield difference("one address with four keys", {200: 240}, dict(counts))
    asked = [("/vehicles/1/manifest/2026-01-01", f"x{it}", "127.0.0.12") for it in range(200)]
    counts = site.statuses(asked, within=3)
    yield None if counts[429] >= 60 and not counts[
        200
    ] else f"one address with keys of nobody: {dict(counts)}"
    replies = (site.ask("/vehicles/1/manifest/2026-01-01", "panel") for _ in range(200))
    reply = next((it for it in replies if it.status == 429), site.ask("/"))
    told = reply.status, reply.headers["Retry-After"], reply.headers["Content-Type"], reply.body
    yield difference("one too many", (429, "1", "application/json", '{"denied":"site.many"}'), told)
    reply = site.ask("/riders", "hello", method="POST", body="x" * 20_000)
    told = reply.status, reply.headers["Content-Type"], reply.body
    yield difference(
        "a body that is too long", (413, "application/json", '{"denied":"http.length"}'), told
    )
    time.sleep(4)
    counts = site.statuses([("/riders/9/trips", "9", f"127.0.4.{it + 1}") for it in range(58)])
    yield None if counts[200] >= 40 and counts[
        429
    ] >= 5 else f"all trips of a rider: {dict(counts)}"
    yield difference(
        "the same key, another path", 200, site.ask("/riders/9/standing/2026-01-01", "9").status
    )
    with open(f"{site.folder}/access.log", encoding="utf-8") as file:
        told = [line.split() for line in file if "/riders/9/standing/2026-01-01" in line][-1]
    yield difference(
        "the time taken", True, all(re.fullmatch(r"\d+\.\d{3}", it) for it in told[-2:])
    )


def faults_of_idle_connections(site):
    """One address has so many connections and sends a byte on each; others are served."""
    lines = []
    try:
        for _ in range(IDLE):
            line = socket.create_connection(
                ("127.0.0.1", site.tls), SECONDS, source_address=("127.0.0.66", 0)
            )
            line.sendall(b"G")
            lines.append(line)
        served = [
            site.ask(it, "mine").status
            for it in ("/riders/7/standing/2026-01-01", "/riders/7/trips", "/")
        ]
        yield difference(f"beside {IDLE} idle connections", [200, 200, 200], served)
    except (OSError, http.client.HTTPException) as error:
        yield f"beside {len(lines)} idle connections: {error}"
    finally:
        for line in lines:
            line.close()


# The line.


def faults_of_tls(site):
    for what, words, wanted in (
        ("1.2", ["-tls1_2"], True),
        ("1.3", ["-tls1_3"], True),
        ("1.1", ["-tls1_1"], False),
        (
            "without forward secrecy",
            ["-tls1_2", "-cipher", "AES128-SHA:AES128-GCM-SHA256:CAMELLIA128-SHA"],
            False,
        ),
        ("CBC", ["-tls1_2", "-cipher", "ECDHE-RSA-AES128-SHA"], False),
    ):
        words = ["openssl", "s_client", "-connect", f"127.0.0.1:{site.tls}", *words]
        told = subprocess.run(words, input="", capture_output=True, text=True, timeout=SECONDS)
        yield difference(f"TLS {what}", wanted, told.returncode == 0)
    context = ssl._create_unverified_context()
    context.set_alpn_protocols(["h2", "http/1.1"])
    with socket.create_connection(("127.0.0.1", site.tls), SECONDS) as line, context.wrap_socket(
        line
    ) as tls:
        yield difference("HTTP/2", "h2", tls.selected_alpn_protocol())
    line = http.client.HTTPConnection("127.0.0.1", site.plain, timeout=SECONDS)
    with contextlib.closing(line):
        line.request("GET", "/riders/7/trips")
        reply = line.getresponse()
        wanted = 301, "https://desk.example.org/riders/7/trips"
        yield difference("port 80", wanted, (reply.status, reply.headers["Location"]))
    with open(f"{TOP}/deploy/desk.nginx", encoding="utf-8") as text:
        listens = [
            line.split()[1].rstrip(";") for line in text if line.strip().startswith("listen ")
        ]
    yield difference(
        "where it listens",
        ["443", "[::]:443", "127.0.0.1:8436", "127.0.0.2:8437", "80", "[::]:80"],
        listens,
    )


def faults_of_ends(site):
    """A desk that is down, and a machine that is fenced."""
    for path in ("/riders/9/standing/2026-01-01", "/staff/places.json", "/places.json"):
        yield difference(f"{path} of a desk that is down", 502, site.ask(path, "hello").status)
        reply = site.ask(path, "hello", more={"Accept": "text/html,*/*"})
        told = reply.headers["Retry-After"], reply.headers["Content-Type"], reply.body
        yield difference(
            f"{path} for a person", ("5", "text/html; charset=utf-8", FILES["away.html"]), told
        )
        reply = site.ask(path, "hello", method="POST", body="{}")
        told = reply.status, reply.headers["Content-Type"], reply.body
        yield difference(
            f"{path} for a program",
            (502, "application/json; charset=utf-8", FILES["away.json"]),
            told,
        )
    os.rename(f"{site.folder}/site/away.json", f"{site.folder}/site/gone.json")
    reply = site.told("/riders/9/standing/2026-01-01", "hello")
    yield difference("without these files", (502, '{"denied":"site.away"}'), reply)
    yield difference("a page of a desk that is down", 200, site.ask("/").status)
    fence = f"{site.folder}/fenced"
    with open(fence, "w", encoding="utf-8"):
        yield difference(
            "a machine that is fenced",
            [503, 503],
            [site.ask(it).status for it in ("/", "/agency.json")],
        )
        for path in "/", "/riders/9/standing/2026-01-01", "/health":
            reply = site.ask(path, more={"Accept": "text/html,*/*"})
            told = (
                reply.status,
                reply.headers["Retry-After"],
                reply.headers["Content-Type"],
                reply.body,
            )
            yield difference(
                f"{path} of a fenced machine, for a person",
                (503, "60", "text/html; charset=utf-8", FILES["away.html"]),
                told,
            )
        os.rename(f"{site.folder}/site/gone.json", f"{site.folder}/site/away.json")
        for path, method in (
            ("/trips", "POST"),
            ("/tally/stops", "POST"),
            ("/agency.json", "GET"),
            ("/plan", "PUT"),
        ):
            reply = site.ask(
                path, "hello", method=method, **({} if method == "GET" else {"body": "{}"})
            )
            told = (
                reply.status,
                reply.headers["Retry-After"],
                reply.headers["Content-Type"],
                reply.body,
            )
            yield difference(
                f"{method} {path} of a fenced machine",
                (503, "60", "application/json; charset=utf-8", FILES["away.json"]),
                told,
            )
        os.rename(f"{site.folder}/site/away.json", f"{site.folder}/site/gone.json")
        yield difference(
            "POST of a fenced machine without these files",
            (503, '{"denied":"site.away"}'),
            site.told("/trips", "hello", method="POST", body="{}"),
        )
        yield difference(
            "a fenced machine without these files",
            (503, '{"denied":"site.away"}'),
            site.told("/agency.json"),
        )
    os.remove(fence)
    yield difference("one that is not", 200, site.ask("/").status)


# In a network of its own: so many of 250 lines to port 443 are let by, of two addresses and of IPv6.
LINES = """
import socket, subprocess, sys
subprocess.run(["ip", "link", "set", "lo", "up"], check=True)
subprocess.run(["nft", "-f", sys.argv[1]], check=True)
listening = [socket.create_server((it, 443), family=kind, backlog=1000)
             for it, kind in (("127.0.0.1", socket.AF_INET), ("::1", socket.AF_INET6))]
for own, other in (("127.0.0.1", "127.0.0.1"), ("127.0.0.2", "127.0.0.1"), ("::1", "::1")):
    lines = []
    for _ in range(250):
        line = socket.socket(socket.AF_INET6 if ":" in own else socket.AF_INET)
        line.bind((own, 0))
        try:
            line.connect((other, 443))
            lines.append(line)
        except ConnectionRefusedError:
            pass
    globals()["kept" + own] = lines
    print(len(lines))
"""


def faults_of_firewall():
    """The example for nftables lets 200 connections of one address by."""
    if skipped("try-site", "nftables", missing_firewall()):
        return
    words = ["unshare", "--net", sys.executable, "-c", LINES, f"{TOP}/deploy/desk.nft"]
    told = subprocess.run(words, capture_output=True, text=True, timeout=SECONDS)
    yield difference("connections by address", ("200\n200\n200\n", ""), (told.stdout, told.stderr))


def faults_of_agencies():
    """deploy/site passes over files that are no agency's, and refuses two that have one port."""
    with tempfile.TemporaryDirectory(prefix="desk-site-") as folder:

        def conf(name, text):
            with open(f"{folder}/{name}.conf", "w", encoding="utf-8") as file:
                file.write(text)

        def site():
            return subprocess.run(
                [f"{TOP}/deploy/site", folder], capture_output=True, text=True, timeout=SECONDS
            )

        conf("standby", "TARGET=other:/desk\n"), conf("watch", "SITE=none\n")
        conf("north", "NAME=north.example.org\nPORT=8438\n"), conf(
            "south", "NAME=south.example.org\nPORT=8439\n"
        )
        told = site()
        names = [f"{it}.example.org" for it in ("north", "south")]
        counts = [told.stdout.count(f"server_name {it};\n") for it in names]
        yield difference("two agencies", (0, [4, 4]), (told.returncode, counts))
        left = [
            it
            for it in (
                "desk.example.org",
                ":8437",
                f"{MAIN.tls}/",
                MAIN.fence,
                "/desk-site/main",
                "-main",
            )
            if it in told.stdout
        ]
        yield difference("words of one agency alone", [], left)
        conf("south", "NAME=south.example.org\nPORT=8438\n")
        told = site()
        said = "deploy/site: south and north have one 8438\n"
        yield difference("one port", (2, said), (told.returncode, told.stderr))


def faults(program, folder):
    file = f"{folder}/desk.db"
    yield difference("init", 0, ran(program, "init", file, ADMINS_KEY).returncode)
    words = [
        "openssl",
        "req",
        "-x509",
        "-newkey",
        "rsa:2048",
        "-nodes",
        "-days",
        "2",
        "-subj",
        "/CN=localhost",
    ]
    words += ["-keyout", f"{folder}/key.pem", "-out", f"{folder}/certificate.pem"]
    subprocess.run(words, check=True, capture_output=True, timeout=SECONDS)
    # (the site takes the limit of this process, so it is raised before the site starts)
    is_idle_left_out = skipped("try-site", f"{IDLE} idle connections", missing_files(IDLE + 500))
    with Desk(program, file) as desk, Site(folder, desk.port) as site:
        asked_in_turn(desk, AGENCY + MORE_CALLERS)
        for faults_of in (
            faults_of_files,
            faults_of_tally,
            faults_of_today,
            faults_of_pages,
            faults_of_tls,
        ):
            yield from faults_of(site)
        yield from () if is_idle_left_out else faults_of_idle_connections(site)
        yield from faults_of_empty_keys(site, desk)
        yield from faults_of_limits(site)
        yield from faults_of_refused_keys(site)
        yield from faults_of_neighbours(site)
        desk.kill()
        yield from faults_of_ends(site)
    yield from faults_of_firewall()
    yield from faults_of_agencies()


def main(words):
    program, _ = told_program(words, __doc__)
    missing = [it for it in ("nginx", "openssl") if not shutil.which(it)]
    if missing:
        print(f"deploy/try-site: skipped: all of it, which takes {' and '.join(missing)}")
        print("0 passed, 0 failed")
        return 0
    with tempfile.TemporaryDirectory(prefix="desk-site-") as folder:
        os.chmod(folder, 0o755)
        return tally("deploy/try-site", faults(program, folder))


if __name__ == "__main__":
    sys.exit(main(sys.argv[1:]))
