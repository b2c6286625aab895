"""Tries the record of deploy/desk.nginx and bin/journal with nginx: `tests/journal [--requests N] PROGRAM`.

Each role asks by both doors, and each request has its line. A theft, a borrowed key, a decision that root rewrote and a
record that was cut are played, and each is shown by one command. Bodies are of any bytes. No file that the site writes
has a key. N random requests (600) are replayed over a backup. Where nginx, its Lua, openssl or ssh-keygen is
missing, all is left out, and that is said. The last line is 'N passed, M failed', and the exit status 1 where something failed.
"""
import base64
import contextlib
import csv
import datetime
import hashlib
import http.client
import io
import json
import os
import random
import shutil
import socket
import sqlite3
import ssl
import subprocess
import sys
import tempfile
import threading
import time
import urllib.parse
from pathlib import Path

from desk_tools.tree import TOP
from serving import (
    ADMINS_KEY,
    SECONDS,
    TOMORROW,
    TRIP,
    ZONE,
    Desk,
    copy_database,
    difference,
    forget_clock,
    free_port,
    make_agency,
)
from serving import tally, told_program
from journal_walk import Clock, Walk, clocked
from trying import missing_faketime

LUA = "/usr/lib/nginx/modules/ngx_http_lua_module.so"
REQUESTS, DIGITS, ROOTS = 600, 12, "the key that root put for a clerk"
FILES = {
    "agency.json": '{"name":"Town"}',
    "places.json": "{}",
    "staff/roster.csv": "rider,name\n7,Ana\n",
    "own/7/places.json": "{}",
    "drivers/roster.csv": "rider,name\n7,Ana\n",
    "drivers/places.json": "{}",
}
# Keys that are long enough to be found wherever they stand; the agency's own are words.
KEYS = {
    name: hashlib.sha256(name.encode()).hexdigest()[:20] + "-key"
    for name in ("second", "thief", "insider", "late")
}
KEYS.update(first_alike="alike-05633559-key", second_alike="alike-20634608-key")
ROLES = {
    "rider": "mine",
    "clerk": "hello",
    "examiner": "panel",
    "officer": "bench",
    "dispatcher": "radio",
    "driver": "wheel",
    "admin": ADMINS_KEY,
    "nobody": "a key of nobody at all",
    "none": None,
}
ASKED = [
    ("GET", "/riders/7/trips"),
    ("GET", f"/riders/7/standing/{TOMORROW}"),
    ("GET", "/riders/7/letters/1"),
    ("GET", f"/vehicles/1/manifest/{TOMORROW}"),
    ("GET", f"/days/{TOMORROW}/sheet"),
    ("GET", f"/days/{TOMORROW}/trips.csv"),
    ("POST", "/trips"),
    ("POST", "/trips/2/change"),
    ("POST", "/trips/3/cancel"),
    ("POST", "/trips/1/outcome"),
    ("POST", "/riders"),
    ("POST", "/riders/7/entries"),
    ("POST", "/callers"),
    ("POST", "/policy"),
    ("POST", "/places"),
    ("POST", "/routes"),
    ("POST", "/vehicles"),
]
SITES_OWN = [
    ("GET", "/places.json"),
    ("GET", "/staff/roster.csv"),
    ("GET", "//staff/roster.csv"),
    ("GET", "/staff/./roster.csv"),
    ("GET", "/staff/%72oster.csv"),
    ("GET", "/own/7/places.json"),
    ("GET", "/own/7/name.json"),
    ("GET", "/drivers/1/roster.csv"),
    ("GET", "/drivers/1/outcomes.json"),
    ("GET", "/record/keys"),
]


def read_file(path):
    """The bytes of a file; none where it is not there."""
    with contextlib.suppress(FileNotFoundError), open(path, "rb") as file:
        return file.read()
    return b""


def digits(key):
    return (
        hashlib.sha256(key).hexdigest()[:DIGITS] if isinstance(key, bytes) else digits(key.encode())
    )


class Site:
    """nginx over a desk, with its record, and the commands that read it."""

    def __init__(self, folder, desk, clock=None):
        self.folder, self.desk, self.tls, self.process, self.clock = (
            folder,
            desk,
            free_port(),
            None,
            clock,
        )
        self.numbers = {}
        for name, text in FILES.items():
            os.makedirs(os.path.dirname(f"{folder}/site/{name}"), exist_ok=True)
            Path(f"{folder}/site/{name}").write_text(text, "utf-8")
        words = [
            f"{TOP}/deploy/site",
            "--trial",
            folder,
            "--desk",
            desk.port,
            "--tls",
            self.tls,
            "--plain",
            free_port(),
        ]
        settings = subprocess.run(
            [*map(str, words)], check=True, capture_output=True, text=True
        ).stdout
        # One address asks here for everybody.
        settings = (
            settings.replace("rate=10r/s", "rate=1000r/s")
            .replace("rate=2r/s", "rate=1000r/s")
            .replace("rate=1r/s", "rate=1000r/s")
        )
        with open(f"{folder}/nginx.conf", "w", encoding="utf-8") as file:
            file.write(settings.replace("rate=30r/s", "rate=1000r/s"))
        self.context = ssl._create_unverified_context()
        # How many lines nginx owes to its file since that was begun.
        self.address = self.owed = 0
        self.counting = threading.Lock()

    def __enter__(self):
        names = self.clock.names if self.clock else {}
        kept = "".join(f" env {name};" for name in names)
        words = [
            "nginx",
            "-g",
            f"daemon off;{kept}",
            "-e",
            f"{self.folder}/nginx.log",
            "-c",
            f"{self.folder}/nginx.conf",
        ]
        self.process = subprocess.Popen(words, env={**os.environ, **names})
        for _ in range(100):
            with contextlib.suppress(OSError):
                self.ask("GET", "/agency.json")
                return self
            time.sleep(0.1)
        raise TimeoutError("nginx does not answer")

    def __exit__(self, *_):
        self.process.terminate()
        self.process.wait(SECONDS)
        forget_clock(self.process.pid)

    def line(self, is_own):
        self.address += 1
        if is_own:
            return http.client.HTTPConnection("127.0.0.2", self.desk.port, timeout=SECONDS)
        source = f"127.0.{self.address // 250 + 20}.{self.address % 250 + 1}", 0
        return http.client.HTTPSConnection(
            "127.0.0.1", self.tls, timeout=SECONDS, context=self.context, source_address=source
        )

    def ask(self, method, path, key=None, body=None, is_own=False, number=None, more=()):
        """The status and the body of a reply."""
        with contextlib.closing(self.line(is_own)) as line:
            line.putrequest(method, path, skip_accept_encoding=True)
            headers = [("Desk-Key", key)] if key is not None else []
            headers += [("Desk-Number", str(number))] if number is not None else []
            content = json.dumps(body, default=str).encode() if isinstance(body, dict) else body
            headers += [("Content-Length", str(len(content)))] if content is not None else []
            for name, value in [*headers, *more]:
                line.putheader(name, value)
            line.endheaders(content)
            reply = line.getresponse()
            with self.counting:
                self.owed += path != "/agency.json"
            return reply.status, reply.read().decode("latin-1")

    def write(self, path, key, body, **named):
        """A write with the caller's next number, above those of the agency's own."""
        self.numbers[key] = self.numbers.get(key, 100) + 1
        return self.ask("POST", path, key, body, number=self.numbers[key], **named)

    def lines(self, since=0):
        """What nginx wrote, from a byte on."""
        path = f"{self.folder}/journal/requests"
        with open(path, "rb") as file:
            file.seek(since)
            return [json.loads(it) for it in file.read().split(b"\n") if it]

    def far(self):
        """How long the file is, once each request so far has its line."""
        path = f"{self.folder}/journal/requests"
        for _ in range(200):
            content = read_file(path)
            if content.count(b"\n") >= self.owed:
                return len(content)
            time.sleep(0.05)
        raise TimeoutError(f"{self.owed} requests, and no line of each")

    def new_lines(self, since, count):
        """The lines since a byte, once there are so many, and no more come."""
        for _ in range(200):
            if len(self.lines(since)) >= count:
                break
            time.sleep(0.05)
        return self.lines(since)

    def journal(self, *words, folder=None):
        """What bin/journal says."""
        place = folder or f"{self.folder}/journal"
        ran_words = [
            f"{TOP}/bin/journal",
            "--folder",
            place,
            "--agency",
            f"{self.folder}/site/agency.json",
            *map(str, words),
        ]
        return subprocess.run(ran_words, capture_output=True, text=True, timeout=SECONDS * 40)

    def take(self):
        self.far()
        self.owed = 0
        return self.journal(
            "take",
            "--key",
            f"{self.folder}/record",
            "--nginx-pid",
            f"{self.folder}/nginx.pid",
            "--offsite",
            f"{self.folder}/offsite",
            "--corrections",
            f"{self.folder}/corrections.csv",
        )

    def answer(self, *words):
        """The rows of an answer."""
        told = self.journal(*words, "--csv", "--roster", f"{self.folder}/site/staff/roster.csv")
        if told.returncode:
            raise RuntimeError(f"{words}: {told.stderr}")
        return list(csv.DictReader(io.StringIO(told.stdout)))


# Each role, both doors.


def faults_of_roles(site):
    """Each request has one line, with its caller, its door, its path and its status."""
    for is_own in False, True:
        for role, key in ROLES.items():
            asked = ASKED + ([] if is_own else SITES_OWN)
            since, wanted = site.far(), []
            for method, path in asked:
                number = 1 if method == "POST" else None
                status, _ = site.ask(
                    method, path, key, {} if method == "POST" else None, is_own, number
                )
                wanted.append(
                    (
                        "own" if is_own else "site",
                        "-" if key is None else digits(key),
                        method,
                        path,
                        status,
                    )
                )
            got = [
                tuple(it[name] for name in ("door", "who", "method", "path", "status"))
                for it in site.new_lines(since, len(asked))
            ]
            yield difference(
                f"the lines of {role} by the {'own door' if is_own else 'site'}", wanted, got
            )
    since, spelled = site.far(), {
        "//staff/roster.csv": "/staff/roster.csv",
        "//riders/7/trips": "/riders/7/trips",
        "/riders/./7/trips": "/riders/7/trips",
    }
    for path in spelled:
        site.ask("GET", path, "hello")
    got = {it["path"]: it.get("read") for it in site.new_lines(since, len(spelled))}
    yield difference("other spellings of paths", spelled, got)


def faults_of_keys(site):
    """Digits are those of the key as the desk reads it; no two keys share them; a forged header changes no line."""
    odd = [b"\xff\xfe odd", b"\xff\xfd odd", b"\xc3\xa9", b"\xe9"]
    sent = [b"hello", b"hello ", b"hello\t", b"\thello", *odd]
    since = site.far()
    for key in sent:
        site.ask("GET", "/riders/7/trips", key)
    got = [it["who"] for it in site.new_lines(since, len(sent))]
    yield difference("digits", [digits(key.strip(b" \t")) for key in sent], got)
    yield difference("keys of odd bytes", len(odd), len(set(got[4:])))
    # (the key itself with signs in percent)
    since = site.far()
    for path in "/riders/%6cate-key/trips", "/record/trip?number=l%61te-key":
        site.ask("GET", path, "late-key", is_own=True)
    got = [it["path"] for it in site.new_lines(since, 2)]
    yield difference(
        "a key with signs in percent", ["/riders/(key)/trips", "/record/trip?number=(key)"], got
    )
    # (of figures alone, which a path may have)
    since = site.far()
    site.ask("GET", "/riders/4711471147/trips", "4711471147")
    [line] = site.new_lines(since, 1)
    yield difference(
        "a key of figures in a path",
        ("/riders/(key)/trips", digits("4711471147")),
        (line["path"], line["who"]),
    )
    # (a word that is a part of a path: nginx's own log has none of it)
    site.ask("GET", f"/vehicles/1/manifest/{TOMORROW}", "manifest")
    for _ in range(100):
        logged = read_file(f"{site.folder}/access.log").decode().splitlines()[-1]
        if '"GET /(path) ' in logged:
            break
        time.sleep(0.05)
    yield None if '"GET /(path) HTTP/1.1" 401' in logged else f"a key that is a word of a path, in nginx's own log: {logged}"
    since = site.far()
    site.ask(
        "GET", "/riders/7/trips", "hello", more=[("Desk-From", "-"), ("Desk-Address", "9.9.9.9")]
    )
    [line] = site.new_lines(since, 1)
    yield None if line["from"].startswith(
        "127.0.2"
    ) else f"the sender says from where a request comes: {line}"


def faults_of_bodies(site):
    """A body of any bytes, up to 16,384 of them, is a line that is JSON, and is there whole where it did something."""
    chance = random.Random(5)
    wish = json.dumps({"rider": 9, **TRIP, "wish": 800}, default=str)[:-1].encode()
    bodies = [
        b'\xff\x00\x80"\\\n\r',
        "\u2028\u0085é\U0001f68c".encode(),
        chance.randbytes(16_384),
        b'"' * 16_384,
        b'{"a":"' + b"x" * 3_000 + b'"}',
        b"\n\n{}",
    ]
    for body in bodies:
        since = site.far()
        status, _ = site.write("/trips", "hello", body)
        [line] = site.new_lines(since, 1)
        got = (
            base64.b64decode(line["body64"]) if "body64" in line else line.get("body", "").encode()
        )
        yield difference(
            "the body of a refused write", (status, body[:2_048]), (line["status"], got)
        )
    long = wish + b',"more":"' + b"y" * 16_000 + b'"}'
    since = site.far()
    status, reply = site.write("/trips", "hello", long)
    [line] = site.new_lines(since, 1)
    yield difference(
        "a long body that was taken",
        (200, long.decode(), reply),
        (line["status"], line.get("body"), line.get("reply")),
    )
    site.write(f"/trips/{json.loads(reply)['trip']}/cancel", "hello", {})
    since = site.far()
    for key, path in (
        ("hello", "/trips/" + "k" * 2_000),
        ("hello", "/callers?key=" + KEYS["late"]),
    ):
        site.ask("GET", path, key)
    got = site.new_lines(since, 2)
    yield difference("a long path", (512, "/callers"), (len(got[0]["path"]), got[1]["path"]))
    # Somebody else's key, in the shape that the pages give it. The number of a report has that shape too, and stays.
    lost, report = "0123456789abcdefghjkmnpqrs", "7q2m0c5t8w1z4x6v9b3n5k7p0r"
    since = site.far()
    for method, path in (
        ("GET", f"/record/trip?number=1&key={lost}"),
        ("GET", f"/riders/%20{lost}/trips"),
        (
            "POST",
            f"/tally/notes?id={report}&vehicle=1&day={TOMORROW}&trip=0&text=key%20{lost}&at={TOMORROW}T09:00:00",
        ),
    ):
        site.ask(
            method, path, "radio", number=site.numbers.get("radio", 0) if method == "POST" else None
        )
    got = [it["path"] for it in site.new_lines(since, 3)]
    yield None if not any(lost in it for it in got) and f"id={report}&" in got[
        -1
    ] else f"a key in a path: {got}"


def faults_of_spellings(site):
    """A key that the pages made stands in no file, however it is spelled: the sender's own, and another one's from a card."""
    cards = ["37fy5-1w9sg-7q2m0-c5t8w-1z4x6-v", "9b3n5-k7p0r-0a1b2-c3d4e-5f6g7-h"]
    for card, is_own in zip(cards, (True, False)):
        made = card.replace("-", "")
        if is_own:
            yield difference("a made key is put", 200, put_key(site, 66, "dispatcher", made))
        KEYS.update(
            {
                f"{made} as it is": made,
                f"{made} on a card": card,
                f"{made} in capitals": made.upper(),
                f"{made} with blanks": card.replace("-", " "),
            }
        )
        key = made if is_own else "radio"
        spelled = [
            made,
            card,
            card.upper(),
            card.replace("-", "%2D"),
            card.replace("-", "%20"),
            base64.b64encode(f"my key {card}".encode()).decode(),
            base64.urlsafe_b64encode(f"{made}!".encode()).decode().rstrip("="),
            "".join(f"%{ord(it):02x}" for it in card),
        ]
        KEYS.update({it: it for it in spelled})
        since = site.far()
        for text in spelled:
            site.ask("GET", f"/riders/{text}/trips", key)
            site.ask("GET", f"/riders/{text}/trips", None)
            site.ask("GET", f"/record/trip?number={text}", key)
            for sender in key, None:
                site.ask("GET", f"/{text}", sender)
                # (what is no path of the desk has no line)
                site.owed -= 1
            site.write(
                "/riders/7/entries", key, {"entry": "refuse", "reasons": f"he said {text} twice"}
            )
            note = f"/tally/notes?id=7q2m0c5t8w1z4x6v9b3n5k7p0r&vehicle=1&day={TOMORROW}&trip=0&text={urllib.parse.quote(text, safe='')}&at={TOMORROW}T09:00:00"
            yield difference("a note with a key", 204, site.ask("POST", note, key, number=0)[0])
        escaped = "".join(f"\\u{ord(it):04x}" for it in card)
        KEYS[escaped] = escaped
        site.write("/riders/7/entries", key, f'{{"entry":"refuse","reasons":"{escaped}"}}'.encode())
        got = site.new_lines(since, 5 * len(spelled) + 1)
        shown = [
            it
            for it in got
            if "(key)" not in it["path"] + it.get("body", "")
            and not (it["path"].startswith("/tally/"))
        ]
        yield None if not shown else f"lines that hide no key: {shown[:2]}"
        yield difference(
            "hidden bodies", len(spelled) + 1, sum(it.get("hidden", False) for it in got)
        )
    since = site.far()
    site.write(
        "/riders/7/entries",
        "hello",
        {
            "entry": "refuse",
            "reasons": "rides 10001 10002 10003 10004 10005 7 and hears seven bands sweet, x",
        },
    )
    [line] = site.new_lines(since, 1)
    yield None if "10001 10002 10003 10004 10005 7" in line[
        "body"
    ] else f"numbers that are no key: {line}"


def faults_of_leaving(site):
    """The promise of a booking is on record though nobody waited for it."""
    body = json.dumps({"rider": 9, **TRIP, "wish": 1000}, default=str).encode()
    for is_own in False, True:
        since = site.far()
        line = site.line(is_own)
        number = site.numbers["hello"] = site.numbers["hello"] + 1
        line.putrequest("POST", "/trips")
        for name, value in (
            ("Desk-Key", "hello"),
            ("Desk-Number", str(number)),
            ("Content-Length", str(len(body))),
        ):
            line.putheader(name, value)
        line.endheaders(body)
        line.sock.setsockopt(socket.SOL_SOCKET, socket.SO_LINGER, b"\1\0\0\0\0\0\0\0")
        line.close()
        site.owed += 1
        told = site.new_lines(since, 1)
        yield None if told and "window_from" in told[0].get(
            "reply", ""
        ) else f"a sender who left, own door {is_own}: {told}"
        if told and told[0].get("reply"):
            site.write(f"/trips/{json.loads(told[0]['reply'])['trip']}/cancel", "hello", {})


def faults_of_http2(site):
    """Each request of a line by HTTP/2 has its line, with the body and the reply; several at once, as a browser asks."""
    since, bodies = site.far(), [
        json.dumps(
            {"rider": 9, **TRIP, "wish": 700 + at, "more": "\u00e9" * 3_000},
            default=str,
            ensure_ascii=False,
        )
        for at in range(5)
    ]
    names = [f"{site.folder}/body-{at}" for at in range(5)]
    words = [
        "curl",
        "--silent",
        "--insecure",
        "--http2",
        "--parallel",
        "--write-out",
        "%{http_version} ",
    ]
    for at, (name, body) in enumerate(zip(names, bodies)):
        Path(name).write_text(body, "utf-8")
        site.numbers["radio"] = site.numbers.get("radio", 100) + 1
        words += ["--next"] if at else []
        words += [
            "--silent",
            "--insecure",
            "--http2",
            "--header",
            "Desk-Key: radio",
            "--header",
            f"Desk-Number: {site.numbers['radio']}",
            "--data-binary",
            f"@{name}",
            "--output",
            f"{name}-reply",
            "--write-out",
            "%{http_version} ",
            f"https://127.0.0.1:{site.tls}/trips",
        ]
    words += [
        "--next",
        "--silent",
        "--insecure",
        "--http2",
        "--header",
        "Desk-Key: hello",
        "--output",
        "/dev/null",
        "--write-out",
        "%{http_version} ",
        f"https://127.0.0.1:{site.tls}/riders/7/trips",
    ]
    told = subprocess.run(words, capture_output=True, text=True, timeout=SECONDS)
    site.owed += 6
    yield difference("the version of the line", ["2"] * 6, told.stdout.split())
    got = site.new_lines(since, 6)
    yield difference(
        "bodies by HTTP/2", sorted(bodies), sorted(it["body"] for it in got if "body" in it)
    )
    replies = [open(f"{name}-reply", encoding="utf-8").read() for name in names]
    yield difference(
        "replies by HTTP/2", sorted(replies), sorted(it["reply"] for it in got if "reply" in it)
    )
    yield difference(
        "a read by HTTP/2",
        [("/riders/7/trips", 200, digits("hello"))],
        [(it["path"], it["status"], it["who"]) for it in got if it["method"] == "GET"],
    )
    for line in got:
        if line.get("status") == 200 and "window_from" in line.get("reply", ""):
            site.write(f"/trips/{json.loads(line['reply'])['trip']}/cancel", "radio", {})


def faults_of_alike(site):
    """Two keys whose digests share their first 12 digits: each answer names both callers, and callers.csv marks them."""
    numbers, keys = (60, 61), ("alike-05633559-key", "alike-20634608-key")
    yield difference("digits of the two keys", ["4ca9f583220e"] * 2, [digits(it) for it in keys])
    for number, key, name in zip(numbers, keys, ("Ada Cole", "Ben Diaz")):
        yield difference("a key is put", 200, put_key(site, number, "clerk", key, name=name))
        site.write("/riders", key, {"id": 900 + number, "kind": "visitor", "attendant": False})
    told = site.take()
    yield None if "the keys of callers 60 and 61 begin alike" in told.stderr else f"the unit's word on keys that begin alike: {told}"
    both = "not certain: Ada Cole, clerk (caller 60) or Ben Diaz, clerk (caller 61)"
    for number in numbers:
        rows = {it["what"]: it["who"] for it in site.answer("caller", number)}
        yield difference(
            f"the later line, asked for caller {number}",
            both,
            rows.get("put the record of rider 961"),
        )
    rows = {it["what"]: it["who"] for it in site.answer("caller", 60)}
    yield difference(
        "the line before there were two",
        "Ada Cole, clerk (caller 60)",
        rows.get("put the record of rider 960"),
    )
    with open(f"{site.folder}/journal/callers.csv", encoding="utf-8") as file:
        marks = {
            it["number"]: it["alike"]
            for it in csv.DictReader(file)
            if it["digits"] == "4ca9f583220e"
        }
    yield difference("callers.csv", {"60": "61", "61": "60"}, marks)
    notes = [it["note"] for it in site.answer("keys") if "AMBIGUOUS" in it["note"]]
    yield difference("keys that begin alike", 2, len(notes))
    own = site.journal("own", 961, "--csv").stdout
    yield None if "the agency (clerk)" in own and "Ben" not in own and "Ada" not in own else f"a rider's own copy: {own}"


# What is played, and shown by one command.


def faults_of_theft(site):
    """Somebody has the rider's key: a trip is moved, another one canceled. Whose trip, what was promised before, from where."""
    booked = [
        json.loads(site.write("/trips", "mine", {"rider": 7, **TRIP, "wish": it})[1])
        for it in (800, 900)
    ]
    moved, gone = booked
    later = {**TRIP, "wish": 1_100, "to": 3}
    yield difference(
        "the trip is moved", 200, site.write(f"/trips/{moved['trip']}/change", "mine", later)[0]
    )
    yield difference(
        "a trip is canceled", 200, site.write(f"/trips/{gone['trip']}/cancel", "mine", {})[0]
    )
    yield difference("once more", 422, site.write(f"/trips/{gone['trip']}/cancel", "mine", {})[0])
    site.ask("GET", "/riders/7/trips", "mine")
    site.take()
    told = site.answer("trip", moved["trip"])
    before = f"pickup {moved['window_from'] // 60 % 12 or 12}:{moved['window_from'] % 60:02}"
    yield difference(
        "what happened to the moved trip",
        ["booked", "changed"],
        [it["what"].split()[0] for it in told],
    )
    yield None if f"promised before: {TOMORROW}, {before}" in told[-1][
        "details"
    ] else f"what was promised: {told[-1]}"
    told = site.answer("trip", gone["trip"])
    wanted = [("booked", "done"), ("canceled", "done"), ("asked", "refused (desk.over)")]
    yield difference(
        "what happened to the canceled trip",
        wanted,
        [(it["what"].split()[0], it["outcome"]) for it in told],
    )
    yield None if all(
        it["who"].startswith("rider of rider 7") and it["address"].startswith("127.0.")
        for it in told
    ) else f"{told}"
    did = [it["what"] for it in site.answer("caller", 7)]
    yield None if f"canceled trip {gone['trip']} of Ana (rider 7)" in did and "read all trips of Ana (rider 7)" in did else f"{did}"
    read = site.answer("rider", 7, "--from", "2000-01-01", "--without-lists")
    yield None if any(
        "read all trips" in it["what"] for it in read
    ) else f"who read what of rider 7: {read}"
    yield difference("days with nothing", [], site.answer("rider", 7, "--to", "2000-01-01"))


def put_key(site, number, role, key, **more):
    digest = hashlib.sha256(key.encode()).hexdigest()
    return site.write(
        "/callers", ADMINS_KEY, {"id": number, "role": role, "subject": 0, "digest": digest, **more}
    )[0]


def faults_of_borrowing(site):
    """The admin gives another's number a key of his own, decides, and puts the former key back; also of a key on record."""
    yield difference(
        "a key with a name", 200, put_key(site, 8, "examiner", KEYS["second"], name="Rosa Peña")
    )
    site.ask("GET", f"/riders/7/standing/{TOMORROW}", KEYS["second"])
    for number, rider, own in ((4, 11, "panel"), (8, 12, KEYS["second"])):
        role = "examiner"
        site.write("/riders", "hello", {"id": rider, "kind": "resident", "attendant": False})
        site.write(f"/riders/{rider}/entries", "hello", {"entry": "complete"})
        put_key(site, number, role, KEYS["insider"])
        status = site.write(
            f"/riders/{rider}/entries",
            KEYS["insider"],
            {"entry": "refuse", "reasons": "walks to the bus stop"},
        )[0]
        yield difference("a decision by the borrowed key", 200, status)
        yield difference("the former key is put back", 200, put_key(site, number, role, own))
    site.take()
    told = site.answer("keys")
    found = [it["what"] for it in told if "BORROWED" in it["note"]]
    yield difference("borrowed keys", ["caller 4", "caller 8"], sorted(it[14:22] for it in found))
    borrowed = [it for it in told if "BORROWED" in it["note"]]
    yield None if all(
        it["who"].endswith("admin (caller 1)") and "used once" in it["note"] for it in borrowed
    ) else f"{borrowed}"
    yield None if all(
        "put by one person for another" in it["note"] for it in borrowed
    ) else f"{borrowed}"
    names = [it["who"] for it in site.answer("caller", 8)]
    yield None if names and names[
        0
    ] == "Rosa Peña, examiner (caller 8)" else f"the name of caller 8: {names}"
    text = Path(f"{site.folder}/journal/callers.csv").read_text("utf-8")
    yield difference("the digits of a name's key", 2, text.count(digits(KEYS["second"])))
    own = site.journal("own", 11, "--csv").stdout
    yield None if "walks to the bus stop" in own and "Rosa" not in own and "(caller" not in own else f"a rider's own copy: {own}"
    standing = site.answer("standing", 11)
    yield None if any(
        "reasons: walks to the bus stop" in it["details"] for it in standing
    ) else f"{standing}"


def faults_of_chain(site):
    """What was taken holds, is signed, and stands elsewhere; one sign that is changed is named."""
    told = site.take()
    yield difference("taken", (0, ""), (told.returncode, told.stderr))
    told = site.journal(
        "verify", "--public", f"{site.folder}/record.pub", "--elsewhere", f"{site.folder}/offsite"
    )
    yield None if told.returncode == 0 and told.stdout.startswith(
        "the record holds: "
    ) else f"verify: {told}"
    copy = f"{site.folder}/changed"
    shutil.copytree(f"{site.folder}/journal", copy)
    [path] = [f"{copy}/record/{it}" for it in os.listdir(f"{copy}/record") if it.endswith(".jsonl")]
    content = Path(path).read_bytes()
    at = content.index(b"/cancel")
    entry = content[: content.rindex(b"\n", 0, at)].count(b"\n") + 2
    Path(path).write_bytes(content.replace(b"/cancel", b"/change", 1))
    told = site.journal("verify", folder=copy)
    yield None if told.returncode == 1 and f"line {entry}: entry {entry} was changed" in told.stdout else f"a changed line {entry}: {told}"
    for question in ("trip", 1), ("keys",), ("own", 7), ("standing", 7):
        told = site.journal(*question, folder=copy)
        is_said = (
            told.returncode == 1
            and told.stdout.startswith("This record does not hold: ")
            and f"line {entry}: " in told.stdout.split("\n")[0]
        )
        yield None if is_said else f"{question} of a changed record: {told.stdout[:300]}"
    with open(f"{copy}/callers.csv", "rb+") as file:
        file.truncate(300)
    told = site.journal("keys", folder=copy)
    yield None if told.returncode == 2 and "callers.csv, row " in told.stderr and told.stderr.count(
        "\n"
    ) == 1 else f"callers.csv cut to 300 bytes: {told}"
    Path(path).write_bytes(content[: content.rindex(b"\n", 0, -1) + 1])
    told = site.journal("verify", folder=copy)
    yield None if told.returncode == 3 else f"the last line gone, where a head names it: {told}"
    shutil.rmtree(copy)


def faults_of_corrections(site):
    path = f"{site.folder}/corrections.csv"
    Path(path).write_text("trip,outcome,who,why\n1,ridden,Rosa Peña,=the van was there\n", "utf-8")
    site.take(), site.take()
    told = [it for it in site.answer("trip", 1) if it["what"] == "corrected the outcome"]
    yield difference(
        "a correction",
        [("Rosa Peña", "outcome: ridden; who: Rosa Peña; why: =the van was there")],
        [(it["who"], it["details"]) for it in told],
    )


def faults_of_page(site):
    """The record answers officers and admins alone, by the site; who asked it is a line too."""
    words = [
        f"{TOP}/bin/journal",
        "--folder",
        f"{site.folder}/journal",
        "--agency",
        f"{site.folder}/site/agency.json",
    ]
    server = subprocess.Popen(
        [
            *words,
            "serve",
            f"{site.folder}/socket",
            "--roster",
            f"{site.folder}/site/staff/roster.csv",
        ]
    )
    try:
        for _ in range(200):
            if os.path.exists(f"{site.folder}/socket"):
                break
            time.sleep(0.05)
        for role, key in ROLES.items():
            wanted = (
                200 if role in ("officer", "admin") else 401 if role in ("nobody", "none") else 403
            )
            yield difference(
                f"the record for {role}", wanted, site.ask("GET", "/record/keys", key)[0]
            )
        since = site.far()
        status, body = site.ask("GET", "/record/standing?number=11", "bench")
        told = json.loads(body)
        yield None if status == 200 and any(
            "walks to the bus stop" in it[4] for it in told["rows"]
        ) else f"standing: {body}"
        [line] = site.new_lines(since, 1)
        yield difference(
            "its line",
            ("/record/standing?number=11", 200, digits("bench")),
            (line["path"], line["status"], line["who"]),
        )
        read = site.answer("rider", 11, "--without-lists")
        yield None if any(
            it["what"] == "read the record: standing 11" for it in read
        ) else f"who asked the record: {read}"
        for path in (
            "/record/",
            "/record/trip",
            "/record/trip?number=x",
            "/record/keys?from=soon",
            "/record/none?number=1",
            "/record/trip?number=0",
            f"/record/trip?number={'9' * 5_000}",
        ):
            yield difference(path[:40], 404, site.ask("GET", path, "bench")[0])
        yield difference(
            "a write to the record",
            (405, '{"denied":"http.method"}'),
            site.ask("POST", "/record/keys", "bench", {}),
        )
        # (what the site refuses by its form alone has no line)
        site.owed -= 1
    finally:
        server.terminate()
        server.wait(SECONDS)
    yield difference("no record answers", 502, site.ask("GET", "/record/keys", "bench")[0])


# Programs that write.


def program_files(folder):
    """What standing orders and move-in read."""
    last = TOMORROW + datetime.timedelta(days=3)
    texts = {
        "clerk.key": "hello",
        "admin.key": ADMINS_KEY,
        "dispatcher.key": "radio",
        "examiner.key": "panel",
        "orders.json": '{"subscription_share": null, "clock": 24}',
        "orders.csv": f"rider,weekdays,wish,by,from,to,companions,attendant,first_day,last_day,skip_days,order\n7,1-7,9:00,,1,2,,,,{last},,\n",
        "callers.csv": "number,name,role,subject\n40,Rosa Peña,clerk,\n",
        "riders.csv": "number,kind,attendant\n44,visitor,no\n",
    }
    for name, text in texts.items():
        Path(f"{folder}/{name}").write_text(text, "utf-8")


def run_program(folder, *words):
    return subprocess.run(
        [f"{TOP}/bin/{words[0]}", *map(str, words[1:])],
        cwd=folder,
        env={**os.environ, "TZ": ZONE},
        capture_output=True,
        text=True,
        timeout=SECONDS * 4,
    )


def faults_of_programs(program, folder):
    """Standing orders, move-in by both doors and driving times leave their lines, and the replay explains each row."""
    copy_keys(os.path.dirname(folder), folder)
    program_files(folder)
    file, before, after = make_agency(program, folder), f"{folder}/before.db", f"{folder}/after.db"
    copy_database(file, before)
    with Desk(program, file) as desk, Site(folder, desk) as site:
        site.journal("callers", before)
        own, net = f"http://127.0.0.2:{desk.port}", (
            f"https://localhost:{site.tls}",
            "--certificate",
            "certificate.pem",
        )
        told = run_program(
            folder,
            "standing-orders",
            "orders.csv",
            "--url",
            own,
            "--clerk",
            "clerk.key",
            "--agency",
            "orders.json",
        )
        yield None if told.returncode == 0 else f"standing orders: {told}"
        told = run_program(
            folder, "move-in", "callers", "callers.csv", "--url", own, "--admin", "admin.key"
        )
        yield None if told.returncode == 0 else f"move-in on the machine: {told}"
        told = run_program(
            folder,
            "move-in",
            "riders",
            "riders.csv",
            "--url",
            *net,
            "--clerk",
            "clerk.key",
            "--examiner",
            "examiner.key",
        )
        yield None if told.returncode == 0 else f"move-in by the site: {told}"
        yield difference("a key", 200, put_key(site, 41, "examiner", KEYS["second"]))
        site.write("/riders", "hello", {"id": 45, "kind": "resident", "attendant": False})
        site.write("/riders/45/entries", "hello", {"entry": "complete"})
        has_own = {"entry": "refuse", "reasons": f"my key is {KEYS['second']}"}
        yield difference(
            "reasons with one's own key",
            200,
            site.write("/riders/45/entries", KEYS["second"], has_own)[0],
        )
        # (nginx writes a line after its reply)
        for _ in range(100):
            if any(it["who"] == digits(KEYS["second"]) for it in site.lines()):
                break
            time.sleep(0.05)
        got = {
            (it["door"], it["who"], it["path"])
            for it in site.lines()
            if it["method"] == "POST" and it["status"] == 200
        }
    day = TOMORROW + datetime.timedelta(days=60)
    told = site.journal(
        "travel",
        file,
        ZONE,
        f"{folder}/dispatcher.key",
        90,
        day,
        f"{folder}/times.csv",
        "--program",
        program,
    )
    yield difference("driving times", (0, "done\n"), (told.returncode, told.stdout))
    got |= {(it["door"], it["who"], it["path"]) for it in site.lines() if it["method"] == "TRAVEL"}
    wanted = {
        ("own", digits("hello"), "/trips"),
        ("own", digits(ADMINS_KEY), "/callers"),
        ("site", digits("hello"), "/riders"),
        ("file", digits("radio"), f"/travel/{day}"),
        ("site", digits(ADMINS_KEY), "/callers"),
        ("site", digits("hello"), "/riders/45/entries"),
        ("site", digits(KEYS["second"]), "/riders/45/entries"),
    }
    yield difference("the lines of programs that write", wanted, got)
    site.owed = 0
    yield difference("taken", 0, site.take().returncode)
    names = {it["who"] for it in site.answer("keys")} | {it["what"] for it in site.answer("keys")}
    yield None if any(
        "Rosa Peña" in it for it in names
    ) else f"the name that move-in sends: {names}"
    copy_database(file, after)
    if not missing_faketime():
        told = check(site, program, before, after)
        yield None if told.returncode == 0 and "each row is explained" in told.stdout else f"the replay of programs: {told}"
        yield None if "not sure: entries, rider 45" in told.stdout and KEYS[
            "second"
        ] not in told.stdout else f"reasons that have a key: {told}"


# The replay.


def check(site, program, before, after, *more):
    return site.journal("check", before, after, "--program", program, "--zone", ZONE, *more)


def faults_of_replay(program, folder, count):
    """Random requests of all roles under a clock that steps: each row is explained. Of what was done beside the record, each
    row is named. Half way the record is taken in, driving times are given, and another nginx and desk go on with it.
    """
    if missing_faketime():
        print("tests/journal: skipped: the replay, for lack of faketime")
        return
    os.makedirs(f"{folder}/offsite")
    copy_keys(os.path.dirname(folder), folder)
    file, before, after = make_agency(program, folder), f"{folder}/before.db", f"{folder}/after.db"
    copy_database(file, before)
    walk = Walk(11, Clock(folder))
    for part, zone in enumerate(["Pacific/Kiritimati", "Pacific/Pago_Pago"]):
        with clocked(walk.clock):
            desk = Desk(program, file)
        with desk, Site(folder, desk, walk.clock) as site:
            site.journal("callers", before) if part == 0 else None
            # (it is never the same day in both zones, so the record has a closed file)
            with open(f"{folder}/site/agency.json", "w", encoding="utf-8") as text:
                json.dump({"name": "Town", "zone": zone}, text)
            site.numbers = walk.numbers
            walk.begin(site) if part == 0 else None
            walk.asked(site, count // 2)
            told = site.take()
            yield difference("taken", (0, ""), (told.returncode, told.stderr))
        given = (
            site.journal(
                "travel",
                file,
                ZONE,
                radio(folder, walk),
                walk.next_number("dispatcher"),
                walk.clock.now().date() + datetime.timedelta(days=400),
                f"{folder}/times.csv",
                "--program",
                program,
            )
            if part == 0
            else None
        )
        yield difference(
            "driving times", (0, "done\n"), (given.returncode, given.stdout)
        ) if given else None
    copy_database(file, after)
    print(f"tests/journal: {walk.made} requests, of which {walk.taken} writes were taken")
    began = time.monotonic()
    told = check(site, program, before, after)
    print(
        f"tests/journal: replayed in {time.monotonic() - began:.0f} seconds: {told.stdout.splitlines()[-1:]}"
    )
    yield None if told.returncode == 0 and "each row is explained; 0 writes went otherwise" in told.stdout else f"{count} requests: {told}"
    told = site.journal(
        "verify", "--public", f"{folder}/record.pub", "--elsewhere", f"{folder}/offsite"
    )
    yield None if told.returncode == 0 else f"the record of the walk: {told}"
    yield from faults_of_root(site, program, before, after)
    yield from faults_of_past(site, program, file, before, walk)
    for key in walk.keys_made:
        KEYS[f"walk {key}"] = key


def faults_of_two_sites(program, folder):
    """The desk goes to another machine and back. The replay takes both records; of one alone it names what the other has."""
    if missing_faketime():
        return
    rooms = [f"{folder}/first", f"{folder}/second"]
    for room in rooms:
        os.makedirs(f"{room}/offsite")
        copy_keys(os.path.dirname(folder), room)
    file, before, after = make_agency(program, folder), f"{folder}/before.db", f"{folder}/after.db"
    copy_database(file, before)
    walk, sites = Walk(29, Clock(folder)), []
    for at, room in enumerate([rooms[0], rooms[1], rooms[0]]):
        with clocked(walk.clock):
            desk = Desk(program, file)
        with desk, Site(room, desk, walk.clock) as site:
            site.journal("callers", before) if at < 2 else None
            site.numbers = walk.numbers
            walk.begin(site) if at == 0 else None
            walk.asked(site, 60)
            yield difference("taken", 0, site.take().returncode)
        sites.append(site)
    copy_database(file, after)
    told = check(sites[0], program, before, after, "--also", f"{rooms[1]}/journal")
    yield None if told.returncode == 0 and "each row is explained; 0 writes went otherwise" in told.stdout else f"two sites' records: {told}"
    told = check(sites[0], program, before, after)
    yield None if told.returncode == 4 else f"the record of one site alone: {told}"
    told = check(sites[0], program, before, after, "--also", folder)
    yield None if told.returncode == 1 and f"there is no record in {folder}" in told.stderr else f"no other record: {told}"


def copy_keys(source, folder):
    os.makedirs(f"{folder}/offsite", exist_ok=True)
    for name in "key.pem", "certificate.pem", "record", "record.pub":
        shutil.copy(f"{source}/{name}", f"{folder}/{name}")


def radio(folder, walk):
    """A file with the dispatcher's key."""
    path = f"{folder}/dispatcher.key"
    Path(path).write_text(walk.keys["dispatcher"], "utf-8")
    return path


def faults_of_root(site, program, before, after):
    """Root changes a decision, the desk being stopped."""
    with contextlib.closing(sqlite3.connect(after)) as database:
        [(rider, place, words)] = database.execute(
            "SELECT rider, place, words FROM entries WHERE kind = 2 LIMIT 1"
        ).fetchall()
        database.execute(
            "UPDATE entries SET words = 'rider asked for it', day = day - 30 WHERE rider = ? AND place = ?",
            (rider, place),
        )
        database.execute("UPDATE trips SET status = 3 WHERE id = 1")
        database.execute(
            "UPDATE callers SET digest = ? WHERE id = 2", (hashlib.sha256(ROOTS.encode()).digest(),)
        )
        database.commit()
    told = check(site, program, before, after)
    named = (
        f"entries, rider {rider}, place {place}: ",
        f"words is 'rider asked for it', by the record {words!r}",
    )
    yield None if told.returncode == 4 and all(
        it in told.stdout for it in named
    ) else f"root's decision: {told}"
    yield None if "trips, id 1: status is 3, by the record" in told.stdout else f"root's trip: {told}"
    is_named = f"callers, id 2: the key is {digits(ROOTS)}, by the record " in told.stdout
    yield None if is_named else f"root's key for a clerk: {told}"


def faults_of_past(site, program, file, before, walk):
    """A write by the desk's own port passes the site: no line has its number."""
    after = f"{site.folder}/past.db"
    copy_database(file, after)
    with clocked(site.clock), Desk(program, after) as desk:
        reply = desk.post(
            "/riders",
            walk.keys["clerk"],
            4_000_000,
            {"id": 4_000_000, "kind": "visitor", "attendant": False},
        )
    told = check(site, program, before, after)
    is_named = (
        "kept, caller 2: its last write has the number 4000000, and no line names it" in told.stdout
    )
    yield None if reply.status == 200 and told.returncode == 4 and is_named and "riders, id 4000000: no line explains" in told.stdout else f"{told}"


def faults_of_away(site):
    """What is asked while the desk is away has its line too, by both doors."""
    site.desk.kill()
    # (a key stands in a path: nginx's own log of errors quotes no path)
    key = "0w9s5n3k1f7y4q6m2c8t5w1z4x"
    KEYS["a key in the path of a desk that is away"] = key
    asked = [
        ("GET", "/riders/7/trips", False),
        ("POST", "/trips", False),
        ("GET", "/staff/roster.csv", False),
        ("GET", "/riders/7/trips", True),
        ("POST", "/trips", True),
        ("GET", f"/riders/{key}/trips", False),
        ("GET", f"/riders/{key}/trips", True),
    ]
    since = site.far()
    for method, path, is_own in asked:
        site.ask(
            method,
            path,
            "hello",
            {} if method == "POST" else None,
            is_own,
            9_000 if method == "POST" else None,
        )
    wanted = [
        ("own" if is_own else "site", digits("hello"), method, path.replace(key, "(key)"), 502)
        for method, path, is_own in asked
    ]
    got = [
        (it["door"], it["who"], it["method"], it["path"], it["status"])
        for it in site.new_lines(since, len(asked))
    ]
    yield difference("lines while the desk is away", sorted(wanted), sorted(got))


# No key anywhere.


def faults_of_secrets(site, file):
    """Every key of the agency is looked for in every file that the site writes."""
    keys = [
        it.encode()
        for it in [
            *KEYS.values(),
            "a key of nobody at all",
        ]
    ]
    keys += [b"\xff\xfe odd", b"\xff\xfd odd"]
    # (a word that is also one of paths, roles or reasons is no find)
    words = [
        b'"%s"' % it.encode()
        for it in ("hello", "panel", "bench", "radio", "wheel", "mine", ADMINS_KEY)
    ]
    looked = 0
    for place, _, names in os.walk(site.folder):
        for name in names:
            path = f"{place}/{name}"
            if (
                not os.path.isfile(path)
                or path.startswith(f"{site.folder}/site/")
                or name in ("times.csv",)
                or path.startswith(file)
                or name.endswith(".db")
            ):
                continue
            text = Path(path).read_bytes()
            looked += 1
            found = [it for it in keys + words if it in text]
            if found:
                yield f"{path} has the key {found[0]!r}"
    yield None if looked > 8 else f"only {looked} files were looked at"


def faults(program, folder, count):
    file = make_agency(program, folder)
    words = "openssl req -x509 -newkey ec -pkeyopt ec_paramgen_curve:P-256 -nodes -days 2".split()
    words += ["-subj", "/CN=localhost", "-keyout", f"{folder}/key.pem"]
    words += ["-out", f"{folder}/certificate.pem"]
    subprocess.run(words, check=True, capture_output=True, timeout=SECONDS)
    subprocess.run(
        ["ssh-keygen", "-q", "-t", "ed25519", "-N", "", "-f", f"{folder}/record"],
        check=True,
        timeout=SECONDS,
    )
    os.mkdir(f"{folder}/offsite")
    copy_database(file, f"{folder}/before.db")
    with Desk(program, file) as desk, Site(folder, desk) as site:
        told = site.journal("callers", f"{folder}/before.db")
        yield difference("callers who are older than the record", 0, told.returncode)
        yield from faults_of_roles(site)
        yield from faults_of_keys(site)
        yield from faults_of_bodies(site)
        yield from faults_of_spellings(site)
        yield from faults_of_leaving(site)
        yield from faults_of_http2(site)
        yield from faults_of_theft(site)
        yield from faults_of_alike(site)
        yield from faults_of_borrowing(site)
        yield from faults_of_chain(site)
        yield from faults_of_corrections(site)
        yield from faults_of_page(site)
        for name in "programs", "sites", "walk":
            os.mkdir(f"{folder}/{name}")
        yield from faults_of_programs(program, f"{folder}/programs")
        yield from faults_of_two_sites(program, f"{folder}/sites")
        yield from faults_of_replay(program, f"{folder}/walk", count)
        yield from faults_of_away(site)
        yield from faults_of_secrets(site, file)


def main(words):
    count = int(words[1]) if words[:1] == ["--requests"] else REQUESTS
    words = words[2:] if words[:1] == ["--requests"] else words
    program, _ = told_program(words, __doc__)
    missing = [it for it in ("nginx", "openssl", "ssh-keygen") if not shutil.which(it)]
    missing += [] if os.path.exists(LUA) else ["libnginx-mod-http-lua"]
    if missing:
        print(
            f"tests/journal: skipped: all of it, which takes {' and '.join(missing)}\n0 passed, 0 failed"
        )
        return 0
    with tempfile.TemporaryDirectory(prefix="desk-journal-") as folder:
        os.chmod(folder, 0o755)
        return tally("tests/journal", faults(program, folder, count))


if __name__ == "__main__":
    sys.exit(main(sys.argv[1:]))
