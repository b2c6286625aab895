"""Tries the demonstration office without a browser: `tests/office PROGRAM`.

It starts bin/office with that program, reads pages and replies behind nginx and behind the small proxy, and tries what
goes wrong: a second office, a taken port, other files, a program that is none. Where nginx is missing it says so. The
last line is 'N passed, M failed', and the exit status 1 where something failed.
"""
import contextlib
import datetime
import glob
import json
import os
import re
import shutil
import signal
import sqlite3
import subprocess
import sys
import tempfile
import threading
import time
import urllib.error
import urllib.request
import zoneinfo
from pathlib import Path

from desk_tools import agencies
from desk_tools.tree import TOP
from desk_tools.demo import mark
from serving import difference

ADDRESS = re.compile(r"(http://localhost:\d+)/")
SECONDS = 600
PUBLIC = set(
    """
    name telephone address zone first_weekday place_word clock languages wait_minutes idle_minutes
    appeal
    """.split()
)


class Running:
    """An office that runs until it is left by Ctrl+C."""

    def __init__(self, program, folder, *words):
        self.folder, self.program, self.lines = folder, program, []
        self.process = subprocess.Popen(
            [
                f"{TOP}/bin/office",
                folder,
                "--program",
                program,
                "--port",
                "0",
                "--no-browser",
                *words,
            ],
            stdout=subprocess.PIPE,
            stderr=subprocess.STDOUT,
            text=True,
            start_new_session=True,
            # Where the tests run in the background of a shell, Ctrl+C is ignored there.
            preexec_fn=lambda: signal.signal(signal.SIGINT, signal.SIG_DFL),
        )
        self.is_up = threading.Event()
        threading.Thread(target=self.read, daemon=True).start()
        if not self.is_up.wait(SECONDS) or not self.address:
            raise OSError(f"bin/office is not up: {self.said()}")

    def read(self):
        for line in self.process.stdout:
            self.lines.append(line)
            if "Ctrl+C ends" in line:
                self.is_up.set()
        self.is_up.set()

    def said(self):
        return "".join(self.lines)

    @property
    def address(self):
        found = ADDRESS.search(self.said())
        return found and found[1]

    def __enter__(self):
        return self

    def __exit__(self, *_):
        self.end()

    def end(self):
        if self.process.poll() is None:
            self.process.send_signal(signal.SIGINT)
        return self.process.wait(60)

    def key(self, who):
        return json.loads(Path(f"{self.folder}/keys.json").read_text("ascii"))[who]

    def ask(self, *words, **named):
        """The status, headers and text of a reply; where the site has had too much at once, it is asked again."""
        end = time.monotonic() + SECONDS
        while (reply := self.ask_once(*words, **named))[0] == 429 and time.monotonic() < end:
            time.sleep(1)
        return reply

    def ask_once(self, path, who=None, body=None, number=None, method=None):
        headers = {} if who is None else {"Desk-Key": self.key(who)}
        headers |= (
            {}
            if number is None
            else {"Desk-Number": str(number), "Content-Type": "application/json"}
        )
        content = None if body is None else json.dumps(body).encode()
        request = urllib.request.Request(self.address + path, content, headers, method=method)
        try:
            with urllib.request.urlopen(request, timeout=SECONDS) as reply:
                return reply.status, reply.headers, reply.read().decode()
        except urllib.error.HTTPError as reply:
            return reply.code, reply.headers, reply.read().decode()

    def json(self, path, who):
        return json.loads(self.ask(path, who)[2])


# What the site serves to whom.

DAY = "2026-01-01"
STATUSES = [
    ("/", None, 200),
    ("/desk.css", None, 200),
    ("/agency.json", None, 200),
    ("/none.html", None, 404),
    ("/places.json", None, 401),
    ("/places.json", "rider 104", 200),
    ("/places.json", "driver 1", 200),
    ("/staff/places.json", "clerk", 200),
    ("/staff/places.json", "dispatcher", 200),
    ("/staff/places.json", "rider 104", 403),
    ("/staff/worklist.html", "examiner", 200),
    ("/staff/worklist.html", "dispatcher", 200),
    ("/staff/worklist.html", "driver 5", 403),
    ("/staff/worklist.html", "rider 104", 403),
    ("/staff/worklist.html", None, 401),
    ("/staff/roster.csv", "examiner", 200),
    ("/staff/roster.csv", "officer", 200),
    ("/staff/roster.csv", "driver 5", 403),
    ("/staff/roster.csv", None, 401),
    ("/own/108/places.json", "rider 108", 200),
    ("/own/108/places.json", "rider 104", 403),
    ("/own/108/places.json", None, 401),
    ("/drivers/5/roster.csv", "driver 5", 200),
    ("/drivers/5/roster.csv", "driver 4", 403),
    ("/drivers/5/roster.csv", None, 401),
    ("/riders/104/trips", "rider 104", 200),
    ("/riders/104/trips", "rider 108", 403),
    ("/riders/104/trips", None, 401),
    ("/days/2026-02-30/sheet", "dispatcher", 404),
]


def faults_of_statuses(office):
    for path, who, wanted in STATUSES:
        status, headers, _ = office.ask(path, who)
        yield difference(f"{path} as {who}", wanted, status)
        if path == "/":
            for name in "Content-Security-Policy", "X-Content-Type-Options", "Referrer-Policy":
                yield None if headers[name] else f"{path} has no header {name}"
    status, _, text = office.ask("/staff/roster.csv", "clerk")
    yield difference("rows of the roster", 201, len(text.strip().splitlines()))
    status, headers, text = office.ask("/staff/worklist.html", "examiner")
    yield difference("the type of the page of what waits", "text/html", headers.get_content_type())
    yield None if "Applications to decide" in text and "280" in text else "the page of what waits lacks rider 280"


def faults_of_agency(office, is_unproved):
    """Everybody reads the names of the agency and nothing else; private places are private."""
    served = json.loads(office.ask("/agency.json")[2])
    yield difference(
        "the public agency.json", PUBLIC | ({"unproved"} if is_unproved else set()), set(served)
    )
    places = {it["id"]: it for it in office.json("/places.json", "rider 104")["places"]}
    yield difference("a home, to another rider", {"id": 29, "private": True}, places.get(29))
    yield difference("places", 30, len(places))
    own = office.json("/own/108/places.json", "rider 108")["places"]
    yield difference("a home, to its rider", ["26 Orchard Lane"], [it["name"] for it in own])


def today_of(office):
    return re.search(r", \w+day (\d{4}-\d\d-\d\d),", office.said())[1]


def moved(day, days):
    return time.strftime(
        "%Y-%m-%d",
        time.gmtime(time.mktime(time.strptime(day, "%Y-%m-%d")) - time.timezone + days * 86_400),
    )


def faults_of_town(office):
    """The made past is there, as the desk sees it."""
    today = today_of(office)
    standing = {
        rider: office.json(f"/riders/{rider}/standing/{today}", "clerk")
        for rider in (106, 110, 126, 280, 289)
    }
    yield difference("rider 280", "presumed", standing[280]["standing"])
    yield difference("rider 110", "appeal-overdue", standing[110]["standing"])
    yield difference("rider 126", "none", standing[126]["standing"])
    yield difference("rider 289", "none", standing[289]["standing"])
    yield difference("rider 106", True, standing[106]["suspended"])
    for days in range(-21, 11):
        lines = office.ask(f"/days/{moved(today, days)}/trips.csv", "dispatcher")[2].splitlines()
        yield None if len(lines) > 8 else f"day {days:+d} of the town has {len(lines) - 1} trips"
        open_ones = [it for it in lines[1:] if it.endswith("booked")]
        yield None if days >= 0 or not open_ones else f"day {days:+d} has trips without an outcome"


def trip_wish(office):
    return {
        "rider": 104,
        "day": moved(today_of(office), 12),
        "wish": 600,
        "from": 28,
        "to": 4,
        "by": None,
        "attendant": False,
        "companions": 0,
    }


def faults_of_writes(office, number):
    """A trip is booked by the clerk, once; a count of the pages is kept."""
    status, _, text = office.ask("/trips", "clerk", trip_wish(office), number)
    yield difference(f"a booking ({text})", 200, status)
    yield difference(
        "the same write again",
        (200, text),
        office.ask("/trips", "clerk", trip_wish(office), number)[::2],
    )
    words = f"id={'a' * 26}&day={today_of(office)}&minute=600&rule=no%20vehicle"
    yield difference(
        "a count without a key", 401, office.ask(f"/tally/denials?{words}", None, {}, None)[0]
    )
    yield difference("a count", 204, office.ask(f"/tally/denials?{words}", "clerk", {}, None)[0])
    yield difference("a count that is read", 405, office.ask(f"/tally/denials?{words}", "clerk")[0])
    with open(f"{office.folder}/nginx/tally.log", encoding="ascii") as file:
        lines = [it.rstrip("\n").split("\t")[1:] for it in file]
    path, begin = f"{office.folder}/site/staff/today.json", time.monotonic()
    while not os.path.exists(path) and time.monotonic() < begin + SECONDS:
        time.sleep(0.05)
    told = json.loads(office.ask("/staff/today.json", "clerk")[2])
    yield difference("the file of the day", today_of(office), told["day"])
    yield difference(
        "the log of counts", ["/tally/denials", words, "office"], lines[-1] if lines else None
    )


def faults_of_record(office):
    """Officers and admins read on the page Record who booked a trip, with its name; a clerk does not, and who asked is in it too."""
    trip = next(
        it["trip"]
        for it in office.json("/riders/104/trips", "clerk")["trips"]
        if it["day"] == trip_wish(office)["day"]
    )
    for who, wanted in ("officer", 200), ("admin", 200), ("clerk", 403):
        status, _, text = office.ask(f"/record/trip?number={trip}", who)
        yield difference(f"the record, asked by the {who}", wanted, status)
        rows = json.loads(text)["rows"] if status == 200 else []
        yield None if status != 200 or any(
            "clerk (caller" in it[1] and it[2].startswith("booked trip") for it in rows
        ) else f"the record of trip {trip}: {text}"
    begin, record = time.monotonic(), f"{office.folder}/nginx/journal/record"
    while (
        not any(b"/record/trip" in open(it, "rb").read() for it in glob.glob(f"{record}/*.jsonl"))
        and time.monotonic() < begin + SECONDS
    ):
        time.sleep(1)
    words = [
        f"{TOP}/bin/journal",
        "--folder",
        f"{office.folder}/nginx/journal",
        "--agency",
        f"{office.folder}/agency.json",
        "verify",
    ]
    told = subprocess.run(words, capture_output=True, text=True, timeout=SECONDS, check=False)
    yield None if told.returncode == 0 and "the record holds" in told.stdout else f"the office's record: {told}"


def faults_of_denial(office):
    """The log of a late trip that no van takes comes while the office serves."""
    path = f"{office.folder}/denied/README.txt"
    end = time.monotonic() + SECONDS
    while not os.path.exists(path) and time.monotonic() < end:
        time.sleep(0.2)
    with open(path, encoding="utf-8") as file:
        yield None if "It says: yes." in file.read() else "the log of the denied trip is not judged yes"
    log = Path(f"{office.folder}/denied/refusal.log").read_text("utf-8")
    yield None if log.rstrip().endswith("DONE") else "the log of the denied trip has no end"
    yield from faults_of_sentences(f"{office.folder}/denied/refusal.log", log)
    yield from faults_of_marks(office)
    yield from faults_of_units()


def faults_of_marks(office):
    """A denial that dispatch marked has a copy, once; the log is made from it, and the sentences from the log."""
    room, program = f"{office.folder}/denied", office.program
    os.makedirs(f"{room}/copies")
    mark = f"2026-11-30T09:00:00-06:00\t/tally/marks\tid={'7' * 26}&day=2026-12-06&minute=1300&at=2026-11-30T09:00:00\tdispatcher\n"
    pattern = f"serve {re.escape(office.folder)}/desk.db"
    env = {
        **os.environ,
        "FILE": f"{office.folder}/desk.db",
        "PROCESS": f"pgrep -o -f '{pattern}' || echo 0",
        "DESK": program,
        "TALLY": f"{room}/tally.log",
        "SETTINGS": room,
    }
    # (a zone in which it is another day than by UTC)
    zone = (
        "Pacific/Kiritimati"
        if datetime.datetime.now(datetime.timezone.utc).hour >= 10
        else "Pacific/Pago_Pago"
    )
    Path(f"{room}/main.json").write_text(json.dumps({"zone": zone}), "utf-8")
    helped = subprocess.run(
        [f"{TOP}/deploy/backup", "--help"],
        capture_output=True,
        text=True,
        timeout=SECONDS,
        check=False,
    )
    for words in "TALLY", "desk@AGENCY.\n", "a note of each beside it", "DESK,\nthe program":
        yield None if words in helped.stdout else f"backup --help leaves out {words!r}: {helped.stdout}"

    def run():
        words = [f"{TOP}/deploy/backup", "--for-denial", f"{room}/copies"]
        return subprocess.run(
            words, env=env, capture_output=True, text=True, timeout=SECONDS, check=False
        )

    for content, wanted in (
        ("", "no denial is marked that has no copy"),
        (mark, "1 marked denial: a trip asked for on 2026-12-06 at 21:40"),
        (mark, "no denial is marked that has no copy"),
    ):
        Path(f"{room}/tally.log").write_text(content, "utf-8")
        ran = run()
        yield None if ran.returncode == 0 and wanted in ran.stdout else f"--for-denial with {content!r}: {ran}"
    copies = glob.glob(f"{room}/copies/denial-*.db")
    yield difference("copies of one mark", 1, len(copies))
    yield from faults_of_rotation(run, f"{room}/tally.log", mark)
    day = datetime.datetime.now(zoneinfo.ZoneInfo(zone)).date().isoformat()
    yield None if day in os.path.basename(
        copies[0]
    ) else f"the copy has not the agency's day {day}: {copies[0]}"
    with open(f"{room}/README.txt", encoding="utf-8") as file:
        asked = re.search(r"desk explain desk.db (\S+) KEY (.*) >", file.read())
    log = subprocess.run(
        [program, "explain", copies[0], asked[1], office.key("dispatcher"), *asked[2].split()],
        capture_output=True,
        text=True,
        timeout=SECONDS,
        check=False,
    )
    told = subprocess.run(
        [f"{TOP}/bin/why", "-"],
        input=log.stdout,
        capture_output=True,
        text=True,
        timeout=SECONDS,
        check=False,
    )
    yield None if log.returncode == 0 and "cannot take the trip" in told.stdout else f"the copy's log: {log.returncode} {log.stdout[:100]} {told}"
    question = [
        "--copy",
        copies[0],
        "--desk",
        program,
        "--question",
        asked[1],
        office.key("dispatcher"),
        *asked[2].split(),
    ]
    yield from faults_of_checks(log.stdout, question)
    os.remove(f"{room}/tally.log")
    os.remove(f"{room}/main.json")
    shutil.rmtree(f"{room}/copies")


def faults_of_checks(log, question):
    """`bin/why` asks `desk audit`: the desk's own log is right, and one whose driver is quicker by hours is not."""
    slower = re.sub(r"(?m)^A 1 (\d+)$", lambda it: f"A 1 {int(it[1]) + 300}", log)
    for text, wanted in (log, (0, "Checked by `desk audit`")), (
        slower,
        (1, "bin/why: `desk audit` says no"),
    ):
        ran = subprocess.run(
            [f"{TOP}/bin/why", "-", *question],
            input=text,
            capture_output=True,
            text=True,
            timeout=SECONDS,
            check=False,
        )
        yield None if ran.returncode == wanted[0] and wanted[
            1
        ] in ran.stdout + ran.stderr else f"bin/why with {question}: {ran}"


def faults_of_rotation(run, log, mark):
    """A mark that logrotate moved away before its minute came is found; one that was moved away long ago is not."""
    Path(f"{log}-20251201").write_text(mark.replace("7" * 26, "5" * 26), "utf-8")
    os.utime(f"{log}-20251201", (0, 0))
    with open(f"{log}-20261201", "w", encoding="utf-8") as file:
        file.write(mark.replace("7" * 26, "6" * 26).replace("1300", "1301"))
    for is_there in True, False:
        if not is_there:
            os.remove(log)
        ran = run()
        wanted = (
            "1 marked denial: a trip asked for on 2026-12-06 at 21:41"
            if is_there
            else "no denial is marked that has no copy"
        )
        yield None if ran.returncode == 0 and wanted in ran.stdout else f"--for-denial with a rotated log ({is_there}): {ran}"
    for it in glob.glob(f"{log}-*"):
        os.remove(it)
    ran = run()
    yield None if ran.returncode == 1 and "can't be read" in ran.stderr else f"--for-denial without a log: {ran}"
    open(log, "x", encoding="utf-8").close()


def faults_of_units():
    """The condition of the units that look for marks, over a log and one that was rotated."""
    condition = re.search(
        r"(?m)^ExecCondition=/bin/sh -c '(.*)'$",
        Path(f"{TOP}/deploy/desk-denials@.service").read_text("utf-8"),
    )[1].replace("%i", "one")
    for marked, wanted in (
        ("", 1),
        ("tally-one.log", 0),
        ("tally-one.log-20261201", 0),
        ("tally-two.log", 1),
    ):
        with tempfile.TemporaryDirectory() as folder:
            for it in "tally-one.log", marked:
                with open(f"{folder}/{it or 'other'}", "w", encoding="utf-8") as file:
                    file.write("/tally/marks" if it and it == marked else "")
            ran = subprocess.run(
                ["/bin/sh", "-c", condition.replace(agencies.LOGS, folder)],
                check=False,
                capture_output=True,
            )
            yield difference(f"a mark in {marked or 'nothing'}", wanted, min(1, ran.returncode))


def faults_of_sentences(path, log):
    """Each van of the log that the desk judged right has one sentence, and each minute of it is one of that van's raise lines."""
    cases = re.findall(r"(?m)^CASE (\d+) .*\n((?:[FAPT] .*\n)*)", log)
    raised = {van: set() for van, _ in cases}
    for van, lines in cases:
        raised[van] |= {int(it) for it in re.findall(r"(?m)^[FAPT] \d+ (\d+)$", lines)}
    for language, van_named in ("en", r"Van (\d+) cannot take the trip"), (
        "es",
        r"La van (\d+) no puede hacer el viaje",
    ):
        ran = subprocess.run(
            [f"{TOP}/bin/why", path, "--language", language],
            capture_output=True,
            text=True,
            timeout=SECONDS,
            check=False,
        )
        lines = [it for it in ran.stdout.split("\n\n")[0].splitlines() if re.match(van_named, it)]
        yield difference(
            f"a sentence a van ({language})",
            sorted(raised),
            sorted(re.match(van_named, it)[1] for it in lines),
        )
        for it in lines:
            told = {
                (int(hour) % 12 + 12 * (half == "p")) * 60 + int(minute)
                for hour, minute, half in re.findall(
                    r"(\d+):(\d\d) ([APap])", it.replace("P", "p").replace("A", "a")
                )
            }
            known = {minute % 1_440 for minute in raised[re.match(van_named, it)[1]]}
            yield difference(f"minutes that no raise line has: {it}", set(), told - known)


# What goes wrong.


def refused(*words, **given):
    """The status of an office that does not run, and what it says on its one line."""
    ran = subprocess.run(
        [f"{TOP}/bin/office", *words],
        capture_output=True,
        text=True,
        timeout=SECONDS,
        check=False,
        **given,
    )
    return ran.returncode, ran.stderr.strip()


def refusals(program, room, office):
    """What is tried, with the words that are wanted of its one line."""
    Path(f"{room}/no-program").write_text("nothing\n", "ascii")
    os.chmod(f"{room}/no-program", 0o755)
    os.makedirs(f"{room}/other")
    shutil.copy(__file__, f"{room}/other/notes")
    port = office.address.rpartition(":")[2]
    words = ["--program", program, "--no-browser"]
    yield "a second office", refused(office.folder, *words, "--port", "0"), (1, office.address)
    yield "a taken port", refused(f"{room}/b", *words, "--port", port), (1, f"port {port}")
    yield "a folder with other files", refused(f"{room}/other", *words, "--port", "0"), (
        1,
        "no folder of an office",
    )
    yield "a folder in a file", refused(f"{room}/no-program/x", *words, "--port", "0"), (
        1,
        "cannot be used",
    )
    yield "no program", refused(f"{room}/b", "--program", f"{room}/no-program"), (1, "no-program")
    yield "another program", refused(f"{room}/b", "--program", "/bin/true"), (1, "is not the desk")
    yield "a port out of range", refused(f"{room}/b", *words, "--port", "70000"), (2, "0 to 65535")
    yield "another word", refused("--no-such-word"), (2, "--no-such-word")


def faults_of_refusals(program, room, office):
    for label, (status, line), (wanted, part) in refusals(program, room, office):
        yield difference(label, wanted, status)
        yield None if part in line and "Traceback" not in line else f"{label} says {line!r}"
        yield None if wanted == 2 or "\n" not in line else f"{label} says more than one line: {line!r}"
    yield None if not os.path.exists(
        f"{room}/b/desk.db"
    ) else "an office that did not run left a database"


def processes_of(folder):
    """The processes that have the folder among their words."""
    found = []
    for path in glob.glob("/proc/[0-9]*/cmdline"):
        with contextlib.suppress(OSError), open(path, "rb") as file:
            words = file.read()
            if folder.encode() in words and b"tests/office" not in words:
                found.append(words.replace(b"\0", b" ").decode(errors="replace"))
    return found


def faults_of_end(office):
    yield difference("the status after Ctrl+C", 0, office.end())
    yield None if "The office stays in" in office.said() else f"the end is not said: {office.said()[-200:]!r}"
    yield difference("what still runs", [], processes_of(office.folder))


# The whole.


def faults_of_first(program, room):
    """The first start, behind nginx where it is installed, and what goes wrong beside it."""
    office = Running(program, f"{room}/a")
    with office:
        if shutil.which("nginx", path=f"{os.environ['PATH']}:/usr/sbin"):
            yield None if "the desk is nginx" in office.said() else "nginx is installed and not used"
        else:
            print(
                "tests/office: left out: nginx is not installed, so all is tried behind the proxy"
            )
        for faults in (
            faults_of_statuses(office),
            faults_of_agency(office, mark.logic_of(program) is None),
            faults_of_town(office),
            faults_of_writes(office, 1),
            faults_of_record(office) if "the desk is nginx" in office.said() else (),
            faults_of_denial(office),
            faults_of_refusals(program, room, office),
        ):
            yield from faults
        yield from faults_of_end(office)


def faults_of_second(program, room):
    """A second start of the same folder, behind the proxy: what was done is there, and what is served is the same."""
    before = Path(f"{room}/a/keys.json").read_text("ascii")
    with Running(program, f"{room}/a", "--proxy", "--unproved") as office:
        yield None if "small proxy" in office.said() else "the proxy is not used"
        for faults in (
            faults_of_statuses(office),
            faults_of_agency(office, True),
            faults_of_town(office),
        ):
            yield from faults
        yield difference("the keys", before, Path(f"{room}/a/keys.json").read_text("ascii"))
        booked = [
            it
            for it in office.json("/riders/104/trips", "clerk")["trips"]
            if it["day"] == trip_wish(office)["day"]
        ]
        yield difference("the trip of the first start", 1, len(booked))
        yield from faults_of_writes(office, 2)
        yield from faults_of_end(office)


def make_older(folder, days):
    """The office as it would be, had it been left so many days ago: without the days that were not to come then."""
    with open(f"{folder}/office.json", encoding="ascii") as file:
        day = datetime.date.fromisoformat(json.load(file)["day"])
    with open(f"{folder}/office.json", "w", encoding="ascii") as file:
        json.dump({"day": (day - datetime.timedelta(days=days)).isoformat()}, file)
    last = (day - datetime.date(1970, 1, 1)).days + 10 - days
    with contextlib.closing(sqlite3.connect(f"{folder}/desk.db")) as database, database:
        database.execute(
            "DELETE FROM trip_chairs WHERE trip IN (SELECT id FROM trips WHERE day > ?)", (last,)
        )
        for table in "stops", "trips":
            database.execute(f"DELETE FROM {table} WHERE day > ?", (last,))


def faults_of_later(program, room):
    """Three days later the days that are missing are there."""
    make_older(f"{room}/a", 3)
    with Running(program, f"{room}/a") as office:
        yield None if "3 days have passed" in office.said() else f"the later start says {office.said()!r}"
        yield from faults_of_town(office)
        yield from faults_of_end(office)


def faults_of_half_made(program, room):
    """An office that was cut off while it was made is made anew; one whose database is spoilt says so."""
    os.remove(f"{room}/a/office.json")
    with Running(program, f"{room}/a") as office:
        yield None if "A new office" in office.said() else "a half-made office was not made anew"
        yield difference(
            "the trips of another clerk", 200, office.ask("/riders/104/trips", "clerk")[0]
        )
    with open(f"{room}/a/desk.db", "r+b") as file:
        file.write(b"spoilt" * 100)
    status, line = refused(f"{room}/a", "--program", program, "--port", "0", "--no-browser")
    yield difference("a spoilt database", 1, status)
    yield None if line and "Traceback" not in line and "\n" not in line else f"a spoilt database says {line!r}"


def main(words):
    if len(words) != 1 or not os.path.isfile(words[0]):
        print(__doc__, end="", file=sys.stderr)
        return 2
    program, passed, failed = os.path.abspath(words[0]), 0, 0
    with tempfile.TemporaryDirectory(prefix="tests-office-") as room:
        for part in faults_of_first, faults_of_second, faults_of_later, faults_of_half_made:
            for fault in part(program, room):
                passed, failed = passed + (fault is None), failed + (fault is not None)
                if fault:
                    print(f"tests/office: FAILED: {fault}", flush=True)
    print(f"{passed} passed, {failed} failed")
    return 1 if failed else 0


if __name__ == "__main__":
    sys.exit(main(sys.argv[1:]))
