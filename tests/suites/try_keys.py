"""Tries the recipes for keys and callers that deploy/README.md has: `try-keys PROGRAM`.

A new desk and its two admins, another key for an admin, a lost key, an admin with another role, a number used up, and
the stolen key of a rider, of a driver and of a clerk. The last line is 'N passed, M failed', and the exit status 1 where something failed.
"""
import contextlib
import csv
import datetime
import hashlib
import http.client
import http.server
import itertools
import json
import os
import shutil
import stat
import subprocess
import sys
import tempfile
import threading
import time

from desk_tools.tree import TOP
from serving import (
    ADMINS_KEY,
    SECONDS,
    TODAY,
    TRIP,
    Desk,
    content_of,
    copy_database,
    difference,
    free_port,
    make_agency,
    rows,
    tally,
    told_program,
    with_database,
)
from desk_tools.ops.locking import alone
from trying import NOBODY, missing_disk, missing_user, private_file, skipped

DONE, NO_CALLER, NO_KEY = (
    (200, {"done": True}),
    (403, {"denied": "desk.caller"}),
    (401, {"denied": "desk.key"}),
)
USED_UP, HIGHEST = (409, {"denied": "desk.number"}), 4_294_967_295
SECOND = 4_000_000_000
SHEET = "/days/2026-01-01/sheet"


def run(script, *words, umask=0o022, **environment):
    """How a script of deploy/ ends: status, standard output, standard error."""
    command, environment = [f"{TOP}/deploy/{script}", *map(str, words)], {
        **os.environ,
        **environment,
    }
    told = subprocess.run(
        command,
        env=environment,
        umask=umask,
        capture_output=True,
        text=True,
        timeout=600,
        stdin=subprocess.DEVNULL,
    )
    return told.returncode, told.stdout, told.stderr


def key_in(path):
    with open(path, encoding="ascii") as file:
        return file.read().strip()


def mode_of(path):
    return oct(stat.S_IMODE(os.stat(path).st_mode))


def place(number):
    return {"id": number, "x": number, "y": 0, "core": False}


# A new desk.


def faults_of_new_desk(program, folder):
    """Under the worst umask: the modes, two admins with keys of their own, and no other caller."""
    file, keys, record = f"{folder}/new.db", f"{folder}/keys", f"{folder}/log/desk/journal"
    told = run("new-desk", keys, umask=0, FILE=file, DESK=program, RECORD=record)
    yield difference("a new desk", (0, ""), (told[0], told[2]))
    yield difference(
        "its modes",
        ["0o600", "0o700", "0o600", "0o600"],
        [mode_of(it) for it in (file, keys, f"{keys}/1-admin", f"{keys}/{SECOND}-admin")],
    )
    yield difference(
        "its callers",
        [(1, 6, 0), (SECOND, 6, 0)],
        rows(file, "SELECT id, role, subject FROM callers"),
    )
    # The record names both, since their keys are older than it.
    with open(f"{record}/callers.csv", encoding="utf-8") as callers:
        named = [
            (it["number"], it["role"], it["to"], it["digits"])
            for it in csv.DictReader(callers)
            if it["number"]
        ]
    digits = [
        hashlib.sha256(key_in(f"{keys}/{it}-admin").encode()).hexdigest()[:12] for it in (1, SECOND)
    ]
    yield difference(
        "its callers in the record",
        [(str(it), "admin", "", by) for it, by in zip((1, SECOND), digits)],
        named,
    )
    yield difference(
        "modes of the record",
        ["0o755", "0o710", "0o640"],
        [mode_of(it) for it in (os.path.dirname(record), record, f"{record}/callers.csv")],
    )
    with Desk(program, file) as desk:
        for caller in 1, SECOND:
            key = key_in(f"{keys}/{caller}-admin")
            yield difference(f"the length of the key of {caller}", 26, len(key))
            yield difference(
                f"a write by admin {caller}",
                DONE,
                desk.post("/places", key, 1, place(caller % 99 + 1)),
            )
        yield difference("the empty key", NO_KEY, desk.get(SHEET, ""))
    before = content_of(file)
    told = run("new-desk", keys, FILE=file, DESK=program)
    yield difference(
        "a file that is there",
        (2, f"deploy/new-desk: {file} is there already\n"),
        (told[0], told[2]),
    )
    yield difference("what it held", before, content_of(file))


def faults_of_bad_keys(program, folder):
    """A key that is empty, short, or everybody's to read is refused, and no file is made."""
    for name, text, mode, said in [
        ("empty", "", 0o600, "is empty"),
        ("blank", "   \n", 0o600, "has signs that fit no header, or blanks at an end"),
        ("short", "fifteen-letters", 0o600, "is shorter than 16 signs"),
        ("open", "a key of seventeen signs", 0o644, f"say chmod 600 {folder}/open/1-admin"),
    ]:
        os.mkdir(f"{folder}/{name}")
        private_file(f"{folder}/{name}/1-admin", text, mode)
        told = run("new-desk", f"{folder}/{name}", FILE=f"{folder}/{name}.db", DESK=program)
        yield difference(
            f"a key that is {name}",
            (2, True, False),
            (told[0], told[2].endswith(f"{said}\n"), os.path.exists(f"{folder}/{name}.db")),
        )
    left = [it for it in os.listdir(folder) if it.startswith(".new-")]
    yield difference("what is left of it", [], left)


def faults_of_full_disk(program, folder):
    """A key for which there is no room is not made by half: with room, the same command goes on."""
    if skipped("try-keys", "a full disk", missing_disk()):
        return
    keys = f"{folder}/full"
    os.mkdir(keys)
    words = [
        "unshare",
        "--mount",
        "sh",
        "-c",
        'mount -t tmpfs -o size=16k none "$0"; cat /dev/zero >"$0/zeros" 2>/dev/null; "$@"; echo $?; ls -A "$0"; '
        'rm "$0/zeros"; "$@"; echo $?; ls -A "$0"',
        keys,
        f"{TOP}/deploy/new-desk",
        keys,
    ]
    told = subprocess.run(
        words,
        env={**os.environ, "FILE": f"{folder}/full.db", "DESK": program},
        capture_output=True,
        text=True,
        timeout=600,
    )
    lines = told.stdout.splitlines()
    yield difference(
        "a full disk: what is there then", ["1", "zeros", "0"], lines[:2] + lines[-3:-2]
    )
    yield difference(
        "a full disk: the keys with room", ["1-admin", "4000000000-admin"], sorted(lines[-2:])
    )
    is_one = told.stderr.count("\n") == 1 and "No space left" in told.stderr
    yield None if is_one else f"a full disk: {told.stdout!r} {told.stderr!r}"


def faults_of_owners(program, folder):
    """As root over a folder of the desk's user: that user has the database, and root the keys."""
    os.chmod(folder, 0o711)
    if skipped("try-keys", "a user of its own", missing_user(folder)):
        return
    os.mkdir(f"{folder}/state", 0o700)
    os.chown(f"{folder}/state", NOBODY, NOBODY)
    file, keys = f"{folder}/state/desk.db", f"{folder}/roots"
    # The other user runs the program, so it must be where that user may look.
    shared = shutil.copy(program, f"{folder}/desk")
    os.chmod(shared, 0o755)
    yield difference(
        "a new desk of another user", (0, ""), run("new-desk", keys, FILE=file, DESK=shared)[::2]
    )
    yield difference("another key of it", (0, ""), mend(file, "key", 1, f"{keys}/new")[::2])
    owners = [os.stat(it).st_uid for it in (file, f"{keys}/1-admin", f"{keys}/new")]
    yield difference("their owners", [NOBODY, 0, 0], owners)
    yield difference("what else is there", ["desk.db"], os.listdir(f"{folder}/state"))


# Recipes for a desk that is stopped.


def mend(file, *words):
    return run("mend-caller", *words, FILE=file, STOP="true", START="true")


def faults_of_lost_key(program, folder, file):
    told = mend(file, "key", 1, f"{folder}/found")
    said = f"deploy/mend-caller: caller 1, admin, has the key in {folder}/found\n"
    yield difference("a lost key", (0, said, ""), told)
    with Desk(program, file) as desk:
        yield difference(
            "the key that was found", NO_CALLER, desk.get(SHEET, key_in(f"{folder}/found"))
        )
        yield difference("the key that was lost", NO_KEY, desk.get(SHEET, ADMINS_KEY))
        told = mend(file, "key", 1, f"{folder}/found")
        yield difference("while a desk serves", (1, True), (told[0], "a desk serves it" in told[2]))
    yield difference(
        "a caller who is not there",
        (2, "deploy/mend-caller: there is no caller 99\n"),
        mend(file, "key", 99, f"{folder}/found")[::2],
    )
    told = mend(file, "key", 1, f"{folder}/nowhere/found")
    yield difference(
        "a folder that is not there", (2, True), (told[0], "there is no folder" in told[2])
    )
    with alone(os.path.dirname(file), 0, ""):
        told = mend(file, "key", 1, f"{folder}/meanwhile")
    is_told = (
        told[0] == 1
        and told[2].count("\n") == 1
        and "somebody else has" in told[2]
        and not os.path.exists(f"{folder}/meanwhile")
    )
    yield None if is_told else f"in the middle of a restore: {told}"
    private_file(f"{folder}/taken", "a key that the clerk has")
    mend(file, "key", 2, f"{folder}/taken")
    yield difference(
        "a key that another caller has",
        (1, "deploy/mend-caller: caller 2 has this key\n"),
        mend(file, "key", 1, f"{folder}/taken")[::2],
    )


def faults_of_other_role(program, file, key):
    """The admin who made himself a clerk."""
    clerk = {"id": 1, "role": "clerk", "subject": 0, "key": key}
    with Desk(program, file) as desk:
        yield difference("the admin becomes a clerk", DONE, desk.post("/callers", key, 1000, clerk))
        yield difference(
            "a clerk puts no place", NO_CALLER, desk.post("/places", key, 1001, place(11))
        )
    yield difference(
        "an admin with another role",
        (0, "deploy/mend-caller: caller 1 was clerk and is admin\n", ""),
        mend(file, "admin", 1),
    )
    with Desk(program, file) as desk:
        yield difference("the admin again", DONE, desk.post("/places", key, 1001, place(11)))


def faults_of_used_up_number(program, file, key):
    with Desk(program, file) as desk:
        yield difference("the highest number", DONE, desk.post("/places", key, HIGHEST, place(12)))
        yield difference(
            "after the highest number", USED_UP, desk.post("/places", key, HIGHEST, place(13))
        )
    kept = rows(file, "SELECT request, reply FROM kept WHERE caller = 1")
    with_database(file, lambda it: it.execute("UPDATE kept SET number = 0 WHERE caller = 1"))
    try:
        with Desk(program, file):
            yield "a kept write with the number 0 was taken"
    except OSError as error:
        yield None if "fault 31 row 3" in str(error) else f"a kept write with the number 0: {error}"
    with_database(
        file, lambda it: it.execute("UPDATE kept SET number = ? WHERE caller = 1", (HIGHEST,))
    )
    yield difference(
        "the row of before", kept, rows(file, "SELECT request, reply FROM kept WHERE caller = 1")
    )
    said = f"deploy/mend-caller: caller 1: the write with the number {HIGHEST} is forgotten; do not send it once more\n"
    yield difference("a number used up", (0, said, ""), mend(file, "number", 1))
    with Desk(program, file) as desk:
        yield difference("a number after that", DONE, desk.post("/places", key, 1, place(13)))
    yield difference(
        "nothing to forget",
        (0, "deploy/mend-caller: caller 5: there is no write to forget\n", ""),
        mend(file, "number", 5),
    )


# Recipes for a desk that serves.


class Crowded(http.server.BaseHTTPRequestHandler):
    """Passes each request on to the desk, but for each twentieth: that is answered 429, as by the site.

    After so many requests as `left` says the line is cut: nothing is answered any more, and what was asked last was done.
    """

    asked, port, left = itertools.count(1), None, None

    def do_GET(self):
        if self.left is not None:
            Crowded.left -= 1
            if self.left < 0:
                return self.connection.close()
        if self.left is None and next(self.asked) % 20 == 0:
            return self.reply(429, "text/html", b"<html>429 Too Many Requests</html>")
        body = self.rfile.read(int(self.headers.get("Content-Length") or 0))
        line = http.client.HTTPConnection("127.0.0.1", self.port, timeout=SECONDS)
        with contextlib.closing(line):
            line.request(
                self.command,
                self.path,
                body or None,
                {name: value for name, value in self.headers.items()},
            )
            told = line.getresponse()
            if self.left == 0:
                return self.connection.close()
            return self.reply(told.status, told.headers["Content-Type"], told.read())

    do_POST = do_GET

    def reply(self, status, kind, body):
        self.send_response(status)
        self.send_header("Content-Type", kind)
        self.send_header("Content-Length", str(len(body)))
        self.end_headers()
        self.wfile.write(body)

    def log_message(self, *_):
        pass


@contextlib.contextmanager
def crowded(desk):
    """The address of a site that is asked too much now and then."""
    Crowded.port = desk.port
    with http.server.ThreadingHTTPServer(("127.0.0.1", free_port()), Crowded) as server:
        threading.Thread(target=server.serve_forever, args=(0.05,), daemon=True).start()
        yield f"http://127.0.0.1:{server.server_address[1]}"
        server.shutdown()


def faults_of_new_key(desk, folder, url):
    """Another key for the admin; where the line broke, the same command goes on."""
    highest = {"id": 50, "x": 0, "y": 0, "core": False}
    yield difference(
        "a number by the clock", DONE, desk.post("/places", ADMINS_KEY, int(time.time()), highest)
    )
    private_file(f"{folder}/old", ADMINS_KEY)
    told = run("new-admin-key", f"{folder}/old", f"{folder}/admin", url)
    yield difference("another key", (0, "The new key holds; the old one is gone.\n", ""), told)
    yield difference("the old key", NO_KEY, desk.get(SHEET, ADMINS_KEY))
    yield difference("its file", False, os.path.exists(f"{folder}/old"))
    told = run("new-admin-key", f"{folder}/old", f"{folder}/admin", url)
    yield difference("once more", (0, ""), (told[0], told[2]))
    told = run("new-admin-key", f"{folder}/admin", f"{folder}/other", "desk.example.org")
    said = "deploy/new-admin-key: desk.example.org is no address such as http://127.0.0.1:8437\n"
    yield difference("no address", (1, said), told[::2])
    private_file(f"{folder}/nobodys", "nobody has this key")
    told = run("new-admin-key", f"{folder}/nobodys", f"{folder}/other", url)
    said = f"deploy/new-admin-key: nobody has the key in {folder}/nobodys, or it is no admin's\n"
    yield difference("a key of nobody", (1, said), told[::2])


# A rider's stolen key, and a driver's.

# Requests of the command after which the line is cut: the first ones and those that look for the admin's last number, and
# then, one by one, the new key and what tries it.
STEPS = 1, 40, 63, 64, 65, 66

LATER = TODAY + datetime.timedelta(days=6)


def asked(label, reply):
    return difference(label, 200, reply and reply.status)


def before_theft(desk):
    """Two more trips of the rider, and a refusal that the rider may appeal."""
    for number, wish in (10, 780), (11, 840):
        yield asked(
            "the rider books",
            desk.post("/trips", "mine", number, {"rider": 7, **TRIP, "wish": wish}),
        )
    yield asked(
        "an application", desk.post("/riders/7/entries", "hello", 20, {"entry": "complete"})
    )
    yield asked(
        "a refusal",
        desk.post(
            "/riders/7/entries", "panel", 20, {"entry": "refuse", "reasons": "It is a trial."}
        ),
    )


def theft(desk):
    """What the thief does: cancels one trip, moves another, books two, cancels one of these, appeals; the last number."""
    moved = {
        **{name: value for name, value in TRIP.items() if name != "day"},
        "day": LATER,
        "wish": 1100,
    }
    for label, path, number, body in [
        ("cancels", "/trips/1/cancel", 50, {}),
        ("moves", "/trips/4/change", 51, moved),
        ("books", "/trips", 52, {"rider": 7, **TRIP, "wish": 1020}),
        ("books", "/trips", 53, {"rider": 7, **TRIP, "wish": 1200}),
        ("cancels", "/trips/7/cancel", 54, {}),
        ("appeals", "/riders/7/entries", HIGHEST, {"entry": "appeal", "against": 3}),
    ]:
        yield asked(f"the thief {label}", desk.post(path, "mine", number, body))


def rider_words(folder, url):
    return [
        "stolen-key",
        7,
        "--url",
        url,
        "--clerk",
        f"{folder}/clerk",
        "--log",
        f"{folder}/tally.log",
        "--roster",
        f"{folder}/roster.csv",
    ]


def of_desk(program, file, desk):
    """This machine has the desk's file."""
    return {"FILE": file, "PROCESS": f"echo {desk.process.pid}", "DESK": program}


def faults_of_stolen_key(desk, folder, url, backup, here):
    """Each row that the thief changed is told; the new key can write, though the numbers were used up."""
    yield from theft(desk)
    private_file(f"{folder}/clerk", "hello")
    private_file(f"{folder}/roster.csv", "rider,name,telephone\n7,Ana Lind,555-0107\n")
    private_file(
        f"{folder}/tally.log",
        f"2026-12-01T18:30:00-06:00\t/tally/cancellations\tid={'0' * 26}&trip=1&by=rider&"
        "at=2026-12-01T18:30:00\n",
    )
    words = rider_words(folder, url)
    told = run(
        *words,
        "--backup",
        backup,
        "--admin",
        f"{folder}/admin",
        "--caller",
        7,
        "--new-key",
        f"{folder}/riders",
        **here,
    )
    for what, wanted in [
        ("the numbers are used up", "So the key in"),
        ("another number as a caller", "is now that of caller 8"),
        ("a trial write", "the new key can write"),
        ("how many rows differ", "rider 7: 5 rows differ"),
        ("the stolen key", "\nthe stolen key is nobody's\n"),
        ("a trip that was canceled", f"- trip 1 was booked and is canceled: {TRIP['day']} 09:"),
        ("what to do", "where the rider did not cancel it, book it again"),
        ("a trip that was moved", f"- trip 4 was moved: it was {TRIP['day']} 12:"),
        ("to where", f"it is {LATER} 17:"),
        ("a trip that was booked", f"- trip 6 was booked since: {TRIP['day']} 16:"),
        ("how to cancel it", "--cancel 6"),
        ("one that is gone again", "; it is canceled\n    nothing to do"),
        ("an appeal", "appeal, was entered since by caller 7, who is this rider"),
        ("whom to call", "rider 7, Ana Lind 555-0107: trip 1 was booked and is canceled"),
        ("the site's log", "2026-12-01 18:30 trip 1 was canceled by the rider"),
    ]:
        yield None if wanted in told[1] else f"{what}: {told}"
    calls = [
        it.partition(". ")[2].split(" rider ")[0]
        for it in told[1].splitlines()
        if it[:1].isdigit() and ". " in it
    ]
    yield difference(
        "calls in order of pickup", (0, sorted(calls), 4), (told[0], calls, len(calls))
    )
    yield difference("the stolen key", NO_KEY, desk.get("/riders/7/trips", "mine"))
    new = key_in(f"{folder}/riders")
    yield difference("the rider's new key reads", 200, desk.get("/riders/7/trips", new).status)
    yield difference(
        "the rider's new key writes", 200, desk.post("/trips/5/cancel", new, 1, {}).status
    )
    yield from faults_of_words(desk, folder, words, backup, here)
    yield from faults_of_cut_line(desk, folder, words, backup, here)


def callers_of(folder, name, here):
    """The callers, by a fresh backup: a desk that serves has its file locked."""
    run("backup", f"{folder}/{name}.db", **here)
    return rows(f"{folder}/{name}.db", "SELECT * FROM callers ORDER BY id")


def faults_of_wrong_callers(folder, url, backup, here):
    """A number that is not the rider's, or the driver's, gets no key: the right one is named, and nothing is written."""
    private_file(f"{folder}/clerk", "hello")
    private_file(f"{folder}/roster.csv", "rider,name,telephone\n7,Ana Lind,555-0107\n")
    private_file(f"{folder}/tally.log", "")
    before = callers_of(folder, "callers-before", here)
    rider, vehicle = rider_words(folder, url), ["stolen-key", "--vehicle", 1, "--url", url]
    key = ["--admin", f"{folder}/admin", "--new-key", f"{folder}/never"]
    for words, number, is_now, right in [
        (rider, 99, "nobody", "rider 7 is caller 7: say --caller 7"),
        (rider, 3, "a dispatcher", "say --caller 7"),
        (rider, 2, "a clerk", "Where the key of caller 2 itself was stolen, say --staff 2"),
        (rider, 1, "an admin", "say --caller 7"),
        (rider, 6, "the driver of vehicle 1", "say --caller 7"),
        (vehicle, 2, "a clerk", "the driver of vehicle 1 is caller 6: say --caller 6"),
        (["stolen-key", 8, *rider[2:]], 7, "rider 7", "rider 8 is no caller"),
    ]:
        for source in ["--backup", backup], ["--now", backup]:
            told = run(
                *words,
                *key,
                *source,
                "--caller",
                number,
                **(here if source[0] == "--backup" else {}),
            )
            is_told = (
                told[0] == 2
                and told[2].count("\n") == 1
                and f"caller {number} is {is_now}, and" in told[2]
                and right in told[2]
            )
            yield None if is_told else f"caller {number} of {words[1:3]}: {told}"
    told = run(*rider, *key, "--backup", backup, "--caller", 3, FILE=f"{folder}/nowhere.db")
    yield None if told[0] == 2 and f"by the backup {backup}" in told[
        2
    ] else f"a wrong number, by a backup alone: {told}"
    told = run(*rider, *key, "--caller", 7, FILE=f"{folder}/nowhere.db")
    yield None if told[0] == 2 and "only a copy of the desk's file shows" in told[
        2
    ] else f"a number without a copy: {told}"
    yield difference(
        "the callers after wrong numbers",
        (before, False),
        (callers_of(folder, "callers-after", here), os.path.exists(f"{folder}/never")),
    )


def faults_of_two_callers(desk, folder, url, backup, here):
    """A rider with two numbers as a caller: the other one is named, and the stolen key is not called nobody's."""
    second = {"id": 70, "role": "rider", "subject": 7, "key": "of a helper"}
    yield asked(
        "a second caller of the rider",
        desk.post("/callers", key_in(f"{folder}/admin"), int(time.time()) + 100, second),
    )
    words = [*rider_words(folder, url), "--backup", backup, "--admin", f"{folder}/admin"]
    told = run(*words, "--caller", 70, "--new-key", f"{folder}/second", **here)
    is_told = (
        told[0] == 0
        and "the key that caller 70 had is nobody's" in told[1]
        and "the stolen key is nobody's" not in told[1]
        and "rider 7 is caller 7 too, who can also write" in told[1]
    )
    yield None if is_told else f"a rider of two callers: {told}"
    yield difference(
        "the key that caller 70 had", NO_KEY, desk.get("/riders/7/trips", "of a helper")
    )
    told = run(*words, "--caller", 70, "--new-key", f"{folder}/third", FILE=f"{folder}/nowhere.db")
    yield None if told[0] == 2 and "caller 70 is nobody" in told[
        2
    ] else f"a caller of after the backup: {told}"


def faults_of_cut_line(desk, folder, words, backup, here):
    """The line is cut after each of these requests: the same command goes on, and the new key writes."""
    for step in STEPS:
        again = [
            *words,
            "--backup",
            backup,
            "--admin",
            f"{folder}/admin",
            "--caller",
            8,
            "--new-key",
            f"{folder}/cut-{step}",
        ]
        Crowded.left = step
        told = run(*again, PATIENCE_OF_LINE="2", **here)
        Crowded.left = None
        is_told = (
            told[0] == 1
            and told[2].count("\n") == 1
            and "the same command goes on from here" in told[2]
        )
        yield None if is_told else f"a line cut after request {step}: {told}"
        told = run(*again, **here)
        yield None if told[0] == 0 and "the new key can write" in told[
            1
        ] else f"once more after request {step}: {told}"
        yield difference(
            f"the key after {step}",
            200,
            desk.get("/riders/7/trips", key_in(f"{folder}/cut-{step}")).status,
        )


def faults_of_words(desk, folder, words, backup, here):
    """What may be said wrong, and what cannot be known."""
    again = ["--admin", f"{folder}/admin", "--caller", 7, "--new-key", f"{folder}/riders"]
    told = run(*words, "--backup", backup, *again, **here)
    yield difference(
        "the same once more", (1, True), (told[0], "is another caller's already" in told[2])
    )
    told = run(*words, *again, **here)
    yield difference(
        "a key that holds, without a backup", (2, True), (told[0], "holds already" in told[2])
    )
    private_file(f"{folder}/same", "mine")
    private_file(f"{folder}/clerks", "a key that is long enough")
    told = run(*words, "--backup", f"{folder}/nowhere.db", **here)
    yield difference(
        "no backup", (2, f"deploy/stolen-key: there is no backup {folder}/nowhere.db\n"), told[::2]
    )
    told = run(*words, "--backup", f"{folder}/clerk", **here)
    yield difference(
        "a backup that is none",
        (1, 1, True),
        (told[0], told[2].count("\n"), "cannot be read as" in told[2]),
    )
    told = run(*words, **here)
    yield difference(
        "without a backup",
        (0, True, True),
        (told[0], "NOT KNOWN, without a backup" in told[1], "- trip 1 is canceled" in told[1]),
    )
    told = run(*words, "--backup", backup, FILE=f"{folder}/nowhere.db")
    yield difference(
        "on another machine",
        (0, True, True),
        (
            told[0],
            "NOT KNOWN: whether the key entered an appeal" in told[1],
            "trip 4 was moved" in told[1],
        ),
    )
    for trip, said in (1, "trip 1 is canceled"), (4, "trip 4 was moved: change it back"):
        told = run(*words, "--backup", backup, "--cancel", 6, trip, **here)
        wanted = f"deploy/stolen-key: these are none of the trips of the list: {trip}; {said}"
        is_told = (
            told[0] == 2
            and told[2].startswith(wanted)
            and told[2].endswith("; nothing was canceled\n")
        )
        yield None if is_told else f"a trip that is not in the list: {told}"
    told = run(*words, "--backup", backup, "--cancel", "6", **here)
    yield difference("one of them", (0, True), (told[0], told[1].endswith(", canceled\n")))
    told = run(*words, "--after", 3, "--cancel", "all", **here)
    yield difference("the other one", (0, 1), (told[0], told[1].count(", canceled\n")))
    trips = desk.get("/riders/7/trips", "hello").body["trips"]
    yield difference(
        "what is left of the rider's trips",
        set(),
        {it["trip"] for it in trips if it["status"] == "booked"},
    )


def faults_of_drivers_key(desk, folder, url, here):
    """What a driver's key could read, and the outcomes and taps that came since."""
    yield asked(
        "a trip of today", desk.post("/trips", "hello", 60, {"rider": 9, **TRIP, "wish": 700})
    )
    for name in "before", "now":
        yield difference(f"a backup of {name}", 0, run("backup", f"{folder}/{name}.db", **here)[0])
    with_database(
        f"{folder}/now.db", lambda it: it.execute("UPDATE trips SET status = 3 WHERE id = 2")
    )
    os.makedirs(f"{folder}/site/drivers/1")
    private_file(f"{folder}/site/drivers/1/roster.csv", "rider,name\n9,Bo\n")
    private_file(
        f"{folder}/tally.log",
        f"2026-12-01T18:30:00-06:00\t/tally/stops\tid={'1' * 26}&vehicle=1&trip=2&"
        "event=no-show-rider&at=2026-12-01T18:30:00\n",
    )
    words = [
        "stolen-key",
        "--vehicle",
        1,
        "--url",
        url,
        "--log",
        f"{folder}/tally.log",
        "--site",
        f"{folder}/site",
    ]
    told = run(
        *words,
        "--backup",
        f"{folder}/before.db",
        "--now",
        f"{folder}/now.db",
        "--since",
        "2026-12-01T00:00",
        "--admin",
        f"{folder}/admin",
        "--caller",
        6,
        "--new-key",
        f"{folder}/drivers",
    )
    for what, wanted in [
        ("the manifests", "What the key could read: the manifests of vehicle 1 from"),
        ("whose trips", "riders 9"),
        (
            "the site's files",
            f"- the site's file {folder}/site/drivers/1/roster.csv: names and notes",
        ),
        ("the outcomes", "vehicle 1: 1 outcomes were entered since"),
        ("an outcome", "- trip 2 of rider 9 was entered as missed by the rider"),
        ("what to do", "count it for no suspension"),
        ("a tap", "2026-12-01 18:30 trip 2 no-show-rider"),
        ("a trial write", "the new key can write"),
        (
            "the old key, which a named copy does not show",
            "NOT KNOWN: whether the stolen key is nobody's",
        ),
    ]:
        yield None if told[0] == 0 and wanted in told[1] else f"a driver's key, {what}: {told}"
    yield difference("the driver's stolen key", NO_KEY, desk.get(SHEET, "wheel"))
    told = run(*words, FILE=f"{folder}/nowhere.db")
    yield difference(
        "a driver's key on another machine",
        (1, True),
        (told[0], "run this on the desk's machine" in told[2]),
    )
    told = run("stolen-key", "--url", url)
    yield difference("neither rider nor vehicle", (2, True), (told[0], "name a RIDER" in told[2]))


def line_of_record(key, method, path, status, at, body=None, reply=None):
    """A line of the record, as the site writes it."""
    told = {
        "at": at,
        "door": "site",
        "from": "192.0.2.9",
        "who": hashlib.sha256(key.encode()).hexdigest()[:12],
        "method": method,
        "path": path,
        "status": status,
        "took": 0.01,
        "number": "9",
    }
    return (
        json.dumps(
            {
                **told,
                **({"body": json.dumps(body)} if body else {}),
                **({"reply": json.dumps(reply)} if reply else {}),
            }
        )
        + "\n"
    )


def faults_of_staff_key(desk, folder, url, here):
    """A clerk's key: it is nobody's afterwards, and each write that came by it is told with what to do and whom to call."""
    record, agency = f"{folder}/record", private_file(
        f"{folder}/agency.json", '{"zone": "America/Chicago"}'
    )
    os.makedirs(record)
    private_file(
        f"{folder}/roster.csv", "rider,name,telephone\n7,Ana Lind,555-0107\n9,Bo Lee,555-0109\n"
    )
    at = ["2026-11-28T10:00:00.000Z", *(f"2026-11-29T1{it}:00:00.000Z" for it in range(5))]
    private_file(
        f"{record}/requests",
        "".join(
            [
                line_of_record("hello", "POST", "/trips/5/cancel", 200, at[0], {}, {"done": True}),
                line_of_record("hello", "POST", "/trips/2/cancel", 200, at[1], {}, {"done": True}),
                line_of_record(
                    "hello",
                    "POST",
                    "/riders",
                    200,
                    at[2],
                    {"id": 9, "kind": "resident", "attendant": True},
                    {"done": True},
                ),
                line_of_record(
                    "hello",
                    "POST",
                    "/callers",
                    403,
                    at[3],
                    {"id": 66, "role": "admin", "subject": 0},
                    {"denied": "desk.caller"},
                ),
                line_of_record("hello", "GET", "/riders/7/trips", 200, at[4]),
                line_of_record(
                    "radio",
                    "POST",
                    "/trips/2/outcome",
                    200,
                    at[5],
                    {"outcome": "ridden"},
                    {"done": True},
                ),
            ]
        ),
    )
    run("backup", f"{folder}/staff.db", **here)
    known = subprocess.run(
        [
            f"{TOP}/bin/journal",
            "--folder",
            record,
            "--agency",
            agency,
            "callers",
            f"{folder}/staff.db",
        ],
        capture_output=True,
        text=True,
        timeout=SECONDS,
        stdin=subprocess.DEVNULL,
    )
    yield difference("the record's callers", 0, known.returncode)
    words = [
        "stolen-key",
        "--staff",
        2,
        "--url",
        url,
        "--roster",
        f"{folder}/roster.csv",
        "--record",
        record,
        "--agency-file",
        agency,
    ]
    since, key = ["--since", "2026-11-29T00:00"], [
        "--admin",
        f"{folder}/admin",
        "--new-key",
        f"{folder}/clerks",
    ]
    told = run(*words, *since, *key, **here)
    for what, wanted in [
        ("the new key", "caller 2 has the key in"),
        ("a trial write", "the new key can write"),
        ("the old key", "the stolen key is nobody's"),
        ("how many", "caller 2 since 2026-11-29 00:00: 2 writes by the record"),
        ("a trip", "canceled trip 2 of Bo Lee (rider 9)"),
        ("what to do", "put back by the desk what the rider does not want"),
        ("a record", "put the record of Bo Lee (rider 9)"),
        ("whom to call", "rider 9, Bo Lee 555-0109: "),
        ("reads", "1 reads were answered: riders 7"),
        ("what was refused", "1 other requests were refused"),
        ("the whole list", "bin/journal caller 2 --from 2026-11-29"),
    ]:
        yield None if told[0] == 0 and wanted in told[1] else f"a clerk's key, {what}: {told}"
    yield None if "trip 5" not in told[1] and "outcome" not in told[
        1
    ] else f"a clerk's key: another's writes, or older ones: {told}"
    yield difference("the clerk's stolen key", NO_KEY, desk.get("/riders/7/trips", "hello"))
    yield difference(
        "the clerk's new key", 200, desk.get("/riders/7/trips", key_in(f"{folder}/clerks")).status
    )
    told = run(
        *words[:-4], "--record", f"{folder}/nowhere", "--agency-file", agency, *since, **here
    )
    yield None if told[0] == 0 and "NOT KNOWN: what the key did" in told[
        1
    ] else f"without a record: {told}"
    for number, said in (
        (7, "is rider 7: say deploy/stolen-key 7"),
        (6, "say deploy/stolen-key --vehicle 1"),
        (99, "there is no caller 99"),
    ):
        told = run(
            "stolen-key",
            "--staff",
            number,
            "--url",
            url,
            "--admin",
            f"{folder}/admin",
            "--new-key",
            f"{folder}/none",
            **here,
        )
        is_told = (
            told[0] == 2
            and said in told[2]
            and told[2].count("\n") == 1
            and not os.path.exists(f"{folder}/none")
        )
        yield None if is_told else f"--staff {number}: {told}"


def faults_of_with_key(folder):
    private_file(f"{folder}/some", "a key of a file\n")
    yield difference(
        "a command with its key",
        (0, "[a key of a file][DAY]\n", ""),
        run("with-key", f"{folder}/some", "printf", "[%s][%s]\\n", "KEY", "DAY"),
    )
    os.chmod(f"{folder}/some", 0o640)
    yield difference(
        "a file that others can read", 2, run("with-key", f"{folder}/some", "echo", "KEY")[0]
    )


def faults(program, folder):
    yield from faults_of_new_desk(program, folder)
    yield from faults_of_bad_keys(program, folder)
    yield from faults_of_full_disk(program, folder)
    yield from faults_of_with_key(folder)
    yield from faults_of_owners(program, folder)
    file = make_agency(program, folder)
    backup = f"{folder}/backup.db"
    with Desk(program, file) as desk:
        yield from before_theft(desk)
    copy_database(file, backup)
    with Desk(program, file) as desk, crowded(desk) as url:
        yield from faults_of_new_key(desk, folder, url)
        yield from faults_of_wrong_callers(folder, url, backup, of_desk(program, file, desk))
        yield from faults_of_stolen_key(desk, folder, url, backup, of_desk(program, file, desk))
        yield from faults_of_drivers_key(desk, folder, url, of_desk(program, file, desk))
        yield from faults_of_two_callers(desk, folder, url, backup, of_desk(program, file, desk))
        yield from faults_of_staff_key(desk, folder, url, of_desk(program, file, desk))
    yield from faults_of_recipes(program, folder, backup)


def faults_of_recipes(program, folder, file):
    """For a desk that is stopped; the file is the one of before the theft."""
    yield from faults_of_lost_key(program, folder, file)
    key = key_in(f"{folder}/found")
    yield from faults_of_other_role(program, file, key)
    yield from faults_of_used_up_number(program, file, key)


def main(words):
    program, _ = told_program(words, __doc__)
    with tempfile.TemporaryDirectory(prefix="desk-keys-") as folder:
        return tally("deploy/try-keys", faults(program, folder))


if __name__ == "__main__":
    sys.exit(main(sys.argv[1:]))
