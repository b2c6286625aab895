"""Tries bin/reminders at a desk: `reminders PROGRAM`.

Messages go out once each, in the rider's language, by the command of the rider's channel, and never to a trip that was
canceled a moment before. Commands that hang, fail, leave children behind or are cut off with the run send nothing twice,
and bin/worklist lists whom to call. The last line is 'N passed, M failed', and the exit status 1 where something failed.
"""
import csv
import datetime
import json
import os
import shutil
import signal
import subprocess
import sys
import tempfile
import time
from pathlib import Path

from desk_tools.tree import TOP
import serving
from serving import TODAY, TOMORROW, TRIP, ZONE, difference, tally, told_program

CLOCK, SECONDS = {**os.environ, "TZ": ZONE}, 100
ROSTER = "rider,name,telephone,language,reminder,mail\n7,Ana Ruiz,+1 (555) 555-0107,es,sms,\n9,Bo Lind,555-0109,en,mail,bo@town.example\n"
AGENCY = {
    "name": "Town Rides",
    "telephone": "555-0100",
    "places": [{"id": 1, "name": "Mill"}, {"id": 2, "name": "Court"}],
}
TAKES = '#!/bin/sh\n{ echo "to $*"; cat; echo "--"; } >>sent\n'


def write(path, text, mode=0o644):
    Path(path).write_text(text, "utf-8")
    os.chmod(path, mode)


def read(path):
    try:
        return Path(path).read_text("utf-8")
    except FileNotFoundError:
        return ""


class Trial:
    """A desk with an agency, and a folder of its own for each case."""

    def __init__(self, desk, folder):
        self.desk, self.top, self.numbers, self.folder, self.cases = desk, folder, 100, "", 0

    def fresh(self, hook=TAKES, roster=ROSTER, seconds=2, **more):
        self.cases += 1
        self.folder = f"{self.top}/case{self.cases}"
        os.mkdir(self.folder)
        write(f"{self.folder}/radio", "radio\n")
        write(f"{self.folder}/hello", "hello\n")
        write(f"{self.folder}/roster.csv", roster)
        write(f"{self.folder}/agency.json", json.dumps(AGENCY))
        write(f"{self.folder}/hook", hook, 0o755)
        channels = {
            it: {"command": ["./hook", "{to}"], "seconds": seconds}
            for it in ("sms", "mail", "voice")
        }
        channels["mail"]["from"] = "rides@town.example"
        self.settings({"channels": channels, **more})

    def settings(self, held):
        write(f"{self.folder}/reminders.json", json.dumps(held))

    def words(self, *more, key="radio", url=None):
        at = url or f"http://127.0.0.1:{self.desk.port}"
        return [
            f"{TOP}/bin/reminders",
            "--settings",
            "reminders.json",
            "--agency",
            "agency.json",
            "--roster",
            "roster.csv",
            "--url",
            at,
            "--dispatcher",
            key,
            "--folder",
            ".",
            *more,
        ]

    def run(self, *more, given="", before=(), **named):
        done = subprocess.run(
            [*before, *self.words(*more, **named)],
            cwd=self.folder,
            env=CLOCK,
            input=given,
            capture_output=True,
            text=True,
            timeout=SECONDS,
            check=False,
        )
        return done.returncode, done.stdout + done.stderr

    def answer(self, number, text, *more):
        words = [f"{TOP}/bin/reminders", "--folder", ".", "--answer", number, *more]
        done = subprocess.run(
            words,
            cwd=self.folder,
            env=CLOCK,
            input=text,
            capture_output=True,
            text=True,
            timeout=SECONDS,
            check=False,
        )
        return done.returncode, done.stdout + done.stderr

    def sent(self):
        return [
            it.split("\n")[0].removeprefix("to ")
            for it in read(f"{self.folder}/sent").split("--\n")
            if it
        ]

    def book(self, rider, wish):
        self.numbers += 1
        reply = self.desk.post(
            "/trips", "hello", self.numbers, {**TRIP, "rider": rider, "wish": wish}
        )
        return reply.body["trip"]

    def status_of(self, trip, rider=9):
        trips = self.desk.get(f"/riders/{rider}/trips", "hello").body["trips"]
        return next(it["status"] for it in trips if it["trip"] == trip)

    def cancel(self, trip):
        self.numbers += 1
        self.desk.post(f"/trips/{trip}/cancel", "hello", self.numbers, {})


def faults_of_messages(trial):
    """The texts, and that each goes out once."""
    trial.fresh()
    status, said = trial.run("--plan")
    yield difference(
        f"the plan: {said}",
        (0, True, [], ""),
        (status, "Nothing was sent" in said, trial.sent(), read(f"{trial.folder}/reminders.jsonl")),
    )
    yield None if "sms to +15555550107: Town Rides: su viaje es el " in said else f"the plan has no Spanish text: {said}"
    status, said = trial.run()
    yield difference(
        f"the run: {said}", (0, ["+15555550107", "bo@town.example"]), (status, trial.sent())
    )
    text = read(f"{trial.folder}/sent")
    for wanted in (
        "Lo recogemos entre las ",
        "Para cancelar o preguntar, llame al 555-0100.",
        "Subject: Your ride on ",
        "From: rides@town.example",
        "To: bo@town.example",
        "Pickup between ",
        "Auto-Submitted: auto-generated",
    ):
        yield None if wanted in text else f"{wanted!r} is not in what was sent: {text}"
    yield difference("a second run", (0, 2), (trial.run()[0], len(trial.sent())))
    status, said = trial.run("--plan")
    yield difference(f"the plan afterwards: {said}", 2, said.count("had one already"))
    trial.fresh(roster=ROSTER.replace(",sms,", ",,").replace(",mail,", ",none,"))
    status, said = trial.run()
    yield difference(
        f"riders who want none: {said}",
        (0, [], True),
        (status, trial.sent(), "2 riders want none" in said),
    )


def has_ended(process):
    """Whether a process ends soon after the signal that it was sent."""
    end = time.monotonic() + 30
    while os.path.exists(f"/proc/{process}") and "Z" not in read(f"/proc/{process}/status"):
        if time.monotonic() > end:
            return False
        time.sleep(0.05)
    return True


def faults_of_canceled(trial):
    """A trip that is canceled while the run is under way gets nothing."""
    later = trial.book(9, 1000)
    url = f"http://127.0.0.1:{trial.desk.port}/trips/{later}/cancel"
    trial.numbers += 1
    cancels = (
        "import urllib.request as u; u.urlopen(u.Request('%s', b'{}', {'Desk-Key': 'hello', 'Desk-Number': '%d'}))"
        % (url, trial.numbers)
    )
    trial.fresh(
        f'#!/bin/sh\n{{ echo "to $*"; cat; echo "--"; }} >>sent\ntest -e did || {sys.executable} -c "{cancels}"\ntouch did\n',
        seconds=60,
    )
    status, said = trial.run()
    yield difference(
        f"the desk is asked just before: {said}",
        (0, "cancelled", 2),
        (status, trial.status_of(later), len(trial.sent())),
    )
    yield None if "1 are no longer booked" in said else f"the canceled trip is not counted: {said}"


def faults_of_commands(trial):
    """Commands that fail, hang, or leave something behind."""
    trial.fresh('#!/bin/sh\ncat >/dev/null\necho "no modem" >&2\nexit 3\n')
    status, said = trial.run()
    yield difference(
        f"a command that fails: {said}",
        (1, 2),
        (status, said.count("./hook ended with status 3: no modem")),
    )
    yield difference(
        "failed ones are not sent again",
        (1, True),
        (
            lambda it: (
                it[0],
                "2 failed before. What failed or has no end is never sent again: call" in it[1],
            )
        )(trial.run()),
    )
    yield difference(
        "the plan of failed ones",
        2,
        trial.run("--plan")[1].count(
            "is not sent again, call the rider: ./hook ended with status 3: no modem"
        ),
    )
    trial.fresh("#!/bin/sh\nsleep 300 & echo $! >child\nsleep 300\n")
    begun = time.monotonic()
    status, said = trial.run()
    yield difference(
        f"a command that hangs: {said}", (1, True), (status, time.monotonic() - begun < 60)
    )
    yield difference(
        "what nobody knows",
        2,
        said.count("did not end in 2 seconds, so nobody knows whether it was sent"),
    )
    child = int(read(f"{trial.folder}/child"))
    yield None if has_ended(child) else f"the child {child} of the command lives on"
    trial.fresh('#!/bin/sh\necho "to $*" >>sent\necho "--" >>sent\nsleep 20 &\n')
    begun = time.monotonic()
    status, said = trial.run()
    yield difference(
        f"a command that leaves a child behind: {said}",
        (0, 2, True),
        (status, len(trial.sent()), time.monotonic() - begun < 15),
    )
    trial.fresh("#!/bin/sh\nexec 0<&-\nexit 0\n")
    yield difference("a command that reads nothing", 0, trial.run()[0])
    trial.fresh()
    os.remove(f"{trial.folder}/hook")
    status, said = trial.run()
    yield difference(
        f"no command: {said}", (1, 2), (status, said.count("./hook: No such file or directory"))
    )


def faults_of_gateway(trial):
    """A gateway that is away gets three messages, and the rest waits for a later run."""
    more = [trial.book(9, it) for it in (700, 760, 820)]
    by_sms = ROSTER.replace(",mail,bo@town.example", ",sms,")
    trial.fresh("#!/bin/sh\nsleep 60\n", by_sms)
    status, said = trial.run()
    yield difference(
        f"a gateway that is away: {said}",
        (1, True, True),
        (
            status,
            "3 times in a row: it gets no more in this run" in said,
            "2 left for the next run" in said,
        ),
    )
    write(f"{trial.folder}/hook", TAKES, 0o755)
    status, said = trial.run()
    yield difference(
        f"the later run: {said}",
        (1, 2, True),
        (status, len(trial.sent()), "2 sent, 3 failed before" in said),
    )
    for it in more:
        trial.cancel(it)


def faults_of_cut_off(trial):
    """A run that is killed while a command runs: nothing is sent twice, and a person calls."""
    trial.fresh('#!/bin/sh\necho "to $*" >>sent\necho "--" >>sent\nsleep 30\n')
    with subprocess.Popen(
        trial.words(),
        cwd=trial.folder,
        env=CLOCK,
        stdout=subprocess.DEVNULL,
        stderr=subprocess.DEVNULL,
        start_new_session=True,
    ) as running:
        end = time.monotonic() + 30
        while not trial.sent() and time.monotonic() < end:
            time.sleep(0.05)
        os.killpg(running.pid, signal.SIGKILL)
    with open(f"{trial.folder}/reminders.jsonl", "a", encoding="utf-8") as file:
        file.write('{"kind":"end","key":"20')
    write(f"{trial.folder}/hook", TAKES, 0o755)
    status, said = trial.run()
    yield difference(
        f"after a run that was killed: {said}",
        (1, ["+15555550107", "bo@town.example"], True),
        (status, trial.sent(), "1 sent, 1 were begun before and have no known end" in said),
    )
    with open(f"{trial.folder}/reminders.jsonl", encoding="utf-8") as file:
        yield difference(
            "each line is whole", True, all(isinstance(json.loads(it), dict) for it in file)
        )


def faults_of_terminated(trial):
    """A run that SIGTERM ends says what it had begun, and leaves no command behind."""
    trial.fresh("#!/bin/sh\necho $$ >child\nsleep 30\n")
    named = {"stdout": subprocess.PIPE, "stderr": subprocess.STDOUT, "text": True}
    with subprocess.Popen(trial.words(), cwd=trial.folder, env=CLOCK, **named) as running:
        end = time.monotonic() + 30
        while not read(f"{trial.folder}/child") and time.monotonic() < end:
            time.sleep(0.05)
        running.terminate()
        said = running.communicate(timeout=SECONDS)[0]
    child = read(f"{trial.folder}/child").strip()
    yield difference(
        f"ended by SIGTERM: {said}",
        (143, 1, True),
        (
            running.returncode,
            len(said.splitlines()),
            "trip 1 was begun and nobody knows the end" in said,
        ),
    )
    yield None if has_ended(child) else f"the command {child} lives on"


def faults_of_dialer(trial):
    """Calls go into a file, once."""
    trial.fresh(roster=ROSTER.replace(",sms,", ",voice,"))
    status, said = trial.run("--csv", "dialer.csv")
    with open(f"{trial.folder}/dialer.csv", encoding="utf-8", newline="") as file:
        rows = list(csv.DictReader(file))
    yield difference(
        f"the dialer's file: {said}",
        (0, [("+15555550107", "es", "1")]),
        (status, [(it["telephone"], it["language"], it["trip"]) for it in rows]),
    )
    yield difference("what else was sent", ["bo@town.example"], trial.sent())
    status, said = trial.run("--csv", "dialer.csv")
    yield difference(
        "a file that the dialer has not taken",
        (2, True),
        (status, "dialer.csv is there already" in said),
    )
    status, said = trial.run("--csv", "second.csv")
    yield difference(
        f"a second file: {said}",
        (0, 1),
        (status, len(read(f"{trial.folder}/second.csv").splitlines())),
    )


def faults_of_soon(trial):
    """Shortly before a pickup, where that is set."""
    if not shutil.which("faketime"):
        print("faketime is not installed: reminders shortly before a pickup are left out")
        return
    trial.fresh()
    yield difference("not set", (0, []), (trial.run("--soon")[0], trial.sent()))
    trial.fresh(soon_minutes=60)
    yield difference("too early", (0, []), (trial.run("--soon")[0], trial.sent()))
    windows = sorted(
        it["window_from"]
        for rider in (7, 9)
        for it in trial.desk.get(f"/riders/{rider}/trips", "hello").body["trips"]
        if it["status"] == "booked"
    )
    now = datetime.datetime.now(datetime.timezone.utc)
    first = datetime.datetime.combine(
        TOMORROW, datetime.time(), datetime.timezone(datetime.timedelta(hours=serving.HOURS_EAST))
    ) + datetime.timedelta(minutes=windows[0])
    seconds = int((first - now).total_seconds()) - 600
    status, said = trial.run("--soon", before=["faketime", "-f", f"+{seconds}"])
    yield difference(
        f"ten minutes before: {said}",
        (0, 1, True),
        (status, len(trial.sent()), "lo recogemos hoy" in read(f"{trial.folder}/sent")),
    )
    yield difference(
        "and once",
        1,
        (trial.run("--soon", before=["faketime", "-f", f"+{seconds + 60}"]), len(trial.sent()))[1],
    )


def faults_of_input(trial):
    """What bad input comes to: a sentence, and nothing is sent."""
    trial.fresh()
    status, said = trial.run(key="hello")
    yield difference(
        f"a clerk's key: {said}", (2, True), (status, "the desk answers /days/" in said)
    )
    status, said = trial.run("--patience", "1", url=f"http://127.0.0.1:{serving.free_port()}")
    yield difference(f"no desk: {said}", (3, True), (status, "does not answer" in said))
    for held, wanted in (
        (["a"], "the file is not an object"),
        ({"channels": {"fax": {}}}, "channels has 'fax'"),
        ({"channels": {"sms": {"command": []}}}, "channels.sms.command"),
        ({"texts": {"en": {"evening": "{rider}"}}}, "has {rider}, which is none of"),
        ({"soon_minutes": "60"}, "soon_minutes is no whole number"),
    ):
        trial.settings(held)
        status, said = trial.run()
        yield difference(f"{held}: {said}", (2, True, []), (status, wanted in said, trial.sent()))
    trial.fresh(
        roster="rider,name,telephone,reminder\n7,Ana,555-0107 or 555-0108,sms\nx,Bo,555,sms\n9,Bo,555-0109,fax\n"
    )
    status, said = trial.run()
    yield difference(f"a roster with faults: {said}", (1, []), (status, trial.sent()))
    for wanted in (
        "row 3: rider 'x' is no number",
        "row 4: reminder 'fax' is none of",
        "trip 1: '555-0107 or 555-0108' is not one telephone number",
    ):
        yield None if wanted in said else f"{wanted!r} is not said: {said}"
    trial.fresh()
    write(f"{trial.folder}/reminders.jsonl", "any\n")
    status, said = trial.run()
    yield difference(
        f"another file: {said}", (2, True, []), (status, "Nothing is sent" in said, trial.sent())
    )


def faults_of_answers(trial):
    """What riders answer is kept, and cancels nothing."""
    trial.fresh('#!/bin/sh\necho "no modem" >&2\nexit 3\n')
    trial.run()
    yield difference(
        "an answer", (0, "It is in the list of the clerk.\n"), trial.answer("15555550107", "C\n")
    )
    yield difference(
        "the same again",
        (0, "It is in the list of the clerk already.\n"),
        trial.answer("15555550107", " c"),
    )
    yield difference(
        "by its id",
        (0, "It is in the list of the clerk.\n"),
        trial.answer("5559999", "\x1b[2J who?", "--answer-id", "a1"),
    )
    yield difference(
        "by its id again",
        (0, "It is in the list of the clerk already.\n"),
        trial.answer("5559999", "who?", "--answer-id", "a1"),
    )
    yield difference("no number", 2, trial.answer("modem", "C")[0])
    yield difference("no answer cancels", "booked", trial.status_of(1, 7))


def listed(trial, words):
    """How a command ends in the folder of a trial."""
    return subprocess.run(
        words,
        cwd=trial.folder,
        env=CLOCK,
        capture_output=True,
        text=True,
        timeout=SECONDS,
        check=False,
    )


def faults_of_waiting(trial, program, file):
    """What a person does in the morning, by bin/worklist over a copy: once the desk has ended, its file is one."""
    copy = f"{trial.folder}/copy.db"
    serving.copy_database(file, copy)
    words = [
        f"{TOP}/bin/worklist",
        copy,
        "--roster",
        "roster.csv",
        "--reminders",
        ".",
        "--today",
        TODAY.isoformat(),
        "--program",
        program,
    ]
    done = listed(trial, words)
    lists = {it.split(":")[0]: it for it in done.stdout.split("\n\n")}
    failed, answers = lists.get("REMINDERS THAT DID NOT GO OUT", ""), lists.get(
        "ANSWERS TO REMINDERS", ""
    )
    yield difference(
        f"whom to call: {failed}{done.stderr}",
        (2, True, True),
        (failed.count("no modem"), "sms: +15555550107" in failed, "No run of yesterday" in failed),
    )
    yield difference(
        f"who answered: {answers}", (1, 1), (answers.count("  C  "), answers.count("who?"))
    )
    kept = read(f"{trial.folder}/reminders.jsonl").splitlines(keepends=True)
    last = max(at for at, it in enumerate(kept) if '"kind":"end"' in it)
    write(
        f"{trial.folder}/reminders.jsonl", "".join(it for at, it in enumerate(kept) if at != last)
    )
    done = listed(trial, words)
    yield difference(
        "whom to call after a run that was cut off",
        (1, 1),
        (
            done.stdout.count("no modem"),
            done.stdout.count("a run was cut off, so nobody knows whether it was sent"),
        ),
    )
    write(f"{trial.folder}/reminders.jsonl", "any\n")
    done = listed(trial, words)
    yield difference(
        "another file in place of the reminders",
        (1, True),
        (done.returncode, "is none of this program's" in done.stderr),
    )


def main():
    program, _ = told_program(sys.argv[1:], f"{__doc__.splitlines()[0]}\n")
    with tempfile.TemporaryDirectory(prefix="desk-reminders-") as folder:
        file = serving.make_agency(program, folder)
        with serving.Desk(program, file) as desk:
            trial = Trial(desk, folder)
            parts = (
                faults_of_messages,
                faults_of_commands,
                faults_of_cut_off,
                faults_of_terminated,
                faults_of_dialer,
                faults_of_input,
                faults_of_soon,
                faults_of_canceled,
                faults_of_gateway,
                faults_of_answers,
            )
            faults = [it for part in parts for it in part(trial)]
        faults += faults_of_waiting(trial, program, file)
    return tally("tests/reminders", faults)


if __name__ == "__main__":
    sys.exit(main())
