"""Tries deploy/watch and the units: `try-watch`, which takes no program.

Each trouble that the watch tells of is made and told, and what is well is not told: a desk that is down or answers 503,
a loop of restarts and its steps, a disk, the clock, a certificate, a backup, a second machine; the mail and the hook.
The units are looked at by systemd-analyze. The last line is 'N passed, M failed', and the exit status 1 where
something failed. Without openssl or systemd-analyze what takes them is left out, and that is said.
"""
import contextlib
import http.server
import json
import os
import shutil
import socketserver
import ssl
import subprocess
import sys
import tempfile
import threading
import time
import types

from desk_tools import agencies
from desk_tools.tree import TOP
from desk_tools.ops import watching
from serving import difference, free_port, tally

MAIN = agencies.Agency()
WELL = {"LoadState": "loaded", "ActiveState": "active", "Result": "success", "NRestarts": "0"}
UNITS = (
    "desk@.service",
    "desk-watch.service",
    "desk-watch.timer",
    "desk-restart.service",
    "desk-restart.timer",
)
# Lower is safer. A unit that nobody hardened has 9.6.
SAFE_ENOUGH = {
    "desk@.service": 1.4,
    "desk-watch.service": 1.4,
    "desk-health.service": 1.4,
    "desk-backup@.service": 3.2,
    "desk-restart.service": 1.6,
    "desk-standby@.service": 3.2,
    "desk-standby-check@.service": 3.2,
    "desk-acme.service": 3.2,
}


def first(texts):
    """The first of the texts, or none at all."""
    return texts[0] if texts else ""


class Server:
    """Answers each connection by a handler, while it is used."""

    def __init__(self, handler, context=None):
        self.server = socketserver.ThreadingTCPServer(
            ("127.0.0.1", 0), handler, bind_and_activate=True
        )
        self.server.daemon_threads = True
        if context:
            self.server.socket = context.wrap_socket(self.server.socket, server_side=True)
        self.address = f"127.0.0.1:{self.server.server_address[1]}"

    def __enter__(self):
        threading.Thread(target=self.server.serve_forever, args=(0.05,), daemon=True).start()
        return self

    def __exit__(self, *_):
        self.server.shutdown()
        self.server.server_close()


def answering(status):
    class Handler(http.server.BaseHTTPRequestHandler):
        def do_GET(self):
            self.send_response(status)
            self.end_headers()

        def log_message(self, *_):
            pass

    return Handler


class Trial:
    """A folder with what the watch reads, and the watch run over it."""

    def __init__(self, folder):
        self.folder, self.settings = folder, f"{folder}/etc"
        for name in ("etc", "backups", "data"):
            os.mkdir(f"{folder}/{name}")
        self.conf(SITE="none")
        self.backup(hours=2)
        self.unit = dict(WELL)

    def conf(self, **values):
        with open(f"{self.settings}/watch.conf", "w", encoding="utf-8") as file:
            file.writelines(f"{name}={value}\n" for name, value in values.items())

    def backup(self, hours):
        with open(f"{self.folder}/backups/desk-1.db", "w", encoding="utf-8"):
            pass
        at = time.time() - hours * 3_600
        os.utime(f"{self.folder}/backups/desk-1.db", (at, at))

    def run(self, url, *words):
        """(status, lines, units that were restarted)."""
        with open(f"{self.folder}/show", "w", encoding="utf-8") as file:
            file.writelines(f"{name}={value}\n" for name, value in self.unit.items())
        log = f"{self.folder}/restarted"
        environment = {
            **os.environ,
            "SETTINGS": self.settings,
            "STATE": f"{self.folder}/state",
            "URL": url,
            "PATIENCE": "1",
            "BACKUPS": f"{self.folder}/backups",
            "DATA": f"{self.folder}/data",
            "SHOW": self.show(),
            "RESTART": f"echo >>{log}",
            "PUBLISHED": f"{self.folder}/published",
        }
        told = subprocess.run(
            [f"{TOP}/deploy/watch", *words],
            env=environment,
            capture_output=True,
            text=True,
            timeout=60,
            stdin=subprocess.DEVNULL,
        )
        anew = []
        if os.path.exists(log):
            with open(log, encoding="utf-8") as file:
                anew = file.read().split()
            os.remove(log)
        return told.returncode, told.stderr.replace("deploy/watch: ", "").splitlines(), anew

    def show(self):
        """A command that shows each unit as the trial has it."""
        path = f"{self.folder}/show-unit"
        with open(path, "w", encoding="utf-8") as file:
            file.write(f"#!/bin/sh\ncat {self.folder}/show\n")
        os.chmod(path, 0o755)
        return path

    def forget(self):
        with contextlib.suppress(FileNotFoundError):
            os.remove(f"{self.folder}/state")


# What is seen from outside.


def faults_of_answers(trial):
    with Server(answering(401)) as desk:
        yield difference("a desk that is well", (0, [], []), trial.run(f"http://{desk.address}"))
    with Server(answering(503)) as desk:
        yield difference(
            "a store that failed",
            (1, [f"{MAIN.unit}: answers 503, and is restarted"], [MAIN.unit]),
            trial.run(f"http://{desk.address}"),
        )
    url = f"http://127.0.0.1:{free_port()}"
    said = [f"{MAIN.unit}: does not answer on {url}: see journalctl -u {MAIN.unit}"]
    yield difference("a desk that is down", (1, said, []), trial.run(url))
    with open(f"{trial.settings}/main.fenced", "w", encoding="utf-8"):
        yield difference("a machine that is fenced", (0, [], []), trial.run(url))
    os.remove(f"{trial.settings}/main.fenced")


def faults_of_backups(trial, url):
    trial.backup(hours=30)
    status, lines, _ = trial.run(url)
    yield difference(
        "an old backup", (1, True), (status, first(lines).endswith(", more than a day ago"))
    )
    os.remove(f"{trial.folder}/backups/desk-1.db")
    yield difference("no backup", (1, [f"{MAIN.unit}: there is no backup"], []), trial.run(url))
    trial.backup(hours=2)
    yield difference("a backup of the night", (0, [], []), trial.run(url))


def faults_of_sending(trial, url):
    """The lines are sent once, and so is their end; what cannot be sent is told and sent later."""
    got = f"{trial.folder}/got"
    trial.conf(SITE="none", HOOK=f"cat >>{got}")
    os.remove(f"{trial.folder}/backups/desk-1.db")
    trial.run(url), trial.run(url)
    with open(got, encoding="utf-8") as file:
        yield difference("what the hook got", f"{MAIN.unit}: there is no backup\n", file.read())
    trial.backup(hours=2)
    trial.run(url), trial.run(url)
    with open(got, encoding="utf-8") as file:
        yield difference(
            "at the end", f"{MAIN.unit}: there is no backup\nall is well again\n", file.read()
        )
    told = []
    with Server(taking(told)) as service:
        trial.conf(SITE="none", HOOK=f"http://{service.address}/secret?token=4711")
        yield difference("a test line by the watch itself", (0, [], []), trial.run(url, "--test"))
        said = "this is a test: what is wrong with the desk is told here\n"
        yield difference("what the address got", [("/secret?token=4711", said)], told)
    with Server(answering(401)) as service:
        trial.conf(SITE="none", HOOK=f"http://{service.address}/")
        status, lines, _ = trial.run(url, "--test")
        yield difference(
            "an address that takes none",
            (1, True),
            (status, first(lines).startswith("the test line could not")),
        )
    yield from faults_of_secrets(trial, url)
    letters = []
    with Server(mail_server(letters)) as mail:
        trial.conf(SITE="none", MAIL="ops@agency.example", SMTP=mail.address)
        os.remove(f"{trial.folder}/backups/desk-1.db")
        trial.run(url)
    seen = [
        text in first(letters)
        for text in (f"{MAIN.unit}: there is no backup", "To: ops@agency.example")
    ]
    yield difference("the letter", (1, [True, True]), (len(letters), seen))
    status, lines, _ = trial.run(url, "--test")
    yield difference(
        "a test line, and no server",
        (1, True),
        (status, first(lines).startswith("the test line could not")),
    )
    trial.backup(hours=2)
    status, lines, _ = trial.run(url)
    said = first(lines).startswith(
        f"machine: this could not be sent: {mail.address} takes no mail: "
    )
    yield difference("no server for mail", (1, True), (status, said))
    trial.conf(SITE="none")


def taking(told):
    """A service that takes lines."""

    class Handler(http.server.BaseHTTPRequestHandler):
        def do_POST(self):
            told.append((self.path, self.rfile.read(int(self.headers["Content-Length"])).decode()))
            self.send_response(204)
            self.end_headers()

        def log_message(self, *_):
            pass

    return Handler


def faults_of_secrets(trial, url):
    """watch.conf may hold a secret: the watch has it by systemd, and one that it may not read is no empty one."""
    handed = f"{trial.folder}/handed"
    os.mkdir(handed)
    trial.conf(SITE="none", HOOK="exit 9")
    with open(f"{handed}/watch.conf", "w", encoding="utf-8") as file:
        file.write(f"SITE=none\nHOOK=cat >{handed}/got\n")
    os.environ["CREDENTIALS_DIRECTORY"] = handed
    yield difference("what systemd handed on", (0, [], []), trial.run(url, "--test"))
    del os.environ["CREDENTIALS_DIRECTORY"]
    yield difference("the hook of it", True, os.path.exists(f"{handed}/got"))
    if os.geteuid() == 0:
        os.chmod(f"{trial.settings}/watch.conf", 0o600)
        words = [
            "setpriv",
            "--reuid=65534",
            "--regid=65534",
            "--clear-groups",
            f"{TOP}/deploy/watch",
            "--test",
        ]
        told = subprocess.run(
            words, env={**os.environ, "SETTINGS": trial.settings}, capture_output=True, text=True
        )
        said = "Permission denied" in told.stderr and told.stderr.count("\n") == 1
        yield difference(
            "a file that may not be read", (1, True), (told.returncode, said or told.stderr)
        )
    with open(f"{TOP}/deploy/desk-watch.service", encoding="utf-8") as file:
        yield None if f"LoadCredential=watch.conf:{agencies.SETTINGS}/watch.conf\n" in file.read() else "the unit hands watch.conf on"


def mail_server(letters):
    """A server that takes a letter."""

    class Handler(socketserver.StreamRequestHandler):
        def handle(self):
            self.wfile.write(b"220 trial\r\n")
            while line := self.rfile.readline():
                word = line[:4].upper()
                self.wfile.write(
                    {b"DATA": b"354 go on\r\n", b"QUIT": b"221 end\r\n"}.get(word, b"250 well\r\n")
                )
                if word == b"DATA":
                    lines = iter(self.rfile.readline, b".\r\n")
                    letters.append(b"".join(lines).decode())
                    self.wfile.write(b"250 taken\r\n")
                if word == b"QUIT":
                    return

    return Handler


def context_with(folder, days):
    """A certificate that ends in so many days. (openssl takes no days before today.)"""
    words = [
        "openssl",
        "req",
        "-x509",
        "-newkey",
        "rsa:2048",
        "-nodes",
        "-days",
        str(days),
        "-subj",
        "/CN=desk",
    ]
    words += ["-keyout", f"{folder}/key.pem", "-out", f"{folder}/certificate.pem"]
    subprocess.run(words, check=True, capture_output=True)
    context = ssl.SSLContext(ssl.PROTOCOL_TLS_SERVER)
    context.load_cert_chain(f"{folder}/certificate.pem", f"{folder}/key.pem")
    return context


def faults_of_certificates(trial, url):
    if not shutil.which("openssl"):
        print("deploy/try-watch: skipped: certificates, which take openssl")
        return
    for days, said in (
        (90, []),
        (20, [f"{MAIN.unit}: the certificate of desk.example.org ends in 19 days"]),
    ):
        with Server(answering(200), context_with(trial.folder, days)) as site:
            trial.conf(SITE=site.address, NAME="desk.example.org")
            status, lines, _ = trial.run(url)
            yield difference(
                f"{days} days",
                (len(said), said),
                (status, [it.rpartition(": ")[0] for it in lines]),
            )
    trial.conf(SITE=f"127.0.0.1:{free_port()}")
    status, lines, _ = trial.run(url)
    said = first(lines).startswith(f"{MAIN.unit}: the site does not answer on 127.0.0.1:")
    yield difference("a site that is down", (1, True), (status, said))
    trial.conf(SITE="none")


# What is judged of facts.


def later(told, seconds, jump=0):
    """Facts of so many seconds later, by a clock that jumped meanwhile; the last backup is as old as it was."""
    moment = told["moment"] + seconds + jump
    return {
        "moment": moment,
        "uptime": told["uptime"] + seconds,
        "backups": {MAIN.unit: moment - 7_200},
    }


def judged(told, state, settings, **changed):
    """The sentences, and what is restarted, for facts of a machine that is well but for what is changed."""
    found, wanted = watching.troubles({**told, **changed}, state, settings, 0)
    return [sentence for _, _, sentence in found], wanted


def faults_of_loops(told, settings):
    """systemd gives the unit up; it is started after one minute, two, four, eight, fifteen, fifteen."""
    state, steps = {}, []
    failed = {
        MAIN.unit: {**WELL, "ActiveState": "failed", "Result": "start-limit-hit", "NRestarts": "5"}
    }
    for minute in range(60):
        said, wanted = judged(told, state, settings, units=failed, **later(told, 60 * minute))
        steps += [minute] if wanted else []
        if not first(said).startswith(
            "has ended again and again (start-limit-hit); it is started again at "
        ):
            yield f"a loop: {said}"
    yield difference("the minutes of the starts", [0, 1, 3, 7, 15, 30, 45], steps)
    state = {}
    counts = [0, 0, 1, 2, 3, 3]
    said = [
        judged(
            told,
            state,
            settings,
            units={MAIN.unit: {**WELL, "NRestarts": str(count)}},
            **later(told, 60 * at),
        )[0]
        for at, count in enumerate(counts)
    ]
    wanted = [f"was restarted 3 times within the hour: see journalctl -u {MAIN.unit}"]
    yield difference("three restarts", [[], [], [], [], wanted, wanted], said)


def faults_of_clocks(told, settings):
    def looked(state, seconds, uptime):
        return judged(told, state, settings, **later(told, uptime, seconds - uptime))[0]

    for jump, way in ((86_400, "forward"), (-120, "back")):
        state = {}
        yield difference("the first look", [], looked(state, 0, 0))
        said = looked(state, 60 + jump, 60)
        wanted = f"the clock jumped {way} by {abs(jump):,} seconds: "
        yield difference("a jump", (1, wanted), (len(said), first(said)[: len(wanted)]))
        yield difference("within the hour", said, looked(state, 120 + jump, 120))
        yield difference("an hour later", [], looked(state, 3_700 + jump, 3_700))
    state = {}
    looked(state, 0, 0)
    anew = {**later(told, 9_000), "uptime": 20}
    yield difference("a start of the machine", [], judged(told, state, settings, **anew)[0])


def faults_of_rooms(told, settings):
    """A disk with so much of it free, of so many bytes; files likewise."""
    real = os.statvfs
    mega = 256
    for what, free, of_all, files, wanted in (
        ("much room", 30_000, 100_000, 900, 0),
        ("a tenth of a large disk", 9_000, 100_000, 900, 0),
        ("less than a tenth", 4_000, 100_000, 900, 3),
        ("little room", 400, 1_000, 900, 3),
        ("few files", 30_000, 100_000, 40, 3),
    ):
        disk = types.SimpleNamespace(
            f_frsize=4096,
            f_bavail=free * mega,
            f_blocks=of_all * mega,
            f_files=1000,
            f_favail=files,
        )
        os.statvfs = lambda _, disk=disk: disk
        try:
            said = judged(told, {}, settings)[0]
        finally:
            os.statvfs = real
        yield difference(
            what, (wanted, True), (len(said), all(it.endswith(": make room") for it in said))
        )
    said = judged(told, {}, settings, sizes={MAIN.unit: 1 << 60})[0]
    yield difference("no room for a second database", 1, len(said))


def faults_of_full_disks(told, settings):
    """A desk that a full disk ended is started at the first look that finds room, whatever step it was at."""
    real, state, steps = watching.room_in, {}, []
    failed = {
        MAIN.unit: {**WELL, "ActiveState": "failed", "Result": "start-limit-hit", "NRestarts": "5"}
    }
    try:
        for look in range(100):
            watching.room_in = lambda _, look=look: 1 << 30 if look > 90 else 0
            steps += (
                [look]
                if judged(told, state, settings, units=failed, **later(told, 15 * look))[1]
                else []
            )
    finally:
        watching.room_in = real
    yield difference("the looks of the starts", [0, 4, 12, 28, 60, 91, 95], steps)


def faults_of_journals(told, _settings):
    """A trouble that stays is said once an hour, and one that comes anew at once."""
    state, said = {}, []
    for look in range(600):
        found = [(MAIN.unit, "backup", "there is no backup")] if look < 300 or look > 310 else []
        said += [look] if watching.unspoken(found, state, told["moment"] + 15 * look) else []
    yield difference("the looks that say it", [0, 240, 311, 551], said)


def faults_of_copies(told, settings):
    """Copies of before an upgrade are told of once the nightly backup should have put them away."""
    for days, count in ((0, 0), (90, 0), (92, 1)):
        copies = {MAIN.unit: [2, 9 << 20, told["moment"] - days * 86_400]}
        said = judged(told, {}, settings, copies=copies)[0]
        yield difference(
            f"copies of {days} days", count, sum("before an upgrade (9 MB)" in it for it in said)
        )


def faults_of_standbys(told, settings):
    def looked(state, minutes, status, ended):
        ended_at = f"@{int(told['moment'] + 60 * ended)}"
        seen = {
            MAIN.unit: {
                "LoadState": "loaded",
                "ExecMainStatus": status,
                "ExecMainExitTimestamp": ended_at,
            }
        }
        return judged(told, state, settings, standby=seen, **later(told, 60 * minutes))[0]

    state = {}
    yield difference("a copy of now", [], looked(state, 0, "0", 0))
    yield difference("a copy that failed", [], looked(state, 10, "1", 10))
    said = looked(state, 25, "1", 25)
    behind = first(said).startswith("the second machine is behind: ")
    yield difference("a second machine that is behind", True, behind)
    yield difference("a copy that came", [], looked(state, 30, "0", 30))


def faults_of_facts(trial):
    """The three steps of the unit: facts, look, act."""
    at = f"{trial.folder}/facts"
    with Server(answering(503)) as desk:
        url = f"http://{desk.address}"
        yield difference("facts", (0, [], []), trial.run(url, "--facts", at))
        yield difference(
            "a look",
            (1, [f"{MAIN.unit}: answers 503, and is restarted"], []),
            trial.run(url, "--look", at),
        )
        yield difference(
            "the same look again says nothing", (1, [], []), trial.run(url, "--look", at)
        )
        yield difference("an act", (0, [], [MAIN.unit]), trial.run(url, "--act", at))
        with open(f"{trial.folder}/published", encoding="utf-8") as file:
            told = json.load(file)
        yield difference(
            "what is published",
            [[[MAIN.unit, "store"]], {MAIN.unit: "8437"}],
            [told["troubles"], told["ports"]],
        )
        with open(f"{at}.wanted", "w", encoding="utf-8") as file:
            json.dump(["ssh"], file)
        yield difference(
            "a unit of others",
            (1, ["'ssh' is no desk of this machine"], []),
            trial.run(url, "--act", at),
        )


# The units.


def faults_of_units(folder):
    if not shutil.which("systemd-analyze"):
        print("deploy/try-watch: skipped: the units, which take systemd-analyze")
        return
    units = [
        it for it in sorted(os.listdir(f"{TOP}/deploy")) if it.endswith((".service", ".timer"))
    ]
    for name in units:
        one = f"{folder}/{name.replace('@.', '@north.')}"
        with open(f"{TOP}/deploy/{name}", encoding="utf-8") as text, open(
            one, "w", encoding="utf-8"
        ) as file:
            unit = text.read().replace("/usr/lib/desk/bin/", f"{TOP}/bin/")
            unit = unit.replace("/usr/lib/desk/deploy/", f"{TOP}/deploy/")
            file.write(
                unit.replace("/usr/bin/desk", "/bin/true").replace(
                    "/usr/bin/dehydrated", "/bin/true"
                )
            )
    told = subprocess.run(
        ["systemd-analyze", "verify", *(f"{folder}/{it}" for it in sorted(os.listdir(folder)))],
        capture_output=True,
        text=True,
        env={**os.environ, "SYSTEMD_UNIT_PATH": f"{folder}:"},
    )
    yield difference(
        "systemd-analyze verify", (0, ""), (told.returncode, told.stdout + told.stderr)
    )
    yield difference("the units of the watch", [True] * len(UNITS), [it in units for it in UNITS])
    for name, most in SAFE_ENOUGH.items():
        words = [
            "systemd-analyze",
            "security",
            "--offline=true",
            f"--threshold={int(most * 10)}",
            "--no-pager",
        ]
        told = subprocess.run(
            [*words, f"{folder}/{name.replace('@.', '@north.')}"], capture_output=True, text=True
        )
        yield None if told.returncode == 0 else f"{name}: {told.stdout.splitlines()[-1]}"
    yield from faults_of_timers(units)
    with open(f"{TOP}/deploy/desk@.service", encoding="utf-8") as text:
        filters = [line.strip() for line in text if line.startswith("SystemCallFilter=")]
    yield difference("the owner of a new log", "SystemCallFilter=fchown", filters[-1])
    with open(f"{TOP}/deploy/desk-restart.timer", encoding="utf-8") as text:
        calendar = next(line for line in text if line.startswith("OnCalendar=")).strip()[11:]
    told = subprocess.run(["systemd-analyze", "calendar", calendar], capture_output=True, text=True)
    yield difference("the moment of the restart", 0, told.returncode)


def faults_of_timers(units):
    """Each is on time to the second, and none is at an hour that summer time leaves out."""
    for name in (it for it in units if it.endswith(".timer")):
        with open(f"{TOP}/deploy/{name}", encoding="utf-8") as text:
            lines = text.read().splitlines()
        yield None if "AccuracySec=1s" in lines else f"{name} may be a minute late"
        yield None if not any(
            it.startswith("OnCalendar=*-*-* 02:") for it in lines
        ) else f"{name} is left out in March"


def faults(folder):
    trial = Trial(folder)
    yield from faults_of_answers(trial)
    with Server(answering(401)) as desk:
        url = f"http://{desk.address}"
        yield from faults_of_backups(trial, url)
        yield from faults_of_sending(trial, url)
        trial.forget()
        yield from faults_of_certificates(trial, url)
        os.environ.update(
            URL=url, DATA=f"{folder}/data", BACKUPS=f"{folder}/backups", SHOW=trial.show()
        )
        told = watching.facts(trial.settings)
        told["standby"] = {}
        for faults_of in (
            faults_of_loops,
            faults_of_full_disks,
            faults_of_journals,
            faults_of_copies,
            faults_of_clocks,
            faults_of_rooms,
            faults_of_standbys,
        ):
            yield from faults_of(told, trial.settings)
    yield from faults_of_facts(trial)
    os.mkdir(f"{folder}/units")
    yield from faults_of_units(f"{folder}/units")


def main():
    with tempfile.TemporaryDirectory(prefix="desk-watch-") as folder:
        return tally("deploy/try-watch", faults(folder))


if __name__ == "__main__":
    sys.exit(main())
