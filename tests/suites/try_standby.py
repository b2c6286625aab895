"""Tries deploy/standby between two machines, each a network of its own with an ssh server: `try-standby PROGRAM`.

A copy goes from the first to the second, which checks it. Then the first dies in the middle of the next: its desk and
all it runs are killed and its line is cut. The second has the earlier copy, and opens the desk by one command once a
person says that the first is off, and that a copy which lacks writes is opened. The first, back again, is told so,
fences itself and serves no longer. Where both are up eight clients write while the second takes over, and while the
first takes over again: no answered write is lost. Whatever fails in a change-over leaves the first serving. Each key
may do what BACKUPS.md lets it do alone. What is no whole copy gets no name. Which copies are kept is tried for forty
days of copies each five minutes.

The machines take root, `ip`, `rsync` and `sshd` (packages iproute2, rsync, openssh-server): without them they are left
out, and a line says so. The last line but one says how long the second took to open. The last is 'N passed, M failed',
and the exit status 1 where something failed.
"""
import contextlib
import ctypes
import datetime
import os
import random
import re
import shutil
import signal
import sqlite3
import subprocess
import sys
import tempfile
import threading
import time

from desk_tools.tree import TOP
from desk_tools.ops.retention import copies_in, kept_of, moment_of, name_after, name_at
from desk_tools.ops import standby
from desk_tools.ops.fences import is_compared
from serving import (
    ADMINS_KEY,
    SECONDS,
    Desk,
    content_of_copy,
    difference,
    make_agency,
    rows,
    tally,
    told_program,
    with_database,
)
from trying import missing_disk, skipped, works

NEW_NETWORK = 0x40000000
LONG = 10 * SECONDS
FIRST, SECOND = "10.99.37.1", "10.99.37.2"
# So slow that a copy is on its way for some seconds, in kilobytes a second.
SLOW = 3
SSHD = """ListenAddress {address}
Port 22
HostKey {folder}/host-key
AuthorizedKeysFile {folder}/authorized-{address}
PidFile {folder}/sshd-{address}.pid
PasswordAuthentication no
PermitRootLogin prohibit-password
StrictModes no
UsePAM no
"""


# Which copies are kept.


def faults_of_ladder():
    """Forty days of copies each five minutes."""
    now = begin = datetime.datetime(2026, 3, 1)
    names, most = set(), 0
    hour, day = datetime.timedelta(hours=1), datetime.timedelta(days=1)
    wanted = [(hour, 5 * hour / 60), (day, hour), (7 * day, day), (31 * day, 7 * day)]
    fault = None
    while now < begin + 40 * day:
        names.add(name_at(now))
        names &= kept_of(names, now)
        most = max(most, len(names))
        if name_at(now) not in names:
            fault = f"the newest copy of {now} is gone"
        if (now - begin) % (11 * hour) == datetime.timedelta(0):
            fault = fault_of_gaps(sorted(map(moment_of, names)), now, begin, wanted) or fault
        now += datetime.timedelta(minutes=5)
    yield fault
    yield None if most <= 12 + 24 + 7 + 6 else f"{most} copies are kept at once"
    yield difference(
        "names that are no copies", set(), kept_of({"old.db", "desk-20261340T000000Z.db"}, now)
    )
    yield from faults_of_clock_ahead(begin, day)
    alone = {name_at(begin)}
    yield difference("the one copy, years old", alone, kept_of(alone, now + 900 * day))


def faults_of_clock_ahead(begin, day):
    """The second machine's clock was ahead as some copies came: the newest is the one that came last."""
    names, last = set(), None
    for at in range(400):
        now = (
            begin + (900 * day if 100 <= at < 120 else 0 * day) + at * datetime.timedelta(minutes=5)
        )
        last = name_after(names, now)
        names.add(last)
        names &= kept_of(names, now)
    yield difference("the newest copy after a clock that was ahead", last, copies_in(names)[0])
    yield None if len(names) < 50 else f"{len(names)} copies are kept after a clock that was ahead"


def fault_of_gaps(moments, now, begin, wanted):
    """At each age there is a copy that is no more than two steps older."""
    newest = 0 * datetime.timedelta(1)
    for oldest, step in wanted:
        age = max(newest, step)
        while age < oldest and begin <= now - age - 2 * step:
            if not any(now - age - 2 * step <= it <= now - age + step for it in moments):
                return f"at {now} there is no copy of about {now - age}"
            age += step
        newest = oldest
    return None


# Two machines.


def run(*words, **named):
    return subprocess.run(
        words, check=True, capture_output=True, text=True, timeout=SECONDS, **named
    )


@contextlib.contextmanager
def within(network):
    """This thread, and what it starts, is in that network."""
    libc = ctypes.CDLL(None, use_errno=True)
    with open("/proc/self/ns/net", "rb") as here, open(f"/run/netns/{network}", "rb") as there:
        if libc.setns(there.fileno(), NEW_NETWORK):
            raise OSError(ctypes.get_errno(), "setns")
        try:
            yield
        finally:
            libc.setns(here.fileno(), NEW_NETWORK)


class Machine:
    """A network with a folder for a desk, settings, an ssh server, and a script that has its settings."""

    def __init__(self, network, address, folder, program):
        self.network, self.address, self.folder = network, address, folder
        self.state, self.copies = f"{folder}/state", f"{folder}/standby"
        self.file, self.fence, self.calls, self.script = (
            f"{folder}/{it}" for it in ("state/desk.db", "etc/fenced", "calls", "standby-here")
        )
        for path in (self.state, f"{folder}/etc", f"{folder}/out"):
            os.makedirs(path)
        self.program, self.process, self.server = program, 0, None

    def write_script(self, keys, other):
        """What the other machine calls by ssh, and this one by its timer."""
        self.ssh, self.fencing = (
            f"ssh -F none -i {keys}/{it} -o IdentitiesOnly=yes -o UserKnownHostsFile={keys}/known "
            "-o StrictHostKeyChecking=yes"
            for it in ("key", "fence-key")
        )
        ended = (
            f"echo stop >>{self.calls}; number=$(cat {self.folder}/process); [ $number = 0 ] || kill $number; "
            f"while [ $number != 0 ] && kill -0 $number 2>/dev/null; do sleep 0.05; done; echo 0 >{self.folder}/process"
        )
        given = {
            "FILE": self.file,
            "FENCE": self.fence,
            "DESK": self.program,
            "SETTINGS": f"{self.folder}/etc",
            "OUTGOING": f"{self.folder}/out",
            "STOP": ended,
            "START": f"echo start >>{self.calls}",
            "ENABLE": f"echo enable >>{self.calls}",
            "PATIENCE_OF_LINE": "3",
            "PROCESS": f"cat {self.folder}/process",
        }
        lines = [f"{name}=${{{name}:-'{value}'}}; export {name}" for name, value in given.items()]
        with open(self.script, "w", encoding="utf-8") as text:
            text.write("\n".join(["#!/bin/sh", *lines, f'exec {TOP}/deploy/standby "$@"', ""]))
        os.chmod(self.script, 0o755)
        with open(f"{self.folder}/etc/standby.conf", "w", encoding="utf-8") as text:
            text.write(
                f"# where the second machine "
                f"is\nTARGET={other.address}:{other.copies}\nSSH={self.ssh}\nSCRIPT={other.script}\n"
            )
        self.serves(0)

    def serves(self, number):
        with open(f"{self.folder}/process", "w", encoding="utf-8") as text:
            text.write(f"{number}\n")

    def called(self):
        with contextlib.suppress(FileNotFoundError), open(self.calls, encoding="utf-8") as file:
            return file.read().split()
        return []

    def begun(self, *words):
        """The script, as a group of processes of its own, so that all of it can be killed."""
        with within(self.network):
            return subprocess.Popen(
                [self.script, *words],
                stdout=subprocess.PIPE,
                stderr=subprocess.PIPE,
                text=True,
                start_new_session=True,
            )

    def told(self, *words, before=(), **environment):
        with within(self.network):
            return subprocess.run(
                [*before, self.script, *words],
                capture_output=True,
                text=True,
                timeout=LONG,
                stdin=subprocess.DEVNULL,
                env={**os.environ, **environment},
            )

    def opened(self, *words, **named):
        """`standby open`, by the key that may fence the other machine."""
        return self.told("open", self.copies, *words, **{"SSH": self.fencing, **named})

    def forget_calls(self):
        with contextlib.suppress(FileNotFoundError):
            os.remove(self.calls)

    def listen(self, keys):
        settings = f"{keys}/sshd-{self.address}"
        with open(settings, "w", encoding="utf-8") as text:
            text.write(SSHD.format(folder=keys, address=self.address))
        with within(self.network):
            self.server = subprocess.Popen(
                ["/usr/sbin/sshd", "-D", "-e", "-f", settings],
                stdin=subprocess.DEVNULL,
                stderr=subprocess.DEVNULL,
            )


@contextlib.contextmanager
def two_machines(folder, program):
    """Two machines with a line between them. All of it is gone afterwards."""
    first, second = (f"desk-{it}-{os.getpid()}" for it in ("first", "second"))
    machines = []
    try:
        for network in (first, second):
            run("ip", "netns", "add", network)
        run(
            "ip",
            "-n",
            first,
            "link",
            "add",
            "line",
            "type",
            "veth",
            "peer",
            "name",
            "line",
            "netns",
            second,
        )
        for network, address in ((first, FIRST), (second, SECOND)):
            run("ip", "-n", network, "address", "add", f"{address}/24", "dev", "line")
            for device in ("lo", "line"):
                run("ip", "-n", network, "link", "set", device, "up")
            machines.append(Machine(network, address, f"{folder}/{address}", program))
        give_keys(f"{folder}/keys", machines)
        yield machines
    finally:
        for machine in machines:
            if machine.server:
                machine.server.terminate()
                machine.server.wait()
        for network in (first, second):
            subprocess.run(["ip", "netns", "delete", network], capture_output=True)


def give_keys(keys, machines):
    os.makedirs(keys, 0o700)
    os.makedirs("/run/sshd", 0o755, exist_ok=True)
    for name in ("host-key", "key", "fence-key"):
        run("ssh-keygen", "-q", "-t", "ed25519", "-N", "", "-f", f"{keys}/{name}")
    for machine in machines:
        # (as BACKUPS.md has them)
        let_in(keys, machine, "key", f"serve-copies {machine.copies}")
        let_in(keys, machine, "fence-key", "fence")
    with open(f"{keys}/host-key.pub", encoding="utf-8") as public, open(
        f"{keys}/known", "w", encoding="utf-8"
    ) as known:
        key = " ".join(public.read().split()[:2])
        known.write("".join(f"{it.address} {key}\n" for it in machines))
    for machine, other in zip(machines, reversed(machines)):
        machine.write_script(keys, other)
        machine.listen(keys)


def let_in(keys, machine, name, task):
    """The machine takes a key for one task of its script."""
    with open(f"{keys}/{name}.pub", encoding="utf-8") as public, open(
        f"{keys}/authorized-{machine.address}", "a", encoding="utf-8"
    ) as authorized:
        authorized.write(f'restrict,command="{machine.script} {task}" {public.read()}')


def cut(machine, is_up=False):
    """The line between the machines is cut, or there again."""
    run("ip", "-n", machine.network, "link", "set", "line", "up" if is_up else "down")


def said_by(told):
    return f"status {told.returncode}, {told.stdout!r}, {told.stderr!r}"


def fault_of_told(label, told, status, words):
    said = told.stdout + told.stderr
    is_told = told.returncode == status and words in said and "Traceback" not in said
    return None if is_told else f"{label}: {said_by(told)}"


def copies_of(machine):
    return sorted(os.listdir(f"{machine.copies}/copies"))


def grow(file):
    """Many reasons of refusals, so that the next copy has much that the one before had not."""
    chance = random.Random(37)
    with contextlib.closing(sqlite3.connect(file)) as database, database:
        day = database.execute("SELECT max(day) FROM entries").fetchone()[0]
        for place in range(10, 200):
            words = (
                "".join(
                    chance.choice(
                        "abcdefghijklmnopqrstuvwxyz ABCDEFGHIJKLMNOPQRSTUVWXYZ.,0123456789"
                    )
                    for _ in range(499)
                ).strip()
                + "."
            )
            database.execute(
                "INSERT INTO entries VALUES (7, ?, 2, ?, 4, -1, -1, '', ?)", (place - 8, day, words)
            )


@contextlib.contextmanager
def serving(machine):
    """A desk that serves on the machine."""
    with within(machine.network):
        with Desk(machine.program, machine.file) as desk:
            machine.serves(desk.process.pid)
            # (a process that was ended by the script is there until somebody has waited for it)
            threading.Thread(target=desk.process.wait, daemon=True).start()
            try:
                yield desk
            finally:
                machine.serves(0)


def faults_of_copy(first, second):
    """A copy goes to the second machine while the desk serves, and a second one beside it."""
    with serving(first) as desk:
        yield fault_of_told("the first copy", first.told("send"), 0, "2 riders, 3 trips")
        with within(first.network):
            told = desk.post(
                "/riders", "hello", 50, {"id": 50, "kind": "visitor", "attendant": False}
            )
        yield difference("a write afterwards", 200, told and told.status)
    yield difference("copies", 1, len(copies_of(second)))
    yield difference(
        "what is left of the copy on the first machine", [], os.listdir(f"{first.folder}/out")
    )
    yield difference(
        "the state of the second machine", "waiting\n", second.told("state", second.copies).stdout
    )
    yield fault_of_told(
        "the list of copies", second.told("list", second.copies), 0, "2 riders, 3 trips"
    )


def faults_of_death(first, second):
    """The first machine dies as a copy is on its way: what is there stays, and nothing else gets a name."""
    grow(first.file)
    before = copies_of(second)
    with open(f"{second.copies}/copies/{before[0]}", "rb") as file:
        held = file.read()
    with serving(first) as desk:
        sending = first.begun("send", "--rate", str(SLOW))
        yield None if is_on_its_way(
            sending, second
        ) else f"no copy was on its way: {sending.communicate()}"
        desk.process.kill()
        with contextlib.suppress(ProcessLookupError):
            os.killpg(sending.pid, signal.SIGKILL)
        cut(first)
        sending.communicate()
    yield difference("copies after the death", before, copies_of(second))
    with open(f"{second.copies}/copies/{before[0]}", "rb") as file:
        yield difference("the earlier copy is as it was", True, file.read() == held)


def is_on_its_way(sending, second):
    """Waits until the copy is coming in, under the name that rsync gives it; false where all of it came, or none."""
    for _ in range(LONG * 20):
        if sending.poll() is not None:
            return False
        if any(it.startswith(".desk.db.") for it in os.listdir(f"{second.copies}/incoming")):
            return True
        time.sleep(0.05)
    return False


def faults_of_opening(second, took):
    """The second machine opens the desk once a person says that the first is off, and that what is missing is agreed to."""
    yield fault_of_told(
        "an opening that names no first machine", second.opened(), 2, "--first-is-off"
    )
    yield fault_of_told(
        "an opening that does not reach it",
        second.opened("--first", FIRST),
        1,
        "could not be fenced",
    )
    yield difference(
        "the state after that", "waiting\n", second.told("state", second.copies).stdout
    )
    told = second.opened("--first", FIRST, "--first-is-off")
    yield fault_of_told(
        "an opening of a copy that lacks writes", told, 1, "lacks what was answered from"
    )
    yield fault_of_told(
        "who serves then", told, 1, "this machine does not serve, and nothing was done to the first"
    )
    yield difference(
        "the state after that", "waiting\n", second.told("state", second.copies).stdout
    )
    wanted = content_of_copy(f"{second.copies}/copies/{copies_of(second)[0]}")
    begun = time.monotonic()
    told = second.opened("--first", FIRST, "--first-is-off", "--without-last-copy")
    yield fault_of_told("the opening", told, 0, "is off, as was said")
    yield fault_of_told(
        "what is missing", told, 0, "which writes these are is known on the first machine alone"
    )
    yield difference("what the second machine has", wanted, content_of_copy(second.file))
    yield difference("what it called", ["stop", "start", "enable"], second.called())
    yield fault_of_told(
        "an opening once more", second.opened("--first-is-off"), 1, "has opened the desk already"
    )
    with serving(second) as desk, within(second.network):
        took.append(time.monotonic() - begun)
        told = desk.post("/riders", "hello", 51, {"id": 51, "kind": "visitor", "attendant": False})
        yield difference("a write on the second machine", 200, told and told.status)
    yield difference(
        "its riders", [(7,), (9,), (51,)], rows(second.file, "SELECT id FROM riders ORDER BY id")
    )


def faults_of_return(first, second):
    """The first machine is back. As long as it reaches nobody it says so; then it is told, and fences itself."""
    yield fault_of_told(
        "a start that reaches nobody", first.told("ask"), 0, "did not answer, and this one serves"
    )
    yield difference("its fence", False, os.path.exists(first.fence))
    cut(first, is_up=True)
    yield fault_of_told("a start that reaches the second", first.told("ask"), 1, "serves no longer")
    yield difference("its fence", True, os.path.exists(first.fence))
    yield difference("what it called", ["stop"], first.called())
    os.remove(first.fence)
    yield fault_of_told(
        "a copy of a first machine that was not stopped", first.told("send"), 1, "serves no longer"
    )
    yield difference("its fence", True, os.path.exists(first.fence))
    yield fault_of_told(
        "a fence that a person takes away",
        first.told("fence", "--undo"),
        1,
        "so this machine stays fenced",
    )
    yield fault_of_told(
        "a copy of a fenced machine", first.told("send"), 0, "is fenced and sends nothing"
    )
    yield from faults_of_missing(first, second)
    yield fault_of_told(
        "a copy that comes after all",
        second.told("receive", second.copies, "0" * 64),
        1,
        "takes no more copies",
    )


def faults_of_missing(first, second):
    """What the first machine answered after its last copy is listed there, from the copy that the second opened."""
    roster = f"{first.folder}/roster.csv"
    with open(roster, "w", encoding="utf-8") as file:
        file.write("rider,name,telephone\n7,Ana Lind,555-0107\n9,Bo Lee,555-0109\n")
    yield difference("the watch before it", False, is_compared(first.fence))
    told = first.told("missing", "--roster", roster)
    yield fault_of_told("what is missing: rows", told, 0, "are on this machine alone, beside desk-")
    for what in (
        "- rider 50 was made here alone",
        "of rider 7 was entered here alone by caller",
        "Call, in order of pickup:",
        "rider 7, Ana Lind 555-0107",
    ):
        yield fault_of_told(f"what is missing: {what}", told, 0, what)
    yield difference("the watch after it", True, is_compared(first.fence))
    yield fault_of_told(
        "a copy that is named",
        first.told("missing", "--copy", f"{second.copies}/copies/{copies_of(second)[0]}"),
        0,
        "- rider 50 was made here alone",
    )
    yield fault_of_told(
        "no copy", first.told("missing", "--copy", "/nowhere"), 2, "there is no copy /nowhere"
    )
    yield fault_of_told("on a machine that serves", second.told("missing"), 2, "is not fenced")
    yield difference(
        "what is left of it",
        [],
        [it for it in os.listdir(f"{first.folder}/out") if it.startswith("desk-missing")],
    )


# A change-over under load, there and back.

CLIENTS = range(8)


class Writers:
    """Eight clients of a machine's desk. Each writes without a pause until the desk is gone; `answered` has what was."""

    def __init__(self, machine, desk, begin):
        self.machine, self.desk, self.answered = machine, desk, []
        self.threads = [
            threading.Thread(target=self.write, args=(it, begin), daemon=True) for it in CLIENTS
        ]

    def write(self, client, begin):
        with within(self.machine.network):
            for number in range(1, 100_000):
                rider = begin + 100_000 * client + number
                body = {"id": rider, "kind": "visitor", "attendant": False}
                told = self.desk.post("/riders", f"client {client}", begin + number, body)
                if told is None:
                    return
                if told.status == 200:
                    self.answered.append(rider)

    def __enter__(self):
        for it in self.threads:
            it.start()
        wait_for(lambda: len(self.answered) >= 3 * len(CLIENTS))
        return self

    def __exit__(self, *_):
        for it in self.threads:
            it.join(LONG)


def wait_for(is_so, seconds=10):
    end = time.monotonic() + seconds
    while not is_so() and time.monotonic() < end:
        time.sleep(0.05)
    return is_so()


def add_clients(desk):
    for it in CLIENTS:
        body = {"id": 20 + it, "role": "clerk", "subject": 0, "key": f"client {it}"}
        told = desk.post("/callers", ADMINS_KEY, 100 + it, body)
        yield difference(f"client {it}", 200, told and told.status)


def faults_of_change(old, new, begin, label, counts):
    """The desk goes from one machine to the other while eight clients write: each answered write is there."""
    yield fault_of_told(f"{label}: a copy beforehand", old.told("send"), 0, "trips")
    for machine in (old, new):
        machine.forget_calls()
    with serving(old) as desk:
        if begin == 1_000_000:
            with within(old.network):
                yield from add_clients(desk)
        with Writers(old, desk, begin) as writers:
            told = new.opened("--first", old.address)
    yield fault_of_told(f"{label}: the opening", told, 0, "no write is missing")
    yield fault_of_told(
        f"{label}: nothing is missing",
        old.told("missing"),
        0,
        "nothing is missing: the second machine has all",
    )
    there = {it for it, in rows(new.file, "SELECT id FROM riders")}
    counts.append(f"{label} {len(writers.answered)} answered writes")
    yield None if len(
        writers.answered
    ) >= 24 else f"{label}: {len(writers.answered)} writes were answered"
    yield difference(
        f"{label}: answered writes that are lost", [], sorted({*writers.answered} - there)[:5]
    )
    yield difference(
        f"{label}: the fences",
        (True, False),
        (os.path.exists(old.fence), os.path.exists(new.fence)),
    )
    yield difference(
        f"{label}: what was called",
        (["stop"], ["stop", "start", "enable"]),
        (old.called(), new.called()),
    )
    # The machine that serves now goes on serving: it sends copies to the other, and asks it at its start.
    yield fault_of_told(f"{label}: a start", new.told("ask"), 0, "has not opened the desk")
    yield fault_of_told(f"{label}: a copy back", new.told("send"), 0, "it took")
    yield difference(f"{label}: the fence afterwards", False, os.path.exists(new.fence))
    yield fault_of_told(
        f"{label}: the fenced one", old.told("send"), 0, "is fenced and sends nothing"
    )


# What fails in a change-over leaves somebody serving.

DYING = """
import os, signal, sys
from desk_tools.ops import opening, restoring, standby
from desk_tools.ops.places import Desk
def die(self, *_):
    os.kill(os.getpid(), signal.SIGKILL)
if sys.argv[3] == "fenced":
    opening.Opening.serve = die
else:
    restoring.Restore.put_in_place = die
opening.Opening(Desk(), sys.argv[1], standby.Settings(), sys.argv[2]).make()
"""
# The calls of a copy that the timer sends: the state of the other machine, the file, the look at it there.
COPY_CUTS = "1 before", "2 before", "3 before"
# The folder of copies is on a disk with so many KiB free.
FILLING = """held=$0-held; cp -a "$0" "$held"
mount -t tmpfs -o size=$(($(du -sk "$held" | cut -f 1) + $1))k none "$0" && cp -a "$held/." "$0/"; rm -rf "$held"; shift
"$@"; status=$?
ls -A "$0/incoming" "$0/copies" | grep -v -e ':$' -e '^$'
exit $status
"""
# In the place of ssh: the line is cut before or after the call of this number, of both machines together.
CUTTING = """#!/bin/sh
count=$(($(cat {folder}/count) + 1))
echo $count >{folder}/count
[ "$(cat {folder}/cut)" != "$count before" ] || ip link set line down
ssh "$@"
status=$?
[ "$(cat {folder}/cut)" != "$count after" ] || ip link set line down
exit $status
"""
# The calls of a change-over: the new one fences the old one, which sends its last copy and has it checked. With what is
# said where the line breaks there. Whoever may be fenced then serves again by itself.
NOT_KNOWN = "it is not known whether {first} serves ("
CUTS = [
    ("1 before", "could not be fenced"),
    ("2 before", NOT_KNOWN),
    ("2 after", NOT_KNOWN),
    ("3 after", NOT_KNOWN),
]


def faults_of_served(label, old, new):
    """The one machine serves, and the other does not."""
    yield difference(f"{label}: the fence", False, os.path.exists(old.fence))
    yield difference(
        f"{label}: what was called", (["stop", "start"], []), (old.called()[-2:], new.called())
    )
    yield difference(
        f"{label}: the state of the other", "waiting\n", new.told("state", new.copies).stdout
    )
    for machine in (old, new):
        machine.forget_calls()


def write_conf(machine, text):
    with open(f"{machine.folder}/etc/standby.conf", "r+", encoding="utf-8") as file:
        before = file.read()
        file.write(text)
    return before


def put_conf(machine, text):
    with open(f"{machine.folder}/etc/standby.conf", "w", encoding="utf-8") as file:
        file.write(text)


def faults_of_failing_change(old, new):
    """The last copy does not come, the new one does not start, it is killed, the line breaks, another one opens it too."""
    for machine in (old, new):
        machine.forget_calls()
    before = write_conf(old, "TARGET=127.0.0.1:/nowhere/to/go\n")
    with_database(
        old.file, lambda it: it.execute("UPDATE kept SET number = number + 1 WHERE caller = 2")
    )
    told = new.opened("--first", old.address)
    for what in (
        "lacks what was answered from",
        "the last copy did not come",
        "missing are writes of caller 2",
        "say --without-last-copy",
        f"{old.address} serves again",
    ):
        yield fault_of_told(f"no last copy: {what}", told, 1, what)
    yield from faults_of_served("no last copy", old, new)
    put_conf(old, before)
    told = new.opened("--first", old.address, START=f"echo start >>{new.calls}; false")
    yield fault_of_told("a desk that does not start", told, 1, f"{old.address} serves again")
    new.forget_calls()
    yield from faults_of_served("a desk that does not start", old, new)
    # (systemd starts it, and it ends right after)
    told = new.opened("--first", old.address, ANSWERS="false")
    for what in "was started and does not answer", f"{old.address} serves again":
        yield fault_of_told(f"a desk that does not serve: {what}", told, 1, what)
    yield difference(
        "a desk that does not serve: copies that were tried",
        ["stop", "start", "stop"],
        new.called(),
    )
    new.forget_calls()
    yield from faults_of_served("a desk that does not serve", old, new)
    told = new.opened(
        "--first",
        old.address,
        before=[
            "unshare",
            "--mount",
            "sh",
            "-c",
            'mount -t tmpfs -o size=200k none "$0" && exec "$@"',
            new.state,
        ],
    )
    yield fault_of_told("a full disk", told, 1, "KiB free, and opening the newest copy takes")
    yield difference("a full disk: what was called", ([], []), (old.called(), new.called()))
    with standby.alone(f"{new.copies}/copies", 0, ""):
        told = new.opened("--first", old.address)
        yield difference("the state meanwhile", "opening\n", new.told("state", new.copies).stdout)
    yield fault_of_told(
        "a second operator", told, 1, "somebody else opens the desk on this machine"
    )
    yield difference("a second operator: what was called", ([], []), (old.called(), new.called()))


def killed_opening(old, new, when):
    """`standby open`, which is killed as the first machine is fenced, or as the copy is to be put in its place."""
    with open(new.script, encoding="utf-8") as text:
        lines = text.read().splitlines()[1:-1]
    words = [sys.executable, "-B", "-c", DYING, new.copies, old.address, when]
    with within(new.network):
        return subprocess.run(
            [
                "sh",
                "-c",
                "\n".join([*lines, f"SSH='{new.fencing}'; export SSH", 'exec "$@"']),
                "sh",
                *words,
            ],
            capture_output=True,
            text=True,
            timeout=LONG,
        )


def faults_of_broken_change(old, new):
    """It is killed, or the line breaks, once the first machine is fenced: that one serves again by itself."""
    told = killed_opening(old, new, "fenced")
    yield difference("a kill", -signal.SIGKILL, told.returncode)
    yield difference("a kill: the fence", True, os.path.exists(old.fence))
    yield fault_of_told("the next copy", old.told("send"), 0, "this machine serves again")
    yield from faults_of_served("a kill", old, new)
    yield from faults_of_cuts(old, new)


def cutting(machine, at, words):
    """Has a machine's settings reach the other by a line that is cut; the words of ssh."""
    path = f"{at}/ssh-{machine.address}"
    with open(path, "w", encoding="utf-8") as file:
        file.write(CUTTING.format(folder=at))
    os.chmod(path, 0o755)
    return words.replace("ssh ", f"{path} ", 1)


def faults_of_cuts(old, new):
    """The line is cut in each step: the machine that served serves again, and one sentence says what is so."""
    with tempfile.TemporaryDirectory(prefix="desk-cuts-") as at:
        before = write_conf(old, "")
        put_conf(old, before.replace(old.ssh, cutting(old, at, old.ssh)))
        for step, said in CUTS:
            for name, text in ("count", "0"), ("cut", step):
                with open(f"{at}/{name}", "w", encoding="utf-8") as file:
                    file.write(text)
            told = new.opened("--first", old.address, SSH=cutting(new, at, new.fencing))
            yield fault_of_told(
                f"a line cut at call {step}", told, 1, said.format(first=old.address)
            )
            yield difference(
                f"a line cut at call {step}: what is not known is not said",
                step == CUTS[0][0],
                "could not be fenced" in told.stderr,
            )
            yield difference(
                f"a line cut at call {step}: capitals", None, re.search(r"[A-Z]{5}", told.stderr)
            )
            yield difference(f"a line cut at call {step}: sentences", 1, told.stderr.count("\n"))
            for machine in (old, new):
                cut(machine, is_up=True)
            wait_for(lambda: not standby.is_held(old.state), LONG)
            if step != CUTS[0][0]:
                yield difference(
                    f"a line cut at call {step}: the fence", True, os.path.exists(old.fence)
                )
                yield fault_of_told(
                    f"the copy after {step}", old.told("send"), 0, "this machine serves again"
                )
                yield from faults_of_served(f"a line cut at call {step}", old, new)
            else:
                yield difference(
                    f"a line cut at call {step}", ([], []), (old.called(), new.called())
                )
        put_conf(old, before)


def faults_of_cut_copies(first, second):
    """The line is cut at each call of a copy: the desk serves on, no half of a copy has a name, and the next one comes."""
    with tempfile.TemporaryDirectory(prefix="desk-cuts-") as at, serving(first) as desk:
        before = write_conf(first, "")
        put_conf(first, before.replace(first.ssh, cutting(first, at, first.ssh)))
        first.forget_calls()
        for step in COPY_CUTS:
            for name, text in ("count", "0"), ("cut", step):
                with open(f"{at}/{name}", "w", encoding="utf-8") as file:
                    file.write(text)
            copies = copies_of(second)
            told = first.told("send")
            yield fault_of_told(f"a copy with a line cut at call {step}", told, 1, second.address)
            yield difference(f"a copy cut at call {step}: sentences", 1, told.stderr.count("\n"))
            yield difference(
                f"a copy cut at call {step}: copies, calls",
                (copies, []),
                (copies_of(second), first.called()),
            )
            yield difference(
                f"a copy cut at call {step}: what is left here",
                [],
                os.listdir(f"{first.folder}/out"),
            )
            with within(first.network):
                reply = desk.get("/riders/7/trips", "nobody")
            yield difference(f"a copy cut at call {step}: the desk", 401, reply and reply.status)
            for machine in (first, second):
                cut(machine, is_up=True)
        put_conf(first, before)
        yield fault_of_told("the copy after these", first.told("send"), 0, "trips")


def faults_of_full_receipt(second):
    """The second machine's disk fills as a copy is looked at: one sentence, and the copies are as they were."""
    if skipped("try-standby", "a second machine whose disk fills", missing_disk()):
        return
    came, copies = f"{second.copies}/incoming/desk.db", copies_of(second)
    digest, size = standby.digest_of(came), os.stat(came).st_size // 1024
    statuses = []
    for more in (8, size // 2, size - 8, size + 64, 4 * size):
        words = ["unshare", "--mount", "sh", "-c", FILLING, second.copies, str(more)]
        told = second.told("receive", second.copies, digest, before=words)
        statuses.append(told.returncode)
        if told.returncode:
            yield fault_of_told(f"a disk with {more} KiB free", told, 1, "No space left")
            yield difference(
                f"a disk with {more} KiB free: what is there",
                [*copies, "desk.db"],
                told.stdout.split(),
            )
    yield None if statuses[0] == 1 and statuses[
        -1
    ] == 0 else f"no disk filled, or each did: {statuses}"


def faults_of_cut_off_opening(old, new):
    """An opening is killed as nothing is in its place yet: the first one stays fenced, and the same command goes on."""
    yield fault_of_told("a copy before the kill", old.told("send"), 0, "trips")
    for machine in (old, new):
        machine.forget_calls()
    yield difference(
        "a kill in the middle", -signal.SIGKILL, killed_opening(old, new, "placed").returncode
    )
    yield fault_of_told("the first one then", old.told("send"), 0, "is fenced and sends nothing")
    yield difference(
        "who serves then",
        (True, "opened\n"),
        (os.path.exists(old.fence), new.told("state", new.copies).stdout),
    )
    yield fault_of_told(
        "the same command", new.opened("--first", old.address), 0, "has all of its writes"
    )
    yield difference("what was called at last", ["stop", "start", "enable"], new.called()[-3:])
    yield fault_of_told(
        "and once more", new.opened("--first", old.address), 1, "has opened the desk already"
    )
    yield fault_of_told("a copy back", new.told("send"), 0, "trips")


def asked_by_key(machine, other, key, *words):
    """What a key of the one machine gets of the other one."""
    with within(machine.network):
        return subprocess.run(
            [*key.split(), "-o", "BatchMode=yes", other.address, *words],
            capture_output=True,
            text=True,
            timeout=LONG,
            stdin=subprocess.DEVNULL,
        )


def faults_of_keys(first, second):
    """Each key does what it is for, and nothing else."""
    before, folder = copies_of(second), second.copies
    for words in (
        ["rm", "-rf", f"{folder}/copies"],
        ["sh"],
        ["true"],
        [f"{second.script} open {folder} --first-is-off"],
        [f"{second.script} fence"],
        [f"{second.script} state {folder}/../other"],
        [f"{second.script} state /etc"],
        [f"rsync --server -te.LsfxC . {folder}/copies/desk.db"],
        [f"rsync --server --sender -te. . {folder}/copies"],
        [f"rsync --server -te. --delete . {folder}/incoming/desk.db"],
        ["rsync --server --daemon ."],
        [f"rsync --server -te.;id . {folder}/incoming/desk.db"],
        [f"rsync --server -logDtpre. . {folder}/incoming/desk.db"],
        [f"{second.script} add {folder} x.db {'0' * 64}"],
        [f"{second.script} add {folder} desk-2026-01-01-0230.db/../x {'0' * 64}"],
    ):
        # (sshd gives what was asked in this variable; with two of them it is tried by ssh too)
        told = (
            asked_by_key(first, second, first.ssh, *words)
            if words[0] in ("rm", "sh")
            else second.told("serve-copies", folder, SSH_ORIGINAL_COMMAND=" ".join(words))
        )
        said = told.stdout + told.stderr
        is_refused = (
            told.returncode == 2
            and "Traceback" not in said
            and ("nothing else" in said or "no name of" in said)
        )
        yield None if is_refused else f"the key of copies: {words}: {said_by(told)}"
    yield difference("the copies afterwards", before, copies_of(second))
    for words in (
        ["true"],
        [f"{second.script} send"],
        [f"{second.script} fence; true"],
        [f"{second.script} fence --x"],
    ):
        told = second.told("fence", SSH_ORIGINAL_COMMAND=" ".join(words))
        yield None if told.returncode == 2 and "Traceback" not in told.stderr else f"the fence's key: {words}: {said_by(told)}"
    yield difference("the fence afterwards", False, os.path.exists(second.fence))


def faults_of_receipt(first, second):
    """What is not what was sent, or is no whole copy, gets no name."""
    before = copies_of(first)
    came = f"{first.copies}/incoming/desk.db"
    digest = run("sha256sum", came).stdout.split()[0]
    yield fault_of_told(
        "another digest", first.told("receive", first.copies, "0" * 64), 1, "is not what was sent"
    )
    with open(came, "r+b") as file:
        file.seek(8192)
        file.write(os.urandom(8000))
    digest = run("sha256sum", came).stdout.split()[0]
    yield fault_of_told(
        "a spoilt file", first.told("receive", first.copies, digest), 1, "is malformed"
    )
    yield difference("copies after that", before, copies_of(first))
    with open(f"{second.folder}/etc/standby.conf", "a", encoding="utf-8") as text:
        text.write("TARGET=nowhere\n")
    yield fault_of_told(
        "settings that name no machine", second.told("ask"), 2, "has no TARGET=MACHINE:/FOLDER"
    )


def missing_for_machines():
    """What the machines take and is not here, in words; or None."""
    found = [] if os.geteuid() == 0 else ["root"]
    found += [it for it in ("ip", "rsync", "ssh", "ssh-keygen") if not shutil.which(it)]
    found += [] if os.path.exists("/usr/sbin/sshd") else ["sshd"]
    return ", ".join(found) if found else missing_networks()


def missing_networks():
    """Networks with a line between them, which this script may enter."""
    name = f"desk-trial-{os.getpid()}"
    is_there = works("ip", "netns", "add", name)
    try:
        if is_there and works(
            "ip", "-n", name, "link", "add", "line", "type", "veth", "peer", "name", "other"
        ):
            with within(name):
                return None
    except OSError:
        pass
    finally:
        works("ip", "netns", "delete", name)
    return "networks of their own with a line between them"


def missing_sign_in(machine, other):
    """An ssh server that lets root in by a key; one needs a while to listen."""
    with within(machine.network):
        for _ in range(20):
            if works(
                *machine.ssh.split(),
                "-o",
                "BatchMode=yes",
                other.address,
                f"{other.script} state {other.copies}",
            ):
                return None
            time.sleep(0.5)
    return "an ssh server that lets root in"


def faults(program, folder):
    yield from faults_of_ladder()
    if skipped("try-standby", "the two machines", missing_for_machines()):
        return
    took, counts = [], []
    with two_machines(folder, program) as (first, second):
        if skipped("try-standby", "the two machines", missing_sign_in(first, second)):
            return
        os.makedirs(f"{folder}/made")
        made = make_agency(program, f"{folder}/made")
        for end in ("", "-wal"):
            shutil.copyfile(f"{made}{end}", f"{first.file}{end}")
        for part in (faults_of_copy, faults_of_death):
            yield from part(first, second)
        yield from faults_of_opening(second, took)
        yield from faults_of_return(first, second)
        # The second serves. Back to the first, and over to the second again, each while eight clients write.
        yield from faults_of_change(second, first, 1_000_000, "back", counts)
        yield from faults_of_change(first, second, 2_000_000, "over", counts)
        yield from faults_of_failing_change(second, first)
        yield from faults_of_broken_change(second, first)
        yield from faults_of_cut_off_opening(second, first)
        yield from faults_of_cut_copies(first, second)
        yield from faults_of_full_receipt(second)
        yield from faults_of_keys(second, first)
        yield from faults_of_receipt(second, first)
    print(f"a change-over under eight clients: {', '.join(counts)}, none lost")
    print(
        f"the second machine was serving {', '.join(f'{it:.1f}' for it in took)} seconds after the command"
    )


def main(words):
    program, _ = told_program(words, __doc__)
    with tempfile.TemporaryDirectory(prefix="desk-standby-") as folder:
        return tally("deploy/try-standby", faults(program, folder))


if __name__ == "__main__":
    sys.exit(main(sys.argv[1:]))
