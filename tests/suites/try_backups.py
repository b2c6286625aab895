"""Copies a database again and again while a desk writes to it: `try-backups [ROUNDS [EVERY]] PROGRAM`, 100 rounds where
no number is given.

In each round, at moments that chance chooses, deploy/backup makes a copy, and then both files are copied while the
program stands still, as a snapshot of the file system has them. SQLite opens each copy, and the program those of each
EVERY-th round, of each round where no number is given. A copy has to be whole, to have every write that was answered
before the pause, and to be the state after one of the writes: their numbers rise, and the last one is kept with it.

Then backups that cannot be made: no room, a limit on the size of files, a read, write or sync that fails half way (a
library that is loaded before it, by gcc), a kill before each step and in the middle of the copy, and copies that are
spoilt between two steps. Each ends with one sentence and status 1, or is killed; no file has the name, the backup of
before is as it was, the desk goes on and answers, and the next backup is made. In these the program's part as the judge
is played by a script, since it is the other steps that are tried.

The last line but one says how long the desk stood still; the last is 'N passed, M failed'.
"""
import contextlib
import os
import random
import re
import resource
import shutil
import signal
import statistics
import subprocess
import sys
import tempfile
import threading
import time

from desk_tools.tree import TOP
from serving import (
    SECONDS,
    TOMORROW,
    TRIP,
    ZONE,
    Desk,
    difference,
    faults_of_database,
    make_agency,
    ran,
    rows,
    tally,
    told_program,
)
from trying import missing_compiler, missing_disk, skipped

ROUNDS, LONGEST_WAIT = 100, 0.5
# (a program that is not proved opens a file slowly)
LONG = 10 * SECONDS
# The clerk, numbers of the clerk's writes and riders above those of the agency, and how many trips of rider 9 the
# agency has booked.
CLERK, FIRST, BOOKED = 2, 1000, 1
SEED = 37127
PAUSE = re.compile(r"stood still for (\d+) milliseconds, since ([\d.]+)\n")


class Writer(threading.Thread):
    """Sends one write after another until it is told to end: a rider, a booking, and that it is cancelled."""

    def __init__(self, desk):
        super().__init__(daemon=True)
        self.desk, self.number, self.trip = desk, FIRST, None
        self.answered = {}
        self.refused = None
        self.may_write, self.ended = threading.Event(), threading.Event()

    def next_write(self):
        turn = self.number % 3
        if turn == 1:
            return "/trips", {"rider": 9, **TRIP}
        if turn == 2 and self.trip:
            return f"/trips/{self.trip}/cancel", {}
        return "/riders", {"id": self.number, "kind": "visitor", "attendant": False}

    def run(self):
        while self.may_write.wait() and not self.ended.is_set():
            path, body = self.next_write()
            reply = self.desk.post(path, "hello", self.number, body)
            if reply is None or reply.status != 200:
                self.refused = f"write {self.number}, {path}, was told {reply}"
                return
            self.trip = reply.body.get("trip") if path == "/trips" else None
            self.answered[self.number] = time.time()
            self.number += 1

    def last_before(self, moment):
        """The number of the last write that was answered before a moment."""
        return max((it for it, at in list(self.answered.items()) if at < moment), default=0)


def fault_of_state(copy, writer, since):
    """Why the copy is not the state after one of the writes, and none before those that were answered; or None."""
    [[last]] = rows(copy, "SELECT number FROM kept WHERE caller = ?", CLERK)
    if not writer.last_before(since) <= last <= writer.number:
        return f"{copy} has the writes to {last}, and those to {writer.last_before(since)} were answered"
    riders = [it for [it] in rows(copy, "SELECT id FROM riders WHERE id >= ? ORDER BY id", FIRST)]
    booked = rows(copy, "SELECT count(*) FROM trips WHERE rider = 9 AND status = 0")[0][0]
    # (what the third write of a turn cancels is the trip that the second booked)
    wanted = [it for it in range(FIRST, last + 1) if it % 3 == 0], BOOKED + (
        last >= FIRST and last % 3 == 1
    )
    return difference(
        f"riders, and booked trips, of {copy} at write {last}", wanted, (riders, booked)
    )


def opened(program, copy):
    """None where the program opens the copy, else how it ends."""
    told = ran(program, "trips", copy, ZONE, "radio", TOMORROW)
    return None if told.returncode == 0 else f"the program and {copy}: {told}"


def fault_of_backup(desk, file, copy, writer, pauses):
    """Runs deploy/backup, and notes how long the desk stood still; what is wrong, or None."""
    environment = {**os.environ, "FILE": file, "PROCESS": f"echo {desk.process.pid}"}
    told = subprocess.run(
        [f"{TOP}/deploy/backup", copy],
        env=environment,
        capture_output=True,
        text=True,
        timeout=LONG,
    )
    pause = PAUSE.search(told.stdout)
    if told.returncode or not pause:
        return f"deploy/backup: {told}"
    pauses.append(int(pause[1]))
    return fault_of_state(copy, writer, float(pause[2]))


def stand_still(process):
    """Lets the process stand still, and waits until it does."""
    process.send_signal(signal.SIGSTOP)
    for _ in range(500):
        with open(f"/proc/{process.pid}/stat", encoding="utf-8") as stat:
            if stat.read().rpartition(") ")[2].startswith("T"):
                return
        time.sleep(0.01)
    raise TimeoutError("the program does not stand still")


def copy_both(desk, file, copy):
    """Copies both files as they are at one moment, and tells a moment just before it."""
    since = time.time()
    try:
        stand_still(desk.process)
        for end in ("", "-wal"):
            shutil.copyfile(f"{file}{end}", f"{copy}{end}")
    finally:
        desk.process.send_signal(signal.SIGCONT)
    return since


def faults_of_round(desk, file, writer, pauses, program):
    """Makes a copy of either kind under writes; where a program is given, it has to open them."""
    copy, both = f"{file}-copy", f"{file}-both"
    writer.may_write.set()
    time.sleep(random.random() * LONGEST_WAIT)
    yield fault_of_backup(desk, file, copy, writer, pauses)
    time.sleep(random.random() * LONGEST_WAIT)
    since = copy_both(desk, file, both)
    writer.may_write.clear()
    # (the program comes first, since SQLite makes one file of both)
    yield from [opened(program, it) for it in (both, copy)] if program else ()
    yield fault_of_state(both, writer, since)
    yield from [it for path in (copy, both) for it in faults_of_database(path)]
    for path in (f"{it}{end}" for it in (copy, both) for end in ("", "-wal")):
        if os.path.exists(path):
            os.remove(path)


# Backups that cannot be made.

# The program's part as the judge: a key that nobody has is denied.
JUDGE = "#!/bin/sh\necho desk.key\nexit 1\n"
# A call of the file BROKEN that fails: the AT-th of its kind. A read or a write takes at most so many bytes, so that
# some come before.
LIBRARY = r"""
#define _GNU_SOURCE
#include <dlfcn.h>
#include <errno.h>
#include <limits.h>
#include <stdio.h>
#include <stdlib.h>
#include <string.h>
#include <unistd.h>

#define PLAIN(name) ((__typeof__(name) *)dlsym(RTLD_NEXT, #name))
enum { MOST = 65536 };

/* Whether this call of this kind is the one that fails. */
static int fails(const char *kind, int fd, size_t *length) {
    static long calls;
    char link[40], path[PATH_MAX + 1];
    if (strcmp(kind, getenv("KIND"))) return 0;
    snprintf(link, sizeof link, "/proc/self/fd/%d", fd);
    ssize_t size = readlink(link, path, PATH_MAX);
    path[size < 0 ? 0 : size] = 0;
    if (strcmp(path, getenv("BROKEN"))) return 0;
    if (length && *length > MOST) *length = MOST;
    if (++calls < atol(getenv("AT"))) return 0;
    errno = EIO;
    return 1;
}

ssize_t read(int fd, void *bytes, size_t length) {
    return fails("read", fd, &length) ? -1 : PLAIN(read)(fd, bytes, length);
}
ssize_t write(int fd, const void *bytes, size_t length) {
    return fails("write", fd, &length) ? -1 : PLAIN(write)(fd, bytes, length);
}
ssize_t pwrite64(int fd, const void *bytes, size_t length, off64_t at) {
    return fails("pwrite", fd, 0) ? -1 : PLAIN(pwrite64)(fd, bytes, length, at);
}
int fsync(int fd) { return fails("fsync", fd, 0) ? -1 : PLAIN(fsync)(fd); }
int fdatasync(int fd) { return fails("fsync", fd, 0) ? -1 : PLAIN(fdatasync)(fd); }
"""
# Runs deploy/backup with something done before a step, or in place of one.
RUNNER = """
import os, signal, sqlite3, sys
from desk_tools.ops import backing_up, copying
from desk_tools.ops.backing_up import Backup
from desk_tools.ops.ending import run_script
from desk_tools.ops.places import Desk

def before(step, task):
    plain = getattr(Backup, step)
    def changed(backup):
        task(backup)
        return plain(backup)
    setattr(Backup, step, changed)

def die(_=None):
    os.kill(os.getpid(), signal.SIGKILL)

def die_half_way(source, target):
    with open(source, "rb") as whole, open(target, "wb") as half:
        half.write(whole.read()[:2048])
    die()

def cut_log(backup):
    # (what is left is less than the first page of the log)
    os.truncate(backup.part + "-wal", 100)

def spoil(backup):
    with open(backup.part, "r+b") as file:
        file.seek(4096 * 2)
        file.write(os.urandom(3000))

def run(statement):
    def task(backup):
        with sqlite3.connect(backup.part) as database:
            database.execute(statement)
        database.close()
    return task

exec(sys.argv[2])
sys.exit(run_script("backup", lambda words: print(Backup(Desk(), sys.argv[1]).make().told()), []))
"""
STEPS = (
    "take_folder",
    "check_there_is_room",
    "copy_files",
    "check_bytes",
    "count_rows",
    "make_one_file",
    "check_rows",
    "ask_desk",
    "name_it",
)
NO_ROOM_CHECK = "Backup.check_there_is_room = lambda _: None"
# What is done to a backup, and what it says.
CHANGED = {
    "a log of which a part was copied": (
        'before("check_bytes", cut_log)',
        "does not hold what was read",
    ),
    "a log that is cut before it is counted": ("Backup.check_bytes = cut_log", None),
    "a log that is cut after it was counted": ('before("make_one_file", cut_log)', "rows for"),
    "a file that is spoilt": ('before("check_bytes", spoil)', "does not hold what was read"),
    "one file that is spoilt": ('before("check_rows", spoil)', "is malformed"),
    "a row that is lost": (
        'before("check_rows", run("DELETE FROM kept WHERE caller = 2"))',
        "table kept has",
    ),
    "a number that is lost": (
        'before("check_rows", run("UPDATE kept SET number = 1 WHERE caller = 2"))',
        "last numbers are others",
    ),
}


def said_by(told):
    return f"status {told.returncode}, {told.stdout!r}, {told.stderr!r}"


class Broken:
    """A desk that serves, an earlier backup, and backups of it that cannot be made. Its writes have numbers above
    `number`, which is the last one of the clerk's, and its riders have the same numbers."""

    def __init__(self, desk, file, folder, number):
        self.desk, self.file, self.folder, self.number = desk, file, folder, number
        self.copy, self.older = f"{folder}/broken/copy.db", f"{folder}/broken/older.db"
        self.judge, self.library = f"{folder}/judge", f"{folder}/failing.so"
        os.mkdir(f"{folder}/broken")
        with open(self.judge, "w", encoding="utf-8") as text:
            text.write(JUDGE)
        os.chmod(self.judge, 0o755)
        with open(self.older, "wb") as older:
            older.write(b"the earlier backup")

    def made(self, change="", limit=None, **variables):
        """How a backup ends of whose steps some are changed."""
        with contextlib.suppress(FileNotFoundError):
            os.remove(self.copy)
        environment = {
            **os.environ,
            "FILE": self.file,
            "PROCESS": f"echo {self.desk.process.pid}",
            "DESK": self.judge,
            **variables,
        }
        limited = (
            (lambda: resource.setrlimit(resource.RLIMIT_FSIZE, (limit, limit))) if limit else None
        )
        return subprocess.run(
            [sys.executable, "-B", "-c", RUNNER, self.copy, change],
            env=environment,
            capture_output=True,
            text=True,
            timeout=LONG,
            preexec_fn=limited,
        )

    def faults_after(self, label):
        """The desk goes on, the earlier backup is there, and no other."""
        self.number += 1
        told = self.desk.post(
            "/riders",
            "hello",
            self.number,
            {"id": self.number, "kind": "visitor", "attendant": False},
        )
        yield difference(f"{label}: a write afterwards", 200, told and told.status)
        yield difference(
            f"{label}: the files",
            ["older.db"],
            [it for it in sorted(os.listdir(f"{self.folder}/broken")) if ".part" not in it],
        )
        with open(self.older, "rb") as older:
            yield difference(f"{label}: the earlier backup", b"the earlier backup", older.read())

    def faults_of(self, label, wanted, told):
        """It ended with one sentence that has these words."""
        is_one = (
            told.returncode == 1
            and told.stderr.count("\n") == 1
            and told.stderr.startswith("deploy/backup: ")
        )
        yield None if is_one and (wanted or "") in told.stderr else f"{label}: {said_by(told)}"
        yield difference(
            f"{label}: what is left", ["older.db"], sorted(os.listdir(f"{self.folder}/broken"))
        )
        yield from self.faults_after(label)

    def faults_of_killed(self, label, told):
        yield difference(f"{label}: how it ended", -signal.SIGKILL, told.returncode)
        yield from self.faults_after(label)

    def faults_of_next(self, label):
        """The next backup of that name is made, and has all that was written."""
        told = self.made()
        yield None if told.returncode == 0 else f"{label}: the next backup: {said_by(told)}"
        if told.returncode == 0:
            yield difference(
                f"{label}: the next backup has",
                [(self.number,)],
                rows(self.copy, "SELECT max(id) FROM riders"),
            )
            yield difference(f"{label}: its mode", 0o600, os.stat(self.copy).st_mode & 0o777)
            os.remove(self.copy)


def faults_of_kills(broken):
    for step in STEPS:
        told = broken.made(f"before({step!r}, die)")
        yield from broken.faults_of_killed(f"a kill before {step}", told)
    told = broken.made("backing_up.copied = die_half_way")
    yield from broken.faults_of_killed("a kill in the middle of the copy", told)
    yield from broken.faults_of_next("after kills")


def faults_of_changes(broken):
    for label, (change, wanted) in CHANGED.items():
        told = broken.made(change)
        if wanted:
            yield from broken.faults_of(label, wanted, told)
        else:
            # (nothing is compared any more where the first comparison is taken away: it shows that it is that one which
            # tells)
            yield difference(f"{label}, without the check of bytes", 0, told.returncode)
            os.remove(broken.copy)
    yield from broken.faults_of_next("after changes")


def faults_of_limits(broken):
    """A limit on the size of files, and a disk without room, with the look at the room and without."""
    for label, limit in (
        ("a limit below the file", 2_000),
        ("a limit in the middle of the log", 200_000),
    ):
        yield from broken.faults_of(label, "File too large", broken.made(limit=limit))
    if skipped("try-backups", "a full disk", missing_disk()):
        return
    for label, change, wanted in (
        ("a disk with too little room", "", "KiB free, and"),
        ("a disk that gets full", NO_ROOM_CHECK, "No space"),
    ):
        words = [
            "unshare",
            "--mount",
            "sh",
            "-c",
            'mount -t tmpfs -o size=400k none "$0" && touch "$0/older.db" && "$@"; '
            'status=$?; ls "$0" >&3; exit $status',
            f"{broken.folder}/broken",
            sys.executable,
            "-B",
            "-c",
            RUNNER,
            broken.copy,
            change,
        ]
        environment = {
            **os.environ,
            "FILE": broken.file,
            "PROCESS": f"echo {broken.desk.process.pid}",
            "DESK": broken.judge,
        }
        with tempfile.TemporaryFile() as listed:
            told = subprocess.run(
                words,
                env=environment,
                capture_output=True,
                text=True,
                timeout=SECONDS,
                preexec_fn=lambda: os.dup2(listed.fileno(), 3),
                pass_fds=(3, listed.fileno()),
            )
            listed.seek(0)
            yield difference(f"{label}: what is left there", "older.db\n", listed.read().decode())
        yield from broken.faults_of(label, wanted, told)
    yield from broken.faults_of_next("after a full disk")


def faults_of_broken_disks(broken):
    """A read of the desk's file or log, a write, SQLite's write, or a sync of the copy, that fails half way."""
    if skipped("try-backups", "a disk that breaks", missing_compiler()):
        return
    source = f"{broken.folder}/failing.c"
    with open(source, "w", encoding="utf-8") as text:
        text.write(LIBRARY)
    subprocess.run(
        ["gcc", "-O1", "-shared", "-fPIC", "-o", broken.library, source, "-ldl"], check=True
    )
    part = f"{broken.copy}.part/desk.db"
    calls = [
        ("read", broken.file, 1),
        ("read", f"{broken.file}-wal", 1),
        ("read", f"{broken.file}-wal", 5),
        ("write", part, 1),
        ("write", f"{part}-wal", 3),
        ("pwrite", part, 1),
        ("fsync", part, 1),
        ("fsync", f"{part}-wal", 1),
        ("fsync", part, 2),
    ]
    for kind, path, at in calls:
        label = f"call {at} of {kind} of {os.path.basename(path)} that fails"
        told = broken.made(LD_PRELOAD=broken.library, KIND=kind, BROKEN=path, AT=str(at))
        yield from broken.faults_of(label, None, told)
    # (here none fails, and each takes a part of what it is given)
    told = broken.made(LD_PRELOAD=broken.library, KIND="write", BROKEN=part, AT="1000000")
    yield None if told.returncode == 0 else f"writes that take fewer bytes: {said_by(told)}"
    yield from broken.faults_of_next("after broken disks")


def faults_of_refusals(broken, program):
    """What the desk itself does not open, a file that is malformed, and a process that is another one's."""
    unsound = 'before("ask_desk", run("UPDATE trips SET status = 0, window_to = 0"))'
    yield from broken.faults_of(
        "rows of no sound state", "are those of no sound state", broken.made(unsound, DESK=program)
    )
    yield from broken.faults_of(
        "a process of another", "does not serve", broken.made(PROCESS=f"echo {os.getpid()}")
    )
    broken_copy, broken.copy = broken.copy, f"{broken.folder}/nowhere/copy.db"
    told = broken.made()
    is_told = (
        told.returncode == 2
        and f"there is no folder {broken.folder}/nowhere: make it" in told.stderr
    )
    yield None if is_told else f"a folder that is not there: {said_by(told)}"
    broken.copy = broken_copy
    yield from broken.faults_of(
        "a judge that is not there", "there is no program", broken.made(DESK="/nowhere/desk")
    )
    spoilt = f"{broken.folder}/spoilt.db"
    shutil.copyfile(f"{TOP}/tests/migration/first-version.desk", spoilt)
    with open(spoilt, "r+b") as file:
        file.seek(8192)
        file.write(bytes(20000))
    yield from broken.faults_of(
        "a database that is malformed", "is malformed", broken.made(FILE=spoilt, PROCESS="echo 0")
    )


def faults_of_broken(desk, file, folder, program, number):
    broken = Broken(desk, file, folder, number)
    for part in (faults_of_kills, faults_of_changes, faults_of_limits, faults_of_broken_disks):
        yield from part(broken)
    yield from faults_of_refusals(broken, program)


def faults(program, rounds, every, folder):
    random.seed(SEED)
    pauses = []
    file = make_agency(program, folder)
    with Desk(program, file) as desk:
        writer = Writer(desk)
        writer.start()
        for number in range(rounds):
            yield from faults_of_round(
                desk, file, writer, pauses, program if number % every == 0 else None
            )
        writer.ended.set()
        writer.may_write.set()
        writer.join(SECONDS)
        yield writer.refused
        yield from faults_of_broken(desk, file, folder, program, writer.number)
    between = "never"
    if pauses:
        between = f"from {min(pauses)} to {max(pauses)} milliseconds, {statistics.median(pauses):.0f} in the middle"
    print(f"{len(writer.answered)} writes were answered; the desk stood still {between}")


def main(words):
    program, before = told_program(words, __doc__)
    rounds, every = [*map(int, before), *(ROUNDS, 1)[len(before) :]]
    with tempfile.TemporaryDirectory(prefix="desk-backups-") as folder:
        return tally("deploy/try-backups", faults(program, rounds, every, folder))


if __name__ == "__main__":
    sys.exit(main(sys.argv[1:]))
