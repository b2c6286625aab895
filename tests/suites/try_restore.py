"""Tries deploy/restore and deploy/drill: `try-restore PROGRAM`.

A backup is put in place on a machine that has no database, and where one is, whose files are kept. What may not be put
in place is refused before the desk is stopped: another program's file, one that is malformed or that the desk does not
open, one with a log beside it, one for which there is no room. Another agency's is refused once it is stopped. Where a
step fails, or the desk does not start, the old files come back and the desk is started; where the script is killed, the
old files are there, or the same command once more ends well, and the watch starts the desk again. Keys that hold again are
told. Nothing is left beside a backup. The drill serves the
newest backup and leaves nothing. Where only steps are tried a script plays the program's part as the judge.

The last line is 'N passed, M failed', and the exit status 1 where something failed.
"""
import contextlib
import hashlib
import os
import re
import shutil
import signal
import sqlite3
import subprocess
import sys
import tempfile
import time

from desk_tools import agencies
from desk_tools.tree import TOP
from serving import (
    SECONDS,
    content_of_copy,
    difference,
    faults_of_database,
    make_agency,
    ran,
    rows,
    tally,
    told_program,
    with_database,
)
from trying import missing_disk, skipped

FIRST_VERSION = f"{TOP}/tests/migration/first-version.desk"
JUDGE = "#!/bin/sh\necho desk.key\nexit 1\n"
# Runs deploy/restore and is killed before a call of a step, the first of that step or a later one.
RUNNER = """
import os, signal, sys
from desk_tools.ops import restoring
from desk_tools.ops.ending import run_script
from desk_tools.ops.places import Desk

def die(*_, **__):
    os.kill(os.getpid(), signal.SIGKILL)

owner, name = (restoring, sys.argv[2]) if hasattr(restoring, sys.argv[2]) else (restoring.Restore, sys.argv[2])
setattr(owner, name, die)
sys.exit(run_script("restore", lambda _: print(restoring.Restore(Desk(), sys.argv[1]).make().told()), []))
"""
# Runs deploy/restore, which does not look for room beforehand.
NO_LOOK = """
import sys
from desk_tools.ops import restoring
from desk_tools.ops.ending import run_script
from desk_tools.ops.places import Desk
restoring.check_room = lambda *_: None
sys.exit(run_script("restore", lambda _: print(restoring.Restore(Desk(), sys.argv[1]).make().told()), []))
"""
# Sizes of disks in KiB: on the first not even a copy has room, and on the last all has.
SIZES = 240, 300, 360, 420, 480, 540, 600, 700, 800, 1_600
# (a program that is not proved opens a file slowly)
LONG = 10 * SECONDS
STEPS = (
    "check_backup",
    "prepared",
    "judge_or_migrate",
    "replace",
    "check_agency",
    "put_aside",
    "synced",
    "put_in_place",
    "summed",
)


class Machine:
    """A machine with a folder for the database, a backup of an agency, and commands that note that they were called."""

    def __init__(self, program, folder, backup):
        self.program, self.folder = program, folder
        self.state, self.backups = f"{folder}/state", f"{folder}/backups"
        self.file, self.backup, self.calls = (
            f"{self.state}/desk.db",
            f"{self.backups}/desk.db",
            f"{folder}/calls",
        )
        for path in (self.state, self.backups):
            os.mkdir(path)
        shutil.copyfile(backup, self.backup)
        self.judge = f"{folder}/judge"
        with open(self.judge, "w", encoding="utf-8") as text:
            text.write(JUDGE)
        os.chmod(self.judge, 0o755)
        self.environment = {
            **os.environ,
            "FILE": self.file,
            "PROCESS": "echo 0",
            "DESK": self.judge,
            "STOP": f"echo stop >>{self.calls}",
            "START": f"echo start >>{self.calls}",
        }
        self.content = content_of_copy(backup)

    def fresh(self, file=None, log=b""):
        """An empty folder, or one with a copy of this file and a log."""
        shutil.rmtree(self.state)
        os.mkdir(self.state, 0o700)
        with open(self.calls, "w", encoding="utf-8"):
            pass
        if file:
            shutil.copyfile(file, self.file)
            if log:
                with open(f"{self.file}-wal", "wb") as it:
                    it.write(log)

    def restored(self, *words, **variables):
        return subprocess.run(
            [f"{TOP}/deploy/restore", *(words or [self.backup])],
            env={**self.environment, **variables},
            capture_output=True,
            text=True,
            timeout=LONG,
        )

    def called(self):
        with open(self.calls, encoding="utf-8") as file:
            return file.read().split()

    def faults_beside(self, label):
        yield difference(f"{label}: beside the backup", ["desk.db"], os.listdir(self.backups))

    def faults_of_refused(self, label, wanted, told, kept, calls=()):
        """It ended with one sentence that has these words, and what was there is there."""
        is_one = told.returncode == 1 and told.stderr.count("\n") == 1
        yield None if is_one and wanted in told.stderr else f"{label}: {said_by(told)}"
        yield difference(f"{label}: the files", kept, bytes_in(self.state))
        yield difference(f"{label}: calls", list(calls), self.called())


def said_by(told):
    return f"status {told.returncode}, {told.stdout!r}, {told.stderr!r}"


def digest_of(content):
    return hashlib.sha256(content).hexdigest()


def bytes_in(folder):
    """The digests of the files of a folder, by their names."""
    found = {}
    for name in sorted(os.listdir(folder)):
        path = f"{folder}/{name}"
        with contextlib.suppress(IsADirectoryError), open(path, "rb") as file:
            found[name] = digest_of(file.read())
        if os.path.isdir(path):
            found[name] = bytes_in(path)
    return found


def faults_of_new_machine(machine):
    machine.fresh()
    told = machine.restored()
    yield None if told.returncode == 0 else f"a new machine: {said_by(told)}"
    yield difference("a new machine: the files", ["desk.db"], os.listdir(machine.state))
    yield difference("a new machine: the mode", 0o600, os.stat(machine.file).st_mode & 0o777)
    yield difference("a new machine: calls", ["stop", "start"], machine.called())
    yield difference("a new machine: the rows", machine.content, content_of_copy(machine.file))
    yield None if re.search(
        r"has version 2; 7 callers, 2 riders, 3 trips", told.stdout
    ) else f"what is said of the backup: {said_by(told)}"
    yield None if re.search(
        r"without the desk for \d+\.\d seconds", told.stdout
    ) else f"how long it took: {said_by(told)}"
    yield from machine.faults_beside("a new machine")


def faults_of_old_file(machine, older):
    """The old files go into a folder of their own, the log with the file."""
    machine.fresh(older, b"an old log")
    told = machine.restored()
    yield None if told.returncode == 0 else f"an old file: {said_by(told)}"
    kept = [it for it in os.listdir(machine.state) if it.startswith("before-")]
    yield difference("an old file: folders that keep it", 1, len(kept))
    for name in kept:
        with open(older, "rb") as file:
            wanted = {"desk.db": digest_of(file.read()), "desk.db-wal": digest_of(b"an old log")}
        yield difference("an old file: what is kept", wanted, bytes_in(f"{machine.state}/{name}"))
    yield difference(
        "an old file: the files",
        ["desk.db", *kept],
        sorted(os.listdir(machine.state), reverse=True),
    )
    yield difference("an old file: the rows", machine.content, content_of_copy(machine.file))
    yield from machine.faults_beside("an old file")


def changed(file, path, *statements):
    shutil.copyfile(file, path)
    with_database(path, lambda it: [it.execute(one) for one in statements])
    with contextlib.suppress(FileNotFoundError):
        os.remove(f"{path}-wal")
    return path


def faults_of_refused_copies(machine, older):
    """What is refused while the desk still runs."""
    folder = machine.folder
    other, spoilt, unsound = f"{folder}/other.db", f"{folder}/spoilt.db", f"{folder}/unsound.db"
    with contextlib.closing(sqlite3.connect(other)) as database:
        database.execute("CREATE TABLE songs (name TEXT)")
    shutil.copyfile(machine.backup, spoilt)
    with open(spoilt, "r+b") as file:
        file.seek(8192)
        file.write(b"\xff" * 9000)
    changed(machine.backup, unsound, "UPDATE trips SET window_to = 0")
    with open(f"{folder}/text.db", "w", encoding="utf-8") as text:
        text.write("no database " * 500)
    cases = [
        ("another program's file", other, f"{other} is no desk's database", machine.judge),
        ("a spoilt file", spoilt, f"{spoilt} is malformed", machine.judge),
        ("a text", f"{folder}/text.db", f"{folder}/text.db is malformed", machine.judge),
        ("rows of no sound state", unsound, "are those of no sound state", machine.program),
    ]
    for label, copy, wanted, judge in cases:
        machine.fresh(older)
        before = bytes_in(machine.state)
        yield from machine.faults_of_refused(
            label, wanted, machine.restored(copy, DESK=judge), before
        )
    machine.fresh(older)
    shutil.copyfile(machine.backup, f"{folder}/pair.db")
    with open(f"{folder}/pair.db-wal", "wb") as log:
        log.write(bytes(4152))
    yield from machine.faults_of_refused(
        "a log beside it",
        "has a log beside it",
        machine.restored(f"{folder}/pair.db"),
        bytes_in(machine.state),
    )
    told = machine.restored(f"{folder}/nowhere.db")
    yield difference("no backup", (2, 1), (told.returncode, told.stderr.count("\n")))


def faults_of_versions(machine):
    """A backup of an older version is put in place where that is asked for, and is then of this one."""
    machine.fresh()
    told = machine.restored(FIRST_VERSION, DESK=machine.program)
    yield from machine.faults_of_refused("an older version", "say --migrate", told, {})
    told = machine.restored(FIRST_VERSION, "--migrate", DESK=machine.program)
    yield None if told.returncode == 0 else f"an older version, migrated: {said_by(told)}"
    yield difference(
        "its version", [(2,)], rows(machine.file, "SELECT version FROM desk")
    ) if told.returncode == 0 else None


def faults_of_other_zone(machine, older):
    """The agency's file, what desk-setup was told and the unit have one zone, or nothing is stopped."""
    settings = f"{machine.folder}/etc"
    os.mkdir(settings)
    cases = [
        (
            "of the unit",
            "America/Chicago",
            "America/Chicago",
            "EST5EDT,M3.2.0,M11.1.0",
            "the zones differ",
        ),
        (
            "of agency.json",
            "America/Denver",
            "America/Chicago",
            "CST6CDT,M3.2.0,M11.1.0",
            "the zones differ",
        ),
        (
            "that nobody knows",
            "America/Nowhere",
            "America/Chicago",
            "CST6CDT,M3.2.0,M11.1.0",
            "does not know",
        ),
        ("that is missing in the unit", "America/Chicago", "America/Chicago", "", "no ZONE in "),
        ("that is one", "America/Chicago", "America/Chicago", "CST6CDT,M3.2.0,M11.1.0", None),
    ]
    for label, agency, setup, rule, said in cases:
        for name, zone in ("main", agency), ("setup", setup):
            with open(f"{settings}/{name}.json", "w", encoding="utf-8") as file:
                file.write(f'{{"zone": "{zone}"}}')
        machine.fresh(older)
        before = bytes_in(machine.state)
        told = machine.restored(SETTINGS=settings, ZONE_OF_UNIT=f"echo LD_PRELOAD=x ZONE={rule}")
        if said:
            yield from machine.faults_of_refused(f"a zone {label}", said, told, before)
        else:
            yield None if told.returncode == 0 else f"a zone {label}: {said_by(told)}"


def faults_of_other_agency(machine, other):
    """The present file is another agency's: it comes back, and the desk is started."""
    machine.fresh(other)
    before = bytes_in(machine.state)
    yield from machine.faults_of_refused(
        "another agency's", "say --another", machine.restored(), before, ("stop", "start")
    )
    told = machine.restored(machine.backup, "--another")
    yield None if told.returncode == 0 else f"another agency's, as meant: {said_by(told)}"


def faults_of_failing_commands(machine, older):
    """The desk does not stop, or does not start: the old files come back."""
    for label, variables, calls in (
        (
            "a desk that does not start",
            {"START": f"echo start >>{machine.calls}; [ $(grep -c start {machine.calls}) = 2 ]"},
            ("stop", "start", "stop", "start"),
        ),
        (
            "a desk that does not stop",
            {"STOP": f"echo stop >>{machine.calls}; exit 4"},
            ("stop", "start"),
        ),
    ):
        machine.fresh(older, b"an old log")
        before = bytes_in(machine.state)
        yield from machine.faults_of_refused(
            label, "ended with status", machine.restored(**variables), before, calls
        )


def faults_of_silent_desk(machine, older):
    """systemd starts the desk, and it serves nobody: the old file is served again, or the sentence says that nobody serves."""
    once = f"[ $(grep -c start {machine.calls}) = 2 ]"
    for label, answers, said in (
        ("the new file alone", once, "the desk serves the file of before again"),
        ("either file", "false", "in its place again, and the desk does not serve it"),
    ):
        machine.fresh(older, b"an old log")
        before = bytes_in(machine.state)
        told = machine.restored(ANSWERS=answers)
        yield from machine.faults_of_refused(
            f"a desk that does not serve {label}",
            said,
            told,
            before,
            ("stop", "start", "stop", "start"),
        )
        yield None if "was started and does not answer" in told.stderr else f"a desk that does not serve {label}: {said_by(told)}"
    machine.fresh(older)
    told = machine.restored(ANSWERS="true")
    yield None if told.returncode == 0 and "seconds, until it answered" in told.stdout else f"a desk that serves: {said_by(told)}"


def faults_of_keys_of_then(machine, older):
    """A key that was replaced since the backup holds again, and a line says whose."""
    machine.fresh(
        changed(
            older,
            f"{machine.folder}/replaced.db",
            f"UPDATE callers SET digest = X'{'ab' * 32}' WHERE id = 2",
        )
    )
    told = machine.restored()
    found = [it for it in told.stdout.splitlines() if "caller" in it and "holds again" in it]
    is_told = (
        told.returncode == 0
        and len(found) == 1
        and re.search(r"caller 2, a clerk: .*deploy/stolen-key --staff 2", found[0])
    )
    yield None if is_told else f"a key that was replaced since: {said_by(told)}"
    machine.fresh(older)
    yield None if "holds again" not in machine.restored().stdout else "a key that nobody replaced is told of"
    machine.fresh()
    with open(machine.file, "wb") as file:
        file.write(b"spoilt" * 900)
    told = machine.restored()
    is_told = (
        told.returncode == 0
        and "which keys were replaced since the backup is not known" in told.stdout
    )
    yield None if is_told else f"an old file that nobody can read: {said_by(told)}"


def faults_of_watch_after_kill(machine, older):
    """A restore is killed at each step: the next look of the watch starts the desk, with the old files or with the new one."""
    with open(older, "rb") as file:
        whole = {"desk.db": digest_of(file.read()), "desk.db-wal": digest_of(b"an old log")}
    settings = f"{machine.folder}/of-watch"
    os.makedirs(settings)
    with open(f"{settings}/watch.conf", "w", encoding="utf-8") as file:
        file.write("SITE=none\n")
    watch = {
        **machine.environment,
        "SETTINGS": settings,
        "STATE": f"{settings}/state",
        "PATIENCE": "0.1",
        "DATA": machine.state,
        "BACKUPS": machine.backups,
        "SHOW": "echo ActiveState=inactive",
        "RESTART": f"echo restart >>{machine.calls}; true",
        "PUBLISHED": f"{settings}/published",
    }
    for step in STEPS:
        machine.fresh(older, b"an old log")
        subprocess.run(
            [sys.executable, "-B", "-c", RUNNER, machine.backup, step],
            env=machine.environment,
            capture_output=True,
            timeout=SECONDS,
        )
        was_stopped = "stop" in machine.called()
        told = subprocess.run(
            [f"{TOP}/deploy/watch"], env=watch, capture_output=True, text=True, timeout=SECONDS
        )
        is_told = (
            "was killed after it had stopped the desk: the desk is started again" in told.stderr
        )
        yield difference(
            f"the watch after a kill at {step}", (1, was_stopped), (told.returncode, is_told)
        )
        yield difference(
            f"the watch after a kill at {step}: it starts the desk",
            was_stopped,
            "restart" in machine.called(),
        )
        found = bytes_in(machine.state)
        is_there = (
            {it: found.get(it) for it in whole} == whole
            or os.path.exists(machine.file)
            and whole in found.values()
        )
        yield None if is_there else f"the watch after a kill at {step}: {found}"
        told = subprocess.run(
            [f"{TOP}/deploy/watch"], env=watch, capture_output=True, text=True, timeout=SECONDS
        )
        yield None if "was killed" not in told.stderr else f"the watch says it again after {step}: {told.stderr}"


def faults_of_no_room(machine, older):
    """A disk without room: nothing is touched."""
    if skipped("try-restore", "a full disk", missing_disk()):
        return
    machine.fresh(older)
    words = [
        "unshare",
        "--mount",
        "sh",
        "-c",
        'mount -t tmpfs -o size=200k none "$0" && echo old >"$0/desk.db" && "$@"; status=$?; '
        'ls -A "$0"; exit $status',
        machine.state,
        f"{TOP}/deploy/restore",
        machine.backup,
    ]
    told = subprocess.run(
        words, env=machine.environment, capture_output=True, text=True, timeout=SECONDS
    )
    wanted = (1, "desk.db\n", True)
    yield difference(
        "no room", wanted, (told.returncode, told.stdout, "KiB free, and restoring" in told.stderr)
    )
    yield difference("no room: calls", [], machine.called())


def faults_of_small_disks(machine, older):
    """A disk that fills in each step, though there was room: the old file serves, and nothing else is left."""
    if skipped("try-restore", "disks that fill", missing_disk()):
        return
    machine.fresh()
    with open(older, "rb") as file:
        before = digest_of(file.read())
    statuses, fill = (
        [],
        'mount -t tmpfs -o size="$1"k none "$0" && cp "$2" "$0/desk.db" && shift 2 && "$@"; status=$?; ',
    )
    for size in SIZES:
        words = [
            "unshare",
            "--mount",
            "sh",
            "-c",
            fill + 'ls -A "$0"; sha256sum <"$0/desk.db"; exit $status',
            machine.state,
            str(size),
            older,
            sys.executable,
            "-B",
            "-c",
            NO_LOOK,
            machine.backup,
        ]
        told = subprocess.run(
            words, env=machine.environment, capture_output=True, text=True, timeout=SECONDS
        )
        statuses.append(told.returncode)
        if told.returncode == 0:
            continue
        is_one = told.stderr.count("\n") == 1 and "Traceback" not in told.stderr
        yield None if is_one else f"a disk of {size} KiB: {said_by(told)}"
        yield difference(
            f"a disk of {size} KiB: what is there",
            ["desk.db", f"{before}  -"],
            told.stdout.splitlines(),
        )
    yield None if statuses[0] == 1 and statuses[
        -1
    ] == 0 else f"no disk filled, or each did: {statuses}"


def faults_of_second_operator(machine, older):
    """Two restores at one time: the second ends at once and touches nothing, and the first goes on."""
    machine.fresh(older)
    go = f"{machine.calls}.go"
    slow = {
        **machine.environment,
        "STOP": f"echo stop >>{machine.calls}; until test -e {go}; do sleep 0.1; done",
    }
    with subprocess.Popen(
        [f"{TOP}/deploy/restore", machine.backup],
        env=slow,
        stdout=subprocess.PIPE,
        stderr=subprocess.PIPE,
        text=True,
    ) as first:
        end = time.monotonic() + SECONDS
        while not machine.called() and time.monotonic() < end:
            time.sleep(0.05)
        told = machine.restored()
        calls = machine.called()
        with open(go, "w", encoding="ascii"):
            pass
        said = first.communicate(timeout=LONG)
    is_refused = (
        told.returncode == 1 and told.stderr.count("\n") == 1 and "somebody else has" in told.stderr
    )
    yield None if is_refused else f"a second operator: {said_by(told)}"
    yield difference("a second operator: what was called meanwhile", ["stop"], calls)
    yield difference("the first one", (0, ""), (first.returncode, said[1]))
    yield difference("the rows then", machine.content, content_of_copy(machine.file))


def faults_of_kills(machine, older):
    """A kill before each step."""
    with open(older, "rb") as file:
        whole = {"desk.db": digest_of(file.read()), "desk.db-wal": digest_of(b"an old log")}
    for step in STEPS:
        machine.fresh(older, b"an old log")
        told = subprocess.run(
            [sys.executable, "-B", "-c", RUNNER, machine.backup, step],
            env=machine.environment,
            capture_output=True,
            text=True,
            timeout=SECONDS,
        )
        yield difference(f"a kill at {step}", -signal.SIGKILL, told.returncode)
        found = bytes_in(machine.state)
        kept = [it for name, it in found.items() if name.startswith("before-")]
        is_there = {it: found.get(it) for it in whole} == whole or whole in kept
        yield None if is_there else f"a kill at {step}: the old files are not there whole"
        told = machine.restored()
        yield None if told.returncode == 0 else f"once more after a kill at {step}: {said_by(told)}"
        yield difference(
            f"a kill at {step}: the rows", machine.content, content_of_copy(machine.file)
        )
        yield difference(f"a kill at {step}: a log", False, os.path.exists(f"{machine.file}-wal"))
        yield difference(f"a kill at {step}: what it left is removed", [], left_in(machine.state))


def left_in(folder):
    return [it for it in os.listdir(folder) if it.startswith(".")]


def faults_of_nightly_removal(machine, older):
    """The retention's unit removes what a killed restore left a day ago, and nothing that is younger."""
    with open(f"{TOP}/deploy/desk-retention@.service", encoding="utf-8") as file:
        command = re.search(r"(?m)^ExecStartPost=-(.*restored.*)$", file.read())
    machine.fresh(older)
    subprocess.run(
        [sys.executable, "-B", "-c", RUNNER, machine.backup, "replace"],
        env=machine.environment,
        capture_output=True,
        timeout=SECONDS,
    )
    for hours, count in (1, 1), (25, 0):
        for name in left_in(machine.state):
            os.utime(f"{machine.state}/{name}", (time.time() - hours * 3600,) * 2)
        words = (
            command[1].replace(agencies.Agency("%i").folder, machine.state) if command else "true"
        )
        subprocess.run(["sh", "-c", words], check=True, timeout=SECONDS)
        yield difference(
            f"copies that a killed restore left, {hours} hours later",
            count,
            len(left_in(machine.state)),
        )
    yield difference("the desk's own file then", ["desk.db"], os.listdir(machine.state))


def faults_of_drill(machine):
    at = f"{machine.folder}/at"
    os.mkdir(at)
    told = subprocess.run(
        [f"{TOP}/deploy/drill", machine.backups, "--at", at],
        env={**os.environ, "DESK": machine.program},
        capture_output=True,
        text=True,
        timeout=LONG,
    )
    said = re.search(
        r"2 riders, 3 trips.*its counts are those of the backup.*hours old.*without the desk for \d+ "
        r"seconds",
        told.stdout,
        re.DOTALL,
    )
    yield None if told.returncode == 0 and said else f"a drill: {said_by(told)}"
    yield difference("what a drill leaves", [], os.listdir(at))
    yield from machine.faults_beside("a drill")
    told = subprocess.run(
        [f"{TOP}/deploy/drill", at], capture_output=True, text=True, timeout=SECONDS
    )
    yield difference("a drill without a backup", (2, 1), (told.returncode, told.stderr.count("\n")))


def backup_of(file, copy, program):
    told = subprocess.run(
        [f"{TOP}/deploy/backup", copy],
        env={**os.environ, "FILE": file, "PROCESS": "echo 0", "DESK": program},
        capture_output=True,
        text=True,
        timeout=LONG,
    )
    if told.returncode:
        raise OSError(f"deploy/backup: {said_by(told)}")


def faults(program, folder):
    file = make_agency(program, folder)
    backup, other = f"{folder}/backup.db", f"{folder}/another.db"
    backup_of(file, backup, program)
    if ran(program, "init", other, "another key").returncode:
        raise OSError("init")
    with_database(other, lambda it: it.execute("PRAGMA wal_checkpoint(TRUNCATE)").fetchone())
    # (an older state of the same agency)
    older = changed(backup, f"{folder}/older.db", "DELETE FROM riders WHERE id = 99")
    machine = Machine(program, folder, backup)
    yield from faults_of_new_machine(machine)
    yield from faults_of_old_file(machine, older)
    yield from faults_of_refused_copies(machine, older)
    yield from faults_of_versions(machine)
    yield from faults_of_other_zone(machine, older)
    yield from faults_of_other_agency(machine, other)
    yield from faults_of_failing_commands(machine, older)
    yield from faults_of_silent_desk(machine, older)
    yield from faults_of_keys_of_then(machine, older)
    yield from faults_of_watch_after_kill(machine, older)
    yield from faults_of_no_room(machine, older)
    yield from faults_of_small_disks(machine, older)
    yield from faults_of_second_operator(machine, older)
    yield from faults_of_kills(machine, older)
    yield from faults_of_nightly_removal(machine, older)
    yield from faults_of_drill(machine)
    yield from faults_of_database(machine.file)


def main(words):
    program, _ = told_program(words, __doc__)
    with tempfile.TemporaryDirectory(prefix="desk-restore-") as folder:
        return tally("deploy/try-restore", faults(program, folder))


if __name__ == "__main__":
    sys.exit(main(sys.argv[1:]))
