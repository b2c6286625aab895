"""Tries what the unit runs before and after the desk, deploy/clock-check, deploy/ballast and deploy/diagnose:
`try-starts PROGRAM`.

The clock of each check is set by faketime: forward and back, while the desk runs and while it does not, after an end
and after the fall of the power, beside entries and trips of days that have not come, and where a person says that it is
right. For the ballast a small disk in memory gets full. For each cause of a fault 32 the program ends with that fault,
and the diagnosis names the cause: a full disk, one that is read only, files that another user has, a process that has
the file, a file of two names, one that was cut, other bytes, a log of another file.

What takes root, faketime or a program that is not here is left out, and a line says so. The last line is 'N passed, M
failed', and the exit status 1 where something failed.
"""
import contextlib
import datetime
import os
import shutil
import sqlite3
import subprocess
import sys
import tempfile
import time

from desk_tools.tree import TOP
from desk_tools.ops import clock
from serving import (
    SECONDS,
    TODAY,
    ZONE,
    Desk,
    difference,
    free_port,
    make_agency,
    tally,
    told_program,
    with_database,
)
from trying import AS_NOBODY, NOBODY, missing_disk, missing_faketime, missing_user, skipped

MINUTE, HOUR, DAY = 60, 3600, 86_400
NOW = 1_800_000_000
LONG = 10 * SECONDS
STORE_FAILED = (3, b"fault 32 row 0\n")
FIRST_VERSION = f"{TOP}/tests/migration/first-version.desk"
EPOCH = datetime.date(1970, 1, 1)


def said_by(told):
    return f"status {told.returncode}, {told.stdout!r}, {told.stderr!r}"


# The clock.


class Place:
    """A folder with a desk's file, for the functions that look at the clock."""

    def __init__(self, folder, file=None, written=NOW):
        self.folder, self.file, self.log = folder, f"{folder}/desk.db", f"{folder}/desk.db-wal"
        if file:
            shutil.copyfile(file, self.file)
            os.utime(self.file, (written, written))


@contextlib.contextmanager
def place(file=None, written=NOW):
    with tempfile.TemporaryDirectory() as folder:
        yield Place(folder, file, written)


def refused(desk, now):
    return clock.fault_at_start(desk, "UTC0", now)


def fault_of(label, is_refused, told, words=""):
    is_as_wanted = bool(told) == is_refused and (not told or words in told)
    return None if is_as_wanted else f"{label}: {told!r}"


def faults_of_stops():
    """After an end that was noted, the clock has to be within a minute before it and a day after it."""
    for label, later, is_refused in (
        ("at once", 0, False),
        ("half a minute back", -30, False),
        ("a minute and a half back", -90, True),
        ("a year back", -365 * DAY, True),
        ("a night later", 8 * HOUR, False),
        ("a day and an hour later", 25 * HOUR, True),
        ("five years later", 5 * 365 * DAY, True),
    ):
        with place() as desk:
            clock.note_start(desk, NOW - HOUR, 1000)
            clock.note_stop(desk, NOW, 1000 + HOUR)
            yield fault_of(
                f"a start {label}", is_refused, refused(desk, NOW + later), "the desk ran"
            )
    with place() as desk:
        yield fault_of("a first start", False, refused(desk, NOW))
    for year, now in (("1970", 5000), ("2101", 4_150_000_000)):
        with place() as desk:
            yield fault_of(f"a start in {year}", True, refused(desk, now), "outside the years")


def faults_of_jumps():
    """A clock that jumps while the desk runs: at its end the moment is by the clock that nobody sets."""
    for label, jump, is_refused in (
        ("five years ahead", 5 * 365 * DAY, True),
        ("an hour back", -HOUR, False),
        ("none", 0, False),
    ):
        with place() as desk:
            clock.note_start(desk, NOW, 1000)
            yield fault_of(
                f"a look as it runs, {label}",
                jump != 0,
                clock.fault_of_running(desk, NOW + HOUR + jump, 1000 + HOUR),
            )
            clock.note_stop(desk, NOW + HOUR + jump, 1000 + HOUR)
            yield fault_of(
                f"a start after a jump, {label}",
                is_refused or jump < 0,
                refused(desk, NOW + HOUR + jump + 5),
            )
            yield fault_of(
                f"a start after a jump, {label}, that was set right",
                False,
                refused(desk, NOW + HOUR + 10),
            )


def faults_of_power():
    """After a fall of the power what the files say counts too; a start that was refused is no end."""
    with tempfile.NamedTemporaryFile() as empty:
        with place(empty.name, NOW + 3 * DAY) as desk:
            clock.note_start(desk, NOW, 1000)
            yield fault_of(
                "a start after the power fell", False, refused(desk, NOW + 3 * DAY + HOUR)
            )
            yield fault_of(
                "a start before what was written", True, refused(desk, NOW + 2 * DAY), "went back"
            )
            clock.note_refusal(desk)
            clock.note_stop(desk, NOW + 2 * DAY, 50)
            yield fault_of("the same once more", True, refused(desk, NOW + 2 * DAY), "went back")
            clock.accept(desk, NOW + 2 * DAY, 60)
            yield fault_of(
                "the same, as a person says that it is right",
                False,
                refused(desk, NOW + 2 * DAY + MINUTE),
            )
            clock.note_start(desk, NOW + 2 * DAY + MINUTE, 120)
            yield fault_of(
                "and after the power fell again", False, refused(desk, NOW + 2 * DAY + HOUR)
            )
            yield fault_of("and back again", True, refused(desk, NOW + DAY), "went back")


def faults_of_days(file):
    """Entries and trips of days that have not come. The agency's entries are of today, and its trips of tomorrow."""
    noon = (TODAY - EPOCH).days * DAY + DAY // 2
    for label, now, is_refused in (
        ("today", noon, False),
        ("the day before", noon - DAY, True),
        ("two weeks before", noon - 14 * DAY, True),
    ):
        with place(file, now - 3 * DAY) as desk:
            yield fault_of(
                f"a first start on {label} of the file's days",
                is_refused,
                refused(desk, now),
                "a case file has an entry",
            )
            clock.accept(desk, now, 60)
            yield fault_of(
                f"{label}, as a person says that it is right", False, refused(desk, now + 5)
            )
    with tempfile.TemporaryDirectory() as folder:
        copy = f"{folder}/copy.db"
        shutil.copyfile(file, copy)
        with_database(copy, lambda it: it.execute("UPDATE trips SET day = day + 1000 WHERE id = 1"))
        with place(copy, noon - HOUR) as desk:
            yield fault_of(
                "a trip of years ahead", True, refused(desk, noon), "a trip is booked on"
            )


def checked(desk_folder, *words, at=None, **variables):
    """deploy/clock-check, at a moment that faketime gives."""
    command = [f"{TOP}/deploy/clock-check", *words]
    if at:
        command = [
            "faketime",
            "-f",
            f"@{datetime.datetime.utcfromtimestamp(at):%Y-%m-%d %H:%M:%S}",
            *command,
        ]
    environment = {**os.environ, "FILE": f"{desk_folder}/desk.db", "TZ": "UTC", **variables}
    return subprocess.run(command, env=environment, capture_output=True, text=True, timeout=SECONDS)


def faults_of_clock_check(file):
    """The script itself, in the order in which the unit runs it."""
    with tempfile.TemporaryDirectory() as folder:
        shutil.copyfile(file, f"{folder}/desk.db")
        yield difference("a start", (0, ""), ended(checked(folder, ZONE=ZONE)))
        yield difference("an end", (0, ""), ended(checked(folder, "--stopped")))
        yield difference("a look", (0, ""), ended(checked(folder, "--report")))
        if skipped("try-starts", "the script at other moments", missing_faketime()):
            return
        ahead = time.time() + 5 * 365 * DAY
        told = checked(folder, at=ahead)
        is_one = (
            told.returncode == 1
            and told.stderr.count("\n") == 1
            and "clock-check --really" in told.stderr
        )
        yield None if is_one else f"a start years ahead: {said_by(told)}"
        yield difference("its end", (0, ""), ended(checked(folder, "--stopped", at=ahead)))
        yield difference("a start years ahead once more", 1, checked(folder, at=ahead).returncode)
        yield difference("a start of now", (0, ""), ended(checked(folder, ZONE=ZONE)))
        told = checked(folder, "--really", at=ahead)
        yield None if told.returncode == 0 and "taken as right" in told.stdout else f"really: {said_by(told)}"
        yield difference(
            "a start years ahead, really", (0, ""), ended(checked(folder, at=ahead + 60))
        )
        os.chmod(folder, 0o500)
        yield difference(
            "a folder that cannot be written", 0, checked(folder, at=ahead + 120).returncode
        )
        os.chmod(folder, 0o700)
    yield difference("wrong words", 2, checked("/nowhere", "--really", "--report").returncode)


def ended(told):
    return told.returncode, told.stderr


# The ballast.


def on_small_disk(folder, size, script, *words):
    """Runs a shell script in a folder that is a small disk in memory."""
    command = [
        "unshare",
        "--mount",
        "sh",
        "-c",
        f'mount -t tmpfs -o size={size} none "$0" && {script}',
        folder,
        *words,
    ]
    return subprocess.run(
        command,
        env={**os.environ, "FILE": f"{folder}/desk.db"},
        capture_output=True,
        text=True,
        timeout=LONG,
    )


def faults_of_ballast(folder):
    ballast = f"{TOP}/deploy/ballast"
    told = on_small_disk(folder, "200m", '"$1" && "$1" && stat -c "%s %a" "$0/ballast"', ballast)
    wanted = (
        0,
        f"deploy/ballast: {folder}/ballast keeps 64 MiB of room for a day on which the disk is "
        f"full\n67108864 600\n",
    )
    yield difference("a ballast on a disk with room", wanted, (told.returncode, told.stdout))
    told = on_small_disk(
        folder, "200m", '"$1" && head -c 140000000 /dev/zero >"$0/full" && "$1"; ls "$0"', ballast
    )
    is_given_up = "is given up" in told.stdout and told.stdout.endswith("\nfull\n")
    yield None if is_given_up else f"a ballast on a full disk: {said_by(told)}"
    told = on_small_disk(folder, "100m", '"$1"; ls "$0"', ballast)
    yield difference(
        "a disk that has too little room for one", (0, ""), (told.returncode, told.stdout)
    )


def faults_of_start_on_full_disk(program, folder, file):
    """A desk whose log is gone does not start on a full disk, and starts once the ballast is given up."""
    script = (
        '"$1" >/dev/null && cp "$4" "$0/desk.db" && { cat /dev/zero >"$0/full" 2>/dev/null; "$2" trips '
        '"$0/desk.db" UTC0 x 2025-01-01; '
        '"$3"; "$1"; "$2" trips "$0/desk.db" UTC0 x 2025-01-01; }'
    )
    told = on_small_disk(
        folder, "200m", script, f"{TOP}/deploy/ballast", program, f"{TOP}/deploy/diagnose", file
    )
    yield None if told.stderr.startswith("fault 32 row 0\n") else f"a full disk: {said_by(told)}"
    yield None if "is full" in told.stdout and "is given up" in told.stdout else f"its diagnosis: {said_by(told)}"
    yield None if told.stdout.endswith(
        "desk.key\n"
    ) else f"a start once the ballast is given up: {said_by(told)}"
    script = (
        'cp "$3" "$0/desk.db" && { "$1" serve "$0/desk.db" UTC0 "$4" 1000 >/dev/null & } && '
        'for i in $(seq 200); do kill -0 $! && ls -l /proc/$!/fd | grep -q "socket:" && break; sleep 0.1; done; '
        'cat /dev/zero >"$0/full" 2>/dev/null; PROCESS="echo $!" "$2"; PROCESS="echo 0" "$2"; kill $!; wait'
    )
    told = on_small_disk(
        folder, "20m", script, program, f"{TOP}/deploy/diagnose", file, str(free_port())
    )
    is_told = (
        told.stdout.count("\n") == 2
        and "is full" in told.stdout.splitlines()[0]
        and "another process" in told.stdout
    )
    yield None if is_told else f"a desk that serves on a full disk: {said_by(told)}"


# The diagnosis.


def faults_of_cause(program, folder, label, words):
    """The program ends with fault 32, and the diagnosis has these words."""
    told = ran_in(program, folder)
    yield difference(f"{label}: the program", STORE_FAILED, (told.returncode, told.stderr))
    yield diagnosed(folder, label, words)


def ran_in(program, folder):
    return subprocess.run(
        [program, "trips", f"{folder}/desk.db", "UTC0", "nobody", "2025-01-01"],
        capture_output=True,
        timeout=LONG,
    )


def diagnosed(folder, label, words, process="0"):
    told = subprocess.run(
        [f"{TOP}/deploy/diagnose"],
        capture_output=True,
        text=True,
        timeout=SECONDS,
        env={**os.environ, "FILE": f"{folder}/desk.db", "PROCESS": f"echo {process}"},
    )
    wanted = words or ("no cause" if process == "0" else "nothing is wrong: the desk serves")
    is_told = (
        told.returncode == (1 if words else 0)
        and told.stdout.count("\n") == 1
        and wanted in told.stdout
    )
    return None if is_told else f"{label}: the diagnosis: {said_by(told)}"


def after_stop(file, status):
    """How the unit's look at a file ends, after an end of the desk with this status."""
    told = subprocess.run(
        [f"{TOP}/deploy/diagnose", "--after-stop"],
        capture_output=True,
        text=True,
        timeout=SECONDS,
        env={**os.environ, "FILE": file, "EXIT_STATUS": str(status)},
    )
    return told.returncode, told.stdout, told.stderr


@contextlib.contextmanager
def copy_of(file):
    with tempfile.TemporaryDirectory() as folder:
        shutil.copyfile(file, f"{folder}/desk.db")
        yield folder


def put(folder, name, content):
    with open(f"{folder}/{name}", "wb") as file:
        file.write(content)


def log_of_pages(size):
    """A log of SQLite's over pages of this size."""
    with tempfile.TemporaryDirectory() as folder, contextlib.closing(
        sqlite3.connect(f"{folder}/a.db")
    ) as database:
        database.execute(f"PRAGMA page_size = {size}")
        database.execute("PRAGMA journal_mode = WAL")
        database.execute("CREATE TABLE t (a)")
        database.commit()
        with open(f"{folder}/a.db-wal", "rb") as log:
            return log.read()


def faults_of_diagnosis(program, file):
    with open(file, "rb") as it:
        whole = it.read()
    with copy_of(file) as folder:
        yield diagnosed(folder, "a file that is well", None)
        yield difference("the files after that", ["desk.db"], os.listdir(folder))
        put(folder, "desk.db", whole[: len(whole) // 2])
        yield from faults_of_cause(program, folder, "a file that was cut", "was cut")
        put(folder, "desk.db", os.urandom(8192))
        yield from faults_of_cause(
            program, folder, "other bytes", "does not begin as an SQLite database does"
        )
    with copy_of(file) as folder:
        os.link(f"{folder}/desk.db", f"{folder}/other.db")
        yield from faults_of_cause(program, folder, "a file of two names", "hard links")
    with copy_of(file) as folder:
        os.mkdir(f"{folder}/desk.db-wal")
        yield from faults_of_cause(
            program, folder, "a folder in the log's place", "is no plain file"
        )
    with copy_of(file) as folder:
        put(folder, "desk.db-wal", log_of_pages(1024))
        yield diagnosed(folder, "a log of other pages", "is another file's log")
        put(folder, "desk.db-wal", b"no log " * 100)
        yield diagnosed(folder, "a log that is none", None)
        spoilt = bytearray(whole)
        spoilt[8192:12288] = os.urandom(4096)
        put(folder, "desk.db", spoilt)
        os.remove(f"{folder}/desk.db-wal")
        yield diagnosed(folder, "a page that is spoilt", "do not make a sound database")
    with copy_of(file) as folder, Desk(program, f"{folder}/desk.db") as desk:
        yield from faults_of_cause(
            program, folder, "a process that has it", f"process {desk.process.pid} ("
        )
    with copy_of(file) as folder, Desk(program, f"{folder}/desk.db") as desk:
        yield diagnosed(folder, "a desk that serves", None, desk.process.pid)
        os.chmod(f"{folder}/desk.db", 0o600)
        os.link(f"{folder}/desk.db", f"{folder}/other.db")
        yield diagnosed(
            folder, "a desk that serves a file of two names", "hard links", desk.process.pid
        )
    with copy_of(FIRST_VERSION) as folder:
        told = ran_in(program, folder)
        yield difference(
            "an earlier version: the program",
            (3, b"fault 30 row 0\n"),
            (told.returncode, told.stderr),
        )
        yield diagnosed(folder, "an earlier version", "`desk migrate`")
    with copy_of(file) as folder:
        yield difference(
            "after an end that was no fault", (0, "", ""), after_stop(f"{folder}/none.db", 0)
        )
        yield difference(
            "after a fault of the clock", (0, "", ""), after_stop(f"{folder}/desk.db", 4)
        )
        status, said, _ = after_stop(f"{folder}/none.db", 4)
        yield difference(
            "after a file that is not there", (1, True), (status, "there is no" in said)
        )


def faults_of_rights(program, file, folder):
    """Files of root in a folder of another user."""
    state = f"{folder}/state"
    os.mkdir(state, 0o700)
    shutil.copyfile(file, f"{state}/desk.db")
    os.chown(state, NOBODY, NOBODY)
    copied = f"{folder}/program"
    shutil.copyfile(program, copied)
    os.chmod(copied, 0o755)
    words = [*AS_NOBODY, copied, "trips", f"{state}/desk.db", "UTC0", "x", "2025-01-01"]
    # (a file that the desk may not even read is another fault of it, and has the same cause)
    os.chmod(f"{state}/desk.db", 0o600)
    told = subprocess.run(words, capture_output=True, timeout=LONG)
    yield difference(
        "a file of root alone: the program", (4, b"fault 5 row 0\n"), (told.returncode, told.stderr)
    )
    status, said, _ = after_stop(f"{state}/desk.db", told.returncode)
    yield difference("a file of root alone", (1, True), (status, "may not read and write" in said))
    for label, wanted in (
        ("a file of root", f"may not read and write {state}/desk.db,"),
        ("a log of root", f"may not read and write {state}/desk.db-wal,"),
    ):
        os.chmod(f"{state}/desk.db", 0o644)
        told = subprocess.run(words, capture_output=True, timeout=LONG)
        yield difference(f"{label}: the program", STORE_FAILED, (told.returncode, told.stderr))
        yield diagnosed(state, label, wanted)
        os.chown(f"{state}/desk.db", NOBODY, NOBODY)
        put(state, "desk.db-wal", b"")
        os.chmod(f"{state}/desk.db-wal", 0o644)


def faults_of_read_only_disk(program, file, folder):
    script = (
        'cp "$2" "$0/desk.db" && mount -o remount,ro "$0" && { "$1" trips "$0/desk.db" UTC0 x 2025-01-01; "$3"; '
        "}"
    )
    told = on_small_disk(folder, "20m", script, program, file, f"{TOP}/deploy/diagnose")
    is_told = told.stderr.startswith("fault 32") and "is read only" in told.stdout
    yield None if is_told else f"a file system that is read only: {said_by(told)}"


def faults(program, folder):
    yield from faults_of_stops()
    yield from faults_of_jumps()
    yield from faults_of_power()
    disk = f"{folder}/disk"
    os.mkdir(disk)
    has_disk = not skipped("try-starts", "disks that are full or read only", missing_disk())
    if has_disk:
        yield from faults_of_ballast(disk)
    os.mkdir(f"{folder}/agency")
    made = make_agency(program, f"{folder}/agency")
    file = f"{folder}/desk.db"
    with_database(made, lambda it: it.execute("PRAGMA wal_checkpoint(TRUNCATE)").fetchone())
    shutil.copyfile(made, file)
    yield from faults_of_days(file)
    yield from faults_of_clock_check(file)
    if has_disk:
        yield from faults_of_start_on_full_disk(program, disk, file)
        yield from faults_of_read_only_disk(program, file, disk)
    yield from faults_of_diagnosis(program, file)
    os.mkdir(f"{folder}/rights")
    # (whatever the umask is)
    for path in (folder, f"{folder}/rights"):
        os.chmod(path, 0o711)
    if not skipped("try-starts", "files of another user", missing_user(f"{folder}/rights")):
        yield from faults_of_rights(program, file, f"{folder}/rights")


def main(words):
    program, _ = told_program(words, __doc__)
    with tempfile.TemporaryDirectory(prefix="desk-starts-") as folder:
        return tally("deploy/try-starts", faults(program, folder))


if __name__ == "__main__":
    sys.exit(main(sys.argv[1:]))
