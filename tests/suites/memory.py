"""Refuses memory to the desk, one allocation at a time: `memory [STEP [NAME..]] PROGRAM`.

At each allocation of each command and of six requests, or at each STEP-th; where commands or requests are named, of these
alone: `rider`, `application`, `standing`, `booking`, `repeat` (the booking once more) and `tour` (a manifest). How many
each makes is said before they are refused, and a run takes some hundredths of a second: so a STEP is chosen by the time
that there is. It takes gcc: a library that is loaded before the program counts its allocations and refuses one of them.
For each of them a desk over a copy of the same database is sent the same request, or a command is run over such a copy.
A request gets its reply or 503 `desk.memory`, and asked again, of a desk that has memory, its reply. A command does what
it does with all memory, or ends with status 3 and `fault 0 row 0`. Then it has printed nothing, or `explain`, which
writes a log as it finds it, the front of the log without its end. The file has to hold the rows of before or of after,
and those of after where what was asked for was done. The last line is 'N passed, M failed', and the exit status 1 where
something failed.
"""
import os
import shutil
import signal
import sqlite3
import subprocess
import sys
import tempfile
from pathlib import Path

from desk_tools.tree import TOP
from serving import (
    LAST_DAY,
    TOMORROW,
    TRIP,
    ZONE,
    Desk,
    copy_database,
    difference,
    faults_of_database,
    make_agency,
    ran,
    rows,
    tally,
    told_program,
    variables,
    with_database,
)
from unsound import route_of

# Counts allocations in the file COUNTED, from the start, or with WAITS from SIGUSR1 on, and refuses the one of the number REFUSED.
LIBRARY = r"""
#define _GNU_SOURCE
#include <dlfcn.h>
#include <errno.h>
#include <fcntl.h>
#include <signal.h>
#include <stdlib.h>
#include <sys/mman.h>
#include <unistd.h>

static volatile sig_atomic_t counting;
static long *counted, refused;
static void *(*plain_malloc)(size_t);
static void *(*plain_realloc)(void *, size_t);

static int is_refused(void) { return counting && ++*counted == refused; }

void *malloc(size_t size) {
    if (!plain_malloc) plain_malloc = dlsym(RTLD_NEXT, "malloc");
    if (is_refused()) { errno = ENOMEM; return 0; }
    return plain_malloc(size);
}

void *realloc(void *old, size_t size) {
    if (!plain_realloc) plain_realloc = dlsym(RTLD_NEXT, "realloc");
    if (is_refused()) { errno = ENOMEM; return 0; }
    return plain_realloc(old, size);
}

static void begin(int number) { counting = 1; }

__attribute__((constructor)) static void start(void) {
    struct sigaction begins = {.sa_handler = begin, .sa_flags = SA_RESTART};
    int file = open(getenv("COUNTED"), O_RDWR);
    counted = mmap(0, sizeof(long), PROT_READ | PROT_WRITE, MAP_SHARED, file, 0);
    close(file);
    refused = atol(getenv("REFUSED"));
    sigaction(SIGUSR1, &begins, 0);
    counting = !getenv("WAITS");
}
"""
NUMBER = 100
NO_MEMORY = {"denied": "desk.memory"}
# Of a trip at one in the morning, when the van is not on the road.
QUESTION = ["radio", 9, TOMORROW, 60, 1, 2, "none", 0, 0]
FIRST = f"{TOP}/tests/migration/first-version.desk"


class Refusing:
    """The library, and the file in which it counts."""

    def __init__(self, folder):
        self.library = f"{folder}/refusing.so"
        self.file = f"{folder}/counted"
        Path(f"{folder}/refusing.c").write_text(LIBRARY, "utf-8")
        subprocess.run(
            ["gcc", "-O1", "-shared", "-fPIC", "-o", self.library, f"{folder}/refusing.c", "-ldl"],
            check=True,
        )

    def variables(self, refused, **more):
        """What the environment of a program needs that is refused this allocation, or none where it is 0."""
        Path(self.file).write_bytes(bytes(8))
        return variables(LD_PRELOAD=self.library, COUNTED=self.file, REFUSED=str(refused), **more)

    def count(self):
        with open(self.file, "rb") as file:
            return int.from_bytes(file.read(8), sys.byteorder)


def copied(file, path):
    for ending in ("", "-wal"):
        if os.path.exists(path + ending):
            os.remove(path + ending)
        if os.path.exists(file + ending):
            shutil.copy(file + ending, path + ending)
    return path


def content(file):
    """The rows of each table, or None where the file has no table."""
    try:
        tables = [
            name for name, in rows(file, "SELECT name FROM sqlite_master WHERE type = 'table'")
        ]
        return {table: sorted(rows(file, f"SELECT * FROM {table}")) for table in tables} or None
    except sqlite3.OperationalError:
        return None


# Requests.


def requests():
    """For each request that memory is refused to: what is asked before, with all memory, and the request."""
    rider = ("POST", "/riders", "hello", NUMBER, {"id": 8, "kind": "resident", "attendant": False})
    application = ("POST", "/riders/8/entries", "hello", NUMBER + 1, {"entry": "complete"})
    booking = (
        "POST",
        "/trips",
        "hello",
        NUMBER,
        {"rider": 9, **TRIP, "wish": 1200, "to": 1, "from": 3},
    )
    return {
        "rider": ([], rider),
        "application": ([rider], application),
        "standing": ([rider, application], ("GET", f"/riders/8/standing/{TOMORROW}", "hello")),
        "booking": ([], booking),
        "repeat": ([booking], booking),
        "tour": ([booking], ("GET", f"/vehicles/1/manifest/{TOMORROW}", "radio")),
    }


def asked(program, file, refusing, refused, message):
    """What a desk over the file tells of a request that is refused this allocation."""
    with refusing.variables(refused, WAITS="1"):
        desk = Desk(program, file)
    with desk:
        desk.process.send_signal(signal.SIGUSR1)
        return desk.ask(*message)


def faults_of_refusal(program, path, label, message, told, whole, contents):
    """What is wrong with a reply and with the file after an allocation was refused, and after the request came again."""
    is_done = told == whole
    if told is not None and not is_done:
        yield difference(label, (503, NO_MEMORY), (told.status, told.body))
    left = content(path)
    yield None if left in contents[
        is_done:
    ] else f"{label}: the reply is {told}, and the rows are {left}"
    yield from faults_of_database(path)
    with Desk(program, path) as desk:
        again = desk.ask(*message)
    yield difference(f"{label}: sent again", whole, again)
    yield difference(f"{label}: the rows once it was sent again", contents[1], content(path))


def faults_of_request(program, file, folder, refusing, name, step):
    earlier, message = requests()[name]
    ready, path = copied(file, f"{folder}/ready.db"), f"{folder}/asked.db"
    with Desk(program, ready) as desk:
        for one in earlier:
            desk.ask(*one)
    whole = asked(program, copied(ready, path), refusing, 0, message)
    contents, count = [content(ready), content(path)], refusing.count()
    is_quiet = message[0] == "GET" or message in earlier
    yield None if whole and whole.status == 200 and count else f"{name} with all memory: {whole}, {count}"
    yield difference(f"whether {name} changes nothing", is_quiet, contents[0] == contents[1])
    print(f"{name} makes {count} allocations", flush=True)
    for refused in range(1, count + 1, step):
        told = asked(program, copied(ready, path), refusing, refused, message)
        yield from faults_of_refusal(
            program, path, f"allocation {refused} of {name} refused", message, told, whole, contents
        )


# Commands.


def commands(folder):
    """Each command that ends by itself, over a file that is there but for `init`."""
    times = f"{folder}/times.csv"
    return {
        "init": lambda path: ["init", path, "abc"],
        "travel": lambda path: ["travel", path, ZONE, "radio", 3, LAST_DAY, times],
        "manifest": lambda path: ["manifest", path, ZONE, "radio", 1, TOMORROW],
        "trips": lambda path: ["trips", path, ZONE, "radio", TOMORROW],
        "migrate": lambda path: ["migrate", path],
        "explain": lambda path: ["explain", path, ZONE, *QUESTION],
        "audit": lambda path: ["audit", f"{folder}/log", path, ZONE, *QUESTION],
    }


def files(program, file, folder):
    """What a command is run over that does not take the agency's file: a full route makes a long log."""
    full, log = f"{folder}/full.db", f"{folder}/log"
    copy_database(file, full)
    with_database(full, lambda it: it.executescript(route_of(50)))
    Path(log).write_bytes(ran(program, "explain", full, ZONE, *QUESTION).stdout)
    return {
        "init": f"{folder}/none.db",
        "migrate": copied(FIRST, f"{folder}/first.db"),
        "explain": full,
        "audit": full,
    }


def is_no_whole(name, part, whole):
    """Whether nobody can take what a command printed before memory was refused for what it prints with all memory."""
    return part == b"" or name == "explain" and whole.startswith(part) and part != whole


def faults_of_command(program, from_file, folder, refusing, name, step):
    words_over, path = commands(folder)[name], f"{folder}/{name}.db"
    with refusing.variables(0):
        whole = ran(program, *words_over(copied(from_file, path)))
    count, after = refusing.count(), content(path)
    before = None if name == "init" else content(from_file)
    yield None if whole.returncode == 0 and count else f"{name} with all memory: {whole}, {count}"
    print(f"{name} makes {count} allocations", flush=True)
    for refused in range(1, count + 1, step):
        label = f"allocation {refused} of {name} refused"
        with refusing.variables(refused):
            told = ran(program, *words_over(copied(from_file, path)))
        is_done = (told.returncode, told.stdout) == (0, whole.stdout)
        is_refused = told.returncode == 3 and told.stderr.endswith(b"fault 0 row 0\n")
        is_refused = is_refused and is_no_whole(name, told.stdout, whole.stdout)
        yield None if is_done or is_refused else f"{label}: {told}"
        left = content(path) if os.path.exists(path) else None
        yield None if left == after or left == before and not is_done else f"{label}: {told}, and the rows are {left}"


def all_faults(program, step, named):
    with tempfile.TemporaryDirectory() as folder:
        refusing = Refusing(folder)
        file = make_agency(program, folder)
        others = files(program, file, folder)
        for name in named or [*commands(folder), *requests()]:
            if name in requests():
                yield from faults_of_request(program, file, folder, refusing, name, step)
            else:
                yield from faults_of_command(
                    program, others.get(name, file), folder, refusing, name, step
                )


def main(words):
    program, given = told_program(words, __doc__)
    if not shutil.which("gcc"):
        sys.exit("there is no gcc, which makes the library that refuses memory")
    step, named = int(given[0]) if given else 1, given[1:]
    if not {*named} <= {*commands(""), *requests()}:
        print(__doc__, end="", file=sys.stderr)
        return 2
    return tally("memory", all_faults(program, step, named))


if __name__ == "__main__":
    sys.exit(main(sys.argv[1:]))
