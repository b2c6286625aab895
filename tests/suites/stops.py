"""Stops the machine at each call of a file: `stops [STEP] PROGRAM`, or at each STEP-th, which is 5 where no number is given.

A file is the database or its log, and its calls are those that make, change or sync it; a sync of their folder is one of both. It takes
gcc: a library that is loaded before the program counts the calls of one of the two, and at one of them

- the machine stops before the call. All that was written is there ('stopped'), or it is lost what was written since the last sync: to both
  files, to the log, or to the database ('lost'). A file that was made is there, and empty; where no sync of the folder came since, it is
  tried without the file too;
- the machine stops when the first half of a write's bytes is written ('torn');
- that call and each one after it fail, as of a disk that broke, while the other file works ('failed'). The program goes on, is asked again,
  and is then killed. Then too all that was written is there, or it is lost.

So it is with the log, and then with the database, at the first call, at the next, and so on until a program comes to its end with no stop.
The programs are `desk init`; a desk that is asked what makes an agency; `desk travel`; a desk that is asked for the first booking, for it
once more, and that it is cancelled; that booking where the log is full, so that it is copied into the database first; `desk migrate`; and
`desk trips` over what a torn booking left, so that a stop comes as files are opened.

After each stop the program opens the files again. Its tables are those of before the request at which it stopped, or those of after it, row
for row, and of after it where it was answered. The request comes again with its number and gets the reply that it gets with no stop. Then
there is one trip, and of the request one kept number. What a stop leaves of `init` is no file, or one that is refused as fault 30, or the
least state; what it leaves of `migrate` is of version 1, and is then migrated, or of version 2, and tells what it told before.

Last, a client closes its connection as the desk is at a call of a booking, so that the reply fails, and the desk is killed: the booking
stands, and gets its reply when it comes again.

The library makes no real sync, and the files lie in memory where there is /dev/shm: each fifth call takes half a minute, and every call
two. Where there is no gcc nothing is tried, and a line says so. The last line is 'N passed, M failed', and the exit status 1 where
something failed. The line before it counts the databases that were opened after a stop, by its kind.
"""
import collections
import contextlib
import hashlib
import itertools
import json
import os
import select
import shutil
import signal
import socket
import sqlite3
import struct
import subprocess
import sys
import tempfile
import time
from pathlib import Path

from desk_tools.tree import TOP
from serving import (
    ADMINS_KEY,
    AGENCY,
    POLICY,
    SECONDS,
    TIMES,
    TODAY,
    TOMORROW,
    TRIPS,
    ZONE,
    Desk,
    Refused,
    Reply,
    difference,
    faults_of_database,
    message_of,
    ran,
    received_from,
    tally,
    told_program,
    variables,
    with_database,
)
from tearing import files_of, put_files

# Counts, in the file TOLD, the calls of the database FILE and of its log, from the start, or with WAITS from SIGUSR1 on, and does HOW at
# the call AT of the one that is CHOSEN. Beside each file stands, as NAME.durable, what it held when it was synced last.
LIBRARY = r"""
#define _GNU_SOURCE
#include <dlfcn.h>
#include <errno.h>
#include <fcntl.h>
#include <limits.h>
#include <signal.h>
#include <stdarg.h>
#include <stdio.h>
#include <stdlib.h>
#include <string.h>
#include <sys/mman.h>
#include <sys/sendfile.h>
#include <sys/stat.h>
#include <sys/uio.h>
#include <unistd.h>

#define PLAIN(name) ((__typeof__(name) *)dlsym(RTLD_NEXT, #name))

enum { DATABASE, LOG, FOLDER, OTHER };
enum { NEVER, STOPS, TEARS, FAILS, WAITS };
enum { GOES_ON, IS_REFUSED, IS_TORN };

static volatile sig_atomic_t counting;
static struct { long calls[2], came, unnamed[2]; } *told;
static char paths[3][PATH_MAX + 16];
static long chosen, how, at;

static int named(const char *path) {
    int file = DATABASE;
    while (file < OTHER && strcmp(path, paths[file])) file++;
    return file;
}

static int file_of(int fd) {
    char link[40], path[PATH_MAX + 1];
    snprintf(link, sizeof link, "/proc/self/fd/%d", fd);
    ssize_t length = readlink(link, path, PATH_MAX);
    path[length < 0 ? 0 : length] = 0;
    return named(path);
}

static void stop(void) {
    kill(getpid(), SIGKILL);
    for (;;) pause();
}

/* What becomes of this call of a file. */
static int judged(int file, int is_write) {
    long call = -1;
    if (!counting || file == OTHER || (how == TEARS && !is_write)) return GOES_ON;
    for (int it = DATABASE; it <= LOG; it++) {
        if (file != it && file != FOLDER) continue;
        if (it == chosen) call = told->calls[it];
        told->calls[it]++;
    }
    if (call < 0 || how == NEVER || (how == FAILS ? call < at : call != at)) return GOES_ON;
    told->came = 1;
    if (how == STOPS) stop();
    if (how == TEARS) return IS_TORN;
    if (how == FAILS) { errno = EIO; return IS_REFUSED; }
    raise(SIGSTOP);
    return GOES_ON;
}

/* The first half of these bytes, where they belong, or with no offset where the file stands. */
static void tear(int fd, const struct iovec *parts, int count, off_t offset) {
    size_t left = 0;
    for (int part = 0; part < count; part++) left += parts[part].iov_len;
    left /= 2;
    for (const struct iovec *part = parts; left; part++) {
        size_t some = part->iov_len < left ? part->iov_len : left;
        if (offset < 0) PLAIN(write)(fd, part->iov_base, some);
        else PLAIN(pwrite)(fd, part->iov_base, some, offset), offset += some;
        left -= some;
    }
}

static int is_refused(int fd, const struct iovec *parts, int count, off_t offset) {
    int judgement = judged(file_of(fd), 1);
    if (judgement == IS_TORN) {
        tear(fd, parts, count, offset);
        stop();
    }
    return judgement == IS_REFUSED;
}

/* A copy of what the file holds, which outlasts a stop. */
static void keep(int file, int fd) {
    char path[PATH_MAX + 32];
    struct stat now;
    off_t from = 0;
    snprintf(path, sizeof path, "%s.durable", paths[file]);
    int copy = PLAIN(open)(path, O_WRONLY | O_CREAT | O_TRUNC, 0600);
    if (copy < 0 || fstat(fd, &now)) abort();
    while (from < now.st_size && sendfile(copy, fd, &from, now.st_size - from) > 0) {}
    if (from < now.st_size) abort();
    close(copy);
}

static int synced(int fd, int (*plain)(int)) {
    int file = file_of(fd);
    if (file == OTHER) return plain(fd);
    if (judged(file, 0)) return -1;
    if (file == FOLDER) told->unnamed[DATABASE] = told->unnamed[LOG] = 0;
    else keep(file, fd);
    return 0;
}

static int opened(int folder, const char *path, int flags, mode_t mode) {
    int file = named(path), is_one = file == DATABASE || file == LOG, is_there = is_one && !access(path, F_OK);
    int makes = is_one && !is_there && flags & O_CREAT, cuts = is_there && flags & O_TRUNC;
    if ((makes || cuts) && judged(file, 0)) return -1;
    int fd = PLAIN(openat)(folder, path, flags, mode);
    if (makes && fd >= 0) {
        told->unnamed[file] = 1;
        keep(file, fd);
    }
    return fd;
}

#define OPENS(name, folder, ...)                                     \
    int name(__VA_ARGS__, int flags, ...) {                          \
        va_list rest;                                                \
        va_start(rest, flags);                                       \
        mode_t mode = flags & (O_CREAT | O_TMPFILE) ? va_arg(rest, mode_t) : 0; \
        va_end(rest);                                                \
        return opened(folder, path, flags, mode);                    \
    }
OPENS(open, AT_FDCWD, const char *path)
OPENS(open64, AT_FDCWD, const char *path)
OPENS(openat, folder, int folder, const char *path)
OPENS(openat64, folder, int folder, const char *path)
int creat(const char *path, mode_t mode) { return opened(AT_FDCWD, path, O_CREAT | O_WRONLY | O_TRUNC, mode); }
int creat64(const char *path, mode_t mode) { return creat(path, mode); }

ssize_t write(int fd, const void *bytes, size_t length) {
    struct iovec part = {(void *)bytes, length};
    return is_refused(fd, &part, 1, -1) ? -1 : PLAIN(write)(fd, bytes, length);
}
ssize_t pwrite(int fd, const void *bytes, size_t length, off_t offset) {
    struct iovec part = {(void *)bytes, length};
    return is_refused(fd, &part, 1, offset) ? -1 : PLAIN(pwrite)(fd, bytes, length, offset);
}
ssize_t pwrite64(int fd, const void *bytes, size_t length, off64_t offset) { return pwrite(fd, bytes, length, offset); }
ssize_t writev(int fd, const struct iovec *parts, int count) {
    return is_refused(fd, parts, count, -1) ? -1 : PLAIN(writev)(fd, parts, count);
}
ssize_t pwritev(int fd, const struct iovec *parts, int count, off_t offset) {
    return is_refused(fd, parts, count, offset) ? -1 : PLAIN(pwritev)(fd, parts, count, offset);
}
ssize_t pwritev64(int fd, const struct iovec *parts, int count, off64_t offset) { return pwritev(fd, parts, count, offset); }
ssize_t pwritev2(int fd, const struct iovec *parts, int count, off_t offset, int flags) {
    return is_refused(fd, parts, count, offset) ? -1 : PLAIN(pwritev2)(fd, parts, count, offset, flags);
}
ssize_t pwritev64v2(int fd, const struct iovec *parts, int count, off64_t offset, int flags) {
    return pwritev2(fd, parts, count, offset, flags);
}

int fsync(int fd) { return synced(fd, PLAIN(fsync)); }
int fdatasync(int fd) { return synced(fd, PLAIN(fdatasync)); }

#define JUDGES(name, file, passed, ...) \
    int name(__VA_ARGS__) { return judged(file, 0) ? -1 : PLAIN(name) passed; }
JUDGES(ftruncate, file_of(fd), (fd, length), int fd, off_t length)
JUDGES(ftruncate64, file_of(fd), (fd, length), int fd, off64_t length)
JUDGES(truncate, named(path), (path, length), const char *path, off_t length)
JUDGES(truncate64, named(path), (path, length), const char *path, off64_t length)
JUDGES(fallocate, file_of(fd), (fd, mode, offset, length), int fd, int mode, off_t offset, off_t length)
JUDGES(fallocate64, file_of(fd), (fd, mode, offset, length), int fd, int mode, off64_t offset, off64_t length)
JUDGES(fchmod, file_of(fd), (fd, mode), int fd, mode_t mode)
JUDGES(fchown, file_of(fd), (fd, owner, group), int fd, uid_t owner, gid_t group)
JUDGES(unlink, named(path), (path), const char *path)
JUDGES(unlinkat, named(path), (folder, path, flags), int folder, const char *path, int flags)
JUDGES(rename, named(named(from) == OTHER ? to : from), (from, to), const char *from, const char *to)

static void begin(int signal) { (void)signal, counting = 1; }

__attribute__((constructor)) static void start(void) {
    struct sigaction begins = {.sa_handler = begin, .sa_flags = SA_RESTART};
    int file = PLAIN(open)(getenv("TOLD"), O_RDWR);
    told = mmap(0, sizeof *told, PROT_READ | PROT_WRITE, MAP_SHARED, file, 0);
    close(file);
    snprintf(paths[DATABASE], PATH_MAX, "%s", getenv("FILE"));
    snprintf(paths[LOG], PATH_MAX, "%s-wal", getenv("FILE"));
    snprintf(paths[FOLDER], PATH_MAX, "%s", getenv("FILE"));
    *strrchr(paths[FOLDER], '/') = 0;
    chosen = atol(getenv("CHOSEN"));
    how = atol(getenv("HOW"));
    at = atol(getenv("AT"));
    sigaction(SIGUSR1, &begins, 0);
    counting = !getenv("WAITS");
}
"""
STEP = 5
IN_MEMORY = "/dev/shm"
# The files by the numbers that the library knows them by.
NAMES = DATABASE, LOG = "agency.db", "agency.db-wal"
DURABLE = ".durable"
# What the library does, by its numbers.
NEVER, STOPS, TEARS, FAILS, WAITS = range(5)
KINDS = {STOPS: "stopped", TEARS: "torn", FAILS: "failed"}
LOST, UNREAD_REPLY = "lost", "with a reply that nobody read"
TOLD = struct.Struct("5l")
Told = collections.namedtuple("Told", "calls came unnamed")
KEPT = f"{TOP}/tests/migration"
STORE_FAILED = Reply(503, {"denied": "desk.store"})
OTHER_TABLES, STORE, UNREAD, EXISTS = (f"fault {code} row 0\n".encode() for code in (30, 32, 5, 7))
KILLED, NO_STORE, OTHER = -signal.SIGKILL, 3, 4
# What is asked of a new desk, and then, once it has driving times, of an agency with no trip.
FIRST_MESSAGES = [
    *(("POST", *it) for it in [*AGENCY, *TRIPS[:1]]),
    ("GET", f"/riders/7/standing/{TOMORROW}", "hello"),
    ("POST", *TRIPS[1]),
]
BOOKING = ("POST", *TRIPS[2])
BOOKINGS = [BOOKING, BOOKING, ("POST", "/trips/1/cancel", "hello", 4, {})]
# The number of the first write that only fills the log, and the most of these.
FIRST_NUMBER, MOST_WRITES = 1_000, 2_000
# What is asked of a desk whose store has failed, beside the write that found it so: it says so from then on.
READ = ("GET", "/riders/9/trips", "hello")


def made_folder(path):
    shutil.rmtree(path, ignore_errors=True)
    os.mkdir(path)


def without_ending(folder, ending):
    """What the files hold whose names end so, by their names without that."""
    found = {}
    for name in NAMES:
        if os.path.exists(f"{folder}/{name}{ending}"):
            found[name] = Path(f"{folder}/{name}{ending}").read_bytes()
    return found


class Machine:
    """What stops: the program, the library with what it is told and tells, and the files of a run and of what it left."""

    def __init__(self, program, folder):
        self.program, self.library, self.told = program, f"{folder}/stopping.so", f"{folder}/told"
        self.folder, self.other_folder = f"{folder}/run", f"{folder}/left"
        self.file, self.left_file = f"{self.folder}/{DATABASE}", f"{self.other_folder}/{DATABASE}"
        self.tried = collections.Counter()
        Path(f"{folder}/stopping.c").write_text(LIBRARY, "utf-8")
        subprocess.run(
            ["gcc", "-O1", "-shared", "-fPIC", "-o", self.library, f"{folder}/stopping.c", "-ldl"],
            check=True,
        )

    def put(self, files):
        """The files of a run, which the disk has."""
        made_folder(self.folder)
        put_files(self.folder, files)
        put_files(self.folder, {f"{name}{DURABLE}": content for name, content in files.items()})

    def put_left(self, files):
        made_folder(self.other_folder)
        put_files(self.other_folder, files)

    def stopping(self, how, name=LOG, at=0, **more):
        """What the environment of a program needs at whose call the machine stops."""
        Path(self.told).write_bytes(bytes(TOLD.size))
        given = {
            "HOW": how,
            "CHOSEN": NAMES.index(name),
            "AT": at,
            "FILE": self.file,
            "TOLD": self.told,
            "LD_PRELOAD": self.library,
        }
        return variables(**{variable: str(value) for variable, value in given.items()}, **more)

    def serving(self, how, name=LOG, at=0):
        """A desk over the files of a run, whose calls count from now on."""
        with self.stopping(how, name, at, WAITS="1"):
            desk = Desk(self.program, self.file)
        desk.process.send_signal(signal.SIGUSR1)
        return desk

    def heard(self):
        """What the library told: how many calls of each file there were, whether a stop came, and which files the folder may not have."""
        of_database, of_log, came, *unnamed = TOLD.unpack(Path(self.told).read_bytes())
        return Told(
            {DATABASE: of_database, LOG: of_log},
            bool(came),
            {name for name, it in zip(NAMES, unnamed) if it},
        )

    def left(self, how):
        """What a run may have left: the kind of stop, and the files; each of other files than the ones before."""
        written, synced, unnamed = (
            files_of(self.file),
            without_ending(self.folder, DURABLE),
            self.heard().unnamed,
        )
        lost = [
            synced,
            *({**written, **{it: synced[it] for it in synced if it == name}} for name in NAMES),
        ]
        lost += [{name: it for name, it in synced.items() if name not in unnamed}]
        seen = []
        for kind, files in [(KINDS[how], written), *((LOST, it) for it in lost if how != TEARS)]:
            if files not in seen:
                seen.append(files)
                self.tried[kind] += 1
                yield kind, files


# Rows.


@contextlib.contextmanager
def copied(file):
    """A copy of the files, for SQLite, which changes what it reads."""
    with tempfile.TemporaryDirectory(dir=os.path.dirname(os.path.dirname(file))) as folder:
        put_files(folder, files_of(file))
        yield f"{folder}/{DATABASE}"


def tables_in(database):
    names = [
        name for name, in database.execute("SELECT name FROM sqlite_master WHERE type = 'table'")
    ]
    return {name: sorted(database.execute(f"SELECT * FROM {name}")) for name in names}


def content(file):
    """The rows of each table, or what SQLite says instead. A file that is not there has no table."""
    if not os.path.exists(file):
        return {}
    try:
        with copied(file) as copy:
            return with_database(copy, tables_in)
    except sqlite3.Error as error:
        return {"": [str(error)]}


def other_rows(wanted, found):
    """Of each table that is another one than wanted, the rows that are missing, and those that are there instead."""
    tables = {name: (wanted.get(name, []), found.get(name, [])) for name in (*wanted, *found)}
    return {
        name: ([it for it in one if it not in other], [it for it in other if it not in one])
        for name, (one, other) in tables.items()
        if one != other
    }


def fault_of_rows(label, allowed, found):
    """None where the rows are allowed ones."""
    return (
        None
        if found in allowed
        else f"{label}: rows that are missing and others: {[other_rows(it, found) for it in allowed]}"
    )


def faults_of_file(label, file, wanted):
    """The file is whole, and has these rows."""
    with copied(file) as copy:
        try:
            yield from faults_of_database(copy)
        except sqlite3.Error as error:
            yield f"{label}: {error}"
    yield fault_of_rows(label, [wanted], content(file))


def spelled(method, path, key, number="", _=None):
    return f"{method} {path} as {key} {number}".rstrip()


def faults_of_once(label, found, method, path, key, number=None, _=None):
    """Of a write there is one kept number, and of a booking one trip."""
    if method == "GET":
        return
    digest = hashlib.sha256(key.encode()).digest()
    callers = [row[0] for row in found.get("callers", []) if row[3] == digest]
    kept = [row[:2] for row in found.get("kept", []) if row[0] in callers and row[1] == number]
    yield difference(
        f"{label}: the caller and the number that are kept",
        [(caller, number) for caller in callers[:1]],
        kept,
    )
    if path == "/trips":
        yield difference(f"{label}: the trips", [1], [row[0] for row in found.get("trips", [])])


# What is stopped.


class Served:
    """A desk over these files, which is asked these messages one after another. Before the first and after each it has a state."""

    def __init__(self, name, files, messages):
        self.name, self.files, self.messages = name, files, messages
        self.states, self.replies, self.files_after = [], [], {}

    def learn(self, machine):
        """How it goes with no stop."""
        machine.put(self.files)
        self.states.append(content(machine.file))
        with machine.serving(NEVER) as desk:
            for message in self.messages:
                self.replies.append(desk.ask(*message))
                self.states.append(content(machine.file))
            self.files_after = files_of(machine.file)
        for message, told in zip(self.messages, self.replies):
            if told is None or told.status != 200:
                raise Refused(f"{self.name}: {spelled(*message)} with no stop: {told}")

    def run(self, machine, how, *stop):
        """How many messages got their replies, and what is wrong with what the next one got."""
        machine.put(self.files)
        with machine.serving(how, *stop) as desk:
            for at, message in enumerate(self.messages):
                told = desk.ask(*message)
                if told != self.replies[at]:
                    wanted = STORE_FAILED if how == FAILS else None
                    return at, [
                        difference(spelled(*it), wanted, reply)
                        for it, reply in self.replies_after(desk, message, told)
                    ]
        return len(self.messages), []

    def replies_after(self, desk, message, told):
        """The messages and the replies from the first one on that is another than with no stop."""
        return [(message, told), (message, desk.ask(*message)), (READ, desk.ask(*READ))]

    def faults_of_left(self, machine, label, answered):
        file, last = machine.left_file, min(answered, len(self.messages) - 1)
        with Desk(machine.program, file) as desk:
            yield fault_of_rows(label, self.states[answered : answered + 2], content(file))
            told = desk.ask(*self.messages[last])
        yield difference(
            f"{label}: {spelled(*self.messages[last])} once more", self.replies[last], told
        )
        yield from faults_of_file(f"{label}: once more", file, self.states[last + 1])
        yield from faults_of_once(label, content(file), *self.messages[last])


class Command:
    """A command over these files, by its words for a file. `faults_again` are those of what it left, where that is opened and made anew."""

    def __init__(self, name, files, words, again):
        self.name, self.files, self.words, self.faults_again = name, files, words, again
        self.states, self.whole, self.files_after = [], None, {}

    def learn(self, machine):
        machine.put(self.files)
        self.states.append(content(machine.file))
        with machine.stopping(NEVER):
            self.whole = ends(ran(machine.program, *self.words(machine.file)))
        self.states.append(content(machine.file))
        self.files_after = files_of(machine.file)
        if self.whole[0]:
            raise Refused(f"{self.name} with no stop: {self.whole}")

    def run(self, machine, how, *stop):
        """Whether it was done, as a number, and what is wrong with its end."""
        machine.put(self.files)
        with machine.stopping(how, *stop):
            told = ends(ran(machine.program, *self.words(machine.file)))
        if told == self.whole:
            return 1, []
        wanted = (NO_STORE, b"", STORE) if how == FAILS else (KILLED, b"", b"")
        return 0, [difference("its end", wanted, told)]

    def faults_of_left(self, machine, label, answered):
        yield from self.faults_again(self, machine, label, self.states[answered:])


def ends(run):
    return run.returncode, run.stdout, run.stderr


def opening(machine):
    """None where the program opens what was left, else how it refuses it."""
    run = ran(machine.program, "trips", machine.left_file, ZONE, ADMINS_KEY, TOMORROW)
    is_open = run.returncode in (0, 1) and run.stderr == b""
    return None if is_open else ends(run)


def faults_of_words_again(case, machine, label, allowed):
    """A file that is opened as it was before or is after; the words once more do what they did."""
    file = machine.left_file
    yield difference(f"{label}: it is opened", None, opening(machine))
    yield fault_of_rows(label, allowed, content(file))
    yield difference(
        f"{label}: {case.name} once more", case.whole, ends(ran(machine.program, *case.words(file)))
    )
    yield from faults_of_file(f"{label}: once more", file, case.states[1])


def faults_of_made(case, machine, label, allowed):
    """No file, or one with no tables, or the least state; without the files it can be made."""
    file, is_there, refused = machine.left_file, os.path.exists(machine.left_file), opening(machine)
    found = content(file)
    yield fault_of_rows(label, allowed, found)
    wanted = (
        None
        if found == case.states[1]
        else (NO_STORE, b"", OTHER_TABLES)
        if is_there
        else (OTHER, b"", UNREAD)
    )
    yield difference(f"{label}: it is opened", wanted, refused)
    if is_there:
        yield difference(
            f"{label}: init once more",
            (OTHER, b"", EXISTS),
            ends(ran(machine.program, *case.words(file))),
        )
        yield fault_of_rows(f"{label}: init once more", [found], content(file))
    if found != case.states[1]:
        machine.put_left({})
        yield difference(
            f"{label}: init once the files are away",
            case.whole,
            ends(ran(machine.program, *case.words(file))),
        )
    yield from faults_of_file(f"{label}: made", file, case.states[1])


def faults_of_migrated(case, machine, label, allowed):
    """A file of version 1, which is then migrated, or of version 2, which is refused; then it tells what it told."""
    file, refused = machine.left_file, opening(machine)
    found = content(file)
    yield fault_of_rows(label, allowed, found)
    is_first = found == case.states[0]
    yield difference(
        f"{label}: it is opened", (NO_STORE, b"", OTHER_TABLES) if is_first else None, refused
    )
    wanted = case.whole if is_first else (NO_STORE, b"", OTHER_TABLES)
    yield difference(
        f"{label}: migrate once more", wanted, ends(ran(machine.program, *case.words(file)))
    )
    with Desk(machine.program, file) as desk:
        yield from faults_of_told(label, desk)
    yield from faults_of_file(f"{label}: migrated", file, case.states[1])


def kept_bytes(name):
    return Path(f"{KEPT}/{name}").read_bytes()


def faults_of_told(label, desk):
    """What the program of before told, to the byte: its last write, which comes again, and its reads."""
    wanted = [(kept_bytes("last-write.http"), kept_bytes("last-write.out"))]
    wanted += [
        (message_of("GET", it["path"], it["key"]), it["reply"].encode())
        for it in json.loads(kept_bytes("reads.json"))
    ]
    for message, reply in wanted:
        with desk.connected() as connection:
            connection.sendall(message)
            yield difference(f"{label}: {message}", reply, received_from(connection))


# Stops.


def faults_of_stop(machine, case, how, name, at):
    """What a run leaves in which a stop came is looked at. Without one, it has to come to its end."""
    answered, faults = case.run(machine, how, name, at)
    label = f"{case.name}, call {at} of {name}"
    if not machine.heard().came:
        yield difference(
            f"{label}, {KINDS[how]}: with no stop", (len(case.states) - 1, []), (answered, faults)
        )
        return
    yield from (fault and f"{label}, {KINDS[how]}: {fault}" for fault in faults)
    for kind, files in machine.left(how):
        machine.put_left(files)
        try:
            yield from case.faults_of_left(machine, f"{label}, {kind}", answered)
        except (OSError, subprocess.TimeoutExpired) as error:
            yield f"{label}, {kind}: {error}"


def faults_of_stops(machine, case, step):
    """Those of each call of the log and then of the database, until no stop comes."""
    case.learn(machine)
    calls = machine.heard().calls
    print(
        f"{case.name}: {calls[LOG]} calls of the log, {calls[DATABASE]} of the database", flush=True
    )
    for name, how in itertools.product((LOG, DATABASE), KINDS):
        for at in itertools.count(0, step):
            yield from faults_of_stop(machine, case, how, name, at)
            if not machine.heard().came:
                break


# A client that does not wait.


def is_waiting(process):
    """Whether the program waits, as it was told to, in the end."""
    end = time.monotonic() + SECONDS
    while time.monotonic() < end:
        found, status = os.waitpid(process.pid, os.WUNTRACED | os.WNOHANG)
        if found:
            return os.WIFSTOPPED(status)
        time.sleep(0.001)
    return False


def faults_of_reply(machine, case, name, at):
    """The client is away as the desk is at that call of the booking: the reply fails, and the booking stands."""
    label = f"nobody reads the reply, from call {at} of {name} on"
    machine.put(case.files)
    with machine.serving(WAITS, name, at) as desk:
        with desk.connected() as client:
            client.sendall(message_of(*BOOKING))
            yield None if is_waiting(desk.process) else f"{label}: the desk does not come to it"
            client.setsockopt(socket.SOL_SOCKET, socket.SO_LINGER, struct.pack("ii", 1, 0))
        desk.process.send_signal(signal.SIGCONT)
        said = (
            desk.process.stderr.readline()
            if select.select([desk.process.stderr], [], [], SECONDS)[0]
            else b""
        )
        yield difference(label, b"connection: fault 47 row 0\n", said)
    machine.tried[UNREAD_REPLY] += 1
    machine.put_left(files_of(machine.file))
    yield fault_of_rows(label, [case.states[1]], content(machine.left_file))
    yield from case.faults_of_left(machine, label, 1)


def faults_of_replies(machine, files, step):
    case = Served("a booking", files, [BOOKING])
    case.learn(machine)
    calls = machine.heard().calls
    for name in LOG, DATABASE:
        for at in range(0, calls[name], step):
            yield from faults_of_reply(machine, case, name, at)


# All.


def full_log(machine, files):
    """The files with so many writes of the policy that the next write has the log copied into the database first."""
    machine.put(files)
    with machine.serving(NEVER) as desk:
        for count in range(MOST_WRITES):
            before = files_of(machine.file)
            told = desk.ask("POST", "/policy", ADMINS_KEY, FIRST_NUMBER + count, POLICY)
            if told is None or told.status != 200:
                raise Refused(f"the policy {FIRST_NUMBER + count}: {told}")
            with open(machine.file, "rb") as database:
                if database.read() != before[DATABASE]:
                    return before
    raise Refused(f"{MOST_WRITES} writes, and no copy of the log")


def faults_of_copy(case):
    """The log was copied into the database."""
    yield None if case.files_after[DATABASE] != case.files[
        DATABASE
    ] else f"{case.name}: the log is not copied"


def torn_booking(machine, case):
    """What is left of a booking whose first write is torn."""
    case.run(machine, TEARS, LOG, 0)
    return files_of(machine.file)


def all_faults(machine, folder, step):
    times = f"{folder}/times.csv"
    Path(times).write_text(TIMES, "utf-8")
    init = Command("init", {}, lambda file: ["init", file, ADMINS_KEY], faults_of_made)
    yield from faults_of_stops(machine, init, step)
    first = Served("the first messages", init.files_after, FIRST_MESSAGES)
    yield from faults_of_stops(machine, first, step)
    travel = Command(
        "travel",
        first.files_after,
        lambda file: ["travel", file, ZONE, "radio", 2, TODAY, times],
        faults_of_words_again,
    )
    yield from faults_of_stops(machine, travel, step)
    bookings = Served("the first booking", travel.files_after, BOOKINGS)
    yield from faults_of_stops(machine, bookings, step)
    torn = torn_booking(machine, bookings)
    opened = Command(
        "trips", torn, lambda file: ["trips", file, ZONE, "radio", TOMORROW], faults_of_words_again
    )
    yield from faults_of_stops(machine, opened, step)
    copy = Served(
        "a booking and a copy of the log", full_log(machine, travel.files_after), [BOOKING]
    )
    yield from faults_of_stops(machine, copy, step)
    yield from faults_of_copy(copy)
    migrate = Command(
        "migrate",
        {DATABASE: kept_bytes("first-version.desk")},
        lambda file: ["migrate", file],
        faults_of_migrated,
    )
    yield from faults_of_stops(machine, migrate, step)
    for files in travel.files_after, copy.files:
        yield from faults_of_replies(machine, files, step)
    tried = ", ".join(
        f"{machine.tried[kind]} {kind}"
        for kind in ("stopped", LOST, "failed", "torn", UNREAD_REPLY)
    )
    print(f"stops: {tried}; {sum(machine.tried.values())} databases")


def faults_until_refused(machine, folder, step):
    try:
        yield from all_faults(machine, folder, step)
    except (Refused, OSError, sqlite3.Error, subprocess.TimeoutExpired) as error:
        yield f"{type(error).__name__}: {error}"


def main(words):
    program, given = told_program(words, __doc__)
    if len(given) > 1 or not all(it.isdigit() and int(it) for it in given):
        print(__doc__, end="", file=sys.stderr)
        return 2
    if not shutil.which("gcc"):
        print(
            "stops: nothing was tried, since there is no gcc, which makes the library that stops the machine\n0 passed, 0 failed"
        )
        return 0
    with tempfile.TemporaryDirectory(dir=IN_MEMORY if os.path.isdir(IN_MEMORY) else None) as folder:
        folder = os.path.realpath(folder)
        return tally(
            "stops",
            faults_until_refused(
                Machine(program, folder), folder, int(given[0]) if given else STEP
            ),
        )


if __name__ == "__main__":
    sys.exit(main(sys.argv[1:]))
