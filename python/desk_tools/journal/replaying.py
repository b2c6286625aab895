"""Replays the record's writes over a backup with the desk itself, and compares the tables with those of a later copy.

The copy's callers have keys made for the replay. Which writes come after a backup is told by each caller's last number,
since numbers rise; so no clock decides it. The desk serves under a clock that shows each line's moment.
"""

import contextlib
import hashlib
import heapq
import http.client
import json
import os
import re
import secrets
import shlex
import shutil
import sqlite3
import subprocess
import tempfile
from collections.abc import Iterator, Sequence
from dataclasses import dataclass, field, replace
from datetime import date, datetime, timedelta, timezone
from pathlib import Path
from typing import Any

from desk_tools.ports import free_port
from desk_tools.journal import lines, reading
from desk_tools.journal.lines import Line, object_of
from desk_tools.journal.people import People
from desk_tools.journal.places import Places, Wrong
from desk_tools.tables import KEYS

SECONDS, TRIES = 60, 3
WRAPPER = """#!/bin/sh
export LD_PRELOAD={library} FAKETIME_TIMESTAMP_FILE={moment} FAKETIME_NO_CACHE=1 FAKETIME_DONT_FAKE_MONOTONIC=1 TZ=UTC0
exec {program} "$@"
"""
# How far moments of lines may be off, and how near the edge of a minute both minutes are tried.
ROUNDED, NEAR, QUARTER = timedelta(milliseconds=2), timedelta(seconds=0.5), 15
# Of writes at once: how many may come next, how many writes are made anew for one order, and how far the search goes back.
MOST_AT_ONCE, MOST_TRIES, MOST_FORKS = 8, 400, 16
# What stands in the record in place of a key.
HIDDEN = "(key)"
Rows = dict[tuple[Any, ...], dict[str, Any]]
# A line with the callers whose it may be: more than one where keys begin alike.
Write = tuple[Line, list[int]]


@dataclass
class Found:
    """What the comparison found: rows that no line explains, and lines that went otherwise."""

    writes: int = 0
    differing: list[str] = field(default_factory=list)
    otherwise: list[str] = field(default_factory=list)
    unsure: list[str] = field(default_factory=list)

    @property
    def holds(self) -> bool:
        """Whether each row is explained."""
        return not self.differing and not self.otherwise


def library() -> str:
    """The library by which `faketime` shows another clock. It is asked again where it fails once, as by a leftover in /dev/shm."""
    said = ""
    for _ in range(TRIES):
        try:
            told = subprocess.run(
                ["faketime", "2025-03-10 08:00:00", "env"],
                capture_output=True,
                text=True,
                check=False,
                timeout=SECONDS,
            )
        except FileNotFoundError:
            break
        except (OSError, subprocess.TimeoutExpired) as error:
            said = str(error)
            continue
        for line in told.stdout.splitlines():
            if line.startswith("LD_PRELOAD="):
                return line.partition("=")[2].split(":")[0]
        said = told.stderr.strip() or f"it ended with status {told.returncode}"
    if said:
        raise Wrong(f"faketime doesn't work: {said}")
    raise Wrong("faketime is not installed, and the replay shows the desk each line's moment by it")


def copied(source: Path, path: Path) -> None:
    """A copy of a database with what stands in its log."""
    if not source.exists():
        raise Wrong(f"there is no {source}")
    try:
        with contextlib.closing(sqlite3.connect(source)) as one, contextlib.closing(
            sqlite3.connect(path)
        ) as other:
            one.backup(other)
    except sqlite3.Error as error:
        raise Wrong(f"{source} can't be read: {error}") from None


def numbers_of(path: Path) -> dict[int, int]:
    """The number of each caller's last accepted write."""
    with contextlib.closing(sqlite3.connect(path)) as file:
        return dict(file.execute("SELECT caller, number FROM kept").fetchall())


class Digests:
    """The digests that each caller's key may have, by the earlier copy and by the record's lines."""

    def __init__(self, before: Path) -> None:
        self.known = {number: {digest} for number, digest in digests_in(before).items()}

    def put(self, group: list[Write]) -> None:
        """Takes in writes that were under way at once: any of them may have come last, and one without a reply may not count."""
        found: dict[int, set[str]] = {}
        for line, _ in group:
            number = line.fields.get("id")
            if line.path == "/callers" and isinstance(number, int):
                found.setdefault(number, set()).add(lines.text_of(line.fields, "digest").lower())
                if not line.is_done:
                    found[number] |= self.known.get(number, set())
        self.known.update(found)

    def others(self, after: Path) -> Iterator[str]:
        """A sentence for each caller of the later copy whose key is none of these."""
        for number, digest in digests_in(after).items():
            wanted = self.known.get(number, {digest})
            # (a line without its digest can't be compared)
            if digest not in wanted and "" not in wanted:
                put = " or ".join(sorted(it[:12] for it in wanted))
                yield f"callers, id {number}: the key is {digest[:12]}, by the record {put}"


def digests_in(path: Path) -> dict[int, str]:
    """The digest of each caller's key."""
    with contextlib.closing(sqlite3.connect(path)) as file:
        found = file.execute("SELECT id, digest FROM callers ORDER BY id").fetchall()
    return {number: bytes(digest).hex() for number, digest in found}


class Keys:
    """Keys that are made for the replay, one for each caller."""

    def __init__(self) -> None:
        self.made: dict[int, str] = {}

    def of(self, caller: int) -> str:
        """The key of a caller."""
        return self.made.setdefault(caller, secrets.token_hex(16))

    def digest(self, caller: int) -> str:
        """The digest of that key."""
        return hashlib.sha256(self.of(caller).encode()).hexdigest()

    def put_in(self, path: Path) -> None:
        """Gives each caller of a copy the key of the replay."""
        with contextlib.closing(sqlite3.connect(path)) as file:
            for (caller,) in file.execute("SELECT id FROM callers").fetchall():
                digest = bytes.fromhex(self.digest(caller))
                file.execute("UPDATE callers SET digest = ? WHERE id = ?", (digest, caller))
            file.commit()


class Replay:
    """A desk over a copy, whose clock shows what it is told."""

    def __init__(self, program: Path, folder: Path, zone: str, keys: Keys) -> None:
        self.folder, self.zone, self.keys = folder, zone, keys
        self.file, self.moment = folder / "replay.db", folder / "moment"
        self.program, self.after = folder / "desk", folder / "after.db"
        self.told = (0, "")
        names = {
            "library": library(),
            "moment": str(self.moment),
            "program": str(program.resolve()),
        }
        self.program.write_text(
            WRAPPER.format(**{name: shlex.quote(it) for name, it in names.items()})
        )
        self.program.chmod(0o755)
        self.process: subprocess.Popen[bytes] | None = None
        self.port, self.shown = 0, ""

    def kept(self, name: str) -> Path:
        """A copy of the file as it is now. The desk may serve it meanwhile: between two requests it writes nothing."""
        path = self.folder / name
        for end in "", "-wal":
            one, other = self.file.with_name(self.file.name + end), path.with_name(name + end)
            other.unlink(missing_ok=True)
            if one.exists():
                shutil.copyfile(one, other)
        return path

    def go_back(self, kept: Path) -> None:
        """Has the file as it was when the copy was made."""
        self.stop()
        for end in "", "-wal", "-shm":
            one, other = kept.with_name(kept.name + end), self.file.with_name(self.file.name + end)
            other.unlink(missing_ok=True)
            if one.exists():
                shutil.copyfile(one, other)

    def show(self, moment: datetime) -> None:
        """The desk's clock shows this moment, by the second, from now on."""
        told = moment.astimezone(timezone.utc).strftime("%Y-%m-%d %H:%M:%S\n")
        if told != self.shown:
            new = self.moment.with_suffix(".new")
            new.write_text(told, encoding="ascii")
            os.replace(new, self.moment)
            self.shown = told

    def start(self) -> None:
        """Has the desk serve."""
        for _ in range(20):
            self.port = free_port()
            words = [
                str(self.program),
                "serve",
                str(self.file),
                self.zone,
                str(self.port),
                "1000000",
            ]
            self.process = subprocess.Popen(words, stdin=subprocess.DEVNULL, stderr=subprocess.PIPE)
            assert self.process.stderr is not None
            said = self.process.stderr.readline().decode()
            if said.startswith("listening"):
                return
            self.stop()
            if "fault 6" not in said:
                raise Wrong(f"the desk doesn't serve the copy: {said.strip()}")
        raise Wrong("no port could be had for the replay")

    def stop(self) -> None:
        """Ends the desk."""
        if self.process:
            self.process.kill()
            self.process.wait()
            assert self.process.stderr is not None
            self.process.stderr.close()
            for name in f"faketime_shm_{self.process.pid}", f"sem.faketime_sem_{self.process.pid}":
                with contextlib.suppress(OSError):
                    os.unlink(f"/dev/shm/{name}")
        self.process = None

    def post(self, line: Line, caller: int) -> tuple[int, str]:
        """The status and the reply to a line's write, at the moment that the clock shows."""
        if line.method == "TRAVEL":
            return self.travel(line, caller)
        if not self.process:
            self.start()
        body = line.body or b""
        if line.path == "/callers":
            fields = object_of(body)
            if isinstance(fields.get("id"), int) and "digest" in fields:
                body = json.dumps({**fields, "digest": self.keys.digest(fields["id"])}).encode()
        connection = http.client.HTTPConnection("127.0.0.1", self.port, timeout=SECONDS)
        with contextlib.closing(connection):
            connection.putrequest("POST", line.path, skip_host=True, skip_accept_encoding=True)
            connection.putheader("Desk-Key", self.keys.of(caller))
            connection.putheader("Desk-Number", str(line.number))
            connection.putheader("Content-Length", str(len(body)))
            connection.endheaders(body)
            reply = connection.getresponse()
            return reply.status, reply.read().decode("latin-1")

    def travel(self, line: Line, caller: int) -> tuple[int, str]:
        """Gives driving times, while the desk does not serve."""
        self.stop()
        table = self.folder / "times.csv"
        table.write_bytes(line.body or b"")
        words = [
            str(self.program),
            "travel",
            str(self.file),
            self.zone,
            self.keys.of(caller),
            str(line.number),
        ]
        ran = subprocess.run(
            [*words, line.path.rpartition("/")[2], str(table)], capture_output=True, check=False
        )
        return (200 if ran.returncode == 0 else 422), ran.stdout.decode("latin-1").strip()

    def is_answered(self, line: Line, caller: int) -> bool:
        """Makes a write anew at its moment. Whether it is answered as its line says.

        Near the edge of a minute it is made at both. Where each is answered as the line says and a day may have ended
        between them, that one counts whose rows the later copy has.
        """
        self.show(line.began)
        minutes = [it.replace(second=0, microsecond=0) for it in (line.began, line.at + NEAR)]
        if minutes[0] == minutes[1]:
            return self.answers(line, caller)
        kept = self.kept("minute")
        first = self.answers(line, caller)
        # (a day ends on a quarter of an hour, in whatever zone)
        if first and minutes[1].minute % QUARTER:
            return True
        after_first = self.kept("first")
        self.go_back(kept)
        self.show(minutes[1])
        second = self.answers(line, caller)
        if first and not (second and self.is_nearer(kept, self.kept("second"), after_first)):
            self.go_back(after_first)
        return first or second

    def answers(self, line: Line, caller: int) -> bool:
        """Makes a write anew by the clock as it is. Whether it is answered as its line says."""
        self.told = self.post(line, caller)
        return self.told == (line.status, line.reply)

    def is_nearer(self, before: Path, one: Path, other: Path) -> bool:
        """Whether fewer of the rows that one copy changed are otherwise in the later file of the check."""
        return self.compared(before, one)[1] < self.compared(before, other)[1]

    def compared(self, before: Path, now: Path) -> tuple[int, int]:
        """How many of the rows that changed between two copies the later file of the check has so, and otherwise."""
        same = other = 0
        for table in KEYS:
            old, new, wanted = (rows_of(it, table) for it in (before, now, self.after))
            keys = [it for it in {*old, *new} if old.get(it) != new.get(it)]
            alike = sum(new.get(it) == wanted.get(it) for it in keys)
            # (the numbers of last writes and of the last trip say nothing of one write)
            same += alike if table not in ("kept", "desk") else 0
            other += len(keys) - alike
        return same, other


def lines_of_all(sites: Sequence[Places], first: date | None) -> Iterator[Line]:
    """The lines of the records of one site or several without reads, by their moments. Each site's own stay in their order."""

    def of_site(places: Places, name: str) -> Iterator[Line]:
        reader = reading.Reader(places, first=first)
        for line in reader.lines(lambda raw: b'"method":"GET"' not in raw):
            yield replace(line, site=name)

    names = ["", *(str(it.folder) for it in sites[1:])]
    yield from heapq.merge(*map(of_site, sites, names), key=lambda it: it.at)


def writes_since(
    found: Iterator[Line], people: People, before: dict[int, int], after: dict[int, int]
) -> Iterator[Write]:
    """The writes that may have changed the file between two copies, each with its caller."""
    for line in found:
        if line.number is None or not line.is_write:
            continue
        if not line.is_done and line.status < lines.UNKNOWN_FROM:
            continue
        # (a write that replaced the caller's own key ended when the key did)
        callers = [
            it.number
            for it in people.of_digits(line.who, lines.told(line.at))
            if before.get(it.number, 0) < line.number <= after.get(it.number, 0)
        ]
        if callers:
            yield line, callers


def rows_of(path: Path, table: str) -> Rows:
    """The rows of a table by their keys. Of callers the digest is left out, and of a last write that put one."""
    with contextlib.closing(sqlite3.connect(path)) as file:
        file.row_factory = sqlite3.Row
        found = [dict(it) for it in file.execute(f"SELECT * FROM {table}")]
    for row in found:
        row.pop("digest", None)
        if table == "kept":
            row.pop("request")
    return {tuple(row[name] for name in KEYS[table]): row for row in found}


def compared(replayed: Path, after: Path, found: Found) -> None:
    """Finds each row that differs. What the record leaves out as a key can't be compared."""
    for table, keys in KEYS.items():
        ours, theirs = rows_of(replayed, table), rows_of(after, table)
        for key in sorted({*ours, *theirs}, key=lambda it: tuple(map(str, it))):
            if ours.get(key) != theirs.get(key):
                row = ", ".join(f"{name} {value}" for name, value in zip(keys, key))
                said, is_sure = difference(ours.get(key), theirs.get(key))
                (found.differing if is_sure else found.unsure).append(f"{table}, {row}: {said}")


def is_hidden(ours: object, theirs: object) -> bool:
    """Whether two texts are the same but for what the record left out of one as a key."""
    if not isinstance(ours, str) or not isinstance(theirs, str) or HIDDEN not in ours:
        return False
    parts = [re.escape(it) for it in ours.split(HIDDEN)]
    return re.fullmatch(".{8,}".join(parts), theirs, re.DOTALL) is not None


def difference(ours: dict[str, Any] | None, theirs: dict[str, Any] | None) -> tuple[str, bool]:
    """How a row differs, and whether that is sure. A text that may have a key is not printed."""
    if ours is None:
        return f"no line explains this row: {theirs}", True
    if theirs is None:
        return f"the record has this row, and the file has not: {ours}", True
    names = [it for it in ours if ours[it] != theirs[it]]
    left_out = [it for it in names if is_hidden(ours[it], theirs[it])]
    said = [
        (
            f"{name} is otherwise than {ours[name]!r} of the record"
            if HIDDEN in str(ours[name])
            else f"{name} is {theirs[name]!r}, by the record {ours[name]!r}"
        )
        for name in names
        if name not in left_out
    ]
    if said:
        return "; ".join(said), True
    return f"{', '.join(left_out)} has what may be a key, and the record leaves keys out", False


def check(
    sites: Sequence[Places],
    people: People,
    before: Path,
    after: Path,
    program: Path,
    zone: str,
    day: date | None = None,
) -> Found:
    """Replays what came between two copies, and compares. The records are read from a day on, or whole. The first one is
    this machine's; others are of sites that served the agency meanwhile."""
    found = Found()
    with tempfile.TemporaryDirectory() as name:
        folder, keys = Path(name), Keys()
        replay = Replay(program, folder, zone, keys)
        copied(before, replay.file)
        copied(after, replay.after)
        first, last = numbers_of(replay.file), numbers_of(replay.after)
        digests = Digests(replay.file)
        keys.put_in(replay.file)
        reached = dict(first)
        try:
            for group in groups_of(writes_since(lines_of_all(sites, day), people, first, last)):
                replay_group(replay, group, found, reached)
                digests.put(group)
        finally:
            replay.stop()
        for caller, number in sorted(last.items()):
            if reached.get(caller, 0) < number:
                found.differing.append(
                    f"kept, caller {caller}: its last write has the number {number}, and no line names it"
                )
        copied(replay.file, folder / "ended.db")
        compared(folder / "ended.db", replay.after, found)
        found.differing += digests.others(replay.after)
    return found


def groups_of(writes: Iterator[Write]) -> Iterator[list[Write]]:
    """The writes in groups: those of one group were under way at once, so that the desk may have had them in any order."""
    group: list[Write] = []
    end = datetime.min.replace(tzinfo=timezone.utc)
    for line, callers in writes:
        if group and line.began >= end - ROUNDED:
            yield group
            group = []
        group.append((line, callers))
        end = max(end, line.at) if len(group) > 1 else line.at
    if group:
        yield group


def choices_of(group: list[Write], made: list[int]) -> list[int]:
    """Which write of a group the desk may have had next: none that had ended has to come before it, and each caller's own
    writes come by their numbers."""
    left = [it for it in range(len(group)) if it not in made][:MOST_AT_ONCE]
    return [
        it
        for it in left
        if not any(
            group[other][0].at + ROUNDED < group[it][0].began
            or (group[other][1] == group[it][1] and is_lower(group[other][0], group[it][0]))
            for other in left
        )
    ] or left[:1]


def is_lower(one: Line, other: Line) -> bool:
    """Whether a line has a lower number than another one, or comes before it with the same."""
    return ((one.number or 0), one.at) < ((other.number or 0), other.at)


def is_open(group: list[Write]) -> bool:
    """Whether two writes of a group put the same record, so that their replies don't tell which one came last."""
    put = [
        (line.path, str(line.fields.get("id")))
        for line, _ in group
        if line.path != "/trips" and line.is_done
    ]
    return len(set(put)) < len(put)


@dataclass
class Fork:
    """A place in the order of a group: how many writes were made, the file as it was then, and what may come next."""

    length: int
    kept: Path | None
    left: list[int]


def in_order(replay: Replay, group: list[Write], start: Path) -> bool:
    """Makes the writes of a group anew, in an order in which each is answered as its line says. Whether there is one.

    Where the replies don't tell the order, that one counts whose rows the later copy has.
    """
    made: list[int] = []
    best = replay.folder / "best"
    least, forks, is_any = -1, [Fork(0, start, choices_of(group, made))], is_open(group)
    for count in range(MOST_TRIES + len(group)):
        while forks and not forks[-1].left:
            forks.pop()
            if forks and forks[-1].left and forks[-1].kept:
                replay.go_back(forks[-1].kept)
        if not forks:
            break
        del made[forks[-1].length :]
        at = forks[-1].left.pop(0)
        if not is_told(replay, group[at]):
            if forks[-1].kept and forks[-1].left:
                replay.go_back(forks[-1].kept)
            continue
        made.append(at)
        if len(made) < len(group):
            left = choices_of(group, made)
            kept = replay.kept(f"fork-{count % (2 * MOST_FORKS)}") if len(left) > 1 else None
            forks = [*forks, Fork(len(made), kept, left)][-MOST_FORKS:]
            continue
        far = replay.compared(start, replay.kept("order"))[1] if is_any else 0
        if least < 0 or far < least:
            least = far
            replay.kept("best")
        if not least:
            return True
        forks.append(Fork(len(made), None, []))
    if least >= 0:
        replay.go_back(best)
    return least >= 0


def replay_group(replay: Replay, group: list[Write], found: Found, reached: dict[int, int]) -> None:
    """Makes the writes of a group anew. Where no order has every reply, what goes otherwise is named line by line."""
    is_done = len(group) > 1 and all(line.is_done for line, _ in group)
    start = replay.kept("start") if is_done else None
    if start and in_order(replay, group, start):
        found.writes += len(group)
        for line, callers in group:
            for caller in callers:
                reached[caller] = max(reached.get(caller, 0), line.number or 0)
        return
    if start:
        replay.go_back(start)
    for write in group:
        replay_line(replay, *write, found, reached)


def is_told(replay: Replay, write: Write) -> bool:
    """Makes a write anew for the caller, or each of those, whose it may be. Whether it is answered as its line says."""
    line, callers = write
    return any(replay.is_answered(line, caller) for caller in callers)


def replay_line(
    replay: Replay, line: Line, callers: list[int], found: Found, reached: dict[int, int]
) -> None:
    """Makes one write anew, and says where it goes otherwise than its line."""
    whose = " or ".join(map(str, callers))
    site = f" of {line.site}" if line.site else ""
    place = f"entry {line.place or '(not chained yet)'}{site}, caller {whose}, number {line.number}, {line.path}"
    if len(callers) > 1:
        found.unsure.append(f"{place}: the keys of callers {whose} begin alike")
    if not line.is_whole:
        found.unsure.append(f"{place}: the line has not the whole body")
    found.writes += 1
    if not line.is_done:
        replay_unknown(replay, line, callers[0])
        found.unsure.append(
            f"{place}: its line says {line.status}, so the desk may have done it or not"
        )
        return
    for caller in callers:
        reached[caller] = max(reached.get(caller, 0), line.number or 0)
    if not is_told(replay, (line, callers)):
        status, reply = replay.told
        found.otherwise.append(
            f"{place}: answered {line.status} {line.reply}, by the replay {status} {reply}"
        )


def replay_unknown(replay: Replay, line: Line, caller: int) -> None:
    """Makes a write anew of which nobody knows whether it was done. It is taken back where the later copy has no row of it."""
    kept = replay.kept("unknown")
    replay.is_answered(line, caller)
    same, _ = replay.compared(kept, replay.kept("order"))
    if replay.told[0] == lines.DONE and not same:
        replay.go_back(kept)
