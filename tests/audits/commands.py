"""What `desk explain` and `desk audit` take, print and end with, over a small agency: rows of their own, which need no set clock."""

from __future__ import annotations

import contextlib
import hashlib
import os
import re
import subprocess
from collections.abc import Iterator
from pathlib import Path
from typing import Any

from audits.over_cases import (
    DENIED,
    DONE,
    NO_STORE,
    OTHER,
    WRONG_WORDS,
    End,
    audited,
    end_of,
    wanted_end,
)
from serving import (
    ADMINS_KEY,
    LINE,
    POLICY,
    SECONDS,
    TODAY,
    TOMORROW,
    VAN,
    ZONE,
    Desk,
    Refused,
    asked_in_turn,
    difference,
    make_agency,
    ran,
    rows,
    with_database,
)

ROOT = os.path.dirname(os.path.dirname(os.path.dirname(os.path.realpath(__file__))))
PAGE = f"{ROOT}/docs/AUDIT.md"
NO_WAY, NO_CASE, NO_LOG = b"AUDIT 1\nNODIRECT\nDONE\n", b"AUDIT 1\nDONE\n", b"AUDIT 2\n"
LAST_TRIP = 4_294_967_295
LATEST_DAY = TODAY.fromordinal(TODAY.toordinal() + 14)
TOO_LATE = TODAY.fromordinal(TODAY.toordinal() + 15)
PLACES = ["key", "rider", "day", "wish", "origin", "goal", "by", "attendant", "companions"]
# At one in the morning the agency's van is not on the road.
ASKED = {
    "key": "radio",
    "rider": 9,
    "day": TOMORROW,
    "wish": 60,
    "origin": 1,
    "goal": 2,
    "by": "none",
    "attendant": 0,
    "companions": 0,
}


def asked(**changes: Any) -> list[str]:
    """The words of the question, with these in place of others."""
    return [str({**ASKED, **changes}[it]) for it in PLACES]


def explained(
    program: str, file: str, words: list[str], **named: Any
) -> subprocess.CompletedProcess[Any]:
    return ran(program, "explain", file, ZONE, *words, **named)


def ends(label: str, wanted: End, run: subprocess.CompletedProcess[Any]) -> str | None:
    """None where a run ends with this status, output and line of standard error, else how it ends."""
    return difference(label, wanted, end_of(run))


def fault(code: int, row: int = 0, status: int = OTHER) -> End:
    return status, b"", f"fault {code} row {row}\n".encode()


def copied(file: str, path: str) -> str:
    """A copy of the database, with what stands in its log beside it."""
    with_database(file, lambda it: with_database(path, it.backup))
    return path


def put_log(folder: str, name: str, text: bytes) -> str:
    path = f"{folder}/{name}"
    Path(path).write_bytes(text)
    return path


# The words.

WRONG: list[dict[str, Any]] = [
    {"rider": 0},
    {"rider": 4_294_967_296},
    {"rider": "seven"},
    {"day": "2025-02-30"},
    {"day": "2025-3-10"},
    {"day": "2100-01-01"},
    {"wish": 1440},
    {"wish": "9:00"},
    {"origin": 0},
    {"goal": 0},
    {"goal": "x"},
    {"by": 1440},
    {"by": "None"},
    {"by": ""},
    {"by": "no"},
    {"attendant": 2},
    {"attendant": "true"},
    {"companions": 256},
    {"companions": "none"},
    {"wish": ""},
]


def is_refused(run: subprocess.CompletedProcess[Any]) -> bool:
    return (run.returncode, run.stdout) == (WRONG_WORDS, b"") and bool(run.stderr)


def faults_of_words(program: str, file: str, folder: str) -> Iterator[str | None]:
    """Words that are refused, before anything is looked at."""
    for change in WRONG:
        for words in (
            ["explain", file, ZONE],
            ["audit", f"{folder}/no-log", f"{folder}/no-file", "Eastern"],
        ):
            run = ran(program, *words, *asked(**change))
            yield None if is_refused(run) else f"{words[0]} with {change}: {run}"
    for words in (["explain", file, ZONE, *asked()], ["audit", file, file, ZONE, *asked()]):
        for some in (words[:-1], [*words, "more"]):
            run = ran(program, *some)
            yield None if is_refused(run) else f"{words[0]} with {len(some) - 1} words: {run}"


def faults_of_taken_words(program: str, file: str) -> Iterator[str | None]:
    """The ends of what the words may be; the party is too large for the rule, and not for the word."""
    denied: list[tuple[dict[str, Any], bytes]] = [
        ({"companions": 255}, b"37.123(f)\n"),
        ({"attendant": 1, "companions": 1}, b"37.123(f)\n"),
        ({"rider": 4_294_967_295}, b"desk.unknown\n"),
        ({"goal": 4_294_967_295}, b"desk.unknown\n"),
    ]
    for change, told in denied:
        yield ends(
            f"explain with {change}", (DENIED, told, b""), explained(program, file, asked(**change))
        )
    taken: list[dict[str, Any]] = [{"by": 0}, {"by": 1439}, {"wish": 0}, {"companions": 1}]
    for change in (*taken, {"day": LATEST_DAY}):
        run = explained(program, file, asked(**change))
        yield difference(f"explain with {change}", (DONE, b""), (run.returncode, run.stderr))
        yield difference(
            f"its log, {run.stdout!r}",
            wanted_end("yes"),
            audited(program, file, os.path.dirname(file), asked(**change), run.stdout),
        )


# The order of faults.


def faults_of_order(program: str, file: str, folder: str) -> Iterator[str | None]:
    """Of several faults the first is told: the zone; the log's file; the database's file, its opening; the log's form; the request."""
    good, bad, no_log = (
        put_log(folder, "good", NO_CASE),
        put_log(folder, "bad", NO_LOG),
        f"{folder}/no-log",
    )
    no_file, other = f"{folder}/no-file.db", f"{folder}/other.db"
    with_database(other, lambda it: it.execute("CREATE TABLE trips(id)"))
    yield ends(
        "explain in no zone", fault(3), ran(program, "explain", no_file, "Eastern", *asked())
    )
    yield ends("explain of no file", fault(5), explained(program, no_file, asked(key="nobody")))
    yield ends(
        "explain of other tables",
        fault(30, status=NO_STORE),
        explained(program, other, asked(key="nobody")),
    )
    wanted = [
        (no_log, no_file, "Eastern", fault(3)),
        (no_log, file, ZONE, fault(5)),
        (folder, file, ZONE, fault(5)),
        (no_log, no_file, ZONE, fault(5)),
        (no_log, other, ZONE, fault(5)),
        (good, no_file, ZONE, fault(5)),
        (bad, no_file, ZONE, fault(5)),
        (bad, other, ZONE, fault(30, status=NO_STORE)),
        (bad, file, ZONE, fault(50, 1)),
        (put_log(folder, "empty", b""), file, ZONE, fault(50, 1)),
        (put_log(folder, "unended", b"AUDIT 1\nNODIRECT\n"), file, ZONE, fault(50, 3)),
        (good, file, ZONE, (DENIED, b"desk.key\n", b"")),
    ]
    for log, its_file, zone, end in wanted:
        run = ran(program, "audit", log, its_file, zone, *asked(key="nobody"))
        yield ends(f"audit {os.path.basename(log)} {os.path.basename(its_file)} {zone}", end, run)
    with Desk(program, file):
        yield ends(
            "explain while the file is served",
            fault(32, status=NO_STORE),
            explained(program, file, asked()),
        )
        run = ran(program, "audit", bad, file, ZONE, *asked())
        yield ends("audit while the file is served", fault(32, status=NO_STORE), run)


# Denials.

# In the order in which they are told: each question fails by all that follow, but for the van, which is told last.
DENIALS: list[tuple[str, dict[str, Any]]] = [
    ("desk.key", {"key": "nobody", "rider": 99, "goal": 99, "day": TODAY}),
    ("desk.caller", {"key": "hello", "rider": 99, "goal": 99, "day": TODAY}),
    ("desk.caller", {"key": "mine", "rider": 7}),
    ("desk.caller", {"key": "wheel"}),
    ("desk.caller", {"key": "panel"}),
    ("desk.caller", {"key": "bench"}),
    ("desk.caller", {"key": ADMINS_KEY}),
    ("desk.unknown", {"rider": 99, "day": TODAY, "companions": 2}),
    ("desk.unknown", {"origin": 99, "day": TODAY, "companions": 2}),
    ("desk.unknown", {"goal": 99, "day": TODAY, "companions": 2}),
    ("37.125", {"rider": 8, "companions": 2, "day": TODAY, "goal": 4}),
    ("37.123(f)", {"companions": 2, "day": TODAY, "goal": 4}),
    ("37.123(f)", {"attendant": 1, "day": TOO_LATE, "goal": 4}),
    ("37.131(b)", {"day": TODAY, "goal": 4}),
    ("37.131(b)", {"day": TOO_LATE, "goal": 4}),
    ("37.131(a)", {"goal": 4, "wish": 1430}),
    ("37.131(a)", {"origin": 4, "wish": 1430}),
    ("37.131(e)", {"wish": 1430}),
]
MORE: list[tuple[str, str, int, dict[str, Any]]] = [
    ("/places", ADMINS_KEY, 20, {"id": 4, "x": 500_000, "y": 500_000, "core": False}),
    ("/routes", ADMINS_KEY, 21, {**LINE, "last": 1400}),
    ("/riders", "hello", 20, {"id": 8, "kind": "resident", "attendant": False}),
]


def faults_of_denials(program: str, file: str, folder: str) -> Iterator[str | None]:
    """The first rule that fails is named by both commands, whatever the log shows."""
    for name, change in DENIALS:
        wanted = DENIED, f"{name}\n".encode(), b""
        yield ends(f"explain with {change}", wanted, explained(program, file, asked(**change)))
        yield difference(
            f"audit with {change}", wanted, audited(program, file, folder, asked(**change), NO_CASE)
        )
    full = copied(file, f"{folder}/full.db")
    with_database(full, lambda it: it.execute("UPDATE desk SET last_trip = ?", (LAST_TRIP,)))
    of_full: list[tuple[dict[str, Any], bytes]] = [
        ({"companions": 2, "day": TODAY}, b"desk.full\n"),
        ({"goal": 99}, b"desk.unknown\n"),
    ]
    for change, told in of_full:
        yield ends(
            f"explain with {change}, once the last trip's number is given",
            (DENIED, told, b""),
            explained(program, full, asked(**change)),
        )


# What is explained.


def faults_of_refusals(program: str, file: str, folder: str) -> Iterator[str | None]:
    """A refusal has a log, the same again and again; what could be booked has none, and no log is right for it."""
    first, again = (explained(program, file, asked()) for _ in range(2))
    yield difference("explain", (DONE, b""), (first.returncode, first.stderr))
    yield ends("the same once more", end_of(first), again)
    yield difference(
        "its log", wanted_end("yes"), audited(program, file, folder, asked(), first.stdout)
    )
    yield difference(
        "its log without its end",
        wanted_end("no"),
        audited(program, file, folder, asked(), without_end(first.stdout)),
    )
    for change in ({"wish": 600}, {"rider": 7, "attendant": 1, "companions": 1, "wish": 1000}):
        yield ends(
            f"explain of what is possible, {change}",
            (DENIED, b"possible\n", b""),
            explained(program, file, asked(**change)),
        )
        for log in (first.stdout, NO_CASE, NO_WAY):
            yield difference(
                f"{log!r} of what is possible, {change}",
                wanted_end("no"),
                audited(program, file, folder, asked(**change), log),
            )
    yield from faults_of_other_states(program, file, folder, first.stdout)


def without_end(log: bytes) -> bytes:
    """The log without the line that ends its first case."""
    return re.sub(rb"(?m)^[WLMS]( \d+)?\n", b"", log, count=1)


def faults_of_other_states(
    program: str, file: str, folder: str, log: bytes
) -> Iterator[str | None]:
    """The log of one state where the vehicles are others."""
    later = copied(file, f"{folder}/later.db")
    with Desk(program, later) as desk:
        asked_in_turn(
            desk, [("/vehicles", "radio", 20, {**VAN, "id": 2, "opens": 300, "closes": 400})]
        )
    yield difference(
        "a log where another van is on duty",
        wanted_end("no"),
        audited(program, later, folder, asked(), log),
    )
    with Desk(program, later) as desk:
        asked_in_turn(
            desk,
            [
                (
                    "/vehicles",
                    "radio",
                    21,
                    {**VAN, "id": 2, "opens": 0, "closes": 1439, "duration": 1439},
                )
            ],
        )
    yield difference(
        "a log where a van can", wanted_end("no"), audited(program, later, folder, asked(), log)
    )
    yield ends(
        "explain where a van can", (DENIED, b"possible\n", b""), explained(program, later, asked())
    )


def bare_agency(program: str, path: str, *more: dict[str, Any]) -> str:
    """The agency's records with no travel table and no trip, and these requests of its dispatcher."""
    given = ran(program, "init", path, ADMINS_KEY)
    if given.returncode:
        raise Refused(f"init: {given}")
    records = [
        ("/callers", {"id": 2, "role": "clerk", "subject": 0, "key": "hello"}),
        ("/callers", {"id": 3, "role": "dispatcher", "subject": 0, "key": "radio"}),
        ("/policy", POLICY),
        *(("/places", {"id": it, "x": 1000 * it, "y": 0, "core": False}) for it in (1, 2, 3)),
        ("/routes", LINE),
    ]
    with Desk(program, path) as desk:
        asked_in_turn(
            desk,
            [(path, ADMINS_KEY, number, body) for number, (path, body) in enumerate(records, 1)],
        )
        asked_in_turn(
            desk, [("/riders", "hello", 1, {"id": 9, "kind": "visitor", "attendant": True})]
        )
        asked_in_turn(
            desk,
            [
                ("/vehicles", "radio", number, {**VAN, **body})
                for number, body in enumerate(more, 1)
            ],
        )
    return path


def faults_of_empty_logs(program: str, folder: str) -> Iterator[str | None]:
    """With no travel rows one line says that there is no way; with no vehicle on duty there is no place to show."""
    no_rows = bare_agency(program, f"{folder}/no-rows.db", {})
    yield ends(
        "explain with no travel rows",
        (DONE, NO_WAY, b""),
        explained(program, no_rows, asked(wish=600)),
    )
    yield difference(
        "its log", wanted_end("yes"), audited(program, no_rows, folder, asked(wish=600), NO_WAY)
    )
    yield difference(
        "no place to show where a van is on duty",
        wanted_end("no"),
        audited(program, no_rows, folder, asked(wish=600), NO_CASE),
    )
    stays = asked(wish=600, goal=1)
    yield ends(
        "explain of a trip that stays, with no travel rows",
        (DENIED, b"possible\n", b""),
        explained(program, no_rows, stays),
    )
    yield difference(
        "no way to the same place",
        wanted_end("no"),
        audited(program, no_rows, folder, stays, NO_WAY),
    )
    off = bare_agency(
        program, f"{folder}/off-duty.db", {"days": []}, {"id": 2, "from_day": LATEST_DAY}
    )
    yield ends(
        "explain with no vehicle on duty", (DONE, NO_CASE, b""), explained(program, off, stays)
    )
    yield difference("its log", wanted_end("yes"), audited(program, off, folder, stays, NO_CASE))
    yield difference(
        "a case of a vehicle off duty",
        wanted_end("no"),
        audited(program, off, folder, stays, b"AUDIT 1\nCASE 1 0 0\nF 0 300\nDONE\n"),
    )


# The page.

EXAMPLE_TIMES = "from,to,minutes\n1,2,20\n2,3,30\n3,1,40\n"
EXAMPLE = {"wish": 540, "origin": 2, "goal": 3}
# What stands in place of lines of the example, and the answer then. A ride may take 50 minutes, and the van may be out for 1080.
CHANGES = [
    (b"A 2 532", b"A 2 533", "no"),
    (b"A 2 532", b"A 2 531", "no"),
    (b"F 0 480", b"F 0 479", "no"),
    (b"F 0 480", b"F 0 481", "no"),
    (b"A 3 574", b"A 3 573", "yes"),
    (b"A 3 574", b"A 3 491", "yes"),
    (b"A 3 574", b"A 3 490", "no"),
    (b"A 3 574", b"A 3 575", "no"),
    (b"A 3 574", b"P 1 480\nA 3 574", "yes"),
    (b"A 3 574", b"P 1 481\nA 3 574", "no"),
    (b"A 3 574", b"P 2 0\nA 3 574", "no"),
    (b"A 1 500", b"P 1 0\nA 1 500", "no"),
    (b"W 3", b"T 0 0\nW 3", "no"),
    (b"A 1 500", b"A 0 0\nA 1 500", "no"),
    (b"A 1 500", b"A 4 0\nA 1 500", "no"),
    (b"W 3", b"W 2", "no"),
    (b"W 3", b"W 4", "no"),
    (b"W 3", b"L 1", "no"),
    (b"W 3", b"M 2", "no"),
    (b"W 3", b"S", "no"),
    (b"W 3", b"W 3\nW 3", "no"),
    (b"W 3\n", b"", "no"),
    (b"CASE 1 0 0", b"CASE 1 0 1", "no"),
    (b"CASE 1 0 0", b"CASE 2 0 0", "no"),
    (b"AUDIT 1", b"AUDIT 2", "fault 50 row 1"),
    (b"A 2 532", b"A 2 0532", "fault 50 row 5"),
    (b"A 2 532", b"A 2 4294967295", "no"),
    (b"A 2 532", b"A 2 4294967296", "fault 50 row 5"),
    (b"DONE\n", b"DONE", "fault 50 row 8"),
]


def blocks_of_page() -> list[bytes]:
    """The logs that stand in docs/AUDIT.md."""
    return [
        it.encode()
        for it in re.findall(r"(?ms)^```\n(AUDIT 1\n.*?DONE\n)```$", Path(PAGE).read_text("utf-8"))
    ]


def example(program: str, folder: str, name: str, **van: int) -> str:
    """The agency of the page's example."""
    file, times = (
        bare_agency(program, f"{folder}/{name}.db", {"opens": 480, "closes": 490, **van}),
        f"{folder}/example.csv",
    )
    Path(times).write_text(EXAMPLE_TIMES, "utf-8")
    given = ran(program, "travel", file, ZONE, "radio", 2, TODAY, times)
    if given.stdout != b"done\n":
        raise Refused(f"travel: {given}")
    return file


def faults_of_copies(program: str, file: str, folder: str) -> Iterator[str | None]:
    """Whoever has a copy of the database gives a dispatcher in it a key, as the page says, and the file itself knows nothing of it."""
    found = re.search(r'"(UPDATE callers [^"]*)"', Path(PAGE).read_text("utf-8"))
    assert found
    statement = found[1].replace("$digest", hashlib.sha256(b"pencil").hexdigest())
    copy, words = copied(file, f"{folder}/copy.db"), asked(key="pencil")
    with_database(copy, lambda it: it.execute(statement))
    run = explained(program, copy, words)
    yield difference("explain by a key of a copy", (DONE, b""), (run.returncode, run.stderr))
    yield difference(
        "audit by a key of a copy",
        wanted_end("yes"),
        audited(program, copy, folder, words, run.stdout),
    )
    for path, key in ((copy, "radio"), (file, "pencil")):
        yield ends(
            f"{os.path.basename(path)} by {key}",
            (DENIED, b"desk.key\n", b""),
            explained(program, path, asked(key=key)),
        )


def faults_of_tour(program: str, file: str, folder: str) -> Iterator[str | None]:
    """The van of the example, which may be out for a minute less than the tour takes: its start rises by a minute in each of four rounds."""
    run, words = explained(program, file, asked(**EXAMPLE)), asked(**EXAMPLE)
    yield difference(
        "explain of a tour that is too long",
        (DONE, b"", True),
        (run.returncode, run.stderr, run.stdout.count(b"\nT 0 ") >= 4),
    )
    for old, new, answer in [
        (b"", b"", "yes"),
        (b"T 0 481", b"T 0 482", "no"),
        (b"T 0 483", b"T 0 482", "no"),
        (b"T 0 481", b"T 0 481\nT 0 0", "yes"),
    ]:
        yield difference(
            f"{new!r} in place of {old!r} in a tour",
            wanted_end(answer),
            audited(program, file, folder, words, run.stdout.replace(old, new, 1)),
        )


def faults_of_page(program: str, folder: str) -> Iterator[str | None]:
    """The page's example is what `explain` writes, and what the page says of others holds."""
    file, full = example(program, folder, "example"), example(
        program, folder, "one-seat", capacity=1
    )
    blocks = blocks_of_page()
    yield None if blocks else f"{PAGE} has no log"
    for log in blocks:
        yield ends(
            "the page's example", (DONE, log, b""), explained(program, file, asked(**EXAMPLE))
        )
        yield difference(
            "the page's example, audited",
            wanted_end("yes"),
            audited(program, file, folder, asked(**EXAMPLE), log),
        )
        for old, new, answer in CHANGES:
            changed = log.replace(old, new)
            yield difference(
                f"{new!r} in place of {old!r}",
                wanted_end(answer),
                audited(program, file, folder, asked(**EXAMPLE), changed),
            )
        yield difference(
            "the example without its case",
            wanted_end("no"),
            audited(program, file, folder, asked(**EXAMPLE), NO_CASE),
        )
    yield from faults_of_tour(
        program, example(program, folder, "tour", closes=577, duration=93), folder
    )
    two = asked(**EXAMPLE, companions=1)
    short = b"AUDIT 1\nCASE 1 0 0\nL 1\nDONE\n"
    yield ends("two persons in one seat", (DONE, short, b""), explained(program, full, two))
    yield difference(
        "two persons in one seat, audited",
        wanted_end("yes"),
        audited(program, full, folder, two, short),
    )


# What stays as it was.


def state_of(program: str, file: str) -> tuple[dict[str, Any], list[End]]:
    """The rows of all tables, and what is told of the day."""
    tables = sorted(
        name for name, in rows(file, "SELECT name FROM sqlite_master WHERE type = 'table'")
    )
    content = {it: sorted(rows(file, f"SELECT * FROM {it}")) for it in tables}
    told = [
        end_of(ran(program, "manifest", file, ZONE, "radio", 1, TOMORROW)),
        end_of(ran(program, "trips", file, ZONE, "radio", TOMORROW)),
    ]
    return content, told


def faults_of_state(program: str, file: str, folder: str) -> Iterator[str | None]:
    """Both commands leave the state as it was, and spend no number: neither a trip's nor a caller's."""
    path = copied(file, f"{folder}/kept.db")
    before, last_trip = state_of(program, path), rows(path, "SELECT last_trip FROM desk")[0][0]
    for words in (asked(), asked(wish=600), asked(goal=99), asked(key="nobody")):
        log = explained(program, path, words).stdout
        audited(program, path, folder, words, log if log.startswith(b"AUDIT") else NO_CASE)
        yield difference(
            f"the state after {words} was explained and audited", before, state_of(program, path)
        )
    kept = dict(rows(path, "SELECT caller, number FROM kept"))
    with Desk(program, path) as desk:
        told = desk.post(
            "/trips",
            "radio",
            kept[3] + 1,
            {
                "rider": 9,
                "day": TOMORROW,
                "wish": 600,
                "from": 1,
                "to": 2,
                "attendant": False,
                "companions": 0,
            },
        )
    is_next = told and told.status == 200 and told.body["trip"] == last_trip + 1
    yield None if is_next else f"a booking after that: {told}"


# Standard output that takes nothing.


@contextlib.contextmanager
def closed_pipe() -> Iterator[int]:
    """A pipe that nobody reads."""
    reading, writing = os.pipe()
    os.close(reading)
    try:
        yield writing
    finally:
        os.close(writing)


def faults_of_output(program: str, file: str, folder: str) -> Iterator[str | None]:
    """A log, an answer or a denial that cannot be printed is a fault, and no signal ends the program."""
    log = put_log(folder, "output", NO_CASE)
    for words in (
        ["explain", file, ZONE, *asked()],
        ["explain", file, ZONE, *asked(wish=600)],
        ["explain", file, ZONE, *asked(key="nobody")],
        ["audit", log, file, ZONE, *asked()],
    ):
        with closed_pipe() as pipe:
            run = subprocess.run(
                [program, *words], stdout=pipe, stderr=subprocess.PIPE, timeout=SECONDS
            )
        yield difference(
            f"{words[0]} {words[-9:]} into a closed pipe",
            (OTHER, b"fault 47 row 0\n"),
            (run.returncode, run.stderr),
        )
    if os.path.exists("/dev/full"):
        with open("/dev/full", "wb") as full:
            run = subprocess.run(
                [program, "explain", file, ZONE, *asked()],
                stdout=full,
                stderr=subprocess.PIPE,
                timeout=SECONDS,
            )
        yield difference(
            "explain onto a full disk", (OTHER, b"fault 47 row 0\n"), (run.returncode, run.stderr)
        )


def all_faults(program: str, folder: str) -> Iterator[str | None]:
    file = make_agency(program, folder)
    with Desk(program, file) as desk:
        asked_in_turn(desk, MORE)
    yield from faults_of_words(program, file, folder)
    yield from faults_of_taken_words(program, file)
    yield from faults_of_order(program, file, folder)
    yield from faults_of_denials(program, file, folder)
    yield from faults_of_refusals(program, file, folder)
    yield from faults_of_empty_logs(program, folder)
    yield from faults_of_page(program, folder)
    yield from faults_of_copies(program, file, folder)
    yield from faults_of_state(program, file, folder)
    yield from faults_of_output(program, file, folder)
