"""Plays the days of case files, what waits beside what the desk says: `days_of_cases PROGRAM`.

A desk under a moved clock (faketime) takes applications, an appeal that is heard, one that is not, and a grant in part, all
on one day. On the days after it, up to both sides of each limit, bin/worklist lists what the desk's own standing says. The
last line is 'N passed, M failed', and the exit status 1 where something failed.
"""
import datetime
import re
import shutil
import subprocess
import sys
import tempfile

from desk_tools.tree import TOP
import journal_walk
import serving
from serving import ADMINS_KEY, TODAY, difference, tally, told_program

BEGIN = TODAY - datetime.timedelta(days=60)
DAYS = (0, 1, 14, 15, 20, 21, 22, 29, 30, 31)
WAITS, HEARD, UNHEARD, IN_PART = 11, 12, 13, 14
# A rider who was heard, and has applied again: the desk tells the presumption first.
AGAIN = 15
REASONS = f"Granted in part through {BEGIN + datetime.timedelta(days=300)} for farther:2640. Not granted: you told us that you ride Line 1 each day."
REFUSAL = "You told us that you ride Line 1 each day and need no help."


def day(offset):
    return BEGIN + datetime.timedelta(days=offset)


def clock_of(offset):
    """The environment of a desk for which it is midday of that day by serving.ZONE."""
    moment = datetime.datetime.combine(day(offset), datetime.time(12)) - datetime.timedelta(
        hours=serving.HOURS_EAST
    )
    return {
        "LD_PRELOAD": journal_walk.library(),
        "FAKETIME": f"@{moment:%Y-%m-%d %H:%M:%S}",
        "FAKETIME_DONT_FAKE_MONOTONIC": "1",
        "TZ": "UTC",
    }


def made(program, file):
    """The desk's file at the end of the first day: all that waits was entered on it."""
    assert serving.ran(program, "init", file, ADMINS_KEY).returncode == 0
    staff = [(2, "clerk", "hello"), (4, "examiner", "panel"), (5, "officer", "bench")]
    requests = [
        ("/callers", ADMINS_KEY, at, {"id": number, "role": role, "subject": 0, "key": key})
        for at, (number, role, key) in enumerate(staff, 1)
    ]
    requests += [
        ("/riders", "hello", rider, {"id": rider, "kind": "resident", "attendant": False})
        for rider in (WAITS, HEARD, UNHEARD, IN_PART, AGAIN)
    ]
    entries = [
        *(
            (rider, "hello", {"entry": "complete"})
            for rider in (WAITS, HEARD, UNHEARD, IN_PART, AGAIN)
        ),
        *(
            (rider, "panel", {"entry": "refuse", "reasons": REFUSAL})
            for rider in (HEARD, UNHEARD, AGAIN)
        ),
        (IN_PART, "panel", {"entry": "refuse", "reasons": REASONS}),
        *((rider, "hello", {"entry": "appeal", "against": 1}) for rider in (HEARD, UNHEARD, AGAIN)),
        *((rider, "bench", {"entry": "heard"}) for rider in (HEARD, AGAIN)),
        (AGAIN, "hello", {"entry": "complete"}),
    ]
    requests += [
        (f"/riders/{rider}/entries", key, 100 + at, body)
        for at, (rider, key, body) in enumerate(entries)
    ]
    with serving.variables(**clock_of(0)), serving.Desk(program, file) as desk:
        serving.asked_in_turn(desk, requests)


def lists_of(program, copy, offset):
    """What waits on a day as text, by the headings of its lists."""
    words = [f"{TOP}/bin/worklist", copy, "--today", str(day(offset)), "--program", program]
    told = subprocess.run(words, capture_output=True, text=True, timeout=60, check=True).stdout
    found, name = {}, ""
    for line in told.split("\n"):
        heading = re.fullmatch(r"([A-Z][A-Z ]+): \d+", line)
        name = heading[1].capitalize() if heading else name
        found.setdefault(name, []).append(line)
    return {it: "\n".join(lines) for it, lines in found.items()}


def faults_of_day(program, copy, folder, offset):
    """A day's lists beside the desk's standings."""
    shutil.copy(copy, f"{folder}/served.db")
    with serving.variables(**clock_of(offset)), serving.Desk(
        program, f"{folder}/served.db"
    ) as desk:
        standing = {
            rider: desk.get(f"/riders/{rider}/standing/{day(offset)}", "panel").body["standing"]
            for rider in (WAITS, HEARD, UNHEARD, IN_PART, AGAIN)
        }
        wanted = {
            WAITS: "presumed" if offset >= 21 else "none",
            HEARD: "appeal-overdue" if offset >= 30 else "none",
            UNHEARD: "none",
            IN_PART: "none",
            AGAIN: "presumed" if offset >= 21 else "none",
        }
        yield difference(f"standings on day {offset}", wanted, standing)
    told = lists_of(program, copy, offset)
    first = told.get("What comes first", "")
    for rider, words in (WAITS, "application; presumed eligible since"), (
        HEARD,
        "appeal, heard and not decided",
    ):
        is_told = any(
            line.split()[:1] == [str(rider)] and words in line for line in first.split("\n")
        )
        yield difference(
            f"on day {offset} what comes first says {words!r}", standing[rider] != "none", is_told
        )
    behind = [
        line
        for line in first.split("\n")
        if line.split()[:1] == [str(AGAIN)] and "appeal, heard and not decided" in line
    ]
    yield difference(
        f"on day {offset} the overdue appeal stands beside the presumption",
        offset >= 30,
        bool(behind),
    )
    soon = f"presumed eligible from {day(21)}"
    yield difference(
        f"on day {offset} the application stands first before its day",
        15 <= offset < 21,
        soon in first,
    )
    yield difference(
        f"on day {offset} the appeal that nobody heard stands first",
        offset >= 30,
        "appeal, not heard" in first,
    )
    yield difference(
        f"on day {offset} the grant in part waits",
        True,
        any(
            line.split()[:1] == [str(IN_PART)]
            for line in told.get("Grants in part to finish", "").split("\n")
        ),
    )


def all_faults(program):
    with tempfile.TemporaryDirectory(prefix="desk-days-") as folder:
        file, copy = f"{folder}/desk.db", f"{folder}/copy.db"
        made(program, file)
        serving.copy_database(file, copy)
        for offset in DAYS:
            yield from faults_of_day(program, copy, folder, offset)


def main():
    program, _ = told_program(sys.argv[1:], __doc__)
    if not shutil.which("faketime"):
        print("tests/days_of_cases: skipped, since `faketime` is not installed")
        return 0
    return tally("tests/days_of_cases", all_faults(program))


if __name__ == "__main__":
    sys.exit(main())
