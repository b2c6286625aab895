"""Tries `desk explain` and `desk audit`: `run [--days N] [--seed N] [-v] PROGRAM`.

The cases of the folder cases, each at its moment, which `faketime` shows: where it is not installed, or the program does not run under it,
a line says so, and the cases go as far as they go without a clock. A plain second desk, and a plain reading of logs, answer each text too.
Words, faults, denials, states and the example of docs/AUDIT.md have rows of their own. On random days, N of them (40) from a seed, trips are
booked until no vehicle takes one: each refusal has a log, which is followed by docs/AUDIT.md alone, as it is and with lines changed.
--seed N begins with another seed; then, and with other numbers of days, what came how often is told and not asked for. -v prints it. The
last line is 'N passed, M failed', and the exit status 1 where something failed.
"""
import argparse
import collections
import concurrent.futures
import sqlite3
import subprocess
import sys
import tempfile

from audits import commands, days, over_cases
from suites.second_desk import is_clock_shown
from serving import ADMINS_KEY, Refused, ran, tally, told_program

SEED, DAYS, AT_ONCE = 37_131, 40, 2
# How often each came at least: refusals, lines of their logs, and the answers to logs that were changed.
LEAST = {
    "refusals": 100,
    "foretold": 100,
    "NODIRECT": 5,
    "CASE": 3000,
    "F": 3000,
    "A": 5000,
    "P": 300,
    "T": 40,
    "W": 1000,
    "L": 2000,
    "M": 30,
    "yes": 90,
    "no": 300,
    "fault 50": 60,
}


def faults_of_cases(program):
    for case in over_cases.cases():
        yield from over_cases.faults_of_second_desk(case)
    if is_clock_shown(program):
        for case in over_cases.cases():
            with tempfile.TemporaryDirectory() as folder:
                yield from over_cases.faults_with_clock(program, folder, case)
        return
    print(
        "tests/audits/run: skipped: the cases at their moments, since `faketime` is not installed or the program does not run under it"
    )
    with tempfile.TemporaryDirectory() as folder:
        file = f"{folder}/desk.db"
        made = ran(program, "init", file, ADMINS_KEY)
        yield f"init: {made}" if made.returncode else None
        for case in over_cases.cases():
            yield from over_cases.faults_without_clock(program, file, folder, case)


def faults_of_commands(program):
    with tempfile.TemporaryDirectory() as folder:
        yield from commands.all_faults(program, folder)


def faults_of_days(program, asked):
    """Those of random days, so many at once."""
    seen = collections.Counter()
    with concurrent.futures.ProcessPoolExecutor(AT_ONCE) as pool:
        running = [pool.submit(days.found_on, program, asked.seed + at) for at in range(asked.days)]
        for it in concurrent.futures.as_completed(running):
            found = it.result()
            seen += found.seen
            yield from found.faults
    if asked.verbose:
        print("".join(f"{count:7} {name}\n" for name, count in sorted(seen.items())), end="")
    if (asked.seed, asked.days) == (SEED, DAYS):
        for name, least in LEAST.items():
            yield None if seen[
                name
            ] >= least else f"{name} came {seen[name]} times on the random days, and {least} are wanted"


def all_faults(program, asked):
    """Those of each part; a part that cannot go on is one more."""
    for part in (
        faults_of_cases(program),
        faults_of_commands(program),
        faults_of_days(program, asked),
    ):
        try:
            yield from part
        except (Refused, OSError, sqlite3.Error, subprocess.TimeoutExpired) as error:
            yield f"{type(error).__name__}: {error}"


def main(words):
    reader = argparse.ArgumentParser(prog="tests/audits/run", usage=__doc__, add_help=False)
    reader.add_argument("--seed", type=int, default=SEED)
    reader.add_argument("--days", type=int, default=DAYS)
    reader.add_argument("-v", "--verbose", action="store_true")
    program, flags = told_program(words, __doc__)
    return tally("tests/audits/run", all_faults(program, reader.parse_args(flags)))


if __name__ == "__main__":
    sys.exit(main(sys.argv[1:]))
