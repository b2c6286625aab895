"""Walks through the pages at random and holds each screen against the desk.

`walk PROGRAM` is what the gate calls: 300 steps of fixed seeds, three walks side by side, each with a town, a site and a
browser of its own. `walk --seed N --steps M --role R PROGRAM` is one walk: the same seed has the same town and the same
choices. R is clerk, rider, dispatcher, driver, examiner, officer, admin, or some of them by commas: further windows are
theirs. --seconds ends a walk early, --first at its first breach, --towns keeps the databases that towns begin with, and --actions prints each step.
--does TASK has everybody do mostly one thing, by the name of its function in walk_parts/acts.py or case_acts.py.
`walk --planted [NAME] PROGRAM` puts known faults back into a copy of the pages, one at a time, and says whether the walk
finds each by its own rule; --beside N runs N of these walks at a time. The environment may name other pages as PAGES_FOLDER. A breach is printed with its seed, its step and the ten actions
before it. The last line is 'N passed, M failed', and the exit status 1 where something failed.
"""
import argparse
import concurrent.futures
import datetime
import os
import re
import subprocess
import sys
import tempfile
import time

from desk_tools.arguments import usage_of
from desk_tools.tree import TOP

os.environ["PATH"] = f"{os.environ.get('PATH', '/usr/bin:/bin')}:/usr/sbin"
# The seed, the roles and the steps of each walk of the gate; and how long one may take, whatever the machine does.
GATE = [
    (11, "clerk,rider", 120),
    (12, "dispatcher,clerk,driver", 100),
    (13, "rider,examiner,officer", 80),
]
LONGEST = 140
# A walk of the gate that takes less than this part of its steps has failed, whatever the machine does.
FEW = 3
# Seconds without an answer after which a browser has hung.
SILENT = 45
# So many walks over planted faults side by side.
BESIDE = 4


def one_walk(words: argparse.Namespace) -> int:
    """One walk in this process."""
    import browser as tried
    import people
    from town import PAGES
    from urllib3.exceptions import HTTPError
    from walk_parts.report import Report
    from walk_parts.towns import WalkTown
    from walk_parts.walker import Walker
    from walk_parts.words import read_words

    report, began = Report(words.seed, loud=words.actions), time.monotonic()
    with tempfile.TemporaryDirectory(prefix="desk-walk-") as folder, WalkTown(
        os.path.abspath(words.program), folder, words.towns or folder, words.seed
    ) as town:
        town.make()
        town.write_files()
        town.goes_to(
            datetime.datetime.fromisoformat(f"{town.today} 12:00").replace(tzinfo=people.ZONE)
        )
        tried.LONGEST = SILENT
        with tried.Browser(town.origin, folder, logs=("browser",)) as browser:
            try:
                Walker(
                    town, browser, read_words(PAGES), report, words.role.split(","), words.does
                ).walk(words.steps, time.monotonic() + words.seconds, words.first)
            except (HTTPError, OSError) as error:
                report.breaks("the browser answers", str(error)[:200], words.role)
    for line in report.summary():
        print(line)
    print(
        f"walk: seed {words.seed}, {words.role}: {report.steps} steps in {time.monotonic() - began:.0f} s"
    )
    print(f"{report.held} passed, {len(report.breaches)} failed")
    return 1 if report.breaches else 0


def steps_of(lines: list[str]) -> int:
    """How many steps a walk took, by what it printed; none where it ended before it said so."""
    return next(
        (int(found[1]) for line in lines if (found := re.search(r": (\d+) steps in \d+ s$", line))),
        0,
    )


def of_the_gate(program: str) -> int:
    """The walks of fixed seeds, side by side; what failed is said by each."""
    walks = []
    with tempfile.TemporaryDirectory(prefix="desk-walk-") as towns:
        for seed, role, steps in GATE:
            walks.append(
                subprocess.Popen(
                    [
                        f"{TOP}/tests/walk",
                        "--seed",
                        str(seed),
                        "--role",
                        role,
                        "--steps",
                        str(steps),
                        "--seconds",
                        str(LONGEST),
                        "--towns",
                        towns,
                        program,
                    ],
                    stdout=subprocess.PIPE,
                    stderr=subprocess.STDOUT,
                    text=True,
                )
            )
        outputs = [it.communicate()[0].splitlines() for it in walks]
    passed = failed = 0
    for (seed, _, steps), lines in zip(GATE, outputs):
        print("\n".join(lines[:-1]))
        taken = steps_of(lines)
        if taken < steps // FEW:
            failed += 1
            print(f"walk: FAILED: seed {seed} took {taken} of {steps} steps, which tries nothing")
        tally = lines[-1].split(" ") if lines and lines[-1].endswith(" failed") else ["0", "", "1"]
        passed, failed = passed + int(tally[0]), failed + int(tally[2])
        if len(tally) < 4:
            print("\n".join(lines[-1:]))
    print(f"{passed} passed, {failed} failed")
    return 1 if failed else 0


def with_faults(words: argparse.Namespace) -> int:
    """Puts faults back into a copy of the pages, one at a time, and says what the walk finds of each."""
    from town import PAGES
    from walk_parts.planted import FAULTS, found, is_its_own

    missed = 0
    wanted = [it for it in FAULTS if words.planted in it.name]
    with tempfile.TemporaryDirectory(prefix="desk-walk-") as towns:
        pool = concurrent.futures.ThreadPoolExecutor(words.beside)
        trials = {
            pool.submit(found, PAGES, os.path.abspath(words.program), words.towns or towns, it): it
            for it in wanted
        }
        for trial in concurrent.futures.as_completed(trials):
            fault = trials[trial]
            try:
                breaches = trial.result()
            except ValueError as error:
                breaches = []
                print(f"walk: {error}")
            own = [it for it in breaches[:1] if is_its_own(fault, it)]
            missed += not own
            print(
                f"walk: {'found' if own else 'FAILED: another rule is met first' if breaches else 'FAILED: not found'}: {fault.name}: {breaches[0] if breaches else ''}",
                flush=True,
            )
    print(f"{len(wanted) - missed} passed, {missed} failed")
    return 1 if missed else 0


def main() -> int:
    """Reads the words of the command."""
    parser = usage_of("tests/walk", __doc__)
    parser.takes("--seed", type=int, default=None)
    parser.takes("--steps", type=int, default=100)
    parser.takes("--role", default="clerk,rider,dispatcher,driver,examiner,officer,admin")
    parser.takes("--seconds", type=float, default=86_400)
    parser.takes("--towns", default="")
    parser.flag("--actions")
    parser.flag("--first")
    parser.takes("--planted NAME", default=None, const="", nargs="?")
    parser.takes("--does TASK", default="")
    parser.takes("--beside", type=int, default=BESIDE)
    parser.takes("program PROGRAM")
    words = parser.parse_args()
    if not os.path.isfile(words.program):
        parser.error(f"{words.program} is no file")
    if words.planted is not None:
        return with_faults(words)
    return one_walk(words) if words.seed is not None else of_the_gate(words.program)


if __name__ == "__main__":
    sys.exit(main())
