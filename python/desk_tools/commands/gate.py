#!/usr/bin/env python3
"""The merge gate: `bin/gate [--install] [--all]`, from any folder, with the Rattle kit's `rt` and Python 3.

`rt ci` proves each crate and its tests, tries the mutants, and runs the tests and the program, in a copy of crates/. A
mutant that tests/mutants-refused has with its present text is not tried again; --all tries each. A mutant that says
nothing, since its text cannot be applied or compiled, is a failure. Scripts that need no program run beside the proofs.
As soon as the program is linked, the others run over it beside the mutants, in lanes: those in a browser, those that
mostly work, and the rest; each lane runs one at a time. Each script must end with 'N passed, M failed'; anything else
counts as a failure. A script that failed beside others runs once more by itself at the end, and that run counts; both
are shown. Before the last line stands what each crate cost (bin/meter), the end of what each failure said, and what
each script took. The last line is 'N passed, M failed' of everything together, and the exit status is 1 where something
failed.

--install first installs the Debian packages that the scripts use; a script without its packages says what it left out.
"""

from __future__ import annotations

import contextlib
import os
import re
import resource
import shutil
import signal
import subprocess
import sys
import tempfile
import threading
import time
from typing import Any

from desk_tools.arguments import Usage
from desk_tools.build import built, mutants
from desk_tools.tree import TOP

# What needs no program, in this order; then what runs over the program.
ALONE = [
    "tests/gate_test",
    "tests/python_static",
    "tests/unit/run",
    "tests/pure/run",
    "tests/docs_test",
    "tests/pages_static",
    "tests/commands",
    "tests/site_files",
    "tests/roster",
    "tests/tally",
    "tests/flex_feed",
    "tests/large_town",
    "deploy/try-watch",
]
OVER_PROGRAM = [
    "tests/rehearsals/run",
    "tests/rehearsal_test",
    "tests/api_test",
    "tests/messages",
    "tests/agency",
    "tests/stops",
    "tests/migrate",
    "tests/second_desk",
    "tests/full_size",
    "tests/move_in",
    "tests/standing_orders",
    "tests/closed_days",
    "tests/days_of_cases",
    "tests/worklist",
    "tests/reports",
    "tests/gather",
    "tests/reminders",
    "tests/month_end",
    "tests/openapi",
    "tests/warehouse",
    "tests/trip_exchange",
    "tests/journal",
    "tests/office",
    "deploy/try-agencies",
    "deploy/try-site",
    "deploy/try-keys",
    "deploy/try-backups 2",
    "deploy/try-restore",
    "deploy/try-archive",
    "deploy/try-starts",
    "deploy/try",
]
# What has a browser waits more than it works, and runs beside the others. What makes machines comes after it, since a
# browser may give up what it loads while the machine's networks change.
IN_BROWSER = [
    "tests/pages",
    "tests/walk",
    "deploy/try-elsewhere",
    "deploy/try-new-machine",
    "deploy/try-standby",
    "tests/booted",
]
# What works most of its time, and waits for nothing that another script has.
AT_WORK = ["tests/audits/run", "tests/cuts"]
# What takes no program, and builds one of its own.
WITH_KIT = ["tests/disk"]
TALLY = re.compile(r"(\d+) passed, (\d+) failed")
REFUSED = re.compile(r"(?:rt: )?must-fail ([\w-]+/[\w.-]+)\.edit: refused, as it must be\b")
# `rt ci` passes over an edit that can't be applied or compiled; here it fails, since nothing is tried by it.
SAYS_NOTHING = re.compile(r"(?:rt: )?must-fail ([\w-]+/[\w.-]+)\.edit: BAD EDIT\b")
LEFT_OF_A_CLOCK = re.compile(r"(?:sem\.)?faketime_(?:shm|sem)_(\d+)")
PROCESSORS = len(os.sched_getaffinity(0))
# No check here takes more than 6 gigabytes. The kit reckons with twice that, and would leave a processor of four idle.
JOBS = min(PROCESSORS, 4)
# Two scripts run side by side, and three where the processors allow it.
FOR_THREE = 4
SECONDS_STILL = 3
# No script takes longer, and one that hangs must not take the gate's time.
LONGEST = 2700
# The lines of a failure that stand once more at the end, where whoever reads the last page alone finds them.
LAST_LINES = 40


class Tally:
    """What passed and failed so far; what a command said is shown whole, and no two are mixed."""

    def __init__(self) -> None:
        self.counts: dict[str, tuple[int, int]] = {}
        self.again: list[str] = []
        self.seconds: dict[str, float] = {}
        self.said: dict[str, list[str]] = {}
        self.lock = threading.Lock()

    def add(
        self, name: str, status: int, said: str, shown: bool = False, seconds: float = 0.0
    ) -> None:
        """Adds the tally of a command that ended; without one, or with a status that it does not explain, a failure.

        A second run of a name counts in place of the first.
        """
        lines = said.rstrip("\n").split("\n")
        found = TALLY.fullmatch(lines[-1])
        with self.lock:
            if not shown:
                print(f"== {name}\n{said}", end="" if said.endswith("\n") else "\n")
            if found and (status == 0 or found[2] != "0"):
                self.counts[name] = int(found[1]), int(found[2])
            else:
                print(f"{name} ended with status {status} and no such tally: it counts as failed")
                self.counts[name] = 0, 1
            self.seconds[name], self.said[name] = seconds, lines
            sys.stdout.flush()

    def failed_names(self) -> list[str]:
        return [name for name, (_, failed) in self.counts.items() if failed]

    def all(self) -> tuple[int, ...]:
        return tuple(sum(counts) for counts in zip(*self.counts.values()))

    def show(self) -> None:
        """The end of what each failure said, then a line a script."""
        for name in self.failed_names():
            print(f"== {name} failed; the end of what it said:")
            print(*self.said[name][-LAST_LINES:], sep="\n")
        print(f"{'script':<40}{'passed':>8}{'failed':>8}{'seconds':>9}")
        for name, (passed, failed) in self.counts.items():
            mark = "  (a second run, by itself; the first failed)" if name in self.again else ""
            print(
                f"{name.split(' /')[0]:<40.40}{passed:>8}{failed:>8}{self.seconds[name]:>9.0f}{mark}"
            )


def forget_clocks() -> None:
    """Removes what libfaketime left in shared memory of processes that were killed. A later process of the same number
    would have the machine's own clock."""
    for name in os.listdir("/dev/shm") if os.path.isdir("/dev/shm") else []:
        found = LEFT_OF_A_CLOCK.fullmatch(name)
        if found and not os.path.exists(f"/proc/{found[1]}"):
            with contextlib.suppress(OSError):
                os.unlink(f"/dev/shm/{name}")


def run(tally: Tally, words: list[str]) -> None:
    """Runs a script in a group of its own and adds its tally; one that hangs is ended, with what it started."""
    forget_clocks()
    began = time.time()
    process = subprocess.Popen(
        words,
        cwd=TOP,
        stdin=subprocess.DEVNULL,
        stdout=subprocess.PIPE,
        stderr=subprocess.STDOUT,
        encoding="utf-8",
        errors="replace",
        start_new_session=True,
    )
    ending = threading.Timer(LONGEST, kill_group, [process.pid])
    ending.start()
    said = process.communicate()[0]
    ending.cancel()
    tally.add(" ".join(words), process.returncode, said, seconds=time.time() - began)


def run_each(tally: Tally, scripts: list[str], program: str) -> None:
    """Runs scripts one after another, each over the program if it takes one."""
    for script in scripts:
        run(tally, [*script.split(), *([] if script in [*ALONE, *WITH_KIT] else [program])])


def lanes() -> list[list[str]]:
    """What runs side by side over the program, each lane one script after another."""
    at_work = [*AT_WORK, *WITH_KIT]
    if PROCESSORS < FOR_THREE:
        return [IN_BROWSER, [*OVER_PROGRAM, *at_work]]
    return [IN_BROWSER, OVER_PROGRAM, at_work]


def run_lanes(tally: Tally, given: list[list[str]], program: str) -> None:
    """Runs lanes side by side and waits for each."""
    running = [threading.Thread(target=run_each, args=(tally, lane, program)) for lane in given]
    for lane in running:
        lane.start()
    for lane in running:
        lane.join()


def kill_group(leader: Any) -> None:
    with contextlib.suppress(OSError):
        os.killpg(leader, signal.SIGKILL)


def copy_of_crates(top: str, known: set[Any], folder: str) -> None:
    """A copy of what `rt ci` reads, without the mutants that are known to be refused."""
    away = {f"{name}.edit" for name in known}

    def left_out(place: Any, names: Any) -> Any:
        crate = (
            os.path.basename(os.path.dirname(place))
            if os.path.basename(place) == "must-fail"
            else None
        )
        return [
            it
            for it in names
            if it == "out"
            and os.path.basename(os.path.dirname(place)) == "crates"
            or crate
            and f"{crate}/{it}" in away
        ]

    os.makedirs(folder)
    if os.path.isdir(f"{top}/crates"):
        shutil.copytree(f"{top}/crates", f"{folder}/crates", ignore=left_out)
    for name in "crates.txt", "HANDLES", ".editorconfig":
        if os.path.exists(f"{top}/{name}"):
            shutil.copy2(f"{top}/{name}", f"{folder}/{name}")


class Proofs:
    """`rt ci` under the meter in a copy of the crates, its lines shown as they come."""

    def __init__(self, tally: Tally, costs: str, tree: str) -> None:
        # Scripts beside the mutants come first, since they wait for a browser or a clock.
        words = ["nice", "-n", "15", f"{TOP}/bin/meter", costs, "rt", "ci"]
        named = {"RT_JOBS": str(JOBS), **os.environ}
        self.program = os.path.join(tree, built.PROGRAM)
        self.began = time.time()
        self.said: list[str] = []
        print(f"== {' '.join(words)}", flush=True)
        self.running = subprocess.Popen(
            words,
            cwd=tree,
            stdin=subprocess.DEVNULL,
            stdout=subprocess.PIPE,
            stderr=subprocess.STDOUT,
            encoding="utf-8",
            errors="replace",
            env=named,
        )
        self.reader = threading.Thread(target=self.read, args=(tally,))
        self.reader.start()

    def read(self, tally: Tally) -> None:
        for line in self.running.stdout or ():
            self.said.append(line)
            with tally.lock:
                print(line, end="", flush=True)

    def has_ended(self) -> bool:
        return self.running.poll() is not None

    def has_linked(self) -> bool:
        """Whether the program was linked in this run and is no longer written to."""
        try:
            changed = os.path.getmtime(self.program)
        except OSError:
            return False
        return self.began <= changed <= time.time() - SECONDS_STILL

    def end(self, tally: Tally) -> set[Any]:
        """Waits for the end; the mutants that were seen refused. Those that say nothing count as failures."""
        status = self.running.wait()
        self.reader.join()
        built.keep_counts(TOP, self.said)
        tally.add(
            "bin/meter rt ci",
            status,
            "".join(self.said),
            shown=True,
            seconds=time.time() - self.began,
        )
        if idle := sorted({found[1] for line in self.said if (found := SAYS_NOTHING.match(line))}):
            named = f"these edits cannot be applied or compiled: {', '.join(idle)}"
            tally.add("mutants that say nothing", 1, f"{named}\n0 passed, {len(idle)} failed")
        return {found[1] for line in self.said if (found := REFUSED.match(line))}


def install() -> None:
    """Installs what the scripts use, where apt can; else says that it did not."""
    wanted = packages_of_scripts()
    if os.geteuid() != 0 or not shutil.which("apt-get"):
        print("bin/gate: packages are installed by root with apt-get: left out")
        return
    named = {**os.environ, "DEBIAN_FRONTEND": "noninteractive"}
    for words in (["update"], ["install", "-y", "--no-install-recommends", *wanted]):
        ran = subprocess.run(
            ["apt-get", "-qq", *words],
            env=named,
            stdin=subprocess.DEVNULL,
            stdout=subprocess.DEVNULL,
        )
        if ran.returncode != 0:
            print(
                f"bin/gate: apt-get {words[0]} ended with status {ran.returncode}; scripts say what they lack"
            )


def packages_of_scripts() -> Any:
    """The packages that tests/packages names, one a line."""
    try:
        with open(os.path.join(TOP, "tests/packages"), encoding="utf-8") as file:
            return [line.split("#")[0].strip() for line in file if line.split("#")[0].strip()]
    except OSError:
        return []


def minutes_spent() -> float:
    """The processor minutes of all that was run, as far as it has ended."""
    spent = resource.getrusage(resource.RUSAGE_CHILDREN)
    return (spent.ru_utime + spent.ru_stime) / 60


def known_mutants(tally: Tally, is_all: bool) -> set[Any]:
    """The mutants that need not be tried. A line of the list without its mutant counts as a failure."""
    if not os.path.isdir(f"{TOP}/crates"):
        return set()
    try:
        lost, known = mutants.without_edit(TOP), mutants.known(TOP, logic())
    except ValueError as error:
        tally.add(mutants.LIST, 1, f"{error}\n0 passed, 1 failed")
        return set()
    if lost:
        tally.add(
            mutants.LIST,
            1,
            f"no mutant has the name of these lines: {', '.join(lost)}\n0 passed, {len(lost)} failed",
        )
    return set() if is_all else known


def logic() -> Any:
    """The kit's logic, or its whole line where it names none."""
    ran = subprocess.run(
        ["rt", "version"], stdin=subprocess.DEVNULL, capture_output=True, text=True, check=False
    )
    return built.logic_in(ran.stdout) or ran.stdout.strip()


def gate(is_all: bool) -> int:
    tally, began = Tally(), time.time()
    with tempfile.TemporaryDirectory(prefix="desk-gate-") as room:
        # Some scripts run the program as another user.
        os.chmod(room, 0o755)
        costs, program = f"{room}/costs", f"{room}/desk"
        known = known_mutants(tally, is_all)
        copy_of_crates(TOP, known, f"{room}/tree")
        proofs = Proofs(tally, costs, f"{room}/tree")
        run_each(tally, ALONE, program)
        while not proofs.has_linked() and not proofs.has_ended():
            time.sleep(1)
        if os.path.exists(proofs.program):
            shutil.copy2(proofs.program, program)
        run_lanes(tally, lanes(), program)
        tried = proofs.end(tally)
        tally.again = [
            name
            for name in tally.failed_names()
            if name.startswith(("tests/", "deploy/")) and name != mutants.LIST
        ]
        for name in tally.again:
            print(f"== {name} failed beside others: it runs once more by itself, and that counts")
            run(tally, name.split(" "))
        with open(costs, encoding="utf-8") as file:
            print(file.read(), end="")
    if tried - known:
        mutants.record(TOP, logic(), [*tried])
    print(
        f"{mutants.LIST}: {len(known)} mutants are known to be refused, {len(tried)} were refused in this run"
    )
    tally.show()
    print(f"{minutes_spent():.1f} processor minutes, {(time.time() - began) / 60:.1f} by the clock")
    passed, failed = tally.all()
    print(f"{passed} passed, {failed} failed")
    return 1 if failed else 0


def main() -> int:
    parser = Usage("bin/gate", description=__doc__.split("\n\n")[0])
    parser.flag("--install", "first install the packages that the scripts use")
    parser.flag("--all", "try each mutant, also those that are known to be refused")
    words = parser.parse_args()
    if not shutil.which("rt"):
        print(
            "bin/gate: there is no rt of the Rattle kit on this machine, and nothing can be proved without it; "
            "bin/test runs the scripts over a program that you have",
            file=sys.stderr,
        )
        return 2
    if words.install:
        install()
    return gate(words.all)


if __name__ == "__main__":
    sys.exit(main())
