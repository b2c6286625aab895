"""tests/booted: tries what is installed on Debian machines that are booted under their own systemd.

    tests/booted [--all] [--only PART] [--package FILE.deb] PROGRAM

Without --all one machine is set up, sees a night and is upgraded. With it the rest of that machine is tried too, up to
its removal and purge; two machines with a line between them change over and back while clients write, a third comes
back from the copies of a lost disk, and keys are stolen, all by the commands of the installed documents. With --earlier
also a machine that an earlier package set up is upgraded, and goes back.

Each machine is a root of Debian 12, run by systemd-nspawn with a network of its own. mmdebstrap makes the root, which is
kept in ~/.cache/desk-booted for a day; DESK_BOOTED names another folder. Where none can be made, an older one counts. Where this machine cannot boot one, that is said and nothing is counted. Whatever happens, the
machines end, after some minutes at the latest. The last line is 'N passed, M failed', and the exit status 1 where
something failed.
"""

from __future__ import annotations

import argparse
import contextlib
import os
import re
import shutil
import signal
import subprocess
import sys
import tempfile
from collections.abc import Callable, Iterator
from concurrent.futures import ThreadPoolExecutor
from pathlib import Path
from types import FrameType

from desk_tools import ending
from desk_tools.arguments import usage_of
from desk_tools.booted import (
    acme,
    earlier,
    follow_ups,
    machines,
    moving_in,
    nights,
    office,
    packages,
    removing,
    repository,
    restoring,
    roots,
    setting_up,
    setups,
    two,
    upgrading,
)
from desk_tools.booted.checks import Checks
from desk_tools.booted.machines import Machine, NoBoot
from desk_tools.booted.town import Town

# Each in this order over one machine, which the first sets up.
PARTS: dict[str, Callable[[Town], None]] = {
    "setting_up": setting_up.check,
    "nights": nights.check,
    "upgrading": upgrading.check,
}
# These besides, by --all: before the machine is upgraded.
SLOW: dict[str, Callable[[Town], None]] = {
    "full_disk": nights.check_full_disk,
    "acme": acme.check,
    "repository": repository.check,
    "follow_ups": follow_ups.check,
    "restoring": restoring.check,
}
# And these by --all once all else was tried: the desk is gone then.
LAST: dict[str, Callable[[Town], None]] = {"removing": removing.check}
# On a machine of its own, by --all.
SETUPS, TWO, MOVING_IN, EARLIER = "setups", "two", "moving_in", "earlier"
# After so many seconds all is ended and counts as failed. The package and the root are made before that time begins.
MOST, MOST_OF_ALL, MOST_TO_MAKE = 600, 3_600, 600
PREFIX = "desk-booted-"


class TooLong(RuntimeError):
    """The trials took longer than they may."""


def words_of(arguments: list[str]) -> argparse.Namespace:
    """The command's words."""
    words = usage_of("tests/booted", __doc__)
    words.flag("--all", "the slow parts too, and two machines")
    words.takes(
        "--only",
        "this part alone, and the setup",
        choices=[*PARTS, *SLOW, *LAST, SETUPS, TWO, MOVING_IN, EARLIER],
    )
    words.takes("--keep", "a folder in which the machines stay, to look at", type=Path)
    words.takes("--package", "a package that is tried in place of this tree's", type=Path)
    words.takes(
        "--earlier FILE",
        "a package of an earlier version: a machine that it set up is upgraded",
        type=Path,
    )
    words.takes("program PROGRAM", type=Path)
    return words.parse_args(arguments)


def end_in_time(seconds: int) -> None:
    """Whoever ends the trial ends its machines too, and so does its time."""

    def late(_number: int, _frame: FrameType | None) -> None:
        raise TooLong(f"the trials took longer than {seconds} seconds")

    signal.signal(signal.SIGTERM, lambda *_: sys.exit(143))
    signal.signal(signal.SIGALRM, late)
    signal.alarm(seconds)


@contextlib.contextmanager
def place_for(kept: Path | None) -> Iterator[Path]:
    """The folder of the machines. What a trial left that was killed is removed first."""
    for path in Path(tempfile.gettempdir()).glob(f"{PREFIX}*"):
        found = re.fullmatch(rf"{PREFIX}(\d+)-.*", path.name)
        if found and not Path(f"/proc/{found[1]}").exists():
            shutil.rmtree(path, ignore_errors=True)
    machines.forget_groups()
    if kept:
        kept.mkdir(parents=True)
        yield kept
        return
    with tempfile.TemporaryDirectory(prefix=f"{PREFIX}{os.getpid()}-") as room:
        yield Path(room)


def parts_of(told: argparse.Namespace) -> dict[str, Callable[[Town], None]]:
    """What is tried on the one machine."""
    first = {"setting_up": setting_up.check}
    if told.only:
        return (
            {}
            if told.only in (SETUPS, TWO, MOVING_IN, EARLIER)
            else {**first, told.only: {**PARTS, **SLOW, **LAST}[told.only]}
        )
    return {**first, **SLOW, **PARTS, **LAST} if told.all else PARTS


def package_for(told: argparse.Namespace, folder: Path) -> Path:
    """The package that is tried, in a folder of its own."""
    if told.package:
        return Path(shutil.copy(told.package, folder))
    return packages.made(told.program.resolve(), folder)


def try_all(told: argparse.Namespace, folder: Path, checks: Checks) -> None:
    """Each part that is asked for."""
    checks.step("a package, and what roots are made of")
    end_in_time(roots.SECONDS_TO_MAKE + MOST_TO_MAKE)
    (folder / "packages").mkdir()
    with ThreadPoolExecutor(1) as beside:
        made = beside.submit(package_for, told, folder / "packages")
        roots.archive()
        package = made.result()
    end_in_time(MOST_OF_ALL if told.all or told.only else MOST)
    parts = parts_of(told)
    if parts:
        checks.step("a root of Debian")
        root = roots.unpacked(folder / "one")
        checks.step("it is booted")
        with Machine(root, "one") as machine:
            town = Town(machine, package, checks, is_whole=told.all)
            for name, check in parts.items():
                checks.step(name)
                check(town)
    if told.all or told.only == SETUPS:
        checks.step("setups")
        with Machine(roots.unpacked(folder / "setups"), "setups") as machine:
            town = Town(machine, package, checks, is_whole=True)
            office.install(machine, office.bring(machine, package))
            setups.check(town)
            setups.check_migration(town)
    if told.all or told.only == MOVING_IN:
        checks.step(MOVING_IN)
        with Machine(roots.unpacked(folder / MOVING_IN), MOVING_IN.replace("_", "-")) as machine:
            town = Town(machine, package, checks, is_whole=True)
            office.install(machine, office.bring(machine, package))
            moving_in.check(town)
    if told.earlier and (told.all or told.only == EARLIER):
        checks.step(EARLIER)
        with Machine(roots.unpacked(folder / EARLIER), EARLIER) as machine:
            town = Town(machine, package, checks, is_whole=True)
            earlier.check(machine, town, told.earlier)
    if told.all or told.only == TWO:
        two.check(folder, package, checks)


def main(arguments: list[str]) -> int:
    """Runs the trials; the exit status."""
    told, checks = words_of(arguments), Checks("tests/booted")
    missing = roots.missing()
    if missing:
        print(f"tests/booted: left out: all of it, for lack of {missing}")
        return checks.end()
    with place_for(told.keep) as folder:
        try:
            try_all(told, folder, checks)
        except (roots.NoRoot, NoBoot) as reason:
            print(f"tests/booted: left out: what was not tried yet: {reason}")
        except (RuntimeError, OSError, subprocess.SubprocessError) as error:
            checks.holds("the trials went on", False, error)
        signal.alarm(0)
    checks.step("the end")
    return checks.end()


if __name__ == "__main__":
    ending.run("tests/booted", main)
