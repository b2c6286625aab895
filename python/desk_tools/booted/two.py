"""Two machines with a line between them, and a third in the place of a lost one: all by the documents' own commands."""

from __future__ import annotations

import shutil
from pathlib import Path

from desk_tools.booted import lost, office, roots, second, stolen
from desk_tools.booted.checks import Checks
from desk_tools.booted.machines import Machine, link
from desk_tools.booted.town import Town

PLACES = "srv/desk-copies/lake"


def check(folder: Path, package: Path, checks: Checks) -> None:
    """All of this part, from roots to the machine that comes back."""
    checks.step("two machines")
    with (
        Machine(roots.unpacked(folder / "second"), "second") as other,
        Machine(roots.unpacked(folder / "first"), "first") as first,
    ):
        link(first, other, "backup.example.org")
        town = Town(first, package, checks, is_whole=True)
        office.install(first, office.bring(first, package))
        town.admin = office.key_in(office.set_up(first).output)
        checks.step("a town with trips, and the night's backup")
        stolen.make_town(town)
        office.make_backup(first)
        checks.step("a stolen key")
        stolen.check(town)
        checks.step("a second machine, a change-over and back")
        second.check(town, first, other)
        checks.step("copies elsewhere")
        second.check_copies(town, first, other)
        checks.step("a lost disk")
        shutil.copytree(other.root / PLACES, folder / "elsewhere")
        first.kill()
        with Machine(roots.unpacked(folder / "new"), "first") as new:
            lost.check(town, new, folder / "elsewhere", package)
