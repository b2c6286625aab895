"""The disk is lost: a new machine from the copies of the other place, by the document alone."""

from __future__ import annotations

import re
from pathlib import Path

from desk_tools import agencies
from desk_tools.booted import documents, office, second
from desk_tools.booted.machines import Machine, NoBoot
from desk_tools.booted.town import Town

MAIN = agencies.Agency()
PACKAGE, HEADING = "PACKAGE.md", "When the machine is lost"


def check(town: Town, machine: Machine, place: Path, package: Path) -> None:
    """All of it on a bare machine. `place` is the folder of the copies."""
    checks = town.checks
    files = [max(place.glob(it)) for it in ("desk-*.db", "machine-*.tar.gz")]
    names = second.carry(files, machine)
    office.bring(machine, package)
    # (the document is in the package; a person has it on paper)
    text = documents.block(town.machine, PACKAGE, HEADING, "apt install")
    names.update({it: "./desk.deb" for it in re.findall(r"\./desk_[\w.]+\.deb", text)})
    told = documents.play(machine, documents.filled(text, names), "/root", check=False)
    checks.has("one command sets it up", f"{office.AGENCY} is set up", told.output)
    come_back(town, machine, "a new machine")
    machine.halt()
    try:
        machine.boot()
    except NoBoot as reason:
        checks.holds("it boots again", False, reason)
        return
    checks.holds("after a reboot the desk answers", office.answers(machine, 60))
    come_back(town, machine, "after a reboot")


def come_back(town: Town, machine: Machine, label: str) -> None:
    """The zone, the keys, the site and all that runs are those of before."""
    checks = town.checks
    zone = machine.run(f"cat {MAIN.conf}").output
    checks.has(f"{label}: the zone", "ZONE=CST6CDT,M3.2.0,M11.1.0", zone)
    reply = office.ask(machine, "/days/2026-01-01/sheet", key=town.admin)
    checks.equal(f"{label}: the admin's key", 403, reply.status)
    reply = office.ask(machine, "/agency.json")
    checks.has(f"{label}: the site", office.AGENCY, reply.body)
    second.has_all(town, machine, label)
    hour = f"systemctl show -P NextElapseUSecRealtime {MAIN.unit_of('backup.timer')}"
    told = machine.run(f'TZ={office.ZONE} date -d "$({hour})" +%H:%M').output.strip()
    checks.equal(f"{label}: the hour of the backup", "03:05", told)
