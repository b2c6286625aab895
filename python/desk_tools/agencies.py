"""Where each agency of this machine has what belongs to it: paths, units and user by the agency's short name.

These names stand here once: plain texts, such as units and the package's scripts, are held against them by
tests/unit/test_agencies.py. One agency is the instance `main`, which desk-setup sets up. Of the whole machine, and so no
agency's, are watch.conf, copies.conf, standby.conf, setup.json and the key that signs the records.
"""

from __future__ import annotations

import os
import re
from collections.abc import Iterator
from dataclasses import dataclass
from pathlib import Path

MAIN = "main"
NAME = re.compile(r"[a-z0-9]+(-[a-z0-9]+)*")
SETTINGS, SITES, LOGS = "/etc/desk", "/var/lib/desk-site", "/var/log/desk"
# Files of that folder that are of the machine; and the end of an agency's own that are not AGENCY.conf.
OF_MACHINE, CLOSED_DAYS = ("standby.conf", "watch.conf", "copies.conf"), "closed-days.conf"
RECORD_KEY, RECORD_PUBLIC = Path(f"{SETTINGS}/keys/record"), Path(f"{SETTINGS}/record.pub")
# The port of the agency that desk-setup sets up.
PORT = "8437"
# What runs beside a desk that serves, one unit for each agency; and the units of the whole machine.
BESIDE = tuple(
    """
    today.service record.service journal.timer retention.timer driver-files.timer closed-days.timer
    denials.timer reminders.timer reminders-soon.timer
    """.split()
)
UNITS_OF_MACHINE = "desk-health.service", "desk-watch.timer", "desk-restart.timer"


def settings_folder() -> str:
    """The folder of the settings. The environment may give SETTINGS, which is what trials do."""
    return os.environ.get("SETTINGS") or SETTINGS


@dataclass(frozen=True)
class Agency:
    """An agency by its short name; `settings` is the folder of the settings."""

    name: str = MAIN
    settings: str = SETTINGS

    @property
    def unit(self) -> str:
        """The unit of the desk, without its ending."""
        return f"desk@{self.name}"

    def unit_of(self, work: str) -> str:
        """The unit of another work, such as `backup.timer`, or `backup` without its ending."""
        name, dot, kind = work.partition(".")
        return f"desk-{name}@{self.name}{dot}{kind}"

    @property
    def beside(self) -> list[str]:
        """The units that run beside this agency's desk."""
        return [self.unit_of(it) for it in BESIDE]

    @property
    def user(self) -> str:
        """The user and the group of the desk."""
        return f"desk-{self.name}"

    @property
    def folder(self) -> str:
        """The folder of the desk's file."""
        return f"/var/lib/desk-{self.name}"

    @property
    def file(self) -> str:
        """The desk's file."""
        return f"{self.folder}/desk.db"

    def data(self, work: str) -> str:
        """The folder of what another work keeps, such as that of `closed-days`."""
        return f"/var/lib/desk-{work}-{self.name}"

    def running(self, work: str) -> str:
        """The folder of what another work has while it runs, such as the socket of `journal`."""
        return f"/run/desk-{work}-{self.name}"

    @property
    def backups(self) -> str:
        """The folder of the backups."""
        return f"/var/backups/desk-{self.name}"

    @property
    def exports(self) -> str:
        """The folder of sheets, reports and answers that somebody made."""
        return self.data("exports")

    @property
    def tls(self) -> str:
        """The folder of the site's certificate."""
        return f"/etc/ssl/desk-{self.name}"

    @property
    def site(self) -> str:
        """The folder of what the site serves of the agency's files."""
        return f"{SITES}/{self.name}"

    @property
    def corrections(self) -> str:
        """The corrected outcomes."""
        return f"{self.site}/staff/corrections.csv"

    @property
    def tally(self) -> str:
        """The log of what is told to the site."""
        return f"{LOGS}/tally-{self.name}.log"

    @property
    def record(self) -> str:
        """The folder of the record of who did what."""
        return f"{LOGS}/journal-{self.name}"

    @property
    def conf(self) -> str:
        """NAME, PORT and ZONE of the agency's desk."""
        return f"{self.settings}/{self.name}.conf"

    @property
    def offsite(self) -> str:
        """Where a copy of the record goes."""
        return f"{self.settings}/{self.name}.offsite"

    @property
    def fence(self) -> str:
        """The file that keeps this machine from serving, because another one serves."""
        return f"{self.settings}/{self.name}.fenced"

    @property
    def names(self) -> str:
        """The agency's own file of names and lists."""
        return f"{self.settings}/{self.name}.json"

    def own(self, name: str) -> str:
        """Another file of the agency's settings, such as `roster.csv`."""
        return f"{self.settings}/{self.name}-{name}"

    def key(self, name: str) -> str:
        """A key file of the night's work."""
        return f"{self.settings}/keys/{self.name}-{name}"

    @property
    def folder_there(self) -> str:
        """The folder of its copies in a place on another machine: the place itself for the main one, else its name."""
        return "" if self.name == MAIN else f"/{self.name}"

    @property
    def words(self) -> list[str]:
        """How a command on another machine is given the agency: the main one is the one that nobody names."""
        return [] if self.name == MAIN else [self.name]


def main() -> Agency:
    """The agency that desk-setup sets up."""
    return Agency(MAIN, settings_folder())


def confs_in(folder: str) -> Iterator[str]:
    """The names of the agencies that have an AGENCY.conf in a folder of settings, in order."""
    for it in sorted(os.listdir(folder)):
        name = it.removesuffix(".conf")
        is_other = it in OF_MACHINE or it.endswith(CLOSED_DAYS)
        if it.endswith(".conf") and not is_other and NAME.fullmatch(name):
            yield name


def of_machine(settings: str) -> list[Agency]:
    """The agencies of this machine: each that has an AGENCY.conf, or the main one where none has."""
    names = list(confs_in(settings)) if os.path.isdir(settings) else []
    return [Agency(it, settings) for it in names or [MAIN]]
