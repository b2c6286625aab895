"""Where a desk's files and programs are. The environment may name others, which is what trials do."""

from __future__ import annotations

import json
import os
import re
import subprocess
from pathlib import Path
from typing import Any

from desk_tools import agencies
from . import answering
from .ending import WRONG_WORDS, Failure

PROGRAM = "/usr/bin/desk"


class Desk:
    """One desk of this machine: that of the unit `desk@AGENCY`, by default of `desk@main`."""

    def __init__(self, name: str | None = None) -> None:
        name = agencies.MAIN if name is None else name
        if not agencies.NAME.fullmatch(name):
            raise Failure(
                f"{name!r} is no agency's short name: small letters, digits and dashes",
                WRONG_WORDS,
            )
        self.agency = agencies.Agency(name, agencies.settings_folder())
        self.unit = self.agency.unit
        self.file = os.path.realpath(os.environ.get("FILE") or self.agency.file)
        self.folder = os.path.dirname(self.file)
        # (and no trial's)
        self.is_installed = self.file == os.path.realpath(self.agency.file)
        self.log = f"{self.file}-wal"
        self.fence = os.environ.get("FENCE") or self.agency.fence

    def process(self) -> int:
        """The number of the process that serves, or 0."""
        command = (
            os.environ.get("PROCESS") or f"systemctl show --property=MainPID --value {self.unit}"
        )
        said = answer_of(command).strip()
        if not said.isdigit():
            raise Failure(f"`{command}` printed {said!r}, which is no number of a process")
        return int(said)

    def stop(self) -> None:
        answer_of(os.environ.get("STOP") or f"systemctl stop {self.unit}")

    def start(self) -> None:
        """Starts the desk, also where systemd gave it up after a loop of starts."""
        command = f"systemctl reset-failed {self.unit} 2>/dev/null; systemctl start {self.unit}"
        answer_of(os.environ.get("START") or command)

    def port(self) -> int:
        """The port of this machine on which the desk answers."""
        return int(value_of(self.agency.conf, "PORT", agencies.PORT))

    def start_until_it_serves(self) -> None:
        """Starts the desk, and looks that it serves. Where START is another command, ANSWERS may be one that says so."""
        self.start()
        if os.environ.get("ANSWERS"):
            answered = subprocess.run(
                ["bash", "-c", os.environ["ANSWERS"]],
                capture_output=True,
                stdin=subprocess.DEVNULL,
                check=False,
            )
            if answered.returncode:
                raise answering.NotServing(
                    f"the desk was started and does not answer: journalctl -u {self.unit} says why"
                )
        elif self.is_asked():
            answering.wait_until_it_serves(self.unit, self.port())

    def is_asked(self) -> bool:
        """Whether this machine's desk is asked, once it is started, whether it serves."""
        return bool(os.environ.get("ANSWERS")) or not os.environ.get("START")

    def enable(self) -> None:
        """The desk, and what runs beside it by desk-setup's answers, begin at each start of the machine."""
        is_main = self.agency.name == agencies.MAIN
        nightly = nightly_in(f"{self.agency.settings}/setup.json") if is_main else ["backup"]
        units = [
            *(self.agency.unit_of(f"{it}.timer") for it in nightly),
            *self.agency.beside,
            *agencies.UNITS_OF_MACHINE,
        ]
        # (a unit that is not installed here is none of this machine's)
        command = (
            f"systemctl enable {self.unit} && for it in {' '.join(units)}; do "
            "! systemctl cat $it >/dev/null 2>&1 || systemctl enable --now $it || exit 1; done"
        )
        answer_of(os.environ.get("ENABLE") or command)

    def is_served(self) -> bool:
        """Whether the process of the unit has the file open."""
        process = self.process()
        return bool(process) and has_open(process, self.file)

    def serving(self) -> int:
        """The number of the process that has the file open, or 0; of a process that does not serve it, a failure."""
        process = self.process()
        if process and not has_open(process, self.file):
            raise Failure(
                f"process {process} does not serve {self.file}: FILE or PROCESS is another desk's, "
                "or this takes the rights of root"
            )
        return process


def value_of(path: str, name: str, default: str | None = None) -> Any:
    """The value of NAME=VALUE in a file of settings. One that is there and cannot be read is no empty one."""
    try:
        found = re.findall(rf"(?m)^{name}=(.*)$", Path(path).read_text("utf-8"))
    except FileNotFoundError:
        return default
    return found[-1].strip() if found else default


def nightly_in(path: str) -> list[str]:
    """What desk-setup was told runs each night: the backup, where nobody says."""
    try:
        said = json.loads(Path(path).read_text("utf-8"))["nightly"]
    except (OSError, ValueError, KeyError, TypeError):
        return ["backup"]
    return [
        it for it in re.split(r"[ ,]+", str(said)) if re.fullmatch(r"[a-z-]+", it) and it != "none"
    ]


def answer_of(command: str) -> Any:
    """What a command prints. It goes to bash, so that a function that a script exported is found too."""
    return subprocess.run(
        ["bash", "-c", command],
        check=True,
        stdout=subprocess.PIPE,
        stderr=subprocess.PIPE,
        stdin=subprocess.DEVNULL,
        text=True,
    ).stdout


def has_open(process: int, file: str) -> bool:
    """Whether the process has the file open."""
    folder = f"/proc/{process}/fd"
    try:
        return any(link_of(f"{folder}/{name}") == file for name in os.listdir(folder))
    except OSError:
        return False


def link_of(path: str) -> str | None:
    try:
        return os.readlink(path)
    except OSError:
        return None


def program_of(process: int = 0) -> str:
    """The desk's program: that of a process that serves, else the one that DESK names, else the installed one."""
    given = os.environ.get("DESK")
    if given:
        return checked_program(os.path.abspath(given))
    if process and os.access(f"/proc/{process}/exe", os.X_OK):
        return f"/proc/{process}/exe"
    return checked_program(PROGRAM)


def program_to_start(process: int = 0) -> str:
    """The program of the next start: the one that DESK names, else the installed one, else that of a process."""
    if os.environ.get("DESK") or os.path.isfile(PROGRAM):
        return program_of()
    return program_of(process)


def checked_program(path: str) -> str:
    if not (os.path.isfile(path) and os.access(path, os.X_OK)):
        raise Failure(f"there is no program {path}: name the desk's program in DESK")
    return path
