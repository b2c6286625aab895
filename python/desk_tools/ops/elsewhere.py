"""The night's backup in another place, which nobody on this machine can take away again.

/etc/desk/copies.conf says where: OFFSITE=, a mounted folder, a host by ssh (MACHINE:/FOLDER) or `none yet`; SSH=, how to
reach it; RECIPIENT=, a public key to which the copies are encrypted.
"""

from __future__ import annotations

import contextlib
import datetime
import json
import os
import pathlib
import shlex
import shutil
import subprocess
import sys
import tempfile
import time
from collections.abc import Iterator
from typing import Any, TYPE_CHECKING

from desk_tools import agencies
from desk_tools import elsewhere as rules
from .copying import check_copy, copied, folder_within, give_name, size_of, synced
from .ending import WRONG_WORDS, Failure

if TYPE_CHECKING:
    from desk_tools.ops.places import Desk

SCRIPT = "/usr/lib/desk/deploy/standby"
PATIENCE, PIECE = 15, 1 << 20
# How long a look at the place counts, in seconds, and where it is kept.
LOOK, LOOKED = 3_600, "/run/desk-elsewhere.json"


class Settings:
    """What copies.conf says. The environment may give OFFSITE, SSH, RECIPIENT and SCRIPT."""

    def __init__(self, settings: str | None = None) -> None:
        self.path = f"{settings or agencies.settings_folder()}/copies.conf"
        given: dict[str, str] = {}
        if os.path.exists(self.path):
            with open(self.path, encoding="utf-8") as file:
                lines = [it.strip() for it in file if it.strip() and not it.startswith("#")]
            given = dict(it.split("=", 1) for it in lines if "=" in it)
        self.is_there = bool(given) or "OFFSITE" in os.environ
        text, recipient = (
            os.environ.get(it) or given.get(it) or "" for it in ("OFFSITE", "RECIPIENT")
        )
        self.ssh = os.environ.get("SSH") or given.get("SSH") or "ssh"
        self.script = os.environ.get("SCRIPT") or given.get("SCRIPT") or SCRIPT
        try:
            self.place, self.seal = rules.place_of(text), rules.seal_of(recipient)
        except rules.Wrong as wrong:
            raise Failure(f"{self.path}: {wrong}", WRONG_WORDS) from None

    def told(self, place: rules.Place, *words: str, source: Any = None) -> str:
        """What the script of the other machine answers."""
        command = " ".join(shlex.quote(it) for it in (self.script, *words))
        shell = [
            *shlex.split(self.ssh),
            "-o",
            "BatchMode=yes",
            "-o",
            f"ConnectTimeout={PATIENCE}",
            "-o",
            "ServerAliveInterval=5",
            "-o",
            "ServerAliveCountMax=3",
        ]
        said = subprocess.run(
            [*shell, str(place.machine), command],
            stdin=source or subprocess.DEVNULL,
            capture_output=True,
            check=False,
        )
        if said.returncode:
            why = " ".join((said.stderr or said.stdout).decode(errors="replace").split())
            raise Failure(f"{place.machine}: {why or f'ended with status {said.returncode}'}")
        return said.stdout.decode(errors="replace").strip()


# In the place itself.


def names_in(folder: str) -> list[str]:
    """The copies of a folder, by their names."""
    return (
        sorted(it for it in os.listdir(folder) if rules.moment_of(it))
        if os.path.isdir(folder)
        else []
    )


def add_from_input(folder: str, name: str, digest: str) -> str:
    """A copy that comes by standard input gets its name once it is whole. None is ever replaced."""
    from .standby import digest_of

    check_name(folder, name)
    os.makedirs(folder, 0o700, exist_ok=True)
    with folder_within(folder, ".adding-") as place:
        part = f"{place}/copy"
        with open(os.open(part, os.O_WRONLY | os.O_CREAT | os.O_EXCL, 0o600), "wb") as file:
            shutil.copyfileobj(sys.stdin.buffer, file, PIECE)
        synced(part)
        if digest_of(part) != digest:
            raise Failure(f"{name} is not what was sent")
        give_name(part, f"{folder}/{name}")
    return f"{name} is there"


def check_name(folder: str, name: str) -> None:
    if not rules.moment_of(name):
        raise Failure(f"{name[:80]!r} is no name of a copy", WRONG_WORDS)
    if os.path.lexists(f"{folder}/{name}"):
        raise Failure(f"{name} is there already, and no copy is replaced", WRONG_WORDS)


def check_is_elsewhere(folder: str, backups: str) -> None:
    """A folder whose disk is not mounted is one of this machine's own disk, which is no other place."""
    if not os.path.isdir(folder):
        raise Failure(f"there is no folder {folder}: is its disk mounted?")
    # (before the first backup its folder may not be there)
    there = next(
        it for it in (backups, *map(str, pathlib.Path(backups).parents)) if os.path.isdir(it)
    )
    if os.stat(folder).st_dev == os.stat(there).st_dev:
        raise Failure(
            f"{folder} is on the disk of {backups}: the disk of the other place is not mounted"
        )


# On the machine that has the backups.


def names_there(settings: Settings, place: rules.Place, backups: str) -> list[str]:
    if place.machine:
        return settings.told(place, "names", place.folder).split()
    check_is_elsewhere(
        os.path.dirname(place.folder) if not os.path.isdir(place.folder) else place.folder, backups
    )
    return names_in(place.folder)


def put(settings: Settings, place: rules.Place, path: str, name: str) -> None:
    """One copy is there, whole, under a name that nothing had."""
    from .standby import digest_of

    if place.machine:
        with open(path, "rb") as file:
            settings.told(place, "add", place.folder, name, digest_of(path), source=file)
        return
    os.makedirs(place.folder, 0o700, exist_ok=True)
    check_name(place.folder, name)
    with folder_within(place.folder, ".adding-") as folder:
        check_copy(f"{folder}/copy", copied(path, f"{folder}/copy"))
        give_name(f"{folder}/copy", f"{place.folder}/{name}")


def sealed(seal: rules.Seal | None, path: str, folder: str) -> tuple[str, str]:
    """The path of the copy that goes away: encrypted, where there is a key."""
    if not seal:
        return path, os.path.basename(path)
    if missing := rules.missing_tool(seal.words):
        raise Failure(missing)
    name = os.path.basename(path) + seal.end
    target = pathlib.Path(folder, name)
    ran = subprocess.run(
        seal.sealing(pathlib.Path(path), target),
        stdin=subprocess.DEVNULL,
        capture_output=True,
        text=True,
        check=False,
    )
    if ran.returncode or not size_of(target):
        raise Failure(
            f"{path} could not be encrypted: {' '.join((ran.stderr or ran.stdout).split())}"
        )
    return str(target), name


def send(desk: Desk, settings: Settings, backups: str) -> list[str] | None:
    """The newest backup, and what a new machine needs, go to the place; what to say, line by line."""
    if os.path.exists(desk.fence):
        return ["this machine is fenced, so its copies are not the newest, and none is sent"]
    if settings.place is None:
        return [
            f"OFFSITE is {rules.NONE_YET}: the backups are on the disk of the desk alone, and are lost with it"
        ]
    place = settings.place.of_agency(desk.agency)
    there, here = (
        names_there(settings, place, backups),
        os.listdir(backups) if os.path.isdir(backups) else [],
    )
    if not rules.newest(here, "desk"):
        return [f"{place.told()} can be reached; {backups} has no backup of a night yet"]
    wanted = rules.to_send(here, there)
    told = []
    with tempfile.TemporaryDirectory(prefix="desk-elsewhere-", dir="/var/tmp") as folder:
        for it in wanted:
            path, name = sealed(settings.seal, f"{backups}/{it}", folder)
            put(settings, place, path, name)
            told.append(f"{name} is at {place.told()}{'' if settings.seal else ', not encrypted'}")
    return told or [f"{place.told()} has the newest copies already"]


# For the watch.


def facts(
    settings: str, units: dict[str, tuple[agencies.Agency, str]], now: float
) -> dict[Any, Any]:
    """What is at the place, of each unit: (agency, backups) by unit. A look counts for an hour, unless it found nothing."""
    try:
        given = Settings(settings)
    except Failure as failure:
        return {"wrong": str(failure)}
    if not given.is_there:
        return {}
    if given.place is None:
        return {"none": True}
    path = os.environ.get("LOOKED") or LOOKED
    with contextlib.suppress(OSError, ValueError), open(path, encoding="utf-8") as file:
        looked: dict[str, Any] = json.load(file)
        if (
            0 <= now - looked["at"] < LOOK
            and looked["place"] == given.place.told()
            and not looked["faults"]
        ):
            return looked
    looked = {"at": now, "place": given.place.told(), "newest": {}, "faults": {}}
    for unit, (agency, backups) in units.items():
        try:
            looked["newest"][unit] = rules.newest(
                names_there(given, given.place.of_agency(agency), backups), "desk"
            )
        except (Failure, OSError) as error:
            looked["faults"][unit] = str(error)
    with contextlib.suppress(OSError), open(path, "w", encoding="utf-8") as file:
        json.dump(looked, file)
    return looked


def troubles(unit: str, looked: dict[Any, Any], now: float, oldest: int) -> Iterator[Any]:
    """(what, sentence) of each trouble with a desk's copies elsewhere."""
    if looked.get("wrong"):
        yield "elsewhere", looked["wrong"]
    if looked.get("none"):
        # (told anew each day)
        day = datetime.datetime.fromtimestamp(now).date()
        yield f"elsewhere {day}", (
            f"has no copies elsewhere (OFFSITE is {rules.NONE_YET}): a lost disk takes the desk and all "
            'its backups. BACKUPS.md, "Copies elsewhere", has what to do'
        )
    if unit in looked.get("faults", {}):
        yield "elsewhere", f"its copies at {looked['place']} cannot be seen: {looked['faults'][unit]}"
    elif unit in looked.get("newest", {}):
        name = looked["newest"][unit]
        if name is None:
            yield "elsewhere", f"there is no copy at {looked['place']}"
        elif (moment := rules.moment_of(name)) is None or now - time.mktime(
            moment.timetuple()
        ) > oldest:
            yield "elsewhere", f"the newest copy at {looked['place']} is {name}, more than a day old"
