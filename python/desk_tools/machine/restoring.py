"""A lost machine comes back on a new one: the files of a machine's copy, and its backup in the place of a new database.

All is looked at before anything is written: whether both are whole, of one agency and of one zone. What was put in place
is taken away again where a later step of the setup fails.
"""
import argparse
import contextlib
import glob
import json
import os
import re
import subprocess
import tarfile
import tempfile
from collections.abc import Iterator
from pathlib import Path
from typing import Any

from desk_tools import agencies, elsewhere, zones
from desk_tools.machine import settings as told
from desk_tools.machine import confs, steps, to_main
from desk_tools.machine.changes import Changes
from desk_tools.machine.settings import Failure, WrongWords
from desk_tools.machine.settings import Settings
from desk_tools.ops import content, copying, ending, keys, places, standby
from desk_tools.ops import restoring as copies
from desk_tools.setup import keys as key_signs

# What a machine's copy may have; all else in one is refused. A fence is that of the machine that was lost.
KNOWN = re.compile(
    r"(etc/(desk|ssl/desk(-main)?|systemd/system/desk[^/]*\.d|nginx/conf\.d/desk\.conf)|var/log/desk"
    r"|var/lib/(private/)?desk-(standing-orders(-main)?|journal))(/.*)?"
)
LEFT_OUT = re.compile(r"etc/desk/(fenced|.*\.fenced|README)")
MAIN = agencies.Agency()
NEEDED = MAIN.names.lstrip("/"), told.SETTINGS.lstrip("/")
OF_FIRST = "etc/desk/standby.conf"
# By what the agency is known whose backup was made that night, as `deploy/backup --identity` prints it.
IDENTITY = "identity.json"
WORK, LEFT = "/var/tmp", "desk-restore-"
NO_MACHINE, FENCE = "none", MAIN.fence
# The night's backup. The machine's files are packed once it is whole, so their copy may have the name of a later minute.
BACKUP_NAME = re.compile(r"desk-(.+?)\.db(\.age|\.gpg)?$")


def decrypted(path: str, folder: str, identity: str | None) -> str:
    """The path of the copy in plain."""
    name = os.path.basename(path)
    try:
        plain = f"{folder}/{name.removesuffix('.age').removesuffix('.gpg')}"
        words = elsewhere.opening_words(name, identity, path, plain)
    except elsewhere.Wrong as wrong:
        raise Failure(str(wrong)) from None
    if not words:
        return path
    if missing := elsewhere.missing_tool(words):
        raise Failure(f"{path} is encrypted, and {missing}")
    ran = subprocess.run(
        words, capture_output=True, text=True, stdin=subprocess.DEVNULL, check=False
    )
    if ran.returncode:
        raise Failure(
            f"{path} could not be decrypted by this key: {' '.join(ran.stderr.split())[:200]}"
        )
    return plain


def content_of(archive: tarfile.TarFile, member: tarfile.TarInfo) -> bytes:
    """The bytes of a file of the copy."""
    file = archive.extractfile(member)
    return file.read() if file else b""


def callers_in(text: bytes, path: str) -> set[str]:
    """The marks of the callers of the backup that was made beside a machine's copy."""
    try:
        return {str(it) for it in json.loads(text)["callers"]}
    except (ValueError, KeyError, TypeError):
        raise Failure(f"{IDENTITY} in {path} says nothing of its agency") from None


class Machine:
    """The files of a machine's copy, in a folder in which nothing but these is."""

    def __init__(self, path: str, folder: str) -> None:
        self.path, self.folder = path, f"{folder}/machine"
        self.names: list[str] = []
        self.callers: set[str] | None = None
        if not os.path.isfile(path):
            raise WrongWords(f"there is no {path}")
        try:
            with tarfile.open(path) as archive:
                for member in archive:
                    self.take(archive, member)
        except (tarfile.TarError, EOFError, OSError) as error:
            raise Failure(
                f"{path} is cut, or no copy of a machine: {str(error).splitlines()[0]}"
            ) from None
        self.bring_up()
        for name in NEEDED:
            if name not in self.names:
                raise Failure(
                    f"{path} has no {name}: it is no copy of a machine, or of an earlier version; put its files "
                    "back by hand, as BACKUPS.md says"
                )

    def take(self, archive: tarfile.TarFile, member: tarfile.TarInfo) -> None:
        name = os.path.normpath(member.name)
        if member.isdir() or LEFT_OUT.fullmatch(name):
            return
        if name == IDENTITY and member.isfile():
            self.callers = callers_in(content_of(archive, member), self.path)
            return
        if not member.isfile() or not KNOWN.fullmatch(name):
            raise Failure(f"{self.path} has {member.name}, which is no file of the desk's")
        target = f"{self.folder}/{name}"
        os.makedirs(os.path.dirname(target), mode=0o700, exist_ok=True)
        with open(
            os.open(target, os.O_WRONLY | os.O_CREAT | os.O_TRUNC, member.mode & 0o755), "wb"
        ) as file:
            file.write(content_of(archive, member))
        self.names.append(name)

    def bring_up(self) -> None:
        """A copy of an earlier version gets the names of the agency main."""
        renaming = to_main.Renaming(Path(self.folder))
        renaming.rename()
        with contextlib.suppress(UnicodeDecodeError):
            renaming.keep_zone()
            renaming.reword()
        self.names = [
            os.path.relpath(f"{place}/{it}", self.folder)
            for place, _, names in os.walk(self.folder)
            for it in sorted(names)
        ]

    def read(self, name: str) -> dict[str, Any]:
        """A JSON object of the copy; an empty one where it is not there."""
        try:
            found = json.loads(Path(f"{self.folder}/{name}").read_text("utf-8"))
            return found if isinstance(found, dict) else {}
        except FileNotFoundError:
            return {}
        except (OSError, ValueError):
            raise Failure(f"{name} in {self.path} is no JSON object") from None

    def rule(self) -> str | None:
        """ZONE of the desk's unit there, or None."""
        path = Path(f"{self.folder}{MAIN.conf}")
        return confs.value_in(path.read_text(encoding="utf-8"), "ZONE") if path.exists() else None

    def put(self, changes: Changes) -> None:
        """Each file in its place, with the owner root and the mode that it had."""
        for name in self.names:
            path = f"/{name}"
            changes.note(path)
            folder = os.path.dirname(path)
            if not os.path.isdir(folder):
                os.makedirs(
                    folder, mode=0o700 if "/desk" in folder and "systemd" not in folder else 0o755
                )
            text = Path(f"{self.folder}/{name}").read_bytes()
            mode = os.stat(f"{self.folder}/{name}").st_mode & 0o777
            with open(
                os.open(f"{path}.new", os.O_WRONLY | os.O_CREAT | os.O_TRUNC, mode), "wb"
            ) as file:
                file.write(text)
            os.replace(f"{path}.new", path)


def remove_left() -> None:
    """Removes the opened copies of a command that was killed. Whoever sets the machine up is alone, so nobody uses them."""
    copying.remove_left(WORK, LEFT, left_for=0)


class Restoring:
    """A backup, and the copy of a machine where one is named, for this machine. `given` are the words of desk-setup."""

    def __init__(self, given: argparse.Namespace) -> None:
        if len(given.restore) > 2:
            raise WrongWords(
                "--restore takes a backup, and the copy of a machine: COPY [MACHINE.tar.gz]"
            )
        self.given, self.changes, self.folder = (
            given,
            Changes(),
            tempfile.mkdtemp(prefix=LEFT, dir=WORK),
        )
        self.machine: Any = None
        self.restored: Any = None
        self.content: Any = None
        self.lines: list[str] = []

    # Beforehand: nothing is changed.

    def check(self) -> None:
        """The backup and the machine's copy, looked at. The desk of this machine, if there is one, goes on."""
        copy, *others = self.given.restore
        self.need_machine(copy, others)
        if self.given.second and (not others or others[0] == NO_MACHINE):
            raise WrongWords(
                "a second machine takes the copy of the first one: COPY MACHINE.tar.gz --second"
            )
        if self.given.second and os.path.exists(steps.FILE):
            raise Failure(
                f"{steps.FILE} is there: this machine has a desk, and is no new second one"
            )
        for path in [it for it in (copy, *others) if it != NO_MACHINE]:
            if not os.path.isfile(path):
                raise WrongWords(f"there is no {path}")
        self.copy = decrypted(copy, self.folder, self.given.identity)
        try:
            copies.check_backup(self.copy)
            self.content = content.content_of(self.copy)
            content.check_whole(self.copy)
            if others and others[0] != NO_MACHINE:
                self.machine = Machine(
                    decrypted(others[0], self.folder, self.given.identity), self.folder
                )
                if self.given.second:
                    self.machine.names = [it for it in self.machine.names if it != OF_FIRST]
                self.check_zones()
                self.check_agency()
        except ending.Failure as failure:
            raise (WrongWords if failure.status == ending.WRONG_WORDS else Failure)(
                str(failure)
            ) from None

    def need_machine(self, copy: str, others: list[str]) -> None:
        """A machine's copy that is beside the backup is not forgotten: the first that was made at its minute or later."""
        stamp = BACKUP_NAME.match(os.path.basename(copy))
        if not stamp or others:
            return
        found = glob.glob(f"{glob.escape(os.path.dirname(copy) or '.')}/machine-*.tar.gz*")
        later = sorted(it for it in found if os.path.basename(it) >= f"machine-{stamp[1]}")
        if later:
            raise WrongWords(
                f"{later[0]} is beside the backup: name it after the backup, or say {NO_MACHINE} there"
            )

    def check_zones(self) -> None:
        named = {
            f"{it} of {self.machine.path}": zone
            for it in NEEDED
            if (zone := self.machine.read(it).get("zone"))
        }
        if self.given.zone:
            named["--zone"] = self.given.zone
        rule = self.machine.rule()
        said = zones.difference(
            named, {} if rule is None else {f"the unit in {self.machine.path}": rule}
        )
        if said:
            raise Failure(
                f"{said}. By a wrong zone the desk counts wrong days: say which is right in a copy of these files"
            )

    def check_agency(self) -> None:
        """What the machine's files name is in the backup: keys of the night's work, places, riders."""
        with content.opened(self.copy) as tables:
            there = {
                it: {number for number, in tables.execute(f"SELECT id FROM {it}")}
                for it in ("places", "riders")
            }
        named = {
            "places": {
                it.get("id")
                for it in self.machine.read(NEEDED[0]).get("places", [])
                if isinstance(it, dict)
            }
        }
        digests = {keys.digest_of(it) for it in self.keys_of_nights()}
        strange = [it for it in named if named[it] and there[it] and not named[it] & there[it]]
        if digests and not digests & self.content.callers:
            strange.append("keys")
        ours = {content.mark_of(it) for it in self.content.callers}
        if self.machine.callers is not None and not self.machine.callers & ours:
            strange.append("callers")
        if strange and not self.given.another:
            raise Failure(
                f"{self.machine.path} is of another agency than {self.copy}: none of its {' and '.join(strange)} is "
                "in the backup; if that is meant, say --another"
            )
        is_shown = self.machine.callers is not None or digests & self.content.callers
        if not is_shown and not self.given.another and not self.given.anyway:
            raise Failure(
                f"{self.machine.path} is of an earlier version, and nothing in it shows that it is of the agency of "
                f"{self.copy}: look at the name of the agency in its etc/desk/setup.json, and say --anyway"
            )

    def keys_of_nights(self) -> Iterator[str]:
        for path in sorted(glob.glob(f"{self.machine.folder}/etc/desk/keys/*standing-orders*")):
            with contextlib.suppress(OSError, UnicodeDecodeError), open(
                path, encoding="ascii"
            ) as file:
                yield key_signs.normalized(file.read().rstrip("\n"))

    # What is put in place.

    def put_files(self) -> None:
        """The machine's files, and with them the answers of then, so that nothing is asked again."""
        if self.machine:
            self.machine.put(self.changes)
            earlier = told.before()
            for name in told.QUESTIONS:
                if getattr(self.given, name, None) is None and name in earlier:
                    setattr(self.given, name, earlier[name])
            if not self.given.second:
                self.check_second()

    def check_second(self) -> None:
        """The second machine may serve already: two desks would lose writes."""
        if not os.path.exists(f"/{OF_FIRST}"):
            return
        try:
            settings = standby.Settings()
            machine, folder = settings.place(MAIN)
            is_opened = settings.told(machine, "state", folder) == standby.OPENED
        except ending.Failure as failure:
            self.lines.append(
                f"The second machine was not asked ({failure}). See that it does not serve."
            )
            return
        if is_opened:
            raise Failure(
                f"{machine} serves this desk since it was opened there. Go back to this machine from there, as "
                "BACKUPS.md says, or fence it first"
            )
        self.lines.append(
            f"The second machine gets copies again once you enable {MAIN.unit_of('standby.timer')} and "
            f"{MAIN.unit_of('standby-check.service')}."
        )

    def put_copy(self, settings: Settings) -> None:
        """The backup in the database's place. The desk is started later, with the rest."""
        os.environ.update(
            {
                "DESK": steps.PROGRAM,
                "START": "true",
                "ZONE_OF_UNIT": f"echo ZONE={told.rule_of(settings['zone'])}",
            }
        )
        if not os.path.isdir("/run/systemd/system"):
            os.environ.update({"STOP": "true", "PROCESS": "echo 0"})
        try:
            self.restored = copies.Restore(
                places.Desk(), self.copy, migrate=True, another=self.given.another, starts_old=False
            ).make()
        except ending.Failure as failure:
            raise Failure(str(failure)) from None
        kept = f"; what was there is in {self.restored.kept}" if self.restored.kept else ""
        self.lines.append(
            f"The desk has {self.restored.content.told()}{kept}. The keys are those of then: one that was stolen and "
            "replaced since holds again, so replace it once more."
        )
        self.lines += self.restored.keys_of_then()

    def undo(self) -> None:
        """This machine is as it was."""
        if self.restored:
            self.restored.put_back()
        self.changes.undo()

    def close(self) -> None:
        self.changes.close()
        subprocess.run(["rm", "-rf", self.folder], check=False)
