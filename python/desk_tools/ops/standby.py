"""The second machine: the first sends it a checked backup every few minutes, and it can open the desk with one command.

The first machine sends to the place that its settings name, a folder of the second. That folder has `incoming/desk.db`,
the last that came, whole or not; `copies/`, those that were checked there; and `opened`, once the second machine
serves. Who opens the desk holds the lock of `copies/` meanwhile. `opening.py` has what the second machine does then.
"""

from __future__ import annotations

import contextlib
import datetime
import hashlib
import json
import os
import re
import shlex
import subprocess
import time
from collections.abc import Iterator
from pathlib import Path
from typing import Any, TYPE_CHECKING

from desk_tools import agencies
from .backing_up import Backup
from .content import check_whole, content_of, summary_of_pair
from .copying import check_copy, copied, folder_within, give_name, synced
from .ending import WRONG_WORDS, Failure, sentence_of
from .fences import BY_ITSELF, CHANGE, COMPARED, WITHOUT, text_of_fence
from .judge import judge
from .locking import alone, is_held
from .places import program_to_start
from .retention import copies_in, kept_of, name_after

if TYPE_CHECKING:
    from desk_tools.ops.places import Desk

TARGET = re.compile(r"([A-Za-z0-9._@-]+):(/[A-Za-z0-9._/-]+)")
SCRIPT = "/usr/lib/desk/deploy/standby"
# Seconds until a line is taken for broken.
PATIENCE = int(os.environ.get("PATIENCE_OF_LINE") or 15)
# So many seconds a change-over waits for a copy that is on its way.
TURN = 120
# What an earlier version wrote as the fence of the one agency.
EARLIER_FENCE = "/etc/desk/fenced"
OPENED, OPENING, WAITING = "opened", "opening", "waiting"
# What ssh says where it did not get so far as to run anything.
NOT_REACHED = ("ssh: ", "Host key verification failed", "Permission denied")


class NotTold(Failure):
    """The other machine could not be asked; `is_reached` is false where nothing can have run there."""

    def __init__(self, sentence: str, is_reached: bool) -> None:
        super().__init__(sentence)
        self.is_reached = is_reached


class Settings:
    """Where the second machine is.

    The environment or /etc/desk/standby.conf gives TARGET, and may give SSH, and SCRIPT, the path of this script there.
    """

    def __init__(self) -> None:
        path = f"{agencies.settings_folder()}/standby.conf"
        given: dict[str, str] = {}
        if os.path.exists(path):
            with open(path, encoding="utf-8") as file:
                lines = [it.strip() for it in file if it.strip() and not it.startswith("#")]
            given = dict(it.split("=", 1) for it in lines if "=" in it)
        self.target = os.environ.get("TARGET") or given.get("TARGET") or ""
        self.ssh = os.environ.get("SSH") or given.get("SSH") or "ssh"
        self.script = os.environ.get("SCRIPT") or given.get("SCRIPT") or SCRIPT
        self.path = path

    def place(self, agency: agencies.Agency) -> tuple[str, str]:
        """The machine and the folder there."""
        found = TARGET.fullmatch(self.target)
        if not found:
            raise Failure(
                f"{self.path} has no TARGET=MACHINE:/FOLDER (of letters, digits, dots, dashes): it names "
                f"the second machine",
                WRONG_WORDS,
            )
        return found[1], found[2] + agency.folder_there

    def shell(self) -> list[str]:
        return [
            *shlex.split(self.ssh),
            "-o",
            "BatchMode=yes",
            "-o",
            f"ConnectTimeout={PATIENCE}",
            "-o",
            f"ServerAliveInterval={PATIENCE // 3}",
            "-o",
            "ServerAliveCountMax=3",
        ]

    def command(self, *words: str) -> str:
        """The command of the script there, as one text."""
        return " ".join(shlex.quote(it) for it in (self.script, *words))

    def told(self, machine: str, *words: str) -> str:
        """What the script of the other machine answers, as it ends with status 0."""
        said = subprocess.run(
            [*self.shell(), machine, self.command(*words)],
            stdin=subprocess.DEVNULL,
            capture_output=True,
            text=True,
        )
        if said.returncode:
            why = (
                " ".join((said.stderr.strip() or said.stdout).split())
                or f"ended with status {said.returncode}"
            )
            raise NotTold(f"{machine}: {why}", not why.startswith(NOT_REACHED))
        return said.stdout.strip()


def digest_of(path: str) -> str:
    total = hashlib.sha256()
    with open(path, "rb") as file:
        while piece := file.read(1 << 20):
            total.update(piece)
    return total.hexdigest()


# On the first machine.


def send(desk: Desk, settings: Settings, rate: int | None = None) -> str:
    """Makes a checked backup and brings it to the second machine, which checks it too. Returns what to say."""
    machine, folder = settings.place(desk.agency)
    state_there = settings.told(machine, "state", folder)
    if os.path.exists(desk.fence):
        return told_of_fence(desk, machine, state_there)
    if state_there == OPENED:
        fence(desk, f"{machine} {BY_ITSELF}")
        raise Failure(f"{machine} has opened the desk: this machine is fenced and serves no longer")
    begun = time.monotonic()
    with alone(desk.folder, 0, "another copy is on its way to the second machine"):
        made, came, _ = brought(desk, settings, rate)
    seconds = time.monotonic() - begun
    return f"{machine}: {came.rpartition(': ')[2]}, {made.content.told()}; it took {seconds:.1f} seconds"


def told_of_fence(desk: Desk, machine: str, state_there: str) -> str:
    """A change-over that ended in the middle left nobody serving: then this machine serves again."""
    if is_changing(desk) and state_there == WAITING:
        unfence(desk)
        return f"{machine} has not opened the desk, so the change-over was given up: this machine serves again"
    return "this machine is fenced and sends nothing"


def brought(desk: Desk, settings: Settings, rate: int | None = None) -> tuple[Backup, str, str]:
    """A backup of this moment is at the second machine, which has checked it: the backup, the answer, its digest."""
    machine, folder = settings.place(desk.agency)
    with folder_within(os.environ.get("OUTGOING") or "/var/tmp", "desk-standby-") as place:
        copy = f"{place}/desk.db"
        made, digest = Backup(desk, copy).make(), digest_of(copy)
        put_there(settings, copy, machine, folder, rate)
        return made, settings.told(machine, "receive", folder, digest), digest


def put_there(settings: Settings, copy: str, machine: str, folder: str, rate: Any) -> None:
    """The copy is what comes in there. Only what differs from the one before goes over the line."""
    words = [
        "rsync",
        "--times",
        "--compress",
        "--timeout=60",
        f"--rsh={shlex.join(settings.shell())}",
    ]
    words += [f"--bwlimit={rate}"] if rate else []
    said = subprocess.run(
        [*words, copy, f"{machine}:{folder}/incoming/desk.db"],
        stdin=subprocess.DEVNULL,
        capture_output=True,
        text=True,
    )
    if said.returncode:
        raise Failure(
            f"rsync to {machine} ended with status {said.returncode}: {' '.join(said.stderr.split())}"
        )


def fence(desk: Desk, why: str) -> None:
    """This machine serves no longer: neither its unit nor its site begins while that file is there."""
    os.makedirs(os.path.dirname(desk.fence), exist_ok=True)
    is_new = not os.path.exists(desk.fence)
    if is_new or is_changing(desk):
        write_fence(desk, f"{why}; fenced at {datetime.datetime.utcnow():%Y-%m-%dT%H:%M:%SZ}\n")
    try:
        desk.stop()
        if desk.process():
            raise Failure("the desk did not stop")
    except BaseException:
        # (a desk that goes on, and a site that lets nobody in, would be the worst of both)
        if is_new:
            unfence(desk)
        raise


def write_fence(desk: Desk, text: str) -> None:
    Path(f"{desk.fence}.new").write_text(text, "utf-8")
    os.chmod(f"{desk.fence}.new", 0o644)
    os.rename(f"{desk.fence}.new", desk.fence)
    synced(os.path.dirname(desk.fence))


def note_compared(desk: Desk) -> None:
    """The fence says that somebody has listed what is missing."""
    text = text_of_fence(desk.fence)
    if COMPARED not in text:
        write_fence(desk, f"{text}{COMPARED} at {datetime.datetime.utcnow():%Y-%m-%dT%H:%M:%SZ}\n")


def is_changing(desk: Desk) -> bool:
    """Whether the fence is that of a change-over whose end this machine has not seen."""
    return text_of_fence(desk.fence).startswith(CHANGE)


def unfence(desk: Desk) -> None:
    with contextlib.suppress(FileNotFoundError):
        os.remove(desk.fence)
    synced(os.path.dirname(desk.fence))
    desk.start_until_it_serves()


def fence_for_change(desk: Desk, settings: Settings) -> str:
    """This machine serves no longer, and has sent a last copy: a line of JSON for the second machine.

    Where the last copy could not be sent, `why` says so, and `content` tells what the file has at rest.
    """
    with alone(desk.folder, TURN, "a copy is on its way: give the same command again in a minute"):
        fence(desk, f"{CHANGE} to another machine")
        answer: dict[str, Any] = {
            "at": f"{datetime.datetime.utcnow():%Y-%m-%dT%H:%M:%SZ}",
            "sent": None,
            "why": None,
            "content": None,
        }
        with contextlib.suppress(Failure, OSError):
            answer["content"] = summary_of_pair(desk.file)
        try:
            answer["sent"] = brought(desk, settings)[2]
        except (Failure, OSError, subprocess.SubprocessError) as error:
            answer["why"] = sentence_of(error)
            write_fence(desk, f"{CHANGE} to another machine, {WITHOUT}; fenced at {answer['at']}\n")
    return json.dumps(answer)


def give_up_change(desk: Desk, settings: Settings) -> str:
    """This machine serves again, unless the second one has opened the desk."""
    if not os.path.exists(desk.fence):
        return "this machine has no fence"
    with contextlib.suppress(NotTold):
        machine, folder = settings.place(desk.agency)
        if settings.told(machine, "state", folder) == OPENED:
            raise Failure(f"{machine} has opened the desk, so this machine stays fenced")
    unfence(desk)
    return "the fence is gone, and this machine serves again"


def ask_at_start(desk: Desk, settings: Settings) -> str:
    """Before the first machine serves: has the second opened the desk meanwhile?"""
    machine, folder = settings.place(desk.agency)
    try:
        state_there = settings.told(machine, "state", folder)
    except NotTold as failure:
        return f"{failure}; the second machine did not answer, and this one serves"
    if state_there == OPENED:
        fence(desk, f"{machine} {BY_ITSELF}")
        raise Failure(f"{machine} has opened the desk: this machine is fenced and serves no longer")
    return f"{machine} has not opened the desk"


# On the second machine.


def state(folder: str) -> str:
    """Whether the second machine has opened the desk, and serves it still."""
    for name in ("incoming", "copies"):
        os.makedirs(f"{folder}/{name}", 0o700, exist_ok=True)
    if is_opened(folder):
        return OPENED
    return OPENING if is_held(f"{folder}/copies") else WAITING


def is_opened(folder: str) -> bool:
    """Whether the folder has the mark of an opening. Once this machine is fenced itself, that opening is over."""
    try:
        text = Path(f"{folder}/{OPENED}").read_text("utf-8")
    except FileNotFoundError:
        return False
    except OSError:
        text = ""
    with contextlib.suppress(ValueError, AttributeError):
        fence = json.loads(text).get("fence") or EARLIER_FENCE
        return not os.path.exists(agencies.main().fence if fence == EARLIER_FENCE else fence)
    return True


def opened_copy(folder: str) -> str:
    """The name of the copy that the second machine has opened."""
    try:
        name = str(json.loads(Path(f"{folder}/{OPENED}").read_text("utf-8")).get("copy") or "")
    except (OSError, ValueError, AttributeError):
        name = ""
    if not name or name not in copies_in([name]):
        raise Failure(
            "this machine has opened no copy of yours, or does not know which: name a copy of what it opened by --copy"
        )
    return name


def receive(folder: str, digest: str) -> str:
    """What came in gets a name once it is what was sent, and the desk of this machine opens it."""
    if state(folder) == OPENED:
        raise Failure("this machine has opened the desk, and takes no more copies")
    came = f"{folder}/incoming/desk.db"
    with folder_within(f"{folder}/incoming", ".checked-") as place:
        part = f"{place}/desk.db"
        check_copy(part, copied(came, part))
        if digest_of(part) != digest:
            raise Failure(f"{came} is not what was sent")
        check_whole(part)
        judge(program_to_start(), part)
        name = name_after(os.listdir(f"{folder}/copies"), datetime.datetime.utcnow())
        give_name(part, f"{folder}/copies/{name}")
    prune(f"{folder}/copies", datetime.datetime.utcnow())
    return f"{folder}/copies/{name} is whole"


def prune(folder: str, now: datetime.datetime) -> None:
    """Copies that the ladder of ages does not keep are removed."""
    names = os.listdir(folder)
    for name in set(copies_in(names)) - kept_of(names, now):
        os.remove(f"{folder}/{name}")


def listed(folder: str) -> Iterator[str]:
    """The copies, the newest first, with what each has."""
    for name in copies_in(os.listdir(f"{folder}/copies")):
        yield f"{name}: {content_of(f'{folder}/copies/{name}').told()}"
