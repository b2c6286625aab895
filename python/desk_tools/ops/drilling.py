"""The quarter's drill: the newest backup is restored into a folder of its own and served, beside the desk that runs."""

from __future__ import annotations

import contextlib
import glob
import os
import select
import shlex
import socket
import subprocess
import tarfile
import time
from collections.abc import Iterator
from typing import Any

from desk_tools import agencies, elsewhere
from desk_tools.ports import free_port
from .content import check_same, content_of_pair
from .copying import check_room, folder_within, size_of
from .ending import WRONG_WORDS, Failure
from .judge import ANY_ZONE
from .places import program_to_start
from .restoring import check_backup, prepared

LONGEST_OPENING = 600
# Without these a new machine would not be the one that was lost.
NEEDED = (
    f"{agencies.SETTINGS}/setup.json",
    *(getattr(agencies.Agency(), it) for it in ("conf", "names")),
    f"{agencies.Agency().tls}/certificate.pem",
    f"{agencies.Agency().tls}/key.pem",
)
NOBODYS = b"GET /days/2000-01-01/sheet HTTP/1.1\r\nDesk-Key: drill\r\n\r\n"


def newest_backup(folder: str) -> str:
    """The backup of a folder that was written last."""
    found = [it for it in glob.glob(f"{glob.escape(folder)}/*.db") if os.path.isfile(it)]
    if not found:
        raise Failure(f"{folder} has no backup, whose name would end in .db", WRONG_WORDS)
    return max(found, key=os.path.getmtime)


@contextlib.contextmanager
def served(program: str, file: str, port: int) -> Iterator[subprocess.Popen[bytes]]:
    """The desk over a file on a port of this machine, once it listens. It is ended by the number of its process."""
    words = [program, "serve", file, ANY_ZONE, str(port), "1000"]
    process = subprocess.Popen(words, stdin=subprocess.DEVNULL, stderr=subprocess.PIPE)
    assert process.stderr
    errors = process.stderr
    try:
        if not select.select([errors], [], [], LONGEST_OPENING)[0]:
            raise Failure(f"the desk did not listen within {LONGEST_OPENING} seconds")
        said = errors.readline().decode(errors="replace").strip()
        if not said.startswith("listening"):
            raise Failure(f"the desk did not serve the restored file: {said}")
        yield process
    finally:
        process.kill()
        process.wait()
        errors.close()


def check_answer(port: int) -> None:
    """The desk answers a request, and takes nobody's key."""
    with socket.create_connection(("127.0.0.1", port), 60) as line:
        line.sendall(NOBODYS)
        said = b""
        while piece := line.recv(65536):
            said += piece
    if b" 401 " not in said.partition(b"\r\n")[0]:
        raise Failure(f"the restored desk answered {said[:80]!r} to a key that nobody has")


def newest_elsewhere(place: str, folder: str, ssh: str, identity: str | None) -> Any:
    """From another place alone: its newest backup in plain in `folder`, and what its newest copy of a machine has."""
    where = elsewhere.place_of(place)
    if where is None:
        raise Failure(f"{place!r} names no other place", WRONG_WORDS)
    shell = [*shlex.split(ssh), where.machine] if where.machine else []
    listing = ran(
        [*shell, f"ls {shlex.quote(where.folder)}"] if shell else ["ls", where.folder],
        f"the list of {where.told()}",
    )
    found = {kind: elsewhere.newest(listing.split(), kind) for kind in ("desk", "machine")}
    for kind, name in found.items():
        if not name:
            raise Failure(
                f"{where.told()} has no copy of a {kind}, whose name would be {kind}-YYYY-MM-DD-HHMM",
                WRONG_WORDS,
            )
    paths = {kind: fetched(where, shell, name, folder, identity) for kind, name in found.items()}
    return paths["desk"], found["desk"], told_of_machine(paths["machine"], found["machine"])


def ran(words: list[str], what: str) -> str:
    """What a command prints."""
    said = subprocess.run(words, stdin=subprocess.DEVNULL, capture_output=True, check=False)
    if said.returncode:
        raise Failure(
            f"{what}: {' '.join(said.stderr.decode(errors='replace').split()) or 'failed'}"
        )
    return said.stdout.decode(errors="replace")


def fetched(
    where: elsewhere.Place, shell: list[str], name: Any, folder: str, identity: str | None
) -> str:
    """The copy in plain, in a folder that is thrown away."""
    path = f"{folder}/{name}"
    with open(path, "wb") as file:
        words = (
            [*shell, f"cat {shlex.quote(f'{where.folder}/{name}')}"]
            if shell
            else ["cat", f"{where.folder}/{name}"]
        )
        if subprocess.run(words, stdin=subprocess.DEVNULL, stdout=file, check=False).returncode:
            raise Failure(f"{name} could not be fetched from {where.told()}")
    plain = f"{folder}/{name.removesuffix('.age').removesuffix('.gpg')}"
    opening = elsewhere.opening_words(name, identity, path, plain)
    if opening:
        if missing := elsewhere.missing_tool(opening):
            raise Failure(f"{name} is encrypted, and {missing}")
        ran(opening, f"{name} could not be decrypted by this key")
    return plain


def told_of_machine(path: str, name: Any) -> str:
    """What a new machine would have of it, beside the backup."""
    try:
        with tarfile.open(path) as archive:
            names = archive.getnames()
    except (tarfile.TarError, EOFError) as error:
        raise Failure(
            f"{name} is cut, or no copy of a machine: {str(error).splitlines()[0]}"
        ) from None
    lacking = [it for it in NEEDED if it.lstrip("/") not in names]
    if lacking:
        raise Failure(
            f"{name} lacks {', '.join(lacking)}: a new machine could not be set up from it"
        )
    return (
        f"{name} has {len(names)} files: the settings, the zone and the certificate are among them"
    )


class Drill:
    """What a restore takes, step by step."""

    def __init__(self, backup: str, folder: str, made_at: float | None = None) -> None:
        self.backup, self.folder = backup, folder
        self.seconds: dict[str, float] = {}
        self.content: Any = None
        self.age = time.time() - (made_at or os.path.getmtime(backup))

    @contextlib.contextmanager
    def timed(self, step: str) -> Iterator[None]:
        begun = time.monotonic()
        yield
        self.seconds[step] = time.monotonic() - begun

    def make(self) -> Drill:
        check_backup(self.backup)
        check_room(self.folder, 3 * size_of(self.backup), "the drill")
        with folder_within(self.folder, "desk-drill-") as folder:
            with self.timed("copied and judged"):
                file, self.content = prepared(self.backup, folder, program_to_start(), True)
            port, begun = free_port(), time.monotonic()
            with served(program_to_start(), file, port):
                check_answer(port)
                self.seconds["opened and answering"] = time.monotonic() - begun
            check_same(self.content, content_of_pair(file), "the restored file")
        return self

    def told(self) -> str:
        """What the office learns: what would be lost, and for how long it would be without the desk."""
        hours = self.age / 3600
        steps = ", ".join(
            f"{step} in {seconds:.1f} seconds" for step, seconds in self.seconds.items()
        )
        return (
            f"{self.backup} has {self.content.told()}\n"
            f"{steps}; its counts are those of the backup\n"
            f"the backup is {hours:.1f} hours old: what was written since would be entered again\n"
            f"the office would be without the desk for {sum(self.seconds.values()):.0f} seconds, "
            "beside the time until somebody notices and types the command"
        )
