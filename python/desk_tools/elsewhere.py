"""Copies in another place: where that is, what a copy is called there, which is the newest, and how it is encrypted."""

import dataclasses
import datetime
import pathlib
import re
import shutil
from collections.abc import Iterable, Sequence

from desk_tools import agencies

NONE_YET = "none yet"
# The night's backup, and what a new machine needs beside it, as desk-backup@.service names them.
NAME = re.compile(
    r"(?P<kind>desk|machine)-(?P<moment>\d{4}-\d\d-\d\d-\d{4})(?:\.db|\.tar\.gz)"
    r"(?P<seal>\.age|\.gpg)?"
)
MOMENT = "%Y-%m-%d-%H%M"
REMOTE = re.compile(r"(?P<machine>[A-Za-z0-9._@-]+):(?P<folder>/[A-Za-z0-9._/-]+)")
FOLDER = re.compile(r"/[A-Za-z0-9._/-]+")
AGE_KEYS = ("age1", "ssh-ed25519 ", "ssh-rsa ")


class Wrong(Exception):
    """A setting that cannot be used, in one sentence."""


@dataclasses.dataclass(frozen=True)
class Place:
    """A folder, of this machine where `machine` is None."""

    machine: str | None
    folder: str

    def told(self) -> str:
        return f"{self.machine}:{self.folder}" if self.machine else self.folder

    def of_agency(self, agency: agencies.Agency) -> "Place":
        return dataclasses.replace(self, folder=self.folder + agency.folder_there)


def place_of(text: str) -> Place | None:
    """The place that OFFSITE names, or None where there is none yet."""
    named = text.strip()
    if named in ("", "none", NONE_YET):
        return None
    found = REMOTE.fullmatch(named)
    if found:
        return Place(found["machine"], found["folder"].rstrip("/"))
    if FOLDER.fullmatch(named) and named.rstrip("/"):
        return Place(None, named.rstrip("/"))
    raise Wrong(
        f"OFFSITE {text!r} is neither a mounted folder such as /mnt/elsewhere, nor a host and a folder "
        f"such as desk-copies@backup.example.org:/srv/desk, nor {NONE_YET}"
    )


def moment_of(name: str) -> datetime.datetime | None:
    """When the copy of this name was made, by the clock of its machine; None where it is none."""
    found = NAME.fullmatch(name)
    try:
        return datetime.datetime.strptime(found["moment"], MOMENT) if found else None
    except ValueError:
        return None


def newest(names: Iterable[str], kind: str) -> str | None:
    """The name of the newest copy of a kind, `desk` or `machine`."""
    dated = [
        (moment, it)
        for it in names
        if (found := NAME.fullmatch(it)) and found["kind"] == kind and (moment := moment_of(it))
    ]
    return max(dated)[1] if dated else None


def to_send(here: Iterable[str], there: Iterable[str]) -> list[str]:
    """The newest of each kind that is here and not there, encrypted or not."""
    plain = {NAME.sub(lambda found: found[0].removesuffix(found["seal"] or ""), it) for it in there}
    found = [newest(here, kind) for kind in ("desk", "machine")]
    return [it for it in found if it and it not in plain]


@dataclasses.dataclass(frozen=True)
class Seal:
    """How a copy is encrypted: what its name gets, and the command, to which the two paths are added."""

    end: str
    words: tuple[str, ...]

    def sealing(self, source: pathlib.Path, target: pathlib.Path) -> list[str]:
        return [*self.words, str(target), str(source)]


def seal_of(recipient: str | None) -> Seal | None:
    """The seal for a public key: age's or ssh's own text, or a file of it, or a file of a key of gpg."""
    key = (recipient or "").strip()
    if not key:
        return None
    if key.startswith(AGE_KEYS):
        return Seal(".age", ("age", "--recipient", key, "--output"))
    path = pathlib.Path(key)
    try:
        content = path.read_bytes()
    except OSError as error:
        raise Wrong(f"RECIPIENT names {key}, which cannot be read: {error.strerror}") from None
    lines = [
        it
        for it in content.decode("utf-8", "replace").splitlines()
        if it and not it.startswith("#")
    ]
    if lines and all(it.startswith(AGE_KEYS) for it in lines):
        return Seal(".age", ("age", "--recipients-file", key, "--output"))
    if b"PRIVATE KEY" in content or any(it.startswith("AGE-SECRET-KEY") for it in lines):
        raise Wrong(
            f"RECIPIENT names {key}, which is a private key: give the public one, and keep this one elsewhere"
        )
    words = (
        "gpg",
        "--batch",
        "--yes",
        "--quiet",
        "--trust-model",
        "always",
        "--recipient-file",
        key,
    )
    return Seal(".gpg", (*words, "--encrypt", "--output"))


def missing_tool(words: Sequence[str]) -> str | None:
    """What to say where the program of a command is not installed; None where it is."""
    if shutil.which(words[0]):
        return None
    package = "gnupg" if words[0] == "gpg" else words[0]
    return f"{words[0]} is not installed: apt install {package}"


def opening_words(name: str, identity: str | None, source: str, target: str) -> list[str] | None:
    """The command that decrypts a copy; None where it is plain."""
    if name.endswith(".age"):
        if not identity:
            raise Wrong(f"{name} is encrypted: name the private key by --identity")
        return ["age", "--decrypt", "--identity", identity, "--output", target, source]
    if name.endswith(".gpg"):
        return ["gpg", "--batch", "--yes", "--quiet", "--decrypt", "--output", target, source]
    return None
