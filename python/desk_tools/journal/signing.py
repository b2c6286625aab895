"""The head of a closed file, its signature by ssh-keygen, and the copy elsewhere."""

import logging
import os
import shutil
import subprocess
import tempfile
import time
from dataclasses import dataclass
from pathlib import Path

from desk_tools.journal import chain
from desk_tools.journal.places import Wrong
from desk_tools.setup import whole_file

SIGNER, PURPOSE, HOUR = "desk", "desk-record", 3300
LOG = logging.getLogger("journal")


@dataclass(frozen=True)
class Head:
    """What is signed of a closed file: its name, its first and last entry, and the digest of the last."""

    site: str
    file: str
    first: int
    last: int
    digest: str

    def text(self) -> str:
        """The text that is signed."""
        return (
            f"record of {self.site}\nfile {self.file}\nentries {self.first} to {self.last}\n"
            f"digest {self.digest}\n"
        )


def head_of(file: chain.File) -> Head:
    """The head of a file as it stands there."""
    first = last = 0
    digest, site = chain.FIRST, ""
    for entry in chain.entries_of(file):
        first = first or entry.place
        last, digest = entry.place, entry.chain
        if entry.note == "opened":
            site = str(entry.fields.get("site", ""))
    return Head(site, file.name, first, last, digest)


def written(path: Path, content: bytes, mode: int = 0o640) -> None:
    """Gives a file this content, whole or not at all."""
    new = path.with_name(path.name + ".new")
    with open(os.open(new, os.O_WRONLY | os.O_CREAT | os.O_TRUNC, mode), "wb") as file:
        os.fchmod(file.fileno(), mode)
        file.write(content)
        file.flush()
        os.fsync(file.fileno())
    os.replace(new, path)
    whole_file.folder_synced(path.parent)


def ran(*words: str, text: bytes = b"") -> subprocess.CompletedProcess[bytes]:
    """How a command ends."""
    try:
        return subprocess.run(words, input=text, capture_output=True, check=False, timeout=120)
    except (OSError, subprocess.TimeoutExpired) as error:
        raise Wrong(f"{words[0]}: {error}") from None


def sign(folder: Path, head: Head, key: Path) -> None:
    """Writes the head and its signature beside the file, where they are not there yet."""
    path = folder / f"{head.file}.head"
    if not path.exists():
        written(path, head.text().encode())
    if not key.exists() or path.with_name(f"{path.name}.sig").exists():
        return
    told = ran("ssh-keygen", "-Y", "sign", "-f", str(key), "-n", PURPOSE, text=head.text().encode())
    if told.returncode:
        raise Wrong(
            f"{path.name} could not be signed: {told.stderr.decode(errors='replace').strip()}"
        )
    written(path.with_name(f"{path.name}.sig"), told.stdout)


def is_signed(head: bytes, signature: Path, public: Path) -> bool:
    """Whether the signature is one of these bytes by that key."""
    with tempfile.NamedTemporaryFile("w", encoding="ascii") as allowed:
        allowed.write(f"{SIGNER} {public.read_text(encoding='ascii')}\n")
        allowed.flush()
        words = ("-I", SIGNER, "-n", PURPOSE, "-s", str(signature))
        return (
            ran("ssh-keygen", "-Y", "verify", "-f", allowed.name, *words, text=head).returncode == 0
        )


def marked(folder: Path, head: Head) -> Path:
    """The folder with the one head that says how far the open file goes."""
    now = folder.parent / "heads"
    now.mkdir(mode=0o750, exist_ok=True)
    before = list(now.iterdir())
    written(now / f"{head.file}-{head.last}.now", head.text().encode())
    for old in before:
        if old.name != f"{head.file}-{head.last}.now":
            old.unlink()
    return now


def sent(folder: Path, offsite: str, head: Head) -> None:
    """Adds, once an hour, the closed files, heads and signatures to the copy elsewhere, and how far the open file goes.

    Nothing that is there is changed: a file of the same name and another size is a fault that is said.
    """
    now, stamp = marked(folder, head), folder.parent / "sent"
    if stamp.exists() and time.time() - stamp.stat().st_mtime < HOUR:
        return
    ends = (".jsonl.gz", ".head", ".sig")
    found = [it for it in sorted(folder.iterdir()) if it.name.endswith(ends)] + list(now.iterdir())
    # (a path has a slash before any colon)
    if ":" in offsite.partition("/")[0]:
        told = ran("rsync", "--ignore-existing", "--times", *map(str, found), f"{offsite}/")
        if told.returncode:
            raise Wrong(f"{offsite} took no copy: {told.stderr.decode(errors='replace').strip()}")
    else:
        for path in found:
            copied(path, Path(offsite))
    written(stamp, b"")


def copied(path: Path, folder: Path) -> None:
    """Adds one file to a folder."""
    if not folder.is_dir():
        raise Wrong(f"{folder} is no folder, so the record has no copy elsewhere")
    there = folder / path.name
    if there.exists():
        if there.stat().st_size != path.stat().st_size:
            LOG.error("%s has another content elsewhere: one of the two was changed", path.name)
        return
    new = folder / f"{path.name}.part"
    shutil.copyfile(path, new)
    with new.open("rb") as file:
        os.fsync(file.fileno())
    os.rename(new, there)
    whole_file.folder_synced(folder)
