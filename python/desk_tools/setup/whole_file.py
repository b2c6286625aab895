"""Files and folders that are written whole or not at all: another name first, on the disk, and then the name."""

from __future__ import annotations

import contextlib
import fcntl
import os
import shutil
import tempfile
from collections.abc import Iterator
from pathlib import Path

from desk_tools.setup.limits import Wrong


def folder_synced(folder: str | Path) -> None:
    """Puts on the disk which names the folder has."""
    number = os.open(folder or ".", os.O_RDONLY | os.O_DIRECTORY)
    try:
        os.fsync(number)
    finally:
        os.close(number)


def written(
    path: str | Path, content: str | bytes, mode: int = 0o600, group: int | None = None
) -> None:
    """Gives the file this content. It has the old one until the new one is on the disk."""
    new = f"{path}.new"
    with contextlib.suppress(FileNotFoundError):
        os.remove(new)
    try:
        with open(os.open(new, os.O_WRONLY | os.O_CREAT | os.O_EXCL, mode), "wb") as file:
            if group is not None:
                os.fchown(file.fileno(), -1, group)
            os.fchmod(file.fileno(), mode)
            file.write(content.encode() if isinstance(content, str) else content)
            file.flush()
            os.fsync(file.fileno())
        os.replace(new, path)
    except OSError as error:
        with contextlib.suppress(OSError):
            os.remove(new)
        # (a full disk names no file)
        error.filename = error.filename or str(path)
        raise
    folder_synced(os.path.dirname(path))


@contextlib.contextmanager
def folder_written(path: str) -> Iterator[str]:
    """A folder beside `path`, which gets this name once all is in it. Where that fails, `path` is as it was.

    Raises Wrong where `path` is there and is no empty folder.
    """
    last = os.path.realpath(path)
    if os.path.lexists(last) and (not os.path.isdir(last) or os.listdir(last)):
        raise Wrong(f"{path} is there and is no empty folder: name another one")
    if last == os.path.realpath("."):
        raise Wrong(f"{path} is the folder that you are in: name another one")
    above = os.path.dirname(last)
    os.makedirs(above, exist_ok=True)
    beside = tempfile.mkdtemp(prefix=f".{os.path.basename(last)[:100]}-", dir=above)
    try:
        yield beside
        try:
            os.rename(beside, last)
        except OSError as error:
            raise Wrong(f"{path}: {error.strerror}: name a folder that is not there") from None
    except BaseException as error:
        shutil.rmtree(beside, ignore_errors=True)
        if isinstance(error, OSError):
            # (the folder beside has a name that nobody gave)
            error.filename = path
        raise
    folder_synced(above)


@contextlib.contextmanager
def turn_in(folder: str) -> Iterator[None]:
    """One run at a time works in a folder, and another waits for its turn; nothing is left in it."""
    number = os.open(folder, os.O_RDONLY | os.O_DIRECTORY)
    try:
        fcntl.flock(number, fcntl.LOCK_EX)
        yield
    finally:
        os.close(number)


@contextlib.contextmanager
def alone_in(folder: str) -> Iterator[None]:
    """One run at a time works in a folder; nothing is left in it. Raises Wrong where another run does."""
    number = os.open(folder, os.O_RDONLY | os.O_DIRECTORY | os.O_CLOEXEC)
    try:
        fcntl.flock(number, fcntl.LOCK_EX | fcntl.LOCK_NB)
        yield
    except BlockingIOError:
        raise Wrong(f"another run is under way in {folder}: run the same again") from None
    finally:
        os.close(number)


@contextlib.contextmanager
def alone(path: str) -> Iterator[None]:
    """One run at a time has a file that is read and then written whole. Raises Wrong where another run has it."""
    folder, name = os.path.split(os.path.realpath(path))
    try:
        number = os.open(
            f"{folder}/.{name}.lock", os.O_RDWR | os.O_CREAT | os.O_NOFOLLOW | os.O_CLOEXEC, 0o600
        )
    except OSError as error:
        raise Wrong(f"{path}: {error.strerror}") from None
    try:
        fcntl.flock(number, fcntl.LOCK_EX | fcntl.LOCK_NB)
        yield
    except BlockingIOError:
        raise Wrong(f"another run is under way for {path}: run the same again") from None
    finally:
        os.close(number)
