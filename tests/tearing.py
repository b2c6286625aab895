"""The files of a database with only some of their sectors written, as a power cut leaves them: for tests/cuts, tests/migrate."""
import os
from collections.abc import Iterator
from pathlib import Path
from typing import Any

SECTOR = 512


def files_of(file: str) -> dict[str, bytes]:
    """The bytes of the database and of its log, by their names."""
    found = {}
    for name in (file, f"{file}-wal"):
        if os.path.exists(name):
            found[os.path.basename(name)] = Path(name).read_bytes()
    return found


def put_files(folder: str, files: dict[Any, Any]) -> None:
    for name, content in files.items():
        Path(f"{folder}/{name}").write_bytes(content)


def sectors_of(before: Any, after: Any) -> Iterator[Any]:
    """Each sector in which a file is another one after, in the order of the file: its name and where it begins."""
    for name in sorted(after):
        old, new = before.get(name, b""), after[name]
        for at in range(0, max(len(old), len(new)), SECTOR):
            if old[at : at + SECTOR] != new[at : at + SECTOR]:
                yield name, at


def torn(before: Any, after: Any, written: Any) -> dict[Any, bytearray]:
    """The files with these sectors alone written, and no longer than they have to be."""
    made = {name: bytearray(bytes_) for name, bytes_ in before.items()}
    for name, at in written:
        file, piece = made.setdefault(name, bytearray()), after[name][at : at + SECTOR]
        file.extend(bytes(max(0, at - len(file))))
        file[at : at + len(piece)] = piece
    return made
