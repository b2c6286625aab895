"""`desk travel` with a line in the record: driving times go into the file past the site."""

import contextlib
import json
import os
import shutil
import subprocess
import time
from datetime import datetime, timezone
from pathlib import Path

from desk_tools.journal import lines
from desk_tools.journal.people import digits_of_key
from desk_tools.journal.places import Places, Wrong

DENIED, REFUSED = 1, 400


def give(
    places: Places,
    program: Path,
    words: list[str],
    key_file: Path,
    number: int,
    day: str,
    table: Path,
) -> int:
    """Gives a table of driving times, and writes the line of it. Returns the program's status.

    `words` are the database and the zone. The desk must not serve the file meanwhile.
    """
    try:
        key, content = key_file.read_text(encoding="utf-8").strip("\r\n"), table.read_bytes()
    except (OSError, ValueError) as error:
        raise Wrong(f"{error}") from None
    started = time.monotonic()
    try:
        ran = subprocess.run(
            [str(program), "travel", *words, key, str(number), day, str(table)],
            capture_output=True,
            check=False,
        )
    except OSError as error:
        raise Wrong(f"{program}: {error.strerror}") from None
    status = {0: lines.DONE, DENIED: 422}.get(ran.returncode, REFUSED)
    said = ran.stdout.decode("latin-1").strip()
    line = {
        "at": lines.told(datetime.now(timezone.utc)),
        "door": "file",
        "from": "this machine",
        "who": digits_of_key(key),
        "number": str(number),
        "method": "TRAVEL",
        "path": f"/travel/{day}",
        "status": status,
        "took": round(time.monotonic() - started, 3),
        "body": content.decode("utf-8", "replace"),
        "reply": said if status == lines.DONE else json.dumps({"denied": said}),
    }
    with open(
        os.open(places.requests, os.O_WRONLY | os.O_APPEND | os.O_CREAT, 0o640), "ab"
    ) as file:
        file.write(json.dumps(line).encode() + b"\n")
    print(said or ran.stderr.decode(errors="replace").strip())
    return ran.returncode


def begin(places: Places, key: Path, public: Path) -> str:
    """Makes the folder of the record and the key that signs each day, where they are not there. Says the public key."""
    places.record.mkdir(mode=0o750, parents=True, exist_ok=True)
    # nginx's workers open the file of requests again by its name; they list nothing.
    with contextlib.suppress(LookupError, PermissionError):
        shutil.chown(places.folder, group="www-data")
    os.chmod(places.folder, 0o710)
    if not key.exists():
        key.parent.mkdir(mode=0o700, parents=True, exist_ok=True)
        words = ["ssh-keygen", "-q", "-t", "ed25519", "-N", "", "-C", "desk-record", "-f", str(key)]
        try:
            ran = subprocess.run(words, capture_output=True, text=True, check=False)
        except OSError as error:
            raise Wrong(f"ssh-keygen: {error.strerror}") from None
        if ran.returncode:
            raise Wrong(f"no key could be made: {ran.stderr.strip()}")
    text = Path(f"{key}.pub").read_text(encoding="ascii")
    public.write_text(text, encoding="ascii")
    os.chmod(public, 0o644)
    return text.strip()
