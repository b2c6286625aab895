"""The desk's package for trials, and others of it: another version, another program."""

from __future__ import annotations

import os
import re
import subprocess
from pathlib import Path

TOP = Path(__file__).resolve().parents[3]
# A program that opens no file of a desk, but says its version.
REFUSING = """#!/bin/sh
case "${1:-}" in
--version) echo "desk 0.99.0" ;;
*) echo "fault 31 row 7" >&2; exit 4 ;;
esac
"""
# One that opens the file, by the program of before, and ends as soon as it is to serve.
ENDING = """#!/bin/sh
case "${1:-}" in
--version) echo "desk 0.99.5" ;;
serve) echo "fault 32" >&2; exit 4 ;;
*) exec /var/lib/desk-upgrade/desk "$@" ;;
esac
"""


def made(program: Path, folder: Path) -> Path:
    """The package of this tree with a program, for trial. Raises RuntimeError with what bin/package says."""
    words = [str(TOP / "bin/package"), "--for-trial", "--program", str(program)]
    # (it is thrown away, so it need not be small)
    quickly = {**os.environ, "DPKG_DEB_COMPRESSOR_LEVEL": "1"}
    words += ["--output", str(folder)]
    ran = subprocess.run(words, check=False, capture_output=True, text=True, env=quickly)
    if ran.returncode:
        raise RuntimeError(f"no package was made: {ran.stderr.strip()[-300:]}")
    return next(folder.glob("desk_*.deb"))


def version_of(package: Path) -> str:
    """The version of a package."""
    words = ["dpkg-deb", "--field", str(package), "Version"]
    return subprocess.run(words, check=True, capture_output=True, text=True).stdout.strip()


def other(package: Path, version: str, program: str | None = None) -> Path:
    """The same package of another version, and with a program that is this script where one is given."""
    room = package.parent / f"other-{version}"
    subprocess.run(["dpkg-deb", "-R", str(package), str(room)], check=True)
    control = room / "DEBIAN/control"
    text = re.sub(r"(?m)^Version: .*$", f"Version: {version}", control.read_text(encoding="utf-8"))
    control.write_text(text, encoding="utf-8")
    if program is not None:
        (room / "usr/bin/desk").write_text(program, encoding="utf-8")
    path = package.parent / f"desk_{version}_amd64.deb"
    words = ["dpkg-deb", "--root-owner-group", "-Zgzip", "-z1", "--build", str(room), str(path)]
    subprocess.run(words, check=True, capture_output=True)
    return path
