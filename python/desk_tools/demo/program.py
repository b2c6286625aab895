"""Which program the office serves: a given one, the installed one, or the proved one of bin/desk."""

from __future__ import annotations

import os
import subprocess

from desk_tools.demo.serving import Trouble

PROGRAM = "pt_app"
INSTALLED = "/usr/bin/desk"


def given(path: str) -> str:
    """A program that was named, as long as it is one."""
    if not os.path.isfile(path) or not os.access(path, os.X_OK):
        raise Trouble(f"{path} is no program")
    try:
        ran = subprocess.run(
            [path, "--help"], capture_output=True, stdin=subprocess.DEVNULL, check=False
        )
    except OSError as error:
        raise Trouble(f"{path} does not run on this machine: {error.strerror}") from None
    if b"rehearse" not in ran.stdout + ran.stderr:
        raise Trouble(f"{path} is not the desk: its --help names no such commands")
    return os.path.abspath(path)


def proved(top: str) -> str:
    """The installed program, or that of the sources, which bin/desk proves and builds where it has to."""
    if not os.path.isdir(f"{top}/crates"):
        return given(INSTALLED)
    ran = subprocess.run(
        [f"{top}/bin/desk", "--help"],
        stdout=subprocess.DEVNULL,
        stdin=subprocess.DEVNULL,
        check=False,
    )
    if ran.returncode:
        raise Trouble(
            "the proved program was not built: what stopped it is above; --unproved takes some minutes instead"
        )
    return f"{top}/crates/{PROGRAM}/out/{PROGRAM}"
