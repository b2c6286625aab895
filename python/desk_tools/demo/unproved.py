"""Compiles the program of the sources with no proof. It takes the Rattle kit, and the package has no use for it.

The first program is made in a few minutes and is slow. While the office runs, a quick one is made for the next start.
"""

from __future__ import annotations

import contextlib
import glob
import hashlib
import os
import shutil
import signal
import subprocess
import sys
import tempfile
import time
from typing import Any

from desk_tools.build import sources
from desk_tools.demo.serving import end, Trouble

CRATE = "pt_app"
ROOM = 600_000_000
# What the kit's compiler is told for a quick trial, and a program that serves has no use for.
OF_TRIALS = "-fsanitize=", "-O", "-Werror"
# The kit first tries its compiler on a module of some hundred bytes; a program's module has megabytes.
SMALLEST_MODULE = 100_000
# The first program takes a fifth of the time of the quick one to compile, and twenty times as long for each request.
LEVEL_OF_FIRST, LEVEL_OF_QUICK = "-O0", "-O2"


def kits_line() -> str:
    """What `rt version` prints, with the kit's logic."""
    ran = None
    if shutil.which("rt"):
        ran = subprocess.run(
            ["rt", "version"], capture_output=True, text=True, stdin=subprocess.DEVNULL, check=False
        )
    if not ran or ran.returncode or "logic" not in ran.stdout.split():
        raise Trouble(
            "there is no rt of the Rattle kit on this machine, which compiles the program; install the package "
            "desk, or name a program with --program FILE"
        )
    return ran.stdout.strip()


def places(top: str) -> tuple[str, str]:
    """Where the quick program and the first one of these sources are kept."""
    cache = os.path.join(os.environ.get("XDG_CACHE_HOME") or os.path.expanduser("~/.cache"), "desk")
    name = hashlib.sha256(f"{kits_line()} {sources.digest(top)}".encode()).hexdigest()[:24]
    return f"{cache}/unproved-{name}", f"{cache}/unproved-{name}-first"


def program(top: str, step: Any) -> str:
    """The program compiled with no proof: a quick one, where an earlier start made it."""
    quick, first = places(top)
    if os.path.isfile(quick):
        return quick
    if not os.path.isfile(first):
        make(top, first, LEVEL_OF_FIRST, step)
    return first


def make(top: str, kept: Any, level: Any, step: Any) -> None:
    """Makes the program at a level of LLVM's compiler, and keeps it."""
    os.makedirs(os.path.dirname(kept), exist_ok=True)
    with tempfile.TemporaryDirectory(prefix="desk-office-") as room:
        if shutil.disk_usage(room).free < ROOM:
            raise Trouble(
                f"compiling takes {ROOM // 1_000_000} megabytes in {room}, and there is less"
            )
        made = compiled(top, room, level, step)
        part = f"{kept}.{os.getpid()}"
        shutil.copy(made, part)
        os.replace(part, kept)


class Quicker:
    """Makes the quick program while the office runs, by a process that gives way to all others."""

    def __init__(self, top: str) -> None:
        words = [
            "nice",
            "-n",
            "19",
            sys.executable,
            "-P",
            "-B",
            "-m",
            "desk_tools.demo.unproved",
            top,
        ]
        self.process = subprocess.Popen(
            words,
            stdin=subprocess.DEVNULL,
            stdout=subprocess.DEVNULL,
            stderr=subprocess.DEVNULL,
            start_new_session=True,
        )

    def stop(self) -> None:
        end(self.process, 60)


def quicker(top: str, path: str) -> Any:
    """What makes a quick program for the next start, or None where this one is quick."""
    return Quicker(top) if path == places(top)[1] else None


def compiled(top: str, room: Any, level: Any, step: Any) -> Any:
    """Makes the program in the folder `room`. The kit writes a module for LLVM, and its own compiler goes on from it."""
    with step("reading the sources, without proofs, in two or three minutes"):
        copy_sources(top, f"{room}/tree")
        compiler, words = module_of(f"{room}/tree/crates/{CRATE}", room)
    with step("compiling"):
        toolchain = os.path.dirname(os.path.dirname(compiler))
        run([compiler, *[it for it in words[1:] if not it.startswith(OF_TRIALS)], level], room)
        return linked(toolchain, words, room)


def copy_sources(top: str, folder: str) -> None:
    for path in sources.files(top):
        copy = f"{folder}/{path}"
        os.makedirs(os.path.dirname(copy), exist_ok=True)
        shutil.copy(f"{top}/{path}", copy)


def module_of(crate: Any, room: Any) -> Any:
    """Lets `rt try` write the module of a crate, and copies that to `room`. The kit's compiler, and what it was told."""
    os.mkdir(f"{room}/tmp")
    with open(f"{room}/said", "wb") as said:
        trying = subprocess.Popen(
            ["rt", "try", "--", "--version"],
            stdin=subprocess.DEVNULL,
            stdout=said,
            stderr=said,
            cwd=crate,
            start_new_session=True,
            env={**os.environ, "TMPDIR": f"{room}/tmp"},
        )
        try:
            while trying.poll() is None:
                found = compiler_below(os.path.realpath(f"{room}/tmp"))
                if found:
                    folder, compiler, words = found
                    shutil.copy(
                        os.path.join(folder, module_in(words)), f"{room}/{module_in(words)}"
                    )
                    return compiler, words
                time.sleep(0.1)
        finally:
            end(trying, 60)
    with open(f"{room}/said", encoding="utf-8", errors="replace") as file:
        raise Trouble(f"the program was not compiled: {file.read().strip()[-400:]}")


def module_in(words: Any) -> Any:
    """The file of a module among the words of LLVM's compiler, or None."""
    return words[words.index("ir") + 1] if "ir" in words[:-1] else None


def is_program(place: Any, words: Any) -> bool:
    """Whether LLVM's compiler was given the module of a program."""
    name = module_in(words)
    return bool(name) and os.path.getsize(os.path.join(place, name)) >= SMALLEST_MODULE


def compiler_below(folder: str) -> Any:
    """The compiler of a program in a folder below this one: its own folder, its file, and its words. None before it runs."""
    for process in glob.glob("/proc/[0-9]*"):
        try:
            place = os.readlink(f"{process}/cwd")
            with open(f"{process}/cmdline", "rb") as file:
                words = file.read().decode().split("\0")[:-1]
            if place.startswith(f"{folder}/") and is_program(place, words):
                return place, os.readlink(f"{process}/exe"), words
        except (OSError, UnicodeDecodeError):
            continue
    return None


def linked(toolchain: Any, words: Any, room: Any) -> str:
    """Links what the compiler made of the module, as the kit links a proved program."""
    kit = os.path.dirname(toolchain)
    target = next(it for it in words if it.startswith("--target=")).partition("=")[2]
    made = words[words.index("-o") + 1]
    told = ["--target", target, "--toolchain", toolchain, "-o", CRATE, made]
    run([f"{kit}/bin/rattle-link", *told, f"{kit}/c/libos_c.a", f"{kit}/c/liblibc_c.a"], room)
    return f"{room}/{CRATE}"


def run(words: Any, folder: str) -> None:
    ran = subprocess.run(
        words, cwd=folder, capture_output=True, stdin=subprocess.DEVNULL, check=False
    )
    if ran.returncode:
        said = (ran.stderr or ran.stdout).decode(errors="replace").strip()
        raise Trouble(
            f"the program was not compiled: {os.path.basename(words[0])} says {said[-300:]!r}"
        )


def main(top: str) -> None:
    """Makes the quick program. Whoever started this ends it by SIGTERM, and nothing is left then."""
    signal.signal(signal.SIGTERM, lambda *_: sys.exit(1))
    make(top, places(top)[0], LEVEL_OF_QUICK, lambda text: contextlib.nullcontext())


if __name__ == "__main__":
    main(sys.argv[1])
