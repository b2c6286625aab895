#!/usr/bin/env python3
"""bin/desk WORD.. runs the program `desk`, from any folder.

Where a source is newer than the program, or the kit proves by another logic than the one it was built with, it is built
first, with the Rattle kit's `rt`. A build speaks to standard error. One that was stopped goes on where it was if the
kit keeps its proofs; else it begins again.
`bin/desk built` says by what the program was built, and builds nothing.
"""

from __future__ import annotations

import os
import shutil
import subprocess
import sys
import time
from typing import Any

from desk_tools.arguments import HELP
from desk_tools.build import built, progress, proving, sources
from desk_tools.tree import TOP

CRATE = f"{TOP}/{built.CRATE}"
PROGRAM, BUILT = f"{TOP}/{built.PROGRAM}", f"{TOP}/{built.NOTE}"
LINES_OF_A_FAILURE = 40
FIRST_BUILD = "40 minutes"


def fail(text: str) -> int:
    print(f"bin/desk: {text}", file=sys.stderr)
    return 1


def kits_line() -> Any:
    """What `rt version` prints, or nothing where there is no kit."""
    if not shutil.which("rt"):
        return ""
    return subprocess.run(
        ["rt", "version"], capture_output=True, text=True, check=False
    ).stdout.strip()


def is_stale() -> bool:
    """Whether the program has to be built: it is not what was built here, a source is newer, or the kit has another logic."""
    note = built.note(TOP)
    if not note or not os.access(PROGRAM, os.X_OK) or sources.digest_of(PROGRAM) != note["program"]:
        return True
    begun = os.path.getmtime(BUILT)
    if any(os.path.getmtime(f"{TOP}/{it}") > begun for it in sources.files(TOP)):
        return True
    kit = kits_line()
    return bool(kit) and built.logic_in(kit) != built.logic_in(note["kit"])


def say_built() -> Any:
    """Says by what the program was built."""
    note = built.note(TOP)
    if not note or not os.path.isfile(PROGRAM):
        return fail("the program was not built by bin/desk yet")
    print(
        f"built by {note['kit']}\nSHA-256 {note['program']}\n{built.functions_proved(TOP) or 'uncounted'} functions proved"
    )
    print(
        "another program, a source or the kit is newer"
        if is_stale()
        else "from the present sources"
    )
    return 0


def build() -> Any:
    """Proves and builds the program. The exit status of what does so."""
    kit, log = kits_line(), f"{CRATE}/out/desk.log"
    if not built.logic_in(kit):
        return fail("the program has to be built, and there is no rt of the Rattle kit.")
    os.makedirs(f"{CRATE}/out", exist_ok=True)
    crates, _ = sources.crates_of(TOP)
    print(
        f"bin/desk: building the program with {kit}. A first build proves each function of {len(crates)} crates, in "
        f"about {FIRST_BUILD}. If the kit keeps its proofs, a stopped build goes on at the next call. What the kit says "
        f"goes to {log}.",
        file=sys.stderr,
        flush=True,
    )
    open(log, "wb").close()
    begun, digest = time.time(), sources.digest(TOP)
    try:
        with progress.Progress(crates, log):
            status = proving.build(TOP, log)
    finally:
        said = progress.lines_of(log)
        built.keep_counts(TOP, said)
    if status:
        sys.stderr.writelines(said[-LINES_OF_A_FAILURE:])
        return fail(
            f"the program was not built: what was not proved is above, and all of it in {log}."
        )
    built.write_note(TOP, kit, digest, begun)
    print(
        f"bin/desk: built by {kit}, in {int((time.time() - begun) // 60)} minutes.", file=sys.stderr
    )
    return 0


def main(words: Any) -> Any:
    if words == ["built"]:
        return say_built()
    if is_stale() and words in HELP:
        print(__doc__, end="")
        return 0
    if is_stale():
        status = build()
        if status:
            return status
    os.execv(PROGRAM, ["desk", *words])
    return 0


if __name__ == "__main__":
    try:
        sys.exit(main(sys.argv[1:]))
    except KeyboardInterrupt:
        sys.exit(
            fail("stopped; the next build goes on from here if the kit keeps its proofs.") + 129
        )
