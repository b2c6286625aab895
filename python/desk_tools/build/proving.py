"""Proves and builds the program: the kit's own gate, over a copy of the program's crates without their mutants.

The kit proves several crates at a time, those first that most others wait for. Some kits keep what they proved on this
machine. With such a kit a build that was stopped goes on, and bin/gate does not prove again what bin/desk proved.
"""
import os
import shutil
import subprocess
import tempfile

from desk_tools.build import built, sources

LEFT_OUT = "out", "must-fail"


def copy_crates(top: str, folder: str, crates: list[str]) -> None:
    """Copies these crates, their lines of crates.txt and HANDLES."""
    for name in crates:
        shutil.copytree(
            f"{top}/crates/{name}",
            f"{folder}/crates/{name}",
            ignore=shutil.ignore_patterns(*LEFT_OUT),
        )
    with open(f"{top}/crates.txt", encoding="utf-8") as file:
        lines = [
            line
            for line in file
            if line.split(":")[0].split()[:1] and line.split(":")[0].split()[0] in crates
        ]
    with open(f"{folder}/crates.txt", "w", encoding="utf-8") as file:
        file.writelines(lines)
    shutil.copy(f"{top}/HANDLES", folder)


def build(top: str, log: str) -> int:
    """Puts the program where bin/desk runs it. What the kit says goes to the log. The exit status of the kit."""
    crates, _ = sources.crates_of(top)
    with tempfile.TemporaryDirectory(prefix="desk-build-") as room, open(log, "ab") as output:
        copy_crates(top, f"{room}/tree", crates)
        ran = subprocess.run(
            [f"{top}/bin/meter", f"{room}/costs", "rt", "ci"],
            cwd=f"{room}/tree",
            stdin=subprocess.DEVNULL,
            stdout=output,
            stderr=output,
            check=False,
        )
        if ran.returncode == 0:
            os.makedirs(f"{top}/{built.CRATE}/out", exist_ok=True)
            shutil.copy(f"{room}/tree/{built.PROGRAM}", f"{top}/{built.PROGRAM}.new")
            os.replace(f"{top}/{built.PROGRAM}.new", f"{top}/{built.PROGRAM}")
    return ran.returncode
