#!/usr/bin/env python3
"""Makes the Debian package of the desk: desk_VERSION_amd64.deb.

  bin/package                              of the program that bin/desk proved and built
  bin/package --for-trial --program FILE   of any program; version, description and receipt then say that it is for trial
  bin/package --check FILE.deb             makes the package anew, and says whether the bytes are the same

A package that is not for trial has a program that bin/desk built of the present sources, and that names the logic of its
proof. Two runs over one commit and one program give the same bytes, in whatever folder. The exit status is 0 where the
package was made, or is the same; 1 where not; 2 for wrong words.
"""

from __future__ import annotations

import concurrent.futures
import os
import re
import shutil
import subprocess
import tempfile
import time
from typing import Any

from desk_tools import ending, page_packing
from desk_tools.arguments import usage_of
from desk_tools.build import built, sources
from desk_tools.demo import mark
from desk_tools.packaging import completion, layout, licences, receipt
from desk_tools.tree import TOP


class Failure(Exception):
    """Why there is no package, in one sentence."""


def said_by(*words: Any) -> Any:
    """What a command prints on standard output."""
    try:
        ran = subprocess.run(
            words, capture_output=True, text=True, stdin=subprocess.DEVNULL, check=False
        )
    except OSError as error:
        raise Failure(f"{words[0]} does not run: {error.strerror}") from None
    if ran.returncode:
        raise Failure(
            f"{' '.join(words[:2])} ended with status {ran.returncode}: {ran.stderr.strip()[-300:]}"
        )
    return ran.stdout.strip()


def need_tools() -> None:
    for name in "dpkg-deb", "git", "rt", "esbuild":
        if not shutil.which(name):
            raise Failure(f"{name} is missing on this machine, and a package takes it")


def proved_program(kits_line: Any) -> Any:
    """The program of bin/desk, which builds it first where a source is newer. It has to come from a proof."""
    ran = subprocess.run(
        [f"{TOP}/bin/desk", "--version"],
        stdout=subprocess.DEVNULL,
        stdin=subprocess.DEVNULL,
        check=False,
    )
    if ran.returncode:
        raise Failure("the program was not built, so there is none to pack")
    path, note = f"{TOP}/{built.PROGRAM}", built.note(TOP)
    if note.get("program") != sources.digest_of(path):
        raise Failure(f"{path} is not the program that bin/desk built")
    if note["sources"] != sources.digest(TOP):
        raise Failure("a source was changed while the program was built: run this again")
    logic = mark.logic_of(path)
    if not logic or not logic.startswith(built.logic_in(kits_line) or "-"):
        raise Failure(
            f"{path} does not name this kit's logic, as a program does that was proved; --for-trial packs it"
        )
    return path


def trial_program(path: str) -> Any:
    path = os.path.abspath(path)
    if not os.path.isfile(path) or not os.access(path, os.X_OK):
        raise Failure(f"{path} is no program")
    return path


def moment() -> int:
    """The seconds that all times in the package are: of the environment, else of the last commit."""
    text = os.environ.get("SOURCE_DATE_EPOCH") or said_by(
        "git", "-C", TOP, "log", "-1", "--format=%ct"
    )
    if not text.isdigit():
        raise Failure(f"SOURCE_DATE_EPOCH is {text!r}, and not a number of seconds")
    return int(text)


def changes_of(version: Any, seconds: Any) -> str:
    """The package's own list of changes, which points to that of the sources."""
    day = time.strftime("%a, %d %b %Y %H:%M:%S +0000", time.gmtime(seconds))
    return (
        f"desk ({version}) unstable; urgency=medium\n\n  * What changed is in /usr/share/doc/desk/CHANGELOG.md.\n\n"
        f" -- Chervilnook <desk@chervilnook.example>  {day}\n"
    )


def helps_of(program: str) -> layout.Helps:
    """What each command says of itself, and what it says of each of its words: (name, section) -> (help, {word: help})."""
    tools = sorted(
        it for it in os.listdir(f"{TOP}/bin") if it not in layout.OF_SOURCES and it != "office"
    )
    commands = {
        f"desk-{it}": (f"{TOP}/bin/{it}", f"bin/{it}")
        for it in tools
        if os.path.isfile(f"{TOP}/bin/{it}")
    }
    commands |= {
        "desk-demo": (f"{TOP}/bin/office", "bin/office"),
        "desk": (program, os.path.basename(program)),
    }
    commands["desk-setup"] = f"{TOP}/packaging/desk-setup", "desk-setup"
    with concurrent.futures.ThreadPoolExecutor(os.cpu_count()) as pool:
        helps = pool.map(lambda it: help_of(*commands[it], it), commands)
        return {
            (name, 8 if name == "desk-setup" else 1): said for name, said in zip(commands, helps)
        }


def help_of(command: str, called: str, name: str) -> layout.Help:
    """The help of a command and of each of its words, in which it has the name of the package."""
    text = said_by(command, "--help").replace(called, name)
    words = completion.words_in(text)
    return text, {it: said_by(command, it, "--help").replace(called, name) for it in words}


def make(words: Any, output: Any) -> Any:
    """Makes the package in the folder `output`, and gives back its path."""
    seconds, kits_line = moment(), said_by("rt", "version")
    is_proved = not words.for_trial
    program = proved_program(kits_line) if is_proved else trial_program(words.program)
    kit = os.path.dirname(os.path.dirname(os.path.realpath(str(shutil.which("rt")))))
    numbers = re.findall(r"\d+\.\d+\.\d+", said_by(program, "--version"))
    if not numbers:
        raise Failure(f"{program} names no version")
    number = numbers[0]
    # To dpkg this is below the version itself, so the real package takes its place.
    version = number if is_proved else f"{number}~trial"
    proof = receipt.receipt(TOP, program, None if is_proved else kits_line)
    made = time.strftime("%Y-%m-%dT%H:%M:%SZ", time.gmtime(seconds))
    bill = receipt.bill(TOP, kit, version, made, lambda crate: licences.of_crate(kit, crate), proof)
    with tempfile.TemporaryDirectory(prefix="desk-package-") as room:
        os.umask(0o022)
        root = layout.Layout(TOP, f"{room}/root", kit)
        layout.put_program(root, program)
        layout.put_tools(root)
        root.copy("CHANGELOG.md", "usr/share/doc/desk/CHANGELOG.md")
        day = time.strftime("%Y-%m-%d", time.gmtime(seconds))
        texts = layout.Texts(changes_of(version, seconds), proof, bill)
        layout.put_documents(root, version, day, helps_of(program), texts)
        layout.put_control(root, version, is_proved)
        path = f"{output}/desk_{version}_amd64.deb"
        pack(f"{room}/root", path, seconds)
    return path


def pack(root: Any, path: str, seconds: Any) -> None:
    for place, folders, files in os.walk(root):
        os.chmod(place, 0o755)
        for name in (*folders, *files):
            os.utime(f"{place}/{name}", (seconds, seconds), follow_symlinks=False)
    words = ["dpkg-deb", "--root-owner-group", "-Zxz", "--threads-max=1", "--build", root, path]
    ran = subprocess.run(
        words,
        capture_output=True,
        text=True,
        check=False,
        env={**os.environ, "SOURCE_DATE_EPOCH": str(seconds)},
    )
    if ran.returncode:
        raise Failure(f"dpkg-deb: {ran.stderr.strip()}")


def check(given: Any, words: Any) -> int:
    """Makes the package anew and compares the bytes."""
    if not os.path.isfile(given):
        raise Failure(f"{given} is no file")
    with tempfile.TemporaryDirectory(prefix="desk-check-") as room:
        path = make(words, room)
        if sources.digest_of(path) == sources.digest_of(given):
            print(f"{given} is the same, byte for byte: SHA-256 {sources.digest_of(given)}")
            return 0
        parts = [f"{room}/given", f"{room}/made"]
        for package, part in zip((given, path), parts):
            said_by("dpkg-deb", "-R", package, part)
        told = subprocess.run(
            ["diff", "-rq", "--no-dereference", *parts], capture_output=True, text=True, check=False
        ).stdout
        print(
            f"{given} is another package. These files differ:\n{told.replace(room + '/', '')}",
            end="",
        )
    return 1


def words_of(arguments: Any) -> Any:
    parser = usage_of("bin/package", __doc__)
    parser.flag("--for-trial", "pack a program that need not be proved")
    parser.takes("--program FILE", "with --for-trial, the program")
    parser.takes("--output FOLDER", "where the package goes", default=".")
    parser.takes("--check FILE", "compare this package with one that is made anew")
    words = parser.parse_args(arguments)
    if words.for_trial != (words.program is not None):
        parser.error(
            "--for-trial and --program FILE go together: a package that is not for trial is of bin/desk's program"
        )
    return words


def main(arguments: Any) -> Any:
    words = words_of(arguments)
    try:
        need_tools()
        if words.check:
            return check(words.check, words)
        if not os.path.isdir(words.output):
            raise Failure(f"{words.output} is no folder")
        path = make(words, os.path.abspath(words.output))
        print(
            f"{path}: {os.path.getsize(path) // 1_000} kilobytes, SHA-256 {sources.digest_of(path)}"
        )
    except (Failure, page_packing.Unpackable, OSError) as error:
        return ending.told("bin/package", error, 1)
    return 0


if __name__ == "__main__":
    ending.run("bin/package", main)
