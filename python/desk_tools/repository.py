"""bin/apt-repository: makes a signed apt repository of the desk's packages, which apt checks by itself.

    bin/apt-repository --key KEY FOLDER FILE.deb ..

KEY is the fingerprint or the address of a secret key of gpg. FOLDER is made, or gets more packages; a web server may
serve it. Its file desk.gpg is the public key, for whoever installs. The exit status is 0 where all is done, 1 where
something failed, and 2 for wrong words. It takes Debian's reprepro and gpg.
"""

from __future__ import annotations

import re
import shutil
import subprocess
import sys
from pathlib import Path

from desk_tools import ending
from desk_tools.arguments import usage_of

SUITE = "bookworm"
SETTINGS = """Origin: Chervilnook
Label: desk
Codename: {suite}
Architectures: amd64
Components: main
Description: the office system of a paratransit agency
SignWith: {key}
"""


class Failure(Exception):
    """Why there is no repository, in one sentence."""


def said_by(words: list[str]) -> bytes:
    """What a command prints. Raises Failure with the last line of what it says else."""
    try:
        ran = subprocess.run(words, capture_output=True, stdin=subprocess.DEVNULL, check=False)
    except OSError as error:
        raise Failure(f"{words[0]} does not run: {error.strerror}") from None
    if ran.returncode:
        lines = ran.stderr.decode(errors="replace").strip().splitlines()
        raise Failure(f"{words[0]} failed: {lines[-1] if lines else ran.returncode}")
    return ran.stdout


def fingerprint_of(key: str) -> str:
    """The fingerprint of a secret key that gpg has."""
    told = said_by(["gpg", "--batch", "--with-colons", "--list-secret-keys", key]).decode()
    found = re.search(r"(?m)^fpr:+([0-9A-F]+):", told)
    if not found:
        raise Failure(f"gpg has no secret key {key!r}")
    return found[1]


def make(folder: Path, key: str, packages: list[Path]) -> None:
    """Makes the repository, or adds to it. A repository of another key is refused."""
    for path in packages:
        if not path.is_file():
            raise Failure(f"there is no {path}")
    fingerprint = fingerprint_of(key)
    settings = folder / "conf/distributions"
    text = SETTINGS.format(suite=SUITE, key=fingerprint)
    if settings.exists() and settings.read_text(encoding="utf-8") != text:
        raise Failure(f"{folder} is signed by another key: see {settings}")
    settings.parent.mkdir(parents=True, exist_ok=True)
    settings.write_text(text, encoding="utf-8")
    (folder / "desk.gpg").write_bytes(said_by(["gpg", "--batch", "--export", fingerprint]))
    for path in packages:
        said_by(["reprepro", "--basedir", str(folder), "includedeb", SUITE, str(path)])


def main(arguments: list[str]) -> int:
    """The command; its exit status."""
    words = usage_of("bin/apt-repository", __doc__)
    words.takes("--key", "a secret key of gpg", required=True)
    words.takes("folder FOLDER", type=Path)
    words.takes("packages FILE.deb", type=Path, nargs="+")
    told = words.parse_args(arguments)
    try:
        for tool in ("reprepro", "gpg"):
            if not shutil.which(tool):
                raise Failure(f"{tool} is not installed")
        make(told.folder, told.key, told.packages)
    except (Failure, OSError) as failure:
        print(f"bin/apt-repository: {failure}", file=sys.stderr)
        return 1
    print(f"{told.folder} has {', '.join(it.name for it in told.packages)}, signed")
    return 0


if __name__ == "__main__":
    ending.run("bin/apt-repository", main)
