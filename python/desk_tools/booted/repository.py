"""A signed repository of the package, from which a machine installs; and one that somebody changed."""

from __future__ import annotations

import os
import shutil
import subprocess
from pathlib import Path

from desk_tools.booted import packages
from desk_tools.booted.town import Town

SOURCE = "deb [signed-by=/srv/repository/desk.gpg] file:/srv/repository bookworm main"
ASK = "-o Dir::Etc::sourcelist=/root/desk.list -o Dir::Etc::sourceparts=-"


def check(town: Town) -> None:
    """All of this part. Without reprepro it is left out."""
    checks, machine = town.checks, town.machine
    if not shutil.which("reprepro"):
        print("tests/booted: left out: the repository, for lack of reprepro")
        return
    home = town.package.parent / "gpg"
    home.mkdir(mode=0o700)
    named = {**os.environ, "GNUPGHOME": str(home)}
    words = ["gpg", "--batch", "--quiet", "--passphrase", "", "--quick-generate-key"]
    subprocess.run([*words, "trial@desk.test", "ed25519", "sign", "never"], env=named, check=True)
    folder = machine.root / "srv/repository"
    ran = make(named, folder, "trial@desk.test", town.package)
    checks.equal("a repository is made", (0, ""), (ran.returncode, ran.stderr))
    other = make(named, folder, "nobody@desk.test", town.package)
    checks.equal("a key that is nobody's", (1, 1), (other.returncode, other.stderr.count("\n")))
    subprocess.run(["gpgconf", "--kill", "all"], env=named, check=False)
    machine.run("cat >/root/desk.list", stdin=f"{SOURCE}\n")
    update = machine.run(f"apt-get update {ASK}", check=False)
    checks.holds("apt takes the signature", update.is_well, update.output)
    found = machine.run(f"apt-get download {ASK} --print-uris desk", check=False).output
    checks.has("apt finds the package", town.package.name.replace("~", "%7e"), found)
    machine.run(
        "sed -i 's/^Size: ./Size: 9/' /srv/repository/dists/bookworm/main/binary-amd64/Packages"
    )
    machine.run("sed -i 's/^Label: desk/Label: disk/' /srv/repository/dists/bookworm/InRelease")
    machine.run("rm -rf /var/lib/apt/lists/_root*")
    update = machine.run(f"apt-get update {ASK}", check=False)
    checks.has("one that was changed is refused", "signature", update.output.lower())
    machine.run("rm -rf /srv/repository /root/desk.list")


def make(
    named: dict[str, str], folder: Path, key: str, package: Path
) -> subprocess.CompletedProcess[str]:
    """Runs bin/apt-repository."""
    words = [str(packages.TOP / "bin/apt-repository"), "--key", key, str(folder), str(package)]
    return subprocess.run(words, env=named, capture_output=True, text=True, check=False)
