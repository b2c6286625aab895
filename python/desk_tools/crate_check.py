"""bin/check: reads the code and the specs of crates in seconds, and proves nothing.

    bin/check                  the crates of which a file differs from the last commit
    bin/check pt_base_values ..       these crates

Each crate is read over the sources of the crates below it, so nothing need be proved before. What is named: a fault of the
code that the compiler finds, and in each file of specs/ a name that is not there or a type that does not fit. Lemmas and
proofs are not read: `rt check --only FUNCTION` reads those of a function. The exit status is 0 where nothing was found, 1
where something was, and 2 for wrong words or a machine without the kit.
"""

from __future__ import annotations

import argparse
import logging
import re
import shutil
import subprocess
import sys
import tempfile
import time
from collections.abc import Iterator
from dataclasses import dataclass
from pathlib import Path

from desk_tools import ending

TOP = Path(__file__).resolve().parents[2]
FOUND, WRONG = 1, 2
PROBE = "probe_of_specs"
DEFINITION = re.compile(r"^(?:abbrev |unfoldable )?pub (?:record |data )?(?!mod |use )(\S+)", re.M)
# The lines of rattle that name a fault, and those below them that belong to it.
FAULT, END = re.compile(r"error[\[:]"), re.compile(r"^(fn|logic|only=|statements|crate) ?")
AT_PROBE = re.compile(rf"^\S*{PROBE}|^fn .*{PROBE}")
log = logging.getLogger("bin/check")


class Wrong(Exception):
    """What is wrong with the words or the machine, in one sentence."""


@dataclass(frozen=True)
class Crates:
    """The crates of a repository by crates.txt: the libraries that each names, and where the kit is."""

    top: Path
    libraries: dict[str, list[str]]
    kit: Path

    def below(self, name: str) -> list[str]:
        """The repository's crates below one, each after those that it uses."""
        found: list[str] = []
        for it in self.libraries[name]:
            if it in self.libraries:
                found += [one for one in [*self.below(it), it] if one not in found]
        return found

    def of_kit(self, names: list[str]) -> list[str]:
        """The kit's libraries that these crates use."""
        named = {it for name in names for it in self.libraries[name]}
        return sorted({"core", "std"} | (named - self.libraries.keys()))

    def words(self, name: str, folder: Path) -> list[str]:
        """The command that reads a crate, whose files are in the folder, and the probe in it."""
        below, rlibs = self.below(name), self.kit / "rlibs"
        root = "main" if (folder / "src/main.rt").exists() else "lib"
        words = [str(self.kit / "bin/rattle"), "check", "--crate-name", name, f"src/{root}.rt"]
        for it in self.of_kit([*below, name]):
            words += ["--extern", f"{it}={rlibs}/{it}.rlib"]
        words += ["-L", f"dependency={rlibs}"]
        for it in below:
            uses = ",".join(dict.fromkeys(["core", "std", *self.libraries[it]]))
            words += ["--lib", f"{it}:{uses}={self.top}/crates/{it}/src/lib.rt"]
        words += ["--antt-project", str(self.kit / "rattle/logic/antt-project.json")]
        words += ["--logic-built", str(self.kit / "logic_built"), "--links", f"{name}="]
        return [*words, "--jobs", "1", "--only", f"{PROBE}::{PROBE}"]


def crates_of(top: Path) -> Crates:
    """The crates of a repository. Raises Wrong where there are none, or no kit."""
    rattle = shutil.which("rattle")
    if not rattle:
        raise Wrong("rattle is not installed: the kit of Rattle reads the crates (CONTRIBUTING.md)")
    try:
        lines = (top / "crates.txt").read_text(encoding="utf-8").splitlines()
    except OSError as error:
        raise Wrong(f"{top}/crates.txt: {error.strerror}") from None
    named = [it.partition("#")[0].partition(":") for it in lines]
    libraries = {name.split()[0]: libs.split() for name, _, libs in named if name.strip()}
    return Crates(top, libraries, Path(rattle).resolve().parents[1])


def changed(top: Path) -> set[str]:
    """The crates of which a file differs from the last commit, or is new."""
    words = ["git", "-C", str(top), "status", "--porcelain", "--untracked-files=all", "crates"]
    try:
        said = subprocess.run(words, capture_output=True, text=True, check=True).stdout
    except (OSError, subprocess.CalledProcessError):
        raise Wrong("git does not say which crates changed: name them") from None
    return set(re.findall(r"\bcrates/(\w+)/(?:src|specs)/", said))


def specs_of(folder: Path) -> Iterator[tuple[str, str]]:
    """Each module of specs/ that defines something, by its path below the crate, and a name in it."""
    for path in sorted((folder / "specs").rglob("*.antt")):
        found = DEFINITION.search(path.read_text(encoding="utf-8"))
        if found and path.name != "Lib.antt":
            yield ".".join(path.relative_to(folder / "specs").with_suffix("").parts), found[1]


def put_probe(name: str, folder: Path) -> list[str]:
    """Adds a function whose contract names each module of the specs, so that all are read. The modules that have no name."""
    named = dict(specs_of(folder))
    uses = [f"ghost use Rattle.{name}.specs.{module}.{{{it}}};" for module, it in named.items()]
    body = f"pub fn {PROBE}() -> bool {{\n    true\n}}\n"
    (folder / f"src/{PROBE}.rt").write_text("\n".join([*uses, "", body]), encoding="utf-8")
    root = next(it for it in (folder / "src/main.rt", folder / "src/lib.rt") if it.exists())
    with root.open("a", encoding="utf-8") as text:
        text.write(f"\nmod {PROBE};\n")
    files = {
        ".".join(it.relative_to(folder / "specs").with_suffix("").parts)
        for it in (folder / "specs").rglob("*.antt")
        if it.name != "Lib.antt"
    }
    return sorted(files - named.keys())


def faults_in(said: str, name: str) -> list[str]:
    """The faults that rattle names, each with the lines below it; a path of the scratch folder is one of the crate."""
    faults: list[str] = []
    is_open = False
    for line in said.splitlines():
        if FAULT.search(line):
            is_open = not AT_PROBE.search(line)
            if is_open:
                faults.append(re.sub(r"^\.?/?((?:src|specs|proofs)/)", rf"crates/{name}/\1", line))
        elif END.match(line):
            is_open = False
        elif is_open:
            faults[-1] += f"\n{line}"
    return list(dict.fromkeys(faults))


def check(crates: Crates, name: str) -> list[str]:
    """The faults of one crate."""
    source = crates.top / "crates" / name
    with tempfile.TemporaryDirectory(prefix="desk-check-") as scratch:
        folder = Path(scratch, name)
        kept_out = shutil.ignore_patterns("out", "must-fail")
        shutil.copytree(source, folder, ignore=kept_out)
        unread = put_probe(name, folder)
        begun = time.monotonic()
        ran = subprocess.run(
            crates.words(name, folder), cwd=folder, capture_output=True, text=True, check=False
        )
        said = f"{ran.stdout}\n{ran.stderr}"
    faults = faults_in(said, name)
    if not faults and "\nonly=1 proved=1" not in said:
        faults = [f"{name} could not be read to its end:\n{said.strip()[-2000:]}"]
    what = f"{len(faults)} found" if faults else "nothing found"
    log.info("%s: %s in %.0f s", name, what, time.monotonic() - begun)
    if unread:
        log.info("%s: not read, since they define nothing: %s", name, ", ".join(unread))
    return faults


def run(arguments: list[str]) -> int:
    """Checks the crates that are named, or those that changed, the lowest first."""
    parser = argparse.ArgumentParser("bin/check", description=__doc__.partition("\n")[2])
    parser.formatter_class = argparse.RawDescriptionHelpFormatter
    parser.add_argument("crates", metavar="CRATE", nargs="*", help="a crate of crates.txt")
    words = parser.parse_args(arguments)
    logging.basicConfig(format="%(message)s", level=logging.INFO, stream=sys.stderr)
    try:
        crates = crates_of(TOP)
        unknown = [it for it in words.crates if it not in crates.libraries]
        if unknown:
            raise Wrong(f"crates.txt has no crate {unknown[0]}")
        named = set(words.crates) or changed(TOP) & crates.libraries.keys()
    except Wrong as error:
        print(f"bin/check: {error}", file=sys.stderr)
        return WRONG
    if not named:
        print("no file of src/ or specs/ of a crate differs from the last commit: name a crate")
        return 0
    faults = [fault for name in crates.libraries if name in named for fault in check(crates, name)]
    print("\n".join([*faults, f"{len(named)} read, {len(faults)} found"]))
    return FOUND if faults else 0


if __name__ == "__main__":
    ending.run("bin/check", run)
