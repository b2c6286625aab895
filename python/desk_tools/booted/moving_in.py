"""MOVING-IN.md as a person follows it on a machine that desk-setup set up: its own lines, in its own order."""

from __future__ import annotations

import re
import shlex

from desk_tools import agencies
from desk_tools.booted import documents, office
from desk_tools.booted.town import Town

MAIN = agencies.Agency()
PAGE, HERE = "MOVING-IN.md", "On a machine of desk-setup"
BLOCK = re.compile(r"(?ms)^```sh\n(.*?)^```\n(?:\n```text\n(.*?)^```\n)?")
DATE = re.compile(r"\d{4}-\d\d-\d\d")
ASKS = "read -rs KEY"


def check(town: Town) -> None:
    """The package is installed and set up; then the page runs, and prints what it says that it prints."""
    checks, machine = town.checks, town.machine
    ran = office.set_up(machine, "--nightly none")
    town.admin = office.key_in(ran.output)
    blocks = blocks_of(town)
    script = "".join(f"{commands}echo '== {at}'\n" for at, (commands, _) in enumerate(blocks))
    machine.run("cat >/root/page", stdin=script)
    told = machine.run("cd /root && bash -e -o pipefail page 2>page.err", check=False)
    said = machine.run("cat /root/page.err").output
    checks.holds("MOVING-IN.md runs to its end", told.is_well, told.output[-500:] + said[-1500:])
    for (commands, wanted), got in zip(blocks, re.split(r"(?m)^== \d+\n", told.output)):
        if wanted:
            what = f"what this prints: {commands[:80]}"
            checks.equal(what, DATE.sub("DAY", wanted), DATE.sub("DAY", got))
    names = machine.run(f"cat {MAIN.site}/staff/places.json").output
    checks.has("the pages have the places' names", "North End Clinic", names)
    checks.has("the agency keeps its name", office.AGENCY, names_of(town))


def names_of(town: Town) -> str:
    """What everybody reads of the agency."""
    return town.machine.run(f"cat {MAIN.site}/agency.json").output


def blocks_of(town: Town) -> list[tuple[str, str]]:
    """The page's blocks with what they print; those for the sources replaced as the page says."""
    own = [it for kind, it in documents.FENCE.findall(part_of(town)) if kind == "bash"]
    first, keys, times, last = own
    page = (town.machine.root / documents.FOLDER / PAGE).read_text(encoding="utf-8")
    found: list[tuple[str, str]] = BLOCK.findall(page)
    named = documents.filled(keys, {ASKS: f"KEY={shlex.quote(town.admin)}"})
    instead = {"desk init": named, "desk travel": times}
    blocks = [(first, "")]
    for commands, wanted in found[:-1]:
        name = next((it for it in instead if it in commands), None)
        blocks.append((instead[name], wanted) if name else (commands, wanted))
    return [*blocks, (last, "")]


def part_of(town: Town) -> str:
    """The part for this machine."""
    return documents.part(town.machine, PAGE, HERE)
