"""What bin/desk notes beside the program that it built: by which kit, of which sources, and what was proved."""
import contextlib
import json
import os
import re
from typing import Any

from desk_tools.build import sources

CRATE = "crates/pt_app"
PROGRAM, NOTE = f"{CRATE}/out/pt_app", f"{CRATE}/out/desk.built"
# Where bin/meter and bin/desk keep what they saw of proofs on this machine.
STATE = os.path.join(
    os.environ.get("XDG_STATE_HOME") or os.path.expanduser("~/.local/state"), "desk-gate"
)
# Of each text of a crate that was proved, how many functions it has.
COUNTS = f"{STATE}/functions.json"
# Two kits with the same logic prove alike, whatever else differs in them.
LOGIC = re.compile(r"\blogic (\S+)")


def logic_in(line: str) -> str | None:
    found = LOGIC.search(line)
    return found[1] if found else None


def read(path: str) -> dict[str, Any]:
    """What a file of JSON holds, or an empty object."""
    try:
        with open(path, encoding="utf-8") as file:
            held = json.load(file)
    except (OSError, ValueError):
        return {}
    return held if isinstance(held, dict) else {}


def write(path: str, value: object, seconds: float | None = None) -> None:
    with open(f"{path}.new", "w", encoding="utf-8") as file:
        json.dump(value, file, indent=1, sort_keys=True)
        file.write("\n")
    if seconds is not None:
        os.utime(f"{path}.new", (seconds, seconds))
    os.replace(f"{path}.new", path)


def note(top: str) -> dict[str, str]:
    """The kit's line, the SHA-256 of the program and that of the sources; empty where bin/desk has built none."""
    held = read(f"{top}/{NOTE}")
    return held if {"kit", "program", "sources"} <= set(held) else {}


def write_note(top: str, kit: str, digest: str, begun: float) -> None:
    """Notes what was built. The note is as old as the beginning of the build: what was written meanwhile is newer."""
    told = {"kit": kit, "program": sources.digest_of(f"{top}/{PROGRAM}"), "sources": digest}
    write(f"{top}/{NOTE}", told, begun)


def keep_counts(top: str, lines: list[str]) -> None:
    """Keeps how many functions the prover counted in each crate, by these lines of the kit.

    A proof that the kit has kept is not counted again.
    """
    found: dict[str, int] = {}
    crate: str | None = None
    for line in lines:
        named, proved = re.match(r"== (\w+)$", line), re.match(
            r"logic=proved functions=(\d+)", line
        )
        crate = named[1] if named else crate
        if proved and crate and os.path.isdir(f"{top}/crates/{crate}"):
            found[sources.digest_of_crate(top, crate)], crate = int(proved[1]), None
    # Without them a package says that nobody counted.
    with contextlib.suppress(OSError):
        if found:
            os.makedirs(STATE, exist_ok=True)
            write(COUNTS, {**read(COUNTS), **found})


def functions_proved(top: str) -> int | None:
    """How many functions the prover counted in the crates of the program; None where a crate's count is missing."""
    counts, own = read(COUNTS), [
        sources.digest_of_crate(top, it) for it in sources.crates_of(top)[0]
    ]
    return sum(counts[it] for it in own) if all(it in counts for it in own) else None
