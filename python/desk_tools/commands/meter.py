#!/usr/bin/env python3
"""bin/meter FILE COMMAND..: runs the command, ends with its status, and writes to FILE what its checks cost.

A line of FILE is a crate with the processor minutes of its proof, of its tests and of its mutants, and their sum,
the dearest first; the line "all" sums them. Each check is a process of Rattle's prover, whose own account of its
processor time is read twice a second: of the last half second of a process nothing is known.

What `rt ci` passed in an earlier run on this machine it does not do again. So what each crate's proof, tests and wrong
bodies cost is kept in ${XDG_STATE_HOME:-$HOME/.local/state}/desk-gate, with the checksum of the crate's text as it
stands below the current folder at the start: of each the last text that cost something, and the most that it cost in
one run. Where the command is `rt ci` without names, the table has what is kept of exactly the present text where this
run spent less, with a mark; "all" sums both, and a line below it says what this run itself spent.
"""

from __future__ import annotations

import hashlib
import json
import os
import signal
import subprocess
import sys
import tempfile
import time
from collections.abc import Iterable, Iterator
from typing import Any

from desk_tools import ending
from desk_tools.arguments import HELP

SECONDS_BETWEEN = 0.5
TICKS = os.sysconf("SC_CLK_TCK")
# Each kind of check, with the folders of a crate that it is of.
PROVED = ("src", "specs", "proofs")
KINDS = {"proof": PROVED, "tests": PROVED, "mutants": (*PROVED, "must-fail")}
KEPT = os.path.join(
    os.environ.get("XDG_STATE_HOME") or os.path.expanduser("~/.local/state"), "desk-gate"
)


def read(path: str) -> bytes:
    """The file's bytes; none where there is no such file, or the process has ended."""
    try:
        with open(path, "rb") as file:
            return file.read()
    except OSError:
        return b""


def account_of(process: str) -> tuple[int, float]:
    """The parent of a process, and the seconds of processor that it has used. A child of a check is a check itself."""
    fields = read(f"/proc/{process}/stat").rpartition(b") ")[2].split()
    if len(fields) < 13:
        return 0, 0.0
    return int(fields[1]), sum(map(int, fields[11:13])) / TICKS


def check_of(process: int) -> Any:
    """The crate that a process of the prover checks, and why: for its proof, its tests or a mutant; else none."""
    words = read(f"/proc/{process}/cmdline").split(b"\0")
    if os.path.basename(words[0]) != b"rattle" or b"--crate-name" not in words:
        return None
    crate = words[words.index(b"--crate-name") + 1].decode("utf-8", "replace")
    if b"--test" in words:
        return crate, "tests"
    is_edit = any(b"/rt-edits-" in word for word in words)
    return crate, "mutants" if is_edit else "proof"


def is_below(process: int, parents: dict[int, int], top: int) -> bool:
    """Whether a process was started by the command or by what it started."""
    while process in parents and process != top:
        process = parents[process]
    return process == top


def note(top: int, seen: dict[Any, Any]) -> None:
    """Notes the account of each check that runs below the command, under its process, crate and kind."""
    accounts = {int(name): account_of(name) for name in os.listdir("/proc") if name.isdigit()}
    parents = {process: parent for process, (parent, _) in accounts.items()}
    for process, (_, seconds) in accounts.items():
        check = check_of(process) if is_below(process, parents, top) else None
        if check:
            seen[(process, *check)] = max(seconds, seen.get((process, *check), 0.0))


def costs_of(seen: dict[Any, Any]) -> dict[tuple[str, ...], float]:
    """The minutes of each crate and kind, from the seconds of each check."""
    costs: dict[tuple[str, ...], float] = {}
    for (_, *check), seconds in seen.items():
        costs[tuple(check)] = costs.get(tuple(check), 0.0) + seconds / 60
    return costs


def checksum(folders: Any) -> Any:
    """The checksum of the names and the bytes of all files in the folders."""
    total = hashlib.sha256()
    for folder in folders:
        for place, _, names in sorted(os.walk(folder)):
            for path in (os.path.join(place, name) for name in sorted(names)):
                for part in (os.fsencode(path), read(path)):
                    total.update(b"%d:%b" % (len(part), part))
    return total.hexdigest()


def present_texts() -> dict[Any, Any]:
    """The checksum of the text that each kind of check is of, for each crate of crates.txt in the current folder."""
    lines = read("crates.txt").decode("utf-8", "replace").splitlines()
    names = [line.partition("#")[0].partition(":")[0].strip() for line in lines]
    return {
        (name, kind): checksum(f"crates/{name}/{folder}" for folder in folders)
        for name in names
        if name and os.path.isdir(f"crates/{name}")
        for kind, folders in KINDS.items()
    }


def file_name(crate: Any, kind: Any) -> str:
    """The name of the file that keeps what a crate's checks of a kind cost."""
    return f"{crate}.{kind.replace(' ', '-')}.json"


def kept_costs(texts: dict[Any, Any]) -> dict[Any, Any]:
    """What is kept of exactly these texts, in minutes by crate and kind; nothing of a file that is spoilt."""
    costs: dict[tuple[str, ...], float] = {}
    for check, text in texts.items():
        try:
            kept = json.loads(read(os.path.join(KEPT, file_name(*check))))
            if kept["sum"] == text:
                costs[check] = float(kept["minutes"])
        except (KeyError, TypeError, ValueError):
            pass
    return costs


def keep(costs: Any, texts: Any) -> Any:
    """Keeps the costs, each in a file that no other meter finds half written; a line that says so where it cannot."""
    try:
        os.makedirs(KEPT, exist_ok=True)
        with tempfile.TemporaryDirectory(dir=KEPT) as room:
            for check in costs.keys() & texts.keys():
                path = os.path.join(room, file_name(*check))
                with open(path, "w", encoding="utf-8") as file:
                    json.dump({"sum": texts[check], "minutes": costs[check]}, file)
                os.replace(path, os.path.join(KEPT, file_name(*check)))
    except OSError as fault:
        return [f"bin/meter: what the checks cost cannot be kept: {fault}"]
    return []


def sums_by(place: int, costs: dict[tuple[str, ...], float]) -> dict[str, float]:
    """The minutes by crate, where the place is 0, or by kind, where it is 1."""
    sums: dict[str, float] = {}
    for check, minutes in costs.items():
        sums[check[place]] = sums.get(check[place], 0.0) + minutes
    return sums


def row(name: str, cells: Iterable[Any]) -> str:
    """A line of the table. The last character of a cell is a mark or a blank."""
    return (f"{name:21}" + "".join(f"{cell:>14}" for cell in cells)).rstrip()


def table(costs: Any, kept: Any) -> Iterator[str]:
    """The lines of the table: what this run spent, or, with a mark, what is kept where that is more."""
    earlier = {check: minutes for check, minutes in kept.items() if minutes > costs.get(check, 0.0)}
    figures = {**costs, **earlier}
    crates, kinds, own = sums_by(0, figures), sums_by(1, figures), sums_by(1, costs)
    yield row("processor minutes", (f"{kind} " for kind in (*KINDS, "all")))
    for crate in sorted(crates, key=crates.__getitem__, reverse=True):
        cells = (
            f"{figures.get((crate, kind), 0.0):.1f}{'*' if (crate, kind) in earlier else ' '}"
            for kind in KINDS
        )
        yield row(crate, (*cells, f"{crates[crate]:.1f} "))
    sums = [kinds.get(kind, 0.0) for kind in KINDS]
    yield row("all", (f"{minutes:.1f} " for minutes in (*sums, sum(sums))))
    if earlier:
        yield "* spent by an earlier run on this machine on the same text of the crate; this run spent less or nothing"
        parts = ", ".join(f"{kind} {own.get(kind, 0.0):.1f}" for kind in KINDS)
        yield f"this run itself spent {sum(own.values()):.1f}: {parts}"


def main(words: list[str]) -> int:
    if words in HELP:
        print(__doc__, end="")
        return 0
    if len(words) < 2:
        print(__doc__, end="", file=sys.stderr)
        return 2
    texts = present_texts()
    # Tried before the command speaks, whose tally must be the last line that bin/gate reads; later faults go to FILE.
    faults = keep({}, texts) if texts else []
    sys.stderr.writelines(f"{fault}\n" for fault in faults)
    sys.stderr.flush()
    try:
        running = subprocess.Popen(words[1:])
    except OSError as error:
        print(f"bin/meter: {words[1]}: {error.strerror}", file=sys.stderr)
        return 1
    signal.signal(signal.SIGTERM, lambda *_: running.terminate())
    seen: dict[Any, Any] = {}
    while running.poll() is None:
        note(running.pid, seen)
        time.sleep(SECONDS_BETWEEN)
    costs, kept = costs_of(seen), kept_costs(texts)
    is_of_all = words[1:3] == ["rt", "ci"] and all(word.startswith("-") for word in words[3:])
    lines = [*table(costs, kept if is_of_all else {})]
    if texts and not faults:
        lines += keep(
            {check: max(minutes, kept.get(check, 0.0)) for check, minutes in costs.items()}, texts
        )
    with open(words[0], "w", encoding="utf-8") as file:
        file.writelines(f"{line}\n" for line in lines)
    return running.returncode


if __name__ == "__main__":
    ending.run("bin/meter", main)
