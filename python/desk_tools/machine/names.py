"""Which short names no second agency can have, because the machine or another agency has something of that name."""

from collections.abc import Iterable, Iterator
from pathlib import Path

from desk_tools import agencies
from desk_tools.machine import earlier

# What the machine has of its own: files of its settings and keys up to a dot, and behind `desk-` its users, units and what
# it keeps in /var/lib and /run.
OF_MACHINE = (
    "acme",
    "before",
    "by-hand",
    "copies",
    "health",
    "keys",
    "record",
    "restart",
    "setup",
    "site",
    "standby",
    "stopped",
    "to-main",
    "upgrade",
    "watch",
)
# Logs and exports have their kind before the agency's name.
KINDS = "journal", "tally", "exports"


def stem(path: str) -> str:
    """The name of a file up to its first dot."""
    return Path(path).name.partition(".")[0]


def of_earlier() -> set[str]:
    """What an earlier version called settings and keys of the one agency. An upgrade still moves them to `main`."""
    return {stem(old) for old, _ in earlier.pairs() if old.startswith(f"{agencies.SETTINGS}/")}


def ends_of_files() -> set[str]:
    """What an agency's files have behind its name and a dash, also up to a later dash: `driver` of `driver-files`."""
    stems = {stem(it) for it in (*earlier.OWN, *earlier.KEYS)}
    parts = [it.split("-") for it in stems]
    return {"-".join(it[: at + 1]) for it in parts for at in range(len(it))}


def fault(name: str) -> str:
    """Why a second agency can't be called so; empty where it can. An agency that is there is not asked."""
    if name in OF_MACHINE:
        return f"an agency cannot be called {name}, because this machine has files or a user of that name"
    if name in of_earlier():
        return (
            f"an agency cannot be called {name}, because an earlier version had a file of that name"
        )
    for work in (*earlier.WORKS, *KINDS):
        if name == work or name.startswith(f"{work}-"):
            return f"an agency cannot be called {name}, because what is done for each agency has names with {work}"
    for end in ends_of_files():
        if name.endswith(f"-{end}"):
            other = name.removesuffix(f"-{end}")
            return f"an agency cannot be called {name}, because files of an agency {other} begin so"
    return ""


def told(names: Iterable[str]) -> Iterator[str]:
    """A sentence for each agency of this machine that an earlier version took under such a name."""
    for name in names:
        if why := fault(name):
            yield f"{why[0].upper()}{why[1:]}: set it up under another name."
