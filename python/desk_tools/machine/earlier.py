"""The layout of earlier versions, in which the one agency of a machine had files and units without a name in theirs.

Each place of it and the place that the agency `main` has now, below the top of a file system, which is that of a
machine or a folder with the files of a machine's copy.
"""

from __future__ import annotations

import os
import shutil
from dataclasses import dataclass
from pathlib import Path

from desk_tools import agencies

MAIN = agencies.Agency()
# Files of the settings and keys, by the name that each agency has behind its own.
OWN = "roster.csv", "drivers.csv", "standing-orders.csv", "reminders.json", "closed-days.conf"
KEYS = ("standing-orders", "standing-orders-dispatcher", "driver-files", "closed-days", "reminders")
# Folders of /var/lib that each agency has one of.
KEPT = "desk-closed-days", "desk-reminders", "private/desk-standing-orders", "desk-exports"
# The work of units that each agency has one of.
WORKS = (
    *dict.fromkeys(it.partition(".")[0] for it in agencies.BESIDE),
    "backup",
    "worklist",
    "standing-orders",
    "elsewhere",
    "standby",
    "standby-check",
)
# Where a link leads on to the new place, for what people and programs call by the earlier one.
LINKED = ("var/lib/desk", "var/backups/desk", "etc/ssl/desk")
SITE, UNITS, TIMERS = "var/lib/desk-site", "etc/systemd/system", "var/lib/systemd/timers"


@dataclass(frozen=True)
class Move:
    """A file or a folder and its other place."""

    old: Path
    new: Path

    @property
    def is_due(self) -> bool:
        """Whether something is at the old place. A link that leads on is nothing."""
        return os.path.lexists(self.old) and not self.old.is_symlink()

    @property
    def is_in_two_places(self) -> bool:
        """Whether both places hold something."""
        return self.is_due and holds(self.old) and holds(self.new)


def holds(path: Path) -> bool:
    """Whether there is a file with something in it at the path or below it. A link is none."""
    if path.is_symlink():
        return False
    if not path.is_dir():
        return path.exists() and path.stat().st_size > 0
    return any(
        os.lstat(f"{folder}/{it}").st_size > 0 for folder, _, files in os.walk(path) for it in files
    )


def remove(path: Path) -> None:
    """Removes a file or a folder."""
    if path.is_dir() and not path.is_symlink():
        shutil.rmtree(path)
    else:
        path.unlink(missing_ok=True)


def below(root: Path, path: str) -> Path:
    """A path of a machine below another top."""
    return root / path.lstrip("/")


def pairs() -> list[tuple[str, str]]:
    """Each earlier place that has one name, and the new one."""
    settings = agencies.SETTINGS
    return [
        ("/var/lib/desk", MAIN.folder),
        ("/var/backups/desk", MAIN.backups),
        ("/etc/ssl/desk", MAIN.tls),
        (f"{agencies.LOGS}/journal", MAIN.record),
        (f"{agencies.LOGS}/tally.log", MAIN.tally),
        (f"{settings}/agency.json", MAIN.names),
        (f"{settings}/fenced", MAIN.fence),
        (f"{settings}/offsite.conf", MAIN.offsite),
        *((f"{settings}/{it}", MAIN.own(it)) for it in OWN),
        *((f"{settings}/keys/{it}", MAIN.key(it)) for it in KEYS),
        *((f"/var/lib/{it}", f"/var/lib/{it}-{MAIN.name}") for it in KEPT),
    ]


def moves(root: Path) -> list[Move]:
    """All that has an earlier place below a top, and may be there."""
    found = [Move(below(root, old), below(root, new)) for old, new in pairs()]
    logs = below(root, agencies.LOGS)
    for path in sorted(logs.glob("tally.log-*")):
        found.append(Move(path, logs / path.name.replace("tally", f"tally-{MAIN.name}", 1)))
    return [*found, *moves_of_site(root), *moves_of_units(root)]


def moves_of_site(root: Path) -> list[Move]:
    """What the site serves of the agency's files: all in its folder but the folders of other agencies."""
    site, settings = root / SITE, below(root, agencies.SETTINGS)
    others = {it.name for it in agencies.of_machine(str(settings))} | {MAIN.name}
    inner = sorted(site.iterdir()) if site.is_dir() else []
    return [Move(it, site / MAIN.name / it.name) for it in inner if it.name not in others]


def names_of_units() -> dict[str, str]:
    """The units of the one agency by their earlier names."""
    named = {"desk.service": f"{MAIN.unit}.service"}
    for work in WORKS:
        for kind in "service", "timer":
            named[f"desk-{work}.{kind}"] = MAIN.unit_of(f"{work}.{kind}")
    return named


def moves_of_units(root: Path) -> list[Move]:
    """What a person or desk-setup has added to the units, and when each timer last ran."""
    found = []
    for old, new in names_of_units().items():
        for folder, form in (UNITS, "{}.d"), (TIMERS, "stamp-{}"):
            path = root / folder / form.format(old)
            if path.exists():
                found.append(Move(path, root / folder / form.format(new)))
    return found


def new_words() -> dict[str, str]:
    """What texts such as the site and drop-ins say of the earlier places, and what they say now."""
    return {
        "/etc/ssl/desk/": f"{MAIN.tls}/",
        "/var/lib/desk-site;": f"{MAIN.site};",
        "/var/log/desk/tally.log": MAIN.tally,
        "127.0.0.1:8435/health;": f"127.0.0.1:8435/health/{MAIN.name};",
        "/var/log/desk/journal/": f"{MAIN.record}/",
        "/run/desk-journal/": f"/run/desk-journal-{MAIN.name}/",
        "/etc/desk/fenced": MAIN.fence,
        "/var/lib/desk/": f"{MAIN.folder}/",
        "/var/backups/desk/": f"{MAIN.backups}/",
    }


def is_there(root: Path) -> bool:
    """Whether anything has an earlier place."""
    return any(it.is_due for it in moves(root))
