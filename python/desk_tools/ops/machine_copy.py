"""What the night's copy of a machine takes along for one agency: its own files, and those of the machine for `main`."""

from __future__ import annotations

import re
from collections.abc import Collection, Iterator
from pathlib import Path

from desk_tools import agencies
from desk_tools.agencies import MAIN, Agency

# The folders in which each agency has files, told apart by their names; and what is of the machine or of `main`.
SHARED = agencies.SETTINGS, f"{agencies.SETTINGS}/keys", agencies.LOGS
SITE = "/etc/nginx/conf.d/desk.conf"


def owner(name: str, names: Collection[str]) -> str:
    """Whose a file is, such as `north-roster.csv` or `tally-north.log`. What is of the machine is the main one's."""
    own = re.sub(r"^(?:tally|journal)-", "", name)
    found = [it for it in names if re.match(rf"{re.escape(it)}(?:[.-]|$)", own)]
    return max(found, key=len, default=MAIN)


def below(root: Path, path: str) -> Path:
    """A path of the machine, below its root."""
    return root / path.lstrip("/")


def files(agency: Agency, root: Path = Path("/")) -> Iterator[str]:
    """The files and folders of its copy that are there, without the `/` that they begin with."""
    settings = below(root, agencies.SETTINGS)
    names = {MAIN, agency.name, *agencies.confs_in(str(settings))}
    for folder in SHARED:
        for it in sorted(below(root, folder).glob("*")):
            if f"/{it.relative_to(root)}" not in SHARED and owner(it.name, names) == agency.name:
                yield str(it.relative_to(root))
    own = [
        agency.tls,
        f"/etc/systemd/system/{agency.unit}.service.d",
        agency.data("standing-orders").replace("/var/lib/", "/var/lib/private/"),
    ]
    for path in (*own, SITE) if agency.name == MAIN else own:
        if below(root, path).exists():
            yield path.lstrip("/")
