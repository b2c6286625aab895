"""Whether the zone by which the unit serves is that of the agency's files: by another one its days begin at another hour."""

from __future__ import annotations

import contextlib
import datetime
import json
import os
import re
import zoneinfo
from typing import TYPE_CHECKING

from desk_tools import agencies, zones
from .ending import Failure
from .places import answer_of

if TYPE_CHECKING:
    from desk_tools.ops.places import Desk


def zone_in(path: str) -> str | None:
    """The zone's name that a JSON file of the agency gives, or None."""
    with contextlib.suppress(OSError, ValueError, AttributeError), open(
        path, encoding="utf-8"
    ) as file:
        zone = json.load(file).get("zone")
        return zone if isinstance(zone, str) else None
    return None


def rule_in_file(path: str) -> str | None:
    with contextlib.suppress(OSError), open(path, encoding="utf-8") as file:
        found = re.findall(r"(?m)^ZONE=(.*)$", file.read())
        return found[-1].strip() if found else ""
    return None


def rule_of(desk: Desk) -> str | None:
    """ZONE of the desk's unit, or None where its agency has no AGENCY.conf.

    The environment may give ZONE_OF_UNIT, a command that prints ZONE=RULE.
    """
    command = os.environ.get("ZONE_OF_UNIT")
    if not command:
        return rule_in_file(desk.agency.conf)
    found = re.findall(r"(?:^|\s)ZONE=(\S*)", answer_of(command))
    return found[-1] if found else ""


def files_of(desk: Desk) -> list[str]:
    """The files that name the zone of a desk's agency."""
    of_setup = [f"{desk.agency.settings}/setup.json"]
    return [desk.agency.names, *(of_setup if desk.agency.name == agencies.MAIN else [])]


def now_at(desk: Desk) -> datetime.datetime:
    """Now by the clock of the desk's agency; by the machine's where no file names a zone that is known here."""
    for zone in filter(None, map(zone_in, files_of(desk))):
        with contextlib.suppress(ValueError, OSError, zoneinfo.ZoneInfoNotFoundError):
            return datetime.datetime.now(zoneinfo.ZoneInfo(zone))
    return datetime.datetime.now()


def check_zone(desk: Desk) -> None:
    """The agency's file, what desk-setup was told and AGENCY.conf have one zone, as far as they are there."""
    rule = rule_of(desk)
    named = {path: zone for path in files_of(desk) if (zone := zone_in(path))}
    said = zones.difference(named, {} if rule is None else {desk.agency.conf: rule})
    if said:
        raise Failure(
            f"{said}. By a wrong zone the desk counts wrong days: mend it by desk-setup --zone, or by hand, "
            "and say this again"
        )
