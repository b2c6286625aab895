"""The zone of an agency's clocks: its name, such as America/Chicago, and the POSIX rule by which the desk counts days."""

import pathlib

ZONES = pathlib.Path("/usr/share/zoneinfo")


def rule_of(zone: str, zones: pathlib.Path = ZONES) -> str | None:
    """The rule of a zone, which is the last line of its file; None where this machine knows no such zone."""
    path = (zones / zone).resolve()
    if zones.resolve() not in path.parents:
        return None
    try:
        content = path.read_bytes()
    except OSError:
        return None
    if not content.startswith(b"TZif") or not content.endswith(b"\n"):
        return None
    return content.rstrip(b"\n").rpartition(b"\n")[2].decode("ascii")


def difference(named: dict[str, str], rules: dict[str, str]) -> str | None:
    """What is wrong, in one sentence, or None.

    `named` has the zone's name by each file that gives one, and `rules` the rule by each unit or file that gives one.
    """
    wanted: dict[str, str] = {}
    for where, zone in named.items():
        rule = rule_of(zone)
        if rule is None:
            return f"{where} has the zone {zone!r}, which this machine does not know"
        wanted[f"{zone} in {where}"] = rule
    if not wanted:
        return None
    found = {**wanted, **{f"{rule or 'no ZONE'} in {where}": rule for where, rule in rules.items()}}
    if len(set(found.values())) == 1:
        return None
    return f"the zones differ: {', '.join(found)}"
