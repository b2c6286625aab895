"""Riders who are certified already: their records, and for residents a grant to the last day of their certification."""

from __future__ import annotations

import argparse
import collections
import datetime
import json
import sys
from collections.abc import Callable, Iterator
from typing import Any, TYPE_CHECKING

from desk_tools import law
from desk_tools.counting import counted
from desk_tools.setup import carry, commands, tables
from desk_tools.setup.carry import accepted, CannotBe, Task
from desk_tools.setup.desk import label_of
from desk_tools.setup.limits import DONE, SOME_REFUSED, Wrong

if TYPE_CHECKING:
    from desk_tools.setup.desk import Caller
    from desk_tools.setup.desk import Reply


def riders(words: argparse.Namespace) -> int | None:
    """The riders of a table, or those of them whose certification ends soon."""
    today = datetime.date.today().isoformat()
    earliest = "" if words.as_of else today
    agency = carry.kept_agency(words.folder)
    records, refused, notes, rows = tables.records_in(
        words.csv, "riders", lambda it: rider_fault(it, earliest, agency)
    )
    if words.as_of:
        return ending(records, refused, words.as_of, words.within)
    told_riders(records)
    for it in planned_homes(agency, records):
        print(it)
    carry.planned(refused, notes)
    if words.plan:
        return commands.ended(refused)
    clerk, examiner = (commands.caller_of(words, it) for it in ("clerk", "examiner"))
    tasks = [Task(f"rider {it['number']}", put_rider(it, clerk, examiner)) for it in records]
    stands, status = carry.carried_out(
        "riders", tasks, [clerk, examiner], words.folder, refused, rows
    )
    keep_homes(words.folder, agency, [records[at] for at in stands])
    return status


def homes_to_hide(agency: dict[str, Any], records: list[dict[str, Any]]) -> dict[str, Any]:
    """Whose each home is to be, of those that places.csv leaves open: one rider's number, or several."""
    homes = collections.defaultdict(set)
    for record in records:
        if record["home"]:
            homes[str(record["home"])].add(record["number"])
    changed = {}
    for number, riders in homes.items():
        known = agency["places"][number].get("private")
        riders |= (
            set()
            if known is None or isinstance(known, bool)
            else {*(known if isinstance(known, list) else [known])}
        )
        wanted = (
            known if isinstance(known, bool) else sorted(riders) if len(riders) > 1 else min(riders)
        )
        if wanted != known:
            changed[number] = wanted
    return changed


def planned_homes(agency: dict[str, Any], records: list[dict[str, Any]]) -> Iterator[str]:
    """What the run would make private, place by place. A clinic among them is seen before it is hidden."""
    changed = homes_to_hide(agency, records)
    if changed:
        said = counted(len(changed), "place becomes", "places become")
        yield f"  {said} private, since a rider lives there:"
    for number, riders in sorted(changed.items(), key=lambda it: int(it[0])):
        name = agency["places"][number].get("name")
        those = riders if isinstance(riders, list) else [riders]
        whose = f"{'rider' if len(those) == 1 else 'riders'} {', '.join(map(str, those))}"
        yield f"    place {number}{f', {name},' if name else ''} to {whose}"


def keep_homes(folder: str, agency: dict[str, Any], records: list[dict[str, Any]]) -> None:
    """Makes the riders' homes private, where places.csv does not say of a place whose it is."""
    changed = homes_to_hide(agency, records)
    for number, wanted in changed.items():
        agency["places"][number]["private"] = wanted
    if changed:
        carry.keep_agency(folder, agency)
        shared = sum(isinstance(it, list) for it in changed.values())
        print(
            f"homes: {counted(len(changed), 'place is', 'places are')} private to their riders now"
            + (f", {shared} of them to more than one" if shared else "")
        )


def rider_fault(record: dict[str, Any], earliest: str, agency: dict[str, Any]) -> str | None:
    if record["home"] and str(record["home"]) not in agency["places"]:
        return f"the home, place {record['home']}, was not put yet"
    if record["kind"] == "visitor" and record["until"]:
        return "a visitor has no certification here, so until has to be empty"
    if record["until"] and record["until"] < earliest:
        return f"the certification ended on {record['until']}; the rider was not put, since nothing could be granted"
    return None


def told_riders(records: list[dict[str, Any]]) -> None:
    residents = [it for it in records if it["kind"] == "resident"]
    granted = [it for it in residents if it["until"]]
    print(
        f"{counted(len(records), 'rider')}: {counted(len(records) - len(residents), 'visitor')}, "
        f"{counted(len(residents), 'resident')}"
    )
    print(
        f"  {counted(len(granted), 'resident gets', 'residents get')} an application and its grant, to the day in the table"
    )
    without = len(residents) - len(granted)
    if without:
        print(
            f"  {counted(without, 'resident has', 'residents have')} no last day in the table: a record alone, "
            "and no ride yet"
        )
    marked = sum(it["wheelchair"] for it in records)
    if marked:
        print(
            f"  {counted(marked, 'rider comes', 'riders come')} in a wheelchair: their vehicles need a wheelchair place"
        )


def put_rider(record: dict[str, Any], clerk: Caller, examiner: Caller) -> Callable[..., Any]:
    """The record, then the application and its grant, unless the rider has that grant already."""

    def do() -> None:
        body = {
            "id": record["number"],
            "kind": record["kind"],
            "attendant": record["attendant"],
            "wheelchair": record["wheelchair"],
        }
        accepted(clerk.post("/riders", body))
        if record["until"]:
            grant(record, clerk, examiner)

    return do


def grant(record: dict[str, Any], clerk: Caller, examiner: Caller) -> None:
    """The grant to the record's day. No grant that reaches so far is replaced by another one."""
    path = f"/riders/{record['number']}/entries"
    wanted = {"entry": "grant", "until": record["until"], "conditions": record["conditions"]}
    purpose = f"until {record['until']} for {'; '.join(record['conditions'])}"
    if clerk.journal.reply_to(label_of(path, wanted, purpose)):
        return
    if has_grant(record, clerk):
        return
    application = path, {"entry": "complete"}, purpose
    was_sent = clerk.was_sent(*application)
    reply = clerk.post(*application)
    if not (was_sent and reply.body == {"denied": "37.125(c)"}):
        accepted(reply)
    reply = examiner.post(path, wanted, purpose)
    if reply.status != 200 and not has_grant(record, clerk):
        raise CannotBe(
            f"{carry.reason_of(reply)}; ITS APPLICATION WAITS, and has to be decided within "
            f"{law.DAYS_UNTIL_PRESUMED} days"
        )


def has_grant(record: dict[str, Any], clerk: Caller) -> bool:
    """Whether the rider has this very grant. Another one that holds on its last day is left to the examiner."""
    told = clerk.get(f"/riders/{record['number']}/standing/{record['until']}").body
    if not isinstance(told, dict) or told.get("standing") != "granted":
        return False
    if (told["until"], told["conditions"]) != (record["until"], record["conditions"]):
        has = f"until {told['until']} for {'; '.join(told['conditions'])}"
        raise CannotBe(f"the rider has a grant {has}, which is not replaced")
    return True


def ending(
    records: list[dict[str, Any]], refused: list[Any], as_of: datetime.date, within: int
) -> int:
    """Prints the riders whose certification ends within so many days of a day, the next one first."""
    first, last = (it.isoformat() for it in (as_of, as_of + datetime.timedelta(days=within)))
    soon = sorted(
        (it["until"], it["number"])
        for it in records
        if it["until"] and first <= it["until"] <= last
    )
    print("until,number")
    for until, number in soon:
        print(f"{until},{number}")
    for what, reason in refused:
        print(f"bin/move-in: {what}: {reason}", file=sys.stderr)
    return SOME_REFUSED if refused else DONE


# One write or read of one's own.


def write(words: argparse.Namespace) -> int:
    """One write, whose fields a file holds."""
    try:
        with open(words.json, encoding="utf-8") as file:
            body = json.load(file)
        if not isinstance(body, dict):
            raise ValueError("it is not one JSON object")
    except (OSError, ValueError) as error:
        raise Wrong(f"{words.json} can't be read: {error}") from None
    if words.plan:
        print(f"POST {words.path} {json.dumps(body)}")
        return commands.ended([])
    caller = own_caller(words)
    reply = caller.post(words.path, body)
    print(told(reply))
    if reply.status == 200 and not caller.writes:
        print("bin/move-in: this was done before, and that is the reply of then", file=sys.stderr)
    return DONE if reply.status == 200 else SOME_REFUSED


def read(words: argparse.Namespace) -> int:
    """One read."""
    reply = own_caller(words).get(words.path)
    print(told(reply))
    return DONE if reply.status == 200 else SOME_REFUSED


def own_caller(words: argparse.Namespace) -> Caller:
    """The caller of the one key that is named."""
    named = [it for it in commands.ROLES if getattr(words, it)]
    if len(named) != 1:
        raise Wrong(
            f"this takes the file of one key: {', '.join('--' + it for it in commands.ROLES)}"
        )
    return commands.caller_of(words, named[0])


def told(reply: Reply) -> str:
    return reply.body.rstrip("\n") if isinstance(reply.body, str) else json.dumps(reply.body)
