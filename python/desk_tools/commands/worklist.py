#!/usr/bin/env python3
"""Says what waits in an office, from a copy of the desk's file: docs/WORKLIST.md says what each list means.

  bin/worklist COPY.db                       the lists, as text
  bin/worklist COPY.db --html FILE           the same as one page for staff
  bin/worklist COPY.db --rider NUMBER        a rider's whole case file
  bin/worklist COPY.db --pattern 3,10,30     how many riders a policy of 3 no-shows, 10 percent and 30 days would mean

COPY.db is a backup; where it is a folder of backups, the newest is read. The file that a desk serves is refused. The
exit status is 0 where all is done, 1 where a file can't be read or written, and 2 for wrong words.

What stands for a rider is asked of the desk: its program serves a copy of the copy meanwhile.
"""

from __future__ import annotations

import argparse
import datetime
import os
import pathlib
import re
import sys
import zoneinfo
from typing import Any

from desk_tools.arguments import usage_of
from desk_tools.days import number_of
from desk_tools import ending, served_copy
from desk_tools.counting import counted
from desk_tools.reports import copies, corrected, drawing, lists, reminded
from desk_tools.setup import agency_file, roster_file, tally_log, whole_file
from desk_tools.setup.limits import HIGHEST_NUMBER, MOST_MISSED, MOST_SPAN_DAYS, Wrong
from desk_tools.setup.site_files import FILE_MODE

# A copy that is older than this is named so: there is a new one each night.
DAYS_OF_A_COPY = 1


def day(text: str) -> datetime.date | None:
    found = (
        datetime.date.fromisoformat(text)
        if re.fullmatch(r"\d{4}-\d{2}-\d{2}", text, re.ASCII)
        else None
    )
    if not found or not copies.FIRST_YEAR <= found.year <= copies.LAST_YEAR:
        raise ValueError
    return found


def rider(text: str) -> int:
    if not re.fullmatch(r"[0-9]{1,10}", text) or not 1 <= int(text) <= HIGHEST_NUMBER:
        raise ValueError
    return int(text)


def policy(text: str) -> copies.Policy:
    """A no-show policy within the desk's ranges."""
    numbers = re.fullmatch(r"([0-9]{1,4}),([0-9]{1,3}),([0-9]{1,3})", text, re.ASCII)
    found = numbers and copies.Policy(*map(int, numbers.groups()))
    if not found or not (
        1 <= found.min_missed <= MOST_MISSED
        and 1 <= found.percent <= 100
        and 1 <= found.span_days <= MOST_SPAN_DAYS
    ):
        raise ValueError
    return found


def words_of(arguments: list[str]) -> argparse.Namespace:
    parser = usage_of("bin/worklist", __doc__)
    parser.takes("copy COPY.db", "a backup, or a folder of backups named desk-*.db")
    parser.takes("--html FILE", "writes a page, in place of the text")
    parser.takes("--rider NUMBER", "the case file of this rider alone", type=rider)
    parser.takes(
        "--pattern MISSED,PERCENT,DAYS", "whom this no-show policy would have met", type=policy
    )
    parser.takes("--roster CSV", "the agency's roster: names of riders")
    parser.takes("--agency AGENCY.json", "the agency's name, its zone, names of vehicles")
    parser.takes(
        "--tally LOG",
        "the site's logs, packed by gzip or not: what the agency canceled, and no-shows",
        nargs="+",
    )
    parser.takes("--corrections CSV", "outcomes that were entered wrongly, by trip")
    parser.takes(
        "--reminders FOLDER",
        "the folder of bin/reminders: whom no reminder reached, and who answered",
    )
    parser.takes(
        "--program FILE",
        "the desk's program, which is asked; the installed one where it is not given",
        type=pathlib.Path,
    )
    parser.takes("--today DAY", "YYYY-MM-DD; today where it is not given", type=day)
    return parser.parse_args(arguments)


def today_in(agency: dict[str, Any]) -> datetime.date:
    """Today by the agency's clock, or by this machine's."""
    zone = agency.get("zone")
    return datetime.datetime.now(zoneinfo.ZoneInfo(zone) if zone else None).date()


def names_in(agency: dict[str, Any], roster: str | None) -> lists.Names:
    """The names of riders and vehicles. What is wrong in a roster is named, and the rest is used."""
    riders = {}
    if roster:
        read = roster_file.read(roster)
        for fault in read.faults:
            print(f"bin/worklist: {roster}, {fault}", file=sys.stderr)
        riders = {int(it["rider"]): it["name"] for it in read.riders}
    vehicles = {it["id"]: it["name"] for it in agency.get("vehicles", []) if it.get("name")}
    return lists.Names(riders, vehicles)


def closed_in(agency: dict[str, Any]) -> dict[datetime.date, str]:
    """The words of the days on which nobody is served."""
    return {
        datetime.date.fromisoformat(it["day"]): it.get("name", "")
        for it in agency.get("closed", [])
    }


def log_of(words: argparse.Namespace) -> tally_log.Log | None:
    """The site's logs, or None where there are none. How many lines can't be read is named."""
    log = tally_log.read(words.tally) if words.tally else None
    if log and log.broken:
        print(
            f"bin/worklist: {counted(len(log.broken), 'line')} of the log could not be read, the first: {log.broken[0]}",
            file=sys.stderr,
        )
    return log


def corrected_of(words: argparse.Namespace) -> dict[int, str] | None:
    """The outcomes of corrections.csv by trip, or None where there is no such file. What is wrong in it is named."""
    if not words.corrections:
        return None
    found, faults = corrected.by_trip(words.corrections)
    for said in faults:
        print(f"bin/worklist: {words.corrections}, {said}", file=sys.stderr)
    return found


def source_told(
    copy: copies.Copy,
    today: datetime.date,
    log: tally_log.Log | None = None,
    names_copy: bool = True,
) -> list[str]:
    """Where the lists come from, that a copy is old, and that lines of the site's log are lost to them.
    The office reads no name of a file."""
    made = copy.made_on()
    named = f"{os.path.basename(copy.path)} " if names_copy else ""
    day = f"{today:%A}, {today.isoformat()}" if names_copy else today.isoformat()
    told = [
        f"For {day}, from the copy {named}of {made.isoformat()}. What was entered since is not here."
    ]
    old = (today - made).days
    if old > DAYS_OF_A_COPY:
        told.append(f"This copy is {old} days old: look why there is no newer one.")
    if log and log.broken:
        told.append(
            f"{counted(len(log.broken), 'line')} of the site's log could not be read: lists that come from it may lack something."
        )
    return told


def files_told(
    copy: copies.Copy,
    desk: served_copy.ServedCopy,
    files: dict[int, list[copies.Entry]],
    today: datetime.date,
    names: lists.Names,
) -> list[tuple[lists.Listed, list[str]]]:
    """Each case file as a list, with the sentences above it."""
    now = number_of(today)
    return [
        (
            lists.case_file(it, entries, names),
            lists.standing_told(copy, desk, it, entries, now) or [],
        )
        for it, entries in files.items()
    ]


def made(
    words: argparse.Namespace,
    copy: copies.Copy,
    desk: served_copy.ServedCopy,
    agency: dict[str, Any],
    today: datetime.date,
) -> tuple[str, list[str], list[lists.Listed], list[tuple[lists.Listed, list[str]]]]:
    """The title, the sentences, the lists and the case files."""
    names = names_in(agency, words.roster)
    title = ", ".join(filter(None, ["What waits", agency.get("name")]))
    if words.rider is None:
        log = log_of(words)
        found, files = lists.all_lists(
            copy,
            desk,
            today,
            names,
            log,
            corrected_of(words),
            closed_in(agency) if words.agency else None,
        )
        found += reminded.lists_of(copy, words.reminders, today, names)
        return (
            title,
            source_told(copy, today, log, names_copy=not words.html),
            found,
            files_told(copy, desk, files, today, names),
        )
    if not copy.rows("SELECT 1 FROM riders WHERE id = ?", words.rider):
        raise Wrong(f"{copy.path} has no rider {words.rider}")
    files = {words.rider: copy.case_files(words.rider).get(words.rider, [])}
    return (
        f"Rider {words.rider}",
        source_told(copy, today, names_copy=not words.html),
        [],
        files_told(copy, desk, files, today, names),
    )


def run(words: argparse.Namespace) -> None:
    agency = agency_file.read(words.agency).agency if words.agency else {}
    with copies.Copy(copies.found(words.copy)) as copy:
        if words.pattern:
            met, of = lists.riders_meeting(
                copy, number_of(words.today or today_in(agency)), words.pattern
            )
            print(
                f"At least {words.pattern.min_missed} no-shows and {words.pattern.percent} percent within {words.pattern.span_days} days: {met} "
                f"of the {of} riders with trips in the last {lists.DAYS_LOOKED_BACK} days would have met it."
            )
            return
        today = words.today or today_in(agency)
        try:
            with served_copy.served(
                served_copy.program_of(words.program), pathlib.Path(copy.path), today
            ) as desk:
                title, said, found, files = made(words, copy, desk, agency, today)
        except served_copy.Refused as error:
            raise Wrong(f"{copy.path}: {error}") from None
    if words.html:
        folder = os.path.dirname(os.path.abspath(words.html))
        whole_file.written(
            words.html, drawing.page(title, said, found, files), FILE_MODE, os.stat(folder).st_gid
        )
        print(
            f"{words.html} has "
            + ", ".join(
                f"{drawing.count_of(it)} {it.name}".strip()
                for it in found or [it for it, _ in files]
            )
        )
        return
    print("\n".join([*map(drawing.shown, [title, *said]), "", *map(drawing.list_text, found)]))
    for listed, sentences in files if words.rider is not None else ():
        print("\n".join([*sentences, "", drawing.list_text(listed)]))


def main(arguments: list[str]) -> int:
    words = words_of(arguments)
    try:
        run(words)
        return 0
    except (Wrong, OSError) as error:
        return ending.told("bin/worklist", error, 1)


if __name__ == "__main__":
    ending.run("bin/worklist", main)
