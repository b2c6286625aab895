#!/usr/bin/env python3
"""Reports from a copy of the desk's file: docs/WORKLIST.md, "Reports", says what each figure means.

  bin/reports months COPY.db         trips by month, as CSV; with --tally also what the site's log says
  bin/reports ntd COPY.db            the figures of the National Transit Database by day and in all, as CSV
  bin/reports ntd COPY.db --tally LOG --forms FOLDER
                                     also miles and hours, as lines of its forms MR-20, RR-20 and S-10
  bin/reports trips COPY.db          each trip for a spreadsheet: clock times, dollars and names
  bin/reports review COPY.db --month MONTH --folder FOLDER
                                     what a reviewer of the Federal Transit Administration asks of a month, as a folder
  bin/reports invoices COPY.db --month MONTH --sponsors CSV --folder FOLDER
                                     a page and a CSV for each sponsor of trips
  bin/reports day COPY.db            the notes of the day as CSV; its page has the day's figures too

COPY.db is a backup; where it is a folder of backups, the newest is read. --html FILE writes a page that prints. The
exit status is 0 where all is done, 1 where a file can't be read or written, and 2 for wrong words or a table of sponsors
with faults. Planned times and what is due are the desk's own: its program serves a copy of the copy meanwhile.
"""

from __future__ import annotations

import argparse
import datetime
import io
import os
import pathlib
import re
import sys
from collections.abc import Iterable
from typing import Any, TYPE_CHECKING

from desk_tools import ending, sponsors
from desk_tools.arguments import Usage, usage_of
from desk_tools.counting import counted
from desk_tools.reports import (
    copies,
    corrected,
    day_notes,
    drawing,
    driven,
    figures,
    invoices,
    months,
    reviewed,
    transit_figures,
    trip_rows,
)
from desk_tools.review import page, tables
from desk_tools.setup import agency_file, roster_file, tally_log, whole_file
from desk_tools.setup.limits import Wrong
from desk_tools.setup.rules import RULES
from desk_tools.setup.tally_tables import csv_of
from desk_tools.town import sheets, site_addresses

if TYPE_CHECKING:
    from desk_tools.reports.lists import Listed

MOST_NAMED, MOST_LATE = 10, 1_440
LATE_MINUTES = 120
# The exit status where a table has faults.
FAULTS = 2


# The words.


def day(text: str) -> datetime.date | None:
    try:
        found = (
            datetime.date.fromisoformat(text)
            if re.fullmatch(r"\d{4}-\d{2}-\d{2}", text, re.ASCII)
            else None
        )
    except ValueError:
        found = None
    if not found or not months.ALL_DAYS.first <= found <= months.ALL_DAYS.last:
        raise argparse.ArgumentTypeError(f"{text!r} is no day YYYY-MM-DD of 2000 to 2099")
    return found


def month(text: str) -> months.Period:
    """The days of a month."""
    found = re.fullmatch(r"(20\d{2})-(0[1-9]|1[0-2])", text, re.ASCII)
    if not found:
        raise argparse.ArgumentTypeError(f"{text!r} is no month YYYY-MM of 2000 to 2099")
    year, number = int(found[1]), int(found[2])
    after = datetime.date(year + number // 12, number % 12 + 1, 1)
    return months.Period(datetime.date(year, number, 1), after - datetime.timedelta(days=1))


def minutes(text: str) -> int:
    if not re.fullmatch(r"[0-9]{1,4}", text) or int(text) > MOST_LATE:
        raise argparse.ArgumentTypeError(f"{text!r} is no number of minutes from 0 to {MOST_LATE}")
    return int(text)


def words_of(arguments: list[str]) -> argparse.Namespace:
    parser = usage_of("bin/reports", __doc__)
    parsers = parser.add_subparsers(required=True, metavar="REPORT")
    for name, do, said in (
        ("months", by_month, "trips by month"),
        ("ntd", for_transit_database, "the figures of the National Transit Database"),
        ("trips", each_trip, "each trip for a spreadsheet"),
        ("day", of_day, "the notes of a day, and its figures"),
        ("invoices", for_sponsors, "what sponsors pay of a month"),
        ("review", for_reviewer, "what a reviewer asks of a month"),
    ):
        one = parsers.add_parser(name, help=said)
        one.set_defaults(do=do)
        one.takes("copy COPY.db", "a backup, or a folder of backups named desk-*.db")
        one.takes("--month MONTH", "YYYY-MM: this month alone", type=month)
        one.takes("--from DAY", "YYYY-MM-DD, the first day that counts", dest="first", type=day)
        one.takes("--to DAY", "YYYY-MM-DD, the last day that counts", dest="last", type=day)
        one.takes("--agency AGENCY.json", "the agency's names")
        one.takes("--corrections CSV", "outcomes that were entered wrongly")
        if do is not for_sponsors:
            one.takes(
                "--program FILE",
                "the desk's program, which is asked; the installed one where it is not given",
                type=pathlib.Path,
            )
        one.takes("--tally LOG", "the site's logs, packed by gzip or not", nargs="+")
        if do in (each_trip, for_sponsors):
            one.takes("--addresses CSV", "the agency's addresses: streets of homes")
        if do in (by_month, for_transit_database, of_day):
            one.takes("--html FILE", "writes a page beside the CSV")
    parsers.choices["ntd"].takes(
        "--forms FOLDER",
        "a new or empty folder, which gets miles, hours and the lines of forms MR-20, RR-20 and S-10, named from memory; takes --tally",
    )
    paid = parsers.choices["invoices"]
    paid.takes(
        "--sponsors CSV", "who pays for whose trips, from when to when, and how much", required=True
    )
    paid.takes("--folder FOLDER", "a new or empty folder, which gets the invoices", required=True)
    paid.takes("--roster CSV", "the agency's roster: names of riders")
    paid.flag("--plan", "says what the invoices come to, and writes nothing")
    review = parsers.choices["review"]
    review.takes("--folder FOLDER", "a new or empty folder, which gets the files", required=True)
    review.takes(
        "--feed FEED.zip", "the GTFS feed of that month: rides are compared with its buses"
    )
    review.takes(
        "--plane FOLDER", "where move-in's plane.json is; the folder of AGENCY.json by default"
    )
    parsers.choices["trips"].takes("--roster CSV", "the agency's roster: names of riders")
    parsers.choices["months"].takes(
        "--late MINUTES",
        "how many minutes before the promised window a cancellation is late; 120 where it is not given",
        type=minutes,
        default=LATE_MINUTES,
    )
    parsers.choices["day"].set_defaults(late=LATE_MINUTES)
    words = parser.parse_args(arguments)
    words.period = period_of(words, parser)
    return words


def period_of(words: argparse.Namespace, parser: Usage) -> months.Period | None:
    if words.do in (for_reviewer, for_sponsors) and not words.month:
        parser.error(
            f"{'review' if words.do is for_reviewer else 'invoices'} takes --month YYYY-MM"
        )
    if words.month and (words.first or words.last):
        parser.error("--month is given, and so are --from or --to")
    if words.month:
        month: months.Period = words.month
        return month
    period = months.Period(words.first or months.ALL_DAYS.first, words.last or months.ALL_DAYS.last)
    if period.first > period.last:
        parser.error("the day of --to is before that of --from")
    return period


# What is read and written.


def log_of(words: argparse.Namespace) -> tally_log.Log | None:
    """The site's logs, or None where there are none. Lines that can't be read are named and counted."""
    if words.tally is None:
        return None
    log = tally_log.read(words.tally)
    for said in log.broken[:MOST_NAMED]:
        print(f"bin/reports: {said}", file=sys.stderr)
    if log.broken:
        print(
            f"bin/reports: {counted(len(log.broken), 'line')} could not be read, and not counted",
            file=sys.stderr,
        )
    return log


def agency_of(words: argparse.Namespace) -> dict[str, Any]:
    return agency_file.read(words.agency).agency if words.agency else {}


def names_of(words: argparse.Namespace, riders: list[dict[str, str]]) -> trip_rows.Names:
    """The agency's names, with its addresses where they are given. What is wrong in their table is named."""
    if not words.addresses:
        return trip_rows.Names(agency_of(words), riders)
    try:
        known, faults = site_addresses.known_in(pathlib.Path(words.addresses))
    except sheets.Unreadable as error:
        raise Wrong(str(error)) from None
    for said in faults:
        print(f"bin/reports: {words.addresses}, {said}", file=sys.stderr)
    return trip_rows.Names(agency_of(words), riders, known)


def corrected_in(words: argparse.Namespace, copy: copies.Copy) -> int | None:
    """How many outcomes are counted otherwise than they were entered. What is wrong in the file is named."""
    if not words.corrections:
        return 0
    count, faults = corrected.correct(copy, words.corrections)
    for said in faults:
        print(f"bin/reports: {words.corrections}, {said}", file=sys.stderr)
    print(f"bin/reports: {counted_words(count)} by {words.corrections}", file=sys.stderr)
    return count


def counted_words(count: int) -> str:
    return f"{count} {'outcome is' if count == 1 else 'outcomes are'} counted as corrected"


def write_page(
    words: argparse.Namespace,
    copy: copies.Copy,
    heading: str,
    lists: list[Listed] | Iterable[Any],
    sentences: list[str],
    notes: list[str],
) -> None:
    if words.corrections:
        sentences = [
            f"{counted_words(words.corrected)}: the desk keeps what was entered first.",
            *sentences,
        ]
    if words.html:
        title = ", ".join(filter(None, [heading, agency_of(words).get("name")]))
        source = f"From the copy {os.path.basename(copy.path)} of {copy.made_on()}."
        whole_file.written(
            words.html, drawing.page(title, [source, *sentences], [*lists], [], notes)
        )


# The reports.


def by_month(words: argparse.Namespace, copy: copies.Copy) -> None:
    log = log_of(words)
    counts = months.counts_of(copy, log, words.period, words.late)
    write_page(
        words,
        copy,
        "Trips by month",
        figures.lists_of(counts, log is not None),
        figures.sentences_of(counts, log),
        figures.meanings_of(log, words.late),
    )
    columns, rows = figures.table_of(counts, log is not None)
    sys.stdout.write(csv_of([columns, *rows]))
    if log is None:
        print(f"bin/reports: {figures.WITHOUT_LOG}", file=sys.stderr)


def for_transit_database(words: argparse.Namespace, copy: copies.Copy) -> None:
    days, log = transit_figures.days_of(copy, words.period), log_of(words)
    if words.forms and log is None:
        raise Wrong(
            "--forms takes --tally LOG: miles and hours are what drivers reported to the site"
        )
    measured = driven.measured_of(copy, log, words.period) if log else None
    if words.forms and measured:
        driven.write(words.forms, days, measured)
    notes = [driven.said_of(measured)] if measured else [transit_figures.WITHOUT_MILES]
    write_page(
        words,
        copy,
        "National Transit Database",
        transit_figures.lists_of(days),
        [],
        [*transit_figures.SENTENCES, *notes],
    )
    if measured:
        print(f"bin/reports: {notes[0]}", file=sys.stderr)
    columns, rows = transit_figures.table_of(days)
    sys.stdout.write(csv_of([columns, *rows]))


def of_day(words: argparse.Namespace, copy: copies.Copy) -> None:
    log, names = log_of(words), trip_rows.Names(agency_of(words), [])
    counts = months.counts_of(copy, log, words.period, words.late)
    write_page(
        words,
        copy,
        "Report of the day",
        [day_notes.list_of(log, words.period, names), *figures.lists_of(counts, log is not None)],
        figures.sentences_of(counts, log),
        figures.meanings_of(log, words.late),
    )
    sys.stdout.write(csv_of([day_notes.COLUMNS, *day_notes.rows_of(log, words.period, names)]))
    if log is None:
        print(f"bin/reports: {figures.WITHOUT_LOG}", file=sys.stderr)


def each_trip(words: argparse.Namespace, copy: copies.Copy) -> None:
    roster = roster_file.read(words.roster) if words.roster else roster_file.Roster([], [], [])
    for fault in roster.faults:
        print(f"bin/reports: {words.roster}, {fault}", file=sys.stderr)
    names = names_of(words, roster.riders)
    rows = trip_rows.rows_of(copy, log_of(words), words.period, names)
    sys.stdout.write(trip_rows.MARK + csv_of([trip_rows.COLUMNS, *rows], "\r\n"))


def for_sponsors(words: argparse.Namespace, copy: copies.Copy) -> int | None:
    """The invoices of a month. With a fault in the table nothing is written."""
    table = invoices.table_of(copy, words.sponsors)
    for note in table.notes:
        print(f"bin/reports: {words.sponsors}: {note}", file=sys.stderr)
    for said in table.faults[:MOST_NAMED]:
        print(f"bin/reports: {words.sponsors}, {said}", file=sys.stderr)
    if len(table.faults) > MOST_NAMED:
        print(
            f"bin/reports: and {len(table.faults) - MOST_NAMED:,} more rows are wrong",
            file=sys.stderr,
        )
    if table.faults:
        print(f"bin/reports: nothing was written: mend {words.sponsors} first", file=sys.stderr)
        return FAULTS
    agency, names = agency_of(words), names_of(
        words, roster_file.read(words.roster).riders if words.roster else []
    )
    charges, without = sponsors.charges_of(
        invoices.trips_of(copy, log_of(words), words.period), table.rows
    )
    title = ", ".join(filter(None, [f"Invoice for {words.period.first:%B %Y}", agency.get("name")]))
    if not words.plan:
        invoices.write(words.folder, title, charges, without, names)
    for sponsor, those in sponsors.by_sponsor(charges).items():
        print(f"{sponsor}: {len(those)} trips, ${sponsors.dollars(sum(it.cents for it in those))}")
    waiting = sum(bool(it.why) for it in charges)
    print(
        f"all: {len(charges)} trips, ${sponsors.dollars(sum(it.cents for it in charges))}; {waiting} of them have no amount yet; "
        f"nobody pays for {without} trips. {'Nothing was written.' if words.plan else ''}".rstrip()
    )
    return None


def for_reviewer(words: argparse.Namespace, copy: copies.Copy) -> None:
    """The folder of a month: its files are made aside and get their names when all are there."""
    agency, log = agency_of(words), log_of(words)
    buses = reviewed.Buses(words.feed, plane_of(words), words.period) if words.feed else None
    month = reviewed.month_of(
        copy,
        log,
        words.period,
        trip_rows.Names(agency, []),
        agency.get("wait_minutes", reviewed.USUAL_WAIT),
        buses,
    )
    made = tables.tables(month, RULES)
    title = ", ".join(
        filter(None, [f"Paratransit in {words.period.first:%B %Y}", agency.get("name")])
    )
    source = [f"From the copy {os.path.basename(copy.path)} of {copy.made_on()}."]
    source += (
        [f"{counted_words(words.corrected)}: the desk keeps what was entered first."]
        if words.corrections
        else []
    )
    with whole_file.folder_written(words.folder) as beside:
        for it in made:
            whole_file.written(f"{beside}/{it.file}", page.MARK + page.as_csv(it))
        whole_file.written(f"{beside}/index.html", page.page(title, source, month, made))
    print(
        f"{words.folder} has index.html and {counted(len(made), 'file')}: {counted(len(month.trips), 'trip')}, {counted(len(month.denials), 'denial')}"
    )


def plane_of(words: argparse.Namespace) -> str:
    if not (words.plane or words.agency):
        raise Wrong("--feed takes --plane FOLDER, where move-in's plane.json is")
    return str(words.plane or os.path.dirname(os.path.abspath(words.agency)))


def main(arguments: list[str]) -> int | None:
    words = words_of(arguments)
    if isinstance(sys.stdout, io.TextIOWrapper):
        sys.stdout.reconfigure(encoding="utf-8", newline="")
    try:
        with copies.Copy(copies.found(words.copy), getattr(words, "program", None)) as copy:
            copy.check_days()
            words.corrected = corrected_in(words, copy)
            status = words.do(words, copy)
        return status or 0
    except (Wrong, OSError) as error:
        return ending.told("bin/reports", error, 1)


if __name__ == "__main__":
    ending.run("bin/reports", main)
