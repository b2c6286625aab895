#!/usr/bin/env python3
"""Books the trips of standing orders, each night, as far ahead as they may be booked. docs/STANDING-ORDERS.md explains.

  bin/standing-orders orders.csv --url http://127.0.0.1:8437 --clerk keys/9-clerk --dispatcher keys/3-dispatcher

It may be stopped at any moment and run again: no trip is booked twice, and none is left out. The folder gets
standing-orders.jsonl, what was sent, and report.csv, what this run came to. The exit status is 0 where each trip is
booked, 1 where some were refused, stand at another time, or lines of the table are wrong, 2 for wrong words or input, and 3 where the desk did
not answer: then run the same again.
"""

from __future__ import annotations

import argparse
import collections
import datetime
import os
import sys
import zoneinfo
from collections.abc import Iterator
from typing import Any

from desk_tools import ending, telling
from desk_tools.arguments import day_of, usage_of
from desk_tools.counting import counted
from desk_tools.days import now_in
from desk_tools.setup import agency_file, desk, whole_file
from desk_tools.setup.limits import (
    DAYS_AHEAD,
    DONE,
    NOT_ANSWERED,
    NotAnswered,
    SOME_REFUSED,
    WRONG,
    Wrong,
)
from desk_tools.standing_orders import plan, report, share, state, table
from desk_tools.standing_orders.clerk import Clerk
from desk_tools.standing_orders.night import Night, OFFERED, REFUSED

# The share where the agency says nothing of it (49 CFR 37.133(b)).
USUAL_SHARE = 50


def words_of(arguments: list[str]) -> argparse.Namespace:
    parser = usage_of("bin/standing-orders", __doc__)
    parser.takes("orders ORDERS.csv", "the table of standing orders")
    parser.takes("--url", "the desk's address, such as http://127.0.0.1:8437")
    parser.takes("--certificate FILE", "of an https address, where you made it yourself")
    parser.takes("--patience SECONDS", "how long an answer is waited for", type=int, default=600)
    parser.takes("--clerk FILE", "the file with the key of a clerk that no one else uses")
    parser.takes("--dispatcher FILE", "the file with a dispatcher's key, to count trips by hour")
    parser.takes(
        "--site NAME",
        "the site that is told each denial: that of this machine by its "
        "name on the net (NAME, or NAME@ADDRESS:PORT), or an address such as https://desk.example.org",
    )
    parser.takes("--capacity CSV", "trips available, by weekday and hour, where you know them")
    parser.takes(
        "--agency AGENCY.json", "the agency's file: its zone, clock, lead, places and share"
    )
    parser.takes("--folder", "where standing-orders.jsonl and report.csv are", default=".")
    parser.takes("--today DAY", "the day that counts as today", type=day_of)
    parser.flag("--plan", "says which trips it would look at, and asks nothing")
    return parser.parse_args(arguments)


def agency_of(words: argparse.Namespace) -> dict[str, Any]:
    """The agency's file; what is wrong in it is said."""
    if not words.agency:
        return {}
    agency, faults = agency_file.read(words.agency)
    for said in faults:
        print(f"bin/standing-orders: {words.agency}: {said}", file=sys.stderr)
    return agency


def today_of(words: argparse.Namespace, agency: dict[str, Any]) -> datetime.date:
    zone = zoneinfo.ZoneInfo(agency["zone"]) if "zone" in agency else None
    return words.today or datetime.datetime.now(zone).date()


def share_of(
    words: argparse.Namespace,
    agency: dict[str, int | None],
    today: datetime.date,
    line: desk.Line,
    kept: state.State,
) -> share.Share:
    """The share that standing orders may take, and what it is counted by."""
    percent = agency.get("subscription_share", USUAL_SHARE)
    if percent is not None and not words.dispatcher and not words.capacity:
        raise Wrong(
            f"standing orders may take {percent} % of the trips of an hour (49 CFR 37.133(b)): to count them "
            "this takes --dispatcher FILE or --capacity CSV; where there is no limit, let subscription_share "
            "be null"
        )
    reader = (
        desk.Caller(line, kept, words.dispatcher)
        if words.dispatcher and percent is not None
        else None
    )
    return share.Share(
        percent, today, reader, share.capacity_in(words.capacity) if words.capacity else None
    )


def site_of(words: argparse.Namespace) -> telling.Site | None:
    """The site that is told denials, or None. (The unit's words are NAME@SITE of watch.conf, where that is there.)"""
    is_named = words.site and not words.site.startswith("@")
    return (
        telling.Site(words.site, desk.key_in(words.clerk), words.certificate) if is_named else None
    )


def tell_denials(site: telling.Site | None, kept: state.State) -> list[str]:
    """Tells the site what was denied; notes of what it was not told."""
    untold = kept.untold()
    if not untold:
        return []
    if not site:
        return [
            f"{counted(len(untold), 'denial is', 'denials are')} kept, and the site was not told: --site names it"
        ]
    by_path, refused = {path: it for it, path in untold.items()}, collections.Counter[int]()
    for path, status in site.tell(by_path):
        if status == telling.KEPT:
            kept.denial_told(*by_path[path])
        elif status not in telling.LATER:
            refused[status] += 1
    notes = [
        f"the site refuses {counted(count, 'denial')} with status {status}: tell the people who run the desk"
        for status, count in refused.items()
    ]
    waiting = len(kept.untold()) - sum(refused.values())
    return notes + (
        [
            f"{counted(waiting, 'denial waits', 'denials wait')}, since the site takes none now: the next run tells it"
        ]
        if waiting
        else []
    )


def closed_in(agency: dict[str, Any]) -> dict[str, str]:
    """The days on which nobody is served, each with its word."""
    return {it["day"]: it.get("name", "") for it in agency.get("closed", [])}


def passed_over(
    orders: list[table.Order], today: datetime.date, closed: dict[str, str]
) -> Iterator[str]:
    """A sentence for each closed day on which orders would have trips."""
    for day in table.days_of(today, DAYS_AHEAD):
        count = sum(it.is_on(day) for it in orders)
        if day.isoformat() in closed and count:
            name = closed[day.isoformat()]
            yield f"{day:%a} {day} is closed{name and f' ({name})'}: {counted(count, 'trip of standing orders is', 'trips of standing orders are')} passed over"


def planned(
    orders: list[table.Order],
    faults: list[Any],
    today: datetime.date,
    closed: dict[str, str],
    notes: list[str],
) -> int:
    """Says which trips would be looked at."""
    days = [it for it in table.days_of(today, DAYS_AHEAD) if it.isoformat() not in closed]
    trips = [(day, it) for day in days for it in orders if it.is_on(day)]
    for day, it in trips:
        print(
            f"  {day:%a} {day}, {it.name}, rider {it.rider} at {report.clock(it.wish, 24)} "
            f"from {it.origin} to {it.goal}"
        )
    for what, said in faults:
        print(f"  wrong: {what}: {said}")
    for said in notes:
        print(f"  note: {said}")
    for said in passed_over(orders, today, closed):
        print(f"  {said}")
    print(
        f"{counted(len(orders), 'order has', 'orders have')} {counted(len(trips), 'trip')} from tomorrow to {DAYS_AHEAD} days ahead. Nothing was sent."
    )
    return SOME_REFUSED if faults else DONE


def run(words: argparse.Namespace) -> int | None:
    agency = agency_of(words)
    today = today_of(words, agency)
    orders, faults, read = table.orders_in(words.orders)
    closed = closed_in(agency)
    if words.plan:
        return planned(orders, faults, today, closed, read)
    if not words.url or not words.clerk:
        raise Wrong("this takes --url and --clerk, or --plan")
    if not os.path.isdir(words.folder):
        raise Wrong(f"there is no folder {words.folder}")
    site = site_of(words)
    with state.held(words.folder, words.url) as kept:
        kept.shorten(today)
        line = desk.Line(words.url, words.certificate, words.patience)
        night = Night(
            orders,
            today,
            kept,
            Clerk(line, kept, words.clerk),
            share_of(words, agency, today, line, kept),
            closed,
            now_in(agency),
            plan.Planner(agency),
        )
        outcomes = list(night.outcomes())
        notes = [
            *night.notes,
            *passed_over(orders, today, closed),
            *tell_denials(site, kept),
            *read,
        ]
        whole_file.written(f"{words.folder}/report.csv", report.csv_of(outcomes))
        print(report.text_of(today, outcomes, faults, notes, agency.get("clock", 12)), end="")
    return (
        SOME_REFUSED if faults or any(it.result in (OFFERED, REFUSED) for it in outcomes) else DONE
    )


def main(arguments: list[str]) -> int | None:
    words = words_of(arguments)
    try:
        return run(words)
    except (Wrong, NotAnswered, telling.UnknownSite, OSError) as error:
        status = NOT_ANSWERED if isinstance(error, NotAnswered) else WRONG
        return ending.told("bin/standing-orders", error, status, words.folder)


if __name__ == "__main__":
    ending.run("bin/standing-orders", main)
