#!/usr/bin/env python3
"""Finds the trips that are booked on days on which nobody is served, and cancels them where it is asked to.

  bin/closed-days --agency AGENCY.json --url http://127.0.0.1:8437 --dispatcher keys/dispatcher
  bin/closed-days .. --roster ROSTER.csv --folder FOLDER --cancel

The days stand in agency.json as `closed`. Each trip is printed with the rider, the pickup window and the telephone number.
--cancel first writes the call list, FOLDER/closed-days.csv, and then cancels: each trip once, though it is run again. The
list keeps every trip that an earlier run put there. --site tells the site of each cancellation, as the agency's. The exit
status is 0 where no trip is booked on a closed day any more, 1 where one is, 2 for wrong words or input, and 3 where the
desk did not answer: then run the same again.
"""

from __future__ import annotations

import argparse
import contextlib
import csv
import datetime
import fcntl
import io
import os
import pathlib
import sys
from collections.abc import Iterator
from typing import Any

from desk_tools.arguments import usage_of
from desk_tools.days import clock_of_twelve as clock, now_in
from desk_tools import ending, events, outbox, telling
from desk_tools.counting import counted
from desk_tools.setup import agency_file, desk, keys, roster_file, whole_file
from desk_tools.setup.limits import (
    DAYS_AHEAD,
    DONE,
    HIGHEST_NUMBER,
    LAST_MINUTE,
    NOT_ANSWERED,
    NotAnswered,
    SOME_REFUSED,
    WRONG,
    Wrong,
)
from desk_tools.setup.tally_log import AGENCY

LIST, EVENTS, LOCK, PURPOSE = (
    "closed-days.csv",
    "closed-days.jsonl",
    "closed-days.lock",
    "a closed day",
)
# What the nightly unit is set to do: CLOSED_DAYS of /etc/desk/main-closed-days.conf.
JUST_LIST, CANCEL = "list", "cancel"
COLUMNS = tuple("day window_from window_to trip rider name telephone vehicle canceled".split())
CANCELED, LEFT = "yes", "no"


def words_of(arguments: list[str]) -> argparse.Namespace:
    parser = usage_of("bin/closed-days", __doc__)
    parser.takes(
        "--agency AGENCY.json", "the agency's file: its closed days and zone", required=True
    )
    parser.takes("--url", "the desk's address, such as http://127.0.0.1:8437", required=True)
    parser.takes("--certificate FILE", "of an https address, where you made it yourself")
    parser.takes("--patience SECONDS", "how long an answer is waited for", type=int, default=600)
    parser.takes("--dispatcher FILE", "the file with a dispatcher's key", required=True)
    parser.takes("--roster CSV", "the agency's roster: names and telephone numbers")
    parser.takes("--folder", "where the call list and what was sent are kept", default=".")
    parser.add_argument(
        "--cancel",
        dest="do",
        action="store_const",
        const=CANCEL,
        default=JUST_LIST,
        help="cancels the trips, as the agency's cancellation",
    )
    parser.takes(
        "--do WORD",
        f"{JUST_LIST}, or {CANCEL} as --cancel does; nothing is {JUST_LIST}",
        type=what_to_do,
    )
    parser.takes(
        "--site NAME",
        "the site that is told each cancellation: that of this machine by its "
        "name on the net (NAME, or NAME@ADDRESS:PORT), or an address such as https://desk.example.org",
    )
    return parser.parse_args(arguments)


def what_to_do(text: str) -> str | None:
    if text not in ("", JUST_LIST, CANCEL):
        raise argparse.ArgumentTypeError(f"{text!r} is neither {JUST_LIST} nor {CANCEL}")
    return text or JUST_LIST


def say(line: str) -> None:
    """Prints a line. A reader who goes away ends nothing that is still to be done."""
    try:
        print(line)
    except BrokenPipeError:
        ending.leave_out_rest()


def agency_of(path: str) -> tuple[dict[str, Any], bool]:
    """The agency's file, and whether each of its closed days could be read. What is wrong in it is named."""
    agency, faults = agency_file.read(path)
    for said in faults:
        print(f"bin/closed-days: {path}: {said}", file=sys.stderr)
    return agency, not any(
        it.startswith("closed") and "stands above already" not in it for it in faults
    )


def closed_in(agency: dict[str, Any]) -> dict[str, str]:
    """The closed days that may be booked now, each with its word, by day."""
    today = now_in(agency).date()
    ahead = {(today + datetime.timedelta(days=it)).isoformat() for it in range(DAYS_AHEAD + 1)}
    return {it["day"]: it.get("name", "") for it in agency.get("closed", []) if it["day"] in ahead}


def riders_in(path: str | None) -> dict[str, dict[str, str]]:
    """Names and telephone numbers by riders' numbers. What is wrong in the roster is named, and the rest is used."""
    if not path:
        return {}
    roster = roster_file.read(path)
    for said in roster.faults:
        print(f"bin/closed-days: {path}, {said}", file=sys.stderr)
    return {str(it["rider"]): it for it in roster.riders}


def booked_on(
    caller: desk.Caller, day: str, riders: dict[str, dict[str, str]]
) -> Iterator[dict[str, str]]:
    """The rows of the trips that are booked on a day, in order of their pickup windows."""
    reply = caller.get(f"/days/{day}/trips.csv")
    if reply.status != 200:
        raise Wrong(f"the desk does not tell the trips of {day}: status {reply.status}")
    found = [it for it in csv.DictReader(io.StringIO(reply.body)) if it["status"] == "booked"]
    found.sort(key=lambda it: (int(it["window_from"]), int(it["trip"])))
    for it in found:
        known = riders.get(it["rider"], {})
        yield {
            **{name: it[name] for name in COLUMNS if name in it},
            "name": known.get("name", ""),
            "telephone": known.get("telephone", ""),
            "canceled": LEFT,
        }


def list_in(path: str) -> dict[str, dict[str, str]]:
    """The rows of the call list by their trips, as earlier runs left it."""
    if not os.path.exists(path):
        return {}
    try:
        with open(path, encoding="utf-8-sig", newline="") as file:
            rows = list(csv.DictReader(file))
    except (ValueError, csv.Error) as error:
        raise Wrong(f"{path} is not a call list of this program: {error}") from None
    if any(set(it) != set(COLUMNS) for it in rows):
        raise Wrong(
            f"{path} is not a call list of this program: move it away and run the command again"
        )
    for number, it in enumerate(rows, 2):
        said = fault_of(it)
        if said:
            raise Wrong(
                f"{path}, row {number}: {said}; mend the row, or move the file away, and run the command again"
            )
    return {it["trip"]: it for it in rows}


def fault_of(row: dict[str, str]) -> str | None:
    """What is wrong in a row of the call list, which staff may have changed by hand; or nothing."""
    try:
        if datetime.date.fromisoformat(row["day"]).isoformat() != row["day"]:
            return f"day {row['day']!r} is no day YYYY-MM-DD"
    except ValueError:
        return f"day {row['day']!r} is no day YYYY-MM-DD"
    for name, most in ("window_from", LAST_MINUTE), ("trip", HIGHEST_NUMBER):
        if not (row[name].isascii() and row[name].isdigit() and int(row[name]) <= most):
            return f"{name} {row[name]!r} is no whole number from 0 to {most}"
    return None


def written(path: str, rows: dict[str, dict[str, str]]) -> None:
    text = io.StringIO(newline="")
    writer = csv.DictWriter(text, COLUMNS, lineterminator="\r\n")
    writer.writeheader()
    for it in sorted(
        rows.values(), key=lambda it: (it["day"], int(it["window_from"]), int(it["trip"]))
    ):
        writer.writerow({name: guarded(value) for name, value in it.items()})
    whole_file.written(path, text.getvalue())


def guarded(value: str) -> str:
    """A cell that a spreadsheet does not take for a formula."""
    return f"'{value}" if value[:1] in ("=", "+", "-", "@", "\t") and value else value


def event_of(trip: str, agency: dict[str, Any]) -> str:
    """The path that tells the site of a trip that the agency canceled."""
    return events.path_of(
        "cancellations", {"id": keys.made(), "trip": int(trip), "by": AGENCY, "at": now_in(agency)}
    )


def cancel(
    caller: desk.Caller,
    path: str,
    found: dict[str, dict[str, str]],
    agency: dict[str, Any],
    waiting: outbox.Outbox,
) -> int:
    """Cancels the trips, whose call list is on the disk before the first one; how many are left."""
    rows = {**list_in(path), **found}
    written(path, rows)
    left = 0
    try:
        for trip in found:
            waiting.hold(trip, event_of(trip, agency))
            reply = caller.post(f"/trips/{trip}/cancel", {}, PURPOSE)
            denied = reply.body.get("denied") if isinstance(reply.body, dict) else None
            if reply.status == 200:
                waiting.ready(trip)
                rows[trip] = {**rows[trip], "canceled": CANCELED}
            else:
                waiting.drop(trip)
                left += 1
                rows[trip] = {**rows[trip], "canceled": f"no: {denied or reply.status}"}
                say(f"  trip {trip} is not canceled: {denied or reply.status}")
    finally:
        written(path, rows)
    done = len(found) - left
    say(f"{counted(done, 'trip is', 'trips are')} canceled; {path} lists whom to call")
    return left


def take_up(
    path: str, closed: dict[str, str], found: dict[str, dict[str, str]], waiting: outbox.Outbox
) -> None:
    """Puts right what a run that was cut off left: what it canceled is so in the list, and the site is told it."""
    rows = list_in(path)
    for trip in waiting.held():
        if trip in found:
            continue
        if rows.get(trip, {}).get("day") in closed:
            waiting.ready(trip)
        else:
            say(
                f"  trip {trip}: a run was cut off before it saw whether this was canceled; look at the trip"
            )
    done = [
        trip
        for trip in waiting.untold().values()
        if trip in rows and trip not in found and rows[trip]["canceled"] != CANCELED
    ]
    for trip in done:
        rows[trip] = {**rows[trip], "canceled": CANCELED}
    if done:
        written(path, rows)


@contextlib.contextmanager
def alone(folder: str) -> Iterator[None]:
    """Two runs at once would each take the other's cancellations for its own failures."""
    with open(f"{folder}/{LOCK}", "a", encoding="utf-8") as file:
        try:
            fcntl.flock(file, fcntl.LOCK_EX | fcntl.LOCK_NB)
        except BlockingIOError:
            raise Wrong(f"another run is at work in {folder}: wait until it has ended") from None
        yield


def tell(site: telling.Site | None, waiting: outbox.Outbox) -> None:
    """Tells the site which trips the agency canceled; says what it was not told."""
    untold, refused = waiting.untold(), 0
    if not site:
        if untold:
            say(
                f"{counted(len(untold), 'cancellation is', 'cancellations are')} kept, and the site was not told: --site names it"
            )
        return
    for path, status in site.tell(untold):
        if status == telling.KEPT:
            waiting.drop(untold[path])
        elif status not in telling.LATER:
            refused += 1
            say(
                f"the site refuses the cancellation of trip {untold[path]} with status {status}: tell the people who run the desk"
            )
    left = len(waiting.untold()) - refused
    if left:
        say(
            f"{counted(left, 'cancellation waits', 'cancellations wait')}, since the site takes none now: the next run tells it"
        )


def run(words: argparse.Namespace) -> int | None:
    """The exit status. A closed day that can't be read may have trips of which nobody hears, so that is never done."""
    (agency, all_read), riders = agency_of(words.agency), riders_in(words.roster)
    status = done_with(words, agency, riders)
    return status if all_read else WRONG


def done_with(
    words: argparse.Namespace, agency: dict[str, Any], riders: dict[str, dict[str, str]]
) -> int | None:
    if not os.path.isdir(words.folder):
        raise Wrong(f"there is no folder {words.folder}")
    # (a unit's words are NAME@SITE of watch.conf, where that is there)
    site = (
        telling.Site(words.site, desk.key_in(words.dispatcher), words.certificate)
        if words.site and not words.site.startswith("@")
        else None
    )
    with alone(words.folder):
        return looked_at(words, agency, riders, site)


def looked_at(
    words: argparse.Namespace,
    agency: dict[str, Any],
    riders: dict[str, dict[str, str]],
    site: telling.Site | None,
) -> int | None:
    """Looks at each closed day, and does what was asked; the exit status."""
    closed, waiting = closed_in(agency), outbox.Outbox(pathlib.Path(words.folder, EVENTS))
    if not closed:
        say(f"No day of the next {DAYS_AHEAD} is closed.")
        tell(site, waiting)
        return DONE
    line = desk.Line(words.url, words.certificate, words.patience)
    caller, found = desk.Caller(line, desk.Journal(words.folder, words.url), words.dispatcher), {}
    for day, name in closed.items():
        rows = list(booked_on(caller, day, riders))
        say(
            f"{day}{name and f' ({name})'} is closed; {counted(len(rows), 'trip is', 'trips are')} booked on it."
        )
        for it in rows:
            say(
                f"  trip {it['trip']}, {it['name'] or 'rider'} ({it['rider']}), pickup {clock(int(it['window_from']))} to "
                f"{clock(int(it['window_to']))}, vehicle {it['vehicle']}, {it['telephone'] or 'no telephone number'}"
            )
        found.update({it["trip"]: it for it in rows})
    if words.do == CANCEL:
        take_up(f"{words.folder}/{LIST}", closed, found, waiting)
    left = (
        cancel(caller, f"{words.folder}/{LIST}", found, agency, waiting)
        if words.do == CANCEL and found
        else len(found)
    )
    tell(site, waiting)
    return SOME_REFUSED if left else DONE


def main(arguments: list[str]) -> int | None:
    words = words_of(arguments)
    try:
        return run(words)
    except (Wrong, NotAnswered, telling.UnknownSite, outbox.UnreadableOutbox, OSError) as error:
        status = NOT_ANSWERED if isinstance(error, NotAnswered) else WRONG
        return ending.told("bin/closed-days", error, status, words.folder)


if __name__ == "__main__":
    ending.run("bin/closed-days", main)
