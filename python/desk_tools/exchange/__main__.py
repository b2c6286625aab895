"""Writes a day's trips for another dispatch system, as TCRP 210 transactional data in JSON.

  bin/trip-exchange /var/lib/desk-site/main --key FILE --day 2026-03-02 --output trips.json
  bin/trip-exchange /var/lib/desk-site/main --key FILE --plan

The names of objects and fields are those of TCRP Report 210 as they were remembered: nobody has compared them with the
report. Compare them with the other system's own example before you send anything. docs/GUIDE.md, "What other dispatch
systems read", has what each object holds. The folder is the site's, and the key a dispatcher's. The file has riders' names
unless --without-names is given, and only its owner can read it. The exit status is 0 where it was written, 1 where it could
not be written, 2 for wrong words or input, and 3 where the desk did not answer: then run the same again.
"""

import argparse
import datetime
import json
import logging
import sys
import time
from collections import Counter
from pathlib import Path
from typing import Any

from desk_tools import ending
from desk_tools.arguments import day_of, usage_of
from desk_tools.asking import Desk, NotAnswered, Refused, key_in
from desk_tools.counting import counted
from desk_tools.exchange import reading
from desk_tools.exchange.telegrams import SPECIFICATION, trip_of
from desk_tools.setup import whole_file

LOG = logging.getLogger("bin/trip-exchange")
DONE, FAILED, WRONG, NOT_ANSWERED = range(4)
SECONDS_STILL = 2.0


def words_of(arguments: list[str]) -> argparse.Namespace:
    """The command's words."""
    parser = usage_of("bin/trip-exchange", __doc__)
    add = parser.add_argument
    add("folder", metavar="FOLDER", type=Path, help="the site's folder, as bin/site-files makes it")
    add("--key", type=Path, required=True, metavar="FILE", help="the file with a dispatcher's key")
    add("--url", default="http://127.0.0.1:8437", help="where the desk answers")
    add("--certificate", metavar="FILE", help="of an https address, where you made it yourself")
    add("--patience", type=int, default=60, metavar="SECONDS", help="how long a reply is awaited")
    add("--day", type=day_of, metavar="DAY", help="the trips of this day; tomorrow by default")
    add("--without-names", action="store_true", help="riders by their numbers alone")
    add("--output", metavar="FILE", type=Path, help="the file, which takes the place of an old one")
    add("--plan", action="store_true", help="says what would be written, and writes nothing")
    words = parser.parse_args(arguments)
    if not words.output and not words.plan:
        parser.error("this takes --output FILE, or --plan")
    return words


class Progress:
    """Says every two seconds how many riders were asked for."""

    def __init__(self) -> None:
        self.last = time.monotonic()

    def __call__(self, done: int, count: int) -> None:
        if time.monotonic() - self.last >= SECONDS_STILL:
            self.last = time.monotonic()
            LOG.info("%s of %s were asked for", f"{done:,}", counted(count, "rider"))


def made(words: argparse.Namespace) -> dict[str, Any]:
    """The content of the file."""
    if not words.folder.is_dir():
        raise reading.Wrong(f"{words.folder} is no folder")
    day = words.day
    desk = Desk(words.url, key_in(words.key), words.certificate, words.patience)
    site = reading.site_in(words.folder, day or datetime.date.min, not words.without_names)
    if day is None:
        day = datetime.datetime.now(site.zone).date() + datetime.timedelta(days=1)
    clock = reading.clock_of(site, day)
    planned, trips = reading.planned_on(desk, day), reading.trips_on(desk, day, Progress())
    return {
        "specification": SPECIFICATION,
        "provider": {"name": site.name, "telephone": site.telephone or None},
        "day": day.isoformat(),
        "timeZone": str(site.zone),
        "trips": [trip_of(it, reading.known_of(it, site, planned), clock) for it in trips],
    }


def run(words: argparse.Namespace) -> int:
    """Writes the file, or says what it would have."""
    held = made(words)
    states = Counter(it["status"] for it in held["trips"])
    told = ", ".join(f"{count} {state}" for state, count in sorted(states.items()))
    print(f"{held['day']}: {counted(len(held['trips']), 'trip')}{': ' if told else ''}{told}")
    if words.plan:
        print("Nothing was written.")
        return DONE
    text = json.dumps(held, ensure_ascii=False, indent=1) + "\n"
    try:
        whole_file.written(words.output, text.encode())
    except OSError as error:
        LOG.error("%s: %s", words.output, error.strerror)
        return FAILED
    print(f"{words.output} is written. {SPECIFICATION}")
    return DONE


def main(arguments: list[str]) -> int:
    """Runs the command."""
    logging.basicConfig(format="%(name)s: %(message)s", level=logging.INFO, stream=sys.stderr)
    words = words_of(arguments)
    try:
        return run(words)
    except (reading.Wrong, Refused) as error:
        LOG.error("%s", error)
        return WRONG
    except NotAnswered as error:
        LOG.error("%s; run the same again", error)
        return NOT_ANSWERED


if __name__ == "__main__":
    ending.run("bin/trip-exchange", main)
