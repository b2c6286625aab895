"""Reminds riders of their trips, once each, by the channel that the roster names. docs/REMINDERS.md explains.

  bin/reminders --settings reminders.json --agency agency.json --roster roster.csv \\
      --url http://127.0.0.1:8437 --dispatcher FILE --folder FOLDER      the trips of tomorrow
  bin/reminders .. --soon                                        the trips that begin within the hour
  bin/reminders .. --plan                                        says what would be sent, and sends nothing
  bin/reminders .. --csv dialer.csv                              calls go into a file for a dialer
  bin/reminders --folder FOLDER --answer NUMBER <TEXT            keeps what somebody answered, for a clerk

FOLDER/reminders.jsonl has each message before it is sent, so that none goes out twice. What failed is in the work list.
The exit status is 0 where each message is known as sent, 1 where one is not, in this run or an earlier one, 2 for wrong
words or input, and 3 where the desk did not answer: then run the same again. A run that is ended by SIGTERM has 143.
"""

import argparse
import datetime
import hashlib
import logging
import signal
import sys
from collections import Counter
from pathlib import Path
from types import FrameType

from desk_tools import ending
from desk_tools.arguments import day_of, usage_of
from desk_tools.asking import Desk, NotAnswered, Refused, key_in
from desk_tools.reminders import reading, riders, settings
from desk_tools.reminders.kept import (
    ANSWERS,
    FAILED,
    NAME,
    SENT,
    UNKNOWN,
    Answer,
    Kept,
    Reminder,
    held,
    key_of,
    read,
)
from desk_tools.reminders.sending import (
    ALREADY,
    CANCELED,
    FAILED_BEFORE,
    LEFT,
    NO_CHANNEL,
    NO_END,
    Sender,
    check_new,
)
from desk_tools.reminders.settings import EVENING, SOON, Wrong
from desk_tools.reminders.texts import Trip, clock_in

LOG = logging.getLogger("bin/reminders")
DONE, SOME_FAILED, WRONG, NOT_ANSWERED = range(4)
# What a shell reports of a command that SIGTERM ended.
TERMINATED = 128 + signal.SIGTERM
# With one of these a trip has no reminder that is known as sent.
NOT_SENT = (FAILED, LEFT, FAILED_BEFORE, NO_END)
LONGEST_ANSWER = 500
NEEDED = ("settings", "agency", "roster", "url", "dispatcher")


class Terminated(KeyboardInterrupt):
    """SIGTERM ends the run, as Ctrl+C does."""


def words_of(arguments: list[str]) -> argparse.Namespace:
    """The command's words."""
    parser = usage_of("bin/reminders", __doc__)
    add = parser.add_argument
    add("--settings", type=Path, metavar="FILE", help="reminders.json: commands and texts")
    add("--agency", type=Path, metavar="AGENCY.json", help="the agency's name, zone and places")
    add("--site", type=Path, metavar="FOLDER", help="the site's folder, for the addresses of homes")
    add("--roster", type=Path, metavar="CSV", help="each rider's channel, address and language")
    add("--url", help="the desk's address, such as http://127.0.0.1:8437")
    add("--certificate", metavar="FILE", help="of an https address, where you made it yourself")
    add("--patience", type=int, default=60, metavar="SECONDS", help="how long a reply is awaited")
    add("--dispatcher", type=Path, metavar="FILE", help="the file with a dispatcher's key")
    add("--folder", type=Path, required=True, help="where reminders.jsonl is kept")
    add("--day", type=day_of, metavar="DAY", help="the trips of this day, in place of tomorrow")
    add("--soon", action="store_true", help="the trips that begin within soon_minutes")
    add("--csv", type=Path, metavar="FILE", help="writes the calls for a dialer into a new file")
    add("--plan", action="store_true", help="says what would be sent, and sends nothing")
    add("--answer", metavar="NUMBER", help="keeps standard input as the answer of this number")
    add("--answer-id", metavar="ID", help="the gateway's id of the answer: it counts once")
    words = parser.parse_args(arguments)
    missing = [f"--{it}" for it in NEEDED if getattr(words, it) is None]
    if words.answer is None and missing:
        parser.error(
            f"{', '.join(missing)} is missing"
            if len(missing) == 1
            else f"{', '.join(missing)} are missing"
        )
    if words.soon and words.day:
        parser.error("--soon and --day do not go together")
    return words


def sender_of(words: argparse.Namespace) -> tuple[Sender, list[Trip], str]:
    """What a run needs, the trips that it looks at, and the day of them."""
    told = settings.read(words.settings)
    agency, zone = reading.agency_in(words.agency, words.site)
    texts = [it for of in told.texts.values() for it in of.values()]
    if not agency.telephone and any("{telephone}" in it for it in texts):
        raise Wrong(f"{words.agency} has no telephone, and the texts of the reminders name it")
    known, faults = riders.read(words.roster)
    for said in faults:
        LOG.warning("%s, %s", words.roster, said)
    desk = Desk(words.url, key_in(words.dispatcher), words.certificate, words.patience)

    def now() -> datetime.datetime:
        return datetime.datetime.now(zone).replace(tzinfo=None)

    which = SOON if words.soon else EVENING
    sender = Sender(agency, known, told, which, desk, now, words.csv is not None)
    if not words.soon:
        day = words.day or now().date() + datetime.timedelta(days=1)
        ahead = [it for it in reading.trips_on(desk, day) if reading.begins_at(it) > now()]
        return sender, ahead, day.isoformat()
    days = reading.days_of_soon(now()) if told.soon_minutes else []
    trips = [it for day in days for it in reading.trips_on(desk, day)]
    soon = [it for it in trips if reading.is_soon(it, now(), told.soon_minutes)]
    return sender, soon, now().date().isoformat()


def plan(words: argparse.Namespace) -> int:
    """Says what would be sent."""
    sender, trips, day = sender_of(words)
    had = read(words.folder / NAME).reminders
    for trip in trips:
        it = sender.planned(trip)
        key = key_of(trip.day.isoformat(), trip.number, sender.which)
        window = f"{clock_in(trip.begins, 24)} to {clock_in(trip.ends, 24)}"
        head = f"  trip {trip.number}, rider {trip.rider}, {trip.pickup_day} {window}: "
        if key in had:
            print(f"{head}{said_before(had[key])}")
        elif it is None:
            print(f"{head}the roster names no channel")
        elif it.why:
            print(f"{head}{it.rider.channel} is not possible, since {it.why}")
        else:
            print(f"{head}{it.rider.channel} to {it.to}: {it.text}")
    print(f"{day}: {len(trips)} trips. Nothing was sent.")
    return DONE


def said_before(reminder: Reminder) -> str:
    """What an earlier run came to for a trip."""
    if reminder.result == SENT:
        return "had one already"
    return f"is not sent again, call the rider: {reminder.why or UNKNOWN}"


def end_run(_number: int, _frame: FrameType | None) -> None:
    """Ends the run in order: a command that is running ends with it. A second signal changes nothing."""
    signal.signal(signal.SIGTERM, signal.SIG_IGN)
    raise Terminated


def send(words: argparse.Namespace) -> int:
    """Sends what has not been sent. A run that is cut off says what it had begun."""
    if words.csv:
        check_new(words.csv)
    signal.signal(signal.SIGTERM, end_run)
    before = read(words.folder / NAME)
    try:
        return send_all(words)
    except KeyboardInterrupt:
        LOG.error("%s", told_of_cut(before, read(words.folder / NAME)))
        raise


def send_all(words: argparse.Namespace) -> int:
    """Sends what has not been sent, and says what came of it."""
    with held(words.folder) as state:
        sender, trips, day = sender_of(words)
        state.shorten(sender.now().date())
        plans = sender.run(trips, state)
        if words.csv:
            sender.dialed(plans, words.csv, state)
        if not sender.result[LEFT] and (day, sender.which) not in state.runs:
            state.add(kind="run", day=day, which=sender.which)
    print(f"{day}: {told_of(sender.result, len(trips))}")
    return status_of(sender.result)


def status_of(result: Counter[str]) -> int:
    """The exit status: whether each trip of the day has a reminder that is known as sent, or wants none."""
    return SOME_FAILED if any(result[it] for it in NOT_SENT) else DONE


def told_of_cut(before: Kept, after: Kept) -> str:
    """What a run that was cut off had begun without an end."""
    known = {it.key for it in before.without_end()}
    trips = [str(it.trip) for it in after.without_end() if it.key not in known]
    rest = "a later run sends the rest"
    if not trips:
        return f"the run was cut off with no reminder under way; {rest}"
    was = "trip {} was" if len(trips) == 1 else "trips {} were"
    begun = was.format(", ".join(trips))
    return f"the run was cut off: {begun} begun and nobody knows the end, so call; {rest}"


def told_of(result: Counter[str], count: int) -> str:
    """What a run came to, in one line."""
    parts = [
        f"{result[SENT]} sent",
        f"{result[FAILED]} failed and are in the work list",
        f"{result[LEFT]} left for the next run",
        f"{result[ALREADY]} had one already",
        f"{result[FAILED_BEFORE]} failed before",
        f"{result[NO_END]} were begun before and have no known end",
        f"{result[CANCELED]} are no longer booked",
        f"{result[NO_CHANNEL]} riders want none",
    ]
    said = f"{count} trips: " + ", ".join(it for it in parts if not it.startswith("0 "))
    again = result[FAILED_BEFORE] + result[NO_END]
    return f"{said}. What failed or has no end is never sent again: call" if again else said


def keep_answer(words: argparse.Namespace) -> int:
    """Keeps what somebody answered. The desk is not asked, and nothing is canceled."""
    content = sys.stdin.buffer.read(4 * LONGEST_ANSWER + 1).decode("utf-8", "replace")
    text = " ".join("".join(it if it.isprintable() else " " for it in content).split())
    try:
        number = riders.dialed(words.answer.strip())
    except ValueError as error:
        raise Wrong(f"--answer: {error}") from None
    now = datetime.datetime.now()
    # (a gateway that gives one answer twice on a day gives one line)
    chance = words.answer_id or f"{number} {text.casefold()} {now.date()}"
    key = hashlib.sha256(chance.encode("utf-8", "surrogateescape")).hexdigest()[:26]
    answer = Answer(key, number, text[:LONGEST_ANSWER], now.strftime("%Y-%m-%dT%H:%M:%S"))
    with held(words.folder, ANSWERS) as state:
        state.shorten(now.date())
        is_new = key not in state.answers
        if is_new:
            state.add(kind="answer", **vars(answer))
    print(
        "It is in the list of the clerk." if is_new else "It is in the list of the clerk already."
    )
    return DONE


def run(words: argparse.Namespace) -> int:
    """Does what the words say."""
    if not words.folder.is_dir():
        raise Wrong(f"there is no folder {words.folder}")
    if words.answer is not None:
        return keep_answer(words)
    return plan(words) if words.plan else send(words)


def main(arguments: list[str]) -> int:
    """Runs the command."""
    logging.basicConfig(format="%(name)s: %(message)s", level=logging.INFO)
    words = words_of(arguments)
    try:
        return run(words)
    except (Wrong, Refused) as error:
        LOG.error("%s", error)
        return WRONG
    except NotAnswered as error:
        LOG.error("%s; run the same again", error)
        return NOT_ANSWERED
    except Terminated:
        return TERMINATED
    except OSError as error:
        LOG.error("%s", ending.of_file(error, words.folder))
        return WRONG


if __name__ == "__main__":
    ending.run("bin/reminders", main)
