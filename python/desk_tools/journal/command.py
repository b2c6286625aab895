"""The command `bin/journal`: keeps the record of who did what, and answers questions from it."""

import argparse
import logging
import sys
from collections.abc import Callable
from datetime import date, datetime
from pathlib import Path

from desk_tools import agencies, ending, installed
from desk_tools.journal import (
    answering,
    chain,
    corrections,
    names,
    people,
    questions,
    reading,
    replaying,
    retention,
)
from desk_tools.journal import sheets, signing, taking, travelling, verifying
from desk_tools.journal.places import AGENCY, FOLDER, MAIN, Places, Wrong, agency_of, zone_of
from desk_tools.journal.words import LANGUAGES, Words
from desk_tools.town.cells import HIGHEST_NUMBER

DONE, NOT_DONE, WRONG_WORDS, ENDS_EARLY, UNEXPLAINED = 0, 1, 2, 3, 4
ROSTER, KEY, PUBLIC = (
    Path(MAIN.own("roster.csv")),
    agencies.RECORD_KEY,
    agencies.RECORD_PUBLIC,
)
CORRECTIONS = Path(MAIN.corrections)
EPILOG = """The exit status is 0 done, 1 the record does not hold or something could not be done, 2 wrong words, 3 the record ends
too early, 4 the file has rows that no line explains. docs/RECORDS.md says what is kept, how long, and who may see it."""


def day(text: str) -> date:
    """A day as YYYY-MM-DD."""
    try:
        return date.fromisoformat(text)
    except ValueError:
        raise argparse.ArgumentTypeError(f"{text!r} is no day such as 2026-11-29") from None


def record_number(text: str) -> int:
    """The number of a rider, a trip or a caller. Lines that name none have 0, so no question is about that."""
    if not (text.isascii() and text.isdecimal() and 0 < int(text) <= HIGHEST_NUMBER):
        raise argparse.ArgumentTypeError(f"{text!r} is no number from 1 to {HIGHEST_NUMBER}")
    return int(text)


def places_of(words: argparse.Namespace) -> Places:
    """The record's folder, the site's name and the zone."""
    agency = agency_of(words.agency)
    return Places(words.folder, words.site, zone_of(agency))


def has_record(places: Places) -> bool:
    """Whether the folder has lines of a record, taken or still to be taken."""
    return places.requests.exists() or bool(places.parts() or chain.files_in(places.record))


def asked_of(words: argparse.Namespace) -> questions.Asked:
    """All that a question needs."""
    places = places_of(words)
    if not has_record(places):
        raise Wrong(f"there is no record in {places.folder}")
    riders = names.riders_of_trips(words.copy) if words.copy else {}
    known = names.of_agency(agency_of(words.agency), words.roster, Words(words.language))
    return questions.Asked(
        places, reading.people_of(places), known, riders, words.first, words.last
    )


def show(words: argparse.Namespace, answer: questions.Answer) -> int:
    """Prints an answer as text, as CSV or as a page."""
    said = Words(words.language)
    heads, first = sheets.heads_of(answer.columns, said), [answer.warning] * bool(answer.warning)
    if words.csv:
        if answer.warning:
            logging.error("%s", answer.warning)
        print(sheets.as_csv(heads, answer.rows), end="")
    elif words.html:
        print(sheets.as_page(answer.title, heads, answer.rows, first + answer.notes, said), end="")
    else:
        if answer.warning:
            print(answer.warning)
        print(sheets.as_text(answer.title, heads, answer.rows, said.said("nothing")), end="")
        for note in answer.notes:
            print(note)
    return NOT_DONE if answer.warning else DONE


def take(words: argparse.Namespace) -> int:
    """Takes what the site wrote into the record, closes days that are over, and sends the copy elsewhere.

    A day that does not hold gets no signature, and the status says so each time.
    """
    places, broken = places_of(words), list[str]()
    if not words.key.exists():
        logging.warning("there is no %s, so closed days get no signature: put it back", words.key)

    def finish(file: chain.File) -> None:
        if said := verifying.close(places, file, words.key):
            broken.append(said)

    added, unread = taking.take(places, words.nginx_pid, finish), ""
    try:
        added += corrections.take(places, words.corrections)
    except Wrong as error:
        # (a table that can't be read keeps nothing from being sent elsewhere)
        unread = str(error)
    with places.locked():
        head = signing.head_of(chain.files_in(places.record)[-1])
        if words.offsite:
            signing.sent(places.record, words.offsite, head)
        else:
            signing.marked(places.record, head)
    # (a damaged callers.csv keeps nothing from being chained and sent)
    reading.keep_people(places)
    print(f"{added} lines taken; the record ends with entry {head.last}")
    for said in broken:
        logging.error("the record does not hold, and this day is not signed: %s", said)
    if unread:
        logging.error("%s", unread)
    return NOT_DONE if broken or unread else DONE


def verify(words: argparse.Namespace) -> int:
    """Says whether the record holds, or the first thing that does not."""
    places = places_of(words)
    today = words.today or datetime.now(places.zone).date()
    public = words.public if words.public.exists() else None
    if not public and words.public != PUBLIC:
        raise Wrong(f"there is no {words.public}")
    status, said = verifying.verify(places, public, words.elsewhere, today)
    print(said)
    return status


def check(words: argparse.Namespace) -> int:
    """Replays the writes between two copies, and says which rows no line explains."""
    places = places_of(words)
    known, sites = reading.people_of(places), [places]
    for folder in words.also:
        if not (folder / "record").is_dir():
            raise Wrong(f"there is no record in {folder}")
        sites.append(Places(folder, folder.name, places.zone))
        known.merge(reading.people_of(sites[-1]))
    people.of_copy(words.before, "", known)
    given = words.before, words.after, words.program, words.zone, words.first
    found = replaying.check(sites, known, *given)
    for said in found.differing + found.otherwise:
        print(said)
    for said in found.unsure:
        print(f"not sure: {said}")
    said = (
        "each row is explained" if found.holds else f"{len(found.differing)} rows no line explains"
    )
    print(f"{found.writes} writes replayed; {said}; {len(found.otherwise)} writes went otherwise")
    return DONE if found.holds else UNEXPLAINED


def callers(words: argparse.Namespace) -> int:
    """Adds the callers of a copy of the desk's file, whose keys are older than the record."""
    places = places_of(words)
    with places.locked():
        known = people.read(places.callers)
        added = people.of_copy(words.copy_of_desk, taking.now(), known)
        people.keep(places.callers, known)
    print(f"{added} callers added to {places.callers}")
    return DONE


def begin(words: argparse.Namespace) -> int:
    """Makes the record's folder and the key that signs each day."""
    print(travelling.begin(places_of(words), words.key, words.public))
    return DONE


def travel(words: argparse.Namespace) -> int:
    """Gives driving times as `desk travel` does, and writes a line of it."""
    given = [str(words.file), words.zone]
    number, table = words.number, words.table
    return travelling.give(
        places_of(words), words.program, given, words.key_file, number, words.day, table
    )


def serve(words: argparse.Namespace) -> int:
    """Answers the page *Record* until it is ended."""
    places = places_of(words)

    def ask(first: date | None, last: date | None, language: str) -> questions.Asked:
        known = names.of_agency(agency_of(words.agency), words.roster, Words(language))
        return questions.Asked(places, reading.people_of(places), known, {}, first, last)

    answering.serve(words.socket, ask)
    return DONE


def keep(words: argparse.Namespace) -> int:
    """Removes what is kept long enough, and says what."""
    places = places_of(words)
    agency = agency_of(words.agency)
    rules, hold = retention.rules_of(agency), retention.hold_in(agency)
    folders = {"tally": words.tally, "exports": words.exports, "backups": words.backups}
    today = datetime.now(places.zone).date()
    for said in retention.keep(places, folders, rules, today, words.plan, hold):
        print(said)
    return DONE


def question(
    parsers: "argparse._SubParsersAction[argparse.ArgumentParser]",
    name: str,
    about: str,
    ask: Callable[[argparse.Namespace, questions.Asked], questions.Answer],
    number: str = "",
) -> argparse.ArgumentParser:
    """The parser of a question."""
    parser = parsers.add_parser(name, help=about, description=about)
    if number:
        parser.add_argument("number", type=record_number, metavar=number)
    parser.add_argument("--from", dest="first", type=day, metavar="DAY", help="from this day on")
    parser.add_argument("--to", dest="last", type=day, metavar="DAY", help="up to this day")
    parser.add_argument(
        "--copy",
        type=Path,
        metavar="COPY.db",
        help="a copy of the desk's file, for trips older than the record",
    )
    parser.add_argument(
        "--roster", type=Path, default=ROSTER, help=f"the names of riders ({ROSTER})"
    )
    parser.add_argument("--language", choices=LANGUAGES, default=LANGUAGES[0], help="en or es")
    form = parser.add_mutually_exclusive_group()
    form.add_argument("--csv", action="store_true", help="as CSV")
    form.add_argument("--html", action="store_true", help="as a page to print")
    parser.set_defaults(do=lambda words: show(words, ask(words, asked_of(words))))
    return parser


def add_questions(parsers: "argparse._SubParsersAction[argparse.ArgumentParser]") -> None:
    """The parsers of all questions."""
    question(
        parsers,
        "trip",
        "what happened to a trip",
        lambda words, asked: questions.of_trip(asked, words.number),
        "TRIP",
    )
    rider = question(
        parsers,
        "rider",
        "who entered or read what of a rider",
        lambda words, asked: questions.of_rider(asked, words.number, not words.without_lists),
        "RIDER",
    )
    rider.add_argument(
        "--without-lists",
        action="store_true",
        help="without files, sheets and manifests of several riders",
    )
    add_questions_of_callers(parsers)
    question(
        parsers,
        "standing",
        "every change of a rider's standing",
        lambda words, asked: questions.of_standing(asked, words.number),
        "RIDER",
    )
    question(
        parsers,
        "own",
        "a rider's own copy, without other people's names",
        lambda words, asked: questions.of_own(asked, words.number),
        "RIDER",
    )


def add_questions_of_callers(
    parsers: "argparse._SubParsersAction[argparse.ArgumentParser]",
) -> None:
    """The parsers of the questions about callers and their keys."""
    question(
        parsers,
        "caller",
        "what a caller did",
        lambda words, asked: questions.of_caller(asked, words.number),
        "CALLER",
    )
    question(
        parsers,
        "keys",
        "who changed keys, and which were borrowed",
        lambda words, asked: questions.of_keys(asked),
    )


def add_tasks(parsers: "argparse._SubParsersAction[argparse.ArgumentParser]") -> None:
    """The parsers of what keeps and checks the record."""
    add_take(parsers)
    add_verify(parsers)
    add_check(parsers)
    add_beginning(parsers)
    add_travel(parsers)
    add_keeping(parsers)


def add_take(parsers: "argparse._SubParsersAction[argparse.ArgumentParser]") -> None:
    """The parser of `take`."""
    one = parsers.add_parser(
        "take", help="takes what the site wrote into the record; the unit's work"
    )
    one.set_defaults(do=take)
    one.add_argument("--key", type=Path, default=KEY, help=f"the key that signs each day ({KEY})")
    one.add_argument(
        "--offsite", default="", metavar="FOLDER or HOST:FOLDER", help="where a copy goes"
    )
    one.add_argument(
        "--nginx-pid", type=Path, default=Path("/run/nginx.pid"), help="where nginx has its number"
    )
    one.add_argument(
        "--corrections",
        type=Path,
        default=CORRECTIONS,
        help=f"the corrected outcomes ({CORRECTIONS})",
    )


def add_verify(parsers: "argparse._SubParsersAction[argparse.ArgumentParser]") -> None:
    """The parser of `verify`."""
    one = parsers.add_parser(
        "verify", help="says whether the record holds, or the first line that does not"
    )
    one.set_defaults(do=verify)
    one.add_argument(
        "--public", type=Path, default=PUBLIC, help=f"the public key of the signatures ({PUBLIC})"
    )
    one.add_argument(
        "--elsewhere", type=Path, metavar="FOLDER", help="the copy elsewhere, to compare with"
    )
    one.add_argument(
        "--today", type=day, metavar="DAY", help="the day up to which the record has to go"
    )


def add_check(parsers: "argparse._SubParsersAction[argparse.ArgumentParser]") -> None:
    """The parser of `check`."""
    one = parsers.add_parser(
        "check", help="replays the writes between two copies, and names rows that no line explains"
    )
    one.set_defaults(do=check)
    one.add_argument("before", type=Path, metavar="BEFORE.db")
    one.add_argument("after", type=Path, metavar="AFTER.db")
    one.add_argument("--program", type=Path, default=installed.program(), help="the desk")
    one.add_argument(
        "--zone",
        required=True,
        help="the zone rule of the desk's unit, such as CST6CDT,M3.2.0,M11.1.0",
    )
    one.add_argument(
        "--from",
        dest="first",
        type=day,
        metavar="DAY",
        help="read the record from this day on, such as that of BEFORE.db; without it, the whole record",
    )
    one.add_argument(
        "--also",
        action="append",
        default=[],
        type=Path,
        metavar="FOLDER",
        help="a copy of the record's folder of another machine that served the agency meanwhile",
    )


def add_beginning(parsers: "argparse._SubParsersAction[argparse.ArgumentParser]") -> None:
    """The parsers of what a record begins with: `callers` and `begin`."""
    one = parsers.add_parser(
        "callers", help="adds the callers of a copy, whose keys are older than the record"
    )
    one.set_defaults(do=callers)
    one.add_argument("copy_of_desk", type=Path, metavar="COPY.db")
    one = parsers.add_parser(
        "begin", help="makes the record's folder and the key that signs each day"
    )
    one.set_defaults(do=begin)
    one.add_argument("--key", type=Path, default=KEY)
    one.add_argument("--public", type=Path, default=PUBLIC)


def add_keeping(parsers: "argparse._SubParsersAction[argparse.ArgumentParser]") -> None:
    """The parsers of what goes on day by day: `serve` and `keep`."""
    one = parsers.add_parser(
        "serve", help="answers the page Record, to the site by a socket; the unit's work"
    )
    one.set_defaults(do=serve)
    one.add_argument("socket", type=Path, metavar="SOCKET")
    one.add_argument("--roster", type=Path, default=ROSTER, help=f"the names of riders ({ROSTER})")
    one = parsers.add_parser("keep", help="removes what is kept long enough, and says what")
    one.set_defaults(do=keep)
    one.add_argument(
        "--plan", action="store_true", help="says what would be removed, and removes nothing"
    )
    one.add_argument(
        "--tally", type=Path, default=Path(MAIN.tally), help=f"the site's log ({MAIN.tally})"
    )
    one.add_argument("--exports", type=Path, default=Path(MAIN.exports))
    one.add_argument("--backups", type=Path, default=Path(MAIN.backups))


def add_travel(parsers: "argparse._SubParsersAction[argparse.ArgumentParser]") -> None:
    """The parser of `travel`."""
    one = parsers.add_parser(
        "travel", help="gives driving times as `desk travel` does, with a line in the record"
    )
    one.set_defaults(do=travel)
    one.add_argument("file", type=Path, metavar="FILE.db")
    one.add_argument("zone", metavar="ZONE", help="the zone rule of the desk's unit")
    one.add_argument(
        "key_file", type=Path, metavar="KEYFILE", help="the file with the dispatcher's key"
    )
    one.add_argument("number", type=int, metavar="NUMBER", help="the caller's next number")
    one.add_argument("day", metavar="DAY", help="from which day on")
    one.add_argument("table", type=Path, metavar="TIMES.csv")
    one.add_argument("--program", type=Path, default=installed.program(), help="the desk")


def parser_of() -> argparse.ArgumentParser:
    """The parser of all words."""
    parser = argparse.ArgumentParser("bin/journal", description=__doc__, epilog=EPILOG)
    parser.add_argument(
        "--folder", type=Path, default=FOLDER, help=f"the record's folder ({FOLDER})"
    )
    parser.add_argument(
        "--agency",
        type=Path,
        default=AGENCY,
        help=f"the agency's file, for the zone and names ({AGENCY})",
    )
    parser.add_argument(
        "--site", default="desk", help="the agency's name on the net, which each file has"
    )
    parsers = parser.add_subparsers(required=True, metavar="COMMAND")
    add_questions(parsers)
    add_tasks(parsers)
    return parser


def main(arguments: list[str]) -> int:
    """Does what the words say."""
    logging.basicConfig(format="bin/journal: %(message)s", level=logging.WARNING)
    try:
        parser = parser_of()
        words = parser.parse_args(arguments)
        first, last = getattr(words, "first", None), getattr(words, "last", None)
        if first and last and first > last:
            parser.error(f"--from {first} is after --to {last}")
        status: int = words.do(words)
        sys.stdout.flush()
        return status
    except people.Damaged as error:
        return ending.told("bin/journal", error, WRONG_WORDS)
    except (Wrong, chain.Broken, OSError) as error:
        return ending.told("bin/journal", error, NOT_DONE, "the record")


if __name__ == "__main__":
    ending.run("bin/journal", main)
