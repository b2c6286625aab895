"""Tells in plain sentences why a trip was answered `no vehicle`, from the log that `desk explain` wrote.

  bin/why refusal.log                                        one sentence or two for each van, as text
  desk explain desk.db .. | bin/why -                        the same of a log that is just being written
  bin/why refusal.log --html FILE --language es              a page to hand out, with the log below, line by line
  bin/why refusal.log --copy COPY.db --day 2025-03-11        also says when each van has to be back
  bin/why refusal.log --copy COPY.db --question ZONE KEY ..  also asks `desk audit` whether the log is right

What is written says whether `desk audit` checked the log. --question takes the words of `desk audit` behind the copy:
zone, a dispatcher's key, rider, day, wish, from, to, by, attendant, companions. The exit status is 0 where the sentences
are written, 1 where `desk audit` does not say yes or there is no room, and 2 for wrong words or input.
"""

import argparse
import html
import sys
from pathlib import Path

from desk_tools import ending
from desk_tools.arguments import day_of, usage_of
from desk_tools.setup import whole_file
from desk_tools.why import checking
from desk_tools.why.checking import NoAudit, NotRight, Question
from desk_tools.why.facts import NoFacts, facts_of
from desk_tools.why.log import Log, NoLog, read
from desk_tools.why.reasons import refusals
from desk_tools.why.words import LANGUAGES, TEXTS, Facts, sentences

LARGEST = 64 * 1024 * 1024
# The words of a question, and which of them is the day of the trip.
QUESTION, DAY = ("ZONE", "KEY", "RIDER", "DAY", "WISH", "FROM", "TO", "BY", "ATTENDANT", "WITH"), 3
STYLE = "body{font:12pt/1.5 sans-serif;max-width:46rem;margin:2rem auto;padding:0 1rem}pre{font-size:9pt}li{margin:.4em 0}"


def words_of(arguments: list[str]) -> argparse.Namespace:
    """The command's words."""
    parser = usage_of("bin/why", __doc__)
    parser.takes("log LOG", "the file with the log, or - for standard input")
    parser.takes("--language", "en or es", choices=LANGUAGES, default="en")
    parser.takes("--html FILE", "writes a page in place of the text", type=Path)
    parser.takes("--copy COPY.db", "the copy that the log is about", type=Path)
    parser.takes("--day DAY", "the day of the trip, with --copy", type=day_of)
    parser.takes("--agency AGENCY.json", "names of the vans", type=Path)
    parser.add_argument(
        "--question", nargs=len(QUESTION), metavar=QUESTION, help="what was asked, for `desk audit`"
    )
    parser.takes("--desk PROGRAM", "the desk that checks the log, else the installed one")
    words = parser.parse_args(arguments)
    if words.question:
        try:
            day = day_of(words.question[DAY])
        except argparse.ArgumentTypeError as error:
            parser.error(str(error))
        if words.day not in (None, day):
            parser.error(f"--day is {words.day}, and --question has {day}")
        words.day = day
    if words.desk and not words.question:
        parser.error("--desk checks the log by --question, which is missing")
    if (words.copy is None) != (words.day is None):
        parser.error("--copy goes with --day or --question, and each of these with --copy")
    return words


def text_in(name: str) -> str:
    """The text of a file or of standard input."""
    try:
        if name == "-":
            content = sys.stdin.buffer.read(LARGEST + 1)
        else:
            with open(name, "rb") as file:
                content = file.read(LARGEST + 1)
    except OSError as error:
        raise NoLog(f"{name}: {error.strerror}") from None
    if len(content) > LARGEST:
        raise NoLog(f"the text has more than {LARGEST:,} bytes")
    try:
        return content.decode("ascii")
    except UnicodeDecodeError as error:
        raise NoLog(
            f"the text is no log of a refusal: byte {error.start + 1} is {content[error.start]:#04x}"
        ) from None


def told(log: Log, facts: Facts, language: str) -> list[str]:
    """The sentences of a log, a paragraph for each vehicle."""
    if log.has_no_way:
        return [TEXTS[language]["no-way"]]
    return [sentences(it, facts, language) for it in refusals(log)] or [TEXTS[language]["none"]]


def page(log: Log, facts: Facts, language: str, is_checked: bool) -> str:
    """The page to hand out."""
    texts = TEXTS[language]
    items = "".join(f"<li>{html.escape(it)}</li>\n" for it in told(log, facts, language))
    limits = "".join(f"<p>{texts[f'not-said-{at}']}</p>\n" for at in (1, 2, 3))
    lines = "\n".join(f"{row:>6}  {html.escape(line)}" for row, line in enumerate(log.lines, 1))
    return (
        f'<!DOCTYPE html>\n<html lang="{language}">\n<head><meta charset="utf-8"><title>{texts["title"]}</title>'
        f"<style>{STYLE}</style></head>\n<body>\n<h1>{texts['title']}</h1>\n<ul>\n{items}</ul>\n"
        f"<p><strong>{checked_words(is_checked, language)}</strong></p>\n<h2>{texts['not-said']}</h2>\n{limits}"
        f"<details><summary>{texts['log']}</summary>\n<pre lang=\"en\">{lines}</pre></details>\n</body>\n</html>\n"
    )


def text(log: Log, facts: Facts, language: str, is_checked: bool) -> str:
    """The text of the terminal."""
    texts = TEXTS[language]
    limits = [texts[f"not-said-{at}"] for at in (1, 2, 3)]
    checked = checked_words(is_checked, language)
    return "\n".join(
        [*told(log, facts, language), "", checked, "", f"{texts['not-said']}:", *limits, ""]
    )


def checked_words(is_checked: bool, language: str) -> str:
    """Whether `desk audit` checked the log."""
    return TEXTS[language]["checked" if is_checked else "not-checked"]


def write(words: argparse.Namespace) -> None:
    """Writes the sentences of the log, after `desk audit` where it is asked."""
    content = text_in(words.log)
    log = read(content)
    if words.question:
        question = Question(tuple(words.question), words.copy)
        checking.check(content, checking.program_of(words.desk), question)
    # (where there is no way at all, a log names no vehicle)
    copy = None if log.has_no_way else words.copy
    facts = facts_of(copy, words.day, words.agency, log.vehicles().keys())
    made = page if words.html else text
    said = made(log, facts, words.language, bool(words.question))
    if words.html:
        whole_file.written(words.html, said.encode())
    else:
        sys.stdout.write(said)
        sys.stdout.flush()


def main(arguments: list[str]) -> int:
    """Runs the command; its exit status is that of the head of this module."""
    words = words_of(arguments)
    try:
        write(words)
        return 0
    except BrokenPipeError:
        ending.leave_out_rest()
        return 0
    except (NoLog, NoFacts, NoAudit) as error:
        print(f"bin/why: {error}", file=sys.stderr)
        return 2
    except NotRight as error:
        print(f"bin/why: {error}", file=sys.stderr)
    except OSError as error:
        print(f"bin/why: {words.html or 'the output'}: {error.strerror}", file=sys.stderr)
    return 1


if __name__ == "__main__":
    ending.run("bin/why", main)
