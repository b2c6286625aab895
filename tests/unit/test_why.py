"""A log of a refusal in plain sentences: its form, what was in the way, and that each minute is one of the log's own."""

import os
import re
import sqlite3
import subprocess
from pathlib import Path

import pytest
from hypothesis import given
from hypothesis import strategies as st

from desk_tools.why.log import Log, NoLog, read
from desk_tools.why.reasons import refusals
from desk_tools.why.words import LANGUAGES, NO_FACTS, Facts, clock, sentences

TOP = Path(__file__).resolve().parents[2]
EXAMPLE = "AUDIT 1\nCASE 1 0 0\nF 0 480\nA 1 500\nA 2 532\nA 3 574\nW 3\nDONE\n"


def run(*words: str, text: str = "") -> subprocess.CompletedProcess[str]:
    """The command's exit status and what it says."""
    return subprocess.run(
        [TOP / "bin/why", *words], input=text, capture_output=True, text=True, check=False
    )


def test_the_page_to_check_by_pencil_is_told_in_a_sentence() -> None:
    document = (TOP / "docs/AUDIT.md").read_text("utf-8")
    assert f"```\n{EXAMPLE}```" in document
    told = run("-", text=EXAMPLE).stdout
    assert told.startswith(
        "Van 1 cannot take the trip: it would be back at 9:34 AM at the earliest, after its day has ended.\n"
    )
    assert "It is still a denial, for which the agency answers (49 CFR 37.131(f))." in told


def test_what_a_copy_tells_of_a_van_is_said() -> None:
    facts = Facts({1: "The blue van"}, {1: 490})
    told = sentences(refusals(read(EXAMPLE))[0], facts, "en")
    assert told == (
        "The blue van (van 1) cannot take the trip: it would be back at 9:34 AM at the earliest, "
        "and has to be back by 8:10 AM."
    )


def test_a_day_that_would_be_too_long_is_named() -> None:
    case = ["CASE 2 0 0", "A 3 1277", "T 0 647", "A 1 660", "W 1"]
    told = sentences(refusals(read("\n".join(["AUDIT 1", *case, "DONE", ""])))[0], NO_FACTS, "en")
    assert told == (
        "Van 2 cannot take the trip: so that its day is not too long it would leave at 10:47 AM at the earliest, "
        "and so reach a stop at 11:00 AM, after the time promised there."
    )


@pytest.mark.parametrize("language", LANGUAGES)
def test_each_van_has_one_sentence_and_what_was_most_often_in_the_way_comes_first(
    language: str,
) -> None:
    cases = ["CASE 2 0 0", "L 1", "CASE 2 0 1", "A 4 1140", "W 4", "CASE 2 1 1", "A 4 1150", "W 4"]
    told = sentences(
        refusals(read("\n".join(["AUDIT 1", *cases, "DONE", ""])))[0], NO_FACTS, language
    )
    assert told.count(". ") == told.count(". m. ") + told.count(" m. c") and told.endswith(".")
    assert told.index("7:00") < told.index({"en": "too few seats", "es": "asientos"}[language])
    assert "3" in told and "7:10" not in told


@pytest.mark.parametrize(
    "end, stops, words",
    [("L 1", 0, "too few seats"), ("M 2", 0, "no way on"), ("S", 99, "too many stops")],
)
def test_what_is_no_minute_is_told_without_one(end: str, stops: int, words: str) -> None:
    places = [(i, j) for i in range(stops + 1) for j in range(i, stops + 1)]
    cases = [line for i, j in places for line in (f"CASE 4 {i} {j}", end)]
    told = sentences(refusals(read("\n".join(["AUDIT 1", *cases, "DONE", ""])))[0], NO_FACTS, "en")
    assert words in told and not re.search(r"\d:\d\d", told)


def test_no_way_and_no_van_are_told() -> None:
    assert "no way at all" in run("-", text="AUDIT 1\nNODIRECT\nDONE\n").stdout
    empty = run("-", text="AUDIT 1\nDONE\n")
    assert empty.stdout.startswith("The log has no vehicle. ") and "`desk audit`" in empty.stdout


@pytest.mark.parametrize(
    "day, log, said",
    [
        ("2025-03-11", EXAMPLE, ""),
        ("2025-03-12", EXAMPLE, "the log has van 1, but {copy} has vans 1, 2 on duty"),
        ("2025-03-16", EXAMPLE, "the log has van 1, but {copy} has no van on duty"),
        ("2025-03-11", "AUDIT 1\nDONE\n", "the log has no van, but {copy} has van 1 on duty"),
        ("2025-03-12", "AUDIT 1\nNODIRECT\nDONE\n", ""),
    ],
)
def test_a_copy_of_another_day_is_named(day: str, log: str, said: str, tmp_path: Path) -> None:
    copy = tmp_path / "copy.db"
    with sqlite3.connect(copy) as database:
        database.execute("CREATE TABLE vehicles (id, from_day, days, closes)")
        # (van 1 works from Monday to Friday, and van 2 on Wednesdays)
        database.executemany(
            "INSERT INTO vehicles VALUES (?, 0, ?, 490)", [(1, 0b11111), (2, 0b100)]
        )
    ran = run("-", "--copy", str(copy), "--day", day, text=log)
    assert (ran.returncode, len(ran.stderr.splitlines())) == ((2, 1) if said else (0, 0)), ran
    assert said.format(copy=copy) in ran.stderr


@pytest.mark.parametrize(
    "text",
    [
        "",
        "possible\n",
        "AUDIT 1\n",
        "AUDIT 1\nCASE 1 0 0\nDONE\n",
        "AUDIT 1\nF 0 1\nDONE\n",
        EXAMPLE[:-1],
        EXAMPLE + "DONE\n",
        "x\n",
    ],
)
def test_what_is_no_log_is_said_in_one_sentence(text: str) -> None:
    ran = run("-", text=text)
    assert ran.returncode == 2 and ran.stdout == "" and len(ran.stderr.splitlines()) == 1
    assert ran.stderr.startswith("bin/why: the ")


@pytest.mark.parametrize(
    "lines, said",
    [
        ("CASE 1 0 0|W 3", "line 3: no line of the case raises visit 3"),
        ("CASE 1 0 0|A 2 600|W 3", "line 4: no line of the case raises visit 3"),
        ("CASE 1 1 0|L 1", "line 2: the drop-off comes before the pickup"),
        ("CASE 1 0 0|A 3 9999999999|W 3", "line 3: 9999999999 is no minute"),
        ("CASE 1 0 0|A 3 99999999999|W 3", "line 3: 'A 3 99999999999' is no line of a case"),
        ("CASE 1 0 0|A 3 0600|W 3", "line 3: 'A 3 0600' is no line of a case"),
        ("CASE 4294967296 0 0|L 1", "line 2: 4294967296 is no number of a vehicle"),
        ("CASE 1 0 101|L 1", "line 2: a route has at most 100 stops"),
        ("CASE 1 0 0|A 0 600|W 0", "line 3: a line A does not raise visit 0"),
        ("CASE 1 0 0|T 1 600|W 1", "line 3: a line T does not raise visit 1"),
        ("CASE 1 0 0|A 4 600|W 4", "line 3: the route of van 1 has no visit 4 here"),
        ("CASE 1 0 0|L 3", "line 3: the route of van 1 has no visit 3 here"),
        ("CASE 1 0 0|S", "line 3: a route of 2 stops is not longer than 100"),
        ("CASE 1 0 0|L 1|CASE 1 0 1|L 1", "line 6: the case 1 1 of van 1 is missing here"),
        ("CASE 1 0 1|L 1|CASE 1 1 1|L 1", "line 2: the case 0 0 of van 1 is missing here"),
        ("CASE 1 0 0|L 1|CASE 1 0 0|L 1", "line 4: van 1 has this case already"),
        ("CASE 2 0 0|L 1|CASE 1 0 0|L 1", "line 4: van 1 comes after van 2"),
        ("CASE 1 0 0|L 1|W 3", "line 4: 'W 3' opens no case"),
        ("CASE 1 0 0|CASE 2 0 0|L 1", "line 3: 'CASE 2 0 0' is no line of a case"),
        ("CASE 1 0 0|F 1 3", "line 4: the case before has no end"),
    ],
)
def test_what_no_right_log_has_is_refused_by_its_line(lines: str, said: str) -> None:
    ran = run("-", text="\n".join(["AUDIT 1", *lines.split("|"), "DONE", ""]))
    assert (ran.returncode, ran.stdout, len(ran.stderr.splitlines())) == (2, "", 1), ran
    assert ran.stderr.startswith(f"bin/why: the text is no log of a refusal: {said}"), ran.stderr


WORDS = "EST5EDT,M3.2.0,M11.1.0 KEY 7 2025-03-11 540 2 3 none 0 0".split()


def desk_that(folder: Path, says: str, status: int) -> str:
    """A program in the place of the desk: it keeps its words, and says this of each log."""
    program = folder / "desk"
    program.write_text(
        f'#!/bin/sh\nprintf "%s\\n" "$@" >{folder}/words\ncat "$2" >{folder}/log\necho "{says}"\nexit {status}\n'
    )
    program.chmod(0o755)
    return str(program)


def copy_in(folder: Path) -> str:
    """A copy with van 1 alone."""
    with sqlite3.connect(folder / "copy.db") as database:
        database.execute("CREATE TABLE vehicles (id, from_day, days, closes)")
        database.execute("INSERT INTO vehicles VALUES (1, 0, 127, 490)")
    return str(folder / "copy.db")


@pytest.mark.parametrize("language, said", [("en", "Checked by"), ("es", "Verificado por")])
def test_a_log_that_desk_audit_accepts_is_said_to_be_checked(
    language: str, said: str, tmp_path: Path
) -> None:
    desk, copy = desk_that(tmp_path, "yes", 0), copy_in(tmp_path)
    words = ["-", "--copy", copy, "--question", *WORDS, "--language", language]
    installed = {**os.environ, "PATH": f"{tmp_path}:{os.environ['PATH']}"}
    for more, env in (["--desk", desk], None), ([], installed):
        ran = subprocess.run(
            [TOP / "bin/why", *words, *more], input=EXAMPLE, capture_output=True, text=True, env=env
        )
        assert ran.returncode == 0 and f"\n\n{said} `desk audit`" in ran.stdout, ran
        asked = (tmp_path / "words").read_text().split("\n")
        assert (asked[0], asked[2:-1]) == ("audit", [copy, *WORDS])
        assert (tmp_path / "log").read_text() == EXAMPLE and not Path(asked[1]).exists()
    page = tmp_path / "why.html"
    run(*words, "--desk", desk, "--html", str(page), text=EXAMPLE)
    assert f"<strong>{said} `desk audit`" in page.read_text("utf-8")


@pytest.mark.parametrize("language, said", [("en", "Not checked: "), ("es", "Sin verificar: ")])
def test_a_log_that_nobody_checked_is_said_to_be_so(
    language: str, said: str, tmp_path: Path
) -> None:
    page = tmp_path / "why.html"
    assert f"\n\n{said}" in run("-", "--language", language, text=EXAMPLE).stdout
    run("-", "--language", language, "--html", str(page), text=EXAMPLE)
    assert f"<strong>{said}" in page.read_text("utf-8")


@pytest.mark.parametrize(
    "says, status, said",
    [
        ("no", 1, "`desk audit` says no: the log does not show"),
        ("37.131(b)", 1, "`desk audit` says 37.131(b)"),
        ("fault 50 row 3", 4, "`desk audit` says fault 50 row 3"),
        ("yes", 1, "`desk audit` says yes"),
        ("", 7, "`desk audit` says nothing, and ends with status 7"),
    ],
)
def test_a_log_that_desk_audit_does_not_accept_has_no_sentences(
    says: str, status: int, said: str, tmp_path: Path
) -> None:
    words = ["-", "--copy", copy_in(tmp_path), "--question", *WORDS]
    ran = run(*words, "--desk", desk_that(tmp_path, says, status), text=EXAMPLE)
    assert (ran.returncode, ran.stdout, len(ran.stderr.splitlines())) == (1, "", 1), ran
    assert ran.stderr.startswith(f"bin/why: {said}")


def test_words_that_check_nothing_are_refused(tmp_path: Path) -> None:
    copy, question = ["--copy", copy_in(tmp_path)], ["--question", *WORDS]
    wrong_day = ["--question", *WORDS[:3], "tomorrow", *WORDS[4:]]
    for words, said in (
        (["--desk", "/bin/true"], "--question, which is missing"),
        (question, "--copy goes with --day or --question"),
        (copy, "--copy goes with --day or --question"),
        ([*copy, *wrong_day], "'tomorrow' is no day"),
        ([*copy, *question, "--day", "2025-03-12"], "and --question has 2025-03-11"),
        ([*copy, *question, "--desk", "/no/desk"], "/no/desk is no program that runs"),
    ):
        ran = run("-", *words, text=EXAMPLE)
        assert (ran.returncode, ran.stdout) == (2, "") and said in ran.stderr, ran
    bare = {**os.environ, "PATH": "/usr/bin:/bin"}
    words = [TOP / "bin/why", "-", *copy, *question]
    ran = subprocess.run(words, input=EXAMPLE, capture_output=True, text=True, env=bare)
    assert ran.returncode == 2 and "no desk is installed here" in ran.stderr, ran


def test_minutes_of_later_days_say_so() -> None:
    assert clock(1_439, "en") == "11:59 PM" and clock(1_440, "en") == "12:00 AM of the next day"
    assert clock(2_880 + 61, "en") == "1:01 AM, 2 days later"
    assert clock(2_880 + 61, "es") == "1:01 a. m., 2 días después"


def test_other_files_are_named(tmp_path: Path) -> None:
    log = tmp_path / "refusal.log"
    log.write_text(EXAMPLE)
    assert run(str(tmp_path / "none")).stderr.endswith("none: No such file or directory\n")
    assert (
        "is no file"
        in run(str(log), "--copy", str(tmp_path / "none.db"), "--day", "2025-03-11").stderr
    )
    (tmp_path / "bad.db").write_bytes(b"no database at all" * 100)
    assert (
        "is no copy of a desk's file"
        in run(str(log), "--copy", str(tmp_path / "bad.db"), "--day", "2025-03-11").stderr
    )
    (tmp_path / "agency.json").write_text("[]")
    assert "is no agency.json" in run(str(log), "--agency", str(tmp_path / "agency.json")).stderr
    assert run(str(log), "--html", str(tmp_path / "why.html")).returncode == 0
    assert "     6  A 3 574" in (tmp_path / "why.html").read_text("utf-8")


@st.composite
def logs(draw: st.DrawFn) -> str:
    """A log in form of some vehicles, each with all places of a route of some stops."""
    lines = ["AUDIT 1"]
    for vehicle in range(1, draw(st.integers(1, 3)) + 1):
        stops = draw(st.integers(0, 3))
        for pickup in range(stops + 1):
            for drop in range(pickup, stops + 1):
                visit = draw(st.integers(1, stops + 3))
                day = [f"T 0 {draw(st.integers(1, 1500))}"] if draw(st.booleans()) else []
                lines += [
                    f"CASE {vehicle} {pickup} {drop}",
                    *day,
                    f"A {visit} {draw(st.integers(0, 1500))}",
                ]
                full = min(visit, stops + 2)
                lines.append(draw(st.sampled_from([f"W {visit}", f"L {full}", f"M {full}"])))
    return "\n".join([*lines, "DONE", ""])


@given(logs())
def test_each_minute_is_one_that_a_line_of_the_van_raised_and_each_way_is_counted(
    text: str,
) -> None:
    log: Log = read(text)
    for refusal in refusals(log):
        cases = log.vehicles()[refusal.vehicle]
        assert sum(it.places for it in refusal.reasons) == refusal.places == len(cases)
        blocks = re.findall(rf"(?m)^CASE {refusal.vehicle} .*\n((?:[FAPT] .*\n)*)", text)
        raised = {int(it) for block in blocks for it in re.findall(r" (\d+)\n", block)}
        for language in LANGUAGES:
            told = sentences(refusal, NO_FACTS, language)
            minutes = [
                clock(minute, language)
                for it in refusal.reasons
                for minute in (it.minute, it.leaves)
                if minute is not None
            ]
            assert {it.leaves for it in refusal.reasons if it.leaves is not None} <= raised
            assert {it.minute for it in refusal.reasons if it.minute is not None} <= raised
            assert len(re.findall(r"\d{1,2}:\d\d", told)) == len(minutes) and all(
                it in told for it in minutes
            )


@given(st.text(max_size=60))
def test_any_text_is_a_log_or_is_refused(text: str) -> None:
    try:
        read(text)
    except NoLog as error:
        assert str(error)
