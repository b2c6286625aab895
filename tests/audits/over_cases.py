"""The cases of tests/audits/cases: a desk, a question to it, and texts with the answer that each gets as a log for that question.

NAME is a conversation that sets the desk up and NAME.out has its replies; NAME.travel is a line `KEY NUMBER DAY` and the travel table that
comes after it; NAME.trips and NAME.trips.out are a second conversation on the same desk. NAME.ask has the moment, the words of the question and
what `desk explain` answers, where `no vehicle` stands for a log. In NAME.logs each text stands below a line `@ LENGTH | ANSWER | what it is`.
"""

from __future__ import annotations

import datetime
import glob
import os
import re
import subprocess
from collections.abc import Iterator, Sequence
from pathlib import Path
from typing import Any, NamedTuple

from audits import plain
from conversations import asked_in
from second import travel
from second.desk import Desk as SecondDesk
from second.trials import over_file
from serving import ADMINS_KEY, SECONDS, ZONE, Desk, difference, ran, received_from

FOLDER = f"{os.path.dirname(os.path.realpath(__file__))}/cases"
DONE, DENIED, WRONG_WORDS, NO_STORE, OTHER = range(5)
NOBODY = ["nobody", "7", "2025-03-11", "540", "2", "3", "none", "0", "0"]
# The second desk tries each pair of places: fifty bookings in one route take it half a minute, so such a case is left out there.
MOST_MESSAGES = 40

# How a program ended: its status, its output and its standard error.
End = tuple[int, bytes, bytes]


class Message(NamedTuple):
    """A message of a rehearsal, and its moment."""

    day: str
    minute: int
    bytes: bytes


class Text(NamedTuple):
    """A text, and the answer that it gets as a log."""

    answer: str
    name: str
    bytes: bytes


def content(name: str) -> bytes:
    """The bytes of a file of the folder; none where it is not there."""
    path = f"{FOLDER}/{name}"
    if not os.path.exists(path):
        return b""
    return Path(path).read_bytes()


def messages_in(rehearsal: bytes) -> Iterator[Message]:
    """The messages of a rehearsal, each well formed, and the moment of each."""
    while rehearsal:
        line, _, rehearsal = rehearsal.partition(b"\n")
        head, gap, rest = rehearsal.partition(b"\r\n\r\n")
        found = re.search(rb"Content-Length: (\d+)", head)
        length = int(found[1]) if found else 0
        _, day, minute = line.decode().split(" ")
        yield Message(day, int(minute), head + gap + rest[:length])
        rehearsal = rest[length:]


def texts_in(listed: bytes) -> Iterator[Text]:
    while listed:
        line, _, listed = listed.partition(b"\n")
        length, answer, name = line.decode()[2:].split(" | ")
        yield Text(answer, name, listed[: int(length)])
        listed = listed[int(length) + 1 :]


class Case:
    """A case by its name."""

    def __init__(self, name: str) -> None:
        self.name = name
        moment, words, self.explained = content(f"{name}.ask").decode().splitlines()
        _, self.day, minute = moment.split(" ")
        self.minute, self.words = int(minute), words.split(" ")
        self.texts = list(texts_in(content(f"{name}.logs")))
        first, _, self.table = content(f"{name}.travel").decode().partition("\n")
        self.travel = first.split(" ") if first else None

    def parts(self) -> Iterator[tuple[bytes, bytes, bool]]:
        """Each rehearsal, its replies, and whether the travel table comes after it."""
        yield asked_in(f"{FOLDER}/{self.name}"), content(
            f"{self.name}.out"
        ), self.travel is not None
        second = f"{self.name}.trips"
        if glob.glob(f"{FOLDER}/{second}.*"):
            yield asked_in(f"{FOLDER}/{second}"), content(f"{second}.out"), False


def cases() -> list[Case]:
    return [Case(it[: -len(".ask")]) for it in sorted(os.listdir(FOLDER)) if it.endswith(".ask")]


def wanted_end(answer: str) -> End:
    """The exit status, standard output and standard error of `audit` that gives an answer."""
    if answer.startswith("fault "):
        return OTHER, b"", f"{answer}\n".encode()
    return DONE if answer == "yes" else DENIED, f"{answer}\n".encode(), b""


def end_of(run: subprocess.CompletedProcess[Any]) -> End:
    return run.returncode, run.stdout, run.stderr


def audited(program: str, file: str, folder: str, words: Sequence[str], text: bytes) -> End:
    """How `audit` ends with this text as its log."""
    path = f"{folder}/log"
    Path(path).write_bytes(text)
    return end_of(ran(program, "audit", path, file, ZONE, *words))


# By the second desk.


def second_reply(desk: SecondDesk, message: Message) -> bytes:
    head, _, body = message.bytes.partition(b"\r\n\r\n")
    first, *headers = head.decode().split("\r\n")
    method, path, _ = first.split(" ")
    named = dict(it.split(": ") for it in headers)
    return desk.answer(
        (datetime.date.fromisoformat(message.day), message.minute),
        method,
        path,
        named["Desk-Key"],
        named.get("Desk-Number"),
        body.decode(),
    )


def faults_of_second_desk(case: Case) -> Iterator[str | None]:
    """The plain second desk, and the plain reading of logs, give the answers that are listed."""
    desk = SecondDesk(ADMINS_KEY)
    for rehearsal, wanted, has_travel in case.parts():
        messages = list(messages_in(rehearsal))
        if len(messages) > MOST_MESSAGES:
            return
        replies = b"".join(second_reply(desk, it) for it in messages)
        yield difference(f"{case.name}: the replies of the second desk", wanted, replies)
        if has_travel:
            key, number, first = case.travel or []
            told = desk.give_travel(
                key, int(number), datetime.date.fromisoformat(first), travel.rows_in(case.table)
            )
            yield difference(f"{case.name}: its travel table", "done", told)
    for text in case.texts:
        yield difference(
            f"{case.name}, {text.name}, by the second desk",
            text.answer,
            plain.audited(desk, case.day, case.words, text.bytes),
        )


# Over the program, with no clock.


def faults_without_clock(program: str, file: str, folder: str, case: Case) -> Iterator[str | None]:
    """The first rehearsal; each text that is no log; and that the others are read, before a key is that nobody has."""
    rehearsal, wanted, _ = next(case.parts())
    run = subprocess.run(
        [program, "rehearse", ADMINS_KEY], input=rehearsal, capture_output=True, timeout=SECONDS
    )
    yield difference(f"{case.name}: the replies", (DONE, wanted), (run.returncode, run.stdout))
    for text in case.texts:
        answer = text.answer if text.answer.startswith("fault ") else "desk.key"
        yield difference(
            f"{case.name}, {text.name}, by nobody",
            wanted_end(answer),
            audited(program, file, folder, NOBODY, text.bytes),
        )


# Over the program, at the moments of the cases.


class CaseDesk(over_file.FiledDesk):
    """A desk over a new file that is given a case."""

    def reply(self, message: Message) -> bytes:
        self.show(message.day, message.minute)
        self.served = self.served or Desk(self.program, self.file)
        with self.served.connected() as connection:
            connection.sendall(message.bytes)
            return received_from(connection)

    def given_travel(self, case: Case) -> End:
        """What `desk travel` prints, at the moment of the question."""
        key, number, first = case.travel or []
        csv = f"{self.folder}/table.csv"
        with open(csv, "w", encoding="utf-8", newline="") as table:
            table.write(case.table)
        self.stop()
        self.show(case.day, case.minute)
        return end_of(ran(self.program, "travel", self.file, ZONE, key, number, first, csv))

    def asked(self, case: Case) -> End:
        """How `explain` ends."""
        self.stop()
        self.show(case.day, case.minute)
        return end_of(ran(self.program, "explain", self.file, ZONE, *case.words))


def faults_of_explained(desk: CaseDesk, case: Case) -> Iterator[str | None]:
    """A log that is right, or the word that is told in its place."""
    end = desk.asked(case)
    if case.explained != "no vehicle":
        yield difference(
            f"{case.name}: explain", (DENIED, f"{case.explained}\n".encode(), b""), end
        )
        return
    yield difference(f"{case.name}: how explain ends", (DONE, b""), (end[0], end[2]))
    found = audited(desk.program, desk.file, desk.folder, case.words, end[1])
    yield difference(f"{case.name}: what explain wrote, {end[1][:500]!r}", wanted_end("yes"), found)


def faults_with_clock(program: str, folder: str, case: Case) -> Iterator[str | None]:
    """The replies, what is explained, and the answer to each text."""
    with CaseDesk(program, folder) as desk:
        for rehearsal, wanted, has_travel in case.parts():
            replies = b"".join(desk.reply(it) for it in messages_in(rehearsal))
            yield difference(f"{case.name}: the replies", wanted, replies)
            if has_travel:
                yield difference(
                    f"{case.name}: travel", (DONE, b"done\n", b""), desk.given_travel(case)
                )
        yield from faults_of_explained(desk, case)
        for text in case.texts:
            found = audited(desk.program, desk.file, folder, case.words, text.bytes)
            yield difference(f"{case.name}, {text.name}", wanted_end(text.answer), found)
