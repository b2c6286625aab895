#!/usr/bin/env python3
"""deploy/standby: keeps a second machine ready that can open the desk with one command.

On the first machine, by the timer desk-standby every five minutes, `standby send [AGENCY]` makes a checked backup and
brings it by rsync over ssh to the machine and folder that /etc/desk/standby.conf names: TARGET=MACHINE:/FOLDER. The
second machine checks it too, and keeps the last twelve copies, one an hour for a day, one a day for a week, and one a
week for a month. Its key there may add copies and read their list: sshd starts `standby serve-copies FOLDER` for it.

On the second machine `standby open FOLDER --first MACHINE [AGENCY]` fences the first machine by ssh, which stops and
sends a last copy, and serves that one. Where it could not, the command says what is missing and asks. Where the first
machine cannot be reached a person takes its power or its network away, and says --first-is-off. Whatever fails, the
first machine serves again. A first machine that comes back asks before it serves (desk-standby-check@main.service), and at
each send; then it fences itself: the file /etc/desk/main.fenced is there (/etc/desk/AGENCY.fenced), and neither its unit nor
its site serves. `standby missing` there lists what it answered and the second lacks. `standby list FOLDER` lists the
copies. BACKUPS.md has the whole.
"""

from __future__ import annotations

import argparse
import os
import shlex
import sys
from collections.abc import Iterable
from typing import Any

from desk_tools.arguments import Usage
from desk_tools.ops import doors, elsewhere, missing, opening, standby, stolen
from desk_tools.ops.ending import Failure, run_script, WRONG_WORDS
from desk_tools.ops.places import Desk

ASKED = "SSH_ORIGINAL_COMMAND"


def usage() -> Usage:
    words = Usage("deploy/standby", description=__doc__.partition("\n\n")[0])
    tasks = words.add_subparsers(dest="task", required=True, metavar="TASK")
    for name, means in (
        ("send", "first machine: make a checked backup and bring it to the second"),
        ("ask", "first machine: before it serves, ask whether the second has opened the desk"),
        ("fence", "first machine: serve no longer, and send a last copy"),
        ("missing", "fenced machine: list what it answered and the other lacks, and whom to call"),
    ):
        task = tasks.add_parser(name, help=means)
        task.takes("agency AGENCY", nargs="?")
        if name == "send":
            task.takes("--rate KB", "so many kilobytes a second at most", type=int)
        if name == "missing":
            task.takes(
                "--copy COPY", "a copy of what the other machine opened, where it cannot be fetched"
            )
            task.takes("--roster FILE", "names and telephones", default=stolen.ROSTER)
        if name == "fence":
            task.flag("--undo", "serve again, where the second has not opened the desk")
            task.flag("--answer", "answer the second machine in JSON")
    for name, means in (
        ("state", "second machine: `waiting`, `opening` or `opened`"),
        ("list", "second machine: the copies"),
        ("receive", "second machine: check what came in, and name it"),
        ("serve-copies", "second machine: what the first machine's key may do"),
        ("names", "another place: the night's copies"),
        ("add", "another place: take a night's copy"),
        ("open", "second machine: serve from now on"),
    ):
        task = tasks.add_parser(name, help=means)
        task.takes("folder FOLDER")
        if name == "receive":
            task.takes("digest SHA256")
        if name == "add":
            task.takes("name NAME")
            task.takes("digest SHA256")
        if name == "open":
            task.takes("agency AGENCY", nargs="?")
            task.takes("--first MACHINE", "the first machine, as ssh names it")
            task.flag("--first-is-off", "its power or its network is gone")
            task.add_argument(
                opening.FLAG,
                action="store_true",
                help="open a copy that lacks writes, without asking",
            )
    return words


def lines_of(given: argparse.Namespace) -> list[str] | Iterable[Any]:
    """What to say, line by line."""
    if given.task == "send":
        return [standby.send(Desk(given.agency), standby.Settings(), given.rate)]
    if given.task == "ask":
        return [standby.ask_at_start(Desk(given.agency), standby.Settings())]
    if given.task == "fence" and given.undo:
        return [standby.give_up_change(Desk(given.agency), standby.Settings())]
    if given.task == "fence":
        standby.fence(Desk(given.agency), "a person said so")
        return ["this machine is fenced and serves no longer"]
    if given.task == "missing":
        missing.tell(Desk(given.agency), standby.Settings(), given.copy, given.roster)
        return []
    if given.task == "receive":
        return [standby.receive(given.folder, given.digest)]
    if given.task == "list":
        return standby.listed(given.folder)
    opening.Opening(
        Desk(given.agency),
        given.folder,
        standby.Settings(),
        given.first,
        given.first_is_off,
        given.without_last_copy,
        say,
    ).make()
    return []


def say(line: str) -> None:
    print(f"deploy/standby: {line}", flush=True)


def asked_by_ssh(words: list[str]) -> list[str] | None:
    """A key that may do one thing, `standby fence`, says by its own words whether it is to be undone, and of which agency."""
    if words != ["fence"] or not os.environ.get(ASKED):
        return words
    asked = shlex.split(os.environ[ASKED])[1:]
    if asked[:1] != ["fence"] or not {it for it in asked if it.startswith("-")} <= {
        "--undo",
        "--answer",
    }:
        raise Failure("this key may fence this machine, and nothing else", WRONG_WORDS)
    return asked


def answer_of(given: argparse.Namespace) -> str | None:
    """What another machine reads, without a word before it; or None."""
    if given.task == "state":
        return standby.state(given.folder)
    if given.task == "fence" and given.answer:
        return standby.fence_for_change(Desk(given.agency), standby.Settings())
    if given.task == "names":
        return "\n".join(elsewhere.names_in(given.folder))
    if given.task == "add":
        return elsewhere.add_from_input(given.folder, given.name, given.digest)
    if given.task == "serve-copies":
        return doors.served(given.folder, os.environ.get(ASKED, ""))
    return None


def main(words: list[str]) -> None:
    os.umask(0o077)
    given = usage().parse_args(asked_by_ssh(words))
    answer = answer_of(given)
    if answer is not None:
        print(answer)
        return
    for line in lines_of(given):
        say(line)


if __name__ == "__main__":
    sys.exit(run_script("standby", main, sys.argv[1:]))
