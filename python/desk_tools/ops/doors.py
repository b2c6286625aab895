"""What another machine's key may do here by ssh: add copies, read their list, and fetch the copy that was opened.

sshd starts `standby serve-copies FOLDER` for such a key, whatever it asks for (`command=` in authorized_keys), and gives
what was asked in SSH_ORIGINAL_COMMAND. Nothing of it goes to a shell.
"""

from __future__ import annotations

import os
import re
import shlex
from typing import NoReturn

from desk_tools import agencies
from . import elsewhere, standby
from .ending import WRONG_WORDS, Failure

# What rsync asks for here, where `standby send` brings a copy: no removal, no link, no reading, no other name.
RSYNC = re.compile(
    r"-(?:tz|t|z)?e\.[A-Za-z]*|--timeout=\d+|--bwlimit=\d+[kKmM]?|--log-format=[A-Za-z%]*|--partial|\."
)
DIGEST = re.compile(r"[0-9a-f]{64}")
# (what was opened is a copy that this key once brought: so it tells the one who brought it nothing new)
REFUSED = (
    "this key may add copies, read their list and fetch the one that was opened, and nothing else"
)


def folder_in(given: str, asked: str) -> str:
    """The folder of the copies, or that of an agency in it."""
    if (
        asked == given
        or os.path.dirname(asked) == given
        and agencies.NAME.fullmatch(os.path.basename(asked))
    ):
        return asked
    raise Failure(REFUSED, WRONG_WORDS)


def served(folder: str, asked: str) -> str:
    """What to print for what was asked; an rsync takes the place of this process."""
    try:
        words = shlex.split(asked)
    except ValueError:
        words = []
    if words[:2] == ["rsync", "--server"]:
        return received_by_rsync(folder, words)
    task, *rest = words[1:] or [""]
    if task == "state" and len(rest) == 1:
        return standby.state(folder_in(folder, rest[0]))
    if task == "list" and len(rest) == 1:
        return "\n".join(standby.listed(folder_in(folder, rest[0])))
    if task == "opened" and len(rest) == 1:
        return standby.opened_copy(folder_in(folder, rest[0]))
    if (
        task == "fetch"
        and len(rest) == 2
        and rest[1] == standby.opened_copy(folder_in(folder, rest[0]))
    ):
        os.execvp("cat", ["cat", "--", f"{folder_in(folder, rest[0])}/copies/{rest[1]}"])
    if task == "receive" and len(rest) == 2 and DIGEST.fullmatch(rest[1]):
        return standby.receive(folder_in(folder, rest[0]), rest[1])
    if task == "names" and len(rest) == 1:
        return "\n".join(elsewhere.names_in(folder_in(folder, rest[0])))
    if task == "add" and len(rest) == 3 and DIGEST.fullmatch(rest[2]):
        return elsewhere.add_from_input(folder_in(folder, rest[0]), rest[1], rest[2])
    raise Failure(REFUSED, WRONG_WORDS)


def received_by_rsync(folder: str, words: list[str]) -> NoReturn:
    """Only the file that comes in, of the folder or of an agency's in it, is written."""
    *options, path = words[2:]
    place = os.path.dirname(os.path.dirname(path))
    if (
        not all(RSYNC.fullmatch(it) for it in options)
        or path != f"{folder_in(folder, place)}/incoming/desk.db"
    ):
        raise Failure(REFUSED, WRONG_WORDS)
    standby.state(place)
    os.execvp("rsync", ["rsync", "--server", *options, path])
