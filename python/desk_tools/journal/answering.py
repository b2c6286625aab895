"""Answers the page *Record*: the questions of `bin/journal`, as JSON, to the site alone by a socket of this machine."""

import json
import logging
import os
import socketserver
import threading
import urllib.parse
from collections.abc import Callable
from datetime import date
from http.server import BaseHTTPRequestHandler
from pathlib import Path

from desk_tools.journal import chain, questions, shown
from desk_tools.journal.people import Damaged
from desk_tools.journal.places import Wrong
from desk_tools.journal.words import LANGUAGES
from desk_tools.town.cells import HIGHEST_NUMBER

# A question may take as long as the site waits for its answer.
SECONDS = 150
LOG = logging.getLogger("journal")
# All that a question needs, for its first and last day and in its language.
Ask = Callable[[date | None, date | None, str], questions.Asked]
OF_NUMBER: dict[str, Callable[[questions.Asked, int], questions.Answer]] = {
    "trip": questions.of_trip,
    "rider": lambda asked, number: questions.of_rider(asked, number, False),
    "lists": lambda asked, number: questions.of_rider(asked, number, True),
    "caller": questions.of_caller,
    "standing": questions.of_standing,
    "own": questions.of_own,
}
OF_ALL = {"keys": questions.of_keys}


def told_in(cell: object) -> object:
    """A cell as the page shows it: text on one line, without signs of direction and control."""
    return shown.straight(cell) if isinstance(cell, str) else cell


def day_in(given: dict[str, str], name: str) -> date | None:
    """A day of the question, or none; ValueError where it is no day."""
    return date.fromisoformat(given[name]) if given.get(name) else None


def answered(path: str, ask: Ask) -> questions.Answer | None:
    """The answer to a path such as /record/trip?number=4711&language=es; None where it is no question."""
    parts = urllib.parse.urlsplit(path)
    name = parts.path.removeprefix("/record/")
    given = dict(urllib.parse.parse_qsl(parts.query))
    try:
        first, last = day_in(given, "from"), day_in(given, "to")
    except ValueError:
        return None
    language = given.get("language", LANGUAGES[0])
    if name in OF_ALL and language in LANGUAGES:
        return OF_ALL[name](ask(first, last, language))
    number = given.get("number", "")
    if (
        name not in OF_NUMBER
        or language not in LANGUAGES
        or not number.isascii()
        or not number.isdecimal()
        or len(number) > len(str(HIGHEST_NUMBER))
        or not 0 < int(number) <= HIGHEST_NUMBER
    ):
        return None
    return OF_NUMBER[name](ask(first, last, language), int(number))


class Server(socketserver.ThreadingMixIn, socketserver.UnixStreamServer):
    """A server by a socket, which answers one question after another."""

    daemon_threads = True

    def __init__(self, path: Path, ask: Ask) -> None:
        self.ask, self.turn = ask, threading.Lock()
        path.unlink(missing_ok=True)
        before = os.umask(0o007)
        try:
            super().__init__(str(path), Handler)
        finally:
            os.umask(before)

    def get_request(self) -> tuple[object, object]:
        """A connection; by a socket nobody has an address."""
        request, _ = super().get_request()
        return request, ("the site", 0)


class Handler(BaseHTTPRequestHandler):
    """One question."""

    server: Server
    timeout = SECONDS

    def log_message(self, format: str, *args: object) -> None:  # pylint: disable=redefined-builtin
        """Nothing is logged: the site writes who asked what."""

    def do_GET(self) -> None:  # pylint: disable=invalid-name
        """Answers, or says in the desk's form why not."""
        if not self.server.turn.acquire(timeout=SECONDS):
            self.reply(503, {"denied": "record.busy"})
            return
        try:
            found = answered(self.path, self.server.ask)
        except (Wrong, Damaged, chain.Broken, OSError) as error:
            LOG.error("%s", error)
            self.reply(503, {"denied": "record.fault"})
            return
        finally:
            self.server.turn.release()
        if found is None:
            self.reply(404, {"denied": "http.path"})
        else:
            self.reply(
                200,
                {
                    "title": found.title,
                    "columns": found.columns,
                    "rows": [[told_in(it) for it in row] for row in found.rows],
                    "notes": found.notes,
                    "warning": found.warning,
                },
            )

    def do_POST(self) -> None:  # pylint: disable=invalid-name
        """The record is only read."""
        self.reply(405, {"denied": "http.method"})

    do_PUT = do_DELETE = do_PATCH = do_OPTIONS = do_HEAD = do_POST

    def reply(self, status: int, told: dict[str, object]) -> None:
        """Sends a reply."""
        body = json.dumps(told, ensure_ascii=False).encode("utf-8", "replace")
        self.send_response(status)
        self.send_header("Content-Type", "application/json")
        self.send_header("Content-Length", str(len(body)))
        self.send_header("Connection", "close")
        self.end_headers()
        self.wfile.write(body)


def serve(path: Path, ask: Ask) -> None:
    """Answers until it is ended."""
    with Server(path, ask) as server:
        server.serve_forever()
