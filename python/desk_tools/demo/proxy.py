"""A small proxy for trying alone, where there is no nginx: the pages, the agency's files, and the desk's paths.

It has the paths and the headers of deploy/desk.nginx, and none of its limits of requests, and no TLS.
"""

from __future__ import annotations

import datetime
import http.client
import os
import re
import sys
import threading
from functools import partial
from http.server import BaseHTTPRequestHandler, ThreadingHTTPServer
from typing import Any

from desk_tools import events

DESKS_PATHS = re.compile(r"/(callers|policy|places|routes|vehicles|riders|trips|days)(/|$)")
TALLY = {f"/tally/{it.name}": re.compile(events.pattern_of(it)) for it in events.EVENTS.values()}
VEHICLE = re.compile("(?:^|&)vehicle=([0-9]+)")
OWN = re.compile(r"/own/([1-9][0-9]*)/(?:places|addresses)\.json")
OF_VEHICLE = re.compile(
    r"/drivers/([1-9][0-9]*)/(roster\.csv|places\.json|outcomes\.json|addresses\.json)"
)
# Nobody's number, by which the desk tells what a key may do.
NOBODY = "/riders/4294967295"
KINDS = {
    ".html": "text/html",
    ".js": "application/javascript",
    ".css": "text/css",
    ".json": "application/json",
    ".svg": "image/svg+xml",
    ".csv": "text/csv",
    ".webmanifest": "application/manifest+json",
    ".png": "image/png",
}
MOST_BYTES, SECONDS = 16_384, 180
PASSED_ON = "Desk-Key", "Desk-Number", "Content-Type", "Content-Length"
DENIALS = {401: "desk.key", 403: "desk.caller", 404: "http.path"}


class Handler(BaseHTTPRequestHandler):
    protocol_version = "HTTP/1.1"

    def __init__(self, office: Office, *given: Any) -> None:
        self.office = office
        super().__init__(*given)

    def log_message(self, *args: str) -> None:
        """Nothing is logged, so that no key is."""

    def do_GET(self) -> None:
        self.answer()

    do_HEAD = do_POST = do_GET

    def answer(self) -> None:
        path = self.path.partition("?")[0]
        if DESKS_PATHS.match(path):
            self.pass_on()
        elif path in TALLY:
            self.tally(path)
        elif self.command == "POST":
            self.deny(405, "http.method")
        else:
            self.send_file_of(path)

    def send_file_of(self, path: str) -> None:
        site, own, of_vehicle = self.office.site, OWN.fullmatch(path), OF_VEHICLE.fullmatch(path)
        if path == "/agency.json":
            self.send_file(site, "agency.json", "no-cache")
        elif path in ("/places.json", "/addresses.json"):
            self.send_where(self.any_key(), site, path[1:])
        elif path.startswith("/staff/"):
            self.send_where(self.staffs_key(), site, path[1:])
        elif own:
            self.send_where(self.judged(f"/riders/{own[1]}/standing/2026-01-01"), site, path[1:])
        elif of_vehicle:
            self.send_where(
                self.judged(f"/vehicles/{of_vehicle[1]}/manifest/2026-01-01"), site, path[1:]
            )
        else:
            self.send_file(
                self.office.pages,
                f"{path}index.html"[1:] if path.endswith("/") else path[1:],
                "no-cache",
            )

    # What the desk says of a key: 204 lets by.

    def status_of(self, path: str) -> int:
        reply = self.asked("GET", path, {"Desk-Key": self.headers.get("Desk-Key", "")})
        return reply[0] if reply else 502

    def judged(self, path: str) -> int:
        status = self.status_of(path)
        return {200: 204, 404: 204, 400: 401}.get(status, status)

    def teller(self, path: str, words: str) -> tuple[int, str]:
        """The status of a key that tells an event, and whose key it is."""
        who = events.EVENTS[path.rpartition("/")[2]].who
        if who == "vehicle":
            vehicle = VEHICLE.search(words)
            return (
                self.judged(f"/vehicles/{vehicle[1] if vehicle else 0}/manifest/2026-01-01"),
                "vehicle",
            )
        status = self.judged(f"{NOBODY}/standing/2026-01-01")
        if status != 403:
            return status, "office"
        status = self.judged(f"{NOBODY}/trips")
        return (204, "other") if status == 403 and who == "anybody" else (status, "dispatcher")

    def any_key(self) -> int:
        status = self.judged(f"{NOBODY}/standing/2026-01-01")
        return 204 if status == 403 else status

    def staffs_key(self) -> int:
        status = self.judged(f"{NOBODY}/standing/2026-01-01")
        return self.judged(f"{NOBODY}/trips") if status == 403 else status

    def send_where(self, status: int, folder: str, name: str) -> None:
        if status == 204:
            self.send_file(folder, name)
        elif status == 502:
            self.say_away()
        else:
            self.deny(status, DENIALS.get(status, "desk.key"))

    # Replies.

    def send_file(self, folder: str, name: str, kept: str = "no-store") -> None:
        path = os.path.realpath(os.path.join(folder, name))
        if os.path.isdir(path):
            path += "/index.html"
        if not path.startswith(os.path.realpath(folder) + "/") or not os.path.isfile(path):
            self.deny(404, "http.path")
            return
        kind = KINDS.get(os.path.splitext(path)[1], "application/octet-stream")
        with open(path, "rb") as file:
            is_text = kind.startswith("text/") or kind.endswith(("json", "javascript", "svg+xml"))
            self.give(
                200,
                f"{kind}; charset=utf-8" if is_text else kind,
                file.read(),
                kept,
                {"Service-Worker-Allowed": "/"} if name == "service-worker.js" else {},
            )

    def deny(self, status: int, name: str) -> None:
        more = {"WWW-Authenticate": "Desk-Key"} if status == 401 else {}
        self.give(status, "application/json", f'{{"denied":"{name}"}}'.encode(), more=more)

    def say_away(self) -> None:
        self.give(
            502, "text/plain", b"The desk does not answer. Send the same again in a moment.\n"
        )

    def give(
        self, status: int, kind: str, content: bytes, kept: str = "no-store", more: Any = ()
    ) -> None:
        self.send_response(status)
        headers = {
            "Content-Type": kind,
            "Content-Length": str(len(content)),
            "Cache-Control": kept,
            **self.office.headers,
            **dict(more),
        }
        for name, value in headers.items():
            self.send_header(name, value)
        self.end_headers()
        if self.command != "HEAD" and status != 204:
            self.wfile.write(content)

    def body(self) -> bytes | None:
        """The bytes of the request, or None where they are too many."""
        length = self.headers.get("Content-Length", "0")
        if not length.isdigit() or int(length) > MOST_BYTES:
            self.close_connection = True
            return None
        return self.rfile.read(int(length))

    # The desk.

    def asked(
        self, method: str, path: str, headers: dict[str, str], content: Any = None
    ) -> tuple[int, http.client.HTTPMessage, bytes] | None:
        """The desk's status, headers and body, or None."""
        line = http.client.HTTPConnection("127.0.0.1", self.office.desk_port, timeout=SECONDS)
        try:
            line.request(method, path, content, headers)
            reply = line.getresponse()
            return reply.status, reply.headers, reply.read()
        except (OSError, http.client.HTTPException):
            return None
        finally:
            line.close()

    def pass_on(self) -> None:
        content = self.body()
        if content is None:
            self.deny(413, "http.length")
            return
        headers = {name: self.headers[name] for name in PASSED_ON if name in self.headers}
        reply = self.asked(
            self.command, self.path, headers, content if self.command == "POST" else None
        )
        if reply is None:
            self.say_away()
        else:
            more = {it: reply[1][it] for it in ("WWW-Authenticate", "Allow") if it in reply[1]}
            self.give(reply[0], reply[1]["Content-Type"], reply[2], more=more)

    def tally(self, path: str) -> None:
        words = self.path.partition("?")[2]
        self.body()
        if self.command != "POST":
            self.deny(405, "http.method")
        elif not TALLY[path].fullmatch(words):
            self.deny(400, "http.field")
        else:
            status, by = self.teller(path, words)
            if status == 502:
                self.say_away()
                return
            if status != 204:
                self.deny(status, DENIALS.get(status, "desk.key"))
                return
            now = datetime.datetime.now().astimezone().isoformat(timespec="seconds")
            with self.office.lock, open(self.office.tally, "a", encoding="ascii") as file:
                file.write(f"{now}\t{path}\t{words}\t{by}\n")
            self.give(204, "text/plain", b"")


class Server(ThreadingHTTPServer):
    """The proxy's server, for which a client that goes away is no fault."""

    def handle_error(self, request: Any, client_address: Any) -> None:
        if not isinstance(sys.exception(), (ConnectionError, TimeoutError)):
            super().handle_error(request, client_address)


class Office:
    """What the proxy stands before, and the port that it has."""

    def __init__(
        self, port: int, desk_port: int, pages: str, site: str, tally: str, headers: dict[str, str]
    ) -> None:
        self.desk_port, self.pages, self.site, self.tally, self.headers = (
            desk_port,
            pages,
            site,
            tally,
            headers,
        )
        self.lock = threading.Lock()
        self.server = Server(("127.0.0.1", port), partial(Handler, self))
        self.server.daemon_threads = True
        threading.Thread(target=self.server.serve_forever, daemon=True).start()

    def has_ended(self) -> bool:
        return False

    def stop(self) -> None:
        self.server.shutdown()
        self.server.server_close()
