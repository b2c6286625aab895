"""deploy/health: answers /health and /metrics on a port of this machine alone.

/health is 200 with the program's version and the seconds since the last answered write, or 503 where the desk does not
answer; /health/AGENCY is that of another agency than `main`. /metrics has the figures in Prometheus' text form: requests
by path class and status, the time taken, refused keys, the age of the backup, the file's size, troubles. A desk is asked
once in five seconds at most, whoever asks here.
"""

from __future__ import annotations

import http.client
import http.server
import json
import re
import subprocess
import sys
import threading
import time
from dataclasses import dataclass, field
from pathlib import Path

from desk_tools import agencies, ending
from desk_tools.arguments import usage_of
from desk_tools.health.access_log import Follower
from desk_tools.health.figures import Figures, text_of

SECONDS_KEPT, SECONDS_TO_ANSWER = 5.0, 10.0
PORT, DESKS_PORT = 8435, 8437
NOBODY = "no key of anybody"


@dataclass
class Desks:
    """Whether each desk answers, asked anew after five seconds; and the program's version."""

    figures: Figures
    program: str
    port: int
    asked: dict[str, tuple[float, bool]] = field(default_factory=dict)
    version: tuple[float, str] = (0.0, "")
    turn: threading.Lock = field(default_factory=threading.Lock)

    def ports(self) -> dict[str, int]:
        """The port of each desk by its unit, as the watch saw them."""
        told = self.figures.seen().get("ports") or {}
        return {unit: int(port) for unit, port in told.items()} or {
            agencies.Agency().unit: self.port
        }

    def answers(self, unit: str) -> bool:
        """Whether the desk answers."""
        moment, said = self.asked.get(unit, (0.0, False))
        if time.monotonic() - moment >= SECONDS_KEPT or unit not in self.asked:
            said = does_answer(self.ports()[unit])
            self.asked[unit] = (time.monotonic(), said)
        return said

    def version_now(self) -> str:
        """What the program says of itself; asked anew after an upgrade."""
        try:
            changed = Path(self.program).stat().st_mtime
            if changed != self.version[0]:
                ran = subprocess.run(
                    [self.program, "--version"], capture_output=True, text=True, check=False
                )
                self.version = (changed, ran.stdout.strip())
        except OSError:
            return ""
        return self.version[1]

    def health(self, agency: str | None) -> tuple[int, str]:
        """The status and the text for one desk."""
        with self.turn:
            ports = self.ports()
            unit = agencies.Agency(agency or agencies.MAIN).unit
            if unit not in ports:
                return 404, '{"denied":"http.path"}'
            self.figures.look()
            is_well = self.answers(unit)
            since = self.figures.seconds_since_write(unit, len(ports) == 1)
            told = {"answers": is_well, "version": self.version_now()}
            rounded = {"seconds_since_write": None if since is None else round(since)}
            return 200 if is_well else 503, json.dumps({**told, **rounded})

    def metrics(self) -> str:
        """All figures."""
        with self.turn:
            self.figures.look()
            return text_of(self.figures, {unit: self.answers(unit) for unit in self.ports()})


def does_answer(port: int) -> bool:
    """Whether a desk says to a key of nobody that it is nobody's."""
    line = http.client.HTTPConnection("127.0.0.1", port, timeout=SECONDS_TO_ANSWER)
    try:
        line.request("GET", "/days/2000-01-01/sheet", headers={"Desk-Key": NOBODY})
        return line.getresponse().status == 401
    except (OSError, http.client.HTTPException):
        return False
    finally:
        line.close()


def handler_for(desks: Desks) -> type[http.server.BaseHTTPRequestHandler]:
    """The handler of a server over these desks."""

    class Handler(http.server.BaseHTTPRequestHandler):
        """Answers two paths."""

        timeout = SECONDS_TO_ANSWER

        def do_GET(self) -> None:  # pylint: disable=invalid-name
            """Answers a read."""
            found = re.fullmatch(r"/health(?:/([a-z0-9-]+))?", self.path)
            if found:
                self.say(*desks.health(found[1]), "application/json")
            elif self.path == "/metrics":
                self.say(200, desks.metrics(), "text/plain; version=0.0.4")
            else:
                self.say(404, '{"denied":"http.path"}', "application/json")

        def say(self, status: int, text: str, kind: str) -> None:
            """Sends a reply."""
            body = text.encode()
            self.send_response(status)
            self.send_header("Content-Type", kind)
            self.send_header("Content-Length", str(len(body)))
            self.send_header("Cache-Control", "no-store")
            self.end_headers()
            self.wfile.write(body)

        def log_message(self, *_: object) -> None:
            """Says nothing: the site's log has each request."""

    return Handler


def main(arguments: list[str]) -> int:
    """Serves until it is ended."""
    words = usage_of("deploy/health", __doc__)
    words.takes("--port", type=int, default=PORT)
    words.takes("--desk", "where the watch saw none yet", type=int, default=DESKS_PORT)
    words.takes("--log", type=Path, default=Path("/var/log/nginx/access.log"))
    words.takes("--seen", type=Path, default=Path("/run/desk-watch.json"))
    words.takes("--program", default="/usr/bin/desk")
    told = words.parse_args(arguments)
    desks = Desks(Figures(Follower(told.log), told.seen), told.program, told.desk)
    try:
        server = http.server.ThreadingHTTPServer(("127.0.0.1", told.port), handler_for(desks))
    except OSError as error:
        print(f"deploy/health: port {told.port}: {error.strerror}", file=sys.stderr)
        return 1
    server.daemon_threads = True
    try:
        server.serve_forever()
    except KeyboardInterrupt:
        pass
    return 0


if __name__ == "__main__":
    ending.run("deploy/health", main)
