"""What stands in place of others while tests/move_in runs: a line that breaks, and servers of driving times."""

from __future__ import annotations

import http.server
import json
import re
import socket
import socketserver
import subprocess
import threading
import urllib.parse
from collections.abc import Callable, Mapping
from typing import Any, Self

from serving import SECONDS, Reply, received_from


# What the site answers where a key or an address asks too much, and at which requests of a trial it does.
TOO_MANY = (
    b"HTTP/1.1 429 Too Many Requests\r\nContent-Type: text/html\r\nContent-Length: 47\r\n\r\n"
    b"<html><h1>429 Too Many Requests</h1></html>\r\n\r\n"
)
REFUSED_EACH = 13


class Relay:
    """Stands before a desk and passes requests on. At every so many requests it kills the program that asks.

    By turns that is before the desk hears of the request, and once it has answered, so that nobody reads the reply. Now
    and then it says that it is asked too much, as the site does, and passes nothing on.
    """

    def __init__(self, desk_port: int, every: int) -> None:
        self.desk_port, self.every = desk_port, every
        self.program: subprocess.Popen[Any] | None = None
        self.count, self.kills, self.refusals = 0, 0, 0
        self.listener = socket.create_server(("127.0.0.1", 0))
        self.port = self.listener.getsockname()[1]

    def __enter__(self) -> Self:
        threading.Thread(target=self.pass_on, daemon=True).start()
        return self

    def __exit__(self, *_: object) -> None:
        self.listener.close()

    def pass_on(self) -> None:
        while True:
            try:
                connection, _ = self.listener.accept()
            except OSError:
                return
            with connection:
                connection.settimeout(SECONDS)
                self.count += 1
                is_last = self.count % self.every == 0
                request = request_from(connection)
                is_too_much = not is_last and self.count % REFUSED_EACH == 0
                self.refusals += is_too_much
                is_unheard = is_last and self.kills % 2 == 0
                reply = b"" if is_unheard else TOO_MANY if is_too_much else self.asked(request)
                if is_last:
                    self.kills += 1
                    if self.program:
                        self.program.kill()
                else:
                    connection.sendall(reply)

    def asked(self, request: bytes) -> bytes:
        with socket.create_connection(("127.0.0.1", self.desk_port), SECONDS) as desk:
            desk.sendall(request)
            return received_from(desk)


def request_from(connection: socket.socket) -> bytes:
    """The bytes of one request."""
    received = b""
    while True:
        head, gap, body = received.partition(b"\r\n\r\n")
        length = re.search(rb"(?i)\r\ncontent-length: *(\d+)", head)
        if gap and len(body) >= int(length[1] if length else 0):
            return received
        piece = connection.recv(65_536)
        if not piece:
            return received
        received += piece


class Stand:
    """Answers as the table service of an OSRM or a Valhalla server does, by a function of two places' numbers."""

    def __init__(
        self,
        kind: str,
        positions: Mapping[int, tuple[float, float]],
        seconds: Callable[[int, int], int | None],
        is_broken: bool = False,
    ) -> None:
        stand = self

        class Handler(http.server.BaseHTTPRequestHandler):
            def do_GET(self) -> None:
                self.answer(stand.by_osrm(self.path) if kind == "osrm" else None)

            def do_POST(self) -> None:
                content = self.rfile.read(int(self.headers["Content-Length"]))
                self.answer(stand.by_valhalla(json.loads(content)) if kind == "valhalla" else None)

            def answer(self, told: Any) -> None:
                content = json.dumps({"code": "Ok"} if is_broken else told).encode()
                self.send_response(200 if told else 404)
                self.send_header("Content-Length", str(len(content)))
                self.end_headers()
                self.wfile.write(content)

            def log_message(self, *_: object) -> None:
                pass

        self.positions, self.seconds = positions, seconds
        self.server = socketserver.TCPServer(("127.0.0.1", 0), Handler)
        self.port = self.server.server_address[1]

    def __enter__(self) -> Self:
        threading.Thread(
            target=self.server.serve_forever, kwargs={"poll_interval": 0.2}, daemon=True
        ).start()
        return self

    def __exit__(self, *_: object) -> None:
        self.server.shutdown()
        self.server.server_close()

    def place_at(self, latitude: float, longitude: float) -> int | None:
        """The place that is there, within a hundred-thousandth of a degree."""
        found = [
            number
            for number, (north, east) in self.positions.items()
            if max(abs(north - latitude), abs(east - longitude)) < 1e-5
        ]
        return found[0] if len(found) == 1 else None

    def by_osrm(self, path: str) -> Any:
        parts = urllib.parse.urlsplit(path)
        asked = urllib.parse.parse_qs(parts.query)
        points = [
            [float(side) for side in it.split(",")]
            for it in parts.path.removeprefix("/table/v1/driving/").split(";")
        ]
        places: list[Any] = [self.place_at(latitude, longitude) for longitude, latitude in points]
        sources, goals = (
            [places[int(it)] for it in asked[name][0].split(";")]
            for name in ("sources", "destinations")
        )
        if asked["annotations"] != ["duration"] or None in places or len(places) > 100:
            return None
        return {"code": "Ok", "durations": [[self.seconds(a, b) for b in goals] for a in sources]}

    def by_valhalla(self, asked: dict[str, Any]) -> Any:
        ends: list[list[Any]] = [
            [self.place_at(it["lat"], it["lon"]) for it in asked[name]]
            for name in ("sources", "targets")
        ]
        if (
            asked["costing"] != "auto"
            or None in ends[0] + ends[1]
            or len(ends[0]) + len(ends[1]) > 50
        ):
            return None
        rows = [
            [
                {"time": self.seconds(a, b), "from_index": i, "to_index": j}
                for j, b in enumerate(ends[1])
            ]
            for i, a in enumerate(ends[0])
        ]
        return {"sources_to_targets": rows}


class Counting:
    """Stands for the way to a desk that has taken a caller's writes up to a number, and counts the questions."""

    def __init__(self, last: int) -> None:
        self.last, self.asked = last, 0

    def ask(self, _method: str, _path: str, _key: str, number: int = 0, _body: Any = None) -> Reply:
        self.asked += 1
        is_used = number <= self.last
        return (
            Reply(409, {"denied": "desk.number"})
            if is_used
            else Reply(403, {"denied": "desk.caller"})
        )
