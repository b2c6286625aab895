"""A site that takes what it is told, in place of nginx: for tests of programs that tell the site events."""
import datetime
import http.server
import threading
from typing import Any


class StandInSite(http.server.ThreadingHTTPServer):
    """A site that answers so many times with a status, and then takes what it is told; `told` has the lines of its log."""

    def __init__(self, status: int = 204, times: int = 0) -> None:
        self.status, self.times = status, times
        self.told: list[bytes] = []
        super().__init__(("127.0.0.1", 0), SiteHandler)

    @property
    def address(self) -> str:
        return f"http://127.0.0.1:{self.server_port}"

    def __enter__(self) -> "StandInSite":
        threading.Thread(target=self.serve_forever, daemon=True).start()
        return self

    def __exit__(self, *_: object) -> None:
        self.shutdown()
        self.server_close()


class SiteHandler(http.server.BaseHTTPRequestHandler):
    def do_POST(self) -> None:
        site, path = self.server, self.path
        assert isinstance(site, StandInSite)
        status, site.times = (site.status, site.times - 1) if site.times else (204, 0)
        if status == 204:
            site.told.append(
                f"{datetime.datetime.now().astimezone().isoformat(timespec='seconds')}"
                f"\t{path.replace('?', chr(9))}\toffice".encode()
            )
        self.send_response(status)
        self.send_header("Content-Length", "0")
        self.end_headers()

    def log_message(self, *_: Any) -> None:
        """Nothing is printed."""
