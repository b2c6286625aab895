"""A file of the pages that the site gives late, refuses some times, or gives with another content; refusals may be lines that are cut."""
import contextlib
import http.server
import threading
import time
from collections.abc import Iterator
from pathlib import Path
from typing import Any

from database import Trouble
from town import PAGES, Town

KINDS = {"js": "application/javascript", "css": "text/css"}
BEFORE = "    location / {\n        limit_conn desk_pages_at_once"


class Answers(http.server.ThreadingHTTPServer):
    """What stands in for one file: `refusals` times 503, then after `seconds` the `content`. `asked` counts all."""

    daemon_threads = True

    def __init__(
        self, path: str, content: str | None = None, refusals: int = 0, seconds: float = 0
    ) -> None:
        super().__init__(("127.0.0.1", 0), Answer)
        self.content = Path(f"{PAGES}{path}").read_bytes() if content is None else content.encode()
        self.kind, self.refusals, self.seconds, self.asked = (
            KINDS[path.rpartition(".")[2]],
            refusals,
            seconds,
            0,
        )
        threading.Thread(target=self.serve_forever, daemon=True).start()


class Answer(http.server.BaseHTTPRequestHandler):
    def do_GET(self) -> None:
        site = self.server
        assert isinstance(site, Answers)
        site.asked += 1
        if site.asked <= site.refusals:
            self.send_error(503)
            return
        time.sleep(site.seconds)
        self.send_response(200)
        self.send_header("Content-Type", site.kind)
        self.send_header("Content-Length", str(len(site.content)))
        self.end_headers()
        self.wfile.write(site.content)

    def log_message(self, *_: object) -> None:
        """Nothing is said of a request."""


# In place of a refusal the site closes the connection without a word.
CUT = "        proxy_intercept_errors on;\n        error_page 503 = @cut;\n"


@contextlib.contextmanager
def given(town: Town, path: str, is_cut: bool = False, **how: Any) -> Iterator[Answers]:
    """Meanwhile the site gives this file of the pages as Answers has it. is_cut: where that refuses, the connection is closed."""
    conf = f"{town.folder}/nginx.conf"
    plain = Path(conf).read_text("utf-8")
    if plain.count(BEFORE) != 1:
        raise Trouble("the site's file has another form than late_files.py knows")
    with Answers(path, **how) as answers:
        passed = f"    location = {path} {{\n{CUT if is_cut else ''}        proxy_pass http://127.0.0.1:{answers.server_port};\n    }}\n"
        passed += "    location @cut {\n        return 444;\n    }\n" if is_cut else ""
        try:
            use(town, conf, plain.replace(BEFORE, passed + BEFORE))
            yield answers
        finally:
            use(town, conf, plain)
            answers.shutdown()


def use(town: Town, conf: str, text: str) -> None:
    town.stop_site()
    Path(conf).write_text(text, "utf-8")
    town.start_site()
