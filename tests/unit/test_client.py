"""The example of a client: a write whose reply is lost goes out again as it was, and never under a new number."""

import http.server
import importlib.util
import json
import sys
import threading
from collections.abc import Iterator
from pathlib import Path
from types import ModuleType

import pytest

FILE = Path(__file__).resolve().parents[2] / "examples/client.py"


def loaded() -> ModuleType:
    """The example as a module."""
    specification = importlib.util.spec_from_file_location("client", FILE)
    assert specification and specification.loader
    module = importlib.util.module_from_spec(specification)
    specification.loader.exec_module(module)
    return module


class Desk(http.server.ThreadingHTTPServer):
    """A desk that answers by a script: a status, or None for a line that breaks before the reply."""

    def __init__(self) -> None:
        self.script: list[int | None] = []
        self.asked: list[tuple[str, str | None, str]] = []
        super().__init__(("127.0.0.1", 0), Handler)

    @property
    def url(self) -> str:
        """Its address."""
        return f"http://127.0.0.1:{self.server_address[1]}"


class Handler(http.server.BaseHTTPRequestHandler):
    """One request."""

    server: Desk

    def answer(self) -> None:
        """Answers by the script."""
        body = self.rfile.read(int(self.headers.get("Content-Length", "0"))).decode()
        self.server.asked.append((self.path, self.headers.get("Desk-Number"), body))
        status = self.server.script.pop(0) if self.server.script else 200
        if status is None:
            self.close_connection = True
            return
        said = json.dumps(
            {"denied": "desk.number"} if status == 409 else {"asked": len(self.server.asked)}
        ).encode()
        self.send_response(status)
        self.send_header("Retry-After", "0")
        self.send_header("Content-Length", str(len(said)))
        self.end_headers()
        self.wfile.write(said)

    do_GET = do_POST = answer

    def log_message(self, *_: object) -> None:  # pylint: disable=arguments-differ
        """Nothing is printed."""


@pytest.fixture(name="desk")
def a_desk() -> Iterator[Desk]:
    """A desk that serves while a test runs."""
    with Desk() as desk:
        threading.Thread(target=desk.serve_forever, daemon=True).start()
        yield desk
        desk.shutdown()


def test_a_lost_reply_sends_the_same_write_again(desk: Desk, tmp_path: Path) -> None:
    desk.script = [None, 503, 429, 200]
    status, said = loaded().Client(desk.url, "abc", tmp_path / "last").post("/trips", "{}")
    assert (status, json.loads(said)) == (200, {"asked": 4})
    assert len({number for _, number, _ in desk.asked}) == 1


def test_a_run_that_was_broken_off_is_finished_by_the_next(desk: Desk, tmp_path: Path) -> None:
    module, state = loaded(), tmp_path / "last"
    desk.script = [None] * 50
    with pytest.raises(module.NotAnswered):
        module.Client(desk.url, "abc", state, patience=0.5).post("/trips", '{"rider": 7}')
    first = desk.asked[0]
    desk.script = []
    later = module.Client(desk.url, "abc", state)
    later.post("/trips", '{"rider": 8}')
    assert desk.asked[-2] == first
    assert int(desk.asked[-1][1] or 0) > int(first[1] or 0) and desk.asked[-1][2] == '{"rider": 8}'


def test_numbers_rise_and_denials_are_told(desk: Desk, tmp_path: Path) -> None:
    key = tmp_path / "key"
    key.write_text("abc\n")
    desk.script = [200, 409, 200]
    main = loaded().main
    assert [main([desk.url, str(key), "POST", "/trips", "{}"]) for _ in range(2)] == [0, 1]
    assert main([desk.url, str(key), "GET", "/riders/7/trips"]) == 0
    numbers = [int(number) for _, number, _ in desk.asked if number]
    assert numbers[0] < numbers[1]


def test_wrong_words_and_files_are_one_sentence(
    tmp_path: Path, capsys: pytest.CaptureFixture[str]
) -> None:
    main = loaded().main
    assert (
        main(["GET"]) == 2
        and main(["http://127.0.0.1:1", str(tmp_path / "none"), "GET", "/x"]) == 2
    )
    assert "No such file" in capsys.readouterr().err.splitlines()[-1]
    assert sys.version_info >= (3, 11)
