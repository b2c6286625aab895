"""A desk that was started serves once the same process answers twice; else one sentence says what is so."""

import http.server
import threading
from collections.abc import Iterator

import pytest

from desk_tools.ops import answering


class Told:
    """A server that answers with a status, and what systemd shows of its unit, look by look; the last goes on."""

    def __init__(self, shown: list[str], status: int = 401) -> None:
        told = self

        class Handler(http.server.BaseHTTPRequestHandler):
            """Answers with the status."""

            def do_GET(self) -> None:
                self.send_response(told.status)
                self.end_headers()

            def log_message(self, *_: object) -> None:
                pass

        self.status, self.shown, self.looks = status, shown, 0
        self.server = http.server.ThreadingHTTPServer(("127.0.0.1", 0), Handler)
        threading.Thread(target=self.server.serve_forever, args=(0.02,), daemon=True).start()

    def show(self, _: str) -> dict[str, str]:
        state, process = self.shown[min(self.looks, len(self.shown) - 1)].split()
        self.looks += 1
        return {"ActiveState": state, "MainPID": process}


@pytest.fixture(name="quick", autouse=True)
def fixture_quick(monkeypatch: pytest.MonkeyPatch) -> Iterator[None]:
    monkeypatch.setattr(answering, "BETWEEN", 0.05)
    yield


def waited(monkeypatch: pytest.MonkeyPatch, told: Told, longest: float = 2) -> None:
    monkeypatch.setattr(answering, "shown", told.show)
    try:
        answering.wait_until_it_serves("desk", told.server.server_address[1], longest)
    finally:
        told.server.shutdown()
        told.server.server_close()


@pytest.mark.parametrize(
    "shown, looks",
    [
        (["active 7"], 2),
        (["activating 0", "active 7"], 3),
        # It answers, ends, and another process answers: that one has to go on.
        (["active 7", "active 8"], 3),
    ],
)
def test_one_that_serves(monkeypatch: pytest.MonkeyPatch, shown: list[str], looks: int) -> None:
    told = Told(shown)
    waited(monkeypatch, told)
    assert told.looks == looks


@pytest.mark.parametrize(
    "shown, status, why",
    [
        (["activating 0", "failed 0"], 401, "ended again and again"),
        (["active 7", "activating 0", "active 8", "failed 0"], 401, "ended again and again"),
        (["inactive 0"], 401, "ended: journalctl -u desk says why"),
        (["active 7"], 503, "did not answer on port"),
    ],
)
def test_one_that_does_not(
    monkeypatch: pytest.MonkeyPatch, shown: list[str], status: int, why: str
) -> None:
    """A desk that ends right after its start, also one that had answered once, and one whose store failed."""
    with pytest.raises(answering.NotServing, match=why):
        waited(monkeypatch, Told(shown, status), 1)
