"""The small proxy of bin/office: a client that goes away leaves no traceback, and another fault does."""

import http.client
import socket
import struct
import time
from pathlib import Path

import pytest

from desk_tools.demo import proxy


def _reset(port: int) -> None:
    """A client that drops its line without a word, as a browser that is closed."""
    line = socket.create_connection(("127.0.0.1", port), 10)
    line.setsockopt(socket.SOL_SOCKET, socket.SO_LINGER, struct.pack("ii", 1, 0))
    line.send(b"GET / HTTP/1.1\r\n")
    time.sleep(0.1)
    line.close()


@pytest.mark.parametrize("is_gone", [True, False])
def test_a_client_that_goes_away_is_no_fault(
    tmp_path: Path,
    capfd: pytest.CaptureFixture[str],
    monkeypatch: pytest.MonkeyPatch,
    is_gone: bool,
) -> None:
    office = proxy.Office(0, 1, str(tmp_path), str(tmp_path), str(tmp_path / "tally"), {})
    port = office.server.server_address[1]
    try:
        if is_gone:
            _reset(port)
        else:
            monkeypatch.setattr(proxy.Handler, "answer", lambda self: 1 // 0)
            with pytest.raises((http.client.HTTPException, OSError)):
                line = http.client.HTTPConnection("127.0.0.1", port, timeout=10)
                line.request("GET", "/")
                line.getresponse()
        time.sleep(0.3)
    finally:
        office.stop()
    assert ("Traceback" in capfd.readouterr().err) is not is_gone
