"""A desk that is started, asked and stopped."""

from __future__ import annotations

import contextlib
import http.client
import json
import subprocess
import time
from typing import Any, NamedTuple

from desk_tools.ports import free_port


class Reply(NamedTuple):
    """The desk's reply: its status, and its body as JSON has it."""

    status: int
    body: Any


SECONDS, MOST_CONNECTIONS, PAUSE = 120, 1_000_000, 0.05


class Trouble(Exception):
    """What keeps the office from going on, in one sentence."""


class TakenPort(Trouble):
    """The desk's port is another program's by now."""


TRIES, TAKEN = 5, "fault 6 "


def ran(program: str, *words: str | int) -> subprocess.CompletedProcess[bytes]:
    """How a command of the desk ends, and what it prints. A key among the words is one of the demonstration's."""
    return subprocess.run(
        [program, *map(str, words)], capture_output=True, stdin=subprocess.DEVNULL, check=False
    )


def end(process: subprocess.Popen[bytes], seconds: int = 10) -> None:
    """Ends a process that this program started."""
    if process.poll() is None:
        process.terminate()
    try:
        process.wait(seconds)
    except subprocess.TimeoutExpired:
        process.kill()
        process.wait()


class Desk:
    """A desk that serves a file on a free port of this machine. What it says goes to the file `said`."""

    def __init__(self, program: str, file: str, zone: str, said: str) -> None:
        self.words, self.said, self.port = [program, "serve", file, zone], said, free_port()
        self.process: Any = None

    def start(self) -> Any:
        """Starts it; another program may have taken the port meanwhile, and then it gets another one."""
        for _ in range(TRIES - 1):
            with contextlib.suppress(TakenPort):
                return self.start_once()
            self.port = free_port()
        return self.start_once()

    def start_once(self) -> None:
        words = [*self.words, str(self.port), str(MOST_CONNECTIONS)]
        with open(self.said, "wb") as output:
            # A group of its own, so that Ctrl+C goes to the office alone, which then ends it.
            self.process = subprocess.Popen(
                words,
                stdin=subprocess.DEVNULL,
                stdout=output,
                stderr=output,
                start_new_session=True,
            )
        try:
            self.wait_until_open()
        except BaseException:
            self.stop()
            raise

    def wait_until_open(self) -> None:
        while not self.says().startswith("listening"):
            if self.has_ended():
                is_taken = self.says().startswith(TAKEN)
                raise (TakenPort if is_taken else Trouble)(
                    f"the desk does not open {self.words[2]}: it says '{self.says() or 'nothing'}'"
                )
            time.sleep(PAUSE)

    def says(self) -> str:
        """The first whole line that it said, or nothing."""
        with open(self.said, encoding="utf-8", errors="replace") as file:
            line = file.readline()
        return line.strip() if line.endswith("\n") else ""

    def stop(self) -> None:
        """Ends it. What was answered is on the disk."""
        if self.process:
            end(self.process)
            self.process = None

    def has_ended(self) -> bool:
        return self.process is not None and self.process.poll() is not None

    def status(self) -> Any:
        """With which status it ended, or None."""
        return self.process.poll() if self.process else None

    def __enter__(self) -> Any:
        self.start()
        return self

    def __exit__(self, *_: Any) -> None:
        self.stop()

    def ask(self, method: Any, path: str, key: Any, number: Any = None, body: Any = None) -> Any:
        """The reply to a request. A write whose reply was not seen is sent once more under its number."""
        headers = {"Desk-Key": key, **({} if number is None else {"Desk-Number": str(number)})}
        content = None if body is None else json.dumps(body, separators=(",", ":"))
        try:
            return self.asked_once(method, path, headers, content)
        except (OSError, http.client.HTTPException):
            time.sleep(PAUSE)
        try:
            return self.asked_once(method, path, headers, content)
        except (OSError, http.client.HTTPException) as error:
            raise Trouble(f"the desk does not answer {method} {path}: {error}") from None

    def asked_once(self, method: Any, path: str, headers: Any, content: Any) -> Any:
        line = http.client.HTTPConnection("127.0.0.1", self.port, timeout=SECONDS)
        try:
            line.request(method, path, content, headers)
            reply = line.getresponse()
            text = reply.read().decode()
            is_json = reply.headers.get_content_type() == "application/json"
            return Reply(reply.status, json.loads(text) if is_json else text)
        finally:
            line.close()
