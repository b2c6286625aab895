#!/usr/bin/env python3
"""A client of the desk in a hundred lines: each write acts once, whatever breaks.

  examples/client.py https://desk.example.org KEYFILE GET /riders/7/trips
  examples/client.py https://desk.example.org KEYFILE POST /trips '{"rider": 7, "day": "2026-12-03", ..}'

A write has a number above all earlier ones of this key: the seconds since 1970, or one more than the last. The number and
the write are on the disk, in KEYFILE.last, before it is sent. Where no reply comes, the same write goes out again under
the same number, also by the next run, and the desk does it once. The exit status is 0 for 200, 1 for a denial, 2 for a
wrong request or key, and 3 where the desk did not answer in time: then run the same again.
"""

import http.client
import json
import os
import sys
import time
import urllib.error
import urllib.request
from pathlib import Path

PATIENCE, LONGEST_PAUSE, SECONDS = 120.0, 15.0, 30
# The site is asked too much, or does not reach the desk: the same request goes out again.
AGAIN = {429, 502, 503, 504}


class NotAnswered(Exception):
    """No reply came for as long as the client waits. What was sent may have been done."""


class Client:
    """One key of one desk. `state` keeps the last number, and the write that has no reply yet."""

    def __init__(self, url: str, key: str, state: Path, patience: float = PATIENCE) -> None:
        self.url, self.key, self.state, self.patience = url.rstrip("/"), key, state, patience
        self.kept = json.loads(state.read_text()) if state.exists() else {"last": 0, "open": None}

    def keep(self, last: int, write: list[str] | None) -> None:
        """Puts the number and the write on the disk before anything else happens."""
        self.kept = {"last": last, "open": write}
        new = self.state.with_suffix(".new")
        with open(
            os.open(new, os.O_WRONLY | os.O_CREAT | os.O_TRUNC, 0o600), "w", encoding="utf-8"
        ) as file:
            json.dump(self.kept, file)
            file.flush()
            os.fsync(file.fileno())
        new.replace(self.state)

    def get(self, path: str) -> tuple[int, str]:
        """The status and the body of a read."""
        return self.until_answered(
            urllib.request.Request(self.url + path, headers={"Desk-Key": self.key})
        )

    def post(self, path: str, body: str) -> tuple[int, str]:
        """The status and the body of a write, which is done once. An open write of an earlier run is finished first."""
        if self.kept["open"] and self.kept["open"] != [path, body]:
            self.send(self.kept["last"], *self.kept["open"])
        number = (
            self.kept["last"] if self.kept["open"] else max(self.kept["last"] + 1, int(time.time()))
        )
        self.keep(number, [path, body])
        return self.send(number, path, body)

    def send(self, number: int, path: str, body: str) -> tuple[int, str]:
        """Sends a write under its number until there is a reply, and then forgets that it is open."""
        headers = {
            "Desk-Key": self.key,
            "Desk-Number": str(number),
            "Content-Type": "application/json",
        }
        reply = self.until_answered(
            urllib.request.Request(self.url + path, body.encode(), headers, method="POST")
        )
        self.keep(number, None)
        return reply

    def until_answered(self, request: urllib.request.Request) -> tuple[int, str]:
        """The reply to a request, which is sent again after growing pauses."""
        end, pause, said = time.monotonic() + self.patience, 0.2, ""
        while True:
            wait = pause
            try:
                with urllib.request.urlopen(request, timeout=SECONDS) as reply:
                    return reply.status, reply.read().decode()
            except urllib.error.HTTPError as error:
                if error.code not in AGAIN:
                    return error.code, error.read().decode(errors="replace")
                said, asked = f"status {error.code}", error.headers.get("Retry-After", "")
                wait = float(asked) if asked.isdigit() else pause
            except (OSError, http.client.HTTPException) as error:
                said = str(error) or type(error).__name__
            if time.monotonic() + wait > end:
                raise NotAnswered(f"{self.url} does not answer ({said})")
            time.sleep(wait)
            pause = min(2 * pause, LONGEST_PAUSE)


def main(words: list[str]) -> int:
    """Asks once by the words of the command line."""
    if len(words) not in (4, 5) or words[2] != ("GET" if len(words) == 4 else "POST"):
        print(__doc__, file=sys.stderr)
        return 2
    url, key_file, _, path, *body = words
    try:
        client = Client(
            url, Path(key_file).read_text(encoding="ascii").strip(), Path(f"{key_file}.last")
        )
        status, said = client.post(path, body[0]) if body else client.get(path)
    except NotAnswered as error:
        print(f"client: {error}", file=sys.stderr)
        return 3
    except (OSError, ValueError) as error:
        print(f"client: {error}", file=sys.stderr)
        return 2
    print(said)
    return 0 if status == 200 else 1 if '"denied"' in said and status in (409, 422) else 2


if __name__ == "__main__":
    sys.exit(main(sys.argv[1:]))
