"""The record of who did what, as an agency's machine keeps it: what takes in nginx's lines, and what answers the page *Record*."""

from __future__ import annotations

import os
import subprocess
import threading

from desk_tools.demo import building
from desk_tools.demo.serving import end
from desk_tools.demo.site import NGINX

# Where deploy/site --trial has nginx write, and where it asks for answers; and the key that signs each day.
FOLDER, SOCKET, KEY, PID = (
    f"{NGINX}/journal",
    f"{NGINX}/socket",
    f"{NGINX}/record-key",
    f"{NGINX}/nginx.pid",
)


class Record:
    """Takes in the lines each half minute, as desk-journal.timer does, and answers as desk-record.service does."""

    PAUSE = 30

    def __init__(self, top: str, folder: str, copy: str) -> None:
        self.words = [
            f"{top}/bin/journal",
            "--folder",
            f"{folder}/{FOLDER}",
            "--agency",
            f"{folder}/{building.AGENCY}",
        ]
        self.taking = [
            "take",
            "--key",
            f"{folder}/{KEY}",
            "--nginx-pid",
            f"{folder}/{PID}",
            "--corrections",
            f"{folder}/none",
        ]
        self.env = {**os.environ, "PYTHONDONTWRITEBYTECODE": "1"}
        begun = self.run("begin", "--key", f"{folder}/{KEY}", "--public", f"{folder}/{KEY}.public")
        # Why nothing is kept, or an empty text.
        self.trouble = begun.stderr.strip() if begun.returncode else ""
        # The callers' keys are older than the record.
        self.run("callers", copy)
        self.server = subprocess.Popen(
            [*self.words, "serve", f"{folder}/{SOCKET}", "--roster", f"{folder}/{building.ROSTER}"],
            stdin=subprocess.DEVNULL,
            stdout=subprocess.DEVNULL,
            stderr=subprocess.DEVNULL,
            env=self.env,
            start_new_session=True,
        )
        self.ended = threading.Event()
        self.thread = threading.Thread(target=self.go_on, daemon=True)
        self.thread.start()

    def run(self, *words: str) -> subprocess.CompletedProcess[str]:
        return subprocess.run(
            [*self.words, *words],
            stdin=subprocess.DEVNULL,
            capture_output=True,
            text=True,
            env=self.env,
            check=False,
        )

    def go_on(self) -> None:
        while not self.ended.wait(self.PAUSE):
            self.run(*self.taking)

    def stop(self) -> None:
        """Ends both. What was written until now is taken in first."""
        self.ended.set()
        self.thread.join()
        self.run(*self.taking)
        end(self.server)
