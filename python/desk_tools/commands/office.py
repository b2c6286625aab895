#!/usr/bin/env python3
"""A demonstration office in one command: a made town with 200 riders, its desk, and the pages, on this machine alone.

  bin/office                  serves the proved program, which bin/desk builds first (that takes 40 minutes)
  bin/office --unproved       compiles the program without proofs, in three or four minutes
  bin/office FOLDER           keeps the office in that folder, in place of ~/.local/share/desk-office

It prints an address and a key for each role, and runs until Ctrl+C. The folder is kept: the next start goes on with it,
and adds the days that have passed. All persons and places are made up. Nothing is taken from the net.

The exit status is 0 after Ctrl+C, 1 where something kept the office from running, and 2 for wrong words.
"""

from __future__ import annotations

import argparse
import contextlib
import datetime
import os
import shutil
import signal
import sqlite3
import subprocess
import sys
import tempfile
import threading
import time
from collections.abc import Iterator
from typing import Any

from desk_tools import ending, law
from desk_tools.arguments import usage_of
from desk_tools.demo import building, folder, keys, mark, program, record, site, town
from desk_tools.demo.serving import Desk, Trouble
from desk_tools.tree import TOP

PORT = 8480
# The callers that the table shows, and what each may try first.
SHOWN = [
    (
        "clerk",
        "Clerk",
        "-",
        "Find rider 104 and book a trip. Rider 110 waits for the decision of an appeal.",
    ),
    (
        "examiner",
        "Examiner",
        "-",
        f"Rider 280 has waited {law.DAYS_UNTIL_PRESUMED} days: decide on the application.",
    ),
    (
        "officer",
        "Officer",
        "-",
        "Rider 131 was heard: decide on the appeal. Rider 120 has a notice to be heard.",
    ),
    (
        "second officer",
        "Officer",
        "-",
        "Decides on an appeal against what the first officer decided, as of rider 106.",
    ),
    ("dispatcher", "Dispatcher", "-", "Look at today, and print the manifests."),
    ("driver 5", "Driver", "vehicle 5", "Look at the next stop, and say how a trip ended."),
    ("rider 104", "Rider", "rider 104", "Look at the trips to come, and book one."),
    ("admin", "Admin", "-", "Make a key for somebody, and look at the map."),
]


def words_of(arguments: list[str]) -> argparse.Namespace:
    parser = usage_of("bin/office", __doc__)
    parser.takes("folder FOLDER", "where the office lives", nargs="?", default=folder.default())
    parser.flag("--unproved", "compile the program without proofs; each page then says so")
    parser.takes("--program FILE", "serve this program")
    parser.takes(
        "--port",
        f"the port of the pages; {PORT} where it is left out, 0 for any",
        type=int,
        default=PORT,
    )
    parser.flag("--anew", "make the office anew; what was done in it is lost")
    parser.flag("--proxy", "use the small proxy of this program, also where there is nginx")
    parser.flag("--no-browser", "open no browser")
    words = parser.parse_args(arguments)
    if not 0 <= words.port <= 65_535:
        parser.error("argument --port: 0 to 65535")
    return words


def say(text: str) -> None:
    print(text, flush=True)


@contextlib.contextmanager
def step(text: str) -> Iterator[None]:
    """Says what is done, and how long it took."""
    print(f"  {text} ...", end="", flush=True)
    begun = time.monotonic()
    try:
        yield
    except BaseException:
        say("")
        raise
    say(f" {time.monotonic() - begun:.1f} s")


def chosen_program(words: argparse.Namespace) -> str:
    if words.program:
        return program.given(words.program)
    if words.unproved:
        if not os.path.isdir(f"{TOP}/crates"):
            raise Trouble("--unproved compiles the sources, and this is the package: leave it out")
        # Here alone, since the package has no parts of bin/desk.
        from desk_tools.demo import unproved

        return unproved.program(TOP, step)
    return program.proved(TOP)


def pages_folder() -> str:
    return next(it for it in (f"{TOP}/pages", "/usr/share/desk/pages") if os.path.isdir(it))


class Office:
    """An office that runs: its folder, the desk, and what is before it."""

    def __init__(self, words: argparse.Namespace, path: str) -> None:
        self.words, self.program, self.place = words, path, folder.Folder(words.folder)
        self.is_unproved = words.unproved or mark.logic_of(path) is None
        self.today = datetime.date.today()
        self.parts: list[Any] = []
        self.before: Any = None
        self.work = ""
        self.desk = Desk(
            path,
            f"{self.place.path}/{building.DATABASE}",
            town.ZONE_RULE,
            f"{self.place.path}/{folder.SAID}",
        )

    def run(self) -> None:
        port = site.need_port(self.words.port)
        self.place.need_room()
        day = self.place.day()
        with tempfile.TemporaryDirectory(prefix="desk-office-") as self.work:
            try:
                if self.words.anew or day is None:
                    self.make()
                else:
                    self.go_on(day)
                self.serve(port)
                self.wait()
            finally:
                for part in reversed(self.parts):
                    part.stop()

    def make(self) -> None:
        say(f"A new office in {self.place.path}")
        self.place.clear()
        building.make(self.program, self.place.path, self.today, step)
        self.derive()
        # Of this copy the desk is asked later why there is no van for a trip.
        shutil.copy(f"{self.place.path}/{building.DATABASE}", self.work)
        self.open("the desk opens its file, and judges each row")
        self.place.mark(self.today)

    def go_on(self, day: datetime.date) -> None:
        """The office of an earlier start, with the days that have passed since."""
        days = (self.today - day).days
        say(f"The office in {self.place.path}, as of {day}")
        self.derive()
        if not 0 <= days <= folder.MOST_DAYS_ADDED:
            say(
                f"  it is of another time: {abs(days)} days lie between, and are not added; --anew makes a new one"
            )
            self.open("the desk opens its file")
            return
        with step(
            f"{days} days have passed: adding their trips"
            if days
            else "ending the trips of today that are over"
        ):
            folder.roll_on(self.place, self.today, day)
        try:
            self.open("the desk opens its file, and judges each row")
            self.place.mark(self.today)
        except Trouble:
            folder.undo(self.place)
            say(
                "  the desk does not take the added days, since the town was changed; --anew makes a new office"
            )
            self.open("the desk opens its file as it was")

    def derive(self) -> None:
        with step("making the files that the site serves"):
            site.derive(TOP, self.place.path, self.is_unproved)

    def open(self, text: str) -> None:
        """Makes the page of what waits, of a copy as at an agency, and starts the desk."""
        with step("making the page of what waits"):
            site.list_waiting(TOP, self.place.path, self.work, self.program)
        with step(text):
            self.desk.start()
        self.parts.append(self.desk)

    def serve(self, port: int) -> None:
        self.before, has_nginx = site.start(
            TOP, self.place.path, pages_folder(), port, self.desk.port, self.words.proxy
        )
        self.parts.append(self.before)
        if has_nginx:
            kept = record.Record(TOP, self.place.path, f"{self.work}/copy.db")
            self.parts.append(kept)
            say(
                f"  there is no record of who did what: {kept.trouble}"
                if kept.trouble
                else "  who did what is kept for the page Record"
            )
        self.parts.append(
            site.DriversFiles(TOP, self.place.path, self.keys()["dispatcher"], self.desk.port)
        )
        self.parts.append(site.Day(TOP, self.place.path))
        address = f"http://localhost:{port}/"
        self.place.tell(address)
        self.show(address, has_nginx)
        if self.words.unproved:
            self.make_quicker()
        if os.path.exists(f"{self.work}/{building.DATABASE}"):
            threading.Thread(target=self.explain, daemon=True).start()

    def make_quicker(self) -> None:
        """Has a quick program made for the next start, if this one is slow."""
        from desk_tools.demo import unproved

        part = unproved.quicker(TOP, self.program)
        if part:
            self.parts.append(part)
            say(
                "This program was compiled in haste, and is slow. While the office runs, a quick one is made for the "
                "next start."
            )

    def explain(self) -> None:
        place = self.place.path
        try:
            building.write_denial(self.program, place, self.work, self.keys(), self.today)
            say(
                f"A late trip that no van takes, and the log that shows why: {place}/{building.DENIED}"
            )
        except (Trouble, OSError) as trouble:
            say(f"The log of a denied trip was not made: {trouble}")

    def keys(self) -> dict[str, str]:
        return keys.read_keys(f"{self.place.path}/{building.KEYS}")

    def show(self, address: str, has_nginx: bool) -> None:
        known = self.keys()
        say(f"\n{town.NAME}, {self.today:%A} {self.today}, all of it made up: {address}\n")
        say(f"  {'Role':11}{'Number':11}{'Key':30}Try first")
        for who, role, number, first in SHOWN:
            say(f"  {role:11}{number:11}{known[who]:30}{first}")
        say(f"\nMore keys: {self.place.path}/{building.KEYS}")
        say(
            "Before the desk is "
            + (
                "nginx, as at an agency, without TLS."
                if has_nginx
                else "a small proxy that is for trying alone: it has no limits of requests and no TLS."
            )
        )
        if self.is_unproved:
            say("This program is not proved, and each page says so.")
        say("Ctrl+C ends the office and keeps the folder.")
        if (
            not self.words.no_browser
            and os.getuid() != 0
            and (os.environ.get("DISPLAY") or os.environ.get("WAYLAND_DISPLAY"))
        ):
            if shutil.which("xdg-open"):
                subprocess.Popen(
                    ["xdg-open", address], stdout=subprocess.DEVNULL, stderr=subprocess.DEVNULL
                )

    def wait(self) -> None:
        """Until somebody ends it. A desk that ended, as it does after a million connections, is started again."""
        while True:
            time.sleep(0.5)
            if self.desk.has_ended():
                if status := self.desk.status():
                    raise Trouble(f"the desk has ended with status {status}: {self.desk.says()}")
                self.desk.start()
            if self.before.has_ended():
                raise Trouble(
                    f"what serves the pages has ended; {self.place.path}/{site.NGINX}/nginx.log may say why"
                )


def stop_at_signal(number: Any, _: Any) -> None:
    raise KeyboardInterrupt


def main(arguments: list[str]) -> int:
    words = words_of(arguments)
    for it in signal.SIGTERM, signal.SIGHUP:
        signal.signal(it, stop_at_signal)
    building.use_clock()
    os.umask(0o077)
    try:
        Office(words, chosen_program(words)).run()
    except (Trouble, OSError) as error:
        return ending.told("bin/office", error, 1)
    except sqlite3.Error as error:
        print(
            f"bin/office: the office's file desk.db: {error}; --anew makes a new office",
            file=sys.stderr,
        )
        return 1
    except KeyboardInterrupt:
        place = os.path.abspath(words.folder)
        say(
            f"\nEnded. The office stays in {place}."
            if os.path.exists(f"{place}/{folder.STATE}")
            else "\nEnded."
        )
    return 0


if __name__ == "__main__":
    ending.run("bin/office", main)
