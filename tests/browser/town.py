"""A town to try the pages in: a desk, the site before it, the files of the site, and a clock that both read."""
import contextlib
import glob
import http.client
import json
import os
import shutil
import sqlite3
import ssl
import subprocess
import time
from collections.abc import Mapping
from pathlib import Path
from typing import Any

import people
from database import PATIENCE, ROOT, Desk, Trouble, clocked, copy_of_database, until
from middle import Middle
from serving import free_port

BUSY = (429, 502, 503, 504)
PAGES = os.environ.get("PAGES_FOLDER", f"{ROOT}/pages")


# The site.


def write_certificate(folder: str) -> None:
    words = "openssl req -x509 -newkey rsa:2048 -nodes -days 2 -subj /CN=localhost".split()
    words += ["-addext", "subjectAltName=IP:127.0.0.1,DNS:localhost"]
    words += ["-keyout", f"{folder}/key.pem", "-out", f"{folder}/certificate.pem"]
    subprocess.run(words, check=True, capture_output=True)


def packed_pages(folder: str) -> str:
    """The pages as a site has them, in a folder."""
    subprocess.run(
        [f"{ROOT}/deploy/pack-pages", PAGES, f"{folder}/pages"],
        check=True,
        stdout=subprocess.DEVNULL,
    )
    return f"{folder}/pages"


def write_conf(folder: str, port: int, desk_port: int, pages: str) -> None:
    """The site as deploy/site makes it for a trial: in this folder and on ports of its own."""
    words = [
        f"{ROOT}/deploy/site",
        "--trial",
        folder,
        "--desk",
        desk_port,
        "--tls",
        port,
        "--plain",
        free_port(),
        "--pages",
        pages,
    ]
    made = subprocess.run([str(it) for it in words], capture_output=True, text=True)
    if made.returncode:
        raise Trouble(f"deploy/site: {made.stderr}")
    Path(f"{folder}/nginx.conf").write_text(made.stdout, "utf-8")


def read_tail(path: str) -> str:
    """The end of a log, or nothing where there is none."""
    with contextlib.suppress(OSError), open(path, encoding="utf-8", errors="replace") as text:
        return text.read()[-500:]
    return ""


class Town:
    """Desk, site and files in a folder. Its clock stands still until it is set."""

    def __init__(
        self, program: str, folder: str, vans: int, towns: str, is_packed: bool = False
    ) -> None:
        self.pages = packed_pages(folder) if is_packed else PAGES
        self.folder, self.vans, self.keys = folder, vans, people.keys_of(vans)
        self.site: subprocess.Popen[bytes] | None = None
        self.desk = Desk(program, f"{folder}/desk.db", f"{folder}/clock")
        self.port, self.number = free_port(), int(time.time())
        self.middle = Middle(free_port(), self.desk.port)
        self.origin = f"https://127.0.0.1:{self.port}"
        self.today = people.TODAY if vans else people.FIRST_DAY
        self.desk.set_clock(self.today)
        self.take_database(program, towns)
        write_certificate(folder)
        self.write_files()

    def take_database(self, program: str, towns: str) -> None:
        copy_of_database(program, self.vans, towns, self.desk.file)

    def __enter__(self) -> "Town":
        write_conf(self.folder, self.port, self.middle.port, self.pages)
        try:
            self.start_desk()
            self.start_site()
        except BaseException:
            # (nothing else stops them, and tests/pages would read until they end)
            self.__exit__()
            raise
        return self

    def __exit__(self, *_: object) -> None:
        self.stop_site()
        self.stop_desk()
        self.middle.close()

    def set_clock(self, day: str, hour: str = people.NOON) -> None:
        self.desk.set_clock(day, hour)
        if day != self.today:
            self.today = day
            self.write_drivers_files()

    def start_desk(self) -> None:
        self.desk.start()
        self.write_drivers_files()

    def stop_desk(self) -> None:
        self.desk.stop()

    def make_today(self) -> Any:
        """The file of the day, as its unit makes it now."""
        words = [
            f"{ROOT}/deploy/today",
            f"{self.folder}/tally.log",
            f"{self.folder}/site/staff/today.json",
            "--agency",
            f"{self.folder}/site/agency.json",
            "--once",
        ]
        made = subprocess.run(words, env=clocked(self.desk.clock), capture_output=True, text=True)
        if made.returncode or made.stderr:
            raise Trouble(f"deploy/today: {made}")
        return json.loads(Path(f"{self.folder}/site/staff/today.json").read_text("utf-8"))

    def copied(self) -> str:
        """A copy of the desk's file, as a backup makes it of the halted desk."""
        file, halted, copy = self.desk.file, f"{self.folder}/halted", f"{self.folder}/copy.db"
        self.stop_desk()
        for path in glob.glob(f"{glob.escape(file)}*"):
            shutil.copy(path, f"{halted}{path.removeprefix(file)}")
        self.start_desk()
        with contextlib.closing(sqlite3.connect(halted)) as old, contextlib.closing(
            sqlite3.connect(copy)
        ) as new:
            old.backup(new)
        return copy

    def start_site(self) -> None:
        clock = "".join(
            f" env {name};"
            for name in [
                "LD_PRELOAD",
                "TZ",
                "FAKETIME_TIMESTAMP_FILE",
                "FAKETIME_NO_CACHE",
                "FAKETIME_DONT_FAKE_MONOTONIC",
            ]
        )
        words = [
            "nginx",
            "-e",
            f"{self.folder}/nginx.log",
            "-c",
            f"{self.folder}/nginx.conf",
            "-g",
            f"daemon off;{clock}",
        ]
        self.site = subprocess.Popen(
            words,
            env=clocked(self.desk.clock),
            stdout=subprocess.DEVNULL,
            stderr=subprocess.DEVNULL,
        )
        until("the site answers", self.site_answers)

    def site_answers(self) -> bool:
        """Whether the site answers; where nginx has ended, such as over a port that somebody else took, its own words."""
        if self.site and self.site.poll() is not None:
            raise Trouble(f"nginx ended: {read_tail(f'{self.folder}/nginx.log')}")
        return self.answer("/") is not None

    def stop_site(self) -> None:
        if self.site:
            self.site.terminate()
            self.site.wait()
            self.site = None

    # The files that the site serves.

    def write_files(self, **changed: Any) -> None:
        """The site's files of the agency's own file, with what is changed in it."""
        os.makedirs(f"{self.folder}/site", exist_ok=True)
        write_site_files(
            self.folder,
            {**people.agency_file(max(self.vans, 1)), **changed},
            people.ROSTER,
            people.drivers_file(),
        )
        self.write_drivers_files()

    def write_drivers_files(self) -> None:
        """What each van's driver gets, by bin/driver-files, as a timer does it."""
        if not self.vans or not self.desk.process:
            return
        words = [
            f"{ROOT}/bin/driver-files",
            f"{self.folder}/site",
            "--url",
            f"http://127.0.0.1:{self.desk.port}",
            "--key",
            "/dev/stdin",
            "--today",
            self.today,
        ]
        made = subprocess.run(words, input=self.keys["dispatcher"], capture_output=True, text=True)
        if made.returncode:
            raise Trouble(f"bin/driver-files: {made.stderr}")

    def file(self, name: str) -> bytes:
        """The bytes of a file of the site."""
        return Path(f"{self.folder}/site/{name}").read_bytes()

    def write_file(self, name: str, content: str | bytes | None) -> None:
        """One file of the site with these bytes, or none of this name."""
        path = f"{self.folder}/site/{name}"
        if content is None:
            with contextlib.suppress(FileNotFoundError):
                os.remove(path)
            return
        os.makedirs(os.path.dirname(path), exist_ok=True)
        Path(path).write_bytes(content if isinstance(content, bytes) else content.encode())

    # Requests beside the pages, as by another device; they go by the site.

    def answer(
        self,
        path: str,
        headers: Mapping[str, str] | None = None,
        method: str = "GET",
        body: Any = None,
    ) -> Any:
        """The reply of the site as (status, headers, text), or None."""
        unchecked = ssl._create_unverified_context()
        line = http.client.HTTPSConnection(
            "127.0.0.1", self.port, timeout=PATIENCE, context=unchecked
        )
        with contextlib.closing(line), contextlib.suppress(OSError, http.client.HTTPException):
            line.request(method, path, body, dict(headers or {}))
            reply = line.getresponse()
            return reply.status, reply.headers, reply.read().decode()
        return None

    def post(self, holder: str, path: str, fields: dict[str, Any]) -> Any:
        """The desk's reply to a write of whoever holds this key; its number is above those that a page has used."""
        for step in [1, 100, 10_000, 1_000_000, 100_000_000]:
            self.number = max(self.number + step, int(time.time()))
            sent = {"Desk-Key": self.keys[holder], "Desk-Number": str(self.number)}
            _, _, text = until(
                f"POST {path}", lambda: self.settled(path, sent, "POST", json.dumps(fields))
            )
            if "desk.number" not in text:
                break
        return json.loads(text)

    def get(self, holder: str, path: str) -> Any:
        _, headers, text = until(
            f"GET {path}", lambda: self.settled(path, {"Desk-Key": self.keys[holder]})
        )
        return json.loads(text) if "json" in headers.get("Content-Type", "") else text

    def settled(self, *request: Any) -> Any:
        reply = self.answer(*request)
        return None if reply is None or reply[0] in BUSY else reply

    def trips_of(self, rider: int) -> Any:
        return self.get("clerk", f"/riders/{rider}/trips")["trips"]

    def book(self, rider: int, day: str, wish: int, start: int, end: int, **more: Any) -> int:
        """The number of a trip that is booked beside the pages, by a clerk who is at no page."""
        fields = {
            "rider": rider,
            "day": day,
            "wish": wish,
            "from": start,
            "to": end,
            "attendant": False,
            "companions": 0,
            **more,
        }
        reply = self.post("third clerk", "/trips", fields)
        if "trip" not in reply:
            raise Trouble(f"a trip of {rider} at {wish} on {day} is {reply}")
        number: int = reply["trip"]
        return number


def write_site_files(folder: str, agency: dict[str, Any], roster: str, drivers: str) -> None:
    """By bin/site-files, as an agency does it; the worklist is a small one."""
    for name, content in [
        ("agency.json", json.dumps(agency)),
        ("roster.csv", roster),
        ("drivers.csv", drivers),
    ]:
        Path(f"{folder}/source-{name}").write_text(content, "utf-8")
    words = [
        f"{ROOT}/bin/site-files",
        f"{folder}/source-agency.json",
        "--roster",
        f"{folder}/source-roster.csv",
        "--drivers",
        f"{folder}/source-drivers.csv",
        f"{folder}/site",
    ]
    made = subprocess.run(words, capture_output=True, text=True)
    if made.returncode not in (0, 1):
        raise Trouble(f"bin/site-files: {made.stdout} {made.stderr}")
    with open(f"{folder}/site/staff/worklist.html", "w", encoding="utf-8") as text:
        text.write("<!doctype html><html lang=en><title>Worklist</title><p>Nothing waits.</p>")
