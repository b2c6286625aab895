"""What people open in a browser: the agency's files as the site serves them, and nginx or the proxy before the desk."""

from __future__ import annotations

import http.client
import json
import os
import re
import shutil
import socket
import subprocess
import sys
import threading
import time
from pathlib import Path
from typing import Any

from desk_tools.demo import building, proxy
from desk_tools.demo.serving import end, Trouble

SITE, NGINX, TALLY, WAITING = "site", "nginx", "nginx/tally.log", "staff/worklist.html"
DAY, NO_SHOWS = "staff/today.json", "staff/no-shows.json"
# Lines of the site that only TLS has a use for.
OF_TLS = re.compile(
    r"^ *(ssl_\w+|http2_\w+|add_header Strict-Transport-Security) .*;\n", re.MULTILINE
)
SSL = re.compile(r"^ *(listen .*ssl|ssl_)", re.MULTILINE)
HEADER = re.compile(r'^    add_header (\S+) (?:"([^"$]+)"|([^"$;]+)) always;$', re.MULTILINE)
PATIENCE = 20


def derive(top: str, folder: str, is_unproved: bool) -> None:
    """Makes the files that the site serves, as bin/site-files does for an agency."""
    words = [
        f"{top}/bin/site-files",
        f"{folder}/{building.AGENCY}",
        "--roster",
        f"{folder}/{building.ROSTER}",
        "--drivers",
        f"{folder}/{building.DRIVERS}",
        f"{folder}/{SITE}",
    ]
    ran = subprocess.run(words, capture_output=True, text=True, check=False)
    if ran.returncode:
        raise Trouble(f"the agency's files were not taken: {ran.stderr.strip().splitlines()[0]}")
    public = f"{folder}/{SITE}/agency.json"
    served = json.loads(Path(public).read_text("utf-8"))
    if is_unproved and served.get("unproved") is not True:
        building.write_text(
            public, json.dumps({**served, "unproved": True}, ensure_ascii=False) + "\n"
        )


class DriversFiles:
    """Makes the files of each van's driver, and makes them anew every two minutes, as desk-driver-files.timer does."""

    PAUSE = 120

    def __init__(self, top: str, folder: str, key: str, desk_port: int) -> None:
        self.env = {**os.environ, "PYTHONPATH": f"{top}/python", "PYTHONDONTWRITEBYTECODE": "1"}
        self.words = [sys.executable, "-m", "desk_tools.driver_files", f"{folder}/{SITE}"]
        self.words += ["--url", f"http://127.0.0.1:{desk_port}", "--key", "/dev/stdin"]
        self.key, self.ended = key, threading.Event()
        self.make()
        threading.Thread(target=self.go_on, daemon=True).start()

    def make(self) -> None:
        subprocess.run(
            self.words, input=self.key, text=True, capture_output=True, env=self.env, check=False
        )

    def go_on(self) -> None:
        while not self.ended.wait(self.PAUSE):
            self.make()

    def has_ended(self) -> bool:
        return False

    def stop(self) -> None:
        self.ended.set()


def list_waiting(top: str, folder: str, work: str, program: str) -> None:
    """Makes the page of what waits, by the program of the office. Where the file cannot be read, the desk says so when it opens it."""
    copy = f"{work}/copy.db"
    for end_of_name in "", "-wal":
        if os.path.exists(f"{folder}/{building.DATABASE}{end_of_name}"):
            shutil.copy(f"{folder}/{building.DATABASE}{end_of_name}", f"{copy}{end_of_name}")
    words = [f"{top}/bin/worklist", copy, "--html", f"{folder}/{SITE}/{WAITING}"]
    words += [
        "--agency",
        f"{folder}/{building.AGENCY}",
        "--roster",
        f"{folder}/{building.ROSTER}",
        "--program",
        program,
    ]
    # (before its first day the office has no log)
    words += ["--tally", f"{folder}/{TALLY}"] if os.path.exists(f"{folder}/{TALLY}") else []
    subprocess.run(words, capture_output=True, stdin=subprocess.DEVNULL, check=False)


def need_port(port: int) -> int:
    """Sees that nobody else has the port."""
    with socket.socket() as tried:
        tried.setsockopt(socket.SOL_SOCKET, socket.SO_REUSEADDR, 1)
        try:
            tried.bind(("127.0.0.1", port))
        except OSError as error:
            raise Trouble(
                f"the port {port} cannot be had ({error.strerror}); name another one with --port, "
                "or 0 for any that is free"
            ) from None
        return int(tried.getsockname()[1])


def of_loopback(top: str, folder: str, port: int, desk_port: int, pages: str) -> str | None:
    """nginx's settings: the site of deploy/ without TLS on one port, or None where that site is not as expected."""
    words = [
        f"{top}/deploy/site",
        "--trial",
        f"{folder}/{NGINX}",
        "--desk",
        desk_port,
        "--tls",
        port,
        "--pages",
        pages,
        "--files",
        f"{folder}/{SITE}",
    ]
    ran = subprocess.run(list(map(str, words)), capture_output=True, text=True, check=False)
    text = OF_TLS.sub("", ran.stdout)
    text, listens = re.subn(
        rf"listen 127\.0\.0\.1:{port} [^;]*;", f"listen 127.0.0.1:{port};", text
    )
    # The last server only sends browsers on from port 80 to TLS.
    text, redirects = re.subn(
        r"\nserver \{(?:(?!\nserver \{).)*?return 301 https.*?\n\}\n", "\n", text, flags=re.DOTALL
    )
    return (
        f"daemon off;\n{text}" if listens == 1 and redirects == 1 and not SSL.search(text) else None
    )


class Nginx:
    """nginx, which runs as the one who started the office, with files in the office's folder alone."""

    def __init__(self, text: str, folder: str) -> None:
        room = f"{folder}/{NGINX}"
        building.write_text(f"{room}/nginx.conf", text)
        self.said = f"{room}/said", f"{room}/nginx.log"
        with open(self.said[0], "wb") as said:
            self.process = subprocess.Popen(
                [nginx_path() or "nginx", "-e", self.said[1], "-c", f"{room}/nginx.conf"],
                stdout=said,
                stderr=said,
                stdin=subprocess.DEVNULL,
                start_new_session=True,
            )

    def has_ended(self) -> bool:
        return self.process.poll() is not None

    def why(self) -> Any:
        for path in self.said:
            if os.path.exists(path):
                with open(path, encoding="utf-8", errors="replace") as file:
                    lines = [it for it in file.read().splitlines() if "emerg" in it]
                if lines:
                    return lines[-1]
        return "it says nothing"

    def stop(self) -> None:
        end(self.process)


class Day:
    """What makes the file of the day out of the log of counts."""

    def __init__(self, top: str, folder: str) -> None:
        served = f"{folder}/{SITE}"
        os.makedirs(f"{served}/staff", exist_ok=True)
        words = [
            f"{top}/deploy/today",
            f"{folder}/{TALLY}",
            f"{served}/{DAY}",
            "--no-shows",
            f"{served}/{NO_SHOWS}",
            "--agency",
            f"{served}/agency.json",
        ]
        self.process = subprocess.Popen(
            words,
            stdout=subprocess.DEVNULL,
            stderr=subprocess.DEVNULL,
            stdin=subprocess.DEVNULL,
            start_new_session=True,
        )

    def stop(self) -> None:
        end(self.process)


def nginx_path() -> str | None:
    return shutil.which("nginx", path=f"{os.environ.get('PATH', '')}:/usr/sbin:/usr/local/sbin")


def headers_of(top: str) -> dict[str, str]:
    """The headers that the site gives with each reply, without those that TLS or nginx's variables have a part in."""
    found = HEADER.findall(Path(f"{top}/deploy/desk.nginx").read_text("utf-8"))
    return {
        name: quoted or plain
        for name, quoted, plain in found
        if name != "Strict-Transport-Security"
    }


def start(
    top: str, folder: str, pages: str, port: int, desk_port: int, by_proxy: bool
) -> tuple[proxy.Office | Nginx, bool]:
    """Starts what is before the desk, and says whether that is nginx. Whoever stops it calls `stop`."""
    os.makedirs(f"{folder}/{NGINX}", exist_ok=True)
    config = (
        None if by_proxy or not nginx_path() else of_loopback(top, folder, port, desk_port, pages)
    )
    if config:
        before: Nginx | proxy.Office = Nginx(config, folder)
    else:
        before = proxy.Office(
            port, desk_port, pages, f"{folder}/{SITE}", f"{folder}/{TALLY}", headers_of(top)
        )
    wait_for_pages(before, port)
    return before, bool(config)


def wait_for_pages(before: proxy.Office | Nginx, port: int) -> None:
    """Waits until the first page comes."""
    finish = time.monotonic() + PATIENCE
    while time.monotonic() < finish and not before.has_ended():
        line = http.client.HTTPConnection("127.0.0.1", port, timeout=PATIENCE)
        try:
            line.request("GET", "/")
            if line.getresponse().status == 200:
                return
        except (OSError, http.client.HTTPException):
            pass
        finally:
            line.close()
        time.sleep(0.05)
    why = before.why() if hasattr(before, "why") else "no page comes"
    before.stop()
    raise Trouble(f"the pages are not served on port {port}: {why}")
