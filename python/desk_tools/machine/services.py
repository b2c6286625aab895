"""The units that a setup starts, and their state before it, so that they can be put back."""
import contextlib
import http.client
import json
import os
import socket
import ssl
import subprocess
import time
from typing import Any

from desk_tools.machine.changes import run
from desk_tools.machine.settings import Failure, NIGHTLY
from desk_tools.machine.settings import Settings
from desk_tools import agencies
from desk_tools.ops import answering

MAIN = agencies.Agency()
DESK, SITE, CLOCK = f"{MAIN.unit}.service", "nginx.service", "systemd-time-wait-sync.service"
ALWAYS = [DESK, *agencies.UNITS_OF_MACHINE, *MAIN.beside]
SECONDS_OF_SITE = 30


def has_systemd() -> bool:
    return os.path.isdir("/run/systemd/system")


def is_so(verb: str, unit: str) -> bool:
    return (
        subprocess.run(
            ["systemctl", "--quiet", verb, unit], check=False, capture_output=True
        ).returncode
        == 0
    )


def need_port(port: str) -> None:
    """Sees that no other program than nginx has the site's port."""
    with socket.socket() as tried:
        tried.setsockopt(socket.SOL_SOCKET, socket.SO_REUSEADDR, 1)
        try:
            tried.bind(("", int(port)))
        except OSError as error:
            with contextlib.suppress(OSError, ValueError):
                with open("/run/nginx.pid", encoding="ascii") as file:
                    os.kill(int(file.read()), 0)
                return
            raise Failure(
                f"the port {port} cannot be had ({error.strerror}): name another one by --port"
            ) from None


def agency_at(port: int, name: str) -> Any:
    """The agency's name at the site of this name on a port of this machine."""
    context = ssl.create_default_context()
    context.check_hostname, context.verify_mode = False, ssl.CERT_NONE
    with socket.create_connection(("127.0.0.1", port), 10) as line:
        with context.wrap_socket(line, server_hostname=name) as wrapped:
            wrapped.sendall(f"GET /agency.json HTTP/1.0\r\nHost: {name}\r\n\r\n".encode())
            reply = http.client.HTTPResponse(wrapped)
            reply.begin()
            return json.load(reply).get("name")


class Services:
    """What runs by itself for one agency."""

    def __init__(self, settings: Settings) -> None:
        timers = {
            MAIN.unit_of(f"{it}.timer"): it in settings["nightly"].split(", ") for it in NIGHTLY
        }
        timers["desk-acme.timer"] = bool(settings["acme"])
        self.wanted = [*ALWAYS, *[it for it, is_wanted in timers.items() if is_wanted]]
        self.others = [it for it, is_wanted in timers.items() if not is_wanted]
        self.enabled = {it: is_so("is-enabled", it) for it in [*self.wanted, *self.others]}
        self.was_up = is_so("is-active", DESK)
        self.had_site = is_so("is-enabled", SITE)

    def start(self) -> None:
        run("systemctl", "daemon-reload")
        run("systemctl", "enable", "--now", *self.wanted)
        if self.others:
            run("systemctl", "disable", "--now", *self.others)
        # The timers' hours are the agency's, which may be others than before; and what runs has the code of before an upgrade.
        run("systemctl", "restart", *self.wanted)
        # The clock is waited for at a start of the machine, where this machine has the unit for it.
        subprocess.run(["systemctl", "--quiet", "enable", CLOCK], check=False, capture_output=True)
        self.wait_for_desk()

    def wait_for_desk(self) -> None:
        """Until the desk serves."""
        try:
            answering.wait_until_it_serves(DESK, int(agencies.PORT))
        except answering.NotServing as failure:
            raise Failure(str(failure)) from None

    def start_site(self, settings: Settings) -> None:
        """Until nginx serves this agency's site."""
        run("systemctl", "enable", SITE)
        run("systemctl", "reload-or-restart", SITE)
        end = time.monotonic() + SECONDS_OF_SITE
        while time.monotonic() < end:
            with contextlib.suppress(OSError, ValueError):
                if agency_at(int(settings["port"]), settings["name"]) == settings["agency"]:
                    return
            time.sleep(0.2)
        raise Failure(
            f"nginx does not serve the site on port {settings['port']}: journalctl -u nginx says why"
        )

    def stop_new(self) -> None:
        """Ends and disables what was not enabled before."""
        new = [it for it, was in {**self.enabled, SITE: self.had_site}.items() if not was]
        if new:
            subprocess.run(
                ["systemctl", "--quiet", "disable", "--now", *new], check=False, capture_output=True
            )

    def go_back(self) -> None:
        """Has what ran before run again, by the files that are there again."""
        old = [it for it, was in self.enabled.items() if was]
        words = [
            ["daemon-reload"],
            ["enable", "--now", *old] if old else [],
            ["restart", DESK] if self.was_up else [],
        ]
        for it in filter(None, [*words, ["try-reload-or-restart", SITE]]):
            subprocess.run(["systemctl", "--quiet", *it], check=False, capture_output=True)
