"""Tells the site events, for programs: each is sent until the site has it, with pauses that grow."""

import http.client
import re
import socket
import ssl
import time
import urllib.parse
from collections.abc import Iterable, Iterator

SECONDS_OF_A_TRY = 20.0
PAUSES = (0.5, 2.0)
KEPT = 204
LATER = {0, 401, 408, 425, 429, 500, 502, 503, 504}
HERE = re.compile(r"([A-Za-z0-9.-]+)(?:@([0-9A-Za-z.-]*)(?::([0-9]+))?)?")


class UnknownSite(Exception):
    """Words that name no site: one sentence."""


class Site:
    """The site of an address, https://desk.example.org, or that of this machine by its name, desk.example.org.

    The site of this machine is asked on 127.0.0.1:443, or where NAME@ADDRESS:PORT says, and its certificate is not
    looked at, since no line leaves the machine.
    """

    def __init__(self, where: str, key: str, certificate: str | None = None) -> None:
        self.key, self.where = key, where
        parts, here = urllib.parse.urlsplit(where), HERE.fullmatch(where)
        if parts.scheme in ("http", "https") and parts.hostname:
            self.name, self.is_tls = parts.hostname, parts.scheme == "https"
            self.address, self.port = parts.hostname, parts.port or (443 if self.is_tls else 80)
            self.context = ssl.create_default_context(cafile=certificate)
        elif here:
            self.name, self.is_tls = here[1], True
            is_named = here[2] not in (None, "", "none")
            self.address = here[2] if is_named else "127.0.0.1"
            self.port = int(here[3] or 443) if is_named else 443
            self.context = ssl.create_default_context()
            self.context.check_hostname, self.context.verify_mode = False, ssl.CERT_NONE
        else:
            raise UnknownSite(f"{where} is no site such as https://desk.example.org")

    def tell_once(self, path: str) -> int:
        """The site's status, 0 where it does not answer."""
        try:
            line = http.client.HTTPConnection(self.name, self.port, timeout=SECONDS_OF_A_TRY)
            line.sock = self._connected()
            try:
                line.request("POST", path, headers={"Desk-Key": self.key, "Content-Length": "0"})
                return line.getresponse().status
            finally:
                line.close()
        except (OSError, http.client.HTTPException):
            return 0

    def _connected(self) -> socket.socket:
        plain = socket.create_connection((self.address, self.port), SECONDS_OF_A_TRY)
        return self.context.wrap_socket(plain, server_hostname=self.name) if self.is_tls else plain

    def tell(self, paths: Iterable[str]) -> Iterator[tuple[str, int]]:
        """Each path with the site's last status for it; the first one without an answer is the last one."""
        for path in paths:
            status = self.tell_once(path)
            for pause in PAUSES:
                if status not in LATER:
                    break
                time.sleep(pause)
                status = self.tell_once(path)
            yield path, status
            if status in LATER:
                return
