"""Reads of the desk, for tools: each reply is text, and a site that has too much to do is asked again."""

import http.client
import json
import ssl
import time
import urllib.error
import urllib.parse
import urllib.request
from pathlib import Path

SECONDS = 60.0
# Statuses after which the same is asked again: of a site that is asked too much, and of a proxy that reaches no desk.
AGAIN = {429, 502, 503, 504}
LONGEST_PAUSE = 5.0


class Refused(Exception):
    """The desk does not give this, or the words name none: one sentence."""


class NotAnswered(Exception):
    """The desk does not answer now: one sentence."""


def key_in(path: Path) -> str:
    """The key in a file of one line."""
    try:
        key = path.read_text(encoding="ascii").strip()
    except (OSError, ValueError) as error:
        raise Refused(f"{path}: {getattr(error, 'strerror', None) or 'no key'}") from None
    if not key or not key.isprintable():
        raise Refused(f"{path} holds no key: a key is one line")
    return key


class Desk:
    """A desk at an address, asked with one key."""

    def __init__(
        self, url: str, key: str, certificate: str | None = None, patience: float = 60.0
    ) -> None:
        parts = urllib.parse.urlsplit(url)
        if parts.scheme not in ("http", "https") or not parts.hostname:
            raise Refused(f"{url} is no address such as http://127.0.0.1:8437")
        self.url, self.key, self.patience = url.rstrip("/"), key, patience
        is_tls = parts.scheme == "https"
        try:
            self.context = ssl.create_default_context(cafile=certificate) if is_tls else None
        except (OSError, ssl.SSLError) as error:
            raise Refused(f"{certificate}: {error.strerror or 'no certificate'}") from None

    def get(self, path: str) -> str | None:
        """The reply to a read, or None where the desk has nothing there."""
        end, pause = time.monotonic() + self.patience, 0.2
        while True:
            try:
                return self._asked(path)
            except NotAnswered:
                if time.monotonic() + pause > end:
                    raise
            time.sleep(pause)
            pause = min(2 * pause, LONGEST_PAUSE)

    def _asked(self, path: str) -> str | None:
        request = urllib.request.Request(f"{self.url}{path}", headers={"Desk-Key": self.key})
        try:
            with urllib.request.urlopen(request, timeout=SECONDS, context=self.context) as reply:
                return str(reply.read().decode("utf-8"))
        except urllib.error.HTTPError as error:
            if error.code == 404:
                return None
            if error.code in AGAIN:
                raise NotAnswered(f"{self.url} answers with status {error.code}") from None
            raise Refused(
                f"the desk answers {path} with {error.code}: {refusal_in(error)}"
            ) from None
        except (OSError, http.client.HTTPException) as error:
            said = getattr(error, "reason", None) or error
            raise NotAnswered(f"{self.url} does not answer ({said})") from None
        except ValueError as error:
            raise Refused(f"the desk's reply to {path} is not of its form: {error}") from None


def refusal_in(error: urllib.error.HTTPError) -> str:
    """Why the desk refused, as far as it said so."""
    try:
        return str(json.loads(error.read())["denied"])
    except (OSError, ValueError, KeyError, TypeError):
        return str(error.reason)
