"""A line of the record as deploy/journal.lua and nginx write it, read back."""

import base64
import binascii
import json
import re
from dataclasses import dataclass
from datetime import datetime, timedelta, timezone
from typing import Any

DONE, UNKNOWN_FROM = 200, 499
# Paths by which the desk takes writes; others are the site's own.
OF_DESK = re.compile(r"/(callers|policy|places|routes|vehicles|riders|trips)(/|$)")
MOMENT = re.compile(r"\d{4}-\d\d-\d\dT\d\d:\d\d:\d\d\.\d{3}Z")
# The moment of a request, as the site writes it: seconds since 1970.
SECONDS = re.compile(r"(\d{9,11})\.(\d{3})")
EPOCH = datetime(1970, 1, 1, tzinfo=timezone.utc)


@dataclass(frozen=True)
class Line:
    """One request. `at` is when it ended, in UTC; `took` is in seconds; `body` is None where none is kept."""

    place: int
    at: datetime
    door: str
    address: str
    who: str
    number: int | None
    method: str
    path: str
    read: str
    status: int
    took: float
    body: bytes | None
    reply: str
    is_whole: bool
    # The other site whose record has the line; empty for this machine's own.
    site: str = ""

    @property
    def began(self) -> datetime:
        """When the request came in."""
        return self.at - timedelta(seconds=self.took)

    @property
    def is_write(self) -> bool:
        """Whether it asked the desk to change something."""
        return (
            self.method in ("POST", "TRAVEL")
            and OF_DESK.match(self.path + "/") is not None
            or (self.method == "TRAVEL")
        )

    @property
    def is_done(self) -> bool:
        """Whether it is a write that the desk accepted."""
        return self.is_write and self.status == DONE

    @property
    def fields(self) -> dict[str, Any]:
        """The fields of the body, or none where it is no JSON object."""
        return object_of(self.body or b"")

    @property
    def answer(self) -> dict[str, Any]:
        """The fields of the desk's reply to a write, or none."""
        return object_of(self.reply.encode())


def object_of(content: bytes) -> dict[str, Any]:
    """The JSON object of these bytes; an empty one where they are none."""
    try:
        found = json.loads(content.decode("utf-8", "surrogateescape"))
    except (ValueError, RecursionError):
        return {}
    return found if isinstance(found, dict) else {}


def text_of(fields: dict[str, Any], name: str) -> str:
    """A field that is a text, or an empty one."""
    value = fields.get(name)
    return value if isinstance(value, str) else ""


def moment_of(text: str) -> datetime:
    """The moment, in UTC; ValueError where the text is none."""
    seconds = SECONDS.fullmatch(text)
    if seconds:
        return EPOCH + timedelta(seconds=int(seconds[1]), milliseconds=int(seconds[2]))
    if not MOMENT.fullmatch(text):
        raise ValueError(text)
    return datetime.strptime(text, "%Y-%m-%dT%H:%M:%S.%fZ").replace(tzinfo=timezone.utc)


def told(moment: datetime) -> str:
    """The moment as a line has it."""
    return moment.astimezone(timezone.utc).strftime("%Y-%m-%dT%H:%M:%S.%f")[:-3] + "Z"


def body_of(fields: dict[str, Any]) -> bytes | None:
    """The bytes of the body that a line keeps."""
    if "body64" in fields:
        return base64.b64decode(text_of(fields, "body64"), validate=True)
    return text_of(fields, "body").encode("utf-8", "surrogatepass") if "body" in fields else None


def of_fields(place: int, fields: dict[str, Any]) -> Line | None:
    """The line with these fields, or None where they are none of a request."""
    number = text_of(fields, "number")
    try:
        return Line(
            place=place,
            at=moment_of(text_of(fields, "at")),
            door=text_of(fields, "door"),
            address=text_of(fields, "from"),
            who=text_of(fields, "who") or "-",
            number=int(number) if number.isdecimal() else None,
            method=text_of(fields, "method"),
            path=text_of(fields, "path"),
            read=text_of(fields, "read") or text_of(fields, "path"),
            status=int(fields["status"]),
            took=max(0.0, float(fields["took"])),
            body=body_of(fields),
            reply=text_of(fields, "reply"),
            is_whole="bytes" not in fields and "hidden" not in fields,
        )
    except (KeyError, TypeError, ValueError, OverflowError, binascii.Error):
        return None


def read(place: int, content: bytes) -> Line | None:
    """The line of these bytes, or None where they are none."""
    return of_fields(place, object_of(content))
