"""The desk asked by a key of a file, also through the site."""

from __future__ import annotations

import os
import types
from typing import Any, TYPE_CHECKING

from desk_tools.setup.desk import Caller, Line

if TYPE_CHECKING:
    from desk_tools.setup.desk import Reply

# How many seconds a desk that is down, or a site that is asked too much, is waited for.
PATIENCE = int(os.environ.get("PATIENCE_OF_LINE") or 60)


def line_to(url: str, certificate: Any = None) -> Line:
    """The way to the desk at an address."""
    return Line(url, certificate, PATIENCE)


class Asking:
    """A caller of the desk. A write has the number after the last one that the desk has taken of that caller."""

    def __init__(self, line: Line, path: str) -> None:
        self.line = line
        self.number: int | None = None
        self.caller = Caller(line, types.SimpleNamespace(url=line.parts.geturl()), path)

    def get(self, path: str) -> Reply:
        return self.caller.get(path)

    def post(self, path: str, body: Any) -> Reply:
        self.number = (self.caller.last_number(0) if self.number is None else self.number) + 1
        return self.line.ask("POST", path, self.caller.key, self.number, body)
