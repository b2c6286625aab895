"""The site's log as the older tools read it: each event a tuple of its fields, by its kind.

`desk_tools.event_log` reads the lines, and `desk_tools.events` has the fields of each kind.
"""

from __future__ import annotations

import collections
from typing import Any, NamedTuple

from desk_tools import event_log, events
from desk_tools.setup.limits import Wrong

EVENTS = events.EVENTS
RIDER, AGENCY = "rider", "agency"
# Lines that name no channel are of a time when the pages alone told denials.
PAGE = "page"
# `received` is when the site had it, by the site's clock; `at` is when it was, by the clock of who told it; `told_by`
# is whose key told it, and empty in older lines.
RENAMED = {"from": "window_from", "to": "window_to"}
NAMES = {
    kind: [RENAMED.get(it, it) for it in event.all_fields if it != "id"]
    for kind, event in EVENTS.items()
}
TUPLES: dict[str, Any] = {
    kind: collections.namedtuple("Told", ["id", "received", *names, "told_by"])
    for kind, names in NAMES.items()
}


class Log(NamedTuple):
    """What the site's logs hold."""

    denials: Any
    stops: Any
    cancellations: Any
    broken: Any
    of: dict[str, list[Any]]
    events: Any


def read(paths: list[str]) -> Log:
    """What logs hold, each id once, in the order in which the site had them."""
    try:
        log = event_log.read(paths)
    except event_log.UnreadableLog as error:
        raise Wrong(str(error)) from None
    of: dict[str, list[Any]] = {kind: [] for kind in EVENTS}
    for it in log.events:
        of[it.kind].append(told_of(it))
    return Log(of["denials"], of["stops"], of["cancellations"], log.broken, of, log.events)


def told_of(it: event_log.Told) -> Any:
    """The tuple of an event."""
    key, *fields = it.fields.values()
    found = TUPLES[it.kind](key, it.received, *fields, it.by)
    return found._replace(channel=PAGE) if it.kind == "denials" and found.channel is None else found
