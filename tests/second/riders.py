"""Records of riders."""

from __future__ import annotations

from typing import TYPE_CHECKING, Any, NamedTuple

from second.replies import Denied

if TYPE_CHECKING:
    from second.desk import Desk

MOST_RIDERS = 100_000


class Rider(NamedTuple):
    """A rider's record."""

    kind: str
    attendant: bool
    wheelchair: bool


def put(desk: Desk, values: dict[str, Any]) -> None:
    there = desk.riders.get(values["id"])
    if there and there.kind != values["kind"]:
        raise Denied("desk.exists")
    if not there and len(desk.riders) >= MOST_RIDERS:
        raise Denied("desk.full")
    desk.riders[values["id"]] = Rider(values["kind"], values["attendant"], values["wheelchair"])


def need(desk: Desk, number: int) -> Rider:
    if number not in desk.riders:
        raise Denied("desk.unknown")
    return desk.riders[number]
