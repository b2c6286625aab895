"""The site's files of addresses, and which address of a place a trip means (docs/SITE-FILES.md).

A rider's home is shown to staff and to that rider. An address at a private place is no less private
than the place. No file that riders may read has a note.
"""

import json
from collections.abc import Mapping, Sequence
from dataclasses import dataclass
from pathlib import Path
from typing import Any

from desk_tools.town import addresses as tables
from desk_tools.town.addresses import Address

Private = bool | int | list[int]
NAME = "addresses.json"
ENDS = ("from", "to")


def name_of_homes(place: int) -> str:
    """The name of a place that `move-in gather` made for homes alone: it tells nobody where that is."""
    return f"Area {place}"


def name_near(street: str) -> str:
    """The name of a place that `move-in gather` made for addresses of which some are no homes."""
    return f"Near {street}"


@dataclass(frozen=True)
class Shown:
    """An address as the files have it, and who may read of it: everybody, staff alone, or some riders too."""

    fields: dict[str, Any]
    riders: tuple[int, ...]
    is_public: bool


def checked(
    addresses: Sequence[Address], places: Mapping[int, Private]
) -> tuple[list[Address], list[str]]:
    """The addresses that stand at a place of the agency, and what is wrong with the others."""
    right, faults = [], []
    for it in addresses:
        if it.place in places:
            right.append(it)
        else:
            lacks = "it has no place" if it.place is None else f"there is no place {it.place}"
            faults.append(f"row {it.row}: {lacks}, so it is left out")
    return right, faults


def shown(address: Address, private: Private) -> Shown:
    """An address with who may read of it."""
    fields: dict[str, Any] = {
        "id": address.number,
        "street": address.street,
        "place": address.place,
    }
    if address.note:
        fields["note"] = address.note
    if address.position:
        fields["latitude"], fields["longitude"] = (round(it, 6) for it in address.position)
    if address.riders:
        return Shown({**fields, "riders": [*address.riders]}, address.riders, False)
    if isinstance(private, bool):
        return Shown(fields, (), not private)
    whose = tuple(private) if isinstance(private, list) else (private,)
    return Shown(fields, whose, False)


def texts_of(addresses: Sequence[Address], places: Mapping[int, Private]) -> dict[str, str]:
    """Each file's text by its path in the site's folder."""
    all_ = [shown(it, places[it.place or 0]) for it in addresses]
    texts = {
        f"staff/{NAME}": text([it.fields for it in all_]),
        NAME: text([without_note(it.fields) for it in all_ if it.is_public]),
    }
    own: dict[int, list[dict[str, Any]]] = {}
    for it in all_:
        for rider in it.riders:
            fields = without_note(it.fields)
            own.setdefault(rider, []).append(
                {**fields, "riders": [rider]} if "riders" in fields else fields
            )
    return texts | {f"own/{rider}/{NAME}": text(own[rider]) for rider in sorted(own)}


def without_note(fields: dict[str, Any]) -> dict[str, Any]:
    """What a rider may read."""
    return {name: it for name, it in fields.items() if name != "note"}


def text(addresses: list[dict[str, Any]]) -> str:
    """A file's text: an address a line."""
    lines = ",\n".join(f" {json.dumps(it, ensure_ascii=False)}" for it in addresses)
    return f'{{"addresses": [\n{lines}\n]}}\n' if addresses else '{"addresses": []}\n'


@dataclass(frozen=True)
class End:
    """One end of a trip: its rider and its place, as the desk has them."""

    rider: int
    place: int


class Known:
    """The addresses of staff/addresses.json."""

    def __init__(self, addresses: Sequence[Mapping[str, Any]]) -> None:
        self.by_number = {it["id"]: it for it in addresses if "id" in it and "place" in it}
        self.homes: dict[End, list[Mapping[str, Any]]] = {}
        self.streets: dict[int, set[str]] = {}
        for it in self.by_number.values():
            self.streets.setdefault(it["place"], set()).add(str(it.get("street", "")))
            for rider in it.get("riders", []):
                self.homes.setdefault(End(rider, it["place"]), []).append(it)

    def meant(self, end: End, number: object) -> Mapping[str, Any] | None:
        """The address of an end: the one that the booking named, if it is at that place; else the
        rider's only home there; else none.
        """
        named = self.by_number.get(number) if isinstance(number, int) else None
        if named is not None and named["place"] == end.place:
            return named
        homes = self.homes.get(end, [])
        return homes[0] if len(homes) == 1 else None

    def read_by_rider(self, end: End, name: str, number: object = None) -> str:
        """Where an end is, as its rider reads it: the street of the address that is meant, and the place's own name if it has one.

        A home goes by its street alone. It is empty where nothing but the name of a group is known.
        """
        address = self.meant(end, number)
        if address is None:
            return "" if name == name_of_homes(end.place) else name
        street = str(address.get("street", ""))
        if address.get("riders") or not name or self._is_group(end.place, name):
            return street
        return f"{street}, {name}"

    def mailing(self, rider: int, home: int | None, name: str) -> str:
        """The address to which a rider's letters go: the home at the place that the roster names, or the only one.

        A place at which no addresses are goes by its own name. It is empty where the home is not known.
        """
        homes = [
            it
            for end, those in self.homes.items()
            if end.rider == rider and home in (None, end.place)
            for it in those
        ]
        if len(homes) == 1:
            return str(homes[0].get("street", ""))
        is_own = home is not None and home not in self.streets and name != name_of_homes(home)
        return name if is_own else ""

    def _is_group(self, place: int, name: str) -> bool:
        """Whether a place has no name of its own, but one that `move-in gather` gave it, or that of an address there."""
        streets = self.streets.get(place, set())
        near = {name_near(it) for it in streets}
        return name == name_of_homes(place) or name in streets | near


def known_in(path: Path) -> tuple[Known, list[str]]:
    """The addresses of the agency's own table, and a sentence for each row that is wrong.

    Raises sheets.Unreadable for a file that is no such table.
    """
    found, sheet = tables.read(path, None)
    return Known([shown(it, False).fields for it in found]), tables.listed(sheet.refused)
