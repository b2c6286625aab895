"""The command that groups addresses into places: its folder's files, and what it prints. The rest is desk_tools.town."""

from __future__ import annotations

import argparse
import contextlib
import datetime
import functools
import os
import pathlib
import sys
from collections.abc import Callable, Mapping
from typing import Any, TYPE_CHECKING

from desk_tools.setup import carry, plane as geometry, whole_file
from desk_tools.setup import tables
from desk_tools.setup.limits import DONE, MOST_PLACES, SOME_REFUSED, Wrong
from desk_tools.town import (
    addresses,
    cells,
    conditional,
    corridor,
    joining,
    people as cutting,
    places,
    sheets,
)

if TYPE_CHECKING:
    from desk_tools.town.gather import Gathered

# Debian's Python has Debian's numpy; another one may come first on the path.
PYTHON = "/usr/bin/python3"
PACKAGES = {"osmium": "pyosmium"}
MAP, PLACES, ADDRESSES, REFUSED = (
    "gathered.svg",
    "gathered-places.csv",
    "gathered-addresses.csv",
    "refused-gather.csv",
)


def gather(words: argparse.Namespace) -> int:
    """Groups the addresses of a table."""
    needs("numpy")
    from desk_tools.town import drawing, gather as town

    try:
        agency, plane = carry.kept_agency(words.folder), geometry.kept_plane(words.folder)
        progress = carry.Progress("addresses read", 1, after=2)
        show = functools.partial(shown, progress)
        read, sheet = addresses.read(pathlib.Path(words.csv), plane, show)
        grants, faults = grants_of(words.riders)
        known = town.Town(
            places_of(agency),
            corridor.lines_of(agency["routes"]),
            plane,
            words.speed,
            words.detour,
            words.serve_outside,
            words.most,
            grants,
        )
        found = town.gathered(known, read, show)
        progress.end()
    except sheets.Unreadable as error:
        raise Wrong(str(error)) from None
    refuse(sheet, found)
    unread = [f"the column {it} is not read" for it in sheet.header if it not in addresses.COLUMNS]
    print("\n".join([f"note: {it}" for it in [*unread, *sheet.notes]] + town.told(known, found)))
    for line in [*faults, *addresses.listed(sheet.refused)]:
        print(f"  refused: {line}")
    map_, refused = (
        drawing.drawn(found, known.lines),
        addresses.refused_text(sheet) if sheet.refused else None,
    )
    if words.plan:
        put(words, {MAP: map_}, refused)
    else:
        with whole_file.alone(f"{words.folder}/{PLACES}"):
            put(
                words,
                {
                    MAP: map_,
                    PLACES: town.places_text(found),
                    ADDRESSES: addresses.text_of(found.addresses),
                },
                refused,
            )
    return SOME_REFUSED if sheet.refused or faults else DONE


def grants_of(path: str | None) -> tuple[conditional.Grants, list[str]]:
    """By rider the conditions of the grant, out of a table of riders, and a sentence for each row that is wrong."""
    if not path:
        return {}, []
    sheet = sheets.read(pathlib.Path(path), cutting.COLUMNS)
    sheets.require(sheet, ("number",), cutting.COLUMNS)
    found: dict[int, tuple[str, ...]] = {}
    faults = [(it.number, it.reason) for it in sheet.refused]
    for row in sheet.rows:
        try:
            number = tables.value_of("number", tables.NUMBER, row.fields)
            found[number] = tables.value_of(
                "conditions", tables.COLUMNS["riders"]["conditions"], row.fields
            )
        except ValueError as error:
            faults.append((row.number, str(error)))
    return found, [f"{path}, row {number}: {said}" for number, said in sorted(faults)]


def denial_of(
    known: list[places.Place], lines: list[corridor.Line]
) -> Callable[[addresses.Address, tuple[str, ...]], str]:
    """Why a grant would not hold at an address's place as at the address, as `people` asks it."""
    points = {it.number: it.point for it in known}

    def deny(address: addresses.Address, conditions: tuple[str, ...]) -> str:
        if not conditions or address.point is None or address.place not in points:
            return ""
        line = conditional.line_that_denies(address.point, points[address.place], conditions, lines)
        said = f"the grant ({'; '.join(conditions)}) counts from place {address.place}, and by {line.name or line.number if line else ''} it holds there less than at {address.street}"
        return f"{said}: run gather with --riders, or put a place there" if line else ""

    return deny


def needs(package: str) -> None:
    """Goes on under Debian's Python where this one lacks a package of Debian."""
    # (its threads would only wait for each other where the machine is busy)
    os.environ.setdefault("OPENBLAS_NUM_THREADS", "1")
    try:
        __import__(package)
    except ImportError:
        if os.path.realpath(sys.executable) == os.path.realpath(PYTHON) or not os.path.exists(
            PYTHON
        ):
            name = PACKAGES.get(package, package)
            raise Wrong(
                f"this takes the package python3-{name}: apt install python3-{name}"
            ) from None
        os.execv(PYTHON, [PYTHON, *sys.orig_argv[1:]])


def read_addresses(
    path: pathlib.Path, plane: geometry.Plane | None
) -> tuple[list[addresses.Address], sheets.Sheet]:
    """The addresses of a table, with a line that says how far the reading is."""
    progress = carry.Progress("addresses read", 1, after=2)
    found = addresses.read(path, plane, functools.partial(shown, progress))
    progress.end()
    return found


def shown(progress: carry.Progress, done: int, total: int, what: str = "places tried") -> None:
    progress.what, progress.total = what, total
    progress.show(done)


def places_of(agency: carry.Agency) -> list[places.Place]:
    """The places that stand, as far as their points are known."""

    def whose(private: Any) -> Any:
        return (
            private
            if isinstance(private, bool)
            else tuple(private)
            if isinstance(private, list)
            else (private,)
        )

    known = [(number, it) for number, it in agency["places"].items() if "x" in it]
    if len(known) > MOST_PLACES:
        raise Wrong(f"agency.json has {len(known)} places, and the desk takes {MOST_PLACES}")
    return [
        places.Place(
            int(number),
            it.get("name", ""),
            (it["x"], it["y"]),
            it.get("core", False),
            whose(it["private"]) if it.get("private") else (),
        )
        for number, it in known
    ]


def refuse(sheet: sheets.Sheet, found: Gathered) -> None:
    """The rows that are refused since no place is right for them stand with the others, whole."""
    rows = {it.number: it for it in sheet.rows}
    sheet.refused += [type(it)(it.number, it.reason, rows[it.number].cells) for it in found.refused]
    sheet.refused.sort(key=lambda it: it.number)


def put(
    words: argparse.Namespace, texts: Mapping[str, str], refused: str | None, back: str = REFUSED
) -> None:
    """Writes the files, each whole; a plan writes the map alone. Those of an earlier run go first: a run that is
    cut off leaves none that do not belong together.
    """
    try:
        for name in texts:
            with contextlib.suppress(FileNotFoundError):
                os.remove(f"{words.folder}/{name}")
        for name, text in texts.items():
            whole_file.written(f"{words.folder}/{name}", text)
        path = f"{words.folder}/{back}"
        if refused and not words.plan:
            whole_file.written(path, refused)
        elif os.path.exists(path) and not words.plan:
            os.remove(path)
    except OSError as error:
        raise Wrong(f"{error.filename or words.folder}: {error.strerror}") from None
    print(
        f"{', '.join(texts)} {'is' if len(texts) == 1 else 'are'} written to {words.folder}"
        + (f"; {back} has the rows that were refused" if refused and not words.plan else "")
    )


def join(words: argparse.Namespace) -> int:
    """Adds one address to a table."""
    agency, plane = carry.kept_agency(words.folder), geometry.kept_plane(words.folder)
    if plane is None:
        raise Wrong(f"{words.folder} has no plane.json: run move-in routes first")
    path = pathlib.Path(words.csv)
    try:
        known, sheet = read_addresses(path, plane) if path.exists() else ([], None)
    except sheets.Unreadable as error:
        raise Wrong(str(error)) from None
    if sheet and sheet.refused:
        raise Wrong(
            f"{path}, row {sheet.refused[0].number}: {sheet.refused[0].reason}. Mend it first: the file is written whole"
        )
    latitude, _, longitude = words.at.partition(",")
    fields = {
        "id": words.id or str(max((it.number for it in known), default=0) + 1),
        "street": " ".join(words.street.split()),
        "latitude": latitude.strip(),
        "longitude": longitude.strip(),
        "note": " ".join(words.note.split()),
        "rider": words.rider,
    }
    try:
        new = addresses.address_of(sheets.Row(0, fields, []), plane)
    except cells.WrongCell as error:
        raise Wrong(str(error)) from None
    there = next((it for it in known if addresses.same(it) == addresses.same(new)), None)
    if there and there.number != new.number:
        raise Wrong(
            f"{new.street}: it is {there.number} already. Name --id {there.number} to replace it"
        )
    try:
        grants, _ = grants_of(words.riders)
    except sheets.Unreadable as error:
        raise Wrong(str(error)) from None
    lost = [it for it in new.riders if words.riders and it not in grants]
    if lost:
        raise Wrong(
            f"{words.riders} has no row that is right of rider {lost[0]}, whose grant says at which place the home may be"
        )
    try:
        found = joining.joined(
            new,
            places_of(agency),
            corridor.lines_of(agency["routes"]),
            conditional.conditions_of(new.riders, grants),
        )
    except joining.NoPlace as error:
        print(f"refused: {error}")
        return SOME_REFUSED
    print(
        f"{new.number}: {new.street}: at place {found.place.number} {found.place.name}, {found.feet:,.0f} feet away"
    )
    if not words.plan:
        others = addresses.others_in(known, sheet) if sheet else None
        rewrite(words.csv, addresses.text_of(joining.with_row(known, found.address), others), sheet)
    return DONE


def rewrite(path: str, text: str, sheet: sheets.Sheet | None) -> None:
    """Writes the table anew. Where that changes more than the row, a copy of the table as it was stays beside it."""
    said = (
        [
            *sheet.notes,
            *([] if is_ours(sheet) else ["its columns have another order or other names now"]),
        ]
        if sheet
        else []
    )
    try:
        kept = copied(path) if said else None
        whole_file.written(path, text)
    except OSError as error:
        raise Wrong(f"{error.filename or path}: {error.strerror}") from None
    print(
        f"{path} is written"
        + (
            f" anew, as UTF-8 with commas ({'; '.join(said)}). The table as it was is {kept}"
            if said
            else ""
        )
    )


def copied(path: str) -> str:
    """The name of a copy beside a file, in place of no other file."""
    at = 1
    while True:
        kept = f"{path}.before{at if at > 1 else ''}"
        at += 1
        with contextlib.suppress(FileExistsError), open(path, "rb") as file, open(
            os.open(kept, os.O_WRONLY | os.O_CREAT | os.O_EXCL, 0o600), "wb"
        ) as copy:
            copy.write(file.read())
            copy.flush()
            os.fsync(copy.fileno())
            return kept


def is_ours(sheet: sheets.Sheet) -> bool:
    """Whether a table begins with the columns that the tools write, in their order."""
    return sheet.header[: len(addresses.WRITTEN)] == [*addresses.WRITTEN]


def people(words: argparse.Namespace) -> int:
    """Cuts one table of riders into what goes where."""
    agency, plane = carry.kept_agency(words.folder), geometry.kept_plane(words.folder)
    stand, lines = places_of(agency), corridor.lines_of(agency["routes"])
    path = pathlib.Path(words.addresses or f"{words.folder}/{ADDRESSES}")
    progress = carry.Progress("riders read", 1, after=2)
    try:
        known, sheet = (
            read_addresses(path, plane) if words.addresses or path.exists() else ([], None)
        )
        if sheet and sheet.refused:
            raise Wrong(
                f"{path}, row {sheet.refused[0].number}: {sheet.refused[0].reason}. Mend it first: the file is written whole"
            )
        made = cutting.cut(
            pathlib.Path(words.csv),
            plane,
            known,
            lambda it, conditions: joining.joined(it, stand, lines, conditions).address,
            denial_of(stand, lines),
            datetime.date.today(),
            functools.partial(shown, progress),
            {str(it.number) for it in stand if places.riders_of(it)},
        )
        progress.end()
    except sheets.Unreadable as error:
        raise Wrong(str(error)) from None
    print("\n".join(cutting.told(made)))
    for line in addresses.listed(made.sheet.refused):
        print(f"  refused: {line}")
    if words.plan:
        print("Nothing was written.")
        return SOME_REFUSED if made.sheet.refused else DONE
    texts = {**cutting.texts_of(made), "cut-addresses.csv": addresses.text_of(made.addresses)}
    with whole_file.alone(f"{words.folder}/cut-riders.csv"):
        put(
            words,
            texts,
            addresses.refused_text(made.sheet) if made.sheet.refused else None,
            "refused-people.csv",
        )
    return SOME_REFUSED if made.sheet.refused else DONE
