"""The files that the site serves, made from the agency's own: docs/SITE-FILES.md defines them.

Each file is written whole. Who is killed in the middle leaves some files of the old agency and some of the new one, and
the same run again ends that.
"""

from __future__ import annotations

import contextlib
import os
import re
import stat
from collections.abc import Callable, Mapping
from typing import Any

from desk_tools.setup import agency_file, roster_file, whole_file
from desk_tools.setup.limits import Wrong

PUBLIC = tuple(
    """
    name brand telephone address zone first_weekday place_word clock languages wait_minutes lead
    idle_minutes lock_minutes board_minutes board_names manifest_telephone appeal closed unproved
    """.split()
)
# What is assumed to be true where it is not there: here a no is said.
ASSUMED = ("board_names",)
# Whoever serves the files is in the folder's group; nobody else reads them.
FILE_MODE, FOLDER_MODE = 0o640, 0o2750
FIXED = tuple(
    """
    agency.json places.json addresses.json staff/addresses.json staff/places.json staff/roster.csv
    staff/duty.json drivers/places.json drivers/roster.csv
    """.split()
)
OWN_NAMES = ("places.json", "name.json", "addresses.json")
OWN = re.compile(r"own/[1-9][0-9]*/(?:places|name|addresses)\.json")

Place = dict[str, Any]


def nothing_shown(_: int) -> None:
    """Nobody watches how far it is."""


def texts_of(
    agency: Mapping[str, Any],
    roster: roster_file.Roster | None = None,
    drivers: roster_file.Roster | None = None,
    duty: Mapping[str, Any] | None = None,
) -> dict[str, str]:
    """Each file's text by its path in the folder."""
    lists = {name: agency.get(name, []) for name in agency_file.LISTS}
    hidden = {**lists, "places": [without_secrets(it) for it in lists["places"]]}
    texts = {
        "agency.json": agency_file.text_of(
            {
                it: agency[it]
                for it in PUBLIC
                if it in agency and (agency[it] is not False or it in ASSUMED)
            }
        ),
        "places.json": agency_file.text_of(hidden),
        "staff/places.json": agency_file.text_of(lists),
    }
    for rider in sorted({rider for it in lists["places"] for rider in riders_of(it)}):
        own = [
            {**without_note(it), "private": rider}
            for it in lists["places"]
            if rider in riders_of(it)
        ]
        texts[f"own/{rider}/places.json"] = agency_file.text_of({"places": own})
    if roster:
        texts["staff/roster.csv"] = roster_file.text_of(roster.riders, roster.columns)
        # A letter that riders print themselves has to name them.
        for it in roster.riders:
            texts[f"own/{it['rider']}/name.json"] = agency_file.text_of({"name": it["name"]})
    if duty:
        texts["staff/duty.json"] = agency_file.text_of(duty)
    if drivers:
        # The site has no address for it: bin/driver-files takes from it what each van's driver needs.
        texts["drivers/roster.csv"] = roster_file.text_of(
            drivers.riders, roster_file.DRIVERS_COLUMNS
        )
    return texts


def without_secrets(place: Place) -> Place:
    """What anybody with a key may read of a place. The note is for drivers and staff: that there is one is said, so that
    nobody takes this file for the whole."""
    if place.get("private"):
        return {"id": place["id"], "private": True}
    return {**without_note(place), **({"noted": True} if place.get("note") else {})}


def without_note(place: Place) -> Place:
    """A place without what a driver has to know of it, such as the code of a gate."""
    return {name: value for name, value in place.items() if name != "note"}


def riders_of(place: Place) -> list[int]:
    """The riders to whom the place is private; none where it is everybody's, or for staff alone."""
    private = place.get("private", False)
    if isinstance(private, bool):
        return []
    return private if isinstance(private, list) else [private]


def planned(
    folder: str, texts: Mapping[str, str], show: Callable[[int], object] = nothing_shown
) -> str:
    """What `put` would do, as a sentence."""
    new = other = 0
    try:
        is_there = os.path.isdir(folder)
        gone = made_before(folder) - texts.keys() if is_there else ()
        group = os.stat(folder).st_gid if is_there else None
        for done, (path, text) in enumerate(texts.items()):
            show(done)
            is_new = not os.path.exists(f"{folder}/{path}")
            new += is_new
            other += not is_new and not stands(f"{folder}/{path}", text, group)
    except OSError as error:
        raise Wrong(f"{error.filename or folder}: {error.strerror}") from None
    return f"{new} would be new, {other} changed, {len(gone)} taken away. Nothing was written."


def put(
    folder: str, texts: Mapping[str, str], show: Callable[[int], object] = nothing_shown
) -> None:
    """Gives the folder these files, and takes away those that an earlier run made and this one does not."""
    try:
        os.makedirs(folder, mode=FOLDER_MODE, exist_ok=True)
        with whole_file.turn_in(folder):
            group = os.stat(folder).st_gid
            for path in sorted(made_before(folder) - texts.keys()):
                os.remove(f"{folder}/{path}")
                with contextlib.suppress(OSError):
                    os.rmdir(os.path.dirname(f"{folder}/{path}"))
            for done, (path, text) in enumerate(texts.items()):
                show(done)
                made_folders(folder, os.path.dirname(path), group)
                if not stands(f"{folder}/{path}", text, group):
                    whole_file.written(f"{folder}/{path}", text, FILE_MODE, group)
    except OSError as error:
        raise Wrong(f"{error.filename or folder}: {error.strerror}") from None


def stands(path: str, text: str, group: int | None) -> bool:
    """Whether a file has this text already, and is for those alone who may read it."""
    content = text.encode()
    try:
        found = os.lstat(path)
        if not stat.S_ISREG(found.st_mode) or (
            stat.S_IMODE(found.st_mode),
            found.st_gid,
            found.st_size,
        ) != (FILE_MODE, group, len(content)):
            return False
        with open(path, "rb") as file:
            return file.read() == content
    except FileNotFoundError:
        return False


def made_folders(folder: str, inner: str, group: int) -> None:
    path = folder
    for name in filter(None, inner.split("/")):
        path = f"{path}/{name}"
        if not os.path.isdir(path):
            os.mkdir(path)
            os.chown(path, -1, group)
            os.chmod(path, FOLDER_MODE)


def made_before(folder: str) -> set[str]:
    """The paths of all files in the folder that a run of this program makes, and what a killed run left of one."""
    riders = os.listdir(f"{folder}/own") if os.path.isdir(f"{folder}/own") else []
    own = [
        it
        for it in (f"own/{rider}/{name}" for rider in riders for name in OWN_NAMES)
        if OWN.fullmatch(it)
    ]
    return {
        it
        for path in [*FIXED, *own]
        for it in (path, f"{path}.new")
        if os.path.exists(f"{folder}/{it}")
    }
