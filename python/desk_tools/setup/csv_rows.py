"""The rows of a small table that staff keep by hand, such as corrections.csv."""

from __future__ import annotations

from pathlib import Path

from desk_tools.setup.limits import Wrong
from desk_tools.town import sheets


def read(
    path: str, columns: tuple[str, ...]
) -> tuple[list[tuple[int, dict[str, str]]], list[tuple[int, str]]]:
    """The rows by their numbers, each with all the columns, and the rows that are refused, with the reason.

    The table is as a spreadsheet saved it. One that can't be read or lacks a column is `Wrong`.
    """
    names: dict[str, tuple[str, ...]] = {it: () for it in columns}
    try:
        sheet = sheets.read(Path(path), names)
        sheets.require(sheet, columns, names)
    except sheets.Unreadable as error:
        raise Wrong(str(error)) from None
    rows = [(it.number, {name: it.fields.get(name, "") for name in columns}) for it in sheet.rows]
    return rows, [(it.number, it.reason) for it in sheet.refused]
