"""Tables as text, as CSV and as a page to print."""

import csv
import html
import io
from collections.abc import Sequence

from desk_tools.journal.words import Words

# What a spreadsheet takes for a formula at the start of a cell.
FORMULAS = ("=", "+", "-", "@", "\t", "\n")


def cell(value: object) -> str:
    """A cell that no spreadsheet takes for a formula. An empty cell stays empty, and a number stays one."""
    text = "" if value is None else str(value).replace("\r\n", "\n").replace("\r", "\n")
    is_number = text.removeprefix("-").isdecimal()
    return f"'{text}" if text.startswith(FORMULAS) and text != "-" and not is_number else text


def heads_of(columns: Sequence[str], words: Words) -> list[str]:
    """What stands above the columns of an answer."""
    return [words.said(f"column-{it}") for it in columns]


def as_csv(columns: Sequence[str], rows: Sequence[Sequence[object]]) -> str:
    """The table as CSV."""
    out = io.StringIO(newline="")
    writer = csv.writer(out, lineterminator="\n")
    writer.writerow(columns)
    writer.writerows([[cell(it) for it in row] for row in rows])
    return out.getvalue()


def plain(value: object) -> str:
    """A value on one line of a terminal: signs that steer one are shown, and not sent."""
    text = "" if value is None else str(value)
    return "".join(it if it.isprintable() else f"\\x{ord(it):02x}" for it in text)


def as_text(
    title: str, columns: Sequence[str], rows: Sequence[Sequence[object]], nothing: str
) -> str:
    """The table as lines of text, its columns one under another; `nothing` where it has no rows."""
    cells = [[plain(it) for it in row] for row in rows]
    wide = [max([len(name), *(len(row[at]) for row in cells)]) for at, name in enumerate(columns)]
    parts = [title, ""]
    for row in [list(columns), *cells] if cells else []:
        parts.append("  ".join(it.ljust(wide[at]) for at, it in enumerate(row)).rstrip())
    return "\n".join([*parts, "" if cells else nothing]).rstrip("\n") + "\n"


def as_page(
    title: str,
    columns: Sequence[str],
    rows: Sequence[Sequence[object]],
    notes: Sequence[str],
    words: Words,
) -> str:
    """The table as a page to print."""
    head = "".join(f'<th scope="col">{html.escape(it)}</th>' for it in columns)
    body = "".join(
        "<tr>" + "".join(f"<td>{html.escape(plain(it))}</td>" for it in row) + "</tr>\n"
        for row in rows
    )
    said = "".join(
        f"<p>{html.escape(it)}</p>\n" for it in [*notes, *([] if rows else [words.said("nothing")])]
    )
    return (
        f'<!doctype html>\n<html lang="{words.language}"><head><meta charset="utf-8">'
        f"<title>{html.escape(title)}</title>\n<style>body{{font:11pt sans-serif;margin:2em}}"
        "table{border-collapse:collapse}th,td{border:1px solid #999;padding:3px 6px;text-align:left;"
        "vertical-align:top}thead{display:table-header-group}</style></head>\n"
        f"<body><h1>{html.escape(title)}</h1>\n{said}<table><thead><tr>{head}</tr></thead>\n"
        f"<tbody>\n{body}</tbody></table></body></html>\n"
    )
