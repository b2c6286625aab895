"""The page of a month, which prints: the figures, denials, no-shows and missed trips, what each column means, and what is not known."""

import csv
import html
import io
import re
from collections.abc import Sequence

from desk_tools.review.figures import Group, groups
from desk_tools.review.month import Month
from desk_tools.review.tables import Cell, Table

STYLE = """
body { font: 11pt/1.45 sans-serif; max-width: 60rem; margin: 2rem auto; padding: 0 1rem; color: #000; background: #fff; }
h2 { margin-top: 2rem; }
.wide { overflow-x: auto; }
table { border-collapse: collapse; margin-bottom: 1rem; }
caption { text-align: left; font-weight: bold; padding-bottom: .4rem; }
th, td { border: 1px solid #666; padding: .2rem .5rem; text-align: left; vertical-align: top; }
.number { text-align: right; white-space: nowrap; }
.figures th:first-child { width: 15rem; }
.figures table { width: 100%; }
tbody th { white-space: nowrap; }
.figures tbody th { white-space: normal; }
thead { display: table-header-group; }
tr { break-inside: avoid; }
dt { font-weight: bold; }
dd { margin: 0 0 .2rem 1.5rem; }
@media print { body { margin: 0; max-width: none; font-size: 9pt; } .wide { overflow: visible; } @page { margin: 12mm; } }
"""
# A spreadsheet reads a file as UTF-8 where this sign leads it.
MARK = "\ufeff"
# What a spreadsheet would take for a formula; a number below zero is none.
FORMULA = re.compile(r"[=+@\t\r]|-(?![0-9.])")
# Files that the page shows whole; of the others it says what they hold.
SHOWN = ("denials-by-month.csv", "no-shows.csv", "missed-trips.csv")


def as_csv(table: Table) -> str:
    """The file's text."""
    text = io.StringIO()
    writer = csv.writer(text, lineterminator="\r\n")
    writer.writerow([name for name, _ in table.columns])
    writer.writerows([[_guarded(it) for it in row] for row in table.rows])
    return text.getvalue()


def _guarded(cell: Cell) -> Cell:
    return f"'{cell}" if isinstance(cell, str) and FORMULA.match(cell) else cell


def _cell(kind: str, cell: Cell | None, scope: str = "") -> str:
    if cell is None:
        return f'<{kind} class="number">not known</{kind}>'
    text = f"{cell:,}" if isinstance(cell, (int, float)) and not scope else str(cell)
    side = ' class="number"' if isinstance(cell, (int, float)) else ""
    return f"<{kind}{scope}{side}>{html.escape(text)}</{kind}>"


def _row(cells: Sequence[Cell | None], head: bool = False) -> str:
    first, *rest = cells
    scope = ' scope="col"' if head else ' scope="row"'
    kind = "th" if head else "td"
    others = "".join(_cell(kind, it, scope if head else "") for it in rest)
    return f"<tr>{_cell('th', first, scope)}{others}</tr>"


def _table(caption: str, heads: Sequence[Cell], rows: Sequence[Sequence[Cell | None]]) -> str:
    body = "\n".join(_row(it) for it in rows)
    label = html.escape(caption)
    return (
        f'<div class="wide" role="region" tabindex="0" aria-label="{label}"><table><caption>{label}</caption>\n'
        f"<thead>{_row(heads, head=True)}</thead>\n<tbody>\n{body}\n</tbody></table></div>"
    )


def _group(group: Group) -> str:
    rows = [(it.name, it.value, it.meaning) for it in group.figures]
    return _table(group.title, ("Figure", "Value", "What it means"), rows)


def _file(table: Table) -> str:
    title, count = html.escape(table.title), len(table.rows)
    meanings = "\n".join(
        f"<dt>{html.escape(name)}</dt><dd>{html.escape(meaning)}</dd>"
        for name, meaning in table.columns
    )
    whole = table.file in SHOWN
    shown = (
        _table(table.file, [name for name, _ in table.columns], table.rows)
        if whole and table.rows
        else ""
    )
    return (
        f"<section>\n<h2>{title}</h2>\n<p>{html.escape(table.file)}: {count:,} {'row' if count == 1 else 'rows'}. "
        f"Each row is {html.escape(table.row_is)}.</p>\n{shown}\n"
        f"<details open><summary>What the columns mean</summary>\n<dl>\n{meanings}\n</dl></details>\n</section>"
    )


def page(title: str, source: Sequence[str], month: Month, files: Sequence[Table]) -> str:
    """The page's text."""
    said = "\n".join(f"<p>{html.escape(it)}</p>" for it in source)
    unknown = "\n".join(f"<li>{html.escape(it)}</li>" for it in not_known(month))
    figures = "\n".join(map(_group, groups(month)))
    others = "\n".join(_file(it) for it in files if it.file != "figures.csv")
    return (
        f'<!DOCTYPE html>\n<html lang="en">\n<head><meta charset="utf-8">\n'
        f'<meta name="viewport" content="width=device-width, initial-scale=1">\n<title>{html.escape(title)}</title>\n'
        f"<style>{STYLE}</style></head>\n<body>\n<main>\n<h1>{html.escape(title)}</h1>\n{said}\n"
        f"<section>\n<h2>What is not known</h2>\n<ul>\n{unknown}\n</ul>\n</section>\n"
        f'<section class="figures">\n<h2>Figures</h2>\n{figures}\n</section>\n{others}\n</main>\n</body>\n</html>\n'
    )


def not_known(month: Month) -> list[str]:
    """What nothing tells of this month, in sentences."""
    found = list(month.notes)
    if not month.trips and not month.denials:
        found.append(f"Nothing was booked for {month.name}, and no denial is on record.")
    if not month.has_log:
        found.append(
            "No site's log of this month was given. So nothing tells what riders asked for, what was denied, when vehicles came "
            "and how long riders were aboard."
        )
    if not month.has_feed:
        found.append(
            "No timetable was given, so no ride is compared with the same trip by fixed route. The direct drive stands "
            "in its place, and is called so."
        )
    return [
        *found,
        "A trip that a telephone system or another program asked for has a requested time only if that program told the site.",
        "A rider who gave up the way there because the way back was denied counts as a cancellation, and not as a denial.",
        "How long callers waited on the telephone, and how many hung up, is not in these files.",
        "Miles driven are not measured. Trip length is the straight line from place to place.",
    ]
