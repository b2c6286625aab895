"""Lists as text of columns, and as a page that works without a script and prints."""

from __future__ import annotations

import datetime
import html
from typing import Any, TYPE_CHECKING

from desk_tools.reports.lists import NOT_KNOWN, Number, Rider, UNCOUNTED

if TYPE_CHECKING:
    from desk_tools.reports.lists import Listed

# The site serves the page beside those of the office, and lets no style stand within it.
STYLE = "/desk.css"


def shown(text: str) -> str:
    """A text without signs that would steer a terminal."""
    return (
        text if text.isprintable() else "".join(it if it.isprintable() else "\ufffd" for it in text)
    )


def cell_text(cell: Any) -> str:
    if isinstance(cell, datetime.date):
        return f"{cell.isoformat()} {cell:%a}"
    return shown(str(cell.number if isinstance(cell, Rider) else cell))


def count_of(listed: Listed) -> str:
    """What a list counts, as it stands in its title: a number, or that it is not known; empty where it counts nothing."""
    return str(len(listed.rows) if listed.count is None else listed.count)


def titled(listed: Listed, title: str) -> str:
    """A title with what the list counts."""
    count = count_of(listed)
    return title if count == UNCOUNTED else f"{title}: {count}"


def list_text(listed: Listed) -> str:
    """A list as lines."""
    lines = [titled(listed, listed.title.upper())] + ([listed.note] if listed.note else [])
    table = [listed.columns, *([cell_text(cell) for cell in row] for row in listed.rows)]
    widths = [max(map(len, column)) for column in zip(*table)]
    if listed.rows:
        lines += [
            "  ".join(f"{cell:<{width}}" for cell, width in zip(row, widths)).rstrip()
            for row in table
        ]
    return "\n".join([*lines, ""])


def cell_html(cell: Any, on_page: set[Any] | tuple[Any, ...]) -> str:
    if isinstance(cell, Rider):
        link = f'<a href="#rider-{cell.number}">{cell.number}</a>'
        return link if cell.number in on_page else str(cell.number)
    if isinstance(cell, Number):
        return html.escape(cell.text)
    if isinstance(cell, datetime.date):
        return f'<time datetime="{cell.isoformat()}">{cell:%a, %b} {cell.day}, {cell.year}</time>'
    return html.escape(shown(str(cell)))


def side(cell: Any) -> str:
    return ' class="number"' if isinstance(cell, Number) else ""


def table_html(listed: Listed, on_page: set[int] | tuple[Any, ...]) -> str:
    head = "".join(
        f'<th scope="col"{side(it)}>{cell_html(it, on_page)}</th>' for it in listed.columns
    )
    rows = []
    for first, *rest in listed.rows:
        cells = "".join(f"<td{side(it)}>{cell_html(it, on_page)}</td>" for it in rest)
        rows.append(f'<tr><th scope="row">{cell_html(first, on_page)}</th>{cells}</tr>')
    # (a table that is wider than the screen moves within its own box, which the keyboard reaches)
    return "\n".join(
        [
            f'<div class="scroll" role="region" tabindex="0" aria-labelledby="title-{listed.name}">',
            "<table>",
            f"<thead><tr>{head}</tr></thead>",
            "<tbody>",
            *rows,
            "</tbody>",
            "</table>",
            "</div>",
        ]
    )


def list_html(listed: Listed, on_page: set[int]) -> str:
    note = f"For the {listed.reader}. {listed.note}" if listed.reader else listed.note
    title = html.escape(shown(titled(listed, listed.title) if listed.reader else listed.title))
    nothing = "" if NOT_KNOWN in count_of(listed) else "<p>Nothing waits here.</p>"
    return "\n".join(
        [
            f'<section id="{listed.name}" aria-labelledby="title-{listed.name}">',
            f'<h2 id="title-{listed.name}">{title}</h2>',
            f"<p>{html.escape(note)}</p>" if note else "",
            table_html(listed, on_page) if listed.rows else nothing,
            "</section>",
        ]
    )


def file_html(listed: Listed, sentences: list[str], is_alone: bool) -> str:
    """A case file, folded where others stand beside it."""
    return "\n".join(
        [
            f'<details id="{listed.name}"{" open" if is_alone else ""}>',
            f'<summary id="title-{listed.name}">{html.escape(shown(listed.title))}</summary>',
            *paragraphs(sentences),
            table_html(listed, ()) if listed.rows else "",
            "</details>",
        ]
    )


def paragraphs(sentences: list[str] | tuple[Any, ...]) -> list[str]:
    return [f"<p>{html.escape(shown(it))}</p>" for it in sentences]


def page(
    title: str,
    sentences: list[str],
    lists: list[Listed],
    files: list[tuple[Listed, list[str]]],
    notes: list[str] | tuple[Any, ...] = (),
) -> str:
    """The page: lists, and below them the case files, each with its sentences, or notes."""
    on_page = {int(it.name.removeprefix("rider-")) for it, _ in files}
    links = [
        f'<li><a href="#{it.name}">{html.escape(titled(it, it.title))}</a></li>'
        for it in lists
        if it.reader
    ]
    below = (
        [
            '<section aria-labelledby="title-files">',
            '<h2 id="title-files">Case files</h2>',
            *(file_html(listed, said, not lists) for listed, said in files),
            "</section>",
        ]
        if files
        else []
    )
    return "\n".join(
        [
            "<!DOCTYPE html>",
            '<html lang="en">',
            "<head>",
            '<meta charset="utf-8">',
            '<meta name="viewport" content="width=device-width, initial-scale=1">',
            f"<title>{html.escape(shown(title))}</title>",
            f'<link rel="stylesheet" href="{STYLE}">',
            "</head>",
            "<body>",
            '<div class="frame">',
            '<main class="stack">',
            f"<h1>{html.escape(shown(title))}</h1>",
            *paragraphs(sentences),
            *(['<nav aria-label="Lists">', "<ul>", *links, "</ul>", "</nav>"] if links else []),
            *(list_html(it, on_page) for it in lists),
            *below,
            *paragraphs(notes),
            "</main>",
            "</div>",
            "</body>",
            "</html>",
            "",
        ]
    )
