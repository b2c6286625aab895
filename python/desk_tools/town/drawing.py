"""The map of a grouping, as SVG: corridors, addresses, and a line from each to its place."""

import html
from collections.abc import Sequence

from desk_tools.town.corridor import Line, Point
from desk_tools.town.gather import Gathered

WIDTH, MARGIN = 1_600, 40
# More addresses than these are drawn as points without their lines.
MOST_LINES = 5_000


def drawn(found: Gathered, lines: Sequence[Line]) -> str:
    """The map as the text of an SVG file."""
    spots = [it.point for it in found.addresses if it.point]
    spots += [it.point for it in found.places.values()] + [p for it in lines for p in it.points]
    scale = Scale(spots)
    parts = [
        f'<svg xmlns="http://www.w3.org/2000/svg" viewBox="0 0 {WIDTH} {scale.height}" '
        'font-family="sans-serif" font-size="12">',
        "<title>Addresses and their places</title>",
        f'<rect width="{WIDTH}" height="{scale.height}" fill="#fff"/>',
        '<g fill="none" stroke="#cfe3f5" stroke-linecap="round" stroke-linejoin="round">',
        *(corridor(it, scale) for it in lines),
        "</g>",
        *addresses(found, scale),
        *(place(it.number, it.name, it.point, it.is_new, scale) for it in found.places.values()),
        "</svg>",
    ]
    return "\n".join(parts) + "\n"


class Scale:
    """From feet to the units of the drawing, with north up."""

    def __init__(self, spots: Sequence[Point]) -> None:
        xs, ys = zip(*spots) if spots else ((0,), (0,))
        self.west, self.north = min(xs), max(ys)
        self.unit = max(max(xs) - self.west, 1) / (WIDTH - 2 * MARGIN)
        self.height = round((self.north - min(ys)) / self.unit) + 2 * MARGIN

    def at(self, point: Point) -> str:
        """A point as `x y`."""
        x, y = (point[0] - self.west) / self.unit, (self.north - point[1]) / self.unit
        return f"{x + MARGIN:.1f} {y + MARGIN:.1f}"


def corridor(line: Line, scale: Scale) -> str:
    """A corridor as a broad line."""
    points = " ".join(scale.at(it) for it in line.points)
    broad = 2 * line.width / scale.unit
    name = html.escape(line.name)
    return (
        f'<polyline points="{points}" stroke-width="{broad:.1f}"><title>{name}</title></polyline>'
    )


def addresses(found: Gathered, scale: Scale) -> list[str]:
    """A point for each address, and a line to its place where they are not too many."""
    known = [it for it in found.addresses if it.point]
    parts = ['<g stroke="#b04a2b" stroke-width="1" fill="#b04a2b">']
    if len(known) <= MOST_LINES:
        ways = (
            f"M{scale.at(it.point)}L{scale.at(found.places[it.place or 0].point)}"
            for it in known
            if it.point
        )
        parts.append(f'<path d="{"".join(ways)}" fill="none" opacity="0.5"/>')
    dots = "".join(f"M{scale.at(it.point)}h0" for it in known if it.point)
    parts.append(f'<path d="{dots}" stroke-width="3" stroke-linecap="round"/>')
    return [*parts, "</g>"]


def place(number: int, name: str, point: Point, is_new: bool, scale: Scale) -> str:
    """A place as a disc with its number: new ones blue, others black."""
    x, y = scale.at(point).split()
    color = "#12457f" if is_new else "#000"
    said = html.escape(f"{number} {name}")
    return (
        f'<g fill="{color}"><title>{said}</title><circle cx="{x}" cy="{y}" r="5"/>'
        f'<text x="{x}" y="{y}" dx="7" dy="4">{number}</text></g>'
    )
