"""An agency's own mark and color, and the contrast that its color needs on each ground of the pages."""

import re

THEMES = ("light", "dark")
TOKENS = ("accent", "accent_2", "on_accent", "accent_tint", "accent_line")
LONGEST_MARK = 3
# WCAG 2.2, 1.4.3: a text of the pages' size on what it stands on.
LEAST_OF_TEXT = 4.5
HEX = re.compile(r"#[0-9a-f]{6}")
# The grounds and texts of pages/desk.css on which an agency's color stands (tests/site_files compares them).
GROUNDS: dict[str, dict[str, str]] = {
    "light": {
        "ground": "#f4f6f6",
        "sunken": "#ebefef",
        "surface": "#ffffff",
        "raised": "#ffffff",
        "text": "#14201f",
        "text_2": "#4c5a59",
    },
    "dark": {
        "ground": "#0d1314",
        "sunken": "#10181a",
        "surface": "#161e20",
        "raised": "#1d2729",
        "text": "#e6eceb",
        "text_2": "#a5b3b2",
    },
}
# Which color stands on which.
PAIRS = [
    ("on_accent", "accent"),
    ("on_accent", "accent_2"),
    ("accent", "ground"),
    ("accent", "sunken"),
    ("accent", "surface"),
    ("accent", "raised"),
    ("accent", "accent_tint"),
    ("text", "accent_tint"),
    ("text_2", "accent_tint"),
]
SHADE, TINT, LINE = 0.8, 0.12, 0.4


def is_mark(value: object) -> bool:
    """Whether this is a mark: one to three characters that are seen."""
    return (
        isinstance(value, str)
        and 1 <= len(value) <= LONGEST_MARK
        and value.isprintable()
        and not value.isspace()
    )


def is_color(value: object) -> bool:
    """Whether this is a color as #rrggbb, in small or capital letters."""
    return isinstance(value, str) and HEX.fullmatch(value.lower()) is not None


def parts_of(color: str) -> tuple[int, int, int]:
    """Red, green and blue of #rrggbb, each from 0 to 255."""
    return int(color[1:3], 16), int(color[3:5], 16), int(color[5:7], 16)


def luminance(color: str) -> float:
    """The relative luminance of WCAG, from 0 to 1."""
    shares = [it / 255 for it in parts_of(color)]
    red, green, blue = [
        it / 12.92 if it <= 0.04045 else ((it + 0.055) / 1.055) ** 2.4 for it in shares
    ]
    return float(0.2126 * red + 0.7152 * green + 0.0722 * blue)


def contrast(one: str, other: str) -> float:
    """The contrast of two colors, from 1 to 21."""
    low, high = sorted((luminance(one), luminance(other)))
    return (high + 0.05) / (low + 0.05)


def mixed(color: str, ground: str, share: float) -> str:
    """So much of a color over a ground: 1 is the color, 0 the ground."""
    pairs = zip(parts_of(color), parts_of(ground), strict=True)
    return "#" + "".join(f"{round(it * share + under * (1 - share)):02x}" for it, under in pairs)


def whole_of(theme: str, given: dict[str, str]) -> dict[str, str]:
    """The five colors of a theme: what is given, and the rest made from its accent."""
    colors = {name: it.lower() for name, it in given.items()}
    accent, surface = colors["accent"], GROUNDS[theme]["surface"]
    worse, better = sorted(("#ffffff", "#000000"), key=lambda it: contrast(it, accent))
    made = {
        "accent_2": mixed(accent, worse, SHADE),
        "on_accent": better,
        "accent_tint": mixed(accent, surface, TINT),
        "accent_line": mixed(accent, surface, LINE),
    }
    whole = {**made, **colors}
    return {name: whole[name] for name in TOKENS}


def faults_of(theme: str, colors: dict[str, str]) -> list[str]:
    """A sentence for each pair whose contrast is too low."""
    known = {**GROUNDS[theme], **colors}
    found = [(front, back, contrast(known[front], known[back])) for front, back in PAIRS]
    return [
        f"{front} {known[front]} on {back} {known[back]} has a contrast of {shown(ratio)}:1, "
        f"and text needs {LEAST_OF_TEXT}:1"
        for front, back, ratio in found
        if ratio < LEAST_OF_TEXT
    ]


def shown(ratio: float) -> str:
    """A contrast with two decimals, cut and never rounded up to what it misses."""
    return f"{int(ratio * 100) / 100:.2f}"
