"""Names as answers show them: short, without signs that steer a line, and quoted where they would read as more than a name."""

import re
import unicodedata

LONGEST = 60
# Signs that separate what an answer says from a name, and words that it says itself.
NO_NAME = re.compile(r"[^\w .'\u2019-]|BORROWED|PRESTADA", re.IGNORECASE)
QUOTES = str.maketrans({it: "'" for it in '"\u201c\u201d\u201e\u201f\u00ab\u00bb'})
BREAKS = ("Cc", "Zl", "Zp")


def straight(text: str) -> str:
    """The text on one line, without signs of control and direction."""
    parts = []
    for sign in text:
        kind = unicodedata.category(sign)
        if sign.isspace() or kind in BREAKS and sign in "\x85\u2028\u2029":
            parts.append(" ")
        elif kind not in ("Cc", "Cf", "Cs", "Co", "Cn"):
            parts.append(sign)
    return " ".join("".join(parts).split())


def plain(name: str) -> str:
    """A name on one line, cut where it is long."""
    return straight(name)[:LONGEST].strip()


def quoted(name: str) -> str:
    """A name as a sentence has it: in quotation marks where it has more than letters."""
    text = plain(name)
    return f"\u201c{text.translate(QUOTES)}\u201d" if NO_NAME.search(text) else text
