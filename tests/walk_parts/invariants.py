"""What holds of a page at any moment, whatever was done before. Each gives what is wrong in words."""

import re
from collections.abc import Iterator

from walk_parts.page import Look
from walk_parts.words import Words

BROKEN = re.compile(
    r"\bNaN\b|\bundefined\b|\[object |\bInfinity\b|Invalid Date|(?<![\w.])null(?![\w.])|\$\{"
)


def broken_words(look: Look, words: Words) -> Iterator[str]:
    """No NaN, no undefined, and no key where a text should be."""
    raw = words.raw_key()
    for text, _ in look.texts:
        found = BROKEN.search(text) or raw.search(text)
        if found:
            yield f"{found[0]!r} stands in {text[:160]!r}"


def other_language(look: Look, foreign: dict[str, dict[str, str]]) -> Iterator[str]:
    """No sentence of the language that was not chosen."""
    for text, language in look.texts:
        key = foreign.get(language, {}).get(text)
        if key and language == look.language:
            yield f"{text[:120]!r} ({key}) is not in {language}"


def denials_without_reply(
    look: Look, denied: set[str], ever: set[str], words: Words
) -> Iterator[str]:
    """A denial is shown only where the desk gave it to this key: since the page was loaded, or ever where the page keeps what was sent."""
    for says, whole, is_kept in look.denials:
        told = ever if is_kept else denied
        names = [
            key.removeprefix("denials.").split(" ")[0]
            if not key.startswith("denials.no vehicle")
            else "no vehicle"
            for table in words.patterns.values()
            for key, pattern in table.items()
            if key.startswith("denials.") and not key.endswith("/help") and pattern.fullmatch(says)
        ]
        if says and names and not any(it in told for it in names):
            yield f"{whole[:200]!r} is shown ({names[0]}), and no reply had it; replies had {sorted(told)}"
