"""The forms in which people ask for a letter (49 CFR 37.125(b)): large print, audio, braille. Each is made of its text.

A text has paragraphs, with empty lines between them. Audio is made by Debian's espeak-ng, braille by liblouis.
"""

import html
import re
import shutil
import subprocess
import tempfile
import textwrap
import unicodedata
from collections.abc import Iterable, Sequence
from pathlib import Path

# A page of braille has so many lines of so many cells; the last line has the page's number.
CELLS, LINES = 40, 25
LANGUAGES = ("en", "es")
VOICES = {"en": "en-us", "es": "es-419"}
# Words a minute: slower than the voice's own, since a letter is heard once.
SPEED = 140
TABLES = {"en": "en-us-brf.dis,en-ueb-g2.ctb", "es": "en-us-brf.dis,es-g1.ctb"}
# The letters with marks that the Spanish table has; it breaks at others, as of a name from elsewhere.
_SPANISH_MARKS = "áéíóúüñÁÉÍÓÚÜÑ"
PACKAGES = {"espeak-ng": "espeak-ng", "lou_translate": "liblouis-bin"}
# Between the two languages of a text that the pages saved in both.
BETWEEN = "-" * 40
_TELEPHONE = re.compile(r"\(?\b\d{3}\)?[ .-]\d{3}[ .-]\d{4}\b|\b\d{3}[.-]\d{4}\b")
# What leads the desk's own words, which nobody reads aloud.
_RECORD = ("On record, word for word:", "Como consta, palabra por palabra (en inglés):")
_NUMBERS = dict(zip("1234567890", "ABCDEFGHIJ"))
SECONDS = 120
STYLE = (
    "@page{size:letter;margin:18mm}body{font:18pt/1.5 sans-serif;max-width:42rem;margin:2rem auto;padding:0 1rem}"
    "h1{font-size:24pt}.telephone{white-space:nowrap}@media print{body{margin:0;padding:0;max-width:none}}"
)


class NoForm(Exception):
    """Why a letter can't be had in a form: one sentence."""


def paragraphs_in(text: str, language: str) -> list[str]:
    """The paragraphs of a text in a language, without the desk's own words and without the line for a name."""
    parts = re.split(rf"^{BETWEEN}$", text, flags=re.M)
    part = parts[LANGUAGES.index(language)] if len(parts) == len(LANGUAGES) else parts[0]
    found = [it.strip("\n") for it in re.split(r"\n\s*\n", part.strip("\n"))]
    kept = [it for it in found if it.strip() and not it.startswith(_RECORD)]
    if not kept:
        raise NoForm("the text is empty")
    return [re.sub(r" *_{3,}", "", it) for it in kept]


def program(name: str) -> str:
    """The path of a program."""
    path = shutil.which(name)
    if path is None:
        package = PACKAGES[name]
        raise NoForm(
            f"the program {name} is not here: install Debian's package {package} "
            f"(apt-get install {package})"
        )
    return path


def _ran(words: Sequence[str], text: str) -> bytes:
    try:
        ran = subprocess.run(
            words, input=text.encode(), capture_output=True, check=False, timeout=SECONDS
        )
    except subprocess.TimeoutExpired:
        raise NoForm(f"{words[0]} did not end within {SECONDS} seconds") from None
    if ran.returncode:
        said = ran.stderr.decode(errors="replace").strip().split("\n")[-1]
        raise NoForm(f"{words[0]} ended with the status {ran.returncode}: {said}")
    return ran.stdout


# Audio.


def spoken(paragraphs: Iterable[str]) -> str:
    """What is read aloud: a telephone number digit by digit, and a pause after each line."""
    lines = [line.strip() for it in paragraphs for line in it.split("\n")]
    ended = [it if it[-1:] in ".:?!" else f"{it}." for it in lines if it]
    return _TELEPHONE.sub(lambda found: ", ".join(_groups(found[0])), "\n\n".join(ended))


def _groups(telephone: str) -> list[str]:
    return [" ".join(it) for it in re.findall(r"\d+", telephone)]


def audio(paragraphs: Sequence[str], language: str) -> bytes:
    """The letter read aloud, as a WAV file."""
    with tempfile.TemporaryDirectory(prefix="letters-") as folder:
        # (of what goes to its output, espeak-ng does not tell the length)
        file = Path(folder) / "letter.wav"
        words = [program("espeak-ng"), "-v", VOICES[language], "-s", str(SPEED), "-w", str(file)]
        _ran([*words, "--stdin"], spoken(paragraphs))
        return file.read_bytes()


# Braille.


def braille(paragraphs: Sequence[str], language: str) -> str:
    """A file ready for an embosser (BRF): pages of 25 lines of 40 cells, a form feed after each page."""
    words = [program("lou_translate"), "-f", TABLES[language]]
    # (one line of text is one line of braille)
    flat = [line for it in paragraphs for line in [*it.split("\n"), ""]]
    text = "\n".join(" ".join(it.split()) for it in flat) + "\n"
    cells = _ran(words, _without_foreign_marks(text) if language == "es" else text)
    if not cells.isascii():
        raise NoForm("the letter has a sign that braille has no table for here: read it aloud")
    lines: list[str] = []
    for line in cells.decode("ascii").rstrip("\n").split("\n"):
        lines += _wrapped(line.strip())
    return "".join(_pages(lines))


def _without_foreign_marks(text: str) -> str:
    """The text with the base letter in place of each letter with a mark that Spanish has not."""
    return "".join(
        it if it in _SPANISH_MARKS else unicodedata.normalize("NFD", it)[0] for it in text
    )


def _wrapped(line: str) -> list[str]:
    """A line in pieces of 40 cells, the further ones indented by two; an empty one is a line between paragraphs."""
    return textwrap.wrap(
        line, CELLS, subsequent_indent="  ", break_on_hyphens=False, break_long_words=True
    ) or [""]


def _pages(lines: Sequence[str]) -> Iterable[str]:
    number, rest = 1, [*lines]
    while rest:
        while rest and not rest[0]:
            rest = rest[1:]
        page, rest = rest[: LINES - 1], rest[LINES - 1 :]
        if page:
            page += [""] * (LINES - 1 - len(page))
            named = "#" + "".join(_NUMBERS[it] for it in str(number))
            yield "\r\n".join([*page, named.rjust(CELLS)]) + "\r\n\f"
            number += 1


# Large print.


def large(paragraphs: Sequence[str], language: str) -> str:
    """A page of HTML in 18 points, to be printed by a browser."""
    whole = [
        _TELEPHONE.sub(r'<span class="telephone">\g<0></span>', html.escape(it))
        for it in paragraphs
    ]
    inner = "\n".join(f"<p>{it}</p>".replace("\n", "<br>") for it in whole)
    title = html.escape(paragraphs[0].split("\n")[0])
    return (
        f'<!DOCTYPE html>\n<html lang="{language}">\n<head><meta charset="utf-8"><title>{title}</title>'
        f"<style>{STYLE}</style></head>\n<body>\n{inner}\n</body>\n</html>\n"
    )
