"""Gives a letter in the form in which a rider asks for it: text, large print, audio, or braille (49 CFR 37.125(b)).

  bin/letters audio letter.wav --text letter-1-of-1009.txt --language es
  bin/letters braille letter.brf --url http://127.0.0.1:8437 --key FILE --agency agency.json --rider 1009 --entry 1

The text is one that a page saved ("Text for e-mail"), or the letter is read from the desk: with --entry that one, else
the last. `text` is for an e-mail, `large` a page of 18 points to print, `audio` a WAV file, `braille` a BRF file of 25
lines of 40 cells. The exit status is 0 where the file is written, 1 where it can't be, and 2 for wrong words.
"""

import argparse
import sys
from pathlib import Path

from desk_tools import ending
from desk_tools.arguments import usage_of
from desk_tools.letters import asking, forms
from desk_tools.letters.forms import NoForm
from desk_tools.setup import whole_file

FORMS = ("text", "large", "audio", "braille")
LARGEST = 200_000


def words_of(arguments: list[str]) -> argparse.Namespace:
    """The command's words."""
    parser = usage_of("bin/letters", __doc__)
    parser.takes("form", "the form of the letter", choices=FORMS)
    parser.takes("output FILE", "the file to write", type=Path)
    parser.takes("--text FILE", "a letter that a page saved", type=Path)
    parser.takes("--language", "the roster's, or English", choices=forms.LANGUAGES)
    parser.takes("--url", "the desk's address, such as http://127.0.0.1:8437")
    parser.takes("--key FILE", "a clerk's or examiner's key", type=Path)
    parser.takes("--rider NUMBER", "whose letter it is", type=int)
    parser.takes("--entry NUMBER", "which letter, by its entry", type=int)
    parser.takes("--agency FILE", "agency.json, for letters read", type=Path)
    parser.takes("--roster FILE", "the roster, for names", type=Path)
    parser.takes("--addresses FILE", "the addresses, for homes", type=Path)
    words = parser.parse_args(arguments)
    of_desk = [words.url, words.key, words.rider, words.agency]
    if words.text is None and None in of_desk:
        parser.error("give --text, or all of --url, --key, --rider and --agency")
    if words.text is not None and any(it is not None for it in of_desk):
        parser.error("give --text, or the letter of a desk, and not both")
    return words


def text_in(path: Path) -> str:
    """The text of a file."""
    with open(path, "rb") as file:
        content = file.read(LARGEST + 1)
    if len(content) > LARGEST:
        raise NoForm(f"{path} has more than {LARGEST:,} bytes: it is no letter")
    try:
        return content.decode("utf-8-sig").replace("\r\n", "\n")
    except UnicodeDecodeError as error:
        raise NoForm(f"{path} is no text in UTF-8: byte {error.start + 1} is none") from None


def content_of(words: argparse.Namespace) -> bytes:
    """The bytes of the file."""
    if words.text:
        text, language = text_in(words.text), words.language or "en"
    else:
        key = words.key.read_text("ascii").strip()
        files = words.agency, words.roster, words.language, words.addresses
        asked = asking.Asked(words.url, key, words.rider, words.entry, *files)
        text, language = asking.text_of(asked)
    if words.form == "text":
        return text.encode()
    paragraphs = forms.paragraphs_in(text, language)
    if words.form == "audio":
        return forms.audio(paragraphs, language)
    made = forms.braille if words.form == "braille" else forms.large
    return made(paragraphs, language).encode()


def main(arguments: list[str]) -> int:
    """Runs the command."""
    words = words_of(arguments)
    try:
        whole_file.written(words.output, content_of(words))
        return 0
    except UnicodeDecodeError:
        print(f"bin/letters: {words.key} is no key", file=sys.stderr)
        return 1
    except (NoForm, OSError) as error:
        return ending.told("bin/letters", error, 1, words.output)


if __name__ == "__main__":
    ending.run("bin/letters", main)
