"""The pages' own words, read from their files: a key's text in each language, as a pattern where it has values in it."""

import glob
import os
import re
from dataclasses import dataclass

LANGUAGES = ("en", "es")
ENTRY = re.compile(r'^    "([a-z-]+\.[^"]+)": (.*)$', re.M)
STATIC = re.compile(r'"((?:[^"\\]|\\.)*)",?$')
FILLED = re.compile(r"(?:\([^)]*\)|\{[^}]*\}) => `([^`]*)`,?$")
VALUE = re.compile(r"\$\{[^}]*\}")
# A value that does not fit into the line of its key goes on in the next.
GOES_ON = re.compile(r"\n {8,}")
LEAST_WORDS = 3


@dataclass
class Words:
    """texts: what has no values, by language and key; patterns: each text as a pattern of the whole."""

    texts: dict[str, dict[str, str]]
    patterns: dict[str, dict[str, re.Pattern[str]]]
    areas: frozenset[str]

    def is_text(self, text: str, key: str) -> bool:
        """Whether a text is that of a key, in either language."""
        return any(
            key in self.patterns[it] and self.patterns[it][key].fullmatch(text) for it in LANGUAGES
        )

    def foreign_to(self, language: str) -> dict[str, str]:
        """Sentences of the other language that are no sentences of this one, with their keys."""
        other = "es" if language == "en" else "en"
        own = set(self.texts[language].values())
        return {
            text: key
            for key, text in self.texts[other].items()
            if text not in own and len(text.split()) >= LEAST_WORDS
        }

    def raw_key(self) -> re.Pattern[str]:
        """A key of a word that stands where its text should."""
        return re.compile(
            r"(?<![\w./@-])(?:"
            + "|".join(sorted(self.areas))
            + r")\.[a-z][a-z-]{2,}(?![\w.-]*[@/])"
        )


def read_words(pages: str) -> Words:
    """All words of a folder of pages."""
    texts: dict[str, dict[str, str]] = {it: {} for it in LANGUAGES}
    patterns: dict[str, dict[str, re.Pattern[str]]] = {it: {} for it in LANGUAGES}
    areas = set()
    for language in LANGUAGES:
        for path in glob.glob(f"{pages}/words/{language}/*.js"):
            areas.add(os.path.basename(path).removesuffix(".js"))
            with open(path, encoding="utf-8") as file:
                entries = ENTRY.findall(GOES_ON.sub(" ", file.read()))
            for key, value in entries:
                if found := STATIC.fullmatch(value):
                    text = found[1].replace('\\"', '"')
                    texts[language][key] = text
                    patterns[language][key] = re.compile(re.escape(text))
                elif found := FILLED.fullmatch(value):
                    parts = [re.escape(it) for it in VALUE.split(found[1])]
                    patterns[language][key] = re.compile("(.+?)".join(parts))
    return Words(texts, patterns, frozenset(areas))
