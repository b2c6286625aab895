"""The sentences of letters, and which of them each kind of letter has.

`sentences.json` is the one table of both. The pages have it as `pages/words/letter-sentences.js`, which
`python3 -m desk_tools.letters.sentences` writes. A line of a plan is `AS KEY FLAG ..`: the block that it makes, the key
of its text ("-" for none), and the facts that have to hold, those with "!" before them not.
"""

import json
import sys
from dataclasses import dataclass
from pathlib import Path
from typing import Any

HERE = Path(__file__).resolve().parent
SCRIPT = HERE.parents[2] / "pages/words/letter-sentences.js"
LANGUAGES = ("en", "es")


@dataclass(frozen=True)
class Step:
    """One line of a plan: what block it makes of which text, and the facts on which it stands."""

    makes: str
    key: str
    flags: tuple[str, ...]

    def holds(self, facts: set[str]) -> bool:
        """Whether the facts of a letter have it said."""
        return all((it[1:] not in facts) if it[0] == "!" else it in facts for it in self.flags)


def _table() -> dict[str, Any]:
    table: dict[str, Any] = json.loads((HERE / "sentences.json").read_text("utf-8"))
    return table


TABLE = _table()
TEXTS: dict[str, dict[str, Any]] = TABLE["texts"]


def plan_of(kind: str) -> list[Step] | None:
    """The steps of a kind of letter, or None where there is no such kind."""
    lines = TABLE["plans"].get(kind)
    if lines is None:
        return None
    words = [line.split() for line in lines]
    return [Step(it[0], it[1], tuple(it[2:])) for it in words]


def script() -> str:
    """The module of the pages."""
    return (
        "// What letters say, and which sentences each kind of letter has: written by python3 -m desk_tools.letters.sentences of\n"
        "// python/desk_tools/letters/sentences.json.\n\n"
        "/** @type {Record<string, string[]>} */\n"
        f"export const PLANS = {json.dumps(TABLE['plans'], ensure_ascii=False, indent=4)};\n\n"
        "/** @type {Record<string, Record<string, any>>} */\n"
        f"export const SENTENCES = {json.dumps(TEXTS, ensure_ascii=False, indent=4)};\n"
    )


if __name__ == "__main__":
    SCRIPT.write_text(script(), "utf-8")
    print(f"{SCRIPT} is written")
    sys.exit(0)
