"""Commands as the installed documents have them: a trial runs their blocks and fills in nothing but names."""

from __future__ import annotations

import re
from pathlib import Path

from desk_tools.booted.machines import Machine, Ran

FOLDER = "usr/share/doc/desk"
FENCE = re.compile(r"(?ms)^ *```(\w*)\n(.*?)^ *```$")


class NotThere(RuntimeError):
    """What a document no longer has, in one sentence."""


def part(machine: Machine, name: str, heading: str) -> str:
    """The text of an installed document below a heading, up to the next one."""
    text = (Path(machine.root) / FOLDER / name).read_text(encoding="utf-8")
    found = re.search(rf"(?ms)^## {re.escape(heading)}\n(.*?)(?=^## |\Z)", text)
    if not found:
        raise NotThere(f'{name} has no part "{heading}"')
    return found[1]


def block(machine: Machine, name: str, heading: str, has: str) -> str:
    """The first block below the heading that has these words."""
    for _, text in FENCE.findall(part(machine, name, heading)):
        if has in text:
            return str(text)
    raise NotThere(f'no block of {name}, "{heading}", has {has!r}')


def filled(text: str, names: dict[str, str]) -> str:
    """The block with names filled in. A name that it does not have is no longer the document's."""
    for name, value in names.items():
        if name not in text:
            raise NotThere(f"{name!r} is not in {text!r}")
        text = text.replace(name, value)
    return text


def play(machine: Machine, text: str, folder: str = "/usr/lib/desk", check: bool = True) -> Ran:
    """Runs a block as root in a folder, line after line, and ends at the first that fails."""
    return machine.run(f"cd {folder} && set -e\n{text}", check=check)
