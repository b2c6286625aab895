"""What the fence of a machine says: the file that keeps the desk and the site of a machine from serving."""

from __future__ import annotations

import contextlib

# How the fence begins of a machine whose successor has not opened the desk yet.
CHANGE = "change-over"
# Where this machine may have answered what the other one lacks, and once somebody has looked.
BY_ITSELF, WITHOUT, COMPARED = (
    "serves since it was opened",
    "without a last copy",
    "what is missing there was listed",
)


def text_of_fence(path: str) -> str:
    """What the fence says, or nothing."""
    with contextlib.suppress(OSError), open(path, encoding="utf-8") as file:
        return file.read()
    return ""


def is_compared(fence: str) -> bool:
    """Whether nothing can be missing on the machine that serves, or somebody has listed what is."""
    text = text_of_fence(fence)
    return COMPARED in text or BY_ITSELF not in text and WITHOUT not in text
