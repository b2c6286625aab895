"""Counts in words: 1 trip, 2 trips."""


def counted(count: int, one: str, several: str = "") -> str:
    """A count with its thing; `several` is the plural where an s does not make it."""
    return f"{count:,} {one if count == 1 else several or one + 's'}"
