"""Where the desk's program is installed."""

from pathlib import Path

# By the package.
PROGRAMS = (Path("/usr/bin/desk"),)


def program() -> Path:
    """The installed program; where there is none, the package's place."""
    return next((it for it in PROGRAMS if it.is_file()), PROGRAMS[0])
