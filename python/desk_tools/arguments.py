"""How commands say which arguments they take, and kinds of arguments that several take."""

import argparse
import datetime
from typing import Any

# The words that ask for help, of a command that reads its words itself.
HELP = (["--help"], ["-h"])


def day_of(text: str) -> datetime.date:
    """A day of the command line, YYYY-MM-DD; another text is argparse's error."""
    try:
        return datetime.date.fromisoformat(text)
    except ValueError:
        raise argparse.ArgumentTypeError(f"{text!r} is no day YYYY-MM-DD") from None


class Usage(argparse.ArgumentParser):
    """The arguments of a command, each on a line as its help shows it."""

    def takes(self, shown: str, about: str | None = None, **how: Any) -> None:
        """An argument and the name of its value, such as `--certificate FILE` or `copy COPY.db`."""
        name, _, value = shown.partition(" ")
        self.add_argument(name, metavar=value or None, help=about, **how)

    def flag(self, name: str, about: str | None = None, **how: Any) -> None:
        """An argument without a value: it is given or not."""
        self.add_argument(name, action="store_true", help=about, **how)


def usage_of(name: str, description: str | None, **how: Any) -> Usage:
    """The arguments of a command whose description keeps its own lines."""
    form = argparse.RawDescriptionHelpFormatter
    return Usage(name, description=description, formatter_class=form, **how)
