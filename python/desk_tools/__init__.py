"""The tools around the desk: what reads its replies, keeps its records, and looks after its machine."""

import os
import sys
from types import TracebackType

# What a shell reports of a command that Ctrl+C ended.
INTERRUPTED = 130


def show(kind: type[BaseException], error: BaseException, trace: TracebackType | None) -> None:
    """Shows an exception that nothing took. Ctrl+C ends the command with status 130 and no traceback."""
    if issubclass(kind, KeyboardInterrupt):
        os._exit(INTERRUPTED)
    sys.__excepthook__(kind, error, trace)


# The interpreter's first word is -m as long as it looks for the module of a command. So Ctrl+C ends a command quietly
# while it still loads, and a program that imports this package keeps its own way.
if sys.argv[:1] == ["-m"]:
    sys.excepthook = show
