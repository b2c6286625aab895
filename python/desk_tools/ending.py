"""How a command ends: with a sentence and a status, never with a traceback."""

import errno
import io
import os
import sys
from collections.abc import Callable
from typing import TYPE_CHECKING, NoReturn

from desk_tools import INTERRUPTED

if TYPE_CHECKING:
    from _typeshed import ReadableBuffer

FAILED, WRONG = 1, 2
# What a write finds where there is no room.
NO_ROOM = (errno.ENOSPC, errno.EDQUOT, errno.EFBIG)
# What an error of standard output names in place of a file.
OUTPUT = "the output"
CLOSED = "standard output is closed, so nothing was done"
TOO_DEEP = "the JSON has lists or objects in one another, more deeply than any file of a desk"


class Output(io.FileIO):
    """Standard output. An error of it names it, so that no file or folder is blamed."""

    def write(self, content: "ReadableBuffer", /) -> int:
        """Writes as FileIO does."""
        try:
            return super().write(content)
        except OSError as error:
            error.filename = OUTPUT
            raise


def run(name: str, task: Callable[[list[str]], int | None]) -> NoReturn:
    """Ends the process with the status that `task` returns for the words of the command line.

    `name` is the command's, as in bin/tally. Ctrl+C ends it with status 130. A reader who goes away
    ends nothing. Output that finds no room is one sentence, and status 1. JSON that is nested too
    deeply is one sentence, and status 2.
    """
    if not has_output(name):
        sys.exit(FAILED)
    try:
        status = task(sys.argv[1:]) or 0
    except SystemExit as ended:
        status = ended.code if isinstance(ended.code, int) else FAILED if ended.code else 0
        if isinstance(ended.code, str):
            print(ended.code, file=sys.stderr)
    except KeyboardInterrupt:
        status = INTERRUPTED
    except BrokenPipeError:
        status = 0
    except OSError as error:
        if error.filename != OUTPUT and error.errno not in NO_ROOM:
            raise
        print(f"{name}: {said_of(error)}", file=sys.stderr)
        status = FAILED
    except RecursionError:
        print(f"{name}: {TOO_DEEP}", file=sys.stderr)
        status = WRONG
    sys.exit(flushed(name, status))


def has_output(name: str) -> bool:
    """Makes the streams fit for any text. False, with a sentence, where standard output is closed.

    The file that is opened next would be standard output then, and the text would go into it. A
    terminal shows a letter that it lacks by its number; a file or another program gets UTF-8.
    """
    if sys.stderr is None:
        sys.stderr = open(os.devnull, "w", encoding="utf-8")
    if sys.stdout is None:
        print(f"{name}: {CLOSED}", file=sys.stderr)
        return False
    for stream in (sys.stdout, sys.stderr):
        if isinstance(stream, io.TextIOWrapper):
            encoding = stream.encoding if stream.isatty() else "utf-8"
            stream.reconfigure(encoding=encoding, errors="backslashreplace")
    if sys.stdout is sys.__stdout__ and isinstance(sys.stdout, io.TextIOWrapper):
        sys.stdout = named(sys.stdout)
    return True


def named(stream: io.TextIOWrapper) -> io.TextIOWrapper:
    """The same stream, whose errors name it."""
    return io.TextIOWrapper(
        io.BufferedWriter(Output(stream.fileno(), "w", closefd=False)),
        stream.encoding,
        stream.errors,
        line_buffering=stream.line_buffering or stream.write_through,
    )


def of_file(error: OSError, otherwise: object) -> str:
    """What an error says of its file, or of `otherwise`. Raises one of standard output: `run` says it."""
    if error.filename == OUTPUT:
        raise error
    return f"{error.filename or otherwise}: {error.strerror or error}"


def told(name: str, error: Exception, status: int, otherwise: object = "a file") -> int:
    """Says why a command failed, and gives back its status. `otherwise` is the file of an error that names none."""
    said = of_file(error, otherwise) if isinstance(error, OSError) else error
    print(f"{name}: {said}", file=sys.stderr)
    return status


def flushed(name: str, status: int) -> int:
    """The status after all output is written: 1 where there was no room for it."""
    try:
        sys.stdout.flush()
    except BrokenPipeError:
        leave_out_rest()
    except OSError as error:
        print(f"{name}: {said_of(error)}", file=sys.stderr)
        return status or FAILED
    return status


def said_of(error: OSError) -> str:
    """What an error says. Where it is the output's, the rest of that goes nowhere."""
    if error.filename == OUTPUT:
        leave_out_rest()
    return f"{error.filename or 'a file'}: {error.strerror or error}"


def leave_out_rest() -> None:
    """What is still to be written goes nowhere, so that nothing fails at the interpreter's end."""
    os.dup2(os.open(os.devnull, os.O_WRONLY), sys.stdout.fileno())
