"""How a file of checks is made and run: `-m checks FILE PROGRAM TOWNS` runs one, for tests/pages.

A check is a function with one parameter, the place where it happens (`at.town`, `at.browser`, `at.keys`), and its name
is a sentence. Checks run in the order in which they stand. One that raises has failed, and the rest go on.
"""
import dataclasses
import importlib
import os
import sys
import tempfile
import time
import traceback

from collections.abc import Callable
from types import ModuleType
from typing import TYPE_CHECKING

from database import Trouble
from town import Town

if TYPE_CHECKING:
    from browser import Browser

Check = Callable[["Place"], None]
LISTED: list[Check] = []
COUNTED = {"held": 0}


def check(function: Check) -> Check:
    """Lists a function as a check of its file."""
    LISTED.append(function)
    return function


def holds(what: str, condition: object) -> None:
    """Counts what is as it should be; else it raises what is not."""
    if not condition:
        raise Trouble(what)
    COUNTED["held"] += 1


def same(what: str, wanted: object, got: object) -> None:
    holds(f"{what}: wanted {wanted!r}, got {got!r}", wanted == got)


@dataclasses.dataclass
class Place:
    """Where checks happen."""

    town: Town
    browser: "Browser"
    keys: dict[str, str]
    folder: str


def first_line(trouble: Exception) -> str:
    told = (
        f"{type(trouble).__name__}: {trouble}" if not isinstance(trouble, Trouble) else str(trouble)
    )
    return " ".join(told.split())[:1500]


def fault_of(function: Check, at: Place) -> str | None:
    """What is wrong, as a sentence, or None."""
    try:
        function(at)
        at.browser.no_errors()
        return None
    except Exception as trouble:
        if os.environ.get("PAGES_TRACES"):
            traceback.print_exc()
        at.browser.kept_sight(function.__name__)
        at.browser.forget_errors()
        return first_line(trouble)


def run(name: str, module: ModuleType, at: Place) -> int:
    failed = 0
    wanted = os.environ.get("PAGES_CHECK", "").split(",")
    mine = [it for it in LISTED if it.__module__ == module.__name__]
    for function in [it for it in mine if any(part in it.__name__ for part in wanted)]:
        began, fault = time.monotonic(), fault_of(function, at)
        if fault is not None:
            failed += 1
            print(f"{name}: FAILED: {function.__name__.replace('_', ' ')}: {fault}", flush=True)
        if os.environ.get("PAGES_TIMES"):
            print(f"{name}: {function.__name__}: {time.monotonic() - began:.1f} s", flush=True)
    print(f"{COUNTED['held']} passed, {failed} failed", flush=True)
    return 1 if failed else 0


def main() -> int:
    from browser import Browser

    name, program, towns = sys.argv[1:4]
    module = importlib.import_module(name)
    with tempfile.TemporaryDirectory(prefix="desk-pages-") as folder, getattr(module, "TOWN", Town)(
        program, folder, getattr(module, "VANS", 6), towns, getattr(module, "PACKED", False)
    ) as town, Browser(town.origin, folder) as browser:
        return run(name, module, Place(town, browser, town.keys, folder))


if __name__ == "__main__":
    sys.modules["checks"] = sys.modules["__main__"]
    sys.exit(main())
