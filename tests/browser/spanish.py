"""Each part of each screen in Spanish: no text is missing, axe finds nothing, and nothing is too wide."""
import re
from collections.abc import Iterator
from typing import Any

from accessible import each_part, noted
from checks import Place, check, same
from common import PARTS

VANS = 1


@check
def each_screen_is_accessible_in_spanish(at: Place) -> None:
    faults: list[Any] = []
    at.browser.speak("es")
    try:
        for screen in PARTS:
            faults += faults_in_spanish(at, screen)
    finally:
        at.browser.speak("en")
    same("faults in Spanish", [], faults)


def faults_in_spanish(at: Place, screen: str) -> Iterator[str]:
    """The keys of texts that are missing, axe, and the width, of each part."""
    for address in each_part(at, screen, "es"):
        found = at.browser.axe()
        noted(f"{address}, Spanish", found["incomplete"])
        yield from (f"{address}: {it}" for it in found["violations"])
        if at.browser.script("return document.documentElement.lang") != "es":
            yield f"{address} is not marked Spanish"
        keys = re.findall(r"\b[a-z]+\.[a-z]+(?:-[a-z]+)+\b", at.browser.text())
        yield from (f"{address} shows the key {it}" for it in keys)
        with at.browser.screen(320, 640):
            over, wide = at.browser.sideways()
        if over:
            yield f"{address} at 320 pixels is too wide by {over}: {wide}"
