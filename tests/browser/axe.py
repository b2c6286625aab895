"""axe-core, found in the Lighthouse of Debian's chromium. It is taken out when it is used, and not kept."""
import functools
import json
import struct
from collections.abc import Iterator
from typing import TYPE_CHECKING

from database import Trouble

if TYPE_CHECKING:
    from browser import Browser

RESOURCES = "/usr/lib/chromium/resources.pak"
COMPRESSED, VERSION, HEAD, ENTRY = b"\x1e\x9b", 5, 12, 6
TAGS = ["wcag2a", "wcag2aa", "wcag21a", "wcag21aa", "wcag22aa", "best-practice"]
OF_COLORS = ["color-contrast", "link-in-text-block"]
RUN = """
const [only, done] = arguments;
const short = ({ id, nodes, help }) => nodes.map(({ target, any, all, none }) => `${id}: ${target.join(" ")}: `
    + `${[...any, ...all, ...none].map((it) => it.message).join("; ").slice(0, 200) || help}`);
globalThis.axe.run(document, { runOnly: only, resultTypes: ["violations", "incomplete"] })
    .then(({ violations, incomplete }) => done({ violations: violations.flatMap(short),
        incomplete: incomplete.flatMap(short) }), (error) => done({ failed: String(error) }));
"""


def resources() -> Iterator[bytes]:
    """Each resource of the file, as it is before it was compressed."""
    import brotli

    with open(RESOURCES, "rb") as file:
        pack = file.read()
    version, _, count, _ = struct.unpack("<IIHH", pack[:HEAD])
    if version != VERSION:
        raise Trouble(f"{RESOURCES} is of version {version}; axe is found in version {VERSION}")
    starts = [struct.unpack_from("<HI", pack, HEAD + ENTRY * at)[1] for at in range(count + 1)]
    for start, end in zip(starts, starts[1:]):
        content = pack[start:end]
        yield brotli.decompress(content[8:]) if content[:2] == COMPRESSED else content


@functools.cache
def source() -> str:
    """axe as it stands in Lighthouse: a template of JavaScript, from its first comment to the end of the template."""
    for content in resources():
        start = content.find(b"`/*! axe v")
        if start < 0:
            continue
        end = start + 1
        while content[end : end + 1] != b"`":
            end += 2 if content[end : end + 1] == b"\\" else 1
        return content[start : end + 1].decode()
    raise Trouble(f"{RESOURCES} has no axe")


@functools.cache
def program_of(browser: "Browser") -> str:
    """axe as a program; the template's own signs are read by a browser, once."""
    template: str = browser.script(f"return {source()};")
    return template + "\n;globalThis.axe = axe; true"


def found_by(browser: "Browser", colors: bool = False) -> dict[str, list[str]]:
    """What axe finds on the page as it is; or, by its rules of colors alone, on a page that was looked at before."""
    if not browser.script("return 'axe' in globalThis"):
        told = browser.devtools(
            "Runtime.evaluate", expression=program_of(browser), returnByValue=True
        )
        if told.get("exceptionDetails"):
            raise Trouble(f"axe does not run: {json.dumps(told['exceptionDetails'])[:300]}")
    only = {"type": "rule", "values": OF_COLORS} if colors else {"type": "tag", "values": TAGS}
    found: dict[str, list[str]] = browser.driver.execute_async_script(RUN, only)
    if "failed" in found:
        raise Trouble(f"axe does not run: {found['failed']}")
    return found
