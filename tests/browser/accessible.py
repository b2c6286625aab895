"""Each part of each screen for everybody: axe, contrast, 320 pixels, spaced text, zoom, forced colors."""
import functools
import os
import pathlib
import re
from collections.abc import Iterator
from typing import Any

from checks import Place, check, holds, same
from common import PARTS
from town import PAGES
from browser import Browser

VANS = 1
CONTROLS = set(
    """
    button link textbox combobox checkbox DisclosureTriangle Date searchbox option image radio
    listbox
    """.split()
)
# Texts whose contrast is below 4.5, also in pictures, of which axe says that a person has to look.
CONTRAST = """
const channels = (text) => (text.match(/[\\d.]+/g) ?? []).map(Number);
const linear = (it) => it <= 0.04045 ? it / 12.92 : ((it + 0.055) / 1.055) ** 2.4;
const light = ([r, g, b]) => [r, g, b].map((it) => linear(it / 255))
    .reduce((sum, it, at) => sum + it * [0.2126, 0.7152, 0.0722][at], 0);
const colorOf = (it) => channels(getComputedStyle(it).backgroundColor);
const ground = (it) => {
    for (; it; it = it.parentElement) if (colorOf(it).length === 3 || colorOf(it)[3] === 1) return colorOf(it);
    return colorOf(document.body);
};
const walker = document.createTreeWalker(document.body, NodeFilter.SHOW_TEXT), low = [];
while (walker.nextNode()) {
    const it = walker.currentNode.parentElement;
    if (!walker.currentNode.textContent.trim() || !it.checkVisibility()) continue;
    if (it.closest('.unseen, .skip, [disabled]')) continue;
    const style = getComputedStyle(it), drawn = it.namespaceURI.endsWith('svg');
    const [a, b] = [channels(drawn ? style.fill : style.color), ground(it)].map(light).sort((p, q) => q - p);
    const ratio = (a + 0.05) / (b + 0.05);
    if (ratio < 4.5) low.push(`${walker.currentNode.textContent.trim().slice(0, 40)} ${ratio.toFixed(2)}`);
}
return low;
"""


# What has a name, and no role that may have one.
NAMED_NOTHING = """
return [...document.querySelectorAll("[aria-label], [aria-labelledby]")].filter((it) => !it.hasAttribute("role")
    && ["DIV", "SPAN", "P", "PRE", "SMALL", "STRONG"].includes(it.tagName)).map((it) => it.outerHTML.slice(0, 80));
"""


def nameless(browser: Browser) -> list[Any]:
    nodes = browser.devtools("Accessibility.getFullAXTree")["nodes"]
    return [
        node["role"]["value"]
        for node in nodes
        if not node["ignored"]
        and node["role"]["value"] in CONTROLS
        and not node.get("name", {}).get("value", "").strip()
    ]


def noted(where: str, incomplete: Any) -> None:
    """What a person has to look at is written to a file, where the environment names one."""
    if file := os.environ.get("PAGES_INCOMPLETE"):
        with open(file, "a", encoding="utf-8") as text:
            text.writelines(f"{where}: {it}\n" for it in incomplete)


UNFOLD = "document.querySelectorAll('details').forEach((it) => { it.open = true; });"


def each_part(at: Place, screen: str, language: str = "en") -> Iterator[str]:
    """Goes to each part of a screen; all that is folded is opened."""
    for address in at.browser.each_part(at.keys[PARTS[screen]], screen, language):
        at.browser.script(UNFOLD)
        yield address
        if screen == "driver":
            at.browser.script(
                "[...document.querySelectorAll('.dock button')].at(-1).click(); " + UNFOLD
            )
            at.browser.settled()
            yield f"{address}, all stops"


def looked_at(at: Place, address: str) -> None:
    """Names, contrast and axe; light, dark and forced, which differ in colors alone."""
    same(f"controls without a name in {address}", [], nameless(at.browser))
    same(f"names of what has no role in {address}", [], at.browser.script(NAMED_NOTHING))
    for shades in ["light", "dark"]:
        with at.browser.media(prefers_color_scheme=shades, prefers_reduced_motion="reduce"):
            same(f"contrast in {address}, {shades}", [], at.browser.script(CONTRAST))
            # (what a button opens over the page covers what it covers)
            at.browser.script(
                "document.querySelectorAll('details.pop').forEach((it) => { it.open = false; })"
            )
            found = at.browser.axe(colors=shades == "dark")
            at.browser.script(
                "document.querySelectorAll('details.pop').forEach((it) => { it.open = true; })"
            )
            noted(f"{address}, {shades}", found["incomplete"])
            same(f"axe in {address}, {shades}", [], found["violations"])
    with at.browser.media(forced_colors="active"):
        same(f"contrast in {address}, forced colors", [], at.browser.script(CONTRAST))


def widths_of(at: Place, address: str) -> None:
    """No sideways move at 320 pixels less a scrollbar, nor with spaced text."""
    with at.browser.screen(320, 640):
        same(f"{address} at 320 pixels is too wide by", [0, []], at.browser.sideways())
    with at.browser.zoomed():
        same(f"{address} at 400 percent is too wide by", [0, []], at.browser.sideways())
        at.browser.space_text()
        try:
            same(
                f"{address} at 400 percent with spaced text is too wide by",
                [0, []],
                at.browser.sideways(),
            )
        finally:
            at.browser.unspace_text()


ALONE = r"(?:^|[{},])\s*\.([a-z][\w-]*)(?=\s*[,{])"


@functools.cache
def names_by_style() -> dict[Any, Any]:
    """The classes that each style of the pages has a rule for, wherever they stand, by its file's name."""
    styles = [pathlib.Path(PAGES, "desk.css"), *pathlib.Path(PAGES, "css").glob("*.css")]
    plain = {it.name: re.sub(r"/\*.*?\*/", "", it.read_text("utf-8"), flags=re.S) for it in styles}
    return {name: set(re.findall(ALONE, text)) for name, text in plain.items()}


STYLES = """return [...document.querySelectorAll("link[rel=stylesheet]")]
    .map((it) => it.href.split("/").at(-1));"""
CLASSES = """const all = [...document.querySelectorAll("body *")].filter((it) => it.checkVisibility());
return [...new Set(all.flatMap((it) => [...it.classList]))];"""


def styled_at(at: Place, address: str) -> None:
    """What a style of the pages has a rule for has one in a style that the screen loads."""
    named, loaded = names_by_style(), at.browser.script(STYLES)
    here = set().union(*(named.get(it, ()) for it in loaded))
    elsewhere = set().union(*named.values()) - here
    lost = [it for it in at.browser.script(CLASSES) if it in elsewhere]
    same(f"classes in {address} whose style is not loaded", [], lost)


def screen_is_accessible(at: Place, screen: str) -> None:
    faults = []
    for address in each_part(at, screen):
        for look in [looked_at, widths_of, styled_at]:
            try:
                look(at, address)
            except Exception as fault:
                faults.append(str(fault))
    holds("; ".join(faults), not faults)


@check
def the_scrollbar_of_a_narrow_screen_is_a_classic_one(at: Place) -> None:
    at.browser.sign_in(at.keys["clerk"], "clerk", "trips")
    with at.browser.screen(320, 300):
        width = at.browser.script("return document.documentElement.clientWidth")
        holds(f"of 320 pixels {width} are left", 300 <= width <= 310)


@check
def signing_in_is_accessible(at: Place) -> None:
    at.browser.fresh()
    at.browser.settled()
    looked_at(at, "signing in")
    widths_of(at, "signing in")


@check
def the_clerks_screen_is_accessible(at: Place) -> None:
    screen_is_accessible(at, "clerk")


@check
def the_examiners_screen_is_accessible(at: Place) -> None:
    screen_is_accessible(at, "examiner")


@check
def the_officers_screen_is_accessible(at: Place) -> None:
    screen_is_accessible(at, "officer")


CHOICES = "return [...document.querySelectorAll('input[name^=decision]')].map((it) => it.value)"
CHOOSE = "document.querySelector(`input[name^=decision][value='${arguments[0]}']`).click()"
WAITING = """<main><section id=applications><h2>Applications to decide</h2><table><thead><tr><th>Rider<th>Name<th>Complete on<th>Presumed from<tbody>
<tr><td>1009<td>Peter Lange<td>2025-02-17<td>2025-03-10<tr><td>1010<td>Grace Kim<td>2025-03-01<td>2025-03-22</table></section>
<section id=appeals><h2>Appeals to decide</h2><table><thead><tr><th>Rider<th>Name<th>Against<th>Filed on<th>Heard on<th>Overdue from<tbody>
<tr><td>1002<td>Dorothy O'Neill<td>refuse (entry 1)<td>2025-03-01<td>2025-03-03<td>2025-04-02<tr><td>1003<td>Henry Park<td>suspend (entry 4)<td>2025-03-05<td>not heard<td>no day</table></section>
<section id=missed><h2>Patterns of missed trips</h2><table><thead><tr><th>Rider<th>Name<th>Missed<th>Trips with an outcome<th>Share<th>Notice<tbody>
<tr><td>1004<td>Lucille Baker<td>6<td>28<td>21 %<td>none<tr><td>1005<td>Samuel Grant<td>5<td>19<td>26 %<td>given on 2025-03-01, not heard</table></section>
<section id=grants><h2>Grants that end soon</h2><table><thead><tr><th>Rider<th>Name<th>Last day<th>When<th>Conditions<th>New application<tbody>
<tr><td>1006<td>Ana<td>2025-03-31<td>in 21 days<td>always<td>no</table></section></main>"""


@check
def the_queues_and_each_decision_beside_its_letter_are_accessible(at: Place) -> None:
    at.town.write_file("staff/worklist.html", WAITING)
    try:
        for screen in ["examiner", "officer"]:
            at.browser.sign_in(at.keys[screen], screen)
            at.browser.sees("Print list")
            for look in [looked_at, widths_of]:
                look(at, f"the queue of the {screen}")
            at.browser.keep_subjects()
            at.browser.go(f"#{screen}/case")
            at.browser.sees("Decide for")
            for kind in at.browser.script(CHOICES):
                at.browser.script(CHOOSE, kind)
                at.browser.settled()
                for look in [looked_at, widths_of]:
                    look(at, f"{kind} of the {screen}")
    finally:
        at.town.write_file("staff/worklist.html", "<!doctype html><p>Nothing waits.</p>")


@check
def the_dispatchers_screen_is_accessible(at: Place) -> None:
    at.town.set_clock("2025-03-11", "11:00")
    screen_is_accessible(at, "dispatcher")


@check
def the_drivers_screen_is_accessible(at: Place) -> None:
    at.town.set_clock("2025-03-11", "06:30")
    screen_is_accessible(at, "driver")
    at.town.set_clock("2025-03-10")


@check
def the_riders_screen_is_accessible(at: Place) -> None:
    screen_is_accessible(at, "rider")


@check
def the_admins_screen_is_accessible(at: Place) -> None:
    screen_is_accessible(at, "admin")


LINES = """
const names = ["backgroundColor", "borderBottomColor", "borderBottomStyle", "borderBottomWidth", "borderTopColor",
    "borderTopStyle", "borderTopWidth", "outlineStyle", "textDecorationLine"];
return [...document.querySelectorAll("#parts a")].map((it) => [it.getAttribute("aria-current") === "page",
    names.map((name) => getComputedStyle(it)[name]).join(" ")]);
"""


@check
def the_chosen_part_is_marked_in_forced_colors(at: Place) -> None:
    with at.browser.media(forced_colors="active"):
        for screen in ["clerk", "admin", "rider"]:
            at.browser.sign_in(at.keys[PARTS[screen]], screen)
            at.browser.settled()
            looks = at.browser.script(LINES)
            chosen = {look for is_chosen, look in looks if is_chosen}
            others = {look for is_chosen, look in looks if not is_chosen}
            holds(
                f"{screen}: the chosen part looks as the others: {looks}",
                chosen and not chosen & others,
            )


# The names of a map: how many are seen, and what is cut or covers another name.
NAMES_ON_MAP = """
const map = document.querySelector("svg.map"), edge = map.getBoundingClientRect(), faults = [];
const names = [...map.querySelectorAll("text:not(.place-number)")].map((it) => [it.textContent, it.getBoundingClientRect()]);
const whole = (it) => it.left >= edge.left - 1 && it.right <= edge.right + 1 && it.top >= edge.top - 1 && it.bottom <= edge.bottom + 1;
for (const it of map.querySelectorAll(".place")) if (!whole(it.getBoundingClientRect())) faults.push("a place is cut");
for (const [name, box] of names) {
    if (!whole(box)) faults.push(`${name} is cut`);
    for (const [other, its] of names) if (name < other && box.left + 2 < its.right && its.left + 2 < box.right
        && box.top + 4 < its.bottom && its.top + 4 < box.bottom) faults.push(`${name} covers ${other}`);
}
return [names.length, faults];
"""


@check
def names_on_a_map_are_whole_and_none_covers_another(at: Place) -> None:
    at.browser.sign_in(at.keys["admin"], "admin", "places")
    for width, least in [(1280, 10), (390, 4), (320, 3)]:
        with at.browser.screen(width, 800):
            at.browser.settled()
            seen, faults = at.browser.script(NAMES_ON_MAP)
            same(f"names on the map at {width} pixels", [], faults)
            holds(f"only {seen} names are seen at {width} pixels", seen >= least)
