"""What a person finds on a page, by role and name, and how a person acts on it: by a click or by keys."""

import time
from dataclasses import dataclass, field
from typing import Any

import scripts
from browser import Browser
from selenium.common.exceptions import JavascriptException, WebDriverException
from selenium.webdriver.common.action_chains import ActionChains
from selenium.webdriver.common.keys import Keys

from walk_parts import shown

# Milliseconds without a change after which a page is still, and after which it counts as still in any case.
QUIET, MOST = 60, 2500
# Seconds that a script may take.
SCRIPT = 20

LOOK = (
    scripts.NAMING
    + """
const shown = (it) => it && seen(it) && !it.closest("[inert]");
const within = root === document ? document.body : root;
const controls = [], elements = [];
const ROLES = "button, a[href], summary, input, select, textarea, [role=combobox], [role=option], [role=button], [role=tab]";
for (const it of within.querySelectorAll(ROLES)) {
    if (!shown(it) || it.type === "file" || it.closest("svg")) continue;
    const tag = it.tagName.toLowerCase(), type = (it.getAttribute("type") ?? "").toLowerCase(), role = it.getAttribute("role");
    const kind = role === "option" ? "option" : tag === "summary" || tag === "button" || role === "button" ? (tag === "summary" ? "summary" : "button")
        : tag === "a" || role === "tab" ? "link" : ["checkbox", "radio"].includes(type) ? type : tag === "select" ? "list" : role === "combobox" ? "combo" : "text";
    const form = it.closest("form"), group = it.closest("fieldset"), row = it.closest("[data-trip], tr, li, section");
    elements.push(it);
    controls.push({ kind, name: nameOf(it).slice(0, 160), value: ["list", "combo", "text"].includes(kind) || it.closest(".day-grid") ? it.value : "", checked: it.checked === true,
        off: it.disabled === true || it.getAttribute("aria-disabled") === "true", submits: tag === "button" && it.type === "submit", type,
        form: form ? nameOf(form) || form.getAttribute("aria-label") || "" : "", group: group ? nameOf(group) : "",
        expanded: it.getAttribute("aria-expanded") ?? "", choices: tag === "select" ? [...it.options].map((one) => one.textContent) : [] });
}
window.walkElements = elements;
const focus = document.activeElement, dialog = [...document.querySelectorAll("dialog[open]")].at(-1);
const texts = [], walker = document.createTreeWalker(document.body, NodeFilter.SHOW_TEXT);
for (let node = walker.nextNode(); node; node = walker.nextNode()) {
    const place = node.parentElement, text = plain(node.nodeValue);
    if (!text || ["SCRIPT", "STYLE", "NOSCRIPT"].includes(place.tagName) || !seen(place) || place.closest("#paper")) continue;
    const own = place.closest("[lang]");
    texts.push([text, own && own !== document.documentElement ? own.getAttribute("lang") : document.documentElement.lang]);
}
const denials = [...document.querySelectorAll(".denial")].filter(shown).map((it) => [plain(it.querySelector("strong")?.textContent), plain(it.innerText),
    Boolean(it.closest("[data-sent-list], #notes") || location.hash.startsWith("#driver"))]);
return { controls, texts, denials, address: location.hash, language: document.documentElement.lang, dialog: dialog ? plain(dialog.innerText) : "",
    at: elements.indexOf(focus), focus: !focus || focus === document.body ? "" : `${focus.tagName.toLowerCase()} ${nameOf(focus).slice(0, 80)}`, hidden: document.hidden,
    sign: plain(document.querySelector("#line")?.textContent), notes: plain(document.querySelector("#notes")?.innerText),
    signedIn: !document.body.classList.contains("signed-out") && Boolean(sessionStorage.getItem("desk.key")), busy: [...document.querySelectorAll(".legs .waiting")].some((it) => it.textContent.includes("…")),
    subject: Number(sessionStorage.getItem("desk.subject.rider")) || null, vehicle: Number(sessionStorage.getItem("desk.subject.vehicle")) || null,
    loaded: performance.timeOrigin, shown: """
    + shown.ALL
    + """ };
"""
)
STILL = """
const [quiet, most, done] = arguments;
let waits = setTimeout(end, quiet);
const watch = new MutationObserver(() => { clearTimeout(waits); waits = setTimeout(end, quiet); });
const last = setTimeout(end, most);
function end() { watch.disconnect(); clearTimeout(last); clearTimeout(waits); done(told()); }
watch.observe(document, { subtree: true, childList: true, attributes: true, characterData: true });
"""
# A wait until the page is still, and the look at it then: in one call, since each call costs more than what it does.
STILL_LOOK = f"const told = () => {{ try {{ return look(); }} catch (error) {{ return null; }} }};\nconst look = () => {{ {LOOK} }};\n{STILL}"
# The element of a control of the last look, with the focus or in the middle of the window.
FOCUSED = "const it = window.walkElements?.[arguments[0]] ?? null; it.focus(); return it;"
IN_VIEW = "const it = window.walkElements?.[arguments[0]] ?? null; it.scrollIntoView({ block: 'center' }); return it;"


@dataclass(frozen=True)
class Control:
    """Something that can be pressed or filled. at is its place among those of one look."""

    at: int
    kind: str
    name: str
    value: str
    checked: bool
    off: bool
    submits: bool
    form: str
    group: str
    expanded: str
    choices: tuple[str, ...]
    type: str = ""


@dataclass
class Look:
    """What is on the page at a moment. Of a denial: what it says, the whole of it, and whether the page keeps it beyond a reload; shown is what is held against the desk."""

    controls: list[Control]
    texts: list[tuple[str, str]]
    denials: list[tuple[str, str, bool]]
    address: str
    language: str
    dialog: str
    focus: str
    sign: str
    notes: str
    signed_in: bool
    hidden: bool
    busy: bool
    subject: int | None
    vehicle: int | None
    loaded: float
    at: int
    shown: dict[str, Any]
    whole: str = field(default="")

    def of(self, kind: str, name: str = "") -> list[Control]:
        """The controls of a kind whose names begin so."""
        return [it for it in self.controls if it.kind == kind and it.name.startswith(name)]

    def shows(self, text: str) -> bool:
        """Whether a text is on the page."""
        return text in self.whole


def look_of(given: dict[str, Any]) -> Look:
    """A look of what the script gave."""
    controls = [
        Control(
            at,
            it["kind"],
            it["name"],
            it["value"],
            it["checked"],
            it["off"],
            it["submits"],
            it["form"],
            it["group"],
            it["expanded"],
            tuple(it["choices"]),
            it["type"],
        )
        for at, it in enumerate(given["controls"])
    ]
    texts = [(text, language) for text, language in given["texts"]]
    return Look(
        controls,
        texts,
        [(a, b, c) for a, b, c in given["denials"]],
        given["address"],
        given["language"],
        given["dialog"],
        given["focus"],
        given["sign"],
        given["notes"],
        given["signedIn"],
        given["hidden"],
        given["busy"],
        given["subject"],
        given["vehicle"],
        given["loaded"],
        given["at"],
        given["shown"],
        "\n".join(text for text, _ in texts),
    )


class Page:
    """A browser's window, looked at and acted on."""

    def __init__(self, browser: Browser) -> None:
        self.browser = browser
        browser.driver.set_script_timeout(SCRIPT)

    def still(self) -> Look:
        """Waits until the page has stopped to change, and looks at it."""
        try:
            if given := self.browser.driver.execute_async_script(STILL_LOOK, QUIET, MOST):
                return look_of(given)
        except WebDriverException:
            time.sleep(QUIET / 1000)
        return self.look()

    def look(self) -> Look:
        """What is there now. A page that is being loaded is looked at once it is there."""
        for _ in range(40):
            try:
                return look_of(self.browser.script(LOOK))
            except (JavascriptException, WebDriverException) as error:
                if "alert" in str(error).lower():
                    self.browser.driver.switch_to.alert.accept()
                time.sleep(0.1)
        return look_of(self.browser.script(LOOK))

    def element(self, control: Control) -> Any:
        """The element of a control of the last look."""
        return self.browser.script("return window.walkElements?.[arguments[0]] ?? null", control.at)

    def press(self, control: Control, by_key: bool, twice: bool = False) -> None:
        """A click, or the focus and a key; twice as by a hand that trembles."""
        element = self.browser.script(FOCUSED if by_key else IN_VIEW, control.at)
        if by_key:
            key = Keys.SPACE if control.kind in ("checkbox", "radio", "summary") else Keys.ENTER
            ActionChains(self.browser.driver).send_keys(*([key] * (2 if twice else 1))).perform()
        else:
            if twice:
                ActionChains(self.browser.driver).double_click(element).perform()
            else:
                element.click()

    def type_into(self, control: Control, text: str) -> None:
        """Replaces what is in a field by a text, by keys."""
        self.browser.script(FOCUSED, control.at)
        keys = (
            ActionChains(self.browser.driver)
            .key_down(Keys.CONTROL)
            .send_keys("a")
            .key_up(Keys.CONTROL)
        )
        keys.send_keys(Keys.DELETE).send_keys(text).perform()

    def choose(self, control: Control, text: str) -> None:
        """Chooses a line of a list, or sets a day."""
        self.browser.script(scripts.SETTER, self.element(control), text)

    def keys(self, *keys: str) -> None:
        """Presses keys, wherever the focus is."""
        for key in keys:
            ActionChains(self.browser.driver).send_keys(key).perform()
