"""What is asked of a page, as scripts that the browser runs in it."""

# The name of an element as a person hears it, near enough: label, text, or what it is labelled by.
NAMING = """
const plain = (text) => (text ?? "").replace(/\\s+/g, " ").trim();
const nameOf = (it) => {
    const by = it.getAttribute("aria-labelledby");
    if (by) return plain(by.split(/\\s+/).map((id) => document.getElementById(id)?.textContent ?? "").join(" "));
    if (it.getAttribute("aria-label")) return plain(it.getAttribute("aria-label"));
    if (it.labels?.length) return plain(it.labels[0].textContent);
    if (it.tagName === "SECTION" || it.getAttribute("role") === "region" || it.tagName === "FIELDSET")
        return plain(it.querySelector("legend, h2, h3")?.textContent);
    return plain(it.textContent);
};
const seen = (it) => it.checkVisibility({ visibilityProperty: true });
const KINDS = { button: "button, summary, a, [role=button], [role=tab]", link: "a", tab: "[role=tab], nav a",
    field: "input, select, textarea, [role=combobox], [role=spinbutton]", heading: "h1, h2, h3, h4", group: "fieldset",
    region: "section, [role=region], article", row: "tr, li", option: "[role=option], option",
    dialog: "dialog, [role=dialog]" };
const root = [...document.querySelectorAll("dialog[open]")].at(-1) ?? document;
const those = (kind, within) => [...(within ?? root).querySelectorAll(KINDS[kind])]
    .filter((it) => seen(it) && !it.closest("[inert]"));
"""
FINDER = (
    NAMING
    + """
const [kind, name, isPattern, within] = arguments;
const fits = isPattern ? (it) => new RegExp(name).test(nameOf(it)) : (it) => nameOf(it) === name;
return those(kind, within).filter(fits);
"""
)
NAMES = (
    NAMING + "return those(arguments[0], null).map((it) => nameOf(it).slice(0, 60)).slice(0, 60);"
)
KIND = "const it = arguments[0]; return it.tagName === 'SELECT' ? 'select' : it.type;"
CHOSEN = (
    "return [...arguments[0].querySelectorAll('input:checked')].map((it) => it.value).join(' ')"
)
SETTER = """
const [control, value] = arguments;
if (control.tagName === "FIELDSET") {
    const all = [...control.querySelectorAll("input")], names = (it) => [it.value, it.getAttribute("aria-label"), it.labels[0]?.textContent];
    const one = all.find((it) => names(it).some((name) => name === String(value) || name?.startsWith(`${value}, `) || name?.startsWith(`${value}: `)));
    if (!one) return all.map((it) => it.getAttribute("aria-label") ?? it.value).join("; ") || "none";
    one.focus();
    all.filter((it) => it.type === "checkbox" && it.checked && it !== one).forEach((it) => it.click());
    if (!one.checked) one.click();
    return null;
}
if (control.type === "checkbox" || control.type === "radio") {
    if (control.checked !== value) control.click();
    return null;
}
const fits = (it) => it.value === String(value) || it.textContent === value;
const at = control.tagName === "SELECT" ? [...control.options].find(fits) : null;
if (control.tagName === "SELECT" && !at) return [...control.options].map((it) => it.textContent).join("; ") || "none";
control.focus();
control.value = at ? at.value : value;
control.dispatchEvent(new Event("input", {bubbles: true}));
control.dispatchEvent(new Event("change", {bubbles: true}));
return null;
"""
# Moves what a bar at an edge of the window covers into its middle.
UNCOVERED = """
const [it] = arguments, { left, top, width, height } = it.getBoundingClientRect(), over = document.elementFromPoint(left + width / 2, top + height / 2);
// (of what begins at the lower edge of the window, the middle is not in sight, and a bar may cover the rest)
if (!over || over !== it && !it.contains(over) && !over.contains(it)) it.scrollIntoView({ block: "center" });
"""
FOCUSED = (
    NAMING
    + """
const it = document.activeElement;
return !it || it === document.body ? "" : nameOf(it).slice(0, 200);
"""
)
FOCUS_SEEN = (
    NAMING
    + """
const it = document.activeElement, style = getComputedStyle(it);
return [it === document.body ? "" : nameOf(it), style.outlineStyle !== "none" && parseFloat(style.outlineWidth) >= 2];
"""
)
# Text spacing of WCAG 1.4.12: lines 1.5, paragraphs 2, letters 0.12, words 0.16.
SPACING = """
const sheet = new CSSStyleSheet();
sheet.replaceSync("* { line-height: 1.5 !important; letter-spacing: 0.12em !important; "
    + "word-spacing: 0.16em !important; } p { margin-bottom: 2em !important; }");
document.adoptedStyleSheets = [...document.adoptedStyleSheets, sheet];
"""
SIDEWAYS = """
const root = document.documentElement, room = root.clientWidth;
const over = Math.max(root.scrollWidth, document.body.scrollWidth) - room;
const inBox = (it) => { for (let at = it.parentElement; at && at !== document.body; at = at.parentElement)
    if (["auto", "scroll", "hidden", "clip"].includes(getComputedStyle(at).overflowX)) return true; return false; };
const wide = over <= 0 ? [] : [...document.body.querySelectorAll("*")].filter((it) => it.getClientRects().length
    && it.getBoundingClientRect().right + scrollX > room + 1 && !inBox(it))
    .map((it) => `${it.tagName}.${it.getAttribute("class") ?? ""} ${(it.textContent ?? "").trim().slice(0, 30)}`);
return [Math.max(0, over), wide.slice(-4)];
"""
CLOCK = """
(() => {
    const off = %(milliseconds)d, hurry = %(hurry)d, Real = Date;
    class Wrong extends Real {
        constructor(...given) { if (given.length) super(...given); else super(Real.now() + off); }
        static now() { return Real.now() + off; }
    }
    if (off) globalThis.Date = Wrong;
    if (hurry === 1) return;
    const { setTimeout: once, setInterval: often } = globalThis, fast = (wait) => (wait >= 1000 ? wait / hurry : wait);
    globalThis.setTimeout = (act, wait, ...rest) => once(act, fast(wait), ...rest);
    globalThis.setInterval = (act, wait, ...rest) => often(act, fast(wait), ...rest);
})();
"""
SETTLED = """
const [quiet, done] = arguments;
let waits = setTimeout(end, quiet);
const watch = new MutationObserver(() => { clearTimeout(waits); waits = setTimeout(end, quiet); });
const most = setTimeout(end, 8000);
function end() { watch.disconnect(); clearTimeout(most); clearTimeout(waits); done(); }
watch.observe(document, { subtree: true, childList: true, attributes: true, characterData: true });
"""
# From now on, and until the page is loaded anew, the bytes of each file that it saves.
SAVED = """
window.saved = [];
const made = URL.createObjectURL;
URL.createObjectURL = (blob) => {
    blob.arrayBuffer().then((it) => window.saved.push([...new Uint8Array(it)]));
    return made.call(URL, blob);
};
"""

# What is tapped and lower than 44 pixels, with its height; a tick or a radio button is as high as its label.
LOW = """return [...document.querySelectorAll('a, button, summary, input, select, [role=tab]')].filter((it) => it.checkVisibility() && !it.closest('p, dd, td')
    && !it.classList.contains('skip')).map((it) => [it, it.type === 'checkbox' || it.type === 'radio' ? it.closest('.tick, label, .field') ?? it : it])
    .map(([it, box]) => [it.innerText || it.name || it.tagName, Math.round(box.getBoundingClientRect().height * 10) / 10])
    .filter(([, high]) => high > 0 && high < 44)"""
