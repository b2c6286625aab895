// What pages are made of. No markup is read anywhere: a text of the desk becomes a text node and
// nothing else.
//
// part(..) describes an element; drawInto(..) makes a place on the page look as the descriptions
// say and leaves what is right already as it is, so that focus, caret, scrolling and what was
// folded open stay. make(..) makes a real element at once.

/** @typedef {import("../types").Act} Act */
/** @typedef {import("../types").Attributes} Attributes */
/** @typedef {import("../types").Part} Part */
/** @typedef {import("../types").Given} Given */
/** @typedef {string | Part | Element} Child */

const SVG = "http://www.w3.org/2000/svg",
    HTML = "http://www.w3.org/1999/xhtml";
/** Properties that a person changes and the record decides on. */
const CONTROLLED = new Set(["value", "checked", "indeterminate"]);
let made = 0;

/** The description that an element was last drawn from.
 * @type {WeakMap<Element, Part>}
 */
const drawn = new WeakMap();
/** @type {WeakMap<Element, Record<string, Act>>} */
const acts = new WeakMap();

/** @param {string} stem */
export const fresh = (stem) => `${stem}-${(made += 1)}`;

/** @param {Given} given @returns {Child[]} */
function childrenOf(given) {
    if (Array.isArray(given)) return given.flatMap(childrenOf);
    if (given === null || given === undefined || given === false || given === true || given === "")
        return [];
    return [typeof given === "number" ? String(given) : /** @type {Child} */ (given)];
}

/** @param {string} tag
 * @param {Attributes} [attributes]
 * @param {...Given} children
 * @returns {Part}
 */
export const part = (tag, attributes = {}, ...children) => ({
    tag,
    attributes,
    children: childrenOf(children)
});

/** @param {Child} child @returns {child is Part} */
const isPart = (child) => typeof child === "object" && !(child instanceof Node);

/** @param {Element} element @param {string} name */
function listenFor(element, name) {
    element.addEventListener(name, (event) => acts.get(element)?.[name]?.(event));
}

/** @param {Element} element @param {Attributes["on"]} on */
function setActs(element, on) {
    const before = acts.get(element) ?? {};
    /** @type {Record<string, Act>} */
    const after = Object.fromEntries(Object.keys(before).map((name) => [name, () => {}]));
    for (const [name, act] of Object.entries(on ?? {})) {
        if (!(name in before)) listenFor(element, name);
        after[name] = act || (() => {});
    }
    acts.set(element, after);
}

/** @param {Element} element @param {string} name @param {unknown} value */
function setOne(element, name, value) {
    if (
        CONTROLLED.has(name) &&
        name in element &&
        !(name === "value" && element instanceof HTMLOptionElement)
    ) {
        const control = /** @type {Record<string, unknown>} */ (/** @type {unknown} */ (element)),
            wanted = value ?? (name === "value" ? "" : false);
        if (control[name] !== wanted) control[name] = wanted;
    } else if (value === false || value === null || value === undefined)
        element.removeAttribute(name);
    else element.setAttribute(name, value === true ? "" : String(value));
}

/** @param {Element} element @param {Attributes} after @param {Attributes} before */
function setAttributes(element, after, before) {
    for (const name of Object.keys(before))
        if (!(name in after) && name !== "key" && name !== "on") setOne(element, name, null);
    for (const [name, value] of Object.entries(after)) {
        if (name === "key" || name === "on") continue;
        if (CONTROLLED.has(name) || value !== before[name]) setOne(element, name, value);
    }
    if (after.on || before.on) setActs(element, after.on);
}

/** @param {string} tag @param {Element | null} parent */
function spaceOf(tag, parent) {
    if (tag === "svg") return SVG;
    return parent && parent.namespaceURI === SVG && parent.localName !== "foreignObject"
        ? SVG
        : HTML;
}

/** A real element of a description.
 * @param {Part} described @param {Element | null} [parent] @returns {HTMLElement}
 */
export function element(described, parent = null) {
    const it = document.createElementNS(spaceOf(described.tag, parent), described.tag);
    drawn.set(it, { tag: described.tag, attributes: {}, children: [] });
    redraw(it, described);
    return /** @type {HTMLElement} */ (it);
}

/** @param {Element} it @param {Part} described */
function redraw(it, described) {
    // (the same description again: nothing in it has changed)
    if (drawn.get(it) === described)
        return;
    const before = drawn.get(it) ?? { tag: described.tag, attributes: {}, children: [] };
    drawn.set(it, described);
    const { value, ...first } = described.attributes;
    setAttributes(it, first, before.attributes);
    drawInto(it, described.children);
    // (a list's value can be set only once its choices are there)
    if ("value" in described.attributes)
        setOne(it, "value", value);
}

/** @param {ChildNode} node @param {Child} child */
function fits(node, child) {
    if (typeof child === "string") return node instanceof Text;
    if (!isPart(child)) return node === child;
    const before = node instanceof Element ? drawn.get(node) : undefined;
    return before !== undefined &&
        before.tag === child.tag &&
        (before.attributes.key ?? null) === (child.attributes.key ?? null);
}

/** For each child what is there of it already.
 * @param {ChildNode[]} nodes @param {Child[]} children
 */
function matched(nodes, children) {
    const free = new Set(nodes), keyed = new Map();
    for (const node of nodes) {
        const key = node instanceof Element ? drawn.get(node)?.attributes.key ?? null : null;
        if (key !== null) keyed.set(key, node);
    }
    const take = (/** @type {ChildNode | undefined} */ node) => {
        if (node) free.delete(node);
        return node ?? null;
    };
    return children.map((child) => {
        const key =
            typeof child === "object" && isPart(child) ? child.attributes.key ?? null : null;
        if (key !== null) {
            const node = keyed.get(key);
            return take(node && free.has(node) && fits(node, child) ? node : undefined);
        }
        for (const node of free) if (fits(node, child)) return take(node);
        return null;
    });
}

/** Makes what is inside an element look as described.
 * @param {Element} place @param {Given} given
 */
export function drawInto(place, given) {
    const children = childrenOf(given),
        nodes = [...place.childNodes],
        kept = matched(nodes, children),
        staying = new Set(kept);
    nodes.forEach((node) => {
        if (!staying.has(node)) node.remove();
    });
    let at = place.firstChild;
    children.forEach((child, index) => {
        const there = kept[index],
            node =
                there ??
                (
                    typeof child === "string"
                        ? document.createTextNode(child)
                        : isPart(child)
                        ? element(child, place)
                        : child
                );
        if (there && typeof child === "string" && there.nodeValue !== child)
            there.nodeValue = child;
        if (there && typeof child === "object" && isPart(child))
            redraw(/** @type {Element} */ (there), child);
        if (node === at) at = node.nextSibling;
        else place.insertBefore(node, at);
    });
}

/** @template {Element} Made
 * @param {Made} it @param {Attributes} attributes @param {Given[]} children
 */
function dressed(it, attributes, children) {
    setAttributes(it, attributes, {});
    for (const child of childrenOf(children)) it.append(isPart(child) ? element(child, it) : child);
    return it;
}

/** A real element at once.
 * @template {keyof HTMLElementTagNameMap} Tag
 * @param {Tag} tag
 * @param {Attributes} [attributes]
 * @param {...Given} children
 * @returns {HTMLElementTagNameMap[Tag]}
 */
export const make = (tag, attributes = {}, ...children) =>
    dressed(document.createElement(tag), attributes, children);

/** The same of SVG.
 * @param {string} tag @param {Attributes} [attributes] @param {...Given} children
 * @returns {SVGElement}
 */
export const draw = (tag, attributes = {}, ...children) =>
    dressed(document.createElementNS(SVG, tag), attributes, children);

/** @param {string} id @returns {HTMLElement} */
export const found = (id) => /** @type {HTMLElement} */ (document.getElementById(id));

/** @param {Given} text @param {Act} act @param {Attributes} [attributes] */
export const button = (text, act, attributes = {}) =>
    part("button", { type: "button", on: { click: act }, ...attributes }, text);

/** @type {ReturnType<typeof setTimeout> | undefined} */
let saying;

/** Tells a screen reader; who sees is told by what changed on the page.
 * @param {string} text
 */
export function say(text) {
    clearTimeout(saying);
    found("said").textContent = "";
    saying = setTimeout(() => {
        found("said").textContent = text;
    }, 50);
}

/**
 * A table that can be moved sideways by the keyboard where it is too wide.
 * @template Row
 * @typedef {{ head: Given, cell: (row: Row) => Given, number?: boolean, whole?: boolean, sorted?:
 * string | null, kind?: string }} Column
 */

/** number: it stands to the right; whole: it is not broken into lines; kind is a class of its own.
 * rowMade may give the line that was made for a row before.
 * @template Row @param {string} caption @param {Column<Row>[]} columns
 * @param {Row[]} rows
 * @param {Attributes & { rowKey?: (row: Row) => string | number, rowMade?: (row: Row, make: () =>
 * Part) => Part }} attributes
 * @returns {Part}
 */
export function table(
    caption,
    columns,
    rows,
    { rowKey, rowMade = (_, make) => make(), ...attributes } = {}
) {
    const kind = (/** @type {Column<Row>} */ { number, whole, kind: own = "" }) =>
        [number ? "number" : whole ? "whole" : "", own].filter(Boolean).join(" ") || null;
    const heads = columns.map((column) =>
        part("th", { scope: "col", class: kind(column), "aria-sort": column.sorted }, column.head)
    );
    const lines = rows.map((row) =>
        rowMade(row, () =>
            part("tr", { key: rowKey?.(row) },
                columns.map((column, at) =>
                    part(
                        at ? "td" : "th",
                        { scope: at ? null : "row", class: kind(column) },
                        column.cell(row)
                    )
                )
            )
        )
    );
    return part("div", { class: "scroll", tabindex: 0, role: "region", "aria-label": caption },
        part(
            "table",
            attributes,
            part("caption", {}, caption),
            part("thead", {}, part("tr", {}, heads)),
            part("tbody", {}, lines)
        )
    );
}

/** @param {string} name @param {string} type @param {string} text */
export function save(name, type, text) {
    const address = URL.createObjectURL(new Blob([text], { type }));
    const link = make("a", { href: address, download: name });
    document.body.append(link);
    link.click();
    link.remove();
    setTimeout(() => URL.revokeObjectURL(address), 10_000);
}

/** The same as drawInto, with the children one after another.
 * @param {Element} place @param {...Given} children
 */
export const refill = (place, ...children) => drawInto(place, children);
