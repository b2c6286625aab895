// What a button opens beside it: settings, or a list. Escape closes it, and so does whatever
// happens elsewhere.

import { part } from "./element.js";

/** @param {Event} event */
function closeElsewhere({ target }) {
    for (const it of /** @type {NodeListOf<HTMLDetailsElement>} */ (document.querySelectorAll(
        "details.pop[open]"
    )))
        if (!(target instanceof Node) || !it.contains(target)) it.open = false;
}

document.addEventListener("pointerdown", closeElsewhere, true);
document.addEventListener("focusin", closeElsewhere, true);

/** @param {KeyboardEvent} event */
function escaped({ key, currentTarget }) {
    if (key !== "Escape" || !(currentTarget instanceof HTMLDetailsElement) || !currentTarget.open)
        return;
    currentTarget.open = false;
    currentTarget.querySelector("summary")?.focus();
}

/** Closes what is open, as where something in it was done. */
export const closePopups = () => closeElsewhere(new Event("done"));

/** @param {string} id
 * @param {import("../types").Given} text
 * @param {import("../types").Given} content
 * @param {{ name?: string, class?: string }} [options] name is what a screen reader says
 */
export function popup(id, text, content, options = {}) {
    const { name, class: kind = "" } = options;
    return part("details", { class: `pop ${kind}`.trim(), key: id, id, on: { keydown: escaped } },
        part("summary", { class: "small", "aria-label": name ?? null }, text),
        part("div", { class: "popup" }, content)
    );
}
