// Forms that are half filled. What was typed outlives another rider's call, another part, a reload
// and the sign-out of who did nothing for long.
// It is kept for the key that typed it, in this window alone, and goes where somebody signs out by
// hand.

import { controlName } from "./control-name.js";
import * as desk from "./desk.js";
import { dropNames, keepObject, keptText } from "./kept.js";
import { whenSignedOut } from "./leaving.js";

/** @typedef {Record<string, string | boolean>} Typed what stands in the controls, by their names */

const KEPT = "desk.draft.";

/** The same while this page lives: a sign-out by the clock empties what the window keeps.
 * @type {Map<string, Typed>}
 */
const typed = new Map();

/** @param {string} name */
const nameOf = (name) => `${KEPT}${desk.digest()} ${name}`;

/** @param {string} name @returns {Typed | null} */
function draftOf(name) {
    try {
        return typed.get(nameOf(name)) ?? JSON.parse(keptText("session", nameOf(name)) ?? "null");
    } catch {
        return null;
    }
}

/** @param {string} name @param {Typed | null} values */
function keep(name, values) {
    if (!desk.digest()) return;
    if (values) typed.set(nameOf(name), values);
    else typed.delete(nameOf(name));
    keepObject(nameOf(name), values, "session");
}

const isTicked = (/** @type {HTMLInputElement} */ { type }) =>
    type === "checkbox" || type === "radio";

/** @param {HTMLElement} form @returns {HTMLInputElement[]} */
const controlsOf = (form) =>
    [...form.querySelectorAll("input:not([type=file], [type=password]), select, textarea")].map(
        (it) => /** @type {HTMLInputElement} */ (it)
    );

/** @param {HTMLElement} form @returns {Typed} */
const typedIn = (form) =>
    Object.fromEntries(
        controlsOf(form).map((control) => [
            controlName(control),
            isTicked(control) ? control.checked : control.value
        ])
    );

/** Writes into a form what was typed. A list below a field stays closed.
 * @param {HTMLElement} form @param {Typed} values
 */
function fill(form, values) {
    // (a choice may bring further controls with it)
    for (let turn = 0; turn < 2; turn += 1)
        for (const control of controlsOf(form)) {
            const value = values[controlName(control)];
            if (
                value === undefined ||
                value === (isTicked(control) ? control.checked : control.value)
            )
                continue;
            if (typeof value === "boolean") control.checked = value;
            else control.value = value;
            if (control.getAttribute("role") !== "combobox")
                control.dispatchEvent(new Event("input", { bubbles: true }));
            control.dispatchEvent(new Event("change", { bubbles: true }));
        }
}

/** Keeps what is typed into a form under a name, such as that of its kind and its rider; first it
 * writes what was kept. drop() is for what was sent, clear() also takes it out of the form, keep()
 * is for what the page itself has written into it, and found says whether something was kept.
 * @param {HTMLElement} form @param {string} name
 */
export function draftIn(form, name) {
    const empty = JSON.stringify(typedIn(form)), before = draftOf(name);
    const keepIt = () => {
        const values = typedIn(form);
        keep(name, JSON.stringify(values) === empty ? null : values);
    };
    if (before) {
        fill(form, before);
        keep(name, before);
    }
    form.addEventListener("input", keepIt);
    form.addEventListener("change", keepIt);
    const clear = () => {
        fill(form, JSON.parse(empty));
        keep(name, null);
    };
    return { drop: () => keep(name, null), clear, keep: keepIt, found: before !== null };
}

// Whoever signs out by hand leaves nothing.
whenSignedOut(({ byHand }) => {
    if (!byHand) return;
    typed.clear();
    dropNames("session", (name) => name.startsWith(KEPT));
});
