// What has to be known whatever screen is shown, apart from the sign of the line: one note of a
// kind, until somebody closes it.

import { button, drawInto, found, part } from "./element.js";
import { t } from "./words.js";

/** @typedef {import("../types").Given | (() => import("../types").Given)} Words */
/** @type {Map<string, Words>} */
const notes = new Map();

function show() {
    drawInto(
        found("notes"),
        [...notes].map(([kind, words]) =>
            part("div", { class: "note row", key: kind, "data-note": kind },
                part("div", {}, typeof words === "function" ? words() : words),
                button(t("common.close"), () => close(kind), {
                    class: "small",
                    "aria-label": t("common.close-note")
                })
            )
        )
    );
}

/** Where the focus was before it came to the notes.
 * @type {HTMLElement | null}
 */
let before = null;

/** Closes a note. The focus goes to the next one, or back to where it came from.
 * @param {string} kind
 */
function close(kind) {
    const kinds = [...notes.keys()],
        next = kinds[kinds.indexOf(kind) + 1] ?? kinds[kinds.indexOf(kind) - 1];
    dropNote(kind);
    const other = next && found("notes").querySelector(`[data-note="${next}"] button`);
    const target =
        other instanceof HTMLElement
            ? other
            : before?.getClientRects().length
            ? before
            : found("main");
    target.focus({ preventScroll: target.id === "main" });
}

/** Remembers where the focus comes from, and says each note in the language that was chosen
 * meanwhile.
 */
export function keepNotes() {
    found("notes").addEventListener("focusin", ({ relatedTarget }) => {
        if (relatedTarget instanceof HTMLElement && !found("notes").contains(relatedTarget))
            before = relatedTarget;
    });
}

/** @param {string} kind
 * @param {Words} words what it says, or what gives it in the language of the moment
 */
export function note(kind, words) {
    notes.set(kind, words);
    show();
}

/** Says all notes anew, in the language that is chosen now. */
export const sayNotesAgain = show;

/** Takes a note away; whether it was there.
 * @param {string} kind
 */
export function dropNote(kind) {
    const there = notes.delete(kind);
    if (there) show();
    return there;
}

export function clearNotes() {
    notes.clear();
    show();
}
