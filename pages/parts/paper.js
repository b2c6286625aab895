// Printing. What is printed stands alone on paper until the print is over; Ctrl+P prints what is on
// the screen.

import { agency } from "./agency.js";
import { button, drawInto, found, part } from "./element.js";
import { heldTogether } from "./telephones.js";
import { t } from "./words.js";

/** @typedef {import("../types").Given} Given */

export function takePaperAway() {
    drawInto(found("paper"), []);
    found("paper").className = "";
    document.body.classList.remove("papered");
}

/** What stands on the paper of a trial program.
 * @returns {Given}
 */
export const trialMark = () =>
    agency().unproved && part("p", { class: "unproved" }, t("common.unproved"));

/** Puts these parts on paper, alone. Where they are marked, each has the mark of a trial program
 * itself.
 * @param {string} title @param {Given} parts @param {{ class?: string, marked?: boolean }} options
 */
export function printParts(title, parts, { class: kind = "", marked = false } = {}) {
    const before = document.title;
    found("paper").className = kind;
    drawInto(found("paper"), [
        !marked && trialMark(),
        title && part("h1", {}, title),
        heldTogether(parts)
    ]);
    document.body.classList.add("papered");
    window.addEventListener(
        "afterprint",
        () => {
            takePaperAway();
            document.title = before;
        },
        { once: true }
    );
    if (title) document.title = title;
    window.print();
}

/** @param {string} heading @param {string} text */
const printText = (heading, text) => printParts(heading, part("pre", {}, text), { class: "text" });

/** A text that the desk prints, shown as it is, with a button that prints it alone.
 * @param {string} heading
 * @param {string} text
 * @param {{ label?: string, print?: () => void }} options
 */
export function sheetOf(
    heading,
    text,
    { label = t("common.print"), print = () => printText(heading, text) } = {}
) {
    return part("section", { class: "sheet" },
        part("h3", {}, heading),
        part("pre", { tabindex: 0, role: "region", "aria-label": heading }, text),
        part("div", { class: "row" }, button(label, print))
    );
}
