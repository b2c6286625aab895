// Telephone numbers on paper, which stay on one line: "(217) 555-0100", "217 555 0100", "555-0100",
// "1-800-555-0100 ext. 12".

import { part } from "./element.js";

/** @typedef {import("../types").Given} Given */

const NUMBER =
    /(?<![\w-])(?:(?:\+?1[ .-])?(?:\(\d{3}\) ?|\d{3}[ .-])\d{3}[ .-]\d{4}|\d{3}[.-]\d{4})(?: (?:x|ext\.?) ?\d{1,6})?(?![\w-])/g;

/** A text in pieces; each second one is a telephone number.
 * @param {string} text @returns {string[]}
 */
export function piecesOf(text) {
    const pieces = [];
    let at = 0;
    for (const { 0: number, index = 0 } of text.matchAll(NUMBER)) {
        pieces.push(text.slice(at, index), number);
        at = index + number.length;
    }
    return [...pieces, text.slice(at)];
}

/** What is drawn, with each telephone number of its texts held together. A text of the desk in its
 * own lines stays as it is.
 * @param {Given} given @returns {Given}
 */
export function heldTogether(given) {
    if (Array.isArray(given)) return given.map(heldTogether);
    if (typeof given === "string")
        return piecesOf(given).map((it, at) => (
            at % 2 ? part("span", { class: "telephone" }, it) : it
        )).filter((it) => it !== "");
    if (given === null || typeof given !== "object" || !("tag" in given) || given.tag === "pre")
        return given;
    return {
        ...given,
        children: /** @type {import("../types").Part["children"]} */ (given.children.flatMap(
            heldTogether
        ))
    };
}
