// Which places and addresses fit what was typed, the nearest first. Nothing here has a page: it is
// tried in tests/pure/place-order.test.mjs.

import { searchable } from "./roster.js";

/** @typedef {{ id: number, text: string, sought: string, isAddress?: boolean }} Choice text is the
 * name, sought all that is searched
 */

const BEGINS = 0,
    WORD_BEGINS = 1,
    CONTAINS = 2,
    ADDRESS = 3,
    NOTE = 4;

/** How near a choice is to what was typed, 0 the nearest: by its name first, then addresses, and
 * last what has it in its note alone.
 * @param {Choice} choice @param {string} typed
 */
function farOf({ text, isAddress }, typed) {
    const name = ` ${searchable(text)}`, words = typed.split(" ");
    if (isAddress) return ADDRESS;
    if (name.startsWith(` ${typed}`)) return BEGINS;
    if (words.every((word) => name.includes(` ${word}`))) return WORD_BEGINS;
    return words.every((word) => name.includes(word)) ? CONTAINS : NOTE;
}

/** Those that have each of the typed words: a place of that very number or name first, and else the
 * nearer ones, each in the order given.
 * @template {Choice} C
 * @param {C[]} all @param {string} typed @returns {C[]}
 */
export function fitting(all, typed) {
    const sought = searchable(typed), words = sought.split(" ").filter(Boolean);
    const isSame = (/** @type {C} */ { id, text }) =>
        String(id) === typed.trim() || text === typed.trim();
    const far = (/** @type {C} */ it) => (isSame(it) ? -1 : words.length ? farOf(it, sought) : 0);
    return all.filter((it) => words.every((word) => it.sought.includes(word))).sort(
        (one, other) => far(one) - far(other)
    );
}
