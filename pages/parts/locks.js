// One at a time, over all windows of this browser. A browser that refuses its stores refuses these
// locks too: then it is one at a time in each window, and a window that cannot ask knows of no
// other.

import { makeTurns } from "./turns.js";

/** @typedef {{ only?: boolean }} Options only: not at all where somebody else is at it, and act is
 * called with false then
 */

/** @type {Map<string, ReturnType<typeof makeTurns>>} */
const turns = new Map();
/** What is under way here without the browser's locks.
 * @type {Set<string>}
 */
const busy = new Set();

/** @template Made
 * @param {string} name
 * @param {(has: boolean) => Promise<Made>} act
 * @param {Options} options
 * @returns {Promise<Made>}
 */
function here(name, act, { only = false }) {
    if (only && busy.has(name)) return act(false);
    const turn = turns.get(name) ?? makeTurns();
    turns.set(name, turn);
    return turn(async () => {
        busy.add(name);
        try {
            return await act(true);
        } finally {
            busy.delete(name);
        }
    });
}

/** Does something while nobody else does the same.
 * @template Made
 * @param {string} name
 * @param {(has: boolean) => Promise<Made>} act
 * @param {Options} [options]
 * @returns {Promise<Made>}
 */
export async function alone(name, act, options = {}) {
    let began = false;
    try {
        return await navigator.locks.request(
            name,
            { ifAvailable: options.only === true },
            (lock) => {
                began = true;
                return act(lock !== null);
            }
        );
    } catch (error) {
        if (began) throw error;
        return here(name, act, options);
    }
}

/** The names that somebody holds just now, in any window of this browser, as far as it says so.
 * @returns {Promise<Set<string>>}
 */
export async function held() {
    try {
        return new Set((await navigator.locks.query()).held?.map(({ name }) => name ?? ""));
    } catch {
        return new Set(busy);
    }
}
