// What was opened in a part of a screen, one after another, so that Back closes it before anything
// else is left. The browser's history has places in this list and no rider's number: what is there
// outlives a sign-out.

/** A place of the history: which of those that were opened, and how many steps the list is back.
 * @typedef {{ opened: number, steps: number }} Place
 */

/** The place that a state of the history is, where it is one.
 * @param {unknown} state @returns {Place | null}
 */
export const placeIn = (state) => {
    const { opened, steps } = /** @type {Partial<Place>} */ (state ?? {});
    return typeof opened === "number" && typeof steps === "number" ? { opened, steps } : null;
};

/** The list with one more, and the place that comes into the history; null where it is shown there
 * already.
 * @param {number[]} those @param {unknown} state @param {number} id
 * @returns {{ those: number[], place: Place } | null}
 */
export function opening(those, state, id) {
    const before = placeIn(state);
    if (before && those[before.opened] === id) return null;
    // (after a reload the history has places of a list that is gone)
    const opened = Math.max(those.length, (before?.opened ?? -1) + 1), now = [...those];
    now[opened] = id;
    return { those: now, place: { opened, steps: (before?.steps ?? 0) + 1 } };
}

/** What is to be shown at a state of the history: one that was opened, or nobody.
 * @param {number[]} those @param {unknown} state @returns {number | null}
 */
export const meantBy = (those, state) => those[placeIn(state)?.opened ?? -1] ?? null;

/** How many steps of the history close what is open; 0 where it was not opened from the list.
 * @param {unknown} state
 */
export const stepsBack = (state) => placeIn(state)?.steps ?? 0;
