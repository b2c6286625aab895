// Whose record was shown last in this window: a rider's or a vehicle's number, until whoever signed
// in signs out.

import { keepText, keptText } from "./kept.js";

/** @typedef {"rider" | "vehicle"} What */

/** @param {What} what */
const keyOf = (what) => `desk.subject.${what}`;

/** @param {What} what @returns {number | null} */
export const keptSubject = (what) => Number(keptText("session", keyOf(what))) || null;
const REFUSED = "desk.refused";

/** Says whether the desk refuses the number of what is drawn in a place.
 * @param {HTMLElement} place @param {boolean} isRefused
 */
export const tellRefused = (place, isRefused) =>
    place.dispatchEvent(new CustomEvent(REFUSED, { bubbles: true, detail: isRefused }));

/** Calls act whenever that is said within a place.
 * @param {HTMLElement} place @param {(isRefused: boolean) => void} act
 */
export const whenRefused = (place, act) =>
    place.addEventListener(REFUSED, (event) =>
        act(event instanceof CustomEvent && event.detail === true)
    );

/** @param {What} what @param {number | null} id null where nobody is shown any more */
export const keepSubject = (what, id) => keepText("session", keyOf(what), String(id ?? ""));
