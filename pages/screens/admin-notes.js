// What the admin's browser keeps of what was put from it, since the desk tells neither its callers
// nor its policy. No key is in it.

import { keepObject, keptObject } from "../parts/kept.js";

// (it outlives signing out, so its name is none of those that signing out takes away)
const KEPT = "admin.notes",
    ADDED = "desk.agency";

/** @typedef {{ callers?: import("./admin-callers.js").Caller[], policy?: { day: string, values:
 * Record<string, number> } }} Notes the policy has the day on which it was put
 */
/** @typedef {{ id: number, name?: string }} Named a place, a route or a vehicle */
/** @typedef {{ settings?: Record<string, unknown>, places?: Named[], routes?: Named[], vehicles?:
 * Named[] }} NamesHere
 */

/** @returns {Notes} */
export const notes = () => keptObject(KEPT);

/** The names and settings that were put from this browser over the server's file.
 * @returns {NamesHere}
 */
export const namesHere = () => keptObject(ADDED);

/** @param {string} name @param {unknown} value */
export const keepNote = (name, value) => keepObject(KEPT, { ...notes(), [name]: value });
