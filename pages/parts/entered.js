// What was entered in riders' cases from this browser: the desk tells no clerk and no rider that an
// application or an appeal waits. It is kept under a digest of the key and the rider together, so
// that who comes later at this machine reads of nobody in it.

import { today } from "./clock.js";
import * as desk from "./desk.js";
import { keepObject, keptObject } from "./kept.js";

/** @typedef {{ entry: string, position: number, day: string, against?: number }} Entered position
 * is the entry's place in the case file
 */

const KEPT = "desk.entered",
    MOST_RIDERS = 300;

/** @param {number} rider */
const nameOf = (rider) => desk.digestOf(`${desk.digest()} ${rider}`);

/** @returns {Record<string, Entered[]>} */
const all = () => keptObject(KEPT);

/** What was entered from here in a rider's case, in its order.
 * @param {number} rider @returns {Promise<Entered[]>}
 */
export async function enteredOf(rider) {
    const found = all()[await nameOf(rider)];
    return Array.isArray(found) ? found : [];
}

/** @param {number} rider @param {Entered} entered */
async function keep(rider, entered) {
    const name = await nameOf(rider),
        { [name]: before, ...others } = all(),
        more = Object.entries(others).slice(1 - MOST_RIDERS);
    // (a browser without room forgets it, as one forgets it that is cleared)
    keepObject(KEPT, {
        ...Object.fromEntries(more),
        [name]: [...(Array.isArray(before) ? before : []), entered]
    });
}

/** Enters something in a rider's case, and remembers it once the desk has taken it.
 * @param {number} rider
 * @param {{ entry: string, against?: number } & Record<string, unknown>} fields
 */
export async function enter(rider, fields) {
    const reply = await desk.enter(rider, fields);
    if (reply.denied === undefined)
        await keep(rider, {
            entry: fields.entry,
            position: reply.value.entered,
            day: today(),
            ...(fields.against === undefined ? {} : { against: fields.against })
        });
    return reply;
}
