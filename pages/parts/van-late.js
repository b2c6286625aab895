// How late a van comes to one pickup of today, for who may not read its manifest: by the file of
// plans, which has the times of its stops, and by what drivers told. It is the lateness of the
// dispatcher's board, by the same rule. Nothing here knows of a page.

import { carried } from "./delay.js";
import { LEAST_LATE } from "./delay.js";
import { lateOf } from "./lateness.js";

/** @typedef {import("./texts.js").Stop} Stop */
/** @typedef {import("./texts.js").Doing} Doing */
/** @typedef {import("./lateness.js").Told} Told */
/** @typedef {{ made: number, vehicles: Map<number, Stop[]>, doings: Map<number, Doing> }} Plans
 * made in milliseconds; doings are the trips that ended
 */
/** @typedef {{ planned: number, delay: number, silent: number, due: number | null, past: number,
 * isNext: boolean, last: import("./delay.js").Tap | null, made: number }} VanLate minutes: planned
 * and due are of the day, and due is when the van comes by its delay; silent is for how long there
 * should have been an update, past how long after the window it comes; made is the moment in
 * milliseconds as of which this is
 */

/** The times of stops change seldom, and a trip that ended meanwhile is told by its taps too. */
const OLDEST = 900_000;

/** @type {(string | undefined)[]} */
const STOPS = ["DEPOT", "PICK", "DROP"];

/** @param {unknown} it @returns {it is number} */
const isNumber = (it) => typeof it === "number" && Number.isFinite(it);

/** A stop of the file; none where it is of another form.
 * @param {Partial<Stop> | null} it
 * @returns {Stop[]}
 */
function stopIn(it) {
    /** @type {Partial<Stop>} */
    const { at, what, trip, load, chairs, window } = it ?? {};
    if (!isNumber(at) || !what || !STOPS.includes(what)) return [];
    const known = { line: "", at, what, place: 0, people: 0, wheelchairs: 0 };
    if (what === "DEPOT") return [{ ...known, load: 0, window: null }];
    if (!isNumber(trip) || !isNumber(load)) return [];
    const isWindow = Array.isArray(window) && window.length === 2 && window.every(isNumber);
    return [{
        ...known,
        trip,
        load,
        ...(isNumber(chairs) ? { chairs } : {}),
        window: isWindow ? window : null
    }];
}

/** The plans of a day, out of the text of the file; null where there is none, or an old one, or one
 * of another day.
 * @param {string | null | undefined} text
 * @param {string} day
 * @param {number} now milliseconds
 * @returns {Plans | null}
 */
export function plansIn(text, day, now) {
    try {
        const it = JSON.parse(text ?? ""), made = Date.parse(it?.made);
        if (it?.day !== day || !(now - made < OLDEST)) return null;
        const vehicles = Object.entries(it.vehicles ?? {}).map(
            ([id, stops]) => /** @type {[number, Stop[]]} */ ([
                Number(id),
                Array.isArray(stops) ? stops.flatMap(stopIn) : []
            ])
        );
        const doings = Object.entries(it.outcomes ?? {}).map(
            ([trip, state]) => /** @type {[number, Doing]} */ ([
                Number(trip),
                { state: /** @type {import("./texts.js").State} */ (state), minutes: 0 }
            ])
        );
        return { made, vehicles: new Map(vehicles), doings: new Map(doings) };
    } catch {
        return null;
    }
}

/** How late the van of a trip comes to its pickup; null where nobody knows, or the van has been
 * there.
 * @param {{ trip: number, vehicle: number }} trip
 * @param {Plans | null} plans
 * @param {Told | null} told
 * @param {number} now the minute of the day
 * @returns {VanLate | null}
 */
export function vanLate({ trip, vehicle }, plans, told, now) {
    const stops = plans?.vehicles.get(vehicle);
    if (!plans || !told || !stops) return null;
    const late = lateOf(
        { vehicle, stops, day: told.day, lines: [], text: "" },
        told.vehicles.get(vehicle) ?? [],
        plans.doings,
        now
    ),
        { delay, silent, far, next, last } = late;
    const trips = stops.filter(({ what }) => what !== "DEPOT"),
        at = trips.findIndex((stop) => stop.what === "PICK" && stop.trip === trip),
        risk = late.risks.find((it) => it.trip === trip);
    if (at < 0 || at <= far) return null;
    const { at: planned } = trips[at],
        isLate = delay >= LEAST_LATE,
        due =
            risk?.due ?? (isLate ? Math.max(now, planned + carried(trips, next, at, delay)) : null);
    return {
        planned,
        delay: isLate ? delay : 0,
        silent,
        due,
        past: risk?.past ?? 0,
        isNext: at === next,
        last,
        made: told.made
    };
}
