// What this browser's dispatchers put of each vehicle: its weekdays, seats and hours from a day on.
// The desk tells them to nobody, and a vehicle that comes back into service needs them again. It
// outlives signing out, as the admin's last policy does; no rider is in it.

import { keepObject, keptObject } from "../parts/kept.js";

/** @typedef {import("../parts/out-of-service.js").Settings} Settings */
/** @typedef {Settings & { from_day: string }} Version */

const KEPT = "dispatcher.vehicles",
    NAMES = /** @type {const} */ ([
        "days", "depot", "capacity", "chairs", "opens", "closes", "duration"
    ]);

/** @returns {Record<string, Version[]>} */
const all = () => keptObject(KEPT);

/** What was put of a vehicle, the newest day first; days off duty are left out.
 * @param {number} vehicle @returns {Version[]}
 */
const versionsOf = (vehicle) =>
    (all()[vehicle] ?? []).filter((it) => Array.isArray(it?.days) && it.days.length > 0);

/** Keeps what was put; it replaces what was kept of that vehicle for that day and later, as it does
 * in the desk.
 * @param {import("../parts/out-of-service.js").PutVehicle} put
 */
export function keepSettings({ id, from_day: from, ...fields }) {
    const kept = /** @type {Version} */ ({
        from_day: from,
        ...Object.fromEntries(NAMES.map((name) => [name, fields[name]]))
    });
    const before = (all()[id] ?? []).filter((it) => it.from_day < from);
    // (a browser without room asks for them again)
    keepObject(KEPT, { ...all(), [id]: [...before, kept].slice(-20) });
}

/** What a vehicle had on a day, as far as it was put from here; null where it was not.
 * @param {number} vehicle @param {string} day @returns {Version | null}
 */
export const settingsOn = (vehicle, day) =>
    versionsOf(vehicle).filter((it) => it.from_day <= day).sort((a, b) => (
        a.from_day < b.from_day ? 1 : -1
    ))[0] ??
    null;

// By what the desk was first asked for trips that were booked again in their old window: it has the
// pin of those.

const SAID = "dispatcher.said",
    MOST_SAID = 2_000;

/** @returns {Record<string, import("../parts/out-of-service.js").Said>} */
const allSaid = () => keptObject(SAID);

/** @param {number} trip */
export const firstSaid = (trip) => allSaid()[trip];

/** @param {number} trip @param {import("../parts/out-of-service.js").Said} said */
export function keepFirstSaid(trip, said) {
    // (a browser without room knows the desk's wish alone)
    keepObject(
        SAID,
        Object.fromEntries([...Object.entries(allSaid()), [trip, said]].slice(-MOST_SAID))
    );
}
