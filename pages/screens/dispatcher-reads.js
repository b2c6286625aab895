// What the dispatcher's parts read, from the store of all screens: a day, what drivers told of it,
// and the work of one vehicle.

import { serverNow, today } from "../parts/clock.js";
import * as desk from "../parts/desk.js";
import { isFresh, toldIn } from "../parts/lateness.js";
import { reading } from "../parts/reads.js";
import { toldRead } from "../parts/told.js";
import { readVehicle } from "./dispatcher-plan.js";

/** @typedef {import("../parts/lateness.js").Told} Told */
/** @typedef {{ text: string | null, csv: string, denied:
 * import("../parts/ages.js").Told | null }} Day its sheet, null where it was
 * not read yet, and its trips
 */

const RENEWED = 15_000;

/** A day's sheet and its trips, as of one moment.
 * @param {string} day
 */
export const dayRead = (day) =>
    reading(`/days/${day}/`, {
        period: RENEWED,
        read: async (ask) => {
            const [sheet, trips] = await Promise.all([
                ask(desk.pathOf.sheet(day)),
                ask(desk.pathOf.tripsOn(day))
            ]);
            return [sheet, trips].find((it) => it.silent || it.denied !== undefined) ?? {
                    value: { sheet: sheet.value, csv: trips.value }
                };
        }
    });

/** The minute at which a day was read last, or null.
 * @param {string} day @returns {number | null}
 */
export const dayHeard = (day) => dayRead(day).heard();

/** @param {string} day @returns {Day} */
export function dayNow(day) {
    const reply = dayRead(day).reply();
    return {
        text: reply?.value?.sheet ?? null,
        csv: reply?.value?.csv ?? "",
        denied: reply?.denied === undefined ? null : reply
    };
}

/** What drivers told today. */
export const driversRead = () => toldRead({ period: RENEWED });

/** What was read last, by its text: it is read once, so that who draws sees that nothing has
 * changed.
 * @type {{ text: string | null, day: string, told: Told | null }}
 */
let last = { text: null, day: "", told: null };

/** What people told of a day; null where the site has no fresh file of it.
 * @param {string} day @returns {Told | null}
 */
export function toldNow(day) {
    const text = driversRead().reply()?.value ?? null, now = serverNow();
    if (day !== today()) return null;
    if (last.text !== text || last.day !== day) last = { text, day, told: toldIn(text, day, 0) };
    return last.told && isFresh(last.told, now) ? last.told : null;
}

/** What a vehicle has from a day on. It takes some sixty requests: it is read where somebody asks
 * for it, and says its age.
 * @param {number} vehicle @param {string} from
 */
export const vehicleRead = (vehicle, from) =>
    reading(`/vehicles/${vehicle}/from/${from}`, {
        quiet: true,
        period: Infinity,
        read: async () => {
            const found = await readVehicle(vehicle, from);
            return found.denied === undefined ? { value: found } : found;
        }
    });
