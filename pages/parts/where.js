// Where a trip of today stands, by the clock and by what the drivers told the site's log. Nothing
// here knows of a page or of the desk.

/** @typedef {{ trip: number, kind: string, minute: number }} Tap what a driver told: kind is the
 * event of the site's log
 */
/** @typedef {"before" | "during" | "over" | "arrived" | "aboard" | "ended"} Place */
/** @typedef {{ place: Place, own: Tap | null, last: Tap | null }} Where own is the last tap of the
 * trip itself, last that of its vehicle
 */

const ENDED = ["dropped", "no-show", "missed"];
/** A file that was made so many milliseconds ago tells nothing of now. */
const STALE = 300_000;

/** The taps of a vehicle in their order, of what /staff/today.json holds: whatever is not of that
 * form is none, and neither is what was made for another day or some minutes ago.
 * @param {{ day?: unknown, made?: unknown, vehicles?: Record<string, { taps?: Tap[] }> } | null
 *     | undefined} told
 * @param {number} vehicle
 * @param {{ day: string, at: number }} now the day, and milliseconds since 1970
 * @returns {Tap[]}
 */
export function tapsOf(told, vehicle, { day, at }) {
    const isOfNow = told?.day === day && Math.abs(at - Date.parse(String(told?.made))) < STALE,
        taps = isOfNow && told?.vehicles?.[String(vehicle)]?.taps;
    const right = Array.isArray(taps)
        ? taps.filter(
              (it) =>
                  Number.isInteger(it?.trip) &&
                  Number.isInteger(it?.minute) &&
                  typeof it?.kind === "string"
          )
        : [];
    return [...right].sort((a, b) => a.minute - b.minute);
}

/** A pickup window is soon where it begins within so many minutes: its van may be late already,
 * which dispatch sees and the office does not.
 */
const SOON = 60;

/** @param {{ window_from: number }} trip @param {number} now the minute of today */
export const isSoon = ({ window_from: from }, now) => from > now && from - now <= SOON;

/** Where a trip of today is that has no outcome yet.
 * @param {{ trip: number, window_from: number, window_to: number }} trip
 * @param {number} now the minute of today
 * @param {Tap[]} taps
 * @returns {Where}
 */
export function whereIs({ trip, window_from: from, window_to: to }, now, taps) {
    const own = taps.filter((it) => it.trip === trip).at(-1) ?? null, last = taps.at(-1) ?? null;
    const byClock = now < from ? "before" : now <= to ? "during" : "over";
    const place =
        own && ENDED.includes(own.kind)
            ? "ended"
            : own?.kind === "arrived" || own?.kind === "aboard"
            ? own.kind
            : byClock;
    return { place: /** @type {Place} */ (place), own, last };
}
