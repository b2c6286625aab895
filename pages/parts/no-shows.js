// What was seen of a no-show: whether the van was there within the promised window, and for how
// long it waited, as the driver told it to the site (/staff/no-shows.json). Nothing here knows of a
// page.

/** @typedef {{ day: string, vehicle: number, from: number, to: number, arrived: number | null,
 * wait: number, minute: number }} Seen minutes are those of the trip's day
 */
/** @typedef {{ since: string, trips: Map<number, Seen> }} File since is the first day of which
 * no-shows are kept
 */
/** @typedef {{ kind: "in-time" | "late" | "short" | "no-arrival" | "none" | "old", arrived?:
 * number, wait?: number, late?: number }} Evidence late is in minutes after the window
 */

const isMinute = (/** @type {unknown} */ it) => Number.isInteger(it) && Number(it) >= 0;

/** What a file holds, or null where it is none. A row that is in another form is left out.
 * @param {string | null} text @returns {File | null}
 */
export function fileIn(text) {
    try {
        const { since, no_shows: rows } = JSON.parse(text ?? "");
        if (typeof since !== "string" || typeof rows !== "object" || rows === null) return null;
        const right = Object.entries(rows).filter(
            ([trip, it]) =>
                /^[1-9]\d*$/.test(trip) &&
                isMinute(it?.from) &&
                isMinute(it.to) &&
                isMinute(it.wait) &&
                (it.arrived === null || isMinute(it.arrived))
        );
        return { since, trips: new Map(right.map(([trip, it]) => [Number(trip), it])) };
    } catch {
        return null;
    }
}

/** What was seen of a trip that was missed, by its number and its day; minutes is how long the
 * agency's vans wait.
 * @param {File} file
 * @param {number} trip
 * @param {string} day
 * @param {number} minutes
 * @returns {Evidence}
 */
export function evidenceOf(file, trip, day, minutes) {
    const seen = file.trips.get(trip);
    if (!seen || seen.day !== day) return { kind: day < file.since ? "old" : "none" };
    const { arrived, wait, to } = seen;
    if (arrived === null) return { kind: "no-arrival" };
    if (arrived > to) return { kind: "late", arrived, wait, late: arrived - to };
    return { kind: wait < minutes ? "short" : "in-time", arrived, wait };
}

/** Whether it speaks for a no-show of the rider.
 * @param {Evidence} evidence
 */
export const isGround = ({ kind }) => kind === "in-time";
