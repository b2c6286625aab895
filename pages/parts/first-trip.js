// Which of a rider's trips is next: the one that a rider wants to know of first. Nothing here knows
// of a page or of the desk.

/** @typedef {{ trip: number, day: string, window_from: number, window_to: number, status: string }}
 * Trip
 */

/** A trip without an outcome is looked for first until so many minutes after its window, however
 * late its van is.
 */
const LOOKED_FOR = 120;

/** The trips of today and later, in the order in which they are shown: the next one, and the others
 * by their time. A canceled trip is never next.
 * @template {Trip} It
 * @param {It[]} trips sorted by their time
 * @param {string} today
 * @param {number} now the minute of today
 * @returns {{ next: It | null, others: It[] }}
 */
export function nextOf(trips, today, now) {
    const isLongOver = (/** @type {Trip} */ { day, window_to: to }) =>
        day === today && now > to + LOOKED_FOR;
    const standing = trips.filter(({ status }) => status !== "cancelled"),
        next = standing.find((it) => !isLongOver(it)) ?? standing[0] ?? null;
    return { next, others: trips.filter((it) => it !== next) };
}

/** The trips of today whose window is over, apart from those that follow.
 * @template {Trip} It
 * @param {It[]} trips
 * @param {string} today
 * @param {number} now the minute of today
 * @returns {{ over: It[], later: It[] }}
 */
export function apartBy(trips, today, now) {
    const isOver = (/** @type {Trip} */ it) => windowIs(it, today, now) === "over";
    return { over: trips.filter(isOver), later: trips.filter((it) => !isOver(it)) };
}

/** Whether the pickup window of a trip is to come, is open, or is over.
 * @param {Trip} trip
 * @param {string} today
 * @param {number} now
 * @returns {"before" | "during" | "over"}
 */
export function windowIs({ day, window_from: from, window_to: to }, today, now) {
    if (day !== today) return day > today ? "before" : "over";
    return now < from ? "before" : now <= to ? "during" : "over";
}
