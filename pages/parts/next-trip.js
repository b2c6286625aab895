// The next trip of a rider. Nothing here knows of a page.

/** @typedef {{ day: string, window_from: number, window_to: number, status: string }} Trip */

/** The booked trip whose pickup window ends next; undefined where none is to come.
 * @template {Trip} Any
 * @param {Any[]} trips
 * @param {{ day: string, minute: number }} now the day and the minute of the day
 * @returns {Any | undefined}
 */
export const nextTrip = (trips, { day, minute }) =>
    trips.filter(
        (it) =>
            it.status === "booked" && (it.day > day || (it.day === day && it.window_to >= minute))
    ).sort(
        (one, other) => one.day.localeCompare(other.day) || one.window_from - other.window_from
    )[0];

/** The numbers of trips that stood at the last look and are canceled now, by somebody else than
 * this window.
 * @param {{ trip: number, status: string }[] | null} before
 * @param {{ trip: number, status: string }[]} now
 * @param {Set<number>} own what this window has canceled
 */
export function canceledElsewhere(before, now, own) {
    const stood = new Set(
        (before ?? []).filter(({ status }) => status === "booked").map(({ trip }) => trip)
    );
    return now.filter(
        ({ trip, status }) => status === "cancelled" && stood.has(trip) && !own.has(trip)
    ).map(({ trip }) => trip);
}
