// From when to when the fixed routes of the agency's file run on a day. The desk has the routes
// that it judges by; this names what the file says. Nothing here knows of a page.

/** @typedef {{ days?: number[], first?: number, last?: number }} Route days are weekdays, 1 for
 * Monday; first and last are minutes of the day
 */

/** The first and the last minute at which a route of the file runs on a weekday; null where none
 * does, or where a route does not say when.
 * @param {Route[]} routes @param {number} weekday @returns {{ first: number, last: number } | null}
 */
export function busHours(routes, weekday) {
    const running = routes.filter(({ days }) => days === undefined || days.includes(weekday));
    if (
        !running.length ||
        running.some(({ first, last }) => first === undefined || last === undefined)
    )
        return null;
    return {
        first: Math.min(...running.map(({ first }) => Number(first))),
        last: Math.max(...running.map(({ last }) => Number(last)))
    };
}
