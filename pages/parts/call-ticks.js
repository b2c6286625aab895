// Who was called: the ticks of this browser, and those that the site's log has of every machine. Of
// one trip the last tick counts.

/** @typedef {{ result: string, at: string }} Tick at is the moment by the agency's clock, empty
 * where it is not known; the result is called, not-reached, or empty where a tick was taken back
 */
/** @typedef {Tick & { isElsewhere: boolean }} Shown */

const RESULTS = ["called", "not-reached"];
const NONE = { result: "", at: "", isElsewhere: false };

/** A tick as it is kept; earlier pages kept the result alone.
 * @param {unknown} kept @returns {Tick | null}
 */
export function tickIn(kept) {
    if (typeof kept === "string") return { result: kept, at: "" };
    const { result, at } = /** @type {{ result?: unknown, at?: unknown }} */ (kept ?? {});
    return typeof result === "string" && typeof at === "string" ? { result, at } : null;
}

/** What the file of the day has of a trip in a list.
 * @param {string | null | undefined} text
 * @param {string} list
 * @param {number} trip
 * @returns {Tick | null}
 */
export function tickOnFile(text, list, trip) {
    try {
        const it = JSON.parse(text ?? "null"),
            result = it?.calls?.[list]?.[trip],
            at = it?.call_times?.[list]?.[trip];
        if (typeof result !== "string") return null;
        return {
            result: RESULTS.includes(result) ? result : "",
            at: typeof at === "string" ? at : ""
        };
    } catch {
        return null;
    }
}

/** The tick that counts: the later one. What this browser has told by itself is not from elsewhere.
 * @param {Tick | null} mine @param {Tick | null} told @returns {Shown}
 */
export function lastTick(mine, told) {
    // (of two ticks of one second the site's file has the one that came last, for both who made
    // them)
    const isTie = told && mine && told.at === mine.at && told.at && told.result !== mine.result;
    if (told && (!mine || told.at > mine.at || isTie)) return { ...told, isElsewhere: true };
    return mine ? { ...mine, isElsewhere: false } : NONE;
}
