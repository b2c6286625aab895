// What a No to an offer may do: somebody else may have kept it for the rider meanwhile, and the
// desk has no mark of that. Nothing here knows of a page or of the desk.

/** Milliseconds for which nobody else can have heard of an offer, and for which the site's file is
 * waited for at most.
 */
export const FRESH = 15_000, LONGEST = 15_000;

/** at-once: nobody else can have answered it. look: the site's file says who has, once it is newer
 * than the No. unsure: nobody here can know.
 * @param {{ age: number | null, canRead: boolean }} offer age is how long ago this window got it,
 * null where it did not; canRead says whether the site's file may be read with this key
 * @returns {"at-once" | "look" | "unsure"}
 */
export function noOf({ age, canRead }) {
    if (age !== null && age >= 0 && age < FRESH) return "at-once";
    return canRead ? "look" : "unsure";
}

/** Whether a file of the site has all that came before a moment; one that says no time is as new as
 * it gets.
 * @param {string | null | undefined} made
 * @param {number} since in milliseconds of the server's clock
 */
export function isNewer(made, since) {
    const at = Date.parse(made ?? "");
    return Number.isNaN(at) || at > since;
}
