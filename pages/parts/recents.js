// Who called last, and whom to call back. Nothing here knows of a page or of a store.

/** @typedef {"denied" | "canceled" | "changed" | "booked"} Deed */
/** @typedef {{ rider: number, at: number, done: Partial<Record<Deed, number>> }} Recent at is a
 * moment in milliseconds since 1970; done says for how many trips something was done in the call
 */
/** @typedef {{ rider: number, at: number, why: string }} CallBack at is when it was put on the list
 */

export const MOST_RECENT = 8;
/** So long a call-back is kept, in milliseconds. */
export const CALL_BACK_KEPT = 14 * 86_400_000;
/** What is done in a call, in the order in which it is told.
 * @type {Deed[]}
 */
const DEEDS = ["booked", "changed", "canceled", "denied"];

/** Who calls now stands first, and what was done in the rider's last call is forgotten where it is
 * another call.
 * @param {Recent[]} recents @param {number} rider @param {number} at @returns {Recent[]}
 */
export const withCaller = (recents, rider, at) => (
    recents[0]?.rider === rider
        ? recents
        : [{ rider, at, done: {} }, ...recents.filter((it) => it.rider !== rider)].slice(
              0,
              MOST_RECENT
          )
);

/** What was done for a rider: of each kind it adds up.
 * @param {Recent[]} recents
 * @param {number} rider
 * @param {Deed} did
 * @param {number} count
 * @returns {Recent[]}
 */
export const withDeed = (recents, rider, did, count) =>
    recents.map((it) => (
        it.rider === rider && count
            ? { ...it, done: { ...it.done, [did]: (it.done[did] ?? 0) + count } }
            : it
    ));

/** What a line tells of a call: how many trips were booked, changed and canceled; that nothing was
 * booked, where nothing else was done.
 * @param {Recent} recent @returns {[Deed, number][]}
 */
export function deedsOf({ done }) {
    const all = DEEDS.map((did) => /** @type {[Deed, number]} */ ([did, done[did] ?? 0])).filter(
        ([, count]) => count > 0
    );
    return all.length > 1 ? all.filter(([did]) => did !== "denied") : all;
}

/** @param {unknown} done */
const isDone = (done) =>
    typeof done === "object" &&
    done !== null &&
    Object.entries(done).every(
        ([did, count]) => DEEDS.includes(/** @type {Deed} */ (did)) && Number.isInteger(count)
    );

/** What of a list read from a store can be used.
 * @param {unknown} given @returns {Recent[]}
 */
export const recentsIn = (given) =>
    (Array.isArray(given) ? given : []).filter(
        (it) => Number.isInteger(it?.rider) && Number.isFinite(it?.at) && isDone(it?.done)
    ).slice(0, MOST_RECENT);

/** Whom to call back, who has waited longest first; what is too old is left out.
 * @param {CallBack[]} given @param {number} now @returns {CallBack[]}
 */
export const callBacksIn = (given, now) =>
    given.filter(
        (it) =>
            Number.isInteger(it?.rider) &&
            Number.isFinite(it?.at) &&
            typeof it?.why === "string" &&
            now - it.at < CALL_BACK_KEPT
    ).sort((one, other) => one.at - other.at);
