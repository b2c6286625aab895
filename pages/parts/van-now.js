// Where a van is along its manifest: which stops are done and when, which one is next, and when it
// comes to those that are left. Nothing here knows of a page.

import { LEAST_LATE, carried } from "./delay.js";

/** @typedef {import("./texts.js").Stop} Stop */
/** @typedef {import("./delay.js").Tap} Tap */
/** @typedef {import("./lateness.js").Late} Late */
/** @typedef {{ stop: Stop, at: number, isDone: boolean, done: number | null, due: number | null,
 * past: number }} Leg minutes of the day: done is when somebody tapped it, due when the van comes
 * by its delay, past for how long the window is over by then
 */
/** @typedef {{ legs: Leg[], next: number, aboard: Stop | null }} VanNow next is the place of the
 * stop to come, aboard the stop after which the van is
 */

const AT_PICKUP = ["arrived", "aboard", "no-show", "missed"];

/** What stands at a stop that lies behind the van: who was missed was neither picked up nor dropped
 * off.
 * @param {{ stop: Stop, isDone: boolean }} leg
 * @param {string | undefined} state how the trip is doing
 * @returns {"done" | "missed-rider" | "missed-operator" | null}
 */
export function endOf({ stop: { what }, isDone }, state) {
    if (!isDone || what === "DEPOT") return null;
    if (state !== "missed-rider" && state !== "missed-operator") return "done";
    return what === "PICK" ? state : null;
}

/** When somebody tapped a stop last.
 * @param {Stop} stop @param {Tap[]} taps
 */
function tapOf({ what, trip }, taps) {
    const mine = taps.filter(
        (it) =>
            it.trip === trip &&
            (what === "PICK" ? AT_PICKUP.includes(it.kind) : it.kind === "dropped")
    );
    return mine.length ? Math.max(...mine.map(({ minute }) => minute)) : null;
}

/** The place of the stop to come, by taps and outcomes where there are any, else by the plan.
 * @param {Stop[]} stops
 * @param {Late | undefined} late
 * @param {number} now the minute of the day; -1 before it began, and without bound once it is over
 */
function nextOf(stops, late, now) {
    const order = stops.filter(({ what }) => what !== "DEPOT"),
        byPlan = stops.findIndex(({ at }) => at > now);
    if (!late || late.far < 0 || !Number.isFinite(now)) return byPlan < 0 ? stops.length : byPlan;
    const next = order[late.next];
    return next
        ? stops.indexOf(next)
        : stops.length - (stops[stops.length - 1]?.what === "DEPOT" ? 1 : 0);
}

/** @param {Stop[]} stops
 * @param {Late | undefined} late
 * @param {Tap[]} taps
 * @param {number} now
 * @returns {VanNow}
 */
export function vanNow(stops, late, taps, now) {
    const order = stops.filter(({ what }) => what !== "DEPOT"),
        next = nextOf(stops, late, now),
        delay = late && late.delay >= LEAST_LATE ? late.delay : 0;
    const dueOf = (/** @type {Stop} */ stop) => (
        delay && stop.what !== "DEPOT"
            ? Math.max(now, stop.at + carried(order, late?.next ?? 0, order.indexOf(stop), delay))
            : null
    );
    const legs = stops.map((stop, at) => {
        const isDone = at < next, due = isDone ? null : dueOf(stop);
        return {
            stop,
            at,
            isDone,
            done: isDone ? tapOf(stop, taps) : null,
            due,
            past: due !== null && stop.window ? Math.max(0, due - stop.window[1]) : 0
        };
    });
    return { legs, next, aboard: stops[next - 1] ?? null };
}
