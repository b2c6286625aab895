// What makes an outcome doubtful before dispatch enters it, by the clock and by what drivers
// tapped. An outcome is final. Nothing here knows of a page.

import { LEAST_LATE } from "./delay.js";
import { tapsOn } from "./reviews.js";

/** @typedef {import("./reviews.js").Outcome} Outcome */
/** @typedef {import("./reviews.js").Tapped} Tapped */
/** @typedef {"early" | "planned" | "aboard" | "said-no-show" | "said-missed" | "silent" |
 * "arrived-late" | "late" | "no-arrival"} Kind early: the window is not open; planned: it is, and
 * the planned pickup is ahead; aboard and said-: what a driver tapped
 */
/** @typedef {{ kind: Kind, minutes: number }} Doubt minutes: how long until, since or late; of what
 * a driver tapped the minute of the tap
 */
/** @typedef {{ now: number, isToday: boolean, late: import("./lateness.js").Late | undefined, taps:
 * Tapped[] }} Seen taps are those of the trip on every phone; now is the minute of the day
 */

/** What speaks for a pickup that was missed by us. */
const OURS = ["said-missed", "silent", "arrived-late", "late"];
/** What a tap says of how its trip ends. (An arrival and a stop that was skipped say nothing of
 * it.)
 * @type {Record<string, Outcome>}
 */
const SAYS = {
    aboard: "ridden",
    dropped: "ridden",
    "no-show": "missed-rider",
    missed: "missed-operator"
};
/** @type {Record<Outcome, Kind>} */
const SAID = { ridden: "aboard", "missed-rider": "said-no-show", "missed-operator": "said-missed" };

/** The tap that says last how a trip ends.
 * @param {Tapped[]} taps of the trip, in their order
 */
const lastSaid = (taps) => taps.filter(({ kind }) => kind in SAYS).at(-1);

/** Whether drivers tapped that a trip ended in another way.
 * @param {Outcome} outcome @param {Tapped[]} taps of the trip, in their order
 */
function isDisputed(outcome, taps) {
    const said = lastSaid(taps);
    return said !== undefined && SAYS[said.kind] !== outcome;
}

/** The trips of a day of which drivers tapped last that they were missed, by the rider or by the
 * agency.
 * @param {Map<number, import("./delay.js").Tap[]>} vehicles by van
 */
export function saidMissed(vehicles) {
    const trips = new Set(
        [...vehicles.values()]
            .flat()
            .filter(({ kind }) => SAYS[kind]?.startsWith("missed"))
            .map(({ trip }) => trip)
    );
    return new Set([...trips].filter((trip) => isDisputed("ridden", tapsOn(vehicles, trip))));
}

/** What a driver tapped against an outcome.
 * @param {Outcome} outcome @param {Tapped[]} taps @returns {Doubt[]}
 */
function againstTaps(outcome, taps) {
    const said = lastSaid(taps), aboard = taps.find(({ kind }) => SAYS[kind] === "ridden");
    if (outcome !== "ridden" && aboard) return [{ kind: "aboard", minutes: aboard.minute }];
    return said && isDisputed(outcome, taps)
        ? [{ kind: SAID[SAYS[said.kind]], minutes: said.minute }]
        : [];
}

/** An outcome before its time.
 * @param {{ window_from: number, planned: number }} row @param {number} now @returns {Doubt[]}
 */
function beforeTime({ window_from: from, planned }, now) {
    if (now < from) return [{ kind: "early", minutes: from - now }];
    return now < planned ? [{ kind: "planned", minutes: planned - now }] : [];
}

/** What speaks against a no-show: the van came late, is late, nobody knows where it is, or its
 * driver taps and has tapped no arrival.
 * @param {{ window_to: number }} row @param {Seen} seen @returns {Doubt[]}
 */
function againstNoShow({ window_to: to }, { now, late, taps }) {
    const arrived = taps.find(({ kind }) => kind === "arrived")?.minute;
    if (arrived !== undefined)
        return arrived > to ? [{ kind: "arrived-late", minutes: arrived - to }] : [];
    if (late && late.silent > 0) return [{ kind: "silent", minutes: late.silent }];
    if (late && late.delay >= LEAST_LATE) return [{ kind: "late", minutes: late.delay }];
    return late?.last && now > to ? [{ kind: "no-arrival", minutes: now - to }] : [];
}

/** What somebody should read before an outcome is entered, the worst first. Of a day that is over
 * nobody knows what was tapped.
 * @param {Outcome} outcome
 * @param {{ window_from: number, window_to: number, planned: number }} row
 * @param {Seen} seen
 * @returns {Doubt[]}
 */
export function outcomeDoubts(outcome, row, seen) {
    if (!seen.isToday) return [];
    const { taps, now } = seen,
        wasAboard = taps.some(({ kind }) => SAYS[kind] === "ridden"),
        said = againstTaps(outcome, taps);
    if (outcome === "ridden") return [...said, ...wasAboard ? [] : beforeTime(row, now)];
    return [
        ...said,
        ...beforeTime(row, now),
        ...outcome === "missed-rider" && !said.length ? againstNoShow(row, seen) : []
    ];
}

/** The outcomes that are offered, the first one first: what may be our fault is offered before a
 * no-show.
 * @param {Outcome} outcome @param {Doubt[]} doubts @returns {Outcome[]}
 */
export const offeredFor = (outcome, doubts) => (
    outcome === "missed-rider" && doubts.some(({ kind }) => OURS.includes(kind))
        ? ["missed-operator", outcome]
        : [outcome]
);
