// What dispatch looks at after a no-show or after entries that disagree: what speaks for it, and
// how a wrong outcome is put on record. The desk keeps the first outcome; reports count the right
// one by a line of corrections.csv.

/** @typedef {import("./lateness.js").NoShow} NoShow */
/** @typedef {import("./lateness.js").Disagreement} Disagreement */
/** @typedef {"ridden" | "missed-rider" | "missed-operator"} Outcome */
/** @typedef {import("./lateness.js").Tap & { vehicle: number }} Tapped */
/** @typedef {"aboard" | "late" | "not-arrived" | "early" | "wait"} Doubt */

export const OUTCOMES = /** @type {const} */ (["missed-rider", "missed-operator", "ridden"]);
const COLUMNS = ["trip", "outcome", "who", "why"];
/** How long a name or a reason of a line may be. */
export const MOST = 200;

/** What every phone tapped of a trip, in the order in which it was.
 * @param {Map<number, import("./lateness.js").Tap[]>} vehicles
 * @param {number} trip
 * @returns {Tapped[]}
 */
export const tapsOn = (vehicles, trip) =>
    [...vehicles].flatMap(([vehicle, taps]) =>
        taps.filter((it) => it.trip === trip).map((it) => ({ ...it, vehicle }))
    ).sort((a, b) => a.minute - b.minute);

/** Whether somebody tapped that the rider is aboard, or was.
 * @param {Tapped[]} taps
 */
const wasAboard = (taps) => taps.some(({ kind }) => kind === "aboard" || kind === "dropped");

/** A no-show with the arrival that another phone tapped, where the one that told it has none.
 * @template {Pick<NoShow, "from" | "arrived" | "wait" | "minute">} T
 * @param {T} noShow
 * @param {Tapped[]} taps
 * @returns {T}
 */
export function withArrival(noShow, taps) {
    const arrived = taps.find(({ kind }) => kind === "arrived")?.minute;
    if (noShow.arrived !== null || arrived === undefined) return noShow;
    return {
        ...noShow,
        arrived,
        wait: Math.max(0, noShow.minute - Math.max(arrived, noShow.from))
    };
}

/** The outcomes in the order in which they are offered: a no-show is last where somebody tapped
 * aboard.
 * @param {Tapped[]} taps @returns {readonly Outcome[]}
 */
export const outcomesBy = (taps) => (wasAboard(taps) ? [...OUTCOMES].reverse() : OUTCOMES);

/** What makes a no-show doubtful: somebody tapped aboard, the van came after the window, nobody
 * tapped the arrival, it was told before the window began, or the wait was short.
 * @param {Pick<NoShow, "from" | "to" | "arrived" | "wait" | "minute">} noShow
 * @param {number} minutes the agency's wait
 * @param {Tapped[]} [taps]
 * @returns {Doubt | null}
 */
export function doubtOf(noShow, minutes, taps = []) {
    const { from, to, arrived, wait, minute } = withArrival(noShow, taps);
    if (wasAboard(taps)) return "aboard";
    if (arrived === null) return "not-arrived";
    if (arrived > to) return "late";
    if (minute < from) return "early";
    return wait < minutes ? "wait" : null;
}

/** A value as CSV has it; what a spreadsheet would take for a formula is led by an apostrophe.
 * @param {string} value
 */
function cell(value) {
    const line = value.replace(/[\r\n\t]+/g, " ").trim(),
        plain = /^[=+\-@]/.test(line) ? `'${line}` : line;
    return /[",]/.test(plain) ? `"${plain.replaceAll('"', '""')}"` : plain;
}

/** The line of corrections.csv: trip, outcome, who, why.
 * @param {number} trip @param {Outcome} outcome @param {string} who @param {string} why
 */
export const correctionLine = (trip, outcome, who, why) =>
    [String(trip), outcome, cell(who), cell(why)].join(",");

/** That line as a file of its own.
 * @param {string} line
 */
export const correctionFile = (line) => `${COLUMNS.join(",")}\r\n${line}\r\n`;

/** What names a row of a list over its renewals.
 * @param {{ day: string, trip: number, minute: number, told?: string }} row
 */
export const rowKey = ({ day, trip, minute, told = "" }) => `${day} ${trip} ${minute} ${told}`;

/** What somebody else found right of a trip since a dispatcher opened it; null where nobody did.
 * @template {{ day: string, trip: number, outcome: string, minute: number }} T
 * @param {T[]} before what was settled then
 * @param {T[]} now
 * @param {number} trip
 * @returns {T | null}
 */
export function settledSince(before, now, trip) {
    const of = (/** @type {T[]} */ all) => all.find((it) => it.trip === trip),
        last = of(now),
        first = of(before);
    return last &&
        !(
            first &&
            first.day === last.day &&
            first.minute === last.minute &&
            first.outcome === last.outcome
        )
        ? last
        : null;
}

/** What is to be done once somebody has said which outcome is right: the desk has another one, or
 * none, or this one.
 * @param {Outcome} right
 * @param {string | null} record the status of the trip at the desk
 * @returns {"enter" | "correct" | "confirm"}
 */
export function nextOf(right, record) {
    if (record === "booked") return "enter";
    return right === record ? "confirm" : "correct";
}
