// What the picture of a day shows of one van, as places on its row: who is aboard, pickup windows
// in two lanes, what is past, how late it is. Nothing here knows of a page.

import { aboardAt } from "./texts.js";

/** @typedef {import("./texts.js").Stop} Stop */
/** @typedef {import("./texts.js").Manifest} Manifest */
/** @typedef {"" | "past" | "unsure"} When past, still to come, or past without an update */
/** @typedef {{ from: number, to: number, aboard: number, chairs: number, when: When }} Load minutes
 * of the day; chairs are those of them in wheelchairs
 */
/** @typedef {"" | "done" | "risk" | "unsure" | "missed" | "lost"} Kind lost is a pickup that the
 * agency missed
 */
/** @typedef {{ from: number, to: number, at: number, lane: 0 | 1, kind: Kind }} Window at is the
 * planned minute
 */

const HOUR = 60,
    QUARTER = 15,
    LEAST_ROW = 28,
    ROW = 36,
    MOST_ROW = 46,
    WIDE = 1_500,
    FEW_HOURS = 8,
    LEAST_FULL = 4,
    LABEL = 46;
/** The hours that may be in view at once; 0 are all of the day. */
export const HOURS = [4, FEW_HOURS, 0];

/** The quarters of an hour that a day needs, with one before and one after.
 * @param {Manifest[]} manifests @returns {[number, number]} minutes
 */
export function rangeOf(manifests) {
    const times = manifests.flatMap(({ stops }) =>
        stops.flatMap(({ at, window }) => [at, ...(window ?? [])])
    );
    if (!times.length) return [6 * HOUR, 20 * HOUR];
    return [
        Math.max(0, Math.floor(Math.min(...times) / QUARTER - 1) * QUARTER),
        Math.ceil(Math.max(...times) / QUARTER + 1) * QUARTER
    ];
}

/** How many pixels a minute is wide: as many hours as somebody chose, else all hours where there is
 * room for them.
 * @param {[number, number]} range
 * @param {number} room pixels
 * @param {number | null} hours of HOURS, or null where nobody chose
 */
export function scaleOf([from, to], room, hours) {
    const few = hours ?? (room >= WIDE ? 0 : FEW_HOURS),
        shown = few ? Math.min(to - from, few * HOUR) : to - from;
    return Math.max(0.25, room / shown);
}

/** The whole hours of a range that have room for their names.
 * @param {[number, number]} range @param {number} scale pixels a minute
 */
export function hoursIn([from, to], scale) {
    const step = Math.max(1, Math.ceil(LABEL / (HOUR * scale))), first = Math.ceil(from / HOUR);
    return Array.from(
        { length: Math.max(0, Math.floor(to / HOUR) - first + 1) },
        (_, at) => first + at
    ).filter((hour) => (hour - first) % step === 0);
}

/** How high a row is, its line included: all rows are in view where there is room for them.
 * @param {number} room pixels for the rows @param {number} rows
 */
export function rowHeight(room, rows) {
    const high = rows > 0 ? Math.floor(room / rows) : 0;
    return high < LEAST_ROW ? ROW : Math.min(MOST_ROW, high);
}

/** The most who are aboard at once on a day, which is the full height of a row's loads.
 * @param {Manifest[]} manifests
 */
export const fullest = (manifests) =>
    Math.max(LEAST_FULL, ...manifests.flatMap(({ stops }) => stops.map(aboardAt)));

/** Who is aboard between two stops. What is past ends where the plan has the van now: a late van is
 * as far back as it is late.
 * @param {Stop[]} stops
 * @param {number} past the minute of the plan at which the van is
 * @param {number} heard the minute until which something was told of it
 * @returns {Load[]}
 */
export function loadsOf(stops, past, heard) {
    return stops.slice(1).flatMap((next, at) => {
        const from = stops[at].at,
            to = next.at,
            aboard = aboardAt(stops[at]),
            chairs = stops[at].chairs ?? 0,
            cuts = [heard, past].filter((it) => it > from && it < to);
        if (!aboard || to <= from) return [];
        const ends = [...new Set([from, ...cuts, to])].sort((a, b) => a - b);
        return ends.slice(1).map((end, part) => ({
            from: ends[part],
            to: end,
            aboard,
            chairs,
            when: end > past ? "" : end > heard ? "unsure" : /** @type {When} */ ("past")
        }));
    });
}

/** What a pickup window says of its trip.
 * @param {{ state: string, isRisk: boolean, isPassed: boolean }} trip isRisk: it will be missed, or
 * was; isPassed: the van has been there
 * @returns {Kind}
 */
export function kindOf({ state, isRisk, isPassed }) {
    if (state === "ridden") return "done";
    if (state === "missed-rider") return "missed";
    if (state === "missed-operator") return "lost";
    if (isRisk) return "risk";
    if (state === "no-word") return "unsure";
    return isPassed ? "done" : "";
}

/** Windows in two lanes, each in the first one that is free.
 * @param {{ from: number, to: number, at: number, kind: Kind }[]} windows in the order of their
 * pickups
 * @returns {Window[]}
 */
export function lanesOf(windows) {
    const ends = [-1, -1];
    return windows.map((it) => {
        const lane = it.from >= ends[0] ? 0 : it.from >= ends[1] || ends[1] <= ends[0] ? 1 : 0;
        ends[lane] = it.to + 2;
        return { ...it, lane };
    });
}

/** The stop of a row that is nearest to a minute.
 * @param {Stop[]} stops @param {number} minute
 */
export const nearestStop = (stops, minute) =>
    stops.reduce(
        (best, { at }, index) => (
            Math.abs(at - minute) < Math.abs((stops[best]?.at ?? Infinity) - minute) ? index : best
        ),
        0
    );

/** How many of each group are shown at once where there is room for so many: one of each, then the
 * first groups have more; the rest is behind a button.
 * @param {number[]} counts @param {number} room @param {number} most of one group
 */
export function shares(counts, room, most) {
    const shown = counts.map((count) => Math.min(count, 1));
    let left = room - shown.reduce((sum, it) => sum + it, 0);
    counts.forEach((count, at) => {
        const more = Math.max(0, Math.min(count, most) - shown[at]), taken = Math.min(more, left);
        shown[at] += Math.max(0, taken);
        left -= Math.max(0, taken);
    });
    return shown;
}

/** Names without the word that all of them begin with: "Van 117" is 117 among vans. Where the rest
 * is no number, a name stays whole.
 * @param {string[]} names @returns {(name: string) => string}
 */
export function shortOf(names) {
    const word = /^\S+ (?=\d)/.exec(names[0] ?? "")?.[0] ?? "",
        isShared =
            word !== "" &&
            names.every((it) => it.startsWith(word) && /^\d/.test(it.slice(word.length)));
    return (name) => (isShared && name.startsWith(word) ? name.slice(word.length) : name);
}
