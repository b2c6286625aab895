// Where a day has room: how many are aboard each van, by quarters of an hour, out of its manifest.

import { aboardAt } from "./texts.js";

/** @typedef {import("./texts.js").Manifest} Manifest */

const QUARTER = 15,
    HOUR = 60;

/** The most persons aboard in each quarter of an hour from a minute until before another; null
 * where the van is not on the road.
 * @param {Manifest["stops"]} stops
 * @param {number} from
 * @param {number} to
 * @returns {(number | null)[]}
 */
export function aboardByQuarter(stops, from, to) {
    const legs = stops.slice(1).map((next, at) => ({
        from: stops[at].at,
        to: next.at,
        count: aboardAt(stops[at])
    }));
    return Array.from({ length: Math.ceil((to - from) / QUARTER) }, (_, index) => {
        const begin = from + index * QUARTER,
            end = begin + QUARTER,
            mine = legs.filter((leg) => leg.from < end && leg.to > begin);
        return mine.length ? Math.max(...mine.map(({ count }) => count)) : null;
    });
}

/** The quarters of each hour of a day, van by van, and over all vans how many persons are aboard
 * and how many vans carry nobody.
 * @param {Manifest[]} manifests @param {[number, number]} hours the first and the last hour
 */
export function roomOf(manifests, [first, last]) {
    const rows = manifests.map(({ vehicle, stops }) => ({
        vehicle,
        quarters: aboardByQuarter(stops, first * HOUR, last * HOUR)
    }));
    const all = Array.from({ length: (last - first) * HOUR / QUARTER }, (_, at) => ({
        persons: rows.reduce((sum, { quarters }) => sum + (quarters[at] ?? 0), 0),
        empty: rows.filter(({ quarters }) => !quarters[at]).length
    }));
    return { rows, all };
}
