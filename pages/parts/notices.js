// The basis of a notice: which trips were missed, and the suspension that is proposed, in one fixed
// form that the letter is made of (49 CFR 37.125(h)(2)(i)). It has no part of the page, so that it
// can be tried by itself.

import { MISSED_TRIPS, PROPOSED, THROUGH } from "../words/on-record.js";
import { bytesOf } from "./plain.js";

/** @typedef {{ day: string, from: number, to: number, place: string }} Missed day as YYYY-MM-DD,
 * the promised window in minutes of the day, where it began
 */
/** @typedef {{ missed: string[], first: string, last: string, more: string }} Notice the missed
 * trips in words, the proposed days, what else was written
 */
/** @typedef {{ missed: Missed[], first: string, last: string, more: string }} Chosen the trips that
 * were checked, the proposed days, what else was written
 */

const BETWEEN = "; ",
    DAY = String.raw`(\d{4}-\d{2}-\d{2})`;
/** @param {string} text */
const plain = (text) => text.replace(/[()]/g, "\\$&");
const FORM = new RegExp(
    `^${plain(MISSED_TRIPS)}(.+?)\\. ${PROPOSED}${DAY}${THROUGH}${DAY}\\.(?: (.*))?$`,
    "s"
);

/** 0905: the room is scarce.
 * @param {number} minute
 */
const clock = (minute) =>
    `${String(Math.floor(minute / 60) % 24).padStart(2, "0")}${String(minute % 60).padStart(2, "0")}`;

/** A place's name without the signs that end an item of the list.
 * @param {string} place
 */
const placeWords = (place) =>
    place.replace(/;/g, ",").replace(/\. /g, " ").replace(/\.$/, "").trim();

/** One missed trip on record: its day, the promised window, and where it began.
 * @param {Missed} trip
 */
export const missedInWords = ({ day, from, to, place }) =>
    [`${day} ${clock(from)}-${clock(to)}`, placeWords(place)].filter(Boolean).join(" ");

/** What the desk is told. It may be longer than the desk takes.
 * @param {Chosen} given
 */
export function basisOf({ missed, first, last, more }) {
    const trips = missed.map(missedInWords).join(BETWEEN), proposed = `${first}${THROUGH}${last}`;
    return `${MISSED_TRIPS}${trips}. ${PROPOSED}${proposed}.${more && ` ${more}`}`;
}

/** A trip whose place has its name up to the first comma alone.
 * @param {Missed} trip @returns {Missed}
 */
const shortened = (trip) => ({ ...trip, place: trip.place.split(",")[0] });

/** A basis of as many of the chosen trips as fit into so many bytes: with the whole names of
 * places, or else with short ones. Those after the first `named` are left out, and do not count.
 * One trip is always named.
 * @param {Chosen} given
 * @param {number} most
 * @returns {{ basis: string, length: number, named: number }}
 */
export function fittingBasis(given, most) {
    const whole = basisOf(given), missed = given.missed.map(shortened);
    if (bytesOf(whole) <= most)
        return { basis: whole, length: bytesOf(whole), named: missed.length };
    const withFirst = (/** @type {number} */ named) =>
        basisOf({ ...given, missed: missed.slice(0, named) });
    let named = missed.length;
    while (named > 1 && bytesOf(withFirst(named)) > most) named -= 1;
    return { basis: withFirst(named), length: bytesOf(withFirst(named)), named };
}

/** What a basis says, or null where it is in other words than ours.
 * @param {string} basis @returns {Notice | null}
 */
export function noticeIn(basis) {
    const found = FORM.exec(basis);
    return found && {
            missed: found[1].split(BETWEEN),
            first: found[2],
            last: found[3],
            more: found[4] ?? ""
        };
}
