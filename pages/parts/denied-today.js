// The denials of today for lack of a vehicle, as the site's log has them, and of which of them a
// copy of the desk's file is kept.

import { MODES } from "./wishes.js";

/** @typedef {import("./wishes.js").Mode} Mode */
/** @typedef {{ id: string, day: string, minute: number, mode: Mode | null, channel: string |
 * null, at: string, marked: string | null }} DeniedTrip at is when it was denied, marked when its
 * copy was asked for; the trip's day and minute are those that were asked for
 */

const isText = (/** @type {unknown} */ it) => typeof it === "string";

/** The denials in the text of the file of the day, the last one first; none where the file is of
 * another day or cannot be read.
 * @param {string | null} text @param {string} today @returns {DeniedTrip[]}
 */
export function deniedIn(text, today) {
    try {
        const { day, denials } = JSON.parse(text ?? "");
        if (day !== today || !Array.isArray(denials)) return [];
        const whole = denials.filter(
            (it) => isText(it?.id) && isText(it.day) && Number.isInteger(it.minute) && isText(it.at)
        );
        return whole.map(({ id, day: asked, minute, mode, channel, at, marked }) => ({
            id,
            day: asked,
            minute,
            at,
            mode: MODES.includes(mode) ? mode : null,
            channel: isText(channel) ? channel : null,
            marked: isText(marked) ? marked : null
        })).sort((a, b) => (a.at < b.at ? 1 : a.at > b.at ? -1 : 0));
    } catch {
        return [];
    }
}
