// What the driver's phone tells the site's log: taps at stops, no-shows with what speaks for them,
// notes of the day, and outcomes that disagree.

import { eventPath, stopPath } from "../parts/tally.js";

/** @typedef {import("../parts/events.js").Fields["stops"]["event"]} StopEvent */
/** @typedef {import("./driver-day.js").What} What */
/** @typedef {import("./driver-day.js").Evidence} Evidence */

/** The event of each tap.
 * @type {Partial<Record<What, StopEvent>>} */
const EVENTS = {
    arrived: "arrived",
    aboard: "aboard",
    ridden: "dropped",
    left: "left",
    "missed-rider": "no-show-rider",
    "missed-operator": "no-show-agency"
};
const MINUTE = 60, LONGEST_WAIT = 1439;

/** What can be tapped at both stops of a trip: it is told at which it was. */
const AT_BOTH = ["left", "missed-rider", "missed-operator"];

/** A tap at a stop.
 * @param {{ vehicle: number, trip: number, what: What, at: string, isDrop?: boolean }} tap */
export const stopTold = ({ vehicle, trip, what, at, isDrop = false }) =>
    stopPath({
        vehicle,
        trip,
        event: /** @type {StopEvent} */ (String(EVENTS[what])),
        at,
        ...(AT_BOTH.includes(what) ? { stop: isDrop ? "drop-off" : "pickup" } : {})
    });

/** A no-show with its promised window, the arrival and the minutes of wait.
 * @param {{ vehicle: number, day: string, trip: number, at: string }} tap
 * @param {Evidence} evidence
 */
export const noShowTold = (tap, { promise, arrived, waited }) => (
    promise
        ? [
              eventPath("no-shows", {
                  ...tap,
                  from: promise[0],
                  to: promise[1],
                  wait: Math.min(LONGEST_WAIT, Math.floor(waited / MINUTE)),
                  ...(arrived === null ? {} : { arrived })
              })
          ]
        : []
);

/** @param {{ vehicle: number, day: string, trip: number, text: string, at: string }} note trip is 0
 * where it is of the van
 */
export const noteTold = (note) => eventPath("notes", note);

/** @param {import("../parts/events.js").Fields["disagreements"]} disagreement */
export const disagreementTold = (disagreement) => eventPath("disagreements", disagreement);

/** That what was told of a tap is taken back, where anything was.
 * @param {{ vehicle: number, trip: number, tapped: string, at: string }} tap
 * @param {string[]} told the paths that went out
 */
export const undoneTold = (tap, told) => (
    told.some((path) => !path.includes("/undone?")) ? [eventPath("undone", tap)] : []
);
