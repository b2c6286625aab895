// How late a van is by taps at its stops and by outcomes: one rule for the dispatcher's board and
// for the driver's phone. The depot is no part of it: nobody waits there.

import { aboardAt } from "./texts.js";

/** @typedef {Pick<import("./texts.js").Stop, "at" | "what" | "load" | "chairs" | "trip">} Stop */
/** @typedef {import("./texts.js").Doing} Doing */
/** @typedef {{ trip: number, kind: string, minute: number, stop?: string }} Tap stop says where a
 * skip, a no-show or a missed pickup was tapped: pickup or drop-off
 */
/**
 * @template {Stop} Its
 * @typedef {{ trips: Its[], known: Tap[], last: Tap | null, open: Its[], far: number, here: Its |
 * null, next: number, silent: number, delay: number }} Progress trips are the stops without
 * depots and known the taps at them, in their order; open are pickups of which nobody told an end;
 * far is the furthest stop that was reached, here where the van stands and next the place of the
 * stop to come; minutes: delay, or silent for how long there should have been an update
 */

/** A van is called late from so many minutes on. */
export const LEAST_LATE = 5;
/** A van is without update where none came for so many minutes. */
const SILENT = 20;
const ENDED = ["ridden", "missed-rider", "missed-operator"],
    AT_PICKUP = ["arrived", "aboard", "no-show", "missed"],
    DROPPED = "drop-off";
/** What tells how a pickup ended. */
const TOLD = ["aboard", "dropped", "no-show", "missed"];

/** What is left of a delay at a later stop. An empty van makes up the planned time between two
 * stops, less the longest way that it drives with riders that day, since the way to the next stop
 * takes its time too.
 * @param {Stop[]} trips @param {number} from @param {number} to @param {number} delay
 */
export function carried(trips, from, to, delay) {
    const ways = trips.slice(1).map((next, at) => next.at - trips[at].at),
        isEmpty = (/** @type {number} */ at) => aboardAt(trips[at]) === 0;
    const longest = Math.max(0, ...ways.filter((_, at) => !isEmpty(at)));
    return ways.slice(from, to).reduce(
        (left, way, at) => (
            isEmpty(from + at) ? Math.max(0, left - Math.max(0, way - longest)) : left
        ),
        delay
    );
}

/** Whether a tap was made at a drop-off. A skip that does not say where it was is of the drop-off
 * once the pickup was told of before.
 * @param {Tap} tap @param {Tap[]} before of the same trip
 */
function isAtDrop({ kind, stop }, before) {
    if (stop) return stop === DROPPED;
    return kind === "skipped"
        ? before.some((it) => it.kind === "aboard" || it.kind === "skipped")
        : !AT_PICKUP.includes(kind);
}

/** The stops at which taps were made: -1 where the van has no such stop.
 * @param {Stop[]} trips @param {Tap[]} taps in their order @returns {number[]}
 */
const placesOf = (trips, taps) =>
    taps.map((tap, at) => {
        const what = isAtDrop(tap, taps.slice(0, at).filter(({ trip }) => trip === tap.trip))
            ? "DROP"
            : "PICK";
        return trips.findIndex((stop) => stop.trip === tap.trip && stop.what === what);
    });

/** Whether a stop is done by what the desk has.
 * @param {Stop} stop @param {Map<number, Doing>} doings
 */
const isEnded = ({ trip }, doings) => ENDED.includes(doings.get(Number(trip))?.state ?? "");

/** The pickups of which nobody told an end, by tap or outcome.
 * @template {Stop} Its
 * @param {Its[]} trips @param {Tap[]} taps @param {Map<number, Doing>} doings
 */
function openPickups(trips, taps, doings) {
    const told = new Set(taps.filter(({ kind }) => TOLD.includes(kind)).map(({ trip }) => trip));
    return trips.filter(
        (stop) =>
            stop.what === "PICK" &&
            !told.has(Number(stop.trip)) &&
            !isEnded(stop, doings) &&
            doings.get(Number(stop.trip))?.state !== "cancelled"
    );
}

/** How late the van was by its taps. A tap at a stop shows it. A stop that is skipped and a pickup
 * that is given up may be told from afar, and show nothing. A rider dropped off while the end of an
 * earlier arrival is open never lowers it.
 * @param {Stop[]} trips
 * @param {Tap[]} taps in their order
 * @param {number[]} places of the taps
 * @param {Stop[]} open
 */
function toldDelay(trips, taps, places, open) {
    const waiting = places.filter(
        (place, at) => taps[at].kind === "arrived" && open.includes(trips[place])
    );
    return taps.reduce((delay, tap, at) => {
        const late = Math.max(0, tap.minute - trips[places[at]].at);
        if (tap.kind === "skipped" || tap.kind === "missed") return delay;
        const isDoubtful = tap.kind === "dropped" && waiting.some((it) => it < places[at]);
        return isDoubtful ? Math.max(delay, late) : late;
    }, 0);
}

/** How far a van has come, and how late it is.
 * @template {Stop} Its
 * @param {Its[]} stops
 * @param {Tap[]} taps
 * @param {Map<number, Doing>} doings outcomes by trip
 * @param {number} now the minute of the day
 * @returns {Progress<Its>}
 */
export function progressOf(stops, taps, doings, now) {
    const trips = stops.filter(({ what }) => what !== "DEPOT"),
        sorted = [...taps].sort((a, b) => a.minute - b.minute),
        all = placesOf(trips, sorted);
    const known = sorted.filter((_, at) => all[at] >= 0),
        places = all.filter((it) => it >= 0),
        last = known.at(-1) ?? null,
        reached = places.at(-1) ?? -1;
    const open = openPickups(trips, known, doings),
        ended = trips.reduce((most, stop, at) => (isEnded(stop, doings) ? at : most), -1),
        far = Math.max(reached, ended);
    const here =
        last?.kind === "arrived" && far === reached && !isEnded(trips[reached], doings)
            ? trips[reached]
            : null,
        next = here ? reached : far + 1;
    const overdue = trips[next] && !here ? Math.max(0, now - trips[next].at) : 0,
        told =
            trips[next] && last
                ? carried(trips, reached, next, toldDelay(trips, known, places, open))
                : 0;
    const isSilent = overdue > SILENT && (!last || now - last.minute > SILENT);
    return {
        trips,
        known,
        last,
        open,
        far,
        here,
        next,
        silent: isSilent ? overdue : 0,
        delay: isSilent ? 0 : Math.max(overdue, told)
    };
}
