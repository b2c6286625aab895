// What came of a request whose window was closed before the answer, by the rider's trips as they
// are now. Nothing here knows of a page or of the desk, and nothing is sent again: what the desk
// does not have was not done.

import { isAsSaid, mayGoOn, requestsOf } from "./wishes.js";

/** @typedef {import("../types").Trip} Trip */
/** @typedef {import("../types").Wish} Wish */
/** @typedef {import("./wishes.js").Said} Said */
/** @typedef {{ id: string, since: number, rider: number, wish: Wish, said: Said, old: Trip | null,
 * agreed?: number[], cancels?: undefined }} Booking old is the trip as it was before a change,
 * agreed the wishes beside those of the plan that the rider has said yes to already
 */
/** @typedef {{ id: string, since: number, rider: number, cancels: Trip }} Canceling */
/** @typedef {Booking | Canceling} Asking */
/** @typedef {{ is: "booked" | "offered" | "cancelled" | "stands", trip: Trip } | { is: "nothing" |
 * "waits" }} Came waits: it may still be on its way
 */

/** Milliseconds for which a request may still be on its way to the desk once its window was closed.
 */
export const ON_ITS_WAY = 60_000;

/** @param {Trip} trip @param {Wish} wish */
const isAsked = (trip, wish) =>
    trip.day === wish.day &&
    trip.from === wish.from &&
    trip.to === wish.to &&
    trip.companions === wish.companions &&
    trip.attendant === wish.attendant;

/** @param {Trip} trip @param {Trip} old */
const isOther = (trip, old) =>
    !isAsked(trip, old) ||
    trip.wish !== old.wish ||
    trip.by !== old.by ||
    trip.window_from !== old.window_from;

/** @param {Booking} asking @param {Trip[]} trips @param {(trip: Trip) => boolean} isKnown */
function foundIn({ wish, said, old, agreed }, trips, isKnown) {
    const wishes = agreed ?? requestsOf(said).map((it) => it.wish);
    return trips.filter(({ status }) => status === "booked").find(
        (trip) =>
            isAsked(trip, wish) &&
            wishes.includes(trip.wish) &&
            (old ? trip.trip === old.trip && isOther(trip, old) : !isKnown(trip))
    ) ??
        null;
}

/** What came of it. isKnown says whether a trip is known as another booking's; age is how long ago
 * it was begun, in milliseconds.
 * @param {Asking} asking
 * @param {Trip[]} trips
 * @param {{ age: number, isKnown: (trip: Trip) => boolean }} known
 * @returns {Came}
 */
export function cameOf(asking, trips, { age, isKnown }) {
    const last = age >= ON_ITS_WAY || age < 0;
    if (asking.cancels !== undefined) {
        const { trip: number } = asking.cancels,
            trip = trips.find((it) => it.trip === number) ?? null;
        if (trip?.status === "cancelled") return { is: "cancelled", trip };
        return !last ? { is: "waits" } : trip ? { is: "stands", trip } : { is: "nothing" };
    }
    const trip = foundIn(asking, trips, isKnown);
    if (!trip) return { is: last ? "nothing" : "waits" };
    if (asking.agreed || isAsSaid(asking.said, trip)) return { is: "booked", trip };
    // (the plan may have asked for a nearer time, and that reply is the last one)
    return last || !mayGoOn(asking.said, trip) ? { is: "offered", trip } : { is: "waits" };
}
