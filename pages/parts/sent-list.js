// What was asked of the desk for a rider's trips, and what came of each. Nothing here knows of a
// page or of the desk.

import { isOfMinute, isRule } from "./wishes.js";

/** @typedef {import("../types").Wish} Wish */
/** @typedef {"planned" | "sending" | "booked" | "denied" | "unsent" | "left" | "early" | "nothing"
 * | "offered" | "cancelled" | "stands"} State planned: it waits for its turn; unsent: the page was
 * gone before its turn came; left: whoever asked had left before the rider's other trips were
 * known, so nothing was sent; early: a way back that would have begun before the way there arrives,
 * so it was not sent; nothing, offered, cancelled, stands: what the desk had of it once its window
 * was closed
 */
/** @typedef {{ mode: string, minute: number } | null} Said what the rider named: the minute of a
 * wish is the page's
 */
/** @typedef {{ rider: number, wish: Wish, said: Said, trip: number | null, state: State, reply:
 * any, late: boolean, cut?: boolean, at?: Moment }} Leg trip is the number of a trip that is
 * changed, reply the desk's, at when it came, late says that whoever asked could not see the answer
 * at once, cut that the page went while it was being asked: the rest of its plan was not sent
 */

/** @typedef {{ day: string, minute: number }} Moment by the agency's clocks */
/** @typedef {{ is: "booked" | "moved" | "over", trip: import("../types").Trip } | null} Since what
 * the desk has of a trip by now: it stands in the window that was promised, in another one, or has
 * another status
 */

/** @param {Leg} leg @param {{ rider: number, wish: Wish, trip: number | null }} asked */
const isSame = (leg, asked) =>
    leg.rider === asked.rider &&
    leg.trip === asked.trip &&
    leg.wish.day === asked.wish.day &&
    leg.wish.from === asked.wish.from &&
    leg.wish.to === asked.wish.to;

/** The last leg of which something holds, or -1.
 * @param {Leg[]} legs @param {(leg: Leg) => boolean} holds
 */
const lastAt = (legs, holds) => legs.reduce((found, leg, at) => (holds(leg) ? at : found), -1);

/** @param {Leg} leg */
const isOpen = ({ state }) => state === "planned" || state === "sending";

/** What a rider wants anew takes the place of what was seen of the rider before, and of what was
 * left; what else is still to be read stays.
 * @param {Leg[]} legs
 * @param {{ rider: number, trip?: number | null, wanted: { wish: Wish, said: Said }[] }} given
 * @returns {Leg[]}
 */
export const afterPlanning = (legs, { rider, trip = null, wanted }) => [
    ...legs.filter((leg) => leg.rider !== rider || (leg.late && leg.state !== "left")),
    ...wanted.map(({ wish, said }) => ({
        rider,
        wish,
        said,
        trip,
        state: /** @type {State} */ ("planned"),
        reply: null,
        late: false
    }))
];

/** One try of a leg goes out: it may be the second one, with another minute.
 * @param {Leg[]} legs
 * @param {{ rider: number, trip: number | null, wish: Wish }} asked
 * @returns {Leg[]}
 */
export function afterSending(legs, asked) {
    const at = lastAt(legs, (leg) => isSame(leg, asked) && leg.state !== "booked");
    if (at < 0)
        return [...legs, { ...asked, said: null, state: "sending", reply: null, late: false }];
    return legs.map((leg, index) => (
        index === at ? { ...leg, ...asked, state: "sending", reply: null } : leg
    ));
}

/** A try was answered.
 * @param {Leg[]} legs
 * @param {{ rider: number, trip: number | null, wish: Wish }} asked
 * @param {import("../types").Reply<unknown>} reply
 * @param {boolean} late
 * @param {Moment} [when]
 * @returns {Leg[]}
 */
export function afterAnswer(legs, asked, reply, late, when) {
    const at = lastAt(legs, (leg) => isSame(leg, asked) && leg.state === "sending");
    return legs.map((leg, index) => (
        index !== at
            ? leg
            : {
                  ...leg,
                  ...asked,
                  state: reply.denied === undefined ? "booked" : "denied",
                  reply: reply.denied === undefined ? reply.value : reply,
                  late: leg.late || late,
                  at: when
              }
    ));
}

/** The denial that is to be counted with an answer: the page that asked is gone, so its plan counts
 * none. null where it is none of what the rider said.
 * @param {Leg[]} legs as they are before the answer
 * @param {{ rider: number, trip: number | null, wish: Wish }} asked
 * @param {{ denied?: string }} reply
 */
export function denialOfGone(legs, asked, { denied }) {
    const leg = legs[lastAt(legs, (it) => isSame(it, asked) && it.state === "sending")];
    if (!leg?.cut || !leg.said || denied === undefined || !isRule(denied) || isOfMinute(denied))
        return null;
    return {
        day: asked.wish.day,
        minute: leg.said.minute,
        rule: denied,
        mode: /** @type {import("./wishes.js").Mode} */ (leg.said.mode)
    };
}

/** The page was loaded anew: what waited for its turn never went out, and whoever asked sees no
 * answer of what did.
 * @param {Leg[]} legs @returns {Leg[]}
 */
export function afterLoading(legs) {
    const open = new Set(legs.filter(isOpen).map(({ rider }) => rider));
    return legs.filter(({ rider, late }) => late || open.has(rider)).map((leg) => ({
        ...leg,
        state: leg.state === "planned" ? "unsent" : leg.state,
        late: true,
        cut: leg.cut === true || (!leg.late && leg.state !== "planned")
    }));
}

/** The form that asked for a rider's trips is on the page no more, and with it what it showed: all
 * that it asked for is told in the list.
 * @param {Leg[]} legs @param {number} rider @returns {Leg[]}
 */
export const afterGone = (legs, rider) =>
    legs.map((leg) => (leg.rider === rider ? { ...leg, late: true } : leg));

/** Whether an answer is to be told in the list. A form that asked shows it itself as long as it is
 * seen, also where the line was broken meanwhile.
 * @param {{ hasForm: boolean, isSeen: boolean, waited: boolean }} given
 */
export const isLate = ({ hasForm, isSeen, waited }) => !isSeen || (waited && !hasForm);

/** Whoever asked for a rider's trips left before the rider's other trips were known: none of it is
 * sent, and each is told.
 * @param {Leg[]} legs @param {number} rider @returns {Leg[]}
 */
export const afterLeaving = (legs, rider) =>
    legs.map((leg) => (
        leg.rider === rider && leg.state === "planned" ? { ...leg, state: "left", late: true } : leg
    ));

/** A way back that is not asked for until the rider has said when to leave. Whoever asked sees the
 * question, or it is told.
 * @param {Leg[]} legs
 * @param {number} rider
 * @param {Wish} wish
 * @param {boolean} late
 * @returns {Leg[]}
 */
export function afterUnasked(legs, rider, wish, late) {
    const at = lastAt(
        legs,
        (leg) => leg.state === "planned" && isSame(leg, { rider, trip: null, wish })
    );
    return late
        ? legs.map((leg, index) => (
              index === at ? { ...leg, state: /** @type {State} */ ("early"), late } : leg
          ))
        : legs;
}

/** What the desk had of something whose window was closed. What this window's list tells already
 * stands there once.
 * @param {Leg[]} legs @param {Leg} taken @returns {Leg[]}
 */
export const afterTakingUp = (legs, taken) => (
    taken.state !== "cancelled" &&
        taken.state !== "stands" &&
        lastAt(legs, (leg) => isSame(leg, taken) && leg.late) >= 0
        ? legs
        : [...legs, taken]
);

/** All that was to be asked for a rider was asked: what was seen is not kept, and what was left out
 * on purpose is no loss.
 * @param {Leg[]} legs @param {number} rider @returns {Leg[]}
 */
export const afterEnding = (legs, rider) =>
    legs.filter((leg) => leg.rider !== rider || (leg.late && leg.state !== "planned"));

/** What became since of a trip that a leg tells of, by a later reply; null where that is not known,
 * or nothing can have become of it.
 * @param {Leg} leg
 * @param {import("../types").Trip[] | null} trips the rider's trips
 * @returns {Since}
 */
export function sinceOf({ state, reply, wish }, trips) {
    const trip =
        state === "booked" || state === "offered" || state === "stands"
            ? trips?.find((it) => it.trip === reply.trip)
            : undefined;
    if (!trip) return null;
    if (trip.status !== "booked") return { is: "over", trip };
    return {
        is:
            trip.window_from === reply.window_from &&
                trip.window_to === reply.window_to &&
                trip.day === wish.day
                ? "booked"
                : "moved",
        trip
    };
}

/** What is still to be read, of all riders or of one.
 * @param {Leg[]} legs @param {number | null} [rider]
 */
export const toBeRead = (legs, rider = null) =>
    legs.filter((leg) => leg.late && (rider === null || leg.rider === rider));

/** Whose trip is changed, where the list knows it: the desk is told the trip alone.
 * @param {Leg[]} legs @param {number} trip
 */
export const riderOfChange = (legs, trip) => legs.find((leg) => leg.trip === trip)?.rider ?? 0;

/** The list of a rider was read.
 * @param {Leg[]} legs @param {number} rider
 */
export const afterReading = (legs, rider) =>
    legs.filter((leg) => leg.rider !== rider || isOpen(leg));
