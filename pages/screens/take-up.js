// What was being asked when a window was closed: what came of it is looked for at the next sign-in
// and at the next sight of the rider, told once, and never sent again.

import * as desk from "../parts/desk.js";
import { keepOffer, leftOpen, offerOf, endAsking, saidOf } from "../parts/said.js";
import { tellTaken } from "../parts/sent.js";
import { cameOf } from "../parts/taken-up.js";
import { tellBooked } from "./booking-plan.js";

/** @typedef {import("../types").Trip} Trip */
/** @typedef {import("../parts/taken-up.js").Asking} Asking */

const AGAIN = 15_000;

/** @param {Asking} asking @param {Trip[]} trips */
function takeOne(asking, trips) {
    const isAnothers = (/** @type {number} */ trip) =>
        offerOf(trip) !== null && offerOf(trip)?.asking !== asking.id;
    // (a write that this window goes on with may still change what the trip is)
    if (desk.isWriting())
        return;
    const came = cameOf(asking, trips, {
        age: Date.now() - asking.since,
        isKnown: (trip) => saidOf(trip) !== null || isAnothers(trip.trip)
    });
    if (came.is === "waits") return;
    const isBooking = asking.cancels === undefined;
    if (isBooking && came.is === "booked")
        tellBooked({ wish: came.trip, said: asking.said }, came.trip);
    if (isBooking && came.is === "offered")
        keepOffer(came.trip.trip, {
            said: asking.said,
            old: asking.old,
            counted: false,
            window: [came.trip.window_from, came.trip.window_to]
        });
    endAsking(asking.id);
    tellTaken(asking, came);
}

/** Takes up what windows that are gone left open of a rider. false where a window is asking for the
 * rider just now.
 * @param {number} rider @param {Trip[]} trips
 */
export async function takeUp(rider, trips) {
    const open = await leftOpen(rider);
    open?.forEach((it) => takeOne(it, trips));
    return open !== null;
}

/** The same of all riders, until nothing is left open.
 * @returns {Promise<void>}
 */
export async function takeUpAll() {
    const whose = desk.digest(), open = await leftOpen();
    if (!whose || !open?.length) return;
    for (const rider of new Set(open.map((it) => it.rider))) {
        const reply = await desk.readOnce(desk.pathOf.trips(rider));
        if (desk.digest() !== whose) return;
        const { trips } = /** @type {{ trips?: Trip[] }} */ (reply.value ?? {});
        if (trips !== undefined)
            for (const it of await leftOpen() ?? [])
                if (it.rider === rider) takeOne(it, trips);
    }
    setTimeout(() => {
        if (desk.digest() === whose) takeUpAll();
    }, AGAIN);
}
