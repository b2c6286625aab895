// What riders said of their trips: the mode and the minute, which the desk does not keep. This
// browser keeps what was said in it, and staff read the rest from the site's log
// (/staff/today.json). It holds as long as the trip's promised window is the one that was given for
// it.
//
// Beside it stand offers that nobody has answered, and what was being asked when a window was
// closed: both are taken up at the next sight of the rider. All of it is bound to the digest of the
// key, and is of trips and minutes alone but for what is being asked.

import { agency, placeOf } from "./agency.js";
import { today } from "./clock.js";
import * as desk from "./desk.js";
import { keepObject, keptObject } from "./kept.js";
import { alone, held } from "./locks.js";
import { toldRead } from "./told.js";
import { guessedDrive, isMadeUp } from "./wishes.js";

/** @typedef {import("../types").Trip} Trip */
/** @typedef {import("./wishes.js").Mode} Mode */
/** @typedef {import("./wishes.js").Said} Said */
/** @typedef {{ mode: Mode, minute: number, by?: number | null, from_address?: number, to_address?:
 * number }} Named what a rider named: the mode, its minute, a minute to be there by beside a
 * pickup, and which addresses of the places are meant
 */
/** @typedef {Named & { from?: number, to?: number }} Kept with the window that was promised for it
 */
/** @typedef {{ said: Said, old: Trip | null, counted: boolean, elsewhere?: "booking" | "change",
 * asking?: string, window?: [number, number], before?: number }} Offer old is the trip as it was
 * before a change; elsewhere says what the trip was where another browser was offered it: how it
 * was before is not known here; asking is the plan that got it and has not ended, window what was
 * offered once it had, before the minute at which the way there arrives where this way back begins
 * before it
 */
/** @typedef {import("./taken-up.js").Asking} Asking */

const SAID = "desk.said",
    OFFERS = "desk.offers",
    ASKING = "desk.asking";
/** How many trips are remembered. */
const MOST = 500;

/** @typedef {Kept & { rider: number, day: string, offer: "booking" | "change" }} Offered */
/** What the site's log knows of bookings and offers, as it was last taken out of its text.
 * @type {{ text: string | null, made: string | null, bookings: Record<string, Kept>, offers:
 * Record<string, Offered> }}
 */
let served = { text: null, made: null, bookings: {}, offers: {} };
/** What this page asks just now, whose key began it, and how its lock is let go.
 * @type {Map<string, { whose: string | null, release: () => void }>}
 */
const running = new Map();

/** @typedef {{ "desk.said": Kept, "desk.offers": Offer, "desk.asking": Asking }} Stores */

/** @template {keyof Stores} Name
 * @param {Name} name @param {string | null} [whose] @returns {Record<string, Stores[Name]>}
 */
const stored = (name, whose = desk.digest()) => keptObject(`${name}.${whose}`);

/** @param {keyof Stores} name
 * @param {string | number} key
 * @param {unknown} value null drops it
 * @param {string | null} [whose]
 */
function put(name, key, value, whose = desk.digest()) {
    const { [key]: _, ...others } = stored(name, whose),
        kept = Object.entries(value === null ? others : { ...others, [key]: value }).slice(-MOST);
    keepObject(`${name}.${whose}`, kept.length ? Object.fromEntries(kept) : null);
}

// What was said.

/** @param {string | null} text
 * @returns {{ made?: unknown, bookings?: unknown, offers?: unknown }}
 */
function objectIn(text) {
    try {
        return JSON.parse(text ?? "") ?? {};
    } catch {
        return {};
    }
}

/** @template Row @param {unknown} it @returns {Record<string, Row>} */
const tableIn = (it) => (
    typeof it === "object" && it !== null && !Array.isArray(it)
        ? /** @type {Record<string, Row>} */ (it)
        : {}
);

/** What the site's log knows of bookings and offers, for staff, as far as it was read; a missing
 * file is none.
 */
function servedNow() {
    const text = toldRead().reply()?.value ?? null;
    if (text !== served.text) {
        const { made, bookings, offers } = objectIn(text);
        served = {
            text,
            made: typeof made === "string" ? made : null,
            bookings: tableIn(bookings),
            offers: tableIn(offers)
        };
    }
    return served;
}

/** @param {import("../types").Ticket} ticket
 * @param {{ mode: Mode, minute: number, by?: number | null, from_address?: number | null,
 * to_address?: number | null }} said
 */
export const keepSaid = (
    { trip, window_from: from, window_to: to },
    { mode, minute, by, from_address: start, to_address: end }
) =>
    put(SAID, trip, {
        mode,
        minute,
        by,
        from,
        to,
        ...(start && { from_address: start }),
        ...(end && { to_address: end })
    });

/** @param {Kept | undefined} kept @param {{ window_from: number, window_to: number }} trip */
const holds = (kept, trip) =>
    kept !== undefined &&
    ["around", "not-before", "by"].includes(kept.mode) &&
    Number.isInteger(kept.minute) &&
    (kept.from === undefined || kept.from === trip.window_from) &&
    (kept.to === undefined || kept.to === trip.window_to);

/** What the rider said of a trip, or null where it is not known.
 * @param {{ trip: number, window_from: number, window_to: number }} trip @returns {Named | null}
 */
export function saidOf(trip) {
    return [stored(SAID)[trip.trip], servedNow().bookings[trip.trip]].find((kept) =>
        holds(kept, trip)
    ) ??
        null;
}

/** Which address an end of a trip means, as its booking named it; undefined where it named none.
 * @param {number | undefined} trip @param {"from" | "to"} end @returns {number | undefined}
 */
export function addressSaid(trip, end) {
    const [here, told] = trip === undefined ? [] : [stored(SAID)[trip], servedNow().bookings[trip]];
    return (told ?? here)?.[`${end}_address`];
}

/** Minutes of driving, guessed.
 * @param {{ from: number, to: number }} trip
 */
export const driveOf = ({ from, to }) => guessedDrive(placeOf(from), placeOf(to));

/** The minute to be there by that the rider named, and none that a plan made.
 * @param {{ trip?: number, wish: number, by: number | null, from: number, to: number, window_from?:
 * number, window_to?: number }} trip
 */
export function namedBy(trip) {
    const said = trip.trip === undefined ? null : saidOf(/** @type {Trip} */ (trip));
    if (said?.mode === "by") return said.minute;
    if (said && said.by !== undefined) return said.by;
    return isMadeUp(trip, driveOf(trip)) ? null : trip.by;
}

// Offers.

/** @param {number} trip @param {Offer} offer */
export const keepOffer = (trip, offer) => put(OFFERS, trip, offer);
/** @param {number} trip */
export const dropOffer = (trip) => put(OFFERS, trip, null);
/** @param {number} trip @returns {Offer | null} */
export const offerOf = (trip) => stored(OFFERS)[trip] ?? null;

/** Whether the site's log has a trip as kept in the window that was offered here: another clerk
 * answered the offer.
 * @param {import("../types").Ticket} offer
 * @param {Trip | null} old the trip as it was before a change: what the log has may be of then
 */
export const isKeptElsewhere = (offer, old) =>
    holds(servedNow().bookings[offer.trip], offer) &&
    !(old?.window_from === offer.window_from && old.window_to === offer.window_to);

/** The offer that a trip is until somebody has answered it: as this browser knows it, or the site's
 * log, whose file is some seconds old.
 * @param {Trip} trip @returns {Offer | null}
 */
export function openOffer(trip) {
    if (trip.status !== "booked" || trip.day < today()) return null;
    const told = servedNow().offers[trip.trip], own = offerOf(trip.trip);
    if (own && isKeptElsewhere(trip, own.old)) return null;
    // (somebody else has put the trip to another time, which nobody has offered)
    if (own?.window && (own.window[0] !== trip.window_from || own.window[1] !== trip.window_to))
        return null;
    // (a plan that has not ended may still give what was said)
    if (own?.asking !== undefined && stored(ASKING)[own.asking])
        return null;
    if (
        own ||
        !holds(told, trip) ||
        holds(stored(SAID)[trip.trip], trip) ||
        holds(servedNow().bookings[trip.trip], trip)
    )
        return own;
    return {
        said: {
            mode: told.mode,
            minute: told.minute,
            by: null,
            drive: driveOf(trip),
            lead: agency().lead,
            change: told.offer === "change"
        },
        old: null,
        counted: true,
        elsewhere: told.offer === "change" ? "change" : "booking"
    };
}

/** When the site made the file of the day that was read last, or null where it does not say. */
export const toldMade = () => servedNow().made;

/** The offers that the site's log knows and nobody has answered, by trip, for the list of what
 * waits.
 */
export const offersTold = () =>
    Object.entries(servedNow().offers).filter(
        ([, it]) => Number.isInteger(it?.rider) && Number.isInteger(it.minute)
    ).map(([trip, it]) => ({ ...it, trip: Number(trip) }));

// What is being asked. As long as a page asks, it holds a lock: what nobody holds any more was left
// open by a window that is gone.

/** @param {string} id */
const lockOf = (id) => `desk asking ${id}`;

/** @param {Omit<import("./taken-up.js").Booking, "id" | "since"> |
 * Omit<import("./taken-up.js").Canceling, "id" | "since">} asking
 */
function begin(asking) {
    const id = desk.newKey(), whose = desk.digest();
    const ends = new Promise((release) => running.set(id, { whose, release: () => release(null) }));
    alone(lockOf(id), () => ends);
    put(ASKING, id, { id, since: Date.now(), ...asking });
    return id;
}

/** Writes down what is about to be asked, so that a closed window leaves no trip that nobody knows
 * of.
 * @param {number} rider
 * @param {import("../types").Wish} wish
 * @param {Said} said
 * @param {Trip | null} old
 * @param {number[]} [agreed] other wishes that the rider has agreed to
 */
export const beginAsking = (rider, wish, said, old, agreed) =>
    begin({ rider, wish, said, old, agreed });

/** The same of a trip that is about to be cancelled.
 * @param {number} rider @param {Trip} trip
 */
export const beginCanceling = (rider, trip) => begin({ rider, cancels: trip });

/** Nobody knows what came of it: it is looked for at the next sight of the rider.
 * @param {string} id
 */
export function leaveAsking(id) {
    running.get(id)?.release();
    running.delete(id);
}

/** What came of it is known.
 * @param {string} id
 */
export function endAsking(id) {
    const whose = running.get(id)?.whose ?? desk.digest();
    leaveAsking(id);
    put(ASKING, id, null, whose);
}

/** What was left open by windows that are gone, of all riders or of one. null where a window is
 * asking for that rider just now.
 * @param {number | null} [rider] @returns {Promise<Asking[] | null>}
 */
export async function leftOpen(rider = null) {
    const all = /** @type {Asking[]} */ (Object.values(stored(ASKING))).filter(
        (it) => rider === null || it?.rider === rider
    );
    if (!all.length) return [];
    const names = await held();
    const open = all.filter(({ id }) => !running.has(id) && !names.has(lockOf(id)));
    return rider !== null && open.length < all.length ? null : open;
}
