// What parts/out-of-service.js decides, done with the desk: its lists are read, its steps are sent,
// and a plan is kept in this browser's database under its vehicle and day, so that any dispatcher's
// key goes on with it.

import { plus, today, weekdayOf } from "../parts/clock.js";
import { storeOf } from "../parts/database.js";
import * as desk from "../parts/desk.js";
import { EVENTS } from "../parts/events.js";
import { DAYS_AHEAD } from "../parts/limits.js";
import {
    byPickup,
    carryOut as carriedOut,
    keyOf,
    namedOf,
    readAgain as readPlanAgain,
    saidOf
} from "../parts/out-of-service.js";
import { addressSaid, keepSaid, saidOf as saidBy } from "../parts/said.js";
import { tellElsewhere } from "../parts/sent.js";
import { cancelTrip, count } from "../parts/tally.js";
import { manifestsIn, rowsIn } from "../parts/texts.js";
import { toldRead } from "../parts/told.js";
import { firstSaid, keepFirstSaid, keepSettings } from "./dispatcher-settings.js";

/** @typedef {import("../types").Trip} Trip */
/** @typedef {import("../parts/texts.js").Row} Row */
/** @typedef {import("../parts/out-of-service.js").Item} Item */
/** @typedef {import("../parts/out-of-service.js").Plan} Plan */
/** @typedef {import("../parts/out-of-service.js").Ports} Ports */
/** @typedef {{ vehicle: number, from: string, depot: number | null, weekdays: number[], todays:
 * Row[], drops: Map<number, number>, items: Item[], denied?: undefined }} Read drops has the
 * planned drop of each trip of today
 */
/** @typedef {Read | { denied: string }} Found */

/** Milliseconds between two looks at what another dispatcher does with the same trips. */
const BETWEEN_LOOKS = 10_000;

// Kept.

const within = storeOf("desk-out", "plans");

/**
 * @template Whole
 * @template {keyof Whole} Later
 * @typedef {Omit<Whole, Later> & Partial<Pick<Whole, Later>>} Without what may lack some fields
 */
/** @typedef {Without<Omit<Plan, "items">, "back" | "settings" | "isBack" | "backDenied" |
 * "counted"> & { items: Without<Item, "drop" | "other">[] }} KeptPlan as an earlier page kept it
 */

/** A plan as it is now made, of one that an earlier page kept.
 * @param {KeptPlan} plan @returns {Plan}
 */
const asNow = (plan) => ({
    back: null,
    settings: null,
    isBack: false,
    backDenied: null,
    counted: [],
    ...plan,
    items: plan.items.map((item) => ({ drop: null, other: null, ...item }))
});

/** What was begun in this browser, whoever began it.
 * @returns {Promise<Plan[]>}
 */
export const keptPlans = () =>
    within("readonly", (store) => store.getAll()).then((plans) =>
        plans.filter((/** @type {Plan | null} */ it) => it?.vehicle && Array.isArray(it.items)).map(
            asNow
        )
    ).catch(() => []);

/** Whether it is written down.
 * @param {Plan} plan
 */
export const keepPlan = (plan) =>
    within("readwrite", (store) => store.put(plan, keyOf(plan))).then(() => true).catch(
        () => false
    );

/** Forgets a plan, also where an earlier page kept it under another name.
 * @param {Plan} plan
 */
export const dropPlan = (plan) =>
    within("readwrite", (store) => {
        store.openCursor().onsuccess = ({ target }) => {
            const cursor = /** @type {IDBRequest<IDBCursorWithValue | null>} */ (target).result;
            if (cursor?.value && keyOf(cursor.value) === keyOf(plan)) cursor.delete();
            cursor?.continue();
        };
        return store.count();
    }).then(() => true).catch(() => false);

// Reading.

/** The days on which a trip may be booked, from a day on.
 * @param {string} from
 */
const daysFrom = (from) =>
    Array.from({ length: DAYS_AHEAD + 1 }, (_, at) => plus(today(), at)).filter(
        (day) => day >= from
    );

/** The booked trips of a vehicle on some days, or a denial.
 * @param {number} vehicle
 * @param {string[]} days
 * @returns {Promise<{ rows?: Row[], denied?: string }>}
 */
async function bookedIn(vehicle, days) {
    const replies = await Promise.all(days.map((day) => desk.tripsOn(day))),
        denied = replies.find((reply) => reply.denied !== undefined);
    if (denied) return { denied: denied.denied };
    return {
        rows: replies.flatMap((reply) =>
            rowsIn(reply.value ?? "").filter(
                (row) => row.vehicle === vehicle && row.status === "booked"
            )
        )
    };
}

/** The manifests of a vehicle on some days: its depot, and the minute of each planned drop.
 * @param {number} vehicle
 * @param {string[]} days
 * @returns {Promise<{ depot: number | null, drops: Map<number, number>, denied?: string }>}
 */
async function plannedOn(vehicle, days) {
    /** @type {Map<number, number>} */
    const drops = new Map();
    let depot = null;
    for (const day of days) {
        const reply = await desk.manifest(vehicle, day);
        if (reply.denied !== undefined) return { depot, drops, denied: reply.denied };
        for (const { what, trip, place, at } of manifestsIn(reply.value).flatMap(
            ({ stops }) => stops
        )) {
            if (what === "DEPOT") depot ??= place;
            if (what === "DROP") drops.set(Number(trip), at);
        }
    }
    return { depot, drops };
}

/** What the rider said of a trip, with the addresses that were meant; null where nobody knows it.
 * @param {Trip} trip
 */
function namedIn(trip) {
    const said = saidBy(trip);
    if (!said) return null;
    const [start, end] = [addressSaid(trip.trip, "from"), addressSaid(trip.trip, "to")];
    return {
        mode: said.mode,
        minute: said.minute,
        by: said.by,
        ...(start !== undefined && { from_address: start }),
        ...(end !== undefined && { to_address: end })
    };
}

/** The trips of some rows as they were asked for, which the riders' own lists say; whose pickup is
 * nearest comes first.
 * @param {Row[]} rows
 * @param {Map<number, number>} drops
 * @returns {Promise<{ items?: Item[], denied?: string }>}
 */
async function itemsOf(rows, drops) {
    /** @type {Item[]} */
    const items = [];
    for (const rider of new Set(rows.map((row) => row.rider))) {
        const reply = await desk.tripsOf(rider);
        if (reply.denied !== undefined) return { denied: reply.denied };
        const all = reply.value.trips, highest = Math.max(...all.map(({ trip }) => trip));
        for (const row of rows.filter((it) => it.rider === rider)) {
            const old = all.find(({ trip }) => trip === row.trip);
            if (old)
                items.push({
                    rider,
                    old,
                    said: firstSaid(old.trip),
                    named: namedIn(old),
                    drop: drops.get(old.trip) ?? null,
                    highest,
                    step: "booked",
                    ticket: null,
                    other: null,
                    denied: null
                });
        }
    }
    return { items: items.sort((a, b) => byPickup(a.old, b.old)) };
}

/** @param {Iterable<{ day: string }>} rows */
const daysOf = (rows) => [...new Set([...rows].map(({ day }) => day))];

/** On which of some days a vehicle is on duty.
 * @param {number} vehicle @param {string[]} days
 */
async function dutyOn(vehicle, days) {
    const near = days.filter((day) => daysFrom(today()).includes(day)),
        replies = await Promise.all(near.map((day) => desk.sheet(day)));
    const denied = replies.find((reply) => reply.denied !== undefined);
    if (denied) return { denied: /** @type {string} */ (denied.denied) };
    return {
        value: near.filter((_, at) =>
            manifestsIn(replies[at].value ?? "").some((it) => it.vehicle === vehicle)
        )
    };
}

/** What a vehicle has from a day on.
 * @param {number} vehicle @param {string} from @returns {Promise<Found>}
 */
export async function readVehicle(vehicle, from) {
    // (what riders asked for is in the site's log)
    const [booked] = await Promise.all([bookedIn(vehicle, daysFrom(from)), toldRead().again()]),
        rows = booked.rows ?? [];
    if (!booked.rows) return { denied: booked.denied ?? "left" };
    const planned = await plannedOn(vehicle, daysOf(rows.length ? rows : [{ day: from }]));
    if (planned.denied !== undefined) return { denied: planned.denied };
    const later = rows.filter(({ day }) => day > today()),
        read = await itemsOf(later, planned.drops),
        duty = await dutyOn(vehicle, daysFrom(today()));
    if (!read.items || duty.denied !== undefined)
        return { denied: read.denied ?? duty.denied ?? "left" };
    return {
        vehicle,
        from: from <= today() ? plus(today(), 1) : from,
        depot: planned.depot,
        drops: planned.drops,
        items: read.items,
        weekdays: [...new Set((duty.value ?? []).map(weekdayOf))].sort(),
        todays: rows.filter(({ day }) => day === today()).sort(
            (a, b) => a.window_from - b.window_from
        )
    };
}

// Doing.

/** @param {Plan} plan @returns {Promise<Item[]>} */
async function itemsNow({ vehicle, from }) {
    const { rows = [] } = await bookedIn(vehicle, daysFrom(from)),
        { drops } = await plannedOn(vehicle, daysOf(rows));
    return (await itemsOf(rows, drops)).items ?? [];
}

/** @param {import("../parts/out-of-service.js").PutVehicle} fields */
async function putVehicle(fields) {
    const reply = await desk.putVehicle(fields);
    if (reply.denied === undefined) keepSettings(fields);
    return reply;
}

/** Tells the site what the rider of a trip asked for: the desk has the wish by which the page kept
 * the window.
 * @param {Item} item @param {import("../types").Ticket} ticket
 */
function tellBooked(item, ticket) {
    const { trip, window_from: from, window_to: to } = ticket,
        { by, ...named } = namedOf(item);
    keepFirstSaid(trip, saidOf(item));
    if (item.named) keepSaid(ticket, item.named);
    count("bookings", { day: item.old.day, trip, ...named, from, to });
}

/** @param {{ day: string, minute: number, rule: string }} denial */
function tellDenial(denial) {
    if (EVENTS.denials.rule.words?.includes(denial.rule)) count("denials", denial);
}

/** Books what the plan's own list tells of.
 * @type {Ports["book"]}
 */
const bookListed = (fields) => {
    tellElsewhere(fields.rider);
    return desk.book(fields);
};

/** @param {number} vehicle @param {Ports["keep"]} keep @returns {Ports} */
function portsOf(vehicle, keep) {
    const whose = desk.digest();
    return {
        tripsOf: desk.tripsOf,
        cancel: (trip) => cancelTrip(trip, "agency"),
        book: bookListed,
        putVehicle,
        dutyOn: (days) => dutyOn(vehicle, days),
        itemsNow,
        keep,
        count: tellDenial,
        booked: tellBooked,
        pause: () =>
            new Promise((go) => {
                setTimeout(go, BETWEEN_LOOKS);
            }),
        isMine: () => desk.digest() === whose
    };
}

/** Goes on with a plan to its end, or to where it has to stop.
 * @param {Plan} plan @param {Ports["keep"]} keep
 */
export const carryOut = (plan, keep) => carriedOut(plan, portsOf(plan.vehicle, keep));

/** A plan by what the desk says now; stopped says why it could not be read.
 * @param {Plan} plan @returns {Promise<Plan>}
 */
export async function readAgain(plan) {
    // (what was under way when the page was loaded anew comes to its end first)
    await desk.inTurn(async () => {});
    return readPlanAgain(plan, desk);
}
