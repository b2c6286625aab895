// What is done with the trips of a vehicle that is out of service: which step comes next, and what
// the desk's own lists say of each step. It asks through functions that it is given, and so runs
// without a page. Each step is written down before it is sent, so that a closed tab or a broken
// line forgets no rider; and before a trip is cancelled or booked, its rider's list is read, so
// that nothing is done to a trip that changed.

import { plus } from "./clock.js";
import { LAST_MINUTE, MOST_DURATION, NEGOTIATED_MINUTES } from "./limits.js";

/** @typedef {import("../types").Trip} Trip */
/** @typedef {import("../types").Ticket} Ticket */
/** @typedef {"booked" | "cancelling" | "cancelled" | "booking" | "again" | "nowhere" | "gone" |
 * "changed" | "ended" | "kept" | "elsewhere"} Step gone: somebody else cancelled it; changed: it is
 * another trip now, and passed over; ended: it has an outcome; kept: the desk did not cancel it;
 * elsewhere: somebody else booked it anew
 */
/** @typedef {import("./said.js").Named} Named */
/** @typedef {{ wish: number, by: number | null }} Said by what the desk was first asked */
/** @typedef {{ rider: number, old: Trip, said?: Said, named?: Named | null, drop: number | null,
 * highest: number, step: Step, ticket: (Ticket & Partial<Trip>) | null, other: Trip | null, denied:
 * string | null, isChanged?: boolean }} Item said is by what the desk was first asked, where the
 * trip was booked by such a plan; named is what the rider said, where it is known; drop is the
 * minute of the planned drop; highest the rider's last trip before the plan; other is what somebody
 * else booked or changed; isChanged says that it came anew into the list since it was changed
 */
/** @typedef {{ days: number[], depot: number, capacity: number, chairs: number, opens: number,
 * closes: number, duration: number }} Settings of a vehicle
 */
/** @typedef {Settings & { id: number, from_day: string }} PutVehicle */
/** @typedef {{ vehicle: number, from: string, back: string | null, mode: "cancel" | "move", depot:
 * number, settings: Settings | null, isOut: boolean, isBack: boolean, backDenied: string | null,
 * stopped: string | null, done: boolean, counted: number[], items: Item[], waits?: boolean }} Plan
 * back is the first day on duty again; waits: it is read again until what somebody else does with
 * its trips stands still
 */
/**
 * @template [Value=unknown]
 * @typedef {{ value: Value, denied?: undefined } | { denied: string, value?: undefined }} Told
 */
/**
 * @typedef {object} Ports what a plan asks for
 * @property {(rider: number) => Promise<Told<{ trips: Trip[] }>>} tripsOf
 * @property {(trip: number) => Promise<Told>} cancel
 * @property {(fields: import("../types").Wish & { rider: number }) => Promise<Told<Ticket>>} book
 * @property {(fields: PutVehicle) => Promise<Told>} putVehicle
 * @property {(days: string[]) => Promise<Told<string[]>>} dutyOn of some days those on which the
 * vehicle is on duty
 * @property {(plan: Plan) => Promise<Item[]>} itemsNow what is booked in the vehicle now
 * @property {(plan: Plan) => Promise<void>} keep
 * @property {(denial: { day: string, minute: number, rule: string }) => void} count
 * @property {(item: Item, ticket: Ticket) => void} booked tells of a new trip, whose rider asked
 * for what namedOf says
 * @property {() => Promise<void>} pause lets some seconds pass before the desk is read again
 * @property {() => boolean} isMine whether the key that began it is still signed in with
 */

/** What makes a trip the one that is in the list. */
const MEANT = /** @type {(keyof Trip)[]} */ ([
    "day", "vehicle", "wish", "from", "to", "by", "attendant", "companions"
]);
/** How many minutes after the old planned drop the new one may be, try by try. */
const LATER = [10, 25, 45];
/** Denials after which nobody knows whether it was done, or nothing more can be done: the desk has
 * to be read again first.
 */
const STOPS = ["left", "desk.key", "desk.caller", "desk.number"];
const LONGEST_ABSENCE = 14;
/** What somebody else does stands still once so many looks in a row have found nothing new. */
const STILL = 3;

/** The name under which a plan is kept: any dispatcher of this browser goes on with it.
 * @param {{ vehicle: number, from: string }} plan
 */
export const keyOf = ({ vehicle, from }) => `${vehicle} ${from}`;

/** Whose pickup is nearest comes first.
 * @param {{ day: string, window_from: number, trip: number }} a
 * @param {{ day: string, window_from: number, trip: number }} b
 */
export const byPickup = (a, b) => (
    a.day === b.day ? a.window_from - b.window_from || a.trip - b.trip : a.day < b.day ? -1 : 1
);

/** What a rider's own list says of a trip in a plan.
 * @param {Item} item @param {Trip[]} trips @returns {"same" | "cancelled" | "changed" | "ended"}
 */
function standingOf({ old }, trips) {
    const now = trips.find(({ trip }) => trip === old.trip);
    if (!now || now.status === "cancelled") return "cancelled";
    if (now.status !== "booked") return "ended";
    return MEANT.every((name) => (now[name] ?? null) === (old[name] ?? null)) ? "same" : "changed";
}

/** The trip that somebody booked in place of one: made after the plan was read, for the same way on
 * that day or for the same time. The way back stands for no way there.
 * @param {Item} item
 * @param {Trip[]} trips
 * @param {Set<number>} taken trips that stand for another one already
 * @returns {Trip | null}
 */
export const anewOf = ({ old, highest }, trips, taken) =>
    trips.find(
        (it) =>
            it.trip > highest &&
            it.status === "booked" &&
            it.day === old.day &&
            !taken.has(it.trip) &&
            (
                (it.from === old.from && it.to === old.to) ||
                (
                    (it.from !== old.to || it.to !== old.from) &&
                    it.window_from <= old.window_to &&
                    it.window_to >= old.window_from
                )
            )
    ) ??
    null;

/** By what the desk was first asked: a trip that was pinned to its old window has the pin.
 * @param {Pick<Item, "old" | "said">} item @returns {Said}
 */
export const saidOf = ({ old, said }) => said ?? { wish: old.wish, by: old.by };

/** What the rider asked for. A page asks the desk for other minutes than the rider's, so what it
 * asked stands only where nobody knows what the rider said.
 * @param {Pick<Item, "old" | "said" | "named">} item @returns {Named}
 */
export function namedOf({ named, ...item }) {
    const { wish, by } = saidOf(item);
    if (named) return named;
    return by === null ? { mode: "around", minute: wish } : { mode: "by", minute: by };
}

/** The minute of the pickup that the rider asked for; the desk's, where the rider named when to be
 * there.
 * @param {Pick<Item, "old" | "said" | "named">} item
 */
export const pickupAsked = (item) => (
    item.named && item.named.mode !== "by" ? item.named.minute : saidOf(item).wish
);

/** The wishes by which a trip is asked for again. The desk looks within an hour of a wish: with a
 * wish an hour after the old window began, and a drop that is due near the old one, it finds the
 * old window where it can. The last one is what the rider first said.
 * @param {Item} item @returns {Said[]}
 */
export function triesOf(item) {
    const { old, drop } = item, first = saidOf(item);
    if (drop === null) return [first];
    const wish = Math.min(old.window_from + NEGOTIATED_MINUTES, LAST_MINUTE),
        latest = first.by ?? LAST_MINUTE;
    const pinned = [...new Set(LATER.map((minutes) => Math.min(drop + minutes, latest)))].map(
        (by) => ({ wish, by })
    );
    return [...pinned.filter((it) => it.wish !== first.wish || it.by !== first.by), first];
}

/** Whether the window that was promised holds: the new one is the same, or within it.
 * @param {Item} item
 */
export const isSameWindow = ({ old, ticket }) =>
    !ticket || (ticket.window_from >= old.window_from && ticket.window_to <= old.window_to);

/** How many minutes a window that does not hold begins after the old one, negative where it begins
 * before; where it begins with it, how many it ends later.
 * @param {Item} item
 */
export const movedBy = (item) => (
    isSameWindow(item) || !item.ticket
        ? 0
        : item.ticket.window_from - item.old.window_from ||
              item.ticket.window_to - item.old.window_to
);

/** Whether a new window begins more than an hour from what the rider asked for.
 * @param {Item} item
 */
export const isFar = (item) =>
    item.ticket !== null &&
    Math.abs(item.ticket.window_from - pickupAsked(item)) > NEGOTIATED_MINUTES;

/** How many items of a plan are where.
 * @param {Plan} plan
 */
export function countsOf({ items }) {
    const count = (/** @type {(item: Item) => boolean} */ is) => items.filter(is).length,
        at = (/** @type {Step[]} */ ...steps) => count(({ step }) => steps.includes(step));
    return {
        count: items.length,
        cancelled: at("cancelled", "booking", "again", "nowhere", "elsewhere"),
        again: at("again"),
        nowhere: at("nowhere"),
        gone: at("gone"),
        elsewhere: at("elsewhere"),
        passed: at("changed", "ended", "kept"),
        moved: count((item) => item.step === "again" && movedBy(item) !== 0)
    };
}

/** Trips that stand for one of a plan already.
 * @param {Plan} plan
 */
const takenIn = ({ items }) =>
    new Set(
        items.flatMap(({ ticket, other }) => [ticket, other].flatMap((it) => (it ? [it.trip] : [])))
    );

/** A plan with what is booked in its vehicle now: trips that came meanwhile, and those that changed
 * and stayed in it.
 * @param {Plan} plan @param {Item[]} fresh @returns {Plan}
 */
function withNewcomers(plan, fresh) {
    const open = new Set(["booked", "cancelling", "kept"]),
        known = new Map(plan.items.map((item) => [item.old.trip, item]));
    const come = fresh.filter(({ old }) => !open.has(known.get(old.trip)?.step ?? "")).map(
        (it) => ({ ...it, isChanged: known.has(it.old.trip) })
    ),
        numbers = new Set(come.map(({ old }) => old.trip));
    return {
        ...plan,
        items: [...plan.items.filter(({ old }) => !numbers.has(old.trip)), ...come].sort((a, b) =>
            byPickup(a.old, b.old)
        )
    };
}

// Doing.

/** @param {Plan} plan @param {Item} item @param {Partial<Item>} patch @returns {Plan} */
const withItem = (plan, { old }, patch) => ({
    ...plan,
    items: plan.items.map((it) => (it.old.trip === old.trip ? { ...it, ...patch } : it))
});

/** @typedef {{ plan: Plan, stop: string | null }} Done */
/** @typedef {(plan: Plan, item: Item) => Promise<Done>} Act what is done with one item */

/** Does something with each item that is ready for it; stop says why it went no further.
 * @param {Plan} plan
 * @param {Step} ready
 * @param {Ports} ports
 * @param {Act} act
 * @returns {Promise<Done>}
 */
async function each(plan, ready, ports, act) {
    let now = plan;
    for (const { old } of plan.items) {
        const item = now.items.find((it) => it.old.trip === old.trip);
        if (!item || item.step !== ready) continue;
        if (!ports.isMine()) return { plan: now, stop: "left" };
        const done = await act(now, item);
        now = done.plan;
        if (done.stop) return done;
    }
    return { plan: now, stop: null };
}

/** What an item is where its trip is no longer the one of the list.
 * @param {"cancelled" | "changed" | "ended"} standing
 * @param {Item} item
 * @param {Trip[]} trips
 * @param {Set<number>} taken
 * @returns {Partial<Item>}
 */
function passedOver(standing, item, trips, taken) {
    const now = trips.find(({ trip }) => trip === item.old.trip) ?? null;
    if (standing === "cancelled")
        return { step: "gone", other: anewOf(item, trips, taken), denied: null };
    return { step: standing === "changed" ? "changed" : "ended", other: now, denied: null };
}

/** @param {Ports} ports @returns {Act} */
const cancelOne = (ports) => async (plan, item) => {
    const { keep } = ports, before = await ports.tripsOf(item.rider);
    if (before.denied !== undefined) return { plan, stop: before.denied };
    const standing = standingOf(item, before.value.trips), taken = takenIn(plan);
    if (standing !== "same")
        return kept(
            withItem(plan, item, passedOver(standing, item, before.value.trips, taken)),
            keep
        );
    const under = withItem(plan, item, { step: "cancelling" });
    await keep(under);
    const { denied } = await ports.cancel(item.old.trip);
    if (denied === undefined)
        return kept(withItem(under, item, { step: "cancelled", denied: null }), keep);
    if (STOPS.includes(denied)) return { plan: under, stop: denied };
    const after = await ports.tripsOf(item.rider);
    if (after.denied !== undefined) return { plan: under, stop: after.denied };
    const left = standingOf(item, after.value.trips);
    return kept(
        withItem(
            under,
            item,
            left === "same"
                ? { step: "kept", denied }
                : passedOver(left, item, after.value.trips, taken)
        ),
        keep
    );
};

/** @param {Plan} plan @param {Ports["keep"]} keep @returns {Promise<Done>} */
async function kept(plan, keep) {
    await keep(plan);
    return { plan, stop: null };
}

/** Books one trip again, by one wish after another; a trip that somebody booked anew is never
 * doubled.
 * @param {Ports} ports @returns {Act}
 */
const bookOne = (ports) => async (plan, item) => {
    const { rider, old } = item, before = await ports.tripsOf(rider);
    if (before.denied !== undefined) return { plan, stop: before.denied };
    const other = anewOf(item, before.value.trips, takenIn(plan));
    if (other)
        return kept(withItem(plan, item, { step: "elsewhere", other, denied: null }), ports.keep);
    const under = withItem(plan, item, { step: "booking" }),
        tries = triesOf(item),
        last = tries.length - 1;
    await ports.keep(under);
    for (let at = 0;; at += 1) {
        const { value, denied } = await ports.book({
            rider,
            day: old.day,
            from: old.from,
            to: old.to,
            attendant: old.attendant,
            companions: old.companions,
            ...tries[at]
        });
        if (denied === undefined) ports.booked(item, value);
        if (denied === undefined)
            return kept(
                withItem(under, item, { step: "again", ticket: value, denied: null }),
                ports.keep
            );
        if (STOPS.includes(denied)) return { plan: under, stop: denied };
        if (at === last)
            return kept(
                counted(withItem(under, item, { step: "nowhere", denied }), item, denied, ports),
                ports.keep
            );
        // (more minutes help only where no vehicle could take it)
        if (denied !== "no vehicle")
            at = last - 1;
    }
};

/** A denial counts once for each rider of a plan.
 * @param {Plan} plan @param {Item} item @param {string} rule @param {Ports} ports @returns {Plan}
 */
function counted(plan, item, rule, ports) {
    const { rider, old } = item;
    if (plan.counted.includes(rider)) return plan;
    ports.count({ day: old.day, minute: pickupAsked(item), rule });
    return { ...plan, counted: [...plan.counted, rider] };
}

/** The days on which the vehicle is away, as far as trips are booked.
 * @param {Plan} plan
 */
const daysAway = ({ from, back }) =>
    Array.from({ length: LONGEST_ABSENCE + 1 }, (_, at) => plus(from, at)).filter(
        (day) => back === null || day < back
    );

/** @param {Plan} plan @param {Ports} ports @returns {Promise<Done>} */
async function takeOff(plan, ports) {
    const { vehicle, from, depot } = plan;
    if (plan.isOut) return { plan, stop: null };
    const { denied } = await ports.putVehicle({
        id: vehicle,
        from_day: from,
        days: [],
        depot,
        capacity: 1,
        chairs: 0,
        opens: 0,
        closes: LAST_MINUTE,
        duration: MOST_DURATION
    });
    if (denied === undefined) return kept({ ...plan, isOut: true }, ports.keep);
    if (denied !== "desk.booked") return { plan, stop: denied };
    const duty = await ports.dutyOn(daysAway(plan));
    if (duty.denied !== undefined) return { plan, stop: duty.denied };
    // (another dispatcher took it off duty, and its trips are of days after its return)
    if (!duty.value.length)
        return kept({ ...plan, isOut: true }, ports.keep);
    return { plan: withNewcomers(plan, await ports.itemsNow(plan)), stop: denied };
}

/** The vehicle comes back with what it had. Where the desk does not take that, the trips are booked
 * again all the same, and it is said.
 * @param {Plan} plan @param {Ports} ports @returns {Promise<Done>}
 */
async function putBack(plan, ports) {
    const { vehicle, back, settings } = plan;
    if (plan.isBack || back === null || settings === null) return { plan, stop: null };
    const { denied } = await ports.putVehicle({ ...settings, id: vehicle, from_day: back });
    if (denied !== undefined && STOPS.includes(denied)) return { plan, stop: denied };
    const isThere =
        denied === undefined ||
        (
            denied === "desk.booked" &&
            (
                (await ports.dutyOn(Array.from({ length: 7 }, (_, at) => plus(back, at)))).value ??
                []
            ).length >
                0
        );
    return kept(
        { ...plan, isBack: isThere, backDenied: isThere ? null : denied ?? null },
        ports.keep
    );
}

/** Goes on with a plan to its end, or to where it has to stop: cancels, takes the vehicle off duty,
 * puts its return, books again.
 * @param {Plan} begun @param {Ports} ports @returns {Promise<Plan>}
 */
export async function carryOut(begun, ports) {
    const steps = [
        (/** @type {Plan} */ plan) => each(plan, "booked", ports, cancelOne(ports)),
        (/** @type {Plan} */ plan) => takeOff(plan, ports),
        (/** @type {Plan} */ plan) => putBack(plan, ports),
        async (/** @type {Plan} */ plan) => (
            plan.mode === "move"
                ? each(plan, "cancelled", ports, bookOne(ports))
                : { plan, stop: null }
        ),
        (/** @type {Plan} */ plan) => lookUntilStill(plan, ports)
    ];
    let plan = { ...begun, waits: false, stopped: /** @type {string | null} */ (null) };
    for (const step of steps) {
        const done = await step(plan);
        plan = { ...done.plan, waits: false, stopped: done.stop };
        if (done.stop) {
            await ports.keep(plan);
            return plan;
        }
    }
    await ports.keep(plan = { ...plan, done: true });
    return plan;
}

/** What somebody else cancelled may have another trip by now.
 * @param {Plan} plan @param {Ports} ports @returns {Promise<Done>}
 */
const lookAtGone = (plan, ports) =>
    each(plan, "gone", ports, async (now, item) => {
        const { value, denied } = await ports.tripsOf(item.rider),
            others = takenIn(withItem(now, item, { other: null }));
        return denied !== undefined
            ? { plan: now, stop: denied }
            : {
                  plan: withItem(now, item, { other: anewOf(item, value.trips, others) }),
                  stop: null
              };
    });

/** Trips that somebody else canceled, and in whose place no other trip is known.
 * @param {Plan} plan
 */
export const unanswered = ({ items }) =>
    items.filter(({ step, other }) => step === "gone" && !other).length;

/** Looks at what somebody else canceled again and again while it is being booked again: until each
 * has another trip, or some looks in a row found nothing new.
 * @param {Plan} plan @param {Ports} ports @returns {Promise<Done>}
 */
async function lookUntilStill(plan, ports) {
    let { plan: now, stop } = await lookAtGone(plan, ports);
    for (let still = 0; !stop && unanswered(now) > 0 && still < STILL;) {
        if (!ports.isMine()) return { plan: now, stop: "left" };
        const before = unanswered(now);
        await ports.keep(now = { ...now, waits: true });
        await ports.pause();
        ({ plan: now, stop } = await lookAtGone(now, ports));
        still = unanswered(now) < before ? 0 : still + 1;
    }
    return { plan: now, stop };
}

/** How many trips of a list are on the day of the vehicle's return or later.
 * @param {{ back: string | null, items: Item[] }} plan
 */
export const afterReturn = ({ back, items }) => (
    back === null ? 0 : items.filter(({ old }) => old.day >= back).length
);

/** Whether a vehicle that comes back has no trip on the days in between: then all later ones stay,
 * as long as it is left on duty.
 * @param {{ back: string | null, items: Item[] }} plan
 */
export const hasNoneAway = (plan) => plan.back !== null && afterReturn(plan) === plan.items.length;

// After a break.

/** What an item is by the rider's own list: a step that was under way was done, or it was not.
 * @param {Item} item @param {Trip[]} trips @param {Set<number>} taken @returns {Item}
 */
function itemNow(item, trips, taken) {
    const standing = standingOf(item, trips), { step, ticket } = item;
    if (["booked", "kept", "cancelling"].includes(step)) {
        if (standing === "same") return { ...item, step: "booked", denied: null };
        return {
            ...item,
            ...(step === "cancelling" && standing === "cancelled"
                ? { step: "cancelled" }
                : passedOver(standing, item, trips, taken))
        };
    }
    if (step === "again" && ticket) {
        const now = trips.find(({ trip }) => trip === ticket.trip);
        return now && now.status !== "cancelled"
            ? { ...item, ticket: now }
            : { ...item, step: "gone", ticket: null, other: anewOf(item, trips, taken) };
    }
    const others = new Set([...taken].filter((trip) => trip !== item.other?.trip)),
        anew = anewOf(item, trips, others);
    if (step === "gone") return { ...item, other: anew };
    if (
        step === "booking" &&
        anew &&
        triesOf(item).some(({ wish, by }) => wish === anew.wish && by === anew.by)
    )
        return { ...item, step: "again", ticket: anew };
    if (["booking", "cancelled", "nowhere", "elsewhere"].includes(step) && anew)
        return { ...item, step: "elsewhere", other: anew, denied: null };
    return step === "booking" || step === "elsewhere"
        ? { ...item, step: "cancelled", other: null }
        : item;
}

/** A plan by what the desk says now. Where the desk does not let it be read, it is as before, and
 * stopped says why.
 * @param {Plan} plan @param {Pick<Ports, "tripsOf">} ports @returns {Promise<Plan>}
 */
export async function readAgain(plan, ports) {
    /** @type {Map<number, Trip[]>} */
    const all = new Map();
    for (const rider of new Set(plan.items.map((item) => item.rider))) {
        const reply = await ports.tripsOf(rider);
        if (reply.denied !== undefined) return { ...plan, stopped: reply.denied };
        all.set(rider, reply.value.trips);
    }
    const begun = /** @type {Plan} */ ({ ...plan, stopped: null });
    return withoutFollowed(
        plan.items.reduce(
            (now, item) =>
                withItem(now, item, itemNow(item, all.get(item.rider) ?? [], takenIn(now))),
            begun
        )
    );
}

/** A plan without the items whose new trip is in the list itself, as where a clerk booked it in the
 * same vehicle: that trip's own item says what becomes of it.
 * @param {Plan} plan @returns {Plan}
 */
function withoutFollowed(plan) {
    const listed = new Set(plan.items.map(({ old }) => old.trip));
    return {
        ...plan,
        items: plan.items.filter(
            ({ step, other }) =>
                !other || !["elsewhere", "gone"].includes(step) || !listed.has(other.trip)
        )
    };
}

/** A plan whose trips that could not be placed are tried again.
 * @param {Plan} plan @returns {Plan}
 */
export const toTryAgain = (plan) => ({
    ...plan,
    done: false,
    items: plan.items.map((item) => (
        item.step === "nowhere" ? { ...item, step: "cancelled", denied: null } : item
    ))
});
