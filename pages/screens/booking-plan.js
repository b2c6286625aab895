// What is asked of the desk for the legs of a booking, one plan after another, and what is told of
// it to the site. What is decided stands in parts/wishes.js.

import { agency } from "../parts/agency.js";
import { isNewer, LONGEST, noOf } from "../parts/answering.js";
import { asked } from "../parts/ask.js";
import {
    between,
    dayInWords,
    dayShort,
    minuteNow,
    momentNow,
    serverNow,
    today
} from "../parts/clock.js";
import * as desk from "../parts/desk.js";
import { say } from "../parts/element.js";
import {
    beginAsking,
    driveOf,
    dropOffer,
    endAsking,
    isKeptElsewhere,
    keepOffer,
    keepSaid,
    leaveAsking,
    toldMade
} from "../parts/said.js";
import { askedIn, belongs, ended, unasked } from "../parts/sent.js";
import { cancelTrip, count, countLater } from "../parts/tally.js";
import {
    afterArrival,
    arrivalAfter,
    arrivalBefore,
    countedRule,
    isAsSaid,
    nextStep,
    otherRequests
} from "../parts/wishes.js";
import { t } from "../parts/words.js";
import { drivers } from "./trips-today.js";

// For so long a way back may still be asked for, in milliseconds, once the way there was denied.
const UNTIL_LOST = 600_000;
/** How often the site's file is looked at while a No waits for it, in milliseconds. */
const LOOKED = 1_500;
/** When this window got each offer.
 * @type {Map<number, number>}
 */
const offeredAt = new Map();

/** @typedef {import("../types").Trip} Trip */
/** @typedef {import("../types").Ticket} Ticket */
/** @typedef {import("../types").Wish} Wish */
/** @typedef {import("../types").Reply<Ticket>} Reply */
/** @typedef {import("../types").Denied | import("../types").Left} Denied */
/** @typedef {import("../parts/wishes.js").Said} Said */
/** @typedef {import("../parts/wishes.js").Request} Request */
/** @typedef {import("../parts/wishes.js").Side} Side */
/** @typedef {import("../parts/wishes.js").Answer<Reply>} Answer */
/** @typedef {import("../parts/wishes.js").Step<Reply>} Step */
/**
 * @typedef {object} Leg one trip that is asked for
 * @property {string} key
 * @property {Wish} wish as it is sent; its minute is that of the last request
 * @property {Said} said
 * @property {Ticket | null} ticket
 * @property {Denied | null} denied the denial that is told
 * @property {Ticket | null} offer a trip that stands and is not what the rider said, until that is
 * answered
 * @property {Ticket | null} refused an offer that the rider did not want: the trip is given up
 * @property {Trip | null} [moved] the trip of such an offer where another clerk has put it to
 * another time
 * @property {"looking" | "unsure"} [no] how far a No to the offer has come
 * @property {number | null} [early] the minute at which the way there arrives, where this way back
 * would begin before it: until the rider has said when to leave
 * @property {boolean} [agreed] whether the rider has said so
 * @property {number | null} [before] the same minute, where the desk has promised a way back that
 * begins before it: an offer until the rider has answered
 * @property {Side[]} tried which other times were tried: earlier, later
 * @property {string | null} waitsFor the leg that has to be booked before
 * @property {string} [marked] the moment at which a copy of the desk's file was asked for, so that
 * a log can say why it was denied
 */
/** @typedef {{ legs: Leg[], busy: boolean, now: Trip[] }} State now has the rider's trips as they
 * were last read, once something is booked
 */
/** @typedef {{ change: import("../parts/screen.js").Tools<State>["change"], state: () => State,
 * rider: number, trip: Trip | null, booked: () => void, came?: (legs: Leg[]) => void, onGone: (act:
 * () => void) => void, form?: () => Element }} Given trip is the one that is changed; came tells of
 * legs that came to another end than before, as where another time was taken; onGone does something
 * once the form is on the page no more; form shows what comes of it
 */

/** @type {Side[]} */
const BOTH = ["earlier", "later"];
/** Denials after which nothing more is asked. */
const ENDS = ["desk.key", "desk.caller", "desk.number", "left"];

/** What the rider said of a leg.
 * @param {{ mode: import("../parts/wishes.js").Mode, minute: number, by: number | null, from:
 * number, to: number, change: boolean, from_address?: number | null, to_address?: number | null }}
 * values
 * @returns {Said}
 */
export const saidIn = ({
    mode,
    minute,
    by,
    from,
    to,
    change,
    from_address: start,
    to_address: end
}) => ({
    ...(start && { from_address: start }),
    ...(end && { to_address: end }),
    mode,
    minute,
    by: mode === "by" ? null : by,
    drive: driveOf({ from, to }),
    lead: agency().lead,
    change
});

/** @param {number} rider
 * @param {Wish} wish
 * @param {Trip | null} trip the trip that is asked for again
 * @returns {Promise<Reply>}
 */
function sent(rider, wish, trip) {
    if (trip) belongs(trip.trip, rider);
    return trip ? desk.change(trip.trip, wish) : desk.book({ rider, ...wish });
}

/** Tells the site what was booked, and keeps what the rider said of it.
 * @param {{ wish: Wish, said: Said }} leg @param {Ticket} ticket
 */
export function tellBooked({ wish, said }, ticket) {
    const { mode, minute, lead, from_address: start, to_address: end } = said;
    dropOffer(ticket.trip);
    keepSaid(ticket, said);
    count("bookings", {
        day: wish.day,
        trip: ticket.trip,
        mode,
        minute,
        from: ticket.window_from,
        to: ticket.window_to,
        ...(mode === "around" && { lead }),
        ...(start && { from_address: start }),
        ...(end && { to_address: end })
    });
}

/** Replies after which nobody knows what came of a write. */
export const isUnknown = (/** @type {{ denied?: string }} */ { denied }) =>
    denied === "left" || denied === "desk.number";

/** One plan: each request until the plan has ended. id is under what it is written down.
 * @param {Given} given @param {Leg} leg @param {string} id @returns {Promise<Step>}
 */
async function carriedOut({ rider, trip }, leg, id) {
    /** @type {Answer[]} */
    const answers = [];
    for (let step = nextStep(leg.said, answers);; step = nextStep(leg.said, answers)) {
        if (step.is !== "ask") {
            // (where nobody knows what came of it, it is looked for at the next sight of the rider)
            (
                answers.some(({ reply }) => isUnknown(reply)) ? leaveAsking : endAsking
            )(id);
            return step;
        }
        const { wish, by } = step.request,
            standing = answers
                .map(({ reply }) => reply.value)
                .reverse()
                .find((it) => it !== undefined);
        const again =
            trip ??
            (
                standing
                    ? /** @type {Trip} */ ({ ...leg.wish, ...standing, status: "booked" })
                    : null
            );
        const reply = await sent(rider, { ...leg.wish, wish, by }, again);
        answers.push({ request: step.request, reply });
        if (reply.value !== undefined && !isAsSaid(leg.said, reply.value))
            keepOffer(reply.value.trip, { said: leg.said, old: trip, counted: false, asking: id });
    }
}

/** Other requests that the rider has agreed to, until one is taken.
 * @param {Given} given
 * @param {Leg} leg
 * @param {Request[]} requests
 * @returns {Promise<{ ticket: Ticket } | { denied: Denied } | null>}
 */
async function firstTaken({ rider, trip }, leg, requests) {
    const id = beginAsking(rider, leg.wish, leg.said, trip, requests.map(({ wish }) => wish));
    /** @type {{ ticket: Ticket } | { denied: Denied } | null} */
    let told = null;
    for (const { wish, by } of requests) {
        const reply = await sent(rider, { ...leg.wish, wish, by }, trip);
        told = reply.value !== undefined ? { ticket: reply.value } : { denied: reply };
        if ("ticket" in told || ENDS.includes(told.denied.denied)) break;
    }
    (told && "denied" in told && isUnknown(told.denied) ? leaveAsking : endAsking)(id);
    return told;
}

/** Tells the site that what a rider said was denied, once: what is asked for again is the same
 * denial.
 * @param {Set<string>} counted what was told of this form
 * @param {Leg} leg
 * @param {string | null} rule
 * @param {ReturnType<typeof offerFields> | null} offer
 */
function countDenial(counted, { wish, said: { mode, minute } }, rule, offer) {
    const what = [wish.day, wish.from, wish.to, mode, minute, offer?.trip].join(" ");
    if (rule === null || counted.has(what)) return;
    counted.add(what);
    count("denials", { day: wish.day, minute, rule, mode, ...offer });
}

/** Counts the ways back that are lost with a way there for which there was no vehicle: each is a
 * denial too, unless it is asked for after all. It is told once the form is used again or left.
 * @param {Set<string>} counted what was told of this form @param {Given["onGone"]} onGone
 */
function lossesOf(counted, onGone) {
    /** @type {Map<string, ReturnType<typeof countLater>>} */
    const held = new Map();
    const tell = () => {
        held.forEach((it) => {
            it.tell();
        });
        held.clear();
    };
    /** @param {Leg[]} legs @param {string} key */
    const waiting = (legs, key) => legs.filter((it) => it.waitsFor === key);
    return {
        /** @param {Leg[]} legs @param {string} key */
        hold: (legs, key) =>
            waiting(legs, key).forEach(({ key: back, wish, said: { mode, minute } }) => {
                const what = ["lost", wish.day, wish.from, wish.to, mode, minute].join(" ");
                if (counted.has(what)) return;
                counted.add(what);
                if (!held.size) onGone(tell);
                held.set(
                    back,
                    countLater(
                        "denials",
                        { day: wish.day, minute, rule: "no vehicle", mode, leg: "lost" },
                        UNTIL_LOST
                    )
                );
            }),
        /** @param {Leg[]} legs @param {string} key */
        drop: (legs, key) =>
            waiting(legs, key).forEach(({ key: back }) => {
                held.get(back)?.drop();
                held.delete(back);
            }),
        tell,
    };
}

/** Whether the pickup window of a trip has begun.
 * @param {{ day: string, window_from: number }} trip
 */
export const hasBegun = ({ day, window_from: from }) =>
    day < today() || (day === today() && from <= minuteNow());

/** What the site's log has of an offer beside the denial, so that whoever sees the rider next can
 * ask for the answer.
 * @param {number} rider @param {Ticket} ticket @param {Trip | null} old
 */
export const offerFields = (rider, { trip, window_from: from, window_to: to }, old) => ({
    trip,
    rider,
    from,
    to,
    offer: /** @type {"booking" | "change"} */ (old ? "change" : "booking")
});

/** What the record has of a leg once its plan has ended; what was booked or offered is kept beside
 * it.
 * @param {Leg} leg @param {Step} step @param {Trip | null} old @returns {Partial<Leg>}
 */
function afterPlan(leg, step, old) {
    if (step.is === "ask") return {};
    if (step.is === "denied") return { denied: /** @type {Denied} */ (step.reason.reply) };
    const { request, reply } = step.answer,
        ticket = /** @type {Ticket} */ (reply.value),
        wish = { ...leg.wish, wish: request.wish, by: request.by };
    if (step.is === "kept") {
        tellBooked(leg, ticket);
        return { ticket, denied: null, wish };
    }
    keepOffer(ticket.trip, {
        said: leg.said,
        old,
        counted: countedRule(leg.said, step) !== null,
        window: [ticket.window_from, ticket.window_to]
    });
    offeredAt.set(ticket.trip, serverNow());
    return { offer: ticket, denied: null, wish };
}

/** @param {Leg} leg */
const endOf = ({ ticket, denied }) => (ticket ? "booked" : denied ? "denied" : "");

/** Asks for legs one after another and keeps what came of each in the record. A denial that
 * somebody saw is counted once for what the rider said.
 * @param {Given} given
 */
export function askerOf(given) {
    const { change, state, rider, trip, booked, came = () => {}, onGone, form } = given,
        counted = new Set(),
        losses = lossesOf(counted, onGone);
    const set = (/** @type {string} */ key, /** @type {Partial<Leg>} */ patch) =>
        change(({ legs }) => ({
            legs: legs.map((leg) => (leg.key === key ? { ...leg, ...patch } : leg))
        }));
    const find = (/** @type {string | null} */ key) => state().legs.find((leg) => leg.key === key);
    const isNext = (/** @type {Leg | undefined} */ leg) =>
        leg &&
        !leg.ticket &&
        !leg.denied &&
        !leg.offer &&
        !leg.refused &&
        !leg.early &&
        (!leg.waitsFor || find(leg.waitsFor)?.ticket);
    /** Whether a way back waits for the rider's word: nobody leaves before having arrived. */
    const isEarly = (/** @type {Leg} */ leg) => {
        const there = leg.agreed ? null : find(leg.waitsFor),
            early = there?.ticket ? arrivalBefore(leg.said, there.ticket, there.said.drive) : null;
        if (early !== null) set(leg.key, { early });
        return early !== null;
    };
    /** A way back that the desk has promised for before the way there arrives is an offer: somebody
     * says whether it is kept.
     */
    const heldBack = (/** @type {Leg} */ leg, /** @type {Ticket | undefined} */ ticket) => {
        const there = leg.agreed ? null : find(leg.waitsFor),
            before =
                ticket && there?.ticket
                    ? arrivalAfter(ticket, there.ticket, there.said.drive)
                    : null;
        if (!ticket || before === null) return null;
        keepOffer(ticket.trip, {
            said: leg.said,
            old: null,
            counted: true,
            window: [ticket.window_from, ticket.window_to],
            before
        });
        offeredAt.set(ticket.trip, serverNow());
        return { offer: ticket, before, denied: null };
    };
    const rest = async () => {
        // (all of it is written down first: a window that is closed in the middle leaves none of it
        // without a word)
        const open = state().legs.filter(
            ({ ticket, denied, offer, refused, early }) =>
                !ticket && !denied && !offer && !refused && !early
        );
        const ids = new Map(
            open.map(({ key, wish, said }) => [key, beginAsking(rider, wish, said, trip)])
        );
        for (const [key, id] of ids) {
            const leg = find(key);
            if (!leg || !isNext(leg)) continue;
            if (isEarly(leg)) {
                unasked(rider, leg.wish);
                continue;
            }
            const step = await carriedOut(given, leg, id),
                patch =
                    (step.is === "kept" && heldBack(leg, step.answer.reply.value)) ||
                    afterPlan(leg, step, trip),
                rule = countedRule(leg.said, step);
            ids.delete(key);
            countDenial(
                counted,
                leg,
                rule,
                step.is === "offered"
                    ? offerFields(rider, /** @type {Ticket} */ (step.answer.reply.value), trip)
                    : null
            );
            if (patch.denied && rule === "no vehicle") losses.hold(state().legs, key);
            set(key, patch);
            if (patch.denied && isUnknown(patch.denied)) {
                // (who signed out meanwhile reads at the next sign-in what was not sent)
                ids.forEach((it) => leaveAsking(it));
                ids.clear();
            }
            if (patch.denied && ENDS.includes(patch.denied.denied)) break;
        }
        ids.forEach((id) => endAsking(id));
        change({ busy: false });
        if (state().legs.some(({ ticket }) => ticket)) booked();
    };
    /** Does something for a leg, goes on with what waited for it, and puts the focus on it. */
    const carryOn = async (
        /** @type {Leg} */ leg,
        /** @type {() => Promise<Partial<Leg>>} */ act
    ) => {
        if (state().busy) return;
        change({ busy: true });
        askedIn(rider, form?.());
        const before = new Map(state().legs.map((it) => [it.key, endOf(it)]));
        const patch = { no: undefined, ...await act() };
        if (patch.ticket) losses.drop(state().legs, leg.key);
        if (patch.refused) losses.hold(state().legs, leg.key);
        set(leg.key, patch);
        await rest();
        if (form) ended(rider);
        came(state().legs.filter((it) => endOf(it) && endOf(it) !== before.get(it.key)));
        change({}, { focus: `leg-${leg.key}` });
    };
    const tryOthers = (/** @type {Leg} */ leg, /** @type {Side} */ side) =>
        carryOn(leg, async () => {
            // (what waits for it is asked next)
            const after = state().legs.filter(
                ({ waitsFor, ticket }) => waitsFor === leg.key && !ticket
            ).map(({ wish, said }) => beginAsking(rider, wish, said, trip));
            const told = await firstTaken(given, leg, otherRequests(leg.said, side)),
                isLeft = told && "denied" in told && isUnknown(told.denied);
            after.forEach((id) => (isLeft ? leaveAsking : endAsking)(id));
            /** @type {Side[]} */
            const tried = [...leg.tried, ...(side === "either" ? BOTH : [side])];
            // (what the desk says of other times is no answer to what the rider said)
            if (!told || "denied" in told)
                return { ...(told && ENDS.includes(told.denied.denied) ? told : {}), tried };
            const held = heldBack(leg, told.ticket);
            if (held) return { ...held, tried };
            tellBooked(leg, told.ticket);
            return { ticket: told.ticket, denied: null, tried };
        });
    const answer = (/** @type {Leg} */ leg, /** @type {boolean} */ yes) =>
        carryOn(leg, () =>
            afterAnswer(leg, yes, given, () => set(leg.key, { no: "looking" })).finally(() => {
                if (!yes) booked();
            })
        );
    // (the store of reads may be of before the offer: what it says is looked at once more)
    const look = async (/** @type {Trip[]} */ trips) => {
        for (const { key, offer } of state().legs) {
            const seen = offer && trips.find((it) => it.trip === offer.trip);
            if (!seen || isSameOffer(seen, offer)) continue;
            const { is, now } = await offerNow(rider, offer, trip);
            if ((is !== "gone" && is !== "moved") || state().busy || find(key)?.offer !== offer)
                continue;
            losses.hold(state().legs, key);
            set(key, { offer: null, refused: offer, moved: is === "moved" ? now : null });
            say(refusedWords(trip, is === "moved" ? now : null));
        }
    };
    /** The way back is asked for once the rider has said when to leave: after the arrival, or as it
     * was said.
     */
    const leaveAt = (/** @type {Leg} */ leg, /** @type {number | null} */ minute) =>
        carryOn(leg, async () => ({
            early: null,
            agreed: true,
            ...(minute !== null && { said: afterArrival(leg.said, minute) })
        }));
    const mark = (/** @type {Leg} */ { key, wish: { day }, said: { mode, minute } }) => {
        if (find(key)?.marked) return;
        const at = momentNow();
        count("marks", { day, minute, mode, at });
        set(key, { marked: at });
        change({}, { focus: `marked-${key}` });
    };
    return { rest, tryOthers, answer, look, leaveAt, mark, leave: losses.tell };
}

/** Whether a trip stands in the window that was offered.
 * @param {Trip} trip @param {Ticket} offer
 */
const isSameOffer = (trip, offer) =>
    trip.status === "booked" &&
    trip.window_from === offer.window_from &&
    trip.window_to === offer.window_to;

/** What an offer that was not taken leaves: of a change the trip as it stands again, and else how
 * another clerk has put it.
 * @param {Trip | null} old @param {Trip | null} [moved]
 */
export function refusedWords(old, moved = null) {
    const it = moved ?? old;
    return it
        ? t(moved ? "booking.offer-moved" : "booking.offer-is-back", {
              trip: it.trip,
              day: dayShort(it.day),
              window: between(it.window_from, it.window_to)
          })
        : t("booking.offer-given-up");
}

/** @typedef {{ is: "stands" | "gone" | "moved" | "begun" | "left" | "unsure", now: Trip | null }}
 * Now what the desk has of an offer: another clerk may have given it up (gone) or put the trip to
 * another time (moved), its pickup window may have begun, the screen may have been left before the
 * answer, and where nobody can see whether somebody else has kept it the No may have been taken
 * back (unsure)
 */

/** Waits until the site's file has all that was answered before now, for a while at most.
 * @param {() => void} looking is called where it waits
 */
async function heardAnswers(looking) {
    const since = serverNow(), ends = performance.now() + LONGEST, told = drivers();
    await told?.again();
    if (!isNewer(toldMade(), since)) looking();
    while (told && !isNewer(toldMade(), since) && performance.now() < ends) {
        await new Promise((go) => {
            setTimeout(go, LOOKED);
        });
        await told.again();
    }
}

/** Whoever cannot see whether somebody else has kept the trip meanwhile is asked once more, with
 * what a yes does.
 * @param {Ticket} offer @param {Trip | null} old @param {Trip | null} now
 */
const isSure = ({ trip, window_from: from, window_to: to }, old, now) =>
    asked({
        question: t(old ? "booking.offer-sure-back" : "booking.offer-sure", { trip }),
        danger: true,
        detail: t("booking.offer-sure-detail", {
            day: now ? dayInWords(now.day) : "",
            window: between(from, to)
        }),
        yes: t(old ? "booking.offer-back" : "booking.cancel-yes", {
            trip,
            window: old ? between(old.window_from, old.window_to) : ""
        })
    });

/** What is looked at before an offer is given up.
 * @param {number} rider
 * @param {Ticket} offer
 * @param {Trip | null} old
 * @param {() => void} looking
 * @returns {Promise<Now>}
 */
export async function offerBeforeNo(rider, offer, old, looking) {
    const at = offeredAt.get(offer.trip),
        no = noOf({ age: at === undefined ? null : serverNow() - at, canRead: drivers() !== null });
    if (no === "look") await heardAnswers(looking);
    const found = await offerNow(rider, offer, old);
    return no === "unsure" && found.is === "stands" && !await isSure(offer, old, found.now)
        ? { ...found, is: "unsure" }
        : found;
}

/** What the desk has of an offer by now, and the site's log for who may read it: what another clerk
 * kept is not given up by an answer from before.
 * @param {number} rider
 * @param {Ticket} offer
 * @param {Trip | null} old gets what the desk has of a trip that is back
 * @returns {Promise<Now>}
 */
export async function offerNow(rider, offer, old) {
    const [reply] = await Promise.all([desk.tripsOf(rider), drivers()?.again()]);
    if (reply.denied === "left") return { is: "left", now: null };
    const now = reply.value?.trips.find(({ trip }) => trip === offer.trip) ?? null;
    if (!now) return { is: "stands", now };
    if (isSameOffer(now, offer)) return { is: hasBegun(now) ? "begun" : "stands", now };
    dropOffer(offer.trip);
    if (old) Object.assign(old, now);
    return { is: now.status === "booked" && !old ? "moved" : "gone", now };
}

/** What the record has of a leg once the rider has answered its offer.
 * @param {Leg} leg
 * @param {boolean} yes
 * @param {{ rider: number, trip: Trip | null }} given
 * @param {() => void} looking
 * @returns {Promise<Partial<Leg>>}
 */
async function afterAnswer(leg, yes, { rider, trip: old }, looking) {
    const { offer } = leg;
    if (!offer) return {};
    const { is, now } = await (
        yes ? offerNow(rider, offer, old) : offerBeforeNo(rider, offer, old, looking)
    );
    if (is === "unsure") return { no: "unsure" };
    if (is === "left" || is === "begun") return {};
    if (is === "gone" || is === "moved")
        return { offer: null, refused: offer, moved: is === "moved" ? now : null };
    // (what another clerk kept for the rider is not cancelled by an answer from before)
    if (yes || isKeptElsewhere(offer, old)) {
        if (yes) tellBooked(leg, offer);
        else dropOffer(offer.trip);
        return { ticket: offer, offer: null };
    }
    const denied = await givenUp(offer.trip, old);
    return denied ? { denied } : { offer: null, refused: offer };
}

/** Gives an offer up, as the agency's and not as the rider's cancellation; of a change the trip is
 * put back to what it was, and old gets what the desk promises of it now: that may be another
 * window. What the desk denied of it, or null.
 * @param {number} trip @param {Trip | null} old @returns {Promise<Denied | null>}
 */
export async function givenUp(trip, old) {
    const reply = old
        ? await desk.change(trip, {
              day: old.day,
              wish: old.wish,
              from: old.from,
              to: old.to,
              by: old.by,
              attendant: old.attendant,
              companions: old.companions
          })
        : await cancelTrip(trip, "agency");
    if (reply.denied !== undefined) return reply;
    dropOffer(trip);
    if (old) Object.assign(old, reply.value);
    return null;
}
