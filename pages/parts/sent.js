// The list of what was sent for riders' trips while nobody could see the answer: the line was
// broken, the page was loaded anew, or whoever asked was with another rider by then. It is kept by
// this window, and stands where the booking was until it is read.

import { between, clock, dayShort, minuteNow, today } from "./clock.js";
import * as desk from "./desk.js";
import { denialOf } from "./denials.js";
import { button, part } from "./element.js";
import { keepObject, keptObject } from "./kept.js";
import { dropNote, note } from "./notes.js";
import { reading } from "./reads.js";
import { riderLabel } from "./roster.js";
import { openOffer } from "./said.js";
import { makeScreen } from "./screen.js";
import {
    afterAnswer,
    afterEnding,
    afterGone,
    afterLeaving,
    afterLoading,
    afterPlanning,
    afterReading,
    afterSending,
    afterTakingUp,
    afterUnasked,
    denialOfGone,
    isLate,
    riderOfChange,
    sinceOf,
    toBeRead
} from "./sent-list.js";
import { wayOf } from "./stop-where.js";
import { count } from "./tally.js";
import { isOfMinute } from "./wishes.js";
import { t } from "./words.js";

/** @typedef {import("./sent-list.js").Leg} Leg */
/** @typedef {import("../types").Wish} Wish */
/** @typedef {import("../types").Trip} Trip */

const KEPT = "desk.sent",
    NEW = "/trips",
    CHANGE = /^\/trips\/(\d+)\/change$/;

/** @type {{ digest: string | null, legs: Leg[] } | null} */
let known = null;
/** The rider of each trip that was asked to be changed from here.
 * @type {Map<number, number>}
 */
const riders = new Map();
/** Riders whose bookings are listed elsewhere, as in the plan for a vehicle out of service, until a
 * form asks for them.
 * @type {Set<number>}
 */
const toldElsewhere = new Set();
/** @param {number} rider */
export const tellElsewhere = (rider) => {
    toldElsewhere.add(rider);
};
/** @type {Set<() => void>} */
const readers = new Set();

/** @returns {Leg[]} */
function legs() {
    if (known?.digest === desk.digest()) return known.legs;
    const kept = keptObject(KEPT, "session");
    known = {
        digest: desk.digest(),
        legs:
            kept.digest === desk.digest() && Array.isArray(kept.legs) ? afterLoading(kept.legs) : []
    };
    return known.legs;
}

/** @param {Leg[]} next */
function keep(next) {
    known = { digest: desk.digest(), legs: next };
    keepObject(KEPT, known, "session");
    readers.forEach((act) => act());
    showNote();
}

/** The form that asks for a rider's trips and shows what comes of it. (Whoever goes back sees
 * another form of the same rider.)
 * @type {Map<number, Element>}
 */
const forms = new Map();

/** Something is asked for a rider from a form, until it has ended.
 * @param {number} rider @param {Element} [form]
 */
export function askedIn(rider, form) {
    lookForGone();
    if (form) forms.set(rider, form);
}

/** What a form asked for that is gone from the page is told in the list. */
function lookForGone() {
    for (const [rider, form] of forms) {
        if (form.isConnected) continue;
        forms.delete(rider);
        if (desk.digest()) keep(afterGone(legs(), rider));
    }
}

/** Whether whoever asked for a rider's trip is looking at the form that asked, or, where none did,
 * at that rider's booking.
 * @param {number} rider
 */
function isSeen(rider) {
    const form = forms.get(rider);
    return [...(form ? [form] : document.querySelectorAll(`[data-sent="${rider}"]`))].some(
        (it) => it.getClientRects().length > 0
    );
}

/** What is sent for a rider's trips, or null where it is nothing that this list has to tell.
 * @param {string} path @param {Record<string, unknown>} fields
 */
function askedOf(path, fields) {
    const changed = CHANGE.exec(path), trip = changed ? Number(changed[1]) : null;
    if (path !== NEW && trip === null) return null;
    const known = trip === null ? 0 : riders.get(trip) ?? riderOfChange(legs(), trip),
        { rider = known, ...wish } = fields;
    return rider && !toldElsewhere.has(Number(rider))
        ? { rider: Number(rider), trip, wish: /** @type {Wish} */ (wish) }
        : null;
}

/** What is going to be asked for a rider, one after another: what a page that is gone has not sent
 * is told from it.
 * @param {number} rider
 * @param {{ wish: Wish, said: import("./sent-list.js").Said }[]} wanted
 * @param {number | null} [trip] the trip that is changed
 * @param {Element} [form] shows what comes of it
 */
export function planned(rider, wanted, trip = null, form = undefined) {
    toldElsewhere.delete(rider);
    askedIn(rider, form);
    if (trip !== null) riders.set(trip, rider);
    keep(
        afterPlanning(legs(), {
            rider,
            trip,
            wanted: wanted.map(({ wish, said }) => ({
                wish,
                said: said && { mode: said.mode, minute: said.minute }
            }))
        })
    );
}

/** Whose a trip is that is going to be asked for again.
 * @param {number} trip @param {number} rider
 */
export const belongs = (trip, rider) => {
    riders.set(trip, rider);
};

/** All of it was asked.
 * @param {number} rider
 */
export function ended(rider) {
    lookForGone();
    forms.delete(rider);
    // (who signed out has left nothing here)
    if (desk.digest())
        keep(afterEnding(legs(), rider));
}

/** Whoever asked left before anything was sent. (Who signed out has left nothing here.)
 * @param {number} rider
 */
export function left(rider) {
    if (desk.digest()) keep(afterLeaving(legs(), rider));
}

/** A way back that is not sent yet, since it would begin before the way there arrives.
 * @param {number} rider @param {Wish} wish
 */
export const unasked = (rider, wish) => keep(afterUnasked(legs(), rider, wish, !isSeen(rider)));

/** Whether a plan broke off in the middle: a denial of one of its requests is none of what the
 * rider said.
 * @param {Leg} leg
 */
const isCut = ({ state, cut, reply }) =>
    state === "denied" && cut === true && isOfMinute(reply.denied);

/** Of a change that did not come about: the trip itself stands.
 * @param {Leg} leg @param {Record<string, unknown>} way
 */
const changeWords = (leg, way) =>
    t(
        isCut(leg)
            ? "sent.change-cut"
            : leg.state === "denied"
            ? "sent.change-denied"
            : leg.state === "left"
            ? "sent.change-left"
            : "sent.change-unsent",
        way
    );

const momentOfNow = () => ({ day: today(), minute: minuteNow() });

/** When the answer came: "at 9:12 AM".
 * @param {Leg} leg
 */
const whenWords = ({ at }) => (
    at
        ? t("sent.at", { time: clock(at.minute), day: at.day === today() ? "" : dayShort(at.day) })
        : ""
);

/** What the desk has of the trip by now, as far as it was read since.
 * @param {Leg} leg @param {Trip[] | null} trips
 */
function sinceWords(leg, trips) {
    const since = sinceOf(leg, trips);
    if (!since) return "";
    const { trip, is } = since, window = between(trip.window_from, trip.window_to);
    if (is === "over")
        return t(trip.status === "cancelled" ? "sent.since-cancelled" : "sent.since-over", {
            status: t(`booking.${trip.status}`)
        });
    if (is === "moved") return t("sent.since-moved", { day: dayShort(trip.day), window });
    return t(
        leg.state === "offered" && openOffer(trip)
            ? "sent.since-waits"
            : leg.state === "stands"
            ? "sent.since-stands"
            : "sent.since-booked"
    );
}

/** @param {Leg} leg */
function words(leg) {
    const { rider, wish, said, state, reply, trip } = leg, when = whenWords(leg);
    const way = {
        day: dayShort(wish.day),
        ...wayOf({ ...wish, trip: trip ?? undefined }, rider),
        rider: riderLabel(rider),
        when,
        said: said ? t(`sent.said-${said.mode}`, { time: clock(said.minute) }) : ""
    };
    if (state === "cancelled" || state === "stands")
        return t(`sent.${state}`, {
            ...way,
            trip,
            window: between(reply.window_from, reply.window_to)
        });
    if (state === "offered")
        return t("sent.offered", {
            ...way,
            trip: reply.trip,
            window: between(reply.window_from, reply.window_to)
        });
    if (state === "nothing")
        return t(trip === null ? "sent.nothing" : "sent.change-nothing", { ...way, trip });
    if (state === "booked")
        return t(trip === null ? "sent.booked" : "sent.changed", {
            ...way,
            trip: reply.trip,
            window: between(reply.window_from, reply.window_to)
        });
    if (trip !== null && state !== "sending" && state !== "planned")
        return changeWords(leg, { ...way, trip });
    if (isCut(leg)) return t("sent.cut", way);
    return t(
        ["denied", "unsent", "left", "early"].includes(state) ? `sent.${state}` : "sent.sending",
        way
    );
}

/** @param {Leg} leg
 * @param {number} at
 * @param {Trip[] | null} [trips] the rider's trips, where they were read
 */
const shown = (leg, at, trips = null) =>
    part("li", { key: at, class: leg.state },
        part("p", {}, words(leg), " ", sinceWords(leg, trips)),
        leg.state === "denied" && !isCut(leg) && denialOf(leg.reply, "trip")
    );

/** What is to be read of a rider, where the booking was.
 * @param {number} rider
 */
export function sentFor(rider) {
    const read = reading(desk.pathOf.trips(rider));
    const screen = makeScreen({
        state: {},
        class: "sent",
        draw: () => {
            const mine = toBeRead(legs(), rider),
                busy = mine.some(({ state }) => state === "sending" || state === "planned");
            return mine.length > 0 &&
                part("section", { class: "card", "aria-label": t("sent.heading") },
                    part("h2", {}, t("sent.heading")),
                    read.age(),
                    part("ul", { class: "legs", role: "status" },
                        mine.map((leg, at) => shown(leg, at, read.reply()?.value?.trips ?? null))
                    ),
                    !busy &&
                        part("div", { class: "row" },
                            button(t("sent.read"), () => keep(afterReading(legs(), rider)))
                        )
                );
        }
    });
    screen.element.setAttribute("data-sent-list", String(rider));
    const redraw = () => {
        if (screen.element.isConnected) screen.change({});
        else readers.delete(redraw);
    };
    read.watch(screen.element, redraw);
    // (what is not read yet goes along to the next part)
    screen.onGone(showNote);
    setTimeout(() => readers.add(redraw));
    return screen.element;
}

/** Who is with another rider by now is told that there is something to read. */
function showNote() {
    const away = [
        ...new Set(
            toBeRead(legs()).filter(
                ({ rider, state }) => state !== "sending" && state !== "planned" && !isListed(rider)
            ).map(({ rider }) => rider)
        )
    ];
    if (away.length)
        note("sent", () => [
            part("p", {}, t("sent.note")),
            part("ul", {},
                toBeRead(legs()).filter(({ rider }) => away.includes(rider)).map((leg, at) =>
                    shown(leg, at)
                )
            )
        ]);
    else dropNote("sent");
}

/** @param {number} rider */
const isListed = (rider) =>
    [...document.querySelectorAll(`[data-sent-list="${rider}"]`)].some(
        (it) => it.isConnected && !it.closest("[hidden]")
    );

/** Looks once more whether something is to be read, as where another rider is shown. */
export const lookAtSent = () => setTimeout(showNote);

/** What came of something whose window was closed.
 * @param {import("./taken-up.js").Asking} asking @param {import("./taken-up.js").Came} came
 */
export function tellTaken(asking, came) {
    if (came.is === "waits") return;
    const { rider } = asking,
        reply = "trip" in came ? came.trip : null,
        off = asking.cancels,
        known = off ? null : asking;
    const wish = off ?? known?.wish,
        said = known ? { mode: known.said.mode, minute: known.said.minute } : null;
    if (wish)
        keep(
            afterTakingUp(legs(), {
                rider,
                wish,
                said,
                trip: off?.trip ?? known?.old?.trip ?? null,
                state: came.is,
                reply,
                late: true,
                at: momentOfNow()
            })
        );
}

/** What the page that was here before has not sent, or has sent without seeing the answer. */
export const unread = () => toBeRead(legs());

desk.whenSending(({ path, fields }) => {
    const asked = askedOf(path, fields);
    if (asked) keep(afterSending(legs(), asked));
});
desk.whenWrote(({ path, fields, reply, waited }) => {
    const asked = askedOf(path, fields);
    if (!asked || reply.denied === "left") return;
    const denial = denialOfGone(legs(), asked, reply);
    if (denial) count("denials", denial);
    lookForGone();
    const late = isLate({ hasForm: forms.has(asked.rider), isSeen: isSeen(asked.rider), waited });
    keep(afterAnswer(legs(), asked, reply, late, momentOfNow()));
});
