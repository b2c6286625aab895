// Offers: a trip that stands and begins at another time than the rider said. It is kept on a yes
// alone, and given up on a no.

import { clock, dayInWords } from "../parts/clock.js";
import { denialOf } from "../parts/denials.js";
import { button, part } from "../parts/element.js";
import { riderLabel } from "../parts/roster.js";
import { keepOffer, openOffer } from "../parts/said.js";
import { makeScreen } from "../parts/screen.js";
import { wayOf } from "../parts/stop-where.js";
import { count } from "../parts/tally.js";
import { t } from "../parts/words.js";
import {
    givenUp,
    hasBegun,
    offerBeforeNo,
    offerFields,
    offerNow,
    refusedWords,
    tellBooked
} from "./booking-plan.js";
import { saidWords, windowOf } from "./ticket.js";

/** @typedef {import("../types").Trip} Trip */
/** @typedef {import("../parts/wishes.js").Said} Said */
/** @typedef {import("../types").Denied | import("../types").Left} Denied */
/**
 * @typedef {object} Shown
 * @property {import("../types").Wish & import("../types").Ticket} trip
 * @property {number} rider
 * @property {Said} said
 * @property {Trip | null} old the trip as it was before a change
 * @property {"booking" | "change" | undefined} [elsewhere] what the trip was where another browser
 * was offered it
 * @property {number | null} [before] when the way there arrives, where this way back begins before
 * it
 * @property {Denied | null} denied why it could not be given up
 * @property {string} id
 * @property {boolean} busy
 * @property {"looking" | "unsure"} [no] how far a No has come
 * @property {(yes: boolean) => void} answer
 */

/** An offer in one sentence, the whole of it, and its two answers.
 * @param {Shown} shown
 */
export function offerShown({
    trip,
    rider,
    said,
    old,
    elsewhere,
    before,
    denied,
    id,
    busy,
    no,
    answer
}) {
    const far = trip.window_from - said.minute,
        time = clock(said.minute),
        disabled = busy ? "true" : null,
        isLate = hasBegun(trip);
    const heading = before
        ? t("booking.offer-back-early", { offer: clock(trip.window_from), time: clock(before) })
        : t(far > 0 ? "booking.offer-after" : "booking.offer-before", {
              offer: clock(trip.window_from),
              minutes: Math.abs(far),
              time
          });
    return part(
        "section",
        { class: "offer", tabindex: -1, id, "data-offer": trip.trip, "aria-label": heading },
        part("h3", {}, heading),
        part("p", {},
            t("booking.offer-trip", {
                trip: trip.trip,
                day: dayInWords(trip.day),
                window: windowOf(trip),
                ...wayOf(trip, rider, said),
                said: saidWords(said)
            })
        ),
        part("p", {},
            t(
                isLate
                    ? "booking.offer-begun"
                    : elsewhere === "change"
                    ? "booking.offer-changed-elsewhere"
                    : old
                    ? "booking.offer-of-change"
                    : "booking.offer-asks"
            )
        ),
        denied && denialOf(denied, "cancel"),
        part("p", { role: "status" }, no && t(`booking.offer-${no}`, { trip: trip.trip })),
        !isLate &&
            part("div", { class: "row" },
                button(t("booking.offer-yes", { trip: trip.trip }), () => answer(true), {
                    class: "main",
                    "aria-disabled": disabled
                }),
                elsewhere !== "change" &&
                    button(
                        t(old ? "booking.offer-back" : "booking.offer-no", {
                            trip: trip.trip,
                            window: old ? windowOf(old) : ""
                        }),
                        () => answer(false),
                        { "aria-disabled": disabled }
                    )
            )
    );
}

/** What somebody else has made of an offer that was open here.
 * @param {Trip} trip as it is now @param {{ from: number, to: number }} window that was offered
 */
function goneWords(trip, { from, to }) {
    if (trip.status !== "booked") return t("booking.offer-off", { trip: trip.trip });
    return trip.window_from === from && trip.window_to === to
        ? t("booking.offer-kept", { trip: trip.trip })
        : refusedWords(null, trip);
}

/** The offers of a rider that nobody has answered. show(trips) takes the rider's trips as they are
 * now.
 * @param {number} rider @param {() => void} changed what is done once one was answered
 */
export function offersOf(rider, changed) {
    const screen = makeScreen({
        state: {
            trips: /** @type {Trip[]} */ ([]),
            busy: false,
            denied: /** @type {Record<number, Denied>} */ ({}),
            no: /** @type {Record<number, "looking" | "unsure">} */ ({}),
            told: /** @type {string | null} */ (null)
        },
        class: "offers",
        draw: ({ trips, busy, denied, no, told }) => [
            part("div", { role: "status", id: `offers-${rider}`, tabindex: -1 },
                told && part("p", { class: "good" }, told)
            ),
            trips.length > 0 &&
                part("section", { class: "card" },
                    part("h2", {},
                        t("booking.offers-open", { rider: riderLabel(rider), count: trips.length })
                    ),
                    trips.map((trip) => one(trip, busy, denied[trip.trip] ?? null, no[trip.trip]))
                )
        ]
    });
    /** @param {Trip} trip
     * @param {boolean} busy
     * @param {Denied | null} denied
     * @param {"looking" | "unsure"} [no]
     */
    const one = (trip, busy, denied, no) => {
        const offer = openOffer(trip);
        return offer &&
            offerShown({
                trip,
                rider,
                said: offer.said,
                old: offer.old,
                elsewhere: offer.elsewhere,
                before: offer.before,
                denied,
                id: `offer-${trip.trip}`,
                busy,
                no,
                answer: (yes) => answer(trip, yes)
            });
    };
    const left = (/** @type {number} */ trip) =>
        screen.state.trips.filter((it) => it.trip !== trip);
    const answer = async (/** @type {Trip} */ trip, /** @type {boolean} */ yes) => {
        const offer = openOffer(trip);
        if (!offer || screen.state.busy) return;
        screen.change({ busy: true });
        const looking = () => screen.change({ no: { [trip.trip]: "looking" } });
        const { is, now } = await (
            yes ? offerNow(rider, trip, offer.old) : offerBeforeNo(rider, trip, offer.old, looking)
        );
        if (is === "left" || is === "begun" || is === "unsure") {
            screen.change({ busy: false, no: is === "unsure" ? { [trip.trip]: is } : {} });
            return;
        }
        // (another clerk may have answered it meanwhile)
        const kept = is === "stands" && (yes || openOffer(trip) === null),
            denied = kept || is !== "stands" ? null : await givenUp(trip.trip, offer.old);
        if (kept && yes) tellBooked({ wish: trip, said: offer.said }, trip);
        screen.change(
            denied
                ? { busy: false, no: {}, denied: { [trip.trip]: denied } }
                : {
                      busy: false,
                      no: {},
                      trips: left(trip.trip),
                      told: kept
                          ? t("booking.offer-kept", { trip: trip.trip })
                          : refusedWords(offer.old, is === "moved" ? now : null)
                  },
            { focus: denied ? `offer-${trip.trip}` : `offers-${rider}` }
        );
        changed();
    };
    const show = (/** @type {Trip[]} */ all) => {
        if (screen.state.busy) return;
        // (what a form asks just now is not asked twice)
        const isAsked = (/** @type {Trip} */ { trip }) =>
            document.querySelector(`[data-offer="${trip}"]:not(#offer-${trip})`) !== null;
        const trips = all.filter((trip) => openOffer(trip) !== null && !isAsked(trip));
        // (what somebody else has answered meanwhile is said, and does not go without a word)
        const gone = screen.state.trips.map(({ trip, window_from: from, window_to: to }) => ({
            now: all.find((it) => it.trip === trip),
            from,
            to
        })).filter(({ now }) => now && openOffer(now) === null);
        const answered = gone.map(({ now, from, to }) =>
            goneWords(/** @type {Trip} */ (now), { from, to })
        );
        for (const trip of trips) {
            const offer = openOffer(trip);
            if (!offer || offer.counted) continue;
            count("denials", {
                day: trip.day,
                minute: offer.said.minute,
                rule: "no vehicle",
                mode: offer.said.mode,
                ...offerFields(rider, trip, offer.old)
            });
            keepOffer(trip.trip, { ...offer, counted: true });
        }
        if (trips.length || screen.state.trips.length)
            screen.change({ trips, ...(answered.length && { told: answered.join(" ") }) });
    };
    return { element: screen.element, show };
}
