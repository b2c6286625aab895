// Booking for a rider: what the rider wishes, and a list of what came of each trip that was asked
// for.

import { choiceOfAddress } from "../parts/address-meant.js";
import { addressOf } from "../parts/addresses.js";
import { routes } from "../parts/agency.js";
import { busHours } from "../parts/bus-hours.js";
import { between, clock, dayInWords, dayShort, weekdayOf } from "../parts/clock.js";
import * as desk from "../parts/desk.js";
import { denialOf, inWords } from "../parts/denials.js";
import { draftIn } from "../parts/drafts.js";
import { button, part } from "../parts/element.js";
import { form } from "../parts/fields.js";
import { icon } from "../parts/icons.js";
import { reading } from "../parts/reads.js";
import { riderLabel } from "../parts/roster.js";
import { driveOf, namedBy, offerOf, saidOf } from "../parts/said.js";
import { makeScreen } from "../parts/screen.js";
import { ended, left, planned } from "../parts/sent.js";
import { wayOf } from "../parts/stop-where.js";
import { ticketNow } from "../parts/ticket-now.js";
import {
    isOfHour,
    otherRequests,
    pickupsOf,
    searched,
    underWay,
    underWayOf
} from "../parts/wishes.js";
import { t } from "../parts/words.js";
import { faultOf, wishFields } from "./booking-fields.js";
import { askerOf, refusedWords, saidIn } from "./booking-plan.js";
import { markButton, markedWords } from "./denials-today.js";
import { isOwn } from "./letters.js";
import { offersOf, offerShown } from "./offers.js";
import { takeUp } from "./take-up.js";
import { printTickets, saidWords, ticketOf, windowOf } from "./ticket.js";
import { drivers } from "./trips-today.js";

export { dollars, windowOf } from "./ticket.js";

/** @typedef {import("../types").Trip} Trip */
/** @typedef {import("../types").Ticket} Ticket */
/** @typedef {import("./booking-plan.js").Leg} Leg */
/** @typedef {import("./booking-plan.js").State} State */
/** @typedef {import("../parts/wishes.js").Side} Side */
/** @typedef {import("../parts/wishes.js").Mode} Mode */
/** @typedef {import("./booking-fields.js").WishValues} WishValues */
/** @typedef {{ rider: number, trip: Trip | null, ids: string, now: () => Trip[] }} About trip is
 * the one that is changed; now gives the rider's trips as they were last read
 */
/** @typedef {{ tryOthers: (leg: Leg, side: Side) => void, answer: (leg: Leg, yes: boolean) => void,
 * leaveAt: (leg: Leg, minute: number | null) => void, mark: (leg: Leg) => void }} Acts
 */

/** The denial of a trip when no bus line runs. */
const OUT_OF_HOURS = "37.131(e)";

export const statusOf = (/** @type {string} */ status) => t(`booking.${status}`);

// What is asked for.

/** @typedef {{ from_address: number | null, to_address: number | null }} Ends which addresses were
 * chosen
 */

/** @param {WishValues} values
 * @param {string} day
 * @param {"out" | "back"} way
 * @param {boolean} change
 * @param {Ends} chosen
 * @returns {Leg}
 */
function legOf(values, day, way, change, chosen) {
    const { from, to, companion, attendant } = values,
        isOut = way === "out",
        mode = /** @type {Mode} */ (isOut ? values.mode : values.backMode),
        by = isOut ? values.by : null;
    // (faultOf has seen that the time which counts is there)
    const minute = /** @type {number} */ (
        isOut ? (mode === "by" ? by : values.wish) : values.back
    ),
        ends = isOut ? { from, to } : { from: to, to: from };
    return {
        key: `${day}-${way}`,
        said: saidIn({
            mode,
            minute,
            by,
            ...ends,
            ...(isOut
                ? chosen
                : { from_address: chosen.to_address, to_address: chosen.from_address }),
            change
        }),
        ticket: null,
        denied: null,
        offer: null,
        refused: null,
        tried: [],
        waitsFor: isOut ? null : `${day}-out`,
        wish: {
            day,
            wish: minute,
            ...ends,
            by: mode === "by" ? minute : by,
            attendant,
            companions: companion ? 1 : 0
        }
    };
}

/** @param {WishValues} values @param {boolean} change @param {Ends} chosen @returns {Leg[]} */
const legsOf = (values, change, chosen) =>
    values.days.flatMap((day) => [
        legOf(values, day, "out", change, chosen),
        ...(values.back === null || values.back === undefined
            ? []
            : [legOf(values, day, "back", change, chosen)])
    ]);

/** @param {[number, number]} one @param {[number, number]} other */
const meets = (one, other) => one[0] < other[1] && other[0] < one[1];

/** Trips that are like those that are asked for, each once: the same trip, the same way on that day
 * at another hour, and another way at the same time.
 * @param {Leg[]} legs @param {Trip[]} booked
 */
function likeOf(legs, booked) {
    const kindOf = (/** @type {Trip} */ it) => {
        const ofDay = legs.filter(({ wish }) => wish.day === it.day),
            ofWay = ofDay.filter(({ wish }) => wish.from === it.from && wish.to === it.to);
        if (ofWay.length) return ofWay.some(({ said }) => isOfHour(said, it)) ? "same" : "way";
        const isMet = ofDay.some(({ said }) => meets(underWay(said), underWayOf(it, driveOf(it))));
        return isMet ? "meets" : "";
    };
    const of = (/** @type {string} */ kind) => booked.filter((it) => kindOf(it) === kind);
    return { same: of("same"), way: of("way"), meeting: of("meets") };
}

/** What somebody should say yes to before it is sent: the rider's trips are read anew for it.
 * Undefined where the screen was left meanwhile.
 * @param {About} about @param {Leg[]} legs
 */
async function questionOf({ rider, trip }, legs) {
    const reply = await desk.tripsOf(rider);
    if (reply.denied === "left") return undefined;
    // (it may have been changed since; an offer that waits for its answer is no change yet)
    const now =
        trip && !offerOf(trip.trip) && reply.value?.trips.find((it) => it.trip === trip.trip);
    if (trip && now) Object.assign(trip, now);
    const booked = (reply.value?.trips ?? []).filter(
        (it) => it.status === "booked" && it.trip !== trip?.trip
    );
    const nowhere = legs.some(({ wish }) => wish.from === wish.to),
        found = likeOf(legs, booked);
    return nowhere || Object.values(found).some((it) => it.length)
        ? askedOf({ rider, trip }, legs[0], { ...found, nowhere })
        : null;
}

/** The question, with the trips that are like those that are asked for.
 * @param {Pick<About, "rider" | "trip">} about @param {Leg} first
 * @param {ReturnType<typeof likeOf> & { nowhere: boolean }} found
 */
function askedOf({ rider, trip }, first, { same, way, meeting, nowhere }) {
    const start = wayOf(first.wish, rider, first.said).from;
    const list = (/** @type {Trip[]} */ trips) =>
        part("ul", {},
            trips.map((it) =>
                part("li", {},
                    t("booking.same-trip", {
                        trip: it.trip,
                        day: dayInWords(it.day),
                        window: windowOf(it),
                        ...wayOf(it, rider)
                    })
                )
            )
        );
    const groups = /** @type {[string, Trip[]][]} */ ([
        ["same", same],
        ["way", way],
        ["meets", meeting]
    ]).filter(([, trips]) => trips.length > 0),
        [kind, trips] = groups[0] ?? ["nowhere", []];
    const question = t(`booking.${kind}-question`, {
        count: trips.length,
        rider: riderLabel(rider),
        place: start
    });
    // (a rider without a name begins with a word in small letters)
    return {
        question: question.charAt(0).toUpperCase() + question.slice(1),
        detail: [
            nowhere &&
                groups.length > 0 &&
                part("p", {}, t("booking.nowhere", { place: start })),
            groups.map(([name, it], at) => [
                at > 0 && part("p", {}, t(`booking.${name}`)),
                list(it)
            ])
        ],
        yes: t(
            trip
                ? "booking.change-yes"
                : kind === "same" || kind === "way"
                ? `booking.${kind}-yes`
                : "booking.all-the-same"
        )
    };
}

// What is shown of it.

/** @param {Leg} leg @param {number} rider */
const legWords = ({ wish, said }, rider) =>
    t("booking.leg", {
        day: dayShort(wish.day),
        ...wayOf(wish, rider, said),
        said: saidWords(said)
    });

/** How a trip that was not changed still stands.
 * @param {Trip} trip
 */
const standsWords = (trip) =>
    t("booking.not-changed", { trip: trip.trip, day: dayShort(trip.day), window: windowOf(trip) });

/** What was searched, and the other times that may be tried once the rider agrees, in their order.
 * @param {Leg} leg @param {Acts} acts @param {boolean} busy
 */
function otherTimes(leg, { tryOthers }, busy) {
    const othersOf = (/** @type {Side} */ side) => otherRequests(leg.said, side),
        ways = /** @type {Side[]} */ (["earlier", "later"]).filter(
            (side) => othersOf(side).length > 0 && !leg.tried.includes(side)
        );
    const sides = ways.length === 2 ? [/** @type {Side} */ ("either"), ...ways] : ways;
    return [
        leg.tried.length > 0 &&
            part("p", {},
                t(sides.length ? `booking.tried-${leg.tried[0]}` : "booking.others-denied")
            ),
        sides.length > 0 &&
            part("div", { class: "others" },
                part("h4", {}, t("booking.offer-others")),
                part("p", { class: "s soft" }, t("booking.if-agreed")),
                part("ol", { class: "order num" },
                    othersOf(sides[0]).map(({ wish }) =>
                        part("li", { key: wish },
                            t("booking.other-pickup", { window: between(...pickupsOf(wish)) })
                        )
                    )
                ),
                part("div", { class: "row" },
                    sides.map((side, at) =>
                        button(t(`booking.try-${side}`), () => tryOthers(leg, side), {
                            class: at ? null : "main",
                            "aria-disabled": busy ? "true" : null
                        })
                    )
                )
            )
    ];
}

/** What was asked for, what was searched, and what follows, as facts.
 * @param {Leg} leg
 */
function deniedFacts(leg) {
    const [first, last] = searched(leg.said), { section } = inWords("no vehicle");
    return part("dl", { class: "kv s" },
        part("div", {},
            part("dt", {}, t("booking.searched-name")),
            part("dd", { class: "num" },
                t("booking.searched", { first: clock(first), last: clock(last) })
            )
        ),
        part("div", {},
            part("dt", {}, t("booking.rule")),
            part("dd", {}, t("booking.counted", { section }))
        )
    );
}

/** A copy of the desk's file, which staff may have kept: a log of it says later why no vehicle
 * could take the trip. Of a change no log can be made.
 * @param {Leg} leg @param {number} rider @param {Acts} acts
 */
const copyOf = (leg, rider, { mark }) =>
    !isOwn() &&
    part("div", { class: "kept-copy" },
        part("div", { role: "status", id: `marked-${leg.key}`, tabindex: -1 },
            leg.marked && part("p", { class: "good" }, markedWords(leg.marked))
        ),
        !leg.marked && [
                part("p", { class: "hint" }, t("booking.mark-hint")),
                markButton(legWords(leg, rider), () => mark(leg))
            ]
    );

/** The hours of the buses on the day of a leg, by the agency's file; nothing where the file does
 * not say them.
 * @param {Leg} leg
 */
function busHoursShown({ wish }) {
    const hours = busHours(routes(), weekdayOf(wish.day));
    return hours &&
        part("p", {},
            t("booking.bus-hours", {
                day: dayShort(wish.day),
                first: clock(hours.first),
                last: clock(hours.last)
            })
        );
}

/** @param {Leg} leg @param {About} about @param {Acts} acts @param {boolean} busy */
function deniedShown(leg, { rider, trip }, acts, busy) {
    const heading = trip
        ? standsWords(trip)
        : t("booking.denied-for", { leg: legWords(leg, rider) }),
        isFull = leg.denied?.denied === "no vehicle";
    return part(
        "section",
        { class: "refused", tabindex: -1, id: `leg-${leg.key}`, "aria-label": heading },
        part("div", { class: "lead" },
            part("h3", {}, icon("warning"), heading),
            trip && part("p", { class: "s" }, t("booking.asked-for", { leg: legWords(leg, rider) }))
        ),
        part("div", { class: "rest" },
            leg.denied && denialOf(leg.denied, "trip"),
            leg.denied?.denied === OUT_OF_HOURS && busHoursShown(leg),
            isFull && [
                    deniedFacts(leg),
                    otherTimes(leg, acts, busy),
                    !trip && copyOf(leg, rider, acts)
                ]
        )
    );
}

/** A way back that would begin before the way there arrives: it is asked for once the rider has
 * said when to leave.
 * @param {Leg} leg @param {number} rider @param {Acts} acts @param {boolean} busy
 */
function earlyShown(leg, rider, { leaveAt }, busy) {
    const time = clock(Number(leg.early)),
        heading = t("booking.early-back", { time }),
        disabled = busy ? "true" : null;
    return part(
        "section",
        { class: "refused", tabindex: -1, id: `leg-${leg.key}`, "aria-label": heading },
        part("div", { class: "lead" }, part("h3", {}, icon("warning"), heading)),
        part("div", { class: "rest" },
            part("p", {}, t("booking.asked-for", { leg: legWords(leg, rider) })),
            part("div", { class: "row" },
                button(t("booking.early-later", { time }), () => leaveAt(leg, Number(leg.early)), {
                    class: "main",
                    "aria-disabled": disabled
                }),
                button(
                    t("booking.early-as-said", { said: saidWords(leg.said) }),
                    () => leaveAt(leg, null),
                    { "aria-disabled": disabled }
                )
            )
        )
    );
}

/** The trip of a leg as it is now, as a ticket has it. What the rider said goes with the window
 * that was booked: of another window it is looked for.
 * @param {Leg} leg @param {About} about
 */
function bookedNow({ ticket, wish, said }, { rider, now }) {
    const it = ticketNow({ ticket: /** @type {Ticket} */ (ticket), wish }, now());
    return { rider, ...it, said: it.isAsBooked ? said : saidOf(it.ticket) };
}

/** @param {Leg} leg @param {About} about */
function ticketShown(leg, about) {
    const { rider, trip } = about,
        booked = bookedNow(leg, about),
        id = `leg-${leg.key}`,
        names = { trip: booked.ticket.trip, rider: riderLabel(rider) };
    if (booked.status !== "cancelled")
        return ticketOf(booked, {
            id,
            heading: t(trip ? "booking.changed-for" : "booking.booked-for", names)
        });
    const heading = t("booking.cancelled-now", names);
    return part("section", { class: "refused", tabindex: -1, id, "aria-label": heading },
        part("div", { class: "lead" }, part("h3", {}, heading)),
        part("div", { class: "rest" },
            part("p", {}, t("booking.was-for", { leg: legWords(leg, rider) }))
        )
    );
}

/** @param {Leg} leg @param {About} about @param {Acts} acts @param {boolean} busy */
function legShown(leg, about, acts, busy) {
    const { rider, trip } = about,
        { ticket, offer, refused, said, wish, key } = leg,
        id = `leg-${key}`;
    if (ticket) return part("li", { key }, ticketShown(leg, about));
    if (offer)
        return part("li", { key },
            offerShown({
                trip: { ...wish, ...offer },
                rider,
                said,
                old: trip,
                before: leg.before,
                denied: leg.denied,
                id,
                busy,
                no: leg.no,
                answer: (yes) => acts.answer(leg, yes)
            })
        );
    if (refused)
        return part("li", { key },
            part(
                "section",
                { class: "refused", tabindex: -1, id, "aria-label": refusedWords(trip, leg.moved) },
                part("div", { class: "lead" },
                    part("h3", {}, icon("warning"), refusedWords(trip, leg.moved))
                ),
                !leg.before &&
                    part("div", { class: "rest" }, part("p", {}, t("booking.offer-counted")))
            )
        );
    if (leg.denied) return part("li", { key }, deniedShown(leg, about, acts, busy));
    if (leg.early) return part("li", { key }, earlyShown(leg, rider, acts, busy));
    return part("li", { key, class: "waiting" },
        part("p", {}, `${legWords(leg, rider)}: `, t(busy ? "booking.asking" : "booking.not-asked"))
    );
}

/** What stands though not all of a day was booked: the way there without the way back.
 * @param {Leg[]} legs @param {About} about
 */
const standing = (legs, about) =>
    legs
        .filter(({ waitsFor, denied, early }) => waitsFor && (denied || early))
        .flatMap(({ waitsFor }) => legs.filter(({ key, ticket }) => key === waitsFor && ticket))
        .map((out) => bookedNow(out, about))
        .filter(({ status }) => status === "booked")
        .map(({ ticket, wish, said }) =>
            part("p", { class: "note", key: `stands-${ticket.trip}` },
                t("booking.stands", {
                    trip: ticket.trip,
                    day: dayShort(wish.day),
                    window: windowOf(ticket),
                    ...wayOf(wish, about.rider, said)
                })
            )
        );

/** The search has the focus again, for who calls next. */
function nextCaller() {
    /** @type {HTMLElement | null} */ (document.querySelector("#find [data-search]"))?.focus();
}

/** What comes after the answer: the next caller, all tickets on paper, another trip.
 * @param {State} state @param {About} about @param {string} heading @param {() => void} another
 */
function nextSteps({ legs }, about, heading, another) {
    const { trip } = about,
        booked = legs.filter(({ ticket }) => ticket),
        stand = booked.map((leg) => bookedNow(leg, about)).filter(
            ({ status }) => status === "booked"
        ),
        isCounter = document.querySelector("#find [data-search]") !== null;
    if (trip) return null;
    return part("div", { class: "row next-steps" },
        isCounter &&
            button(
                [t("booking.next-caller"), " ", part("kbd", { "aria-hidden": "true" }, "/")],
                nextCaller,
                {
                    class: booked.length === legs.length ? "main" : null,
                    "aria-label": t("booking.next-caller")
                }
            ),
        stand.length > 1 &&
            button([icon("printer"), " ", t("booking.print-all")], () =>
                printTickets(stand, heading)
            ),
        button(t("booking.another"), another, { class: "quiet" })
    );
}

/** @param {State} state
 * @param {About} about
 * @param {Acts} acts
 * @param {() => void} another leads to the form
 */
function resultsShown(state, about, acts, another) {
    const { legs, busy } = state,
        { rider, trip, ids } = about,
        booked = legs.filter((leg) => leg.ticket && bookedNow(leg, about).status === "booked"),
        done = !busy && legs.length > 0,
        open = legs.some(({ offer }) => offer);
    const heading = t(trip ? "booking.result-of-change" : "booking.result", {
        booked: booked.length,
        count: legs.length,
        rider: riderLabel(rider),
        trip: trip?.trip,
        open
    });
    return part("div", { class: "results", key: "results" },
        part("p", { role: "status", class: "unseen" }, done && heading),
        legs.length > 1 &&
            part("h3", { id: `results-${ids}`, tabindex: -1 },
                done && booked.length === legs.length && icon("check"),
                heading
            ),
        done && standing(legs, about),
        part("ol", { class: "legs" }, legs.map((leg) => legShown(leg, about, acts, busy))),
        done && nextSteps(state, about, heading, another)
    );
}

/** @typedef {{ rider: number, trip?: Trip | null, booked: (ticket: Ticket | null) => void, did?:
 * (legs: Leg[]) => void, heading: string, action: string }} Given
 */

/** The form of a wish with what came of it above: a new trip, or a change of the given one.
 * @param {Given} given
 */
function wishScreen({ rider, trip = null, booked, did = () => {}, heading, action }) {
    const { fields, days, extra, ends } = wishFields({ rider, again: Boolean(trip) });
    const about = {
        rider,
        trip,
        ids: trip ? `change-${trip.trip}` : "book",
        now: /** @returns {Trip[]} */ () => screen.state.now
    };
    const asker = askerOf({
        change: (patch, options) => screen.change(patch, options),
        state: () => screen.state,
        rider,
        trip,
        booked: () => booked(screen.state.legs.find(({ ticket }) => ticket)?.ticket ?? null),
        came: (legs) => did(legs),
        onGone: (/** @type {() => void} */ act) => screen.onGone(act),
        form: () => screen.element
    });
    const begin = () => {
        asker.leave();
        screen.change({ legs: [], busy: false });
    };
    const whole = form({
        name: heading,
        action,
        fields,
        class: "wish",
        extra,
        check: faultOf,
        begun: () => begin(),
        ask: async (values) => {
            const legs = legsOf(values, Boolean(trip), ends());
            planned(rider, legs, trip?.trip ?? null, screen.element);
            const question = await questionOf(about, legs);
            if (question === undefined) left(rider);
            return question;
        },
        declined: () => ended(rider),
        send: async (values) => {
            // (what was read before is not of what is asked for now)
            screen.change({ legs: legsOf(values, Boolean(trip), ends()), busy: true, now: [] });
            planned(rider, screen.state.legs, trip?.trip ?? null, screen.element);
            await asker.rest();
            ended(rider);
            return { value: true };
        },
        done: () => {
            const { legs } = screen.state,
                id = legs.length === 1 ? `leg-${legs[0].key}` : `results-${about.ids}`;
            screen.change({}, { focus: id });
            // (the answer is what is read out next)
            document.getElementById(id)?.scrollIntoView({
                block: legs.length > 1 ? "start" : "nearest"
            });
            did(legs);
        }
    });
    /** The button says how many trips are booked at once: of each day, and the way back. */
    const countTrips = () => {
        const ofDays = days.read().value?.length ?? 0,
            back = fields.find(({ name }) => name === "back"),
            submit = whole.querySelector("button[type=submit]");
        if (submit && !trip)
            submit.textContent = t("booking.book", {
                rider: riderLabel(rider),
                count: ofDays * (back?.control.value?.trim() ? 2 : 1)
            });
    };
    whole.addEventListener("input", countTrips);
    whole.addEventListener("change", countTrips);
    // (what this form has under way comes to its end first)
    whole.addEventListener(
        "submit",
        (event) => {
            if (!screen.state.busy) return;
            event.preventDefault();
            event.stopImmediatePropagation();
        },
        true
    );
    const another = () => {
        begin();
        document.getElementById(about.ids)?.scrollIntoView({ block: "nearest" });
        fields[0].control.focus();
    };
    /** @type {import("../parts/screen.js").Screen<State>} */
    const screen = makeScreen({
        state: /** @type {State} */ ({ legs: [], busy: false, now: [] }),
        class: trip ? "inner" : "stack g3",
        draw: (state) => [
            resultsShown(state, about, asker, another),
            trip
                ? [part("h3", { id: about.ids, tabindex: -1 }, heading), whole]
                : part(
                      "section",
                      {
                          class: "card flush",
                          key: "form",
                          "data-key": "b",
                          "aria-labelledby": about.ids
                      },
                      part("div", { class: "head" },
                          part("h2", { id: about.ids, tabindex: -1 }, heading),
                          !isOwn() && part("kbd", { "aria-hidden": "true" }, "b")
                      ),
                      whole
                  )
        ]
    });
    screen.onNewDay(() => {
        days.renew();
        countTrips();
    });
    const read = reading(desk.pathOf.trips(rider));
    read.watch(screen.element, () => {
        const trips = /** @type {Trip[]} */ (read.reply()?.value?.trips ?? []);
        asker.look(trips);
        if (!screen.state.busy && screen.state.legs.some(({ ticket }) => ticket))
            screen.change({ now: trips });
    });
    // (what a time means is known once its mode is)
    const ordered = [...fields].sort(
        (one, other) => Number(other.name.endsWith("ode")) - Number(one.name.endsWith("ode"))
    );
    const write = (/** @type {Record<string, unknown>} */ values) => {
        ordered.forEach((it) => {
            if (it.name in values) it.write(values[it.name]);
        });
        countTrips();
    };
    return {
        element: screen.element,
        write,
        focus: () => days.control.focus(),
        begin,
        isBusy: () => screen.state.busy
    };
}

/** What a trip that is there says of a wish: what the rider said of it, as far as that is known.
 * Else a minute to be there by is what mattered, or the window that was promised is what the rider
 * knows.
 * @param {Trip} trip
 */
function wishOf(trip) {
    const { from, to, companions, attendant } = trip, said = saidOf(trip), by = namedBy(trip);
    const mode = said?.mode ?? (by === null ? "around" : "by"),
        minute = said?.minute ?? trip.window_from;
    const at = (/** @type {number | undefined} */ address, /** @type {number} */ place) => (
        address !== undefined && addressOf(address)?.place === place
            ? choiceOfAddress(address)
            : place
    );
    return {
        from: at(said?.from_address, from),
        to: at(said?.to_address, to),
        mode,
        wish: mode === "by" ? null : minute,
        by: mode === "by" ? said?.minute ?? by : by,
        companion: companions > 0,
        attendant
    };
}

/** @param {Trip | null} back */
function backOf(back) {
    const wish = back && wishOf(back);
    return {
        back: wish ? wish.wish ?? wish.by : null,
        backMode: wish && saidOf(/** @type {Trip} */ (back)) ? wish.mode : "not-before"
    };
}

/** Booking for a rider. copy(trip, back) fills in what a trip that is there says, and its way back;
 * the day is still to be chosen.
 * @param {number} rider
 * @param {{ booked?: () => void, changed?: () => void, did?: (deed: "booked" | "denied", count:
 * number) => void }} [options] booked follows a booking, changed what else the rider's trips are to
 * show anew, and did(deed, count) says what came of it
 */
export function bookingFor(rider, options = {}) {
    const { booked = () => {}, changed = () => {}, did = () => {} } = options;
    const tell = (/** @type {Leg[]} */ legs) => {
        did("denied", legs.filter(({ denied }) => denied).length);
        did("booked", legs.filter(({ ticket }) => ticket).length);
    };
    const screen = wishScreen({
        rider,
        booked,
        did: tell,
        heading: t("booking.book-for", { rider: riderLabel(rider) }),
        action: t("booking.book", { rider: riderLabel(rider) })
    });
    const copy = (/** @type {Trip} */ trip, /** @type {Trip | null} */ back) => {
        if (screen.isBusy()) return;
        screen.begin();
        screen.write({ ...wishOf(trip), days: "", ...backOf(back) });
        screen.focus();
    };
    const offers = offersFor(rider, changed),
        whole = makeScreen({ state: {}, draw: () => [offers, screen.element] });
    return { element: whole.element, copy };
}

/** The offers of a rider that nobody has answered, and what was being asked when a window was
 * closed: asked again at each sight of the rider.
 * @param {number} rider @param {() => void} [changed]
 */
export function offersFor(rider, changed = () => {}) {
    const { element, show } = offersOf(rider, changed), read = reading(desk.pathOf.trips(rider));
    const look = async () => {
        const trips = /** @type {Trip[] | undefined} */ (read.reply()?.value?.trips);
        if (trips && await takeUp(rider, trips)) show(trips);
    };
    read.watch(element, look);
    drivers()?.watch(element, look);
    return element;
}

/** The change of a trip.
 * @param {number} rider @param {Trip} trip @param {() => void} changed
 */
export function changeFor(rider, trip, changed) {
    const screen = wishScreen({
        rider,
        trip,
        booked: () => {
            draft.drop();
            changed();
        },
        heading: t("booking.change-of", { trip: trip.trip, rider: riderLabel(rider) }),
        action: t("booking.change-of", { trip: trip.trip, rider: riderLabel(rider) })
    });
    screen.write({ ...wishOf(trip), days: trip.day });
    const draft = draftIn(screen.element, `change ${rider} ${trip.trip}`);
    return screen;
}
