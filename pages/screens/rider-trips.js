// A rider's own trips, as on a phone: the next one first, with its window as the largest line, and
// the others as rows that open.

import { agency, vehicleName } from "../parts/agency.js";
import { between, clock, dayPlain, minuteNow, plus, today } from "../parts/clock.js";
import { button, part } from "../parts/element.js";
import { icon } from "../parts/icons.js";
import { apartBy, nextOf, windowIs } from "../parts/first-trip.js";
import { riderLabel } from "../parts/roster.js";
import { namedBy } from "../parts/said.js";
import { wayOf } from "../parts/stop-where.js";
import { t } from "../parts/words.js";
import { statusOf } from "./booking.js";
import { dollars, party, printTickets, requestedWords, windowOf } from "./ticket.js";
import { closedWords } from "./trips-today.js";
import { answerOf, listsOf, mayCancel, mayChange } from "./trips.js";

/** @typedef {import("../types").Trip} Trip */
/** @typedef {import("../types").Given} Given */
/** @typedef {import("./trips.js").Shown} Shown */

/** The telephone that a rider calls, as a link; nothing where the agency has none.
 * @param {string} look @param {(telephone: string) => string} words
 */
function callLink(look, words) {
    const { telephone } = agency();
    return telephone &&
        part(
            "a",
            { class: `tap ${look}`, href: `tel:${telephone.replace(/[^\d+]/g, "")}`, key: "call" },
            icon("phone"),
            part("span", {}, words(telephone))
        );
}

/** "Today, Mon, Dec 7", "Tomorrow, Tue, Dec 8", "Thu, Dec 10".
 * @param {string} day
 */
function dayWords(day) {
    const words = dayPlain(day);
    if (day === today()) return t("rider.today", { day: words });
    return day === plus(today(), 1) ? t("rider.tomorrow", { day: words }) : words;
}

/** What can be done with a trip, and nothing that is sure to be denied.
 * @param {Trip} trip @param {Shown} shown
 */
function actsOf(trip, { rider, acts }) {
    const named = (/** @type {string} */ key, /** @type {string} */ look = "") => ({
        key,
        class: look || null,
        "aria-label": t(key, { trip: trip.trip, rider: riderLabel(rider) })
    });
    return part("div", { class: "taps tools" },
        mayChange(trip) &&
            button(t("booking.change"), () => acts.change(trip), named("booking.change-of")),
        mayCancel(trip) &&
            button(
                t("booking.cancel"),
                () => acts.cancel(trip),
                named("booking.cancel-of", "danger")
            ),
        acts.again &&
            button(t("booking.again"), () => acts.again?.(trip), named("booking.again-of")),
        trip.status === "booked" &&
            button(
                t("booking.ticket-print"),
                () =>
                    printTickets(
                        [{ rider, ticket: trip, wish: trip }],
                        t("booking.ticket", { trip: trip.trip })
                    ),
                named("booking.print-of")
            )
    );
}

/** What is small: what was asked for, who comes along, the trip's number.
 * @param {Trip} trip
 */
function factsOf(trip) {
    const by = namedBy(trip),
        said = requestedWords(trip),
        isAlone = !trip.attendant && !trip.companions;
    return part("p", { class: "s soft" },
        [
            said && t("rider.said", { said }),
            by !== null && t("booking.card-by", { by: clock(Number(by)) }),
            !isAlone && t("rider.who", { who: party(trip) }),
            t("trips.today-trip", { trip: trip.trip })
        ].filter(Boolean).join(" ")
    );
}

/** @param {Trip} trip @param {number} rider */
function wayPoints(trip, rider) {
    const { from, to } = wayOf(trip, rider);
    return part("ul", { class: "way-points" },
        part("li", {}, part("span", { class: "unseen" }, t("rider.from"), " "), from),
        part("li", {}, part("span", { class: "unseen" }, t("rider.to"), " "), to)
    );
}

/** When to be there, how long the driver waits, and what to pay.
 * @param {Trip} trip
 */
const readyWords = ({ window_from: from, due }) =>
    part("p", { class: "signed" },
        icon("clock"),
        part("span", {},
            t("rider.ready", { time: clock(from), minutes: agency().wait_minutes }),
            " ",
            due > 0 && t("rider.pay", { due: dollars(due) })
        )
    );

/** What a rider has to know while the van is expected, or after that.
 * @param {Trip} trip @param {"before" | "during" | "over"} where
 */
function expectedWords({ vehicle, window_to: to }, where) {
    if (where === "before") return null;
    const van = vehicleName(vehicle), isOver = where === "over";
    return [
        part("p", { class: `note signed${isOver ? " bad" : ""}` },
            icon("clock"),
            part("span", {},
                part("strong", {},
                    isOver ? t("rider.unseen", { van }) : t("rider.coming", { time: clock(to) })
                ),
                ". ",
                isOver && t("rider.never-against")
            )
        ),
        callLink(isOver ? "main" : "plain", (telephone) => t("rider.late-call", { telephone }))
    ];
}

/** @param {Trip} trip @param {Shown} shown */
function nextTrip(trip, shown) {
    const { state, rider, below } = shown,
        where = windowIs(trip, today(), minuteNow()),
        isOff = trip.status !== "booked",
        isLate = where === "over" && !isOff;
    return part(
        "section",
        {
            class: `next-trip${isLate ? " late" : ""}`,
            key: `next-${trip.trip}`,
            "data-trip": trip.trip,
            "aria-labelledby": "next-trip"
        },
        part("div", {},
            part("h2", { id: "next-trip" }, t(isLate ? "rider.next-late" : "rider.next")),
            part("p", { class: "next-day" }, dayWords(trip.day)),
            part("p", { class: "window" }, part("strong", { class: "huge-time" }, windowOf(trip))),
            part("p", {},
                t("rider.window-of", { van: vehicleName(trip.vehicle) }),
                isOff && ` (${statusOf(trip.status)})`
            )
        ),
        closedWords(trip),
        !isOff && expectedWords(trip, where),
        wayPoints(trip, rider),
        !isOff && where === "before" && readyWords(trip),
        factsOf(trip),
        answerOf(trip, state),
        actsOf(trip, shown),
        below(trip)
    );
}

/** A trip as a row, which opens.
 * @param {Trip} trip @param {Shown} shown
 */
function tripRow(trip, shown) {
    const { state, rider, below } = shown,
        { from, to } = wayOf(trip, rider),
        status = trip.status === "booked" ? "" : ` (${statusOf(trip.status)})`,
        isOpen = Boolean(state.answers[trip.trip]) || state.changing === trip.trip;
    return part("li", { key: trip.trip, "data-trip": trip.trip },
        closedWords(trip),
        part("details", { open: isOpen || null },
            part("summary", { class: "pick-row" },
                part("span", {},
                    part("span", { class: "s soft" }, dayWords(trip.day)),
                    " ",
                    part("b", { class: "num" }, between(trip.window_from, trip.window_to), status),
                    " ",
                    part("span", { class: "s" }, t("rider.way", { from, to }))
                ),
                !status &&
                    part("span", { class: "unseen" },
                        t(mayChange(trip) || mayCancel(trip) ? "rider.opens" : "rider.opens-over")
                    ),
                icon("right")
            ),
            part("div", { class: "row-inside" },
                part("p", {},
                    t("rider.window-of", { van: vehicleName(trip.vehicle) }),
                    ". ",
                    trip.status !== "cancelled" &&
                        trip.due > 0 &&
                        t("rider.pay", { due: dollars(trip.due) })
                ),
                factsOf(trip),
                answerOf(trip, state),
                actsOf(trip, shown),
                below(trip)
            )
        )
    );
}

/** @param {Trip[]} trips @param {string} caption @param {Shown} shown */
const rowsOf = (trips, caption, shown) =>
    part("ul", { class: "plain-list trip-rows", "aria-label": caption },
        trips.map((trip) => tripRow(trip, shown))
    );

/** All trips of a rider, the next one first. What was canceled just now stays where it was, with
 * the answer.
 * @param {Shown} shown @returns {Given}
 */
export function riderTrips(shown) {
    const lists = listsOf(shown),
        { next, others } = nextOf([...lists.today, ...lists.coming], today(), minuteNow()),
        { over, later } = apartBy(others, today(), minuteNow());
    const open = (
        /** @type {Trip[]} */ trips,
        /** @type {string} */ name,
        /** @type {string} */ caption
    ) =>
        trips.length > 0 &&
        part("section", { class: "card flush", key: name },
            part("h2", { class: "head" }, t(`rider.${name}`)),
            rowsOf(trips, caption, shown)
        );
    const folded = (/** @type {Trip[]} */ trips, /** @type {string} */ name) =>
        trips.length > 0 &&
        part("details", { class: "card flush", key: name },
            part("summary", { class: "head" }, t(`booking.count-${name}`, { count: trips.length })),
            rowsOf(trips, t(`booking.list-${name}`), shown)
        );
    return [
        next
            ? nextTrip(next, shown)
            : part("p", { class: "card", key: "none" }, t("trips.none-coming")),
        part("a", { class: "tap main", href: "#rider/book", key: "book" },
            icon("plus"),
            t("rider.book")
        ),
        open(later, "later", t("trips.list-coming")),
        open(over, "earlier", t("rider.earlier")),
        folded(lists.past, "past"),
        folded(lists.off, "off")
    ];
}
