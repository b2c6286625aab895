// The ticket of a trip: what the rider gets, on the screen and on paper, in the reader's language
// and in the rider's own.

import { agency, vehicleName } from "../parts/agency.js";
import { between, clock, dayInWords, dayShort } from "../parts/clock.js";
import { button, part } from "../parts/element.js";
import { icon } from "../parts/icons.js";
import { printParts } from "../parts/paper.js";
import { riderLabel, riderName, riderOf } from "../parts/roster.js";
import { namedBy, saidOf } from "../parts/said.js";
import { wayOf } from "../parts/stop-where.js";
import { apart } from "../parts/wishes.js";
import { language, LANGUAGE_NAMES, listed, loadBoth, speaking, t } from "../parts/words.js";

/** @typedef {import("../types").Trip} Trip */
/** @typedef {import("../types").Ticket} Ticket */
/** @typedef {import("../types").Wish} Wish */
/** @typedef {import("../parts/said.js").Named} Named */
/** @typedef {{ rider: number, ticket: Ticket, wish: Wish, said?: Named | null }} Booked said is
 * what the rider said; of a trip that is there it is looked for
 */

/** Who is to call the agency is told whom to call. */
const isOwn = () => location.hash.startsWith("#rider");

/** @param {number} cents */
export const dollars = (cents) => `$${(cents / 100).toFixed(2)}`;

/** @param {{ window_from: number, window_to: number }} ticket */
export const windowOf = ({ window_from: from, window_to: to }) => between(from, to);

/** Who comes: the rider, and whom the rider brings.
 * @param {{ attendant: boolean, companions: number }} wish
 */
export function party({ attendant, companions }) {
    const who = [
        t("booking.rider"),
        attendant && t("booking.attendant"),
        companions > 0 && t("booking.companions", { count: companions })
    ];
    return listed(who.filter(Boolean).map(String));
}

/** What a rider said, as it is read out: "not before 9:00 AM".
 * @param {Named} said
 */
export const saidWords = ({ mode, minute }) => t(`booking.said-${mode}`, { time: clock(minute) });

/** What the rider said of a trip that is there; "" where it is not known, since the desk's own
 * minute is the pages' and not the rider's.
 * @param {Pick<Trip, "trip" | "window_from" | "window_to">} trip
 */
export function requestedWords(trip) {
    const said = saidOf(trip);
    return said ? saidWords(said) : "";
}

/** How far the promised pickup is from what was said: "55 minutes before 9:00 AM".
 * @param {Ticket} ticket @param {Named} said
 */
function distance(ticket, said) {
    const far = apart(ticket, said.minute), time = clock(said.minute);
    if (said.mode === "by" || far === 0) return saidWords(said);
    return t(far < 0 ? "booking.before-wish" : "booking.after-wish", {
        minutes: Math.abs(far),
        wish: time
    });
}

/** @param {Ticket} ticket */
const toPay = ({ due, fare }) => (
    due === fare ? dollars(due) : t("booking.fare-each", { due: dollars(due), fare: dollars(fare) })
);

/** Where a trip goes. What a driver has to know of a place is not the rider's.
 * @param {Booked} booked
 */
const wayIn = ({ rider, ticket, wish, said = saidOf(ticket) }) =>
    wayOf({ trip: ticket.trip, from: wish.from, to: wish.to }, rider, said);

/** The minute to be there by that the rider named, or null.
 * @param {Booked} booked
 */
const byOf = ({ ticket, wish, said = saidOf(ticket) }) => (
    said ? said.by ?? null : namedBy({ ...wish, ...ticket })
);

/** What a ticket says beside its window and its way, as pairs of a name and a text.
 * @param {Booked} booked @returns {[string, string][]}
 */
function ticketLines(booked) {
    const { wish } = booked, by = byOf(booked), isAlone = !wish.attendant && wish.companions === 0;
    /** @type {[string, string][]} */
    const lines = [
        [t("booking.by"), by === null ? "" : clock(by)],
        [t("booking.who"), isAlone ? "" : party(wish)],
        [
            t("booking.agency"),
            isOwn() ? [agency().name, agency().telephone].filter(Boolean).join(", ") : ""
        ]
    ];
    return lines.filter(([, value]) => value);
}

/** The promised window in the largest type, under its day; then the way, how far the window is from
 * what was said, what to pay, and the rest.
 * @param {Booked} booked @param {import("../types").Given} [heading]
 */
function ticketBody(booked, heading) {
    const { ticket, wish, said = saidOf(ticket) } = booked, { from, to } = wayIn(booked);
    return [
        part("div", { class: "lead" },
            heading,
            part("p", { class: "when" }, part("strong", {}, dayShort(wish.day))),
            part("p", { class: "window huge-time" }, windowOf(ticket)),
            part("p", { class: "s" }, t("booking.window-van", { van: vehicleName(ticket.vehicle) }))
        ),
        part("div", { class: "rest" },
            part("ul", { class: "way-points" },
                part("li", {}, part("span", { class: "unseen" }, t("booking.from"), " "), from),
                part("li", {}, part("span", { class: "unseen" }, t("booking.to"), " "), to)
            ),
            part("p", { class: "between s" },
                part("span", { class: "soft far" }, said && distance(ticket, said)),
                part("span", {}, t("booking.to-pay"), " ", part("strong", {}, toPay(ticket)))
            ),
            ticketLines(booked).length > 0 &&
                part("dl", { class: "kv s" },
                    ticketLines(booked).map(([name, value]) =>
                        part("div", {}, part("dt", {}, name), part("dd", {}, value))
                    )
                )
        )
    ];
}

/** The language that a rider reads, where the roster says so and it is another than the page's.
 * @param {number} rider
 */
function otherLanguage(rider) {
    const own = riderOf(rider)?.language ?? "";
    return own !== language() && own in LANGUAGE_NAMES ? own : null;
}

/** A trip on paper, in one language: the window in the largest type, and the facts below it.
 * @param {Booked} booked @param {string | null} lang
 */
function slipOf(booked, lang) {
    const { ticket, wish, said = saidOf(ticket) } = booked,
        { from, to } = wayIn(booked),
        by = byOf(booked);
    const facts = [
        [t("booking.from"), from],
        [t("booking.to"), to],
        ...(by === null ? [] : [[t("booking.by"), clock(by)]]),
        [t("booking.to-pay"), toPay(ticket)],
        ...(said ? [[t("booking.requested"), saidWords(said)]] : []),
        [t("booking.who"), party(wish)]
    ];
    return part("section", { class: "slip", lang },
        part("div", { class: "between" },
            part("strong", {}, dayInWords(wish.day)),
            part("span", {}, t("booking.ticket-pickup", { trip: ticket.trip }))
        ),
        part("p", { class: "window" }, windowOf(ticket)),
        part("p", {}, t("booking.window-van", { van: vehicleName(ticket.vehicle) })),
        part("dl", {},
            facts.map(([name, value]) =>
                part("div", {}, part("dt", {}, name), part("dd", {}, value))
            )
        )
    );
}

/** Whose ticket it is, and whom to call; and what to do, below.
 * @param {number} rider
 */
const paperHead = (rider) =>
    part("header", { class: "paper-head" },
        part("div", {},
            part("strong", { class: "name" }, riderName(rider) || riderLabel(rider)),
            part("p", {}, t("booking.rider-number", { rider }))
        ),
        part("div", { class: "right" },
            part("strong", {}, agency().name),
            part("p", {}, agency().telephone)
        )
    );

/** @param {string | null} lang */
function paperFoot(lang) {
    const { telephone, wait_minutes: minutes } = agency();
    return part("p", { lang }, t("booking.paper-foot", { minutes, telephone }));
}

/** What is printed of some trips of a rider: each as a slip, in the rider's language first where
 * that is another, with the reader's beside it.
 * @param {Booked[]} all @param {string} heading
 */
export async function printTickets(all, heading) {
    await loadBoth();
    const own = otherLanguage(all[0].rider),
        pair = (/** @type {(lang: string | null) => import("../types").Part} */ made) =>
            part("div", { class: "slips" }, own && speaking(own, () => made(own)), made(null));
    const head = paperHead(all[0].rider);
    printParts(
        heading,
        [
            own ? speaking(own, () => paperHead(all[0].rider)) : head,
            all.map((booked) => pair((lang) => slipOf(booked, lang))),
            pair(paperFoot)
        ],
        { class: "tickets" }
    );
}

/** The reply to a wish, as what the rider gets.
 * @param {Booked} booked @param {{ heading: string, id?: string }} options
 */
export function ticketOf(booked, { heading, id }) {
    return part("section", { class: "ticket", tabindex: -1, "aria-label": heading, id },
        ticketBody(booked, part("h3", {}, icon("check"), heading)),
        part("div", { class: "row" },
            button(
                [icon("printer"), " ", t("booking.ticket-print")],
                () => printTickets([booked], heading),
                {
                    class: "quiet small",
                    "aria-label": t("booking.print-of", { trip: booked.ticket.trip })
                }
            )
        )
    );
}
