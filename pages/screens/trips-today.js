// "Where is my van?": each trip of today that has no outcome yet, with its window, its van, what is
// known of the van, and whom to call.

import { agency, vehicleName } from "../parts/agency.js";
import { closedFor } from "../parts/closed-days.js";
import { clock, minuteNow, momentAt, serverNow, today } from "../parts/clock.js";
import { part } from "../parts/element.js";
import { icon } from "../parts/icons.js";
import { toldIn } from "../parts/lateness.js";
import { namedBy } from "../parts/said.js";
import { STAFF } from "../parts/screens.js";
import { wayOf } from "../parts/stop-where.js";
import { plansRead, toldRead } from "../parts/told.js";
import { plansIn, vanLate } from "../parts/van-late.js";
import { t } from "../parts/words.js";
import { isSoon, tapsOf, whereIs } from "../parts/where.js";
import { windowOf } from "./ticket.js";

/** @typedef {import("../types").Trip} Trip */
/** @typedef {import("../types").Given} Given */
/** @typedef {import("../parts/where.js").Where} Where */
/** @typedef {import("../parts/van-late.js").VanLate} VanLate */
/** @typedef {{ told: string | null | undefined, plans: string | null | undefined }} Texts of the
 * drivers' file and of the vans' plans
 */

const HOUR = 60;
const KNOWN = ["arrived", "aboard", "dropped", "skipped", "no-show", "missed"];

const screenNow = () => location.hash.slice(1).split("/")[0];

/** What drivers told today, for staff: the site makes the file, and riders may not read it. */
export const drivers = () => (STAFF.includes(screenNow()) ? toldRead() : null);

/** When the vans are planned at their stops, for staff. */
export const plans = () => (STAFF.includes(screenNow()) ? plansRead() : null);

/** @param {string | null | undefined} text */
function objectIn(text) {
    try {
        return JSON.parse(text ?? "null");
    } catch {
        return null;
    }
}

/** How late the van is by its driver's taps; nothing where nobody has told anything of it.
 * @param {string} van @param {VanLate} late
 */
function lateWords(van, { delay, silent, due, planned, isNext, last }) {
    if (silent > 0) return t("trips.van-silent", { van, minutes: silent });
    if (!delay && !last) return null;
    return [
        t(delay ? "trips.van-behind" : "trips.van-on-time", { van, minutes: delay }),
        " ",
        part("span", { class: "after" },
            isNext ? t("trips.van-next") : t("trips.van-due", { time: clock(due ?? planned) })
        )
    ];
}

/** How long after the window the van comes, when it was planned, and as of when this is.
 * @param {VanLate} late
 */
const lateFacts = ({ past, planned, made }) =>
    part("p", { class: "row tight late-facts" },
        past > 0 && [
                part("span", { class: "chip bad" },
                    icon("warning"),
                    t("trips.van-past", { minutes: past })
                ),
                " "
            ],
        part("span", { class: "s soft" },
            t("trips.van-planned", { time: clock(planned) }),
            " ",
            t("trips.van-checked", { time: clock(minuteOf(momentAt(made))) })
        )
    );

/** @param {string} moment */
const minuteOf = (moment) => Number(moment.slice(11, 13)) * HOUR + Number(moment.slice(14, 16));

/** How the trip stands, in one line.
 * @param {Trip} trip @param {Where} where @param {VanLate | null} late
 */
function stateWords({ vehicle, status }, { place, own }, late) {
    if (status === "cancelled") return t("trips.today-off");
    const van = vehicleName(vehicle), words = late && lateWords(van, late);
    if (words) return words;
    if (own && (place === "arrived" || place === "aboard" || place === "ended"))
        return t(`trips.today-${place}`, { van, time: clock(own.minute) });
    return t(place === "over" ? "trips.today-over" : "trips.today-waits", { van });
}

/** The van's last word about another trip.
 * @param {Trip} trip @param {Where} where
 */
function lastWords({ trip, vehicle }, { last }) {
    if (!last || last.trip === trip || !KNOWN.includes(last.kind)) return null;
    return part("p", {},
        t(`trips.tap-${last.kind}`, {
            van: vehicleName(vehicle),
            trip: last.trip,
            time: clock(last.minute)
        })
    );
}

/** Whom to ask, once the window has begun: riders call the agency, and the office asks the driver
 * or dispatch. A clerk who is not told how late the van is asks up to an hour before: the desk
 * shows a clerk no manifest.
 * @param {Trip} trip @param {Where} where @param {VanLate | null} late
 */
function callWords(trip, { place, own }, late) {
    const { telephone } = agency(), screen = screenNow(), van = vehicleName(trip.vehicle);
    if (
        place === "ended" ||
        (place === "before" && (late?.last || screen !== "clerk" || !isSoon(trip, minuteNow())))
    )
        return null;
    // (who was told by the driver where the van is asks nobody)
    if (screen !== "rider" && own && (place === "arrived" || place === "aboard"))
        return null;
    if (screen === "dispatcher") return part("p", {}, t("trips.call-driver", { van }));
    if (screen !== "rider") return part("p", {}, t("trips.call-dispatch", { van }));
    return telephone
        ? part("p", {},
              t("trips.call-agency"),
              " ",
              part("a", { href: `tel:${telephone.replace(/[^\d+]/g, "")}` }, telephone)
          )
        : null;
}

/** The warning of a trip that is booked on a day on which nobody is served: who calls whom.
 * @param {Trip} trip
 */
export function closedWords(trip) {
    const name = closedFor(trip, agency().closed, today());
    return name !== null &&
        part("p", { class: "note closed-day" },
            t(screenNow() === "rider" ? "trips.closed-rider" : "trips.closed", { name })
        );
}

/** @param {Trip} trip
 * @param {number} rider
 * @param {Texts} texts
 * @param {(trip: Trip) => Given} tools
 */
function todayTrip(trip, rider, texts, tools) {
    const now = { day: today(), at: serverNow() },
        where = whereIs(trip, minuteNow(), tapsOf(objectIn(texts.told), trip.vehicle, now));
    const isOff = trip.status === "cancelled";
    const late = !isOff && ["before", "during", "over"].includes(where.place)
        ? vanLate(
              trip,
              plansIn(texts.plans, now.day, now.at),
              toldIn(texts.told ?? null, now.day, now.at),
              minuteNow()
          )
        : null;
    return part(
        "li",
        {
            key: trip.trip,
            class: `today ${where.place}${late && late.past > 0 ? " late" : ""}`,
            "data-trip": trip.trip
        },
        !isOff && closedWords(trip),
        part("p", { class: "window" },
            t("trips.today-window"),
            " ",
            part("strong", {}, windowOf(trip))
        ),
        part("p", { class: "state" }, stateWords(trip, where, late)),
        late && lateFacts(late),
        !isOff && lastWords(trip, where),
        part("p", { class: "way" },
            t("booking.card-way", wayOf(trip, rider)),
            namedBy(trip) !== null &&
                ` ${t("booking.card-by", { by: clock(Number(namedBy(trip))) })}`,
            ` ${t("trips.today-trip", { trip: trip.trip })}`
        ),
        !isOff && callWords(trip, where, late),
        tools(trip)
    );
}

/** The trips of today that wait for their outcome.
 * @param {Trip[]} trips
 * @param {{ rider: number } & Texts} known
 * @param {(trip: Trip) => Given} tools
 */
export const todayShown = (trips, { rider, ...texts }, tools) =>
    part("section", { class: "todays", "aria-label": t("trips.list-today") },
        part("h3", {}, t("trips.list-today")),
        part("ul", {}, trips.map((trip) => todayTrip(trip, rider, texts, tools)))
    );
