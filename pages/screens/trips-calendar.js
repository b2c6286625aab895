// The button that saves a rider's trips to come as a calendar file. Canceled ones are in it too: a
// calendar that has one from an earlier file strikes it out.

import { agency } from "../parts/agency.js";
import { calendarOf } from "../parts/calendar-file.js";
import { clock, serverNow, today } from "../parts/clock.js";
import { button, save } from "../parts/element.js";
import { namedBy } from "../parts/said.js";
import { wayOf } from "../parts/stop-where.js";
import { t } from "../parts/words.js";
import { windowOf } from "./ticket.js";

/** @typedef {import("../types").Trip} Trip */

const TYPE = "text/calendar;charset=utf-8",
    SAVED = ["booked", "cancelled"];

/** @param {Trip} trip @param {number} rider */
function wordsOf(trip, rider) {
    const { name, telephone } = agency(),
        { from, to } = wayOf(trip, rider),
        by = namedBy(trip),
        isOff = trip.status === "cancelled";
    return {
        summary: t(isOff ? "trips.calendar-canceled" : "trips.calendar-summary", { agency: name }),
        place: from,
        description: t("trips.calendar-text", {
            trip: trip.trip,
            window: windowOf(trip),
            from,
            to,
            by: by === null ? "" : t("booking.card-by", { by: clock(by) }),
            canceled: isOff,
            telephone
        })
    };
}

/** Nothing where no trip is to come.
 * @param {Trip[]} trips @param {number} rider */
export function calendarButton(trips, rider) {
    const saved = trips.filter(({ status, day }) => SAVED.includes(status) && day >= today()),
        about = { zone: agency().zone, host: location.hostname || "desk" };
    return saved.length > 0 &&
        button(
            t("trips.calendar"),
            () =>
                save(
                    "trips.ics",
                    TYPE,
                    calendarOf(saved, (trip) => wordsOf(trip, rider), {
                        ...about,
                        now: serverNow()
                    })
                ),
            { key: "calendar", class: "small" }
        );
}
