// The rider's own pages, in plain words.

import { loadOwnAddresses } from "../parts/addresses.js";
import { agency, hasOwnPlaces, loadOwnPlaces } from "../parts/agency.js";
import { dayOfYear, today } from "../parts/clock.js";
import * as desk from "../parts/desk.js";
import { denialOf } from "../parts/denials.js";
import { draftIn } from "../parts/drafts.js";
import { element, make, part } from "../parts/element.js";
import { icon } from "../parts/icons.js";
import { reading } from "../parts/reads.js";
import { makeScreen } from "../parts/screen.js";
import { lookAtSent, sentFor } from "../parts/sent.js";
import { keepSubject, subjectOf, withSubject } from "../parts/subject.js";
import { tellRefused } from "../parts/subject-kept.js";
import { t } from "../parts/words.js";
import { bookingFor, offersFor } from "./booking.js";
import { lettersFor, MAY_RIDE, standingOf } from "./cases.js";
import { formsCard } from "./forms.js";
import { ownLetter } from "./rider-letters.js";
import { riderTrips } from "./rider-trips.js";
import { calendarButton } from "./trips-calendar.js";
import { tripsOfRider } from "./trips.js";

/** What a denial is about: of staff's key no number is the right one. */
let purpose = "rider";

/** Who may read a rider's own places and is denied the rider's trips is staff, and staff may be who
 * is refused both.
 * @param {number} rider
 */
async function loadOwn(rider) {
    const [status] = await Promise.all([loadOwnPlaces(rider), loadOwnAddresses(rider)]);
    purpose =
        [200, 404].includes(status) || (status === 403 && await desk.isStaffKey())
            ? "rider-staff"
            : "rider";
}

/** What is drawn once the rider's own places have names.
 * @param {number} rider @param {(rider: number) => import("../types").Given} draw
 */
function withNames(rider, draw) {
    const screen = makeScreen({
        state: { ready: hasOwnPlaces(rider) },
        draw: ({ ready }, { kept }) => (
            ready
                ? kept("own", () => [draw(rider)].flat())
                : part("p", { role: "status" }, t("rider.reading"))
        )
    });
    const staying = makeScreen({
        state: {},
        draw: () => desk.stays() === rider && part("p", { class: "hint" }, t("rider.stays"))
    });
    const standing = reading(desk.pathOf.standing(rider, today()));
    standing.follow(screen.element, () =>
        tellRefused(screen.element, standing.reply()?.denied !== undefined)
    );
    if (!screen.state.ready) loadOwn(rider).then(() => screen.change({ ready: true }));
    desk.stayAs(rider).then(() => staying.change({}));
    return [screen.element, staying.element];
}

/** @param {(rider: number) => import("../types").Given} draw */
const own = (draw) => () => {
    const staying = desk.stays();
    if (staying !== null && !subjectOf("rider")) keepSubject("rider", staying);
    return withSubject({
        what: "rider",
        label: t("rider.number"),
        action: t("rider.show"),
        folded: true,
        draw: (rider) => withNames(rider, draw)
    });
};

/** Whether the rider may ride, in a line that leads to the page that says why.
 * @param {number} rider
 */
function standingChip(rider) {
    const read = reading(desk.pathOf.standing(rider, today()));
    const screen = makeScreen({
        state: {},
        draw: () => {
            const { value } = read.reply() ?? {};
            if (!value) return null;
            const { standing, until, suspended } = value,
                may = !suspended && MAY_RIDE.includes(standing),
                words =
                    may && until
                        ? t("rider.may-until", { day: dayOfYear(until) })
                        : t(may ? "rider.may" : "rider.may-not");
            return part("p", {},
                part("a", { class: `chip ${may ? "good" : "bad"}`, href: "#rider/standing" },
                    icon(may ? "check" : "warning"),
                    words
                )
            );
        }
    });
    read.watch(screen.element, () => screen.change({}));
    return screen.element;
}

/** A trip that is booked again is booked on the other part of the screen.
 * @type {{ trip: import("../types").Trip, back: import("../types").Trip | null } | null}
 */
let again = null;

/** @param {number} rider */
function trips(rider) {
    const list = tripsOfRider(rider, {
        heading: t("rider.trips"),
        purpose,
        class: "stack rider-home",
        layout: riderTrips,
        under: (all) => calendarButton(all, rider),
        again: (trip, back) => {
            again = { trip, back };
            keepSubject("rider", rider);
            location.hash = "rider/book";
        }
    });
    lookAtSent();
    return make("div", { class: "stack", "data-sent": rider },
        sentFor(rider),
        offersFor(rider),
        list.element,
        standingChip(rider)
    );
}

/** Nothing is offered for another's number.
 * @param {number} rider
 */
function book(rider) {
    const booking = bookingFor(rider, { booked: () => draft.drop() }),
        draft = draftIn(booking.element, `book ${rider}`);
    const copied = again;
    again = null;
    if (copied)
        setTimeout(() => {
            booking.copy(copied.trip, copied.back);
            draft.keep();
        });
    const standing = reading(desk.pathOf.standing(rider, today()));
    const screen = makeScreen({
        state: {},
        draw: () => (
            standing.reply()?.denied === undefined
                ? booking.element
                : denialOf(standing.reply(), purpose)
        )
    });
    // (places of earlier trips are offered first, and a question before a booking has them already)
    reading(desk.pathOf.trips(rider)).watch(screen.element, () => {});
    standing.watch(screen.element, () => screen.change({}));
    lookAtSent();
    return make("div", { class: "stack", "data-sent": rider }, sentFor(rider), screen.element);
}

/** @param {number} rider */
function appeals(rider) {
    const letters = lettersFor(rider, { layout: ownLetter });
    return [letters.element, element(formsCard())];
}

/** The telephone at the end of the dock, where the agency has one. */
function call() {
    const { telephone } = agency();
    return telephone
        ? [{
              id: "call",
              name: t("rider.call", { telephone }),
              short: t("rider.call-short"),
              sign: "phone",
              href: `tel:${telephone.replace(/[^\d+]/g, "")}`,
              draw: () => []
          }]
        : [];
}

export const rider = () => [
    {
        id: "trips",
        name: t("rider.my-trips"),
        short: t("rider.trips"),
        sign: "van",
        draw: own(trips)
    },
    {
        id: "book",
        name: t("rider.book"),
        short: t("rider.book-short"),
        sign: "plus",
        draw: own(book)
    },
    {
        id: "standing",
        name: t("rider.standing"),
        short: t("rider.standing"),
        sign: "check",
        draw: own((id) => standingOf(id).element)
    },
    {
        id: "letters",
        name: t("rider.letters"),
        short: t("rider.letters-short"),
        sign: "letter",
        draw: own(appeals)
    },
    ...call()
];
