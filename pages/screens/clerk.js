// The counter: bookings for who calls, standing and letters, riders' records.

import { today } from "../parts/clock.js";
import * as desk from "../parts/desk.js";
import { draftIn } from "../parts/drafts.js";
import { element, make, part } from "../parts/element.js";
import { choiceField, form, idField, yesNoField } from "../parts/fields.js";
import { note } from "../parts/notes.js";
import {
    openRoster,
    riderLabel,
    rosterSize,
    rosterSource,
    rosterTroubles
} from "../parts/roster.js";
import { focusOn, makeScreen } from "../parts/screen.js";
import { lookAtSent, sentFor } from "../parts/sent.js";
import { keepSubject, subjectOf, withSubject } from "../parts/subject.js";
import { counted, t } from "../parts/words.js";
import { bookingFor } from "./booking.js";
import { waitingFor } from "./case-waits.js";
import { lettersFor, ofResident, standingOf } from "./cases.js";
import { formsCard } from "./forms.js";
import { applicationOf } from "./in-part.js";
import { noticeFor } from "./notice.js";
import { called, didFor, idle, rail } from "./recent.js";
import { withCard } from "./rider-card.js";
import { tripsOfRider } from "./trips.js";
import { worklist } from "./worklist.js";

// A rider's record.

/** What the desk knows of a rider's record: its kind; null where there is none or it did not say,
 * "left" where the screen was left meanwhile.
 * @param {number} rider
 */
async function kindOf(rider) {
    const reply = await desk.standing(rider, today());
    if (reply.denied !== undefined) return reply.denied === "left" ? "left" : null;
    return reply.value.standing.startsWith("visitor") ? "visitor" : "resident";
}

/** @typedef {{ id: number, kind: string, attendant: boolean, wheelchair: boolean }} RiderRecord */

/** @param {Omit<RiderRecord, "id">} values */
const recordWords = ({ kind, attendant, wheelchair }) =>
    [
        t(`clerk.as-${kind}`),
        t(attendant ? "clerk.has-attendant" : "clerk.no-attendant"),
        t(wheelchair ? "clerk.has-wheelchair" : "clerk.no-wheelchair")
    ].join(" ");

/** @param {RiderRecord} values */
async function recordQuestion(values) {
    const kind = await kindOf(values.id);
    if (kind === "left") return undefined;
    if (kind === null) return null;
    return {
        question: t("clerk.change-question", { rider: riderLabel(values.id) }),
        detail: t("clerk.change-detail", {
            rider: riderLabel(values.id),
            kind: t(`clerk.as-${kind}`),
            record: recordWords(values)
        }),
        yes: t("clerk.change-yes", { rider: values.id })
    };
}

function record() {
    const kinds = /** @type {[string, string][]} */ ([
        ["resident", t("clerk.resident")],
        ["visitor", t("clerk.visitor")]
    ]);
    const id = idField("id", t("clerk.number"));
    id.write(subjectOf("rider"));
    let isNew = true;
    /** @type {HTMLFormElement} */
    const whole = form({
        name: t("clerk.record"),
        action: t("clerk.put"),
        purpose: "rider",
        fields: [
            id,
            choiceField("kind", t("clerk.kind"), kinds, { empty: t("booking.choose") }),
            yesNoField("attendant", t("clerk.attendant")),
            yesNoField("wheelchair", t("clerk.wheelchair"))
        ],
        begun: () => screen.change({ answer: null }),
        ask: async (/** @type {RiderRecord} */ values) => {
            const question = await recordQuestion(values);
            if (question === undefined && desk.signedIn())
                note("record", () => t("clerk.left", { rider: riderLabel(values.id) }));
            isNew = question === null;
            return question;
        },
        send: desk.putRider,
        done: (_, values) => {
            draft.drop();
            keepSubject("rider", values.id);
            screen.change(
                {
                    answer: t(isNew ? "clerk.is-new" : "clerk.is-changed", {
                        rider: riderLabel(values.id),
                        record: recordWords(values)
                    })
                },
                { focus: "record-answer" }
            );
        }
    });
    const draft = draftIn(whole, `record ${subjectOf("rider") ?? ""}`);
    const screen = makeScreen({
        state: { answer: /** @type {string | null} */ (null) },
        class: "card narrow",
        draw: ({ answer }) => [
            part("h2", {}, t("clerk.record")),
            part("p", { class: "hint" }, t("clerk.record-hint")),
            whole,
            part("div", { role: "status", id: "record-answer" },
                answer && part("p", { class: "good" }, answer)
            )
        ]
    });
    return screen.element;
}

// The roster from disk.

/** @param {() => void} opened */
function rosterBox(opened) {
    const screen = makeScreen({
        state: { at: 0 },
        class: "roster",
        draw: (_, { kept, change }) =>
            part("details", { class: "card" },
                part("summary", {},
                    rosterSize()
                        ? t("clerk.roster-there", { count: counted(rosterSize()) })
                        : t("clerk.roster-none")
                ),
                part("p", {}, t("clerk.roster-hint")),
                kept("file", () =>
                    element(
                        part("div", { class: "field" },
                            part("label", { for: "roster-file" }, t("clerk.roster-file")),
                            part("input", {
                                type: "file",
                                id: "roster-file",
                                accept: ".csv,text/csv",
                                on: {
                                    change: async (event) => {
                                        const [file] = event.target.files;
                                        if (!file) return;
                                        await openRoster(file);
                                        change(({ at }) => ({ at: at + 1 }));
                                        opened();
                                    }
                                }
                            })
                        )
                    )
                ),
                part("div", { role: "status" },
                    rosterSource() &&
                        part("p", {},
                            t("clerk.roster-from", {
                                source:
                                    rosterSource() === "server"
                                        ? t("clerk.server")
                                        : rosterSource(),
                                count: counted(rosterSize())
                            })
                        ),
                    rosterTroubles().length > 0 &&
                        part("ul", { class: "fault-list" },
                            rosterTroubles().map((it) => part("li", {}, it))
                        )
                )
            )
    });
    return screen.element;
}

// Whose record is shown.

const isClerk = () => location.hash.startsWith("#clerk");

/** @param {(rider: number, open: (rider: number) => void) => import("../types").Given} draw
 * @param {string} [focus]
 */
const forRider = (draw, focus) => () => {
    const open = (/** @type {number} */ rider) => {
        keepSubject("rider", rider);
        begin();
        const goal = document.getElementById(focus ?? "rider-below");
        if (goal) focusOn(goal);
    };
    const subject = () =>
        withSubject({
            what: "rider",
            label: t("common.find"),
            action: t("common.show"),
            draw: (rider) => draw(rider, open),
            focus,
            idle: (ask, shows) => idle(ask, shows, { all: isClerk() })
        });
    const place = make("div", { class: "stack" }, subject());
    const begin = () => place.firstElementChild?.replaceWith(subject());
    // (what was begun for a rider who is shown stays; nobody is shown yet where the search begins
    // to find names)
    place.append(
        rosterBox(() => {
            if (!subjectOf("rider")) begin();
        })
    );
    return place;
};

/** @param {number} rider */
const file = (rider) =>
    ofResident(rider, () => {
        const standing = standingOf(rider),
            waiting = waitingFor(rider),
            letters = lettersFor(rider);
        const entered = () =>
            Promise.all([standing.refresh(), letters.refresh(), waiting.refresh()]);
        return [
            make("div", { class: "halves" },
                make("div", { class: "stack" },
                    standing.element,
                    waiting.element,
                    element(formsCard({ both: true }))
                ),
                make("div", { class: "stack" },
                    applicationOf(rider, entered),
                    noticeFor(rider, entered),
                    letters.element
                )
            )
        ];
    });

/** @param {number} rider @param {(rider: number) => void} open */
function booking(rider, open) {
    const did = (
        /** @type {"booked" | "changed" | "canceled" | "denied"} */ deed,
        /** @type {number} */ count
    ) => didFor(rider, deed, count);
    called(rider);
    return withCard(
        rider,
        () => {
            const trips = tripsOfRider(rider, {
                heading: t("booking.trips-of", { rider: riderLabel(rider) }),
                did,
                again: (trip, back) => {
                    book.copy(trip, back);
                    draft.keep();
                }
            });
            const book = bookingFor(rider, {
                booked: () => {
                    draft.drop();
                    trips.refresh();
                },
                changed: trips.refresh,
                did
            });
            const draft = draftIn(book.element, `book ${rider}`);
            lookAtSent();
            return {
                trips: trips.element,
                booking: make("div", { class: "stack", "data-sent": rider },
                    sentFor(rider),
                    book.element
                )
            };
        },
        isClerk() ? () => rail(rider, open) : null
    );
}

export const ridersTrips = forRider(booking, "who");

export const clerk = () => [
    { id: "trips", name: t("clerk.trips"), draw: ridersTrips },
    { id: "file", name: t("clerk.file"), draw: forRider(file) },
    { id: "rider", name: t("clerk.record-part"), draw: record },
    { id: "waits", name: t("cases.waits"), draw: () => worklist("clerk") }
];
