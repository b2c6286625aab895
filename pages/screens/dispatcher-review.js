// A no-show to confirm, or entries that disagree: what is known of it, and what dispatch finds
// right. What is right is told to the site's log, so that it leaves everybody's list; where the
// desk has another outcome, the line for corrections.csv is made here.

import { agency, vehicleName } from "../parts/agency.js";
import { asked, choose } from "../parts/ask.js";
import { between, clock, dayShort, serverNow, today } from "../parts/clock.js";
import * as desk from "../parts/desk.js";
import { inWords } from "../parts/denials.js";
import { button, fresh, make, part, save, say } from "../parts/element.js";
import {
    correctionFile,
    correctionLine,
    doubtOf,
    MOST,
    nextOf,
    outcomesBy,
    rowKey,
    settledSince,
    tapsOn,
    withArrival
} from "../parts/reviews.js";
import { toldIn } from "../parts/lateness.js";
import { riderLabel } from "../parts/roster.js";
import { count } from "../parts/tally.js";
import { rowsIn } from "../parts/texts.js";
import { toldRead } from "../parts/told.js";
import { t } from "../parts/words.js";
import { statusOf, windowOf } from "./booking.js";

/** @typedef {import("../parts/lateness.js").NoShow} NoShow */
/** @typedef {import("../parts/lateness.js").Disagreement} Disagreement */
/** @typedef {import("../parts/lateness.js").Told} Told */
/** @typedef {import("../parts/reviews.js").Outcome} Outcome */
/** @typedef {import("../parts/reviews.js").Tapped} Tapped */
/** @typedef {import("../parts/texts.js").Row} Row */

/** The rows that somebody has looked at in this window: the file of the day follows some seconds
 * later.
 * @type {Set<string>}
 */
const seen = new Set();

/** @param {NoShow | Disagreement} row */
export const isOpen = (row) => !seen.has(rowKey(row));

/** @param {string} label
 * @param {import("../types").Given} value
 * @param {import("../types").Given} [more]
 */
const line = (label, value, more = null) =>
    part("div", {},
        part("dt", {}, label),
        part("dd", {}, value, more && [" ", part("strong", {}, more)])
    );

/** @param {NoShow} noShow @param {Tapped[]} taps */
function noShowLines(noShow, taps) {
    const { from, to, arrived, wait, minute, vehicle } = withArrival(noShow, taps),
        doubt = doubtOf(noShow, agency().wait_minutes, taps),
        late = arrived === null ? 0 : arrived - to;
    return [
        part("dl", { class: "evidence" },
            line(t("dispatcher.head-promised"), between(from, to)),
            line(
                t("dispatcher.review-arrived"),
                arrived === null ? t("dispatcher.review-no-arrival") : clock(arrived),
                late > 0 && t("dispatcher.review-after", { minutes: late })
            ),
            line(
                t("dispatcher.review-waited"),
                t("dispatcher.review-minutes", { wait, minutes: agency().wait_minutes })
            ),
            line(
                t("dispatcher.review-entered"),
                t("dispatcher.review-entered-at", {
                    time: clock(minute),
                    vehicle: vehicleName(vehicle)
                })
            )
        ),
        doubt && part("p", { class: "note" }, t(`dispatcher.review-doubt-${doubt}`))
    ];
}

/** @param {Disagreement} row */
const disagreementLine = ({ record, told, minute, vehicle }) =>
    part("p", { class: "note" },
        t("dispatcher.review-disagree", {
            vehicle: vehicleName(vehicle),
            time: clock(minute),
            told: t(`dispatcher.told-${told}`),
            record: record === "unknown" ? "" : statusOf(record)
        })
    );

/** What was tapped of the trip on every phone.
 * @param {Tapped[]} taps
 */
const tapLines = (taps) =>
    taps.length > 0 &&
    part("dl", { class: "evidence" },
        line(
            t("dispatcher.review-taps"),
            taps.map(({ kind, minute, vehicle }) =>
                part("div", {},
                    t("dispatcher.review-tap", {
                        what: t(`dispatcher.tap-${kind}`),
                        time: clock(minute),
                        vehicle: vehicleName(vehicle)
                    })
                )
            )
        )
    );

/** What is known of the trip, for the one who decides.
 * @param {{ noShows: NoShow[], disagreements: Disagreement[], taps: Tapped[] }} known
 * @param {Row | undefined} row
 */
const detailOf = ({ noShows, disagreements, taps }, row) => [
    tapLines(taps),
    row &&
        part("p", {},
            t("dispatcher.review-trip", { window: windowOf(row), status: statusOf(row.status) })
        ),
    noShows.map((it) => noShowLines(it, taps)),
    disagreements.map(disagreementLine)
];

/** Asks who corrects and why, and gives the line for the file; whether it is on record.
 * @param {number} trip @param {Outcome} right @returns {Promise<boolean>}
 */
function askCorrection(trip, right) {
    return new Promise((answer) => {
        const title = fresh("correction"),
            before = document.activeElement,
            field = () =>
                make("input", {
                    type: "text",
                    maxlength: MOST,
                    id: fresh("field"),
                    autocomplete: "off",
                    required: true
                });
        const who = field(),
            why = field(),
            made = make("input", { type: "text", readonly: true, id: fresh("field") });
        const spell = () => {
            made.value =
                who.value.trim() && why.value.trim()
                    ? correctionLine(trip, right, who.value, why.value)
                    : "";
        };
        const dialog = make("dialog", { "aria-labelledby": title },
            part("h2", { id: title },
                t("dispatcher.correct-question", { trip, outcome: t(`dispatcher.told-${right}`) })
            ),
            part("p", {}, t("dispatcher.correct-detail"))
        );
        const copy = async () => {
            spell();
            made.select();
            await navigator.clipboard?.writeText(made.value).then(
                () => say(t("dispatcher.correct-copied")),
                () => {}
            );
        };
        const form = make(
            "form",
            {
                on: {
                    input: spell,
                    submit: (event) => {
                        event.preventDefault();
                        spell();
                        if (made.value) dialog.close("kept");
                    }
                }
            },
            [[who, "who"], [why, "why"], [made, "line"]].map(([control, name]) =>
                part("div", { class: "field" },
                    part("label", { for: /** @type {HTMLInputElement} */ (control).id },
                        t(`dispatcher.correct-${name}`)
                    ),
                    /** @type {HTMLInputElement} */ (control)
                )
            ),
            part("div", { class: "row" },
                button(t("dispatcher.correct-copy"), copy),
                button(t("dispatcher.correct-save"), () => {
                    spell();
                    if (made.value)
                        save(`correction-${trip}.csv`, "text/csv", correctionFile(made.value));
                }),
                part("button", { type: "submit", class: "main" }, t("dispatcher.correct-yes")),
                button(t("common.no-go-back"), () => dialog.close(""))
            )
        );
        dialog.append(form);
        dialog.addEventListener("close", () => {
            dialog.remove();
            if (before instanceof HTMLElement && before.isConnected)
                before.focus({ preventScroll: true });
            answer(dialog.returnValue === "kept");
        });
        document.body.append(dialog);
        dialog.showModal();
        who.focus();
    });
}

/** Reads again what was told: whether a trip may be settled still, since nobody else did meanwhile,
 * or the dispatcher wants it changed. "same" where somebody else found the same.
 * @param {number} trip
 * @param {Outcome} right
 * @param {Told} told
 * @returns {Promise<"open" | "same" | "left">}
 */
async function standing(trip, right, told) {
    const { value } = await toldRead().again(),
        now = toldIn(value ?? null, today(), serverNow()),
        settled = now && settledSince(told.settled, now.settled, trip);
    if (!settled) return "open";
    told.settled = now.settled;
    const time =
        settled.day === today()
            ? clock(settled.minute)
            : `${dayShort(settled.day)}, ${clock(settled.minute)}`,
        outcome = t(`dispatcher.told-${settled.outcome}`);
    if (settled.outcome === right) return "same";
    return await asked({
        question: t("dispatcher.review-settled", { time, outcome }),
        detail: t("dispatcher.review-settled-detail"),
        yes: t("dispatcher.review-settled-yes", { outcome: t(`dispatcher.told-${right}`) }),
        no: t("dispatcher.review-settled-no"),
        danger: true
    })
        ? "open"
        : "left";
}

/** Does what follows from what is right; what has to be said where it could not be done.
 * @param {number} trip
 * @param {Outcome} right
 * @param {string | null} record
 * @param {Told} told
 * @returns {Promise<{ isDone: boolean, says?: string }>}
 */
async function settle(trip, right, record, told) {
    const next = nextOf(right, record);
    // (a correction takes its minutes to type)
    if (next === "correct")
        return {
            isDone: await askCorrection(trip, right) && await standing(trip, right, told) === "open"
        };
    const denied = next === "enter" ? (await desk.tellOutcome(trip, right)).denied : undefined;
    return denied === undefined
        ? { isDone: true }
        : { isDone: false, says: inWords(denied, "outcome").says };
}

/** What disagrees about the trip of a row: of what follows from taps the site's file says nothing.
 * @param {NoShow | Disagreement} about @param {Told} told @returns {Disagreement[]}
 */
function disagreementsWith(about, told) {
    const known = told.disagreements.filter(({ trip }) => trip === about.trip);
    return "told" in about && !known.some((it) => rowKey(it) === rowKey(about))
        ? [...known, about]
        : known;
}

/** Shows what is known of a trip, and lets dispatch say what is right: "show" where the board is
 * wanted.
 * @param {NoShow | Disagreement} about @param {Told} told @returns {Promise<"show" | null>}
 */
export async function review(about, told) {
    const { trip, day, vehicle } = about,
        mine = (/** @type {{ trip: number }} */ it) => it.trip === trip;
    const known = {
        noShows: told.noShows.filter(mine),
        disagreements: disagreementsWith(about, told),
        taps: told.day === day ? tapsOn(told.vehicles, trip) : []
    },
        csv = await desk.tripsOn(day);
    if (csv.denied !== undefined) return null;
    const row = rowsIn(csv.value).find(mine), rider = row ? riderLabel(row.rider) : "";
    /** @type {[Outcome | "show", string][]} */
    const choices = [
        ...outcomesBy(known.taps).map((it) => /** @type {[Outcome, string]} */ ([
            it,
            t(`dispatcher.review-${it}`)
        ])),
        ["show", t("dispatcher.review-show")]
    ];
    const answer = await choose({
        question: t("dispatcher.review-question", {
            trip,
            rider,
            vehicle: vehicleName(vehicle),
            day: dayShort(day)
        }),
        detail: detailOf(known, row),
        careful: true,
        choices,
        none: t("dispatcher.review-later")
    });
    if (answer === "show" || answer === null) return answer;
    const before = { ...told }, found = await standing(trip, answer, before);
    if (found === "left") return null;
    const { isDone, says } =
        found === "same"
            ? { isDone: true, says: undefined }
            : await settle(trip, answer, row?.status ?? null, before);
    if (says) await choose({ question: says, choices: [], none: t("common.close") });
    if (!isDone) return null;
    for (const it of [...known.noShows, ...known.disagreements]) seen.add(rowKey(it));
    if (found === "open") await count("reviews", { trip, outcome: answer });
    say(t(found === "same" ? "dispatcher.review-same" : "dispatcher.review-done", { trip }));
    return null;
}
