// The question before an outcome, which is final: whose trip it is, what speaks against the
// outcome, and what may be right in its place.

import { vehicleName } from "../parts/agency.js";
import { choose } from "../parts/ask.js";
import { clock } from "../parts/clock.js";
import { part } from "../parts/element.js";
import { offeredFor, outcomeDoubts } from "../parts/outcome-doubts.js";
import { riderLabel } from "../parts/roster.js";
import { longTime } from "../parts/timeline.js";
import { t } from "../parts/words.js";
import { windowOf } from "./booking.js";

/** @typedef {import("../parts/reviews.js").Outcome} Outcome */
/** @typedef {import("../parts/trips-now.js").Planned} Planned */

/** Of these the moment is told, and not how long it is ago. */
const TAPPED = ["aboard", "said-no-show", "said-missed"];

/** @param {import("../parts/outcome-doubts.js").Doubt} doubt @param {string} vehicle */
const doubtPart = ({ kind, minutes }, vehicle) =>
    part("p", { class: "note" },
        t(`dispatcher.sure-${kind}`, {
            vehicle,
            time: TAPPED.includes(kind) ? clock(minutes) : longTime(minutes)
        })
    );

/** Asks once whether an outcome is meant; the outcome to enter, or null. The focus is on the answer
 * that enters nothing.
 * @param {Planned} row
 * @param {Outcome} outcome
 * @param {import("../parts/outcome-doubts.js").Seen} seen
 * @returns {Promise<Outcome | null>}
 */
export function outcomeAsked(row, outcome, seen) {
    const { trip, rider, planned } = row,
        vehicle = vehicleName(row.vehicle),
        doubts = outcomeDoubts(outcome, row, seen),
        isDoubtful = doubts.length > 0;
    const yes = (/** @type {Outcome} */ it) =>
        t(
            isDoubtful && it === outcome
                ? `dispatcher.sure-anyway-${it}`
                : `dispatcher.sure-yes-${it}`
        );
    return choose({
        question: t(`dispatcher.sure-${outcome}`, { trip, rider: riderLabel(rider) }),
        careful: true,
        choices: offeredFor(outcome, doubts).map((it) => [it, yes(it)]),
        detail: [
            part("p", {},
                t("dispatcher.sure-trip", {
                    vehicle,
                    window: windowOf(row),
                    planned: clock(planned)
                })
            ),
            doubts.map((it) => doubtPart(it, vehicle)),
            part("p", {},
                t(outcome === "missed-rider" ? "dispatcher.sure-counts" : "dispatcher.sure-final")
            )
        ]
    });
}
