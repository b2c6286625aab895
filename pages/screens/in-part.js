// A grant in part, led through its three steps: the examiner refuses what is not granted, a clerk
// takes the new application, and the examiner grants the rest with its conditions (49 CFR
// 37.125(d), (e), (g)).

import { dayInWords, today } from "../parts/clock.js";
import { part } from "../parts/element.js";
import { enteredOf } from "../parts/entered.js";
import { reasonsField } from "../parts/fields.js";
import { MOST_REASONS } from "../parts/limits.js";
import { bytesOf } from "../parts/plain.js";
import { partWaiting, reasonsOf } from "../parts/partial.js";
import { makeScreen } from "../parts/screen.js";
import { count } from "../parts/tally.js";
import { anyOf, t } from "../parts/words.js";
import { conditionsField, entryForm, untilField } from "./cases.js";
import { conditionInWords, lettersRead } from "./letters.js";

/** @typedef {import("../parts/letter-text.js").Letter} Letter */

/** Tells the site how far it has come, so that What waits has it on each machine.
 * @param {number} rider
 * @param {number} entry
 * @param {string} day
 * @param {"refused" | "applied" | "granted"} step
 */
const tell = (rider, entry, day, step) => count("partial-grants", { rider, entry, day, step });

/** @param {import("./cases.js").Decided} values */
function faultIn(values) {
    const length = bytesOf(reasonsOf(values));
    return length > MOST_REASONS
        ? { field: "reasons", fault: t("cases.part-long", { length, most: MOST_REASONS }) }
        : null;
}

/** The examiner's first step: what is not granted is refused with reasons, which also say what is
 * going to be granted.
 * @param {number} rider @returns {import("./cases.js").Otherwise}
 */
export const inPart = (rider) => ({
    entry: "refuse",
    check: faultIn,
    entryOf: (values) => ({ reasons: reasonsOf(values) }),
    fields: [
        untilField(),
        conditionsField({ some: true }),
        reasonsField("reasons", t("cases.part-reasons"))
    ],
    asked: ({ until, conditions, reasons }) => [
        part("p", {},
            t("cases.asked-part", {
                day: dayInWords(until),
                conditions: anyOf(
                    conditions.map((/** @type {string} */ it) => conditionInWords(it))
                )
            })
        ),
        part("p", {}, t("cases.asked-reasons"), " ", part("q", {}, reasons))
    ],
    did: ({ entered: entry }) => tell(rider, entry, today(), "refused")
});

/** The examiner's last step, where a refusal in part waits for its grant. It begins with what that
 * refusal says.
 * @param {number} rider
 * @param {NonNullable<ReturnType<typeof partWaiting>>} waiting
 * @returns {import("./cases.js").Otherwise}
 */
export function restOf(rider, { letter, part: { until, conditions } }) {
    const last = until < today() ? today() : until;
    return {
        entry: "grant",
        fields: [untilField(last), conditionsField({ some: true, chosen: conditions })],
        did: () => tell(rider, letter.entry, letter.date, "granted")
    };
}

/** What draw() gives once the rider's letters are known, and again after each that comes.
 * @param {number} rider
 * @param {(waiting: ReturnType<typeof partWaiting>) => import("../types").Given} draw
 */
function withWaiting(rider, draw) {
    const read = lettersRead(rider),
        screen = makeScreen({
            state: {},
            draw: () => draw(partWaiting(read.reply()?.value ?? []))
        });
    read.watch(screen.element, () => screen.change({}));
    return screen.element;
}

/** The clerk's step: a new application, which is asked for where a refusal in part waits for it.
 * @param {number} rider @param {() => unknown} entered
 */
export function applicationOf(rider, entered) {
    /** @type {{ letter: Letter } | null} */
    let now = null;
    let isTaken = false;
    const form = entryForm(rider, "complete", entered, {
        did: () => {
            if (!now) return;
            isTaken = true;
            tell(rider, now.letter.entry, now.letter.date, "applied");
        }
    });
    enteredOf(rider).then((all) => {
        isTaken ||= all.some(
            ({ entry, position }) =>
                entry === "complete" && now !== null && position > now.letter.entry
        );
    });
    return withWaiting(rider, (waiting) => {
        now = waiting;
        return [
            waiting &&
                !isTaken &&
                part("p", { class: "note" },
                    t("cases.take-again", { rider, day: dayInWords(waiting.letter.date) })
                ),
            form
        ];
    });
}
