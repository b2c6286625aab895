// The officer's part of appeals: what is known of one that waits, and which entries fit.

import { appealable, entriesOfAppeals, waits } from "../parts/case-facts.js";
import { dayInWords, dayShort } from "../parts/clock.js";
import { part } from "../parts/element.js";
import { t } from "../parts/words.js";

/** @typedef {import("../parts/entered.js").Entered} Entered */
/** @typedef {import("../parts/case-facts.js").Waits} Waits */
/** @typedef {import("../parts/case-facts.js").Letter} Letter */

/** Since when an appeal waits, and whether it was heard.
 * @param {Waits} appeal
 */
export const appealWords = ({ since, heard }) =>
    t(heard ? "cases.appeal-heard" : "cases.appeal-waits", {
        day: dayShort(since),
        heard: dayShort(heard ?? since)
    });

/** The day of the hearing that was entered from here since the last decision, or null.
 * @param {Letter[]} open @param {Entered[]} entered
 */
const heardHere = (open, entered) =>
    entered
        .filter(({ entry, position }) => entry === "heard" && position > (open.at(-1)?.entry ?? 0))
        .at(-1)
        ?.day ??
    null;

/** What is known of an appeal, in a sentence.
 * @param {Letter[]} open @param {Waits | null} waiting @param {string | null} heard
 */
function stateWords(open, waiting, heard) {
    if (!open.length) return part("p", {}, t("cases.appeals-none"));
    if (waiting)
        return part("p", { class: "waits" },
            appealWords({ ...waiting, heard: waiting.heard ?? heard })
        );
    return part("p", { class: "note" },
        heard
            ? t("cases.appeal-heard-here", { day: dayShort(heard) })
            : t("cases.appeals-unknown", { date: dayInWords(open[open.length - 1].date) })
    );
}

/** What is known of a rider's appeals, and which entries fit.
 * @param {number} rider
 * @param {{ letters: Letter[], entered: Entered[], lists: import("./worklist.js").List[] }} known
 */
export function appealsOf(rider, { letters, entered, lists }) {
    const open = appealable(letters),
        waiting = waits("appeal", { rider, letters, entered, lists }),
        heard = heardHere(open, entered);
    const isHeard = heard !== null || Boolean(waiting?.heard);
    return {
        waiting,
        isHeard,
        words: stateWords(open, waiting, heard),
        kinds: entriesOfAppeals(open, waiting?.against ?? null, isHeard)
    };
}
