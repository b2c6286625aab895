// What waits of a rider's case, and since when: an application, which has its receipt (49 CFR
// 37.125(c)), and an appeal.

import { waits } from "../parts/case-facts.js";
import { dayShort, plus, today } from "../parts/clock.js";
import { part } from "../parts/element.js";
import { enteredOf } from "../parts/entered.js";
import { PRESUMED_DAYS } from "../parts/limits.js";
import { riderLabel } from "../parts/roster.js";
import { makeScreen } from "../parts/screen.js";
import { t } from "../parts/words.js";
import { appealWords } from "./appeals.js";
import { languageChoice, lettersRead, madeLetter } from "./letters.js";
import { listsIn, worklistRead } from "./worklist.js";

/** @typedef {import("../parts/entered.js").Entered} Entered */
/** @typedef {import("../types").Given} Given */
/** @typedef {{ rider: number, letters: import("../parts/case-facts.js").Letter[], entered:
 * Entered[], lists: import("./worklist.js").List[] }} Known
 */

/** What waits for a decision, and since when.
 * @param {Known} known @returns {Given[]}
 */
export function waitingWords(known) {
    const application = waits("complete", known), appeal = waits("appeal", known);
    return [
        application && t("clerk.application-waits", { day: dayShort(application.since) }),
        appeal && appealWords(appeal)
    ].filter(Boolean);
}

/** The receipt of an application that waits, until the day from which the rider is presumed
 * eligible: from then on that is another letter.
 * @param {Known} known @returns {Given}
 */
function receiptOf(known) {
    const application = waits("complete", known);
    if (!application || today() >= plus(application.since, PRESUMED_DAYS)) return null;
    return [
        languageChoice(known.rider, "receipt"),
        madeLetter("application-received", known.rider, { since: application.since })
    ];
}

/** What waits of a rider's case, as the letters, the list of what waits and this browser tell it.
 * @param {number} rider
 */
export function waitingFor(rider) {
    const letters = lettersRead(rider), list = worklistRead();
    const screen = makeScreen({
        state: { entered: /** @type {Entered[]} */ ([]) },
        class: "card",
        draw: ({ entered }) => {
            const known = {
                rider,
                letters: letters.reply()?.value ?? [],
                entered,
                lists: listsIn(list.reply())
            },
                words = waitingWords(known);
            return [
                part("h2", {}, t("cases.waiting", { who: riderLabel(rider) })),
                part("div", { role: "status" },
                    !words.length && part("p", { class: "hint" }, t("cases.waiting-nothing")),
                    words.map((it) => part("p", { class: "waits" }, it))
                ),
                receiptOf(known)
            ];
        }
    });
    const refresh = async () => screen.change({ entered: await enteredOf(rider) });
    letters.watch(screen.element, refresh);
    list.watch(screen.element, refresh);
    return { element: screen.element, refresh };
}
