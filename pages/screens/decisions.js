// The examiner decides applications; the officer hears and decides appeals, and suspends. Both
// begin with the queue of their cases.

import { withSubject } from "../parts/subject.js";
import { t } from "../parts/words.js";
import { caseOf } from "./case-page.js";
import { caseQueue } from "./case-queue.js";
import { record } from "./record.js";
import { worklist } from "./worklist.js";

/** The queue of whoever decides, and a rider's case once one is chosen.
 * @param {"examiner" | "officer"} reader
 */
const cases = (reader) => ({
    id: "case",
    name: t("cases.cases"),
    draw: () =>
        withSubject({
            what: "rider",
            label: t("cases.rider"),
            action: t("cases.show"),
            draw: caseOf(reader),
            none: (open) => caseQueue(reader, open),
            back: t("cases.queue-back")
        })
});

export const examiner = () => [
    cases("examiner"),
    { id: "waits", name: t("cases.waits"), draw: () => worklist("examiner") }
];
export const officer = () => [
    cases("officer"),
    { id: "waits", name: t("cases.waits"), draw: () => worklist("officer") },
    record("officer")
];
