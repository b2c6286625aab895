// The record of who did what: the questions of `bin/journal`, for officers and admins
// (docs/RECORDS.md). The site answers in the language of the page.

import { plus, today } from "../parts/clock.js";
import * as desk from "../parts/desk.js";
import { button, drawInto, part, table } from "../parts/element.js";
import { choiceField, dayField, form, numberField } from "../parts/fields.js";
import { HIGHEST_ID } from "../parts/limits.js";
import { printParts } from "../parts/paper.js";
import { makeScreen } from "../parts/screen.js";
import { language, t } from "../parts/words.js";

/** @typedef {{ title: string, columns: string[], rows: (string | number)[][], notes: string[],
 * warning?: string }} Answer
 */
/** @typedef {{ answer: Answer, fault?: undefined } | { fault: string }} Found */

const QUESTIONS = ["trip", "rider", "lists", "caller", "standing", "own", "keys"],
    OF_ALL = ["keys"];
const DAYS_BACK = 31, NOTE = "note";

/** What the site answers to a question.
 * @param {string} question @param {Record<string, string | number | null | undefined>} given
 * @returns {Promise<Found>}
 */
async function asked(question, given) {
    const words = Object.entries({ ...given, language: language() }).filter(
        ([, value]) => value !== null && value !== undefined && value !== ""
    ).map(([name, value]) => [name, String(value)]);
    const { status, text } = await desk.fetchFile(
        `/record/${question}?${new URLSearchParams(words)}`
    );
    if (status === 200) return { answer: JSON.parse(text ?? "") };
    return {
        fault:
            status === 401 || status === 403
                ? "caller"
                : status === 0 || status === 429
                ? "silent"
                : "none"
    };
}

/** @param {Answer} answer */
const headsOf = ({ columns }) => columns.map((name) => t(`record.${name}`));

/** @param {Answer} answer */
const tableOf = (answer) =>
    table(
        answer.title,
        headsOf(answer).map((head, at) => ({
            head,
            cell: (/** @type {(string | number)[]} */ row) => String(row[at] ?? "")
        })),
        answer.rows
    );

/** What comes first: that the record does not hold.
 * @param {Answer} answer
 */
const warningOf = ({ warning }) => (warning ? part("p", { class: "note" }, warning) : null);

/** @param {Answer} answer */
const paperOf = (answer) => [
    warningOf(answer),
    answer.notes.map((it) => part("p", {}, it)),
    part("table", {},
        part("thead", {}, part("tr", {}, headsOf(answer).map((it) => part("th", {}, it)))),
        part("tbody", {},
            answer.rows.map((row) =>
                part("tr", {}, row.map((it) => part("td", {}, String(it ?? ""))))
            )
        )
    )
];

/** @param {Found | null} found */
function shown(found) {
    if (!found) return null;
    if (found.fault !== undefined) return part("p", { class: "note" }, t(`record.${found.fault}`));
    const { answer } = found;
    return part("section", { class: "card", id: "record-answer", tabindex: -1 },
        warningOf(answer),
        part("h2", {}, answer.title),
        answer.notes.map((it) => part("p", {}, it)),
        answer.rows.length ? tableOf(answer) : part("p", {}, t("record.nothing")),
        part("div", { class: "row" },
            button(t("record.print"), () => printParts(answer.title, paperOf(answer)))
        )
    );
}

/** @param {{ question: string, number: number | null, from: string | null, to: string | null }}
 * values
 */
const faultOf = ({ question, number, from, to }) => {
    if (OF_ALL.includes(question) === Boolean(number))
        return { field: "number", fault: t(number ? "record.number-none" : "record.number-wants") };
    return from && to && from > to ? { field: "to", fault: t("record.to-wants") } : null;
};

function questions() {
    /** @type {import("../parts/screen.js").Screen<{ found: Found | null }>} */
    const screen = makeScreen({
        state: { found: /** @type {Found | null} */ (null) },
        draw: ({ found }, { kept }) => [
            part("section", { class: "card" },
                part("h2", {}, t("record.ask-it")),
                part("p", { class: "hint" }, t("record.hint")),
                kept("form", asking)
            ),
            part("div", { role: "status" }, shown(found))
        ]
    });
    function asking() {
        const fields = [
            choiceField(
                "question",
                t("record.question"),
                QUESTIONS.map((it) => [it, t(`record.of-${it}`)]),
                { empty: t("record.choose") }
            ),
            numberField("number", t("record.number"), 1, HIGHEST_ID, {
                optional: true,
                hint: t("record.number-hint"),
                wants: t("record.number-wants")
            }),
            dayField("from", t("record.from"), { optional: true, hint: t("record.days-hint") }),
            dayField("to", t("record.to"), { optional: true })
        ];
        return form({
            name: t("record.ask-it"),
            action: t("record.show"),
            check: faultOf,
            begun: () => screen.change({ found: null }),
            fields,
            class: "wide",
            arranged: part("div", { class: "abreast halves" }, fields.map((it) => it.element)),
            send: async ({ question, ...given }) => ({ value: await asked(question, given) }),
            done: (found) => screen.change({ found }, { focus: "record-answer" })
        });
    }
    return screen.element;
}

/** The keys of the last month about which a second person has to know: put for somebody else, or
 * borrowed.
 */
function keysToSee() {
    const screen = makeScreen({
        state: { found: /** @type {Found | null} */ (null) },
        class: "card",
        draw: ({ found }) => {
            const head = [
                part("h2", {}, t("record.keys-to-see")),
                part("p", { class: "hint" }, t("record.keys-hint"))
            ];
            if (!found) return [head, part("p", { role: "status" }, t("record.reading"))];
            if (found.fault !== undefined)
                return [head, part("p", { class: "note" }, t(`record.${found.fault}`))];
            const at = found.answer.columns.indexOf(NOTE),
                rows = found.answer.rows.filter((row) => row[at]);
            return [
                head,
                warningOf(found.answer),
                rows.length
                    ? tableOf({ ...found.answer, rows })
                    : part("p", {}, t("record.keys-none"))
            ];
        }
    });
    asked("keys", { from: plus(today(), -DAYS_BACK) }).then((found) => screen.change({ found }));
    return screen.element;
}

/** Whether the site refuses this key: a path without a question is asked.
 * @returns {Promise<boolean>}
 */
async function isRefused() {
    const { status } = await desk.fetchFile("/record/");
    return status === 401 || status === 403;
}

/** The page, for an officer or an admin. Anybody else reads one sentence.
 * @param {"officer" | "admin"} reader
 */
export const record = (reader) => ({
    id: "record",
    name: t("record.record"),
    draw: () => {
        const place = document.createElement("div");
        place.className = "stack";
        place.append(questions(), ...(reader === "admin" ? [keysToSee()] : []));
        isRefused().then(
            (is) =>
                is &&
                drawInto(place, part("p", { class: "note", role: "status" }, t("record.caller")))
        );
        return place;
    }
});
