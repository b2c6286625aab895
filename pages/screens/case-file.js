// The left column of a case: whose it is, how many days are left and what happens if nobody
// decides; and the case file as a line of entries.

import { shareOver, urgencyOf } from "../parts/case-queue.js";
import { dayInWords, dayShort, today } from "../parts/clock.js";
import { button, part } from "../parts/element.js";
import { riderName, riderOf } from "../parts/roster.js";
import { t } from "../parts/words.js";

/** @typedef {import("../parts/case-queue.js").Case} Case */
/** @typedef {import("../parts/case-timeline.js").Line} Line */
/** @typedef {import("../types").Given} Given */

const COLORS = /** @type {Record<string, string>} */ ({ past: "bad", near: "bad", soon: "warn" });

/** A day in few words, with its year where that is another one.
 * @param {string} day
 */
export const dayOf = (day) => (
    day.slice(0, 4) === today().slice(0, 4) ? dayShort(day) : dayInWords(day)
);

/** How many days are left, in words.
 * @param {Case} it
 */
export function leftWords({ left }) {
    if (left === null) return t("cases.days-none");
    return left < 0
        ? t("cases.days-past", { count: -left })
        : left === 0
        ? t("cases.days-today")
        : t("cases.days-left", { count: left });
}

/** The days left in words, with a bar of those that are over.
 * @param {Case} it
 */
export function clockbar(it) {
    if (it.left === null)
        return it.kind === "hearing"
            ? part("span", { class: "chip warn" }, t("cases.not-heard"))
            : "";
    return part("div", { class: `clockbar ${COLORS[urgencyOf(it)] ?? ""}`.trim() },
        part("progress", { max: 100, value: shareOver(it), "aria-hidden": "true" }),
        part("span", { class: "nowrap num" }, leftWords(it))
    );
}

/** What happens if nobody decides, in a sentence.
 * @param {Case} it
 */
function ifNobody({ kind, due, left }) {
    if (due === null) return kind === "hearing" ? t("cases.if-hearing") : null;
    return t(left !== null && left <= 0 ? "cases.if-past" : "cases.if-due", { day: dayOf(due) });
}

/** Whose case it is, and what waits; isPart where a grant in part waits for its second step.
 * @param {number} rider @param {Case[]} waiting @param {boolean} isPart
 */
export function whoCard(rider, waiting, isPart) {
    const telephone = riderOf(rider)?.telephone,
        name = riderName(rider),
        number = t("cases.rider-of", { rider });
    return part("section", { class: "card case-head", key: "who" },
        part("h2", { class: "case-of" }, name || number),
        part("p", { class: "soft num" },
            name && number,
            name && telephone && " · ",
            telephone && part("a", { href: `tel:${telephone.replace(/[^\d+]/g, "")}` }, telephone)
        ),
        waiting.map((it) =>
            part("div", { class: "stack g1", key: it.kind },
                part("p", { class: "what-waits" }, t(`cases.queue-${it.kind}`)),
                clockbar(it),
                part("p", { class: "s" }, ifNobody(it))
            )
        ),
        !waiting.length &&
            part("p", { class: "s soft" }, t(isPart ? "cases.queue-part" : "cases.queue-nothing"))
    );
}

/** What stands below the name of an entry.
 * @param {Line} line @returns {Given[]}
 */
function detailsOf({ kind, letter, by, until }) {
    const lines = letter?.lines, days = lines?.get("FROM");
    return [
        ["presumed", "overdue", "appeal-until", "hearing-until"].includes(kind) &&
            t(`cases.line-${kind}-why`),
        letter && until && t("cases.line-until", { day: dayOf(until) }),
        days && t("cases.line-days", { first: dayOf(days), last: dayOf(lines?.get("TO") ?? "") }),
        by && t("cases.line-by", { caller: by })
    ].filter(Boolean);
}

/** @param {Line} line */
const titleOf = ({ kind, state }) =>
    t(kind === "grant-ends" && state === "done" ? "cases.line-grant-ended" : `cases.line-${kind}`);

/** The case file as a line of entries, the newest first. read(entry) shows a letter; shown is the
 * one that is shown.
 * @param {Line[]} lines
 * @param {{ reading: number | null, deciding: boolean, read: (entry: number) => void }} how
 */
export function timelineCard(lines, { reading, deciding, read }) {
    const now = deciding
        ? [
              part("li", { class: "on", key: "now" },
                  part("p", { class: "s soft" }, t("cases.line-today", { day: dayShort(today()) })),
                  part("p", {}, part("b", {}, t("cases.line-decision"))),
                  part("p", { class: "s soft" }, t("cases.line-entering"))
              )
          ]
        : [];
    const opened = (/** @type {number} */ entry) =>
        button(t("cases.line-letter", { entry }), () => read(entry), {
            class: "small",
            "aria-pressed": String(reading === entry)
        });
    const shown = (/** @type {Line} */ it) =>
        part("li", { class: it.state === "done" ? null : it.state, key: it.key },
            part("p", { class: "s soft num" }, dayOf(it.day)),
            part("p", {}, part("b", {}, titleOf(it))),
            detailsOf(it).map((text) => part("p", { class: "s soft" }, text)),
            it.letter && opened(it.letter.entry)
        );
    const ahead = lines.filter(({ day }) => day > today()),
        rest = lines.filter(({ day }) => day <= today());
    return part("section", { class: "card case-line", key: "file" },
        part("h2", {}, t("cases.file")),
        lines.length + now.length === 0 && part("p", { class: "hint" }, t("cases.file-none")),
        part("ol", { class: "entries" }, [...ahead.map(shown), ...now, ...rest.map(shown)]),
        part("p", { class: "hint" }, t("cases.file-hint"))
    );
}
