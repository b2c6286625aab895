// A case file as a line of entries: what the night's list, the letters and this browser know of
// each, and the days that follow from them. Nothing here knows of a page or of the desk.

import { appealable, waits } from "./case-facts.js";
import { APPEAL_DAYS, HEARING_DAYS, OVERDUE_DAYS, PRESUMED_DAYS } from "./limits.js";

/** @typedef {import("./case-facts.js").Letter} Letter */
/** @typedef {import("./entered.js").Entered} Entered */
/** @typedef {{ heads: string[], rows: string[][] }} Table */
/** @typedef {{ rider: number, letters: Letter[], entered: Entered[], lists: { id: string, tables:
 * Table[] }[], file: Table[], today: string }} Known file is the rider's case file of the night's
 * list
 */
/** @typedef {{ key: string, day: string, kind: string, position: number | null, letter: Letter |
 * null, by: string, state: "due" | "ahead" | "done", until: string }} Line kind as words/cases has
 * it; position is the entry's place, null of a day that follows; due waits for somebody; until is
 * the day that it speaks of
 */

const MILLISECONDS = 86_400_000,
    DAY = /^\d{4}-\d{2}-\d{2}$/,
    CALLER = /^caller (\d+)$/;
/** The kind of an entry that made each letter. */
const OF_LETTERS = /** @type {Record<string, string>} */ ({
    granted: "grant",
    refused: "refuse",
    suspended: "suspend",
    "suspension overturned": "overturn"
});

/** @param {string} day @param {number} days */
const plus = (day, days) =>
    new Date(Date.parse(day) + days * MILLISECONDS).toISOString().slice(0, 10);

/** @param {string} words */
const kindIn = (words) => words.trim().replaceAll(" ", "-");

/** The entries by their places. What the desk wrote (a letter) stands over what the night's list
 * says.
 * @param {Known} known @returns {Line[]}
 */
function entriesOf({ letters, entered, file }) {
    /** @type {Map<number, Line>} */
    const all = new Map();
    const put = (
        /** @type {number} */ position,
        /** @type {Partial<Line> & { day: string, kind: string }} */ line
    ) =>
        all.set(position, {
            key: `entry-${position}`,
            position,
            letter: null,
            by: "",
            state: "done",
            until: "",
            ...all.get(position),
            ...line
        });
    for (const [place, day, what, by = ""] of file.flatMap(({ rows }) => rows)) {
        if (/^\d+$/.test(place) && DAY.test(day))
            put(Number(place), { day, kind: kindIn(what), by: CALLER.exec(by)?.[1] ?? "" });
    }
    for (const { entry, position, day } of entered) put(position, { day, kind: entry });
    for (const letter of letters)
        put(letter.entry, {
            day: letter.date,
            kind: OF_LETTERS[letter.decision] ?? kindIn(letter.decision),
            letter,
            until: letter.lines.get("UNTIL") ?? ""
        });
    return [...all.values()];
}

/** The days that follow from what waits: until when somebody has to decide.
 * @param {Known} known @returns {Line[]}
 */
function dueOf(known) {
    const application = waits("complete", known),
        appeal = waits("appeal", known),
        open = appealable(known.letters);
    const isOfRefusal = open.length > 0 && open.at(-1)?.decision === "refused";
    return [
        ...(application
            ? [follows("presumed", plus(application.since, PRESUMED_DAYS), "due")]
            : []),
        ...(appeal?.heard && isOfRefusal
            ? [follows("overdue", plus(appeal.heard, OVERDUE_DAYS), "due")]
            : [])
    ];
}

/** @param {string} kind
 * @param {string} day
 * @param {"due" | "ahead" | "done"} state
 * @returns {Line}
 */
const follows = (kind, day, state) => ({
    key: kind,
    day,
    kind,
    position: null,
    letter: null,
    by: "",
    state,
    until: day
});

/** The days that follow from letters: until when one may appeal or ask for a hearing, and when
 * something begins or ends.
 * @param {Known} known @returns {Line[]}
 */
function daysOf(known) {
    const { letters, today } = known,
        grant = letters.filter(({ lines }) => lines.has("UNTIL")).at(-1),
        suspended = letters.filter(({ decision }) => decision === "suspended").at(-1);
    const isLifted = letters.some(
        ({ entry, decision }) =>
            suspended && entry > suspended.entry && decision === "suspension overturned"
    ),
        notice = letters.filter(({ decision }) => decision === "notice").at(-1);
    const at = (/** @type {string} */ kind, /** @type {string | undefined} */ day) => (
        day && DAY.test(day)
            ? [{ ...follows(kind, day, day >= today ? "ahead" : "done"), key: `${kind}-${day}` }]
            : []
    );
    const hasAppeal = waits("appeal", known) !== null;
    return [
        ...(hasAppeal
            ? []
            : appealable(letters)
                  .map(({ date }) => plus(date, APPEAL_DAYS))
                  .filter((day) => day >= today)
                  .flatMap((day) => at("appeal-until", day))),
        ...at("grant-ends", grant?.lines.get("UNTIL")),
        ...(suspended && !isLifted
            ? [
                  ...at("suspension-begins", suspended.lines.get("FROM")),
                  ...at("suspension-ends", suspended.lines.get("TO"))
              ]
            : []),
        ...(notice && !letters.some(({ entry }) => entry > notice.entry)
            ? at("hearing-until", plus(notice.date, HEARING_DAYS))
            : [])
    ];
}

/** The line of a case, the newest first: what is ahead, and below it what is over.
 * @param {Known} known @returns {Line[]}
 */
export const timelineOf = (known) =>
    [...entriesOf(known), ...dueOf(known), ...daysOf(known)].sort(
        (a, b) => b.day.localeCompare(a.day) || (b.position ?? Infinity) - (a.position ?? Infinity)
    );
