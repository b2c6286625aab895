// The queue of an examiner and of an officer: the cases on the night's list, those with the fewest
// days left first. Nothing here knows of a page.

import { OVERDUE_DAYS } from "./limits.js";
import { GIVEN_ON, HEARD_ON, NO_NOTICE, SUSPENDED_FROM } from "../words/on-record.js";

/** @typedef {{ heads: string[], rows: string[][] }} Table a list of what waits; its days are
 * YYYY-MM-DD
 */
/** @typedef {"application" | "appeal" | "hearing" | "missed"} Kind what waits: a decision of an
 * application, of an appeal that was heard, an appeal's hearing, a pattern of missed trips
 */
/** @typedef {{ rider: number, name: string, kind: Kind, since: string | null, heard: string | null,
 * due: string | null, left: number | null, of: number | null, against: { kind: "refuse" |
 * "suspend", entry: number } | null, figures: { missed: number, ended: number } | null, step:
 * string }} Case since, heard and due are days; left is the days until due, 0 today and less than 0
 * past it; of is the days from since or from the hearing to due; against is what an appeal is
 * against; figures are the missed trips of those with an outcome, and step is how far a suspension
 * has come
 */

const DAY = /^\d{4}-\d{2}-\d{2}$/,
    MILLISECONDS = 86_400_000,
    NEAR = 3,
    SOON = 5,
    WEEK = 7;
/** Which lists are whose, and the heads of their days.
 * @type {Record<string, { list: string, since: RegExp, due: RegExp, heard?: RegExp }[]>}
 */
const OWN = {
    examiner: [{ list: "applications", since: /^complete on$/i, due: /^presumed from$/i }],
    officer: [{
        list: "appeals",
        since: /^filed on$/i,
        due: /^overdue from$/i,
        heard: /^heard on$/i
    }],
    suspensions: [{ list: "missed", since: /^$/, due: /^$/ }],
};

/** @param {string} day @param {number} days */
const plus = (day, days) =>
    new Date(Date.parse(day) + days * MILLISECONDS).toISOString().slice(0, 10);

/** @param {string} from @param {string} to */
const daysBetween = (from, to) => Math.round((Date.parse(to) - Date.parse(from)) / MILLISECONDS);

/** @param {Table} table @param {string[]} row @param {RegExp | undefined} head */
function dayIn({ heads }, row, head) {
    const text = head ? row[heads.findIndex((it) => head.test(it))] ?? "" : "";
    return DAY.test(text) ? text : null;
}

/** What an appeal is against, of the words of the list.
 * @param {string} words @returns {Case["against"]}
 */
function againstIn(words) {
    const found = /^(refuse|suspend) \(entry (\d+)\)$/.exec(words);
    return found && {
            kind: /** @type {"refuse" | "suspend"} */ (found[1]),
            entry: Number(found[2])
        };
}

/** @param {string[]} row @returns {Case["figures"]} */
const figuresIn = (row) => (
    /^\d+$/.test(row[2] ?? "") && /^\d+$/.test(row[3] ?? "")
        ? { missed: Number(row[2]), ended: Number(row[3]) }
        : null
);

/** @param {typeof OWN.examiner[0]} of
 * @param {Table} table
 * @param {string[]} row
 * @param {string} today
 * @returns {Case}
 */
function caseIn({ list, since: from, due: until, heard: hearing }, table, row, today) {
    const since = dayIn(table, row, from),
        due = dayIn(table, row, until),
        heard = dayIn(table, row, hearing),
        began = heard ?? since,
        isMissed = list === "missed";
    const kind =
        list === "applications"
            ? "application"
            : isMissed
            ? "missed"
            : heard
            ? "appeal"
            : "hearing";
    return {
        rider: Number(row[0]),
        name: row[1] ?? "",
        kind,
        since,
        heard,
        due,
        left: due === null ? null : daysBetween(today, due),
        of: due === null || began === null ? null : daysBetween(began, due),
        against: list === "appeals" ? againstIn(row[2] ?? "") : null,
        figures: isMissed ? figuresIn(row) : null,
        step: isMissed ? row[5] ?? "" : ""
    };
}

/** @param {Case} a @param {Case} b */
const urgentFirst = (a, b) =>
    (a.left ?? Infinity) - (b.left ?? Infinity) ||
    (a.since ?? "9").localeCompare(b.since ?? "9") ||
    a.rider - b.rider;

/** Cases in their order.
 * @param {Case[]} cases
 */
export const inOrder = (cases) => [...cases].sort(urgentFirst);

/** The cases that wait for a reader, those with the fewest days left first, and those without a
 * last day by how long they wait.
 * @param {"examiner" | "officer" | "suspensions"} reader
 * @param {{ id: string, tables: Table[] }[]} lists
 * @param {string} today
 * @returns {Case[]}
 */
export const queueOf = (reader, lists, today) =>
    OWN[reader].flatMap((kind) =>
        lists
            .filter(({ id }) => id === kind.list)
            .flatMap(({ tables }) => tables)
            .flatMap((table) =>
                table.rows.filter(([rider]) => /^\d+$/.test(rider)).map((row) =>
                    caseIn(kind, table, row, today)
                )
            )
    ).sort(urgentFirst);

/** How a case's days stand: past the last day, the last three, the last five, or more.
 * @param {Case} it @returns {"past" | "near" | "soon" | "time" | "none"}
 */
export const urgencyOf = ({ left }) => (
    left === null
        ? "none"
        : left <= 0
        ? "past"
        : left <= NEAR
        ? "near"
        : left <= SOON
        ? "soon"
        : "time"
);

/** Whether a case has to be decided within a week.
 * @param {Case} it
 */
export const isThisWeek = ({ left }) => left !== null && left <= WEEK;

/** A case that waits without being on the list: it was entered after that was made.
 * @param {number} rider
 * @param {Kind} kind
 * @param {{ since: string, heard?: string | null }} waits
 * @param {string} today
 * @param {number} days from which on something follows
 * @returns {Case}
 */
export function caseSince(rider, kind, { since, heard }, today, days) {
    const due = kind === "hearing" || kind === "missed" ? null : plus(heard ?? since, days);
    return {
        rider,
        name: "",
        kind,
        since,
        heard: heard ?? null,
        due,
        left: due === null ? null : daysBetween(today, due),
        of: due === null ? null : days,
        against: null,
        figures: null,
        step: ""
    };
}

/** The entries that decide what waits. */
const DECIDES = /** @type {Record<Kind, string[]>} */ ({
    application: ["grant", "refuse"],
    appeal: ["appeal-granted", "appeal-denied", "overturn"],
    hearing: ["appeal-granted", "appeal-denied", "overturn"],
    missed: ["suspend"]
});
/** The entry with which each kind of case begins. */
const BEGINS = /** @type {Record<Kind, string>} */ ({
    application: "complete",
    appeal: "appeal",
    hearing: "appeal",
    missed: "notice"
});

/** A case of the night's list as it stands with what was entered from here since: null where it was
 * decided. One that was heard has a last day.
 * @param {Case} it
 * @param {import("./entered.js").Entered[]} entered
 * @param {string} today
 * @returns {Case | null}
 */
export function caseNow(it, entered, today) {
    const begun = entered.filter(({ entry }) => entry === BEGINS[it.kind]).at(-1)?.position ?? -1,
        since = entered.filter(
            ({ position, day }) => position > begun && day >= (it.since ?? today)
        );
    if (since.some(({ entry }) => DECIDES[it.kind].includes(entry))) return null;
    const heard =
        since
            .filter(({ entry }) => entry === (it.kind === "missed" ? "notice-heard" : "heard"))
            .at(-1)
            ?.day,
        given = entered.filter(({ entry, day }) => entry === "notice" && day >= today).at(-1)?.day;
    if (it.kind === "hearing" && heard && it.since)
        return {
            ...caseSince(it.rider, "appeal", { since: it.since, heard }, today, OVERDUE_DAYS),
            name: it.name,
            against: it.against
        };
    if (it.kind === "missed" && (heard ?? given))
        return { ...it, step: heard ? `${HEARD_ON} ${heard}` : `${GIVEN_ON} ${given}` };
    return it;
}

/** The share of a case's days that are over, of a hundred.
 * @param {Case} it
 */
export const shareOver = ({ left, of }) => (
    left === null || !of ? 0 : Math.max(0, Math.min(100, Math.round((1 - left / of) * 100)))
);

/** How far a suspension has come, by the words of the list, with the day of its last step: none,
 * notice, heard, or suspended.
 * @param {string} step
 * @returns {{ name: "none" | "notice" | "heard" | "suspended" | "other", day: string | null }}
 */
export function stepOf(step) {
    const day = /\d{4}-\d{2}-\d{2}/.exec(step)?.[0] ?? null;
    const name =
        step === NO_NOTICE || step === ""
            ? "none"
            : step.startsWith(GIVEN_ON)
            ? "notice"
            : step.startsWith(HEARD_ON)
            ? "heard"
            : step.startsWith(SUSPENDED_FROM)
            ? "suspended"
            : "other";
    return { name, day };
}
