// The letter that a decision would make, while it is typed: in the desk's own form, as far as it is
// known before the desk writes it. Nothing here knows of a page or of the desk.

import { FOR, GRANTED_IN_PART, NOT_GRANTED } from "../words/on-record.js";

/** @typedef {import("./letter-text.js").Letter} Letter */
/** @typedef {{ until?: string | null, conditions?: string[] | null, reasons?: string | null,
 * starts?: string | null, ends?: string | null }} Values what the fields hold; what is wrong or
 * empty is null or left out
 */
/** @typedef {{ letter: Letter, letters: Letter[] }} Draft the letter and all of the rider with it
 */

/** What stands where nothing is typed yet. */
const BLANK = "____";
const DECISIONS = /** @type {Record<string, string>} */ ({
    grant: "granted",
    rest: "granted",
    refuse: "refused",
    "appeal-granted": "appeal granted",
    "appeal-denied": "appeal denied",
    overturn: "suspension overturned",
    suspend: "suspended"
});

/** @param {number} entry
 * @param {string} date
 * @param {string} decision
 * @param {Record<string, string>} lines
 * @returns {Letter}
 */
const letterWith = (entry, date, decision, lines) => ({
    entry,
    text: "",
    date,
    decision,
    lines: new Map([["DATE", date], ["DECISION", decision], ...Object.entries(lines)])
});

/** @param {Values} values */
const grantLines = ({ until, conditions }) => ({
    UNTIL: until || BLANK,
    CONDITIONS: (conditions ?? []).join("; ")
});

/** The lines of each kind but those of a grant in part.
 * @param {string} kind @param {Values} values @returns {Record<string, string>}
 */
function linesOf(kind, values) {
    if (kind === "grant") return grantLines({ ...values, conditions: ["always"] });
    if (kind === "rest" || kind === "appeal-granted") return grantLines(values);
    if (kind === "overturn") return {};
    return {
        ...(kind === "suspend" ? { FROM: values.starts || BLANK, TO: values.ends || BLANK } : {}),
        REASONS: values.reasons || BLANK
    };
}

/** The letter of a kind of entry, or null where that makes none, such as a hearing. Of a grant in
 * part both decisions are one letter.
 * @param {string} kind
 * @param {Values} values
 * @param {{ date: string, letters: Letter[] }} known date is the day of the decision
 * @returns {Draft | null}
 */
export function draftOf(kind, values, { date, letters }) {
    const entry = (letters.at(-1)?.entry ?? -1) + 1;
    if (kind === "in-part") {
        const { conditions, reasons } = values, named = (conditions ?? []).join("; ") || "-";
        // (the form of such reasons wants a day, which the grant beside it says)
        const refusal = letterWith(entry, date, "refused", {
            REASONS: `${GRANTED_IN_PART}${date}${FOR}${named}${NOT_GRANTED}${reasons || BLANK}`
        });
        const grant = letterWith(entry + 1, date, "granted", grantLines(values));
        return { letter: grant, letters: [...letters, refusal, grant] };
    }
    if (!(kind in DECISIONS)) return null;
    const letter = letterWith(entry, date, DECISIONS[kind], linesOf(kind, values));
    return { letter, letters: [...letters, letter] };
}
