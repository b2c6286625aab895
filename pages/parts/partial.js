// A grant in part: what is not granted is refused with reasons, so that the rider may appeal; a new
// application is taken at once; and that is granted with its conditions. The reasons of the refusal
// have one fixed form, by which the letters are known as one, and by which everybody sees what is
// left to do.
// Nothing here knows of a page or of the desk.

import { APPEAL_DAYS } from "./limits.js";
import {
    FOR,
    GRANT_APPLICATION,
    GRANTED_IN_PART,
    NOT_GRANTED,
    TAKE_APPLICATION
} from "../words/on-record.js";

/** @typedef {import("./letter-text.js").Letter} Letter */
/** @typedef {{ until: string, conditions: string[], reasons: string }} Part what is to be granted,
 * to which last day, and why no more is
 */
/** @typedef {"refused" | "applied" | "granted"} Step how far a grant in part has come */
/** @typedef {{ rider: number, entry: number, step: Step, day: string }} Told entry is the refusal's
 * place in the case file, day the day of the refusal
 */

const FORM = new RegExp(
    `^${GRANTED_IN_PART}(\\d{4}-\\d{2}-\\d{2})${FOR}([^.]+)${NOT_GRANTED.replace(".", "\\.")}(.+)$`,
    "s"
);
const DAY = 86_400_000, ORDER = /** @type {Step[]} */ (["refused", "applied", "granted"]);

/** The reasons of the refusal, as the desk has them.
 * @param {Part} part
 */
export const reasonsOf = ({ until, conditions, reasons }) =>
    `${GRANTED_IN_PART}${until}${FOR}${conditions.join("; ")}${NOT_GRANTED}${reasons}`;

/** What the reasons of a refusal say of a grant in part, or null where it is a whole refusal.
 * @param {string} reasons @returns {Part | null}
 */
export function partIn(reasons) {
    const found = FORM.exec(reasons);
    return found && { until: found[1], conditions: found[2].split("; "), reasons: found[3] };
}

/** @param {Letter} letter */
export const partOf = ({ decision, lines }) => (
    decision === "refused" ? partIn(lines.get("REASONS") ?? "") : null
);

/** @param {Letter} letter */
const isDecision = ({ decision }) => decision === "granted" || decision === "refused";

/** The two decisions that are one letter, or null: a refusal in part, and the grant with conditions
 * that came next while it could be appealed.
 * @param {Letter} letter
 * @param {Letter[]} letters
 * @returns {{ refusal: Letter, grant: Letter } | null}
 */
export function pairOf(letter, letters) {
    const decisions = letters.filter(isDecision),
        at = decisions.findIndex(({ entry }) => entry === letter.entry);
    if (at < 0) return null;
    const [refusal, grant] =
        letter.decision === "refused" ? [letter, decisions[at + 1]] : [decisions[at - 1], letter];
    if (!refusal || grant?.decision !== "granted" || !partOf(refusal)) return null;
    if ((grant.lines.get("CONDITIONS") ?? "").split("; ").includes("always")) return null;
    return Date.parse(grant.date) - Date.parse(refusal.date) <= APPEAL_DAYS * DAY
        ? { refusal, grant }
        : null;
}

/** The refusal in part that waits for its grant, or null: it is the last decision on an
 * application.
 * @param {Letter[]} letters @returns {{ letter: Letter, part: Part } | null}
 */
export function partWaiting(letters) {
    const letter = letters.filter(isDecision).at(-1), part = letter ? partOf(letter) : null;
    return letter && part ? { letter, part } : null;
}

/** What the night's list says of each step.
 * @type {Record<string, Step>}
 */
const LISTED = { [TAKE_APPLICATION]: "refused", [GRANT_APPLICATION]: "applied" };

/** Grants in part that the night's list has, of its rows by their heads.
 * @param {{ heads: string[], rows: string[][] }[]} tables @returns {Told[]}
 */
export const partsListed = (tables) =>
    tables
        .flatMap(({ rows }) => rows)
        .filter(
            (row) =>
                row.length >= 5 && LISTED[row[4]] && /^\d+$/.test(row[0]) && /^\d+$/.test(row[2])
        )
        .map(([rider, , entry, day, step]) => ({
            rider: Number(rider),
            entry: Number(entry),
            day,
            step: LISTED[step]
        }));

/** Grants in part that the site was told of (/staff/today.json). What is in another form is none.
 * @param {string | null} text @returns {Told[]}
 */
export function partsTold(text) {
    try {
        const rows = JSON.parse(text ?? "").partial_grants;
        return Array.isArray(rows)
            ? rows.filter(
                  (it) =>
                      Number.isInteger(it?.rider) &&
                      Number.isInteger(it.entry) &&
                      ORDER.includes(it.step) &&
                      typeof it.day === "string"
              )
            : [];
    } catch {
        return [];
    }
}

/** What is left to do of grants in part, the oldest first: as the night's list has it, and as the
 * site was told since.
 * @param {Told[]} told @param {Told[]} listed @returns {Told[]}
 */
export function partsLeft(told, listed) {
    /** @type {Map<string, Told>} */
    const known = new Map();
    for (const it of [...listed, ...told]) {
        const name = `${it.rider} ${it.entry}`, before = known.get(name);
        if (!before || ORDER.indexOf(it.step) > ORDER.indexOf(before.step)) known.set(name, it);
    }
    return [...known.values()].filter(({ step }) => step !== "granted").sort(
        (a, b) => a.day.localeCompare(b.day) || a.rider - b.rider
    );
}
