// What a letter says, as blocks in their order: the sentences of a plan
// (words/letter-sentences.js), with the facts of the desk's own text in them. It is what goes onto
// paper, and the plain text of an e-mail. bin/letters makes the same of the same table. Nothing
// here knows of a page.

import { PLANS, SENTENCES } from "../words/letter-sentences.js";
import { PRESUMED_DAYS } from "./limits.js";
import { noticeIn } from "./notices.js";
import { pairOf, partOf } from "./partial.js";
import { fromWords, windowWords } from "../words/on-record.js";

/** @typedef {{ entry: number, text: string, date: string, decision: string, lines: Map<string,
 * string> }} Letter lines are those of the desk's text by their names
 */
/** @typedef {{ name: string, telephone: string, address: string, appeal: { to: string, address:
 * string, telephone: string } }} Sender
 */
/** @typedef {{ own: string, rider: number, name: string, isYou?: boolean, place?: string, agency:
 * Sender, letters: Letter[], appealDays: number, hearingDays: number, more?: Record<string, string>
 * }} About own is the language, name the rider's, empty where it is not known
 */
/** @typedef {{ as: string, key: string, lines: string[] }} Block */

const APPEALABLE = ["refused", "suspended"],
    DAY = 86_400_000;
const TIME = String.raw`(\d{1,2}:\d{2} [AP]M)`;
/** A missed trip on record: its day, the window as 0905-0935 and the place; and the longer words of
 * older notices.
 */
const SHORT = /^(\d{4}-\d{2}-\d{2}) (\d{2})(\d{2})-(\d{2})(\d{2})(?: (.+))?$/;
const MISSED = new RegExp(
    `^(\\d{4}-\\d{2}-\\d{2}), ${windowWords(TIME, TIME)}(?:${fromWords("(.+)")})?$`
);

/** The desk's text of a letter by its lines.
 * @param {number} entry @param {string} text @returns {Letter}
 */
export function letterOf(entry, text) {
    const lines = new Map(
        text
            .trimEnd()
            .split("\n")
            .map((line) => {
                const at = line.indexOf(" ");
                return at < 0 ? [line, ""] : [line.slice(0, at), line.slice(at + 1)];
            })
    );
    return {
        entry,
        text,
        lines,
        date: lines.get("DATE") ?? "",
        decision: lines.get("DECISION") ?? ""
    };
}

/** A text of the table with what stands in it.
 * @param {string} own
 * @param {string} key
 * @param {Record<string, unknown>} [values]
 * @returns {string}
 */
const textOf = (own, key, values = {}) =>
    SENTENCES[own][key].replace(
        /\{(\w+)\}/g,
        (/** @type {string} */ whole, /** @type {string} */ name) => values[name] ?? whole
    );

/** "Monday, March 10, 2025", or what is no day as it is.
 * @param {string} own @param {string} day
 */
export function dayIn(own, day) {
    const at = Date.parse(day);
    if (!/^\d{4}-\d{2}-\d{2}$/.test(day) || Number.isNaN(at)) return day;
    const date = new Date(at), { weekdays, months } = SENTENCES[own];
    return textOf(own, "day", {
        weekday: weekdays[(date.getUTCDay() + 6) % 7],
        month: months[date.getUTCMonth()],
        number: date.getUTCDate(),
        year: date.getUTCFullYear()
    });
}

/** @param {string} day @param {number} days */
const plus = (day, days) => (
    Number.isNaN(Date.parse(day))
        ? day
        : new Date(Date.parse(day) + days * DAY).toISOString().slice(0, 10)
);

/** "a, b, and c".
 * @param {string} own @param {string[]} list
 */
function listed(own, list) {
    const [two, last] = SENTENCES[own].and;
    return list.length < 2
        ? list.join("")
        : list.slice(0, -1).join(", ") + (list.length === 2 ? two : last) + list.at(-1);
}

/** What a condition of a grant says.
 * @param {string} text @param {string} own
 */
export function conditionIn(own, text) {
    const [kind, rest = ""] = text.split(":");
    if (kind === "months")
        return textOf(own, "condition-months", {
            months: listed(
                own,
                rest.split(",").map((month) => SENTENCES[own].months[Number(month) - 1] ?? month)
            )
        });
    if (kind === "farther")
        return textOf(own, "condition-farther", { feet: Number(rest).toLocaleString("en-US") });
    return kind === "always" || kind === "nolift" ? textOf(own, `condition-${kind}`) : text;
}

/** The conditions in a cell of a list in words; what else is in it stays.
 * @param {string} own @param {string} cell
 */
export const conditionsIn = (own, cell) =>
    cell.replace(
        /(?<![\w:])(always|nolift|months:\d+(?:,\d+)*|farther:\d+)(?:;|$)/g,
        (whole, text) => `${conditionIn(own, text)}${whole.endsWith(";") ? "; " : ""}`
    );

/** "9:05 AM" of 09 and 05.
 * @param {string} hours @param {string} minutes
 */
const timeOf = (hours, minutes) =>
    `${Number(hours) % 12 || 12}:${minutes} ${Number(hours) < 12 ? "AM" : "PM"}`;

/** The day of a missed trip, its window and its place, or null where the words are others.
 * @param {string} missed @returns {string[] | null}
 */
function missedParts(missed) {
    const short = SHORT.exec(missed), found = MISSED.exec(missed);
    if (short) return [short[1], timeOf(short[2], short[3]), timeOf(short[4], short[5]), short[6]];
    return found && found.slice(1);
}

/** A missed trip of a notice, which is on record in English, in the reader's language.
 * @param {string} own @param {string} missed
 */
function missedIn(own, missed) {
    const found = missedParts(missed),
        clock = (/** @type {string} */ time) =>
            time.replace(/[AP]M$/, (half) => SENTENCES[own].half[half]);
    if (!found) return missed;
    const [day, from, to, place] = found;
    return textOf(own, "missed-trip", { day: dayIn(own, day), from: clock(from), to: clock(to) }) +
        (place ? textOf(own, "missed-from", { place }) : "");
}

/** What kind of letter it is, and the two letters of which it is made: a refusal in part and its
 * grant are one.
 * @param {Letter} letter @param {Letter[]} letters
 */
export function kindOf(letter, letters) {
    const pair = pairOf(letter, letters);
    if (pair) return { kind: "granted-in-part", main: pair.grant, refusal: pair.refusal };
    return {
        kind: partOf(letter) ? "refused-in-part" : letter.decision,
        main: letter,
        refusal: letter
    };
}

/** The days that a letter speaks of: those proposed, those of a suspension, or those of the
 * suspension that an appeal was against.
 * @param {Letter} letter @param {Letter[]} letters
 */
function daysOf({ entry, decision, lines }, letters) {
    const proposed = decision === "notice" ? noticeIn(lines.get("REASONS") ?? "") : null;
    if (proposed) return proposed;
    const against =
        decision === "appeal denied"
            ? letters.filter((it) => it.entry < entry && APPEALABLE.includes(it.decision)).at(-1)
            : null;
    const of = against?.decision === "suspended" ? against.lines : lines;
    return { first: of.get("FROM") ?? "", last: of.get("TO") ?? "" };
}

/** What is in a letter: values of its sentences, lists, and the facts on which sentences stand.
 * @param {Letter} letter @param {About} about
 */
function factsOf(letter, about) {
    const { own, rider, name, agency, letters, appealDays, hearingDays, more = {} } = about,
        { kind, main, refusal } = kindOf(letter, letters);
    const { first, last } = daysOf(main, letters),
        part = partOf(refusal),
        reasons =
            part?.reasons ?? (kind === "granted-in-part" ? "" : main.lines.get("REASONS") ?? "");
    const notice = main.decision === "notice" ? noticeIn(reasons) : null,
        conditions = (main.lines.get("CONDITIONS") ?? "").split("; ").filter(Boolean);
    const call = agency.telephone || agency.name,
        lists = {
            conditions: conditions.map((it) => conditionIn(own, it)),
            planned: (part?.conditions ?? []).map((it) => conditionIn(own, it)),
            missed: (notice?.missed ?? []).map((it) => missedIn(own, it))
        };
    const values = {
        who: name || textOf(own, "rider", { rider }),
        whose: name ? textOf(own, "whose", { name }) : textOf(own, "whose-rider", { rider }),
        agency: agency.name,
        call,
        rider,
        days: appealDays,
        until: dayIn(
            own,
            kind === "refused-in-part" ? part?.until ?? "" : main.lines.get("UNTIL") ?? ""
        ),
        from: dayIn(own, first),
        to: dayIn(own, last),
        date: dayIn(own, refusal.date),
        day: dayIn(own, more.day ?? plus(refusal.date, appealDays)),
        hearing: dayIn(own, plus(main.date, hearingDays)),
        since: dayIn(own, more.since ?? ""),
        by: dayIn(own, plus(more.since ?? "", PRESUMED_DAYS)),
        against: dayIn(own, more.against ?? ""),
        decision: more.decision ? titleIn(own, more.decision) : ""
    };
    const flags = Object.entries({
        every: conditions.includes("always"),
        attendant: main.lines.get("ATTENDANT") === "yes",
        foreign: own !== "en" && (notice ? notice.more : reasons) !== "",
        reasons: reasons !== "" && !notice,
        days: first !== "",
        missed: lists.missed.length > 0,
        more: Boolean(notice?.more),
        basis: main.decision === "notice" && !notice,
        suspension: more.suspension === "yes" || (main.decision === "appeal denied" && first !== "")
    }).filter(([, holds]) => holds).map(([flag]) => flag);
    return {
        kind,
        values,
        lists: /** @type {Record<string, string[]>} */ (lists),
        flags,
        quotes: /** @type {Record<string, string>} */ ({
            "reasons-are": reasons,
            "-": notice?.more ?? "",
            "notice-basis": reasons
        })
    };
}

/** The title of a letter of a kind.
 * @param {string} own @param {string} kind
 */
function titleIn(own, kind) {
    const step = (PLANS[kind] ?? []).find((it) => it.startsWith("title "));
    return step ? textOf(own, step.split(" ")[1]) : kind;
}

/** @param {string} own @param {Letter} letter @param {Letter[]} letters */
export const titleOf = (own, letter, letters) => titleIn(own, kindOf(letter, letters).kind);

/** Where one writes and calls.
 * @param {About} about
 */
function whereTo({ own, agency: { appeal, name, address, telephone } }) {
    const call = appeal.telephone || telephone;
    return [
        appeal.to || name,
        ...(appeal.address || address).split("\n"),
        call && textOf(own, "telephone", { call })
    ].filter(Boolean);
}

/** The blocks of a letter from its title on. Of a kind that is not known there is the title alone.
 * @param {Letter} letter @param {About} about @returns {Block[]}
 */
export function bodyOf(letter, about) {
    const { own, isYou } = about, { kind, values, lists, flags, quotes } = factsOf(letter, about);
    /** @param {string} key */
    const text = (key) =>
        textOf(own, isYou && `${key}/you` in SENTENCES[own] ? `${key}/you` : key, values);
    if (!(kind in PLANS)) return [{ as: "title", key: "", lines: [kind] }];
    return PLANS[kind]
        .map((line) => line.split(" "))
        .filter(([, , ...wanted]) =>
            wanted.every((it) => (
                it.startsWith("!") ? !flags.includes(it.slice(1)) : flags.includes(it)
            ))
        )
        .map(([as, key]) => {
            if (as === "items") return { as, key, lines: lists[key] };
            if (as === "where") return { as, key, lines: whereTo(about) };
            if (as === "quoted")
                return { as, key, lines: [key === "-" ? "" : text(key), quotes[key]] };
            return { as, key, lines: [text(key)] };
        });
}

/** The whole letter: who writes to whom and when, its body, how to have it otherwise, and the
 * desk's own words.
 * @param {Letter} letter @param {About} about @returns {Block[]}
 */
export function blocksOf(letter, about) {
    const { own, rider, name, place = "", agency, letters } = about,
        { main, refusal } = kindOf(letter, letters),
        call = agency.telephone || agency.name;
    const records = [...new Set([refusal, main])].map(({ text }) => text).filter(Boolean);
    return [
        { as: "letterhead", key: "", lines: [agency.name] },
        {
            as: "sender",
            key: "",
            lines: [
                ...agency.address.split("\n"),
                agency.telephone && textOf(own, "telephone", { call: agency.telephone })
            ].filter(Boolean)
        },
        { as: "date", key: "", lines: [dayIn(own, main.date)] },
        {
            as: "to",
            key: "",
            lines: [
                name || textOf(own, "name-line"),
                place || textOf(own, "address-line"),
                textOf(own, "rider-number", { rider })
            ]
        },
        ...bodyOf(letter, about),
        { as: "formats", key: "", lines: [textOf(own, "formats", { call })] },
        ...(records.length
            ? [{ as: "record", key: "", lines: [textOf(own, "record"), ...records] }]
            : [])
    ].filter(({ lines }) => lines.length > 0);
}

/** Where the box of a letter begins: the last day to appeal, or to ask for a hearing. */
const BOXED = ["appeal-right", "hearing"];
/** @param {Block} block */
const beginsBox = ({ as, key }) => as === "heading" && BOXED.includes(key);

/** A letter's blocks as they are laid out: its head, what comes before the box, the box with the
 * last day to act and where to write, and the rest.
 * @param {Block[]} blocks
 */
export function groupsOf(blocks) {
    const head = blocks.filter(({ as }) => ["letterhead", "sender", "date"].includes(as)),
        rest = blocks.filter((it) => !head.includes(it));
    const begins = rest.findIndex(beginsBox),
        where = rest.findIndex(({ as }, at) => at > begins && as === "where");
    if (begins < 0 || where < 0) return { head, before: rest, box: [], after: [] };
    return {
        head,
        before: rest.slice(0, begins),
        box: rest.slice(begins, where + 1),
        after: rest.slice(where + 1)
    };
}

/** The blocks before the rights: what the decision is, and why.
 * @param {Block[]} blocks
 */
export function meaningIn(blocks) {
    const end = blocks.findIndex(beginsBox);
    return blocks.slice(0, end < 0 ? blocks.length : end).filter(({ as }) => as !== "title");
}

/** Of a text in plain signs each block is a paragraph.
 * @param {Block[]} blocks
 */
export function plainText(blocks) {
    return blocks.map(({ as, lines }) => {
        if (as === "items") return lines.map((it) => `- ${it}`).join("\n");
        if (as === "quoted") return lines.filter(Boolean).join(" ");
        return lines.map((it) => it.trimEnd()).join("\n");
    }).join("\n\n") +
        "\n";
}
