// The agency's own list of its riders: a CSV that the server gives to staff, or that is opened from
// disk into this window and sent nowhere.

import * as desk from "./desk.js";
import { HIGHEST_ID } from "./limits.js";
import { t } from "./words.js";

/** @typedef {import("../types").Rider} Rider */
/** @typedef {Rider & { sought: string, digits: string, number: string }} Row a rider with the texts
 * that a search looks at
 */

const PATH = "/staff/roster.csv",
    MOST_FOUND = 20,
    MOST_FAULTS = 20,
    LEAST_TELEPHONE = 7;

/** @type {Row[]} */
let rows = [];
/** @type {Map<number, Row>} */
let byNumber = new Map();
/** @type {string[]} */
let faults = [];
let from = "";

/** Letters that have no accent to take away, as people type them.
 * @type {Record<string, string>}
 */
const PLAIN = { đ: "d", ø: "o", ł: "l", ß: "ss", æ: "ae", œ: "oe", ı: "i" };

/** Small letters without accents.
 * @param {string} text
 */
export const folded = (text) =>
    text
        .normalize("NFD")
        .replace(/[\u0300-\u036f]/g, "")
        .toLowerCase()
        .replace(/[đøłßæœı]/g, (letter) => PLAIN[letter]);

/** The same as it is searched: apostrophes of any kind are left out, and hyphens, points and commas
 * part words as blanks do.
 * @param {string} text
 */
export const searchable = (text) =>
    folded(text)
        .replace(/['`´\u2018\u2019\u02bc\u02b9\u2032\uff07]/g, "")
        .replace(/[\s,.\-\u2010-\u2015\u2212]+/g, " ")
        .trim();

/** The rows of a CSV (RFC 4180), each a list of its cells.
 * @param {string} text
 */
export function cellsOf(text) {
    /** @type {string[][]} */
    const all = [];
    /** @type {string[]} */
    let row = [];
    const cell = /\s*?(?:"((?:[^"]|"")*)"[^,\r\n]*|([^,\r\n]*))(,|\r?\n|\r|$)/gy;
    for (let found = cell.exec(text); found; found = cell.exec(text)) {
        row.push((found[1] === undefined ? found[2] : found[1].replaceAll('""', '"')).trim());
        if (found[3] !== ",") {
            if (row.some((it) => it)) all.push(row);
            row = [];
        }
        if (cell.lastIndex >= text.length && found[3] !== ",") break;
    }
    return all;
}

/** @param {string} text */
const idIn = (text) => (
    /^\d{1,10}$/.test(text) && Number(text) >= 1 && Number(text) <= HIGHEST_ID ? Number(text) : null
);

/** @param {Record<string, string>} cells @param {number} rider @returns {Row} */
function rowOf(cells, rider) {
    const name = cells.name ?? "", telephone = cells.telephone ?? "";
    return {
        rider,
        name,
        telephone,
        language: (cells.language ?? "").toLowerCase().slice(0, 2),
        home: idIn(cells.home ?? ""),
        usual: (cells.usual ?? "")
            .split(/[\s;]+/)
            .map(idIn)
            .filter((it) => it !== null)
            .map(Number),
        aid: cells.aid ?? "",
        attendant: cells.attendant ?? "",
        note: cells.note ?? "",
        // (a name with a hyphen is found as one word too)
        sought: ["", name, ...(name.includes("-") ? [name.replaceAll("-", "")] : [])].map(
            searchable
        ).join(" "),
        digits: telephone.replace(/\D/g, ""),
        number: String(rider)
    };
}

/** Reads a roster's text: what is right in it is used.
 * @param {string} text
 */
function readRoster(text) {
    const [head = [], ...lines] = cellsOf(text.replace(/^\ufeff/, ""));
    const names = head.map((name) => name.toLowerCase());
    rows = [];
    byNumber = new Map();
    faults = [];
    if (!names.includes("rider") || !names.includes("name")) {
        faults.push(t("common.roster-head"));
        return;
    }
    lines.forEach((cells, at) => {
        const record = Object.fromEntries(names.map((name, column) => [name, cells[column] ?? ""])),
            rider = idIn(record.rider);
        if (rider === null || byNumber.has(rider)) {
            if (faults.length < MOST_FAULTS)
                faults.push(
                    t(rider === null ? "common.roster-number" : "common.roster-twice", {
                        row: at + 2,
                        text: record.rider
                    })
                );
            return;
        }
        const row = rowOf(record, rider);
        rows.push(row);
        byNumber.set(rider, row);
    });
}

/** The roster that the server gives to staff; a missing one is none. Whether the site answered. */
export async function loadRoster() {
    if (from) return true;
    const { status, text } = await desk.fetchFile(PATH);
    if (status === 200) {
        readRoster(text ?? "");
        from = "server";
    }
    return status !== 0 && status !== 429 && status < 500;
}

/** A roster from disk, for this window alone.
 * @param {File} file
 */
export async function openRoster(file) {
    readRoster(await file.text());
    from = file.name;
}

export function forgetRoster() {
    rows = [];
    byNumber = new Map();
    faults = [];
    from = "";
}

export const rosterTroubles = () => faults;
export const rosterSize = () => rows.length;
/** Where it came from: "server", the name of a file, or nothing. */
export const rosterSource = () => from;

/** @param {number} rider @returns {Rider | null} */
export const riderOf = (rider) => byNumber.get(rider) ?? null;
/** @param {number} rider */
export const riderName = (rider) => byNumber.get(rider)?.name ?? "";
/** "Ana Lopez (1037)", or "rider 1037".
 * @param {number} rider
 */
export const riderLabel = (rider) => (
    riderName(rider) ? `${riderName(rider)} (${rider})` : t("common.rider", { rider })
);

/** The digits of what was typed, where it holds nothing else; a number may begin with #.
 * @param {string} text
 */
function digitsIn(text) {
    const digits = text.replace(/^\s*#|[\s().+/-]/g, "");
    return /^\d+$/.test(digits) ? digits : "";
}

/** Whether digits are of a telephone number, with or without the country's 1.
 * @param {string} own those of the roster @param {string} digits
 */
const isTelephoneOf = (own, digits) =>
    own.length > 0 && (own.includes(digits) || (digits.length > 10 && own === digits.slice(-10)));

/** Whether what was typed is a telephone number sooner than a rider's: so long is no number of the
 * roster.
 * @param {string} text
 */
export function isTelephone(text) {
    const digits = digitsIn(text);
    return digits.length >= LEAST_TELEPHONE &&
        rows.length > 0 &&
        !rows.some(({ number }) => number.length === digits.length);
}

/** Riders of this number or telephone, the best first.
 * @param {string} digits @param {number} most
 */
function findByDigits(digits, most) {
    const own = byNumber.get(Number(digits)),
        begins = (/** @type {Row} */ { number }) => number !== digits && number.startsWith(digits);
    const called =
        digits.length < 3
            ? []
            : rows.filter((row) => row !== own && isTelephoneOf(row.digits, digits)).slice(0, most);
    const numbered = rows.filter((row) => begins(row) && !called.includes(row)).slice(0, most);
    return [
        ...(own ? [own] : []),
        ...(digits.length >= LEAST_TELEPHONE ? [...called, ...numbered] : [...numbered, ...called])
    ].slice(0, most);
}

/** Riders whose number, telephone or name has what was typed: each word begins a part of the name.
 * The best come first.
 * @param {string} text @param {number} [most] @returns {Rider[]} */
export function findRiders(text, most = MOST_FOUND) {
    const words = searchable(text).split(" ").filter(Boolean), digits = digitsIn(text);
    if (digits) return findByDigits(digits, most);
    /** @type {Row[]} */
    const first = [];
    /** @type {Row[]} */
    const other = [];
    if (!words.length) return [];
    for (const row of rows) {
        if (words.every((word) => row.sought.includes(` ${word}`))) first.push(row);
        else if (other.length < most && words.every((word) => row.sought.includes(word)))
            other.push(row);
        if (first.length >= most) break;
    }
    return [...first, ...other].slice(0, most);
}
