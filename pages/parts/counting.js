// What is told to the site, without a browser: how an event is spelled, what is wrong in it, and
// what an answer of the site means.

import { EVENTS } from "./events.js";

/** @typedef {import("./events.js").Form} Form */
/** @typedef {import("./events.js").Kind} Kind */

const PREFIX = "/tally/",
    SIGNS = /^[0-9a-hjkmnp-tv-z]{26}$/,
    DAY = /^20\d{2}-(0[1-9]|1[0-2])-(0[1-9]|[12]\d|3[01])$/;
const MOMENT = /^20\d{2}-(0[1-9]|1[0-2])-(0[1-9]|[12]\d|3[01])T([01]\d|2[0-3])(:[0-5]\d){2}$/;
/** What ends a line or controls a printer, and halves of signs. */
const NO_TEXT =
    /[\u0000-\u001f\u007f-\u009f\u2028\u2029]|[\ud800-\udbff](?![\udc00-\udfff])|(?<![\ud800-\udbff])[\udc00-\udfff]/;
const PAUSES = [2_000, 10_000, 60_000, 300_000], PUT_BACK = 60_000;

/** @param {string} text */
const isRealDay = (text) =>
    DAY.test(text) && new Date(Date.parse(text)).toISOString().startsWith(text);

/** Whether a value has the form of its field.
 * @type {Record<Form["kind"], (value: unknown, form: Form) => boolean>} */
const FITS = {
    id: (value) => SIGNS.test(String(value)),
    day: (value) => typeof value === "string" && isRealDay(value),
    moment: (value) => MOMENT.test(String(value)) && isRealDay(String(value).slice(0, 10)),
    number: (value, { low = 0, high = 0 }) =>
        Number.isInteger(value) && Number(value) >= low && Number(value) <= high,
    word: (value, { words = [] }) => words.includes(/** @type {string} */ (value)),
    text: (value, { most = 0 }) =>
        typeof value === "string" &&
        value.trim() !== "" &&
        [...value].length <= most &&
        !NO_TEXT.test(value),
};

/** The name of the first field that is not of its form, or null.
 * @param {Kind} kind @param {Record<string, unknown>} fields */
export function faultOf(kind, fields) {
    const forms = EVENTS[kind], unknown = Object.keys(fields).find((name) => !(name in forms));
    return unknown ??
        Object.keys(forms).find((name) => (
            fields[name] === undefined || fields[name] === null
                ? !forms[name].optional
                : !FITS[forms[name].kind](fields[name], forms[name])
        )) ??
        null;
}

/** A text as one line of at most so many characters, as a note has to be.
 * @param {string} text @param {number} most */
export const lineOf = (text, most) =>
    [...text.replace(new RegExp(NO_TEXT, "g"), " ").replace(/\s+/g, " ").trim()]
        .slice(0, most)
        .join("")
        .trim();

/** The path and query of an event; its fields are known to be right.
 * @param {Kind} kind @param {Record<string, unknown>} fields */
export function pathOf(kind, fields) {
    const given = Object.keys(EVENTS[kind]).filter((name) => (fields[name] ?? null) !== null);
    const query = given.map((name) => `${name}=${encodeURIComponent(String(fields[name]))}`);
    return `${PREFIX}${kind}?${query.join("&")}`;
}

/** The kind and the id in the path of an event, or null.
 * @param {string} path @returns {{ kind: Kind, id: string } | null} */
export function namedIn(path) {
    const [begin, query = ""] = path.split("?"),
        kind = begin.slice(PREFIX.length),
        id = new URLSearchParams(query).get("id") ?? "";
    return begin.startsWith(PREFIX) && kind in EVENTS && SIGNS.test(id)
        ? { kind: /** @type {Kind} */ (kind), id }
        : null;
}

/** What comes of an event after the site's answer, 0 being none. `kept`: the site has it. `later`:
 * it is sent again after a pause. `other`: it waits for the key of who told it. `refused`: a fault
 * of the product, which somebody has to hear of.
 * @param {number} status
 * @param {boolean} isOwn whether it was sent with the key of who told it
 * @returns {"kept" | "later" | "other" | "refused"}
 */
export function endOf(status, isOwn) {
    if (status === 204) return "kept";
    if (status < 400 || status >= 500 || [401, 408, 425, 429].includes(status)) return "later";
    return status === 403 && !isOwn ? "other" : "refused";
}

/** The pause after so many tries without an answer, in milliseconds.
 * @param {number} tries from 1 on */
export const pauseAfter = (tries) => PAUSES[Math.min(tries, PAUSES.length) - 1];

/** Whether an event may be sent: its moment has come, or this machine's clock was put back since it
 * was told.
 * @param {{ since: number, from: number }} event @param {number} now */
export const isDue = ({ since, from }, now) => from <= now || since > now + PUT_BACK;
