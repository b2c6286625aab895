// All words of the pages, in the language of who reads them. A text is asked for by its key, and
// each language has each key.

import { keepText, keptText } from "./kept.js";
import { patiently } from "./loading.js";

export const LANGUAGES = ["en", "es"];
/** The names of languages in themselves. */
export const LANGUAGE_NAMES = { en: "English", es: "Español" };
const CHOSEN = "desk.language";

/** @typedef {string | ((values: any) => string)} Text */
/** @type {Record<string, Record<string, Text>>} */
const texts = { en: {}, es: {} };
/** What a language does to each of its texts.
 * @type {Record<string, (text: string) => string>}
 */
const smoothing = {};
/** @type {Set<string>} */
const loaded = new Set();
let now = "en";
/** Whether it is the rider who reads: then a text that speaks of the rider has another one that
 * speaks to the rider, under its key and this.
 */
let isToRider = false;
const YOU = " you";

export const language = () => now;

/** @param {boolean} is whether the rider reads what follows, and not somebody of the staff */
export const speakToRider = (is) => {
    isToRider = is;
};

/** Loads files of words of the chosen language.
 * @param {...string} names
 */
export async function useWords(...names) {
    for (const name of names) loaded.add(name);
    await Promise.all([...loaded].map((name) => load(now, name)));
}

/** @param {string} it @param {string} name */
async function load(it, name) {
    const { words, smooth } = await patiently(() => import(`../words/${it}/${name}.js`));
    Object.assign(texts[it], words);
    if (smooth) smoothing[it] = smooth;
}

/** The language of who reads: as chosen in this browser, else the first that the agency offers.
 * @param {string[]} offered
 */
export function languageFor(offered) {
    const right = offered.filter((it) => LANGUAGES.includes(it)), kept = keptText("local", CHOSEN);
    return kept && right.includes(kept) ? kept : right[0] ?? "en";
}

/** @param {string} it @param {{ keep?: boolean }} options */
export async function chooseLanguage(it, { keep = false } = {}) {
    now = LANGUAGES.includes(it) ? it : "en";
    document.documentElement.lang = now;
    if (keep) keepText("local", CHOSEN, now);
    await useWords();
}

/** @param {string} it @param {string} key @param {Record<string, unknown>} values */
function textIn(it, key, values) {
    const own = isToRider ? texts[it]?.[key + YOU] ?? texts.en[key + YOU] : undefined,
        text = own ?? texts[it]?.[key] ?? texts.en[key];
    if (text === undefined) return key;
    return typeof text === "function" ? smoothing[it]?.(text(values)) ?? text(values) : text;
}

/** The text of a key.
 * @param {string} key @param {Record<string, unknown>} [values]
 */
export const t = (key, values = {}) => textIn(now, key, values);

/** Whether there is a text of this key.
 * @param {string} key
 */
export const hasText = (key) => key in texts[now] || key in texts.en;

/** The text in each language whose words are loaded by loadBoth.
 * @param {string} key @param {Record<string, unknown>} [values]
 */
export const inBoth = (key, values = {}) =>
    Object.fromEntries(LANGUAGES.map((it) => [it, textIn(it, key, values)]));

/** What act() gives in another language: its words, and its days and times. Whoever asks has loaded
 * them by loadBoth; act waits for nothing.
 * @template Made @param {string} it @param {() => Made} act @returns {Made}
 */
export function speaking(it, act) {
    const before = now;
    now = it;
    try {
        return act();
    } finally {
        now = before;
    }
}

/** Loads the words that are used now in every language, so that inBoth has them. */
export const loadBoth = () =>
    Promise.all(LANGUAGES.flatMap((it) => [...loaded].map((name) => load(it, name))));

/** "a, b and c".
 * @param {string[]} list
 */
export const listed = (list) => new Intl.ListFormat(now, { type: "conjunction" }).format(list);

/** "a, b or c".
 * @param {string[]} list
 */
export const anyOf = (list) => new Intl.ListFormat(now, { type: "disjunction" }).format(list);

/** A whole number as the reader writes it.
 * @param {number} number
 */
export const counted = (number) => number.toLocaleString(now === "es" ? "es-US" : "en-US");
