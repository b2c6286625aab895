// The desk takes plain signs, space to tilde. What people type or paste is turned into them where
// there is a plain sign for it.

/** @type {Record<string, string>} */
const SIGNS = {
    "‘": "'",
    "’": "'",
    "‚": "'",
    "‛": "'",
    "′": "'",
    "´": "'",
    "“": '"',
    "”": '"',
    "„": '"',
    "«": '"',
    "»": '"',
    "″": '"',
    "‐": "-",
    "‑": "-",
    "‒": "-",
    "–": "-",
    "—": "-",
    "―": "-",
    "−": "-",
    "…": "...",
    "•": "-",
    "·": "-",
    "×": "x",
    "÷": "/",
    "ß": "ss",
    "æ": "ae",
    "Æ": "AE",
    "œ": "oe",
    "Œ": "OE",
    "ø": "o",
    "Ø": "O",
    "ł": "l",
    "Ł": "L",
    "đ": "d",
    "Đ": "D",
    "¿": "",
    "¡": "",
    "½": "1/2",
    "¼": "1/4",
    "¾": "3/4",
    "°": " degrees",
    "€": "EUR",
    "£": "GBP",
    "§": "section ",
    "©": "(c)",
    "®": "(R)",
    "™": "(TM)",
    "º": "o",
    "ª": "a",
    "\u00ad": "",
    "\u200b": "",
    "\ufeff": ""
};

/** The plain text, and the signs that have no plain one.
 * @param {string} typed @returns {{ text: string, lost: string[] }}
 */
export function plainOf(typed) {
    /** @type {Set<string>} */
    const lost = new Set();
    // (40°F is 40 degrees F)
    const signs = [...typed.normalize("NFC").replace(/°(?=\p{L})/gu, "° ")].map((sign) => {
        if (/[ -~]/.test(sign)) return sign;
        if (/\s/.test(sign)) return " ";
        if (sign in SIGNS) return SIGNS[sign];
        const base = sign.normalize("NFKD").replace(/[\u0300-\u036f]/g, "");
        if (/^[ -~]+$/.test(base)) return base;
        lost.add(sign);
        return "";
    });
    return { text: signs.join("").replace(/ {2,}/g, " ").trim(), lost: [...lost] };
}

/** How many bytes of UTF-8 a text has: by these the desk counts.
 * @param {string} text
 */
export const bytesOf = (text) => new TextEncoder().encode(text).length;
