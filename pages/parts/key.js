// Keys. A made key has 26 signs of base32 (128 bits), shown in groups. A typed key of that shape
// may have hyphens, blanks and capitals; every other key is tried as it was typed, and then in
// small letters and with hyphens.

/** How many signs a made key has. */
export const LENGTH = 26;
const SIGNS = "0123456789abcdefghjkmnpqrstvwxyz", BYTES = 16;

/** Makes a key, from 128 random bits. */
export function newKey() {
    let bits = crypto.getRandomValues(new Uint8Array(BYTES)).reduce(
        (all, byte) => all * 256n + BigInt(byte),
        0n
    ),
        text = "";
    for (let at = 0; at < LENGTH; at += 1) {
        text = SIGNS[Number(bits % 32n)] + text;
        bits /= 32n;
    }
    return text;
}

/** In groups of five with hyphens, as it is shown and printed.
 * @param {string} key
 */
export const grouped = (key) => (key.match(/.{1,5}/g) ?? []).join("-");

/** The key that is meant by what was typed.
 * @param {string} typed
 */
export function normalKey(typed) {
    const plain = typed.replace(/[\s-]/g, "").toLowerCase();
    return plain.length === LENGTH && [...plain].every((sign) => SIGNS.includes(sign))
        ? plain
        : typed;
}

/** A key of the agency's own kind has so many characters at most, all of them printable ASCII. */
export const MOST = 200;
const DASHES = /[\u2010-\u2015\u2212]/g;

/** The keys that may be meant by what was typed, the likeliest first: a made key in its plain form,
 * what was typed, and the same as it was before a phone's keyboard made capitals of its letters, or
 * somebody typed spaces for its hyphens.
 * @param {string} typed
 */
export function meantKeys(typed) {
    const text = typed.trim().replace(DASHES, "-"), small = text.toLowerCase();
    return [...new Set([normalKey(text), text, small, small.replace(/\s+/g, "-")])];
}

/** Why what was typed can be nobody's key, or null: there is nothing, there is too much, or it has
 * a sign that no key can have.
 * @param {string} typed @returns {"none" | "much" | "strange" | null}
 */
export function keyFault(typed) {
    const text = typed.trim().replace(DASHES, "-");
    if (!text) return "none";
    return /[^ -~]/.test(text) ? "strange" : text.length > MOST ? "much" : null;
}

/** Between these lengths what was typed is a made key that was typed wrong. */
const SHORTEST = 13,
    LONGEST = 39;
/** Signs that are taken for a 0 or a 1. */
const TAKEN = "oil";

/** Whether what was typed is grouped as the pages group a made key, up to one slip, or is not
 * grouped at all. (Keys of another kind have words and groups of their own.)
 * @param {string} typed
 */
function isGroupedAsMade(typed) {
    const groups = typed.trim().split(/[\s-]+/);
    return groups.length === 1 ||
        (
            groups.length > 2 &&
            groups.slice(0, -1).filter((it) => it.length !== 5).length <= 1 &&
            groups.every((it) => it.length <= 6)
        );
}

/** What is wrong of a key that nobody has, where it is certain that a made key was meant: it is too
 * short or too long, or has a sign that is taken for another.
 * Null elsewhere: it may be a key of another kind.
 * @param {string} typed
 * @returns {{ what: "short" | "long" | "sign", count: number, signs: string } | null}
 */
export function keyTrouble(typed) {
    const plain = typed.replace(/[\s-]/g, "").toLowerCase(),
        count = plain.length,
        signs = [...new Set(plain)].filter((sign) => !SIGNS.includes(sign));
    if (
        !/^[0-9a-z]+$/.test(plain) ||
        !/[0-9].*[0-9]/.test(plain) ||
        !/[a-z]/.test(plain) ||
        count < SHORTEST ||
        count > LONGEST ||
        !isGroupedAsMade(typed)
    )
        return null;
    if (!signs.length)
        return count === LENGTH
            ? null
            : { what: count < LENGTH ? "short" : "long", count, signs: "" };
    return count === LENGTH && signs.every((it) => TAKEN.includes(it))
        ? { what: "sign", count, signs: signs.join(" ") }
        : null;
}

/** The SHA-256 of a key in hexadecimal digits, which is all that the desk gets of it.
 * @param {string} text
 */
export async function digestOf(text) {
    const bytes = await crypto.subtle.digest("SHA-256", new TextEncoder().encode(text));
    return [...new Uint8Array(bytes)].map((byte) => byte.toString(16).padStart(2, "0")).join("");
}
