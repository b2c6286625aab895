// A key as a square that a phone's camera reads: QR code (ISO/IEC 18004) of version 2 with
// correction M, whose room is just the signs of a key.

import { part } from "./element.js";
import { LENGTH } from "./key.js";

const SIZE = 25,
    DATA = 28,
    CORRECTION = 16,
    QUIET = 4,
    FIELD = 0x11d,
    ALIGNED = 18,
    TIMED = 6,
    FINDER = 7;
const BYTE_MODE = 4n, FORMAT = 0x5412; // correction M with the first mask

/** The product of two numbers of the field of 256.
 * @param {number} one @param {number} other
 */
function times(one, other) {
    let made = 0;
    for (let bit = 7; bit >= 0; bit -= 1)
        made = (made << 1) ^ ((made >> 7) * FIELD) ^ (((other >> bit) & 1) * one);
    return made;
}

/** The Reed-Solomon remainder of the data.
 * @param {number[]} data
 */
function correctionOf(data) {
    let divisor = [...Array(CORRECTION - 1).fill(0), 1], root = 1;
    for (let step = 0; step < CORRECTION; step += 1) {
        divisor = divisor.map((it, at) => times(it, root) ^ (divisor[at + 1] ?? 0));
        root = times(root, 2);
    }
    return data.reduce((rest, it) => {
        const factor = it ^ rest[0];
        return [...rest.slice(1), 0].map((one, at) => one ^ times(divisor[at], factor));
    }, Array(CORRECTION).fill(0));
}

/** The key with its head and its end, and the correction behind it.
 * @param {string} key
 */
function wordsOf(key) {
    const whole =
        [...key].reduce(
            (all, sign) => (all << 8n) | BigInt(sign.charCodeAt(0)),
            (BYTE_MODE << 8n) | BigInt(LENGTH)
        ) <<
        4n;
    const data = Array.from({ length: DATA }, (_, at) =>
        Number((whole >> BigInt(8 * (DATA - 1 - at))) & 255n)
    );
    return [...data, ...correctionOf(data)];
}

/** The dark and light squares that are the same for every key, by row; null is left for the key. */
function frame() {
    const squares = Array.from({ length: SIZE }, () => /** @type {(boolean | null)[]} */ (Array(
        SIZE
    ).fill(null)));
    const ring = (
        /** @type {number} */ x,
        /** @type {number} */ y,
        /** @type {number} */ reach,
        /** @type {number[]} */ light
    ) => {
        for (let down = -reach; down <= reach; down += 1)
            for (let right = -reach; right <= reach; right += 1) {
                if (squares[y + down]?.[x + right] !== undefined)
                    squares[y + down][x + right] = !light.includes(
                        Math.max(Math.abs(down), Math.abs(right))
                    );
            }
    };
    for (let at = 0; at < SIZE; at += 1) squares[TIMED][at] = squares[at][TIMED] = at % 2 === 0;
    for (const [x, y] of [[3, 3], [SIZE - 4, 3], [3, SIZE - 4]]) ring(x, y, 4, [2, 4]);
    ring(ALIGNED, ALIGNED, 2, [1]);
    for (let bit = 0; bit < 15; bit += 1) {
        const dark = ((FORMAT >> bit) & 1) === 1, past = bit >= TIMED ? 1 : 0;
        squares[bit < 8 ? bit + past : SIZE - 15 + bit][8] = dark;
        squares[8][bit < 8 ? SIZE - 1 - bit : bit === 8 ? FINDER : 14 - bit] = dark;
    }
    squares[SIZE - 8][8] = true;
    return squares;
}

/** Which squares are dark, by row.
 * @param {string} key
 */
function squaresOf(key) {
    const squares = frame(),
        bits = wordsOf(key).map((it) => it.toString(2).padStart(8, "0")).join("");
    let next = 0;
    for (let right = SIZE - 1; right > 0; right -= right === TIMED + 2 ? 3 : 2)
        for (let step = 0; step < SIZE; step += 1)
            for (const x of [right, right - 1]) {
                const y = ((right + 1) & 2) === 0 ? SIZE - 1 - step : step;
                if (squares[y][x] !== null) continue;
                squares[y][x] = (bits[next] === "1") !== ((x + y) % 2 === 0);
                next += 1;
            }
    return squares;
}

/** The picture of a key, with this name.
 * @param {string} key @param {string} name
 */
export function squareOf(key, name) {
    const whole = SIZE + 2 * QUIET;
    const dark = squaresOf(key).flatMap((row, y) =>
        row.map((is, x) => (is ? `M${x + QUIET} ${y + QUIET}h1v1h-1z` : ""))
    );
    return part(
        "svg",
        {
            class: "square",
            viewBox: `0 0 ${whole} ${whole}`,
            role: "img",
            "aria-label": name,
            "shape-rendering": "crispEdges"
        },
        part("path", { class: "light", d: `M0 0h${whole}v${whole}h-${whole}z` }),
        part("path", { class: "dark", d: dark.join("") })
    );
}
