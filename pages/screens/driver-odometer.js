// What a driver writes down of the van as it leaves its depot and as it comes back: which entries
// hold, and what is wrong with one. Nothing here reads the page.

/** @typedef {"pull_out" | "pull_in"} Pull */
/** @typedef {{ minute: number, odometer: number, first_pickup?: number, last_drop?: number }}
 * Reading minutes are from the day's midnight
 */
/** @typedef {{ time: string, odometer: string, first: string, last: string }} Written the form's
 * texts
 */

const HOUR = 60,
    DAY = 1440,
    MOST = 9_999_999,
    MOST_MILES = 1_000;
/** On a day that is over, a time before this hour is one after midnight. */
const NIGHT = 4;

/** The entries that hold: the last pull-out, and the last pull-in since.
 * @param {{ tap: { what: string, reading?: Reading } }[]} log */
export function pullsOf(log) {
    /** @type {{ out: Reading | null, in: Reading | null }} */
    const found = { out: null, in: null };
    for (const { tap } of log) {
        if (tap.what === "pull_out") Object.assign(found, { out: tap.reading ?? null, in: null });
        if (tap.what === "pull_in") found.in = tap.reading ?? null;
    }
    return found;
}

/** Miles as they were typed: commas and blanks are left out; null where it is no number of miles.
 * @param {string} text */
export function milesIn(text) {
    const digits = text.replace(/[\s,]/g, "");
    return /^[0-9]{1,7}$/.test(digits) && Number(digits) <= MOST ? Number(digits) : null;
}

/** The minute of a time as a field gives it, from the midnight of the day that is shown.
 * @param {string} time @param {boolean} isOver */
export function minuteOf(time, isOver) {
    const found = /^([01]\d|2[0-3]):([0-5]\d)/.exec(time);
    if (!found) return null;
    return Number(found[1]) * HOUR +
        Number(found[2]) +
        (isOver && Number(found[1]) < NIGHT ? DAY : 0);
}

/** The names of the form's fields that are wrong, each with why: `number`, `time`, `before` (less
 * than at pull-out) or `far`.
 * @param {Reading | null} out
 * @param {{ odometer: number, minute: number }} it
 * @param {(number | null | undefined)[]} between
 * @returns {[keyof Written, string] | null} */
function faultAfter(out, it, [first, last]) {
    const low = out?.odometer ?? 0;
    if (out && it.odometer < low) return ["odometer", "before"];
    if (out && it.odometer - low > MOST_MILES) return ["odometer", "far"];
    if (out && it.minute < out.minute) return ["time", "early"];
    if (typeof first === "number" && (first < low || first > it.odometer))
        return ["first", "between"];
    if (typeof last === "number" && (last < (first ?? low) || last > it.odometer))
        return ["last", "between"];
    return null;
}

/** What the form says, or the field that is wrong and why.
 * @param {Pull} pull @param {Written} written @param {Reading | null} out @param {boolean} isOver
 * @returns {{ reading: Reading } | { fault: [keyof Written, string] }} */
export function readingOf(pull, written, out, isOver) {
    const odometer = milesIn(written.odometer), minute = minuteOf(written.time, isOver);
    if (minute === null) return { fault: ["time", "time"] };
    if (odometer === null) return { fault: ["odometer", "number"] };
    if (pull === "pull_out") return { reading: { minute, odometer } };
    const [first, last] = [written.first, written.last].map((it) => (
        it.trim() ? milesIn(it) : undefined
    ));
    if (first === null) return { fault: ["first", "number"] };
    if (last === null) return { fault: ["last", "number"] };
    const fault = faultAfter(out, { odometer, minute }, [first, last]);
    if (fault) return { fault };
    return {
        reading: {
            minute,
            odometer,
            ...(first === undefined ? {} : { first_pickup: first }),
            ...(last === undefined ? {} : { last_drop: last })
        }
    };
}
