// What is known of one read, and how old it is. Nothing here knows of a page or of the desk.

/** Milliseconds after which what is shown says as of when it is, after which it is read again, and
 * after which it is where the last read was not answered.
 */
export const OLD = 60_000, RENEWED = 30_000, RETRIED = 10_000;

/** @typedef {{ at: number, day: string, minute: number }} Moment at is milliseconds of the server's
 * clock, day and minute what the agency's clocks showed
 */
/** @typedef {{ denied?: string, silent?: string, value?: any, status?: number }} Told a reply, or
 * {silent} where none came
 */
/** @typedef {{ reply: Told | null, moment: Moment | null, order: number, failed: boolean }} Kept
 * the last reply, when it came, the place of its request among all, and whether a later request was
 * not answered
 */
/** @typedef {{ order: number, told: Told, moment: Moment }} Heard told is a reply of the desk, or
 * {silent} where none came
 */

/** @type {Kept} */
export const NOTHING = { reply: null, moment: null, order: 0, failed: false };

/** What is kept once a request has come to its end. A reply never replaces that of a later request,
 * a silence replaces nothing, and who left the screen was told nothing.
 * @param {Kept} kept @param {Heard} heard @returns {Kept}
 */
export function afterHearing(kept, { order, told, moment }) {
    if (order <= kept.order || told?.denied === "left") return kept;
    return told?.silent ? { ...kept, failed: true } : { reply: told, moment, order, failed: false };
}

/** Whether what is kept has to say as of when it is.
 * @param {Kept} kept @param {number} now
 */
export const isOld = ({ moment }, now) => moment !== null && now - moment.at >= OLD;

/** Whether it is time to read again: begun is when the last request was sent. A clock that was set
 * back makes it time, but not for what is read by a person's wish alone.
 * @param {number | null} begun @param {number} now @param {number} [period]
 */
export const isDue = (begun, now, period = RENEWED) =>
    begun === null || now - begun >= period || (now < begun && Number.isFinite(period));

/** Milliseconds after which a read is due again. One that was not answered is tried sooner, but not
 * where it is read by a person's wish alone.
 * @param {boolean} failed whether the last request was not answered @param {number} period
 */
export const dueAfter = (failed, period) =>
    failed && Number.isFinite(period) ? Math.min(RETRIED, period) : period;
