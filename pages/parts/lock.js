// How long a phone without a line goes on showing names: so many minutes since the desk last
// answered. A clock that was set back gains nothing: the latest moment that this phone has seen
// stays, and so does the time for which its page ran.

const MINUTE = 60_000;
/** Minutes by which the phone's clock may go back, as a phone corrects itself. */
const CORRECTED = 5;

/** @typedef {{ at: number, seen: number, ran: number }} Heard at: the phone's clock when the desk
 * last answered; seen: the latest moment that it has shown since; ran: for how long its page ran
 * since; all in milliseconds
 */

/** The desk has answered.
 * @param {number} now the phone's clock @returns {Heard} */
export const heardNow = (now) => ({ at: now, seen: now, ran: 0 });

/** Time passes without an answer.
 * @param {Heard} heard
 * @param {number} now the phone's clock
 * @param {number} ran milliseconds since this was called last, by a clock that nobody sets
 * @returns {Heard} */
export const later = ({ at, seen, ran: before }, now, ran) => ({
    at,
    seen: Math.max(seen, now),
    ran: before + Math.max(0, ran)
});

/** Whether the phone's clock was set back by more than a correction, so that it locks at once.
 * @param {Heard} heard @param {number} now the phone's clock */
export const isSetBack = ({ seen }, now) => now < seen - CORRECTED * MINUTE;

/** Milliseconds until the phone locks; 0: it is locked.
 * @param {Heard} heard
 * @param {number} now the phone's clock
 * @param {number} minutes the agency's
 */
export function leftUntilLock(heard, now, minutes) {
    const { at, seen, ran } = heard;
    if (isSetBack(heard, now)) return 0;
    return Math.max(0, minutes * MINUTE - Math.max(seen - at, now - at, ran));
}
