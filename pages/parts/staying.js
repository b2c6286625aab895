// Who stays signed in on a phone of their own: what a window of that browser may show, once another
// one of its windows has somebody else stay, or nobody any more. Nothing here knows of a page or of
// the browser's stores.

/** @typedef {{ key: string, rider: number }} Stay whom the browser keeps signed in */
/** @typedef {{ key: string | null, stayed: boolean, ended: boolean }} Held what a window keeps,
 * also over a reload: its key, whether it has shown a rider who stays, and whether that came to an
 * end in another window
 */

/** The number of the rider who stays signed in with the key of a window, or null.
 * @param {string | null} key @param {Stay | null} stay
 */
export const stayingAs = (key, stay) => (stay !== null && stay.key === key ? stay.rider : null);

/** Whether the rider of a window stays no longer: signed out in another window, or somebody else
 * stays now.
 * @param {Held} held @param {Stay | null} stay
 */
export const hasEnded = ({ key, stayed }, stay) =>
    stayed && key !== null && stayingAs(key, stay) === null;

/** What a window begins with, as where it is loaded again: the key that it had, or else that of the
 * rider who stays. A window whose rider was signed out meanwhile, by another window, shows nobody
 * until somebody says so.
 * @param {Held} held @param {Stay | null} stay @returns {Held}
 */
export function beginningWith(held, stay) {
    const ended = held.ended || hasEnded(held, stay),
        key = ended ? null : held.key ?? stay?.key ?? null;
    return { key, stayed: !ended && stayingAs(key, stay) !== null, ended };
}

/** The rider with whom a window goes on: the one who was named to the person, and nobody who has
 * come in that one's place.
 * @param {number} named @param {Stay | null} stay
 */
export const goingOn = (named, stay) => (stay !== null && stay.rider === named ? stay : null);

/** Whether a rider may stay whose key was looked at meanwhile: not where another window has
 * somebody else stay since, or has signed out.
 * @param {Stay | null} before @param {Stay | null} now
 */
export const isUnchanged = (before, now) =>
    before?.key === now?.key && before?.rider === now?.rider;
