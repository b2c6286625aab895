// What is forgotten where somebody signs out. A module that keeps something of who is signed in
// says so when it is loaded: then it is forgotten without a line too.

/** @typedef {{ byHand: boolean }} How byHand: the person signed out, and not the clock */

/** @type {Set<(how: How) => void>} */
const acts = new Set();

/** Does something at each sign-out.
 * @param {(how: How) => void} act
 */
export const whenSignedOut = (act) => acts.add(act);

/** @param {How} how */
export const forgetAll = (how) => acts.forEach((act) => act(how));
