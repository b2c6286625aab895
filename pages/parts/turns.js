// One after another: what begins while something else is under way waits for its turn. Nothing is
// dropped, and what fails holds up nothing.

/** Takes acts and does each once the acts before it have ended; gives what the act gives. */
export function makeTurns() {
    /** @type {Promise<unknown>} */
    let last = Promise.resolve();

    /** @template Made @param {() => Promise<Made> | Made} act @returns {Promise<Made>} */
    return (act) => {
        const mine = last.then(act);
        last = mine.then(() => {}, () => {});
        return mine;
    };
}
