// What is worked out of texts that rarely change is kept until one of them does.

/** Makes something anew only where one of what it is made of is another one.
 * @template {unknown[]} From @template Made
 * @param {(...from: From) => Made} make @returns {(...from: From) => Made}
 */
export function madeOnce(make) {
    /** @type {{ from: From, made: Made } | null} */
    let last = null;
    return (...from) => {
        if (
            !last ||
            last.from.length !== from.length ||
            last.from.some((it, at) => it !== from[at])
        )
            last = { from, made: make(...from) };
        return last.made;
    };
}
