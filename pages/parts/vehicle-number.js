// Which vehicle is meant by what was typed: its number, its name, or both. Where a number is one
// vehicle's and stands in another one's name, neither is taken.

/** @typedef {{ id: number, name: string }} Named name is folded, as the typed text is */

/** Those that fit, the number itself first.
 * @param {string} typed @param {Named[]} named @returns {Named[]}
 */
export function vehiclesFor(typed, named) {
    const words = typed.split(/\s+/).filter(Boolean);
    return named.filter(({ id, name }) => words.every((word) => `${name} (${id})`.includes(word))
    ).sort(
        (a, b) => Number(String(b.id) === typed) - Number(String(a.id) === typed) || a.id - b.id
    );
}

/** The words of a name.
 * @param {string} name
 */
const wordsOf = (name) => name.split(/[^\p{L}\p{N}]+/u).filter(Boolean);

/** The one that is meant, or null. A number that no vehicle has by its name is a number.
 * @param {string} typed @param {Named[]} named @param {number} highest @returns {number | null}
 */
export function vehicleMeant(typed, named, highest) {
    const exact = named.filter(({ id, name }) => typed === `${name} (${id})` || typed === name);
    if (exact.length === 1) return exact[0].id;
    if (/^\d{1,10}$/.test(typed)) {
        const number = Number(typed),
            other = named.filter(({ id, name }) => id !== number && wordsOf(name).includes(typed)),
            own = named.some(({ id }) => id === number);
        if (!other.length) return number >= 1 && number <= highest ? number : null;
        return own || other.length > 1 ? null : other[0].id;
    }
    const found = typed ? vehiclesFor(typed, named) : [];
    return found.length === 1 ? found[0].id : null;
}
