// Times of which the half of the day is open: which readings are possible together.

/** All ways to read the times of which the half of the day is open: those that are possible, and
 * where none is, all.
 * @param {{ name: string, halves: number[] }[]} open
 * @param {Record<string, unknown>} sure
 * @param {(values: Record<string, unknown>) => unknown} check
 * @returns {Record<string, unknown>[]}
 */
export function waysOf(open, sure, check) {
    const all = open.reduce(
        (ways, { name, halves }) =>
            ways.flatMap((way) => halves.map((half) => ({ ...way, [name]: half }))),
        [sure]
    );
    const possible = all.filter((way) => !check(way));
    return possible.length ? possible : all;
}
