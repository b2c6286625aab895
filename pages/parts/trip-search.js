// The search over the trips of a day: a name, a number, a telephone, a van, a trip, a place. Each
// word that is typed has to be there.

/** Texts without accents and capitals, each once; a telephone's digits stand there as they are
 * dialed too.
 * @param {(string | number | undefined | null)[]} texts @param {(text: string) => string} fold
 */
export function searchText(texts, fold) {
    const words = texts.filter((it) => it !== undefined && it !== null && it !== "").map(String);
    return fold(
        [
            ...words,
            ...words.filter((it) => /^[+(\d][\d ().-]{5,}$/.test(it)).map((it) =>
                it.replace(/\D/g, "")
            )
        ].join(" \u0001 ")
    );
}

/** Whether each word of what was typed is in a text. A word of digits alone begins a number: 104 is
 * no part of 1104.
 * @param {string} text as searchText makes it @param {string} typed folded
 */
export const fits = (text, typed) =>
    typed
        .split(/\s+/)
        .filter(Boolean)
        .every((word) => (
            /^\d+$/.test(word) && word.length < 7
                ? new RegExp(`(?<!\\d)${word}`).test(text)
                : text.includes(word.replace(/[()]/g, ""))
        ));

/** The trips of a van first whose name begins with all that was typed: "van 2" is in the name of
 * the van, and also in trips of other vans for rider 201.
 * @template Found
 * @param {Found[]} found in their order
 * @param {string} typed folded
 * @param {(found: Found) => string} vanOf the van's name, folded
 */
export const vanFirst = (found, typed, vanOf) => [
    ...found.filter((it) => vanOf(it).startsWith(typed)),
    ...found.filter((it) => !vanOf(it).startsWith(typed))
];
