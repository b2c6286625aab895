// Which rows of a list stand on which page of paper. It is decided here and not by the browser, so
// that each list has pages of its own numbers.

/** The rows of each page as the first one and the one after the last: as many as there is room for,
 * and one at least. A list without rows has one page.
 * @param {number[]} heights of the rows, one after another
 * @param {number} first the room on the first page
 * @param {number} other the room on each other page
 * @returns {[number, number][]}
 */
export function pagesOf(heights, first, other) {
    /** @type {[number, number][]} */
    const pages = [];
    let from = 0, left = first;
    heights.forEach((height, at) => {
        if (height > left && at > from) {
            pages.push([from, at]);
            from = at;
            left = other;
        }
        left -= height;
    });
    return [...pages, [from, heights.length]];
}
