// Which screens were visited in this browser: their names, with blanks between. Nothing here knows
// of a page.

/** Whether a screen is visited for the first time, and what is kept from then on.
 * @param {string | null} kept @param {string} screen
 */
export function visitedWith(kept, screen) {
    const known = (kept ?? "").split(" ").filter(Boolean), isNew = !known.includes(screen);
    return { isNew, text: (isNew ? [...known, screen] : known).join(" ") };
}
