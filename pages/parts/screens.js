// The screens: which file draws each, with which words and styles. A module gives its parts by a
// function of the screen's name. (Each is imported by its whole name, so that what packs the pages
// finds it.)

/** @typedef {{ id: string, load: () => Promise<any>, words: string[], styles: string[] }} Screen */

/** @type {Screen[]} */
export const SCREENS = [
    {
        id: "rider",
        load: () => import("../screens/rider.js"),
        words: ["booking", "trips", "sent", "rider", "cases", "map"],
        styles: ["phone", "segments", "rider", "booking", "cases", "map"]
    },
    {
        id: "clerk",
        load: () => import("../screens/clerk.js"),
        words: ["booking", "trips", "sent", "clerk", "cases", "map"],
        styles: ["office", "segments", "booking", "cases", "map"]
    },
    {
        id: "examiner",
        load: () => import("../screens/decisions.js"),
        words: ["cases"],
        styles: ["office", "segments", "cases"]
    },
    {
        id: "officer",
        load: () => import("../screens/decisions.js"),
        words: ["cases", "record"],
        styles: ["office", "segments", "cases"]
    },
    {
        id: "dispatcher",
        load: () => import("../screens/dispatcher.js"),
        words: ["booking", "trips", "sent", "clerk", "cases", "dispatcher", "map"],
        styles: ["office", "segments", "booking", "dispatcher", "map"]
    },
    {
        id: "driver",
        load: () => import("../screens/driver.js"),
        words: ["driver"],
        styles: ["phone", "driver"]
    },
    {
        id: "admin",
        load: () => import("../screens/admin.js"),
        words: ["admin", "map", "record"],
        styles: ["office", "admin", "map"]
    },
];

/** Those whose key the site gives everything of the agency's files. */
export const STAFF = ["clerk", "examiner", "officer", "dispatcher"];

/** All styles in the order in which they stand on the page, whatever came first: each screen names
 * its own in this order.
 */
const STYLES = [
    "office", "phone", "segments", "rider", "booking", "cases", "dispatcher", "driver", "admin",
    "map"
];

/** Before which of the styles on the page another one goes, or null where it is the last.
 * @param {string} name @param {string[]} there @returns {string | null}
 */
export const styleAfter = (name, there) =>
    STYLES.slice(STYLES.indexOf(name) + 1).find((it) => there.includes(it)) ?? null;

/** @param {string} id */
export const screenOf = (id) => SCREENS.find((screen) => screen.id === id) ?? null;

/** @typedef {{ day: boolean | null, standing: boolean | null, trips: boolean | null }} Rights
 * whether a key may read a day, any rider's standing and any rider's trips; null where nobody
 * answered
 */

/** The screens whose key has these rights.
 * @param {Rights} rights @returns {string[]}
 */
function screensWith({ day, standing, trips }) {
    if ([day, standing, trips].includes(null)) return SCREENS.map(({ id }) => id);
    if (day) return ["dispatcher"];
    if (standing) return trips ? ["clerk"] : ["examiner", "officer"];
    return ["rider", "driver", "admin"];
}

/** The screen that a key opens where nobody chose one: the one that stands first if it can be its
 * own, or the only one that can. Null where somebody has to choose.
 * @param {string} first @param {Rights} rights @returns {string | null}
 */
export function screenOfKey(first, rights) {
    const those = screensWith(rights);
    return those.includes(first) ? first : those.length === 1 ? those[0] : null;
}
