// Files of the pages that come late. A slow machine is waited for without a limit. A file that did
// not come is asked for again by itself: a browser may give up what it loads while its machine's
// network changes, as a phone's does between two lines, and the next try has a whole line.

import { styleAfter } from "./screens.js";

const PAUSES = [200, 1_000, 2_000, 4_000];

/** @param {number} milliseconds */
const pause = (milliseconds) =>
    new Promise((go) => {
        setTimeout(go, milliseconds);
    });

/** What load() gives. It is tried again after each of the pauses, and fails as its last try does.
 * @template Made
 * @param {() => Promise<Made>} load
 * @param {number[]} [pauses]
 * @returns {Promise<Made>}
 */
export async function patiently(load, pauses = PAUSES) {
    for (const milliseconds of pauses) {
        try {
            return await load();
        } catch {
            await pause(milliseconds);
        }
    }
    return load();
}

/** A style of the pages, once it is there. One that is being loaded is waited for, and one that did
 * not come leaves the page, so that it can be asked for again.
 * @param {HTMLLinkElement} link @returns {Promise<void>}
 */
export const styleOf = (link) =>
    new Promise((go, fail) => {
        if (link.sheet) go();
        link.addEventListener("load", () => go());
        link.addEventListener("error", () => {
            link.remove();
            fail(new Error(link.href));
        });
    });

/** The styles of the shown screen; null before one is shown.
 * @type {string[] | null}
 */
let acting = null;

const links = () => /** @type {HTMLLinkElement[]} */ ([
    ...document.querySelectorAll('link[rel="stylesheet"][href^="css/"]')
]);
/** @param {HTMLLinkElement} link */
const nameOf = (link) => (link.getAttribute("href") ?? "").slice("css/".length, -".css".length);

/** @param {HTMLLinkElement} link */
function actOrNot(link) {
    if (link.sheet && acting) link.sheet.disabled = !acting.includes(nameOf(link));
}

/** The link of a style, which is put on the page where it is not there.
 * @param {string} name
 */
export function linkStyle(name) {
    const all = links(),
        there = all.find((it) => nameOf(it) === name),
        after = styleAfter(name, all.map(nameOf));
    if (there) return there;
    const link = document.createElement("link");
    link.rel = "stylesheet";
    link.href = `css/${name}.css`;
    link.addEventListener("load", () => actOrNot(link));
    document.head.insertBefore(link, all.find((it) => nameOf(it) === after) ?? null);
    return link;
}

/** Lets these styles act and no other: those of a screen that was left wait.
 * @param {string[]} names
 */
export function actStyles(names) {
    acting = names;
    links().forEach(actOrNot);
}
