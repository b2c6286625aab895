// What the browser's two stores keep, under names: no other file touches them. A browser may refuse
// its stores, or have no room. Then what would be kept lives as long as its page, nothing fails,
// and who asked for it is told.

/** @typedef {"local" | "session"} Store local outlives the window, session does not */

const PROBE = "desk.probe";

/** What no store took.
 * @type {Record<Store, Map<string, string>>}
 */
const here = { local: new Map(), session: new Map() };
/** @type {Set<() => void>} */
const acts = new Set();

/** The browser's own store. It throws where the browser refuses it.
 * @param {Store} store @returns {Storage}
 */
const own = (store) => (store === "local" ? localStorage : sessionStorage);

/** Whether the store did it.
 * @param {() => void} act
 */
function done(act) {
    try {
        act();
        return true;
    } catch {
        return false;
    }
}

/** Whether it is in the store now; else it lives as long as the page.
 * @param {Store} store @param {string} name @param {string} text
 */
export function keepText(store, name, text) {
    const isStored = done(() => own(store).setItem(name, text));
    if (isStored) here[store].delete(name);
    else {
        here[store].set(name, text);
        acts.forEach((act) => act());
    }
    return isStored;
}

/** @param {Store} store @param {string} name @returns {string | null} */
export function keptText(store, name) {
    try {
        return here[store].get(name) ?? own(store).getItem(name);
    } catch {
        return null;
    }
}

/** @param {Store} store @param {string} name */
export function dropText(store, name) {
    here[store].delete(name);
    done(() => own(store).removeItem(name));
}

/** An object that is kept; an empty one where there is none, or something else is kept under its
 * name.
 * @param {string} name @param {Store} [store] @returns {Record<string, any>}
 */
export function keptObject(name, store = "local") {
    try {
        const it = JSON.parse(keptText(store, name) ?? "{}");
        return typeof it === "object" && it !== null && !Array.isArray(it) ? it : {};
    } catch {
        return {};
    }
}

/** Whether it is in the store now.
 * @param {string} name
 * @param {Record<string, unknown> | null} value null drops it
 * @param {Store} [store]
 */
export function keepObject(name, value, store = "local") {
    if (value !== null) return keepText(store, name, JSON.stringify(value));
    dropText(store, name);
    return true;
}

/** The names of all that is kept.
 * @param {Store} store @returns {string[]}
 */
export function namesKept(store) {
    /** @type {string[]} */
    let names = [];
    done(() => {
        names = Object.keys(own(store));
    });
    return [...new Set([...here[store].keys(), ...names])];
}

/** Drops what is kept under each name of which isOver says so.
 * @param {Store} store @param {(name: string) => boolean} isOver
 */
export const dropNames = (store, isOver) =>
    namesKept(store).filter(isOver).forEach((name) => dropText(store, name));

/** Calls act where the browser refuses a store now, and whenever one does not take something.
 * @param {() => void} act
 */
export function whenNotKept(act) {
    acts.add(act);
    const takes = (/** @type {Store} */ store) =>
        done(() => {
            own(store).setItem(PROBE, "");
            own(store).removeItem(PROBE);
        });
    if (!takes("local") || !takes("session")) act();
}
