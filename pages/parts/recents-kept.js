// What the clerk's rail shows: recent callers are kept in this window until somebody signs out,
// call-backs in this browser's database, each for the key that put it there.

import { serverNow } from "./clock.js";
import { storeOf } from "./database.js";
import * as desk from "./desk.js";
import { keepText, keptText } from "./kept.js";
import { whenSignedOut } from "./leaving.js";
import { CALL_BACK_KEPT, callBacksIn, recentsIn, withCaller, withDeed } from "./recents.js";

/** @typedef {import("./recents.js").Recent} Recent */
/** @typedef {import("./recents.js").CallBack} CallBack */

const RECENT = "desk.recent",
    LONGEST_WHY = 60;
const store = storeOf("desk-call-backs", "calls", { keyPath: "id" });
/** Who draws the lists.
 * @type {Set<() => void>}
 */
const readers = new Set();
/** @type {CallBack[]} */
let calls = [];
/** Whose call-backs were read. */
let readFor = "";

const tell = () => readers.forEach((act) => act());

/** @returns {Recent[]} */
export function recents() {
    try {
        return recentsIn(JSON.parse(keptText("session", RECENT) ?? "[]"));
    } catch {
        return [];
    }
}

/** @param {Recent[]} list */
function keep(list) {
    keepText("session", RECENT, JSON.stringify(list));
    tell();
}

/** @param {number} rider */
export const called = (rider) => keep(withCaller(recents(), rider, serverNow()));

/** @param {number} rider
 * @param {"booked" | "changed" | "canceled" | "denied"} did
 * @param {number} [count]
 */
export const didFor = (rider, did, count = 1) => keep(withDeed(recents(), rider, did, count));

export const callBacks = () => calls;

const idOf = (/** @type {number} */ rider) => `${desk.digest()} ${rider}`;

/** Reads the call-backs of who is signed in; what is too old is dropped. A browser without a
 * database has them as long as the page lives.
 */
async function readCallBacks() {
    const whose = desk.digest() ?? "";
    if (!whose || readFor === whose) return;
    readFor = whose;
    try {
        /** @type {(import("./recents.js").CallBack & { id: string })[]} */
        const all = await store("readonly", (it) => it.getAll());
        if (readFor !== whose) return;
        calls = callBacksIn(
            all.filter(({ id }) => String(id).startsWith(`${whose} `)),
            serverNow()
        );
        tell();
        const old = all.filter(({ at }) => !(serverNow() - at < CALL_BACK_KEPT));
        for (const { id } of old) await store("readwrite", (it) => it.delete(id));
    } catch {
        // (without a database the list lives as long as the page)
    }
}

/** What is drawn is told at once, and then kept where there is a database.
 * @param {() => Promise<unknown>} act
 */
async function changed(act) {
    tell();
    await act().catch(() => {});
}

/** @param {number} rider @param {string} why */
export function addCallBack(rider, why) {
    const it = { rider, at: serverNow(), why: why.trim().slice(0, LONGEST_WHY) };
    calls = callBacksIn([...calls.filter((one) => one.rider !== rider), it], serverNow());
    return changed(() => store("readwrite", (all) => all.put({ id: idOf(rider), ...it })));
}

/** @param {number} rider */
export function dropCallBack(rider) {
    calls = calls.filter((it) => it.rider !== rider);
    return changed(() => store("readwrite", (all) => all.delete(idOf(rider))));
}

/** Draws again at each change, as long as a place is on the page.
 * @param {HTMLElement} place @param {() => void} act
 */
export function watchRecents(place, act) {
    let shown = false;
    const redraw = () => {
        shown ||= place.isConnected;
        if (shown && !place.isConnected) readers.delete(redraw);
        else act();
    };
    readers.add(redraw);
    readCallBacks();
}

// (the list of who signs in next is read anew)
whenSignedOut(() => {
    calls = [];
    readFor = "";
});
