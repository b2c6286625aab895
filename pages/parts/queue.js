// What a phone was told: a log in the browser's own database, which outlives the page and the tab.
// An entry may have a write, which goes to the desk in its order and is done once, and a tally,
// which goes to the site's log. Beside the log are copies of what was last read.
// Each record is bound to the digest of the key that was signed in: nobody else is shown it, and
// with no other key is it sent.

import { asked } from "./ask.js";
import { serverNow } from "./clock.js";
import { databaseOf } from "./database.js";
import * as desk from "./desk.js";
import { countPath } from "./tally.js";
import { t, useWords } from "./words.js";

/**
 * @typedef {{ path: string, fields: Record<string, unknown>, number: number, tries: number }} Write
 * number is 0 until it first goes out and fixed from then on; tries counts how often it may have
 * reached the desk
 * @typedef {"kept" | "waiting" | "done" | "denied"} State kept: it has no write
 * @typedef {object} Entry
 * @property {number} order where it is in the log
 * @property {string} digest
 * @property {string} sheet what it belongs to, as "1 2025-03-11"
 * @property {any} tap what was tapped, as the screen writes it
 * @property {State} state
 * @property {Write | null} write
 * @property {string | null} denied the name of the desk's denial
 * @property {string[] | string | null} tally the paths of what the site's log is yet to be told (an
 * earlier version kept one)
 * @property {string[]} [told] the paths of what the site's log was told, or is being told
 * @property {number} [held] milliseconds from the tap on for which the write stays here, so that it
 * can be undone
 * @property {number} since the moment of the tap, in milliseconds of the server's clock
 * @typedef {Omit<Entry, "order">} Fresh
 */

const NAME = "desk",
    ENTRIES = "entries",
    COPIES = "copies",
    CHANNEL = "desk.queue";
const PAUSES = [1000, 2000, 4000, 8000, 15_000], HIGHEST_STEP = 2 ** 30;
/** A tally waits so long, so that a tap that is taken back is not counted. */
const HELD = 60_000;
/** What is held is looked at again so often. */
const LOOKED = 5_000;
/** Days after which what waits for nothing is dropped. */
const KEPT = 3 * 86_400_000;

// The database.

const within = databaseOf(NAME, (database) => {
    database.createObjectStore(ENTRIES, { keyPath: "order", autoIncrement: true }).createIndex(
        "digest",
        "digest"
    );
    database.createObjectStore(COPIES, { keyPath: ["digest", "name"] });
});

/** Changes one entry where it still is; null drops it.
 * @param {number} order @param {(entry: Entry) => Entry | null} act */
const changed = (order, act) =>
    within(ENTRIES, "readwrite", (store) => {
        const request = store.get(order);
        request.onsuccess = () => {
            const next = request.result && act(request.result);
            if (next) store.put(next);
            else if (request.result) store.delete(order);
        };
    });

// The log.

/** @type {Set<() => void>} */
const listeners = new Set();
const others = typeof BroadcastChannel === "function" ? new BroadcastChannel(CHANNEL) : null;
if (others) others.onmessage = () => listeners.forEach((act) => act());

function tell() {
    listeners.forEach((act) => act());
    others?.postMessage("changed");
}

/** Calls act whenever the log has changed, in this window or another.
 * @param {() => void} act */
export function onChange(act) {
    listeners.add(act);
    return () => listeners.delete(act);
}

/** The log of whoever is signed in, in its order.
 * @returns {Promise<Entry[]>} */
export async function entries() {
    const digest = desk.digest();
    return digest
        ? within(ENTRIES, "readonly", (store) => store.index("digest").getAll(digest))
        : [];
}

/** Keeps an entry, and sends what it has to send; fails where this phone has no room for it.
 * @param {Omit<Fresh, "digest" | "denied" | "since">} entry */
export async function keep(entry) {
    const digest = desk.digest();
    if (!digest) throw new Error("nobody is signed in");
    await within(ENTRIES, "readwrite", (store) =>
        store.add({ ...entry, digest, denied: null, since: serverNow() })
    );
    tell();
    sendAll();
}

/** Drops an entry that is still held here; whether it is gone.
 * @param {number} order */
async function unheld(order) {
    let gone = false;
    await changed(order, (entry) => ((gone = heldFor(entry) > 0) ? null : entry));
    return gone;
}

/** Puts something else in the place of an entry that has nothing to send to the desk: it waits for
 * no turn. Whether it was there.
 * @param {number} order
 * @param {(entry: Entry) => Entry | null} instead
 */
async function unkept(order, instead) {
    let gone = false;
    await changed(order, (entry) => {
        gone = entry.state === "kept" && !entry.write;
        return gone ? instead(entry) : entry;
    });
    return gone;
}

/** Drops an entry, unless it is being sent at this moment; whether it is gone.
 * @param {number} order
 * @param {(entry: Entry) => Entry | null} [instead] what stays in its place
 * @returns {Promise<boolean>}
 */
export async function takeBack(order, instead = () => null) {
    const gone =
        await unheld(order) ||
        await unkept(order, instead) ||
        await desk.inTurn(
            async (has) => {
                let left = false;
                if (has)
                    await changed(order, (entry) =>
                        (left = entry.state !== "kept" && entry.state !== "waiting")
                            ? entry
                            : instead(entry)
                    );
                return has && !left;
            },
            { only: true }
        );
    tell();
    return gone;
}

/** Drops what the desk denied, once it was read.
 * @param {number} order */
export async function putAside(order) {
    await changed(order, (entry) => ({ ...entry, tap: { ...entry.tap, seen: true } }));
    tell();
}

// Sending. One window at a time has the turn, and what it sends is read from the database then: no
// number is used for two writes.

/** Numbers and ends that the disk had no room for, while this page lives.
 * @type {Map<number, { write?: Write, state?: State, denied?: string | null }>} */
const unwritten = new Map();

/** @type {{ denied?: string, digest: string | null } | null} */
let stopped = null;

/** Why nothing is sent any more: the key that is signed in with was taken away. */
export const whyStopped = () => (stopped && stopped.digest === desk.digest() ? stopped : null);

/** @param {Entry} entry
 * @param {{ write?: Write, state?: State, denied?: string | null }} patch
 * @returns {Promise<Entry>}
 */
async function marked(entry, patch) {
    try {
        await changed(entry.order, (now) => ({ ...now, ...patch }));
        unwritten.delete(entry.order);
    } catch {
        unwritten.set(entry.order, { ...unwritten.get(entry.order), ...patch });
    }
    return { ...entry, ...patch };
}

/** Milliseconds for which an entry is still held here. (The clock of the window in which it was
 * tapped may be ahead of this one's: what is not to be held goes out in its order all the same.)
 * @param {Entry} entry */
export const heldFor = ({ state, held = 0, since }) => (
    state === "waiting" && held ? Math.max(0, since + held - serverNow()) : 0
);

/** What waits, as far as this page knows.
 * @returns {Promise<(Entry & { write: Write })[]>} */
async function allWaiting() {
    const all = (await entries()).map((entry) => ({ ...entry, ...unwritten.get(entry.order) }));
    return /** @type {(Entry & { write: Write })[]} */ (all.filter(
        ({ state, write }) => state === "waiting" && write
    ));
}

/** What waits first and is not held. */
const firstWaiting = async () => (await allWaiting()).find((entry) => !heldFor(entry)) ?? null;

/** One try of the write. 409 means that another window or device has used a higher number: this
 * write then gets a higher one. What is queued here the desk takes once by itself, so a write whose
 * reply was lost may go out again with another number: a second one is desk.over.
 * @param {Entry & { write: Write }} entry */
async function tried(entry) {
    let write = {
        ...entry.write,
        number: entry.write.number || desk.takeNumber(),
        tries: entry.write.tries + 1
    };
    for (let step = 1;; step *= 8) {
        await marked(entry, { write });
        const reply = await desk.attempt(write.path, write.fields, write.number);
        if (reply.denied !== "desk.number" || step > HIGHEST_STEP) return { reply, write };
        write = { ...write, number: desk.takeNumber(write.number + step) };
    }
}

/** Sends what waits first: whether to go on.
 * @returns {Promise<"on" | "later" | "end">} */
async function sendFirst() {
    if (navigator.onLine === false) return await firstWaiting() ? "later" : "end";
    return desk.inTurn(async () => {
        const digest = desk.digest(), entry = await firstWaiting();
        if (!entry) return "end";
        const { reply, write } = await tried(entry);
        if (desk.digest() !== digest) return "end";
        if ("silent" in reply) return "later";
        if (reply.denied === "desk.key") {
            stopped = { denied: reply.denied, digest };
            return "end";
        }
        const lost = reply.denied === "desk.over" && write.tries > 1;
        await marked(entry, {
            state: reply.denied && !lost ? "denied" : "done",
            denied: reply.denied ?? null
        });
        return "on";
    });
}

/** One try of a write that this phone has no room to keep.
 * @param {Write} write @returns {Promise<{ value?: unknown, denied?: string, silent?: string }>} */
export const tellOnce = (write) =>
    desk.inTurn(
        async () =>
            (await tried(/** @type {Entry & { write: Write }} */ ({ order: -1, write }))).reply
    );

/** @type {() => void} */
let wake = () => {};
let sending = false;

/** @param {number} tries */
const pause = (tries) =>
    new Promise((go) => {
        wake = () => go(undefined);
        setTimeout(go, PAUSES[Math.min(tries, PAUSES.length - 1)]);
    });

/** Sends all that waits, until nothing does or nobody is signed in. A run that is under way goes on
 * at once.
 */
export async function sendAll() {
    wake();
    if (sending) return;
    sending = true;
    stopped = null;
    try {
        for (let tries = 0; desk.digest();) {
            const next = await sendFirst();
            tell();
            if (next === "end") break;
            if (next === "later") await pause(tries);
            tries = next === "later" ? tries + 1 : 0;
        }
        await lookAgain();
    } catch {
        // (a database that is gone has nothing to send)
    } finally {
        sending = false;
    }
}

/** @type {ReturnType<typeof setTimeout> | undefined} */
let looking;

/** Sends what is held once its time is over. */
async function lookAgain() {
    const times = stopped ? [] : (await allWaiting()).map(heldFor).filter(Boolean);
    clearTimeout(looking);
    if (times.length) looking = setTimeout(sendAll, Math.min(LOOKED, ...times));
}

/** The paths that the site's log is told of an entry now. They are written down before they go out:
 * who takes the tap back meanwhile has to tell that.
 * @param {Entry} entry @returns {Promise<string[]>} */
async function toTell({ order }) {
    /** @type {string[]} */
    let paths = [];
    await changed(order, (now) => {
        paths = [now.tally ?? []].flat();
        return { ...now, told: [...new Set([...now.told ?? [], ...paths])] };
    });
    return paths;
}

/** Counts what is old enough to be told to the site. */
export async function sendTallies() {
    if (!desk.digest()) return;
    for (const entry of await entries()) {
        if (![entry.tally ?? []].flat().length || entry.since > serverNow() - HELD) continue;
        const paths = await toTell(entry);
        let isKept = true;
        for (const path of paths) isKept = await countPath(path) && isKept;
        if (isKept)
            await changed(entry.order, (now) => ({
                ...now,
                tally: [now.tally ?? []].flat().filter((path) => !paths.includes(path))
            }));
    }
}

/** Drops each record of a store of which isOver says so.
 * @template Value
 * @param {string} name @param {(value: Value) => boolean} isOver */
const dropped = (name, isOver) =>
    within(name, "readwrite", (store) => {
        const request = store.openCursor();
        request.onsuccess = () => {
            const at = request.result;
            if (!at) return;
            if (isOver(at.value)) at.delete();
            at.continue();
        };
    });

/** Drops what is some days old and waits for nothing: neither for the desk nor for the site's log.
 */
export async function prune() {
    const oldest = serverNow() - KEPT;
    await dropped(
        ENTRIES,
        (/** @type {Entry} */ { since, state, tally }) =>
            since < oldest && state !== "waiting" && ![tally ?? []].flat().length
    );
}

window.addEventListener("online", () => sendAll());
document.addEventListener("visibilitychange", () => {
    if (!document.hidden) wake();
});

// Copies of what was last read.

/** @param {string} name @param {unknown} value */
export async function keepCopy(name, value) {
    const digest = desk.digest();
    if (digest) await within(COPIES, "readwrite", (store) => store.put({ digest, name, value }));
}

/** @param {string} name @returns {Promise<any>} */
export async function copyOf(name) {
    const digest = desk.digest();
    return digest
        ? (await within(COPIES, "readonly", (store) => store.get([digest, name])))?.value ?? null
        : null;
}

/** @param {string} digest */
const copiesOf = (digest) => IDBKeyRange.bound([digest, ""], [digest, "\uffff"]);

/** Whether the desk has taken this key on this phone, and nobody has signed it out since.
 * @param {string} digest */
export async function isKnownHere(digest) {
    try {
        return await within(COPIES, "readonly", (store) => store.count(copiesOf(digest))) > 0;
    } catch {
        return false;
    }
}

/** Drops the copies of a key that is signed out; what waits stays for when it signs in again.
 * @param {string} digest */
export async function forgetHere(digest) {
    try {
        await within(COPIES, "readwrite", (store) => store.delete(copiesOf(digest)));
    } catch {
        // (there is no database, so there is no copy)
    }
}

/** Drops copies of every key.
 * @param {(name: string) => boolean} isOver whether the copy of this name is needed no more */
export const forgetCopies = (isOver) =>
    dropped(COPIES, (/** @type {{ name: string }} */ { name }) => isOver(name)).catch(() => {});

/** A key that nobody has any more: its copies go, and of its log all but what waits.
 * @param {string} digest @returns {Promise<Entry[]>} what waits */
export async function forgetKey(digest) {
    await forgetHere(digest);
    try {
        await dropped(ENTRIES, (entry) => entry.digest === digest && entry.state !== "waiting");
        tell();
        return await within(ENTRIES, "readonly", (store) => store.index("digest").getAll(digest));
    } catch {
        return [];
    }
}

/** Drops what waited for a key, once somebody was told of it.
 * @param {string} digest */
export const dropWaiting = (digest) =>
    dropped(ENTRIES, (/** @type {Entry} */ entry) => entry.digest === digest).catch(() => {});

/** Changes what an entry says of its tap.
 * @param {number} order
 * @param {Record<string, unknown>} patch
 * @param {string[]} [told] paths that the site's log is told as well
 */
export async function annotate(order, patch, told = []) {
    await changed(order, (entry) => ({
        ...entry,
        tap: { ...entry.tap, ...patch },
        tally: told.length ? [entry.tally ?? [], told].flat(2) : entry.tally
    }));
    tell();
}

/** Asks whoever signs out while something waits. */
export async function maySignOut() {
    const waiting = await entries().then(
        (all) => all.filter(({ state }) => state === "waiting").length,
        () => 0
    );
    if (!waiting) return true;
    await useWords("driver");
    return asked({
        question: t("driver.out-question", { count: waiting }),
        detail: t("driver.out-detail"),
        yes: t("driver.out-yes"),
        no: t("driver.out-no"),
        danger: true
    });
}
