// What is told to the site: denials that somebody saw, bookings, cancellations, where a driver was.
// Each event waits in this browser, in a database that outlives the page, and leaves it once the
// site has answered 204. The site's log has it twice where an answer was lost, and it counts once.

import { momentNow } from "./clock.js";
import { endOf, faultOf, isDue, namedIn, pathOf, pauseAfter } from "./counting.js";
import { storeOf } from "./database.js";
import * as desk from "./desk.js";
import { EVENTS } from "./events.js";
import { newKey } from "./key.js";
import { whenSignedOut } from "./leaving.js";
import { alone } from "./locks.js";

/** @typedef {import("./events.js").Kind} Kind */
/** @typedef {import("./events.js").Fields} Fields */
/** @typedef {object} Kept an event that waits
 * @property {string} id
 * @property {Kind} kind
 * @property {string} path
 * @property {string | null} digest the key of who told it
 * @property {number} since when it was told, by this machine's clock
 * @property {number} from it is not sent before this moment
 * @property {string | null} refused why the site will not have it: its answer, or the name of a
 * field
 */
/** @typedef {{ refused: Kept[], loose: number }} Trouble refused: what the site will not have;
 * loose: how many wait in this window alone
 */

const GAP = 250,
    UNSURE = 120_000,
    LOOKED = 60_000,
    LOCK = "desk.counts";
const within = storeOf("desk-counts", "events", { keyPath: "id" }, { atOnce: true });

/** Events for which this browser has no database or no room, while this page lives.
 * @type {Map<string, Kept>} */
const loose = new Map();
/** Events of the database that the site did not take while this page lives: they are tried again
 * when it is loaded anew.
 * @type {Set<string>} */
const tried = new Set();
/** Events that the site has and the database could not let go.
 * @type {Set<string>} */
const sent = new Set();
/** Events that this page holds back.
 * @type {Map<string, Kept>} */
const held = new Map();
/** @type {(trouble: Trouble) => void} */
let tell = () => {};
let running = false, again = false, tries = 0, timer = 0;

// Keeping.

/** @param {string} id @param {Kept | null} event */
const stored = (id, event) =>
    within("readwrite", (store) => /** @type {IDBRequest<unknown>} */ (
        event ? store.put(event) : store.delete(id)
    ));

/** Whether the browser's database has it; else this window keeps it.
 * @param {Kept} event */
async function keep(event) {
    const isStored = await stored(event.id, event).then(() => true, () => false);
    if (isStored) loose.delete(event.id);
    else loose.set(event.id, event);
    return isStored;
}

/** @param {string} id */
async function drop(id) {
    held.delete(id);
    loose.delete(id);
    sent.add(id);
    await stored(id, null).then(() => sent.delete(id), () => {});
}

/** All that waits, in the order in which it was told. */
async function waiting() {
    /** @type {Kept[]} */
    const events = await within("readonly", (store) => store.getAll()).catch(() => []),
        known = new Map(events.map((it) => [it.id, it]));
    loose.forEach((it) => known.set(it.id, it));
    return [...known.values()].filter(({ id }) => !sent.has(id)).sort((a, b) => a.since - b.since);
}

/** @param {Kind} kind
 * @param {string} path
 * @param {string} id
 * @param {{ fault?: string | null, held?: number }} options
 */
const eventOf = (kind, path, id, { fault = null, held = 0 } = {}) => ({
    id,
    kind,
    path,
    digest: desk.digest(),
    since: Date.now(),
    from: Date.now() + held,
    refused: fault
});

/** The fields of an event with those that are filled in.
 * @template {Kind} K @param {K} kind @param {Fields[K]} fields
 * @returns {Fields[K] & { id: string }} */
function filled(kind, fields) {
    const forms = EVENTS[kind], id = fields.id ?? newKey();
    return {
        ...("at" in forms && { at: momentNow() }),
        ...("channel" in forms && { channel: "page" }),
        ...fields,
        id
    };
}

/** Tells the site an event: once this is done, it is kept by this browser, and it is sent until the
 * site has it.
 * @template {Kind} K @param {K} kind @param {Fields[K]} fields */
export async function count(kind, fields) {
    const whole = filled(kind, fields);
    await keep(eventOf(kind, pathOf(kind, whole), whole.id, { fault: faultOf(kind, whole) }));
    sendCounts();
}

/** Keeps an event that may yet come to nothing: it is told at once where tell() is called, where
 * the page is closed or its person signs out, and after so many milliseconds where nothing is;
 * never where drop() comes first.
 * @template {Kind} K @param {K} kind @param {Fields[K]} fields @param {number} longest */
export function countLater(kind, fields, longest) {
    const whole = filled(kind, fields),
        event = eventOf(kind, pathOf(kind, whole), whole.id, {
            fault: faultOf(kind, whole),
            held: longest
        });
    const keeping = keep(event).then(sendCounts);
    held.set(event.id, event);
    return {
        tell: async () => {
            held.delete(event.id);
            await keeping;
            await keep({ ...event, from: 0 });
            await sendCounts();
        },
        drop: () => keeping.then(() => drop(event.id)),
    };
}

/** Tells what is held back, with the key that is still there: nothing of it changes any more. Where
 * the site's answer does not come, it waits like any other event, and it counts once.
 */
function tellHeld() {
    for (const event of [...held.values()]) {
        keep({ ...event, from: 0 });
        if (!event.refused && desk.signedIn())
            desk.postFile(event.path).then((status) => {
                if (endOf(status, true) === "kept") drop(event.id);
            });
    }
    held.clear();
}

whenSignedOut(tellHeld);
window.addEventListener("pagehide", tellHeld);

/** The same for an event whose path was made before, as the driver's log has it; whether it
 * outlives this page.
 * @param {string} path */
export async function countPath(path) {
    const named = namedIn(path),
        isStored = !named || await keep(eventOf(named.kind, path, named.id));
    sendCounts();
    return isStored;
}

/** The path of an event that is told later.
 * @template {Kind} K @param {K} kind @param {Fields[K]} fields */
export function eventPath(kind, fields) {
    const whole = filled(kind, fields);
    return pathOf(kind, whole);
}

// Sending. One window at a time sends.

/** @param {number} milliseconds */
const pause = (milliseconds) =>
    new Promise((go) => {
        setTimeout(go, milliseconds);
    });

/** What is to be sent now, first. */
async function next() {
    const now = Date.now();
    return (await waiting()).find((it) => isDue(it, now) && !tried.has(it.id)) ?? null;
}

/** Sends what waits, until nothing does or there is no answer.
 * @returns {Promise<void>} */
async function sendThem() {
    for (let event = await next(); event && desk.signedIn(); event = await next()) {
        const status = await desk.postFile(event.path),
            end = endOf(status, event.digest === desk.digest());
        if (end === "later") {
            tries += 1;
            return;
        }
        tries = 0;
        if (end === "kept") await drop(event.id);
        else tried.add(event.id);
        if (end === "refused") await keep({ ...event, refused: event.refused ?? String(status) });
        await pause(GAP);
    }
}

/** When something is to be sent again: after a pause where the site was silent, or when an event's
 * time comes. Another window may have left some: that is looked for each minute.
 */
async function wakeLater() {
    const pauses = (await waiting()).filter(({ id }) => !tried.has(id)).map(
        ({ from }) => from - Date.now()
    );
    clearTimeout(timer);
    if (desk.signedIn())
        timer = Number(
            setTimeout(
                lookAgain,
                Math.max(tries ? pauseAfter(tries) : 0, Math.min(LOOKED, ...pauses), GAP)
            )
        );
}

const lookAgain = async () => (await next() ? sendCounts() : wakeLater());

/** Sends what waits, and goes on by itself until the site has all of it. */
async function sendCounts() {
    again = running;
    clearTimeout(timer);
    if (running || !desk.signedIn()) return;
    running = true;
    try {
        await alone(LOCK, sendThem);
    } finally {
        running = false;
    }
    tell({
        refused: (await waiting()).filter(({ refused }) => refused),
        loose: tries ? loose.size : 0
    });
    if (again && !tries) await sendCounts();
    else await wakeLater();
}

/** Calls act with what somebody should hear of, whenever something was sent.
 * @param {(trouble: Trouble) => void} act */
export function whenRefused(act) {
    tell = act;
}

/** Drops what a key that nobody has any more wrote in its own words; what is left has numbers
 * alone.
 * @param {string} digest */
export async function forgetTexts(digest) {
    for (const event of await waiting()) {
        if (
            event.digest === digest &&
            Object.values(EVENTS[event.kind]).some(({ kind }) => kind === "text")
        )
            await drop(event.id);
    }
}

/** Another key has other rights: what was not taken is tried with it. */
export function beginAnew() {
    tried.clear();
    tries = 0;
    return sendCounts();
}

// Each use.

/** @param {Fields["stops"]} stop at is YYYY-MM-DDTHH:MM:SS */
export const stopPath = (stop) => eventPath("stops", stop);

/** Gives a trip up for its rider or for the agency, and tells the site when: the desk keeps no
 * moment of it. The event is kept before the desk is asked, so that it is told also where the page
 * is closed before the answer comes; of a trip that is not cancelled it says nothing.
 * @param {number} trip @param {"rider" | "agency"} by
 */
export async function cancelTrip(trip, by) {
    const fields = filled("cancellations", { trip, by }),
        event = eventOf("cancellations", pathOf("cancellations", fields), fields.id, {
            held: UNSURE
        });
    const keeping = keep(event), reply = await desk.cancel(trip);
    await keeping;
    if (reply.denied === undefined) await keep({ ...event, from: 0 });
    else if (reply.denied !== "left") await drop(event.id);
    sendCounts();
    return reply;
}

window.addEventListener("online", () => {
    tries = 0;
    sendCounts();
});
document.addEventListener("visibilitychange", () => {
    if (!document.hidden) sendCounts();
});
