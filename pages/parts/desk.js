// The desk's API: one function a path. Each gives {value} where the desk accepted and {denied,
// field} where it did not, and none throws.
// A desk that does not answer is asked again until it does.

import { hearServersTime } from "./clock.js";
import { dropNames, dropText, keepObject, keepText, keptObject, keptText } from "./kept.js";
import { digestOf, keyFault, meantKeys, newKey } from "./key.js";
import { HIGHEST_NUMBER } from "./limits.js";
import * as line from "./line.js";
import { earlyReply } from "./read-ahead.js";
import { alone } from "./locks.js";
import { beginningWith, goingOn, hasEnded, isUnchanged, stayingAs } from "./staying.js";

/**
 * @template Value
 * @typedef {import("../types").Reply<Value>} Reply
 */
/** @typedef {import("../types").Denied} Denied */
/** @typedef {{ value: unknown, denied?: undefined, silent?: undefined } | (Denied & { silent?:
 * undefined }) | { silent: string, denied?: undefined, value?: undefined }} Told what one try
 * gives: silent is the key of words that say why
 */
/** @typedef {Record<string, unknown>} Fields */
/** @typedef {{ digest: string | null, number: number, path: string, body: string, nextKey?: string,
 * resent: boolean, waited?: boolean }} Pending
 */

const LONGEST_WAIT = 30_000,
    PAUSES = [500, 1000, 2000, 4000, 5000],
    CROWDED = 429;
const KEY = "desk.key",
    STAY = "desk.stay",
    STAYED = "desk.stayed",
    ENDED = "desk.stay-ended",
    WANTED = "desk.stay-wanted",
    PENDING = "desk.pending",
    SILENT = "common.silent";

/** The key of a rider who stays signed in, which this browser keeps until the rider signs out, and
 * the rider's number.
 * @returns {{ key: string, rider: number } | null}
 */
function stayed() {
    const { key: kept, rider } = keptObject(STAY);
    return typeof kept === "string" && Number.isInteger(rider) ? { key: kept, rider } : null;
}

const begun = beginningWith(
    {
        key: keptText("session", KEY),
        stayed: keptText("session", STAYED) !== null,
        ended: keptText("session", ENDED) !== null
    },
    stayed()
);
let { key } = begun, left = new AbortController();
if (begun.ended) forgetWindow();
/** @type {string | null} */
let mine = null;

export { digestOf, newKey };

/** The digest of the key that is signed in with, or null. */
export const digest = () => mine;
export const signedIn = () => key !== null;

/** @param {string} text */
async function hold(text) {
    key = text;
    mine = await digestOf(text);
    keepText("session", KEY, text);
    dropText("session", ENDED);
    staysFrom(stays() !== null);
}

/** Any key may ask for a sheet; nobody's key is denied desk.key, and a role that may not read it
 * desk.caller.
 */
const PROBE = "/days/2000-01-01/sheet";

/** Signs in with what was typed. Where the desk is silent, a key that isKnown says is known here is
 * taken at once: the desk still judges each request.
 * @param {string} typed
 * @param {(digest: string) => Promise<boolean>} [isKnown]
 * @param {AbortSignal | null} [stopped] ends the waiting for a desk that is silent
 * @returns {Promise<Reply<true>>}
 */
export async function signIn(typed, isKnown = async () => false, stopped = null) {
    const texts = meantKeys(typed).filter((text) => keyFault(text) === null);
    /** @type {Reply<unknown>} */
    let reply = /** @type {Denied} */ ({ denied: "desk.key" });
    for (const text of texts) {
        const first = await readOnce(PROBE, text),
            known = first.silent ? await knownOf(texts, isKnown) : null;
        if (known === null)
            reply = first.silent
                ? await read(PROBE, text, stopped)
                : /** @type {Reply<unknown>} */ (first);
        if (known === null && reply.denied === "desk.key") continue;
        if (known === null && reply.denied !== undefined && reply.denied !== "desk.caller")
            return reply;
        await hold(known ?? text);
        return { value: true };
    }
    return reply;
}

/** The first of some keys that is known here, or null.
 * @param {string[]} texts @param {(digest: string) => Promise<boolean>} isKnown
 */
async function knownOf(texts, isKnown) {
    for (const text of texts) if (await isKnown(await digestOf(text))) return text;
    return null;
}

/** What the key that is signed in with may read, by a rider whom nobody has: of a right that nobody
 * told, null.
 * @returns {Promise<import("./screens.js").Rights>}
 */
export async function rights() {
    const by = key ?? "",
        may = async (/** @type {string} */ path) => {
            const { silent, denied } = await readOnce(path, by);
            return silent ? null : denied !== "desk.caller";
        };
    const [day, standing, trips] = await Promise.all(
        [
            PROBE,
            `/riders/${HIGHEST_NUMBER}/standing/2026-01-01`,
            `/riders/${HIGHEST_NUMBER}/trips`
        ].map(may)
    );
    return { day, standing, trips };
}

export async function comeBack() {
    if (key !== null) await hold(key);
}

// Staying signed in, for riders on a phone of their own.

/** The number of the rider who stays signed in with this key, or null. */
export const stays = () => stayingAs(key, stayed());

/** Whether this window has shown a rider who stays: it keeps that too, since it may be loaded again
 * after another window has signed out.
 */
let isStaying = begun.stayed;

/** @param {boolean} is */
function staysFrom(is) {
    isStaying = is;
    if (is) keepText("session", STAYED, "yes");
    else dropText("session", STAYED);
}

/** Whether the rider of this window stays no longer: signed out in another window, or somebody else
 * stays now.
 */
export const stayEnded = () => hasEnded({ key, stayed: isStaying, ended: false }, stayed());

/** The number of a rider who stays signed in here while this window asks for a key, or null: nobody
 * is shown until somebody says so.
 */
export const staysHere = () => (key === null ? stayed()?.rider ?? null : null);

/** This window goes on with the rider who stays signed in here, where it is the one who was named.
 * Whether it is.
 * @param {number} rider
 */
export async function goOnStaying(rider) {
    const it = goingOn(rider, stayed());
    if (it === null) return false;
    await hold(it.key);
    return true;
}

/** Who signed in wants to stay: the key is kept once it is known that it is a rider's. */
export const wantToStay = () => keepText("session", WANTED, "yes");

/** Whether the key that is signed in with may read what staff alone may: the roster, or what is on
 * record.
 */
export async function isStaffKey() {
    const [roster, record] = await Promise.all([
        fetchFile("/staff/roster.csv"),
        fetchFile("/record/")
    ]);
    return [200, 404].includes(roster.status) || ![0, 401, 403, CROWDED].includes(record.status);
}

/** Keeps the key in this browser where that was wanted and the site has said whose it is: this
 * rider's, and nobody's of the staff.
 * @param {number} rider
 */
export async function stayAs(rider) {
    if (keptText("session", WANTED) === null) return;
    const by = key,
        before = stayed(),
        [own, staff] = await Promise.all([
            fetchFile(`/own/${rider}/places.json`),
            fetchFile("/staff/roster.csv")
        ]);
    if (![200, 404].includes(own.status) || staff.status !== 403 || key === null || key !== by)
        return;
    dropText("session", WANTED);
    if (!isUnchanged(before, stayed())) return;
    // (a key that lives as long as its page does not stay)
    const isKept = keepObject(STAY, { key, rider });
    if (!isKept) keepObject(STAY, null);
    staysFrom(isKept);
}

/** A key that is nobody's any more is kept no longer.
 * @param {Told} told @param {string | null} by
 */
function judged(told, by) {
    if (told.denied === "desk.key" && by === key && stays() !== null) {
        keepObject(STAY, null);
        window.dispatchEvent(new Event("desk.stay-gone"));
    }
    return told;
}

/** Nothing stays in this window. Who stays signed in here next is somebody else: it asks before it
 * shows them.
 */
function forgetWindow() {
    dropNames("session", () => true);
    keepText("session", ENDED, "yes");
}

export function signOut() {
    const ended = stayEnded();
    if (stays() !== null) keepObject(STAY, null);
    isStaying = false;
    key = mine = null;
    if (ended) forgetWindow();
    else dropNames("session", () => true);
    leave();
}

/** Whoever leaves a screen waits for none of its reads any more. */
export function leave() {
    left.abort();
    left = new AbortController();
}

// One request. {silent} says that the line broke, or that what answered was not the desk.

/** The one way to a denial: a reply of the desk that has its name.
 * @param {Response} reply @param {unknown} body @returns {Denied | null}
 */
function denialIn(reply, body) {
    const { denied, field } = /** @type {Record<string, unknown>} */ (body ?? {});
    if (reply.ok || reply.status >= 500 || typeof denied !== "string") return null;
    return /** @type {Denied} */ ({ denied, field });
}

/** @param {Response} reply @returns {Promise<unknown>} */
async function bodyOf(reply) {
    const type = reply.headers.get("content-type") ?? "";
    if (/^application\/json/.test(type)) return reply.json();
    if (/^text\/(plain|csv)/.test(type) && reply.ok) return reply.text();
    return undefined;
}

/** A request is given up after the longest wait, and where its screen is left.
 * @param {AbortSignal} [signal] @returns {AbortSignal}
 */
function bound(signal) {
    const signals = /** @type {import("../types").Signals} */ (AbortSignal);
    return signals.any([signals.timeout(LONGEST_WAIT), ...(signal ? [signal] : [])]);
}

/** A read that was asked for early is taken once.
 * @param {string} path
 * @param {RequestInit & { headers: Record<string, string> }} options
 * @param {AbortSignal} [signal]
 */
const asked = (path, options, signal) =>
    (options.method === "POST" ? null : earlyReply(path, options.headers["Desk-Key"])) ??
    fetch(path, {
        ...options,
        signal: bound(signal),
        cache: "no-store",
        credentials: "omit",
        redirect: "error"
    });

/** @param {string} method
 * @param {string} path
 * @param {Record<string, string>} headers
 * @param {string} [body]
 * @param {AbortSignal} [signal]
 * @returns {Promise<Told>} */
async function once(method, path, headers, body, signal) {
    try {
        const reply = await asked(path, { method, headers, body }, signal);
        hearServersTime(reply.headers.get("date"));
        // (it was not done, whatever stands in its body and whoever says so)
        if (reply.status === CROWDED)
            return { silent: "common.crowded" };
        const told = await bodyOf(reply);
        if (reply.ok && told !== undefined && told !== null) return { value: told };
        return denialIn(reply, told) ?? { silent: SILENT };
    } catch {
        return { silent: SILENT };
    }
}

/** @param {number} tries */
const pause = (tries) =>
    new Promise((go) => {
        setTimeout(go, PAUSES[Math.min(tries, PAUSES.length - 1)]);
    });

// Files of the site.

/** A file of the site, asked for once: its status, 0 where the line is broken, and its text.
 * @param {string} path
 * @returns {Promise<{ status: number, text: string | null }>}
 */
export async function fetchFile(path) {
    try {
        const reply = await asked(path, { headers: { "Desk-Key": key ?? "" } }, left.signal);
        hearServersTime(reply.headers.get("date"));
        return { status: reply.status, text: reply.ok ? await reply.text() : null };
    } catch {
        return { status: 0, text: null };
    }
}

/** Tells the site something, once: the status, 0 where the line is broken.
 * @param {string} path
 */
export async function postFile(path) {
    try {
        return (await asked(path, {
            method: "POST",
            headers: { "Desk-Key": key ?? "" },
            keepalive: true
        })).status;
    } catch {
        return 0;
    }
}

// Reads.

/** One try of a read.
 * @param {string} path @param {string | null} [by] @param {AbortSignal} [signal]
 */
export const readOnce = async (path, by = key, signal = left.signal) =>
    judged(await once("GET", path, { "Desk-Key": by ?? "" }, undefined, signal), by);

/** The pause before the next try, or until somebody stops to wait.
 * @param {number} tries @param {AbortSignal | null} stopped
 */
const pauseUnless = (tries, stopped) =>
    Promise.race([
        pause(tries),
        new Promise((go) => {
            stopped?.addEventListener("abort", go, { once: true });
        })
    ]);

/** A read that is asked until it is answered, or until its screen is left or somebody stops it.
 * @template Value
 * @param {string} path @param {string | null} [by] @param {AbortSignal | null} [stopped]
 * @returns {Promise<Reply<Value>>} */
export async function read(path, by = key, stopped = null) {
    const request = {},
        { signal } = left,
        hasEnd = () => signal.aborted || stopped?.aborted === true;
    for (let tries = 0;; tries += 1) {
        const reply = hasEnd() ? { silent: SILENT } : await readOnce(path, by, signal);
        if (hasEnd() || !reply.silent) {
            line.answers(request);
            return hasEnd() ? { denied: "left" } : /** @type {Reply<Value>} */ (reply);
        }
        line.waits(request, reply.silent);
        await pauseUnless(tries, stopped);
    }
}

// Writes. A caller's numbers rise, also over two windows: one window at a time sends, and the other
// waits for its answer.

const lastNumber = () => Number(keptText("local", `desk.number.${mine}`) ?? 0);

/** The next number of a write. Whoever takes one holds the lock of inTurn.
 * @param {number} [above]
 */
export function takeNumber(above = 0) {
    const number = Math.min(
        HIGHEST_NUMBER,
        Math.max(lastNumber() + 1, Math.floor(Date.now() / 1000), above)
    );
    keepText("local", `desk.number.${mine}`, String(number));
    return number;
}

/** Does something while no other window writes with this key.
 * @template Made
 * @param {(has: boolean) => Promise<Made>} act
 * @param {import("./locks.js").Options} [options]
 * @returns {Promise<Made>}
 */
export const inTurn = (act, options) => alone(`desk ${mine}`, act, options);

/** One try of a write.
 * @param {string} path
 * @param {Fields} fields
 * @param {number} number
 * @returns {Promise<Told>}
 */
export const attempt = (path, fields, number) => post(path, JSON.stringify(fields), number);

/** @param {string} path @param {string} body @param {number} number */
const post = (path, body, number) =>
    once(
        "POST",
        path,
        {
            "Desk-Key": key ?? "",
            "Desk-Number": String(number),
            "Content-Type": "application/json"
        },
        body
    );

/** @param {Pending} pending */
const keep = (pending) => keepText("session", PENDING, JSON.stringify(pending));

/** Whether the key that began a write is still signed in: nobody sends what another person began.
 * @param {Pending} pending
 */
const isMine = ({ digest: whose }) => mine !== null && whose === mine;

/** The same write until it is answered; pending.resent says whether it may have arrived more than
 * once.
 * @template Value
 * @param {Pending} pending
 * @returns {Promise<Reply<Value>>}
 */
async function untilAnswered(pending) {
    for (let tries = 0;; tries += 1) {
        const reply = await post(pending.path, pending.body, pending.number);
        if (!reply.silent) {
            line.answers(pending);
            if (
                reply.denied !== "desk.key" ||
                !pending.nextKey ||
                !pending.resent ||
                !isMine(pending)
            )
                return /** @type {Reply<Value>} */ (reply);
            await hold(pending.nextKey);
            pending.digest = mine;
            keep(pending);
        } else {
            line.waits(pending, reply.silent === SILENT ? "common.silent-write" : reply.silent);
            pending.resent ||= reply.silent === SILENT;
            pending.waited = true;
            if (isMine(pending)) keep(pending);
        }
        await pause(tries);
        if (!isMine(pending)) {
            line.answers(pending);
            return { denied: "left" };
        }
    }
}

/** @typedef {{ path: string, fields: Fields, reply: Reply<unknown>, waited: boolean }} Wrote waited
 * says that the line was broken, or the page was loaded anew meanwhile
 */
/** @type {Set<(wrote: Wrote) => void>} */
const afterWrites = new Set();
/** @type {Set<(sending: { path: string, fields: Fields }) => void>} */
const beforeWrites = new Set();
/** @param {(wrote: Wrote) => void} act what follows each write of this window that was answered */
export const whenWrote = (act) => {
    afterWrites.add(act);
};
/** @param {(sending: { path: string, fields: Fields }) => void} act what is done as a write of this
 * window goes out
 */
export const whenSending = (act) => {
    beforeWrites.add(act);
};

let told = () => {};
/** @param {() => void} act what is done where another window or device wrote with this key */
export const whenOthersWrote = (act) => {
    told = act;
};

/** 409 means that another window or device wrote with this key and a higher number. If this write
 * went out once alone, it was not done, and goes on with a higher number. If its line broke, nobody
 * knows: that is told.
 * @template Value
 * @param {Pending} pending @returns {Promise<Reply<Value>>}
 */
async function sent(pending) {
    /** @type {Reply<Value>} */
    let reply = await untilAnswered(pending);
    for (
        let step = 1;
        reply.denied === "desk.number" && !pending.resent && isMine(pending) && step <= 2 ** 30;
        step *= 8
    ) {
        pending.number = takeNumber(pending.number + step);
        keep(pending);
        reply = await untilAnswered(pending);
        if (reply.denied !== "desk.number") told();
    }
    if (isMine(pending)) dropText("session", PENDING);
    afterWrites.forEach((act) =>
        act({
            path: pending.path,
            fields: JSON.parse(pending.body),
            reply,
            waited: pending.waited === true
        })
    );
    return reply;
}

/** @template Value
 * @param {string} path
 * @param {Fields} fields
 * @param {string} [nextKey]
 * @returns {Promise<Reply<Value>>}
 */
const write = (path, fields, nextKey) =>
    inTurn(() => {
        const pending = {
            digest: mine,
            number: takeNumber(),
            path,
            body: JSON.stringify(fields),
            nextKey,
            resent: false
        };
        keep(pending);
        beforeWrites.forEach((act) => act({ path, fields }));
        return sent(pending);
    });

/** Whether a write of this window has no answer yet. */
export const isWriting = () =>
    mine !== null && JSON.parse(keptText("session", PENDING) ?? "null")?.digest === mine;

/** A write that was under way when the page was loaded anew: its reply, or null where there is
 * none.
 * @returns {Promise<Reply<unknown> | null>}
 */
export async function finishPending() {
    const pending = JSON.parse(keptText("session", PENDING) ?? "null");
    if (!pending || pending.digest !== mine) return null;
    pending.resent = pending.waited = true;
    return inTurn(() => sent(pending));
}

// The paths.

/** Whoever replaces the own key goes on with the new one.
 * @param {Fields} fields @param {string} nextKey
 */
export async function putCaller(fields, nextKey) {
    const reply = await write("/callers", fields, nextKey);
    if (!reply.denied && (await read(PROBE)).denied === "desk.key") await hold(nextKey);
    return reply;
}

/** @typedef {import("../types").Wish} Wish */
/** @typedef {import("../types").Ticket} Ticket */

/** @param {Fields} fields */
export const putPolicy = (fields) => write("/policy", fields);
/** @param {Fields} fields */
export const putPlace = (fields) => write("/places", fields);
/** @param {Fields} fields */
export const putRoute = (fields) => write("/routes", fields);
/** @param {Fields} fields */
export const putVehicle = (fields) => write("/vehicles", fields);
/** @param {Fields} fields */
export const putRider = (fields) => write("/riders", fields);
/** @param {number} rider @param {Fields} fields @returns {Promise<Reply<{ entered: number }>>} */
export const enter = (rider, fields) => write(`/riders/${rider}/entries`, fields);
/** @param {Wish & { rider: number }} fields @returns {Promise<Reply<Ticket>>} */
export const book = (fields) => write("/trips", fields);
/** @param {number} trip @param {Wish} fields @returns {Promise<Reply<Ticket>>} */
export const change = (trip, fields) => write(`/trips/${trip}/change`, fields);
/** @param {number} trip */
export const cancel = (trip) => write(`/trips/${trip}/cancel`, {});
/** @param {number} trip @param {string} outcome */
export const tellOutcome = (trip, outcome) => write(`/trips/${trip}/outcome`, { outcome });

/** The paths of what is read of a rider and of a day. */
export const pathOf = {
    standing: (/** @type {number} */ rider, /** @type {string} */ day) =>
        `/riders/${rider}/standing/${day}`,
    trips: (/** @type {number} */ rider) => `/riders/${rider}/trips`,
    letters: (/** @type {number} */ rider) => `/riders/${rider}/letters/`,
    letter: (/** @type {number} */ rider, /** @type {number} */ entry) =>
        `/riders/${rider}/letters/${entry}`,
    sheet: (/** @type {string} */ day) => `/days/${day}/sheet`,
    tripsOn: (/** @type {string} */ day) => `/days/${day}/trips.csv`,
};

/** @param {number} rider
 * @param {string} day
 * @returns {Promise<Reply<import("../types").Standing>>}
 */
export const standing = (rider, day) => read(pathOf.standing(rider, day));
/** @param {number} rider @returns {Promise<Reply<{ trips: import("../types").Trip[] }>>} */
export const tripsOf = (rider) => read(pathOf.trips(rider));
/** @param {number} vehicle @param {string} day @returns {Promise<Reply<string>>} */
export const manifest = (vehicle, day) => read(`/vehicles/${vehicle}/manifest/${day}`);
/** @param {string} day @returns {Promise<Reply<string>>} */
export const sheet = (day) => read(pathOf.sheet(day));
/** @param {string} day @returns {Promise<Reply<string>>} */
export const tripsOn = (day) => read(pathOf.tripsOn(day));
