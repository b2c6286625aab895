// What the desk and the site have told this window, one record a path, with the moment of each
// reply. Screens draw from it and keep no list of their own. It is read again when somebody asks
// for it, when the window is looked at again, after each write of this window and of this browser's
// other windows, and each half minute while it is seen.

import { afterHearing, dueAfter, isDue, isOld, NOTHING, RENEWED } from "./ages.js";
import { clock, dayShort, minuteNow, serverNow, today } from "./clock.js";
import * as desk from "./desk.js";
import { part } from "./element.js";
import { whenSignedOut } from "./leaving.js";
import { t } from "./words.js";

/** @typedef {import("./ages.js").Kept} Kept */
/** @typedef {(path: string) => Promise<any>} Ask */
/** @typedef {(ask: Ask, before: any) => Promise<import("./ages.js").Told>} Reader how a
 * path is read: before is the value that is kept of it, undefined where there is none
 */
/** @typedef {{ act: () => void, shown: boolean }} Watcher */
/** @typedef {{ path: string, read: Reader, period: number, quiet: boolean, kept: Kept, begun:
 * number | null, waits: boolean, missed: boolean, old: boolean, watchers: Map<HTMLElement, Watcher>
 * }} Source period is the shortest of those who ask, without end where it is read by a person's
 * wish alone; quiet: no write has it read again; missed: it was asked for while its first read was
 * under way, and that may be of before
 */
/** @typedef {{ reply: () => any, heard: () => number | null, age: () => import("../types").Given,
 * again: () => Promise<any>, watch: (place: HTMLElement, act: () => void) => () => void, follow:
 * (place: HTMLElement, act: () => void) => () => void }} Reading heard is the minute of the last
 * reply; again reads until it is answered; watch reads, and follows each reply as long as the place
 * is on the page, or until what it gives is called; follow does so without a read of its own
 */

const LOOKED = 2_000,
    SOON = 150,
    OFTEN = 1_000,
    FORGOTTEN = 600_000,
    CHANNEL = "desk.written";

/** @type {Map<string, Source>} */
const sources = new Map();
let orders = 0;
/** Raised where somebody signs out: what was asked before is not kept. */
let era = 0;

const others = typeof BroadcastChannel === "function" ? new BroadcastChannel(CHANNEL) : null;

/** @param {Source} source */
function tell(source) {
    source.old = isOld(source.kept, serverNow());
    for (const [place, watcher] of [...source.watchers]) {
        watcher.shown ||= place.isConnected;
        if (watcher.shown && !place.isConnected) source.watchers.delete(place);
        else watcher.act();
    }
}

/** @param {Source} source @param {Ask} ask */
async function readWith(source, ask) {
    const order = (orders += 1), mine = era, { reply } = source.kept;
    source.begun = serverNow();
    const told = await source.read(ask, reply?.denied === undefined ? reply?.value : undefined);
    if (mine !== era) return told;
    source.kept = afterHearing(source.kept, {
        order,
        told,
        moment: { at: serverNow(), day: today(), minute: minuteNow() }
    });
    tell(source);
    return told;
}

/** Reads until it is answered: the sign of the line says so meanwhile.
 * @param {Source} source
 */
async function readSurely(source) {
    source.waits = true;
    try {
        return await readWith(source, desk.read);
    } finally {
        source.waits = false;
        if (source.missed) {
            source.missed = false;
            renew(source);
        }
    }
}

/** Reads once. What is shown stays where nothing answers, and says its age.
 * @param {Source} source
 */
const renew = (source) => (
    source.kept.reply === null ? readSurely(source) : readWith(source, desk.readOnce)
);

/** @param {Source} source */
const isWatched = (source) => [...source.watchers.keys()].some((place) => place.isConnected);

/** Reads all that is shown once more, whatever its age. */
export function readAll() {
    for (const source of sources.values()) {
        if (!isWatched(source) || (source.quiet && source.kept.reply !== null)) continue;
        if (source.waits && source.kept.reply === null) source.missed = true;
        else renew(source);
    }
}

/** @type {ReturnType<typeof setTimeout> | undefined} */
let soon;
let lastRead = -OFTEN;

/** The same, once for all that is written in one moment, and once a second where much is written.
 */
function readSoon() {
    if (soon !== undefined) return;
    soon = setTimeout(() => {
        soon = undefined;
        lastRead = performance.now();
        readAll();
    }, Math.max(SOON, lastRead + OFTEN - performance.now()));
}

/** Reads what is due, and lets what has grown old say so. */
function look() {
    const now = serverNow();
    for (const [path, source] of sources) {
        if (source.old !== isOld(source.kept, now)) tell(source);
        if (isWatched(source)) {
            if (
                !document.hidden &&
                !source.waits &&
                isDue(source.begun, now, dueAfter(source.kept.failed, source.period))
            )
                renew(source);
        } else if (!source.waits && isDue(source.begun, now, FORGOTTEN)) sources.delete(path);
    }
}

/** As of when something is, where it is older than a minute or nothing answers any more.
 * @param {Kept} kept @returns {import("../types").Given}
 */
function ageOf(kept) {
    if (kept.moment === null || (!kept.failed && !isOld(kept, serverNow()))) return null;
    const { day, minute } = kept.moment,
        time = day === today() ? clock(minute) : `${dayShort(day)}, ${clock(minute)}`;
    return part("p", { class: "hint age" },
        t(kept.failed ? "common.as-of-silent" : "common.as-of", { time })
    );
}

/** What is known of a path. It is read by its reader, or as it is.
 * @param {string} path
 * @param {{ read?: Reader, period?: number, quiet?: boolean }} options
 * @returns {Reading}
 */
export function reading(path, { read = (ask) => ask(path), period = RENEWED, quiet = false } = {}) {
    /** @returns {Source} */
    const source = () => {
        const known = sources.get(path) ?? {
            path,
            read,
            period,
            quiet,
            kept: NOTHING,
            begun: null,
            waits: false,
            missed: false,
            old: false,
            watchers: new Map()
        };
        known.period = Math.min(known.period, period);
        sources.set(path, known);
        return known;
    };
    const follow = (/** @type {HTMLElement} */ place, /** @type {() => void} */ act) => {
        const followed = source();
        followed.watchers.set(place, { act, shown: place.isConnected });
        return () => {
            followed.watchers.delete(place);
        };
    };
    const watch = (/** @type {HTMLElement} */ place, /** @type {() => void} */ act) => {
        const watched = source(), stop = follow(place, act);
        if (!watched.quiet || watched.kept.reply === null) renew(watched);
        return stop;
    };
    return {
        watch,
        follow,
        reply: () => sources.get(path)?.kept.reply ?? null,
        heard: () => sources.get(path)?.kept.moment?.minute ?? null,
        age: () => ageOf(sources.get(path)?.kept ?? NOTHING),
        again: () => readSurely(source())
    };
}

/** How a file of the site is read: its text, or null where there is none for this key.
 * @param {string} path @returns {Reader}
 */
export const fileAt = (path) => async () => {
    const { status, text } = await desk.fetchFile(path);
    return status === 0 || status === 429 || status >= 500
        ? { silent: "common.silent" }
        : { value: status === 200 ? text : null, status };
};

// Nothing that was read stays once somebody has signed out.
whenSignedOut(() => {
    sources.clear();
    era += 1;
});

desk.whenWrote(() => {
    others?.postMessage("written");
    readSoon();
});
if (others) others.onmessage = readSoon;
window.addEventListener("focus", readSoon);
window.addEventListener("online", readSoon);
document.addEventListener("visibilitychange", () => {
    if (document.hidden) return;
    look();
    readSoon();
});
setInterval(look, LOOKED);
