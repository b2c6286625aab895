// What is asked for before anything else is here, since on a phone's line each answer takes its
// time: the agency's file, what the screen takes that will be shown, and what a driver's phone will
// read.

import { keptText } from "./kept.js";
import { linkStyle, patiently } from "./loading.js";
import { dropAhead, readAhead } from "./read-ahead.js";
import { SCREENS } from "./screens.js";

const LONGEST_WAIT = 5_000, WORDS = ["common", "signing"], MORE_WORDS = ["denials", "fields"];

/** @param {string} rel @param {string} href */
function link(rel, href) {
    if (document.querySelector(`link[href="${href}"]`)) return;
    const it = document.createElement("link");
    it.rel = rel;
    it.href = href;
    document.head.append(it);
}

/** The site's reply with the agency's file, read to its end at once. (The bound would cut off what
 * is read later: on a slow line the files of these pages may take longer.)
 */
async function askFor() {
    const reply = await fetch("agency.json", {
        cache: "no-cache",
        credentials: "omit",
        signal: /** @type {import("../types").Signals} */ (AbortSignal).timeout(LONGEST_WAIT)
    });
    const { ok, status, headers } = reply;
    return { ok, status, date: headers.get("date"), text: await reply.text() };
}

/** @type {ReturnType<typeof askFor> | null} */
let first = askFor();
first.catch(() => {});

/** The reply with the agency's file. What was asked for early is given once, and asked for anew
 * from then on.
 */
export function agencyFile() {
    const it = first ?? askFor();
    first = null;
    return it;
}

// (another language than the one that is kept is known once the agency's file is there)
const language = keptText("local", "desk.language") === "es" ? "es" : "en";

/** Asks for the files of a screen that the page names (index.html): those that a phone shows.
 * @param {string} id
 */
export function askAhead(id) {
    const files = document.getElementById("early")?.dataset[id]?.split(/\s+/) ?? [],
        screen = SCREENS.find((it) => it.id === id);
    for (const name of files) link("modulepreload", name);
    if (!files.length || !screen) return askWords(MORE_WORDS);
    for (const name of screen.words) link("modulepreload", `words/${language}/${name}.js`);
    // (a style that did not come is asked for again with its screen)
    for (const name of screen.styles)
        linkStyle(name).addEventListener("error", (event) =>
            /** @type {Element} */ (event.target).remove()
        );
}

const askWords = (/** @type {string[]} */ names) =>
    names.forEach((name) => link("modulepreload", `words/${language}/${name}.js`));

/** The day of a moment by the clocks of a zone.
 * @param {string | null} moment @param {string | undefined} zone
 */
const dayOf = (moment, zone) =>
    new Intl.DateTimeFormat("en-CA", {
        timeZone: zone,
        year: "numeric",
        month: "2-digit",
        day: "2-digit"
    }).format(new Date(moment ?? NaN));

/** The manifest of the van that this window has shown last, with its names. The day is known by the
 * agency's file; meanwhile that of this phone's clock is asked for, since that is nearly always the
 * same day, and one answer less is waited for. A phone whose date is wrong asks for both.
 * @param {string} key @param {string} van
 */
async function readManifest(key, van) {
    const here = dayOf(new Date().toISOString(), undefined),
        ofDay = (/** @type {string} */ day) =>
            [`/vehicles/${van}/manifest/${day}`, `/days/${day}/trips.csv`].forEach((path) =>
                readAhead(path, key)
            );
    ofDay(here);
    for (const name of ["places.json", "roster.csv", "outcomes.json", "addresses.json"])
        readAhead(`/drivers/${van}/${name}`, key);
    const reply = await first,
        day = reply?.ok ? dayOf(reply.date, JSON.parse(reply.text).zone) : "";
    if (day && day !== here) ofDay(day);
    // (what nobody took by then is old)
    setTimeout(dropAhead, LONGEST_WAIT);
}

const key = keptText("session", "desk.key"),
    van = keptText("session", "desk.subject.vehicle") ?? "";
const screen =
    key === null && keptText("local", "desk.stay") === null
        ? "signing"
        : location.hash.slice(1).split("/")[0] || keptText("local", "desk.screen") || "";
askWords(WORDS);
askAhead(screen);
// (of what main.js takes something may not come: then it is asked for again)
patiently(() => import("./main.js")).catch(() => {});
if (key !== null && screen === "driver" && /^[1-9]\d*$/.test(van))
    readManifest(key, van).catch(() => {});
