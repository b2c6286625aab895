// What the agency calls its places, fixed routes and vehicles, and what anybody may know of it. The
// site serves it in some files: what is right in them is used, whatever else is wrong, and each
// fault is one line. Over them lies what this browser's admin has put since.

import { isBrand } from "./brand.js";
import { hearServersTime, isDay, isZone, keepClocksOf, keepServiceHours } from "./clock.js";
import * as desk from "./desk.js";
import { agencyFile } from "./early.js";
import { keepObject, keptObject } from "./kept.js";
import { APPEAL_DAYS, HIGHEST_ID, LAST_MINUTE } from "./limits.js";
import { LANGUAGES, t } from "./words.js";

/** @typedef {import("../types").Agency} Agency */
/** @typedef {import("../types").Place} Place */
/** @typedef {import("../types").Route} Route */
/** @typedef {import("../types").Vehicle} Vehicle */
/** @typedef {"places" | "routes" | "vehicles"} Kind */
/** @typedef {Place & Partial<Route>} Named what has a number, of any kind */
/** @typedef {{ settings?: Partial<Agency>, places?: unknown, routes?: unknown, vehicles?: unknown
 * }} Added
 */

/** @type {Kind[]} */
export const KINDS = ["places", "routes", "vehicles"];
const ADDED = "desk.agency",
    STAFF = ["clerk", "examiner", "officer", "dispatcher"],
    DEFAULT_CLOCK = 12,
    DEFAULT_WAIT = 5,
    DEFAULT_LEAD = 15,
    DEFAULT_IDLE = 30;
const DEFAULT_LOCK = 240, LEAST_LOCK = 5, LONGEST_LOCK = 720;

/** @typedef {[string, Record<string, unknown>]} Trouble a key of words and its values */
/** What was wrong in each file that was read.
 * @type {Map<string, Trouble[]>}
 */
const wrong = new Map();
/** @type {Partial<Agency>} */
let settings = {};
/** @type {Record<Kind, Map<number, Named>>} */
let served = { places: new Map(), routes: new Map(), vehicles: new Map() };
/** @type {Map<number, Place>} */
let own = new Map();
/** The rider whose they are. */
let ownOf = 0;
/** @type {Added} */
let added = {};

/** @param {unknown} it @returns {it is string} */
const isText = (it) => typeof it === "string";
const isNumber = (/** @type {unknown} */ it) => typeof it === "number" && Number.isFinite(it);
/** @param {unknown} it @returns {it is Record<string, unknown>} */
const isObject = (it) => typeof it === "object" && it !== null && !Array.isArray(it);
/** @param {unknown} it @param {number} least @param {number} most @returns {it is number} */
const within = (it, least, most) =>
    typeof it === "number" && Number.isInteger(it) && it >= least && it <= most;

/** A record's number; a text of digits is one too.
 * @param {unknown} it
 */
function numberIn(it) {
    const number = isText(it) && /^\d{1,10}$/.test(it) ? Number(it) : it;
    return within(number, 1, HIGHEST_ID) ? number : null;
}

/** What is right in one record, and the names of what is not.
 * @param {object} record @param {Record<string, (it: unknown) => boolean>} fields
 */
function rightIn(record, fields) {
    const given = Object.entries(record).filter(
        ([name, value]) => name in fields && value !== null && value !== undefined
    );
    const right = given.filter(([name, value]) => fields[name](value));
    return {
        right: Object.fromEntries(right),
        faults: given.filter(([name, value]) => !fields[name](value)).map(([name]) => name)
    };
}

const isPoint = (/** @type {unknown} */ it) =>
    Array.isArray(it) && it.length === 2 && it.every(isNumber);
const isYesNo = (/** @type {unknown} */ it) => typeof it === "boolean";
const isMinute = (/** @type {unknown} */ it) => within(it, 0, LAST_MINUTE);

/** @type {Record<Kind, Record<string, (it: unknown) => boolean>>} */
const FIELDS = {
    places: {
        name: isText,
        note: isText,
        noted: isYesNo,
        x: isNumber,
        y: isNumber,
        core: isYesNo,
        private: (it) =>
            isYesNo(it) ||
            numberIn(it) !== null ||
            (Array.isArray(it) && it.length > 0 && it.every((one) => numberIn(one) !== null)),
        latitude: isNumber,
        longitude: isNumber
    },
    routes: {
        name: isText,
        width: isNumber,
        points: (it) => Array.isArray(it) && it.length > 0 && it.every(isPoint),
        accessible: isYesNo,
        days: (it) => Array.isArray(it) && it.every((day) => within(day, 1, 7)),
        first: isMinute,
        last: isMinute
    },
    vehicles: { name: isText },
};

/** The records of one kind by their numbers: a list with an id in each, or an object by numbers.
 * @param {Kind} kind @param {unknown} given
 * @param {Trouble[]} faults
 */
function recordsIn(kind, given, faults) {
    const all = new Map();
    if (given === undefined || given === null) return all;
    if (typeof given !== "object") faults.push(["common.wrong-list", { kind }]);
    const pairs = Array.isArray(given)
        ? given.map((record) => [record?.id, record])
        : isObject(given)
        ? Object.entries(given)
        : [];
    for (const [key, value] of pairs) {
        const record = isText(value) ? { name: value } : value, id = numberIn(record?.id ?? key);
        if (id === null || !isObject(record))
            faults.push(["common.wrong-record", { kind, key: String(key ?? "?") }]);
        else {
            const { right, faults: names } = rightIn(record, FIELDS[kind]);
            for (const name of names) faults.push(["common.wrong-field", { kind, id, name }]);
            all.set(id, { ...(kind === "routes" ? { points: [], width: 0 } : {}), ...right, id });
        }
    }
    return all;
}

/** @type {Record<string, (it: unknown) => boolean>} */
const SETTINGS = {
    name: isText,
    brand: isBrand,
    telephone: isText,
    address: isText,
    zone: (it) => isText(it) && isZone(it),
    first_weekday: (it) => within(it, 1, 7),
    place_word: (it) => isText(it) && it !== "",
    clock: (it) => it === 12 || it === 24,
    languages: (it) => Array.isArray(it) && it.some((one) => LANGUAGES.includes(one)),
    wait_minutes: (it) => within(it, 0, 120),
    lead: (it) => within(it, 0, 60),
    idle_minutes: (it) => within(it, 0, 1440),
    lock_minutes: (it) => within(it, LEAST_LOCK, LONGEST_LOCK),
    appeal: isObject,
    unproved: isYesNo,
    manifest_telephone: isYesNo,
    board_names: isYesNo,
    board_minutes: (it) => within(it, 0, 1440),
    closed: (it) =>
        Array.isArray(it) &&
        it.every(
            (one) =>
                isObject(one) &&
                isDay(String(one.day)) &&
                (one.name === undefined || isText(one.name))
        )
};

/** The settings with what is assumed of what is not there.
 * @returns {Agency}
 */
export function agency() {
    const it = { ...settings, ...(added.settings ?? {}) },
        appeal =
            rightIn(it.appeal ?? {}, {
                to: isText,
                address: isText,
                telephone: isText,
                days: (days) => within(days, 1, 366)
            }).right;
    return {
        name: it.name || t("common.agency"),
        brand: it.brand ?? {},
        telephone: it.telephone ?? "",
        address: it.address ?? "",
        zone: it.zone,
        first_weekday: it.first_weekday ?? 7,
        place_word: it.place_word ?? t("common.place"),
        clock: it.clock ?? DEFAULT_CLOCK,
        languages: it.languages ?? LANGUAGES,
        wait_minutes: it.wait_minutes ?? DEFAULT_WAIT,
        lead: it.lead ?? DEFAULT_LEAD,
        idle_minutes: it.idle_minutes ?? DEFAULT_IDLE,
        lock_minutes: it.lock_minutes ?? DEFAULT_LOCK,
        unproved: it.unproved === true,
        manifest_telephone: it.manifest_telephone === true,
        board_minutes: it.board_minutes ?? 0,
        board_names: it.board_names !== false,
        closed: it.closed ?? [],
        appeal: { to: "", address: "", telephone: "", days: APPEAL_DAYS, ...appeal }
    };
}

/** The word of a day on which nobody is served, empty where it has none; or null where the day is
 * none of them.
 * @param {string} day
 */
export function closedOn(day) {
    const closed = agency().closed.find((it) => it.day === day);
    return closed ? closed.name ?? "" : null;
}

/** Each list as it was made last, and of what: a day looks up some thousand names.
 * @type {Map<Kind, { from: unknown[], list: Named[], byId: Map<number, Named> }>}
 */
const made = new Map();

/** @param {Kind} kind */
function listOf(kind) {
    const from = [served[kind], own, added[kind]], last = made.get(kind);
    if (last && last.from.every((it, at) => it === from[at])) return last;
    const all = new Map(served[kind]);
    if (kind === "places") own.forEach((record, id) => all.set(id, { ...all.get(id), ...record }));
    recordsIn(kind, added[kind], []).forEach((record, id) =>
        all.set(id, { ...all.get(id), ...record })
    );
    const list = [...all.values()].sort((a, b) => a.id - b.id),
        now = { from, list, byId: new Map(list.map((it) => [it.id, it])) };
    made.set(kind, now);
    return now;
}

/** @returns {Place[]} */
export const places = () => [...listOf("places").list];
/** @returns {Route[]} */
export const routes = () => /** @type {Route[]} */ ([...listOf("routes").list]);
/** @returns {Vehicle[]} */
export const vehicles = () => [...listOf("vehicles").list];

/** One line for each thing that is wrong in the files, each once. */
export const troubles = () => [
    ...new Set([...wrong.values()].flat().map(([key, values]) => t(key, values)))
];

// Reading.

/** The object of a file's text, or null, and then its faults say why.
 * @param {string} file @param {string | null} text @param {Trouble[]} faults
 */
function objectOf(file, text, faults) {
    try {
        const it = JSON.parse((text ?? "").replace(/^\ufeff/, ""));
        if (isObject(it)) return it;
        faults.push(["common.wrong-file", { file }]);
    } catch {
        faults.push([text === null ? "common.missing-file" : "common.wrong-file", { file }]);
    }
    return null;
}

/** Takes the records of a file and keeps what was wrong in it.
 * @param {string} file @param {Record<string, unknown> | null} it @param {Trouble[]} faults
 */
function takeRecords(file, it, faults) {
    const there = KINDS.filter((kind) => it && kind in it);
    for (const kind of there) served = { ...served, [kind]: recordsIn(kind, it?.[kind], faults) };
    wrong.set(file, faults);
    keepHours();
}

function keepHours() {
    const all = routes().filter(({ first, last }) => first !== undefined && last !== undefined);
    keepServiceHours(
        all.length
            ? [
                  Math.min(...all.map(({ first }) => Number(first))),
                  Math.max(...all.map(({ last }) => Number(last)))
              ]
            : null
    );
}

let answered = false;

/** Whether the site has said whether there is a file of the agency. */
export const hasAgency = () => answered;

/** The file that anybody may read. Without it everything goes by numbers. */
export async function loadAgency() {
    added = keptObject(ADDED);
    /** @type {Trouble[]} */
    const faults = [];
    const file = "agency.json", text = await textOfAgency();
    if (!answered) faults.push(["common.late-file", { file }]);
    const it = (answered ? objectOf(file, text, faults) : null) ?? {};
    const read = rightIn(it, SETTINGS);
    settings = /** @type {Partial<Agency>} */ (read.right);
    for (const name of read.faults)
        faults.push([
            name === "zone" ? "common.wrong-zone" : "common.wrong-setting",
            { name, value: String(it[name]) }
        ]);
    takeRecords(file, it, faults);
    keepClocksOf(agency());
}

async function textOfAgency() {
    try {
        const { ok, status, date, text } = await agencyFile();
        hearServersTime(date);
        answered = status !== 429 && status < 500;
        return ok ? text : null;
    } catch {
        return null;
    }
}

/** The places, routes and vehicles, as much of them as the caller's key may see; whether the site
 * answered.
 * @param {string} screen @returns {Promise<boolean>}
 */
export async function loadPlaces(screen) {
    for (const path of STAFF.includes(screen)
        ? ["/staff/places.json", "/places.json"]
        : ["/places.json"]) {
        const { status, text } = await desk.fetchFile(path);
        if (status === 0 || status === 429 || status >= 500) return false;
        if (status !== 200) continue;
        /** @type {Trouble[]} */
        const faults = [];
        takeRecords("places.json", objectOf("places.json", text, faults), faults);
        return true;
    }
    return true;
}

/** Whether a rider's private places are there.
 * @param {number} rider
 */
export const hasOwnPlaces = (rider) => ownOf === rider;

/** A rider's private places: the status of the site's reply.
 * @param {number} rider
 */
export async function loadOwnPlaces(rider) {
    const { status, text } = await desk.fetchFile(`/own/${rider}/places.json`);
    /** @type {Trouble[]} */
    const faults = [];
    own =
        status === 200
            ? recordsIn("places", objectOf("own places.json", text, faults)?.places, faults)
            : new Map();
    ownOf = rider;
    wrong.set("own", faults);
    return status;
}

/** Nothing of places stays once somebody has signed out. */
export function forgetPlaces() {
    own = new Map();
    ownOf = 0;
    if (![...wrong.keys()].includes("places.json")) return;
    served = { places: new Map(), routes: new Map(), vehicles: new Map() };
    wrong.delete("places.json");
    wrong.delete("own");
}

// What the admin puts.

/** @param {Kind} kind @param {unknown} record */
export function add(kind, record) {
    const all = recordsIn(kind, [...recordsIn(kind, added[kind], []).values(), record], []);
    added = { ...added, [kind]: [...all.values()] };
    keepObject(ADDED, added);
    keepHours();
}

/** @param {Partial<Agency>} values */
export function addSettings(values) {
    added = { ...added, settings: { ...(added.settings ?? {}), ...values } };
    keepObject(ADDED, added);
    keepClocksOf(agency());
}

/** Goes back to what the server's file says. */
export function forgetAdded() {
    added = {};
    keepObject(ADDED, null);
    keepClocksOf(agency());
}

/** The whole as one file. */
export function agencyText() {
    const it = { ...settings, ...(added.settings ?? {}) };
    const whole = { ...it, places: places(), routes: routes(), vehicles: vehicles() };
    return `${JSON.stringify(whole, null, 2)}\n`;
}

/** Whether this browser has names that the server's file has not. */
export function isAhead() {
    const kept = added, whole = agencyText();
    added = {};
    const plain = agencyText();
    added = kept;
    return whole !== plain;
}

// Names.

/** @param {number} id @returns {Place | null} */
export const placeOf = (id) => own.get(id) ?? listOf("places").byId.get(id) ?? null;
/** The agency's own word for a place, as it begins a name. */
export const placeWord = () => agency().place_word.replace(/^./, (letter) => letter.toUpperCase());
/** @param {number} id */
export const placeName = (id) => placeOf(id)?.name || `${placeWord()} ${id}`;
/** @param {number} id */
export const placeNote = (id) => placeOf(id)?.note ?? "";
/** @param {number} id */
export const vehicleName = (id) =>
    listOf("vehicles").byId.get(id)?.name || t("common.vehicle", { vehicle: id });
/** @param {number} id */
export const routeName = (id) =>
    listOf("routes").byId.get(id)?.name || t("common.line", { line: id });

/** The places that a rider may be offered, as pairs of a number and a name. A private one is
 * offered to its rider alone.
 * @param {number} [rider] @returns {[number, string][]} */
export const placePairs = (rider) =>
    places().filter((place) => isOffered(place, rider)).map(({ id, name }) => [
        id,
        name ? `${name} (${id})` : `${placeWord()} ${id}`
    ]);

/** The places that are private to other riders, for staff alone, whose file has their names:
 * somebody visits a friend.
 * @param {number | undefined} rider @returns {[number, string][]}
 */
export const othersPairs = (rider) =>
    places().filter(
        (place) => place.private && Boolean(place.name) && !isOffered(place, rider)
    ).map(({ id, name }) => [id, `${name} (${id})`]);

/** @param {Place} place @param {number | undefined} rider */
function isOffered({ id, private: whose, name }, rider) {
    if (!whose) return true;
    if (whose === true) return rider === undefined || Boolean(name) || own.has(id);
    return rider === undefined || [whose].flat().map(Number).includes(rider);
}

/** Whether a place is a rider's own, as a home is, be it shared.
 * @param {number} id @param {number} rider
 */
export function isOwnPlace(id, rider) {
    const whose = placeOf(id)?.private;
    return (ownOf === rider && own.has(id)) ||
        (
            whose !== undefined &&
            typeof whose !== "boolean" &&
            [whose].flat().map(Number).includes(rider)
        );
}

/** Whether a point lies at most so many feet from some segment of a line: whole numbers below 2 to
 * the 53rd, so nothing is rounded.
 * @param {[number, number]} point
 * @param {[number, number]} from
 * @param {[number, number]} to
 * @param {number} feet
 */
function isNear([x, y], [ax, ay], [bx, by], feet) {
    const [dx, dy] = [bx - ax, by - ay],
        along = (x - ax) * dx + (y - ay) * dy,
        long = dx * dx + dy * dy;
    if (along <= 0) return (x - ax) ** 2 + (y - ay) ** 2 <= feet * feet;
    if (along >= long) return (x - bx) ** 2 + (y - by) ** 2 <= feet * feet;
    const cross = BigInt(Math.round(dx * (y - ay) - dy * (x - ax))),
        wide = BigInt(Math.round(feet));
    return cross * cross <= wide * wide * BigInt(Math.round(long));
}

/** The routes in whose corridor a place lies.
 * @param {Place} place
 */
export const corridorsOf = (place) =>
    routes().filter(
        (route) =>
            place.core ||
            (
                place.x !== undefined &&
                place.y !== undefined &&
                route.points.some(
                    (point, at) =>
                        at > 0 &&
                        isNear(
                            [Number(place.x), Number(place.y)],
                            route.points[at - 1],
                            point,
                            route.width
                        )
                )
            )
    );
