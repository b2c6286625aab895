// What the driver's phone reads, and its copy of it: the manifest of a day with the names of its
// places and riders. The copy is there without a line, for the key alone that read it, until it
// signs out, the day is over, or the phone locks.

import { placeOf, placeWord } from "../parts/agency.js";
import { momentNow, today } from "../parts/clock.js";
import * as desk from "../parts/desk.js";
import { copyName } from "../parts/manifest-copies.js";
import { copyOf, keepCopy } from "../parts/queue.js";
import { cellsOf, riderOf } from "../parts/roster.js";
import { manifestsIn, rowsIn } from "../parts/texts.js";
import { t } from "../parts/words.js";

/**
 * @typedef {{ name?: string, note?: string, latitude?: number, longitude?: number }} PlaceNames
 * @typedef {{ name: string, note: string }} RiderNames
 * @typedef {{ street: string, note?: string, latitude?: number, longitude?: number }} Address
 * @typedef {{ places: Record<string, PlaceNames>, riders: Record<string, RiderNames>, fares:
 * Record<string, number>, addresses?: Record<string, { from?: Address, to?: Address }> }} Names
 * @typedef {{ text: string, stops: import("./driver-day.js").Stop[], readAt: string, names: Names,
 * known: import("./driver-day.js").Known }} Read
 * @typedef {Record<string, string>} Records how trips ended, as the desk has it
 * @typedef {Record<string, { kind: string, minute: number }>} Taps the last that drivers of the van
 * told the site's log of each trip
 */

/** @type {Names} */
export const NO_NAMES = { places: {}, riders: {}, fares: {} };

/** @param {string} text */
const stopsIn = (text) => /** @type {import("./driver-day.js").Stop[]} */ (
    manifestsIn(text)[0]?.stops ??
    []
);

/** The copy of a day, or null.
 * @param {number} vehicle @param {string} day @returns {Promise<Read | null>} */
export async function keptDay(vehicle, day) {
    const kept = await copyOf(copyName(vehicle, day)).catch(() => null);
    return kept && { known: {}, ...kept, stops: stopsIn(kept.text) };
}

/** A file for the driver of a vehicle, or nothing where the site has none.
 * @param {number} vehicle @param {string} file */
async function driversFile(vehicle, file) {
    const { status, text } = await desk.fetchFile(`/drivers/${vehicle}/${file}`);
    return status === 200 ? (text ?? "").replace(/^\ufeff/, "") : "";
}

/** Every place by its number, with the private ones: a driver has to find them.
 * @param {number} vehicle @returns {Promise<Map<number, PlaceNames>>} */
async function allPlaces(vehicle) {
    try {
        const { places } = JSON.parse(await driversFile(vehicle, "places.json"));
        return new Map(places.map((/** @type {PlaceNames & { id: number }} */ it) => [it.id, it]));
    } catch {
        return new Map();
    }
}

/** @param {unknown} text */
const textOf = (text) => (typeof text === "string" ? text : undefined);
/** @param {unknown} angle */
const angleOf = (angle) => (typeof angle === "number" ? angle : undefined);

/** Names of the places of these stops, as far as they are known now.
 * @param {import("./driver-day.js").Stop[]} stops @param {Map<number, PlaceNames>} all
 * @returns {Record<string, PlaceNames>} */
function placesOf(stops, all) {
    const known = [...new Set(stops.map(({ place }) => place))].map((id) => ({
        id,
        ...placeOf(id),
        ...all.get(id)
    }));
    return Object.fromEntries(
        known.map(({ id, name, note, latitude, longitude }) => [
            id,
            {
                name: textOf(name),
                note: textOf(note),
                latitude: angleOf(latitude),
                longitude: angleOf(longitude)
            }
        ]).filter(([, it]) => Object.values(it).some((value) => value !== undefined))
    );
}

/** The drivers' own file of riders: rider, name, note.
 * @param {number} vehicle @returns {Promise<Record<string, RiderNames>>} */
async function ridersOf(vehicle) {
    const [head = [], ...rows] = cellsOf(await driversFile(vehicle, "roster.csv")),
        names = head.map((name) => name.toLowerCase());
    const cell = (/** @type {string[]} */ row, /** @type {string} */ name) =>
        row[names.indexOf(name)] ?? "";
    return Object.fromEntries(
        rows.filter((row) => cell(row, "rider")).map((row) => [
            cell(row, "rider"),
            { name: cell(row, "name"), note: cell(row, "note") }
        ])
    );
}

/** Keys that may not read the export; a driver's may not. */
const withoutExport = new Set();

/** What is due for each trip and how it ended, where the key may know it.
 * @param {string} day @returns {Promise<{ fares: Record<string, number>, records: Records }>} */
async function exportOf(day) {
    if (withoutExport.has(desk.digest())) return { fares: {}, records: {} };
    const reply = await desk.readOnce(`/days/${day}/trips.csv`),
        rows = reply.value === undefined ? [] : rowsIn(/** @type {string} */ (reply.value));
    if (reply.denied) withoutExport.add(desk.digest());
    const ended = rows.filter(({ status }) => status !== "booked");
    return {
        fares: Object.fromEntries(rows.map(({ trip, due }) => [trip, due])),
        records: Object.fromEntries(ended.map(({ trip, status }) => [trip, status]))
    };
}

/** How the trips of a vehicle ended, and what its drivers told today, as the site's file for its
 * driver has it.
 * @param {number} vehicle @returns {Promise<{ outcomes: Records, taps: Taps }>} */
async function recordsOf(vehicle) {
    try {
        const { outcomes, taps } = JSON.parse(await driversFile(vehicle, "outcomes.json"));
        return { outcomes: outcomes ?? {}, taps: taps ?? {} };
    } catch {
        return { outcomes: {}, taps: {} };
    }
}

/** @type {Record<string, string>} */
const HOW = {
    aboard: "aboard",
    dropped: "ridden",
    "no-show": "missed-rider",
    missed: "missed-operator"
};

/** What others have told of each trip: the desk's record, or else the last tap in the site's log.
 * @param {Records} records @param {Taps} taps @returns {import("./driver-day.js").Known} */
function knownOf(records, taps) {
    const told = Object.entries(taps).flatMap(([trip, { kind, minute }]) => (
        HOW[kind] ? [[trip, { how: HOW[kind], minute }]] : []
    ));
    return Object.fromEntries([
        ...told,
        ...Object.entries(records).map(([trip, how]) => [trip, { how, minute: null }])
    ]);
}

/** Which address each end of a trip means, as the site's file for the driver has it.
 * @param {number} vehicle @returns {Promise<Record<string, { from?: Address, to?: Address }>>} */
async function addressesOf(vehicle) {
    try {
        return JSON.parse(await driversFile(vehicle, "addresses.json")).addresses ?? {};
    } catch {
        return {};
    }
}

/** The names of a day's copy: the site's files for the driver no longer have those of a day that is
 * over.
 * @param {number} vehicle @param {string} day @returns {Promise<Names>} */
const keptNames = async (vehicle, day) => (await keptDay(vehicle, day))?.names ?? NO_NAMES;

/** Reads a day once, and keeps a copy of it: what was read, or why not.
 * @param {number} vehicle @param {string} day @param {Names} shown names that are known already
 * @returns {Promise<(Read & { records: Records }) | { denied: string } | { silent: string }>} */
export async function readDay(vehicle, day, shown) {
    // (all at once: on a phone's line each answer takes its time)
    const reading = desk.readOnce(`/vehicles/${vehicle}/manifest/${day}`);
    const files = Promise.all([
        allPlaces(vehicle),
        ridersOf(vehicle),
        exportOf(day),
        recordsOf(vehicle),
        addressesOf(vehicle),
        shown === NO_NAMES ? keptNames(vehicle, day) : shown
    ]);
    files.catch(() => {});
    const reply = await reading;
    if (reply.silent) return { silent: reply.silent };
    if (reply.denied) return { denied: reply.denied };
    const text = /** @type {string} */ (reply.value),
        stops = stopsIn(text),
        [
            places,
            riders,
            { fares, records: exported },
            { outcomes, taps },
            addresses,
            before
        ] = await files,
        records = { ...outcomes, ...exported };
    const names = {
        places: { ...before.places, ...placesOf(stops, places) },
        riders: { ...before.riders, ...riders },
        fares: { ...before.fares, ...fares },
        addresses: { ...before.addresses, ...addresses }
    };
    const read = {
        text,
        readAt: momentNow(),
        names,
        known: knownOf(records, day === today() ? taps : {})
    };
    // (a phone without room for a copy shows what it read all the same, and no phone waits for its
    // disk)
    keepCopy(copyName(vehicle, day), read).catch(() => {});
    return { ...read, stops, records };
}

/** @param {number} id @param {Names} names */
export const placeAt = (id, names) => /** @type {PlaceNames} */ ({
    ...placeOf(id),
    ...names.places[id]
});
/** @param {number} id @param {Names} names */
export const placeNameAt = (id, names) => placeAt(id, names).name || `${placeWord()} ${id}`;
/** The address that a stop means, or null where the place alone is known.
 * @param {{ what: string, trip?: number }} stop @param {Names} names @returns {Address | null} */
export const addressAt = ({ what, trip }, names) =>
    names.addresses?.[trip ?? 0]?.[what === "PICK" ? "from" : "to"] ?? null;
/** Where a stop is: the street of its address, else the name of its place.
 * @param {{ what: string, trip?: number, place: number }} stop @param {Names} names */
export const stopNameAt = (stop, names) =>
    addressAt(stop, names)?.street ?? placeNameAt(stop.place, names);
/** @param {number} rider @param {Names} names @returns {RiderNames} */
export const riderAt = (rider, names) =>
    names.riders[rider] ?? riderOf(rider) ?? { name: "", note: "" };
/** "Ana Lopez, rider 1005", or "rider 1005".
 * @param {number} rider @param {Names} names */
export const whoAt = (rider, names) =>
    [riderAt(rider, names).name, t("common.rider", { rider })].filter(Boolean).join(", ");

/** The vehicle that this key has shown last on this phone.
 * @returns {Promise<number | null>} */
export const keptVehicle = () => copyOf("vehicle").catch(() => null);
/** @param {number} vehicle */
export const keepVehicle = (vehicle) => keepCopy("vehicle", vehicle).catch(() => {});

/** The address of a place for the phone's own maps, or null where the agency gives no coordinates
 * of the earth.
 * @param {PlaceNames} place */
export function mapLink({ latitude, longitude }) {
    if (latitude === undefined || longitude === undefined) return null;
    const point = `${latitude},${longitude}`;
    if (/iPhone|iPad|Macintosh/.test(navigator.userAgent))
        return `https://maps.apple.com/?daddr=${point}`;
    if (/Android/.test(navigator.userAgent)) return `geo:${point}?q=${point}`;
    const marked = `mlat=${latitude}&mlon=${longitude}`;
    return `https://www.openstreetmap.org/?${marked}#map=17/${latitude}/${longitude}`;
}
