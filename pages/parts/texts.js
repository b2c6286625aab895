// What the desk prints: manifests, day sheets, letters, the export. They are read by their forms
// and nothing else.

/**
 * One line of a manifest. line is the desk's own text; people and wheelchairs are how many get in
 * or out; a line of a form that is not known has its text alone.
 * @typedef {{ line: string, at: number, what: "DEPOT" | "PICK" | "DROP", place: number, load:
 * number, chairs?: number, trip?: number, rider?: number, window?: [number, number] | null, people:
 * number, wheelchairs: number }} Stop
 * @typedef {{ vehicle: number, day: string, stops: Stop[], lines: string[], text: string }}
 * Manifest
 * @typedef {{ trip: number, rider: number, day: string, wish: number, from: number, to: number,
 * vehicle: number, window_from: number, window_to: number, due: number, status:
 * import("../types").Status }} Row a trip in the export
 * @typedef {"to-come" | "under-way" | "no-word" | import("../types").Status} State how a trip is
 * doing: no-word is a planned drop that is past without an outcome
 * @typedef {{ state: State, minutes: number }} Doing minutes is for how long there has been no word
 */

const STOP =
    /^(\d\d):(\d\d) (?:(DEPOT) (\d+)|(PICK|DROP) trip (\d+) rider (\d+) place (\d+) load (\d+)(?: chairs (\d+))?(.*))$/;
const WINDOW = /window (\d\d):(\d\d)-(\d\d):(\d\d)/;

/** @param {string} hours @param {string} minutes */
const minute = (hours, minutes) => Number(hours) * 60 + Number(minutes);

/** @param {string} line @returns {Stop | null} */
function stopOf(line) {
    const found = STOP.exec(line);
    if (!found) return null;
    const at = minute(found[1], found[2]), none = { line, at, people: 0, wheelchairs: 0 };
    if (found[3]) return { ...none, what: "DEPOT", place: Number(found[4]), load: 0 };
    const window = WINDOW.exec(found[11] ?? "");
    return {
        ...none,
        what: found[5] === "PICK" ? "PICK" : "DROP",
        trip: Number(found[6]),
        rider: Number(found[7]),
        place: Number(found[8]),
        load: Number(found[9]),
        ...(found[10] === undefined ? {} : { chairs: Number(found[10]) }),
        window: window && [minute(window[1], window[2]), minute(window[3], window[4])]
    };
}

/** How many are aboard after a stop, in seats and in wheelchair places.
 * @param {{ load: number, chairs?: number }} stop
 */
export const aboardAt = ({ load, chairs }) => load + (chairs ?? 0);

/** How many get in or out at a stop, which the loads before and after it tell.
 * @param {Stop} stop @param {Stop | undefined} before
 */
function counted(stop, before) {
    const wheelchairs = Math.abs((stop.chairs ?? 0) - (before?.chairs ?? 0));
    return {
        ...stop,
        wheelchairs,
        people: Math.abs(aboardAt(stop) - (before ? aboardAt(before) : 0))
    };
}

/** The manifests of a manifest or of a day sheet. lines are all of the desk's lines, text the same
 * as one.
 * @param {string} text
 */
export function manifestsIn(text) {
    /** @type {Manifest[]} */
    const manifests = [];
    for (const line of text.split("\n")) {
        const head = /^VEHICLE (\d+) DAY (\S+)$/.exec(line);
        if (head)
            manifests.push({
                vehicle: Number(head[1]),
                day: head[2],
                stops: [],
                lines: [],
                text: ""
            });
        const last = manifests.at(-1);
        if (!last || !line || line.startsWith("TRIPS ")) continue;
        last.text += `${line}\n`;
        last.lines.push(line);
        const stop = stopOf(line);
        if (stop) last.stops.push(counted(stop, last.stops.at(-1)));
    }
    return manifests;
}

/** @param {string} sheet */
export const tripsThatStand = (sheet) => Number(/^TRIPS (\d+)$/m.exec(sheet)?.[1] ?? 0);

/** The rows of the export that was read last, by their lines: a renewal changes few of them.
 * @type {{ head: string, rows: Map<string, Row> }}
 */
let exported = { head: "", rows: new Map() };

/** The rows of the export, by the names of its header; numbers are numbers. A line that was there
 * before is the same row.
 * @param {string} csv @returns {Row[]}
 */
export function rowsIn(csv) {
    const [head, ...lines] = csv.trimEnd().split("\n"),
        names = head.split(","),
        before = exported.head === head ? exported.rows : new Map();
    const row = (/** @type {string} */ line) => /** @type {Row} */ (
        /** @type {unknown} */ (Object.fromEntries(
            line.split(",").map((text, at) => [
                names[at],
                /^\d+$/.test(text) ? Number(text) : text
            ])
        ))
    );
    const rows = lines.map((line) => before.get(line) ?? row(line));
    exported = { head, rows: new Map(lines.map((line, at) => [line, rows[at]])) };
    return rows;
}

/** The status of a trip that is over: how it ended, or that it was canceled; empty where it is
 * still booked, or is none of the day.
 * @param {Pick<Row, "trip" | "status">[]} rows @returns {(trip: number) => string}
 */
export function overOf(rows) {
    const ended = new Map(
        rows.filter(({ status }) => status !== "booked").map(({ trip, status }) => [trip, status])
    );
    return (trip) => ended.get(trip) ?? "";
}

/** How each trip of a day is doing, by its number. now is the minute of that day: before it began
 * it is negative, after it was over 1440.
 * @param {Manifest[]} manifests @param {Row[]} rows @param {number} now
 */
export function doingOf(manifests, rows, now) {
    /** @type {Map<number, Doing>} */
    const all = new Map();
    const times = (/** @type {"PICK" | "DROP"} */ which) =>
        new Map(
            manifests.flatMap(({ stops }) =>
                stops.filter(({ what }) => what === which).map(({ trip, at }) => [Number(trip), at])
            )
        );
    const picks = times("PICK"), drops = times("DROP");
    for (const { trip, status, window_from: from, window_to: to } of rows) {
        const pick = picks.get(trip) ?? from, drop = drops.get(trip) ?? to;
        if (status !== "booked") all.set(trip, { state: status, minutes: 0 });
        else if (now > drop) all.set(trip, { state: "no-word", minutes: now - drop });
        else all.set(trip, { state: now >= pick ? "under-way" : "to-come", minutes: 0 });
    }
    return all;
}
