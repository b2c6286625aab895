// A rider's trips as a calendar file (RFC 5545), which phones and mail programs read. Nothing here
// reads the page.

/** @typedef {{ trip: number, day: string, window_from: number, window_to: number, status: string }}
 * Trip minutes are from the day's midnight, and a canceled one has the desk's status "cancelled"
 */
/** @typedef {{ summary: string, place: string, description: string }} Words */

const LONGEST = 75,
    MINUTE = 60_000,
    TRIES = 3;
const utf8 = new TextEncoder();

/** @param {string} text */
const escaped = (text) =>
    text
        .replace(/[\\;,]/g, "\\$&")
        .replace(/\r\n|[\r\n]/g, "\\n")
        .replace(/[\u0000-\u0008\u000b-\u001f\u007f]/g, "");

/** A line in pieces of at most 75 bytes, of which each but the first begins with a blank. No
 * character is cut.
 * @param {string} line */
export function folded(line) {
    const pieces = [""];
    let room = LONGEST;
    for (const sign of line) {
        const bytes = utf8.encode(sign).length;
        if (bytes > room) {
            pieces.push("");
            room = LONGEST - 1;
        }
        pieces[pieces.length - 1] += sign;
        room -= bytes;
    }
    return pieces.join("\r\n ");
}

/** By how many milliseconds a zone's clock is ahead at a moment.
 * @param {number} moment @param {string} zone */
function ahead(moment, zone) {
    const parts = new Intl.DateTimeFormat("en-US", {
        timeZone: zone,
        hourCycle: "h23",
        year: "numeric",
        month: "numeric",
        day: "numeric",
        hour: "numeric",
        minute: "numeric"
    }).formatToParts(moment);
    const [year, month, day, hour, minute] = ["year", "month", "day", "hour", "minute"].map(
        (name) => Number(parts.find(({ type }) => type === name)?.value)
    );
    return Date.UTC(year, month - 1, day, hour, minute) - Math.floor(moment / MINUTE) * MINUTE;
}

/** A minute of a day by the agency's clock, as the file has it: in UTC where the zone is known,
 * else as any clock shows it.
 * @param {string} day @param {number} minute @param {string} [zone] */
export function momentOf(day, minute, zone) {
    const [year, month, date] = day.split("-").map(Number),
        wall = Date.UTC(year, month - 1, date, 0, minute);
    let moment = wall;
    for (let tried = 0; zone && tried < TRIES; tried += 1) moment = wall - ahead(moment, zone);
    return stampOf(moment) + (zone ? "Z" : "");
}

/** @param {number} moment */
const stampOf = (moment) => new Date(moment).toISOString().slice(0, 19).replace(/[-:]/g, "");

/** An event goes by its trip in each file, and the later file has the higher number: so a calendar
 * that has the first takes what the second says.
 * @param {Trip} trip
 * @param {Words} words
 * @param {{ zone?: string, host: string, now: number }} about
 */
const eventOf = (
    { trip, day, window_from: begins, window_to: ends, status },
    { summary, place, description },
    { zone, host, now }
) => [
    "BEGIN:VEVENT",
    `UID:trip-${trip}@${host}`,
    `SEQUENCE:${Math.floor(now / MINUTE)}`,
    `DTSTAMP:${stampOf(now)}Z`,
    `DTSTART:${momentOf(day, begins, zone)}`,
    `DTEND:${momentOf(day, ends, zone)}`,
    `SUMMARY:${escaped(summary)}`,
    `LOCATION:${escaped(place)}`,
    `DESCRIPTION:${escaped(description)}`,
    `STATUS:${status === "cancelled" ? "CANCELLED" : "CONFIRMED"}`,
    "END:VEVENT"
];

/** The file.
 * @template {Trip} T
 * @param {T[]} trips
 * @param {(trip: T) => Words} wordsOf
 * @param {{ zone?: string, host: string, now: number }} about
 */
export const calendarOf = (trips, wordsOf, about) =>
    [
        "BEGIN:VCALENDAR",
        "VERSION:2.0",
        "PRODID:-//desk//trips//EN",
        "CALSCALE:GREGORIAN",
        "METHOD:PUBLISH",
        ...trips.flatMap((trip) => eventOf(trip, wordsOf(trip), about)),
        "END:VCALENDAR"
    ].map((line) => `${folded(line)}\r\n`).join("");
