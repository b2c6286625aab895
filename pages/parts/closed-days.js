// The closed days of agency.json as an admin types them: on each line a day, and after a blank the
// word that people read.

/** @typedef {{ day: string, name?: string }} Closed */

/** @param {string} text */
const linesOf = (text) => text.split("\n").map((it) => it.trim()).filter(Boolean);

/** A day of the calendar, YYYY-MM-DD, of 2000 to 2099.
 * @param {string} text
 */
function isDay(text) {
    const at = /^20\d{2}-\d{2}-\d{2}$/.test(text) ? new Date(`${text}T00:00:00Z`) : null;
    return at !== null && !Number.isNaN(at.getTime()) && at.toISOString().slice(0, 10) === text;
}

/** @param {string} line @returns {Closed} */
function closedOf(line) {
    const [day, ...words] = line.split(/\s+/), name = words.join(" ");
    return name ? { day, name } : { day };
}

/** @param {Closed[]} closed */
export const closedText = (closed) =>
    closed.map(({ day, name }) => (name ? `${day} ${name}` : day)).join("\n");

/** The first line that begins with no day, or with one that stands above already; null where there
 * is none.
 * @param {string} text
 */
export function wrongLine(text) {
    const lines = linesOf(text), days = lines.map((it) => closedOf(it).day);
    return lines.find((_, at) => !isDay(days[at]) || days.indexOf(days[at]) < at) ?? null;
}

/** The name of the closed day on which a trip is still booked, empty where the day has none; or
 * null where nobody has to be warned.
 * @param {{ day: string, status: string }} trip @param {Closed[]} closed @param {string} today
 */
export function closedFor({ day, status }, closed, today) {
    const found =
        status === "booked" && day >= today ? closed.find((it) => it.day === day) : undefined;
    return found ? found.name ?? "" : null;
}

/** The closed days of a text without a wrong line, by rising day.
 * @param {string} text @returns {Closed[]}
 */
export const closedIn = (text) =>
    linesOf(text).map(closedOf).sort((a, b) => (a.day < b.day ? -1 : 1));
