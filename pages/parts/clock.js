// Days and minutes, as the agency's clocks show them. A day is a text YYYY-MM-DD and a minute a
// number from midnight, as in the API.

import { keepText, keptText } from "./kept.js";
import { DAYS_AHEAD, FIRST_DAY, LAST_DAY } from "./limits.js";
import { language, t } from "./words.js";

const MILLISECONDS = 86_400_000, HALF_DAY = 720, DAY = 1440, LOOKED = 15_000;

const AHEAD = "desk.ahead";

/** How far the server's clock is ahead of this machine's, kept for when there is no line. */
let ahead = keptAhead(),
    firstWeekday = 7,
    hours = 12;
/** @type {string | undefined} */
let zone;
/** The minutes between which the agency's lines run, where they are known.
 * @type {[number, number] | null}
 */
let service = null;

function keptAhead() {
    const kept = Number(keptText("local", AHEAD) ?? 0);
    return Number.isFinite(kept) ? kept : 0;
}

/** @param {string} text */
export function isZone(text) {
    try {
        return Boolean(new Intl.DateTimeFormat("en", { timeZone: text }));
    } catch {
        return false;
    }
}

/** @param {{ zone?: string, first_weekday: number, clock: 12 | 24 }} agency */
export function keepClocksOf(agency) {
    zone = agency.zone;
    firstWeekday = agency.first_weekday;
    hours = agency.clock;
}

/** @param {[number, number] | null} span */
export function keepServiceHours(span) {
    service = span;
}

/** The server's clock is believed, not this machine's: a reply's header Date tells how far they are
 * apart.
 * @param {string | null} header
 */
export function hearServersTime(header) {
    const heard = Date.parse(header ?? "");
    if (Number.isNaN(heard) || Math.abs(heard - Date.now() - ahead) <= 2000) return;
    ahead = heard - Date.now();
    keepText("local", AHEAD, String(ahead));
}

/** Milliseconds since 1970, by the server's clock. */
export const serverNow = () => Date.now() + ahead;

/** The one that writes a moment by the clocks of a zone, and what it wrote last: to make one takes
 * longer than a hundred readings.
 * @type {{ zone: string | undefined, format: Intl.DateTimeFormat, second: number, parts:
 * Record<string, string> } | null}
 */
let written = null;

/** @param {number} [at] milliseconds of the server's clock */
function parts(at = serverNow()) {
    const second = Math.floor(at / 1000);
    if (written?.zone !== zone || !written) {
        written = {
            zone,
            second: NaN,
            parts: {},
            format: new Intl.DateTimeFormat("en-CA", {
                timeZone: zone,
                hourCycle: "h23",
                year: "numeric",
                month: "2-digit",
                day: "2-digit",
                hour: "2-digit",
                minute: "2-digit",
                second: "2-digit"
            })
        };
    }
    if (written.second !== second) {
        written.second = second;
        written.parts = Object.fromEntries(
            written.format.formatToParts(new Date(at)).map(({ type, value }) => [type, value])
        );
    }
    return written.parts;
}

export function today() {
    const { year, month, day } = parts();
    return `${year}-${month}-${day}`;
}

/** A moment by the agency's clocks, YYYY-MM-DDTHH:MM:SS: now, or of these milliseconds of the
 * server's clock.
 * @param {number} [at] */
export function momentAt(at) {
    const { year, month, day, hour, minute, second } = parts(at);
    return `${year}-${month}-${day}T${hour}:${minute}:${second}`;
}

export const momentNow = () => momentAt();

export function minuteNow() {
    const { hour, minute } = parts();
    return Number(hour) * 60 + Number(minute);
}

/** @param {string} text */
export const isDay = (text) =>
    /^\d{4}-\d{2}-\d{2}$/.test(text) &&
    text >= FIRST_DAY &&
    text <= LAST_DAY &&
    !Number.isNaN(Date.parse(text)) &&
    new Date(Date.parse(text)).toISOString().startsWith(text);

/** @param {string} day @param {number} days */
export const plus = (day, days) =>
    new Date(Date.parse(day) + days * MILLISECONDS).toISOString().slice(0, 10);

/** The weekday's number of a day, Monday being 1.
 * @param {string} day
 */
export const weekdayOf = (day) => new Date(Date.parse(day)).getUTCDay() || 7;

const speech = () => (language() === "es" ? "es-US" : "en-US");

/** The formats of days, by language and form.
 * @type {Map<string, Intl.DateTimeFormat>}
 */
const formats = new Map();

/** @param {string} day @param {Intl.DateTimeFormatOptions} options */
function worded(day, options) {
    const name = `${speech()} ${Object.entries(options)}`,
        format =
            formats.get(name) ?? new Intl.DateTimeFormat(speech(), { ...options, timeZone: "UTC" });
    formats.set(name, format);
    return format.format(new Date(Date.parse(day)));
}

/** Spanish has no comma behind the day of the week.
 * @param {string} text @param {string} [it] the language
 */
const asSpoken = (text, it = language()) => (
    it === "es" ? text.replace(/^([^\s,]+), /, "$1 ") : text
);
/** "Monday, March 10, 2025".
 * @param {string} day
 */
export const dayInWords = (day) => asSpoken(worded(day, { dateStyle: "full" }));
/** "Mon, Mar 10".
 * @param {string} day
 */
export const dayShort = (day) =>
    asSpoken(worded(day, { weekday: "short", month: "short", day: "numeric" }));
/** "Mon, Mar 10" as a reader says it: Spanish has the whole words, "lunes 10 de marzo".
 * @param {string} day
 */
export const dayPlain = (day) => (
    language() === "es"
        ? asSpoken(worded(day, { weekday: "long", month: "long", day: "numeric" }))
        : dayShort(day)
);
/** @param {string} day */
export const monthDay = (day) => worded(day, { month: "short", day: "numeric" });
/** @param {string} day */
export const weekdayShort = (day) => worded(day, { weekday: "short" });

/** With its year, since it may be far away: "Feb 28, 2026"; in Spanish "28 de febrero de 2026".
 * @param {string} day
 */
export const dayOfYear = (day) =>
    worded(day, { dateStyle: language() === "es" ? "long" : "medium" });

/** "Monday".
 * @param {string} day
 */
export const weekdayInWords = (day) => worded(day, { weekday: "long" });

export const bookableDays = () =>
    Array.from({ length: DAYS_AHEAD }, (_, index) => plus(today(), index + 1));

/** Pairs of a weekday's number, Monday being 1, and its name, from the agency's first day of the
 * week on.
 * @returns {[number, string][]}
 */
export const weekdays = () =>
    Array.from({ length: 7 }, (_, index) => (index + firstWeekday - 1) % 7 + 1).map((number) => [
        number,
        weekdayInWords(plus("2024-01-01", number - 1))
    ]);

/** The names of the twelve months. */
export const monthNames = () =>
    Array.from({ length: 12 }, (_, at) =>
        worded(`2024-${String(at + 1).padStart(2, "0")}-15`, { month: "long" })
    );

/** 09:15.
 * @param {number} minute
 */
export const clock24 = (minute) =>
    `${String(Math.floor(minute / 60)).padStart(2, "0")}:${String(minute % 60).padStart(2, "0")}`;

/** @param {number} minute */
const half = (minute) => t(minute % DAY < HALF_DAY ? "common.am" : "common.pm");
/** @param {number} minute */
const bare = (minute) =>
    `${Math.floor(minute / 60) % 12 || 12}:${String(minute % 60).padStart(2, "0")}`;

/** A time of the day as the agency writes it: 9:15 AM, or 09:15.
 * @param {number} minute
 */
export const clock = (minute) => (
    hours === 24 ? clock24(minute) : `${bare(minute)} ${half(minute)}`
);

/** Two times, with one AM or PM where they share it: 9:00–9:30 AM.
 * @param {number} from @param {number} to
 */
export function between(from, to) {
    if (hours === 24 || half(from) !== half(to)) return `${clock(from)}–${clock(to)}`;
    return `${bare(from)}–${clock(to)}`;
}

/** What people write for a time: the hour, the minutes, and the half of the day.
 * @param {string} text
 */
function timeParts(text) {
    const plain = text.trim().toLowerCase().replace(/[\u00a0\u202f]/g, " ");
    if (/^(12 ?)?(noon|mediod[ií]a)$/.test(plain)) return { hour: 12, minutes: 0, half: "p" };
    if (/^(12 ?)?(midnight|medianoche)$/.test(plain)) return { hour: 12, minutes: 0, half: "a" };
    const it = /^(\d{1,2})(?:[:.h ]?(\d{2}))? ?(?:([ap])\.? ?(?:m\.?)?)?$/.exec(plain);
    return it && {
            hour: Number(it[1]),
            minutes: Number(it[2] ?? 0),
            half: it[3] ?? "",
            sure: it[1].length === 2 && it[1][0] === "0"
        };
}

/** The minute of what people write: 9, 9am, 9:30a, noon, 1330. Where it may be of the morning or of
 * the evening: both.
 * @param {string} text
 * @returns {{ minute?: number, ambiguous?: [number, number], wrong?: boolean }}
 */
export function readTime(text) {
    const it = timeParts(text);
    if (!it || it.minutes > 59 || it.hour > 23) return { wrong: true };
    const minute = it.hour * 60 + it.minutes;
    if (it.half) {
        if (it.hour < 1 || it.hour > 12) return { wrong: true };
        return { minute: (it.hour % 12) * 60 + it.minutes + (it.half === "p" ? HALF_DAY : 0) };
    }
    if (hours === 24 || it.sure || it.hour > 12 || it.hour === 0) return { minute };
    const early = minute % HALF_DAY, late = early + HALF_DAY;
    const runs = [early, late].filter(
        (at) => !service || (at >= service[0] - 60 && at <= service[1] + 60)
    );
    return runs.length === 1 ? { minute: runs[0] } : { ambiguous: [early, late] };
}

/** Does something when the agency's day has changed, as long as an element is on the page.
 * @param {HTMLElement} place @param {() => void} act
 */
export function onNewDay(place, act) {
    let day = today(), shown = false;
    const look = () => {
        if (!place.isConnected) {
            if (shown) stop();
            return;
        }
        shown = true;
        if (today() === day) return;
        day = today();
        act();
    };
    const seen = () => {
        if (!document.hidden) look();
    };
    const looking = setInterval(look, LOOKED);
    const stop = () => {
        clearInterval(looking);
        document.removeEventListener("visibilitychange", seen);
    };
    document.addEventListener("visibilitychange", seen);
}
