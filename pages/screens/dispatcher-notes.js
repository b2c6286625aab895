// Notes of the day on a van or a trip, as drivers and dispatchers wrote them, and who drives a van
// on a day.

import { askNote } from "../parts/ask-note.js";
import { clock, minuteNow } from "../parts/clock.js";
import { button, part, say } from "../parts/element.js";
import { icon } from "../parts/icons.js";
import { notesOfDay } from "../parts/lateness.js";
import { fileAt, reading } from "../parts/reads.js";
import { count } from "../parts/tally.js";
import { t } from "../parts/words.js";

/** @typedef {import("../parts/lateness.js").Told} Told */
/** @typedef {import("../parts/lateness.js").Note} Note */
/** @typedef {(vehicle: number, trip: number) => Note[]} Notes trip is 0 for the van */
/** @typedef {(vehicle: number) => string} Duty who drives a van on the day that is shown, or which
 * other van stands in for it; empty where nobody says
 */

const PATH = "/staff/duty.json",
    RENEWED = 300_000;

/** What was written in this window, until the site's file has it.
 * @type {(Note & { day: string })[]}
 */
let mine = [];

/** @param {Note} one */
const isSame = (one) => (/** @type {Note} */ other) =>
    one.vehicle === other.vehicle && one.trip === other.trip && one.text === other.text;

/** The notes of a day, the first one first.
 * @param {string} day @param {Told | null} told of today @returns {Notes}
 */
export function notesOn(day, told) {
    const known = notesOfDay(told, day);
    mine = mine.filter((it) => it.day !== day || !known.some(isSame(it)));
    const all = [...known, ...mine.filter((it) => it.day === day)].sort(
        (a, b) => a.minute - b.minute
    );
    return (vehicle, trip) => all.filter((it) => it.vehicle === vehicle && it.trip === trip);
}

/** @param {Note[]} notes */
export const notesList = (notes) =>
    notes.length > 0 &&
    part("ul", { class: "day-notes", "aria-label": t("dispatcher.notes") },
        notes.map(({ minute, text }, at) =>
            part("li", { key: at }, t("dispatcher.note-at", { time: clock(minute), text }))
        )
    );

/** Asks for a note on a trip, or on the van, and tells it to the site.
 * @param {{ day: string, vehicle: number, trip: number }} of
 * @param {string} about the stop, or empty for the van
 */
async function addNote({ day, vehicle, trip }, about) {
    const text = await askNote({
        title: about ? t("dispatcher.note-of", { about }) : t("dispatcher.note-van"),
        label: t("dispatcher.note-label"),
        hint: t("dispatcher.note-hint"),
        save: t("dispatcher.note-save")
    });
    if (!text) return false;
    await count("notes", { vehicle, day, trip, text });
    mine.push({ day, vehicle, trip, text, minute: minuteNow() });
    say(t("dispatcher.noted"));
    return true;
}

/** @param {{ day: string, vehicle: number, trip: number }} of
 * @param {string} about
 * @param {() => void} changed
 */
export const noteButton = (of, about, changed) =>
    button(
        of.trip ? icon("speech") : t("dispatcher.add-van-note"),
        async () => {
            if (await addNote(of, about)) changed();
        },
        {
            class: of.trip ? "quiet small icon note-button" : "small",
            "aria-label": about ? t("dispatcher.add-note-of", { about }) : null,
            title: about ? t("dispatcher.add-note") : null
        }
    );

/** Who drives what, from the agency's file. */
export const dutyRead = () => reading(PATH, { period: RENEWED, quiet: true, read: fileAt(PATH) });

/** @type {{ text: string | null, all: Record<string, Record<string, unknown>> }} */
let duties = { text: null, all: {} };

/** @param {string | null} text */
function dutiesIn(text) {
    try {
        const it = JSON.parse(text ?? "{}");
        return typeof it === "object" && it !== null ? it : {};
    } catch {
        return {};
    }
}

/** @param {string} day @returns {Duty} */
export function dutyOn(day) {
    const text = dutyRead().reply()?.value ?? null;
    if (duties.text !== text) duties = { text, all: dutiesIn(text) };
    return (vehicle) => String(duties.all[day]?.[vehicle] ?? "");
}
