// The notice of a proposed suspension: which trips were missed, and the days that are proposed (49
// CFR 37.125(h)(2)(i)); and the officer's decision, which begins with those days.

import { whereName } from "../parts/addresses.js";
import { agency } from "../parts/agency.js";
import { between, clock, dayInWords, dayShort, plus, today } from "../parts/clock.js";
import * as desk from "../parts/desk.js";
import { denialOf } from "../parts/denials.js";
import { element, part } from "../parts/element.js";
import { dayField, reasonsField, ticksField } from "../parts/fields.js";
import { HEARING_DAYS, MOST_REASONS } from "../parts/limits.js";
import { evidenceOf, fileIn, isGround } from "../parts/no-shows.js";
import { fittingBasis, noticeIn } from "../parts/notices.js";
import { plainOf } from "../parts/plain.js";
import { fileAt, reading } from "../parts/reads.js";
import { addressSaid } from "../parts/said.js";
import { makeScreen } from "../parts/screen.js";
import { wayOf } from "../parts/stop-where.js";
import { listed, t } from "../parts/words.js";
import { entryForm, faultOfDays } from "./cases.js";
import { windowOf } from "./ticket.js";

/** @typedef {import("./cases.js").Decided} Decided */
/** @typedef {Pick<Decided, "missed" | "starts" | "ends" | "more">} Basis */
/** @typedef {import("../types").Trip & { rider: number }} Trip with whose it is */
/** @typedef {import("../types").Field} Field */

// A rider may have missed many; the letter holds some nine.
const MOST_OFFERED = 12,
    DAYS_TICKED = 30;

/** @param {Trip} trip */
const missedOf = (trip) => ({
    day: trip.day,
    from: trip.window_from,
    to: trip.window_to,
    place: plainOf(wayOf(trip, trip.rider).from).text
});

/** What goes to the desk: the trips, the days and what else was written, as one text; and the trips
 * that it has no room for.
 * @param {Trip[]} trips @param {Basis} values
 */
function textIn(trips, { missed, starts, ends, more }) {
    const chosen = trips.filter(({ trip }) => missed.includes(trip));
    const made = fittingBasis(
        { missed: chosen.map(missedOf), first: starts, last: ends, more: more ?? "" },
        MOST_REASONS
    );
    return { ...made, left: chosen.slice(made.named) };
}

/** @param {Trip[]} trips @param {Basis} values */
function faultIn(trips, values) {
    const { length } = textIn(trips, values);
    return faultOfDays(values) ??
        (
            length > MOST_REASONS
                ? { field: "missed", fault: t("cases.basis-long", { length, most: MOST_REASONS }) }
                : null
        );
}

/** Which trips the text has no room for, where there is no room.
 * @param {Trip[]} trips @param {Basis} values
 */
function leftIn(trips, values) {
    const { left } = textIn(trips, values);
    return left.length > 0 &&
        part("p", { class: "note" },
            t("cases.basis-left", {
                trips: listed(left.map(({ trip }) => String(trip))),
                count: left.length
            })
        );
}

/** How long the text is, and which trips it leaves out, while trips are checked and words are
 * typed.
 * @param {Trip[]} trips @param {Field[]} fields @returns {HTMLElement}
 */
function counterOf(trips, fields) {
    const first = plus(today(), HEARING_DAYS),
        screen = makeScreen({
            state: {},
            class: "basis-count",
            draw: () => {
                const values = Object.fromEntries(
                    fields.map(({ name, read }) => [name, read().value])
                );
                const known = {
                    missed: values.missed ?? [],
                    starts: values.starts || first,
                    ends: values.ends || first,
                    more: values.more
                };
                return [
                    part("p", { class: "hint" },
                        t("cases.basis-count", {
                            length: textIn(trips, known).length,
                            most: MOST_REASONS
                        })
                    ),
                    part("div", { role: "status" }, leftIn(trips, known))
                ];
            }
        });
    for (const { element: field } of fields)
        for (const kind of ["input", "change"])
            field.addEventListener(kind, () => screen.change({}));
    return screen.element;
}

/** A text that may be left empty, in the desk's plain signs. */
function moreField() {
    const made = reasonsField("more", t("cases.basis-more"), { rows: 2 });
    return { ...made, read: () => (made.control.value.trim() ? made.read() : { value: "" }) };
}

// What was seen of each no-show.

const NO_SHOWS = "/staff/no-shows.json";
/** What drivers told of no-shows, as it is known to all screens. */
const noShowsRead = () => reading(NO_SHOWS, { read: fileAt(NO_SHOWS) });

/** @param {{ value?: string | null } | null} reply */
const noShowsIn = (reply) => fileIn(reply?.value ?? null);

/** @param {import("../parts/no-shows.js").Evidence} evidence */
function seenWords(evidence) {
    const seen = t(`cases.seen-${evidence.kind}`, {
        arrived: clock((evidence.arrived ?? 0) % 1440),
        wait: evidence.wait,
        late: evidence.late,
        minutes: agency().wait_minutes
    });
    return isGround(evidence) ? seen : `⚠ ${seen}`;
}

/** @param {import("../parts/no-shows.js").File} file @param {Trip} trip */
const seenOf = (file, { trip, day }) => evidenceOf(file, trip, day, agency().wait_minutes);

const OF_THE_LIST = /^Missed by the rider on (\d{4}-\d{2}-\d{2}): trip (\d+) /;

/** A sentence of the night's list with the names of places and the agency's clock, where it is of a
 * trip that was missed.
 * @param {string} sentence @param {number} rider
 */
export function namedIn(sentence, rider) {
    const trip = Number(OF_THE_LIST.exec(sentence)?.[2]),
        ends = /** @type {("from" | "to")[]} */ (["to", "from"]);
    if (!trip) return sentence;
    const minute = (/** @type {string} */ time) =>
        Number(time.slice(0, 2)) * 60 + Number(time.slice(3));
    return sentence.replace(/\bplace (\d+)/g, (_, place) =>
        whereName(Number(place), rider, addressSaid(trip, ends.pop() ?? "to"))
    ).replace(/(\d\d:\d\d) to (\d\d:\d\d)/, (_, from, to) => between(minute(from), minute(to)));
}

/** What an officer reads of each trip of a sentence of the night's list, which names it.
 * @param {string} sentence @returns {import("../types").Given}
 */
export function seenIn(sentence) {
    const file = noShowsIn(noShowsRead().reply()), found = OF_THE_LIST.exec(sentence);
    return file &&
        found &&
        part("span", { class: "seen" },
            " ",
            seenWords(evidenceOf(file, Number(found[2]), found[1], agency().wait_minutes))
        );
}

/** Follows what drivers told of no-shows.
 * @param {HTMLElement} place @param {() => void} act
 */
export const watchNoShows = (place, act) => noShowsRead().watch(place, act);

/** What is asked before a notice that rests on trips of which nothing shows that they were the
 * rider's.
 * @param {Trip[]} trips
 * @param {import("../parts/no-shows.js").File | null} file
 * @param {number[]} missed
 */
function doubts(trips, file, missed) {
    const chosen = trips.filter(({ trip }) => missed.includes(trip)),
        doubted = file ? chosen.filter((it) => !isGround(seenOf(file, it))) : chosen;
    return doubted.length > 0 &&
        part("p", { class: "note" },
            t("cases.seen-doubt", { trips: listed(doubted.map(({ trip }) => String(trip))) })
        );
}

/** The no-shows to choose from. Those of late for which something speaks are checked: the others
 * are for who knows more of them.
 * @param {Trip[]} offered @param {import("../parts/no-shows.js").File | null} file
 */
function missedField(offered, file) {
    const isChecked = (/** @type {Trip} */ it) =>
        it.day >= plus(today(), -DAYS_TICKED) && file !== null && isGround(seenOf(file, it));
    const words = (/** @type {Trip} */ it) =>
        t("cases.basis-trip", {
            trip: it.trip,
            day: dayShort(it.day),
            window: windowOf(it),
            place: wayOf(it, it.rider).from
        }) +
        (file ? `. ${seenWords(seenOf(file, it))}` : "");
    return ticksField(
        "missed",
        t("cases.basis"),
        offered.map((it) => /** @type {[number, string]} */ ([it.trip, words(it)])),
        offered.filter(isChecked).map(({ trip }) => trip),
        { least: 1, hint: t("cases.basis-hint"), wants: t("cases.basis-wants") }
    );
}

/** @param {number} rider
 * @param {Trip[]} trips
 * @param {import("../parts/no-shows.js").File | null} file
 * @param {() => unknown} entered
 */
function noticeOf(rider, trips, file, entered) {
    const offered = trips.slice(0, MOST_OFFERED),
        least = plus(today(), HEARING_DAYS + 1),
        missed = missedField(offered, file),
        more = moreField();
    const fields = [
        missed,
        dayField("starts", t("cases.starts-proposed"), {
            least,
            value: plus(today(), 2 * HEARING_DAYS),
            wants: t("cases.starts-proposed-wants", { day: dayInWords(least) })
        }),
        dayField("ends", t("cases.ends-proposed"), { least }),
        more
    ];
    more.element.append(counterOf(trips, fields));
    return [
        !file && part("p", { class: "note" }, t("cases.seen-unknown")),
        entryForm(rider, "notice", entered, {
            fields,
            check: (values) => faultIn(trips, values),
            entryOf: (values) => ({ basis: textIn(trips, values).basis }),
            doubt: (values) => [leftIn(trips, values), doubts(trips, file, values.missed)]
        })
    ];
}

/** The clerk's notice to a rider, of the trips that the rider missed.
 * @param {number} rider @param {() => unknown} entered
 */
export function noticeFor(rider, entered) {
    const read = reading(desk.pathOf.trips(rider)), seen = noShowsRead();
    const screen = makeScreen({
        state: {},
        draw: (_, { kept }) => {
            const reply = read.reply();
            if (reply === null || seen.reply() === null)
                return part("p", { role: "status" }, t("cases.missed-reading"));
            if (reply.denied !== undefined)
                return part("div", { role: "status" }, denialOf(reply, "standing"));
            const trips = /** @type {Trip[]} */ (reply.value.trips)
                .filter(({ status }) => status === "missed-rider")
                .map((it) => ({ ...it, rider }))
                .sort((a, b) => b.day.localeCompare(a.day) || b.trip - a.trip);
            if (!trips.length) return part("p", { class: "hint" }, t("cases.missed-no-trips"));
            const file = noShowsIn(seen.reply());
            // (another trip that was missed makes another form, which begins with what was typed
            // into this one)
            return [
                read.age(),
                kept(`form-${trips.map(({ trip }) => trip)}-${file !== null}`, () =>
                    element(part("div", { class: "stack" }, noticeOf(rider, trips, file, entered)))
                )
            ];
        }
    });
    read.watch(screen.element, () => screen.change({}));
    seen.watch(screen.element, () => screen.change({}));
    return screen.element;
}

/** The officer's suspension: it begins with the days that the last notice proposed, and never
 * sooner than an appeal can come first.
 * @param {import("./letters.js").Letter[]} letters
 */
export function suspensionOf(letters) {
    const notice = letters.filter(({ decision }) => decision === "notice").at(-1),
        proposed = noticeIn(notice?.lines.get("REASONS") ?? "");
    const least = plus(today(), 1),
        advised = plus(today(), HEARING_DAYS),
        days =
            proposed &&
            Math.round((Date.parse(proposed.last) - Date.parse(proposed.first)) / 86_400_000);
    const starts = proposed && proposed.first > advised ? proposed.first : advised;
    const fields = () => [
        dayField("starts", t("cases.starts"), {
            least,
            value: starts,
            hint: t("cases.starts-hint", { days: HEARING_DAYS })
        }),
        dayField("ends", t("cases.ends"), {
            least,
            value: days === null ? "" : plus(starts, days)
        }),
        reasonsField("reasons", t("cases.reasons"), { hint: t("cases.reasons-hint-suspend") })
    ];
    return {
        key: String(notice?.entry),
        fields,
        said:
            proposed &&
            part("p", {},
                t("cases.proposed", {
                    first: dayInWords(proposed.first),
                    last: dayInWords(proposed.last)
                })
            )
    };
}
