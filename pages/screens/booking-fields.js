// The fields of a wish: places, days, times, who comes along.

import { closedOn, placeName } from "../parts/agency.js";
import {
    bookableDays,
    dayInWords,
    dayShort,
    monthDay,
    weekdayInWords,
    weekdayShort
} from "../parts/clock.js";
import * as desk from "../parts/desk.js";
import { drawInto, fresh, make, part, say } from "../parts/element.js";
import { radioField, tickField, timeField } from "../parts/fields.js";
import { icon } from "../parts/icons.js";
import { NEGOTIATED_MINUTES } from "../parts/limits.js";
import { map, nearestPlace } from "../parts/map.js";
import { placeField } from "../parts/place-field.js";
import { reading } from "../parts/reads.js";
import { folded, riderOf } from "../parts/roster.js";
import { MODES } from "../parts/wishes.js";
import { t } from "../parts/words.js";
import { isOwn } from "./letters.js";
import { picksField } from "./place-picks.js";

/** @typedef {import("../types").Field} Field */
/** @typedef {import("../parts/wishes.js").Mode} Mode */
/** @typedef {{ from: number, to: number, days: string[], wish: number | null, mode: Mode, by:
 * number | null, companion: boolean, attendant: boolean, back?: number | null, backMode?: Mode |
 * null }} WishValues what stands in the form of a wish: of the way back nothing where a trip is
 * changed
 */

/** What a change of a day that a letter chose carries: it is done already. */
const LETTER = "letter";
/** Letters that follow each other within so many milliseconds are of one word. */
const TYPED_ON = 800;

/** What is wrong of a day on which nobody is served, or null.
 * @param {string} day
 */
const closedFault = (day) => (
    day && closedOn(day) !== null
        ? t("booking.closed-wants", { day: dayShort(day), name: closedOn(day) })
        : null
);

/** A day as a screen reader says it; one on which nobody is served, or on which the rider has
 * trips, says so.
 * @param {string} day @param {boolean} hasTrips
 */
function dayName(day, hasTrips) {
    const name = dayInWords(day);
    if (closedOn(day) !== null) return t("booking.day-closed", { day: name, name: closedOn(day) });
    return hasTrips ? t("booking.day-has", { day: name }) : name;
}

/** @param {string} day a number, and with its month where that begins */
const dayNumber = (day) => (day.endsWith("-01") ? monthDay(day) : String(Number(day.slice(-2))));

/** Where a key leads from a day, in a grid of a week's width; null where it leads nowhere. Letters
 * go to the next day of the week that begins with them, as in a list.
 * @param {string[]} days
 * @param {number} at
 * @param {string} key
 * @param {string} letters what was typed until now, with this key
 */
function stepOf(days, at, key, letters) {
    const step = {
        ArrowRight: 1,
        ArrowLeft: -1,
        ArrowDown: 7,
        ArrowUp: -7,
        Home: -at,
        End: days.length - 1 - at
    }[key];
    if (step !== undefined) return days[at + step] ?? null;
    const begins = (/** @type {string} */ text) => (/** @type {string} */ day) =>
        closedOn(day) === null && folded(weekdayInWords(day)).startsWith(folded(text));
    if (key.length !== 1) return null;
    const others = [...days.slice(at + 1), ...days.slice(0, at + 1)];
    return (letters.length > 1 ? [days[at], ...others].find(begins(letters)) : undefined) ??
        others.find(begins(key)) ??
        null;
}

/** The days of a wish as a grid of two weeks, of which one is chosen, or several. It is one stop of
 * Tab: arrows walk, a letter chooses, the space bar adds a day. The grid is that of the present
 * day.
 * @param {{ several: boolean, booked: () => Set<string> }} options booked gives the days on which
 * the rider has trips
 * @returns {Field & { renew: () => void }}
 */
function daysField({ several, booked }) {
    const group = fresh("day"),
        wants = t("booking.day-wants"),
        fault = make("p", { class: "fault", id: `${group}-fault` }),
        grid = make("div", { class: "day-grid" }),
        span = make("span", { class: "soft" });
    /** @type {Set<string>} */
    const chosen = new Set();
    let at = "", byLetter = "", letters = "", typedAt = 0;
    const inputOf = (
        /** @type {string} */ day
    ) => /** @type {HTMLInputElement | null} */ (grid.querySelector(`input[value="${day}"]`));
    const tell = (/** @type {string | null | undefined} */ text) => {
        fault.textContent = text ?? "";
        grid.classList.toggle("wrong", Boolean(text));
    };
    const choose = (/** @type {string} */ day, /** @type {boolean} */ isChosen) => {
        if (!several) chosen.clear();
        if (isChosen) chosen.add(day);
        else chosen.delete(day);
        tell([...chosen].map(closedFault).find(Boolean));
    };
    const changed = (/** @type {{ target: HTMLInputElement }} */ { target }) => {
        choose(target.value, target.checked);
        at = target.value;
        byLetter = "";
        renew();
    };
    const go = (/** @type {string} */ day, /** @type {boolean} */ isChosen) => {
        at = day;
        if (isChosen && byLetter) chosen.delete(byLetter);
        if (isChosen) choose(day, true);
        byLetter = isChosen ? day : "";
        renew();
        inputOf(day)?.focus();
        if (isChosen)
            inputOf(day)?.dispatchEvent(
                new CustomEvent("change", { bubbles: true, detail: LETTER })
            );
    };
    const keyed = (/** @type {KeyboardEvent} */ event) => {
        if (event.ctrlKey || event.metaKey || event.altKey || event.key === " ") return;
        const days = bookableDays(), now = event.timeStamp;
        letters =
            event.key.length === 1 && now - typedAt < TYPED_ON ? letters + event.key : event.key;
        typedAt = now;
        const to = stepOf(days, days.indexOf(at), event.key, letters);
        if (to === null && !/^Arrow/.test(event.key)) return;
        event.preventDefault();
        if (to !== null) go(to, event.key.length === 1 || (!several && closedOn(to) === null));
    };
    const cell = (/** @type {string} */ day) =>
        part(
            "label",
            {
                key: day,
                class: closedOn(day) !== null ? "closed" : booked().has(day) ? "has" : null
            },
            part("input", {
                type: several ? "checkbox" : "radio",
                name: several ? `day-${day}` : group,
                value: day,
                "aria-label": dayName(day, booked().has(day)),
                tabindex: day === at ? 0 : -1,
                checked: chosen.has(day),
                on: { change: (event) => event.detail !== LETTER && changed(event) }
            }),
            dayNumber(day)
        );
    function renew() {
        const days = bookableDays(), gone = [...chosen].filter((day) => !days.includes(day));
        gone.forEach((day) => chosen.delete(day));
        if (!days.includes(at))
            at = [...chosen].sort()[0] ?? days.find((day) => closedOn(day) === null) ?? days[0];
        const range = t(several ? "booking.days-several" : "booking.days-one", {
            first: monthDay(days[0]),
            last: monthDay(days[days.length - 1])
        });
        span.textContent = [
            range,
            days.some((day) => booked().has(day)) && t("booking.days-underlined")
        ].filter(Boolean).join(" · ");
        drawInto(grid, [
            days.slice(0, 7).map((day) =>
                part("span", { key: `week-${day}`, "aria-hidden": "true" }, weekdayShort(day))
            ),
            days.map(cell)
        ]);
        if (gone.length) tell(t("booking.day-gone"));
    }
    const read = () => {
        const days = bookableDays().filter((day) => chosen.has(day)),
            closed = days.map(closedFault).find(Boolean);
        return closed ? { fault: closed } : days.length ? { value: days } : { fault: wants };
    };
    const write = (/** @type {string | string[]} */ given) => {
        chosen.clear();
        [given]
            .flat()
            .filter((day) => bookableDays().includes(day))
            .forEach((day) => chosen.add(day));
        at = "";
        renew();
    };
    const element = make(
        "fieldset",
        { class: "field days", "aria-describedby": fault.id, on: { keydown: keyed } },
        make("legend", {}, t("booking.day")),
        span,
        grid,
        fault
    );
    renew();
    return {
        name: "days",
        wants,
        control: /** @type {import("../types").Control} */ (/** @type {unknown} */ ({
            focus: () => inputOf(at)?.focus()
        })),
        element,
        read,
        write,
        tell,
        renew
    };
}

/** A click on the map gives the place of the pickup, and the next one that of the drop.
 * @param {Field} from @param {Field} to
 */
function mapFor(from, to) {
    let next = from;
    const box = make("details", { class: "mapping" },
        part("summary", {}, t("booking.on-map")),
        part("p", { class: "hint" }, t("booking.map-hint"))
    );
    const open = () => {
        const plane = map({
            label: t("booking.map"),
            picked: (/** @type {[number, number]} */ point) => {
                const place = nearestPlace(point);
                if (!place) return;
                next.write(place.id);
                next.tell("");
                mark();
                say(
                    t(next === from ? "booking.from-is" : "booking.to-is", {
                        place: placeName(place.id)
                    })
                );
                next = next === from ? to : from;
            }
        });
        const mark = () => {
            const [start, end] = [from.read().value, to.read().value];
            plane.mark({
                [start]: t("booking.mark-from"),
                [end]: t(start === end ? "booking.mark-both" : "booking.mark-to")
            });
        };
        [from, to].forEach(({ control }) => control.addEventListener("change", mark));
        box.append(plane.element);
        mark();
    };
    // (the map is drawn once somebody opens it)
    box.addEventListener("toggle", open, { once: true });
    return box;
}

/** The places of a rider's trips, as far as they were read, the more frequent ones first.
 * @param {number} rider @returns {number[]}
 */
function placesOfTrips(rider) {
    /** @type {Map<number, number>} */
    const counts = new Map();
    const trips = /** @type {import("../types").Trip[]} */ (
        reading(desk.pathOf.trips(rider)).reply()?.value?.trips ??
        []
    );
    for (const { from, to } of trips)
        for (const place of [from, to]) counts.set(place, (counts.get(place) ?? 0) + 1);
    return [...counts].sort(([, one], [, other]) => other - one).map(([place]) => place);
}

/** @param {number} rider */
const usualOf = (rider) => {
    const known = riderOf(rider);
    return [
        ...(known ? [...(known.home === null ? [] : [known.home]), ...known.usual] : []),
        ...placesOfTrips(rider)
    ];
};

/** What matters of a trip, of the way there or back.
 * @param {string} name @param {string} legend @param {Mode} value
 */
const modeField = (name, legend, value) =>
    radioField(name, legend, MODES.map((mode) => [mode, t(`booking.mode-${mode}`)]), {
        value,
        class: "modes",
        segments: true
    });

/** A field that counts only while isShown() says so; else it is hidden, and null.
 * @param {Field} field @param {() => boolean} isShown @returns {Field & { look: () => void }}
 */
function whileShown(field, isShown) {
    const look = () => {
        field.element.hidden = !isShown();
    };
    look();
    return { ...field, read: () => (isShown() ? field.read() : { value: null }), look };
}

/** @param {Field} field @param {string} words */
function relabel(field, words) {
    const label = field.element.querySelector("label");
    if (label) label.textContent = words;
}

/** The way back: its time, and what matters of it, which is asked once there is a time. It begins
 * with not before: the rider is not ready earlier.
 * @returns {Field[]}
 */
function backFields() {
    const time = timeField("back", t("booking.back"), {
        optional: true,
        hint: t("booking.back-hint"),
        placeholder: t("booking.optional")
    });
    const mode = modeField("backMode", t("booking.back-mode"), "not-before");
    const shown = whileShown(mode, () => time.control.value.trim() !== "");
    const look = () => {
        shown.look();
        relabel(time, t(mode.read().value === "by" ? "booking.back-by" : "booking.back"));
    };
    time.control.addEventListener("input", look);
    mode.element.addEventListener("change", look);
    const written = (/** @type {Field} */ field) => (/** @type {unknown} */ value) => {
        field.write(value);
        look();
    };
    return [{ ...time, write: written(time) }, { ...shown, write: written(mode) }];
}

/** The way there: one time, which is that of the pickup or that to be there by, as what matters
 * says; and beside a time of the pickup, one to be there by.
 * @returns {{ mode: Field, wish: Field, by: Field }}
 */
function thereFields() {
    const mode = modeField("mode", t("booking.mode"), "around"),
        time = timeField("wish", t("booking.wish"), {
            optional: true,
            hint: t("booking.wish-hint"),
            placeholder: t("booking.wish-as")
        });
    const isBy = () => mode.read().value === "by",
        beside = whileShown(
            timeField("by", t("booking.by-too"), {
                optional: true,
                hint: t("booking.by-hint"),
                placeholder: t("booking.optional")
            }),
            () => !isBy()
        );
    let wasBy = false, isSwapped = false;
    /** A time to be there by that was typed beside the pickup's is what counts now, and the
     * pickup's comes back with it.
     */
    const swap = () => {
        [time.control.value, beside.control.value] = [beside.control.value, time.control.value];
        time.control.dispatchEvent(new Event("input", { bubbles: true }));
    };
    const look = () => {
        beside.look();
        relabel(time, t(isBy() ? "booking.by" : "booking.wish"));
        if (isBy() !== wasBy && (isBy() ? beside.control.value.trim() !== "" : isSwapped)) {
            isSwapped = isBy();
            swap();
        }
        wasBy = isBy();
    };
    mode.element.addEventListener("change", look);
    const none = () => ({ value: null });
    return {
        mode: {
            ...mode,
            write: (/** @type {unknown} */ value) => {
                mode.write(value);
                look();
            }
        },
        wish: {
            ...time,
            read: () => (isBy() ? none() : time.read()),
            write: (/** @type {unknown} */ value) => {
                if (!isBy()) time.write(value);
            }
        },
        by: {
            ...beside,
            get control() {
                return isBy() ? time.control : beside.control;
            },
            read: () => (isBy() ? time.read() : beside.read()),
            tell: (text) => (isBy() ? time : beside).tell(text),
            write: (/** @type {unknown} */ value) => (isBy() ? time : beside).write(value)
        }
    };
}

/** The days on which a rider has booked trips, as far as they were read.
 * @param {number} rider
 */
const daysOfTrips = (rider) =>
    new Set(
        /** @type {import("../types").Trip[]} */ (
            reading(desk.pathOf.trips(rider)).reply()?.value?.trips ??
            []
        ).filter(({ status }) => status === "booked").map(({ day }) => day)
    );

/** Changes From and To.
 * @param {Field} from @param {Field} to
 */
const swapButton = (from, to) =>
    make(
        "button",
        {
            type: "button",
            class: "quiet small swap",
            on: {
                click: () => {
                    [from.control.value, to.control.value] = [to.control.value, from.control.value];
                    [from, to].forEach((it) => {
                        it.tell("");
                        it.control.dispatchEvent(new Event("change", { bubbles: true }));
                    });
                    say(t("booking.swapped"));
                }
            }
        },
        icon("swap"),
        t("booking.swap")
    );

/** The fields of a wish: of a new trip with several days and the way back; ends() says which
 * addresses were chosen. A mode is written before its times.
 * @param {{ rider: number, again: boolean }} options again where a trip is changed
 */
export function wishFields({ rider, again }) {
    const usual = () => usualOf(rider);
    const from = placeField("from", t("booking.from"), { rider, usual, addresses: true }),
        to = placeField("to", t("booking.to"), { rider, usual, addresses: true });
    const days = daysField({ several: !again, booked: () => daysOfTrips(rider) }),
        { mode, wish, by } = thereFields();
    const companion = tickField("companion", t("booking.with-companion")),
        attendant = tickField("attendant", t("booking.with-attendant"));
    const [back, backMode] = backFields(), ofBack = again ? [] : [back, backMode];
    const picks = isOwn() && !again ? [picksField(rider, from, to, usual)] : [];
    return {
        fields: [from, to, ...picks, days, wish, mode, ...ofBack, by, companion, attendant],
        days,
        extra: [swapButton(from, to), mapFor(from, to)],
        ends: () => ({ from_address: from.address(), to_address: to.address() })
    };
}

/** What is wrong of the values together.
 * @param {WishValues} values @returns {{ field: string, fault: string } | null}
 */
export function faultOf({ mode, wish, by, back, backMode }) {
    const there = mode === "by" ? by : by ?? wish;
    if (mode === "by" && by === null) return { field: "by", fault: t("booking.by-wants") };
    if (mode !== "by" && wish === null) return { field: "wish", fault: t("booking.wish-wants") };
    const earliest = (wish ?? 0) - (mode === "around" ? NEGOTIATED_MINUTES : 0);
    if (mode !== "by" && by !== null && by <= earliest)
        return { field: "by", fault: t("booking.by-early") };
    if (back !== null && back !== undefined && back <= (there ?? 0))
        return {
            field: "back",
            fault: t(backMode === "by" ? "booking.back-by-early" : "booking.back-early")
        };
    return null;
}
