// A day as a picture, from the day sheet's text: a row for each van, with pickup windows in two
// lanes, who is aboard as height, how each trip is doing and how late the van is, on one axis of
// time. The table says the same.

import { placeName, vehicleName, vehicles } from "./agency.js";
import {
    fullest,
    hoursIn,
    kindOf,
    lanesOf,
    loadsOf,
    nearestStop,
    rangeOf,
    scaleOf,
    shortOf
} from "./board-shapes.js";
import { between, clock } from "./clock.js";
import { button, part, table } from "./element.js";
import { LEAST_LATE } from "./delay.js";
import { riderLabel } from "./roster.js";
import { stopWhere } from "./stop-where.js";
import { language, t } from "./words.js";

/** @typedef {import("../types").Part} Part */
/** @typedef {import("../types").Given} Given */
/** @typedef {import("./texts.js").Manifest} Manifest */
/** @typedef {import("./texts.js").Stop} Stop */
/** @typedef {import("./texts.js").Doing} Doing */
/** @typedef {import("./lateness.js").Late} Late */
/** @typedef {Map<number, Doing>} Doings how each trip is doing */
/** @typedef {(minute: number) => number} Across how far across the picture a minute is */
/** @typedef {{ vehicle: number, at: number, x: number }} Label at is the stop's place in its row */
/** @typedef {{ opened: (vehicle: number, trip?: number) => void, chosen: (vehicle: number) => void,
 * labelled: (label: Label | null, spoken?: boolean) => void }} Acts opened goes to a stop of a van,
 * chosen opens a van or closes it; labelled follows the stop that is pointed at, spoken where the
 * arrow keys came to it
 */
/** @typedef {Acts & { selected: number | null, now: number, isToday: boolean, room: number, high:
 * number, hours: number | null, doings: Doings, lates: Map<number, Late>, duty: (vehicle: number)
 * => string, noted: (manifest: Manifest) => number, waits: (vehicle: number) => number, isFew:
 * boolean }} Options high is a row's height with its line, hours how many are in view at once;
 * waits counts a van's no-shows that nobody has confirmed; isFew: other vans are hidden
 */
/** @typedef {{ high: number, top: number, lane: number, base: number, unit: number }} Sizes of a
 * row
 */

const HOUR = 60,
    FLAG_WIDE = 58,
    LAG_WIDE = 30,
    LAG_HIGH = 14,
    NEAR = 24,
    SIGN_WIDE = 22,
    SIGN_HIGH = 12,
    TOLD = ["ridden", "missed-rider", "missed-operator"];

/** The first and the last whole hour that the day needs.
 * @param {Manifest[]} manifests @returns {[number, number]}
 */
export function hoursOf(manifests) {
    const times = manifests.flatMap(({ stops }) =>
        stops.flatMap(({ at, window }) => [at, ...(window ?? [])])
    );
    if (!times.length) return [6, 20];
    return [
        Math.floor(Math.min(...times) / HOUR),
        Math.min(24, Math.floor(Math.max(...times) / HOUR) + 1)
    ];
}

const tenth = (/** @type {number} */ it) => Math.round(10 * it) / 10;

/** How wide the picture is, and how far across it each minute is.
 * @param {Manifest[]} manifests @param {number} room @param {number | null} hours
 */
export function spread(manifests, room, hours) {
    const range = rangeOf(manifests), scale = scaleOf(range, room, hours);
    return {
        range,
        scale,
        width: Math.round((range[1] - range[0]) * scale),
        across: /** @type {Across} */ ((minute) => tenth((minute - range[0]) * scale))
    };
}

/** The names of the vans as the picture has them. */
export const shortNames = () => {
    const short = shortOf(vehicles().map(({ name }) => name ?? ""));
    return (/** @type {number} */ vehicle) => short(vehicleName(vehicle));
};

// Words.

/** So many minutes, in hours from an hour on; without a bound it is nothing.
 * @param {number} minutes
 */
export const longTime = (minutes) => (
    minutes < HOUR
        ? t("dispatcher.minutes", { minutes })
        : t("dispatcher.hours", { hours: Math.floor(minutes / HOUR), minutes: minutes % HOUR })
);

/** How a trip is doing, in words.
 * @param {Doing | undefined} doing
 */
export const doingWords = (doing) => (
    doing
        ? t(`dispatcher.state-${doing.state}`, {
              time:
                  Number.isFinite(doing.minutes) && doing.minutes > 0 ? longTime(doing.minutes) : ""
          })
        : ""
);

/** @param {Stop} stop */
const aboardWords = ({ load, chairs }) => (
    chairs === undefined ? String(load) : t("dispatcher.aboard-both", { load, chairs })
);

/** A stop in some lines.
 * @param {Stop} stop @param {Doings} doings
 */
export function stopWords(stop, doings) {
    if (stop.what === "DEPOT")
        return t("dispatcher.label-depot", { time: clock(stop.at), place: placeName(stop.place) });
    const lines = [
        t(`dispatcher.label-${stop.what}`, {
            time: clock(stop.at),
            place: stopWhere(stop),
            rider: riderLabel(Number(stop.rider)),
            trip: stop.trip
        }),
        stop.window && t("dispatcher.label-window", { window: between(...stop.window) }),
        t("dispatcher.label-aboard", { aboard: aboardWords(stop) }),
        doingWords(doings.get(Number(stop.trip)))
    ];
    return lines
        .filter(Boolean)
        .map((it) => String(it).replace(/^./, (letter) => letter.toUpperCase()))
        .join(".\n");
}

/** What a dispatcher has to look at in a row: trips without an outcome, and missed ones.
 * @param {Manifest} manifest @param {Doings} doings
 */
function rowFacts({ stops }, doings) {
    const all = stops
        .filter(({ what }) => what === "PICK")
        .map(({ trip }) => doings.get(Number(trip)))
        .filter((it) => it !== undefined);
    const count = (/** @type {string} */ state) => all.filter((it) => it?.state === state).length;
    const silent = all.filter((it) => it?.state === "no-word").map((it) => it?.minutes ?? 0);
    return {
        trips: all.length || stops.filter(({ what }) => what === "PICK").length,
        ended: TOLD.reduce((sum, state) => sum + count(state), 0),
        missed: count("missed-rider") + count("missed-operator"),
        silent: silent.length,
        longest: Math.max(0, ...silent)
    };
}

/** @typedef {ReturnType<typeof rowFacts> & { late: number, noUpdate: number, notes: number, waits:
 * number, label: string }} Facts
 */

/** All that a row says, for a screen reader.
 * @param {Manifest} manifest @param {Facts} facts
 */
function rowWords(
    { vehicle, stops },
    { trips, ended, silent, longest, missed, late, noUpdate, notes, waits, label }
) {
    return [
        `${[vehicleName(vehicle), label].filter(Boolean).join(", ")}.`,
        late > 0 && `${t("dispatcher.late-short", { minutes: late })}.`,
        noUpdate > 0 && `${t("dispatcher.no-update-short", { time: longTime(noUpdate) })}.`,
        t("dispatcher.row", {
            trips,
            ended,
            from: clock(stops[0].at),
            to: clock(stops[stops.length - 1].at)
        }),
        silent > 0 &&
            t("dispatcher.row-silent", {
                count: silent,
                time: Number.isFinite(longest) ? longTime(longest) : ""
            }),
        waits > 0 && `${t("dispatcher.need-no-show")}: ${waits}.`,
        missed > 0 && `${t("dispatcher.missed-short", { count: missed })}.`,
        notes > 0 && `${t("dispatcher.has-notes", { count: notes })}.`
    ].filter(Boolean).join(" ");
}

/** What a row's head says first: late, no update, a no-show to confirm, outcomes that are due, or
 * how many trips have ended.
 * @param {Facts} facts @returns {[string, string]} a class and the words
 */
function headWords({ trips, ended, silent, late, noUpdate, waits }) {
    if (late >= LEAST_LATE) return ["bad", t("dispatcher.late-short", { minutes: late })];
    if (noUpdate > 0)
        return ["warn", t("dispatcher.no-update-short", { time: longTime(noUpdate) })];
    if (waits > 0) return ["warn", t("dispatcher.confirm-short")];
    if (silent > 0) return ["warn", t("dispatcher.due-short", { count: silent })];
    return ["", t("dispatcher.row-short", { trips, ended })];
}

// The shapes of a row: one path for each kind, since a day has thousands of them.

/** @param {number} high a row's height, without its line
 * @param {number} most the most aboard of the day
 * @returns {Sizes}
 */
function sizesOf(high, most) {
    const top = Math.max(2, Math.round(high * 0.08)),
        lane = Math.max(4, Math.round(high * 0.15)),
        base = high - 2;
    return { high, top, lane, base, unit: tenth((base - top - 2 * lane - 4) / most) };
}

/** @param {number} x @param {number} y @param {number} wide @param {number} high */
const box = (x, y, wide, high) =>
    `M${tenth(x)} ${tenth(y)}h${tenth(wide)}v${tenth(high)}h${-tenth(wide)}z`;

/** @param {string} kind @param {string} shape */
const path = (kind, shape) => shape !== "" && part("path", { class: kind, key: kind, d: shape });

/** @param {Manifest} manifest
 * @param {Across} across
 * @param {Sizes} sizes
 * @param {{ past: number, heard: number }} until
 */
function loadShapes({ stops }, across, { base, unit }, { past, heard }) {
    const all = loadsOf(stops, past, heard),
        shape = (/** @type {string} */ when, /** @type {"aboard" | "chairs"} */ of) =>
            all
                .filter((it) => it.when === when && it[of] > 0)
                .map((it) =>
                    box(
                        across(it.from),
                        base - it[of] * unit,
                        across(it.to) - across(it.from),
                        it[of] * unit
                    )
                )
                .join("");
    return [
        path("load past", shape("past", "aboard")),
        path("load w past", shape("past", "chairs")),
        path("load unsure", shape("unsure", "aboard")),
        path("load", shape("", "aboard")),
        path("load w", shape("", "chairs"))
    ];
}

/** @param {import("./board-shapes.js").Window[]} windows
 * @param {Across} across
 * @param {Sizes} sizes
 */
function windowShapes(windows, across, { top, lane }) {
    const y = (/** @type {{ lane: number }} */ it) => top + it.lane * (lane + 2),
        of = (/** @type {string} */ kind) => windows.filter((it) => it.kind === kind);
    const boxes = (/** @type {string} */ kind) =>
        of(kind).map((it) =>
            box(across(it.from), y(it), Math.max(3, across(it.to) - across(it.from)), lane)
        ).join("");
    const ticks = (/** @type {string[]} */ kinds) =>
        kinds.flatMap(of).map((it) => `M${across(it.at)} ${y(it) - 1}v${lane + 2}`).join("");
    const crosses = of("missed").map((it) =>
        `M${tenth(across(it.at) - 3)} ${y(it) - 1}l6 ${lane + 2}m0 ${-lane - 2}l-6 ${lane + 2}`
    ).join("");
    return [
        ...["done", "", "unsure", "risk", "missed", "lost"].map((kind) =>
            path(`win ${kind}`.trim(), boxes(kind))
        ),
        path("plan done", ticks(["done"])),
        path("plan", ticks(["", "risk", "unsure"])),
        path("cross", crosses)
    ];
}

/** Words on a ground of their own.
 * @param {string} kind
 * @param {number} x
 * @param {number} y
 * @param {number} wide
 * @param {number} high
 * @param {string} words
 */
const flag = (kind, x, y, wide, high, words) =>
    part("foreignObject", { key: kind, x: tenth(x), y, width: tenth(wide), height: high },
        part("span", { class: kind }, words)
    );

/** How late the van is, up to the line of the present.
 * @param {number} delay @param {number} now @param {Across} across @param {Sizes} sizes
 */
function lagShape(delay, now, across, { base }) {
    if (delay < LEAST_LATE) return null;
    const to = across(now), from = Math.min(across(now - delay), to - LAG_WIDE);
    return flag("lag", from, base - LAG_HIGH, to - from, LAG_HIGH, `+${delay}`);
}

/** What was last drawn of each van, and of what: a renewal changes few rows.
 * @type {Map<number, { from: string, made: Part }>}
 */
const lanes = new Map();

/** @typedef {{ across: Across, width: number, most: number, scale: number }} Frame */

/** Windows, loads and delay of a row.
 * @param {Manifest} manifest @param {Frame} frame @param {Options} options
 */
function laneOf(manifest, { across, width, most, scale }, { high, now, isToday, doings, lates }) {
    const { vehicle, stops, text } = manifest,
        late = lates.get(vehicle),
        delay = late?.delay ?? 0,
        past = isToday ? now - delay : now,
        heard = past - (late?.silent ?? 0);
    const risks = new Set([...late?.risks ?? [], ...late?.passed ?? []].map(({ trip }) => trip)),
        isFixed = past < stops[0].at || past > stops[stops.length - 1].at;
    const from = [
        width,
        most,
        scale,
        high,
        delay,
        late?.silent,
        isFixed ? past > 0 : past,
        late?.far,
        text,
        ...stops.map(({ trip }) => doings.get(Number(trip))?.state),
        "risks",
        ...risks
    ].join();
    const last = lanes.get(vehicle);
    if (last?.from === from) return last.made;
    const sizes = sizesOf(high - 1, most),
        order = stops.filter(({ what }) => what !== "DEPOT"),
        hasPassed = (/** @type {Stop} */ stop) => (
            late?.last ? order.indexOf(stop) <= late.far : stop.at <= past
        );
    const windows = lanesOf(
        stops.flatMap((stop) => (
            stop.window
                ? [{
                      from: stop.window[0],
                      to: stop.window[1],
                      at: stop.at,
                      kind: kindOf({
                          state: doings.get(Number(stop.trip))?.state ?? "to-come",
                          isRisk: risks.has(Number(stop.trip)),
                          isPassed: hasPassed(stop)
                      })
                  }]
                : []
        ))
    );
    const made = part("svg", { class: "lane", width, height: sizes.high, "aria-hidden": "true" },
        path("base", `M${across(stops[0].at)} ${sizes.base}H${across(stops[stops.length - 1].at)}`),
        loadShapes(manifest, across, sizes, { past, heard }),
        windowShapes(windows, across, sizes),
        isToday && lagShape(delay, now, across, sizes)
    );
    lanes.set(vehicle, { from, made });
    return made;
}

// Rows.

/** What a row does is what the last drawing of all says: a row that shows the same is not drawn
 * again.
 * @type {Acts}
 */
let acting = { opened: () => {}, chosen: () => {}, labelled: () => {} };

/** The row to which Tab leads: the one that had the focus last.
 * @type {number | null}
 */
let tabbed = null;

/** Brings a row into view below the hours, without moving the picture sideways.
 * @param {HTMLElement} row
 */
export function bringIntoView(row) {
    const frame = document.getElementById("picture"),
        above = frame?.querySelector(".hours")?.clientHeight ?? 0;
    if (frame)
        frame.scrollTop = Math.max(
            row.offsetTop + row.offsetHeight - frame.clientHeight,
            Math.min(row.offsetTop - above, frame.scrollTop)
        );
}

/** The up and down arrow keys go from van to van.
 * @param {HTMLElement} row @param {number} step
 */
function toRow(row, step) {
    const all = [...row.parentElement?.querySelectorAll("[data-row]") ?? []],
        goal = /** @type {HTMLElement | undefined} */ (all[all.indexOf(row) + step]);
    if (!goal) return;
    goal.querySelector("button")?.focus({ preventScroll: true });
    bringIntoView(goal);
}

/** The keys of a row: up and down to another van, left and right, Home and End from stop to stop,
 * Enter to the stop that is labelled.
 * @param {Manifest} manifest @param {Across} across @returns {(event: KeyboardEvent) => void}
 */
const rowKeys = ({ vehicle, stops }, across) => (event) => {
    const row = /** @type {HTMLElement} */ (event.currentTarget),
        here = Number(row.dataset.at ?? -1),
        step = { ArrowDown: 1, ArrowUp: -1 }[event.key];
    if (event.ctrlKey || event.metaKey || event.altKey) return;
    const goal = {
        ArrowRight: Math.min(stops.length - 1, here + 1),
        ArrowLeft: Math.max(0, here - 1),
        Home: 0,
        End: stops.length - 1
    }[event.key];
    if (event.key === "Escape") {
        delete row.dataset.at;
        acting.labelled(null);
    } else if (step !== undefined) toRow(row, step);
    else if (goal !== undefined) {
        row.dataset.at = String(goal);
        acting.labelled({ vehicle, at: goal, x: across(stops[goal].at) }, true);
    } else if (event.key === "Enter" && here >= 0)
        acting.opened(vehicle, Number(stops[here].trip) || undefined);
    else return;
    event.preventDefault();
};

/** @typedef {PointerEvent & { currentTarget: Element }} Pointed */

/** Follows the pointer to the stop that is nearest; a click opens the manifest at it.
 * @param {Manifest} manifest
 * @param {Frame} frame
 * @param {number} begin the first minute of the picture
 */
function pointing({ vehicle, stops }, { across, scale }, begin) {
    const under = (/** @type {Pointed} */ { currentTarget, clientX }) => {
        const x = clientX - currentTarget.getBoundingClientRect().left,
            at = nearestStop(stops, begin + x / scale);
        return Math.abs(across(stops[at].at) - x) <= NEAR ? at : null;
    };
    return {
        pointermove: (/** @type {Pointed} */ event) => {
            const at = under(event);
            acting.labelled(at === null ? null : { vehicle, at, x: across(stops[at].at) });
        },
        pointerleave: () => acting.labelled(null),
        click: (/** @type {Pointed} */ event) =>
            acting.opened(vehicle, Number(stops[under(event) ?? -1]?.trip) || undefined)
    };
}

/** What was last drawn of each van's row, and of what.
 * @type {Map<number, { from: unknown[], made: Part }>}
 */
const rows = new Map();

/** @param {Manifest} manifest
 * @param {Frame & { begin: number }} frame
 * @param {Options} options
 * @param {{ name: string, isTabbed: boolean }} more
 */
function row(manifest, frame, options, { name, isTabbed }) {
    const { vehicle } = manifest,
        { selected, lates, duty, doings } = options,
        late = lates.get(vehicle),
        lane = laneOf(manifest, frame, options),
        isChosen = vehicle === selected;
    const facts = {
        ...rowFacts(manifest, doings),
        late: late && late.delay >= LEAST_LATE ? late.delay : 0,
        noUpdate: late?.silent ?? 0,
        notes: options.noted(manifest),
        waits: options.waits(vehicle),
        label: duty(vehicle)
    };
    const from = [lane, isChosen, name, isTabbed, language(), ...Object.values(facts)],
        last = rows.get(vehicle);
    if (last?.from.every((it, at) => it === from[at])) return last.made;
    const [kind, words] = headWords(facts);
    const made = part(
        "div",
        {
            class: isChosen ? "lane-row chosen" : "lane-row",
            key: `row-${vehicle}`,
            "data-row": vehicle,
            on: { keydown: rowKeys(manifest, frame.across) }
        },
        button(
            [
                part("b", { class: "van-name" }, name),
                part("span", { class: `state ${kind}`.trim() }, words),
                (facts.label || facts.notes > 0) &&
                    part("small", {},
                        [
                            facts.label,
                            facts.notes > 0 && t("dispatcher.has-notes", { count: facts.notes })
                        ].filter(Boolean).join(" · ")
                    )
            ],
            () => acting.chosen(vehicle),
            {
                "data-vehicle": vehicle,
                "aria-pressed": String(isChosen),
                id: `vehicle-${vehicle}`,
                tabindex: isTabbed ? 0 : -1,
                "aria-label": rowWords(manifest, facts),
                "aria-describedby": "picture-keys"
            }
        ),
        part("div", { class: "lane-place", on: pointing(manifest, frame, frame.begin) }, lane)
    );
    rows.set(vehicle, { from, made });
    return made;
}

/** Tab leads to one row, the one that had the focus last; the arrow keys lead on.
 * @param {FocusEvent} event
 */
function rowFocused({ target, currentTarget }) {
    const it = target instanceof HTMLElement ? target.closest("[data-vehicle]") : null;
    if (!(it instanceof HTMLElement) || !(currentTarget instanceof HTMLElement)) return;
    currentTarget.querySelectorAll("[data-vehicle][tabindex='0']").forEach((other) =>
        other.setAttribute("tabindex", "-1")
    );
    it.tabIndex = 0;
    tabbed = Number(it.dataset.vehicle);
}

/** The hours on top, with the present.
 * @param {ReturnType<typeof spread>} frame @param {Options} options
 */
function axis({ range, scale, width, across }, { now, isToday, isFew }) {
    const x = across(now);
    return part("div", { class: "hours", key: "hours" },
        part("span", { class: "corner" }, t(isFew ? "dispatcher.corner-few" : "dispatcher.corner")),
        part("svg", { class: "axis", width, height: 24, "aria-hidden": "true" },
            hoursIn(range, scale).map((hour) =>
                part("text", { x: across(hour * HOUR), y: 16, "text-anchor": "middle" },
                    clock(hour % 24 * HOUR).replace(/:00(?=\s)/, "")
                )
            ),
            isToday && flag("now-flag", x - FLAG_WIDE / 2, 2, FLAG_WIDE, 20, clock(now))
        )
    );
}

/** The rows of the manifests that have stops, below the hours. The frame is the caller's.
 * @param {Manifest[]} manifests @param {Options} options @returns {Part[]}
 */
export function timeline(manifests, options) {
    acting = options;
    const frame = spread(manifests, options.room, options.hours),
        { range, scale, width, across } = frame,
        most = fullest(manifests),
        busy = manifests.filter(({ stops }) => stops.length);
    const has = (/** @type {number | null} */ it) => busy.some(({ vehicle }) => vehicle === it),
        first = has(tabbed) ? tabbed : has(options.selected) ? options.selected : busy[0]?.vehicle;
    const lines = hoursIn(range, scale).map((hour) => `M${across(hour * HOUR)} 0v100`).join(""),
        nameOf = shortNames();
    const over = (/** @type {string} */ kind, /** @type {Part} */ shape) =>
        part(
            "svg",
            {
                class: kind,
                key: kind,
                width,
                height: 100,
                viewBox: `0 0 ${width} 100`,
                preserveAspectRatio: "none",
                "aria-hidden": "true"
            },
            shape
        );
    return [
        axis(frame, options),
        part("div", { class: "lanes", key: "lanes", on: { focusin: rowFocused } },
            over("hour-lines", part("path", { d: lines })),
            busy.map((it) =>
                row(it, { across, width, most, scale, begin: range[0] }, options, {
                    name: nameOf(it.vehicle),
                    isTabbed: it.vehicle === first
                })
            ),
            options.isToday &&
                over(
                    "now-line",
                    part("line", {
                        x1: across(options.now),
                        x2: across(options.now),
                        y1: 0,
                        y2: 100
                    })
                )
        )
    ];
}

// What the signs mean.

/** @param {Given[]} shapes */
const sign = (...shapes) =>
    part(
        "svg",
        {
            width: SIGN_WIDE,
            height: SIGN_HIGH,
            viewBox: `0 0 ${SIGN_WIDE} ${SIGN_HIGH}`,
            "aria-hidden": "true"
        },
        shapes
    );

/** @param {string} kind */
const windowSign = (kind) => part("path", { class: `win ${kind}`.trim(), d: box(1, 3, 20, 6) });

/** @returns {[string, Part][]} */
const signs = () => [
    [
        "load",
        sign(
            part("path", { class: "load", d: box(1, 2, 20, 9) }),
            part("path", { class: "load w", d: box(1, 7, 20, 4) })
        )
    ],
    ["window", sign(windowSign(""), part("path", { class: "plan", d: "M12 2v8" }))],
    ["risk", sign(windowSign("risk"))],
    ["no-word", sign(windowSign("unsure"))],
    [
        "missed-rider",
        sign(windowSign("missed"), part("path", { class: "cross", d: "M8 1l6 10m0-10l-6 10" }))
    ],
    ["missed-operator", sign(windowSign("lost"))],
    ["ridden", sign(windowSign("done"))],
    ["silent", sign(part("path", { class: "load unsure", d: box(1, 2, 20, 9) }))],
    ["late", sign(flag("lag", 1, 1, 20, 10, ""))]
];

export const legend = () =>
    part("ul", { class: "legend", "aria-label": t("dispatcher.legend") },
        signs().map(([name, shape]) =>
            part("li", { key: name }, shape, t(`dispatcher.legend-${name}`))
        )
    );

/** @type {Record<string, string>} */
const CLASSES = { PICK: "pickup", DROP: "drop", DEPOT: "depot" };

/** Each stop of some manifests.
 * @param {string} caption
 * @param {Manifest[]} manifests
 * @param {Doings} doings
 * @param {{ one?: boolean }} options
 */
export function tableOfDay(caption, manifests, doings, { one = false } = {}) {
    /** @type {{ vehicle: number, stop: Stop | null, at: number }[]} */
    const all = manifests.flatMap(({ vehicle, stops }) =>
        (stops.length ? stops : [null]).map((stop, at) => ({ vehicle, stop, at }))
    );
    const of = (/** @type {(stop: Stop) => Given} */ words) => (
        /** @type {{ stop: Stop | null }} */ { stop }
    ) => (stop ? words(stop) : "");
    return table(
        caption,
        [
            ...(one
                ? []
                : [{
                      head: t("dispatcher.head-vehicle"),
                      cell: (/** @type {{ vehicle: number }} */ { vehicle }) => vehicleName(vehicle)
                  }]),
            {
                head: t("dispatcher.head-time"),
                cell: ({ stop }) => (stop ? clock(stop.at) : t("dispatcher.no-stops")),
                whole: true
            },
            {
                head: t("dispatcher.head-what"),
                cell: of(({ what }) => t(`dispatcher.stop-${CLASSES[what]}`))
            },
            {
                head: t("dispatcher.head-rider"),
                cell: of(({ rider }) => (rider === undefined ? "" : riderLabel(rider)))
            },
            { head: t("dispatcher.head-where"), cell: of(stopWhere) },
            {
                head: t("dispatcher.head-promised"),
                cell: of(({ window }) => (window ? between(...window) : "")),
                whole: true
            },
            {
                head: t("dispatcher.head-aboard"),
                cell: of((stop) => (stop.what === "DEPOT" ? "" : aboardWords(stop))),
                number: true
            },
            {
                head: t("dispatcher.head-state"),
                cell: of(({ trip }) => doingWords(doings.get(Number(trip))))
            },
            {
                head: t("dispatcher.head-trip"),
                cell: of(({ trip }) => String(trip ?? "")),
                number: true
            },
        ],
        all,
        { rowKey: ({ vehicle, at }) => `${vehicle}-${at}`, class: "stops-table" }
    );
}
