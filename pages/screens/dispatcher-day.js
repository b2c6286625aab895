// The day as a picture: who is where, what was promised, how it goes, and the manifest of one van
// beside it.

import { vehicleName } from "../parts/agency.js";
import { HOURS, rowHeight } from "../parts/board-shapes.js";
import { clock, today } from "../parts/clock.js";
import { button, part, say } from "../parts/element.js";
import { icon } from "../parts/icons.js";
import { dropText, keepText, keptText } from "../parts/kept.js";
import { madeOnce } from "../parts/made-once.js";
import { printDaySheet, printManifests } from "../parts/paper-day.js";
import { closePopups, popup } from "../parts/popup.js";
import { makeScreen } from "../parts/screen.js";
import { keepSubject } from "../parts/subject.js";
import { doingOf, manifestsIn, overOf, rowsIn, tripsThatStand } from "../parts/texts.js";
import {
    bringIntoView,
    legend,
    shortNames,
    spread,
    stopWords,
    tableOfDay,
    timeline
} from "../parts/timeline.js";
import { t } from "../parts/words.js";
import { attention, attentionBar, readUnplaced, vansIn } from "./dispatcher-attention.js";
import { dayDenied, dayTitle, dayTools, nowOn, STOP, theDay } from "./dispatcher-bar.js";
import { daySearch, searchAhead } from "./dispatcher-find.js";
import { oneVan, openAt } from "./dispatcher-manifest.js";
import { dutyOn, dutyRead, notesOn } from "./dispatcher-notes.js";
import { dayHeard, dayNow, dayRead, driversRead, toldNow } from "./dispatcher-reads.js";
import { roomTable } from "./dispatcher-room.js";
import { isOpen, review } from "./dispatcher-review.js";

/** @typedef {import("../parts/texts.js").Manifest} Manifest */
/** @typedef {import("../parts/texts.js").Row} Row */
/** @typedef {import("../parts/timeline.js").Label} Label */
/** @typedef {import("../parts/timeline.js").Doings} Doings */
/** @typedef {import("../parts/lateness.js").Told} Told */
/** @typedef {import("./dispatcher-notes.js").Notes} Notes */
/** @typedef {import("./dispatcher-notes.js").Duty} Duty */
/** @typedef {{ day: string, chosen: number | null, now: number, ended: boolean, asTable: boolean,
 * wide: number, high: number, hours: number | null, unplaced: number, onlyNeeds: boolean, printing:
 * boolean, original: boolean, marked: number | null, noted: number, asRoom: boolean }} Own noted
 * counts the notes that were written here; marked is the trip whose stop is shown in the manifest;
 * wide and high are what the picture has room for, hours how many are in view at once where
 * somebody chose
 */
/** @typedef {Own & import("./dispatcher-reads.js").Day & { told: Told | null, notes: Notes, duty:
 * Duty }} State with what the desk, drivers and dispatchers told of the day
 */
/** @typedef {{ manifests: Manifest[], busy: Manifest[], shown: Manifest[], idle: Manifest[], one:
 * Manifest | undefined, doings: Doings, dues: Map<number, number>, over: (trip: number) => string,
 * lates: Map<number, import("../parts/lateness.js").Late>, needs:
 * import("./dispatcher-attention.js").Attention }} Known shown are the rows, in their order
 */

const NAMES_WIDE = 176,
    NAMES_NARROW = 128,
    NARROW = 640,
    LEAST_ROOM = 208,
    TIP_WIDE = 260,
    TIP_HIGH = 140,
    AXIS = 25,
    IDLE_LINE = 30,
    LOW = 34,
    KEPT_HOURS = "dispatcher.hours",
    FIRST_PART = 0.36;

// (an outcome changes the trips, and no manifest)
const manifestsOf = /** @type {(text: string) => Manifest[]} */ (madeOnce(manifestsIn)),
    rowsOf = /** @type {(csv: string) => Row[]} */ (madeOnce((csv) => (csv ? rowsIn(csv) : [])));

/** @param {State} state @returns {Known} */
const knownOf = ({ day, text, csv, chosen, now, told, onlyNeeds }) =>
    knownFrom(day, text, csv, chosen, now, told, onlyNeeds);

/** @typedef {Pick<State, "day" | "text" | "csv" | "chosen" | "now" | "told" | "onlyNeeds">} Shown
 */

const knownFrom = madeOnce(
    (
        /** @type {Shown["day"]} */ day,
        /** @type {Shown["text"]} */ text,
        /** @type {Shown["csv"]} */ csv,
        /** @type {Shown["chosen"]} */ chosen,
        /** @type {Shown["now"]} */ now,
        /** @type {Shown["told"]} */ told,
        /** @type {Shown["onlyNeeds"]} */ onlyNeeds
    ) => knownMade({ day, text, csv, chosen, now, told, onlyNeeds })
);

/** @param {Shown} state @returns {Known} */
function knownMade({ day, text, csv, chosen, now, told, onlyNeeds }) {
    const manifests = manifestsOf(text ?? ""),
        rows = rowsOf(csv),
        busy = manifests.filter(({ stops }) => stops.length > 0),
        doings = doingOf(manifests, rows, now);
    const { lates, needs } = attention(manifests, told, doings, now, day === today()),
        wanted = vansIn(needs);
    const worst = (/** @type {Manifest} */ { vehicle }) =>
        Math.max(lates.get(vehicle)?.delay ?? 0, lates.get(vehicle)?.silent ?? 0);
    const shown = onlyNeeds
        ? busy.filter(({ vehicle }) => wanted.has(vehicle)).sort(
              (a, b) => worst(b) - worst(a) || a.vehicle - b.vehicle
          )
        : busy;
    return {
        manifests,
        busy,
        shown,
        idle: manifests.filter(({ stops }) => stops.length === 0),
        one: manifests.find(({ vehicle }) => vehicle === chosen),
        doings,
        dues: new Map(rows.map(({ trip, due }) => [trip, due])),
        over: overOf(rows),
        lates,
        needs
    };
}

// The label of a stop, at the stop.

function tipScreen() {
    const tip = makeScreen({
        state: { words: "", isBelow: true },
        class: "tip-place",
        draw: ({ words, isBelow }) =>
            words && [
                part("i", { class: "tip-mark" }),
                part("p", { class: isBelow ? "tip" : "tip above" }, words)
            ]
    });
    /** Brings a stop that the arrow keys came to into view.
     * @param {HTMLElement} frame @param {number} x @param {number} names
     */
    const toStop = (frame, x, names) => {
        const room = frame.clientWidth - names;
        if (x < frame.scrollLeft || x > frame.scrollLeft + room)
            frame.scrollLeft = x - room * FIRST_PART;
    };
    /** @param {Label | null} label @param {string} words @param {boolean} [isSpoken] */
    const show = (label, words, isSpoken = false) => {
        const frame = tip.element.parentElement,
            row = label && frame?.querySelector(`[data-row="${label.vehicle}"]`);
        if (!label || !frame || !(row instanceof HTMLElement))
            return tip.state.words && tip.change({ words: "" });
        const names = frame.querySelector(".corner")?.clientWidth ?? 0;
        if (isSpoken) toStop(frame, label.x, names);
        const least = frame.scrollLeft + names,
            most = frame.scrollLeft + frame.clientWidth - TIP_WIDE,
            x = names + label.x,
            left = Math.max(least, Math.min(most, x - TIP_WIDE / 2));
        const isBelow =
            row.offsetTop + row.offsetHeight + TIP_HIGH < frame.scrollTop + frame.clientHeight ||
            row.offsetTop - frame.scrollTop < TIP_HIGH + AXIS;
        for (const [name, value] of Object.entries({
            left: left,
            top: row.offsetTop,
            "--mark": x - left,
            "--row": row.offsetHeight
        }))
            tip.element.style.setProperty(name, `${value}px`);
        return tip.change({ words, isBelow });
    };
    return { element: tip.element, show };
}

// The whole.

/** @typedef {{ opened: (vehicle: number, trip?: number) => void, chosen: (vehicle: number) => void,
 * tip: ReturnType<typeof tipScreen>, toNow: () => void, tabled: () => void, roomed: () => void,
 * set: (patch: Partial<Own>) => void, hours: (hours: number | null) => void }} Acts
 */

/** The rows of the picture, drawn anew where what they show has changed: the label of a stop
 * changes none of it.
 * @type {{ from: unknown[], made: import("../types").Given } | null}
 */
let rowsDrawn = null;

/** @param {unknown[]} from what they show @param {() => import("../types").Given} make */
function rowsOnce(from, make) {
    if (!rowsDrawn || rowsDrawn.from.some((it, at) => it !== from[at]))
        rowsDrawn = { from, made: make() };
    return rowsDrawn.made;
}

/** How wide the picture is beside the names of the vans.
 * @param {Own} own
 */
const roomOf = ({ wide }) =>
    Math.max(LEAST_ROOM, wide - (wide < NARROW ? NAMES_NARROW : NAMES_WIDE));

/** How high a row of the picture is.
 * @param {State} state @param {Known} known
 */
const highOf = ({ high }, { busy, idle }) =>
    rowHeight(high - AXIS - (idle.length ? IDLE_LINE : 0), busy.length);

/** @param {State} state @param {Known} known @param {Acts} acts */
function rowsOfPicture(state, known, { chosen, opened, tip }) {
    const { manifests, shown, doings, lates, needs } = known,
        { day, now, notes, duty, chosen: selected, hours, onlyNeeds } = state,
        isToday = day === today();
    const labelled = (/** @type {Label | null} */ label, isSpoken = false) => {
        const stop =
            label && manifests.find(({ vehicle }) => vehicle === label.vehicle)?.stops[label.at],
            words = stop ? stopWords(stop, doings) : "";
        tip.show(label, words, isSpoken);
        if (isSpoken) say(words);
    };
    const high = highOf(state, known),
        room = roomOf(state),
        waiting = needs.noShows.filter((it) => it.day === day && isOpen(it));
    return rowsOnce(
        [
            known,
            selected,
            now,
            room,
            high,
            hours,
            waiting.length,
            state.noted,
            dutyRead().reply(),
            toldNow(today())
        ],
        () =>
            timeline(shown, {
                chosen,
                opened,
                labelled,
                selected,
                now,
                isToday,
                room,
                high,
                hours,
                doings,
                lates,
                duty,
                isFew: onlyNeeds,
                waits: (vehicle) => waiting.filter((it) => it.vehicle === vehicle).length,
                noted: (it) =>
                    [
                        0,
                        ...it.stops.flatMap(({ what, trip }) => (
                            what === "PICK" ? Number(trip) : []
                        ))
                    ].reduce((sum, trip) => sum + notes(it.vehicle, trip).length, 0)
            })
    );
}

/** @param {State} state @param {Known} known @param {Acts} acts */
function pictureCard(state, known, acts) {
    const { manifests, busy, idle, doings } = known,
        { asTable, asRoom, printing, day } = state,
        nameOf = busy.length > 0 ? shortNames() : vehicleName;
    const idleVans =
        idle.length > 0 &&
        part("details", { class: "idle", key: "idle" },
            part("summary", {}, t("dispatcher.idle", { count: idle.length })),
            part("p", {}, idle.map(({ vehicle }) => nameOf(vehicle)).join(", "))
        );
    return part("div", { class: "picture-card" },
        busy.length > 0 &&
            !asTable &&
            !asRoom &&
            part(
                "div",
                {
                    class: highOf(state, known) < LOW ? "timeline low-rows" : "timeline",
                    key: "picture",
                    id: "picture",
                    tabindex: 0,
                    role: "region",
                    "aria-label": t("dispatcher.picture"),
                    "aria-describedby": "picture-keys",
                    on: {
                        scroll: ({ target }) => {
                            if (target.clientWidth === state.wide)
                                middle = minuteAt(state, target.scrollLeft);
                        }
                    }
                },
                acts.tip.element,
                rowsOfPicture(state, known, acts),
                idleVans
            ),
        busy.length === 0 && [
                part("p", { class: "pad" },
                    t(manifests.length ? "dispatcher.nobody-rides" : "dispatcher.nobody")
                ),
                !asTable && !asRoom && idleVans
            ],
        part("p", { class: "unseen", id: "picture-keys" }, t("dispatcher.row-keys")),
        part("div", { key: "as-room", id: "as-room", class: asRoom ? "as-other" : null },
            asRoom && roomTable(manifests, day)
        ),
        part(
            "div",
            { key: "as-table", id: "as-table", class: asTable ? "as-other" : "folded-table" },
            (asTable || printing) && tableOfDay(t("dispatcher.table-of-day"), manifests, doings)
        )
    );
}

/** The manifests of all vans on paper, by one click.
 * @param {State} state @param {Known} known
 */
const printAll = ({ original, notes, duty }, { busy, dues, over }) =>
    busy.length > 0 &&
    button(
        [icon("printer"), part("span", {}, t("dispatcher.print-short"))],
        () => printManifests(busy, dues, { original, notes, duty, over }),
        {
            class: "small",
            key: "print-all",
            "aria-label": t("dispatcher.print-manifests", { count: busy.length })
        }
    );

/** How many hours are in view, which vans, and the same in other forms; the day sheet on paper.
 * @param {State} state @param {Known} known @param {Acts} acts
 */
function viewTools(state, known, { hours, set, toNow, tabled, roomed }) {
    const { manifests, busy, over } = known,
        { day, text, original, duty, asTable, asRoom, onlyNeeds } = state,
        group = "hours-in-view";
    const choice = (/** @type {number | null} */ it) =>
        part("label", { key: String(it) },
            part("input", {
                type: "radio",
                name: group,
                checked: state.hours === it,
                on: { change: () => hours(it) }
            }),
            it === null
                ? t("dispatcher.hours-auto")
                : it === 0
                ? t("dispatcher.hours-all")
                : t("dispatcher.hours-some", { hours: it })
        );
    return popup(
        "view-pop",
        t("dispatcher.view"),
        [
            part("fieldset", { class: "plain" },
                part("legend", {}, t("dispatcher.hours-in-view")),
                part("div", { class: "seg" }, [...HOURS, null].map(choice))
            ),
            part("label", { class: "tick" },
                part("input", {
                    type: "checkbox",
                    checked: onlyNeeds,
                    on: { change: (event) => set({ onlyNeeds: event.target.checked }) }
                }),
                t("dispatcher.only-needs")
            ),
            part("div", { class: "row" },
                day === today() &&
                    busy.length > 0 &&
                    button(t("dispatcher.to-now"), toNow, { class: "small" }),
                button(t("dispatcher.as-table"), tabled, {
                    class: "small",
                    "aria-pressed": String(asTable),
                    "aria-controls": "as-table"
                }),
                manifests.length > 0 &&
                    button(t("dispatcher.as-room"), roomed, {
                        class: "small",
                        "aria-pressed": String(asRoom),
                        "aria-controls": "as-room"
                    })
            ),
            part("div", { class: "prints" },
                button(
                    t("dispatcher.print-sheet"),
                    () => printDaySheet(day, manifests, text ?? "", { original, duty, over }),
                    { class: "small" }
                ),
                part("label", { class: "tick" },
                    part("input", {
                        type: "checkbox",
                        checked: original,
                        on: { change: (event) => set({ original: event.target.checked }) }
                    }),
                    t("dispatcher.with-original")
                )
            ),
            busy.length > 0 &&
                part("details", { class: "fold" },
                    part("summary", {}, t("dispatcher.legend")),
                    legend()
                )
        ],
        { name: t("dispatcher.view-of") }
    );
}

/** What the signs mean, how many trips the day has, and as of when that is.
 * @param {State} state @param {Known} known
 */
function footOf({ text, day }, { busy, doings }) {
    const count = (/** @type {string[]} */ states) =>
        [...doings.values()].filter(({ state }) => states.includes(state)).length,
        heard = dayHeard(day);
    return part("footer", { class: "foot" },
        busy.length > 0 && legend(),
        part("span", { class: "num" },
            t("dispatcher.stand", {
                count: tripsThatStand(text ?? ""),
                ended: count(["ridden"]),
                noShows: count(["missed-rider"]),
                missed: count(["missed-operator"]),
                silent: count(["no-word"]),
                ahead: count(["to-come", "under-way"]),
                canceled: count(["cancelled"])
            })
        ),
        heard && part("span", { class: "num" }, t("dispatcher.updated-at", { time: clock(heard) }))
    );
}

/** The minute at the end of the picture's first third, as somebody moved it last: where the window
 * changes, the browser moves the picture by itself.
 */
let middle = NaN;

/** Moves the picture so that a minute is at the end of its first third.
 * @param {State} state @param {number} minute
 */
function moveTo(state, minute) {
    middle = minute;
    const frame = document.getElementById("picture"), { shown } = knownOf(state);
    if (frame && Number.isFinite(minute))
        frame.scrollLeft =
            spread(shown, roomOf(state), state.hours).across(minute) - roomOf(state) * FIRST_PART;
}

/** The minute at the end of the first third.
 * @param {State} state @param {number} left how far the picture is moved
 */
function minuteAt(state, left) {
    const { range, scale } = spread(knownOf(state).shown, roomOf(state), state.hours);
    return range[0] + (left + roomOf(state) * FIRST_PART) / scale;
}

/** @param {State} state */
const moveToNow = (state) => moveTo(state, state.now);

/** Brings a van's row into view, and opens its manifest at a trip or at the present.
 * @param {number} vehicle @param {number} [trip]
 */
function bringVan(vehicle, trip) {
    openAt(vehicle, trip);
    const row = document.querySelector(`#picture [data-row="${vehicle}"]`);
    if (row instanceof HTMLElement) bringIntoView(row);
}

/** @param {Own} own @returns {State} */
function stateOf(own) {
    const told = toldNow(own.day);
    return {
        ...own,
        ...dayNow(own.day),
        told,
        notes: notesOn(own.day, toldNow(today())),
        duty: dutyOn(own.day)
    };
}

/** @param {string} day @returns {Own} */
const firstState = (day) => ({
    day,
    chosen: null,
    now: nowOn(day),
    ended: false,
    asTable: false,
    wide: window.innerWidth,
    high: window.innerHeight - 146,
    hours: hoursKept(),
    unplaced: 0,
    onlyNeeds: false,
    printing: false,
    original: false,
    marked: null,
    noted: 0,
    asRoom: false
});

/** How many hours somebody chose to see at once in this browser. */
function hoursKept() {
    const kept = keptText("local", KEPT_HOURS);
    return HOURS.find((it) => String(it) === kept) ?? null;
}

/** What a click on the day does, over its record.
 * @param {{ state: Own, change: import("../parts/screen.js").Tools<Own>["change"] }} screen
 * @param {ReturnType<typeof tipScreen>} tip
 * @param {() => void} fill
 */
function actsOf(screen, tip, fill) {
    const known = () => knownOf(stateOf(screen.state));
    const opened = (/** @type {number} */ it, /** @type {number | undefined} */ trip) => {
        const { onlyNeeds } = screen.state;
        screen.change(
            {
                chosen: it,
                marked: trip ?? null,
                onlyNeeds: onlyNeeds && known().shown.some(({ vehicle }) => vehicle === it),
                asTable: false,
                asRoom: false
            },
            { focus: "one-van" }
        );
        fill();
        bringVan(it, trip);
    };
    const close = () =>
        screen.change({ chosen: null, marked: null }, { focus: `vehicle-${screen.state.chosen}` });
    const look = async (/** @type {Parameters<typeof review>[0]} */ row) => {
        const { told } = stateOf(screen.state), answer = told && await review(row, told);
        if (answer === "show") opened(row.vehicle, row.trip);
        else screen.change({});
    };
    const turned = (
        /** @type {"asTable" | "asRoom"} */ one,
        /** @type {"asTable" | "asRoom"} */ other
    ) => () => {
        screen.change({ [one]: !screen.state[one], [other]: false });
        closePopups();
        fill();
    };
    const hours = (/** @type {number | null} */ it) => {
        // (a browser without room forgets it)
        keepText("local", KEPT_HOURS, it === null ? "" : String(it));
        screen.change({ hours: it });
        moveToNow(stateOf(screen.state));
    };
    return {
        opened,
        close,
        look,
        hours,
        tip,
        chosen: (/** @type {number} */ it) => (
            it === screen.state.chosen ? close() : opened(it, undefined)
        ),
        toNow: () => {
            closePopups();
            moveToNow(stateOf(screen.state));
        },
        set: (/** @type {Partial<Own>} */ patch) => screen.change(patch),
        tabled: turned("asTable", "asRoom"),
        roomed: turned("asRoom", "asTable")
    };
}

/** Opens a rider's trips.
 * @param {number} rider
 */
function toRider(rider) {
    keepSubject("rider", rider);
    location.hash = "#dispatcher/riders";
}

export function dayPicture() {
    // (what was drawn for another screen acts on that one, and may be in another language)
    rowsDrawn = null;
    middle = NaN;
    const tip = tipScreen(),
        acts = actsOf(
            {
                get state() {
                    return screen.state;
                },
                change: (patch, options) => screen.change(patch, options)
            },
            tip,
            () => fill()
        );
    const inBar = daySearch({
        manifests: () => knownOf(stateOf(screen.state)).manifests,
        go: { trip: acts.opened, van: acts.opened, rider: toRider }
    });
    const screen = makeScreen({
        state: firstState(theDay()),
        class: "stack dispatch-wide dispatch-head dispatch-day",
        draw: (own, { change, kept }) => {
            const state = stateOf(own),
                known = knownOf(state),
                isThere = !state.denied && state.text !== null,
                { day, told, unplaced, wide } = state;
            const go = (/** @type {string} */ it) => {
                change({
                    ...firstState(it),
                    asTable: state.asTable,
                    asRoom: state.asRoom,
                    chosen: state.chosen,
                    wide,
                    high: state.high
                });
                follow();
            };
            return [
                part("div", { class: "strip" },
                    isThere &&
                        attentionBar(known.needs, {
                            told,
                            unplaced,
                            isToday: day === today(),
                            wide: window.innerWidth,
                            go: acts.opened,
                            review: acts.look
                        }),
                    part("div", { class: "last" },
                        dayTools({ ...state, go, kept }),
                        isThere && [printAll(state, known), viewTools(state, known, acts)]
                    )
                ),
                dayTitle({ ...state, go, kept }),
                dayRead(day).age(),
                state.denied
                    ? dayDenied(state.denied)
                    : state.text === null
                    ? part("p", { class: "pad" }, t("dispatcher.reading"))
                    : [
                          part("div", { class: known.one ? "day-view with-one" : "day-view" },
                              pictureCard(state, known, acts),
                              oneVan(state, known, {
                                  close: acts.close,
                                  noted: () => change(({ noted }) => ({ noted: noted + 1 }))
                              })
                          ),
                          footOf(state, known)
                      ]
            ];
        }
    });
    const fill = () => {
        screen.element.classList.toggle(
            "dispatch-fill",
            !screen.state.asTable && !screen.state.asRoom
        );
        window.dispatchEvent(new Event("desk.look"));
    };
    fill();
    inBar();
    let moved = false, leave = () => {};
    /** @type {HTMLElement | null} */
    let framed = null;
    /** @type {unknown[]} */
    let drawn = [];
    /** Whether something is there that was not drawn yet: most replies say what is shown already.
     * @param {string} day
     */
    function isNews(day) {
        const { text, csv, denied } = dayNow(day),
            now = [
                day,
                text,
                csv,
                denied,
                toldNow(today()),
                dutyRead().reply(),
                nowOn(day),
                JSON.stringify(dayRead(day).age())
            ];
        const news = now.some((it, at) => it !== drawn[at]);
        drawn = now;
        return news;
    }
    /** Follows what is read of the day that is shown. */
    function follow() {
        leave();
        moved = false;
        const { day } = screen.state,
            stops = [
                dayRead(day).watch(screen.element, () => heardDay(day)),
                driversRead().watch(screen.element, () => heard(day)),
                dutyRead().watch(screen.element, () => heard(day))
            ];
        leave = () => stops.forEach((act) => act());
    }
    const rangeShown = () => spread(knownOf(stateOf(screen.state)).shown, 1, 0).range.join();
    /** @param {string} day */
    function heard(day) {
        if (screen.state.day !== day) return;
        if (isNews(day)) {
            const range = rangeShown();
            screen.change({ now: nowOn(day) });
            if (moved && range !== rangeShown()) moveTo(stateOf(screen.state), middle);
            const frame = document.getElementById("picture");
            if (frame && frame !== framed) measured.observe(frame);
            framed = frame;
            searchAhead(knownOf(stateOf(screen.state)).manifests);
        }
        openFirst();
    }
    /** The day itself was told, and so it is time to look whom this browser has not placed.
     * @param {string} day
     */
    async function heardDay(day) {
        heard(day);
        const unplaced = await readUnplaced();
        if (screen.state.day === day && screen.state.unplaced !== unplaced)
            screen.change({ unplaced });
    }
    /** Once the day is there, the picture is at the present, or at the stop that another part of
     * the screen has named.
     */
    function openFirst() {
        const state = stateOf(screen.state);
        if (moved || state.text === null || !document.getElementById("picture")) return;
        moved = true;
        moveToNow(state);
        const trip = Number(keptText("session", STOP)) || null,
            manifest =
                trip &&
                knownOf(state).busy.find(({ stops }) => stops.some((stop) => stop.trip === trip));
        dropText("session", STOP);
        if (trip && manifest) acts.opened(manifest.vehicle, trip);
    }
    const measured = new ResizeObserver(() => {
        const frame = document.getElementById("picture"), { wide, high } = screen.state;
        if (!frame?.clientWidth || (frame.clientWidth === wide && frame.clientHeight === high))
            return;
        // (the same minute stays where it was)
        screen.change({ wide: frame.clientWidth, high: frame.clientHeight });
        moveTo(stateOf(screen.state), middle);
    });
    // (the table is made where it is shown, and for paper)
    for (const [name, printing] of /** @type {[string, boolean][]} */ ([
        ["beforeprint", true],
        ["afterprint", false]
    ])) {
        window.addEventListener(name, () => {
            if (screen.element.isConnected) screen.change({ printing });
        });
    }
    screen.onNewDay(() => {
        screen.change(({ day }) => ({ ended: true, now: nowOn(day) }));
        dayRead(screen.state.day).again();
    });
    follow();
    return screen.element;
}
