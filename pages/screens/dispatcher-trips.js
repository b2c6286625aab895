// The trips of a day: a table to sort, to filter and to search, how each ended, and all the rest of
// a van at once.

import { placeName, vehicleName } from "../parts/agency.js";
import { asked } from "../parts/ask.js";
import { clock, today } from "../parts/clock.js";
import * as desk from "../parts/desk.js";
import { denialOf, inWords } from "../parts/denials.js";
import { button, part, save, table } from "../parts/element.js";
import { icon } from "../parts/icons.js";
import { keepText } from "../parts/kept.js";
import { madeOnce } from "../parts/made-once.js";
import { menuButton } from "../parts/menu.js";
import { closePopups, popup } from "../parts/popup.js";
import { folded, riderLabel, riderName, riderOf } from "../parts/roster.js";
import { saidMissed } from "../parts/outcome-doubts.js";
import { tapsOn } from "../parts/reviews.js";
import { makeScreen } from "../parts/screen.js";
import { endsOf } from "../parts/stop-where.js";
import { keepSubject } from "../parts/subject.js";
import { doingOf, manifestsIn, rowsIn } from "../parts/texts.js";
import { longTime, shortNames } from "../parts/timeline.js";
import { fits, searchText } from "../parts/trip-search.js";
import { countsOf, FILTERS, filterFor, leaves, standingOf } from "../parts/trips-now.js";
import { language, t } from "../parts/words.js";
import { dollars, statusOf, windowOf } from "./booking.js";
import { attention } from "./dispatcher-attention.js";
import { dayDenied, dayTitle, dayTools, nowOn, STOP, theDay } from "./dispatcher-bar.js";
import { saveCsv, spreadsheetOf } from "./dispatcher-files.js";
import { tripSearch } from "./dispatcher-find.js";
import { notesList, notesOn } from "./dispatcher-notes.js";
import { outcomeAsked } from "./dispatcher-outcome.js";
import { dayNow, dayRead, driversRead, toldNow } from "./dispatcher-reads.js";
import { isOpen, review } from "./dispatcher-review.js";
import { fromTripToTrip, toFirstRow } from "./dispatcher-rows.js";

/** @typedef {import("../parts/texts.js").Row} Row */
/** @typedef {import("../types").Given} Given */
/** @typedef {import("../parts/trips-now.js").Planned} Planned */
/** @typedef {import("../parts/trips-now.js").Filter} Filter */
/** @typedef {import("../parts/trips-now.js").Standing} Standing */
/** @typedef {import("../parts/lateness.js").Told} Told */
/** @typedef {{ vehicle: number, count: number, done: number, refused: { trip: number, denied:
 * string }[], running: boolean }} Bulk the rest of a vehicle
 */
/** @typedef {{ day: string, ended: boolean, typed: string, filter: Filter | null, order: [keyof
 * Planned, number], answers: Record<number, Given>, bulk: Bulk | null, most: number, printing:
 * boolean }} Own most is how many rows are drawn, filter what somebody chose
 */
/** @typedef {Own & import("./dispatcher-reads.js").Day & { told: Told | null }} State with what the
 * desk and drivers told of the day
 */
/** @typedef {import("../parts/reviews.js").Outcome} Outcome */
/** @typedef {(row: Planned, outcome: Outcome) => void} Tell */
/** @typedef {{ row: Planned, standing: Standing }} Line */
/** @typedef {{ sort: (name: keyof Planned) => void, tell: Tell, endRest: (vehicle: number, rest:
 * Row[]) => void, search: (typed: string) => void, filter: (filter: Filter) => void, more: () =>
 * void, look: (trip: number) => void }} Acts
 */

const NARROW = "(max-width: 48rem)",
    OUTCOMES = /** @type {const} */ (["ridden", "missed-rider", "missed-operator"]),
    SIGNS = { ridden: "check", "missed-rider": "noshow", "missed-operator": "van" },
    MOST = 60,
    MOST_FOUND = 24,
    PROGRESS = 6;
/** How a trip stands where somebody of dispatch has to say what is right. */
const REVIEWED = ["confirm", "says-aboard", "disagree"];
/** Columns that only a wide window has room for; a row's menu says the same. */
const ONLY_WIDE = ["wish", "due"],
    CUT = ["rider", "from", "to"],
    WHOLE = ["window_from", "planned", "wish", "telephone"];

/** @param {number} rider */
const telephoneOf = (rider) => {
    const telephone = riderOf(rider)?.telephone ?? "";
    return telephone && part("a", { href: `tel:${telephone.replace(/[^\d+]/g, "")}` }, telephone);
};

/** @param {unknown} a @param {unknown} b */
const compared = (a, b) => (
    typeof a === "number" && typeof b === "number" ? a - b : String(a).localeCompare(String(b))
);

/** The trips that were read last, with what is searched of each: made once for their texts.
 * @type {{ csv: string, sheet: string, rows: Planned[], texts: Map<number, string> }}
 */
let known = { csv: "", sheet: "", rows: [], texts: new Map() };

/** @param {Row} row */
function textOf(row) {
    const { trip, rider, vehicle, from, to, status } = row, ends = endsOf(row);
    return searchText(
        [
            riderName(rider),
            rider,
            riderOf(rider)?.telephone,
            vehicleName(vehicle),
            vehicle,
            trip,
            placeName(from),
            placeName(to),
            ends.from,
            ends.to,
            statusOf(status)
        ],
        folded
    );
}

/** @param {string} csv @param {string} sheet */
function knownOf(csv, sheet) {
    if (known.csv === csv && known.sheet === sheet) return known;
    const stops = manifestsIn(sheet).flatMap((manifest) => manifest.stops),
        at = (/** @type {string} */ what) =>
            new Map(stops.filter((stop) => stop.what === what).map((stop) => [stop.trip, stop.at]));
    const picks = at("PICK"), drops = at("DROP");
    const rows = (csv ? rowsIn(csv) : []).map((row) => ({
        ...row,
        planned: picks.get(row.trip) ?? row.window_from,
        drop: drops.get(row.trip) ?? row.window_to
    }));
    known = { csv, sheet, rows, texts: new Map(rows.map((row) => [row.trip, textOf(row)])) };
    return known;
}

/** What is known of a day: each trip with how it stands, how many each filter leaves, and who comes
 * in a wheelchair.
 * @param {string} day
 * @param {string} sheet
 * @param {string} csv
 * @param {Told | null} told
 * @param {number} now
 */
function dayMade(day, sheet, csv, told, now) {
    const manifests = manifestsIn(sheet),
        isToday = day === today(),
        rows = csv ? knownOf(csv, sheet).rows : [],
        { lates, needs } = attention(manifests, told, doingOf(manifests, rows, now), now, isToday);
    /** @type {import("../parts/trips-now.js").Known} */
    const has = {
        now,
        isToday,
        lates,
        taps: (vehicle) => (isToday && told?.vehicles.get(vehicle)) || [],
        unconfirmed: new Set(
            needs.noShows.filter((it) => it.day === day && isOpen(it)).map(({ trip }) => trip)
        ),
        disputed: new Map(
            needs.disagreements.filter((it) => it.day === day && isOpen(it)).map((it) => [
                it.trip,
                it.told
            ])
        )
    };
    const all = rows.map((row) => ({ row, standing: standingOf(row, has) }));
    return {
        has,
        all,
        needs,
        counts: countsOf(all, has),
        chairs: new Set(
            manifests.flatMap(({ stops }) =>
                stops.flatMap(({ what, trip, wheelchairs }) => (
                    what === "PICK" && wheelchairs ? [Number(trip)] : []
                ))
            )
        )
    };
}

const dayOnce = /** @type {typeof dayMade} */ (madeOnce(dayMade));

/** @param {State} state */
const dayOf = ({ day, text, csv, told }) => dayOnce(day, text ?? "", csv, told, nowOn(day));

/** @param {State} state */
function linesOf(state) {
    const { csv, text: sheet, typed, filter: chosen, order: [name, way] } = state,
        { all, has, counts } = dayOf(state),
        { texts } = knownOf(csv, sheet ?? ""),
        wanted = folded(typed.trim());
    const filter = filterFor(chosen, typed, counts),
        shown = all.filter(
            ({ row, standing }) =>
                leaves(filter, row, standing, has) &&
                (!wanted || fits(texts.get(row.trip) ?? "", wanted))
        );
    return {
        all: all.map(({ row }) => row),
        counts,
        filter,
        shown: shown.sort(
            ({ row: a }, { row: b }) =>
                compared(a[name], b[name]) * way ||
                a.window_from - b.window_from ||
                a.trip - b.trip
        )
    };
}

// One trip.

/** @param {Row} row @param {string} now today */
const mayTell = ({ status, day }, now) => status === "booked" && day <= now;

/** How a trip stands, in words and with a sign where somebody has to act.
 * @param {Standing} standing
 * @returns {[string, string, string]} a kind of chip or "soft" or "", a sign, the words
 */
function standingWords({ kind, minutes }) {
    const time = Number.isFinite(minutes) ? longTime(minutes) : "",
        words = t(`dispatcher.stands-${kind}`, {
            minutes,
            time,
            at: kind === "aboard" ? clock(minutes) : ""
        });
    if (kind === "past-window") return ["bad", "clock", words];
    if (kind === "confirm") return ["warn", "noshow", words];
    if (kind === "says-aboard" || kind === "disagree") return ["bad", "warning", words];
    if (kind === "no-update" || kind === "no-outcome") return ["warn", "silent", words];
    if (kind === "no-show") return ["", "noshow", words];
    return [["completed", "to-come", "canceled"].includes(kind) ? "soft" : "", "", words];
}

/** @param {Standing} standing */
function statusPart(standing) {
    const [kind, sign, words] = standingWords(standing);
    return part("span", { class: ["bad", "warn"].includes(kind) ? `chip ${kind}` : kind || null },
        sign && icon(sign),
        sign && " ",
        words
    );
}

/** What can be done about a trip, in one menu: how it ended, and where else it is shown.
 * @param {Line} line @param {State} state @param {Acts} acts @param {string} now
 */
function outcomeTools({ row, standing }, { answers }, { tell, look }, now) {
    const { trip, rider, vehicle } = row,
        may = mayTell(row, now),
        of = { trip, rider: riderLabel(rider) },
        needs = may && !["to-come", "late", "aboard"].includes(standing.kind);
    return [
        answers[trip] &&
            part("div", { id: `answer-${trip}`, class: "answer", tabindex: -1 }, answers[trip]),
        menuButton(
            t(may ? "dispatcher.set-outcome-of" : "dispatcher.more-of", of),
            [
                row.status !== "cancelled" && {
                        text: [icon("list"), t("dispatcher.show-on-day")],
                        act: () => toDay(row)
                    },
                {
                    text: [icon("person"), t("dispatcher.trips-of-rider")],
                    act: () => toRider(rider)
                },
                REVIEWED.includes(standing.kind) && {
                        text: [
                            icon("noshow"),
                            t(
                                standing.kind === "confirm"
                                    ? "dispatcher.review"
                                    : "dispatcher.review-entries"
                            )
                        ],
                        act: () => look(trip)
                    },
                ...(may
                    ? OUTCOMES.map((name) => ({
                          text: [
                              icon(SIGNS[name]),
                              t(`dispatcher.told-${name}`)
                          ],
                          act: () => tell(row, name)
                      }))
                    : [])
            ],
            {
                text: may
                    ? [
                          t("dispatcher.set-outcome"),
                          part("span", { class: "unseen" },
                              t("dispatcher.set-outcome-of", of).slice(
                                  t("dispatcher.set-outcome").length
                              )
                          ),
                          icon("down")
                      ]
                    : [
                          part("span", { class: "unseen" }, t("dispatcher.more-of", of)),
                          icon("more")
                      ],
                class: `small ${needs ? "" : "quiet"} ${may ? "set" : "icon"}`,
                id: `tools-${trip}-${vehicle}`
            }
        )
    ];
}

// All the rest of a vehicle.

/** Trips without outcome whose planned drop is past, by vehicle: who is still aboard, or waits, is
 * none of them, and neither is of whom a driver tapped that the trip was missed.
 * @param {Planned[]} rows @param {string} day @param {Told | null} told
 */
function restsOf(rows, day, told) {
    /** @type {Map<number, Row[]>} */
    const rests = new Map(),
        now = today(),
        minute = nowOn(day),
        missed = told ? saidMissed(told.vehicles) : new Set();
    for (const row of [...rows].sort((a, b) => a.window_from - b.window_from))
        if (mayTell(row, now) && row.drop < minute && !missed.has(row.trip))
            rests.set(row.vehicle, [...rests.get(row.vehicle) ?? [], row]);
    return [...rests].sort(([a], [b]) => a - b);
}

/** @param {number} vehicle @param {Row[]} rest */
const sureOfRest = (vehicle, rest) =>
    asked({
        question: t("dispatcher.rest-question", {
            vehicle: vehicleName(vehicle),
            count: rest.length
        }),
        detail: [
            part("p", {}, t("dispatcher.rest-detail")),
            part(
                "ul",
                {
                    class: "long-list",
                    tabindex: 0,
                    role: "group",
                    "aria-label": t("dispatcher.rest-list")
                },
                rest.map((row) =>
                    part("li", {},
                        t("dispatcher.rest-trip", {
                            trip: row.trip,
                            rider: riderLabel(row.rider),
                            window: windowOf(row)
                        })
                    )
                )
            )
        ],
        yes: t("dispatcher.rest-yes", { count: rest.length })
    });

/** @param {Bulk | null} bulk */
function bulkWords(bulk) {
    if (!bulk) return null;
    const vehicle = vehicleName(bulk.vehicle);
    if (bulk.running)
        return part("p", {},
            t("dispatcher.rest-running", { vehicle, done: bulk.done, count: bulk.count })
        );
    return [
        part("p", { class: "good" },
            t("dispatcher.rest-done", { vehicle, done: bulk.done - bulk.refused.length })
        ),
        bulk.refused.length > 0 &&
            part("div", { class: "denial" },
                part("p", {}, t("dispatcher.rest-refused", { count: bulk.refused.length })),
                part("ul", {},
                    bulk.refused.map(({ trip, denied }) =>
                        part("li", {},
                            t("dispatcher.trip-says", {
                                trip,
                                says: inWords(denied, "outcome").says
                            })
                        )
                    )
                )
            )
    ];
}

/** @param {State} state @param {Planned[]} all @param {Acts["endRest"]} endRest */
function closing({ day, bulk, told }, all, endRest) {
    const rests = restsOf(all, day, told), busy = bulk?.running ? "true" : null;
    return rests.length > 0 &&
        popup(
            "closing",
            t("dispatcher.closing"),
            [
                part("p", { class: "hint" },
                    t(day === today() ? "dispatcher.closing-today" : "dispatcher.closing-hint")
                ),
                part("div", { class: "row" },
                    rests.map(([vehicle, rest]) =>
                        button(
                            t("dispatcher.rest", {
                                vehicle: vehicleName(vehicle),
                                count: rest.length
                            }),
                            () => endRest(vehicle, rest),
                            { key: vehicle, class: "small", "aria-disabled": busy }
                        )
                    )
                )
            ],
            { class: "closing" }
        );
}

// The table.

/** Opens the day at a trip's stop.
 * @param {Pick<Row, "vehicle" | "trip">} row
 */
function toDay({ vehicle, trip }) {
    keepSubject("vehicle", vehicle);
    keepText("session", STOP, String(trip));
    location.hash = "#dispatcher/day";
}

/** @param {number} rider */
function toRider(rider) {
    keepSubject("rider", rider);
    location.hash = "#dispatcher/riders";
}

/** Who needs what, as signs with words.
 * @param {Planned} row @param {Set<number>} chairs the trips with a wheelchair
 */
const signsOf = ({ trip, rider }, chairs) =>
    [
        chairs.has(trip) && ["aid", "in-wheelchair"],
        riderOf(rider)?.attendant && ["person", "with-attendant"]
    ].flatMap((it) => (
        it
            ? [
                  part("span", { title: t(`dispatcher.${it[1]}`) },
                      icon(it[0]),
                      part("span", { class: "unseen" }, t(`dispatcher.${it[1]}`))
                  )
              ]
            : []
    ));

/** The columns by their names, with what stands in each.
 * @param {State} state @returns {[string, (line: Line) => Given][]}
 */
function cellsOf(state) {
    const notes = notesOn(state.day, state.told), nameOf = shortNames(), { chairs } = dayOf(state);
    return [
        ["window_from", ({ row }) => windowOf(row)],
        ["planned", ({ row }) => clock(row.planned)],
        [
            "rider",
            ({ row }) => [
                button(riderLabel(row.rider), () => toRider(row.rider), {
                    class: "plain",
                    title: riderLabel(row.rider)
                }),
                notesList(notes(row.vehicle, row.trip))
            ]
        ],
        ["telephone", ({ row }) => telephoneOf(row.rider)],
        ["from", ({ row }) => endsOf(row).from],
        ["to", ({ row }) => endsOf(row).to],
        [
            "vehicle",
            ({ row }) => (
                row.status === "cancelled"
                    ? nameOf(row.vehicle)
                    : button(nameOf(row.vehicle), () => toDay(row), {
                          class: "plain",
                          "aria-label": t("dispatcher.to-day", {
                              vehicle: vehicleName(row.vehicle),
                              trip: row.trip
                          })
                      })
            )
        ],
        ["signs", ({ row }) => signsOf(row, chairs)],
        ["wish", ({ row }) => clock(row.wish)],
        ["due", ({ row }) => dollars(row.due)],
        ["trip", ({ row }) => String(row.trip)],
        ["status", ({ standing }) => statusPart(standing)]
    ];
}

/** @param {State} state @param {Acts} acts */
function columnsOf(state, acts) {
    const [by, way] = state.order, now = today();
    const head = (/** @type {string} */ name) => (
        name === "signs"
            ? part("span", { class: "unseen" }, t("dispatcher.column-signs"))
            : button(
                  [
                      t(`dispatcher.column-${name}`),
                      part("span", { "aria-hidden": "true" },
                          by !== name ? "" : way > 0 ? " ↑" : " ↓"
                      )
                  ],
                  () => acts.sort(/** @type {keyof Planned} */ (name)),
                  { class: "sort", id: `sort-${name}` }
              )
    );
    const columns = cellsOf(state).map(([name, cell]) => ({
        cell,
        number: name === "due",
        whole: WHOLE.includes(name),
        sorted: by === name ? (way > 0 ? "ascending" : "descending") : null,
        head: head(name),
        kind: [
            CUT.includes(name) && "cut",
            ONLY_WIDE.includes(name) && "of-more",
            ["rider", "status", "signs", "telephone"].includes(name) && `of-${name}`
        ].filter(Boolean).join(" ")
    }));
    return [
        ...columns,
        {
            head: part("span", { class: "unseen" }, t("dispatcher.how-it-ended")),
            kind: "of-outcome",
            cell: (/** @type {Line} */ line) => outcomeTools(line, state, acts, now)
        }
    ];
}

/** The lines that were made, by trip, and of what: while somebody types in the search, none of them
 * changes.
 * @type {Map<number, { from: unknown[], made: import("../types").Part }>}
 */
const lines = new Map();

/** A trip's line, as it was made before where it says the same.
 * @param {State} state
 * @param {Acts} acts
 * @returns {(line: Line, make: () => import("../types").Part) => import("../types").Part}
 */
function lineMade({ day, answers, told, text }, acts) {
    const now = today(), notes = notesOn(day, told), words = language(), nameOf = shortNames();
    return ({ row, standing }, make) => {
        const { trip, rider, vehicle } = row;
        const says = JSON.stringify([
            row,
            standing,
            riderLabel(rider),
            riderOf(rider)?.telephone,
            riderOf(rider)?.attendant,
            endsOf(row),
            nameOf(vehicle),
            notes(vehicle, trip)
        ]);
        const from = [says, text, answers[trip], mayTell(row, now), words, acts],
            last = lines.get(trip);
        if (last?.from.every((it, at) => it === from[at])) return last.made;
        const made = make();
        lines.set(trip, { from, made });
        return made;
    };
}

/** Each trip as a block with labels, where a table has no room.
 * @param {Line[]} shown @param {State} state @param {Acts} acts
 */
function blocksOf(shown, state, acts) {
    const now = today(),
        notes = notesOn(state.day, state.told),
        labelled = (/** @type {string} */ name, /** @type {Given} */ value) =>
            part("p", {},
                part("span", { class: "label" }, `${t(`dispatcher.column-${name}`)}: `),
                value
            );
    return part("ul", { class: "trip-blocks", "aria-label": t("dispatcher.trips-of-day") },
        shown.map((line) => {
            const { row, standing } = line;
            return part("li", { key: row.trip },
                part("div", { class: "between" },
                    part("strong", {}, windowOf(row)),
                    statusPart(standing)
                ),
                part("p", {},
                    button(riderLabel(row.rider), () => toRider(row.rider), {
                        class: "quiet small"
                    }),
                    " ",
                    telephoneOf(row.rider)
                ),
                labelled("planned", clock(row.planned)),
                labelled("from", endsOf(row).from),
                labelled("to", endsOf(row).to),
                labelled("vehicle", vehicleName(row.vehicle)),
                labelled("trip", `${row.trip}, ${dollars(row.due)}`),
                notesList(notes(row.vehicle, row.trip)),
                part("div", { class: "row" }, outcomeTools(line, state, acts, now))
            );
        })
    );
}

/** The day, the filters, closing out a van, files and paper.
 * @param {State} state
 * @param {Acts} acts
 * @param {ReturnType<typeof linesOf>} found
 * @param {Given} days
 */
function toolsOf(state, { filter, endRest }, { all, counts, filter: shown }, days) {
    const { csv, day } = state,
        isToday = day === today(),
        hasCanceled = all.some(({ status }) => status === "cancelled");
    // (the day counts those that stand)
    const nameOf = (/** @type {import("../parts/trips-now.js").Filter} */ it) =>
        it === "all" && hasCanceled ? "all-canceled" : it;
    return part("div", { class: "trip-tools" },
        days,
        part("div", { class: "row tight", role: "group", "aria-label": t("dispatcher.filters") },
            FILTERS.filter((it) => it === "all" || it === shown || counts[it] > 0).filter(
                (it) => it !== "now" || isToday
            ).map((it) =>
                button(
                    [
                        t(`dispatcher.filter-${nameOf(it)}`),
                        " ",
                        part("b", { class: "num" }, counts[it])
                    ],
                    () => filter(it),
                    {
                        key: it,
                        class: "filter",
                        "data-filter": it,
                        "aria-pressed": String(it === shown)
                    }
                )
            )
        ),
        part("span", { class: "grow" }),
        closing(state, all, endRest),
        menuButton(
            t("dispatcher.files"),
            [
                {
                    text: t("dispatcher.save-desk"),
                    act: () => save(`trips-${day}.csv`, "text/csv", csv)
                },
                {
                    text: t("dispatcher.save-sheet"),
                    act: () => saveCsv(`trips-${day}-names.csv`, spreadsheetOf(all))
                },
                { text: [icon("printer"), t("dispatcher.print-trips")], act: () => window.print() }
            ],
            { id: "trip-files", class: "small icon" }
        )
    );
}

/** @param {State} state @param {Acts} acts @param {ReturnType<typeof linesOf>} found */
function tripsCard(state, acts, { all, shown }) {
    const { most, printing } = state,
        drawn = printing ? shown : shown.slice(0, most),
        isFolded = drawn.length < shown.length;
    return part("div", { class: "trips-place" },
        part(
            "div",
            {
                class: "tall",
                on: {
                    keydown: (event) =>
                        fromTripToTrip(event, {
                            search: "trip-search",
                            more: isFolded ? acts.more : null
                        })
                }
            },
            matchMedia(NARROW).matches
                ? blocksOf(drawn, state, acts)
                : table(t("dispatcher.trips-of-day"), columnsOf(state, acts), drawn, {
                      rowKey: ({ row }) => row.trip,
                      rowMade: lineMade(state, acts),
                      class: "day-trips"
                  })
        ),
        part("div", { class: "trips-foot" },
            part("p", { role: "status" },
                t("dispatcher.shown", { shown: shown.length, all: all.length })
            ),
            isFolded &&
                button(
                    t("dispatcher.show-more", { count: shown.length - drawn.length }),
                    acts.more,
                    { class: "small" }
                )
        )
    );
}

/** @param {string} day @returns {Own} */
const firstState = (day) => ({
    day,
    ended: false,
    typed: "",
    filter: null,
    order: ["window_from", 1],
    answers: {},
    bulk: null,
    most: MOST,
    printing: false
});

/** Tells how the remaining trips of a van ended, one after another.
 * @param {{ state: Own, change: import("../parts/screen.js").Tools<Own>["change"] }} screen
 * @param {() => Promise<unknown>} renew
 * @returns {Acts["endRest"]}
 */
const endingRest = (screen, renew) => async (vehicle, rest) => {
    closePopups();
    if (screen.state.bulk?.running || !await sureOfRest(vehicle, rest)) return;
    screen.change(
        { bulk: { vehicle, count: rest.length, done: 0, refused: [], running: true }, answers: {} },
        { focus: "bulk" }
    );
    /** @type {{ trip: number, denied: string }[]} */
    const refused = [];
    for (const [at, { trip }] of rest.entries()) {
        const { denied } = await desk.tellOutcome(trip, "ridden");
        if (denied === "left") return;
        if (denied !== undefined) refused.push({ trip, denied });
        if (at % PROGRESS === PROGRESS - 1)
            screen.change((/** @type {Own} */ { bulk }) => ({
                bulk: bulk && { ...bulk, done: at + 1 }
            }));
    }
    await renew();
    screen.change(
        (/** @type {Own} */ { bulk }) => ({
            bulk: bulk && { ...bulk, done: rest.length, refused, running: false }
        }),
        { focus: "bulk" }
    );
};

/** What can be done, over a screen's record.
 * @param {{ state: Own, change: import("../parts/screen.js").Tools<Own>["change"] }} screen
 * @param {() => Promise<unknown>} renew
 * @returns {Acts}
 */
function actsOf(screen, renew) {
    const sort = (/** @type {keyof Planned} */ name) =>
        screen.change(({ order }) => ({
            order: [name, order[0] === name ? -order[1] : 1]
        }));
    /** @type {Tell} */
    const tell = async (row, meant) => {
        const { day } = screen.state,
            told = toldNow(day),
            { has: { now, isToday, lates } } = dayOf({ ...screen.state, ...dayNow(day), told });
        const outcome = await outcomeAsked(row, meant, {
            now,
            isToday,
            late: lates.get(row.vehicle),
            taps: told ? tapsOn(told.vehicles, row.trip) : []
        });
        if (!outcome) return;
        const reply = await desk.tellOutcome(row.trip, outcome),
            good = t("dispatcher.told-now", {
                trip: row.trip,
                outcome: t(`dispatcher.told-${outcome}`)
            });
        await renew();
        screen.change(
            {
                answers: {
                    [row.trip]:
                        reply.denied !== undefined
                            ? denialOf(reply, "outcome-here")
                            : part("p", { class: "good" }, good)
                }
            },
            { focus: `answer-${row.trip}` }
        );
    };
    const look = async (/** @type {number} */ trip) => {
        const { day } = screen.state,
            told = toldNow(day),
            mine = (/** @type {{ trip: number, day: string }} */ it) =>
                it.trip === trip && it.day === day;
        const { needs } = dayOf({ ...screen.state, ...dayNow(day), told }),
            row = needs.disagreements.find(mine) ?? needs.noShows.find(mine),
            answer = row && told && await review(row, told);
        if (answer === "show" && row) toDay(row);
        else screen.change({});
    };
    const search = (/** @type {string} */ typed) =>
        screen.change({
            typed,
            filter: typed.trim() ? null : screen.state.filter,
            most: typed.trim() ? MOST_FOUND : MOST
        }),
        more = () => screen.change({ most: Infinity });
    return {
        sort,
        tell,
        look,
        endRest: endingRest(screen, renew),
        search,
        more,
        filter: (filter) => screen.change({ filter, typed: "", most: MOST })
    };
}

export function dayTrips() {
    // (what was read before is drawn at once, so these are there before the screen is)
    const renew = () => dayRead(screen.state.day).again();
    const acts = actsOf(
        {
            get state() {
                return screen.state;
            },
            change: (patch, options) => screen.change(patch, options)
        },
        renew
    );
    /** @type {HTMLElement | null} */
    let place = null;
    let wasShown = false;
    const screen = makeScreen({
        state: firstState(theDay()),
        class: "stack dispatch-wide dispatch-head dispatch-fill",
        draw: (own, { change, kept }) => {
            const state = { ...own, ...dayNow(own.day), told: toldNow(own.day) },
                go = (/** @type {string} */ day) => {
                    change({ ...firstState(day), typed: state.typed, order: state.order });
                    follow();
                };
            wasShown ||= place?.isConnected ?? false;
            // (a part that was left has no say in the bar)
            if (!wasShown || place?.isConnected)
                tripSearch(state.typed, { search: acts.search, keydown: toFirstRow });
            const given = { ...state, go, kept },
                isThere = !state.denied && state.text !== null,
                found = linesOf(state);
            return [
                isThere
                    ? toolsOf(state, acts, found, dayTools(given))
                    : part("div", { class: "trip-tools" }, dayTools(given)),
                dayTitle(given),
                dayRead(state.day).age(),
                part("div", { id: "bulk", role: "status", tabindex: -1 }, bulkWords(state.bulk)),
                state.denied
                    ? dayDenied(state.denied)
                    : isThere
                    ? tripsCard(state, acts, found)
                    : part("p", { class: "pad" }, t("dispatcher.reading"))
            ];
        }
    });
    place = screen.element;
    let leave = () => {};
    /** Follows what is read of the day that is shown. */
    function follow() {
        leave();
        const stops = [dayRead(screen.state.day), driversRead()].map((it) =>
            it.watch(screen.element, () => screen.change({}))
        );
        leave = () => stops.forEach((act) => act());
    }
    for (const [name, printing] of /** @type {[string, boolean][]} */ ([
        ["beforeprint", true],
        ["afterprint", false]
    ])) {
        window.addEventListener(name, () => {
            if (screen.element.isConnected) screen.change({ printing });
        });
    }
    screen.onMedia(NARROW);
    screen.onNewDay(() => {
        screen.change({ ended: true });
        renew();
    });
    follow();
    return screen.element;
}
