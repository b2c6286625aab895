// What is around the stop's card on the driver's phone: the day and the telephone above it, what
// has to be known, and all stops below it.

import { agency, vehicleName } from "../parts/agency.js";
import { between, clock, dayInWords, dayShort, plus, serverNow } from "../parts/clock.js";
import { LEAST_LATE } from "../parts/delay.js";
import { keptDenialOf } from "../parts/denials.js";
import { button, part } from "../parts/element.js";
import { icon } from "../parts/icons.js";
import { heldFor } from "../parts/queue.js";
import { t } from "../parts/words.js";
import { foldedStops, justTapped } from "./driver-day.js";
import { riderAt, stopNameAt, whoAt } from "./driver-read.js";
import {
    behind,
    deniedIn,
    heldIn,
    LIST,
    logOf,
    namesOf,
    sheetName,
    shownDay
} from "./driver-state.js";
import { didWords, elsewhereWords, stopWords, timeOf } from "./driver-stop.js";

/** @typedef {import("../parts/queue.js").Entry} Entry */
/** @typedef {import("./driver-day.js").Shown} Shown */
/** @typedef {import("./driver-state.js").State} State */
/** @typedef {{ show: (day: string) => void, open: (name: string) => void, aside: (entry: Entry) =>
 * void, seenGone: () => void, takeBack: (entry: Entry) => void, note: (stop: null) => void, toNext:
 * () => void, toList: () => void }} Acts
 */

/** So many stops are shown below the next one. */
const AFTER = 2;
const PLAIN = { class: "tap plain" }, SECOND = 1000;

/** The days that can be chosen, with their words: another one only where it is shown.
 * @param {State} state @returns {[string, string][]} */
function daysOf({ day, today }) {
    const other = day === plus(today, -1) ? t("driver.yesterday") : dayShort(day),
        tomorrow = plus(today, 1);
    return [
        ...(day < today || day > tomorrow ? [/** @type {[string, string]} */ ([day, other])] : []),
        [today, t("driver.today")],
        [tomorrow, t("driver.tomorrow")]
    ];
}

/** The bar: the van, how far its day is, the line, how late it is by its own taps, and the time.
 * @param {State} state */
function barOf(state) {
    const { stops } = shownDay(state),
        late = behind(state),
        done = stops.filter((stop) => stop.done).length;
    return part("div", { class: "phone-bar", key: "bar" },
        part("p", { class: "phone-van" },
            part("strong", { class: "cut" }, vehicleName(state.vehicle)),
            " ",
            stops.length > 0 &&
                part("span", { class: "s soft num nowrap" },
                    t("driver.stops-done", { done, of: stops.length }),
                    part("span", { class: "unseen" }, " ", t("driver.stops"))
                )
        ),
        part("p", { class: "phone-signs" },
            state.silent && [
                    part("span", { class: "chip bad" }, icon("offline"), t("driver.offline")),
                    " "
                ],
            late >= LEAST_LATE && [
                    part("span", { class: "chip bad" },
                        icon("clock"),
                        t("driver.minutes-late", { minutes: late })
                    ),
                    " "
                ],
            part("span", { class: "s soft num nowrap" },
                timeOf(state.now).replace(/\s.*$/, ""),
                part("span", { class: "unseen" }, /\s.*$/.exec(timeOf(state.now))?.[0] ?? "")
            )
        )
    );
}

/** @param {State} state @param {Acts} acts */
export function headOf(state, acts) {
    const { day, today, before, begun } = state,
        words = day < today ? t("driver.day-over") : day > today ? t("driver.later-day") : "";
    return [
        barOf(state),
        part("div", { class: "driver-head", key: "head" },
            words && part("p", { class: "note" }, part("strong", {}, dayInWords(day)), ". ", words),
            part("div", { role: "status" },
                begun &&
                    day === today &&
                    part("p", { class: "note" }, t("driver.new-day", { day: dayInWords(day) }))
            ),
            before &&
                part("div", { class: "note" },
                    part("p", {},
                        t("driver.open-before", { day: dayShort(before.day), count: before.count })
                    ),
                    button(
                        t("driver.show-before", { day: dayShort(before.day) }),
                        () => acts.show(before.day),
                        PLAIN
                    )
                )
        )
    ];
}

const telOf = (/** @type {string} */ telephone) => `tel:${telephone.replace(/[^\d+*#,;]/g, "")}`;

/** A link that calls dispatch, where the agency has a telephone number. */
export function callLink() {
    const { telephone } = agency();
    if (!telephone) return null;
    const said = t("driver.call", { telephone }), at = said.indexOf(telephone);
    return part("a", { class: "tap plain driver-link", href: telOf(telephone) },
        icon("phone"),
        part("span", {},
            said.slice(0, at),
            part("span", { class: "telephone" }, telephone),
            said.slice(at + telephone.length)
        )
    );
}

/** At the foot of the window: the next stop, all stops, and dispatch.
 * @param {State} state @param {Acts} acts */
export function dockOf({ view }, acts) {
    const { telephone } = agency(),
        current = (/** @type {State["view"]} */ it) => (view === it ? "true" : null);
    return part("nav", { class: "dock", key: "dock", "aria-label": t("common.parts") },
        button([icon("van"), t("driver.next")], acts.toNext, {
            key: "stop",
            "aria-current": current("stop")
        }),
        button([icon("list"), t("driver.all-stops")], acts.toList, {
            key: "list",
            "aria-current": current("list")
        }),
        telephone &&
            part(
                "a",
                {
                    key: "call",
                    href: telOf(telephone),
                    "aria-label": t("driver.call", { telephone })
                },
                icon("phone"),
                t("driver.dispatch")
            )
    );
}

/** Notes on the van itself.
 * @param {State} state */
const vanNotes = (state) =>
    logOf(state).filter(({ tap }) => tap.what === "note" && tap.stop === "van").map(
        ({ tap, order }) =>
            part("p", { key: `note-${order}` },
                t("driver.note-at", { time: timeOf(tap.at), text: tap.text })
            )
    );

/** Below the stop's card: the day and another one, whom to call, and a note on the van.
 * @param {State} state @param {Acts} acts */
export function footOf(state, acts) {
    return part("div", { class: "driver-head", key: "foot" },
        part("p", { class: "s soft", id: "driver-day" }, dayInWords(state.day)),
        part("div", { class: "driver-days", role: "group", "aria-label": t("driver.day") },
            daysOf(state).map(([it, words]) =>
                button(words, () => acts.show(it), {
                    key: it,
                    class: "tap plain driver-day",
                    "aria-pressed": String(it === state.day)
                })
            )
        ),
        callLink(),
        vanNotes(state),
        !state.locked &&
            state.day === state.today &&
            button(t("driver.add-van-note"), () => acts.note(null), PLAIN)
    );
}

/** What comes after the stop that is next.
 * @param {State} state */
export function afterOf(state) {
    const { stops, next } = shownDay(state),
        names = namesOf(state),
        after =
            next < 0 || state.opened
                ? []
                : stops.slice(next + 1).filter(({ done }) => !done).slice(0, AFTER);
    return after.length > 0 &&
        part("section", { class: "card flush", key: "after", "aria-labelledby": "driver-after" },
            part("h2", { id: "driver-after", class: "head" }, t("driver.after")),
            part("ul", { class: "plain-list" },
                after.map((stop) =>
                    part("li", { key: stop.name, class: "pick-row" }, lineOf(stop, names))
                )
            )
        );
}

/** A no-show that can still be undone. The seconds are no news for a screen reader.
 * @param {State} state @param {Acts} acts */
const heldOnes = (state, acts) =>
    heldIn(state.kept).map((entry) =>
        part("div", { class: "card driver-held", key: `held-${entry.order}` },
            part("p", {},
                t("driver.held", {
                    what: didWords(entry.tap.what),
                    who: whoAt(entry.tap.rider, namesOf(state))
                }),
                " ",
                part("span", {},
                    t("driver.held-for", { seconds: Math.ceil(heldFor(entry) / SECOND) })
                )
            ),
            button(
                t("driver.take-back", { what: didWords(entry.tap.what) }),
                () => acts.takeBack(entry),
                PLAIN
            )
        )
    );

/** The tap that has just led on to another stop, as long as it can be undone with one more. What
 * has the focus stays.
 * @param {State} state */
export function undoIn(state) {
    const hasFocus = document.activeElement?.closest(".driver-undo");
    if (state.locked || state.day !== state.today) return null;
    return justTapped(logOf(state), hasFocus ? null : serverNow());
}

/** The rider's name alone, or who it is by number.
 * @param {number} rider @param {import("./driver-read.js").Names} names */
const nameAt = (rider, names) => riderAt(rider, names).name || whoAt(rider, names);

/** The same as a bar above the dock: it lies over the page, so that nothing moves under a finger as
 * it comes and goes.
 * @param {State} state @param {Acts} acts */
export function undoBar(state, acts) {
    const entry = undoIn(state),
        stop = entry && shownDay(state).stops.find(({ name }) => name === entry.tap.stop);
    if (!entry || !stop) return null;
    const what = didWords(stop.what === "DEPOT" ? "done" : entry.tap.what),
        who = stop.trip
            ? nameAt(Number(stop.rider), namesOf(state))
            : stopWords(stop, namesOf(state));
    return part("div", { class: "driver-undo", key: "undo" },
        part("p", {}, t("driver.held", { what, who })),
        button([icon("undo"), t("driver.undo")], () => acts.takeBack(entry), {
            key: entry.order,
            "aria-label": t("driver.take-back", { what })
        })
    );
}

/** @param {State} state */
function queueOf(state) {
    const { waits, kept } = state;
    const elsewhere = kept.some(
        (entry) => entry.state === "waiting" && entry.sheet !== sheetName(state.vehicle, state.day)
    );
    return [
        waits > 0 &&
            part("p", { class: "note" },
                t("driver.waiting", { count: waits }),
                elsewhere && ` ${t("driver.waits-elsewhere")}`
            ),
        state.loose.some(({ write }) => !write) && part("p", { class: "note" }, t("driver.loose"))
    ];
}

/** What the desk has of a trip of which somebody told something else before: its outcome as far as
 * it is known, and that dispatch has to be called.
 * @param {Entry} entry */
function recordOf({ tap }) {
    const { onRecord = "unknown", what } = tap;
    if (onRecord === what)
        return part("p", {}, t("driver.on-record-same", { what: didWords(what) }));
    return part("div", { class: "denial" },
        part("p", {},
            part("strong", {},
                onRecord === "unknown"
                    ? t("driver.on-record-unknown")
                    : t("driver.on-record", { what: t(`driver.record-${onRecord}`) })
            )
        ),
        part("p", {}, t("driver.call-now", { what: didWords(what) }))
    );
}

/** An outcome that the desk denied, until somebody has read it.
 * @param {Entry} entry @param {State} state @param {Acts} acts */
function deniedOne(entry, state, acts) {
    const { stop, rider, what, trip, onRecord } = entry.tap,
        isHere = entry.sheet === sheetName(state.vehicle, state.day);
    const day = isHere ? "" : `${dayShort(entry.sheet.split(" ")[1])}: `,
        there = isHere && shownDay(state).stops.some(({ name }) => name === stop);
    const isOver = entry.denied === "desk.over",
        words = `${day}${whoAt(rider, namesOf(state))}, ${t("driver.trip", { trip })}.`;
    return part("div", { class: "card driver-denied", key: `denied-${entry.order}` },
        part("p", {}, t("driver.denied-one", { what: didWords(what), stop: words })),
        isOver ? recordOf(entry) : keptDenialOf(entry.denied, "outcome"),
        part("div", { class: "taps" },
            isOver && onRecord !== what && callLink(),
            there && button(t("driver.open-stop"), () => acts.open(stop), PLAIN),
            button(t("driver.put-aside"), () => acts.aside(entry), PLAIN)
        )
    );
}

/** What is said of the line: when the manifest was read and until when it is shown, or that it is
 * locked.
 * @param {State} state */
function lineWords({ silent, read, locked, setBack, opensUntil }) {
    if (locked && setBack) return t("driver.locked-clock");
    if (locked) return t("driver.locked", { minutes: agency().lock_minutes });
    if (!silent) return "";
    if (!read) return t("driver.none-kept");
    const time = `${dayShort(read.readAt.slice(0, 10))}, ${timeOf(read.readAt)}`;
    const until = opensUntil && t("driver.shown-until", { time: timeOf(opensUntil) });
    return `${t("driver.read-at", { time })} ${until}`;
}

/** Why the manifest cannot be read, in the words of the screen.
 * @param {State} state */
const whyDenied = ({ denied, vehicle }) =>
    denied &&
    (
        denied === "desk.caller"
            ? part("div", { class: "denial" },
                  part("p", {},
                      part("strong", {}, t("driver.not-yours", { van: vehicleName(vehicle) }))
                  ),
                  part("p", {}, t("driver.choose-yours"))
              )
            : keptDenialOf(denied, "manifest")
    );

/** What has to be known beside the stops: the line, what waits, what was denied, what is gone.
 * @param {State} state @param {Acts} acts */
export function noticesOf(state, acts) {
    const { gone } = state, words = lineWords(state);
    return part("div", { class: "driver-notices", key: "notices" },
        part("div", { role: "status", id: "driver-line" },
            words && part("p", { class: "note signed" }, icon("offline"), part("span", {}, words))
        ),
        part("div", { id: "driver-held" }, heldOnes(state, acts)),
        part("div", { role: "status", id: "driver-queue" }, queueOf(state)),
        part("div", { role: "alert", id: "driver-denied" },
            whyDenied(state),
            gone &&
                part("div", { class: "note" },
                    part("p", {}, t("driver.gone", { stops: gone })),
                    button(t("driver.put-aside"), acts.seenGone, PLAIN)
                ),
            deniedIn(state).map((entry) => deniedOne(entry, state, acts))
        )
    );
}

/** What came of a stop, for the list.
 * @param {Shown} stop */
function stateWords({ what, isNext, done, aboard, outcome, denied, taps, elsewhere }) {
    const told = outcome ?? denied, words = told ? didWords(told.tap.what) : "";
    if (denied) return t("driver.state-denied", { what: words });
    if (outcome?.state === "waiting") return t("driver.state-waiting", { what: words });
    if (outcome) return outcome.denied ? t("driver.state-known", { what: words }) : words;
    if (aboard && what === "PICK") return didWords("aboard");
    if (elsewhere && (elsewhere !== "aboard" || what === "PICK")) return elsewhereWords(elsewhere);
    if (isNext) return t("driver.state-next");
    return done && taps.length ? didWords(what === "DEPOT" ? "done" : "left") : "";
}

/** A stop in a list: its time, what is done there, where, and the window of a pickup to come.
 * @param {Shown} stop @param {import("./driver-read.js").Names} names */
function lineOf(stop, names) {
    const window = stop.what === "PICK" && !stop.done && stop.window;
    return [
        part("span", { class: "t" }, clock(stop.at)),
        " ",
        part("span", {},
            part("b", {}, stopWords(stop, names, true)),
            " ",
            part("span", { class: "s" }, stopNameAt(stop, names)),
            window && [
                    " ",
                    part("span", { class: "s num" },
                        t("driver.window-short", { window: between(...window) })
                    )
                ]
        ),
        " ",
        stop.party.chairs > 0 &&
            stop.trip &&
            part("span", { class: "aid" },
                icon("aid"),
                part("span", { class: "unseen" }, t("driver.wheelchair"))
            )
    ];
}

/** The look of what came of a stop: amber waits, red was denied.
 * @param {Shown} stop */
const lookOfState = ({ denied, outcome }) => (
    denied ? "chip bad" : outcome?.state === "waiting" ? "chip warn" : ""
);

/** @param {State} state @param {Acts} acts */
export function listOf(state, acts) {
    const { stops, next } = shownDay(state),
        names = namesOf(state),
        away = foldedStops(stops, next);
    const rows = (/** @type {Shown[]} */ some) =>
        part("ol", { class: "plain-list" },
            some.map((stop) =>
                part("li", { key: stop.name },
                    button(
                        [
                            lineOf(stop, names),
                            " ",
                            part("span", { class: "driver-state" },
                                part("span", { class: lookOfState(stop) }, stateWords(stop))
                            )
                        ],
                        () => acts.open(stop.name),
                        {
                            id: `stop-${stop.name.replace(" ", "-")}`,
                            class: [
                                "pick-row driver-row",
                                ...(stop.done ? ["done"] : []),
                                ...(stop.isNext ? ["next"] : [])
                            ].join(" "),
                            "aria-current": stop.isNext ? "step" : null
                        }
                    )
                )
            )
        );
    return stops.length > 0 &&
        part("section", { class: "card flush", key: "list", hidden: state.view !== "list" },
            part("h2", { class: "head", id: LIST, tabindex: -1 }, t("driver.all-stops")),
            part("div", { class: "driver-stops" },
                away > 0 &&
                    part("details", { class: "fold", key: "earlier" },
                        part("summary", {}, t("driver.earlier", { count: away })),
                        rows(stops.slice(0, away))
                    ),
                rows(stops.slice(away))
            )
        );
}
