// The manifest of one van beside the picture of the day, opened at the present: what was done is
// folded away, what is next is marked.

import { vehicleName } from "../parts/agency.js";
import { between, clock, dayInWords, today } from "../parts/clock.js";
import { button, part } from "../parts/element.js";
import { icon } from "../parts/icons.js";
import { LEAST_LATE } from "../parts/delay.js";
import { printManifests } from "../parts/paper-day.js";
import { riderLabel, riderOf } from "../parts/roster.js";
import { stopWhere } from "../parts/stop-where.js";
import { doingWords, longTime } from "../parts/timeline.js";
import { endOf, vanNow } from "../parts/van-now.js";
import { t } from "../parts/words.js";
import { noteButton, notesList } from "./dispatcher-notes.js";
import { openOut } from "./dispatcher-out.js";

/** @typedef {import("../parts/texts.js").Manifest} Manifest */
/** @typedef {import("../parts/texts.js").Stop} Stop */
/** @typedef {import("../parts/van-now.js").Leg} Leg */
/** @typedef {import("./dispatcher-day.js").State} State */
/** @typedef {import("./dispatcher-day.js").Known} Known */

/** The last stop that is done stays in view above the present. */
const KEPT_DONE = 1;

/** @param {number} rider */
const telephoneOf = (rider) => {
    const telephone = riderOf(rider)?.telephone;
    return telephone
        ? part("a", { href: `tel:${telephone.replace(/[^\d+]/g, "")}` }, telephone)
        : null;
};

/** @param {Stop} stop */
const stopTitle = ({ what, rider }) => (
    what === "DEPOT"
        ? t("dispatcher.depot")
        : `${t(`dispatcher.goes-${what}`)} ${riderLabel(Number(rider))}`
);

/** A minute beside one that says which half of the day it is.
 * @param {number} minute
 */
const short = (minute) => clock(minute).replace(/\s.*$/, "");

/** The planned minute, and when it was done or is due.
 * @param {Leg} leg
 */
const timesOf = ({ stop, done, due }) =>
    part("span", { class: "times" },
        clock(stop.at),
        done !== null
            ? part("small", {}, t("dispatcher.done-at", { time: short(done) }))
            : due !== null &&
                  due !== stop.at &&
                  part("small", {}, t("dispatcher.now-at", { time: short(due) }))
    );

/** Who needs what at a pickup, as signs with words.
 * @param {Leg} leg @param {string | undefined} state
 */
function signsOf(leg, state) {
    const { stop } = leg,
        end = endOf(leg, state),
        rider = stop.what === "PICK" ? riderOf(Number(stop.rider)) : null;
    const sign = (/** @type {string} */ name, /** @type {string} */ words) =>
        part("span", { title: words }, icon(name), part("span", { class: "unseen" }, words));
    return [
        end === "done" && sign("check", t("dispatcher.stop-done")),
        end === "missed-rider" && sign("noshow", t("dispatcher.told-missed-rider")),
        end === "missed-operator" && sign("warning", t("dispatcher.told-missed-operator")),
        stop.what === "PICK" && stop.wheelchairs > 0 && sign("aid", t("dispatcher.in-wheelchair")),
        rider?.attendant && sign("person", t("dispatcher.with-attendant"))
    ];
}

/** What a pickup needs said: its window, by how much it will be missed, and whom to call.
 * @param {Leg} leg
 */
const pickupFacts = ({ stop, isDone, past }) =>
    stop.what === "PICK" &&
    part("p", { class: "facts" },
        stop.window &&
            part("span", {}, t("dispatcher.promised", { window: between(...stop.window) })),
        !isDone &&
            past > 0 &&
            part("span", { class: "chip bad" },
                icon("clock"),
                t("dispatcher.past-short", { minutes: past })
            ),
        telephoneOf(Number(stop.rider))
    );

/** @param {Leg} leg
 * @param {Manifest} manifest
 * @param {State} state
 * @param {Known} known
 * @param {{ isNext: boolean, noted: () => void }} more
 */
function stopItem(leg, { vehicle }, { day, marked, notes }, { doings }, { isNext, noted }) {
    const { stop, at, isDone } = leg,
        { trip } = stop,
        isMarked = marked !== null && trip === marked;
    const kind = [isMarked && "marked", isNext && "next", isDone && "past"].filter(Boolean).join(
        " "
    );
    return part(
        "li",
        {
            key: at,
            "data-minute": stop.at,
            "data-trip": stop.what === "PICK" ? trip : null,
            class: kind || null
        },
        timesOf(leg),
        part("div", {},
            part("p", {}, part("strong", {}, stopTitle(stop))),
            part("p", { class: "soft" }, stopWhere(stop)),
            pickupFacts(leg),
            trip !== undefined &&
                part("p", { class: "hint" },
                    [
                        t("dispatcher.stop-trip", { trip }),
                        t("dispatcher.people", {
                            count: stop.people,
                            wheelchairs: stop.wheelchairs
                        }),
                        doingWords(doings.get(trip))
                    ].filter(Boolean).join(" · ")
                ),
            trip !== undefined && notesList(notes(vehicle, trip))
        ),
        part("span", { class: "signs" },
            signsOf(leg, trip === undefined ? undefined : doings.get(trip)?.state),
            trip !== undefined &&
                day === today() &&
                noteButton(
                    { day, vehicle, trip },
                    [
                        t(`dispatcher.paper-${stop.what}`, { trip }),
                        riderLabel(Number(stop.rider))
                    ].join(" "),
                    noted
                )
        )
    );
}

/** @param {Manifest} one @param {State} state @param {Known} known @param {() => void} noted */
function stopList(one, state, known, noted) {
    const { day, now } = state,
        { legs, next } = vanNow(
            one.stops,
            known.lates.get(one.vehicle),
            state.told?.vehicles.get(one.vehicle) ?? [],
            now
        ),
        isNow = day === today();
    const folded = Math.max(0, next - KEPT_DONE),
        item = (/** @type {Leg} */ leg) =>
            stopItem(leg, one, state, known, { isNext: isNow && leg.at === next, noted });
    const list = (/** @type {number} */ from, /** @type {number} */ to) =>
        from < to && part("ol", { class: "stops", key: from }, legs.slice(from, to).map(item));
    return part(
        "div",
        {
            class: "van-stops",
            id: `stops-${one.vehicle}`,
            tabindex: 0,
            role: "region",
            "aria-label": t("dispatcher.stops-of", { vehicle: vehicleName(one.vehicle) })
        },
        folded > 0 &&
            part("details", { class: "earlier fold", key: "earlier" },
                part("summary", {}, t("dispatcher.earlier-stops", { count: folded })),
                list(0, folded)
            ),
        list(folded, next),
        isNow && part("p", { class: "now-rule", key: "now" }, clock(now)),
        list(next, legs.length)
    );
}

/** What stands below the van's name: who drives, who is aboard, and how late it is.
 * @param {Manifest} one @param {State} state @param {Known} known
 */
function vanFacts(one, { now, duty, told, day }, { lates }) {
    const late = lates.get(one.vehicle),
        { aboard } = vanNow(one.stops, late, told?.vehicles.get(one.vehicle) ?? [], now),
        label = duty(one.vehicle),
        risks = late?.risks ?? [];
    const words = [
        label,
        day === today() &&
            aboard &&
            t("dispatcher.aboard-now", {
                load: aboard.load + (aboard.chairs ?? 0),
                chairs: aboard.chairs ?? 0
            })
    ].filter(Boolean).join(" · ");
    return [
        words && part("p", { class: "duty" }, words),
        risks.length > 0 &&
            late &&
            part("p", { class: "note bad" },
                icon("warning"),
                part("span", {},
                    t("dispatcher.will-miss", { count: risks.length, minutes: late.delay })
                )
            )
    ];
}

/** @param {State} state
 * @param {Known} known
 * @param {{ close: () => void, noted: () => void }} acts
 */
export function oneVan(state, known, { close, noted }) {
    const { one, dues, over, lates } = known;
    if (!one) return null;
    const { day, original, notes, duty } = state,
        name = vehicleName(one.vehicle),
        late = lates.get(one.vehicle),
        last = late?.last;
    return part(
        "section",
        { class: "one-van", key: `one-${one.vehicle}`, "aria-labelledby": "one-van" },
        part("div", { class: "van-head" },
            part("div", { class: "between" },
                part(
                    "h3",
                    {
                        id: "one-van",
                        tabindex: -1,
                        "aria-label": t("dispatcher.manifest-of", {
                            vehicle: name,
                            day: dayInWords(day)
                        })
                    },
                    name
                ),
                late &&
                    late.delay >= LEAST_LATE &&
                    part("span", { class: "chip bad" },
                        icon("warning"),
                        t("dispatcher.late-short", { minutes: late.delay })
                    ),
                late &&
                    late.silent > 0 &&
                    part("span", { class: "chip warn" },
                        icon("silent"),
                        t("dispatcher.no-update-short", { time: longTime(late.silent) })
                    ),
                last && part("small", {}, t("dispatcher.updated-at", { time: clock(last.minute) })),
                button(icon("cross"), close, {
                    class: "quiet small icon",
                    "aria-label": t("dispatcher.close")
                })
            ),
            vanFacts(one, state, known),
            notesList(notes(one.vehicle, 0)),
            part("div", { class: "row" },
                one.stops.length > 0 &&
                    button(
                        [icon("printer"), t("dispatcher.print-short")],
                        () => printManifests([one], dues, { original, notes, duty, over }),
                        { class: "small", "aria-label": t("dispatcher.print-manifest") }
                    ),
                day === today() && noteButton({ day, vehicle: one.vehicle, trip: 0 }, "", noted),
                day >= today() &&
                    button(t("dispatcher.out-short"), () => openOut(one.vehicle, day), {
                        class: "small",
                        "aria-label": t("dispatcher.to-out", { vehicle: name })
                    })
            )
        ),
        one.stops.length
            ? stopList(one, state, known, noted)
            : part("p", { class: "pad" }, t("dispatcher.no-stops")),
        part("details", { class: "own fold" },
            part("summary", {}, t("dispatcher.own-text")),
            part("pre", { tabindex: 0, role: "region", "aria-label": t("dispatcher.own-text") },
                one.text
            )
        )
    );
}

/** Opens the manifest beside the picture at a trip's pickup, or at what comes next.
 * @param {number} vehicle @param {number} [trip]
 */
export function openAt(vehicle, trip) {
    const list = document.getElementById(`stops-${vehicle}`),
        earlier = list?.querySelector("details");
    const stop = /** @type {HTMLElement | null | undefined} */ (
        trip ? list?.querySelector(`[data-trip="${trip}"]`) : list?.querySelector(".next")
    );
    if (earlier && stop && earlier.contains(stop)) earlier.open = true;
    if (list && stop && trip) list.scrollTop = stop.offsetTop - list.offsetTop;
    else if (list) list.scrollTop = 0;
}
