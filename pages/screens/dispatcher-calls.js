// Whom to call: a list of riders on the screen, on paper and as a file, with who was called and who
// was not reached. The ticks are kept in this browser with their list, and outlive signing out; no
// name is in them. The site's log has those of every machine, so that nobody is called twice.

import { lastTick, tickIn, tickOnFile } from "../parts/call-ticks.js";
import { clock, dayShort, momentNow } from "../parts/clock.js";
import { button, part, table } from "../parts/element.js";
import { keepObject, keptObject } from "../parts/kept.js";
import { printCalls } from "../parts/paper-day.js";
import { riderLabel, riderName, riderOf } from "../parts/roster.js";
import { endsOf } from "../parts/stop-where.js";
import { count } from "../parts/tally.js";
import { t } from "../parts/words.js";
import { windowOf } from "./booking.js";
import { saveCsv } from "./dispatcher-files.js";
import { driversRead } from "./dispatcher-reads.js";

/** @typedef {import("../parts/paper-day.js").Called} Called */
/**
 * @template {Called} Trip
 * @typedef {(trip: Trip) => string} More what else has to be said of a trip
 */

const KEPT = "dispatcher.calls",
    MOST_LISTS = 60,
    MOST_NAME = 60,
    RESULTS = ["called", "not-reached"];

/** @returns {Record<string, Record<string, unknown>>} */
const ticks = () => keptObject(KEPT);

/** What came of the call of a trip in a list: "", called, or not-reached, here or at another
 * machine.
 * @param {string} list @param {number} trip
 */
const tickOf = (list, trip) =>
    lastTick(
        tickIn(ticks()[list]?.[trip]),
        tickOnFile(driversRead().reply()?.value, list.slice(0, MOST_NAME), trip)
    );

/** @param {string} list @param {number} trip @param {string} result */
function keepTick(list, trip, result) {
    const { [list]: mine = {}, ...others } = ticks(), at = momentNow();
    // (a browser without room keeps none; the paper has a column for them)
    keepObject(
        KEPT,
        Object.fromEntries(
            [...Object.entries(others), [list, { ...mine, [trip]: { result, at } }]].slice(
                -MOST_LISTS
            )
        )
    );
    count("calls", {
        list: list.slice(0, MOST_NAME),
        trip,
        result: /** @type {import("../parts/events.js").Fields["calls"]["result"]} */ (
            result || "open"
        ),
        at
    });
}

/** @param {string} list @param {number} trip */
const tickWords = (list, trip) => {
    const { result } = tickOf(list, trip);
    return result ? t(`dispatcher.call-${result}`) : "";
};

/** A list as a file, which names what came of each call.
 * @template {Called} Trip
 * @param {string} file @param {string} list @param {Trip[]} trips @param {More<Trip>} more
 */
export function saveCalls(file, list, trips, more) {
    const heads = [
        "trip", "rider", "name", "telephone", "day", "window-from", "window-to", "from", "to"
    ].map((it) => t(`dispatcher.csv-${it}`));
    saveCsv(file, [
        [...heads, t("dispatcher.head-say"), t("dispatcher.head-called")],
        ...trips.map((it) => [
            it.trip,
            it.rider,
            riderName(it.rider),
            riderOf(it.rider)?.telephone ?? "",
            it.day,
            clock(it.window_from),
            clock(it.window_to),
            endsOf(it).from,
            endsOf(it).to,
            more(it),
            tickWords(list, it.trip)
        ])
    ]);
}

/**
 * @template {Called} Trip
 * @param {string} list @param {string} title @param {Trip[]} trips @param {More<Trip>} more
 */
export const callTools = (list, title, trips, more) =>
    trips.length > 0 && [
        button(t("dispatcher.print-calls"), () =>
            printCalls(title, trips, more, (it) => tickWords(list, it.trip))
        ),
        button(t("dispatcher.save-calls"), () =>
            saveCalls(`calls-${list.replace(/\W+/g, "-")}.csv`, list, trips, more)
        )
    ];

/** @param {string} list @param {Called} called */
function tickChoice(list, { trip, rider }) {
    const { result, at, isElsewhere } = tickOf(list, trip),
        minute = Number(at?.slice(11, 13)) * 60 + Number(at?.slice(14, 16)),
        time = at ? `${dayShort(at.slice(0, 10))}, ${clock(minute)}` : "";
    return [
        part(
            "select",
            {
                "aria-label": t("dispatcher.call-of", { rider: riderLabel(rider), trip }),
                value: result,
                on: { change: (event) => keepTick(list, trip, event.target.value) }
            },
            part("option", { value: "" }, t("dispatcher.call-none")),
            RESULTS.map((name) => part("option", { value: name }, t(`dispatcher.call-${name}`)))
        ),
        result && isElsewhere && part("small", {}, ` ${t("dispatcher.call-elsewhere", { time })}`)
    ];
}

/**
 * @template {Called} Trip
 * @param {string} list
 * @param {string} caption
 * @param {Trip[]} trips
 * @param {(trip: Trip) => import("../types").Given} more
 * @param {string} head
 */
export const callsTable = (list, caption, trips, more, head) =>
    table(
        caption,
        [
            { head: t("dispatcher.head-rider"), cell: (it) => riderLabel(it.rider) },
            {
                head: t("dispatcher.head-telephone"),
                cell: (it) => riderOf(it.rider)?.telephone ?? ""
            },
            { head: t("dispatcher.head-day"), cell: (it) => dayShort(it.day) },
            { head: t("dispatcher.head-promised"), cell: windowOf },
            {
                head: t("dispatcher.head-from-to"),
                cell: (it) => t("dispatcher.way", { trip: it.trip, ...endsOf(it) })
            },
            { head, cell: more },
            { head: t("dispatcher.head-called"), cell: (it) => tickChoice(list, it) }
        ],
        trips,
        { rowKey: ({ trip }) => trip, class: "out-trips" }
    );
