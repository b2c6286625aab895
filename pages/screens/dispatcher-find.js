// The search of the bar on the dispatcher's screen: on the day it finds trips, vans and riders and
// opens what is chosen; on the trips it leaves the rows that fit.

import { placeName, vehicleName, vehicles } from "../parts/agency.js";
import { between, clock, minuteNow } from "../parts/clock.js";
import { comboField } from "../parts/combo.js";
import { drawInto, found, make, part } from "../parts/element.js";
import { icon } from "../parts/icons.js";
import { findRiders, folded, riderLabel, riderName, riderOf } from "../parts/roster.js";
import { stopWhere } from "../parts/stop-where.js";
import { fits, searchText, vanFirst } from "../parts/trip-search.js";
import { t } from "../parts/words.js";

/** @typedef {import("../parts/texts.js").Manifest} Manifest */
/** @typedef {import("../parts/combo.js").Choice} Choice */
/** @typedef {{ vehicle: number, stop: import("../parts/texts.js").Stop, text: string }} Entry */
/** @typedef {{ trip: (vehicle: number, trip: number) => void, van: (vehicle: number) => void,
 * rider: (rider: number) => void }} Go
 */

const MOST_TRIPS = 10,
    MOST_OTHERS = 5,
    IDLE = 20,
    AGO = 60;
/** The numbers of choices: trips as they are, vans and riders above them. */
const VANS = 1e10,
    RIDERS = 2e10;

/** What is searched of each pickup of a van, made once for its manifest.
 * @type {WeakMap<Manifest, Entry[]>}
 */
const searched = new WeakMap();

/** @param {Manifest} manifest @returns {Entry[]} */
function entriesOf(manifest) {
    const { vehicle, stops } = manifest, known = searched.get(manifest);
    if (known) return known;
    const entries = stops.filter(({ what }) => what === "PICK").map((stop) => {
        const drop = stops.find(({ what, trip }) => what === "DROP" && trip === stop.trip),
            rider = Number(stop.rider);
        return {
            vehicle,
            stop,
            text: searchText(
                [
                    riderName(rider),
                    rider,
                    riderOf(rider)?.telephone,
                    vehicleName(vehicle),
                    vehicle,
                    stop.trip,
                    placeName(stop.place),
                    stopWhere(stop),
                    drop && placeName(drop.place),
                    drop && stopWhere(drop)
                ],
                folded
            )
        };
    });
    searched.set(manifest, entries);
    return entries;
}

const whenIdle = (/** @type {() => void} */ act) => (
    "requestIdleCallback" in window ? window.requestIdleCallback(act) : setTimeout(act, IDLE)
);

/** Makes what is searched while nothing else is to be done, van by van: the first letter does not
 * wait for it.
 * @param {Manifest[]} manifests
 */
export function searchAhead(manifests) {
    const next = manifests.find((it) => !searched.has(it));
    if (next)
        whenIdle(() => {
            entriesOf(next);
            searchAhead(manifests);
        });
}

/** @param {Entry} entry @returns {Choice} */
const tripChoice = ({ vehicle, stop }) => ({
    id: Number(stop.trip),
    group: t("dispatcher.search-list"),
    text: riderLabel(Number(stop.rider)),
    note: t("dispatcher.found-trip", {
        trip: stop.trip,
        place: stopWhere(stop),
        telephone: riderOf(Number(stop.rider))?.telephone ?? ""
    }),
    side: t("dispatcher.found-side", {
        planned: clock(stop.at),
        window: stop.window ? between(...stop.window) : "",
        vehicle: vehicleName(vehicle)
    })
});

/** Trips of the day, nearest first, then vans, then riders.
 * @param {string} typed @param {Manifest[]} manifests @returns {Choice[]}
 */
function choicesFor(typed, manifests) {
    const wanted = folded(typed.trim()),
        now = minuteNow(),
        isVan = (/** @type {string} */ name) =>
            folded(name).split(" ").some((word) => word.startsWith(wanted)) ||
            folded(name).startsWith(wanted);
    const all = manifests
        .flatMap(entriesOf)
        .filter(({ text }) => fits(text, wanted))
        .sort((a, b) => a.stop.at - b.stop.at);
    const near = vanFirst(
        [
            ...all.filter(({ stop }) => stop.at >= now - AGO),
            ...all.filter(({ stop }) => stop.at < now - AGO)
        ],
        wanted,
        ({ vehicle }) => folded(vehicleName(vehicle))
    );
    const vans = vehicles()
        .filter(({ name }) => name && isVan(name))
        .slice(0, MOST_OTHERS)
        .map(({ id }) => ({
            id: VANS + id,
            text: vehicleName(id),
            group: t("dispatcher.search-vans")
        }));
    const riders = findRiders(typed, MOST_OTHERS).map(({ rider, telephone }) => ({
        id: RIDERS + rider,
        text: riderLabel(rider),
        note: telephone,
        group: t("dispatcher.search-riders")
    }));
    return [...near.slice(0, MOST_TRIPS).map(tripChoice), ...vans, ...riders];
}

/** The field, its sign and the key that leads to it, in the bar.
 * @param {import("../types").Given} field
 */
const inBar = (field) =>
    drawInto(found("find"), [icon("search"), field, part("kbd", { "aria-hidden": "true" }, "/")]);

/** Makes the search of the day; what it gives puts it into the bar.
 * @param {{ manifests: () => Manifest[], go: Go }} given
 */
export function daySearch({ manifests, go }) {
    /** What each choice says in the field, and where it leads.
     * @type {Map<string, number>} */
    const shown = new Map();
    const search = (/** @type {string} */ typed) => {
        const choices = choicesFor(typed, manifests());
        shown.clear();
        for (const { id, text, side } of choices)
            shown.set([text, side].filter(Boolean).join(", "), id);
        return choices;
    };
    const textOf = (/** @type {number} */ id) => [...shown].find(([, it]) => it === id)?.[0] ?? "";
    const field = comboField("day-search", t("dispatcher.search-day"), {
        search,
        textOf,
        meant: (typed) => shown.get(typed) ?? null,
        wants: () => t("dispatcher.search-none"),
        sends: true,
        placeholder: t("dispatcher.search-hint")
    });
    field.control.id = "day-search";
    field.control.setAttribute("data-search", "");
    field.control.setAttribute("aria-label", t("dispatcher.search-day"));
    const chosen = () => {
        const id = shown.get(field.control.value);
        if (id === undefined)
            return field.tell(field.control.value.trim() ? t("dispatcher.search-none") : "");
        field.write(null);
        field.tell("");
        if (id >= RIDERS) return go.rider(id - RIDERS);
        if (id >= VANS) return go.van(id - VANS);
        const entry = manifests().flatMap(entriesOf).find(({ stop }) => stop.trip === id);
        return entry && go.trip(entry.vehicle, id);
    };
    const form = make(
        "form",
        {
            class: "inline subject",
            on: {
                submit: (event) => {
                    event.preventDefault();
                    chosen();
                }
            }
        },
        field.element
    );
    return () => inBar(form);
}

/** The search of the trips: what is typed stays in the field and leaves the rows that fit.
 * @param {string} typed
 * @param {{ search: (typed: string) => void, keydown: (event: KeyboardEvent) => void }} acts
 */
export const tripSearch = (typed, { search, keydown }) =>
    inBar(
        part("form", { class: "inline subject", on: { submit: (event) => event.preventDefault() } },
            part("div", { class: "field combo" },
                part("input", {
                    id: "trip-search",
                    type: "search",
                    autocomplete: "off",
                    value: typed,
                    "data-search": "",
                    "aria-label": t("dispatcher.search"),
                    placeholder: t("dispatcher.search-hint"),
                    on: { input: (event) => search(event.target.value), keydown }
                })
            )
        )
    );
