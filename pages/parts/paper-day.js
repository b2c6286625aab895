// What the dispatcher prints: manifests for drivers without a phone, the day sheet, and whom to
// call. They are made of the desk's own text, which stands as it is on pages of its own where one
// asks for it.

import { agency, placeName, placeNote, vehicleName } from "./agency.js";
import { between, clock, dayInWords, minuteNow, today } from "./clock.js";
import { drawInto, found, part } from "./element.js";
import { printParts, trialMark } from "./paper.js";
import { pagesOf } from "./paper-pages.js";
import { riderLabel, riderOf } from "./roster.js";
import { endsOf, stopNote, stopWhere } from "./stop-where.js";
import { heldTogether } from "./telephones.js";
import { aboardAt } from "./texts.js";
import { t } from "./words.js";

/** @typedef {import("../types").Given} Given */
/** @typedef {import("./texts.js").Manifest} Manifest */
/** @typedef {import("./texts.js").Stop} Stop */
/** @typedef {Map<number, number>} Dues the cents that are due for each trip */

/** The columns of a manifest, those of them that a drop-off or a depot takes as one, and the
 * columns of the day sheet.
 */
const COLUMNS = 10,
    WRITTEN = 5,
    LINES = 6;
/** The height of a page of a manifest in CSS pixels, and what is left free of it, since a printer's
 * rows are some hairs higher than a screen's.
 */
const PAGE = (11 * 25.4 - 2 * 10) * 96 / 25.4,
    SPARE = 20;

/** @param {number} cents */
const dollars = (cents) => `$${(cents / 100).toFixed(2)}`;

/** @param {number} place */
const placeWords = (place) => [placeName(place), placeNote(place)].filter(Boolean).join(", ");

/** The stop of each line of a manifest; null where the line is of another form.
 * @param {Manifest} manifest @returns {[string, Stop | null][]}
 */
function linesOf({ lines, stops }) {
    const free = [...stops];
    return lines.slice(1).map((line) => [
        line,
        free[0]?.line === line ? /** @type {Stop} */ (free.shift()) : null
    ]);
}

// A manifest.

/** @param {{ minute: number, text: string }[]} notes */
const notesWords = (notes) =>
    notes.length > 0 &&
    part("em", { class: "noted" },
        ` ${notes.map(({ minute, text }) => t("dispatcher.note-at", { time: clock(minute), text })).join("; ")}`
    );

/** @param {string} over how a trip ended, or empty */
const overWords = (over) =>
    over && [
        " ",
        part("strong", { class: "over" },
            t("dispatcher.paper-over", { outcome: t(`dispatcher.paper-over-${over}`) })
        )
    ];

/** @param {Given} text */
const more = (text) => text && part("span", { class: "more" }, text);

/** A rider by name; a rider without one by the number.
 * @param {Stop} stop
 */
const nameOf = ({ rider }) => riderOf(Number(rider))?.name || riderLabel(Number(rider));

/** The cells of a pickup before those that are written in: when, which trip, who, where, the
 * window, who comes aboard, and the fare.
 * @param {Stop} stop
 * @param {Dues} dues
 * @param {{ minute: number, text: string }[]} notes
 * @param {string} over
 */
function pickupCells(stop, dues, notes, over) {
    const rider = riderOf(Number(stop.rider)),
        due = dues.get(Number(stop.trip)),
        where = [stopNote(stop), placeNote(stop.place)].filter(Boolean).join(", ");
    const who = [
        part("strong", {}, `${t("dispatcher.goes-PICK")} ${nameOf(stop)}`),
        overWords(over),
        more(
            [
                rider && String(rider.rider),
                rider?.note,
                agency().manifest_telephone && rider?.telephone
            ].filter(Boolean).join("; ")
        ),
        notesWords(notes)
    ];
    return [
        part("td", {}, who),
        part("td", {}, stopWhere(stop), more(where)),
        part("td", { class: "num" }, stop.window ? between(...stop.window) : ""),
        part("td", {},
            t("dispatcher.people", { count: stop.people, wheelchairs: 0 }),
            stop.wheelchairs > 0 && more(t("dispatcher.paper-chairs", { count: stop.wheelchairs })),
            more(rider?.aid)
        ),
        part("td", { class: "blank" }, due === undefined ? "" : dollars(due))
    ];
}

/** A drop-off is one line: its rider is aboard, and is known.
 * @param {Stop} stop @param {string} over
 */
const dropCells = (stop, over) =>
    part("td", { colspan: WRITTEN },
        part("span", { class: "drop-who" }, `${t("dispatcher.goes-DROP")} ${nameOf(stop)}`),
        " ",
        stopWhere(stop),
        overWords(over)
    );

/** What a driver has to know of a stop, and to write. A line of another form stands as the desk
 * wrote it.
 * @param {string} line
 * @param {Stop | null} stop
 * @param {Dues} dues
 * @param {(trip: number) => { minute: number, text: string }[]} notes
 * @param {(trip: number) => string} over
 */
function stopRows(line, stop, dues, notes, over) {
    if (!stop) return part("tbody", {}, part("tr", {}, part("td", { colspan: COLUMNS }, line)));
    const trip = Number(stop.trip),
        cells =
            stop.what === "DEPOT"
                ? part("td", { colspan: WRITTEN },
                      part("strong", {}, t("dispatcher.depot")),
                      ` ${placeWords(stop.place)}`
                  )
                : stop.what === "DROP"
                ? dropCells(stop, over(trip))
                : pickupCells(stop, dues, notes(trip), over(trip));
    return part("tbody", {},
        part("tr", { class: stop.what === "PICK" ? null : "drop" },
            part("td", { class: "at" }, clock(stop.at)),
            part("td", { class: "num" }, stop.trip === undefined ? "" : String(stop.trip)),
            cells,
            ["", "", ""].map(() => part("td", { class: "blank" }))
        )
    );
}

/** The desk's own text, on pages of its own.
 * @param {string[]} texts
 */
const ownPages = (texts) => texts.map((text) => part("pre", { class: "own-text" }, text));

const blank = (/** @type {string} */ name) =>
    part("span", { class: "fill" }, t(name), " ", part("span", { class: "line" }));

/** @typedef {{ original?: boolean, notes?: (vehicle: number, trip: number) => { minute: number,
 * text: string }[], duty?: (vehicle: number) => string, over?: (trip: number) => string }} Options
 * original: with the desk's own text; notes of the day; who drives the vehicle on it
 */

/** @typedef {{ from: number, to: number, page: number, pages: number }} Page the rows of a page,
 * its number and how many pages the manifest has
 */

/** How many trips a manifest has, and from when to when.
 * @param {Manifest} manifest
 */
function daySummary({ stops }) {
    const count = stops.filter(({ what }) => what === "PICK").length;
    return count > 0 &&
        t("dispatcher.paper-summary", {
            count,
            from: clock(stops[0].at),
            to: clock(stops[stops.length - 1].at)
        });
}

/** A page of a vehicle's manifest. The first one has what the driver signs.
 * @param {Manifest} manifest @param {Dues} dues @param {Options} options @param {Page} page
 */
function manifestPage(
    manifest,
    dues,
    { notes = () => [], duty = () => "", over = () => "" },
    { from, to, page, pages }
) {
    const heads = [
        "plan", "trip", "stop", "where", "window", "needs", "fare", "arrived", "left", "odometer"
    ].map((name) => part("th", { scope: "col" }, t(`dispatcher.head-${name}`)));
    const label = duty(manifest.vehicle),
        title = part("h2", {},
            t("dispatcher.manifest-of", {
                vehicle: vehicleName(manifest.vehicle),
                day: dayInWords(manifest.day)
            }),
            part("small", {}, ` ${[label, daySummary(manifest)].filter(Boolean).join(" · ")}`)
        );
    const blanks = ["driver", "signature", "odometer-out", "odometer-in", "fares"].map((name) => [
        blank(`dispatcher.fill-${name}`),
        " "
    ]),
        ofVan = notes(manifest.vehicle, 0);
    return part("section", { class: "van" },
        trialMark(),
        part("p", { class: "own-head" },
            part("strong", {}, [agency().name, agency().telephone].filter(Boolean).join(", ")),
            part("span", { class: "page-of" }, t("dispatcher.page-of", { page, pages }))
        ),
        title,
        page === 1 &&
            part("div", { class: "first" },
                part("p", { class: "signatures" }, blanks),
                ofVan.length > 0 && part("p", {}, notesWords(ofVan))
            ),
        part("table", { class: "manifest" },
            part("colgroup", {}, heads.map(() => part("col"))),
            part("thead", {}, part("tr", {}, heads)),
            linesOf(manifest).slice(from, to).map(([line, stop]) =>
                stopRows(line, stop, dues, (trip) => notes(manifest.vehicle, trip), over)
            )
        )
    );
}

/** @param {Manifest} manifest @returns {Page} */
const onOnePage = (manifest) => ({ from: 0, to: linesOf(manifest).length, page: 1, pages: 1 });

/** The pages of each manifest, by the heights that its rows have on paper as wide as what is
 * printed.
 * @param {Manifest[]} manifests
 * @param {(manifest: Manifest, page: Page) => import("../types").Part} draw
 * @returns {Page[][]}
 */
function measured(manifests, draw) {
    const paper = found("paper");
    paper.className = "manifests measured";
    drawInto(paper, heldTogether(manifests.map((manifest) => draw(manifest, onOnePage(manifest)))));
    return [...paper.querySelectorAll(".van")].map((van) => {
        const high = (/** @type {Element | null} */ it) => it?.getBoundingClientRect().height ?? 0,
            rows = [...van.querySelectorAll("tbody")];
        const all = rows.map(high),
            head = high(van) - all.reduce((sum, it) => sum + it, 0),
            room = PAGE - SPARE - head;
        const pages = pagesOf(all, room, room + high(van.querySelector(".first")));
        return pages.map(([from, to], at) => ({ from, to, page: at + 1, pages: pages.length }));
    });
}

/** Each manifest on pages of its own, which are numbered.
 * @param {Manifest[]} manifests @param {Dues} dues @param {Options} options
 */
export function printManifests(manifests, dues, options = {}) {
    const draw = (/** @type {Manifest} */ manifest, /** @type {Page} */ page) =>
        manifestPage(manifest, dues, options, page),
        pages = measured(manifests, draw);
    printParts(
        "",
        [
            manifests.map((manifest, at) => pages[at].map((page) => draw(manifest, page))),
            options.original && ownPages(manifests.map(({ text }) => text))
        ],
        { class: "manifests", marked: true }
    );
}

// The day sheet.

/** How a trip ended, at its pickup.
 * @param {Stop} stop @param {string} over
 */
const endedWords = ({ window }, over) => (window && over ? t(`dispatcher.paper-over-${over}`) : "");

/** @param {Manifest} manifest @param {string} label @param {(trip: number) => string} over */
function sheetRows(manifest, label, over) {
    const named = (/** @type {Stop} */ stop) => [
        clock(stop.at),
        stop.rider === undefined ? t("dispatcher.depot") : riderLabel(stop.rider),
        stopWhere(stop),
        stop.window ? between(...stop.window) : "",
        String(aboardAt(stop)),
        endedWords(stop, over(Number(stop.trip)))
    ];
    const row = (/** @type {string} */ line, /** @type {Stop | null} */ stop) =>
        part("tr", {},
            stop
                ? named(stop).map((cell) => part("td", {}, cell))
                : part("td", { colspan: LINES }, line)
        );
    return part("tbody", {},
        part("tr", { class: "van-row" },
            part("th", { colspan: LINES, scope: "rowgroup" },
                [vehicleName(manifest.vehicle), label].filter(Boolean).join(": ")
            )
        ),
        linesOf(manifest).map(([line, stop]) => row(line, stop))
    );
}

/** The day sheet as a table, on as many pages as it needs.
 * @param {string} day
 * @param {Manifest[]} manifests
 * @param {string} text the desk's own, whose last line says how many trips stand
 * @param {Options} options
 */
export function printDaySheet(
    day,
    manifests,
    text,
    { original = false, duty = () => "", over = () => "" } = {}
) {
    const heads = ["time", "rider", "where", "promised", "aboard", "outcome"].map((name) =>
        part("th", { scope: "col" }, t(`dispatcher.head-${name}`))
    );
    const last = /^TRIPS \d+$/m.exec(text)?.[0] ?? "";
    printParts(
        t("dispatcher.sheet-of", { day: dayInWords(day) }),
        [
            part("table", { class: "day-sheet" },
                part("thead", {}, part("tr", {}, heads)),
                manifests.map((it) => sheetRows(it, duty(it.vehicle), over))
            ),
            part("p", {}, last),
            original && ownPages([text])
        ],
        { class: "sheets" }
    );
}

// Whom to call.

/** @typedef {{ trip: number, rider: number, day: string, window_from: number, window_to: number,
 * from: number, to: number }} Called
 */

/** A list of riders with a blank for what was said.
 * @template {Called} Trip
 * @param {string} title
 * @param {Trip[]} trips
 * @param {(trip: Trip) => Given} more what else has to be said of each
 * @param {(trip: Trip) => Given} [called] what came of the call already
 */
export function printCalls(title, trips, more, called = () => "") {
    const heads = ["rider", "telephone", "day", "promised", "from-to", "say", "called"].map(
        (name) => part("th", { scope: "col" }, t(`dispatcher.head-${name}`))
    );
    const cells = (/** @type {Trip} */ it) => [
        part("strong", {}, riderLabel(it.rider)),
        riderOf(it.rider)?.telephone ?? "",
        dayInWords(it.day),
        between(it.window_from, it.window_to),
        t("dispatcher.way", { trip: it.trip, ...endsOf(it) }),
        more(it),
        called(it)
    ];
    const head = part("p", { class: "own-head" },
        part("span", {}, [agency().name, agency().telephone].filter(Boolean).join(", ")),
        part("span", {},
            t("dispatcher.printed-at", { day: dayInWords(today()), time: clock(minuteNow()) })
        )
    );
    printParts(
        title,
        [
            head,
            part("table", { class: "calls" },
                part("thead", {}, part("tr", {}, heads)),
                part("tbody", {},
                    trips.map((it) => part("tr", {}, cells(it).map((cell) => part("td", {}, cell))))
                )
            )
        ],
        { class: "sheets" }
    );
}
