// The clerk's rail: whom to call back, and who called last; and what stands there where nobody
// calls yet.

import { agency, routes } from "../parts/agency.js";
import { busHours } from "../parts/bus-hours.js";
import { between, clock, dayShort, momentAt, today, weekdayOf } from "../parts/clock.js";
import { button, element, part } from "../parts/element.js";
import { form, textField } from "../parts/fields.js";
import { icon } from "../parts/icons.js";
import { deedsOf } from "../parts/recents.js";
import {
    addCallBack,
    callBacks,
    called,
    didFor,
    dropCallBack,
    recents,
    watchRecents
} from "../parts/recents-kept.js";
import { riderLabel, riderName, riderOf } from "../parts/roster.js";
import { offersTold } from "../parts/said.js";
import { makeScreen } from "../parts/screen.js";
import { toldRead } from "../parts/told.js";
import { counted, t } from "../parts/words.js";
import { listsIn, worklistRead } from "./worklist.js";

/** @typedef {import("../parts/recents.js").Recent} Recent */
/** @typedef {import("../parts/recents.js").CallBack} CallBack */
/** @typedef {import("../types").Given} Given */
/** @typedef {(rider: number) => void} Open */

/** The lists of what waits that a clerk acts on, in the order of their haste. */
const TILES = ["offers", "suspended", "in-part", "applications", "appeals", "grants"],
    MOST_TILES = 5,
    CLERKS_LIST = "#clerk/waits",
    LONGEST_WHY = 60;

export { called, didFor };

/** @param {number} rider */
const nameOf = (rider) =>
    riderName(rider) || riderLabel(rider).replace(/^[rp]/, (it) => it.toUpperCase());

/** A moment as it is told beside today's: "9:31 AM", or "Fri, Dec 4, 4:52 PM".
 * @param {number} at milliseconds since 1970
 */
function momentWords(at) {
    const [day, time] = momentAt(at).split("T"),
        [hour, minute] = time.split(":").map(Number),
        words = clock(hour * 60 + minute);
    return day === today() ? words : `${dayShort(day)}, ${words}`;
}

/** @param {Recent} recent */
const didWords = (recent) =>
    deedsOf(recent).map(([did, count]) => t(`clerk.did-${did}`, { count })).join(", ");

/** @param {Recent} recent @param {number | null} shown */
const recentWords = (recent, shown) =>
    [
        String(recent.rider),
        recent.rider === shown ? t("clerk.now") : momentWords(recent.at),
        didWords(recent)
    ].filter(Boolean).join(" · ");

/** The look of a reason to call back: whoever calls needs all of it. */
const WHOLE = "num wraps";

/** @param {number} rider @param {string} below @param {Open} open @param {boolean} [current]
 * @param {string} [look] */
const riderLink = (rider, below, open, current = false, look = "cut num") =>
    part(
        "button",
        {
            type: "button",
            "aria-current": current ? "true" : null,
            on: { click: () => open(rider) }
        },
        part("span", { class: "grow" },
            part("span", { class: "cut block" }, nameOf(rider)),
            part("small", { class: look }, below)
        )
    );

/** The form that puts who calls on the list.
 * @param {number} rider @param {() => void} done
 */
function addForm(rider, done) {
    const why = textField("why", t("clerk.call-why"), {
        optional: true,
        judge: (text) => text.slice(0, LONGEST_WHY)
    });
    /** @type {HTMLInputElement} */ (why.control).maxLength = LONGEST_WHY;
    return form({
        name: t("clerk.call-add"),
        fields: [why],
        action: t("clerk.call-add"),
        class: "add-call",
        send: async (values) => {
            await addCallBack(rider, values.why ?? "");
            return { value: true };
        },
        done
    });
}

/** @param {CallBack} call @param {Open} open @param {number | null} shown */
const callLine = ({ rider, at, why }, open, shown) =>
    part("li", { key: rider },
        riderLink(
            rider,
            [why, t("clerk.since", { time: momentWords(at) })].filter(Boolean).join(" · "),
            open,
            rider === shown,
            WHOLE
        )
    );

/** @param {number} shown
 * @param {Open} open
 * @param {boolean} adding
 * @param {(adding: boolean) => void} change
 * @param {() => HTMLElement} ask
 */
function callBackCard(shown, open, adding, change, ask) {
    const all = callBacks(), isListed = all.some(({ rider }) => rider === shown);
    return part("section", { class: "card flush", "aria-labelledby": "call-backs" },
        part("div", { class: "head" },
            part("h2", { id: "call-backs", tabindex: -1 }, t("clerk.call-backs")),
            all.length > 0 && part("span", { class: "count" }, String(all.length))
        ),
        all.length > 0 &&
            part("ul", { class: "link-list" }, all.map((it) => callLine(it, open, shown))),
        part("div", { class: "rail-foot" },
            isListed
                ? button([icon("check"), " ", t("clerk.call-done")], () => dropCallBack(shown), {
                      class: "quiet small",
                      "aria-label": t("clerk.call-done-of", { rider: riderLabel(shown) })
                  })
                : adding
                ? ask()
                : button([icon("plus"), " ", t("clerk.call-add")], () => change(true), {
                      class: "quiet small"
                  })
        )
    );
}

/** The rail beside a rider.
 * @param {number} rider @param {Open} open
 */
export function rail(rider, open) {
    const screen = makeScreen({
        state: { adding: false },
        class: "stack",
        draw: ({ adding }, { kept, change }) => {
            const ask = () =>
                kept("ask", () =>
                    addForm(rider, () => change({ adding: false }, { focus: "call-backs" }))
                );
            const set = (/** @type {boolean} */ it) => {
                change({ adding: it });
                if (it) ask().querySelector("input")?.focus();
            };
            return [
                callBackCard(rider, open, adding, set, ask),
                part("section", { class: "card flush", "aria-labelledby": "recent" },
                    part("div", { class: "head" }, part("h2", { id: "recent" }, t("clerk.recent"))),
                    part("ul", { class: "link-list" },
                        recents().map((it) =>
                            part("li", { key: it.rider },
                                riderLink(
                                    it.rider,
                                    recentWords(it, rider),
                                    open,
                                    it.rider === rider
                                )
                            )
                        )
                    )
                )
            ];
        }
    });
    watchRecents(screen.element, () => screen.change({}));
    return screen.element;
}

// Nobody calls yet.

/** What waits, as figures that lead to it.
 * @param {import("./worklist.js").List[]} lists
 */
function tiles(lists) {
    const rows = (/** @type {string} */ id) =>
        lists
            .filter((it) => it.id === id)
            .flatMap(({ tables }) => tables)
            .reduce((sum, table) => sum + table.rows.length, 0);
    const offers = offersTold().length,
        counts = TILES.map((id) => ({
            id,
            count: id === "offers" ? Math.max(offers, rows(id)) : rows(id)
        })).filter(({ count }) => count > 0).slice(0, MOST_TILES);
    return part("section", { "aria-label": t("cases.waits") },
        counts.length === 0
            ? lists.length > 0 && part("p", { class: "soft" }, t("clerk.tiles-none"))
            : part("ul", { class: "tiles" },
                  counts.map(({ id, count }) =>
                      part("li", { key: id },
                          part("a", { class: "card tile", href: CLERKS_LIST },
                              part("b", {}, counted(count)),
                              part("span", {}, t(`clerk.tile-${id}`, { count }))
                          )
                      )
                  )
              )
    );
}

/** @param {CallBack} call @param {Open} open */
function callRow({ rider, at, why }, open) {
    const telephone = riderOf(rider)?.telephone;
    return part("li", { key: rider, class: "call-row" },
        riderLink(
            rider,
            [why, t("clerk.since", { time: momentWords(at) })].filter(Boolean).join(" · "),
            open,
            false,
            WHOLE
        ),
        telephone &&
            part(
                "a",
                {
                    class: "button small",
                    href: `tel:${telephone.replace(/[^\d+]/g, "")}`,
                    "aria-label": t("clerk.call-of", { rider: nameOf(rider) })
                },
                icon("phone"),
                t("clerk.call")
            )
    );
}

/** @param {Open} open */
const lastCallers = (open) =>
    recents().length > 0 &&
    part("section", { class: "card flush", key: "last" },
        part("div", { class: "head" }, part("h2", {}, t("clerk.last-callers"))),
        part("ul", { class: "link-list" },
            recents().map((it) =>
                part("li", { key: it.rider }, riderLink(it.rider, recentWords(it, null), open))
            )
        )
    );

/** What a clerk is asked of the day: from when to when the buses run, and whom to call. */
function todayCard() {
    const hours = busHours(routes(), weekdayOf(today())), { telephone } = agency();
    /** @type {[string, Given][]} */
    const facts = [
        [t("clerk.buses"), hours && between(hours.first, hours.last)],
        [t("clerk.telephone"), telephone]
    ],
        shown = facts.filter(([, value]) => value);
    return shown.length > 0 &&
        part("section", { class: "card pad" },
            part("h2", {}, t("clerk.today")),
            part("dl", { class: "kv" },
                shown.map(([name, value]) =>
                    part("div", {}, part("dt", {}, name), part("dd", { class: "num" }, value))
                )
            )
        );
}

/** What stands where nobody is chosen: the search, what waits, who called, and whom to call back.
 * @param {HTMLElement} ask the search
 * @param {Open} open
 * @param {{ all: boolean }} options all: with what waits for a clerk
 */
export function idle(ask, open, { all }) {
    const list = worklistRead(), told = toldRead();
    const question = element(
        part("section", { class: "card pad ask" },
            part("h2", {}, t("clerk.who-calls")),
            part("div", { class: "ask-field" }, icon("search"), ask),
            part("p", { class: "s soft" },
                t("clerk.who-hint"),
                " ",
                part("kbd", {}, "/"),
                " ",
                t("clerk.who-slash")
            )
        )
    );
    if (!all) return question;
    const screen = makeScreen({
        state: {},
        class: "call idle",
        draw: () => [
            part("div", { class: "stack" },
                question,
                tiles(listsIn(list.reply())),
                lastCallers(open)
            ),
            part("aside", { class: "stack", "aria-label": t("clerk.call-backs") },
                part("section", { class: "card flush" },
                    part("div", { class: "head" },
                        part("h2", {}, t("clerk.call-backs")),
                        callBacks().length > 0 &&
                            part("span", { class: "count" }, String(callBacks().length))
                    ),
                    callBacks().length
                        ? part("ul", { class: "link-list" },
                              callBacks().map((it) => callRow(it, open))
                          )
                        : part("p", { class: "s soft rail-foot" }, t("clerk.call-none"))
                ),
                todayCard()
            )
        ]
    });
    const redraw = () => screen.change({});
    watchRecents(screen.element, redraw);
    list.watch(screen.element, redraw);
    told.watch(screen.element, redraw);
    return screen.element;
}
