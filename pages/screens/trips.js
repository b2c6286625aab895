// A rider's trips: those of today, what comes, what is over and what was cancelled, with Change,
// Cancel and Book again.

import { vehicleName } from "../parts/agency.js";
import { asked } from "../parts/ask.js";
import { clock, dayInWords, dayShort, minuteNow, today } from "../parts/clock.js";
import * as desk from "../parts/desk.js";
import { denialOf } from "../parts/denials.js";
import { button, part, say } from "../parts/element.js";
import { menuButton } from "../parts/menu.js";
import { canceledElsewhere } from "../parts/next-trip.js";
import { reading } from "../parts/reads.js";
import { riderLabel } from "../parts/roster.js";
import { beginCanceling, endAsking, leaveAsking, namedBy } from "../parts/said.js";
import { makeScreen } from "../parts/screen.js";
import { wayOf } from "../parts/stop-where.js";
import { cancelTrip } from "../parts/tally.js";
import { t } from "../parts/words.js";
import { changeFor, statusOf } from "./booking.js";
import { isUnknown } from "./booking-plan.js";
import { dollars, party, printTickets, requestedWords, windowOf } from "./ticket.js";
import { closedWords, drivers, plans, todayShown } from "./trips-today.js";

/** @typedef {import("../types").Trip} Trip */
/** @typedef {import("../types").Given} Given */
/** @typedef {{ changing: number | null, answers: Record<number, Given>, open: string[] }} State
 * answers: what came of an action, by trip; open: which lists are folded open
 */
/** @typedef {{ rider: number, trips: Trip[], told: string | null | undefined, plans: string | null
 * | undefined, state: State, tools: (trip: Trip, isRow?: boolean) => Given, below: (trip: Trip) =>
 * Given, fold: (name: string) => void, acts: Acts }} Shown told is the text of what drivers told
 * today, plans that of the vans' stops
 */
/** @typedef {{ cancel: (trip: Trip) => void, change: (trip: Trip) => void, again?: (trip: Trip) =>
 * void }} Acts
 */
/** @typedef {{ today: Trip[], coming: Trip[], past: Trip[], off: Trip[] }} Lists */

const COLUMNS = 4,
    NARROW = "(max-width: 40rem)";

/** Trips that this window has canceled.
 * @type {Set<number>}
 */
const ownCanceled = new Set();
desk.whenSending(({ path }) => {
    const cancels = /^\/trips\/(\d+)\/cancel$/.exec(path);
    if (cancels) ownCanceled.add(Number(cancels[1]));
});

const isComing = (/** @type {Trip} */ trip) => trip.day > today();
/** A trip of today stays in sight until its outcome is told, however late the van is. */
const isTodays = (/** @type {Trip} */ trip) => trip.day === today() && trip.status === "booked";
export const mayChange = (/** @type {Trip} */ trip) =>
    trip.status === "booked" && trip.day > today();
/** A trip is cancelled until its promised window begins. */
export const mayCancel = (/** @type {Trip} */ trip) =>
    trip.status === "booked" &&
    (trip.day > today() || (trip.day === today() && trip.window_from > minuteNow()));

const byTime = (/** @type {Trip} */ a, /** @type {Trip} */ b) =>
    a.day.localeCompare(b.day) || a.window_from - b.window_from || a.trip - b.trip;

/** The way back of a trip: the first one of that day that goes from its drop to its pickup later.
 * @param {Trip[]} trips @param {Trip} trip
 */
const wayBack = (trips, trip) =>
    trips.filter(
        (it) =>
            it.day === trip.day && it.from === trip.to && it.to === trip.from && it.wish > trip.wish
    ).sort(byTime)[0] ??
    null;

/** What came of an action, where the action was.
 * @param {Trip} trip @param {State} state
 */
export const answerOf = ({ trip }, { answers }) =>
    answers[trip] &&
    part("div", { id: `answer-${trip}`, class: "answer", tabindex: -1 }, answers[trip]);

// As a table, the trips of a day below each other.

/** What is said of a trip beside its window and its way.
 * @param {Trip} trip
 */
function moreWords(trip) {
    const by = namedBy(trip), isAlone = !trip.attendant && trip.companions === 0;
    return [
        ...new Set([
            vehicleName(trip.vehicle),
            t("booking.ticket-pickup", { trip: trip.trip }),
            requestedWords(trip),
            by === null ? "" : t("trips.by-time", { by: clock(by) }),
            isAlone ? "" : party(trip),
            dollars(trip.due)
        ])
    ].filter(Boolean).join(" · ");
}

/** @param {Trip} trip @param {Shown} shown */
function tripRow(trip, { rider, tools, below, state }) {
    const { trip: number, status } = trip,
        { from, to } = wayOf(trip, rider),
        more = below(trip),
        answer = answerOf(trip, state);
    return [
        part("tr", { key: number, "data-trip": number },
            part("th", { scope: "row", class: "num" }, windowOf(trip)),
            part("td", { class: "trip-way" },
                part("span", { class: "cut block" },
                    from,
                    " ",
                    part("span", { class: "soft", role: "img", "aria-label": t("trips.to") }, "→"),
                    " ",
                    to
                ),
                part("small", { class: "cut" }, moreWords(trip)),
                closedWords(trip)
            ),
            part("td", { class: "soft" },
                status !== "booked" &&
                    part("span", { class: `chip ${status.startsWith("missed") ? "bad" : ""}` },
                        statusOf(status)
                    )
            ),
            part("td", { class: "tools" }, tools(trip, true))
        ),
        (answer || more) &&
            part("tr", { key: `below-${number}`, "data-below": number },
                part("td", { colspan: COLUMNS, class: "wrap" }, answer, more)
            )
    ];
}

/** @param {Trip[]} trips @param {string} caption @param {Shown} shown */
function tripsTable(trips, caption, shown) {
    const days = [...new Set(trips.map(({ day }) => day))],
        heads = ["booking.pickup", "trips.way", "trips.outcome", "booking.do"];
    return part(
        "div",
        { class: "scroll", tabindex: 0, role: "region", "aria-label": caption, key: caption },
        part("table", { class: "table trips" },
            part("caption", { class: "unseen" }, caption),
            part("thead", { class: "unseen" },
                part("tr", {}, heads.map((name) => part("th", { scope: "col" }, t(name))))
            ),
            days.map((day) =>
                part("tbody", { key: day },
                    part("tr", { class: "group", key: "day" },
                        part("th", { scope: "rowgroup", colspan: COLUMNS }, dayShort(day))
                    ),
                    trips.filter((it) => it.day === day).map((trip) => tripRow(trip, shown))
                )
            )
        )
    );
}

// As cards, one below the other, for a narrow screen and for who reads one after another.

/** @param {Trip} trip @param {Shown} shown */
function tripCard(trip, { rider, tools, below, state }) {
    const status = trip.status === "booked" ? "" : ` (${statusOf(trip.status)})`;
    return part("li", { key: trip.trip },
        part("h3", {}, dayInWords(trip.day)),
        closedWords(trip),
        part("p", {},
            part("strong", {}, t("booking.card-pickup", { window: windowOf(trip) })),
            status
        ),
        part("p", {},
            t("booking.card-way", wayOf(trip, rider)),
            namedBy(trip) !== null &&
                ` ${t("booking.card-by", { by: clock(Number(namedBy(trip))) })}`
        ),
        part("p", { class: "hint" },
            t("booking.card-more", {
                trip: trip.trip,
                said: requestedWords(trip),
                due: dollars(trip.due),
                who: party(trip),
                vehicle: vehicleName(trip.vehicle)
            })
        ),
        answerOf(trip, state),
        tools(trip),
        below(trip)
    );
}

/** @param {Trip[]} trips @param {string} caption @param {Shown} shown */
const tripCards = (trips, caption, shown) =>
    part("ul", { class: "cards", "aria-label": caption },
        trips.map((trip) => tripCard(trip, shown))
    );

/** The trips by where they stand: those of today that wait for their outcome, those to come, those
 * that are over and those that were canceled.
 * @param {Shown} shown @returns {Lists}
 */
export function listsOf({ trips, state }) {
    const all = [...trips].sort(byTime);
    // (what was cancelled here just now stays where it was, with the answer, until the list of
    // canceled trips is open)
    const isOff = (/** @type {Trip} */ trip) =>
        trip.status === "cancelled" && (!state.answers[trip.trip] || state.open.includes("off"));
    const rest = all.filter((trip) => !isOff(trip)),
        todays = rest.filter(
            (trip) => isTodays(trip) || (trip.day === today() && state.answers[trip.trip])
        );
    return {
        today: todays,
        coming: rest.filter(isComing),
        past: rest.filter((trip) => !isComing(trip) && !todays.includes(trip)).reverse(),
        off: all.filter(isOff).reverse()
    };
}

/** @param {Shown} shown @param {Lists} lists */
const todaysOf = (shown, lists) =>
    lists.today.length > 0 &&
    todayShown(
        lists.today,
        { rider: shown.rider, told: shown.told, plans: shown.plans },
        (trip) => [answerOf(trip, shown.state), shown.tools(trip)]
    );

/** @param {Lists} lists */
const noneWords = (lists) =>
    part("p", { class: "none" }, t(lists.today.length ? "trips.none-later" : "trips.none-coming"));

/** What is said where somebody else canceled the trip meanwhile.
 * @param {number} rider @param {Trip} trip
 */
const alreadyOff = (rider, { trip }) =>
    part("p", { class: "good" },
        t("booking.cancelled-already", { trip, rider: riderLabel(rider) })
    );

/** Today's vans first, and below them one table; earlier and canceled trips come at a button.
 * @param {Shown} shown @param {Given} head
 */
function tablesShown(shown, head) {
    const lists = listsOf(shown),
        { state: { open }, fold } = shown,
        list = matchMedia(NARROW).matches ? tripCards : tripsTable;
    const counts = {
        past: lists.past.length,
        off: shown.trips.filter(({ status }) => status === "cancelled").length
    },
        more = /** @type {const} */ (["past", "off"]).filter((name) => counts[name] > 0);
    const foldButton = (/** @type {"past" | "off"} */ name) =>
        button(t(`booking.count-${name}`, { count: counts[name] }), () => fold(name), {
            class: "quiet small",
            key: name,
            "aria-expanded": String(open.includes(name))
        });
    return [
        lists.today.length > 0 &&
            part("div", { key: "today", "data-key": "t" }, todaysOf(shown, lists)),
        part("section", { class: "card flush trips-card", key: "trips" },
            part("div", { class: "head" },
                head,
                part("div", { class: "row tight" }, more.map(foldButton))
            ),
            part("div", { key: "coming", "data-key": "t" },
                lists.coming.length
                    ? list(lists.coming, t("trips.list-coming"), shown)
                    : noneWords(lists)
            ),
            more.filter((name) => open.includes(name)).map((name) => [
                part("h3", { key: `${name}-name` }, t(`booking.list-${name}`)),
                list(lists[name], t(`booking.list-${name}`), shown)
            ])
        )
    ];
}

/** What can be done with a trip, and nothing that is sure to be denied. In a row, what is asked for
 * less stands in a menu.
 * @param {Trip} trip
 * @param {{ rider: number, isRow: boolean, cancel: (trip: Trip) => void, change: (trip: Trip) =>
 * void, again?: (trip: Trip) => void }} acts
 */
function toolsOf(trip, { rider, isRow, cancel, change, again }) {
    const name = (/** @type {string} */ key) =>
        t(key, { trip: trip.trip, rider: riderLabel(rider) }),
        named = (/** @type {string} */ key) => ({
            class: isRow ? "quiet small" : "small",
            "aria-label": name(key)
        });
    const print = () =>
        printTickets(
            [{ rider, ticket: trip, wish: trip }],
            t("booking.ticket", { trip: trip.trip })
        );
    const seldom = [
        again && {
                text: t("booking.again"),
                name: name("booking.again-of"),
                act: () => again(trip)
            },
        trip.status === "booked" && {
                text: t("booking.ticket-print"),
                name: name("booking.print-of"),
                act: print
            }
    ];
    return part("div", { class: "row tight tools" },
        !isRow &&
            seldom.map(
                (it) => it && button(it.text, it.act, { class: "small", "aria-label": it.name })
            ),
        mayChange(trip) &&
            button(t("booking.change"), () => change(trip), named("booking.change-of")),
        mayCancel(trip) &&
            button(t("booking.cancel"), () => cancel(trip), named("booking.cancel-of")),
        isRow && menuButton(name("booking.more-of"), seldom, { id: `more-${trip.trip}` })
    );
}

/** @param {number} rider @param {Trip} trip */
const sureToCancel = (rider, trip) =>
    asked({
        question: t("booking.cancel-question", { trip: trip.trip, rider: riderLabel(rider) }),
        danger: true,
        detail: t("booking.cancel-detail", {
            day: dayInWords(trip.day),
            window: windowOf(trip),
            ...wayOf(trip, rider)
        }),
        yes: t("booking.cancel-yes", { trip: trip.trip })
    });

/** All trips of a rider. again(trip, back) books a trip on another day; layout draws them in
 * another way, and under is drawn below them; did(deed, count) follows what was done.
 * @param {number} rider
 * @param {{ heading: string, purpose?: string, again?: (trip: Trip, back: Trip | null) => void,
 * layout?: (shown: Shown) => Given, under?: (trips: Trip[]) => Given, class?: string, did?: (deed:
 * "canceled" | "changed", count: number) => void }} options
 */
export function tripsOfRider(
    rider,
    { heading, purpose = "standing", again, layout, under, class: kind = "stack", did = () => {} }
) {
    const top = `trips-${rider}`,
        read = reading(desk.pathOf.trips(rider)),
        taps = drivers(),
        planned = plans();
    const tripsNow = () => /** @type {Trip[]} */ (read.reply()?.value?.trips ?? []);
    const screen = makeScreen({
        state: /** @type {State} */ ({ changing: null, answers: {}, open: [] }),
        class: kind,
        draw: (state, { kept }) => {
            const reply = read.reply(), head = part("h2", { id: top, tabindex: -1 }, heading);
            const acts = {
                cancel,
                change,
                again: again && ((/** @type {Trip} */ it) => again(it, wayBack(tripsNow(), it)))
            },
                tools = (/** @type {Trip} */ trip, isRow = false) =>
                    toolsOf(trip, { rider, isRow, ...acts });
            /** @type {(trip: Trip) => Given} */
            const below = (trip) =>
                state.changing === trip.trip &&
                part("div", { class: "inner card changing" },
                    kept(`change-${trip.trip}`, () => changeFor(rider, { ...trip }, changed)
                    ).element,
                    button(t("booking.leave"), () =>
                        screen.change({ changing: null }, { focus: top })
                    )
                );
            const shown = {
                rider,
                trips: tripsNow(),
                told: taps?.reply()?.value,
                plans: planned?.reply()?.value,
                state,
                tools,
                below,
                fold,
                acts
            };
            const waits =
                reply === null
                    ? part("p", { class: "none" }, t("booking.reading"))
                    : reply.denied !== undefined
                    ? denialOf(reply, purpose)
                    : null;
            if (layout) return [head, read.age(), waits ?? [layout(shown), under?.(tripsNow())]];
            return waits
                ? part("section", { class: "card trips-card", key: "trips" },
                      head,
                      read.age(),
                      waits
                  )
                : [read.age(), tablesShown(shown, head)];
        }
    });
    // (what was read before is drawn at once, so these are there before the screen is)
    function refresh() {
        return read.again();
    }
    /** @param {number} number */
    const isCanceled = (number) =>
        tripsNow().some(({ trip, status }) => trip === number && status === "cancelled");
    function changed() {
        did("changed", 1);
        return refresh();
    }
    /** @param {string} name */
    function fold(name) {
        screen.change(({ open }) => ({
            open: open.includes(name) ? open.filter((it) => it !== name) : [...open, name]
        }));
    }
    /** @param {Trip} trip */
    function change(trip) {
        const id = `change-${trip.trip}`;
        screen.change({ changing: trip.trip, answers: {} }, { focus: id });
        // (the form is long, and begins below the trip)
        document.getElementById(id)?.scrollIntoView({ block: "start" });
    }
    /** @param {Trip} trip */
    async function cancel(trip) {
        if (!await sureToCancel(rider, trip)) return;
        const id = beginCanceling(rider, trip), reply = await cancelTrip(trip.trip, "rider");
        (isUnknown(reply) ? leaveAsking : endAsking)(id);
        if (reply.denied === undefined) did("canceled", 1);
        const answer =
            reply.denied !== undefined
                ? denialOf(reply, "cancel")
                : part("p", { class: "good" },
                      t("booking.cancelled-now", { trip: trip.trip, rider: riderLabel(rider) })
                  );
        screen.change({ answers: { [trip.trip]: answer }, changing: null });
        await refresh();
        if (reply.denied === "desk.over" && isCanceled(trip.trip))
            screen.change({ answers: { [trip.trip]: alreadyOff(rider, trip) } });
        screen.change({}, { focus: `answer-${trip.trip}` });
    }
    const redraw = () => screen.change({});
    /** @type {Trip[] | null} */
    let seen = null;
    /** A row that goes since another window canceled its trip says so. */
    const follow = () => {
        const now = tripsNow(),
            gone = screen.element.isConnected ? canceledElsewhere(seen, now, ownCanceled) : [];
        if (gone.length)
            say(gone.map((trip) => t("booking.cancelled-elsewhere", { trip })).join(" "));
        if (read.reply()?.value) seen = now;
        redraw();
    };
    screen.onMedia(NARROW);
    screen.onNewDay(refresh);
    read.watch(screen.element, follow);
    taps?.watch(screen.element, redraw);
    planned?.watch(screen.element, redraw);
    return { element: screen.element, refresh };
}
