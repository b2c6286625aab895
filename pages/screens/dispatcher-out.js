// A vehicle out of service: its trips from a day on, whom to call, and what is done with them:
// cancelled, or booked again in other vehicles.

import { vehicleName } from "../parts/agency.js";
import { asked } from "../parts/ask.js";
import { clock, dayInWords, dayShort, minuteNow, plus, today } from "../parts/clock.js";
import * as desk from "../parts/desk.js";
import { inWords, keptDenialOf } from "../parts/denials.js";
import { button, part } from "../parts/element.js";
import { dayField, form, valuesOf } from "../parts/fields.js";
import { alone as oneAtATime } from "../parts/locks.js";
import {
    afterReturn,
    byPickup,
    countsOf,
    hasNoneAway,
    isFar,
    keyOf,
    movedBy,
    pickupAsked,
    saidOf,
    toTryAgain,
    unanswered
} from "../parts/out-of-service.js";
import { printManifests } from "../parts/paper-day.js";
import { namedBy } from "../parts/said.js";
import { makeScreen } from "../parts/screen.js";
import { keepSubject, subjectOf } from "../parts/subject.js";
import { manifestsIn, overOf, rowsIn } from "../parts/texts.js";
import { vehicleField } from "../parts/vehicle-field.js";
import { t } from "../parts/words.js";
import { dollars, windowOf } from "./booking.js";
import { callTools, callsTable, saveCalls } from "./dispatcher-calls.js";
import { carryOut, dropPlan, keepPlan, keptPlans, readAgain } from "./dispatcher-plan.js";
import { dayNow, dayRead, driversRead, vehicleRead } from "./dispatcher-reads.js";
import { settingsOn } from "./dispatcher-settings.js";
import { settingsFields } from "./dispatcher-vehicles.js";
import { requestedWords, saidWords } from "./ticket.js";

/** @typedef {import("../parts/out-of-service.js").Plan} Plan */
/** @typedef {import("../parts/out-of-service.js").Item} Item */
/** @typedef {import("./dispatcher-plan.js").Read} Read */
/** @typedef {import("../types").Field} Field */
/** @typedef {"cancel" | "move"} Mode */
/** @typedef {{ back: string | null, settings: Field[] }} Return settings are the fields of what the
 * vehicle comes back with
 */
/** @typedef {Read & Return} Shown */
/** @typedef {{ asked: ({ vehicle: number, from: string } & Return) | null, denied: string | null,
 * reading: boolean, plans: Plan[], shown: string | null, running: string | null, unkept: boolean }}
 * State shown and running name plans
 */

const LOOKED = 5_000;
/** Denials after which another key goes on. */
const KEYLESS = ["desk.key", "desk.caller"];

/** What this window is doing, over every part of the screen: the work goes on while another part is
 * shown.
 * @type {{ plans: Plan[], shown: string | null, running: string | null, unkept: boolean, tell: ()
 * => void }}
 */
const work = { plans: [], shown: null, running: null, unkept: false, tell: () => {} };

/** @param {Item} item */
const calledOf = ({ old, rider }) => ({ ...old, rider });

/** @param {string} vehicle */
const callsTitle = (vehicle) => t("dispatcher.calls-of", { vehicle });

// Today: nothing of it can be moved.

/** @param {number} vehicle */
async function printToday(vehicle) {
    const [text, csv] = await Promise.all([desk.manifest(vehicle, today()), desk.tripsOn(today())]);
    if (text.denied !== undefined || csv.denied !== undefined) return;
    const rows = rowsIn(csv.value);
    printManifests(manifestsIn(text.value), new Map(rows.map(({ trip, due }) => [trip, due])), {
        over: overOf(rows)
    });
}

/** Whom to call first: by pickup. What is over by the plan stands apart.
 * @param {Read} found
 */
function todayCard({ vehicle, todays, drops }) {
    if (!todays.length) return null;
    const over = todays.filter((it) => (drops.get(it.trip) ?? it.window_to) < minuteNow()),
        coming = todays.filter((it) => !over.includes(it)),
        name = `today-${vehicle}-${today()}`;
    return part("section", { class: "card", "aria-labelledby": "out-today" },
        part("h3", { id: "out-today" },
            t("dispatcher.out-today", { vehicle: vehicleName(vehicle), count: todays.length })
        ),
        part("p", {}, t("dispatcher.out-today-hint")),
        part("div", { class: "row" },
            button(t("dispatcher.print-for-other"), () => printToday(vehicle)),
            callTools(name, callsTitle(vehicleName(vehicle)), coming, () => "")
        ),
        coming.length
            ? callsTable(
                  name,
                  t("dispatcher.out-today-list"),
                  coming,
                  wishOfToday,
                  t("dispatcher.column-wish")
              )
            : part("p", {}, t("dispatcher.out-today-none")),
        over.length > 0 &&
            part("details", {},
                part("summary", {}, t("dispatcher.out-over", { count: over.length })),
                callsTable(
                    name,
                    t("dispatcher.out-over-list"),
                    over,
                    wishOfToday,
                    t("dispatcher.column-wish")
                )
            )
    );
}

// Later days: what will be tried.

/** What the rider asked for; where nobody knows it, by what the desk was asked, without a minute to
 * be there by that a page made.
 * @param {Item} item
 */
function wishWords(item) {
    const { named, said, old } = item,
        by = named ? named.mode !== "by" && named.by : said ? said.by : namedBy(old);
    return [
        named ? saidWords(named) : clock(saidOf(item).wish),
        typeof by === "number" && t("dispatcher.by", { by: clock(by) })
    ].filter(Boolean).join(", ");
}

/** @param {import("../parts/texts.js").Row} row */
const wishOfToday = (row) => requestedWords(row) || clock(row.wish);

/** What the vehicle has when it comes back: as it was put from here, or to be typed once.
 * @param {Shown} found
 */
const settingsCard = ({ vehicle, back, settings }) =>
    back !== null &&
    part("fieldset", { class: "stack settings" },
        part("legend", {},
            t("dispatcher.out-settings", { vehicle: vehicleName(vehicle), day: dayInWords(back) })
        ),
        part("p", { class: "hint" },
            t(
                settingsOn(vehicle, back)
                    ? "dispatcher.out-settings-kept"
                    : "dispatcher.out-settings-asked"
            )
        ),
        part("div", { class: "grid" }, settings.map((field) => field.element))
    );

/** @param {Shown} found @param {(mode: Mode) => void} begin @param {boolean} isBegun */
function laterCard(found, begin, isBegun) {
    const { vehicle, from, back, items, depot } = found,
        name = `list-${keyOf(found)}`,
        said = { count: items.length, vehicle: vehicleName(vehicle), day: dayInWords(from) },
        later = afterReturn(found);
    const heading = t("dispatcher.out-later", said), off = depot === null || isBegun;
    // (a vehicle that is back tomorrow is away on no day that can still be changed)
    if (back !== null && back <= from)
        return part("section", { class: "card" },
            part("h3", {}, heading),
            part("p", {}, t("dispatcher.out-back-soon", { ...said, back: dayInWords(back) }))
        );
    if (!items.length)
        return part("section", { class: "card" },
            part("h3", {}, heading),
            part("p", {}, t("dispatcher.out-none"))
        );
    const wishes = new Map(items.map((item) => [item.old.trip, wishWords(item)])),
        trips = items.map(calledOf);
    const steps = ["1", "2", back === null ? "no-return" : "return", "3", "4"].map((step) =>
        part("li", {},
            t(`dispatcher.out-step-${step}`, { ...said, back: back && dayInWords(back) }),
            step === "1" &&
                later > 0 && [
                    " ",
                    part("strong", {},
                        t("dispatcher.out-after-return", {
                            count: later,
                            back: back && dayInWords(back)
                        })
                    )
                ]
        )
    );
    const choices = [
        settingsCard(found),
        part("h4", {}, t("dispatcher.out-tried")),
        part("ol", {}, steps),
        isBegun && part("p", { class: "note" }, t("dispatcher.out-begun")),
        part("div", { class: "row" },
            button(t("dispatcher.out-move", said), () => begin("move"), {
                class: "main",
                disabled: off
            }),
            button(t("dispatcher.out-cancel", said), () => begin("cancel"), {
                class: "danger",
                disabled: off
            })
        )
    ];
    if (hasNoneAway(found))
        return part("section", { class: "card", "aria-labelledby": "out-later" },
            part("h3", { id: "out-later" }, t("dispatcher.out-stays", said)),
            part("p", {},
                t("dispatcher.out-stays-why", { ...said, back: back && dayInWords(back) })
            ),
            part("details", {},
                part("summary", {}, t("dispatcher.out-all-the-same")),
                part("div", { class: "stack" }, choices)
            )
        );
    return part("section", { class: "card", "aria-labelledby": "out-later" },
        part("h3", { id: "out-later" }, heading),
        part("div", { class: "row" },
            callTools(name, callsTitle(vehicleName(vehicle)), trips, () => "")
        ),
        callsTable(
            name,
            t("dispatcher.out-later-list"),
            trips,
            (it) => wishes.get(it.trip) ?? "",
            t("dispatcher.column-wish")
        ),
        choices
    );
}

/** @param {Shown} found @param {Mode} mode */
const sure = ({ vehicle, items, from, back }, mode) =>
    asked({
        question: t(`dispatcher.out-${mode}-question`, {
            vehicle: vehicleName(vehicle),
            count: items.length
        }),
        danger: true,
        detail: [
            t(`dispatcher.out-${mode}-detail`, { day: dayInWords(from) }),
            back !== null &&
                afterReturn({ back, items }) > 0 &&
                part("p", {},
                    part("strong", {},
                        t("dispatcher.out-after-return", {
                            count: afterReturn({ back, items }),
                            back: dayInWords(back)
                        })
                    )
                )
        ],
        yes: t(`dispatcher.out-${mode}-yes`, { count: items.length })
    });

// What came of it.

/** @param {Pick<import("../types").Trip, "trip" | "day" | "vehicle" | "window_from" | "window_to">}
 * trip
 */
const tripWords = (trip) =>
    t("dispatcher.other-trip", {
        trip: trip.trip,
        day: dayShort(trip.day),
        window: windowOf(trip),
        vehicle: vehicleName(trip.vehicle)
    });

/** @param {Item} item */
function againWords(item) {
    const { old, ticket } = item,
        where = ticket && vehicleName(ticket.vehicle),
        later = movedBy(item);
    if (!ticket || !where) return "";
    const { day } = ticket;
    if (day && day !== old.day)
        return t("dispatcher.changed-since", { other: tripWords({ ...ticket, day }) });
    const said =
        later === 0
            ? t(
                  ticket.window_from === old.window_from && ticket.window_to === old.window_to
                      ? "dispatcher.same-window"
                      : "dispatcher.within-window",
                  { vehicle: where, window: windowOf(ticket), before: windowOf(old) }
              )
            : t(
                  `dispatcher.${ticket.window_from === old.window_from ? "ends-later" : later > 0 ? "later" : "earlier"}`,
                  {
                      minutes: Math.abs(later),
                      window: windowOf(ticket),
                      before: windowOf(old),
                      vehicle: where
                  }
              );
    return [
        said,
        isFar(item) && t("dispatcher.too-far", { wish: clock(pickupAsked(item)) }),
        ticket.due !== old.due &&
            t("dispatcher.other-due", { due: dollars(ticket.due), before: dollars(old.due) })
    ].filter(Boolean).join(" ");
}

/** What a rider has to be told.
 * @param {Item} item @param {Plan} plan
 */
function resultWords(item, { mode, done }) {
    const { step, other, denied } = item;
    if (step === "again") return againWords(item);
    if (step === "nowhere")
        return t("dispatcher.nowhere", { says: inWords(denied ?? "", "trip").says });
    if (step === "kept")
        return t("dispatcher.kept", { says: inWords(denied ?? "", "cancel").says });
    if (step === "cancelled" && mode === "move") return t("dispatcher.step-waits");
    const said = t(
        step === "booked" && item.isChanged
            ? "dispatcher.step-booked-changed"
            : `dispatcher.step-${step}`
    );
    if (other) return `${said} ${tripWords(other)}`;
    if (step !== "gone") return said;
    return `${said} ${t(done ? "dispatcher.no-other" : "dispatcher.no-other-yet")}`;
}

/** Why a plan stands still, and how it goes on: with a key that is nobody's, or no dispatcher's, by
 * another one.
 * @param {string | null} stopped
 */
const stoppedWords = (stopped) => [
    stopped !== null &&
        part("p", {},
            stopped === "desk.booked"
                ? t("dispatcher.out-meanwhile")
                : t("dispatcher.out-stopped", { says: inWords(stopped, "vehicle").says })
        ),
    KEYLESS.includes(stopped ?? "") && part("p", {}, t("dispatcher.out-other-key"))
];

/** @param {Plan} plan @param {boolean} running */
function statusWords(plan, running) {
    const counts = countsOf(plan),
        { mode, done, stopped, vehicle, from, back, isBack, backDenied } = plan,
        named = { ...counts, vehicle: vehicleName(vehicle), day: dayInWords(from) };
    if (running && plan.waits)
        return part("p", { class: "note" },
            t("dispatcher.out-waits", { ...named, count: unanswered(plan) })
        );
    if (running)
        return part("p", {},
            t(
                mode === "move" ? "dispatcher.out-running-move" : "dispatcher.out-running-cancel",
                counts
            )
        );
    if (!done)
        return part("div", { class: "note" },
            part("p", {}, t("dispatcher.out-broken", counts)),
            stoppedWords(stopped)
        );
    const others = ["gone", "elsewhere", "passed"].filter(
        (name) => counts[/** @type {"gone"} */ (name)] > 0
    );
    return [
        part("p", { class: counts.nowhere || counts.passed ? "note" : "good" },
            t(`dispatcher.out-done-${mode}`, named),
            others.map((name) => ` ${t(`dispatcher.out-done-${name}`, counts)}`)
        ),
        back !== null &&
            part("p", { class: isBack ? null : "note" },
                t(isBack ? "dispatcher.out-back" : "dispatcher.out-not-back", {
                    vehicle: vehicleName(vehicle),
                    day: dayInWords(back),
                    says: backDenied ? inWords(backDenied, "vehicle").says : ""
                })
            ),
        stopped !== null && part("div", { class: "note" }, stoppedWords(stopped))
    ];
}

/** Trips that wait to be booked again.
 * @param {Plan} plan
 */
const unplaced = ({ mode, items }) => (
    mode === "move" ? items.filter(({ step }) => ["nowhere", "cancelled"].includes(step)).length : 0
);

/** @typedef {{ goOn: (plan: Plan) => void, retry: (plan: Plan) => void, look: (plan: Plan) => void,
 * away: (plan: Plan) => void, show: (key: string) => void }} Acts
 */

/** @param {State} state @param {Acts} acts */
function reportCard({ plans, shown, running, unkept }, acts) {
    const plan = plans.find((it) => keyOf(it) === shown);
    if (!plan) return null;
    const isRunning = running === shown,
        said = new Map(plan.items.map((item) => [item.old.trip, resultWords(item, plan)])),
        say = (/** @type {{ trip: number }} */ { trip }) => said.get(trip) ?? "";
    const trips = [...plan.items].sort((a, b) => byPickup(a.old, b.old)).map(calledOf),
        waits = unplaced(plan),
        name = `plan-${keyOf(plan)}`;
    return part("section", { class: "card", key: name, "aria-labelledby": "out-report" },
        part("h3", { id: "out-report", tabindex: -1 },
            t("dispatcher.out-report", {
                vehicle: vehicleName(plan.vehicle),
                day: dayInWords(plan.from)
            })
        ),
        part("div", { role: "status", id: "out-status", tabindex: -1 },
            statusWords(plan, isRunning),
            unkept && part("p", { class: "denial" }, t("dispatcher.out-unkept"))
        ),
        part("div", { class: "row" },
            !running &&
                !plan.done &&
                button(t("dispatcher.out-go-on"), () => acts.goOn(plan), { class: "main" }),
            !running &&
                plan.done &&
                waits > 0 &&
                button(t("dispatcher.out-retry", { count: waits }), () => acts.retry(plan)),
            callTools(name, callsTitle(vehicleName(plan.vehicle)), trips, say),
            !running && plan.done && button(t("dispatcher.out-look"), () => acts.look(plan)),
            !isRunning && button(t("dispatcher.out-away"), () => acts.away(plan))
        ),
        callsTable(name, t("dispatcher.out-report-list"), trips, say, t("dispatcher.head-say"))
    );
}

/** @param {State} state @param {Acts} acts */
const otherPlans = ({ plans, shown }, { show }) =>
    plans.length > 1 &&
    part("section", { class: "card", "aria-labelledby": "out-plans" },
        part("h3", { id: "out-plans" }, t("dispatcher.out-plans")),
        part("div", { class: "row" },
            plans.map((plan) =>
                button(
                    t(plan.done ? "dispatcher.out-plan-done" : "dispatcher.out-plan-open", {
                        vehicle: vehicleName(plan.vehicle),
                        day: dayShort(plan.from)
                    }),
                    () => show(keyOf(plan)),
                    { key: keyOf(plan), "aria-pressed": String(keyOf(plan) === shown) }
                )
            )
        )
    );

// The work.

/** @param {Plan} plan */
function holdPlan(plan) {
    const key = keyOf(plan), others = work.plans.filter((it) => keyOf(it) !== key);
    work.plans = [...others, plan].sort((a, b) => (keyOf(a) < keyOf(b) ? -1 : 1));
}

/** Writes down how far it came, for whoever goes on.
 * @param {Plan} plan
 */
async function keep(plan) {
    holdPlan(plan);
    if (!await keepPlan(plan)) work.unkept = true;
    work.tell();
}

/** One window does it at a time.
 * @param {Plan} plan @param {() => Promise<void>} act
 */
async function alone(plan, act) {
    await oneAtATime(
        `desk-out ${keyOf(plan)}`,
        async (has) => {
            if (!has || work.running) return;
            work.running = work.shown = keyOf(plan);
            work.tell();
            try {
                await act();
            } finally {
                work.running = null;
                work.tell();
            }
        },
        { only: true }
    );
}

/** Goes on by what the desk says now. What keeps it from being read is said; who left the screen
 * hears nothing.
 * @param {Plan} plan @param {(plan: Plan) => Plan} [made]
 */
const goOn = (plan, made = (it) => it) =>
    alone(plan, async () => {
        const now = await readAgain(plan);
        if (now.stopped === "left") return;
        await keep(now);
        if (now.stopped === null) await carryOut(made(now), keep);
    });

/** What was found becomes a plan, once the desk was read again and the call list is on disk.
 * @param {Shown} found
 * @param {Mode} mode
 * @param {{ begun: () => void, denied: (denied: string) => void }} told
 */
async function begin(found, mode, { begun, denied }) {
    const { vehicle, from, back, items, depot } = found,
        values = back === null ? null : await valuesOf(found.settings);
    if (work.running || depot === null || (back !== null && !values) || !await sure(found, mode))
        return;
    const settings = /** @type {import("../parts/out-of-service.js").Settings | null} */ (values);
    const plan = {
        vehicle,
        from,
        back,
        mode,
        depot,
        settings,
        items,
        isOut: false,
        isBack: false,
        backDenied: null,
        stopped: null,
        done: false,
        counted: []
    };
    await alone(plan, async () => {
        const now = await readAgain(plan);
        if (now.stopped !== null) return denied(now.stopped);
        await keep(now);
        saveCalls(
            `calls-vehicle-${vehicle}-${from}.csv`,
            `plan-${keyOf(plan)}`,
            now.items.map(calledOf),
            (it) => resultWords(now.items.filter(({ old }) => old.trip === it.trip)[0], now)
        );
        begun();
        await carryOut(now, keep);
        return undefined;
    });
}

/** @param {{ change: (patch: Partial<State>, options?: import("../parts/screen.js").Options) =>
 * void }} screen
 */
function actsOf(screen) {
    const shown = () => screen.change({}, { focus: "out-status" });
    const away = async (/** @type {Plan} */ plan) => {
        if (
            (!plan.done || unplaced(plan) > 0) &&
            !await asked({
                question: t("dispatcher.out-away-question"),
                detail: t("dispatcher.out-away-detail"),
                yes: t("dispatcher.out-away-yes"),
                danger: true
            })
        )
            return;
        await dropPlan(plan);
        work.plans = work.plans.filter((it) => keyOf(it) !== keyOf(plan));
        work.shown = null;
        work.tell();
    };
    return {
        begin: (/** @type {Shown} */ found, /** @type {Mode} */ mode) =>
            begin(found, mode, {
                begun: () => screen.change({ asked: null }, { focus: "out-report" }),
                denied: (denied) =>
                    denied !== "left" &&
                    screen.change({ denied }, { focus: "out-found" })
            }).then(shown),
        goOn: (/** @type {Plan} */ plan) => goOn(plan).then(shown),
        retry: (/** @type {Plan} */ plan) => goOn(plan, toTryAgain).then(shown),
        look: (/** @type {Plan} */ plan) =>
            alone(plan, async () => {
                const now = await readAgain(plan);
                if (now.stopped !== "left") await keep(now);
            }).then(shown),
        away,
        show: (/** @type {string} */ key) => {
            work.shown = key;
            work.tell();
            screen.change({}, { focus: "out-report" });
        }
    };
}

/** The day from which the board asked for a vehicle, until the form has it.
 * @type {string | null}
 */
let opens = null;

/** Opens what is done where a vehicle breaks down, from the day that the board shows.
 * @param {number} vehicle @param {string} day
 */
export function openOut(vehicle, day) {
    keepSubject("vehicle", vehicle);
    opens = day < today() ? null : day;
    location.hash = "#dispatcher/out";
}

/** @param {(values: { vehicle: number, from: string, back: string | null }) => Promise<void>} show
 * @param {() => void} begun what was found before is of another question
 */
function askForm(show, begun) {
    const from = opens ?? plus(today(), 1);
    opens = null;
    const vehicle = vehicleField("vehicle", t("dispatcher.vehicle-field"), {
        value: subjectOf("vehicle")
    });
    return form({
        name: t("dispatcher.out-ask"),
        action: t("dispatcher.out-show"),
        class: "inline out-form",
        begun,
        fields: [
            vehicle,
            dayField("from", t("dispatcher.out-from"), { value: from, least: today() }),
            dayField("back", t("dispatcher.out-until"), {
                optional: true,
                least: plus(today(), 1),
                hint: t("dispatcher.out-until-hint")
            })
        ],
        check: ({ from, back }) => (
            back !== null && back <= from
                ? { field: "back", fault: t("dispatcher.out-until-wants") }
                : null
        ),
        send: async (/** @type {Parameters<typeof show>[0]} */ values) => {
            keepSubject("vehicle", values.vehicle);
            await show(values);
            return { value: true };
        },
        done: () => {}
    });
}

/** The plans of this browser. */
async function takeWork() {
    if (work.running) return;
    const plans = await keptPlans();
    if (work.running) return;
    work.plans = plans.sort((a, b) => (keyOf(a) < keyOf(b) ? -1 : 1));
    if (!plans.some((it) => keyOf(it) === work.shown))
        work.shown = plans.length ? keyOf(plans.find(({ done }) => !done) ?? plans[0]) : null;
    work.tell();
}

/** @param {{ vehicle: number, from: string, back: string | null }} values
 * @returns {Promise<Partial<State>>}
 */
async function foundOf({ vehicle, from, back }) {
    const found = await vehicleRead(vehicle, from).again();
    if (found.denied !== undefined) return { denied: found.denied, asked: null };
    const known = back === null ? null : settingsOn(vehicle, back);
    const settings = settingsFields(
        known ?? { days: found.value.weekdays, depot: found.value.depot }
    );
    return { denied: null, asked: { vehicle, from, back, settings } };
}

/** What is known of the vehicle that was asked for.
 * @param {State} state @returns {Shown | null}
 */
function shownOf({ asked: it }) {
    const found = it && vehicleRead(it.vehicle, it.from).reply()?.value;
    return it && found ? { ...found, back: it.back, settings: it.settings } : null;
}

/** Where nobody has the key any more, no list is shown, and it is said how one goes on. */
const keyGone = () => (
    dayNow(today()).denied?.denied === "desk.key"
        ? part("div", { class: "denial", role: "status" },
              part("p", {}, inWords("desk.key", "vehicle").says),
              part("p", {}, t("dispatcher.out-other-key"))
          )
        : null
);

export function outOfService() {
    let leave = () => {}, leaveDay = () => {}, mayRead = false;
    // (plans name riders, so they are shown to a key that may read a day)
    const take = async () => {
        if (mayRead) await takeWork();
    };
    const ask = askForm(
        async (values) => {
            screen.change({ reading: true, asked: null, denied: null });
            screen.change({ reading: false, ...await foundOf(values) }, { focus: "out-found" });
            leave();
            leave = vehicleRead(values.vehicle, values.from).watch(screen.element, () =>
                screen.change({})
            );
        },
        () => screen.change({ asked: null, denied: null })
    );
    const acts = actsOf({ change: (patch, options) => screen.change(patch, options) });
    const screen = makeScreen({
        state: /** @type {State} */ ({
            asked: null,
            denied: null,
            reading: false,
            plans: [],
            shown: null,
            running: null,
            unkept: false
        }),
        class: "stack dispatch-wide",
        draw: (state) => {
            const { denied, reading, plans, running } = state, found = shownOf(state);
            const isBegun =
                running !== null || plans.some((plan) => found && keyOf(plan) === keyOf(found));
            return [
                part("section", { class: "card" },
                    part("h2", {}, t("dispatcher.out-heading")),
                    part("p", { class: "hint" }, t("dispatcher.out-hint")),
                    ask
                ),
                otherPlans(state, acts),
                reportCard(state, acts),
                !plans.length && keyGone(),
                part("div", { id: "out-found", class: "stack", tabindex: -1 },
                    reading && part("p", {}, t("dispatcher.reading")),
                    denied && keptDenialOf(denied, "manifest"),
                    found && [
                            vehicleRead(found.vehicle, state.asked?.from ?? "").age(),
                            todayCard(found),
                            laterCard(found, (mode) => acts.begin(found, mode), isBegun)
                        ]
                )
            ];
        }
    });
    work.tell = () => {
        const { plans, shown, running, unkept } = work;
        screen.change({ plans, shown, running, unkept });
    };
    const follow = () => {
        leaveDay();
        // (once is enough: read again after each write, a day would take half of what a move may
        // ask for)
        leaveDay = dayRead(today()).watch(screen.element, () => {
            mayRead ||= dayNow(today()).text !== null;
            if (mayRead) leaveDay();
            else screen.change({});
            take();
        });
    };
    take();
    driversRead().watch(screen.element, () => screen.change({}));
    screen.every(LOOKED, take);
    screen.onNewDay(() => {
        screen.change({ asked: null });
        follow();
    });
    follow();
    return screen.element;
}
