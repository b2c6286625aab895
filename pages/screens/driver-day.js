// The day of a vehicle as the driver's phone shows it: what follows from the manifest's stops and
// from what was tapped, and nothing else.
//
// No stop disappears because of an outcome. A pickup is done once the rider is aboard or an outcome
// was told, a drop once one was told; where the driver went on without either, the stop is passed,
// but never the drop of a rider aboard: that is next, in its order. An outcome that the desk denied
// takes nobody back to its stop: the driver is elsewhere by then, and reads the denial there. The
// depot is left once the odometer of the pull-out was entered, and reached once that of the pull-in
// was: nobody is asked for it twice.

import { progressOf } from "../parts/delay.js";
import { pullsOf } from "./driver-odometer.js";

/** @typedef {import("../parts/queue.js").Entry} Entry */
/**
 * @typedef {[number, number]} Window minutes of the day
 * @typedef {{ at: number, what: "DEPOT" | "PICK" | "DROP", place: number, load: number, chairs?:
 * number, trip?: number, rider?: number, window?: [number, number] }} Stop
 * @typedef {"arrived" | "aboard" | "ridden" | "missed-rider" | "missed-operator" | "left" | "note"}
 * What
 * @typedef {{ stop: string, trip: number, rider: number, what: What | "undone", at: string, seen?:
 * boolean, text?: string, onRecord?: string, untold?: boolean }} Tap at is the moment,
 * YYYY-MM-DDTHH:MM:SS; undone: a tap was taken back, which the site's log may have; onRecord is the
 * outcome that the desk has where it is another; untold: the site's log is not told of the tap,
 * since it was tapped later than it happened
 * @typedef {Stop & { name: string, done: boolean, isNext: boolean, party: { people: number, chairs:
 * number }, staying: number, promise: Window | null, arrived: Entry | null, came: Entry | null,
 * aboard: Entry | null, outcome: Entry | null, denied: Entry | null, taps: Entry[], elsewhere:
 * string | null, isOnRecord: boolean }} Shown staying counts who is aboard after the stop, without
 * those whom nobody picked up; promise and came are the window of the trip's pickup and the arrival
 * there, at its drop as well; elsewhere is what another phone or dispatch told of the trip, and
 * isOnRecord whether the desk has it
 * @typedef {Record<string, { how: string, minute: number | null }>} Known of each trip what others
 * told of it; minute is that of the tap, or null where it is the desk's own record
 * @typedef {"late" | "early" | "not-arrived" | "wait"} Doubt
 * @typedef {{ promise: Window | null, arrived: number | null, waited: number, doubt: Doubt | null
 * }} Evidence of a no-show: the minute of the arrival, and how many seconds were waited within the
 * window
 */

const OUTCOMES = /** @type {const} */ (["ridden", "missed-rider", "missed-operator"]);
const MISSED = ["missed-rider", "missed-operator"];
const MINUTE = 60, DAY = 1440;
/** So many of the stops that are done stay in sight. */
const STILL_SHOWN = 2;

/** @param {string} what */
export const isOutcome = (what) => /** @type {readonly string[]} */ (OUTCOMES).includes(what);

/** The name of a stop in its manifest.
 * @param {Stop} stop @param {number} at @param {number} last */
const nameOf = ({ what, trip }, at, last) => (
    what === "DEPOT" ? (at === last ? "back" : "out") : `${what} ${trip}`
);

/** @param {Stop | undefined} stop */
const aboardAt = (stop) => ({ seats: stop?.load ?? 0, chairs: stop?.chairs ?? 0 });

/** Who comes aboard at a pickup, or leaves at a drop.
 * @param {Stop} stop @param {Stop | undefined} before */
function partyOf(stop, before) {
    const now = aboardAt(stop), was = aboardAt(before);
    return {
        people: Math.abs(now.seats + now.chairs - was.seats - was.chairs),
        chairs: Math.abs(now.chairs - was.chairs)
    };
}

/** @param {Entry[]} log @param {(tap: Tap) => boolean} isIt */
const lastOf = (log, isIt) => log.filter(({ tap }) => isIt(tap)).at(-1) ?? null;

/** What is known of a trip's pickup: its window, and when the van arrived there.
 * @param {Stop[]} stops @param {Entry[]} ofTrip @param {number | undefined} trip */
function pickupOf(stops, ofTrip, trip) {
    const pickup =
        trip === undefined ? undefined : stops.find((it) => it.what === "PICK" && it.trip === trip);
    return {
        promise: pickup?.window ?? null,
        came: lastOf(ofTrip, ({ what, stop }) => what === "arrived" && stop === `PICK ${trip}`)
    };
}

/** What others have told of a trip that counts on this phone: the desk's record, and taps from
 * before this phone was used. (A later tap may be one of this phone's own that was undone.)
 * @param {Known} known @param {number | undefined} trip @param {Entry[]} log */
function elsewhereOf(known, trip, log) {
    const it = trip === undefined ? undefined : known[trip],
        began = Math.min(...log.map(({ tap }) => Math.floor(secondsOf(tap.at) / MINUTE)));
    return it && (it.minute === null || it.minute < began) ? it : null;
}

/** What others told of a trip that speaks against a no-show, whenever it was: the rider is aboard
 * or rode. What this phone told itself is not theirs.
 * @param {Known} known @param {Entry[]} log @param {number | undefined} trip */
export function othersHave(known, log, trip = 0) {
    const { how, minute } = known[trip] ?? { how: "", minute: null },
        isUndone = (/** @type {{ what: string, at: string }} */ { what, at }) =>
            what === "undone" && minute !== null && Math.floor(secondsOf(at) / MINUTE) >= minute;
    const isMine = log.some(({ tap }) => tap.trip === trip && (tap.what === how || isUndone(tap)));
    return (how === "aboard" || how === "ridden") && !isMine ? how : null;
}

/** How many of the plan's riders after a stop are not aboard, since nobody picked them up.
 * @param {Shown[]} stops @param {number} at
 */
const missingAt = (stops, at) =>
    stops
        .slice(0, at + 1)
        .filter(
            ({ what, trip, outcome, elsewhere }) =>
                what === "PICK" &&
                MISSED.includes(outcome?.tap.what ?? elsewhere ?? "") &&
                stops.slice(at + 1).some((it) => it.what === "DROP" && it.trip === trip)
        )
        .reduce((sum, { party }) => sum + party.people, 0);

/** The stops of a day with all that is to be shown of each, and which of them is next (-1: none).
 * @param {Stop[]} stops
 * @param {Entry[]} log of this vehicle and day, in its order
 * @param {Known} [known]
 */
export function dayOf(stops, log, known = {}) {
    const pulls = pullsOf(log);
    const shown = stops.map((stop, at) => {
        const name = nameOf(stop, at, stops.length - 1),
            mine = log.filter(({ tap }) => tap.stop === name && tap.what !== "undone");
        const ofTrip = log.filter(({ tap }) => stop.trip !== undefined && tap.trip === stop.trip);
        const told = lastOf(ofTrip, ({ what }) => isOutcome(what)),
            aboard = lastOf(ofTrip, ({ what }) => what === "aboard");
        const outcome = told?.state === "denied" ? null : told,
            passed = mine.some(({ tap }) => tap.what === "left");
        const other = told ? null : elsewhereOf(known, stop.trip, log),
            isAboard = Boolean(aboard) || other?.how === "aboard",
            isOver = Boolean(told) || isOutcome(other?.how ?? "");
        const done =
            stop.what === "DEPOT"
                ? passed || (name === "out" ? pulls.out : pulls.in) !== null
                : isOver || (stop.what === "PICK" ? isAboard || passed : passed && !isAboard);
        return {
            ...stop,
            elsewhere: other?.how ?? null,
            isOnRecord: other?.minute === null,
            ...pickupOf(stops, ofTrip, stop.trip),
            name,
            done,
            isNext: false,
            staying: 0,
            party: partyOf(stop, stops[at - 1]),
            arrived: lastOf(mine, ({ what }) => what === "arrived"),
            aboard,
            outcome,
            denied: told?.state === "denied" ? told : null,
            taps: mine
        };
    });
    for (const [at, stop] of shown.entries())
        stop.staying = stop.load + (stop.chairs ?? 0) - missingAt(shown, at);
    const next = shown.findIndex(({ done }) => !done);
    if (next >= 0) shown[next].isNext = true;
    return { stops: /** @type {Shown[]} */ (shown), next };
}

/** What is left to do on a day that is over: riders aboard of whom nothing was told, what waits,
 * and what was denied and not read. It goes by the taps alone, since the manifest of a day that is
 * over may be gone.
 * @param {Entry[]} log */
export function leftOpen(log) {
    const told = new Set(log.filter(({ tap }) => isOutcome(tap.what)).map(({ tap }) => tap.trip));
    const aboard = new Set(
        log.filter(({ tap }) => tap.what === "aboard" && !told.has(tap.trip)).map(
            ({ tap }) => tap.trip
        )
    );
    return aboard.size +
        log.filter(
            ({ state, tap }) => state === "waiting" || (state === "denied" && !tap.seen)
        ).length;
}

/** What can be taken back: taps that are on this phone alone, or still wait.
 * @param {Entry | null | undefined} entry */
export const canTakeBack = (entry) => entry?.state === "kept" || entry?.state === "waiting";

/** For so many milliseconds a tap that leads on to another stop can be undone where it was made. */
const UNDONE = 15_000;

/** The last tap, where it has led on from its stop just now and can be taken back.
 * @param {Entry[]} log of the day, in its order
 * @param {number | null} now milliseconds of the server's clock; null where it does not matter how
 * long ago it was
 * @returns {Entry | null}
 */
export function justTapped(log, now) {
    const [before, last] = [
        undefined,
        undefined,
        ...log.filter(({ tap }) => tap.what !== "note")
    ].slice(-2);
    if (!last || !["aboard", "left"].includes(last.tap.what) || !canTakeBack(last)) return null;
    // (several stops that were passed at once are no tap at one of them)
    const isOneOfMany =
        last.tap.what === "left" && before?.tap.what === "left" && before.tap.at === last.tap.at;
    // (the server's clock may have been set back since)
    const isJustNow = now === null || Math.abs(now - last.since) < UNDONE;
    return !isOneOfMany && isJustNow ? last : null;
}

/** The tap *aboard* that can be taken back at the drop of its rider, who was not aboard after all.
 * @param {Shown} stop */
export const aboardBefore = ({ what, aboard, outcome }) => (
    what === "DROP" && !outcome && canTakeBack(aboard) ? aboard : null
);

/** The stop that was tapped last and lies behind the one that is shown, where something of it can
 * be taken back.
 * @param {Shown[]} stops
 * @param {Entry[]} log
 * @param {string} shown the name of the stop that is shown
 */
export function stopBefore(stops, log, shown) {
    const last = log.filter(
        (entry) => entry.tap.trip && entry.tap.what !== "note" && canTakeBack(entry)
    ).at(-1);
    return stops.find(({ name, done }) => done && name === last?.tap.stop && name !== shown) ??
        null;
}

/** Denials after which the same trip is sure to be denied again. */
const FINAL = ["desk.over", "desk.caller", "desk.unknown"];

/** What can be tapped at a stop, in the order of the buttons. Where the van came after the window,
 * the agency's fault is offered first.
 * @param {Shown} stop @param {boolean} hasCome whether its day has come @param {boolean} [isLate]
 * @returns {What[]} */
export function choicesAt(stop, hasCome, isLate = false) {
    const { what, done, arrived, aboard, outcome, denied, isOnRecord } = stop;
    if (!hasCome || isOnRecord) return [];
    if (what === "DEPOT") return done ? [] : ["left"];
    if (outcome || FINAL.includes(denied?.denied ?? "") || (what === "PICK" && aboard)) return [];
    /** @type {What[]} */
    const missed = isLate
        ? ["missed-operator", "missed-rider"]
        : ["missed-rider", "missed-operator"];
    /** @type {(What | false)[]} */
    const choices =
        what === "PICK"
            ? [!arrived && !done && "arrived", "aboard", ...missed, !done && "left"]
            : aboard
            ? ["ridden"]
            : ["ridden", ...missed, !done && "left"];
    return choices.filter((choice) => choice !== false).map(
        (choice) => /** @type {What} */ (choice)
    );
}

/** Whether the van is at a stop, as far as anything tells it: at a pickup by the arrival.
 * @param {Pick<Shown, "what" | "arrived" | "done">} stop */
export const isThere = ({ what, arrived, done }) => what !== "PICK" || Boolean(arrived) || done;

/** How the choices at a stop are laid out: the one that is large, those beside it, and those that
 * are folded away. How a pickup failed is beside it once the van is there.
 * @param {Pick<Shown, "what" | "arrived" | "done">} stop @param {What[]} choices of choicesAt()
 * @returns {{ main: What | null, beside: What[], more: What[] }}
 */
export function arranged(stop, choices) {
    const [main = null, ...rest] = choices,
        isBeside = (/** @type {What} */ it) => it !== "left" && (it === "aboard" || isThere(stop));
    return { main, beside: rest.filter(isBeside), more: rest.filter((it) => !isBeside(it)) };
}

/** How many stops of a list are folded away: those that are done, but for the last two.
 * @param {Pick<Shown, "done">[]} stops
 * @param {number} next the place of the next stop, -1 where there is none
 */
export function foldedStops(stops, next) {
    const count = (next < 0 ? stops.length : next) - STILL_SHOWN;
    return count > 1 ? count : 0;
}

/** Seconds from midnight of a moment.
 * @param {string} moment */
const secondsOf = (moment) => {
    const [hours, minutes, seconds] = moment.slice(11).split(":").map(Number);
    return (hours * MINUTE + minutes) * MINUTE + seconds;
};

/** The minute of a moment, counted from the midnight with which a day begins: after it, 1440 and
 * more.
 * @param {string} moment @param {string} day */
export const minuteOn = (moment, day) =>
    Math.round((Date.parse(moment.slice(0, 10)) - Date.parse(day)) / 86_400_000) * DAY +
    Math.floor(secondsOf(moment) / MINUTE);

/** Minutes that are missing until a stop's planned time; below 0 it is over.
 * @param {Stop} stop @param {string} day @param {string} now */
export const minutesUntil = (stop, day, now) => stop.at - minuteOn(now, day);

/** What the card of the next stop says of its planned time, by the minutes that are missing until
 * it and those by which the van is behind: late is said with the number of the bar alone. Nobody
 * waits at the depot, and a van that waits at a pickup came in time: there the time is over.
 * @param {number} minutes @param {number} late
 * @returns {{ says: "late" | "about" | "ago" | "in" | "now", minutes: number }}
 */
export function plannedIs(minutes, late) {
    if (late > 0 && late > -minutes) return { says: "about", minutes: late };
    if (minutes < 0) return { says: late === -minutes ? "late" : "ago", minutes: -minutes };
    return { says: minutes ? "in" : "now", minutes };
}

/** What a tap, and what others told of a trip, is called in the file of the day.
 * @type {Record<string, string>} */
const KINDS = {
    arrived: "arrived",
    aboard: "aboard",
    ridden: "dropped",
    left: "skipped",
    "missed-rider": "no-show",
    "missed-operator": "missed"
};

/** The taps of this phone and of others as the dispatcher's board has them.
 * @param {Shown[]} stops
 * @param {Entry[]} log
 * @param {Known} known
 * @param {string} day
 * @returns {import("../parts/delay.js").Tap[]}
 */
function tapsOf(stops, log, known, day) {
    const mine = log.filter(({ tap }) => tap.trip && KINDS[tap.what] && !tap.untold).map(
        ({ tap }) => ({
            trip: tap.trip,
            kind: KINDS[tap.what],
            minute: minuteOn(tap.at, day),
            stop: tap.stop.startsWith("DROP") ? "drop-off" : "pickup"
        })
    );
    const others = stops.flatMap(({ what, trip = 0, elsewhere, isOnRecord }) => (
        what === "PICK" && elsewhere && !isOnRecord
            ? [{ trip, kind: KINDS[elsewhere] ?? elsewhere, minute: known[trip]?.minute ?? 0 }]
            : []
    ));
    return [...others, ...mine];
}

/** The trips that have ended by what the desk has, as far as this phone knows.
 * @param {Shown[]} stops @returns {Map<number, import("../parts/texts.js").Doing>} */
const endedIn = (stops) =>
    new Map(
        stops.flatMap(({ trip, elsewhere, isOnRecord, outcome }) => {
            const state = isOnRecord
                ? elsewhere
                : outcome?.state === "done"
                ? outcome.tap.what
                : null;
            return trip !== undefined && state ? [[trip, { state, minutes: 0 }]] : [];
        })
    );

/** By how many minutes the van is behind its plan, by the rule of the dispatcher's board. 0: it is
 * not.
 * @param {Shown[]} stops
 * @param {Entry[]} log
 * @param {string} day
 * @param {string} now
 * @param {Known} [known]
 */
export function behindBy(stops, log, day, now, known = {}) {
    const { delay, silent } = progressOf(
        stops,
        tapsOf(stops, log, known, day),
        endedIn(stops),
        minuteOn(now, day)
    );
    return delay || silent;
}

/** The wait at a pickup, from the arrival on, but not before the promised window begins: a rider
 * need not be ready earlier.
 * @param {Shown} stop
 * @param {number} minutes the agency's
 * @param {string} now
 * @returns {{ begins: number, left: number } | null} seconds
 */
export function waitAt(stop, minutes, now) {
    if (stop.what !== "PICK" || !stop.arrived || stop.aboard || stop.outcome) return null;
    const { at } = /** @type {Tap} */ (stop.arrived.tap);
    const begins = Math.max(secondsOf(at), (stop.window?.[0] ?? 0) * MINUTE);
    if (now.slice(0, 10) > at.slice(0, 10)) return { begins, left: 0 };
    return { begins, left: Math.max(0, begins + minutes * MINUTE - secondsOf(now)) };
}

/** What speaks for a no-show at this moment, and what makes it doubtful: the van came after the
 * promised window, or the window has not begun, or nobody tapped the arrival, or the wait is not
 * over.
 * @param {Shown} stop
 * @param {number} minutes the agency's wait
 * @param {string} day
 * @param {string} now
 * @returns {Evidence}
 */
export function evidenceOf({ promise, came, what }, minutes, day, now) {
    const arrived = came ? minuteOn(came.tap.at, day) : null, minute = minuteOn(now, day);
    const from = came
        ? Math.max(
              minuteOn(came.tap.at, day) * MINUTE + secondsOf(came.tap.at) % MINUTE,
              (promise?.[0] ?? 0) * MINUTE
          )
        : null;
    const waited =
        from === null ? 0 : Math.max(0, minute * MINUTE + secondsOf(now) % MINUTE - from);
    // (at a drop the moment tells nothing of when the van was at the pickup)
    const there = arrived ?? (what === "PICK" ? minute : 0),
        isLate = promise !== null && there > promise[1];
    const doubt = isLate
        ? "late"
        : promise && minute < promise[0]
        ? "early"
        : arrived === null
        ? "not-arrived"
        : waited < minutes * MINUTE
        ? "wait"
        : null;
    return { promise, arrived, waited, doubt };
}

/** The words for a doubt: that the driver came late is said where an arrival is marked; "over"
 * where there is none any more, since the wait has ended.
 * @param {Pick<Evidence, "doubt" | "arrived">} evidence */
export const doubtWords = ({ doubt, arrived }) => (
    doubt === "late" && arrived === null ? "late-unmarked" : doubt ?? "over"
);

/** How many minutes are missing until the promised window opens; 0 once it is open, or where none
 * was promised.
 * @param {Pick<Shown, "promise">} stop @param {string} day @param {string} now */
export const minutesToWindow = ({ promise }, day, now) => (
    promise ? Math.max(0, promise[0] - minuteOn(now, day)) : 0
);

/** The earlier stops that count as passed where the driver goes on from a later one: not the drops
 * of riders aboard.
 * @param {Shown[]} stops @param {string} from the later one's name */
export const skipped = (stops, from) =>
    stops.slice(0, Math.max(0, stops.findIndex(({ name }) => name === from))).filter(
        ({ done, what, aboard, elsewhere }) =>
            !done && !(what === "DROP" && (aboard || elsewhere === "aboard"))
    );
