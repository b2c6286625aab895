// How late the vans are, by what drivers told: their taps of the day, and the outcomes that the
// desk has. Nothing here is the desk's own, and a van whose driver tells nothing is not late: it
// has no update.

import { LEAST_LATE, carried, progressOf } from "./delay.js";

/** @typedef {import("./texts.js").Manifest} Manifest */
/** @typedef {import("./texts.js").Stop} Stop */
/** @typedef {import("./texts.js").Doing} Doing */
/** @typedef {import("./delay.js").Tap} Tap */
/** @typedef {{ trip: number, rider: number, vehicle: number, window: [number, number], due: number,
 * past: number }} Risk due is when the van comes by its delay, past how long after the window
 */
/** @typedef {{ vehicle: number, last: Tap | null, delay: number, silent: number, far: number, next:
 * number, risks: Risk[], passed: Risk[] }} Late minutes; silent is for how long there should have
 * been an update, far the place of the furthest stop that was reached and next that of the stop to
 * come, without depots; risks are pickups to come, passed those behind the van of whose end nobody
 * told
 */
/** @typedef {{ day: string, trip: number, vehicle: number, from: number, to: number, arrived:
 * number | null, wait: number, minute: number }} NoShow
 */
/** @typedef {{ day: string, trip: number, vehicle: number, record: string, told: string, minute:
 * number }} Disagreement
 */
/** @typedef {{ vehicle: number, trip: number, text: string, minute: number }} Note */
/** @typedef {{ day: string, trip: number, outcome: string, minute: number }} Settled the outcome
 * that dispatch last found right, and when
 */
/** @typedef {{ day: string, made: number, vehicles: Map<number, Tap[]>, notes: Note[], earlier:
 * (Note & { day: string })[], noShows: NoShow[], disagreements: Disagreement[], settled: Settled[],
 * late: { vehicle: number, at: string }[] }} Told late are taps of an earlier day that came today;
 * noShows and disagreements are those of the last days at which nobody of dispatch has looked
 */

const OLDEST = 180_000;

const isNumber = (/** @type {unknown} */ it) => typeof it === "number" && Number.isFinite(it);
const listIn = (/** @type {unknown} */ it) => (
    Array.isArray(it) ? it.filter((one) => typeof one === "object" && one !== null) : []
);

/** What people told of a day, out of the text of the file; null where there is none, or an old one,
 * or one of another day.
 * @param {string | null} text
 * @param {string} day
 * @param {number} now milliseconds
 * @returns {Told | null}
 */
export function toldIn(text, day, now) {
    try {
        const it = JSON.parse(text ?? "");
        const made = Date.parse(it?.made);
        if (it?.day !== day || !(now - made < OLDEST)) return null;
        const vehicles = Object.entries(it.vehicles ?? {}).map(
            ([id, van]) => /** @type {[number, Tap[]]} */ ([
                Number(id),
                listIn(van?.taps).filter((tap) => isNumber(tap.trip) && isNumber(tap.minute))
            ])
        );
        return {
            day,
            made,
            vehicles: new Map(vehicles),
            notes: listIn(it.notes),
            earlier: listIn(it.earlier_notes),
            noShows: listIn(it.unreviewed?.no_shows),
            disagreements: listIn(it.unreviewed?.disagreements),
            settled: listIn(it.settled).filter(
                ({ trip, minute }) => isNumber(trip) && isNumber(minute)
            ),
            late: listIn(it.late).filter(
                (tap) => isNumber(tap.vehicle) && typeof tap.at === "string"
            )
        };
    } catch {
        return null;
    }
}

/** The notes of a day, as far as the file of today has them: today's, and those of the day before.
 * @param {Told | null} told @param {string} day @returns {Note[]}
 */
export const notesOfDay = (told, day) => (
    told?.day === day ? told.notes : (told?.earlier ?? []).filter((it) => it.day === day)
);

/** Whether what was told is fresh still.
 * @param {Told} told @param {number} now milliseconds
 */
export const isFresh = ({ made }, now) => now - made < OLDEST;

/** Riders whom a van has passed by: a later stop was reached, nobody told of the pickup's end, and
 * its window has closed. Only where the driver taps at pickups: of another van nobody knows who is
 * aboard.
 * @param {Stop[]} trips
 * @param {number} far the furthest stop that was reached
 * @param {Tap[]} taps
 * @param {Stop[]} open
 * @param {number} now
 * @param {Stop | null} here where the van stands
 */
function passedBy(trips, far, taps, open, now, here) {
    const isTold = taps.some(({ kind }) => kind === "arrived" || kind === "aboard");
    return isTold
        ? trips.slice(0, far + 1).filter(
              (stop) => open.includes(stop) && stop !== here && stop.window && now > stop.window[1]
          )
        : [];
}

/** How late one van is.
 * @param {Manifest} manifest
 * @param {Tap[]} taps
 * @param {Map<number, Doing>} doings
 * @param {number} now the minute of the day
 * @returns {Late}
 */
export function lateOf({ vehicle, stops }, taps, doings, now) {
    const { trips, known, last, open, far, here, next, silent, delay } = progressOf(
        stops,
        taps,
        doings,
        now
    );
    const missed = (/** @type {Stop} */ { window, trip, rider }, /** @type {number} */ due) => (
        window && due > window[1]
            ? [{
                  trip: Number(trip),
                  rider: Number(rider),
                  vehicle,
                  window,
                  due,
                  past: due - window[1]
              }]
            : []
    );
    const risks = delay
        ? trips.flatMap((stop, at) => (
              at > far && open.includes(stop)
                  ? missed(stop, Math.max(now, stop.at + carried(trips, next, at, delay)))
                  : []
          ))
        : [];
    return {
        vehicle,
        last,
        delay,
        silent,
        far,
        next,
        risks,
        passed: passedBy(trips, far, known, open, now, here).flatMap((stop) => missed(stop, now))
    };
}

/** Each trip on which entries disagree, once.
 * @param {Disagreement[]} all
 */
const onceEach = (all) =>
    all.filter(
        ({ day, trip }, at) => all.findIndex((it) => it.day === day && it.trip === trip) === at
    );

const ABOARD = ["aboard", "dropped"], MISSED = ["missed-rider", "missed-operator"];

/** Trips that the desk has as missed though a phone in a van has the rider aboard, once each:
 * dispatch has not settled them since that tap.
 * @param {Told | null} told
 * @param {Map<number, Doing>} doings of the same day
 * @returns {Disagreement[]}
 */
export function saidAboard(told, doings) {
    if (!told) return [];
    const { day, vehicles, settled } = told;
    return onceEach(
        [...vehicles].flatMap(([vehicle, taps]) =>
            taps.flatMap(({ trip, kind, minute }) => {
                const record = doings.get(trip)?.state ?? "",
                    isSettled = settled.some(
                        (it) => it.trip === trip && it.day === day && it.minute >= minute
                    );
                return ABOARD.includes(kind) && MISSED.includes(record) && !isSettled
                    ? [{ day, trip, vehicle, record, told: "aboard", minute }]
                    : [];
            })
        )
    );
}

/** No-shows of which everybody says the same: what somebody disputes stands among the entries that
 * disagree, with the no-show's evidence.
 * @param {NoShow[]} noShows @param {Disagreement[]} disagreements
 */
const undisputed = (noShows, disagreements) =>
    noShows.filter(
        ({ day, trip }) => !disagreements.some((it) => it.day === day && it.trip === trip)
    );

/** What needs a person, the worst first.
 * @param {Late[]} lates
 * @param {Told | null} told
 * @param {Map<number, Doing>} doings
 * @param {Manifest[]} manifests
 */
export function attentionOf(lates, told, doings, manifests) {
    const disagreements = onceEach([...told?.disagreements ?? [], ...saidAboard(told, doings)]);
    const open = new Map(
        manifests.map(({ vehicle, stops }) => [
            vehicle,
            stops.filter(
                ({ what, trip }) => what === "PICK" && doings.get(Number(trip))?.state === "no-word"
            ).length
        ])
    );
    return {
        late: lates.filter(({ delay }) => delay >= LEAST_LATE).sort((a, b) => b.delay - a.delay),
        risk: lates.flatMap(({ risks }) => risks).sort((a, b) => a.due - b.due),
        passed: lates.flatMap(({ passed }) => passed).sort((a, b) => b.past - a.past),
        silent: lates.filter(({ silent }) => silent > 0).sort((a, b) => b.silent - a.silent),
        noShows: undisputed(told?.noShows ?? [], disagreements),
        disagreements,
        open: [...open].flatMap(([vehicle, count]) => (count ? [{ vehicle, count }] : []))
    };
}
