// How each trip of a day stands right now, by the desk's outcomes and by what drivers told, and
// which trips a filter leaves. Nothing here knows of a page.

/** @typedef {import("./texts.js").Row} Row */
/** @typedef {import("./delay.js").Tap} Tap */
/** @typedef {import("./lateness.js").Late} Late */
/** @typedef {Row & { planned: number, drop: number }} Planned a trip with the minutes of its
 * planned pickup and drop-off
 */
/** @typedef {"completed" | "no-show" | "confirm" | "says-aboard" | "disagree" | "missed" |
 * "canceled" | "past-window" | "no-update" | "no-outcome" | "aboard" | "late" | "to-come"} Kind
 * past-window: it will be missed, or was missed and nobody told; no-outcome: its drop-off is past
 * by the plan
 */
/** @typedef {{ kind: Kind, minutes: number }} Standing minutes: past the window, without an update,
 * since the planned drop-off, or late; of who is aboard the minute of the drop-off
 */
/** @typedef {{ now: number, isToday: boolean, lates: Map<number, Late>, taps: (vehicle: number) =>
 * Tap[], unconfirmed: Set<number>, disputed: Map<number, string> }} Known disputed is what somebody
 * told against the outcome of a trip; now is the minute of the day: before it began -1, without
 * bound once it is over
 */
/** @typedef {"now" | "all" | "open" | "risk" | "come" | "no-show"} Filter */

/** @type {Filter[]} */
export const FILTERS = ["now", "all", "open", "risk", "come", "no-show"];
/** "Now" are windows that lie at most so many minutes from the present. */
const NEAR = 60;

/** @param {Planned} row @param {Known} known @returns {Standing} */
export function standingOf(row, { now, lates, taps, unconfirmed, disputed }) {
    const { trip, vehicle, status, drop } = row,
        late = lates.get(vehicle),
        of = (/** @type {Kind} */ kind, minutes = 0) => ({ kind, minutes });
    const told = disputed.get(trip);
    if (told !== undefined && status !== "booked")
        return of(told === "aboard" ? "says-aboard" : "disagree");
    if (status === "ridden") return of("completed");
    if (status === "cancelled") return of("canceled");
    if (status === "missed-operator") return of("missed");
    if (status === "missed-rider") return of(unconfirmed.has(trip) ? "confirm" : "no-show");
    const risk = [...late?.risks ?? [], ...late?.passed ?? []].find((it) => it.trip === trip);
    if (risk) return of("past-window", risk.past);
    const delay = late?.delay ?? 0,
        isAboard = taps(vehicle).some((it) => it.trip === trip && it.kind === "aboard");
    if (now > drop + delay)
        return late && late.silent > 0
            ? of("no-update", late.silent)
            : of("no-outcome", now - drop);
    if (isAboard) return of("aboard", drop + delay);
    if (late && late.silent > 0 && row.planned <= now) return of("no-update", late.silent);
    return delay > 0 && Number.isFinite(now) ? of("late", delay) : of("to-come");
}

/** Whether a filter leaves a trip.
 * @param {Filter} filter @param {Planned} row @param {Standing} standing @param {Known} known
 */
export function leaves(filter, row, { kind }, { now, isToday }) {
    if (filter === "all") return true;
    if (filter === "now")
        return isToday &&
            row.status !== "cancelled" &&
            row.window_from <= now + NEAR &&
            row.window_to >= now - NEAR;
    if (filter === "open") return row.status === "booked" && row.drop < now;
    if (filter === "risk") return kind === "past-window";
    if (filter === "no-show") return row.status === "missed-rider";
    return row.status === "booked" && row.drop >= now;
}

/** How many trips each filter leaves.
 * @param {{ row: Planned, standing: Standing }[]} all
 * @param {Known} known
 * @returns {Record<Filter, number>}
 */
export const countsOf = (all, known) => /** @type {Record<Filter, number>} */ (Object.fromEntries(
    FILTERS.map((filter) => [
        filter,
        all.filter(({ row, standing }) => leaves(filter, row, standing, known)).length
    ])
));

/** Which filter holds where nobody chose one: what is on now, where there is something.
 * @param {Filter | null} chosen
 * @param {string} typed what is searched, over all trips
 * @param {Record<Filter, number>} counts
 * @returns {Filter}
 */
export const filterFor = (chosen, typed, counts) =>
    chosen ?? (!typed.trim() && counts.now > 0 ? "now" : "all");
