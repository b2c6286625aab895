// What is asked of the desk for what a rider said, and how each reply is read. Nothing here has a
// page or a line: it is tried for every minute of the day (tests/pure/wishes.test.mjs).
//
// The desk promises a window that begins within an hour of the minute it is sent as the wish, and
// takes the earliest pickup that fits. So a wish of nine brings the van at eight where it can. A
// plan is the list of requests that come nearer to what the rider said:
//
// around the pickup within an hour of the minute. An hour later less the agency's lead comes first,
// with a minute to be there by that keeps the pickup within the hour, then the minute itself.
// not-before the promise begins at the minute or later, and at most an hour after it. An hour later
// is asked for, first with such a minute to be there by. by only being there in time matters: the
// latest pickup that may do comes first, then each a quarter of an hour earlier.
//
// What was accepted and is not what the rider said is an offer: it stands until the rider answered.

import { LAST_MINUTE, NEGOTIATED_MINUTES } from "./limits.js";

/** @typedef {"around" | "not-before" | "by"} Mode */
/** @typedef {{ x?: number, y?: number } | null | undefined} Point */
/**
 * @typedef {object} Said what a rider said of one trip
 * @property {Mode} mode
 * @property {number} minute of the pickup, or, in mode by, of being there
 * @property {number | null} by the minute to be there by beside a pickup; null in mode by
 * @property {number} drive minutes of driving, guessed
 * @property {number} lead the agency's lead, 0 to 60
 * @property {boolean} change whether a trip that is booked is asked for again
 * @property {number} [from_address] the address that is meant at the place of the pickup
 * @property {number} [to_address] the address that is meant at the place of the drop-off
 */
/** @typedef {{ wish: number, by: number | null, bound: boolean, at: number }} Request bound where
 * by is the plan's own and not the rider's; at counts the plan's requests
 */
/** @typedef {{ window_from: number, window_to: number }} Window */
/**
 * @template Reply
 * @typedef {{ request: Request, reply: Reply }} Answer
 */
/**
 * What is to be done after some answers: ask once more, or the plan has ended. The reason is the
 * denial of the request nearest to what was said.
 * @template Reply
 * @typedef {{ is: "ask", request: Request } | { is: "kept", answer: Answer<Reply> } | { is:
 * "denied", reason: Answer<Reply> } | { is: "offered", answer: Answer<Reply>, reason: Answer<Reply>
 * | null }} Step
 */
/** @typedef {{ value: Window, denied?: undefined } | { denied: string, value?: undefined }}
 * AnyReply
 */

/** Each mode, in the order in which it is offered.
 * @type {Mode[]}
 */
export const MODES = ["around", "not-before", "by"];

const FEET_A_MINUTE = 1760,
    DETOUR = 1.3,
    UNKNOWN_DRIVE = 15,
    SLACK = 20,
    QUARTER = 15,
    HALF_WINDOW = 15,
    MOST_TRIES = 10,
    STEPS = [30, 60],
    MOST_TIGHTER = 2;
/** A minute that the plan makes is never one that people name: 3 more than a multiple of 5. */
const NAMED = 5,
    UNNAMED = 3;
const FULL = "no vehicle";
/** Rules that may hold of one minute and not of another. */
const OF_MINUTE = [FULL, "37.131(e)", "37.123(b)"];
/** Whether another minute of the same plan may still be accepted.
 * @param {string} name
 */
export const isOfMinute = (name) => OF_MINUTE.includes(name);

/** A minute of the day.
 * @param {number} minute
 */
const cut = (minute) => Math.max(0, Math.min(LAST_MINUTE, minute));

/** Minutes of driving between two places, guessed: the desk's table is not told.
 * @param {Point} from @param {Point} to
 */
export function guessedDrive(from, to) {
    if (from?.x === undefined || from.y === undefined || to?.x === undefined || to.y === undefined)
        return UNKNOWN_DRIVE;
    return Math.max(
        1,
        Math.ceil(Math.hypot(from.x - to.x, from.y - to.y) * DETOUR / FEET_A_MINUTE)
    );
}

/** The smaller of two minutes to be there by; the end of the day is none.
 * @param {number | null} one @param {number} other @returns {number | null}
 */
function soonest(one, other) {
    const least = Math.min(one ?? LAST_MINUTE, other);
    return one === null && least >= LAST_MINUTE ? null : least;
}

/** The minute to be there by that keeps a promise from beginning more than an hour after what was
 * said.
 * @param {Said} said
 */
function boundOf({ minute, drive }) {
    const latest = minute + NEGOTIATED_MINUTES + HALF_WINDOW + drive + SLACK;
    return latest + (UNNAMED - latest % NAMED + NAMED) % NAMED;
}

/** Whether a trip's minute to be there by was made by a plan, and said by nobody.
 * @param {{ wish: number, by: number | null }} trip @param {number} drive
 */
export function isMadeUp({ wish, by }, drive) {
    if (by === null || by % NAMED !== UNNAMED) return false;
    const beyond = by - wish - drive;
    return beyond >= 0 && beyond < NEGOTIATED_MINUTES + HALF_WINDOW + SLACK + NAMED;
}

/** The pickup that being there in time comes to.
 * @param {Said} said
 */
const latestPickup = ({ minute, drive }) => minute - drive - SLACK;

/** The minute that decides which denial is told: that of the pickup which the rider named.
 * @param {Said} said
 */
const namedOf = (said) => cut(said.mode === "by" ? latestPickup(said) : said.minute);

/** @param {Said} said @returns {[number, number | null, boolean][]} wish, by, bound */
function wishesOf(said) {
    const { mode, minute, by, lead, change } = said,
        bound = soonest(by, boundOf(said)),
        isBound = bound !== by;
    if (mode === "by")
        return Array.from({ length: MOST_TRIES }, (_, at) => [
            latestPickup(said) + NEGOTIATED_MINUTES - at * QUARTER,
            minute,
            false
        ]);
    // (booked or changed, it is asked alike: a first request without the bound would hold or move
    // the trip past the hour before the rider has said yes)
    if (mode === "around")
        return [[minute + NEGOTIATED_MINUTES - lead, bound, isBound], [minute, by, false]];
    const steps = Array.from(
        { length: NEGOTIATED_MINUTES / QUARTER + 1 },
        (_, at) => minute + NEGOTIATED_MINUTES - at * QUARTER
    );
    // (a change would move the trip past the hour at once, before the rider has said yes: so it is
    // not asked for without the bound)
    return steps.flatMap((wish) => /** @type {[number, number | null, boolean][]} */ ([
        [wish, bound, isBound],
        ...(isBound && !change ? [[wish, by, false]] : [])
    ]));
}

/** Each plan's requests, made once.
 * @type {WeakMap<Said, Request[]>}
 */
const made = new WeakMap();

/** All requests that a plan may send, in their order. A wish is cut to the day and never left out.
 * @param {Said} said @returns {Request[]}
 */
export function requestsOf(said) {
    const known = made.get(said);
    if (known) return known;
    /** @type {Request[]} */
    const all = [];
    for (const [minute, by, bound] of wishesOf(said)) {
        const wish = cut(minute);
        if (!all.some((it) => it.wish === wish && it.by === by))
            all.push({ wish, by, bound, at: all.length });
    }
    made.set(said, all);
    return all;
}

/** Whether a promised window is what the rider said.
 * @param {Said} said @param {Window} window
 */
export function isAsSaid({ mode, minute }, { window_from: from }) {
    if (mode === "by") return true;
    return from <= minute + NEGOTIATED_MINUTES &&
        from >= (mode === "around" ? minute - NEGOTIATED_MINUTES : minute);
}

/** The denial to tell: that of the request nearest to what was said, the later one of two.
 * @template {AnyReply} Reply
 * @param {Said} said @param {Answer<Reply>[]} answers @returns {Answer<Reply> | null}
 */
function reasonOf(said, answers) {
    const named = namedOf(said),
        far = (/** @type {Answer<Reply>} */ { request }) => Math.abs(request.wish - named);
    return answers.filter(({ reply }) => reply.denied !== undefined).reduce(
        (best, it) => (best === null || far(it) <= far(best) ? it : best),
        /** @type {Answer<Reply> | null} */ (null)
    );
}

/** What to ask once a request was accepted with another time than what was said; null where nothing
 * else can be nearer.
 * @param {Said} said
 * @param {Request} request
 * @param {Window} window
 * @param {number} tighter how often the bound was drawn nearer
 * @returns {Request | null}
 */
function nearer(said, request, { window_from: from }, tighter) {
    if (said.mode === "around") return requestsOf(said).find(({ at }) => at > request.at) ?? null;
    const late = from - said.minute - NEGOTIATED_MINUTES;
    if (late <= 0 || !request.bound || request.by === null || tighter >= MOST_TIGHTER) return null;
    const by = request.by - late;
    return { ...request, by: by - (by % NAMED - UNNAMED + NAMED) % NAMED };
}

/** The next request after a denial; null where none can be accepted with what was said.
 * @param {Said} said @param {Request} request @param {string} rule @returns {Request | null}
 */
function after(said, request, rule) {
    const left = requestsOf(said).filter(({ at }) => at > request.at);
    if (said.mode !== "not-before") return left[0] ?? null;
    // (a full hour stays full from an earlier wish, which only adds pickups that are too early)
    if (rule === FULL)
        return left.find(({ wish }) => wish === request.wish) ?? null;
    return left.find(({ wish }) => wish !== request.wish) ?? null;
}

/** What is to be done after the answers so far.
 * @template {AnyReply} Reply
 * @param {Said} said @param {Answer<Reply>[]} answers @returns {Step<Reply>}
 */
export function nextStep(said, answers) {
    const last = answers[answers.length - 1];
    if (!last) return { is: "ask", request: requestsOf(said)[0] };
    const { request, reply } = last;
    if (reply.value !== undefined && isAsSaid(said, reply.value))
        return { is: "kept", answer: last };
    const standing = [...answers].reverse().find((it) => it.reply.value !== undefined);
    const denied = reply.denied,
        tighter = answers.filter((it) => it.request.at === request.at).length - 1;
    const next =
        denied === undefined
            ? nearer(said, request, /** @type {Window} */ (reply.value), tighter)
            : standing || !OF_MINUTE.includes(denied)
            ? null
            : after(said, request, denied);
    if (next) return { is: "ask", request: next };
    const reason =
        denied !== undefined && !OF_MINUTE.includes(denied) ? last : reasonOf(said, answers);
    if (standing) return { is: "offered", answer: standing, reason };
    return { is: "denied", reason: /** @type {Answer<Reply>} */ (reason) };
}

/** Whether a plan may have asked for a nearer time than that of a trip which is not what was said.
 * @param {Said} said @param {Window & { wish: number, by: number | null }} trip
 */
export function mayGoOn(said, trip) {
    const request =
        requestsOf(said).find(({ wish, by }) => wish === trip.wish && by === trip.by) ??
        requestsOf(said).find(({ wish }) => wish === trip.wish);
    return request !== undefined && nearer(said, request, trip, 0) !== null;
}

/** The rule that is counted of a plan that did not give what was said, or null where no rule denied
 * it. An offer beyond the hour is a denial of what was said, for lack of a vehicle (49 CFR
 * 37.131(b)(2)); where the very minute was denied by a rule, that rule counts.
 * @template {AnyReply} Reply
 * @param {Said} said @param {Step<Reply>} step @returns {string | null}
 */
export function countedRule(said, step) {
    if (step.is === "ask" || step.is === "kept") return null;
    const rule = step.reason?.reply.denied ?? FULL;
    if (!isRule(rule)) return null;
    return step.is === "offered" && said.mode === "not-before" ? FULL : rule;
}

/** Whether a denial is one of the regulation, and not of a key or a request.
 * @param {string} name
 */
export const isRule = (name) => name === FULL || /^\d/.test(name);

/** The first and the last minute of a pickup that was looked for; not before a minute, a request
 * without a bound reaches an hour further.
 * @param {Said} said @returns {[number, number]}
 */
export function searched(said) {
    const { mode, minute } = said;
    if (mode === "not-before") {
        const latest = requestsOf(said).filter(({ bound }) => !bound).map(({ wish }) => wish);
        return [minute, cut(Math.max(minute, ...latest) + NEGOTIATED_MINUTES)];
    }
    if (mode === "around")
        return [cut(minute - NEGOTIATED_MINUTES), cut(minute + NEGOTIATED_MINUTES)];
    return [
        cut(Math.min(...requestsOf(said).map(({ wish }) => wish)) - NEGOTIATED_MINUTES),
        minute
    ];
}

/** The pickups that one wish may give.
 * @param {number} wish @returns {[number, number]}
 */
export const pickupsOf = (wish) => [cut(wish - NEGOTIATED_MINUTES), cut(wish + NEGOTIATED_MINUTES)];

/** @typedef {"earlier" | "later" | "either"} Side */

/** Requests beside those of a plan, once the rider agrees: the nearer first, an hour to either side
 * at most. None is asked whose every pickup comes too late to be there.
 * @param {Said} said @param {Side} side @returns {Request[]}
 */
export function otherRequests(said, side) {
    const asked = requestsOf(said).map(({ wish }) => wish),
        by = said.mode === "by" ? said.minute : said.by;
    const first = Math.min(...(said.mode === "not-before" ? [asked[0]] : asked)),
        last = Math.max(...asked),
        takesLater = said.mode !== "by";
    const wishes = STEPS.flatMap((step) => [
        ...(side === "later" ? [] : [first - step]),
        ...(side === "earlier" || !takesLater ? [] : [last + step])
    ]).map(cut);
    return [...new Set(wishes)]
        .filter((wish) => !asked.includes(wish) || said.mode === "not-before" && wish < asked[0])
        .filter((wish) => by === null || wish - NEGOTIATED_MINUTES < by)
        .map((wish, at) => ({ wish, by, bound: false, at }));
}

/** How many minutes after a minute a promised window begins, negative before it; 0 where the window
 * has the minute.
 * @param {Window} window @param {number} minute
 */
export const apart = ({ window_from: from, window_to: to }, minute) => (
    from <= minute && minute <= to ? 0 : from - minute
);

/** When a trip is under way: from its first pickup to its arrival, as far as it can be known before
 * it is booked.
 * @param {Said} said @returns {[number, number]}
 */
export function underWay({ mode, minute, drive }) {
    return mode === "by"
        ? [minute - drive - SLACK, minute]
        : [minute, minute + HALF_WINDOW + drive];
}

/** The same of a trip that is booked.
 * @param {Window} window @param {number} drive @returns {[number, number]}
 */
export const underWayOf = ({ window_from: from, window_to: to }, drive) => [from, to + drive];

/** Whether a trip that is booked may be what the desk would give for a wish: its pickup is within
 * the hour that the desk looks around a wish.
 * @param {Said} said @param {Window} window
 */
export const isOfHour = (said, window) =>
    Math.abs(apart(window, underWay(said)[0])) <= NEGOTIATED_MINUTES;

/** Minutes to which a time that the page proposes is rounded up. */
const ROUNDED = 5;

/** The minute at which the way there arrives at the latest, where the way back would begin before
 * it; null where it does not, or where the way there arrives so late that no way back is left that
 * day.
 * @param {Said} back
 * @param {Window} there the promised window of the way there
 * @param {number} drive
 */
export function arrivalBefore(back, there, drive) {
    const [begins] = underWay(back),
        [, arrives] = underWayOf(there, drive),
        at = Math.ceil(arrives / ROUNDED) * ROUNDED;
    return begins < arrives && at <= LAST_MINUTE ? at : null;
}

/** The same of a way back that the desk has promised: its window must not begin before the way
 * there has arrived, whatever was said of it.
 * @param {Window} back @param {Window} there @param {number} drive @returns {number | null}
 */
export function arrivalAfter({ window_from: begins }, there, drive) {
    const [, arrives] = underWayOf(there, drive);
    return begins < arrives ? Math.min(LAST_MINUTE, Math.ceil(arrives / ROUNDED) * ROUNDED) : null;
}

/** What a rider says of a way back who agrees to leave once the way there has arrived. A minute to
 * be there by stays.
 * @param {Said} back @param {number} minute @returns {Said}
 */
export const afterArrival = (back, minute) => ({
    ...back,
    mode: "not-before",
    minute,
    by: back.mode === "by" ? (back.minute > minute ? back.minute : null) : back.by
});
