// What the driver's phone shows, as one record, and what follows from it.

import { momentNow, serverNow, today } from "../parts/clock.js";
import { heldFor } from "../parts/queue.js";
import { behindBy, dayOf } from "./driver-day.js";
import { NO_NAMES } from "./driver-read.js";

/** @typedef {import("../parts/queue.js").Entry} Entry */
/**
 * @typedef {object} State
 * @property {number} vehicle
 * @property {string} day the day that is shown
 * @property {string} today
 * @property {string} now the moment that was last drawn
 * @property {import("./driver-read.js").Read | null} read
 * @property {Entry[]} kept the log of this key
 * @property {Entry[]} loose what this phone had no room for: it lives as long as the page
 * @property {string | null} opened the stop that is shown where it is not the next one
 * @property {"stop" | "list"} view whether the stop is in sight, or all stops are
 * @property {string | null} denied why the manifest cannot be read
 * @property {boolean} silent whether the line is broken
 * @property {string | null} noRoom the stop whose outcome could not be kept
 * @property {string} gone pickups that are in the manifest no more
 * @property {{ day: string, count: number } | null} before a day that is over and not closed
 * @property {boolean} begun whether a new day began while this was shown
 * @property {number} waits how many outcomes have waited for a while
 * @property {boolean} locked whether nothing is shown, since the desk has not answered for so long
 * @property {boolean} setBack whether it is locked since the phone's clock was set back
 * @property {string} opensUntil the moment until which it is shown without a line; empty where
 * nothing has answered yet
 */

/** Something that waits for so many milliseconds is said to wait. */
const SETTLES = 2000;
/** Orders of what this phone had no room for: behind all others. */
export const LOOSE = 2 ** 52;

/** The heading of all stops. */
export const LIST = "driver-list-title";

/** @param {number} vehicle @param {string} day */
export const sheetName = (vehicle, day) => `${vehicle} ${day}`;

/** @param {number} vehicle @param {string} day @returns {State} */
export const stateOf = (vehicle, day) => ({
    vehicle,
    day,
    today: today(),
    now: momentNow(),
    read: null,
    kept: [],
    loose: [],
    opened: null,
    view: "stop",
    denied: null,
    silent: false,
    noRoom: null,
    gone: "",
    before: null,
    begun: false,
    waits: 0,
    locked: false,
    setBack: false,
    opensUntil: ""
});

/** @param {State} state */
const allOf = ({ kept, loose }) => [...kept, ...loose];

/** The log of a day, of the one that is shown where none is named.
 * @param {State} state @param {string} [day] */
export const logOf = (state, day = state.day) =>
    allOf(state).filter(({ sheet }) => sheet === sheetName(state.vehicle, day));

/** The stops that are shown, and which of them is next.
 * @param {State} state */
export const shownDay = (state) => dayOf(state.read?.stops ?? [], logOf(state), state.read?.known);

/** @param {State} state */
export const namesOf = (state) => state.read?.names ?? NO_NAMES;

/** Whether the desk has another outcome than the one that was told here.
 * @param {Entry} entry */
const isOther = ({ tap }) => Boolean(tap.onRecord) && tap.onRecord !== tap.what;

/** Denials that nobody has read, and outcomes of which the desk turned out to have another one.
 * @param {State} state */
export const deniedIn = (state) =>
    allOf(state).filter((entry) => (entry.state === "denied" || isOther(entry)) && !entry.tap.seen);

/** What has waited for a while: not what is under way, and not what is held here so that it can be
 * undone.
 * @param {Entry[]} kept */
export const waitingIn = (kept) =>
    kept.filter(
        (entry) =>
            entry.state === "waiting" && !heldFor(entry) && serverNow() - entry.since > SETTLES
    );

/** What is held here so that it can be undone.
 * @param {Entry[]} kept */
export const heldIn = (kept) => kept.filter((entry) => heldFor(entry) > 0);

/** Minutes by which the van is behind its plan; 0 on a day that is not today.
 * @param {State} state */
export const behind = (state) => (
    state.day === state.today
        ? behindBy(shownDay(state).stops, logOf(state), state.day, state.now, state.read?.known)
        : 0
);
