// A screen: one record of what it is about, and what is shown is drawn from that record. Who
// changes the record draws anew.

import { drawInto, make } from "./element.js";
import { onNewDay as newDay } from "./clock.js";
import { t } from "./words.js";

/** What is gone from the page is noticed within so many milliseconds. */
const GONE_LOOKED = 1_000;

/** @typedef {import("../types").Given} Given */
/** @typedef {{ focus?: string | null }} Options */

/**
 * @template State
 * @typedef {object} Tools
 * @property {(patch: Partial<State> | ((state: State) => Partial<State>), options?: Options) =>
 * void} change
 * @property {<Made>(name: string, make: () => Made) => Made} kept what was made once under a name,
 * as long as each draw asks for it
 */

/**
 * @template State
 * @typedef {object} Screen
 * @property {HTMLElement} element
 * @property {State} state
 * @property {Tools<State>["change"]} change
 * @property {(milliseconds: number, act: () => void) => void} every
 * @property {(act: () => void) => void} onNewDay
 * @property {(act: () => void) => void} onGone
 * @property {(query: string) => void} onMedia draws anew where it begins or ceases to match
 */

/** @param {HTMLElement} it */
export function focusOn(it) {
    if (it.tabIndex < 0 && !it.hasAttribute("tabindex")) it.setAttribute("tabindex", "-1");
    it.focus({ preventScroll: true });
    it.scrollIntoView({ block: "nearest" });
}

/** The elements from the focused one up to a place.
 * @param {HTMLElement} place
 */
function focusedIn(place) {
    /** @type {HTMLElement[]} */
    const way = [];
    for (
        let it = document.activeElement;
        it instanceof HTMLElement && place.contains(it);
        it = it.parentElement
    )
        way.push(it);
    return way;
}

/** Whether an element is on the page and is seen: what is hidden would lose the focus. (Where its
 * box is asked for, the whole page is laid out at once.)
 * @param {HTMLElement} it
 */
const takesFocus = (it) =>
    it.isConnected &&
    (
        /** @type {HTMLElement & { checkVisibility?: () => boolean }} */ (it).checkVisibility?.() ??
        it.getClientRects().length > 0
    );

/** An element, or what is around it where that is hidden.
 * @param {HTMLElement} it @returns {HTMLElement}
 */
const seenFrom = (it) => (takesFocus(it) || !it.parentElement ? it : seenFrom(it.parentElement));

/** Where the focus stays though the focused element is gone, or hidden.
 * @param {HTMLElement[]} way @param {string} id @param {HTMLElement} place
 */
function focusAgain(way, id, place) {
    const [first] = way, active = document.activeElement;
    if (!first || (active === first && takesFocus(first))) return;
    if (takesFocus(first)) return first.focus({ preventScroll: true });
    const same = first.isConnected ? null : id && document.getElementById(id);
    const left = same || way.find(takesFocus) || seenFrom(place);
    if (left && (active === document.body || active === first)) focusOn(left);
}

/** What draws the screen of a place.
 * @type {WeakMap<Element, () => void>}
 */
const shows = new WeakMap();

/** Draws all that is on the page anew, as where names have come that it lacked. */
export const drawAllAgain = () =>
    document.querySelectorAll("[data-screen]").forEach((it) => shows.get(it)?.());

/**
 * @template {object} State
 * @param {{ state: State, draw: (state: State, tools: Tools<State>) => Given, class?: string }}
 * given
 * @returns {Screen<State>}
 */
export function makeScreen({ state: first, draw, class: kind = "stack" }) {
    const place = make("div", { class: kind, "data-screen": true });
    /** @type {Map<string, unknown>} */
    let things = new Map();
    let state = first, isDrawing = false, isOutdated = false;

    /** @type {Tools<State>["change"]} */
    const change = (patch, { focus } = {}) => {
        state = { ...state, ...(typeof patch === "function" ? patch(state) : patch) };
        show();
        const target = focus && document.getElementById(focus);
        if (target && place.isConnected) focusOn(seenFrom(target));
    };

    const show = () => {
        // (a field that is taken away while it has the focus says then that it has changed)
        if (isDrawing) {
            isOutdated = true;
            return;
        }
        isDrawing = true;
        drawOnce();
        isDrawing = false;
        if (!isOutdated) return;
        isOutdated = false;
        show();
    };

    const drawOnce = () => {
        const way = focusedIn(place), id = way[0]?.id ?? "";
        /** @type {Map<string, unknown>} */
        const asked = new Map();
        /** @type {Tools<State>["kept"]} */
        const kept = (name, makeIt) => {
            if (!asked.has(name)) asked.set(name, things.has(name) ? things.get(name) : makeIt());
            return /** @type {ReturnType<typeof makeIt>} */ (asked.get(name));
        };
        try {
            drawInto(place, draw(state, { change, kept }));
        } catch (error) {
            console.error(error);
            drawInto(place, make("p", { class: "denial", role: "alert" }, t("common.not-drawn")));
        }
        things = asked;
        focusAgain(way, id, place);
    };

    const every = (/** @type {number} */ milliseconds, /** @type {() => void} */ act) =>
        whileShown(place, milliseconds, act);
    const onNewDay = (/** @type {() => void} */ act) => newDay(place, act);
    const onGone = (/** @type {() => void} */ act) => onceGone(place, act);
    const onMedia = (/** @type {string} */ query) => whileMatched(place, query, show);
    shows.set(place, show);
    show();
    return {
        element: place,
        get state() {
            return state;
        },
        change,
        every,
        onNewDay,
        onGone,
        onMedia
    };
}

/** Does something again and again while an element is on the page and the window is seen.
 * @param {HTMLElement} place
 * @param {number} milliseconds @param {() => void} act
 */
function whileShown(place, milliseconds, act) {
    let shown = false;
    const clock = setInterval(() => {
        if (place.isConnected) {
            shown = true;
            if (!document.hidden) act();
        } else if (shown) clearInterval(clock);
    }, milliseconds);
}

/** Does something once, when an element is on the page no more.
 * @param {HTMLElement} place @param {() => void} act
 */
function onceGone(place, act) {
    const clock = setInterval(() => {
        if (place.isConnected) return;
        clearInterval(clock);
        act();
    }, GONE_LOOKED);
}

/** Does something where a phone is turned, or the page zoomed, past what a query of media says, as
 * long as an element is on the page.
 * @param {HTMLElement} place
 * @param {string} query @param {() => void} act
 */
function whileMatched(place, query, act) {
    const media = matchMedia(query);
    let shown = false;
    const changed = () => {
        shown ||= place.isConnected;
        if (place.isConnected) act();
        else if (shown) media.removeEventListener("change", changed);
    };
    media.addEventListener("change", changed);
}
