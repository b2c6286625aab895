// Whose record is on the screen: a rider's or a vehicle's number, kept until whoever signed in
// signs out. Where the field holds another number than the one that is shown, what is shown is
// hidden, so that nothing is done to somebody else.

import { vehicleName, vehicles } from "./agency.js";
import { answerNo } from "./ask.js";
import { between, dayShort, minuteNow, today } from "./clock.js";
import { comboField } from "./combo.js";
import * as desk from "./desk.js";
import { button, drawInto, found, part, say } from "./element.js";
import { form } from "./fields.js";
import { icon } from "./icons.js";
import { whenSignedOut } from "./leaving.js";
import { HIGHEST_ID } from "./limits.js";
import { nextTrip } from "./next-trip.js";
import { meantBy, opening, stepsBack } from "./opened.js";
import { readAll, reading } from "./reads.js";
import { findRiders, folded, isTelephone, riderLabel, riderOf, rosterSize } from "./roster.js";
import { focusOn, makeScreen } from "./screen.js";
import { keepSubject, keptSubject as subjectOf, whenRefused } from "./subject-kept.js";
import { vehicleMeant, vehiclesFor as vehiclesIn } from "./vehicle-number.js";
import { t } from "./words.js";

export { keepSubject, subjectOf };

/** @typedef {import("../types").Given} Given */
/** @typedef {import("./subject-kept.js").What} What */

/** @param {string} typed */
function numberIn(typed) {
    const text = typed.trim().replace(/^#\s*/, "");
    return /^\d{1,10}$/.test(text) && Number(text) >= 1 && Number(text) <= HIGHEST_ID
        ? Number(text)
        : null;
}

/** The number that is meant: digits that are a telephone number are searched as one.
 * @param {string} typed
 */
function plainNumber(typed) {
    const number = numberIn(typed);
    return number !== null && !riderOf(number) && isTelephone(typed) ? null : number;
}

/** The next trip of a rider, where this window has read the rider's trips: nobody's trips are read
 * for a search.
 * @param {number} rider
 */
function nextOf(rider) {
    const trips = reading(desk.pathOf.trips(rider)).reply()?.value?.trips;
    if (!trips) return "";
    const next = nextTrip(trips, { day: today(), minute: minuteNow() });
    return next
        ? t("fields.rider-next", {
              day: next.day === today() ? "" : dayShort(next.day),
              window: between(next.window_from, next.window_to)
          })
        : t("fields.rider-no-next");
}

/** Riders that fit, and of a number alone that very rider too.
 * @param {string} typed @returns {import("./combo.js").Choice[]}
 */
function ridersFor(typed) {
    const number = plainNumber(typed),
        group = t(number === null && isTelephone(typed) ? "fields.by-telephone" : "fields.by-name");
    const found = findRiders(typed, 12).map(({ rider, name, telephone, note }) => ({
        id: rider,
        text: `${name} (${rider})`,
        note: [telephone, note].filter(Boolean).join(" · "),
        side: nextOf(rider),
        group
    }));
    return number === null || riderOf(number)
        ? found
        : [
              {
                  id: number,
                  text: riderLabel(number).replace(/^r/, "R"),
                  group: t("fields.by-number")
              },
              ...found
          ];
}

const named = () => vehicles().map(({ id, name }) => ({ id, name: folded(name ?? "") }));

/** @param {string} typed */
const vehiclesFor = (typed) =>
    vehiclesIn(folded(typed.trim()), named()).map(({ id }) => ({ id, text: vehicleText(id) }));

/** A van as it stands in the field: its name and its number.
 * @param {number} id */
const vehicleText = (id) => (
    vehicles().some((it) => it.id === id && it.name) ? `${vehicleName(id)} (${id})` : String(id)
);

/** The rider that is meant.
 * @param {string} typed */
function riderMeant(typed) {
    const number = plainNumber(typed);
    if (number !== null || !typed.trim()) return number;
    const found = ridersFor(typed);
    return found.length === 1 ? found[0].id : null;
}

/** @type {Record<What, { search: (typed: string) => import("./combo.js").Choice[], meant: (typed:
 * string) => number | null, textOf: (id: number) => string, wants: (typed: string) => string }>}
 */
const KINDS = {
    rider: {
        search: ridersFor,
        meant: riderMeant,
        textOf: String,
        wants: (typed) =>
            t(
                typed.trim() && rosterSize()
                    ? (isTelephone(typed) ? "fields.telephone-none" : "fields.rider-none")
                    : "fields.id",
                { most: HIGHEST_ID }
            )
    },
    vehicle: {
        search: vehiclesFor,
        meant: (typed) => vehicleMeant(folded(typed.trim()), named(), HIGHEST_ID),
        textOf: vehicleText,
        wants: (typed) =>
            t(
                typed.trim() && vehiclesFor(typed).length > 1
                    ? "fields.vehicle-which"
                    : "fields.vehicle-none"
            )
    },
};

/** A field for a number, which is found by a name too. On a page with its button below, a number
 * alone opens no list.
 * @param {What} what @param {string} label @param {() => void} chosen @param {boolean} [isInPage]
 */
function subjectField(what, label, chosen, isInPage = false) {
    const isRider = what === "rider", { search } = KINDS[what];
    const field = comboField(what, label, {
        ...KINDS[what],
        search: (typed) => search(typed).filter(({ id }) => !isRider || !isInPage || riderOf(id)),
        chosen,
        sends: true,
        marks: (typed) => (isRider ? plainNumber(typed) === null : !/^[\d\s]+$/.test(typed)),
        hint: isRider && rosterSize() ? t("fields.rider-hint") : undefined,
        placeholder:
            isRider && !isInPage
                ? t(rosterSize() ? "fields.rider-type" : "fields.rider-type-number")
                : undefined
    });
    if (isRider) field.control.setAttribute("data-search", "");
    return field;
}

/** A search of the bar: its field, its button, and the key that leads to it.
 * @param {HTMLElement} ask
 */
const inBar = (ask) =>
    drawInto(found("find"), [icon("search"), ask, part("kbd", { "aria-hidden": "true" }, "/")]);

/** The search of a part that shows no rider itself: taken(rider) leads to the rider.
 * @param {string} label @param {string} action @param {(rider: number) => void} taken
 */
export function searchInBar(label, action, taken) {
    const field = subjectField("rider", label, () => {});
    inBar(
        form({
            name: label,
            fields: [field],
            action,
            class: "inline subject",
            send: async (values) => ({ value: values.rider }),
            done: (rider) => {
                keepSubject("rider", rider);
                taken(rider);
            }
        })
    );
}

/** What was opened from a list, one after another. The browser's history has places in it.
 * @type {number[]}
 */
let openedOnes = [];
whenSignedOut(() => {
    openedOnes = [];
});

/** Has Back close what is opened from a list.
 * @param {number} id
 */
function openInHistory(id) {
    const found = opening(openedOnes, history.state, id);
    if (!found) return;
    openedOnes = found.those;
    history.pushState(found.place, "", location.hash);
}

/** Calls act with whom Back and Forward mean, or with null, as long as a place is on the page.
 * Other parts of the screen have addresses of their own.
 * @param {HTMLElement} place @param {(id: number | null) => void} act
 */
function goWithHistory(place, act) {
    const here = location.hash;
    const moved = (/** @type {PopStateEvent} */ { state }) => {
        if (!place.isConnected) window.removeEventListener("popstate", moved);
        else if (location.hash === here) act(meantBy(openedOnes, state));
    };
    window.addEventListener("popstate", moved);
}

/** Who is shown first: whom the history means, or else who was shown last.
 * @param {What} what @param {boolean} hasList
 */
function firstOf(what, hasList) {
    const meant = hasList ? meantBy(openedOnes, history.state) : null;
    if (meant !== null) keepSubject(what, meant);
    return meant ?? subjectOf(what);
}

/** A field for the number, and below it what draw(number) gives of the number that was chosen. A
 * rider's field stands in the bar, and is empty once it is known who is meant. Where one person has
 * one number, the field stands above and is folded away once it is known. focus names the element
 * that has the focus once a number was chosen.
 * @param {{ what: What, label: string, action: string, draw: (id: number) => Given, folded?:
 * boolean, focus?: string, change?: string, none?: (open: (id: number) => void) => Given, back?:
 * string, idle?: (ask: HTMLElement, open: (id: number) => void) => Given }} given change: what the
 * folded field says where what is below tells whose it is; none draws what stands where nobody is
 * chosen, and back is the button that leads there; idle draws the same around the search itself
 */
export function withSubject({
    what,
    label,
    action,
    draw,
    folded: folds = false,
    focus = `${what}-below`,
    change: other = "",
    none,
    back = "",
    idle
}) {
    /** @typedef {{ shown: number | null, typed: string, open: boolean, refused: boolean }} State */
    /** @type {{ change: import("./screen.js").Tools<State>["change"], state: () => State } | null} */
    let tools = null;
    /** What is drawn once it is on the page, and whether it was.
     * @type {HTMLElement | null} */
    let place = null;
    let wasShown = false;
    const field = subjectField(
        what,
        label,
        () => tools?.change({ typed: field.control.value.trim() }),
        folds
    );
    const shows = (/** @type {number} */ id) => {
        if (none) openInHistory(id);
        showsNow(id);
    };
    const showsNow = (/** @type {number} */ id) => {
        keepSubject(what, id);
        field.write(folds ? id : null);
        say("");
        // (who asks again wants to know how it is now)
        if (tools?.state().shown === id)
            readAll();
        tools?.change(
            { shown: id, typed: folds ? textOf(id) : "", open: false, refused: false },
            { focus }
        );
        window.dispatchEvent(new Event("desk.look"));
    };
    const ask = form({
        name: label,
        fields: [field],
        action,
        class: "inline subject",
        send: async (values) => ({ value: values[what] }),
        done: shows
    });
    // (what was opened from the list is one step ahead of it, so that Forward opens it again)
    const leave = () => {
        const steps = stepsBack(history.state);
        if (steps) history.go(-steps);
        else leaveNow();
    };
    const leaveNow = () => {
        keepSubject(what, null);
        field.write("");
        tools?.change({ shown: null, typed: "", open: true }, { focus: `${what}-none` });
        window.dispatchEvent(new Event("desk.look"));
    };
    const first = firstOf(what, none !== undefined), { textOf, meant } = KINDS[what];
    if (first && folds) field.write(first);
    // (who leaves the search goes on with the rider who is shown)
    /** @type {HTMLInputElement} */ (field.control).addEventListener(
        "keydown",
        (/** @type {KeyboardEvent} */ { key, defaultPrevented }) => {
            const goal = document.getElementById(focus);
            if (key !== "Escape" || defaultPrevented || folds || !goal) return;
            field.write("");
            field.tell("");
            tools?.change({ typed: "" });
            focusOn(goal);
        }
    );
    /** @type {import("./screen.js").Screen<State>} */
    const screen = makeScreen({
        state: /** @type {State} */ ({
            shown: first,
            typed: first && folds ? textOf(first) : "",
            open: !first,
            refused: false
        }),
        draw: ({ shown, typed, open, refused }, { kept, change }) => {
            tools = { change, state: () => screen.state };
            const same = shown !== null && ((!typed && !folds) || meant(typed) === shown),
                isIdle = idle !== undefined && shown === null;
            const summary = part("summary", {},
                shown === null ? t("fields.type-number") : other || `${label}: ${textOf(shown)}`
            );
            // (nothing is done to somebody else while a name is typed)
            const below = [
                shown !== null &&
                    !same &&
                    part("p", { class: folds ? "note" : "unseen", role: "status", key: "other" },
                        t("fields.other-number", { typed: typed || "…", action })
                    ),
                shown !== null &&
                    part(
                        "div",
                        {
                            class: "stack",
                            id: `${what}-below`,
                            key: `below-${shown}`,
                            hidden: folds && !same,
                            inert: !same
                        },
                        kept(`below-${shown}`, () => draw(shown))
                    )
            ];
            // (what is folded away stands below what one looks at)
            const queue =
                none &&
                shown === null &&
                part("div", { id: `${what}-none`, tabindex: -1, key: "none" },
                    kept("none", () => none(shows))
                );
            const way =
                none &&
                shown !== null &&
                part("div", { class: "row", key: "way" }, button(back, leave, { class: "small" }));
            if (folds)
                return [
                    below,
                    part(
                        "details",
                        {
                            class: "folded",
                            key: "field",
                            open: open || !same || refused,
                            on: { toggle: (event) => change({ open: event.target.open }) }
                        },
                        summary,
                        ask
                    )
                ];
            wasShown ||= place?.isConnected ?? false;
            // (a part that was left has no say in the bar)
            if (!wasShown || place?.isConnected)
                (isIdle ? drawInto(found("find"), []) : inBar(ask));
            return [
                isIdle && part("div", { key: "idle" }, kept("idle", () => idle(ask, shows))),
                way,
                below,
                queue
            ];
        },
    });
    place = screen.element;
    if (none)
        goWithHistory(place, (id) => {
            if (id === screen.state.shown) return;
            // (a question is about what was open)
            answerNo();
            if (id === null) leaveNow();
            else showsNow(id);
        });
    // (who typed a wrong number types another one)
    whenRefused(place, (refused) => {
        if (screen.state.refused !== refused) screen.change({ refused });
    });
    return screen.element;
}
