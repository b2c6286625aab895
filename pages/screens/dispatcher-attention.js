// What needs a person, on top of a day: late vans, pickups at risk, pickups that a van has passed
// without a word, vans without update, no-shows to confirm, entries that disagree, riders who were
// not placed. It is what drivers told; each leads to its row.

import { vehicleName } from "../parts/agency.js";
import { clock, dayShort, today } from "../parts/clock.js";
import { shares } from "../parts/board-shapes.js";
import { button, part } from "../parts/element.js";
import { icon } from "../parts/icons.js";
import { attentionOf, lateOf } from "../parts/lateness.js";
import { closePopups, popup } from "../parts/popup.js";
import { riderLabel } from "../parts/roster.js";
import { longTime, shortNames } from "../parts/timeline.js";
import { t } from "../parts/words.js";
import { keptPlans } from "./dispatcher-plan.js";
import { isOpen } from "./dispatcher-review.js";

/** @typedef {import("../parts/lateness.js").Late} Late */
/** @typedef {import("../parts/lateness.js").Told} Told */
/** @typedef {ReturnType<typeof attentionOf>} Attention */
/** @typedef {(vehicle: number, trip?: number) => void} Go */
/** @typedef {(row: import("../parts/lateness.js").NoShow |
 * import("../parts/lateness.js").Disagreement) => void} Review
 */
/** @typedef {{ key: string, van: string, words: string, label: string, act: () => void }} Chip */
/** @typedef {{ name: string, sign: string, kind: string, chips: Chip[], all?: string }} Group all
 * is what one button says that lists them: their riders have no room beside each other
 */

const MOST = 4,
    MOST_LATE = 6;
/** What stands beside the groups, a letter of a title, what is around a title, a chip, in pixels.
 */
const BESIDE = 390,
    LETTER = 7,
    AROUND = 46,
    CHIP = 66;

/** How many riders a move of this browser has not placed. */
export async function readUnplaced() {
    return (await keptPlans()).reduce(
        (sum, { mode, items }) =>
            sum +
            (
                mode === "move"
                    ? items.filter(({ step }) => ["nowhere", "cancelled"].includes(step)).length
                    : 0
            ),
        0
    );
}

/** How late each van is, and what needs a person. Of another day than today nothing is late.
 * @param {import("../parts/texts.js").Manifest[]} manifests
 * @param {Told | null} told
 * @param {import("../parts/timeline.js").Doings} doings
 * @param {number} now
 * @param {boolean} isToday
 */
export function attention(manifests, told, doings, now, isToday) {
    const busy = manifests.filter(({ stops }) => stops.length > 0);
    const lates =
        isToday && told
            ? busy.map((manifest) =>
                  lateOf(manifest, told.vehicles.get(manifest.vehicle) ?? [], doings, now)
              )
            : [];
    return {
        lates: new Map(lates.map((it) => [it.vehicle, it])),
        needs: attentionOf(lates, told, doings, manifests)
    };
}

/** The vans that need somebody today.
 * @param {Attention} needs
 */
export function vansIn({ late, risk, passed, silent, noShows, disagreements, open }) {
    const ofToday = (/** @type {{ day: string }} */ { day }) => day === today();
    return new Set(
        [
            late,
            risk,
            passed,
            silent,
            noShows.filter(ofToday),
            disagreements.filter(ofToday),
            open
        ].flatMap((all) => all.map(({ vehicle }) => vehicle))
    );
}

/** @param {Attention} needs @param {Go} go @param {Review} review @returns {Group[]} */
function groupsOf({ late, risk, passed, silent, noShows, disagreements, open }, go, review) {
    const short = shortNames();
    const chip = (
        /** @type {string} */ key,
        /** @type {number} */ vehicle,
        /** @type {string} */ more,
        /** @type {number} */ trip = 0
    ) => ({
        key: `${key}-${vehicle}-${trip}`,
        van: short(vehicle),
        words: more,
        label: t(`dispatcher.need-${key}-of`, { vehicle: vehicleName(vehicle), more }),
        act: () => go(vehicle, trip || undefined)
    });
    const toReview = (/** @type {string} */ key, /** @type {Parameters<Review>[0][]} */ rows) =>
        rows.filter(isOpen).map((row) => ({
            ...chip(key, row.vehicle, row.day === today() ? "" : dayShort(row.day), row.trip),
            key: `${key}-${row.trip}-${row.minute}`,
            act: () => review(row)
        }));
    const riders = (
        /** @type {string} */ key,
        /** @type {typeof risk} */ all,
        /** @type {boolean} */ hasTime
    ) =>
        all.map((it) =>
            chip(
                key,
                it.vehicle,
                [hasTime && clock(it.due), riderLabel(it.rider)].filter(Boolean).join(" "),
                it.trip
            )
        );
    return [
        {
            name: "late",
            sign: "warning",
            kind: "bad",
            chips: late.map((it) => chip("late", it.vehicle, String(it.delay)))
        },
        {
            name: "silent",
            sign: "silent",
            kind: "warn",
            chips: silent.map((it) => chip("silent", it.vehicle, longTime(it.silent)))
        },
        {
            name: "risk",
            sign: "clock",
            kind: "bad",
            chips: riders("risk", risk, true),
            all: String(risk.length)
        },
        {
            name: "passed",
            sign: "warning",
            kind: "bad",
            chips: riders("passed", passed, false),
            all: String(passed.length)
        },
        { name: "no-show", sign: "noshow", kind: "warn", chips: toReview("no-show", noShows) },
        {
            name: "disagree",
            sign: "warning",
            kind: "warn",
            chips: toReview("disagree", disagreements)
        },
        {
            name: "open",
            sign: "clock",
            kind: "warn",
            chips: open.map((it) => chip("open", it.vehicle, String(it.count))),
            all: t("dispatcher.need-open-all", {
                count: open.reduce((sum, { count }) => sum + count, 0),
                vans: open.length
            })
        }
    ].filter(({ chips }) => chips.length > 0);
}

/** @param {Chip} chip */
const chipPart = ({ key, van, words, label, act }) =>
    button(
        [part("b", {}, van), words && ` ${words}`],
        () => {
            closePopups();
            act();
        },
        { key, class: "jump", "aria-label": label }
    );

/** @param {Group} group @param {number} shown how many of it stand beside each other */
function groupPart({ name, sign, kind, chips, all }, shown) {
    const list = (/** @type {Chip[]} */ those) =>
        part("ul", { class: "needs-list" },
            those.map((it) => part("li", { key: it.key }, chipPart(it)))
        ),
        title = t(`dispatcher.need-${name}`),
        rest = chips.slice(shown);
    return part("div", { class: `need ${name}`, key: name, role: "group", "aria-label": title },
        part("span", { class: `title ${kind}` }, icon(sign), title),
        all
            ? popup(`need-${name}`, part("b", {}, all), list(chips), { name: `${title}: ${all}` })
            : [
                  chips.slice(0, shown).map(chipPart),
                  rest.length > 0 &&
                      popup(`need-${name}`, `+${rest.length}`, list(rest), {
                          name: `${title}: ${t("dispatcher.need-more", { count: rest.length })}`
                      })
              ]
    );
}

/** Taps of an earlier day that came today, by their vans: they count for no van of today.
 * @param {Told | null} told
 */
function lateTaps(told) {
    const vans = [
        ...new Set(
            (told?.late ?? []).map(({ vehicle, at }) =>
                `${vehicleName(vehicle)} (${dayShort(at.slice(0, 10))})`
            )
        )
    ];
    return vans.length > 0 &&
        part("p", { class: "hint", key: "late-taps" },
            t("dispatcher.late-taps", { vans: vans.slice(0, MOST_LATE).join(", ") })
        );
}

/** How many chips have room beside each other.
 * @param {Group[]} groups @param {number} wide pixels
 */
const roomFor = (groups, wide) =>
    Math.floor(
        (
            wide -
            BESIDE -
            groups.reduce(
                (sum, { name, all }) =>
                    sum +
                    AROUND +
                    LETTER * t(`dispatcher.need-${name}`).length +
                    (all ? LETTER * all.length : 0),
                0
            )
        ) /
            CHIP
    );

/** What needs a person, in the line on top of a day.
 * @param {Attention} needs
 * @param {{ told: Told | null, unplaced: number, isToday: boolean, wide: number, go: Go, review:
 * Review }} given
 */
export function attentionBar(needs, { told, unplaced, isToday, wide, go, review }) {
    const groups = groupsOf(needs, go, review),
        shown = shares(
            groups.map(({ chips, all }) => (all ? 0 : chips.length)),
            roomFor(groups, wide),
            MOST
        );
    return part("section", { class: "needs", "aria-label": t("dispatcher.needs") },
        groups.map((it, at) => groupPart(it, shown[at])),
        unplaced > 0 &&
            part("div", { class: "need late", key: "unplaced" },
                button(
                    t("dispatcher.need-unplaced", { count: unplaced }),
                    () => {
                        location.hash = "#dispatcher/out";
                    },
                    { class: "small" }
                )
            ),
        isToday && lateTaps(told),
        isToday && !told && part("p", { class: "hint" }, t("dispatcher.untold")),
        isToday &&
            told &&
            !groups.length &&
            !unplaced &&
            part("p", { class: "hint" }, t("dispatcher.needs-none"))
    );
}
