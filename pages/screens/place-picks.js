// A rider's own and usual places as buttons, so that a phone needs no typing: the first tap is
// where from, the next one where to.

import { isOwnPlace, placeName, placePairs } from "../parts/agency.js";
import * as desk from "../parts/desk.js";
import { button, part, say } from "../parts/element.js";
import { reading } from "../parts/reads.js";
import { makeScreen } from "../parts/screen.js";
import { t } from "../parts/words.js";

/** @typedef {import("../types").Field} Field */

const MOST = 6;

/** @param {number} rider
 * @param {() => number[]} usual the places of the rider's trips, the more frequent ones first
 */
const placesOf = (rider, usual) => [
    ...new Set([
        ...placePairs(rider).map(([id]) => id).filter((id) => isOwnPlace(id, rider)),
        ...usual()
    ])
];

/** Stands below the fields of both places, and has no value of its own.
 * @param {number} rider
 * @param {Field} from
 * @param {Field} to
 * @param {() => number[]} usual
 * @returns {Field}
 */
export function picksField(rider, from, to, usual) {
    const isEmpty = (/** @type {Field} */ { control }) => control.value.trim() === "";
    const screen = makeScreen({
        state: {},
        class: "picks",
        draw: () => {
            const next = isEmpty(from) ? from : isEmpty(to) ? to : null,
                taken = [from, to].map((it) => it.read().value);
            const left = next
                ? placesOf(rider, usual).filter((id) => !taken.includes(id)).slice(0, MOST)
                : [],
                which = next === from ? "from" : "to";
            const pick = (/** @type {number} */ id) => {
                next?.write(id);
                next?.tell("");
                next?.control.dispatchEvent(new Event("change", { bubbles: true }));
                say(t(`booking.${which}-is`, { place: placeName(id) }));
            };
            return left.length > 0 &&
                part("div", { role: "group", "aria-labelledby": "picks-of" },
                    part("p", { class: "s", id: "picks-of" }, t(`rider.picks-${which}`)),
                    part("div", { class: "row" },
                        left.map((id) =>
                            button(placeName(id), () => pick(id), { key: id, class: "small" })
                        )
                    )
                );
        }
    });
    const redraw = () => screen.change({});
    for (const it of [from, to])
        for (const kind of ["input", "change", "desk.chosen", "blur"])
            it.control.addEventListener(kind, redraw);
    reading(desk.pathOf.trips(rider)).watch(screen.element, redraw);
    return {
        name: "picks",
        wants: "",
        control: /** @type {import("../types").Control} */ (
            /** @type {unknown} */ (screen.element)
        ),
        element: screen.element,
        read: () => ({ value: null }),
        write: redraw,
        tell: () => {}
    };
}
