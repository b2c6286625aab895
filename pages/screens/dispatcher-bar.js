// Which day the dispatcher looks at, over all parts of the screen, and what changes it.

import { dayInWords, dayShort, minuteNow, plus, today } from "../parts/clock.js";
import { keptDenialOf } from "../parts/denials.js";
import { button, element, part } from "../parts/element.js";
import { dayField } from "../parts/fields.js";
import { closePopups, popup } from "../parts/popup.js";
import { t } from "../parts/words.js";

/** The trip at whose stop the day is opened, from another part of the screen. */
export const STOP = "desk.subject.stop";

/** @type {string | null} */
let shown = null;

export const theDay = () => shown ?? today();

/** The minute of a day that it is now: before the day began it is -1, and once it is over there is
 * no bound.
 * @param {string} day
 */
export const nowOn = (day) => (day === today() ? minuteNow() : day < today() ? Infinity : -1);

/** @param {string} day */
function whenWords(day) {
    if (day === today()) return t("dispatcher.is-today");
    if (day === plus(today(), 1)) return t("dispatcher.is-tomorrow");
    return t(day < today() ? "dispatcher.is-over" : "dispatcher.is-to-come");
}

/** Why a day can't be read. Where nobody has the key any more, a button leads to the form that
 * signs in.
 * @param {{ denied?: string }} denied
 */
export const dayDenied = (denied) => [
    keptDenialOf(denied.denied),
    denied.denied === "desk.key" &&
        part("div", { class: "row" },
            button(
                t("dispatcher.sign-in-again"),
                () => window.dispatchEvent(new Event("desk.leave")),
                { class: "main" }
            )
        )
];

/** @typedef {{ day: string, ended: boolean, go: (day: string) => void, kept: <Made>(name: string,
 * make: () => Made) => Made }} Given go(day) follows; ended says that the day ended while it was on
 * the screen
 */

/** @param {Given["go"]} go @returns {(day: string) => void} */
const going = (go) => (day) => {
    shown = day;
    closePopups();
    go(day);
};

/** The day before, a day of one's choice, the day after, in one line.
 * @param {Given} given
 */
export function dayTools({ day, go, kept }) {
    const goTo = going(go),
        field = kept("day", () => {
            const it = dayField("day", t("dispatcher.day-label"), { value: day });
            it.control.addEventListener("change", () => {
                const { value } = it.read();
                if (value) goTo(value);
            });
            return it;
        });
    if (field.read().value !== day) field.write(day);
    return part("div", { class: "day-tools" },
        button("‹", () => goTo(plus(day, -1)), {
            class: "small icon",
            "aria-label": t("dispatcher.day-before")
        }),
        popup(
            "day-pop",
            day === today() ? t("dispatcher.today") : dayShort(day),
            [
                kept("field", () => element(part("div", {}, field.element))),
                day !== today() &&
                    button(t("dispatcher.go-today"), () => goTo(today()), { class: "small" })
            ],
            { name: t("dispatcher.choose-day", { day: dayInWords(day) }) }
        ),
        button("›", () => goTo(plus(day, 1)), {
            class: "small icon",
            "aria-label": t("dispatcher.day-after")
        })
    );
}

/** The day in words for who does not see it, and for paper; and that it ended while it was on the
 * screen.
 * @param {Given} given
 */
export function dayTitle({ day, ended, go }) {
    const note =
        ended &&
        day < today() &&
        part("div", { class: "note row" },
            part("p", {},
                t("dispatcher.day-ended", { day: dayInWords(day), today: dayInWords(today()) })
            ),
            button(t("dispatcher.go-today"), () => going(go)(today()))
        );
    return [
        part("h2", { class: "day-title" },
            dayInWords(day),
            part("small", {}, ` ${whenWords(day)}`)
        ),
        part("div", { role: "status", class: "ended" }, note)
    ];
}
