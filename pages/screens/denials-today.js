// Denials for lack of a vehicle, of which staff may have a copy of the desk's file kept: `desk
// explain` makes a log of it (docs/AUDIT.md).

import { clock, dayShort, momentNow, today } from "../parts/clock.js";
import { deniedIn } from "../parts/denied-today.js";
import { button, part, table } from "../parts/element.js";
import { count } from "../parts/tally.js";
import { toldRead } from "../parts/told.js";
import { t } from "../parts/words.js";

/** @typedef {import("../parts/denied-today.js").DeniedTrip} DeniedTrip */

/** What was marked in this window, by the denial's id: the site's file has it half a minute later.
 * @type {Map<string, string>} */
const here = new Map();

/** @param {string} moment */
const timeOf = (moment) => clock(Number(moment.slice(11, 13)) * 60 + Number(moment.slice(14, 16)));

/** @param {string} at */
export const markedWords = (at) => t("booking.marked", { time: timeOf(at) });

/** @param {string} asked the trip that was asked for @param {() => void} mark */
export const markButton = (asked, mark) =>
    button(t("booking.mark"), mark, {
        class: "small",
        "aria-label": t("booking.mark-of", { asked })
    });

/** @param {DeniedTrip} denied */
function askedWords({ day, minute, mode }) {
    const time = clock(minute);
    return `${dayShort(day)}, ${mode ? t(`booking.said-${mode}`, { time }) : time}`;
}

/** The denials of today, each with its copy. changed draws the screen anew.
 * @param {() => void} changed
 */
export function denialsToday(changed) {
    const all = deniedIn(toldRead().reply()?.value ?? null, today());
    const mark = (/** @type {DeniedTrip} */ { id, day, minute, mode }) => {
        if (here.has(id)) return;
        const at = momentNow();
        here.set(id, at);
        count("marks", { day, minute, at, ...(mode && { mode }) });
        changed();
        document.getElementById(`copy-${id}`)?.focus();
    };
    const copyOf = (/** @type {DeniedTrip} */ it) => {
        const at = it.marked ?? here.get(it.id);
        return part("div", { role: "status", id: `copy-${it.id}`, tabindex: -1 },
            at
                ? part("span", { class: "good" }, markedWords(at))
                : markButton(askedWords(it), () => mark(it))
        );
    };
    return all.length > 0 &&
        part("section", { class: "card", key: "denials-today" },
            part("h2", {}, t("cases.waits-denials")),
            part("p", {}, t("cases.waits-denials-hint")),
            toldRead().age(),
            table(
                t("cases.waits-denials"),
                [
                    { head: t("cases.waits-denied-at"), cell: (it) => timeOf(it.at) },
                    { head: t("cases.waits-asked"), cell: askedWords },
                    {
                        head: t("cases.waits-denied-where"),
                        cell: (it) => (it.channel ? t(`cases.channel-${it.channel}`) : "")
                    },
                    { head: t("cases.waits-copy"), cell: copyOf }
                ],
                all,
                { rowKey: ({ id }) => id }
            )
        );
}
