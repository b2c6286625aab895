// Where is room: persons aboard by quarter of an hour and van, with the vans that have no trips.

import { vehicleName } from "../parts/agency.js";
import { clock, dayInWords } from "../parts/clock.js";
import { part } from "../parts/element.js";
import { roomOf } from "../parts/room.js";
import { hoursOf } from "../parts/timeline.js";
import { t } from "../parts/words.js";

const HOUR = 60, IN_HOUR = 4;

/** The four numbers of an hour; a dash where the van is not on the road.
 * @param {(number | null)[]} quarters
 */
const hourWords = (quarters) => quarters.map((it) => (it === null ? "–" : String(it))).join(" ");

/** @template It @param {It[]} all @returns {It[][]} */
const byHour = (all) =>
    Array.from({ length: all.length / IN_HOUR }, (_, at) =>
        all.slice(at * IN_HOUR, (at + 1) * IN_HOUR)
    );

/** @param {import("../parts/texts.js").Manifest[]} manifests @param {string} day */
export function roomTable(manifests, day) {
    const [first, last] = hoursOf(manifests),
        { rows, all } = roomOf(manifests, [first, last]),
        hours = byHour(all);
    const cells = (/** @type {string[]} */ words) =>
        words.map((it, at) => part("td", { key: at, class: /[1-9]/.test(it) ? "used" : null }, it));
    return part(
        "div",
        {
            class: "scroll room",
            tabindex: 0,
            role: "region",
            "aria-label": t("dispatcher.room-caption", { day: dayInWords(day) })
        },
        part("table", {},
            part("caption", {},
                t("dispatcher.room-caption", { day: dayInWords(day) }),
                " ",
                t("dispatcher.room-hint")
            ),
            part("thead", {},
                part("tr", {},
                    part("th", { scope: "col" }, t("dispatcher.head-vehicle")),
                    hours.map((_, at) =>
                        part("th", { scope: "col", key: at },
                            clock((first + at) * HOUR % (24 * HOUR))
                        )
                    )
                )
            ),
            part("tbody", {},
                rows.map(({ vehicle, quarters }) =>
                    part("tr", { key: vehicle },
                        part("th", { scope: "row" }, vehicleName(vehicle)),
                        quarters.every((it) => it === null)
                            ? part("td", { colspan: hours.length, class: "free" },
                                  t("dispatcher.room-idle")
                              )
                            : cells(byHour(quarters).map(hourWords))
                    )
                )
            ),
            part("tfoot", {},
                part("tr", {},
                    part("th", { scope: "row" }, t("dispatcher.room-persons")),
                    cells(hours.map((it) => it.map(({ persons }) => persons).join(" ")))
                ),
                part("tr", {},
                    part("th", { scope: "row" }, t("dispatcher.room-empty")),
                    cells(hours.map((it) => it.map(({ empty }) => empty).join(" ")))
                )
            )
        )
    );
}
