// What speaks for a no-show, as the driver reads it before telling one.

import { agency } from "../parts/agency.js";
import { between, clock } from "../parts/clock.js";
import { part } from "../parts/element.js";
import { icon } from "../parts/icons.js";
import { t } from "../parts/words.js";

const MINUTE = 60, DAY = 1440;

/** @param {string} label
 * @param {import("../types").Given} value
 * @param {import("../types").Given} [sign]
 */
const line = (label, value, sign = null) =>
    part("div", {},
        part("dt", {}, label),
        part("dd", {}, part("span", {}, value), sign && [" ", sign])
    );

/** @param {string} look @param {string} name @param {string} words */
const sign = (look, name, words) => part("span", { class: `chip ${look}` }, icon(name), words);

/** The promised window, the arrival and the wait.
 * @param {import("./driver-day.js").Evidence} evidence @param {number} minutes the agency's wait */
export function evidenceList({ promise, arrived, waited }, minutes = agency().wait_minutes) {
    const late = promise && arrived !== null ? arrived - promise[1] : 0,
        isEnough = waited >= minutes * MINUTE;
    return part("dl", { class: "evidence" },
        promise && line(t("driver.window"), between(...promise)),
        line(
            t("driver.you-arrived"),
            arrived === null ? t("driver.no-arrival") : clock(arrived % DAY),
            late > 0 && sign("bad", "warning", t("driver.minutes-past", { minutes: late }))
        ),
        arrived !== null &&
            line(
                t("driver.you-waited"),
                t("driver.waited", { waited: Math.floor(waited / MINUTE), minutes }),
                isEnough
                    ? sign("good", "check", t("driver.enough"))
                    : sign("warn", "clock", t("driver.not-yet"))
            )
    );
}
