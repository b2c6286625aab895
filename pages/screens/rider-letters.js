// A rider's own letter: what it says and until when it can be appealed, and then its text.

import { dayOfYear } from "../parts/clock.js";
import { part } from "../parts/element.js";
import { icon } from "../parts/icons.js";
import { t } from "../parts/words.js";

/** @typedef {import("./letters.js").Pieces} Pieces */

/** The sign of each decision: what lets one ride, and what does not.
 * @type {Record<string, [string, string]>}
 */
const SIGNS = {
    granted: ["good", "check"],
    "appeal granted": ["good", "check"],
    "suspension overturned": ["good", "check"],
    refused: ["bad", "warning"],
    suspended: ["bad", "warning"],
    "appeal denied": ["bad", "warning"]
};

/** @param {Pieces} pieces @returns {import("../types").Given} */
export function ownLetter({ letter, title, isLast, body, record, appeal, answer }) {
    const [look, sign] = SIGNS[letter.decision] ?? ["warn", "letter"];
    return [
        part("div", { class: "between letter-top" },
            part("h3", {}, part("span", { class: `chip ${look}` }, icon(sign)), " ", title),
            part("p", { class: "s soft" }, dayOfYear(letter.date))
        ),
        appeal,
        answer,
        part("details", { class: "letter-text", open: isLast || null },
            part("summary", {}, t("rider.read-letter", { entry: letter.entry })),
            part("div", { class: "stack" }, body, record)
        )
    ];
}
