// Forms on paper for what the desk has no rule for: a complaint (49 CFR 37.17), and a request for a
// reasonable modification (49 CFR 37.169).

import { agency } from "../parts/agency.js";
import { button, part } from "../parts/element.js";
import { printParts } from "../parts/paper.js";
import { inBoth, language, LANGUAGE_NAMES, loadBoth, t } from "../parts/words.js";

/** @typedef {"complaint" | "modification"} Kind */

const BETWEEN = "|",
    LONG = "…";

/** A label with room to write: so many lines as its end has dots.
 * @param {string} label
 */
function lineOf(label) {
    const text = label.replaceAll(LONG, ""), lines = 1 + 2 * (label.length - text.length);
    return part("div", { class: "form-line" },
        part("p", {}, text),
        Array.from({ length: lines }, () => part("p", { class: "form-blank" }))
    );
}

/** @param {Kind} kind @param {string} own a language */
function paperOf(kind, own) {
    const { name, address, telephone } = agency(),
        said = (/** @type {string} */ key) =>
            inBoth(`cases.${kind}-${key}`, { agency: name, telephone: telephone || name })[own];
    return part("article", { class: "letter-page form-page", lang: own },
        part("header", {},
            part("p", { class: "letterhead" }, name),
            part("p", {},
                [...address.split("\n"), telephone].filter(Boolean).map((line) => [
                    line,
                    part("br")
                ])
            )
        ),
        part("h1", {}, said("title")),
        part("p", {}, said("about")),
        said("fields").split(BETWEEN).map(lineOf),
        part("p", {}, said("end"))
    );
}

/** @param {Kind} kind @param {string[]} languages */
async function print(kind, languages) {
    await loadBoth();
    printParts("", languages.map((own) => paperOf(kind, own)), { class: "letter" });
}

/** Buttons that print each form: in the language of the page, or in both for who gives it to
 * others.
 * @param {{ both?: boolean }} options
 */
export function formsCard({ both = false } = {}) {
    const languages = both ? Object.keys(LANGUAGE_NAMES) : [language()];
    return part("details", { class: "card" },
        part("summary", {}, t("cases.forms")),
        part("p", {}, t("cases.forms-about")),
        part("div", { class: "row" },
            button(t("cases.print-complaint"), () => print("complaint", languages)),
            button(t("cases.print-modification"), () => print("modification", languages))
        )
    );
}
