// What a new agency sets up, in its order, with what is there already. It goes once all is there.

import { agency, places, routes, vehicles } from "../parts/agency.js";
import { part } from "../parts/element.js";
import { icon } from "../parts/icons.js";
import { t } from "../parts/words.js";
import { notes } from "./admin-notes.js";

/** @typedef {{ name: string, part: string, isDone: boolean, said: string }} Step part is that of
 * the admin's screen, empty where another screen has it
 */

/** @returns {Step[]} */
function setupSteps() {
    const { name } = agency(),
        isNamed = ![t("common.agency"), t("admin.example-name")].includes(name),
        saved = notes().policy;
    const many = (/** @type {string} */ what, /** @type {unknown[]} */ all) => ({
        isDone: all.length > 0,
        said: t(all.length ? `admin.setup-${what}-there` : `admin.setup-${what}-none`, {
            count: all.length
        })
    });
    return [
        {
            name: "names",
            part: "names",
            isDone: isNamed,
            said: isNamed ? name : t("admin.setup-names-none")
        },
        { name: "places", part: "places", ...many("places", places()) },
        { name: "routes", part: "routes", ...many("routes", routes()) },
        { name: "vans", part: "", ...many("vans", vehicles()) },
        {
            name: "policy",
            part: "policy",
            isDone: Boolean(saved),
            said: t(saved ? "admin.setup-policy-there" : "admin.setup-policy-none")
        }
    ];
}

/** @param {Step} step @param {number} at @param {boolean} isNext */
function stepShown({ name, part: where, isDone, said }, at, isNext) {
    const words = [
        isDone
            ? [icon("check"), part("span", { class: "unseen" }, t("admin.setup-done"))]
            : part("span", { class: "count" }, String(at + 1)),
        part("span", { class: "grow" },
            part("b", {}, t(`admin.setup-${name}`)),
            part("small", {}, said)
        )
    ];
    return part("li", { key: name },
        where
            ? part("a", { href: `#admin/${where}`, "aria-current": isNext ? "step" : null }, words)
            : part("div", { class: "item", "aria-current": isNext ? "step" : null }, words)
    );
}

/** The steps as a card, as long as one of them is left. */
export function setupCard() {
    const steps = setupSteps(), next = steps.findIndex(({ isDone }) => !isDone);
    return next >= 0 &&
        part("section", { class: "card flush" },
            part("div", { class: "head" }, part("h2", {}, t("admin.setup"))),
            part("ol", { class: "link-list" },
                steps.map((step, at) => stepShown(step, at, at === next))
            )
        );
}
