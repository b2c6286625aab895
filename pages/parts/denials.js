// Every name of a denial in plain words: what it says, and what can be done. A name that means
// another thing in another request has words of its own with the request's purpose behind it. The
// names are those of the desk's table of denials; the words are in words/LANGUAGE/denials.js.

import { part } from "./element.js";
import { hasText, t } from "./words.js";

/** What a denial says: {says, help, section}, the section where it has one.
 * @param {string} name @param {string} [purpose]
 */
export function inWords(name, purpose = "") {
    const key =
        [`denials.${name} ${purpose}`, `denials.${name}`].find((it) => hasText(it)) ??
        "denials.other";
    const regulation = name === "no vehicle" ? "37.131" : name;
    return {
        says: t(key, { name }),
        help: t(`${key}/help`, { name }),
        section: /^\d/.test(regulation) ? `49 CFR ${regulation}` : null
    };
}

/** @param {string} name @param {string} [purpose] */
function shown(name, purpose) {
    const { says, help, section } = inWords(name, purpose);
    return part("div", { class: "denial" },
        part("p", {}, part("strong", {}, says), section && ` (${section})`),
        // (who is signed in has no field for a key)
        part("p", {}, name === "desk.key" ? t("denials.desk.key/help here") : help)
    );
}

/** What a denial says, on the page. It is a reply's: nothing else has its type.
 * @param {import("../types").Denied | import("../types").Left} reply @param {string} [purpose]
 */
export const denialOf = (reply, purpose) => shown(reply.denied, purpose);

/** The same of a name that a log in this browser kept of a reply.
 * @param {string | null | undefined} name @param {string} [purpose]
 */
export const keptDenialOf = (name, purpose) => shown(name ?? "", purpose);
