// Help where people are: the keys of a screen, and three sentences at the first visit, once in a
// browser.

import { button, fresh, make, part } from "./element.js";
import { visitedWith } from "./help-visits.js";
import { dropText, keepText, keptText } from "./kept.js";
import { dropNote, note } from "./notes.js";
import { hasText, t } from "./words.js";

const VISITED = "desk.visited", NO_KEYS = "desk.no-keys", NOTE = "welcome";

/** The keys of every screen, and after them those of one: each with the key of its words.
 * @type {Record<string, [string, string][]>}
 */
const KEYS = {
    all: [
        ["Tab", "help.tab"],
        ["Enter", "help.enter"],
        ["Escape", "help.escape"],
        ["?", "help.keys"]
    ],
    clerk: [
        ["/", "help.search"],
        ["↑ ↓", "help.choices"],
        ["b", "help.book"],
        ["t", "help.trips"],
        ["← →", "help.days"]
    ],
    examiner: [["/", "help.search"], ["↑ ↓", "help.choices"]],
    officer: [["/", "help.search"], ["↑ ↓", "help.choices"]],
    dispatcher: [["/", "help.search-day"], ["↑ ↓", "help.vans"], ["← →", "help.stops"]],
};

/** @param {string} screen */
const keysShown = (screen) =>
    part("dl", { class: "kv keys" },
        [...(KEYS[screen] ?? []), ...KEYS.all].map(([key, words]) =>
            part("div", {}, part("dt", {}, part("kbd", {}, key)), part("dd", {}, t(words)))
        )
    );

/** Whether single signs are keys (WCAG 2.1.4): who dictates turns them off. */
const turnKeys = (/** @type {boolean} */ isOn) => (
    isOn ? dropText("local", NO_KEYS) : keepText("local", NO_KEYS, "yes")
);

/** Lists the keys of a screen, with what the screen is for.
 * @param {string} screen
 */
export function tellKeys(screen) {
    const title = fresh("keys"),
        tick = fresh("single"),
        before = document.activeElement,
        first = `help.first-${screen}`;
    const dialog = /** @type {HTMLDialogElement} */ (make(
        "dialog",
        { "aria-labelledby": title, class: "help" },
        part("h2", { id: title }, t("help.title")),
        hasText(first) && part("p", {}, t(first)),
        keysShown(screen),
        part("div", { class: "tick" },
            part("input", {
                type: "checkbox",
                id: tick,
                checked: !keptText("local", NO_KEYS),
                on: { change: ({ target }) => turnKeys(target.checked) }
            }),
            part("label", { for: tick }, t("help.single"))
        ),
        part("div", { class: "row" },
            button(t("common.close"), () => dialog.close(), { class: "main", autofocus: true })
        )
    ));
    dialog.addEventListener("close", () => {
        dialog.remove();
        // (what had the focus may be gone with its screen)
        const back =
            before instanceof HTMLElement &&
                before !== document.body &&
                before.getClientRects().length > 0
                ? before
                : document.getElementById("main");
        back?.focus({ preventScroll: true });
    });
    document.body.append(dialog);
    dialog.showModal();
}

/** Which screen the note is about. */
let greeted = "";

/** Says at the first visit of a screen what it is for, and never again in this browser.
 * @param {string} screen
 */
export function greet(screen) {
    const first = `help.first-${screen}`,
        { isNew, text } = visitedWith(keptText("local", VISITED), screen);
    if (greeted !== screen) dropNote(NOTE);
    if (!isNew || !hasText(first)) return;
    greeted = screen;
    keepText("local", VISITED, text);
    note(NOTE, () => t(first));
}
