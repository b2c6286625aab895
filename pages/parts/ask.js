// Questions that have to be answered before anything else. The focus is on the answer that changes
// nothing, and Escape is that answer.

import { button, fresh, make, part } from "./element.js";
import { t } from "./words.js";

/** @param {string} question
 * @param {import("../types").Given} detail
 * @param {(close: (answer: string) => void) => import("../types").Part[]} answers
 * @returns {Promise<string>} */
function dialogOf(question, detail, answers) {
    return new Promise((answer) => {
        const title = fresh("question"), more = fresh("detail"), before = document.activeElement;
        /** @type {HTMLDialogElement} */
        const dialog = make(
            "dialog",
            { "aria-labelledby": title, "aria-describedby": detail ? more : null },
            part("h2", { id: title }, question),
            detail && part("div", { id: more }, detail),
            part("div", { class: "row" }, answers((text) => dialog.close(text)))
        );
        dialog.addEventListener("close", () => {
            dialog.remove();
            if (before instanceof HTMLElement && before.isConnected)
                before.focus({ preventScroll: true });
            answer(dialog.returnValue);
        });
        document.body.append(dialog);
        dialog.showModal();
    });
}

/** A question that nobody has answered is answered no once something else is shown, and tells whom
 * it was about no more.
 */
export const answerNo = () => document.querySelectorAll("dialog").forEach((it) => it.close(""));

/** Asks once; whether the answer was yes.
 * @param {{ question: string, detail?: import("../types").Given, yes: string, no?: string, danger?:
 * boolean }} given
 */
export async function asked({
    question,
    detail,
    yes,
    no = t("common.no-go-back"),
    danger = false
}) {
    const answer = await dialogOf(question, detail, (close) => [
        button(yes, () => close("yes"), { class: danger ? "danger" : "main" }),
        button(no, () => close("no"), { autofocus: true })
    ]);
    return answer === "yes";
}

/** Lets one choose; null where nothing was chosen. A key that begins a choice's text chooses it
 * where no other begins so.
 * @template Value
 * @param {{ question: string, detail?: import("../types").Given, choices: [Value, string,
 * string?][], none?: string, careful?: boolean }} given a choice may have a key; careful: the focus
 * is on the answer that changes nothing
 * @returns {Promise<Value | null>} */
export async function choose({
    question,
    detail,
    choices,
    none = t("common.no-go-back"),
    careful = false
}) {
    const keyed = (/** @type {KeyboardEvent} */ event) => {
        const at = choices.findIndex(([, , key]) => key && key === event.key.toLowerCase());
        if (at < 0 || event.ctrlKey || event.altKey || event.metaKey) return;
        event.preventDefault();
        const dialog = /** @type {HTMLElement} */ (event.target).closest("dialog");
        dialog?.close(String(at));
    };
    const answer = await dialogOf(question, detail, (close) => [
        ...choices.map(([, text], at) =>
            button(text, () => close(String(at)), {
                class: careful && (at > 0 || choices.length === 1) ? null : "main",
                autofocus: at === 0 && !careful,
                on: { click: () => close(String(at)), keydown: keyed }
            })
        ),
        button(none, () => close(""), {
            autofocus: careful,
            on: { click: () => close(""), keydown: keyed }
        })
    ]);
    return answer === "" || !(Number(answer) in choices) ? null : choices[Number(answer)][0];
}
