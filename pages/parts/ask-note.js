// A note of the day: one line on a trip or on the van, by its driver or by dispatch.

import { lineOf } from "./counting.js";
import { button, fresh, make, part } from "./element.js";
import { EVENTS } from "./events.js";
import { t } from "./words.js";

const MOST = EVENTS.notes.text.most ?? 0;

/** Asks for a note; empty where none is given.
 * @param {{ title: string, label: string, hint: string, save: string }} words
 * @returns {Promise<string>}
 */
export function askNote(words) {
    return new Promise((answer) => {
        const title = fresh("note-title"), before = document.activeElement;
        const field = make("input", {
            type: "text",
            maxlength: MOST,
            id: fresh("note"),
            autocomplete: "off",
            autofocus: true
        });
        const dialog = make("dialog", { "aria-labelledby": title },
            part("h2", { id: title }, words.title)
        );
        const form = make(
            "form",
            {
                on: {
                    submit: (event) => {
                        event.preventDefault();
                        dialog.close("kept");
                    }
                }
            },
            part("div", { class: "field" },
                part("label", { for: field.id }, words.label),
                field,
                part("p", { class: "hint" }, words.hint)
            ),
            part("div", { class: "row" },
                part("button", { type: "submit", class: "main" }, words.save),
                button(t("common.no-go-back"), () => dialog.close(""))
            )
        );
        dialog.append(form);
        dialog.addEventListener("close", () => {
            dialog.remove();
            if (before instanceof HTMLElement && before.isConnected)
                before.focus({ preventScroll: true });
            answer(dialog.returnValue === "kept" ? lineOf(field.value, MOST) : "");
        });
        document.body.append(dialog);
        dialog.showModal();
    });
}
