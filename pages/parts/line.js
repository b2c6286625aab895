// The sign that the desk does not answer. It is there while some request waits for its answer.

import { drawInto, found, part, say } from "./element.js";
import { t } from "./words.js";

/** @type {Map<object, string>} */
const waiting = new Map();

function show() {
    const words = [...new Set(waiting.values())].map((key) => t(key)).join(" ");
    drawInto(found("line"), words && part("p", { class: "sign" }, words));
}

/** @param {object} request @param {string} key the key of the words that say why */
export function waits(request, key) {
    waiting.set(request, key);
    show();
}

/** @param {object} request */
export function answers(request) {
    if (!waiting.delete(request)) return;
    show();
    if (!waiting.size) say(t("common.answers-again"));
}

/** Says the sign anew, in the language that is chosen now. */
export const sayAgain = show;

/** Whether some request waits. */
export const isWaiting = () => waiting.size > 0;
