// A field with a list below it that is searched as one types, by the keyboard first (the pattern
// "combobox" of ARIA).

import { drawInto, fresh, make, part } from "./element.js";
import { field } from "./fields.js";

const MOST_SHOWN = 100;

/** @typedef {{ id: number, text: string, note?: string, side?: string, group?: string }} Choice
 * side stands at the right; choices of one group follow each other
 */
/**
 * @typedef {object} Options
 * @property {(typed: string) => Choice[]} search what fits what was typed, the best first
 * @property {() => Choice[]} [all] what is offered where nothing is typed, at a tap or an arrow
 * @property {(typed: string) => number | null} meant the one number that is meant, or null
 * @property {(id: number) => string} textOf how a number is written in the field
 * @property {(typed: string) => string} wants what is told where none is meant
 * @property {(typed: string) => boolean} [marks] whether the first choice is marked beforehand, so
 * that Enter takes it
 * @property {() => void} [chosen] follows each change
 * @property {boolean} [sends] whether taking a choice sends the form
 * @property {string} [placeholder]
 * @property {boolean} [optional]
 * @property {string} [hint]
 */

/** The list below a field: which choices it shows, and which of them is marked.
 * @param {HTMLInputElement} control @param {HTMLElement} box @param {(choice: Choice) => void} take
 */
function listBelow(control, box, take) {
    let at = -1, byHand = false;
    /** @type {Choice[]} */
    let shown = [];
    const idOf = (/** @type {Choice} */ { id }) => `${box.id}-${id}`;
    const option = (/** @type {Choice} */ it, /** @type {number} */ index) =>
        part(
            "div",
            {
                role: "option",
                id: idOf(it),
                key: it.id,
                "aria-selected": String(index === at),
                on: { mousedown: (event) => event.preventDefault(), click: () => take(it) }
            },
            it.text,
            it.note && part("small", {}, it.note),
            it.side && part("span", { class: "side" }, it.side)
        );
    const grouped = () =>
        [...new Set(shown.map(({ group }) => group ?? ""))].map((group) => {
            const those = shown.flatMap((it, index) => (
                (it.group ?? "") === group ? [option(it, index)] : []
            ));
            return group
                ? part("div", { role: "group", key: group, "aria-label": group },
                      part("span", { class: "group", "aria-hidden": "true" }, group),
                      those
                  )
                : those;
        });
    const open = (/** @type {Choice[]} */ choices, /** @type {number} */ marked) => {
        shown = choices.slice(0, MOST_SHOWN);
        byHand = false;
        at = Math.min(marked, shown.length - 1);
        box.hidden = !shown.length;
        control.setAttribute("aria-expanded", String(shown.length > 0));
        drawInto(box, grouped());
        if (at < 0) return control.removeAttribute("aria-activedescendant");
        control.setAttribute("aria-activedescendant", idOf(shown[at]));
        return document.getElementById(idOf(shown[at]))?.scrollIntoView({ block: "nearest" });
    };
    const move = (/** @type {number} */ step) => {
        open(
            shown,
            at < 0 && step < 0 ? shown.length - 1 : (at + step + shown.length) % shown.length
        );
        byHand = true;
    };
    return {
        open,
        move,
        close: () => open([], -1),
        isOpen: () => shown.length > 0,
        marked: () => shown[at] ?? null,
        isByHand: () => byHand
    };
}

/** @param {string} name @param {string} label @param {Options} options */
export function comboField(
    name,
    label,
    {
        search,
        all = () => [],
        meant,
        textOf,
        wants,
        marks = () => true,
        chosen = () => {},
        sends = false,
        optional = false,
        hint,
        placeholder
    }
) {
    const id = fresh("choices"),
        control = make("input", {
            type: "text",
            placeholder: placeholder ?? null,
            role: "combobox",
            autocomplete: "off",
            spellcheck: "false",
            "aria-expanded": "false",
            "aria-controls": id,
            "aria-autocomplete": "list",
            autocapitalize: "off"
        });
    // (a list that scrolls would be a stop of Tab by itself, and take the focus where it is closed)
    const box = make("div", {
        id,
        role: "listbox",
        class: "choices",
        "aria-label": label,
        hidden: true,
        tabindex: -1,
        on: { mousedown: (event) => event.preventDefault() }
    });
    const put = (/** @type {Choice} */ it) => {
        control.value = textOf(it.id);
        list.close();
        whole.tell("");
        chosen();
        // (what stands beside follows before the focus moves on: who goes there by Tab would lose
        // it)
        control.dispatchEvent(new Event("desk.chosen"));
    };
    const take = (/** @type {Choice} */ it) => {
        put(it);
        control.focus();
        if (sends) control.form?.requestSubmit();
    };
    const list = listBelow(control, box, take);
    const offered = () => (
        control.value.trim() && meant(control.value) === null ? search(control.value) : all()
    );
    const moved = (/** @type {number} */ step) => {
        if (list.isOpen()) return list.move(step);
        list.open(offered(), -1);
        return list.isOpen() && list.move(step);
    };
    const keyed = (/** @type {KeyboardEvent} */ event) => {
        const marked = list.marked();
        // (who chose by the arrows and goes on has chosen)
        if (event.key === "Tab" && marked && list.isByHand())
            return put(marked);
        const act = {
            ArrowDown: () => moved(1),
            ArrowUp: () => moved(-1),
            Enter: marked && (() => take(marked)),
            Escape: list.isOpen() && list.close
        }[event.key];
        if (!act || event.isComposing) return undefined;
        event.preventDefault();
        return act();
    };
    const left = () => {
        const number = meant(control.value);
        list.close();
        if (number === null || control.value === textOf(number)) return;
        control.value = textOf(number);
        chosen();
    };
    control.addEventListener("input", () => {
        list.open(control.value.trim() ? search(control.value) : [], marks(control.value) ? 0 : -1);
        chosen();
    });
    control.addEventListener("keydown", keyed);
    control.addEventListener("click", () => {
        if (!list.isOpen()) list.open(offered(), -1);
    });
    control.addEventListener("blur", left);
    control.addEventListener("focus", () => control.select());

    const read = () => {
        const value = meant(control.value);
        return value !== null
            ? { value }
            : !control.value.trim() && optional
            ? { value: null }
            : { fault: wants(control.value) };
    };
    const write = (/** @type {number | null | undefined} */ number) => {
        control.value = number === null || number === undefined ? "" : textOf(number);
        list.close();
    };
    const whole = field(name, label, control, wants(""), read, write, {
        hint,
        class: "combo",
        after: box
    });
    return whole;
}
