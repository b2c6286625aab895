// A button with a menu below it (the pattern "menu button" of ARIA): arrows walk, a letter goes to
// what begins with it, Escape and Tab close it.

import { drawInto, fresh, make, part } from "./element.js";
import { icon } from "./icons.js";

/** @typedef {{ text: import("../types").Given, act: () => void, name?: string, class?: string }}
 * Item name is what a screen reader says where the text is not enough
 */

const EDGE = 8,
    GAP = 4;

/** The menu that is open, and how it is closed.
 * @type {{ button: HTMLElement, close: (back: boolean) => void } | null}
 */
let open = null;

/** Puts a menu below its button, or above it where there is no room, whatever scrolls around the
 * button.
 * @param {HTMLElement} box @param {HTMLElement} button
 */
function place(box, button) {
    const at = button.getBoundingClientRect(),
        { offsetWidth: width, offsetHeight: height } = box,
        room = document.documentElement.clientWidth - EDGE;
    const below = at.bottom + GAP + height <= innerHeight - EDGE || at.top - GAP - height < EDGE;
    box.style.left = `${Math.max(EDGE, Math.min(at.right - width, room - width))}px`;
    box.style.top = `${below ? at.bottom + GAP : at.top - GAP - height}px`;
}

/** @param {HTMLElement} box @param {KeyboardEvent} event @param {(back: boolean) => void} close */
function walk(box, event, close) {
    const items = /** @type {HTMLElement[]} */ ([...box.children]),
        at = items.indexOf(/** @type {HTMLElement} */ (document.activeElement)),
        count = items.length;
    const to = {
        ArrowDown: (at + 1) % count,
        ArrowUp: (at - 1 + count) % count,
        Home: 0,
        End: count - 1
    }[event.key];
    if (event.key === "Escape" || event.key === "Tab") close(event.key === "Escape");
    const letter =
        event.key.length === 1
            ? [...items.slice(at + 1), ...items].find((it) =>
                  it.textContent?.trim().toLowerCase().startsWith(event.key.toLowerCase())
              )
            : undefined;
    const next = to === undefined ? letter : items[to];
    next?.focus();
    if (next || event.key === "Escape") {
        event.preventDefault();
        event.stopPropagation();
    }
}

/** @param {HTMLElement} button @param {Item[]} items @param {string} name */
function show(button, items, name) {
    const box = make("div", { class: "menu", role: "menu", "aria-label": name });
    const close = (/** @type {boolean} */ back) => {
        open = null;
        box.remove();
        button.setAttribute("aria-expanded", "false");
        document.removeEventListener("pointerdown", outside, true);
        document.removeEventListener("focusin", outside, true);
        window.removeEventListener("scroll", gone, true);
        if (back) button.focus();
    };
    const outside = (/** @type {Event} */ { target }) => {
        if (target instanceof Node && !box.contains(target) && !button.contains(target))
            close(false);
    };
    const gone = () => close(box.contains(document.activeElement));
    drawInto(
        box,
        items.map(({ text, act, name: said, class: kind }) =>
            part(
                "button",
                {
                    type: "button",
                    role: "menuitem",
                    tabindex: -1,
                    class: kind,
                    "aria-label": said,
                    on: {
                        click: () => {
                            close(true);
                            act();
                        }
                    }
                },
                text
            )
        )
    );
    box.addEventListener("keydown", (event) => walk(box, event, close));
    // (it stands in the landmark of its button, and what is modal stays above all)
    (
        button.closest("dialog, main, header") ??
        document.body
    ).append(box);
    button.setAttribute("aria-expanded", "true");
    place(box, button);
    document.addEventListener("pointerdown", outside, true);
    document.addEventListener("focusin", outside, true);
    window.addEventListener("scroll", gone, true);
    open = { button, close };
    /** @type {HTMLElement} */ (box.firstElementChild)?.focus({ preventScroll: true });
}

/** A button with a menu; nothing where there is nothing in it.
 * @param {string} name
 * @param {(Item | false | null | undefined)[]} items
 * @param {{ text?: import("../types").Given, class?: string, id?: string }} [options]
 */
export function menuButton(name, items, options = {}) {
    const { text, class: kind = "quiet small icon", id } = options;
    const shown = /** @type {Item[]} */ (items.filter(Boolean));
    const toggle = (/** @type {{ currentTarget: HTMLElement }} */ { currentTarget: button }) => {
        const isOpen = open?.button === button;
        open?.close(false);
        if (!isOpen) show(button, shown, name);
    };
    return shown.length > 0 &&
        part(
            "button",
            {
                type: "button",
                class: kind,
                id: id ?? fresh("menu"),
                "aria-haspopup": "menu",
                "aria-expanded": "false",
                "aria-label": text === undefined ? name : null,
                on: { click: toggle }
            },
            text ?? icon("more")
        );
}
