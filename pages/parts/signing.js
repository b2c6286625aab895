// The form that signs in: a key, and the screen that is wanted, since the desk does not tell whose
// key it is.

import * as desk from "./desk.js";
import { element, button, drawInto, make, part, say } from "./element.js";
import { form, radioField, textField, tickField } from "./fields.js";
import { keyFault, keyTrouble, LENGTH, MOST } from "./key.js";
import { isKnownHere } from "./queue.js";
import { screenOfKey, SCREENS } from "./screens.js";
import { t } from "./words.js";

const RIDER = "rider";

/** What is told at the key where nobody has it.
 * @param {string} typed
 */
function unknownWords(typed) {
    const trouble = keyTrouble(typed);
    const help = trouble
        ? t(`signing.key-${trouble.what}`, { ...trouble, whole: LENGTH })
        : t("denials.desk.key/help");
    return `${t("denials.desk.key")} ${help}`;
}

/** The field of the key, which says of what can be nobody's key why.
 * @returns {import("../types").Field}
 */
function keyField() {
    const it = textField("key", t("signing.key"), {
        type: "password",
        autocomplete: "current-password",
        hint: t("signing.key-hint", { whole: LENGTH }),
        wants: t("signing.key-none"),
        spellcheck: false
    });
    it.control.setAttribute("autocapitalize", "none");
    return {
        ...it,
        read: () => {
            const text = it.control.value.trim(), fault = keyFault(text);
            return fault ? { fault: t(`signing.key-${fault}`, { most: MOST }) } : { value: text };
        }
    };
}

/** The screens, each with what it is for.
 * @param {string} first
 */
function jobsField(first) {
    const jobs = radioField(
        "screen",
        t("signing.job"),
        SCREENS.map(({ id }) => [id, t(`signing.${id}`)]),
        { class: "jobs", value: first }
    );
    jobs.element.querySelectorAll("label").forEach((label, at) =>
        label.append(" ", make("small", {}, t(`signing.${SCREENS[at].id}-job`)))
    );
    return jobs;
}

/** The button that shows what is typed.
 * @param {HTMLInputElement} control
 */
function shower(control) {
    const seen = element(
        button(
            t("signing.show-key"),
            () => {
                const hidden = control.type === "password";
                control.type = hidden ? "text" : "password";
                seen.textContent = t(hidden ? "signing.hide-key" : "signing.show-key");
            },
            { class: "small quiet" }
        )
    );
    return seen;
}

/** Who stays signed in here, where another window was left with this page: that rider may go on,
 * and nobody else is shown the rider's trips without a word.
 * @param {(screen: string) => void} signed
 */
function staying(signed) {
    const place = make("div", { role: "status" });
    const draw = () => {
        const rider = desk.staysHere();
        drawInto(
            place,
            rider !== null &&
                part("div", { class: "note" },
                    part("p", {}, t("signing.stays-here", { rider })),
                    part("div", { class: "row" },
                        button(t("signing.go-on", { rider }), () => goOn(rider))
                    )
                )
        );
    };
    // (somebody else may have come in that rider's place since it was drawn: then the page says
    // who)
    const goOn = async (/** @type {number} */ rider) => {
        if (await desk.goOnStaying(rider)) signed(RIDER);
        else draw();
    };
    const look = () => {
        if (place.isConnected) draw();
        else window.removeEventListener("storage", look);
    };
    draw();
    window.addEventListener("storage", look);
    return place;
}

/** @param {{ screen: string, signed: (screen: string) => void }} given */
export function signIn({ screen: first, signed }) {
    const key = keyField();
    // (staff's keys open everybody's records: they are kept by no browser)
    const screen = jobsField(first),
        stay = tickField("stay", t("signing.stay"), { hint: t("signing.stay-hint") }),
        follow = () => {
            stay.element.hidden = screen.read().value !== RIDER;
        };
    let isChosen = false;
    screen.element.addEventListener("change", follow);
    // (a click on what is chosen already is a choice too)
    screen.element.addEventListener("click", ({ target }) => {
        isChosen ||= target instanceof HTMLInputElement;
    });
    follow();
    key.control.after(shower(/** @type {HTMLInputElement} */ (key.control)));
    let typing = new AbortController();
    // (what was wrong with a key is not said of the next one, which waits for no answer to this)
    key.control.addEventListener("input", () => {
        key.tell("");
        typing.abort();
    });
    const whole = form({
        name: t("signing.in"),
        action: t("signing.in"),
        fields: [key, screen, stay],
        send: ({ key: text }) => {
            typing = new AbortController();
            return desk.signIn(text, isKnownHere, typing.signal);
        },
        denied: (reply, { key: text }) => {
            if (typing.signal.aborted) return [];
            if (reply.denied !== "desk.key") return undefined;
            key.tell(unknownWords(text));
            key.control.focus();
            say(unknownWords(text));
            return [];
        },
        done: async (_, values) => {
            const to = isChosen ? values.screen : screenOfKey(values.screen, await desk.rights());
            if (!to) {
                screen.tell(t("signing.job-wants"));
                screen.control.focus();
                return;
            }
            if (values.stay && to === RIDER) desk.wantToStay();
            signed(to);
        }
    });
    return make("section", { class: "card signing" },
        make("h1", {}, t("signing.in")),
        staying(signed),
        whole
    );
}
