// The small form for the van's odometer, at the start and at the end of its day, and what was
// entered there.

import { clock, momentNow, plus } from "../parts/clock.js";
import { button, fresh, make, part, say } from "../parts/element.js";
import { keep } from "../parts/queue.js";
import { eventPath } from "../parts/tally.js";
import { t } from "../parts/words.js";
import { pullsOf, readingOf } from "./driver-odometer.js";
import { logOf, sheetName, shownDay } from "./driver-state.js";

/** @typedef {import("./driver-odometer.js").Pull} Pull */
/** @typedef {import("./driver-odometer.js").Reading} Reading */
/** @typedef {import("./driver-odometer.js").Written} Written */
/** @typedef {import("./driver-state.js").State} State */

const PLAIN = { class: "tap plain" };

/** A field with its label, and a line that says what is wrong in it.
 * @param {string} name @param {Record<string, unknown>} attributes */
function fieldOf(name, attributes) {
    const input = make("input", { id: fresh(`miles-${name}`), autocomplete: "off", ...attributes }),
        fault = make("p", { class: "fault", id: fresh("fault") });
    input.setAttribute("aria-describedby", fault.id);
    return {
        input,
        fault,
        element: part("div", { class: "field" },
            part("label", { for: input.id }, t(`driver.miles-${name}`)),
            input,
            fault
        )
    };
}

/** @param {Pull} pull @returns {Record<string, ReturnType<typeof fieldOf>>} */
function fieldsOf(pull) {
    const miles = { type: "text", inputmode: "numeric", maxlength: 10 },
        time = fieldOf("time", { type: "time", value: momentNow().slice(11, 16) });
    const odometer = fieldOf("odometer", { ...miles, autofocus: true });
    return pull === "pull_out"
        ? { odometer, time }
        : { odometer, time, first: fieldOf("first", miles), last: fieldOf("last", miles) };
}

/** Asks for a reading; null where none is given.
 * @param {Pull} pull
 * @param {Reading | null} out
 * @param {boolean} isOver
 * @returns {Promise<Reading | null>}
 */
function askReading(pull, out, isOver) {
    return new Promise((answer) => {
        const fields = fieldsOf(pull),
            title = fresh("miles-title"),
            before = document.activeElement;
        /** @type {Reading | null} */
        let given = null;
        const dialog = make("dialog", { "aria-labelledby": title },
            part("h2", { id: title }, t(`driver.${pull}`))
        );
        const submit = (/** @type {Event} */ event) => {
            event.preventDefault();
            const text = (/** @type {string} */ name) => fields[name]?.input.value ?? "";
            const told = readingOf(
                pull,
                {
                    time: text("time"),
                    odometer: text("odometer"),
                    first: text("first"),
                    last: text("last")
                },
                out,
                isOver
            );
            Object.values(fields).forEach(({ fault }) => fault.replaceChildren());
            if ("reading" in told) {
                given = told.reading;
                return dialog.close();
            }
            const [name, why] = told.fault;
            fields[name].fault.append(t(`driver.miles-fault-${why}`, { out: out?.odometer ?? 0 }));
            return fields[name].input.focus();
        };
        dialog.append(
            make("form", { on: { submit } },
                ...Object.values(fields).map(({ element }) => element),
                part("div", { class: "row" },
                    part("button", { type: "submit", class: "main" }, t("driver.miles-save")),
                    button(t("common.no-go-back"), () => dialog.close())
                )
            )
        );
        dialog.addEventListener("close", () => {
            dialog.remove();
            if (before instanceof HTMLElement && before.isConnected)
                before.focus({ preventScroll: true });
            answer(given);
        });
        document.body.append(dialog);
        dialog.showModal();
    });
}

/** Asks for a reading and keeps it, as taps are kept.
 * @param {State} state @param {Pull} pull @param {() => Promise<void>} relog */
export async function enterReading(state, pull, relog) {
    const { vehicle, day, today } = state,
        reading = await askReading(pull, pullsOf(logOf(state)).out, day < today);
    if (!reading) return;
    const at = momentNow(), tap = { stop: "van", trip: 0, rider: 0, what: pull, at, reading };
    const kept = await keep({
        sheet: sheetName(vehicle, day),
        tap,
        state: "kept",
        write: null,
        tally: [eventPath(pull, { vehicle, day, ...reading, at })]
    }).then(() => true, () => false);
    await relog();
    say(t(kept ? "driver.miles-saved" : "driver.miles-no-room"));
}

/** @param {Pull} pull @param {Reading} reading */
const line = (pull, { minute, odometer }) =>
    part("p", { key: pull }, t(`driver.did-${pull}`, { time: clock(minute), odometer }));

/** What was entered, and the button for what comes next: at the top until the van has left its
 * depot, then below the stop.
 * @param {State} state @param {{ pull: (pull: Pull) => void }} acts @param {boolean} isTop */
export function milesOf(state, acts, isTop) {
    const { day, today, read, locked } = state,
        { out, in: back } = pullsOf(logOf(state)),
        isStart = !out && !shownDay(state).stops[0]?.done;
    if (!read || locked || day > today || day < plus(today, -1) || isTop !== isStart) return null;
    return part("div", { class: "driver-head driver-miles", key: "miles" },
        out && line("pull_out", out),
        back && line("pull_in", back),
        button(
            t(out ? "driver.pull_in" : "driver.pull_out"),
            () => acts.pull(out ? "pull_in" : "pull_out"),
            PLAIN
        ),
        out && button(t("driver.pull_out-again"), () => acts.pull("pull_out"), PLAIN)
    );
}
