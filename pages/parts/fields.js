// Fields and forms. A field says in one sentence what it takes; that sentence is told where the
// page refuses a value and where the desk does.
// The elements are real ones: a screen makes them once (kept) and what was typed stays in them.

import { asked, choose } from "./ask.js";
import { clock, isDay, readTime, weekdays } from "./clock.js";
import { denialOf } from "./denials.js";
import { drawInto, element, fresh, make, part, say } from "./element.js";
import { waysOf } from "./halves.js";
import { FIRST_DAY, HIGHEST_FARE, HIGHEST_ID, LAST_DAY, MOST_REASONS } from "./limits.js";
import { plainOf } from "./plain.js";
import { counted, t } from "./words.js";

/** @typedef {import("../types").Given} Given */
/** @typedef {import("../types").Field} Field */
/** @typedef {import("../types").Control} Control */
/** @typedef {import("../types").Values} Values */
/** @typedef {import("../types").Read<unknown>} Read */
/** @typedef {import("../types").Denied | import("../types").Left} Refused */
/** @typedef {{ hint?: string, class?: string, tick?: boolean, after?: Given }} Layout */
/** @template [Value=string | null]
 * @typedef {Layout & { optional?: boolean, wants?: string, value?: Value, least?: string | number,
 * empty?: string, long?: boolean, rows?: number, type?: string, autocomplete?: string, judge?:
 * (text: string) => unknown, most?: string | number, spellcheck?: boolean, placeholder?: string,
 * segments?: boolean }} Options
 */
/** @typedef {{ unit?: string, lead?: string }} Units what stands in a field behind its value, or
 * before it
 */

/** @template Value
 * @param {string} name
 * @param {string} label
 * @param {Control} control
 * @param {string} wants
 * @param {() => Read} read
 * @param {(value: Value) => void} write
 * @param {Layout & Units} [options] @returns {Field} */
export function field(name, label, control, wants, read, write, options = {}) {
    const id = fresh(name), fault = make("p", { class: "fault", id: `${id}-fault` });
    const hint = options.hint && make("p", { class: "hint", id: `${id}-hint` }, options.hint);
    control.id = id;
    control.name = name;
    const unit = options.unit && make("span", { id: `${id}-unit` }, options.unit),
        whole =
            options.unit || options.lead
                ? make("div", { class: "with-unit" },
                      options.lead && make("span", {}, options.lead),
                      control,
                      unit
                  )
                : control;
    control.setAttribute(
        "aria-describedby",
        [unit && unit.id, hint && hint.id, fault.id].filter(Boolean).join(" ")
    );
    const tell = (/** @type {string | null | undefined} */ text) => {
        fault.textContent = text ?? "";
        if (text) control.setAttribute("aria-invalid", "true");
        else control.removeAttribute("aria-invalid");
    };
    control.addEventListener("input", () => tell(""));
    const lead = make("label", { for: id }, label);
    const body = options.tick
        ? [make("div", { class: "tick" }, control, lead), hint, fault]
        : [lead, whole, options.after, hint, fault];
    return {
        name,
        label,
        wants,
        control,
        read,
        write,
        tell,
        element: make("div", { class: `field ${options.class ?? ""}`.trim() }, body)
    };
}

/** @param {Control} control
 * @param {string} wants
 * @param {(text: string) => unknown} judge
 * @param {boolean} [optional]
 * @returns {() => Read}
 */
const plain = (control, wants, judge, optional) => () => {
    const text = control.value.trim();
    if (!text && optional) return { value: null };
    const value = judge(text);
    return value === null || value === undefined ? { fault: wants } : { value };
};

/** @param {Control} control
 * @returns {(value: string | number | null | undefined) => void}
 */
const shown = (control) => (value) => {
    control.value = String(value ?? "");
};

/** @param {string} name
 * @param {string} label
 * @param {number} least
 * @param {number} most
 * @param {Options<string | number | null> & Units} [options]
 */
export function numberField(name, label, least, most, options = {}) {
    const control = make("input", {
        type: "text",
        inputmode: "numeric",
        autocomplete: "off",
        size: 12
    });
    const wants =
        options.wants ??
        t("fields.number", {
            least: counted(least),
            most: most === HIGHEST_ID ? String(most) : counted(most)
        });
    const judge = (/** @type {string} */ typed) => {
        const text = typed.replace(
            /^(-?\d{1,3})((?:[ ,]\d{3})+)$/,
            (_, first, rest) => first + rest.replace(/[ ,]/g, "")
        );
        return /^-?\d{1,10}$/.test(text) && Number(text) >= least && Number(text) <= most
            ? Number(text)
            : null;
    };
    control.value = String(options.value ?? "");
    return field(
        name,
        label,
        control,
        wants,
        plain(control, wants, judge, options.optional),
        shown(control),
        options
    );
}

/** @param {string} name
 * @param {string} label
 * @param {Options<string | number | null> & Units} [options]
 */
export const idField = (name, label, options = {}) =>
    numberField(name, label, 1, HIGHEST_ID, options);

/** @param {string} name @param {string} label @param {Options & Units} [options] */
export function moneyField(name, label, options = {}) {
    const control = make("input", {
        type: "text",
        inputmode: "decimal",
        autocomplete: "off",
        size: 12
    });
    const wants = t("fields.money", { most: HIGHEST_FARE / 100 });
    const judge = (/** @type {string} */ text) => {
        const cents = /^\$? ?\d{1,4}([.]\d{1,2})?$/.test(text)
            ? Math.round(Number(text.replace(/[$ ]/g, "")) * 100)
            : HIGHEST_FARE + 1;
        return cents <= HIGHEST_FARE ? cents : null;
    };
    return field(
        name,
        label,
        control,
        wants,
        plain(control, wants, judge),
        (/** @type {number} */ cents) => {
            control.value = (cents / 100).toFixed(2);
        },
        options
    );
}

/** A time as people write it; below it stands how it is understood.
 * @param {string} name @param {string} label @param {Options<number | null>} [options]
 */
export function timeField(name, label, options = {}) {
    const control = make("input", {
        type: "text",
        inputmode: "text",
        autocomplete: "off",
        size: 10,
        placeholder: options.placeholder ?? null
    }),
        echo = make("p", { class: "hint echo" });
    const wants = options.wants ?? t("fields.time", { example: clock(555) });
    const read = () => {
        const text = control.value.trim();
        if (!text && options.optional) return { value: null };
        const { minute, ambiguous } = readTime(text);
        return minute !== undefined
            ? { value: minute }
            : ambiguous
            ? { ambiguous }
            : { fault: wants };
    };
    const heard = () => {
        const { value, ambiguous } = /** @type {Read} */ (read());
        echo.textContent = ambiguous
            ? t("fields.which-half", { early: clock(ambiguous[0]), late: clock(ambiguous[1]) })
            : typeof value === "number" && control.value.trim() !== clock(value)
            ? t("fields.understood", { time: clock(value) })
            : "";
    };
    control.addEventListener("input", heard);
    const write = (/** @type {number | null | undefined} */ minute) => {
        control.value = minute === null || minute === undefined ? "" : clock(minute);
        heard();
    };
    const it = field(name, label, control, wants, read, write, { ...options, after: echo });
    if (options.value !== undefined) write(options.value);
    return it;
}

/** @param {string} name @param {string} label @param {Options} [options] */
export function dayField(name, label, options = {}) {
    const least = String(options.least ?? FIRST_DAY), most = options.most ?? LAST_DAY;
    const control = make("input", { type: "date", min: least, max: most });
    control.value = options.value ?? "";
    const wants = options.wants ?? t("fields.day", { least, most });
    const judge = (/** @type {string} */ text) => (
        isDay(text) && text >= least && text <= String(most) ? text : null
    );
    return field(
        name,
        label,
        control,
        wants,
        plain(control, wants, judge, options.optional),
        shown(control),
        options
    );
}

/** @param {string} name @param {string} label @param {Options} [options] */
export function textField(name, label, options = {}) {
    const control = options.long
        ? make("textarea", { rows: options.rows ?? 4 })
        : make("input", {
              type: options.type ?? "text",
              autocomplete: options.autocomplete ?? "off"
          });
    if (options.spellcheck === false) control.setAttribute("spellcheck", "false");
    const wants = options.wants ?? t("fields.text", { most: MOST_REASONS });
    const judge =
        options.judge ??
        ((/** @type {string} */ text) => (/^[ -~]{1,500}$/.test(text) ? text : null));
    control.value = options.value ?? "";
    return field(
        name,
        label,
        control,
        wants,
        plain(control, wants, judge, options.optional),
        shown(control),
        options
    );
}

/** Reasons of a letter: what the desk does not take is turned into what it takes, and shown; how
 * long it is stands below.
 * @param {string} name @param {string} label @param {Options} [options] */
export function reasonsField(name, label, options = {}) {
    const control = make("textarea", { rows: options.rows ?? 5 }),
        below = make("div", { class: "hint" });
    const wants = options.wants ?? t("fields.reasons", { most: MOST_REASONS });
    const read = () => {
        const { text, lost } = plainOf(control.value);
        if (lost.length) return { fault: t("fields.lost", { signs: lost.join(" ") }) };
        return text.length >= 1 && text.length <= MOST_REASONS ? { value: text } : { fault: wants };
    };
    const heard = () => {
        const { text, lost } = plainOf(control.value);
        drawInto(below, [
            part("p", {}, t("fields.count", { count: text.length, most: MOST_REASONS })),
            lost.length > 0
                ? part("p", {}, t("fields.lost", { signs: lost.join(" ") }))
                : text !== control.value.trim() &&
                  part("p", {}, t("fields.sent-as"), part("q", {}, text))
        ]);
    };
    control.addEventListener("input", heard);
    heard();
    return field(
        name,
        label,
        control,
        wants,
        read,
        (/** @type {string | null | undefined} */ value) => {
            control.value = value ?? "";
            heard();
        },
        { ...options, after: below }
    );
}

/** One of some pairs of a value and its text. Values are numbers or texts.
 * @template {string | number} Value @param {string} name @param {string} label
 * @param {[Value, string][]} pairs @param {Options<Value | null>} [options]
 */
export function choiceField(name, label, pairs, options = {}) {
    const control = make("select", {},
        options.empty && part("option", { value: "" }, options.empty),
        pairs.map(([value, text]) => part("option", { value }, text))
    );
    const wants = options.wants ?? t("fields.choice");
    const judge = (/** @type {string} */ text) =>
        pairs.map(([value]) => value).find((value) => String(value) === text) ?? null;
    if (options.value !== undefined) control.value = String(options.value);
    return field(
        name,
        label,
        control,
        wants,
        plain(control, wants, judge, options.optional),
        shown(control),
        options
    );
}

/** @param {string} name @param {string} label @param {Options<boolean>} [options] */
export function tickField(name, label, options = {}) {
    const control = make("input", { type: "checkbox" });
    control.checked = options.value ?? false;
    const write = (/** @type {boolean} */ value) => {
        control.checked = value;
    };
    return field(
        name,
        label,
        control,
        t("fields.tick"),
        () => ({ value: control.checked }),
        write,
        { ...options, tick: true }
    );
}

/** Several of some pairs, as ticks under one heading.
 * @template Value @param {string} name @param {string} legend @param {[Value, string][]} pairs
 * @param {Value[]} [chosen] @param {Options} [options] @returns {Field}
 */
export function ticksField(name, legend, pairs, chosen = [], options = {}) {
    /** @type {[Value, Field][]} */
    const ticks = pairs.map(([value, text]) => [
        value,
        tickField(`${name}-${value}`, text, { value: chosen.includes(value) })
    ]);
    const fault = make("p", { class: "fault", id: fresh("fault") }),
        wants = options.wants ?? t("fields.tick");
    const whole = make("fieldset", { class: "field ticks", "aria-describedby": fault.id },
        make("legend", {}, legend),
        options.hint && make("p", { class: "hint" }, options.hint),
        make("div", { class: "grid" }, ticks.map(([, tick]) => tick.element)),
        fault
    );
    const read = () => {
        const value = ticks.filter(([, tick]) => tick.read().value).map(([it]) => it);
        return value.length || !options.least ? { value } : { fault: wants };
    };
    return {
        name,
        wants,
        control: ticks[0]?.[1].control,
        element: whole,
        read,
        tell: (text) => {
            fault.textContent = text ?? "";
        },
        write: (/** @type {Value[]} */ values) =>
            ticks.forEach(([value, tick]) => tick.write(values.includes(value)))
    };
}

/** @param {string} name @param {string} legend @param {number[]} [chosen] */
export const weekdaysField = (name, legend, chosen = [1, 2, 3, 4, 5]) =>
    ticksField(name, legend, weekdays(), chosen);

/** One of a few, each to be seen; without a value none is chosen beforehand.
 * @template Value @param {string} name @param {string} legend
 * @param {[Value, string][]} pairs @param {Options<Value | null>} [options] @returns {Field}
 */
export function radioField(name, legend, pairs, options = {}) {
    const group = fresh(name),
        fault = make("p", { class: "fault", id: `${group}-fault` }),
        wants = options.wants ?? t("fields.choose-one");
    const radios = pairs.map(([value]) => {
        const radio = make("input", { type: "radio", name: group, value, id: fresh(name) });
        radio.checked = options.value === value;
        return radio;
    });
    const tell = (/** @type {string | null | undefined} */ text) => {
        fault.textContent = text ?? "";
    };
    const whole = make(
        "fieldset",
        {
            class: `field radios ${options.class ?? ""}`.trim(),
            "aria-describedby": fault.id,
            on: { change: () => tell("") }
        },
        make("legend", {}, legend),
        options.hint && make("p", { class: "hint" }, options.hint),
        options.segments
            ? make("div", { class: "seg" },
                  pairs.map(([, text], at) => make("label", {}, radios[at], text))
              )
            : make("div", { class: "row" },
                  pairs.map(([, text], at) =>
                      make("div", { class: "tick" },
                          radios[at],
                          make("label", { for: radios[at].id }, text)
                      )
                  )
              ),
        fault
    );
    const read = () => {
        const at = radios.findIndex((radio) => radio.checked);
        return at < 0
            ? (options.optional ? { value: null } : { fault: wants })
            : { value: pairs[at][0] };
    };
    const write = (/** @type {Value} */ value) =>
        radios.forEach((radio, at) => {
            radio.checked = pairs[at][0] === value;
        });
    return { name, wants, control: radios[0], element: whole, read, write, tell };
}

/** Yes or no, without a default.
 * @param {string} name @param {string} legend @param {Options<boolean | null>} [options]
 */
export const yesNoField = (name, legend, options = {}) =>
    radioField(name, legend, [[true, t("common.yes")], [false, t("common.no")]], {
        wants: t("fields.yes-no"),
        ...options
    });

// Forms.

/** Milliseconds after which a form says that it waits for its answer. */
const SLOW = 1_500;

/** The values of all fields by their names, or null, and then each fault stands at its field and
 * the first has the focus. Where a time may be of the morning or of the evening, it is asked about
 * only if both are possible beside the other fields, which check() says.
 * @template [Made=Values]
 * @param {Field[]} fields
 * @param {(values: Made) => unknown} [check] what is wrong of values together
 * @returns {Promise<Made | null>}
 */
export async function valuesOf(fields, check = () => null) {
    const reads = fields.map((it) => ({ it, read: it.read() }));
    reads.forEach(({ it, read }) => it.tell(read.fault));
    const first = reads.find(({ read }) => read.fault);
    if (first) {
        first.it.control.focus();
        say(first.read.fault ?? "");
        return null;
    }
    /** @type {Record<string, unknown>} */
    const sure = Object.fromEntries(
        reads.filter(({ read }) => !read.ambiguous).map(({ it, read }) => [it.name, read.value])
    );
    let ways = waysOf(
        reads.flatMap(({ it, read }) => (
            read.ambiguous ? [{ name: it.name, halves: read.ambiguous }] : []
        )),
        sure,
        (values) => check(/** @type {Made} */ (/** @type {unknown} */ (values)))
    );
    for (const { it, read } of reads) {
        if (!read.ambiguous) continue;
        const halves = read.ambiguous.filter((half) => ways.some((way) => way[it.name] === half));
        const minute = halves.length === 1 ? halves[0] : await halfOf(it, read.ambiguous);
        if (minute === null) return null;
        it.write(minute);
        ways = ways.filter((way) => way[it.name] === minute);
    }
    return /** @type {Made} */ (/** @type {unknown} */ (ways[0]));
}

/** Which half of the day is meant.
 * @param {Field} it @param {number[]} ambiguous
 */
async function halfOf(it, [early, late]) {
    const minute = await choose({
        question: t("fields.which-question", {
            field: it.label ?? "",
            early: clock(early),
            late: clock(late)
        }),
        choices: [
            [early, clock(early), t("fields.early-key")],
            [late, clock(late), t("fields.late-key")]
        ]
    });
    if (minute === null) it.control.focus();
    return minute;
}

/** @param {Field[]} fields @param {{ field: string, fault: string }} wrong */
function tellAt(fields, { field: name, fault }) {
    const at = fields.find((it) => it.name === name);
    at?.tell(fault);
    at?.control.focus();
    say(fault);
}

/** Enter in a list sends the form, as it does in a field.
 * @param {KeyboardEvent} event
 */
function sendByEnter(event) {
    if (event.key !== "Enter" || !(event.target instanceof HTMLSelectElement)) return;
    event.preventDefault();
    event.target.form?.requestSubmit();
}

/** @typedef {{ question: string, detail?: Given, yes: string, danger?: boolean }} Question */

/**
 * A form. begun() runs before anything is looked at; check(values) gives what is wrong of fields
 * together; ask(values) gives a question that is asked once before it is sent, null for none,
 * undefined where whoever asked has left, and then nothing is sent; declined() follows a no to the
 * question; send(values) gives the desk's reply; done(value, values) follows what was accepted,
 * denied(reply, values) what was not. What was typed stays in any case, and while it is sent a
 * second click does nothing.
 * @template Taken
 * @template [Made=Values]
 * @param {{ name?: string, fields: Field[], action: string, purpose?: string, check?: (values:
 * Made) => { field: string, fault: string } | null, ask?: (values: Made) => Question | null |
 * undefined | Promise<Question | null | undefined>, send: (values: Made) =>
 * Promise<import("../types").Reply<Taken> | null | undefined | void>, done: (value: Taken, values:
 * Made) => unknown, begun?: () => void, declined?: () => void, denied?: (reply: Refused, values:
 * Made) => Given | void, danger?: boolean, toAnswer?: boolean, extra?: Given, class?: string,
 * arranged?: Given }} given toAnswer puts the focus on a denial; arranged has the fields'
 * elements in their groups
 */
export function form({
    name,
    fields,
    action,
    purpose,
    send,
    done,
    begun = () => {},
    check = () => null,
    ask = () => null,
    declined = () => {},
    denied,
    danger = false,
    toAnswer = false,
    extra,
    class: kind,
    arranged
}) {
    const box = make("div", { role: "alert", tabindex: toAnswer ? -1 : null }),
        waiting = make("div", { role: "status" }),
        submit = make("button", { type: "submit", class: danger ? "danger" : "main" }, action);
    let busy = false;
    const told = (/** @type {Refused} */ reply, /** @type {Made} */ values) => {
        const at = fields.find((it) => it.name === reply.field);
        if (at) {
            at.tell(at.wants);
            at.control.focus();
        } else drawInto(box, denied?.(reply, values) || denialOf(reply, purpose));
        if (!at && toAnswer) box.focus();
    };
    const run = async () => {
        const values = await valuesOf(fields, check);
        if (!values) return;
        const wrong = check(values);
        if (wrong) return tellAt(fields, wrong);
        const question = await ask(values);
        if (question === undefined) return;
        if (question && !await asked(question)) return declined();
        submit.setAttribute("aria-disabled", "true");
        const reply = await send(values);
        submit.removeAttribute("aria-disabled");
        if (reply && reply.denied !== undefined) told(reply, values);
        else if (reply) await done(reply.value, values);
    };
    const submitted = async (/** @type {Event} */ event) => {
        event.preventDefault();
        if (busy) return;
        busy = true;
        drawInto(box, []);
        // (what was said of an earlier try is said no more)
        say("");
        begun();
        // (whoever waits longer than a moment is told that it is under way)
        const slow = setTimeout(
            () => drawInto(waiting, part("p", { class: "hint" }, t("fields.waits"))),
            SLOW
        );
        try {
            await run();
        } finally {
            busy = false;
            clearTimeout(slow);
            drawInto(waiting, []);
            submit.removeAttribute("aria-disabled");
        }
    };
    return make(
        "form",
        {
            novalidate: true,
            method: "post",
            "aria-label": name ?? action,
            class: kind,
            on: { submit: submitted, keydown: sendByEnter }
        },
        arranged ?? fields.map((it) => it.element),
        extra,
        box,
        waiting,
        make("div", { class: "row" }, submit)
    );
}

export { element };
