// A rider's rights: the standing on a day, the letters in order, and what may be put into the case
// file.

import { suspendingOn, suspensionOn } from "../parts/case-facts.js";
import { dayInWords, monthNames, plus, today } from "../parts/clock.js";
import * as desk from "../parts/desk.js";
import { denialOf } from "../parts/denials.js";
import { fresh, make, part } from "../parts/element.js";
import { draftIn } from "../parts/drafts.js";
import { enter } from "../parts/entered.js";
import {
    dayField,
    form,
    numberField,
    reasonsField,
    tickField,
    ticksField
} from "../parts/fields.js";
import { FEW_REASONS, MOST_FARTHER, SUSPENSION_DAYS } from "../parts/limits.js";
import { reading } from "../parts/reads.js";
import { riderLabel } from "../parts/roster.js";
import { makeScreen } from "../parts/screen.js";
import { anyOf, t } from "../parts/words.js";
import {
    conditionInWords,
    isOwn,
    languageChoice,
    lastDay,
    lettersRead,
    madeLetter,
    mayAppeal,
    purposeOf
} from "./letters.js";

export { conditionInWords, lettersFor } from "./letters.js";

/** @typedef {import("../types").Standing} Standing */
/** @typedef {import("../types").Given} Given */
/** @typedef {import("../types").Field} Field */

// Standing.

export const MAY_RIDE = ["presumed", "appeal-overdue", "granted", "visitor"];
/** Standings that rest on no decision, and so on no letter of the desk. */
const WITH_LETTER = ["presumed", "appeal-overdue", "visitor"];
/** The section that each standing rests on. */
const SECTIONS = /** @type {Record<string, string>} */ ({
    presumed: "49 CFR 37.125(c)",
    "appeal-overdue": "49 CFR 37.125(g)",
    granted: "49 CFR 37.125(e)",
    none: "49 CFR 37.125",
    visitor: "49 CFR 37.127(e)",
    "visitor-used": "49 CFR 37.127(e)"
});

/** The days of a suspension, and what an appeal changes, as far as its letter is known.
 * @param {string} day @param {import("../parts/letter-text.js").Letter[]} letters
 */
function suspendedWords(day, letters) {
    const days = suspensionOn(letters, day), letter = suspendingOn(letters, day);
    return [
        part("p", {},
            days
                ? t("cases.suspended-days", {
                      first: dayInWords(days.from),
                      last: dayInWords(days.to)
                  })
                : t("cases.suspended"),
            " (49 CFR 37.125(h))"
        ),
        letter &&
            mayAppeal(letter, letters) &&
            part("p", {},
                t(isOwn() ? "cases.suspended-appeal-own" : "cases.suspended-appeal", {
                    day: dayInWords(lastDay(letter)),
                    page: isOwn() && t("rider.letters")
                }),
                " (49 CFR 37.125(h)(3))"
            )
    ];
}

/** @param {number} rider
 * @param {string} day
 * @param {Standing} told
 * @param {import("../parts/letter-text.js").Letter[]} letters
 */
function standingWords(rider, day, { standing, suspended, until, conditions }, letters) {
    const may = !suspended && MAY_RIDE.includes(standing),
        values = { who: riderLabel(rider), day: dayInWords(day) };
    const verdict = isOwn()
        ? t(may ? "cases.you-may" : "cases.you-may-not", values)
        : t(may ? "cases.may" : "cases.may-not", values);
    const why = t(`cases.why-${standing}`),
        last = until && t("cases.until", { day: dayInWords(until) });
    return part("div", { class: `standing ${may ? "yes" : "no"}` },
        part("p", { class: "verdict" }, may ? "✓ " : "✗ ", verdict),
        suspended && suspendedWords(day, letters),
        part("p", {},
            t(suspended ? "cases.else" : "cases.reason", {
                why: [why, last].filter(Boolean).join(" ")
            }),
            ` (${SECTIONS[standing]})`
        ),
        conditions &&
            part("p", {},
                t("cases.for", { conditions: anyOf(conditions.map((it) => conditionInWords(it))) }),
                " (49 CFR 37.123(b))"
            ),
        !suspended &&
            WITH_LETTER.includes(standing) && [
                languageChoice(rider, "standing"),
                madeLetter(standing, rider, { day })
            ]
    );
}

/** @param {number} rider */
export function standingOf(rider) {
    const on = (/** @type {string} */ day) => ({
        day,
        read: reading(desk.pathOf.standing(rider, day))
    }),
        letters = lettersRead(rider);
    let hasLetters = false;
    const screen = makeScreen({
        state: on(today()),
        class: "card",
        draw: ({ day, read }, { kept }) => {
            const reply = read.reply();
            return [
                part("h2", {},
                    isOwn()
                        ? t("cases.standing-own")
                        : t("cases.standing", { who: riderLabel(rider) })
                ),
                read.age(),
                part("div", { role: "status", id: "standing-answer" },
                    reply === null
                        ? t("cases.reading")
                        : reply.denied !== undefined
                        ? denialOf(reply, purposeOf("standing"))
                        : standingWords(rider, day, reply.value, letters.reply()?.value ?? [])
                ),
                kept("ask", () =>
                    form({
                        name: t("cases.standing-day"),
                        fields: [dayField("day", t("cases.day"), { value: today() })],
                        class: "inline",
                        action: t("cases.show-standing"),
                        send: async (values) => ({ value: values.day }),
                        done: show
                    })
                )
            ];
        },
    });
    const redraw = () => {
        // (the letters cost some requests, and say something of a suspension alone)
        if (!hasLetters && screen.state.read.reply()?.value?.suspended) {
            hasLetters = true;
            letters.watch(screen.element, redraw);
        }
        screen.change({});
    };
    const watch = () => screen.state.read.watch(screen.element, redraw);
    let leave = watch();
    const turn = (/** @type {string} */ day) => {
        leave();
        screen.change(on(day));
        leave = watch();
    };
    /** @param {string} day */
    async function show(day) {
        turn(day);
        await screen.state.read.again();
        screen.change({}, { focus: "standing-answer" });
    }
    const refresh = () => screen.state.read.again();
    screen.onNewDay(() => turn(today()));
    return { element: screen.element, refresh };
}

/** What draw() gives of a resident's case, below a heading that names the rider, if that is not in
 * it. Nothing is offered where there is no case; a visitor has a standing.
 * @param {number} rider
 * @param {() => HTMLElement | HTMLElement[]} draw
 * @param {{ isNamed?: boolean }} options
 */
export function ofResident(rider, draw, { isNamed = false } = {}) {
    const read = reading(desk.pathOf.standing(rider, today()));
    const screen = makeScreen({
        state: {},
        draw: (_, { kept }) => {
            const reply = read.reply();
            if (reply === null) return part("p", { role: "status" }, t("cases.reading"));
            if (reply.denied !== undefined)
                return part("div", { role: "status" }, denialOf(reply, "standing"));
            if (reply.value.standing.startsWith("visitor"))
                return [
                    kept("standing", () => standingOf(rider).element),
                    part("div", { role: "status" },
                        part("p", { class: "note" },
                            t("denials.37.127"),
                            " ",
                            t("denials.37.127/help")
                        )
                    )
                ];
            return [
                !isNamed &&
                    part("h2", { class: "case-of" },
                        t("cases.case-of", { who: riderLabel(rider) })
                    ),
                kept("case", draw)
            ];
        }
    });
    read.watch(screen.element, () => screen.change({}));
    return screen.element;
}

// Entries.

/** One to four conditions, of which one has to hold of a trip. With some, "every trip" is none of
 * them; chosen are those that it begins with.
 * @param {{ some?: boolean, chosen?: string[] }} options @returns {Field}
 */
export function conditionsField({ some = false, chosen: given = [] } = {}) {
    const rest = (/** @type {string} */ kind) =>
        given.find((it) => it.startsWith(`${kind}:`))?.split(":")[1] ?? "";
    const always = tickField("always", t("cases.tick-always")),
        nolift = tickField("nolift", t("cases.tick-nolift"), { value: given.includes("nolift") });
    const months = ticksField(
        "months",
        t("cases.tick-months"),
        monthNames().map((name, at) => /** @type {[number, string]} */ ([at + 1, name])),
        rest("months").split(",").map(Number)
    );
    const farther = numberField("farther", t("cases.tick-farther"), 1, MOST_FARTHER, {
        optional: true,
        value: rest("farther")
    });
    const fault = make("p", { class: "fault", id: fresh("fault") }),
        wants = t("cases.conditions-wants");
    const read = () => {
        const far = farther.read(), chosen = months.read().value ?? [];
        farther.tell(far.fault);
        if (far.fault) return far;
        const value = [
            !some && always.read().value && "always",
            chosen.length > 0 && `months:${chosen.join(",")}`,
            far.value && `farther:${far.value}`,
            nolift.read().value && "nolift"
        ].filter(Boolean);
        return value.length ? { value } : { fault: wants };
    };
    const element = make("fieldset", { class: "field", "aria-describedby": fault.id },
        make("legend", {}, t("cases.conditions")),
        some ? null : always.element,
        nolift.element,
        farther.element,
        months.element,
        fault
    );
    const peek = () => ({
        value: [
            !some && always.read().value && "always",
            (months.read().value ?? []).length > 0 && `months:${months.read().value.join(",")}`,
            farther.read().value && `farther:${farther.read().value}`,
            nolift.read().value && "nolift"
        ].filter(Boolean)
    });
    return {
        name: "conditions",
        wants,
        control: (some ? nolift : always).control,
        element,
        read,
        peek,
        tell: (text) => {
            fault.textContent = text ?? "";
        },
        write: () => {}
    };
}

/** @param {string} [value] */
export const untilField = (value) =>
    dayField("until", t("cases.last-day"), {
        least: today(),
        wants: t("cases.last-day-wants"),
        value
    });
const reasons = () =>
    reasonsField("reasons", t("cases.reasons"), { rows: 8, hint: t("cases.reasons-hint") });

/** The fields of each kind of entry.
 * @type {Record<string, () => Field[]>}
 */
const FIELDS = {
    complete: () => [],
    grant: () => [untilField()],
    refuse: () => [reasons()],
    heard: () => [],
    "appeal-granted": () => [untilField(), conditionsField()],
    "appeal-denied": () => [reasons()],
    overturn: () => [],
    "notice-heard": () => [],
};
/** What stands in the forms of all kinds of entries: each has some of it.
 * @typedef {{ until: string, conditions: string[], reasons: string, basis: string, starts: string,
 * ends: string, missed: number[], more: string }} Decided
 */
/** Those that take something from the rider. */
const AGAINST = ["refuse", "appeal-denied", "suspend", "notice"];
/** What the desk is sent where it is not what was typed. A grant of its own is for every trip: one
 * with conditions leaves out others, and is given in part.
 * @type {Record<string, (values: Decided) => Partial<Decided>>}
 */
const SENT = { grant: ({ until }) => ({ until, conditions: ["always"] }) };

/** What is wrong of the days together.
 * @param {Pick<Decided, "starts" | "ends">} values
 */
export function faultOfDays({ starts, ends }) {
    if (!starts) return null;
    const last = plus(starts, SUSPENSION_DAYS - 1);
    return ends < starts || ends > last
        ? {
              field: "ends",
              fault: t("cases.ends-wants", { first: dayInWords(starts), last: dayInWords(last) })
          }
        : null;
}

/** What will be in the letter, in words.
 * @param {Partial<Decided>} values @returns {Given}
 */
function letterWords({ until, conditions = [], reasons: why, basis, starts, ends = "" }) {
    return [
        until &&
            part("p", {},
                t("cases.asked-until", {
                    day: dayInWords(until),
                    conditions: anyOf(
                        conditions.map((/** @type {string} */ it) => conditionInWords(it))
                    )
                })
            ),
        starts &&
            part("p", {},
                t("cases.asked-days", { first: dayInWords(starts), last: dayInWords(ends) })
            ),
        (why || basis) && part("p", {}, t("cases.asked-reasons"), " ", part("q", {}, why || basis)),
        part("p", {}, t("cases.asked-final"))
    ];
}

/** What is asked of a decision whose reasons are so few that hardly anything is said. (49 CFR
 * 37.125(d) asks for specific ones)
 * @param {Decided} values
 */
const fewWords = ({ reasons: why }) =>
    why && why.length < FEW_REASONS && part("p", { class: "note" }, t("cases.few-reasons"));

/** @typedef {{ fields?: Field[], check?: (values: Decided) => { field: string, fault: string } |
 * null, entryOf?: (values: Decided) => Partial<Decided>, entry?: string, isOpen?: boolean, asked?:
 * (values: Decided) => Given, doubt?: (values: Decided) => Given, did?: (value: { entered: number
 * }, values: Decided) => unknown }} Otherwise another form
 * than that of the kind, and what it sends: entry is the desk's name of it, asked says in the
 * question what is done, doubt what speaks against it, did follows what was accepted
 */

/** What is asked before an entry is sent.
 * @param {string} kind
 * @param {{ who: string, rider: number }} values whose it is
 * @param {Decided} given
 * @param {Otherwise} otherwise
 */
function questionOf(
    kind,
    values,
    given,
    { entryOf = SENT[kind] ?? ((it) => it), asked, doubt }
) {
    const danger = AGAINST.includes(kind),
        words = asked
            ? [asked(given), part("p", {}, t("cases.asked-final"))]
            : letterWords(entryOf(given));
    return {
        question: t(`cases.ask-${kind}`, values),
        detail: [fewWords(given), doubt?.(given), words],
        yes: t("cases.yes", { action: t(`cases.do-${kind}`, values) }),
        danger
    };
}

/** The form of one kind of entry, which begins with what was typed before. done() follows what was
 * accepted, begun() each try; draft() takes back what is kept of it.
 * @param {number} rider
 * @param {string} kind
 * @param {{ done: () => unknown, begun?: () => void }} then
 * @param {Otherwise} [otherwise]
 */
function formOf(rider, kind, { done, begun }, otherwise = {}) {
    const {
        fields = FIELDS[kind](),
        check = faultOfDays,
        entryOf = SENT[kind] ?? ((given) => given),
        entry = kind,
        did
    } = otherwise,
        values = { who: riderLabel(rider), rider };
    const whole = form({
        name: t(`cases.heading-${kind}`, values),
        fields,
        action: t(`cases.do-${kind}`, values),
        purpose: "entry",
        danger: AGAINST.includes(kind),
        toAnswer: true,
        check,
        begun,
        ask: (given) => questionOf(kind, values, given, otherwise),
        send: (given) => enter(rider, { entry, ...entryOf(given) }),
        done: async (value, given) => {
            draft.clear();
            await did?.(value, given);
            await done();
        }
    });
    const draft = draftIn(whole, `${kind} ${rider}`);
    return { whole, fields, isBegun: draft.found };
}

/** The form of one kind of entry, folded away. entered() follows what was accepted.
 * @param {number} rider
 * @param {string} kind
 * @param {() => unknown} entered
 * @param {Otherwise} [otherwise]
 */
export function entryForm(rider, kind, entered, otherwise = {}) {
    const values = { who: riderLabel(rider), rider }, id = fresh("entered");
    /** @type {import("../parts/screen.js").Screen<{ done: boolean }>} */
    const screen = makeScreen({
        state: { done: /** @type {boolean} */ (false) },
        draw: ({ done }, { kept }) =>
            part(
                "details",
                { class: "card entry", "data-entry": kind, open: otherwise.isOpen ?? false },
                part("summary", {}, t(`cases.heading-${kind}`, values)),
                part("p", {}, t(`cases.about-${kind}`)),
                kept(
                    "form",
                    () =>
                        formOf(
                            rider,
                            kind,
                            {
                                begun: () => screen.change({ done: false }),
                                done: async () => {
                                    screen.change({ done: true }, { focus: id });
                                    await entered();
                                }
                            },
                            otherwise
                        ).whole
                ),
                part("div", { role: "status", id },
                    done && part("p", { class: "good" }, t(`cases.done-${kind}`, values))
                )
            ),
    });
    return screen.element;
}

/** A choice among decisions: its form, and what is in its fields while they are typed.
 * @typedef {{ kind: string, element: HTMLElement, isBegun: boolean, values: () =>
 * import("../types").Values }} Choice
 */

/** The form of one kind of entry as one of several decisions. typed() follows each key, entered()
 * what was accepted.
 * @param {number} rider
 * @param {string} kind
 * @param {{ typed: () => void, entered: (kind: string) => unknown }} then
 * @param {Otherwise} [otherwise]
 * @returns {Choice}
 */
export function choiceOf(rider, kind, { typed, entered }, otherwise = {}) {
    const { whole, fields, isBegun } = formOf(
        rider,
        kind,
        { done: () => entered(kind) },
        otherwise
    );
    for (const name of ["input", "change"]) whole.addEventListener(name, typed);
    return {
        kind,
        element: whole,
        isBegun,
        values: () =>
            Object.fromEntries(
                fields.map(({ name, peek, read }) => [name, (peek ?? read)().value ?? null])
            )
    };
}
