// Keys of callers. A caller that is there is replaced only after a question, and whoever is signed
// in keeps the role of an admin. A key is canceled by putting the digest of a random one that
// nobody is told.

import { agency, vehicleName } from "../parts/agency.js";
import { asked } from "../parts/ask.js";
import { dayShort, dayInWords, today } from "../parts/clock.js";
import { denialOf } from "../parts/denials.js";
import * as desk from "../parts/desk.js";
import { button, element, part, table } from "../parts/element.js";
import { choiceField, form, idField, numberField, textField } from "../parts/fields.js";
import { grouped } from "../parts/key.js";
import { HIGHEST_ID } from "../parts/limits.js";
import { printParts } from "../parts/paper.js";
import { squareOf } from "../parts/qr.js";
import { cellsOf } from "../parts/roster.js";
import { makeScreen } from "../parts/screen.js";
import { t } from "../parts/words.js";
import { callersIn, digitsOf, joined, nextNumber, ROLES, rowsOf } from "./admin-callers.js";
import { keepNote, notes } from "./admin-notes.js";
import { saveCsv } from "./dispatcher-files.js";

/** @typedef {import("./admin-callers.js").Caller} Caller */
/** @typedef {{ id: number, role: string, subject?: number | null, name?: string | null
 * }} Made what the form has
 */

const FIRST_ADMIN = 1,
    WITH_SUBJECT = ["rider", "driver"],
    FILE = "callers.csv",
    LONGEST_NAME = 100;

const roleName = (/** @type {string} */ role) => t(`signing.${role}`);

/** @param {{ role: string, subject?: number | null }} caller */
function whose({ role, subject }) {
    if (role === "rider") return t("admin.of-rider", { rider: Number(subject) });
    return role === "driver"
        ? t("admin.of-driver", { vehicle: vehicleName(Number(subject)) })
        : roleName(role);
}

/** @returns {Caller[]} */
const given = () => notes().callers ?? [];

/** @param {Caller[]} callers */
const keepCallers = (callers) => keepNote("callers", callers);

/** @param {Caller} caller */
const keepCaller = (caller) =>
    keepCallers(
        [...given().filter(({ id }) => id !== caller.id), caller].sort((a, b) => a.id - b.id)
    );

/** "Ana Lopez, Clerk", or the role alone.
 * @param {Caller} caller */
const nameAndRole = (caller) => [caller.name, whose(caller)].filter(Boolean).join(", ");

/** A name as it may be typed; empty is none.
 * @param {string} text */
const nameOf = (text) => (text.length <= LONGEST_NAME ? text : null);

/** Cancels a key. Where it turns out to be the own one, the new one is shown: without an admin's
 * key nobody could make any.
 * @param {Caller} caller
 * @returns {Promise<{ reply?: import("../types").Denied | import("../types").Left, ownKey?: string
 * } | null>} null where it was not wanted
 */
async function cancelKey(caller) {
    const { id, role, subject, name } = caller;
    if (
        !await asked({
            question: t("admin.ask-cancel", { id, who: nameAndRole(caller) }),
            detail: t("admin.ask-cancel-detail"),
            yes: t("admin.yes-cancel", { id }),
            danger: true
        })
    )
        return null;
    const key = desk.newKey(),
        digest = await desk.digestOf(key),
        reply = await desk.putCaller({ id, role, subject, digest, ...(name ? { name } : {}) }, key);
    if (reply.denied !== undefined) return { reply };
    const isOwn = desk.digest() === digest;
    keepCaller({
        ...caller,
        ...(isOwn ? { day: today(), digits: digitsOf(digest) } : { until: today(), digits: "" })
    });
    return isOwn ? { ownKey: key } : {};
}

/** What is asked before a key is made. The desk tells nobody which numbers are taken.
 * @param {Made} values
 */
function question({ id, role, subject }) {
    const before = given().find((it) => it.id === id), who = whose({ role, subject });
    if (id === FIRST_ADMIN)
        return {
            question: t("admin.ask-first"),
            detail: t("admin.ask-first-detail"),
            yes: t("admin.yes-first"),
            danger: true
        };
    if (!before || before.until)
        return {
            question: t("admin.ask-new", { id, who }),
            detail: t("admin.ask-new-detail", { id }),
            yes: t("admin.yes-new", { id, who })
        };
    return {
        question: t("admin.ask-taken", {
            id,
            who: nameAndRole(before),
            day: dayInWords(before.day)
        }),
        detail: t("admin.ask-taken-detail", { who }),
        yes: t("admin.yes-taken", { id }),
        danger: true
    };
}

/** What is wrong of the values together. The first admin stays one: a desk without an admin cannot
 * be put right by its pages.
 * @param {Made} values
 */
function faultOf({ id, role, subject }) {
    if (id === FIRST_ADMIN && role !== "admin")
        return { field: "role", fault: t("admin.first-stays") };
    return WITH_SUBJECT.includes(role) === Boolean(subject)
        ? null
        : { field: "subject", fault: t("admin.subject-wants") };
}

/** The card that is given to the one whose key it is.
 * @param {string} key @param {Caller} caller
 */
const cardOf = (key, caller) => [
    part("p", {}, agency().name),
    part("p", {}, nameAndRole(caller)),
    part("p", { class: "key" }, grouped(key)),
    squareOf(key, t("admin.square")),
    part("p", {}, t("admin.card-how")),
    part("p", {}, t("admin.card-scan")),
    part("p", {}, location.origin),
    part("p", {}, t("admin.card-lost", { telephone: agency().telephone }))
];

/** @param {string} key
 * @param {Caller} caller
 * @param {boolean} copied
 * @param {() => void} copiedNow
 * @param {() => void} hide
 */
function keyShown(key, caller, copied, copiedNow, hide) {
    const copy = async () => {
        await navigator.clipboard.writeText(key);
        copiedNow();
    };
    return part("section", { class: "ticket", id: "new-key", "aria-label": t("admin.new-key") },
        part("h3", {}, t("admin.key-of", { id: caller.id, who: whose(caller) })),
        part("output", { class: "key" }, grouped(key)),
        squareOf(key, t("admin.square")),
        part("p", {}, t("admin.shown-once")),
        part("div", { class: "row" },
            button(t("admin.print-card", { id: caller.id }), () =>
                printParts(t("admin.card"), cardOf(key, caller), { class: "key-card" })
            ),
            button(t("admin.copy"), copy),
            button(t("admin.hide"), hide),
            part("span", { role: "status" }, copied && t("admin.copied"))
        )
    );
}

/** @param {Caller} caller */
const stateOf = ({ day, until }) => (
    until ? t("admin.canceled-on", { day: dayShort(until) }) : day ? dayOf(day) : ""
);

/** A day in few words, with its year where that is another one.
 * @param {string} day */
const dayOf = (day) => (
    day.slice(0, 4) === today().slice(0, 4) ? dayShort(day) : `${dayShort(day)}, ${day.slice(0, 4)}`
);

/** A field for the name in a row, kept as it is left.
 * @param {Caller} caller */
const nameField = (caller) =>
    part("div", { class: "name-cell" },
        part("input", {
            type: "text",
            value: caller.name ?? "",
            maxlength: LONGEST_NAME,
            "aria-label": t("admin.name-of", { id: caller.id }),
            autocomplete: "off",
            on: {
                change: (event) =>
                    keepCaller({
                        .../** @type {Caller} */ (given().find(({ id }) => id === caller.id) ??
                            caller),
                        name: event.target.value.trim()
                    })
            }
        }),
        isMine(caller) && part("span", { class: "chip" }, t("admin.you")),
        caller.until && part("span", { class: "chip bad" }, t("admin.is-canceled"))
    );

/** Whether a key is that of who reads.
 * @param {Caller} caller */
const isMine = ({ digits, until }) =>
    Boolean(digits) && !until && digits === digitsOf(desk.digest() ?? "");

/** Whom a key is for: a rider or a van, empty of anybody else.
 * @param {Caller} caller */
const forWhom = ({ role, subject }) => (
    role === "rider"
        ? t("admin.for-rider", { rider: Number(subject) })
        : role === "driver"
        ? vehicleName(Number(subject))
        : ""
);

/** @typedef {"all" | "staff" | "driver" | "rider"} Filter */
/** @type {Filter[]} */
const FILTERS = ["all", "staff", "driver", "rider"];
/** @param {Filter} filter @param {Caller} caller */
const isIn = (filter, { role }) =>
    filter === "all" || (filter === "staff" ? !WITH_SUBJECT.includes(role) : role === filter);

/** The list of keys that were given, with what can be done with each.
 * @param {Caller[]} callers
 * @param {{ cancel: (caller: Caller) => void, replace: (caller: Caller) => void }} acts
 */
const listOf = (callers, { cancel, replace }) =>
    table(
        t("admin.given"),
        [
            { head: t("admin.who-for"), cell: nameField },
            { head: t("admin.role"), cell: ({ role }) => roleName(role) },
            {
                head: t("admin.caller"),
                cell: ({ id }) => part("span", { class: "num" }, String(id))
            },
            { head: t("admin.for"), cell: forWhom },
            { head: t("admin.since"), cell: stateOf },
            {
                head: part("span", { class: "unseen" }, t("admin.key-head")),
                cell: (caller) =>
                    part("div", { class: "row tight" },
                        button(t("admin.replace-key"), () => replace(caller), {
                            class: "small quiet",
                            "aria-label": t("admin.replace-key-of", {
                                id: caller.id,
                                who: nameAndRole(caller)
                            })
                        }),
                        caller.id !== FIRST_ADMIN &&
                            !caller.until &&
                            button(t("admin.cancel-key"), () => cancel(caller), {
                                class: "small quiet",
                                "aria-label": t("admin.cancel-key-of", {
                                    id: caller.id,
                                    who: nameAndRole(caller)
                                })
                            })
                    )
            }
        ],
        callers,
        { class: "table listy", rowKey: ({ id }) => id }
    );

/** What the form says of a number that is in the list.
 * @param {number | null | undefined} id */
function numberWords(id) {
    const before = given().find((it) => it.id === id);
    return before &&
        part("p", { class: "note" },
            t(before.until ? "admin.number-canceled" : "admin.number-taken", {
                id,
                who: nameAndRole(before)
            })
        );
}

/** Reads a list of callers from a file; what is said of it.
 * @param {File} file */
async function loaded(file) {
    const { callers: found, wrong, isList } = callersIn(
        cellsOf((await file.text()).replace(/^\ufeff/, ""))
    );
    if (isList) keepCallers(joined(given(), found));
    return part("p", { class: isList && !wrong.length ? "good" : "denial" },
        t(isList ? "admin.callers-loaded" : "admin.no-callers", {
            count: found.length,
            rows: wrong.join(", ")
        })
    );
}

/** The form of a new key, and how it is filled from a row of the list.
 * @param {{ begun: () => void, made: (key: string, caller: Caller) => void, numbered: () => void }}
 * then
 */
function keyForm({ begun, made, numbered }) {
    const roles = /** @type {[string, string][]} */ (ROLES.map((role) => [role, roleName(role)])),
        number = idField("id", t("admin.caller-number"), { hint: t("admin.caller-hint") });
    const person = textField("name", t("admin.who-for"), {
        optional: true,
        hint: t("admin.caller-name-hint"),
        judge: nameOf,
        wants: t("admin.caller-name-wants")
    }),
        role = choiceField("role", t("admin.role"), roles, { empty: t("admin.choose") });
    const subject = numberField("subject", t("admin.subject"), 1, HIGHEST_ID, {
        optional: true,
        hint: t("admin.subject-hint"),
        wants: t("admin.subject-wants")
    });
    const offerNext = () => {
        number.write(nextNumber(given()) ?? "");
        numbered();
    };
    number.write(nextNumber(given()) ?? "");
    number.control.addEventListener("input", numbered);
    const element = form({
        name: t("admin.a-caller"),
        action: t("admin.make-key"),
        purpose: "caller",
        check: faultOf,
        ask: question,
        begun,
        class: "wide",
        fields: [person, role, subject, number],
        // The desk passes over the name; the site's record keeps it beside the number.
        send: async (values) => {
            const key = desk.newKey(),
                digest = await desk.digestOf(key),
                caller = {
                    id: values.id,
                    role: values.role,
                    subject: values.subject ?? 0,
                    digest,
                    ...(values.name ? { name: values.name } : {})
                };
            const reply = await desk.putCaller(caller, key);
            return reply.denied === undefined
                ? { value: { key, digits: digitsOf(digest) } }
                : reply;
        },
        done: ({ key, digits }, values) => {
            const before = given().find((it) => it.id === values.id),
                caller = {
                    id: values.id,
                    name: values.name ?? before?.name ?? "",
                    role: values.role,
                    subject: values.subject ?? 0,
                    day: today(),
                    until: "",
                    digits
                };
            keepCaller(caller);
            offerNext();
            person.write("");
            // (the next key is another person's)
            subject.write("");
            made(key, caller);
        }
    });
    const fill = (/** @type {Caller} */ caller) => {
        number.write(caller.id);
        person.write(caller.name ?? "");
        role.write(caller.role);
        subject.write(caller.subject || "");
        person.control.focus();
    };
    return { element, offerNext, fill, idNow: () => number.read().value };
}

export function callers() {
    /** @type {ReturnType<typeof keyForm> | null} */
    let make = null;
    /** @type {import("../parts/screen.js").Screen<{ key: string, caller: Caller | null, copied:
     * boolean, at: number, filter: Filter, said: import("../types").Given }>}
     */
    const screen = makeScreen({
        state: {
            key: "",
            caller: /** @type {Caller | null} */ (null),
            copied: /** @type {boolean} */ (false),
            at: 0,
            filter: /** @type {Filter} */ ("all"),
            said: /** @type {import("../types").Given} */ (null)
        },
        class: "split",
        draw: ({ key, caller, copied, said, filter }, { kept, change }) => {
            const making = make ??= keyForm({
                begun: () => change({ key: "", copied: false, said: null }),
                numbered: () => change({}),
                made: (made, of) =>
                    change({ key: made, caller: of, at: screen.state.at + 1 }, { focus: "new-key" })
            });
            const all = given(), shown = all.filter((it) => isIn(filter, it));
            const filters = FILTERS.map((it) =>
                button(
                    [
                        t(`admin.filter-${it}`),
                        " ",
                        part("b", { class: "num" },
                            String(all.filter((one) => isIn(it, one)).length)
                        )
                    ],
                    () => change({ filter: it }),
                    { class: "filter", "aria-pressed": String(it === filter) }
                )
            );
            return [
                part("div", { class: "stack g3 keys-list" },
                    part("div", { class: "between" },
                        part("h2", { class: "unseen" }, t("admin.given")),
                        all.length > 0 && part("div", { class: "row" }, filters)
                    ),
                    part("div", { role: "status", id: "callers-said" }, said),
                    part("section", { class: shown.length ? "card flush" : "card" },
                        shown.length
                            ? listOf(shown, {
                                  cancel,
                                  replace: (one) => {
                                      making.fill(one);
                                      change({});
                                  }
                              })
                            : part("p", {}, t("admin.none-given"))
                    ),
                    part("p", { class: "hint" }, t("admin.given-hint")),
                    part("div", { class: "between" },
                        all.length > 0 &&
                            button(t("admin.save-callers"), () => saveCsv(FILE, rowsOf(given()))),
                        kept("file", chooser)
                    )
                ),
                part("section", { class: "card" },
                    part("h2", {}, t("admin.a-caller")),
                    part("p", { class: "hint" }, t("admin.keys-hint")),
                    kept("form", () => making.element),
                    part("div", { role: "status" }, numberWords(making.idNow())),
                    part("div", { role: "status" },
                        key &&
                            keyShown(
                                key,
                                /** @type {Caller} */ (caller),
                                copied,
                                () => change({ copied: true }),
                                () => change({ key: "", caller: null })
                            )
                    )
                )
            ];
        },
    });
    /** @param {Caller} caller */
    async function cancel(caller) {
        const told = await cancelKey(caller);
        if (!told) return;
        const said = told.reply
            ? denialOf(told.reply, "caller")
            : part("p", { class: "good" },
                  t(told.ownKey ? "admin.was-own" : "admin.canceled", { id: caller.id })
              );
        screen.change(
            {
                said,
                at: screen.state.at + 1,
                ...(told.ownKey ? { key: told.ownKey, caller, copied: false } : {})
            },
            { focus: told.ownKey ? "new-key" : "callers-said" }
        );
    }
    function chooser() {
        return element(
            part("div", { class: "field" },
                part("label", { for: "callers-file" }, t("admin.load-callers")),
                part("input", {
                    type: "file",
                    id: "callers-file",
                    accept: ".csv,text/csv",
                    on: {
                        change: async (event) => {
                            const [file] = event.target.files;
                            if (!file) return;
                            const said = await loaded(file);
                            event.target.value = "";
                            make?.offerNext();
                            screen.change(
                                { at: screen.state.at + 1, said },
                                { focus: "callers-said" }
                            );
                        }
                    }
                })
            )
        );
    }
    return screen.element;
}
