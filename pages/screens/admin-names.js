// The file agency.json: what the agency says of itself, and what was put from this browser over it.
// An admin's key reads no private place, so what was put here is saved into the file that the
// server has, and takes nothing out of it.

import {
    add,
    addSettings,
    agency,
    agencyText,
    forgetAdded,
    isAhead,
    places,
    routes,
    troubles,
    vehicles
} from "../parts/agency.js";
import { asked } from "../parts/ask.js";
import { isZone } from "../parts/clock.js";
import { closedIn, closedText, wrongLine } from "../parts/closed-days.js";
import { button, element, part, save, table } from "../parts/element.js";
import { choiceField, form, idField, numberField, textField } from "../parts/fields.js";
import { makeScreen } from "../parts/screen.js";
import { t } from "../parts/words.js";
import { namesHere } from "./admin-notes.js";

/** @typedef {import("./admin-notes.js").Named} Named */
/** @typedef {"places" | "routes" | "vehicles"} Kind */
/** @typedef {{ languages: string, closed: string | null, to: string | null, appeal_address: string
 * | null, appeal_telephone: string | null }} Settings those of the form that the file has in
 * another shape; its other fields are the file's own
 */

/** @type {Kind[]} */
const KINDS = ["places", "routes", "vehicles"];
const FILE = "agency.json";

const all = () => ({ places: places(), routes: routes(), vehicles: vehicles() });
const kindName = (/** @type {string} */ kind) => t(`admin.kind-${kind}`);
const anyText = (/** @type {string} */ text) => (text.length <= 500 ? text : null);
const MOST_CLOSED = 10_000;

/** The records under a name of a file, none where it has something else there.
 * @param {unknown} it @returns {Named[]}
 */
const listOf = (it) => (Array.isArray(it) ? it : []);

/** The records that were put from this browser. */
const here = () =>
    KINDS.flatMap((kind) =>
        listOf(namesHere()[kind]).map((record) => ({ kind, ...record }))
    );

/** The text of the server's file with what was put here, or null where it is no such file.
 * @param {string} text
 */
function joined(text) {
    try {
        const it = JSON.parse(text.replace(/^\ufeff/, ""));
        if (typeof it !== "object" || it === null || Array.isArray(it)) return null;
        const whole = { ...it, ...(namesHere().settings ?? {}) };
        for (const kind of KINDS) {
            const records = listOf(it[kind]),
                put = here().filter((record) => record.kind === kind).map(
                    ({ kind: _, ...record }) => record
                );
            const old = records.map((record) => ({
                ...record,
                ...(put.find(({ id }) => id === record?.id) ?? {})
            }));
            whole[kind] = [
                ...old,
                ...put.filter(({ id }) => !records.some((record) => record?.id === id))
            ];
        }
        return `${JSON.stringify(whole, null, 2)}\n`;
    } catch {
        return null;
    }
}

/** The fields of the agency, as the file has them, in their groups.
 * @returns {[string, import("../types").Field[]][]}
 */
function settingsFields() {
    const settings = /** @type {Record<string, unknown>} */ ({
        ...agency(),
        languages: agency().languages.join(" "),
        clock: agency().clock,
        closed: closedText(agency().closed)
    });
    const { appeal } = agency(),
        text = (/** @type {string} */ name, options = {}) =>
            textField(name, t(`admin.of-${name}`), {
                optional: true,
                judge: anyText,
                wants: t("admin.name-wants"),
                ...options
            });
    const languages = /** @type {[string, string][]} */ ([
        ["en es", t("admin.en-es")],
        ["es en", t("admin.es-en")],
        ["en", t("admin.en")],
        ["es", t("admin.es")]
    ]);
    const minutes = (
        /** @type {string} */ name,
        /** @type {number} */ least,
        /** @type {number} */ most,
        hint = ""
    ) =>
        numberField(name, t(`admin.of-${name}`), least, most, {
            unit: t("admin.unit-minutes"),
            hint: hint || undefined
        });
    const contact = [
        text("name", { optional: false }),
        text("telephone"),
        text("address", { long: true, rows: 3 })
    ];
    const speech = [
        text("zone", {
            optional: false,
            wants: t("admin.zone-wants"),
            judge: (/** @type {string} */ it) => (isZone(it) ? it : null)
        }),
        choiceField("first_weekday", t("admin.of-first_weekday"), [
            [7, t("admin.sunday")],
            [1, t("admin.monday")],
            [6, t("admin.saturday")]
        ]),
        choiceField("clock", t("admin.of-clock"), [
            [12, t("admin.clock-12")],
            [24, t("admin.clock-24")]
        ]),
        choiceField("languages", t("admin.of-languages"), languages),
        text("place_word", { hint: t("admin.place_word-hint") })
    ];
    const times = [
        minutes("wait_minutes", 0, 60),
        minutes("lead", 0, 60, t("admin.lead-hint")),
        minutes("idle_minutes", 0, 1439, t("admin.idle-hint")),
        minutes("lock_minutes", 5, 720, t("admin.lock-hint"))
    ];
    const closed = [
        text("closed", {
            long: true,
            rows: 4,
            most: MOST_CLOSED,
            hint: t("admin.closed-hint"),
            judge: (/** @type {string} */ it) => (it.length <= MOST_CLOSED ? it : null)
        })
    ];
    const ofAppeal = [
        text("to"),
        text("appeal_address", { long: true, rows: 3 }),
        text("appeal_telephone")
    ];
    [...contact, ...speech, ...times, ...closed].forEach((it) => it.write(settings[it.name]));
    [appeal.to, appeal.address, appeal.telephone].forEach((value, at) => ofAppeal[at].write(value));
    return [
        ["contact", contact],
        ["speech", speech],
        ["times", times],
        ["appeals", ofAppeal],
        ["closed", closed]
    ];
}

/** The form of the agency, in groups beside each other.
 * @param {{ begun: () => void, done: () => void }} then
 */
function agencyForm({ begun, done }) {
    const groups = settingsFields();
    return form({
        name: t("admin.the-agency"),
        action: t("admin.keep"),
        fields: groups.flatMap(([, fields]) => fields),
        class: "wide",
        arranged: part("div", { class: "settings" },
            groups.map(([name, fields]) =>
                part("fieldset", {},
                    part("legend", {}, t(`admin.group-${name}`)),
                    part("div", { class: "abreast halves" }, fields.map((it) => it.element))
                )
            )
        ),
        check: ({ closed }) => (
            wrongLine(closed ?? "") === null
                ? null
                : {
                      field: "closed",
                      fault: t("admin.closed-wants", { line: wrongLine(closed ?? "") })
                  }
        ),
        begun,
        send: async (/** @type {Settings} */ values) => keepSettings(values),
        done
    });
}

/** @param {Settings} values */
function keepSettings({
    languages,
    closed,
    to,
    appeal_address: address,
    appeal_telephone: telephone,
    ...values
}) {
    const appeal = Object.fromEntries(
        Object.entries({ ...agency().appeal, to, address, telephone }).filter(([, value]) => value)
    );
    addSettings({
        ...Object.fromEntries(Object.entries(values).filter(([, value]) => value !== null)),
        languages: languages.split(" "),
        closed: closedIn(closed ?? ""),
        appeal: /** @type {import("../types").Appeal} */ (appeal)
    });
    return { value: true };
}

export function names() {
    /** @type {import("../parts/screen.js").Screen<{ at: number, answerAt: string, answer:
     * import("../types").Given }>}
     */
    const screen = makeScreen({
        state: { at: 0, answerAt: "", answer: /** @type {import("../types").Given} */ (null) },
        draw: ({ answerAt, answer }, { kept }) => {
            const said = (/** @type {string} */ id) =>
                part("div", { role: "status", id: `names-${id}` }, answerAt === id && answer);
            return [
                part("section", { class: "card" },
                    part("h2", {}, t("admin.file")),
                    troubles().map((it) => part("p", { class: "note" }, it)),
                    agency().name === t("admin.example-name") &&
                        part("p", { class: "note" }, t("admin.is-example")),
                    part("p", {}, t("admin.file-what")),
                    part("p", {}, t(isAhead() ? "admin.is-ahead" : "admin.is-same")),
                    here().length > 0 &&
                        table(
                            t("admin.put-here"),
                            [
                                { head: t("admin.number"), cell: ({ id }) => String(id) },
                                { head: t("admin.of-a"), cell: ({ kind }) => kindName(kind) },
                                { head: t("admin.name"), cell: ({ name }) => name ?? "" }
                            ],
                            here(),
                            { rowKey: ({ kind, id }) => `${kind}-${id}` }
                        ),
                    kept("file", chooser),
                    part("div", { class: "row" },
                        !places().some(({ private: whose, noted }) => whose || noted) &&
                            button(t("admin.save-new"), () =>
                                save(FILE, "application/json", agencyText())
                            ),
                        isAhead() && button(t("admin.forget"), forget, { class: "danger" })
                    ),
                    said("file"),
                    part("p", { class: "hint" }, t("admin.file-where"))
                ),
                part("section", { class: "card" },
                    part("h2", {}, t("admin.the-agency")),
                    kept("agency", () =>
                        agencyForm({
                            begun: () => told("", null),
                            done: () =>
                                told("agency", part("p", { class: "good" }, t("admin.kept")))
                        })
                    ),
                    said("agency")
                ),
                part("section", { class: "card" },
                    part("h2", {}, t("admin.a-name")),
                    kept("name", naming),
                    said("name")
                )
            ];
        },
    });
    /** @param {string} answerAt @param {import("../types").Given} answer */
    const told = (answerAt, answer) =>
        screen.change(
            ({ at }) => ({ at: at + 1, answerAt, answer }),
            answerAt ? { focus: `names-${answerAt}` } : {}
        );
    function chooser() {
        return element(
            part("div", { class: "field" },
                part("label", { for: "server-file" }, t("admin.server-file")),
                part("input", {
                    type: "file",
                    id: "server-file",
                    accept: ".json,application/json",
                    on: {
                        change: async (event) => {
                            const [file] = event.target.files,
                                text = file ? joined(await file.text()) : "";
                            event.target.value = "";
                            if (text) save(FILE, "application/json", text);
                            if (file)
                                told(
                                    "file",
                                    part("p", { class: text ? "good" : "denial" },
                                        t(text ? "admin.saved" : "admin.no-file")
                                    )
                                );
                        }
                    }
                })
            )
        );
    }
    function naming() {
        const fields = [
            choiceField(
                "kind",
                t("admin.of-a"),
                /** @type {[string, string][]} */ (KINDS.map((kind) => [kind, kindName(kind)]))
            ),
            idField("id", t("admin.number")),
            textField("name", t("admin.name"), {
                judge: (text) => anyText(text) || null,
                wants: t("admin.name-wants")
            })
        ];
        return form({
            name: t("admin.a-name"),
            action: t("admin.keep-name"),
            begun: () => told("", null),
            fields,
            class: "wide",
            arranged: part("div", { class: "abreast halves" }, fields.map((it) => it.element)),
            send: async (values) => {
                const kind = /** @type {Kind} */ (values.kind);
                add(kind, {
                    ...(/** @type {Named[]} */ (all()[kind]).find(({ id }) => id === values.id) ??
                        {}),
                    id: values.id,
                    name: values.name
                });
                return { value: true };
            },
            done: () => told("name", part("p", { class: "good" }, t("admin.kept")))
        });
    }
    async function forget() {
        if (
            !await asked({
                question: t("admin.ask-forget"),
                detail: t("admin.ask-forget-detail"),
                yes: t("admin.yes-forget"),
                danger: true
            })
        )
            return;
        forgetAdded();
        told("file", part("p", { class: "good" }, t("admin.forgotten")));
    }
    return screen.element;
}
