// The admin: keys, the policy, places and fixed routes on the map, and the file of names.

import {
    add,
    placeWord,
    places as allPlaces,
    isAhead,
    routes as allRoutes
} from "../parts/agency.js";
import { dayInWords, today } from "../parts/clock.js";
import * as desk from "../parts/desk.js";
import { make, part, refill } from "../parts/element.js";
import {
    form,
    idField,
    moneyField,
    numberField,
    textField,
    tickField,
    timeField,
    weekdaysField
} from "../parts/fields.js";
import {
    LEAST_CORRIDOR,
    LEAST_POINTS,
    MOST_CORRIDOR,
    MOST_EXTRA_RIDE,
    MOST_FEET,
    LEAST_MISSED,
    MOST_MISSED,
    MOST_PERCENT,
    MOST_POINTS,
    MOST_SERVICE,
    MOST_SPAN
} from "../parts/limits.js";
import { map, tableOfMap } from "../parts/map.js";
import { makeScreen } from "../parts/screen.js";
import { counted, t } from "../parts/words.js";
import { callers } from "./admin-keys.js";
import { names } from "./admin-names.js";
import { setupCard } from "./admin-setup.js";
import { keepNote, notes } from "./admin-notes.js";
import { record } from "./record.js";

/** @typedef {import("../types").Field} Field */
/** @typedef {[number, number]} Point */

/** @param {...import("../types").Given} text */
const good = (...text) => part("p", { class: "good" }, ...text);

// The policy.

const MONEY = ["base", "transfer", "fare"];
/** The fields in their groups, each with its range.
 * @type {[string, [string, number, number][]][]}
 */
const GROUPS = [
    ["fares", [["fare", 0, 0], ["base", 0, 0], ["transfer", 0, 0]]],
    [
        "pattern",
        [["min_missed", 1, MOST_MISSED], ["percent", 1, MOST_PERCENT], ["span_days", 1, MOST_SPAN]]
    ],
    ["rides", [["service", 0, MOST_SERVICE], ["extra_ride", 0, MOST_EXTRA_RIDE]]]
];
const WITH_HINT = ["extra_ride"];

/** @param {string} name @param {number} value */
const valueWords = (name, value) => (
    MONEY.includes(name)
        ? `$${(value / 100).toFixed(2)}`
        : `${counted(value)} ${t(`admin.unit-${name}`)}`
);

/** @param {string} name @param {number} least @param {number} most */
function policyField(name, least, most) {
    const hint = WITH_HINT.includes(name) ? t(`admin.${name}-hint`) : undefined;
    return MONEY.includes(name)
        ? moneyField(name, t(`admin.${name}`), {
              lead: "$",
              hint,
              unit: name === "fare" ? t("admin.unit-fare") : undefined
          })
        : numberField(name, t(`admin.${name}`), least, most, {
              unit: t(`admin.unit-${name}`),
              hint
          });
}

/** A group of fields as a card, two or three beside each other.
 * @param {string} name @param {Field[]} fields @param {...import("../types").Given} more
 */
const groupOf = (name, fields, ...more) =>
    part("section", { class: "card group", role: "group", "aria-labelledby": `group-${name}` },
        part("div", {},
            part("h2", { id: `group-${name}` }, t(`admin.group-${name}`)),
            part("p", { class: "hint" }, t(`admin.group-${name}-hint`))
        ),
        part("div", { class: "abreast" }, fields.map((it) => it.element)),
        more
    );

/** @param {Record<string, number>} values */
const policyList = (values) =>
    part("dl", { class: "policy-facts" },
        GROUPS.flatMap(([, those]) => those).filter(([name]) => name in values).map(([name]) =>
            part("div", {},
                part("dt", {}, t(`admin.${name}`)),
                part("dd", {}, valueWords(name, values[name]))
            )
        )
    );

/** What is typed otherwise than it was saved last.
 * @param {Field[]} fields @param {Record<string, number> | undefined} before
 */
function changesOf(fields, before) {
    if (!before) return null;
    const changed = fields.map((it) => ({ name: it.name, value: it.read().value })).filter(
        ({ name, value }) => typeof value === "number" && name in before && value !== before[name]
    );
    return part("p", { class: "hint" },
        changed.length
            ? t("admin.policy-changes", {
                  changes: changed.map(({ name, value }) =>
                      t("admin.policy-change", {
                          what: t(`admin.${name}`),
                          now: valueWords(name, value),
                          before: valueWords(name, before[name])
                      })
                  ).join("; ")
              })
            : t("admin.policy-same")
    );
}

/** The desk does not tell the policy that holds: what was put from this browser last is kept, and
 * shown with its day.
 */
function policy() {
    const groups = GROUPS.map(([name, those]) => /** @type {const} */ ([
        name,
        those.map(([field, least, most]) => policyField(field, least, most))
    ])),
        fields = groups.flatMap(([, those]) => those),
        last = notes().policy;
    if (last) fields.forEach((it) => it.name in last.values && it.write(last.values[it.name]));
    const cards = groups.map(([name, those]) =>
        groupOf(
            name,
            those,
            name === "pattern" && part("p", { class: "hint" }, t("admin.pattern-hint"))
        )
    );
    /** @type {import("../parts/screen.js").Screen<{ last: typeof last, done: boolean }>} */
    const screen = makeScreen({
        state: { last, done: /** @type {boolean} */ (false) },
        class: "stack settings-page",
        draw: ({ last: put, done }, { kept }) => [
            part("p", { class: "soft s" },
                put ? t("admin.policy-last", { day: dayInWords(put.day) }) : t("admin.policy-none")
            ),
            part("p", { class: "note" }, t("admin.policy-hint")),
            kept("form", () =>
                form({
                    name: t("admin.policy"),
                    action: t("admin.put-policy"),
                    send: desk.putPolicy,
                    fields,
                    arranged: part("div", { class: "settings" }, cards),
                    class: "wide",
                    begun: () => screen.change({ done: false }),
                    ask: (/** @type {Record<string, number>} */ values) => ({
                        question: t("admin.ask-policy"),
                        detail: [
                            values.min_missed < LEAST_MISSED &&
                                part("p", { class: "note" }, t("admin.pattern-danger")),
                            policyList(values)
                        ],
                        yes: t("admin.put-policy")
                    }),
                    done: (_, values) => {
                        keepNote("policy", { day: today(), values });
                        screen.change(
                            { last: notes().policy, done: true },
                            { focus: "policy-answer" }
                        );
                    }
                })
            ),
            changesOf(fields, put?.values),
            part("div", { role: "status", id: "policy-answer" },
                done && good(t("admin.policy-holds"))
            )
        ],
    });
    fields.forEach(({ control }) => control.addEventListener("input", () => screen.change({})));
    return screen.element;
}

// Places and fixed routes.

const FEET_OF_MILE = 5280,
    NEAR = 2 * FEET_OF_MILE;

/** @param {string} name @param {string} label */
const feetField = (name, label) =>
    numberField(name, label, -MOST_FEET, MOST_FEET, { unit: t("admin.unit-feet") });

/** How far points are from everything that is known, in feet, where it is so far that it may be a
 * slip of a digit: else null.
 * @param {Point[]} points
 */
function tooFar(points) {
    const known = /** @type {Point[]} */ ([
        ...allPlaces().filter(({ x, y }) => x !== undefined && y !== undefined).map(({ x, y }) => [
            x, y
        ]),
        ...allRoutes().flatMap((route) => route.points)
    ]);
    if (!known.length) return null;
    const [xs, ys] = [0, 1].map((at) => known.map((point) => point[at]));
    const across = Math.hypot(Math.max(...xs) - Math.min(...xs), Math.max(...ys) - Math.min(...ys));
    const far = Math.max(
        ...points.map(([x, y]) => Math.min(...known.map(([a, b]) => Math.hypot(x - a, y - b))))
    );
    return far > Math.max(NEAR, across / 2) ? far : null;
}

/** @param {Point[]} points @param {string} what */
function farQuestion(points, what) {
    const far = tooFar(points);
    return far === null
        ? null
        : {
              question: t("admin.ask-far", { what, miles: Math.round(far / FEET_OF_MILE) }),
              detail: t("admin.ask-far-detail"),
              yes: t("admin.yes-far")
          };
}

/** A map with its tables at the left, and at the right what is left to set up and the form; drawn
 * anew after each record that was put.
 * @param {(point: Point) => void} picked
 * @param {string} label
 * @param {() => import("../types").Given} beside
 */
function planeWith(picked, label, beside) {
    const plane = map({ picked, label }),
        tables = make("div", { class: "stack" }),
        notice = make("div"),
        setup = make("div");
    const refresh = () => {
        plane.fit();
        refill(tables, ...tableOfMap());
        refill(
            notice,
            isAhead() &&
                part("p", { class: "note" },
                    t("admin.ahead"),
                    " ",
                    part("a", { href: "#admin/names" }, t("admin.to-names"))
                )
        );
        refill(setup, setupCard());
    };
    refresh();
    return {
        plane,
        refresh,
        whole: () =>
            make("div", { class: "split" },
                part("div", { class: "stack" },
                    part("section", { class: "stack g2", "aria-label": t("map.map") },
                        notice,
                        plane.element,
                        part("p", { class: "hint" }, t("admin.map-keys"))
                    ),
                    part("section", { class: "card" }, part("h2", {}, t("map.as-tables")), tables)
                ),
                part("div", { class: "stack" }, setup, beside())
            )
    };
}

/** The number after the highest one.
 * @param {{ id: number }[]} all
 */
const nextOf = (all) => Math.max(0, ...all.map(({ id }) => id)) + 1;

/** @param {Record<string, unknown>} values */
const given = (values) =>
    Object.fromEntries(Object.entries(values).filter(([, value]) => value !== null));

function places() {
    const outcome = make("div", { role: "status", tabindex: -1 }),
        x = feetField("x", t("admin.east")),
        y = feetField("y", t("admin.north")),
        number = idField("id", t("admin.place-number"), { value: nextOf(allPlaces()) });
    const name = textField("name", t("admin.name"), {
        optional: true,
        judge: anyText,
        wants: t("admin.name-wants")
    }),
        core = tickField("core", t("admin.core"), { hint: t("admin.core-hint") });
    const note = textField("note", t("admin.note"), {
        optional: true,
        judge: anyText,
        wants: t("admin.name-wants"),
        hint: t("admin.note-hint")
    }),
        fields = [number, name, x, y, core, note];
    const { plane, refresh, whole } = planeWith(
        (point) => {
            [x, y].forEach((it, at) => {
                it.write(point[at]);
                it.tell("");
            });
            plane.point([point]);
            // (what is typed next is its name)
            if (!name.control.value) name.control.focus({ preventScroll: true });
        },
        t("map.label"),
        () =>
            part("section", { class: "card" },
                part("h2", {}, t("admin.a-place")),
                part("p", { class: "hint" }, t("admin.place-hint")),
                put,
                outcome
            )
    );
    const typed = () => {
        const point = [x, y].map((it) => it.read().value);
        plane.point(point.every(Number.isFinite) ? [/** @type {Point} */ (point)] : []);
    };
    [x, y].forEach(({ control }) => control.addEventListener("input", typed));
    const put = form({
        name: t("admin.a-place"),
        action: t("admin.put-place"),
        purpose: "place",
        begun: () => refill(outcome),
        fields,
        class: "wide",
        arranged: [
            name.element,
            part("div", { class: "abreast" }, x.element, y.element),
            number.element,
            core.element,
            note.element
        ],
        ask: (values) => farQuestion([[values.x, values.y]], `${placeWord()} ${values.id}`),
        send: ({ name: _, note: __, ...given }) => desk.putPlace(given),
        done: (_, values) => {
            add("places", given(values));
            refill(outcome, good(t("admin.place-is", { place: `${placeWord()} ${values.id}` })));
            plane.point([]);
            refresh();
            [name, x, y, note].forEach((it) => it.write(""));
            core.write(false);
            number.write(nextOf(allPlaces()));
            outcome.focus();
        }
    });
    return whole();
}

/** Names stay in the agency's file, which takes every letter.
 * @param {string} text
 */
const anyText = (text) => (text.length <= 500 ? text : null);

/** A point of a file: two numbers of feet, with or without commas or spaces between thousands. */
const PLAIN = /^\s*(-?\d+)\s*[,; ]\s*(-?\d+)\s*$/;
const THOUSANDS = /^\s*(-?\d{1,3}(?:[ ,]\d{3})*)\s*;\s*(-?\d{1,3}(?:[ ,]\d{3})*)\s*$/;

/** The points of a line, one on each line of the text: "0, 0", or "12,500; 3,000".
 * @param {string} text @returns {Point[] | null}
 */
function pointsIn(text) {
    const points = text
        .split("\n")
        .filter((line) => line.trim())
        .map((line) => {
            const thousands = THOUSANDS.exec(line), plain = PLAIN.exec(line);
            return (plain ?? thousands)?.slice(1).map((it) => Number(it.replace(/[ ,]/g, "")));
        });
    const right = points.every(
        (point) => point && point.every((feet) => Math.abs(feet) <= MOST_FEET)
    );
    return right && points.length >= LEAST_POINTS && points.length <= MOST_POINTS
        ? /** @type {Point[]} */ (points)
        : null;
}

function routes() {
    const outcome = make("div", { role: "status", tabindex: -1 }),
        number = idField("id", t("admin.line-number"), { value: nextOf(allRoutes()) }),
        name = textField("name", t("admin.name"), {
            optional: true,
            judge: anyText,
            wants: t("admin.name-wants")
        });
    const points = textField("points", t("admin.points"), {
        long: true,
        rows: 5,
        judge: pointsIn,
        hint: t("admin.points-hint"),
        wants: t("admin.points-wants", { least: LEAST_POINTS, most: MOST_POINTS })
    });
    const width = numberField("width", t("admin.width"), LEAST_CORRIDOR, MOST_CORRIDOR, {
        value: LEAST_CORRIDOR,
        hint: t("admin.width-hint"),
        unit: t("admin.unit-feet")
    }),
        accessible = tickField("accessible", t("admin.accessible"), { value: true });
    const days = weekdaysField("days", t("admin.days")),
        first = timeField("first", t("admin.first")),
        last = timeField("last", t("admin.last"));
    const { plane, refresh, whole } = planeWith(
        (point) => {
            points.write(`${points.control.value.trimEnd()}\n${point.join(", ")}`.trimStart());
            points.tell("");
            typed();
        },
        t("map.label"),
        () => part("section", { class: "card" }, part("h2", {}, t("admin.a-line")), put, outcome)
    );
    const typed = () =>
        plane.point(pointsIn(`${points.control.value}\n${points.control.value}`) ?? []);
    points.control.addEventListener("input", typed);
    const put = form({
        name: t("admin.a-line"),
        action: t("admin.put-line"),
        begun: () => refill(outcome),
        fields: [number, name, width, points, accessible, days, first, last],
        class: "wide",
        arranged: [
            part("div", { class: "abreast" }, number.element, width.element),
            name.element,
            points.element,
            accessible.element,
            days.element,
            part("div", { class: "abreast" }, first.element, last.element)
        ],
        check: (values) => (
            values.first > values.last ? { field: "first", fault: t("admin.first-wants") } : null
        ),
        ask: (values) =>
            farQuestion(values.points, t("common.line", { line: values.id })) ??
            (
                allRoutes().some(({ id }) => id === values.id)
                    ? {
                          question: t("admin.ask-line", { line: values.id }),
                          detail: t("admin.ask-line-detail"),
                          yes: t("admin.yes-line", { line: values.id })
                      }
                    : null
            ),
        send: ({ name: _, ...fields }) => desk.putRoute(fields),
        done: (_, values) => {
            add("routes", given(values));
            refill(outcome, good(t("admin.line-is", { line: values.id })));
            plane.point([]);
            refresh();
            outcome.focus();
        }
    });
    return whole();
}

export const admin = () => [
    { id: "callers", name: t("admin.keys"), draw: callers },
    { id: "policy", name: t("admin.policy"), draw: policy },
    { id: "places", name: t("admin.places"), draw: places },
    { id: "routes", name: t("admin.lines"), draw: routes },
    { id: "names", name: t("admin.names"), draw: names },
    record("admin")
];
