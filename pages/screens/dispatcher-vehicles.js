// A vehicle from a day on.

import { placePairs, vehicleName, vehicles as named } from "../parts/agency.js";
import { clock, dayInWords, today } from "../parts/clock.js";
import * as desk from "../parts/desk.js";
import { button, part } from "../parts/element.js";
import {
    choiceField,
    dayField,
    form,
    numberField,
    timeField,
    weekdaysField
} from "../parts/fields.js";
import { MOST_CHAIRS, MOST_DURATION, MOST_SEATS } from "../parts/limits.js";
import { makeScreen } from "../parts/screen.js";
import { keepSubject } from "../parts/subject.js";
import { vehicleField } from "../parts/vehicle-field.js";
import { t } from "../parts/words.js";
import { keepSettings, settingsOn } from "./dispatcher-settings.js";
import { listsIn, worklistRead } from "./worklist.js";

/** @typedef {import("../parts/out-of-service.js").PutVehicle} PutVehicle */

const HOUR = 60;

/** The fields of what a vehicle has, with what is known of it.
 * @param {Partial<Omit<import("../parts/out-of-service.js").Settings, "depot">> & { depot?: number
 * | null }} known
 */
export const settingsFields = ({ days, depot, capacity, chairs, opens, closes, duration } = {}) => [
    weekdaysField("days", t("dispatcher.on-duty"), days),
    choiceField("depot", t("dispatcher.depot-place"), placePairs(), {
        empty: t("dispatcher.choose-one"),
        value: depot ?? undefined
    }),
    numberField("capacity", t("dispatcher.seats"), 1, MOST_SEATS, { value: capacity }),
    numberField("chairs", t("dispatcher.chairs"), 0, MOST_CHAIRS, { value: chairs ?? 0 }),
    timeField("opens", t("dispatcher.opens"), {
        hint: t("dispatcher.opens-hint", { time: clock(8 * HOUR) }),
        wants: t("dispatcher.opens-wants", { time: clock(9 * HOUR + 15) }),
        value: opens
    }),
    timeField("closes", t("dispatcher.closes"), { value: closes }),
    numberField("duration", t("dispatcher.duration"), 1, MOST_DURATION, { value: duration })
];

/** The number is the pages' own only where the agency's file has no name for it, and then the page
 * says who gives one.
 * @param {number} id
 */
const nameWords = (id) => (
    named().some((it) => it.id === id && it.name)
        ? null
        : part("p", { class: "hint" }, t("dispatcher.no-name", { vehicle: id }))
);

/** What was put of a vehicle from this browser, so that nobody types it from memory.
 * @param {number} id
 */
function knownWords(id) {
    const last = settingsOn(id, "9999-12-31");
    return last
        ? t("dispatcher.vehicle-last", { vehicle: vehicleName(id), day: dayInWords(last.from_day) })
        : "";
}

/** What the night's list says of a vehicle that comes near the versions for which the desk has
 * room, for good.
 * @param {Parameters<typeof listsIn>[0]} reply @param {number | null} id
 */
function versionsWords(reply, id) {
    const rows = listsIn(reply).filter((it) => it.id === "versions").flatMap(({ tables }) =>
        tables.flatMap((it) => it.rows)
    );
    const row =
        id === null ? undefined : rows.find(([vehicle]) => Number.parseInt(vehicle, 10) === id);
    return row
        ? part("p", { class: "note", id: "versions" },
              t("dispatcher.versions", {
                  vehicle: vehicleName(Number(id)),
                  count: row[1],
                  left: row[2]
              })
          )
        : null;
}

/** @typedef {{ done: { id: number, day: string } | null, booked: number | null, known: string, id:
 * number | null }} State
 */

export function vehicles() {
    const settings = settingsFields();
    const chosen = (/** @type {number | null} */ id) => {
        const last = id === null ? null : settingsOn(id, "9999-12-31");
        for (const field of last ? settings : [])
            field.write(last?.[/** @type {keyof typeof last} */ (field.name)]);
        screen?.change({ id, known: id === null ? "" : knownWords(id) });
    };
    const list = worklistRead();
    const vehicle = vehicleField("id", t("dispatcher.vehicle-field"), { chosen });
    const whole = form({
        name: t("dispatcher.vehicle-form"),
        action: t("dispatcher.put-vehicle"),
        purpose: "vehicle",
        class: "vehicle",
        fields: [
            vehicle,
            dayField("from_day", t("dispatcher.holds-from"), { value: today() }),
            ...settings
        ],
        begun: () => screen?.change({ done: null, booked: null }),
        check: ({ opens, closes }) => (
            opens > closes
                ? {
                      field: "opens",
                      fault: t("dispatcher.opens-wants", { time: clock(9 * HOUR + 15) })
                  }
                : null
        ),
        send: async (/** @type {PutVehicle} */ values) => {
            const reply = await desk.putVehicle(values);
            if (reply.denied === "desk.booked") screen?.change({ booked: values.id });
            if (reply.denied === undefined) keepSettings(values);
            return reply;
        },
        done: (_, { id, from_day: day }) =>
            screen?.change({ done: { id, day }, known: knownWords(id) }, { focus: "vehicle-done" })
    });
    /** @type {ReturnType<typeof makeScreen<State>> | undefined} */
    const screen = makeScreen({
        state: /** @type {State} */ ({ done: null, booked: null, known: "", id: null }),
        class: "card",
        draw: ({ done, booked, known, id }) => [
            part("h2", {}, t("dispatcher.vehicle-heading")),
            part("p", { class: "hint" }, t("dispatcher.vehicle-hint")),
            part("p", { role: "status" }, known),
            part("div", { role: "status" }, versionsWords(list.reply(), id)),
            whole,
            booked !== null &&
                part("div", { class: "row" },
                    button(t("dispatcher.to-out", { vehicle: vehicleName(booked) }), () => {
                        keepSubject("vehicle", booked);
                        location.hash = "#dispatcher/out";
                    })
                ),
            part("div", { role: "status", id: "vehicle-done", tabindex: -1 },
                done && [
                        part("p", { class: "good" },
                            t("dispatcher.vehicle-done", {
                                vehicle: vehicleName(done.id),
                                day: dayInWords(done.day)
                            })
                        ),
                        nameWords(done.id)
                    ]
            )
        ]
    });
    list.watch(screen.element, () => screen?.change({}));
    return screen.element;
}
