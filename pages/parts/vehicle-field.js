// A field for a vehicle, by its name or its number; what is in it says both.

import { vehicleName, vehicles } from "./agency.js";
import { comboField } from "./combo.js";
import { HIGHEST_ID } from "./limits.js";
import { folded } from "./roster.js";
import { vehicleMeant, vehiclesFor } from "./vehicle-number.js";
import { t } from "./words.js";

/** A vehicle as it stands in the field: its name, and its number.
 * @param {number} id
 */
const textOf = (id) => (
    vehicles().some((it) => it.id === id && it.name) ? `${vehicleName(id)} (${id})` : String(id)
);

const named = () => vehicles().map(({ id, name }) => ({ id, name: folded(name ?? "") }));

/** @param {string} typed */
const searched = (typed) =>
    vehiclesFor(folded(typed.trim()), named()).map(({ id }) => ({ id, text: textOf(id) }));

/** @param {string} name
 * @param {string} label
 * @param {{ value?: number | null, chosen?: (id: number | null) => void }} options
 */
export function vehicleField(name, label, { value, chosen = () => {} } = {}) {
    const meant = (/** @type {string} */ typed) =>
        vehicleMeant(folded(typed.trim()), named(), HIGHEST_ID);
    const it = comboField(name, label, {
        search: searched,
        all: () => vehicles().map(({ id }) => ({ id, text: textOf(id) })),
        meant,
        textOf,
        chosen: () => chosen(meant(it.control.value)),
        marks: (typed) => meant(typed) === null,
        hint: t("dispatcher.vehicle-hint-field"),
        wants: (typed) =>
            t(
                searched(typed).length > 1 && typed.trim()
                    ? "dispatcher.vehicle-which"
                    : "dispatcher.vehicle-wants"
            )
    });
    if (value) it.write(value);
    return it;
}
