// A place, searched by any part of its name, its note or its number, or by any part of an address
// that is at it.

import { addressOfChoice, choiceOfAddress } from "./address-meant.js";
import { addressChoice, addressesFor, addressOf } from "./addresses.js";
import { isOwnPlace, othersPairs, placeName, placeNote, placePairs } from "./agency.js";
import { comboField } from "./combo.js";
import { HIGHEST_ID } from "./limits.js";
import { fitting } from "./place-order.js";
import { searchable } from "./roster.js";
import { t } from "./words.js";

/** @typedef {{ id: number, text: string, note: string, sought: string, isAddress?: boolean }}
 * Choice
 */

/** The places that may be chosen: the rider's own ones first, then the usual ones in their order.
 * @param {number | undefined} rider @param {number[]} usual @returns {Choice[]}
 */
function choicesOf(rider, usual) {
    const all = placePairs(rider).map(([id, text]) => ({
        id,
        text,
        note: placeNote(id),
        sought: ` ${searchable(`${text} ${placeNote(id)}`)}`
    }));
    const own =
        rider === undefined
            ? []
            : all.filter(({ id }) => isOwnPlace(id, rider)).map(({ id }) => id);
    const first = [...new Set([...own, ...usual])];
    const at = (/** @type {Choice} */ { id }) => (
        first.includes(id) ? first.indexOf(id) : first.length
    );
    return all.sort((a, b) => at(a) - at(b));
}

/** Other riders' places, which staff find by what they type and are not offered before.
 * @param {number | undefined} rider @returns {Choice[]}
 */
const othersChoices = (rider) =>
    othersPairs(rider).map(([id, text]) => ({
        id,
        text,
        note: t("fields.place-others"),
        sought: ` ${searchable(text)}`
    }));

/** The addresses that may be chosen, each as a choice of its own.
 * @param {number | undefined} rider @returns {Choice[]}
 */
const addressChoices = (rider) =>
    addressesFor(rider).map((it) => ({
        id: choiceOfAddress(it.id),
        text: addressChoice(it),
        note: placeName(it.place),
        sought: it.sought,
        isAddress: true
    }));

/** The one place that is meant by what was typed, or null.
 * @param {Choice[]} all @param {string} typed
 */
function meant(all, typed) {
    const text = typed.trim(), same = all.find((it) => it.text === text || String(it.id) === text);
    if (same) return same.id;
    if (/^\d{1,10}$/.test(text) && Number(text) >= 1 && Number(text) <= HIGHEST_ID)
        return Number(text);
    const fit = text ? fitting(all, text) : [];
    return fit.length === 1 ? fit[0].id : null;
}

/** @param {string} name
 * @param {string} label
 * @param {{ rider?: number, usual?: () => number[], hint?: string, optional?: boolean, value?:
 * number, addresses?: boolean, chosen?: () => void }} options chosen() follows each new choice;
 * with addresses, address() is the one that was chosen
 */
export function placeField(
    name,
    label,
    { rider, usual = () => [], value, addresses = false, ...options } = {}
) {
    const places = () => choicesOf(rider, usual()),
        all = () => [...places(), ...(addresses ? addressChoices(rider) : [])];
    const wants = (/** @type {string} */ typed) => {
        const count = typed.trim() ? fitting(all(), typed).length : 0;
        return count > 1
            ? t("fields.place-many", { count })
            : t(typed.trim() ? "fields.place-none" : "fields.place");
    };
    const others = () => othersChoices(rider),
        search = (/** @type {string} */ typed) => [
            ...fitting(all(), typed),
            ...(typed.trim() ? fitting(others(), typed) : [])
        ];
    const whole = comboField(name, label, {
        ...options,
        all: places,
        wants,
        search,
        meant: (typed) => meant(all(), typed) ?? meant(others(), typed),
        textOf: (id) => [...all(), ...others()].find((it) => it.id === id)?.text ?? String(id)
    });
    if (value !== undefined) whole.write(value);
    const read = () => {
        const found = whole.read(), id = addressOfChoice(found.value);
        return id === null ? found : { value: addressOf(id)?.place ?? null };
    };
    return { ...whole, read, address: () => addressOfChoice(whole.read().value) };
}
