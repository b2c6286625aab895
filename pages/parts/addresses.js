// The addresses of the town, each at a place of the desk, as the site serves them: staff read all
// of them, others those that are no homes, and a rider the own ones. Which address a trip means is
// in parts/address-meant.js.

import { isGroup, mailingOf, meantOf, readBy } from "./address-meant.js";
import { placeName, placeOf, placeWord } from "./agency.js";
import * as desk from "./desk.js";
import { whenSignedOut } from "./leaving.js";
import { searchable } from "./roster.js";
import { t } from "./words.js";

/** @typedef {import("./address-meant.js").Address} Address */

const STAFF = ["clerk", "examiner", "officer", "dispatcher"];
/** @type {Map<number, Address & { sought: string }>} */
let served = new Map();
/** @type {Map<number, Address & { sought: string }>} */
let own = new Map();

const isNumber = (/** @type {unknown} */ it) => Number.isInteger(it) && Number(it) >= 1;

/** The addresses of a file's text that are right.
 * @param {string | null} text
 */
function addressesIn(text) {
    try {
        const all = JSON.parse(text ?? "").addresses.filter(
            (/** @type {{ [name: string]: unknown } | null} */ it) =>
                isNumber(it?.id) && isNumber(it?.place) && typeof it?.street === "string"
        );
        return new Map(
            all.map((/** @type {Address} */ it) => [
                it.id,
                { ...it, sought: ` ${searchable(`${it.street} ${it.note ?? ""}`)}` }
            ])
        );
    } catch {
        return new Map();
    }
}

/** Reads what the caller's key may see; without a file there are no addresses, and places go by
 * their names. Whether the site answered.
 * @param {string} screen @returns {Promise<boolean>}
 */
export async function loadAddresses(screen) {
    const { status, text } = await desk.fetchFile(
        STAFF.includes(screen) ? "/staff/addresses.json" : "/addresses.json"
    );
    if (status === 0 || status === 429 || status >= 500) return false;
    served = status === 200 ? addressesIn(text) : new Map();
    return true;
}

/** A rider's own addresses.
 * @param {number} rider
 */
export async function loadOwnAddresses(rider) {
    const { status, text } = await desk.fetchFile(`/own/${rider}/addresses.json`);
    own = status === 200 ? addressesIn(text) : new Map();
}

/** Nothing of addresses stays once somebody has signed out. */
whenSignedOut(() => {
    served = new Map();
    own = new Map();
});

const all = () => [...served.values(), ...own.values()];

/** @param {number} id */
export const addressOf = (id) => own.get(id) ?? served.get(id) ?? null;

/** The addresses that a rider may be offered: a home is offered to who lives there alone, who comes
 * first.
 * @param {number} [rider]
 */
export const addressesFor = (rider) => {
    const isHome = (/** @type {Address} */ { riders = [] }) => riders.includes(Number(rider));
    const open = all().filter((it) => !it.riders?.length || isHome(it));
    return [...open.filter(isHome), ...open.filter((it) => !isHome(it))];
};

/** How an address is written in a field, so that no two are the same.
 * @param {Address} address
 */
export const addressChoice = ({ id, street }) => t("fields.address-choice", { id, street });

/** Where an end of a trip is, for staff: the street of the address that is meant, with its place if
 * that has a name of its own, or the place alone.
 * @param {number} place
 * @param {number | undefined} rider
 * @param {number | null | undefined} named the address that the booking names
 */
export function whereName(place, rider, named) {
    const address = meantOf(all(), place, rider, named), name = placeName(place);
    if (!address) return name;
    return isGroup(all(), place, name)
        ? address.street
        : t("common.address-at", { street: address.street, place: name });
}

/** Where an end of a trip is, as its rider reads it: the street of a home, and never the name of
 * the group of homes at whose place the desk has it.
 * @param {number} place @param {number | undefined} rider @param {number | null | undefined} named
 */
export function whereForRider(place, rider, named) {
    const [first, own] = readBy(all(), { place, name: placeName(place) }, rider, named);
    return own
        ? t("common.address-at", { street: first, place: own })
        : first ?? `${placeWord()} ${place}`;
}

/** The address to which a rider's letters go, or "" where it is not known.
 * @param {number} rider @param {number | null} home the place that the roster names
 */
export const mailingAddress = (rider, home) =>
    mailingOf(all(), { place: home, name: home === null ? "" : placeOf(home)?.name ?? "" }, rider);

/** The note of the address that is meant, for staff.
 * @param {number} place @param {number | undefined} rider @param {number | null | undefined} named
 */
export const whereNote = (place, rider, named) => meantOf(all(), place, rider, named)?.note ?? "";
