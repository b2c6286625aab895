// Which address of a place a trip means. Nothing here has a page: it is tried in
// tests/pure/address-meant.test.mjs, and python/desk_tools/town/site_addresses.py says the same for
// drivers' files.

/** @typedef {{ id: number, street: string, place: number, note?: string, riders?: number[],
 * latitude?: number, longitude?: number }} Address
 */

/** The address that the booking named, if it is at that place; else the rider's only home there;
 * else none.
 * @template {Address} One
 * @param {One[]} all
 * @param {number} place
 * @param {number | undefined} rider
 * @param {number | null | undefined} named
 * @returns {One | null}
 */
export function meantOf(all, place, rider, named) {
    const there = all.filter((it) => it.place === place),
        one = there.find(({ id }) => id === named);
    if (one) return one;
    const homes =
        rider === undefined ? [] : there.filter(({ riders = [] }) => riders.includes(rider));
    return homes.length === 1 ? homes[0] : null;
}

/** After what bin/move-in gather named a place that it made: its number where homes alone are
 * there, else the street of an address there.
 * @param {string} name
 */
const namedAfter = (name) => /^(?:Area|Near) (.+)$/.exec(name)?.[1];

/** @param {number | null} place @param {string} name */
export const isOfHomes = (place, name) => namedAfter(name) === String(place);

/** Whether a place has no name of its own.
 * @param {Address[]} all @param {number} place @param {string} name
 */
export const isGroup = (all, place, name) =>
    isOfHomes(place, name) ||
    all.some((it) => it.place === place && [name, namedAfter(name)].includes(it.street));

/** Where an end of a trip is, as its rider reads it: the street of the address that is meant, and
 * the place's own name, if it has one. A home goes by its street alone. It is empty where nothing
 * but the name of a group is known.
 * @param {Address[]} all
 * @param {{ place: number, name: string }} at
 * @param {number | undefined} rider
 * @param {number | null | undefined} named
 * @returns {string[]}
 */
export function readBy(all, { place, name }, rider, named) {
    const address = meantOf(all, place, rider, named);
    if (!address) return isOfHomes(place, name) ? [] : [name];
    return address.riders?.length || isGroup(all, place, name)
        ? [address.street]
        : [address.street, name];
}

/** The address to which a rider's letters go: the rider's home at the place that the roster names,
 * or the only home where it names none. A place at which no addresses are goes by its own name. It
 * is empty where the home is not known: no address is better than a wrong one.
 * @param {Address[]} all @param {{ place: number | null, name: string }} home @param {number} rider
 */
export function mailingOf(all, { place, name }, rider) {
    const homes = all.filter(
        (it) => it.riders?.includes(rider) && (place === null || it.place === place)
    );
    if (homes.length === 1) return homes[0].street;
    return place === null || all.some((it) => it.place === place) || isOfHomes(place, name)
        ? ""
        : name;
}

/** A number of a choice that is an address and no place: one below zero.
 * @param {number} id
 */
export const choiceOfAddress = (id) => -id;

/** The address of a choice, or null where it is a place.
 * @param {number | null | undefined} choice
 */
export const addressOfChoice = (choice) => (
    typeof choice === "number" && choice < 0 ? -choice : null
);
