// Where a stop of a manifest is, and where a trip goes, as the booking named it.

import { whereForRider, whereName, whereNote } from "./addresses.js";
import { addressSaid } from "./said.js";

/** The end of the trip that a stop is.
 * @param {string} what
 */
const endOf = (what) => (what === "PICK" ? "from" : "to");

/** @typedef {{ what: string, place: number, rider?: number, trip?: number }} Stop */

/** @param {Stop} stop */
export const stopWhere = ({ what, place, rider, trip }) =>
    whereName(place, rider, addressSaid(trip, endOf(what)));

/** @param {Stop} stop */
export const stopNote = ({ what, place, rider, trip }) =>
    whereNote(place, rider, addressSaid(trip, endOf(what)));

/** Both ends of a trip, as staff read them.
 * @param {{ trip: number, rider: number, from: number, to: number }} trip
 */
export const endsOf = ({ trip, rider, from, to }) => ({
    from: whereName(from, rider, addressSaid(trip, "from")),
    to: whereName(to, rider, addressSaid(trip, "to"))
});

/** Both ends of a rider's trip, as the rider reads them. What the rider said of addresses holds
 * before what is known of the booking.
 * @param {{ trip?: number, from: number, to: number }} trip
 * @param {number | undefined} rider
 * @param {{ from_address?: number | null, to_address?: number | null } | null} [said]
 */
export const wayOf = ({ trip, from, to }, rider, said = null) => ({
    from: whereForRider(from, rider, said?.from_address ?? addressSaid(trip, "from")),
    to: whereForRider(to, rider, said?.to_address ?? addressSaid(trip, "to"))
});
