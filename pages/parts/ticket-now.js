// What a trip that was booked on this screen is by now: it may have been changed or canceled since.
// Nothing here knows of a page or of the desk.

/** @typedef {import("../types").Trip} Trip */
/** @typedef {import("../types").Ticket} Ticket */
/** @typedef {import("../types").Wish} Wish */
/** @typedef {{ ticket: Ticket, wish: Wish, status: Trip["status"], isAsBooked: boolean }} Now */

/** What the desk has of a booked trip now; what was booked, where the trip is not among those that
 * were read.
 * @param {{ ticket: Ticket, wish: Wish }} booked @param {Trip[]} trips @returns {Now}
 */
export function ticketNow({ ticket, wish }, trips) {
    const now = trips.find(({ trip }) => trip === ticket.trip);
    if (!now) return { ticket, wish, status: "booked", isAsBooked: true };
    const isAsBooked =
        now.status === "booked" &&
        now.window_from === ticket.window_from &&
        now.window_to === ticket.window_to &&
        now.day === wish.day &&
        now.from === wish.from &&
        now.to === wish.to;
    return { ticket: now, wish: now, status: now.status, isAsBooked };
}
