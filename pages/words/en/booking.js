// Words of bookings, tickets and a rider's trips.

/** @type {Record<string, import("../../parts/words.js").Text>} */
export const words = {
    "booking.booked": "booked",
    "booking.cancelled": "canceled",
    "booking.ridden": "ridden",
    "booking.missed-rider": "no-show",
    "booking.missed-operator": "missed by the agency",
    "booking.trip": "Trip",
    "booking.day": "Day",
    "booking.pickup": "Pickup",
    "booking.said-around": ({ time }) => `around ${time}`,
    "booking.said-not-before": ({ time }) => `not before ${time}`,
    "booking.said-by": ({ time }) => `be there by ${time}`,
    "booking.ticket-pickup": ({ trip }) => `Trip ${trip}`,
    "booking.from": "From",
    "booking.to": "To",
    "booking.by": "Be there by",
    "booking.by-too": "And be there by",
    "booking.who": "Who",
    "booking.vehicle": "Vehicle",
    "booking.to-pay": "Pay",
    "booking.agency": "Agency",
    "booking.do": "Actions",
    "booking.rider": "rider",
    "booking.rider you": "you",
    "booking.attendant": "attendant",
    "booking.companions": ({ count }) => (count === 1 ? "companion" : `${count} companions`),
    "booking.before-wish": ({ minutes, wish }) =>
        `${minutes} ${minutes === 1 ? "minute" : "minutes"} before ${wish}`,
    "booking.after-wish": ({ minutes, wish }) =>
        `${minutes} ${minutes === 1 ? "minute" : "minutes"} after ${wish}`,
    "booking.fare-each": ({ due, fare }) => `${due} (${fare} each)`,
    "booking.ticket": ({ trip }) => `Trip ${trip}`,
    "booking.ticket-print": "Print",
    "booking.print-of": ({ trip }) => `Print the ticket of trip ${trip}`,
    "booking.print-all": "Print all",
    "booking.day-wants": "Choose a day from tomorrow to 14 days ahead.",
    "booking.day-closed": ({ day, name }) => `${day}: closed${name && ` (${name})`}`,
    "booking.closed-wants": ({ day, name }) =>
        `There is no service on ${day}${name && ` (${name})`}. Choose another day.`,
    "booking.day-gone": "The day you chose has come. Choose one of these days.",
    "booking.choose": "Choose…",
    "booking.on-map": "Choose on the map",
    "booking.map": "Map of the agency. The fields From and To say the same.",
    "booking.map-hint": "The first click is From, the second is To.",
    "booking.from-is": ({ place }) => `From: ${place}`,
    "booking.to-is": ({ place }) => `To: ${place}`,
    "booking.mark-from": "FROM",
    "booking.mark-to": "TO",
    "booking.mark-both": "FROM, TO",
    "booking.optional": "optional",
    "booking.wish-as": "9:15a",
    "booking.swap": "Swap",
    "booking.swapped": "From and To are swapped.",
    "booking.day-has": ({ day }) => `${day}, has trips`,
    "booking.days-several": ({ first, last }) => `${first} to ${last}, one or more`,
    "booking.days-underlined": "underlined: booked",
    "booking.days-one": ({ first, last }) => `${first} to ${last}`,
    "booking.next-caller": "Next caller",
    "booking.another": "Book another",
    "booking.window-van": ({ van }) => `Pickup window · ${van}`,
    "booking.requested": "Requested",
    "booking.rider-number": ({ rider }) => `Rider ${rider}`,
    "booking.paper-foot": ({ minutes, telephone }) =>
        `Be at the door when the window starts. The driver waits ${minutes} minutes.${telephone ? ` To change or cancel, call ${telephone}.` : ""}`,
    "booking.offer-others": "Offer other times",
    "booking.other-pickup": ({ window }) => `Pickup ${window}`,
    "booking.searched-name": "Searched",
    "booking.rule": "Rule",
    "booking.counted": ({ section }) => `Counted as a capacity denial, ${section}`,
    "booking.wish": "Pickup time",
    "booking.wish-hint": "Such as 9, 9:15 am, noon, or 1330.",
    "booking.wish-wants": "Enter the pickup time.",
    "booking.back": "Return pickup",
    "booking.back-hint": "For a round trip. Otherwise leave it empty.",
    "booking.back-by": "Return, be there by",
    "booking.back-by-early": "The return has to arrive later than the trip there.",
    "booking.back-mode": "Which matters more for the return?",
    "booking.back-early": "The return has to be later than the trip there.",
    "booking.by-hint": "Only if there is an appointment too. Otherwise leave it empty.",
    "booking.by-wants": "Enter the time to be there by.",
    "booking.by-early": "You can't get there that early with this pickup time.",
    "booking.mode": "Which matters more?",
    "booking.mode-around": "Around",
    "booking.mode-not-before": "Not before",
    "booking.mode-by": "Arrive by",
    "booking.with-companion": "Companion (same fare)",
    "booking.with-attendant": "Attendant (free)",
    "booking.book": ({ rider, count }) =>
        count > 1 ? `Book ${count} trips for ${rider}` : `Book the trip for ${rider}`,
    "booking.book-for": ({ rider }) => `Book for ${rider}`,
    "booking.book-for you": ({ rider }) => `Book a trip for ${rider}`,
    "booking.same-question": ({ count, rider }) => (
        count === 1
            ? `${rider} has this trip already. Book it once more?`
            : `${rider} has ${count} of these trips already. Book them once more?`
    ),
    "booking.same-question you": ({ count }) => (
        count === 1
            ? "You have this trip already. Book it once more?"
            : `You have ${count} of these trips already. Book them once more?`
    ),
    "booking.same-trip": ({ trip, day, window, from, to }) =>
        `Trip ${trip}: ${day}, pickup ${window}, from ${from} to ${to}`,
    "booking.same-yes": "Yes, book once more",
    "booking.way-question": ({ count, rider }) => (
        count === 1
            ? `${rider} goes the same way that day at another time. Book this trip too?`
            : `${rider} has ${count} trips the same way at other times. Book these too?`
    ),
    "booking.way-question you": ({ count }) => (
        count === 1
            ? "You go the same way that day at another time. Book this trip too?"
            : `You have ${count} trips the same way at other times. Book these too?`
    ),
    "booking.way": "These trips go the same way at another time:",
    "booking.way-yes": "Yes, book this too",
    "booking.leg": ({ day, from, to, said }) => `${day}, ${said}, from ${from} to ${to}`,
    "booking.searched": ({ first, last }) => `We looked for pickups between ${first} and ${last}.`,
    "booking.meets-question": ({ rider }) => `${rider} has a trip at that time. Book all the same?`,
    "booking.meets-question you": "You have a trip at that time. Book all the same?",
    "booking.meets": "These trips are at the same time:",
    "booking.nowhere-question": ({ place }) =>
        `From and To are the same place, ${place}. Book all the same?`,
    "booking.nowhere": ({ place }) => `From and To are the same place, ${place}.`,
    "booking.all-the-same": "Yes, book it",
    "booking.change-yes": "Yes, change it",
    "booking.changed-for": ({ trip, rider }) => `Trip ${trip} is changed for ${rider}`,
    "booking.not-changed": ({ trip, day, window }) =>
        `Not changed. Trip ${trip} stays as it was: ${day}, pickup ${window}.`,
    "booking.asked-for": ({ leg }) => `Asked for: ${leg}.`,
    "booking.stands": ({ trip, day, window, from, to }) =>
        `The trip there is booked: trip ${trip}, ${day}, pickup ${window}, from ${from} to ${to}. There is no return yet.`,
    "booking.early-back": ({ time }) =>
        `The trip there may arrive as late as ${time}, after this return begins`,
    "booking.early-later": ({ time }) => `Ask for a return not before ${time}`,
    "booking.early-as-said": ({ said }) => `Ask for it as said: ${said}`,
    "booking.if-agreed": "If the rider agrees, we try these in order and book the first that works:",
    "booking.if-agreed you": "If you agree, we try these in order and book the first that works:",
    "booking.try-either": "Try earlier and later times",
    "booking.try-earlier": "Only earlier times",
    "booking.try-later": "Only later times",
    "booking.tried-earlier": "The earlier times were tried too, and no vehicle could take them.",
    "booking.tried-later": "The later times were tried too, and no vehicle could take them.",
    "booking.others-denied": "The other times were tried too, and no vehicle could take them. Try another day.",
    "booking.mark": "Keep a copy for the rider's advocate",
    "booking.mark-of": ({ asked }) => `Keep a copy for the rider's advocate: ${asked}`,
    "booking.mark-hint": "A copy of the desk's file can show later why no vehicle could take this trip. Ask for it before anything else is booked.",
    "booking.marked": ({ time }) =>
        `Marked at ${time}. The site copies the desk's file within a minute after it gets the mark.`,
    "booking.booked-for": ({ trip, rider }) => `Trip ${trip} is booked for ${rider}`,
    "booking.denied-for": ({ leg }) => `Not booked: ${leg}`,
    "booking.asking": "being asked…",
    "booking.not-asked": "not requested, because the trip there isn't booked.",
    "booking.result": ({ booked, count, rider, open }) => (
        open
            ? `The desk offers another time for ${rider}.`
            : count === 1
            ? (booked ? `The trip is booked for ${rider}.` : `The trip is not booked for ${rider}.`)
            : booked === count
            ? `${count} trips are booked for ${rider}`
            : `${booked} of ${count} trips are booked for ${rider}`
    ),
    "booking.result you": ({ booked, count, open }) => (
        open
            ? "The desk offers you another time."
            : count === 1
            ? (booked ? "Your trip is booked." : "Your trip is not booked.")
            : booked === count
            ? `Your ${count} trips are booked`
            : `${booked} of your ${count} trips are booked`
    ),
    "booking.result-of-change": ({ booked, trip, rider, open }) => (
        open
            ? `The desk offers another time for ${rider}.`
            : booked
            ? `Trip ${trip} is changed for ${rider}.`
            : `Trip ${trip} is not changed.`
    ),
    "booking.result-of-change you": ({ booked, trip, open }) => (
        open
            ? "The desk offers you another time."
            : booked
            ? `Your trip ${trip} is changed.`
            : `Your trip ${trip} is not changed.`
    ),
    "booking.offer-after": ({ offer, minutes, time }) =>
        `The desk offers ${offer}, ${minutes} ${minutes === 1 ? "minute" : "minutes"} after ${time}`,
    "booking.offer-before": ({ offer, minutes, time }) =>
        `The desk offers ${offer}, ${minutes} ${minutes === 1 ? "minute" : "minutes"} before ${time}`,
    "booking.offer-back-early": ({ offer, time }) =>
        `The return begins at ${offer}, and the trip there may arrive as late as ${time}`,
    "booking.offer-trip": ({ trip, day, window, from, to, said }) =>
        `Trip ${trip}: ${day}, pickup ${window}, from ${from} to ${to}. Asked for: ${said}.`,
    "booking.offer-asks": "It is kept only if the rider says yes. On a no the agency cancels it, and it does not count against the rider.",
    "booking.offer-asks you": "It is kept only if you say yes. On a no the agency cancels it, and it does not count against you.",
    "booking.offer-changed-elsewhere": "The trip was changed to this time at another computer. It is kept only if the rider says yes. On a no, change the trip below, or cancel it.",
    "booking.offer-changed-elsewhere you": "Your trip was changed to this time at another computer. It is kept only if you say yes. On a no, change the trip below, or cancel it.",
    "booking.offer-of-change": "It is kept only if the rider says yes. On a no the trip goes back to its old time.",
    "booking.offer-of-change you": "It is kept only if you say yes. On a no the trip goes back to its old time.",
    "booking.offer-yes": ({ trip }) => `Yes, keep trip ${trip}`,
    "booking.offer-no": ({ trip }) => `No, cancel trip ${trip}`,
    "booking.offer-back": ({ trip, window }) => `No, put trip ${trip} back to ${window}`,
    "booking.offers-open": ({ rider, count }) => (
        count === 1
            ? `An offer waits for an answer of ${rider}`
            : `${count} offers wait for an answer of ${rider}`
    ),
    "booking.offers-open you": ({ count }) => (
        count === 1 ? "An offer waits for your answer" : `${count} offers wait for your answer`
    ),
    "booking.offer-kept": ({ trip }) => `Trip ${trip} is kept.`,
    "booking.offer-off": ({ trip }) => `Trip ${trip} was canceled meanwhile, so the offer is over.`,
    "booking.offer-given-up": "The offer was not taken, and is given up.",
    "booking.offer-is-back": ({ trip, day, window }) =>
        `Trip ${trip} is back: ${day}, pickup ${window}.`,
    "booking.offer-moved": ({ trip, day, window }) =>
        `Trip ${trip} was put to another time meanwhile: ${day}, pickup ${window}.`,
    "booking.offer-looking": "Looking whether somebody else has answered…",
    "booking.offer-sure": ({ trip }) => `Cancel trip ${trip}?`,
    "booking.offer-sure-back": ({ trip }) => `Put trip ${trip} back to its old time?`,
    "booking.offer-sure-detail": ({ day, window }) =>
        `${day}, pickup ${window}. If you have told the agency yes since then, your yes ends with this. It does not count against you.`,
    "booking.offer-unsure": ({ trip }) => `Trip ${trip} stands as it is. Nothing is canceled.`,
    "booking.offer-begun": "Its pickup window has begun, so it cannot be answered any more. Call the rider and dispatch. A no-show of this trip is not the rider's, who never said yes.",
    "booking.offer-begun you": "Its pickup window has begun, so it cannot be answered any more. Call the agency. If you do not ride, it does not count against you: you never said yes.",
    "booking.offer-counted": "It is counted as a denial of the time that the rider asked for, and not as a cancellation by the rider.",
    "booking.offer-counted you": "It is counted as a denial of the time that you asked for, and not as a cancellation by you.",
    "booking.change-of": ({ trip, rider }) => `Change trip ${trip} of ${rider}`,
    "booking.leave": "Close",
    "booking.change": "Change",
    "booking.cancel": "Cancel",
    "booking.cancel-of": ({ trip, rider }) => `Cancel trip ${trip} of ${rider}`,
    "booking.again": "Book again",
    "booking.again-of": ({ trip }) => `Book trip ${trip} again on another day`,
    "booking.more-of": ({ trip }) => `More for trip ${trip}`,
    "booking.cancel-question": ({ trip, rider }) => `Cancel trip ${trip} of ${rider}?`,
    "booking.cancel-detail": ({ day, window, from, to }) =>
        `${day}, pickup ${window}, from ${from} to ${to}. This cannot be undone.`,
    "booking.cancel-yes": ({ trip }) => `Yes, cancel trip ${trip}`,
    "booking.cancelled-elsewhere": ({ trip }) => `Trip ${trip} was canceled.`,
    "booking.cancelled-already": ({ trip, rider }) => `Trip ${trip} of ${rider} was already canceled.`,
    "booking.cancelled-now": ({ trip, rider }) => `Trip ${trip} of ${rider} is canceled.`,
    "booking.bus-hours": ({ day, first, last }) =>
        `Buses run from ${first} to ${last} on ${day}, by the agency's file. Each route has its own hours.`,
    "booking.was-for": ({ leg }) => `It was for: ${leg}.`,
    "booking.reading": "Reading the trips…",
    "booking.list-past": "Earlier trips",
    "booking.list-off": "Canceled trips",
    "booking.count-past": ({ count }) => `${count} earlier`,
    "booking.count-off": ({ count }) => `${count} canceled`,
    "booking.card-pickup": ({ window }) => `Pickup between ${window.replace("–", " and ")}`,
    "booking.card-way": ({ from, to }) => `From ${from} to ${to}.`,
    "booking.card-by": ({ by }) => `Be there by ${by}.`,
    "booking.card-more": ({ trip, said, due, who, vehicle }) =>
        `Trip ${trip}. ${said ? `Requested: ${said}. ` : ""}To pay: ${due}. Who: ${who}. ${vehicle}.`,
    "booking.trips-of": ({ rider }) => `Trips of ${rider}`,
};
