// Words of what was sent while nobody could see the answer.

/** @type {Record<string, import("../../parts/words.js").Text>} */
export const words = {
    "sent.heading": "Sent earlier: what came of it",
    "sent.read": "I have read this",
    "sent.note": "These trips were asked for earlier. This is what came of them:",
    "sent.booked": ({ trip, rider, when, day, window, from, to }) =>
        `Trip ${trip} was booked for ${rider}${when && ` ${when}`}: ${day}, pickup ${window}, from ${from} to ${to}.`,
    "sent.changed": ({ trip, rider, when, day, window, from, to }) =>
        `Trip ${trip} of ${rider} was changed${when && ` ${when}`}: ${day}, pickup ${window}, from ${from} to ${to}.`,
    "sent.denied": ({ rider, day, said, from, to }) =>
        `Not booked for ${rider}: ${day}, ${said ? `${said}, ` : ""}from ${from} to ${to}.`,
    "sent.cut": ({ rider, day, said, from, to }) =>
        `Not finished for ${rider}: ${day}, ${said ? `${said}, ` : ""}from ${from} to ${to}. The page was loaded again while it was being asked. Book it again.`,
    "sent.unsent": ({ rider, day, said, from, to }) =>
        `Not sent for ${rider}: ${day}, ${said ? `${said}, ` : ""}from ${from} to ${to}. The page was loaded again before its turn. Book it again.`,
    "sent.left": ({ rider, day, said, from, to }) =>
        `Not sent for ${rider}: ${day}, ${said ? `${said}, ` : ""}from ${from} to ${to}. You left before we could look for other trips at that time. What you typed is kept. Press Book.`,
    "sent.early": ({ rider, day, said, from, to }) =>
        `Not sent for ${rider}: ${day}, ${said ? `${said}, ` : ""}from ${from} to ${to}. The trip there arrives after that time. Book a later return.`,
    "sent.change-denied": ({ trip, rider, day, said, from, to }) =>
        `Trip ${trip} of ${rider} is not changed. Asked for: ${day}, ${said ? `${said}, ` : ""}from ${from} to ${to}.`,
    "sent.change-cut": ({ trip, rider, day, said, from, to }) =>
        `The change of trip ${trip} of ${rider} is not finished: ${day}, ${said ? `${said}, ` : ""}from ${from} to ${to}. The page was loaded again while it was being asked. Change the trip again.`,
    "sent.change-unsent": ({ trip, rider, day, said, from, to }) =>
        `The change of trip ${trip} of ${rider} was not sent: ${day}, ${said ? `${said}, ` : ""}from ${from} to ${to}. The page was loaded again before its turn. Change the trip again.`,
    "sent.change-left": ({ trip, rider, day, said, from, to }) =>
        `The change of trip ${trip} of ${rider} was not sent: ${day}, ${said ? `${said}, ` : ""}from ${from} to ${to}. You left before we could look for other trips at that time. What you typed is kept. Press Change.`,
    "sent.sending": ({ rider, day, said, from, to }) =>
        `Being sent for ${rider}: ${day}, ${said ? `${said}, ` : ""}from ${from} to ${to}.`,
    "sent.offered": ({ trip, rider, when, day, window, said, from, to }) =>
        `The desk offered ${rider} another time${when && ` ${when}`}, and held trip ${trip}: ${day}, pickup ${window}, from ${from} to ${to}. Asked for: ${said}.`,
    "sent.nothing": ({ rider, day, said, from, to }) =>
        `Not booked for ${rider}: ${day}, ${said ? `${said}, ` : ""}from ${from} to ${to}. The window was closed while it was being asked. Book it again.`,
    "sent.change-nothing": ({ trip, rider, day, said, from, to }) =>
        `Trip ${trip} of ${rider} is not changed. Asked for: ${day}, ${said ? `${said}, ` : ""}from ${from} to ${to}. The window was closed while it was being asked. Change the trip again.`,
    "sent.cancelled": ({ trip, rider, day, window, from, to }) =>
        `Trip ${trip} of ${rider} is canceled: ${day}, pickup ${window}, from ${from} to ${to}.`,
    "sent.stands": ({ trip, rider, when, day, window, from, to }) =>
        `Trip ${trip} of ${rider} was not canceled, since the window was closed while it was being asked. It stood${when && ` ${when}`}: ${day}, pickup ${window}, from ${from} to ${to}.`,
    "sent.at": ({ time, day }) => (day ? `on ${day} at ${time}` : `at ${time}`),
    "sent.since-booked": "It is booked now.",
    "sent.since-stands": "It still stands. Cancel it again.",
    "sent.since-waits": "It waits for an answer.",
    "sent.since-cancelled": "It was canceled since.",
    "sent.since-moved": ({ day, window }) => `It was changed since: ${day}, pickup ${window}.`,
    "sent.since-over": ({ status }) => `Since then: ${status}.`,
    "sent.said-around": ({ time }) => `around ${time}`,
    "sent.said-not-before": ({ time }) => `not before ${time}`,
    "sent.said-by": ({ time }) => `be there by ${time}`,
};
