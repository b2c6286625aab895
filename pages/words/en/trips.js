// Words of a rider's trips, and of where the van of today is.

/** @type {Record<string, import("../../parts/words.js").Text>} */
export const words = {
    "trips.list-today": "Today",
    "trips.list-coming": "Upcoming",
    "trips.calendar": "Save my trips for my calendar",
    "trips.calendar-summary": ({ agency }) => `Ride with ${agency}`,
    "trips.calendar-canceled": ({ agency }) => `Canceled: ride with ${agency}`,
    "trips.calendar-text": ({ trip, window, from, to, by, canceled, telephone }) =>
        [
            canceled ? `Trip ${trip} is canceled.` : `Trip ${trip}.`,
            `Pickup ${window}, from ${from} to ${to}.`,
            by,
            canceled ? "" : "If this trip changes, save your trips again.",
            telephone && `Help: ${telephone}`
        ].filter(Boolean).join(" "),
    "trips.none-later": "No other upcoming trips.",
    "trips.none-coming": "No upcoming trips.",
    "trips.outcome": "Outcome",
    "trips.way": "From and to",
    "trips.to": "to",
    "trips.by-time": ({ by }) => `be there by ${by}`,
    "trips.closed": ({ name }) => `Closed that day${name && `: ${name}`}. Call the rider.`,
    "trips.closed-rider": ({ name }) =>
        `Closed that day${name && `: ${name}`}. The agency will call you.`,
    "trips.today-window": "Pickup window",
    "trips.today-trip": ({ trip }) => `Trip ${trip}.`,
    "trips.today-waits": ({ van }) => `${van}, no update yet`,
    "trips.today-off": "Canceled. No van comes.",
    "trips.today-over": ({ van }) => `Window over, no update from ${van}`,
    "trips.today-arrived": ({ van, time }) => `${van} arrived at the pickup at ${time}`,
    "trips.today-aboard": ({ van, time }) => `Aboard ${van} since ${time}`,
    "trips.today-ended": ({ van, time }) => `${van} reported the end of this trip at ${time}`,
    "trips.tap-arrived": ({ van, trip, time }) => `${van} arrived for trip ${trip} at ${time}.`,
    "trips.tap-aboard": ({ van, trip, time }) => `${van} picked up trip ${trip} at ${time}.`,
    "trips.tap-dropped": ({ van, trip, time }) => `${van} dropped off trip ${trip} at ${time}.`,
    "trips.tap-skipped": ({ van, trip, time }) =>
        `${van} skipped a stop of trip ${trip} at ${time}.`,
    "trips.tap-no-show": ({ van, trip, time }) =>
        `${van} reported a no-show for trip ${trip} at ${time}.`,
    "trips.tap-missed": ({ van, trip, time }) =>
        `${van} reported a missed pickup for trip ${trip} at ${time}.`,
    "trips.van-silent": ({ van, minutes }) =>
        `No update from ${van} for ${minutes < 60 ? `${minutes} min` : `${Math.floor(minutes / 60)} h ${minutes % 60} min`}`,
    "trips.van-behind": ({ van, minutes }) => `${van} is ${minutes} minutes behind.`,
    "trips.van-on-time": ({ van }) => `${van} is on time.`,
    "trips.van-next": "This stop is next.",
    "trips.van-due": ({ time }) => `It should be there about ${time}.`,
    "trips.van-past": ({ minutes }) => `${minutes} min past the window`,
    "trips.van-planned": ({ time }) => `Planned ${time}.`,
    "trips.van-checked": ({ time }) => `As of ${time}.`,
    "trips.call-agency": "If the van is late, call",
    "trips.call-dispatch": ({ van }) => `Ask dispatch where ${van} is.`,
    "trips.call-driver": ({ van }) => `Call the driver of ${van}.`,
};
