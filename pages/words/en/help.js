// Words of help: the keys of a screen, and what a first visit is told.

/** @type {Record<string, import("../../parts/words.js").Text>} */
export const words = {
    "help.title": "Keys on this screen",
    "help.single": "Use single keys (/, ? and letters)",
    "help.tab": "Go to the next field or button",
    "help.enter": "Take the first match, or send the form",
    "help.escape": "Close a list or a question, or leave the search",
    "help.keys": "Show this list",
    "help.search": "Find a rider by name, number, or phone",
    "help.search-day": "Find a rider, a trip, or a van",
    "help.choices": "Walk through matches",
    "help.book": "Start a booking for this rider",
    "help.trips": "Go to the first upcoming trip",
    "help.days": "Walk through the days; the space bar picks one",
    "help.vans": "Go from van to van",
    "help.stops": "Go from stop to stop",
    "help.first-rider": "See your next trips here. Book, change, or cancel a trip with the buttons. If you need help, call the agency.",
    "help.first-clerk": "Type a name, a rider number, or a phone number, and press Enter. The rider’s trips and the booking form appear. Press ? for the keys of this screen.",
    "help.first-examiner": "Applications are listed with the fewest days left first. Open one to read its file and decide. Press ? for the keys of this screen.",
    "help.first-officer": "Appeals are listed with the fewest days left first. Open one to read its file and decide. Press ? for the keys of this screen.",
    "help.first-dispatcher": "Day shows a row for each van and lists late vans on top. Choose a van there to see its stops and whom to call. Press ? for the keys of this screen.",
    "help.first-driver": "Your next stop is on top. Tap one button at each stop. Without a connection, the phone keeps your taps and sends them later.",
    "help.first-admin": "Give each person a key under Keys. Put your places and routes on the map. Set fares and limits before the first trip is booked.",
};
