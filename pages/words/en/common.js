// Words that every screen uses.

/** What is told to the site.
 * @type {Record<string, string>} */
const COUNTS = {
    denials: "a denial",
    bookings: "a booking",
    cancellations: "a cancellation",
    stops: "a stop",
    "no-shows": "a no-show",
    notes: "a note",
    disagreements: "an entry that disagrees",
    calls: "a call",
    reviews: "what was found right of a trip"
};

/** @type {Record<string, string>} */
const KINDS = { places: "place", routes: "route", vehicles: "vehicle" };

/** Of what is counted, one alone: "1 minute", and "2 minutes", "0 minutes".
 * @param {string} text
 */
export const smooth = (text) =>
    text.replace(
        /(?<![\d.,:$])1 (minute|hour|day|trip|character|place|version|mile|point|stop|rider|letter)s(?![a-z])/g,
        "1 $1"
    );

/** @type {Record<string, import("../../parts/words.js").Text>} */
export const words = {
    "common.am": "AM",
    "common.pm": "PM",
    "common.agency": "Paratransit",
    "common.address-at": ({ street, place }) => `${street}, at ${place}`,
    "common.place": "place",
    "common.vehicle": ({ vehicle }) => `Vehicle ${vehicle}`,
    "common.line": ({ line }) => `Route ${line}`,
    "common.rider": ({ rider }) => `rider ${rider}`,
    "common.close": "Close",
    "common.close-note": "Close this note",
    "common.print": "Print",
    "common.yes": "Yes",
    "common.no": "No",
    "common.no-go-back": "No, go back",
    "common.silent": "The desk does not answer. What you typed is kept. It is asked again until it does.",
    "common.silent-write": "The desk does not answer. What you typed is kept. It is sent again, and done once.",
    "common.crowded": "Many requests at once: this one waits for its turn.",
    "common.answers-again": "The desk answers again.",
    "common.not-drawn": "This part could not be shown. Load the page again. If it stays, tell the people who run the desk.",
    "common.wrong-file": ({ file }) =>
        `The file ${file} is not JSON of the form that these pages read. What it names goes by numbers.`,
    "common.missing-file": ({ file }) =>
        `The file ${file} is missing. Places, routes and vehicles go by their numbers.`,
    "common.late-file": ({ file }) =>
        `The site has not sent the file ${file} yet. Until it comes, places, routes, and vehicles go by their numbers, and times may be this device’s.`,
    "common.wrong-list": ({ kind }) => `In the agency's file, ${kind} is no list.`,
    "common.wrong-record": ({ kind, key }) =>
        `In the agency's file, the ${KINDS[kind]} “${key}” has no number from 1 on, or is no record.`,
    "common.wrong-field": ({ kind, id, name }) =>
        `In the agency's file, ${KINDS[kind]} ${id} has a ${name} that cannot be used.`,
    "common.wrong-zone": ({ value }) =>
        `The zone “${value}” in agency.json is none that browsers know, as America/Chicago. Times are those of this machine.`,
    "common.wrong-setting": ({ name, value }) => `In agency.json, ${name} cannot be “${value}”.`,
    "common.roster-head": "The roster needs a first row with the columns “rider” and “name”.",
    "common.roster-number": ({ row, text }) =>
        `Row ${row} of the roster: “${text}” is no rider's number.`,
    "common.roster-twice": ({ row, text }) =>
        `Row ${row} of the roster: rider ${text} is there twice. The first row counts.`,
    "common.others-wrote": "Another window or device wrote with the same key in the meantime. Nothing is lost: what you sent went on with a higher number.",
    "common.was-denied": "Your last request was denied: ",
    "common.was-done": "Your last request went through, once.",
    "common.not-loaded": "This screen could not be loaded: the connection broke. Nothing that you sent is lost.",
    "common.still-loading": "This screen is still loading. Nothing that you sent is lost.",
    "common.load-again": "Try again",
    "common.counts-refused": ({
        count,
        what
    }) => `${count} ${count === 1 ? "count" : "counts"} could not be kept: ${what
        .map((/** @type {{ kind: keyof typeof COUNTS, why: string }} */ { kind, why }) => `${COUNTS[kind]} (${why})`).join(", ")}. Tell the people who run the desk.`,
    "common.counts-loose": ({
        count
    }) => `This browser has no room for counts, and the site does not answer. Leave this window open: ${count} ${
        count === 1 ? "count waits" : "counts wait"} in it.`,
    "common.not-kept":
        "This browser stores nothing for these pages: it is full, or it is set to block site data. What the desk has confirmed stands. What you type is gone once this page is " +
        "closed or loaded again, and you sign in again then.",
    "common.unproved": "This is a trial program. Nothing of it was proved. Do not use it for real trips.",
    "common.keys": "Keys and help",
    "common.menu": "Your menu",
    "common.go-to": ({ job }) => `Go to ${job}`,
    "common.find": "Find a rider",
    "common.show": "Show",
    "common.skip": "Skip to main content",
    "common.screen": "Screen",
    "common.parts": "Parts of this screen",
    "common.language": "Language",
    "common.as-of": ({ time }) => `As of ${time}.`,
    "common.as-of-silent": ({ time }) =>
        `As of ${time}. There is no answer to a newer question yet.`,
};
