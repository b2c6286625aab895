// Words of the clerk's screen.

/** @type {Record<string, import("../../parts/words.js").Text>} */
export const words = {
    "clerk.trips": "Calls",
    "clerk.file": "Eligibility",
    "clerk.record-part": "Rider records",
    "clerk.reading": "Reading the eligibility…",
    "clerk.suspended": "May not ride today: suspended",
    "clerk.standing-presumed": "May ride: presumed eligible, the application waits",
    "clerk.standing-appeal-overdue": "May ride: the appeal waits for its decision",
    "clerk.standing-granted": "May ride",
    "clerk.standing-none": "May not ride today: no eligibility on record",
    "clerk.standing-visitor": "May ride: a visitor",
    "clerk.standing-visitor-used": "May not ride today: a visitor who has used the 21 days",
    "clerk.until": ({ day }) => `until ${day}`,
    "clerk.conditions": ({ conditions }) => `For ${conditions}.`,
    "clerk.home": "Home",
    "clerk.usual": "Usual places",
    "clerk.attendant-yes": "Travels with an attendant",
    "clerk.note": "Note",
    "clerk.record": "A rider's record",
    "clerk.record-hint": "Makes the record, or changes what it says about an attendant and a wheelchair. Trips that are booked keep what it said.",
    "clerk.number": "Rider number",
    "clerk.kind": "Kind",
    "clerk.resident": "Resident, who applies",
    "clerk.visitor": "Visitor, 21 days of a year",
    "clerk.attendant": "May bring an attendant, who rides free",
    "clerk.wheelchair": "Comes in a wheelchair, and takes a wheelchair place",
    "clerk.put": "Save the record",
    "clerk.as-resident": "Resident.",
    "clerk.as-visitor": "Visitor.",
    "clerk.has-attendant": "May bring an attendant.",
    "clerk.no-attendant": "Brings no attendant.",
    "clerk.has-wheelchair": "Comes in a wheelchair.",
    "clerk.no-wheelchair": "Comes without a wheelchair.",
    "clerk.change-question": ({ rider }) =>
        `${rider.replace(/^r/, "R")} is on record already. Change the record?`,
    "clerk.change-detail": ({ rider, kind, record }) =>
        `On record is: ${kind} The desk does not tell the rest. From now on the record of ${rider} says: ${record}`,
    "clerk.change-yes": ({ rider }) => `Yes, change the record of rider ${rider}`,
    "clerk.left": ({ rider }) =>
        `The record of ${rider} was not saved: you left before we could look at what is on record. What you typed is kept. Save it again.`,
    "clerk.is-new": ({ rider, record }) =>
        `${rider.replace(/^r/, "R")} is new on record. ${record}`,
    "clerk.is-changed": ({ rider, record }) => `The record of ${rider} is changed. ${record}`,
    "clerk.roster-there": ({ count }) => `Roster: ${count} ${count === "1" ? "rider" : "riders"}`,
    "clerk.roster-none": "Find riders by name: open a roster",
    "clerk.roster-hint": "A CSV file with the columns rider and name. It is read in this window alone and is sent nowhere.",
    "clerk.roster-file": "Roster from this computer",
    "clerk.roster-from": ({ source, count }) =>
        `From ${source}: ${count} ${count === "1" ? "rider" : "riders"}.`,
    "clerk.server": "the server",
    "clerk.make-record": ({ rider }) => `Make the record of ${rider}`,
    "clerk.suspended-days": ({ from, to }) =>
        `May not ride today: suspended from ${from} through ${to}`,
    "clerk.on-file": ({ day }) => `Eligibility on file through ${day}.`,
    "clerk.application-waits": ({ day }) =>
        `An application has waited since ${day}. It counts from its 21st day until somebody decides.`,
    "clerk.call-backs": "Call back",
    "clerk.call-none": "Nobody waits for a call.",
    "clerk.call-add": "Add this caller",
    "clerk.call-why": "Why",
    "clerk.call-done": "Called back",
    "clerk.call-done-of": ({ rider }) => `Called back: ${rider}`,
    "clerk.call": "Call",
    "clerk.call-of": ({ rider }) => `Call ${rider}`,
    "clerk.since": ({ time }) => `since ${time}`,
    "clerk.recent": "Recent",
    "clerk.last-callers": "Last callers",
    "clerk.now": "now",
    "clerk.did-booked": ({ count }) => `booked ${count}`,
    "clerk.did-changed": ({ count }) => `changed ${count}`,
    "clerk.did-canceled": ({ count }) => `canceled ${count}`,
    "clerk.did-denied": "not booked",
    "clerk.who-calls": "Who’s calling?",
    "clerk.who-hint": "Type any part of a name, in any order. Press Enter for the first match. Next caller:",
    "clerk.who-slash": "from anywhere.",
    "clerk.today": "Today",
    "clerk.buses": "Buses run",
    "clerk.telephone": "Agency phone",
    "clerk.more": ({ rider }) => `More for ${rider}`,
    "clerk.conditional": "Conditional",
    "clerk.conditions-name": "Conditions",
    "clerk.no-attendant-chip": "No attendant",
    "clerk.tiles-none": "Nothing is waiting.",
    "clerk.tile-offers": ({ count }) => (
        count === 1 ? "offer waits for an answer" : "offers wait for an answer"
    ),
    "clerk.tile-suspended": ({ count }) => (
        count === 1 ? "trip during a suspension" : "trips during a suspension"
    ),
    "clerk.tile-in-part": ({ count }) => (
        count === 1 ? "grant in part to finish" : "grants in part to finish"
    ),
    "clerk.tile-applications": ({ count }) => (
        count === 1 ? "application to decide" : "applications to decide"
    ),
    "clerk.tile-appeals": ({ count }) => (count === 1 ? "appeal to decide" : "appeals to decide"),
    "clerk.tile-grants": ({ count }) => (count === 1 ? "grant ends soon" : "grants end soon"),
};
