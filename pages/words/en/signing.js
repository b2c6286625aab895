// Words of signing in and out, and the names of the screens.

/** @type {Record<string, import("../../parts/words.js").Text>} */
export const words = {
    "signing.in": "Sign in",
    "signing.out": "Sign out",
    "signing.key": "Key",
    "signing.key-hint": ({ whole }) =>
        `The key that the agency gave you. Hyphens, spaces, and capitals don’t matter in a key of ${whole} characters.`,
    "signing.key-short": ({ count, whole }) =>
        `It is too short: ${count} of ${whole} characters. Check the card or letter.`,
    "signing.key-long": ({ count, whole }) =>
        `It is too long: ${count} characters, not ${whole}. Check the card or letter.`,
    "signing.key-sign": ({ signs }) => `Check this in it: ${signs}. It may be a 0 or a 1.`,
    "signing.job": "Sign in as",
    "signing.job-wants": "This key is for another role. Choose yours.",
    "signing.rider-job": "your own trips",
    "signing.clerk-job": "calls and bookings",
    "signing.examiner-job": "applications",
    "signing.officer-job": "appeals, suspensions",
    "signing.dispatcher-job": "the day and its vans",
    "signing.driver-job": "your van’s stops",
    "signing.admin-job": "keys, places, fares",
    "signing.key-none": "Type the key.",
    "signing.key-much": ({ most }) =>
        `This is not a key: a key has at most ${most} characters. Check the card or letter.`,
    "signing.key-strange": "This is not a key: a key has no accented letters, emoji, or letters of other alphabets. Check the card or letter.",
    "signing.stay": "Stay signed in on this phone or computer",
    "signing.stay-hint": "Only where nobody else uses it. This browser then keeps your key until you sign out.",
    "signing.stays-here": ({ rider }) =>
        `Rider ${rider} stays signed in on this phone or computer.`,
    "signing.go-on": ({ rider }) => `Go on as rider ${rider}`,
    "signing.stay-gone": "This key is no longer valid, so this browser has forgotten it. Ask the agency for your new key.",
    "signing.show-key": "Show the key",
    "signing.hide-key": "Hide the key",
    "signing.rider": "Rider",
    "signing.clerk": "Clerk",
    "signing.examiner": "Examiner",
    "signing.officer": "Officer",
    "signing.dispatcher": "Dispatcher",
    "signing.driver": "Driver",
    "signing.admin": "Admin",
    "signing.signed-out": "Signed out. This browser has forgotten the key.",
    "signing.waiting": "Sign out before the desk has answered?",
    "signing.waiting-detail": "Something you sent has no answer yet. It may or may not have gone through.",
    "signing.out-anyway": "Yes, sign out",
    "signing.idle-out": ({ minutes }) =>
        `Nobody did anything for ${minutes} minutes, so this window was signed out.`,
    "signing.idle-soon": "You will be signed out in a minute. Press any key to stay.",
    "signing.more-troubles": ({ count }) => `And ${count} more.`,
    "signing.all-troubles": "What else is wrong",
};
