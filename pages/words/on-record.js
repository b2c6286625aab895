// What pages write into the desk's record, which is kept in English whatever the page speaks.

export const MISSED_TRIPS = "Missed trips (no-shows): ",
    PROPOSED = "Proposed suspension: ",
    THROUGH = " through ";
/** Notices of before have a missed trip in these longer words. */
export const windowWords = (/** @type {string} */ from, /** @type {string} */ to) =>
    `pickup window ${from} to ${to}`;
export const fromWords = (/** @type {string} */ place) => `, from ${place}`;
export const GRANTED_IN_PART = "Granted in part through ",
    FOR = " for ",
    NOT_GRANTED = ". Not granted: ";
/** The night's list of what waits says so what is next of a grant in part
 * (python/desk_tools/reports/lists.py).
 */
export const TAKE_APPLICATION = "Take the new application",
    GRANT_APPLICATION = "Grant it with its conditions";
/** And how far a suspension has come. */
export const NO_NOTICE = "none",
    GIVEN_ON = "given on",
    HEARD_ON = "heard on",
    SUSPENDED_FROM = "suspended";
