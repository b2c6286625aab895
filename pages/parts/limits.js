// Each limit of the desk and of the regulation, once.

export const DAYS_AHEAD = 14,
    SUSPENSION_DAYS = 30,
    APPEAL_DAYS = 60,
    PRESUMED_DAYS = 21,
    OVERDUE_DAYS = 30;
/** Of our own: so long a rider has to ask for a hearing, and between a decision to suspend and its
 * first day; and below so many characters reasons are hardly any.
 */
export const HEARING_DAYS = 15, FEW_REASONS = 40;
/** Fewer no-shows than these are no pattern or practice. */
export const LEAST_MISSED = 3;
export const FIRST_DAY = "2000-01-01",
    LAST_DAY = "2099-12-31",
    LAST_MINUTE = 1439,
    NEGOTIATED_MINUTES = 60;
export const HIGHEST_ID = 4_294_967_295, HIGHEST_NUMBER = 4_294_967_295, MOST_ENTRIES = 200;
export const MOST_REASONS = 500,
    HIGHEST_FARE = 100_000,
    MOST_SERVICE = 30,
    MOST_EXTRA_RIDE = 240,
    MOST_MISSED = 1000,
    MOST_PERCENT = 100,
    MOST_SPAN = 366;
export const MOST_FEET = 1_000_000,
    LEAST_CORRIDOR = 3960,
    MOST_CORRIDOR = 7920,
    LEAST_POINTS = 2,
    MOST_POINTS = 200,
    MOST_FARTHER = 100_000;
export const MOST_SEATS = 30, MOST_CHAIRS = 10, MOST_DURATION = 1439;
