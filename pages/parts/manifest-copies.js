// Copies of manifests on a driver's phone: which are dropped.

import { isManifest, isOver } from "./manifest-days.js";
import { forgetCopies } from "./queue.js";

export { copyName } from "./manifest-days.js";

/** Drops the copies of days before a day, but for those of which something is open.
 * @param {string} first @param {string[]} [open] vehicles and days, as "1 2025-03-11" */
export const forgetDaysBefore = (first, open = []) =>
    forgetCopies((name) => isOver(name, first, open));

/** Drops all copies that have names. */
export const forgetAllDays = () => forgetCopies(isManifest);
