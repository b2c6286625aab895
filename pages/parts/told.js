// What the site's log tells of today, for staff: what drivers tapped, what riders said, which calls
// were made; and when each van is planned at its stops (docs/SITE-FILES.md). Riders may not read
// either.

import { fileAt, reading } from "./reads.js";

const PATH = "/staff/today.json", PLANS = "/staff/plans.json";

/** @param {{ period?: number }} options milliseconds, for who has to know sooner */
export const toldRead = (options = {}) => reading(PATH, { ...options, read: fileAt(PATH) });

/** The times of the vans' stops today. */
export const plansRead = () => reading(PLANS, { read: fileAt(PLANS) });
