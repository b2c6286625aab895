// When this phone locks: so many minutes after the desk last answered (parts/lock.js). What it goes
// by is kept beside the copies, for each key.

import { agency } from "../parts/agency.js";
import { heardNow, isSetBack, later, leftUntilLock } from "../parts/lock.js";
import { copyOf, keepCopy } from "../parts/queue.js";

const NAME = "heard", WRITTEN = 15_000;

export function lockOfPhone() {
    /** @type {import("../parts/lock.js").Heard | null} */
    let heard = null;
    let ranUntil = performance.now(), written = 0, wasOpen = true;

    const left = () => (heard ? leftUntilLock(heard, Date.now(), agency().lock_minutes) : 0);
    const keep = () => {
        written = performance.now();
        return keepCopy(NAME, heard).catch(() => {});
    };

    return {
        /** Reads what an earlier page has kept; milliseconds until the lock, or null where nothing
         * has ever answered.
         * @returns {Promise<number | null>} */
        async read() {
            const kept = await copyOf(NAME).catch(() => null);
            heard ??= kept;
            return heard && left();
        },
        /** Whether it locks since its clock was set back. */
        isSetBack: () => Boolean(heard && isSetBack(heard, Date.now())),
        /** The desk has answered. */
        answered() {
            heard = heardNow(Date.now());
            wasOpen = true;
            ranUntil = performance.now();
            return keep();
        },
        /** Goes on with the clock; milliseconds until the lock. */
        tick() {
            const now = performance.now();
            if (!heard) return 0;
            heard = later(heard, Date.now(), now - ranUntil);
            ranUntil = now;
            const until = left(), locksNow = until === 0 && wasOpen;
            wasOpen = until > 0;
            // (what has locked stays so over a reload)
            if (now - written > WRITTEN || locksNow)
                keep();
            return until;
        }
    };
}
