// To make a format of moments takes longer than a hundred readings of the clock: one is made for a
// zone, however often the clock is read.

import assert from "node:assert/strict";
import { test } from "node:test";

/** Storage as a browser has it, where nothing is kept. */
const storage = () => ({ getItem: () => null, setItem: () => {}, removeItem: () => {} });
Object.assign(globalThis, {
    localStorage: storage(),
    sessionStorage: storage(),
    document: { documentElement: {}, addEventListener: () => {} }
});
const { keepClocksOf, minuteNow, momentAt, today } = await import("../../pages/parts/clock.js");

let made = 0;
const Format = Intl.DateTimeFormat;
Intl.DateTimeFormat = class extends Format {
    constructor(...words) {
        super(...words);
        made += 1;
    }
};

test("seven hundred rows that ask for the day and the minute make one format", () => {
    keepClocksOf({ zone: "America/Chicago", first_weekday: 7, clock: 12 });
    made = 0;
    for (let row = 0; row < 700; row += 1) {
        today();
        minuteNow();
        momentAt(row * 60_000);
    }
    assert.ok(made <= 1, `${made} formats are made`);
});

test("another zone has its own", () => {
    keepClocksOf({ zone: "America/Chicago", first_weekday: 7, clock: 12 });
    assert.equal(momentAt(Date.UTC(2026, 0, 5, 12, 0, 0)), "2026-01-05T06:00:00");
    keepClocksOf({ zone: "America/New_York", first_weekday: 7, clock: 12 });
    assert.equal(momentAt(Date.UTC(2026, 0, 5, 12, 0, 0)), "2026-01-05T07:00:00");
});
