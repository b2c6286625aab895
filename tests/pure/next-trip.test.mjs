// The next trip of a rider, beside a match of the search.
import assert from "node:assert/strict";
import test from "node:test";
import { canceledElsewhere, nextTrip } from "../../pages/parts/next-trip.js";

const trip = (day, from, more = {}) => ({
    day,
    window_from: from,
    window_to: from + 30,
    status: "booked",
    ...more
});
const NOW = { day: "2026-12-07", minute: 600 };

test("the trip whose window ends next is the next one, until its window is over", () => {
    const today = trip("2026-12-07", 580),
        later = trip("2026-12-07", 700),
        tomorrow = trip("2026-12-08", 300);
    assert.equal(nextTrip([tomorrow, later, today], NOW), today);
    assert.equal(nextTrip([tomorrow, later, today], { ...NOW, minute: 610 }), today);
    assert.equal(nextTrip([tomorrow, later, today], { ...NOW, minute: 611 }), later);
    assert.equal(nextTrip([tomorrow], NOW), tomorrow);
});

test("no trip is next that is canceled, over or of an earlier day", () => {
    assert.equal(
        nextTrip(
            [
                trip("2026-12-08", 300, { status: "cancelled" }),
                trip("2026-12-06", 700),
                trip("2026-12-07", 700, { status: "ridden" })
            ],
            NOW
        ),
        undefined
    );
    assert.equal(nextTrip([], NOW), undefined);
});

test("a trip that somebody else canceled is named once; one of this window is not", () => {
    const all = (...statuses) => statuses.map((status, at) => ({ trip: at + 1, status }));
    const before = all("booked", "booked", "cancelled", "booked"),
        now = all("cancelled", "booked", "cancelled", "cancelled");
    assert.deepEqual(canceledElsewhere(before, now, new Set([4])), [1]);
    assert.deepEqual(
        [canceledElsewhere(null, now, new Set()), canceledElsewhere(now, now, new Set())],
        [[], []]
    );
});
