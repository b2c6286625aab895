// Which trip a rider sees first.
import assert from "node:assert/strict";
import { test } from "node:test";
import { apartBy, nextOf, windowIs } from "../../pages/parts/first-trip.js";

const TODAY = "2026-12-07";
const trip = (number, day, from, status = "booked") => ({
    trip: number,
    day,
    window_from: from,
    window_to: from + 30,
    status
});
const numbers = ({ next, others }) => [next?.trip ?? null, others.map((it) => it.trip)];

test("the first trip is next, and the others follow", () => {
    assert.deepEqual(
        numbers(
            nextOf(
                [trip(1, TODAY, 545), trip(2, TODAY, 772), trip(3, "2026-12-08", 485)],
                TODAY,
                500
            )
        ),
        [1, [2, 3]]
    );
    assert.deepEqual(numbers(nextOf([], TODAY, 500)), [null, []]);
});

test("a late van's trip stays first, for two hours after its window", () => {
    const trips = [trip(1, TODAY, 545), trip(2, TODAY, 772)];
    assert.deepEqual(numbers(nextOf(trips, TODAY, 576)), [1, [2]]);
    assert.deepEqual(numbers(nextOf(trips, TODAY, 695)), [1, [2]]);
    assert.deepEqual(numbers(nextOf(trips, TODAY, 696)), [2, [1]]);
});

test("a trip whose window is long over is still shown where there is no other", () => {
    assert.deepEqual(numbers(nextOf([trip(1, TODAY, 300)], TODAY, 900)), [1, []]);
});

test("a trip that was canceled just now is never next, and stays among the others", () => {
    assert.deepEqual(
        numbers(nextOf([trip(1, TODAY, 545, "cancelled"), trip(2, TODAY, 772)], TODAY, 500)),
        [2, [1]]
    );
    assert.deepEqual(numbers(nextOf([trip(1, TODAY, 545, "cancelled")], TODAY, 500)), [null, [1]]);
});

test("a window is before, during or over", () => {
    assert.deepEqual([544, 545, 575, 576].map((now) => windowIs(trip(1, TODAY, 545), TODAY, now)), [
        "before", "during", "during", "over"
    ]);
    assert.equal(windowIs(trip(1, "2026-12-08", 545), TODAY, 900), "before");
});

test("a trip of today whose window is over is not among those that follow", () => {
    const trips = [trip(1, TODAY, 300), trip(2, TODAY, 880), trip(3, "2026-12-08", 300)],
        { over, later } = apartBy(trips, TODAY, 900);
    assert.deepEqual(over.map((it) => it.trip), [1]);
    assert.deepEqual(later.map((it) => it.trip), [2, 3]);
});
