// From when to when the fixed routes of the agency's file run.
import assert from "node:assert/strict";
import test from "node:test";
import { busHours } from "../../pages/parts/bus-hours.js";

const route = (more = {}) => ({ days: [1, 2, 3, 4, 5, 6, 7], first: 330, last: 1_350, ...more });

test("the hours of a day go from the first bus to the last one, over all routes", () => {
    assert.deepEqual(busHours([route(), route({ first: 300, last: 1_300 })], 3), {
        first: 300,
        last: 1_350
    });
});

test("a route that does not run on that weekday has no part in it", () => {
    assert.deepEqual(busHours([route(), route({ days: [6, 7], first: 60 })], 3), {
        first: 330,
        last: 1_350
    });
});

test("where a route does not say when it runs, or none runs, no hours are named", () => {
    assert.equal(busHours([route(), { days: [3] }], 3), null);
    assert.equal(busHours([route({ days: [7] })], 3), null);
    assert.equal(busHours([], 3), null);
});
