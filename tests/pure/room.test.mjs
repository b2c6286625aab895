// Where a day has room: persons aboard by quarters of an hour, van by van.

import assert from "node:assert/strict";
import test from "node:test";
import { aboardByQuarter, roomOf } from "../../pages/parts/room.js";

const stop = (at, load, chairs) => ({ at, load, chairs });
// out at 6:00, a rider from 6:10 to 6:40, a second in a wheelchair from 6:20 to 7:00, back at 7:10
const STOPS = [
    stop(360, 0, 0),
    stop(370, 1, 0),
    stop(380, 1, 1),
    stop(400, 0, 1),
    stop(420, 0, 0),
    stop(430, 0, 0)
];

test("a quarter has the most who are aboard in it", () => {
    assert.deepEqual(aboardByQuarter(STOPS, 360, 480), [1, 2, 2, 1, 0, null, null, null]);
});

test("who leaves as a quarter begins is not in it", () => {
    assert.deepEqual(aboardByQuarter([stop(360, 1), stop(375, 0), stop(390, 0)], 360, 405), [
        1, 0, null
    ]);
});

test("a van without trips is nowhere on the road, and counts as empty", () => {
    const { rows, all } = roomOf([{ vehicle: 1, stops: STOPS }, { vehicle: 2, stops: [] }], [6, 8]);
    assert.deepEqual(rows[1].quarters, Array(8).fill(null));
    assert.deepEqual(all.map(({ persons }) => persons), [1, 2, 2, 1, 0, 0, 0, 0]);
    assert.deepEqual(all.map(({ empty }) => empty), [1, 1, 1, 1, 2, 2, 2, 2]);
});

test("every minute of every leg is counted in its quarter", () => {
    for (let from = 0; from < 60; from += 1)
        for (let long = 1; long < 40; long += 7) {
            const found = aboardByQuarter([stop(from, 3), stop(from + long, 0)], 0, 120);
            for (let quarter = 0; quarter < 8; quarter += 1) {
                const minutes = Array.from({ length: 15 }, (_, at) => quarter * 15 + at),
                    isIn = minutes.some((it) => it >= from && it < from + long);
                assert.equal(found[quarter], isIn ? 3 : null, `${from} ${long} ${quarter}`);
            }
        }
});
