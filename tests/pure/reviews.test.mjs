// What speaks for a no-show, and the line that puts another outcome on record.

import assert from "node:assert/strict";
import { test } from "node:test";

import {
    correctionLine,
    doubtOf,
    nextOf,
    OUTCOMES,
    outcomesBy,
    rowKey,
    settledSince,
    tapsOn,
    withArrival
} from "../../pages/parts/reviews.js";

const WINDOW = { from: 545, to: 560 };

test("each arrival, wait and moment has its doubt", () => {
    for (let arrived = 530; arrived < 580; arrived += 1) {
        for (let wait = 0; wait < 9; wait += 1) {
            const minute = Math.max(arrived, 545) + wait,
                wanted = arrived > 560 ? "late" : wait < 5 ? "wait" : null;
            assert.equal(
                doubtOf({ ...WINDOW, arrived, wait, minute }, 5),
                wanted,
                `${arrived} ${wait}`
            );
        }
    }
    assert.equal(doubtOf({ ...WINDOW, arrived: null, wait: 0, minute: 559 }, 5), "not-arrived");
    assert.equal(doubtOf({ ...WINDOW, arrived: 530, wait: 0, minute: 540 }, 0), "early");
});

test("another phone's taps count: aboard above all, its arrival where this one has none", () => {
    const tap = (kind, minute, trip = 5) => ({ trip, kind, minute }),
        silent = { ...WINDOW, arrived: null, wait: 0, minute: 556 };
    const taps = tapsOn(
        new Map([
            [1, [tap("no-show", 556), tap("aboard", 540, 6)]],
            [2, [tap("arrived", 550), tap("aboard", 551)]]
        ]),
        5
    );
    assert.deepEqual(taps.map(({ kind, minute, vehicle }) => [kind, minute, vehicle]), [
        ["arrived", 550, 2],
        ["aboard", 551, 2],
        ["no-show", 556, 1]
    ]);
    assert.equal(doubtOf(silent, 5, taps), "aboard");
    assert.deepEqual(outcomesBy(taps), ["ridden", "missed-operator", "missed-rider"]);
    const arrived = taps.filter(({ kind }) => kind === "arrived");
    assert.deepEqual(
        [
            doubtOf(silent, 5, arrived),
            doubtOf({ ...silent, minute: 552 }, 5, arrived),
            doubtOf(silent, 5, [])
        ],
        [null, "wait", "not-arrived"]
    );
    assert.deepEqual(withArrival(silent, arrived), { ...silent, arrived: 550, wait: 6 });
    assert.equal(withArrival({ ...silent, arrived: 548 }, arrived).arrived, 548);
    assert.deepEqual(outcomesBy(arrived), OUTCOMES);
});

test("a line has four columns, whatever somebody types", () => {
    assert.equal(
        correctionLine(154, "ridden", "Dana", "phone of the van"),
        "154,ridden,Dana,phone of the van"
    );
    assert.equal(
        correctionLine(154, "ridden", 'O"Neill, Dana', "a\nb\tc"),
        '154,ridden,"O""Neill, Dana",a b c'
    );
    assert.equal(correctionLine(7, "missed-operator", "=1+1", "-x"), "7,missed-operator,'=1+1,'-x");
});

test("what follows is told by the desk's own record", () => {
    for (const right of OUTCOMES) {
        assert.equal(nextOf(right, "booked"), "enter");
        assert.equal(nextOf(right, right), "confirm");
        for (const record of ["cancelled", null, ...OUTCOMES.filter((it) => it !== right)])
            assert.equal(nextOf(right, record), "correct");
    }
});

test("a row is the same one after a renewal, and a later entry is another one", () => {
    const row = { day: "2026-03-10", trip: 5, minute: 560, told: "ridden" };
    assert.equal(rowKey(row), rowKey({ ...row }));
    assert.notEqual(rowKey(row), rowKey({ ...row, minute: 561 }));
});

test("what somebody else settled meanwhile is known by its moment and outcome", () => {
    const row = { day: "2026-03-10", trip: 5, outcome: "ridden", minute: 613 },
        other = { ...row, trip: 6 };
    assert.equal(settledSince([], [other], 5), null);
    assert.equal(settledSince([row], [row, other], 5), null);
    assert.equal(settledSince([], [other, row], 5), row);
    for (const later of [
        { ...row, minute: 614 },
        { ...row, day: "2026-03-11" },
        { ...row, outcome: "missed-rider" }
    ])
        assert.equal(settledSince([row], [later], 5), later);
});
