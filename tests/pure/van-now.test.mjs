// Where a van is along its manifest.
import assert from "node:assert/strict";
import test from "node:test";
import { lateOf } from "../../pages/parts/lateness.js";
import { endOf, vanNow } from "../../pages/parts/van-now.js";

const stop = (at, what, trip, load, window = null) => ({
    line: "",
    place: 1,
    people: 1,
    wheelchairs: 0,
    at,
    what,
    trip,
    rider: trip,
    load,
    window
});
const STOPS = [
    { ...stop(540, "DEPOT", undefined, 0), trip: undefined },
    stop(550, "PICK", 1, 1, [540, 570]),
    stop(570, "DROP", 1, 0),
    stop(590, "PICK", 2, 1, [580, 610]),
    stop(610, "DROP", 2, 0),
    { ...stop(640, "DEPOT", undefined, 0), trip: undefined }
];
const VAN = { vehicle: 1, day: "2025-03-11", lines: [], text: "", stops: STOPS };
const tap = (trip, kind, minute) => ({ trip, kind, minute });
const now = (taps, minute) => vanNow(STOPS, lateOf(VAN, taps, new Map(), minute), taps, minute);

test("without taps the plan says which stop is next", () => {
    assert.deepEqual(
        [545, 550, 575, 700].map((minute) => vanNow(STOPS, undefined, [], minute).next),
        [1, 2, 3, 6]
    );
    assert.deepEqual(
        [vanNow(STOPS, undefined, [], -1).next, vanNow(STOPS, undefined, [], Infinity).next],
        [0, 6]
    );
    assert.ok(
        vanNow(STOPS, undefined, [], 575).legs.every(
            ({ due, done }) => due === null && done === null
        )
    );
});

test("taps say what is done, and when", () => {
    const { legs, next, aboard } = now([tap(1, "arrived", 551), tap(1, "aboard", 553)], 556);
    assert.equal(next, 2);
    assert.deepEqual(legs.map(({ isDone }) => isDone), [true, true, false, false, false, false]);
    assert.equal(legs[1].done, 553);
    assert.equal(aboard?.load, 1);
});

test("a late van comes later to what is left, and past a window", () => {
    const { legs } = now([tap(1, "aboard", 595)], 596);
    assert.equal(legs[2].due, 615);
    assert.ok(legs[3].due !== null && legs[3].due > 610 && legs[3].past === legs[3].due - 610);
    assert.equal(legs[1].due, null);
    assert.equal(legs[5].due, null);
});

test("a van that has told of its last stop has none left but its depot", () => {
    const { next, legs } = now(
        [
            tap(1, "aboard", 551),
            tap(1, "dropped", 571),
            tap(2, "aboard", 591),
            tap(2, "dropped", 611)
        ],
        612
    );
    assert.equal(next, 5);
    assert.equal(legs[4].done, 611);
    assert.equal(legs[5].isDone, false);
});

test("no stop is due before now, nor before its plan", () => {
    for (let late = 0; late < 60; late += 7) {
        const minute = 551 + late;
        for (const { due, stop: { at }, isDone } of now(
            [tap(1, "aboard", minute - 1)],
            minute
        ).legs)
            if (due !== null)
                assert.ok(!isDone && due >= minute && due >= at, `${due} ${minute} ${at}`);
    }
});

test("a stop of a missed trip is not done: its pickup says how it was missed", () => {
    const leg = (stop, isDone = true) => ({ stop, isDone });
    assert.deepEqual(
        [
            endOf(leg(STOPS[1]), "ridden"),
            endOf(leg(STOPS[2]), "under-way"),
            endOf(leg(STOPS[1]), undefined)
        ],
        ["done", "done", "done"]
    );
    assert.deepEqual(
        [
            endOf(leg(STOPS[1]), "missed-operator"),
            endOf(leg(STOPS[1]), "missed-rider"),
            endOf(leg(STOPS[2]), "missed-operator")
        ],
        ["missed-operator", "missed-rider", null]
    );
    assert.deepEqual(
        [endOf(leg(STOPS[0]), undefined), endOf(leg(STOPS[1], false), "missed-rider")],
        [null, null]
    );
});
