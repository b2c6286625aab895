// Where the van of a trip of today is, at every minute.
import assert from "node:assert/strict";
import test from "node:test";
import { isSoon, tapsOf, whereIs } from "../../pages/parts/where.js";

const TRIP = { trip: 7, vehicle: 109, window_from: 545, window_to: 575 };

test("without a word the clock alone says it, at each minute of the day", () => {
    for (let now = 0; now < 1440; now += 1) {
        const { place, own, last } = whereIs(TRIP, now, []);
        assert.deepEqual(
            [place, own, last],
            [now < 545 ? "before" : now <= 575 ? "during" : "over", null, null]
        );
    }
});

test("the last tap of the trip goes before the clock, one of another trip does not", () => {
    const tap = (trip, kind, minute) => ({ trip, kind, minute });
    for (const [kind, place] of [
        ["arrived", "arrived"],
        ["aboard", "aboard"],
        ["dropped", "ended"],
        ["no-show", "ended"],
        ["missed", "ended"],
        ["skipped", "over"]
    ]) {
        assert.equal(whereIs(TRIP, 600, [tap(7, kind, 580)]).place, place);
        assert.equal(whereIs(TRIP, 600, [tap(8, kind, 580)]).place, "over");
    }
    const both = whereIs(TRIP, 600, [
        tap(7, "arrived", 570),
        tap(7, "aboard", 572),
        tap(8, "arrived", 590)
    ]);
    assert.deepEqual([both.place, both.own?.minute, both.last?.trip], ["aboard", 572, 8]);
});

const NOW = { day: "2026-12-07", at: Date.parse("2026-12-07T18:05:10Z") },
    HEAD = { day: NOW.day, made: "2026-12-07T18:05:10Z" };

test("a file of another form has no taps", () => {
    for (const told of [
        null,
        5,
        "x",
        [],
        {},
        { ...HEAD, vehicles: null },
        { ...HEAD, vehicles: { 109: null } },
        { ...HEAD, vehicles: { 109: { taps: {} } } },
        {
            ...HEAD,
            vehicles: {
                109: {
                    taps: [
                        null,
                        { trip: "7", kind: "aboard", minute: 1 },
                        { trip: 7, minute: 1 },
                        { trip: 7, kind: "aboard", minute: 1.5 }
                    ]
                }
            }
        }
    ])
        assert.deepEqual(tapsOf(told, 109, NOW), []);
    const taps = [{ trip: 7, kind: "aboard", minute: 9 }, { trip: 8, kind: "arrived", minute: 3 }];
    assert.deepEqual(
        tapsOf({ ...HEAD, vehicles: { 109: { taps } } }, 109, NOW).map(({ minute }) => minute),
        [3, 9]
    );
    for (const head of [
        { ...HEAD, day: "2026-12-06" },
        { ...HEAD, made: "2026-12-07T17:59:10Z" },
        { ...HEAD, made: "soon" },
        {}
    ])
        assert.deepEqual(tapsOf({ ...head, vehicles: { 109: { taps } } }, 109, NOW), []);
});

test("a window is soon for an hour before it begins, and not once it has begun", () => {
    assert.deepEqual([484, 485, 544, 545, 600].map((now) => isSoon(TRIP, now)), [
        false, true, true, false, false
    ]);
});
