// How late a van comes to one pickup, for who may not read its manifest: the same as on the
// dispatcher's board.
import assert from "node:assert/strict";
import test from "node:test";
import { lateOf } from "../../pages/parts/lateness.js";
import { manifestsIn } from "../../pages/parts/texts.js";
import { plansIn, vanLate } from "../../pages/parts/van-late.js";

const DAY = "2025-03-11", MADE = Date.parse("2025-03-11T13:20:00Z");
const SHEET = `VEHICLE 9 DAY ${DAY}
08:20 DEPOT 5
09:00 PICK trip 1 rider 1001 place 1 load 1 window 08:55-09:25
09:20 DROP trip 1 rider 1001 place 2 load 0
09:40 PICK trip 2 rider 1002 place 1 load 0 chairs 1 window 09:35-10:05
10:00 DROP trip 2 rider 1002 place 2 load 0 chairs 0
11:00 PICK trip 3 rider 1003 place 1 load 1 window 10:55-11:25
11:20 DROP trip 3 rider 1003 place 2 load 0
11:40 DEPOT 5
TRIPS 3
`;
const [MANIFEST] = manifestsIn(SHEET);
// (as bin/driver-files makes it of this sheet)
const STOPS = MANIFEST.stops.map(({ at, what, trip, load, chairs = 0, window }) => ({
    at,
    what,
    ...(what === "DEPOT" ? {} : { trip, load, chairs }),
    ...(window ? { window } : {})
}));
const file = (more = {}) =>
    JSON.stringify({
        day: DAY,
        made: new Date(MADE).toISOString(),
        vehicles: { 9: STOPS },
        outcomes: {},
        ...more
    });
const plans = (more) => plansIn(file(more), DAY, MADE);
const told = (taps) => ({ day: DAY, made: MADE + 5, vehicles: new Map([[9, taps]]) });
const tap = (trip, kind, minute) => ({ trip, kind, minute });
const late = (trip, taps, now, more) => vanLate({ trip, vehicle: 9 }, plans(more), told(taps), now);

test("at each minute a clerk is told the lateness that the dispatcher's board has", () => {
    const some = [
        [],
        [tap(1, "arrived", 545), tap(1, "aboard", 548)],
        [tap(1, "aboard", 575)],
        [tap(1, "aboard", 575), tap(1, "dropped", 590), tap(2, "arrived", 606)]
    ];
    for (const taps of some)
        for (let now = 500; now < 700; now += 1) {
            const board = lateOf(MANIFEST, taps, new Map(), now);
            for (const trip of [1, 2, 3]) {
                const it = late(trip, taps, now),
                    risk = board.risks.find((one) => one.trip === trip);
                if (it === null) continue;
                assert.equal(it.delay, board.delay >= 5 ? board.delay : 0);
                assert.deepEqual([it.silent, it.last], [board.silent, board.last]);
                assert.deepEqual(
                    [it.past, it.past ? it.due : null],
                    [risk?.past ?? 0, risk?.due ?? null],
                    `trip ${trip} at ${now}`
                );
            }
        }
});

test("a late van says when it comes, and how long after the window", () => {
    const it = late(2, [tap(1, "aboard", 575)], 576);
    assert.deepEqual([it.planned, it.delay, it.due, it.past, it.isNext], [580, 35, 615, 10, false]);
    assert.equal(late(2, [tap(1, "aboard", 575), tap(1, "dropped", 595)], 596).isNext, true);
    assert.equal(it.made, MADE + 5);
});

test("a van that is in time has no delay, and one that nobody heard of none either", () => {
    assert.deepEqual(
        [late(2, [tap(1, "aboard", 541)], 545).delay, late(2, [tap(1, "aboard", 541)], 545).due],
        [0, null]
    );
    assert.deepEqual(
        [late(1, [], 552).delay, late(1, [], 552).due, late(1, [], 552).last],
        [12, 552, null]
    );
    const silent = late(1, [], 575);
    assert.deepEqual([silent.delay, silent.silent, silent.last], [0, 35, null]);
});

test("of a pickup behind the van, or a trip of another van, nothing is told", () => {
    assert.equal(late(1, [tap(1, "aboard", 545)], 550), null);
    assert.equal(late(1, [tap(1, "arrived", 545)], 550), null);
    assert.equal(late(7, [], 550), null);
    assert.equal(vanLate({ trip: 1, vehicle: 4 }, plans(), told([]), 550), null);
    assert.equal(vanLate({ trip: 1, vehicle: 9 }, null, told([]), 550), null);
    assert.equal(vanLate({ trip: 1, vehicle: 9 }, plans(), null, 550), null);
});

test("an outcome of the desk counts as on the board", () => {
    assert.equal(late(2, [], 575, { outcomes: { 1: "ridden" } }).isNext, true);
    assert.equal(late(1, [], 575, { outcomes: { 1: "missed-rider" } }), null);
});

test("a file that is old or of another day is none; a stop of another form is left out", () => {
    assert.equal(plansIn(file(), DAY, MADE + 899_999)?.vehicles.size, 1);
    for (const [text, day, now] of [
        [file(), DAY, MADE + 900_000],
        [file(), "2025-03-12", MADE],
        [null, DAY, MADE],
        [undefined, DAY, MADE],
        ["", DAY, MADE],
        ["[]", DAY, MADE],
        ["{", DAY, MADE],
        [file({ made: "soon" }), DAY, MADE]
    ])
        assert.equal(plansIn(text, day, now), null, String(text).slice(0, 40));
    const odd = plansIn(
        file({
            vehicles: { 9: [null, 7, { at: "9" }, { at: 540, what: "PICK" }, ...STOPS], 10: "none" }
        }),
        DAY,
        MADE
    );
    assert.equal(odd?.vehicles.get(9)?.length, STOPS.length);
    assert.deepEqual(odd?.vehicles.get(10), []);
});
