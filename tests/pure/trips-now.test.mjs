// How each trip of a day stands, and which trips a filter leaves.
import assert from "node:assert/strict";
import test from "node:test";
import { countsOf, FILTERS, filterFor, leaves, standingOf } from "../../pages/parts/trips-now.js";

const row = (trip, status = "booked", from = 780, more = {}) => ({
    trip,
    rider: 1,
    day: "2025-03-11",
    wish: from,
    from: 1,
    to: 2,
    vehicle: 1,
    window_from: from,
    window_to: from + 30,
    due: 350,
    status,
    planned: from + 10,
    drop: from + 40,
    ...more
});
const late = (more = {}) =>
    new Map([[
        1,
        {
            vehicle: 1,
            last: null,
            delay: 0,
            silent: 0,
            far: -1,
            next: 0,
            risks: [],
            passed: [],
            ...more
        }
    ]]);
const known = (now, more = {}) => ({
    now,
    isToday: true,
    lates: new Map(),
    taps: () => [],
    unconfirmed: new Set(),
    disputed: new Map(),
    ...more
});
const kind = (it, has) => standingOf(it, has).kind;

test("an outcome says how a trip ended, and that a no-show waits for somebody", () => {
    assert.deepEqual(
        ["ridden", "cancelled", "missed-operator", "missed-rider"].map((it) =>
            kind(row(1, it), known(790))
        ),
        ["completed", "canceled", "missed", "no-show"]
    );
    assert.equal(
        kind(row(7, "missed-rider"), known(790, { unconfirmed: new Set([7]) })),
        "confirm"
    );
});

test("an outcome that somebody contradicts says so in its row", () => {
    const has = known(790, { disputed: new Map([[7, "aboard"], [8, "missed-rider"]]) });
    assert.deepEqual(
        [
            kind(row(7, "missed-rider"), has),
            kind(row(7, "missed-operator"), has),
            kind(row(8, "ridden"), has)
        ],
        ["says-aboard", "says-aboard", "disagree"]
    );
    assert.deepEqual(
        [kind(row(9, "missed-rider"), has), kind(row(7), has)],
        ["no-show", "to-come"]
    );
});

test("a trip without an outcome is to come, late, aboard, past its window, or just that", () => {
    assert.equal(kind(row(1), known(700)), "to-come");
    assert.deepEqual(standingOf(row(1), known(700, { lates: late({ delay: 8 }) })), {
        kind: "late",
        minutes: 8
    });
    assert.deepEqual(
        standingOf(
            row(1),
            known(800, {
                lates: late({ delay: 8 }),
                taps: () => [{ trip: 1, kind: "aboard", minute: 795 }]
            })
        ),
        { kind: "aboard", minutes: 828 }
    );
    assert.deepEqual(
        standingOf(row(1), known(700, { lates: late({ risks: [{ trip: 1, past: 14 }] }) })),
        { kind: "past-window", minutes: 14 }
    );
    assert.deepEqual(standingOf(row(1), known(830)), { kind: "no-outcome", minutes: 10 });
    assert.deepEqual(standingOf(row(1), known(800, { lates: late({ silent: 46 }) })), {
        kind: "no-update",
        minutes: 46
    });
    assert.equal(kind(row(1), known(700, { lates: late({ silent: 46 }) })), "to-come");
    assert.equal(kind(row(1), known(-1, { isToday: false })), "to-come");
    assert.equal(kind(row(1), known(Infinity, { isToday: false })), "no-outcome");
});

test("each filter leaves what its name says", () => {
    const all = [
        row(1, "ridden", 400),
        row(2, "missed-rider", 760),
        row(3, "booked", 700),
        row(4, "booked", 800),
        row(5, "booked", 1_100),
        row(6, "cancelled", 800)
    ];
    const has = known(790, { lates: late({ risks: [{ trip: 4, past: 3 }] }) }),
        those = all.map((it) => ({ row: it, standing: standingOf(it, has) }));
    const left = Object.fromEntries(
        FILTERS.map((filter) => [
            filter,
            those.filter((it) => leaves(filter, it.row, it.standing, has)).map((it) => it.row.trip)
        ])
    );
    assert.deepEqual(left, {
        now: [2, 3, 4],
        all: [1, 2, 3, 4, 5, 6],
        open: [3],
        risk: [4],
        come: [4, 5],
        "no-show": [2]
    });
    assert.deepEqual(countsOf(those, has), {
        now: 3,
        all: 6,
        open: 1,
        risk: 1,
        come: 2,
        "no-show": 1
    });
});

test("every trip that is booked needs an outcome or is to come, never both", () => {
    for (let now = 0; now < 1_440; now += 1)
        for (const it of [row(1), row(2, "booked", 60), row(3, "booked", 1_380)]) {
            const has = known(now), standing = standingOf(it, has);
            assert.equal(
                Number(leaves("open", it, standing, has)) +
                    Number(leaves("come", it, standing, has)),
                1
            );
        }
});

test("what is on now is shown first, and a search goes over all trips", () => {
    const counts = { now: 2, all: 9, open: 0, risk: 0, come: 0, "no-show": 0 };
    assert.deepEqual(
        [
            filterFor(null, "", counts),
            filterFor(null, "okon", counts),
            filterFor(null, "", { ...counts, now: 0 }),
            filterFor("risk", "okon", counts)
        ],
        ["now", "all", "all", "risk"]
    );
});
