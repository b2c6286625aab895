// How late a van is by what was told, and what needs a person.
import assert from "node:assert/strict";
import test from "node:test";
import { attentionOf, lateOf, notesOfDay, saidAboard, toldIn } from "../../pages/parts/lateness.js";
import { overOf } from "../../pages/parts/texts.js";

const DAY = "2026-03-10";
const pick = (trip, at, from = at - 5) => ({
    line: "",
    what: "PICK",
    trip,
    rider: 1000 + trip,
    place: 1,
    at,
    window: [from, from + 30],
    load: 1,
    people: 1,
    wheelchairs: 0
});
const drop = (trip, at) => ({
    line: "",
    what: "DROP",
    trip,
    rider: 1000 + trip,
    place: 2,
    at,
    window: null,
    load: 0,
    people: 1,
    wheelchairs: 0
});
const depot = (at) => ({
    line: "",
    what: "DEPOT",
    place: 5,
    at,
    load: 0,
    people: 0,
    wheelchairs: 0
});
const VAN = {
    vehicle: 9,
    day: "2026-03-10",
    lines: [],
    text: "",
    stops: [
        depot(500),
        pick(1, 540),
        drop(1, 560),
        pick(2, 580),
        drop(2, 600),
        pick(3, 660),
        drop(3, 680),
        depot(700)
    ]
};
const late = (taps, now, doings = new Map()) => lateOf(VAN, taps, doings, now);
const tap = (trip, kind, minute) => ({ trip, kind, minute });

test("before the first stop nothing is late", () => {
    assert.deepEqual([late([], 530).delay, late([], 530).silent], [0, 0]);
});

test("a stop that is overdue makes the van late, and after a while without update", () => {
    assert.deepEqual([late([], 552).delay, late([], 552).silent], [12, 0]);
    assert.deepEqual([late([], 570).delay, late([], 570).silent], [0, 30]);
});

test("a tap tells the delay, which is carried on to the coming windows", () => {
    const it = late([tap(1, "arrived", 560), tap(1, "aboard", 564)], 566);
    assert.equal(it.delay, 24);
    assert.deepEqual(it.risks.map(({ trip, due, past }) => [trip, due, past]), []);
    const worse = late([tap(1, "aboard", 575)], 576);
    assert.deepEqual(
        [worse.delay, worse.risks.map(({ trip, due, past }) => [trip, due, past])],
        [35, [[2, 615, 10]]]
    );
});

test("a van that caught up is not late", () => {
    assert.equal(
        late(
            [
                tap(1, "aboard", 575),
                tap(1, "dropped", 580),
                tap(2, "arrived", 578),
                tap(2, "aboard", 579),
                tap(2, "dropped", 600)
            ],
            601
        ).delay,
        0
    );
});

test("who waits at a stop is not overdue there", () => {
    assert.equal(late([tap(1, "arrived", 538)], 545).delay, 0);
});

test("an outcome of the desk tells as a tap does, and ended trips are at no risk", () => {
    const doings = new Map([
        [1, { state: "ridden", minutes: 0 }],
        [2, { state: "missed-rider", minutes: 0 }]
    ]);
    assert.deepEqual([late([], 650, doings).delay, late([], 650, doings).silent], [0, 0]);
    assert.deepEqual(
        late(
            [tap(1, "aboard", 620)],
            621,
            new Map([[3, { state: "cancelled", minutes: 0 }], [2, { state: "ridden", minutes: 0 }]])
        ).risks,
        []
    );
});

test("taps of other trips, and taps out of order, change nothing", () => {
    assert.equal(late([tap(99, "aboard", 800)], 545).last, null);
    assert.equal(late([tap(1, "dropped", 562), tap(1, "aboard", 541)], 563).delay, 2);
});

test("a rider whom the van passed by has no update after the window until somebody reports", () => {
    const both = {
        ...VAN,
        stops: [
            depot(500),
            pick(1, 540),
            pick(2, 545),
            drop(1, 560),
            drop(2, 600),
            pick(3, 660),
            drop(3, 680),
            depot(700)
        ]
    },
        ridden = new Map([[1, { state: "ridden", minutes: 0 }]]);
    const risks = (taps, now, doings = ridden) =>
        lateOf(both, taps, doings, now).passed.map(({ trip, due, past }) => [trip, due, past]),
        begun = [tap(1, "aboard", 541)];
    assert.deepEqual(risks(begun, 571), [[2, 571, 1]]);
    assert.deepEqual(risks([...begun, tap(2, "skipped", 546)], 571), [[2, 571, 1]]);
    assert.deepEqual(risks(begun, 570), []);
    assert.deepEqual(risks([...begun, tap(2, "arrived", 546)], 571, new Map()), []);
    assert.deepEqual(risks([...begun, tap(2, "arrived", 546)], 571), [[2, 571, 1]]);
    for (const kind of ["aboard", "no-show", "missed", "dropped"])
        assert.deepEqual(risks([...begun, tap(2, kind, 546)], 571), []);
    for (const state of ["ridden", "missed-rider", "missed-operator", "cancelled"])
        assert.deepEqual(risks(begun, 571, new Map([...ridden, [2, { state, minutes: 0 }]])), []);
    assert.deepEqual(risks([], 571), []);
});

// Van 6 of a day: two pickups close together, then their drops.
const CLOSE = {
    ...VAN,
    stops: [
        depot(590),
        { ...pick(73, 607), load: 1 },
        { ...pick(57, 610), load: 2 },
        { ...drop(73, 631), load: 1 },
        drop(57, 650),
        pick(80, 660),
        drop(80, 690),
        depot(700)
    ]
};
const FAITHFUL = [tap(73, "aboard", 623), tap(57, "arrived", 625)];

test("an outcome without a tap keeps the delay; a pickup with an arrival has no update", () => {
    const it = lateOf(CLOSE, FAITHFUL, new Map([[73, { state: "ridden", minutes: 0 }]]), 626);
    assert.deepEqual(
        [it.delay, it.silent, it.risks.map(({ trip, due }) => [trip, due])],
        [15, 0, []]
    );
    const later = lateOf(CLOSE, FAITHFUL, new Map([[73, { state: "ridden", minutes: 0 }]]), 641);
    assert.deepEqual([later.delay, later.passed.map(({ trip }) => trip)], [15, [57]]);
    const tapped = lateOf(
        CLOSE,
        [...FAITHFUL, tap(73, "dropped", 626)],
        new Map([[73, { state: "ridden", minutes: 0 }]]),
        641
    );
    assert.deepEqual([tapped.delay, tapped.passed.map(({ trip }) => trip)], [15, [57]]);
    const two = {
        ...VAN,
        stops: [pick(1, 601), { ...drop(39, 616), load: 1 }, drop(1, 628), depot(700)]
    };
    assert.equal(
        lateOf(
            two,
            [tap(1, "aboard", 636)],
            new Map([[39, { state: "ridden", minutes: 0 }]]),
            637
        ).delay,
        35
    );
});

test("a stop that is skipped late shows no delay of its own", () => {
    assert.equal(late([tap(1, "aboard", 552), tap(2, "skipped", 590)], 591).delay, 12);
});

test("what is told from afar raises a delay and never lowers it", () => {
    for (const kind of ["skipped", "missed"])
        assert.equal(late([tap(1, "aboard", 560), tap(2, kind, 561)], 562).delay, 20);
    assert.equal(late([tap(1, "aboard", 560), tap(1, "dropped", 561)], 562).delay, 1);
});

test("only pickups to come will miss their windows; one behind the van is without update", () => {
    const it = lateOf(
        CLOSE,
        [tap(73, "aboard", 623), tap(73, "dropped", 660)],
        new Map([[73, { state: "ridden", minutes: 0 }]]),
        664
    );
    assert.deepEqual(
        [it.risks.map(({ trip }) => trip), it.passed.map(({ trip }) => trip)],
        [[80], [57]]
    );
    const needs = attentionOf([it], null, new Map(), []);
    assert.deepEqual(
        [needs.risk.map(({ trip }) => trip), needs.passed.map(({ trip }) => trip)],
        [[80], [57]]
    );
});

test("an empty van makes up its delay in planned time, less its longest way with riders", () => {
    const gap = (/** @type {number} */ minutes) => ({
        ...VAN,
        stops: [pick(1, 540), drop(1, 560), pick(2, 560 + minutes), drop(2, 580 + minutes)]
    }),
        taps = [tap(1, "aboard", 570), tap(1, "dropped", 590)];
    for (const [minutes, delay] of [[20, 30], [30, 20], [50, 0], [180, 0]])
        assert.equal(lateOf(gap(minutes), taps, new Map(), 560).delay, delay, `${minutes}`);
    assert.deepEqual(lateOf(gap(180), taps, new Map(), 595).risks, []);
    const loaded = {
        ...VAN,
        stops: [pick(1, 540), { ...pick(2, 700), load: 2 }, drop(2, 720), drop(1, 730)]
    };
    assert.equal(lateOf(loaded, [tap(1, "aboard", 570)], new Map(), 571).delay, 30);
});

test("a file that is old, of another day, or broken is none", () => {
    const text = JSON.stringify({
        day: "2026-03-10",
        made: "2026-03-10T15:00:00Z",
        vehicles: { 9: { taps: [tap(1, "aboard", 541), { trip: "x" }] }, 10: {} },
        notes: null
    });
    const now = Date.parse("2026-03-10T15:00:20Z");
    assert.deepEqual(toldIn(text, "2026-03-10", now).vehicles.get(9), [tap(1, "aboard", 541)]);
    assert.equal(toldIn(text, "2026-03-11", now), null);
    assert.equal(toldIn(text, "2026-03-10", now + 200_000), null);
    for (const broken of [null, "", "{", "[]", "null"])
        assert.equal(toldIn(broken, "2026-03-10", now), null);
});

test("what needs a person has the worst first", () => {
    const lates = [
        { vehicle: 1, delay: 8, silent: 0, risks: [], passed: [], last: null },
        { vehicle: 2, delay: 24, silent: 0, risks: [], passed: [], last: null },
        { vehicle: 3, delay: 0, silent: 46, risks: [], passed: [], last: null },
        { vehicle: 4, delay: 4, silent: 0, risks: [], passed: [], last: null }
    ];
    const doings = new Map([
        [1, { state: "no-word", minutes: 20 }],
        [2, { state: "missed-rider", minutes: 0 }]
    ]);
    const told = {
        day: "2026-03-10",
        vehicles: new Map(),
        notes: [],
        noShows: [{ trip: 1 }, { trip: 2 }],
        disagreements: [{ trip: 3 }],
        late: []
    };
    const it = attentionOf(lates, told, doings, [VAN]);
    assert.deepEqual(
        [
            it.late.map(({ vehicle }) => vehicle),
            it.silent.length,
            it.noShows.length,
            it.disagreements.length,
            it.open
        ],
        [[2, 1], 1, 2, 1, [{ vehicle: 9, count: 1 }]]
    );
});

test("a no-show waits for dispatch also once the desk has it, and of an earlier day too", () => {
    const noShow = {
        day: "2026-03-09",
        trip: 2,
        vehicle: 9,
        from: 545,
        to: 560,
        arrived: 575,
        wait: 5,
        minute: 580
    };
    const text = JSON.stringify({
        day: "2026-03-10",
        made: "2026-03-10T15:00:00Z",
        vehicles: {},
        no_shows: [],
        unreviewed: { no_shows: [noShow], disagreements: null },
        late: [
            { vehicle: 4, trip: 97, kind: "dropped", at: "2026-03-09T18:40:00" },
            { vehicle: "x" }
        ]
    });
    const told = toldIn(text, "2026-03-10", Date.parse("2026-03-10T15:00:20Z"));
    assert.deepEqual(
        attentionOf([], told, new Map([[2, { state: "missed-rider", minutes: 0 }]]), []).noShows,
        [noShow]
    );
    assert.deepEqual(told.disagreements, []);
    assert.deepEqual(told.late.map(({ vehicle }) => vehicle), [4]);
});

test("a no-show on which two devices disagree waits once, among the entries that disagree", () => {
    const noShows = [{ day: DAY, trip: 1, minute: 600 }, { day: DAY, trip: 2, minute: 610 }];
    const disagreements = [
        { day: DAY, trip: 2, minute: 612, told: "ridden" },
        { day: DAY, trip: 2, minute: 640, told: "ridden" }
    ];
    const it = attentionOf(
        [],
        { day: DAY, vehicles: new Map(), notes: [], noShows, disagreements, late: [] },
        new Map(),
        []
    );
    assert.deepEqual(
        [
            it.noShows.map(({ trip }) => trip),
            it.disagreements.map(({ trip, minute }) => [trip, minute])
        ],
        [[1], [[2, 612]]]
    );
});

test("notes of the day before are those of that day, and today's are today's", () => {
    const note = (text) => ({ vehicle: 1, trip: 0, text, minute: 600 }),
        now = Date.parse("2026-03-11T14:00:00Z");
    const file = {
        day: "2026-03-11",
        made: "2026-03-11T14:00:00Z",
        notes: [note("new")],
        earlier_notes: [{ ...note("flat"), day: "2026-03-10" }]
    };
    const told = toldIn(JSON.stringify(file), "2026-03-11", now),
        texts = (day) => notesOfDay(told, day).map(({ text }) => text);
    assert.deepEqual(["2026-03-09", "2026-03-10", "2026-03-11"].map(texts), [
        [],
        ["flat"],
        ["new"]
    ]);
    assert.deepEqual(
        notesOfDay(
            toldIn(JSON.stringify({ ...file, earlier_notes: undefined }), "2026-03-11", now),
            "2026-03-10"
        ),
        []
    );
    assert.deepEqual(notesOfDay(null, "2026-03-10"), []);
});

test("what is over is known for paper: every status but booked", () => {
    const over = overOf(
        ["booked", "ridden", "missed-rider", "missed-operator", "cancelled"].map((status, at) => ({
            trip: at + 1,
            status
        }))
    );
    assert.deepEqual([1, 2, 3, 4, 5, 6].map(over), [
        "", "ridden", "missed-rider", "missed-operator", "cancelled", ""
    ]);
});

test("a tap aboard against dispatch's no-show disagrees until dispatch settles it", () => {
    const record = {
        day: DAY,
        trip: 1,
        vehicle: 9,
        record: "missed-rider",
        told: "aboard",
        minute: 541
    },
        doings = new Map([[1, { state: "missed-rider", minutes: 0 }]]);
    const told = (more = {}) => ({
        day: DAY,
        vehicles: new Map([[
            9,
            [tap(1, "arrived", 540), tap(1, "aboard", 541), tap(1, "dropped", 560)]
        ]]),
        noShows: [],
        disagreements: [],
        settled: [],
        ...more
    });
    assert.deepEqual(attentionOf([], told(), doings, []).disagreements, [record]);
    assert.deepEqual(saidAboard(told(), new Map([[1, { state: "ridden", minutes: 0 }]])), []);
    assert.deepEqual(saidAboard(told(), new Map()), []);
    assert.deepEqual(saidAboard(null, doings), []);
    assert.deepEqual(
        saidAboard(
            told({ settled: [{ day: DAY, trip: 1, outcome: "ridden", minute: 570 }] }),
            doings
        ),
        []
    );
    assert.equal(
        saidAboard(
            told({ settled: [{ day: DAY, trip: 1, outcome: "ridden", minute: 530 }] }),
            doings
        ).length,
        1
    );
    const entered = {
        day: DAY,
        trip: 1,
        vehicle: 9,
        record: "missed-rider",
        told: "ridden",
        minute: 561
    };
    assert.deepEqual(
        attentionOf([], told({ disagreements: [entered] }), doings, []).disagreements,
        [entered]
    );
    const noShow = {
        day: DAY,
        trip: 1,
        vehicle: 9,
        from: 535,
        to: 565,
        arrived: null,
        wait: 0,
        minute: 540
    };
    assert.deepEqual(attentionOf([], told({ noShows: [noShow] }), doings, []).noShows, []);
});
