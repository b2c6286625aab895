import assert from "node:assert/strict";
import { test } from "node:test";

import { progressOf } from "../../pages/parts/delay.js";
import { lateOf } from "../../pages/parts/lateness.js";
import {
    aboardBefore,
    arranged,
    behindBy,
    choicesAt,
    dayOf,
    doubtWords,
    evidenceOf,
    foldedStops,
    isThere,
    justTapped,
    leftOpen,
    minuteOn,
    minutesToWindow,
    othersHave,
    plannedIs,
    skipped,
    stopBefore
} from "../../pages/screens/driver-day.js";

const DAY = "2025-03-11";
const STOPS = [
    { at: 480, what: "DEPOT", place: 5, load: 0 },
    { at: 515, what: "PICK", place: 2, load: 1, trip: 9, rider: 1001, window: [510, 525] },
    { at: 540, what: "DROP", place: 3, load: 0, trip: 9, rider: 1001 },
    { at: 560, what: "DEPOT", place: 5, load: 0 },
];
const at = (
    minute,
    second = 0
) => `${minute >= 1440 ? "2025-03-12" : DAY}T${[Math.floor(minute / 60) % 24, minute % 60, second]
    .map((it) => String(it).padStart(2, "0")).join(":")}`;
const entry = (stop, what, moment, state = "kept") => ({
    state,
    denied: null,
    tap: {
        stop,
        trip: stop.startsWith("PICK") || stop.startsWith("DROP") ? 9 : 0,
        rider: 1001,
        what,
        at: moment
    }
});
const pickup = (log) => dayOf(STOPS, log).stops[1];
const drop = (log) => dayOf(STOPS, log).stops[2];

/** The doubt of a no-show that is told at a minute, where the van arrived at another one. */
const doubt = (arrived, now) =>
    evidenceOf(
        pickup(arrived === null ? [] : [entry("PICK 9", "arrived", at(arrived))]),
        5,
        DAY,
        at(now)
    ).doubt;

test("each minute of an arrival and of a no-show has its doubt", () => {
    for (let arrived = 490; arrived <= 540; arrived += 1) {
        for (let now = arrived; now <= 560; now += 1) {
            const wanted =
                arrived > 525
                    ? "late"
                    : now < 510
                    ? "early"
                    : now - Math.max(arrived, 510) < 5
                    ? "wait"
                    : null;
            assert.equal(doubt(arrived, now), wanted, `arrived ${arrived}, told ${now}`);
        }
    }
});

test("without an arrival it is always doubtful", () => {
    for (let now = 480; now <= 600; now += 1)
        assert.equal(doubt(null, now), now > 525 ? "late" : now < 510 ? "early" : "not-arrived");
});

test("that the driver came late is said where the arrival is marked", () => {
    assert.deepEqual(
        [
            doubtWords({ doubt: "late", arrived: 530 }),
            doubtWords({ doubt: "late", arrived: null }),
            doubtWords({ doubt: "wait", arrived: 515 })
        ],
        ["late", "late-unmarked", "wait"]
    );
});

test("the wait counts from the window's begin, to the second", () => {
    const log = [entry("PICK 9", "arrived", at(500, 30))];
    assert.equal(evidenceOf(pickup(log), 5, DAY, at(514, 59)).doubt, "wait");
    assert.deepEqual(evidenceOf(pickup(log), 5, DAY, at(515)), {
        promise: [510, 525],
        arrived: 500,
        waited: 300,
        doubt: null
    });
    const after = [entry("PICK 9", "arrived", at(512, 30))];
    assert.equal(evidenceOf(pickup(after), 5, DAY, at(517, 29)).doubt, "wait");
    assert.equal(evidenceOf(pickup(after), 5, DAY, at(517, 30)).doubt, null);
});

test("a van that comes after midnight is late, not early", () => {
    assert.equal(minuteOn("2025-03-12T00:05:00", DAY), 1445);
    assert.equal(
        evidenceOf(
            pickup([entry("PICK 9", "arrived", "2025-03-12T00:05:00")]),
            5,
            DAY,
            "2025-03-12T00:12:00"
        ).doubt,
        "late"
    );
});

test("another phone's aboard speaks against a no-show at any time; this phone's does not", () => {
    const known = (how) => ({ 9: { how, minute: 530 } }),
        here = [entry("PICK 9", "arrived", at(500))];
    for (const how of ["aboard", "ridden"]) assert.equal(othersHave(known(how), here, 9), how);
    for (const how of ["missed-rider", "missed-operator"])
        assert.equal(othersHave(known(how), here, 9), null);
    assert.equal(
        othersHave(known("aboard"), [...here, entry("PICK 9", "aboard", at(530))], 9),
        null
    );
    assert.equal(othersHave(known("aboard"), [entry("PICK 9", "undone", at(530))], 9), null);
    assert.equal(othersHave(known("aboard"), [entry("PICK 9", "undone", at(520))], 9), "aboard");
    assert.deepEqual(
        [
            othersHave({}, here, 9),
            othersHave(known("aboard"), here, 8),
            othersHave(known("aboard"), here, undefined)
        ],
        [null, null, null]
    );
});

test("at the drop the pickup's window and arrival count", () => {
    assert.equal(evidenceOf(drop([]), 5, DAY, at(545)).doubt, "not-arrived");
    assert.equal(
        evidenceOf(drop([entry("PICK 9", "arrived", at(530))]), 5, DAY, at(545)).doubt,
        "late"
    );
    assert.equal(
        evidenceOf(drop([entry("PICK 9", "arrived", at(515))]), 5, DAY, at(545)).doubt,
        null
    );
});

test("where the van came late, the agency's fault comes first, and nothing is taken away", () => {
    for (const log of [[], [entry("PICK 9", "arrived", at(530))]]) {
        const plain = choicesAt(pickup(log), true), late = choicesAt(pickup(log), true, true);
        assert.deepEqual([...plain].sort(), [...late].sort());
        assert.ok(late.indexOf("missed-operator") < late.indexOf("missed-rider"));
        assert.ok(plain.indexOf("missed-rider") < plain.indexOf("missed-operator"));
    }
});

test("how far the van is behind is told by the last tap, or by the next rider's stop", () => {
    const told = (log, now) => behindBy(dayOf(STOPS, log).stops, log, DAY, at(now));
    assert.equal(told([], 470), 0);
    // (nobody waits at the depot)
    assert.deepEqual([told([], 491), told([], 529)], [0, 14]);
    const log = [
        entry("out", "left", at(480)),
        entry("PICK 9", "arrived", at(526)),
        entry("PICK 9", "aboard", at(528))
    ];
    assert.equal(told(log, 529), 13);
    assert.equal(told(log, 560), 20);
    assert.equal(told([entry("out", "left", at(480)), entry("PICK 9", "aboard", at(511))], 512), 0);
    // (who waits at a pickup is not late there)
    assert.equal(told([entry("PICK 9", "arrived", at(514))], 521), 0);
    // (an outcome that was told later than it happened is no time of a drop)
    assert.equal(
        told(
            [{
                ...entry("DROP 9", "ridden", at(700), "done"),
                tap: { ...entry("DROP 9", "ridden", at(700)).tap, untold: true }
            }],
            700
        ),
        0
    );
});

test("the card says late with the number of the bar alone", () => {
    const cardAt = (log, now) => {
        const { stops, next } = dayOf(STOPS, log);
        return plannedIs(stops[next].at - now, behindBy(stops, log, DAY, at(now)));
    };
    // (at the depot the rider's stop is late by 8, and the departure was 43 minutes ago)
    assert.deepEqual(cardAt([], 523), { says: "ago", minutes: 43 });
    const out = entry("out", "left", at(480));
    assert.deepEqual(cardAt([out], 523), { says: "late", minutes: 8 });
    // (who waits at a pickup is not late there)
    assert.deepEqual(cardAt([out, entry("PICK 9", "arrived", at(514))], 521), {
        says: "ago",
        minutes: 6
    });
    assert.deepEqual(plannedIs(3, 8), { says: "about", minutes: 8 });
    assert.deepEqual(plannedIs(-3, 8), { says: "about", minutes: 8 });
    assert.deepEqual([plannedIs(9, 0), plannedIs(0, 0)], [
        { says: "in", minutes: 9 },
        { says: "now", minutes: 0 }
    ]);
});

// Three trips, two of them together in the van.
const SHARED = [
    { at: 480, what: "DEPOT", place: 5, load: 0 },
    { at: 515, what: "PICK", place: 2, load: 1, trip: 1, rider: 1001, window: [510, 525] },
    { at: 525, what: "PICK", place: 3, load: 2, trip: 2, rider: 1002, window: [520, 540] },
    { at: 545, what: "DROP", place: 4, load: 1, trip: 1, rider: 1001 },
    { at: 560, what: "DROP", place: 4, load: 0, trip: 2, rider: 1002 },
    { at: 640, what: "PICK", place: 2, load: 1, trip: 3, rider: 1003, window: [630, 650] },
    { at: 660, what: "DROP", place: 3, load: 0, trip: 3, rider: 1003 },
    { at: 700, what: "DEPOT", place: 5, load: 0 },
];
const ON_BOARD = {
    arrived: "arrived",
    aboard: "aboard",
    ridden: "dropped",
    left: "skipped",
    "missed-rider": "no-show",
    "missed-operator": "missed"
};
/** Of so many a number below it, by a fixed row of numbers. */
const numbers = (seed) => () => ((seed = (seed * 1103515245 + 12345) % 2 ** 31) / 2 ** 31);

/** A driver's taps: some stops in their order, each with what can be tapped there. */
function tapped(chance) {
    const log = [];
    let minute = 470 + Math.floor(chance() * 60);
    for (const stop of SHARED.filter(({ trip }) => trip)) {
        if (chance() < 0.2) continue;
        const shown = dayOf(SHARED, log).stops.find(
            ({ name }) => name === `${stop.what} ${stop.trip}`
        );
        const choices = choicesAt(shown, true),
            what = choices[Math.floor(chance() * choices.length)];
        minute += Math.floor(chance() * 25);
        if (what)
            log.push({
                state: "kept",
                denied: null,
                tap: { stop: shown.name, trip: stop.trip, rider: stop.rider, what, at: at(minute) }
            });
    }
    return { log, minute };
}

test("the phone and the board say the same delay, before the first tap and after each", () => {
    for (let seed = 1; seed <= 400; seed += 1) {
        const { log, minute } = tapped(numbers(seed));
        for (let count = 0; count <= log.length; count += 1) {
            const some = log.slice(0, count),
                from = count
                    ? Number(some[count - 1].tap.at.slice(11, 13)) * 60 +
                          Number(some[count - 1].tap.at.slice(14, 16))
                    : 470;
            const taps = some.map(({ tap }) => ({
                trip: tap.trip,
                kind: ON_BOARD[tap.what],
                minute: Number(tap.at.slice(11, 13)) * 60 + Number(tap.at.slice(14, 16)),
                ...(["left", "missed-rider", "missed-operator"].includes(tap.what)
                    ? { stop: tap.stop.startsWith("DROP") ? "drop-off" : "pickup" }
                    : {})
            }));
            for (let now = from; now <= minute + 30; now += 7) {
                const board = lateOf(
                    { vehicle: 9, day: DAY, lines: [], text: "", stops: SHARED },
                    taps,
                    new Map(),
                    now
                );
                assert.equal(
                    behindBy(dayOf(SHARED, some).stops, some, DAY, at(now)),
                    board.delay || board.silent,
                    `seed ${seed}, ${count} taps, ${now}`
                );
            }
        }
    }
});

test("what another phone or dispatch told counts on the phone as on the board", () => {
    const aboard = { 1: { how: "aboard", minute: 540 } },
        record = { 1: { how: "ridden", minute: null }, 2: { how: "missed-rider", minute: null } };
    assert.equal(
        behindBy(dayOf(SHARED, [], aboard).stops, [], DAY, at(541), aboard),
        lateOf(
            { vehicle: 9, stops: SHARED },
            [{ trip: 1, kind: "aboard", minute: 540 }],
            new Map(),
            541
        ).delay
    );
    const doings = new Map([
        [1, { state: "ridden", minutes: 0 }],
        [2, { state: "missed-rider", minutes: 0 }]
    ]);
    assert.deepEqual(
        [
            behindBy(dayOf(SHARED, [], record).stops, [], DAY, at(652), record),
            lateOf({ vehicle: 9, stops: SHARED }, [], doings, 652).delay
        ],
        [12, 12]
    );
});

test("a skip is of the stop that was skipped", () => {
    const reached = (...taps) => progressOf(SHARED, taps, new Map(), 700).far;
    assert.deepEqual(
        [
            reached({ trip: 1, kind: "skipped", minute: 600, stop: "pickup" }),
            reached({ trip: 1, kind: "skipped", minute: 600, stop: "drop-off" })
        ],
        [0, 2]
    );
    // (an older page does not say which: once the pickup was told of, it is the drop-off)
    for (const kind of ["aboard", "skipped"])
        assert.equal(
            reached({ trip: 1, kind, minute: 520 }, { trip: 1, kind: "skipped", minute: 600 }),
            2
        );
    assert.equal(reached({ trip: 1, kind: "skipped", minute: 600 }), 0);
});

test("what is left of a day that is over is told by the taps alone", () => {
    assert.equal(leftOpen([]), 0);
    assert.equal(leftOpen([entry("PICK 9", "aboard", at(515))]), 1);
    assert.equal(
        leftOpen([entry("PICK 9", "aboard", at(515)), entry("DROP 9", "ridden", at(540), "done")]),
        0
    );
    assert.equal(
        leftOpen([
            entry("PICK 9", "aboard", at(515)),
            entry("DROP 9", "ridden", at(540), "waiting")
        ]),
        1
    );
    assert.equal(leftOpen([entry("PICK 9", "missed-rider", at(520), "denied")]), 1);
});

test("a note at a stop changes nothing of the stop", () => {
    const log = [entry("PICK 9", "note", at(515))];
    assert.equal(pickup(log).done, false);
    assert.deepEqual(choicesAt(pickup(log), true), choicesAt(pickup([]), true));
});

test("a driver who takes over a van reads how trips ended, and is sent past them", () => {
    const record = { 9: { how: "missed-rider", minute: null } },
        taken = dayOf(STOPS, [entry("out", "left", at(600))], record);
    assert.deepEqual(
        taken.stops.map(({ done, elsewhere, isOnRecord }) => [done, elsewhere, isOnRecord]),
        [
            [true, null, false],
            [true, "missed-rider", true],
            [true, "missed-rider", true],
            [false, null, false]
        ]
    );
    assert.deepEqual(choicesAt(taken.stops[1], true), []);
    // (also where the stops before the next one were passed)
    const passed = dayOf(
        STOPS,
        [entry("PICK 9", "left", at(600)), entry("DROP 9", "left", at(600))],
        record
    );
    assert.equal(passed.stops[2].elsewhere, "missed-rider");
    // (what this phone told itself is shown as ever)
    assert.equal(
        dayOf(STOPS, [entry("DROP 9", "ridden", at(541), "done")], record).stops[2].elsewhere,
        null
    );
});

test("who was not picked up is not counted as aboard", () => {
    const staying = (known) => dayOf(SHARED, [], known).stops.map((stop) => stop.staying);
    assert.deepEqual(staying({}), [0, 1, 2, 1, 0, 1, 0, 0]);
    assert.deepEqual(
        staying({ 1: { how: "missed-rider", minute: null } }),
        [0, 0, 1, 1, 0, 1, 0, 0]
    );
    const both = dayOf(
        STOPS.map((it) => (it.what === "PICK" ? { ...it, chairs: 1 } : it)),
        [entry("PICK 9", "missed-operator", at(526))]
    );
    assert.deepEqual(both.stops.map((stop) => stop.staying), [0, 0, 0, 0]);
});

test("another phone's tap counts where it came before the first one here; no choice goes", () => {
    const aboard = { 9: { how: "aboard", minute: 516 } }, first = dayOf(STOPS, [], aboard);
    assert.deepEqual(first.stops.map(({ done }) => done), [false, true, false, false]);
    assert.deepEqual(
        skipped(dayOf(STOPS, [entry("out", "left", at(530))], aboard).stops, "back").map(
            ({ name }) => name
        ),
        []
    );
    assert.deepEqual(choicesAt(first.stops[2], true), [
        "ridden", "missed-rider", "missed-operator", "left"
    ]);
    // (it may be one of this phone's own that was undone)
    assert.equal(dayOf(STOPS, [entry("out", "left", at(480))], aboard).stops[1].done, false);
    const undone = dayOf(STOPS, [entry("PICK 9", "undone", at(516))], aboard).stops[1];
    assert.deepEqual([undone.done, undone.elsewhere, undone.taps], [false, null, []]);
});

test("the words of a no-show's question follow the clock until the wait is over", () => {
    const stop = {
        what: "PICK",
        promise: [545, 560],
        came: { tap: { at: "2026-03-10T09:06:00" } }
    };
    const words = (now) => doubtWords(evidenceOf(stop, 5, "2026-03-10", `2026-03-10T${now}`));
    assert.deepEqual(["09:00:00", "09:10:59", "09:11:00", "09:20:00"].map(words), [
        "early", "wait", "over", "over"
    ]);
});

test("the minutes until a pickup window opens are known before a missed pickup is told", () => {
    const left = (promise, now) => minutesToWindow({ promise }, "2026-03-10", `2026-03-10T${now}`);
    assert.deepEqual(
        [
            left([545, 560], "08:00:00"),
            left([545, 560], "09:04:59"),
            left([545, 560], "09:05:00"),
            left([545, 560], "10:00:00"),
            left(null, "08:00:00")
        ],
        [65, 1, 0, 0, 0]
    );
    assert.equal(minutesToWindow({ promise: [545, 560] }, "2026-03-10", "2026-03-11T00:05:00"), 0);
});

/** How the buttons of a stop are laid out. */
const laidOut = (stop, isLate = false) => arranged(stop, choicesAt(stop, true, isLate));

test("one button is large: arrival, then aboard; failed pickups join once the van is there", () => {
    assert.deepEqual(laidOut(pickup([])), {
        main: "arrived",
        beside: ["aboard"],
        more: ["missed-rider", "missed-operator", "left"]
    });
    const there = pickup([entry("PICK 9", "arrived", at(515))]);
    assert.deepEqual(laidOut(there), {
        main: "aboard",
        beside: ["missed-rider", "missed-operator"],
        more: ["left"]
    });
    assert.deepEqual(laidOut(there, true), {
        main: "aboard",
        beside: ["missed-operator", "missed-rider"],
        more: ["left"]
    });
});

test("where the van came late, the agency's fault comes first, before the arrival too", () => {
    assert.deepEqual(laidOut(pickup([]), true).more, ["missed-operator", "missed-rider", "left"]);
});

test("at a drop-off and at the depot the one thing to tell is large", () => {
    assert.deepEqual(laidOut(drop([entry("PICK 9", "aboard", at(515))])), {
        main: "ridden",
        beside: [],
        more: []
    });
    assert.deepEqual(laidOut(drop([])), {
        main: "ridden",
        beside: ["missed-rider", "missed-operator"],
        more: ["left"]
    });
    assert.deepEqual(laidOut(dayOf(STOPS, []).stops[0]), { main: "left", beside: [], more: [] });
    assert.deepEqual(arranged(pickup([]), []), { main: null, beside: [], more: [] });
});

test("no choice is lost or doubled by the layout", () => {
    for (const log of [
        [],
        [entry("PICK 9", "arrived", at(515))],
        [entry("PICK 9", "left", at(515))],
        [entry("PICK 9", "aboard", at(515))]
    ]) {
        for (const stop of dayOf(STOPS, log).stops) {
            for (const isLate of [false, true]) {
                const { main, beside, more } = laidOut(stop, isLate),
                    all = [...(main ? [main] : []), ...beside, ...more];
                assert.deepEqual([...all].sort(), [...choicesAt(stop, true, isLate)].sort());
            }
        }
    }
});

test("the van is at a pickup once its arrival is marked", () => {
    assert.deepEqual(
        [pickup([]), pickup([entry("PICK 9", "arrived", at(515))]), drop([])].map(isThere),
        [false, true, true]
    );
});

test("stops that are done are folded away, but for the last two, and never one alone", () => {
    const stops = Array.from({ length: 10 }, () => ({ done: true }));
    assert.deepEqual([0, 2, 3, 4, 9].map((next) => foldedStops(stops, next)), [0, 0, 0, 2, 7]);
    assert.equal(foldedStops(stops, -1), 8);
});

const pull = (what) => ({
    state: "kept",
    denied: null,
    tap: {
        stop: "van",
        trip: 0,
        rider: 0,
        what,
        at: at(470),
        reading: { minute: 470, odometer: 48_210 }
    }
});
const sinceAt = (stop, what, since, more = {}) => ({
    ...entry(stop, what, at(515)),
    since,
    ...more
});

test("the depot is left once the pull-out was entered, and reached once the pull-in was", () => {
    const done = (log) =>
        dayOf(STOPS, log).stops.filter(({ what }) => what === "DEPOT").map((stop) => stop.done);
    assert.deepEqual(done([]), [false, false]);
    assert.deepEqual(done([pull("pull_out")]), [true, false]);
    assert.deepEqual(done([pull("pull_out"), pull("pull_in")]), [true, true]);
    assert.deepEqual(done([entry("out", "left", at(470))]), [true, false]);
    assert.equal(dayOf(STOPS, [pull("pull_out")]).next, 1);
    assert.deepEqual(choicesAt(dayOf(STOPS, [pull("pull_out")]).stops[0], true), []);
});

test("a tap that led on can be undone where it was made, for some seconds alone", () => {
    const aboard = sinceAt("PICK 9", "aboard", 100_000);
    assert.equal(justTapped([aboard], 100_000), aboard);
    assert.equal(justTapped([aboard], 114_999), aboard);
    assert.equal(justTapped([aboard], 115_000), null);
    // (a clock that was set back keeps no bar for hours; what has the focus stays)
    assert.equal(justTapped([aboard], 80_000), null);
    assert.equal(justTapped([aboard], null), aboard);
    const skipped = sinceAt("PICK 9", "left", 100_000), depot = sinceAt("out", "left", 100_000);
    for (const it of [skipped, depot]) assert.equal(justTapped([it], 100_001), it);
    // (an arrival is undone at its stop, an outcome that the desk has not at all)
    for (const it of [
        sinceAt("PICK 9", "arrived", 100_000),
        sinceAt("PICK 9", "undone", 100_000),
        sinceAt("DROP 9", "ridden", 100_000, { state: "done" })
    ])
        assert.equal(justTapped([aboard, it], 100_001), null);
    assert.equal(justTapped([aboard, sinceAt("PICK 9", "note", 100_500)], 101_000), aboard);
    assert.equal(justTapped([], 0), null);
    // (many stops that were passed at once are no tap at the last of them)
    assert.equal(justTapped([sinceAt("out", "left", 100_000), skipped], 100_001), null);
});

test("a rider who was not aboard after all is taken back at the own drop", () => {
    const aboard = entry("PICK 9", "aboard", at(516));
    assert.equal(aboardBefore(drop([aboard])), aboard);
    assert.equal(aboardBefore(pickup([aboard])), null);
    assert.equal(aboardBefore(drop([])), null);
    assert.equal(aboardBefore(drop([aboard, entry("DROP 9", "ridden", at(541), "done")])), null);
});

test("the stop of the last tap is one tap away, as long as something of it can be undone", () => {
    const before = (log, shown = "DROP 9") =>
        stopBefore(dayOf(STOPS, log).stops, log, shown)?.name ?? null;
    assert.equal(before([entry("PICK 9", "aboard", at(516))]), "PICK 9");
    assert.equal(before([entry("PICK 9", "aboard", at(516))], "PICK 9"), null);
    assert.equal(before([entry("PICK 9", "arrived", at(516))], "PICK 9"), null);
    assert.equal(before([entry("PICK 9", "missed-rider", at(516), "done")]), null);
    assert.equal(before([]), null);
});
