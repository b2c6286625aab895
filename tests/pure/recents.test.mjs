// Who called last, and whom to call back.
import assert from "node:assert/strict";
import test from "node:test";
import {
    CALL_BACK_KEPT,
    callBacksIn,
    deedsOf,
    MOST_RECENT,
    recentsIn,
    withCaller,
    withDeed
} from "../../pages/parts/recents.js";

const caller = (rider, at = 0, done = {}) => ({ rider, at, done });

test("who calls now stands first, once, and the list has an end", () => {
    let list = [];
    for (let rider = 1; rider <= MOST_RECENT + 2; rider += 1) list = withCaller(list, rider, rider);
    assert.deepEqual(list.map(({ rider }) => rider), [10, 9, 8, 7, 6, 5, 4, 3]);
    assert.deepEqual(withCaller(list, 8, 99).map(({ rider }) => rider), [8, 10, 9, 7, 6, 5, 4, 3]);
});

test("the same call goes on; a rider's second call begins without what the first did", () => {
    const list = withDeed(withCaller([], 1, 10), 1, "booked", 2);
    assert.deepEqual(withCaller(list, 1, 20), list);
    assert.deepEqual(withCaller(withCaller(list, 2, 20), 1, 30)[0], caller(1, 30));
});

test("acts add up by kind, a cancellation stands beside a booking, and no act says nothing", () => {
    const done = (...deeds) =>
        deedsOf(
            deeds.reduce((list, [did, count]) => withDeed(list, 1, did, count), [caller(1)])[0]
        );
    assert.deepEqual(done(["booked", 2], ["booked", 1]), [["booked", 3]]);
    assert.deepEqual(done(["booked", 2], ["changed", 1], ["canceled", 1]), [
        ["booked", 2],
        ["changed", 1],
        ["canceled", 1]
    ]);
    assert.deepEqual(done(["canceled", 1], ["changed", 1]), [["changed", 1], ["canceled", 1]]);
    assert.deepEqual(done(["booked", 0]), []);
    assert.deepEqual(withDeed([caller(2)], 1, "booked", 1), [caller(2)]);
});

test("that a trip was denied is told where nothing else was done", () => {
    const told = (...deeds) =>
        deedsOf(deeds.reduce((list, did) => withDeed(list, 1, did, 1), [caller(1)])[0]).map(
            ([did]) => did
        );
    assert.deepEqual(
        [
            told("denied"),
            told("denied", "booked"),
            told("booked", "denied"),
            told("denied", "canceled")
        ],
        [["denied"], ["booked"], ["booked"], ["canceled"]]
    );
});

test("what a store holds that is no list of callers is none", () => {
    for (const given of [
        null,
        "x",
        7,
        {},
        [
            null,
            1,
            {},
            { rider: "1" },
            caller(1, 0, { danced: 1 }),
            caller(1, 0, { booked: "1" }),
            { rider: 1, at: 0 }
        ]
    ])
        assert.deepEqual(recentsIn(given), []);
    assert.deepEqual(recentsIn([caller(1), { rider: 2 }]), [caller(1)]);
});

test("who has waited longest is called first, and what is two weeks old is dropped", () => {
    const now = 10 * CALL_BACK_KEPT, call = (rider, at, why = "") => ({ rider, at, why });
    assert.deepEqual(
        callBacksIn(
            [
                call(1, now - 5),
                call(2, now - 50),
                call(3, now - CALL_BACK_KEPT),
                { rider: 4, at: now },
                null
            ],
            now
        ).map(({ rider }) => rider),
        [2, 1]
    );
});
