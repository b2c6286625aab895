// What came of a request whose window was closed before the answer.
import assert from "node:assert/strict";
import test from "node:test";
import { cameOf, ON_ITS_WAY } from "../../pages/parts/taken-up.js";
import { requestsOf } from "../../pages/parts/wishes.js";

const DAY = "2026-12-08",
    WISH = { day: DAY, wish: 540, from: 3, to: 7, by: null, attendant: false, companions: 0 };
const said = (mode, minute) => ({ mode, minute, by: null, drive: 20, lead: 15, change: false });
const booking = (it, more = {}) => ({
    id: "a",
    since: 0,
    rider: 1005,
    wish: WISH,
    said: it,
    old: null,
    ...more
});
const tripOf = (wish, from, more = {}) => ({
    ...WISH,
    wish,
    trip: 9,
    vehicle: 1,
    window_from: from,
    window_to: from + 15,
    fare: 350,
    due: 350,
    status: "booked",
    ...more
});
const late = { age: ON_ITS_WAY, isKnown: () => false }, soon = { age: 1_000, isKnown: () => false };

for (const mode of ["around", "not-before", "by"])
    test(`${mode}: what the desk has of any of the plan's requests is what was booked`, () => {
        const it = said(mode, 600);
        for (const { wish } of requestsOf(it)) {
            const from = mode === "by" ? wish - 30 : 600, trip = tripOf(wish, from);
            for (const known of [soon, late])
                assert.deepEqual(
                    cameOf(booking(it), [tripOf(300, 300, { trip: 8 }), trip], known),
                    { is: "booked", trip }
                );
        }
    });

test("a trip that is not as it was said is an offer", () => {
    const it = said("not-before", 600), trip = tripOf(660, 700);
    assert.deepEqual(cameOf(booking(it), [trip], late), { is: "offered", trip });
});

test("a plan is judged by its last reply: what is not as it was said may still become it", () => {
    const it = said("around", 550), [first, second] = requestsOf(it), asked = booking(it);
    const early = tripOf(first.wish, 623),
        nearer = tripOf(second.wish, 516),
        far = tripOf(second.wish, 480);
    assert.deepEqual([first.wish, second.wish], [595, 550]);
    assert.deepEqual(cameOf(asked, [early], soon), { is: "waits" });
    assert.deepEqual(cameOf(asked, [early], late), { is: "offered", trip: early });
    for (const known of [soon, late])
        assert.deepEqual(cameOf(asked, [nearer], known), { is: "booked", trip: nearer });
    assert.deepEqual(
        cameOf(asked, [far], soon),
        { is: "offered", trip: far },
        "nothing nearer is asked for after the last request"
    );
});

test("another time that the rider has agreed to is booked, and none of the plan's is meant", () => {
    const it = said("around", 540),
        asked = booking(it, { agreed: [465, 435] }),
        [{ wish }] = requestsOf(it);
    for (const other of asked.agreed) {
        const trip = tripOf(other, other);
        assert.deepEqual(cameOf(asked, [trip], soon), { is: "booked", trip });
    }
    assert.deepEqual(cameOf(asked, [tripOf(wish, 540)], late), { is: "nothing" });
});

test("what the desk does not have may be on its way, and then it was not done", () => {
    const it = booking(said("around", 600)), [{ wish }] = requestsOf(it.said);
    const none = [
        [],
        [tripOf(wish, 600, { status: "cancelled" })],
        [tripOf(wish, 600, { day: "2026-12-09" })],
        [tripOf(wish, 600, { from: 7, to: 3 })],
        [tripOf(wish + 1, 600)],
        [tripOf(wish, 600, { companions: 1 })]
    ];
    for (const trips of none) {
        assert.deepEqual(cameOf(it, trips, soon), { is: "waits" });
        assert.deepEqual(cameOf(it, trips, late), { is: "nothing" });
        assert.deepEqual(
            cameOf(it, trips, { ...late, age: -5 }),
            { is: "nothing" },
            "a clock that was put back waits for nothing"
        );
    }
    assert.deepEqual(
        cameOf(it, [tripOf(wish, 600)], { ...late, isKnown: () => true }),
        { is: "nothing" },
        "the trip of another booking is none of this one"
    );
});

test("a change is what the trip itself has, where anything of it is another", () => {
    const it = said("around", 600),
        [{ wish }] = requestsOf(it),
        old = tripOf(480, 480, { trip: 4 });
    const asked = booking(it, { old });
    assert.deepEqual(cameOf(asked, [old], late), { is: "nothing" });
    assert.deepEqual(
        cameOf(asked, [old, tripOf(wish, 600)], late),
        { is: "nothing" },
        "another trip is none of the change"
    );
    const moved = tripOf(wish, 600, { trip: 4 }), same = tripOf(wish, 480, { trip: 4 });
    for (const trip of [moved])
        assert.deepEqual(cameOf(asked, [trip], { ...soon, isKnown: () => true }), {
            is: "booked",
            trip
        });
    assert.deepEqual(
        cameOf(booking(it, { old: tripOf(wish, 600, { trip: 4, companions: 1 }) }), [moved], soon),
        { is: "booked", trip: moved },
        "who comes along changed alone"
    );
    assert.equal(cameOf(asked, [same], soon).is, "waits");
    assert.equal(cameOf(asked, [same], late).is, "offered");
});

test("a cancellation is what its trip says", () => {
    const cancels = tripOf(540, 540),
        asked = { id: "a", since: 0, rider: 1005, cancels },
        off = { ...cancels, status: "cancelled" };
    assert.deepEqual(cameOf(asked, [off], soon), { is: "cancelled", trip: off });
    assert.deepEqual(cameOf(asked, [cancels], soon), { is: "waits" });
    assert.deepEqual(cameOf(asked, [cancels], late), { is: "stands", trip: cancels });
    assert.deepEqual(cameOf(asked, [], late), { is: "nothing" });
});
