// What came of each trip that was asked for, whatever happens to the page and the line.
import assert from "node:assert/strict";
import test from "node:test";
import {
    afterAnswer,
    afterEnding,
    afterGone,
    afterLeaving,
    afterLoading,
    afterPlanning,
    afterReading,
    afterSending,
    afterUnasked,
    denialOfGone,
    isLate,
    riderOfChange,
    sinceOf,
    toBeRead
} from "../../pages/parts/sent-list.js";

const wish = (day, from = 1, minute = 600) => ({
    day,
    wish: minute,
    from,
    to: 9,
    by: null,
    attendant: false,
    companions: 0
});
const asked = (day, from, minute, trip = null) => ({
    rider: 7,
    trip,
    wish: wish(day, from, minute)
});
const planned = (it) => ({ wish: it, said: { mode: "around", minute: it.wish } });
const states = (legs) => legs.map(({ state }) => state);
const TEN = Array.from({ length: 10 }, (_, at) => wish(`2025-03-${11 + at}`));
const ticket = (trip) => ({ value: { trip, window_from: 600, window_to: 630 } });

test("a reload at each moment of ten legs loses none of them", () => {
    for (let done = 0; done <= 10; done += 1)
        for (const isUnderWay of [false, true]) {
            let legs = afterPlanning([], { rider: 7, wanted: TEN.map(planned) });
            for (let at = 0; at < done; at += 1)
                legs = afterAnswer(
                    afterSending(legs, { rider: 7, trip: null, wish: TEN[at] }),
                    { rider: 7, trip: null, wish: TEN[at] },
                    ticket(at),
                    false
                );
            if (isUnderWay && done < 10)
                legs = afterSending(legs, { rider: 7, trip: null, wish: TEN[done] });
            if (done === 10) legs = afterEnding(legs, 7);
            legs = afterLoading(JSON.parse(JSON.stringify(legs)));
            if (isUnderWay && done < 10)
                legs = afterAnswer(
                    legs,
                    { rider: 7, trip: null, wish: TEN[done] },
                    ticket(done),
                    true
                );
            const told = toBeRead(legs), sent = done + (isUnderWay && done < 10 ? 1 : 0);
            assert.equal(told.length, done === 10 ? 0 : 10);
            if (done < 10)
                assert.deepEqual(states(told), [
                    ...Array(sent).fill("booked"),
                    ...Array(10 - sent).fill("unsent")
                ]);
        }
});

test("a second try of a leg takes the place of the first one", () => {
    let legs = afterPlanning([], { rider: 7, wanted: [planned(wish("2025-03-11"))] });
    legs = afterAnswer(
        afterSending(legs, asked("2025-03-11", 1, 600)),
        asked("2025-03-11", 1, 600),
        { denied: "no vehicle" },
        true
    );
    assert.deepEqual(states(legs), ["denied"]);
    legs = afterAnswer(
        afterSending(legs, asked("2025-03-11", 1, 540)),
        asked("2025-03-11", 1, 540),
        ticket(5),
        false
    );
    assert.deepEqual(states(toBeRead(legs)), ["booked"]);
    assert.equal(legs[0].wish.wish, 540);
    assert.equal(legs[0].reply.trip, 5);
});

test("what was seen is not told again, and what was left out on purpose is no loss", () => {
    let legs = afterPlanning([], {
        rider: 7,
        wanted: [wish("2025-03-11"), wish("2025-03-11", 9)].map(planned)
    });
    legs = afterAnswer(
        afterSending(legs, asked("2025-03-11")),
        asked("2025-03-11"),
        { denied: "37.125" },
        false
    );
    legs = afterEnding(legs, 7);
    assert.deepEqual(afterLoading(legs), []);
});

test("another rider's list stays, and a list that was read goes", () => {
    let legs = afterAnswer(
        afterSending([], asked("2025-03-11")),
        asked("2025-03-11"),
        { denied: "no vehicle" },
        true
    );
    legs = afterPlanning(legs, { rider: 8, wanted: [planned(wish("2025-03-12"))] });
    assert.equal(toBeRead(legs, 7).length, 1);
    assert.equal(toBeRead(legs, 8).length, 0);
    assert.deepEqual(states(afterReading(legs, 7)), ["planned"]);
    assert.deepEqual(states(afterPlanning(legs, { rider: 7, wanted: [] })), ["denied", "planned"]);
});

test("a trip that is booked twice is two legs", () => {
    let legs = afterAnswer(
        afterSending([], asked("2025-03-11")),
        asked("2025-03-11"),
        ticket(1),
        true
    );
    legs = afterAnswer(
        afterSending(legs, asked("2025-03-11")),
        asked("2025-03-11"),
        ticket(2),
        true
    );
    assert.deepEqual(legs.map(({ reply }) => reply.trip), [1, 2]);
});

test("a denial within a plan that broke off is marked: the rest of the plan was not sent", () => {
    for (const isAnswered of [true, false]) {
        let legs = afterSending(
            afterPlanning([], {
                rider: 7,
                wanted: [wish("2025-03-11"), wish("2025-03-12")].map(planned)
            }),
            asked("2025-03-11", 1, 645)
        );
        if (isAnswered)
            legs = afterSending(
                afterAnswer(legs, asked("2025-03-11", 1, 645), { denied: "no vehicle" }, false),
                asked("2025-03-12", 1, 645)
            );
        legs = afterLoading(legs);
        if (!isAnswered)
            legs = afterAnswer(legs, asked("2025-03-11", 1, 645), { denied: "no vehicle" }, true);
        assert.deepEqual([legs[0].state, legs[0].cut], ["denied", true]);
    }
    const ended = afterLoading(
        afterAnswer(
            afterSending([], asked("2025-03-11")),
            asked("2025-03-11"),
            { denied: "no vehicle" },
            true
        )
    );
    assert.equal(ended[0].cut, false);
});

test("after a reload a change that is answered is its rider's, and is told", () => {
    const legs = afterLoading(
        afterSending(
            afterPlanning([], { rider: 7, trip: 12, wanted: [planned(wish("2025-03-11"))] }),
            asked("2025-03-11", 1, 600, 12)
        )
    );
    assert.deepEqual([riderOfChange(legs, 12), riderOfChange(legs, 13)], [7, 0]);
    const told = afterAnswer(
        legs,
        { ...asked("2025-03-11", 1, 600, 12), rider: riderOfChange(legs, 12) },
        ticket(12),
        true
    );
    assert.deepEqual(states(toBeRead(told, 7)), ["booked"]);
});

test("a denial that comes after a reload is counted once; that of an open page is not", () => {
    const it = asked("2025-03-11"), denial = { denied: "37.125" };
    const here = afterSending(afterPlanning([], { rider: 7, wanted: [planned(it.wish)] }), it),
        gone = afterLoading(JSON.parse(JSON.stringify(here)));
    assert.equal(denialOfGone(here, it, denial), null);
    assert.deepEqual(denialOfGone(gone, it, denial), {
        day: "2025-03-11",
        minute: 600,
        rule: "37.125",
        mode: "around"
    });
    assert.equal(denialOfGone(afterAnswer(gone, it, denial, true), it, denial), null);
    // (the rest of its plan was not asked, or no rule denied it)
    for (const denied of ["no vehicle", "37.131(e)", "desk.key", undefined])
        assert.equal(denialOfGone(gone, it, { denied }), null);
});

test("who leaves before the other trips are known reads that nothing was sent", () => {
    const other = afterPlanning([], { rider: 8, wanted: [planned(wish("2025-03-11"))] });
    const both = afterPlanning(
        afterPlanning(other, {
            rider: 7,
            wanted: [wish("2025-03-11"), wish("2025-03-11", 9)].map(planned)
        }),
        { rider: 9, wanted: [] }
    );
    const legs = afterLeaving(both, 7);
    assert.deepEqual(states(toBeRead(legs)), ["left", "left"]);
    assert.deepEqual(
        legs.filter(({ rider }) => rider === 8).map(({ state, late }) => [state, late]),
        [["planned", false]]
    );
    // (a reload keeps it, and what is asked for anew takes its place)
    assert.deepEqual(states(toBeRead(afterLoading(legs), 7)), ["left", "left"]);
    assert.deepEqual(
        states(afterPlanning(legs, { rider: 7, wanted: [planned(wish("2025-03-12"))] })),
        ["planned", "planned"]
    );
    // (what went out is none of it)
    assert.deepEqual(states(afterLeaving(afterSending(both, asked("2025-03-11")), 7)), [
        "planned", "sending", "left"
    ]);
});

test("what became of a trip since then comes from a later reply alone", () => {
    const leg = (state) => ({
        ...asked("2025-03-11"),
        said: null,
        state,
        reply: { trip: 5, window_from: 600, window_to: 630 },
        late: true
    });
    const trip = (more = {}) => ({
        trip: 5,
        day: "2025-03-11",
        status: "booked",
        window_from: 600,
        window_to: 630,
        ...more
    });
    const is = (state, trips) => sinceOf(leg(state), trips)?.is ?? null;
    for (const state of ["booked", "offered", "stands"]) {
        assert.deepEqual(
            [is(state, null), is(state, []), is(state, [trip({ trip: 6 })])],
            [null, null, null]
        );
        assert.equal(is(state, [trip()]), "booked");
        for (const status of ["cancelled", "ridden", "missed-rider", "missed-operator"])
            assert.equal(is(state, [trip({ status })]), "over");
        assert.equal(is(state, [trip({ window_from: 605 })]), "moved");
        assert.equal(is(state, [trip({ window_to: 640 })]), "moved");
        assert.equal(is(state, [trip({ day: "2025-03-12" })]), "moved");
    }
    for (const state of ["planned", "sending", "denied", "unsent", "left", "nothing", "cancelled"])
        assert.equal(is(state, [trip({ status: "cancelled" })]), null);
});

test("an answer is kept with its moment", () => {
    const at = { day: "2025-03-10", minute: 552 };
    assert.deepEqual(
        afterAnswer(
            afterSending([], asked("2025-03-11")),
            asked("2025-03-11"),
            ticket(1),
            true,
            at
        )[0].at,
        at
    );
});

test("a way back that is not sent is told where nobody sees the question", () => {
    const both = afterPlanning([], {
        rider: 7,
        wanted: [wish("2025-03-11"), wish("2025-03-11", 9)].map(planned)
    });
    assert.deepEqual(
        toBeRead(afterEnding(afterUnasked(both, 7, wish("2025-03-11", 9), true), 7)).map(
            ({ state, wish: { from } }) => [state, from]
        ),
        [["early", 9]]
    );
    assert.deepEqual(
        toBeRead(afterEnding(afterUnasked(both, 7, wish("2025-03-11", 9), false), 7)),
        []
    );
});

test("who goes back while four trips are asked for reads what came of each, the first too", () => {
    const days = TEN.slice(0, 4), of = (it) => ({ rider: 7, trip: null, wish: it });
    let legs = afterPlanning([], { rider: 7, wanted: days.map(planned) });
    legs = afterAnswer(afterSending(legs, of(days[0])), of(days[0]), ticket(0), false);
    legs = afterSending(afterGone(legs, 7), of(days[1]));
    legs = afterAnswer(
        legs,
        of(days[1]),
        { denied: "no vehicle" },
        isLate({ hasForm: false, isSeen: true, waited: false })
    );
    for (const [at, it] of days.slice(2).entries())
        legs = afterAnswer(afterSending(legs, of(it)), of(it), ticket(at + 2), false);
    assert.deepEqual(states(toBeRead(afterEnding(legs, 7))), [
        "booked", "denied", "booked", "booked"
    ]);
    assert.deepEqual(
        toBeRead(afterGone(afterPlanning([], { rider: 8, wanted: days.map(planned) }), 7)),
        []
    );
});

test("an answer is shown once, also after a broken line: in its form, or else in the list", () => {
    assert.equal(isLate({ hasForm: true, isSeen: true, waited: true }), false);
    assert.equal(isLate({ hasForm: true, isSeen: false, waited: false }), true);
    assert.equal(isLate({ hasForm: false, isSeen: true, waited: true }), true);
    assert.equal(isLate({ hasForm: false, isSeen: true, waited: false }), false);
});
