// What is kept of a read: every order in which replies can come.
import assert from "node:assert/strict";
import test from "node:test";
import {
    afterHearing,
    dueAfter,
    isDue,
    isOld,
    NOTHING,
    OLD,
    RENEWED,
    RETRIED
} from "../../pages/parts/ages.js";

const moment = (at) => ({ at, day: "2025-03-10", minute: 720 });
const orders = (all) => (
    all.length < 2
        ? [all]
        : all.flatMap((one, at) =>
              orders([...all.slice(0, at), ...all.slice(at + 1)]).map((rest) => [one, ...rest])
          )
);

test("in whatever order they come, the reply to the latest request stays", () => {
    for (const silent of [[], [1], [2], [3], [4], [2, 4], [1, 3], [1, 2, 3, 4]])
        for (const way of orders([1, 2, 3, 4])) {
            const kept = way.reduce(
                (before, order) =>
                    afterHearing(before, {
                        order,
                        told: silent.includes(order)
                            ? { silent: "common.silent" }
                            : { value: order },
                        moment: moment(order)
                    }),
                NOTHING
            );
            const answered = [1, 2, 3, 4].filter((order) => !silent.includes(order)),
                last = answered.at(-1) ?? 0;
            assert.equal(kept.reply?.value ?? 0, last);
            assert.equal(kept.moment?.at ?? 0, last);
        }
});

test("a silence keeps the reply and its moment, and says that nothing answers", () => {
    const first = afterHearing(NOTHING, { order: 1, told: { value: "list" }, moment: moment(5) });
    const silent = afterHearing(first, {
        order: 2,
        told: { silent: "common.silent" },
        moment: moment(9)
    });
    assert.deepEqual(silent, { ...first, failed: true });
    assert.equal(
        afterHearing(silent, { order: 3, told: { value: "new" }, moment: moment(12) }).failed,
        false
    );
    assert.equal(
        afterHearing(first, { order: 2, told: { denied: "left" }, moment: moment(9) }),
        first
    );
    assert.deepEqual(
        afterHearing(first, { order: 2, told: { denied: "desk.key" }, moment: moment(9) }).reply,
        { denied: "desk.key" }
    );
});

test("the age is said from one minute on, each half minute, also after a clock goes back", () => {
    const kept = afterHearing(NOTHING, { order: 1, told: { value: 1 }, moment: moment(1000) });
    for (let now = 0; now <= 3 * OLD; now += 500) assert.equal(isOld(kept, now), now >= 1000 + OLD);
    assert.equal(isOld(NOTHING, 9e12), false);
    assert.deepEqual(
        [
            isDue(null, 5),
            isDue(1000, 1000 + RENEWED - 1),
            isDue(1000, 1000 + RENEWED),
            isDue(1000, 500)
        ],
        [true, false, true, true]
    );
});

test("what was not answered is tried sooner, except where a person's wish alone reads it", () => {
    for (const period of [1_000, RETRIED, RENEWED, 300_000]) {
        assert.equal(dueAfter(false, period), period);
        assert.equal(dueAfter(true, period), Math.min(period, RETRIED));
    }
    for (const failed of [false, true]) {
        assert.equal(dueAfter(failed, Infinity), Infinity);
        assert.equal(isDue(0, Number.MAX_SAFE_INTEGER, dueAfter(failed, Infinity)), false);
        // (a server's clock that stands still seems to go back with each reply)
        assert.equal(isDue(1000, 500, dueAfter(failed, Infinity)), false);
    }
});
