import assert from "node:assert/strict";
import { test } from "node:test";

import { heardNow, isSetBack, later, leftUntilLock } from "../../pages/parts/lock.js";

const MINUTE = 60_000, START = 1_765_000_000_000;

test("it is open for the agency's minutes, and locked from then on", () => {
    for (const minutes of [1, 240, 720]) {
        const heard = heardNow(START);
        assert.equal(leftUntilLock(heard, START, minutes), minutes * MINUTE);
        assert.equal(leftUntilLock(heard, START + minutes * MINUTE - 1, minutes), 1);
        assert.equal(leftUntilLock(heard, START + minutes * MINUTE, minutes), 0);
    }
});

test("a clock that is set back does not open it again", () => {
    let heard = heardNow(START);
    heard = later(heard, START + 240 * MINUTE, 0);
    for (let back = 0; back <= 5000; back += 1)
        assert.equal(leftUntilLock(heard, START + (240 - back) * MINUTE, 240), 0);
});

test("a clock that is set back locks at once, but for a small correction", () => {
    const heard = later(heardNow(START), START + 60 * MINUTE, 0);
    assert.equal(leftUntilLock(heard, START + 58 * MINUTE, 240), 180 * MINUTE);
    assert.equal(leftUntilLock(heard, START + 50 * MINUTE, 240), 0);
    assert.equal(leftUntilLock(heardNow(START), START - 3 * 24 * 60 * MINUTE, 240), 0);
});

test("a clock that is set back again and again gains nothing while the page runs", () => {
    let heard = heardNow(START);
    for (let minute = 0; minute < 240; minute += 1)
        heard = later(heard, START + (minute % 4) * MINUTE, MINUTE);
    assert.equal(leftUntilLock(heard, START + 2 * MINUTE, 240), 0);
});

test("a clock that is wrong from the beginning is as good as a right one", () => {
    for (const wrong of [-4e8, 4e8]) {
        const heard = later(heardNow(START + wrong), START + wrong + 30 * MINUTE, 30 * MINUTE);
        assert.equal(leftUntilLock(heard, START + wrong + 30 * MINUTE, 240), 210 * MINUTE);
    }
});

test("an answer opens it for the whole time again", () => {
    const locked = later(heardNow(START), START + 500 * MINUTE, 0);
    assert.equal(leftUntilLock(locked, START + 500 * MINUTE, 240), 0);
    assert.equal(
        leftUntilLock(heardNow(START + 500 * MINUTE), START + 500 * MINUTE, 240),
        240 * MINUTE
    );
});

test("a lock by a clock that was set back is known from one by silence", () => {
    const heard = later(heardNow(START), START + 60 * MINUTE, 0),
        old = later(heardNow(START), START + 500 * MINUTE, 0);
    assert.deepEqual([0, 55, 60, 300].map((minute) => isSetBack(heard, START + minute * MINUTE)), [
        true, false, false, false
    ]);
    assert.deepEqual(
        [isSetBack(old, START + 500 * MINUTE), leftUntilLock(old, START + 500 * MINUTE, 240)],
        [false, 0]
    );
});
