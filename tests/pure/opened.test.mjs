// What Back and Forward show of the cases that were opened.
import assert from "node:assert/strict";
import test from "node:test";
import { meantBy, opening, placeIn, stepsBack } from "../../pages/parts/opened.js";

/** A browser's history with the list of what was opened. */
function made() {
    let those = [];
    const states = [null];
    let at = 0;
    return {
        open(id) {
            const found = opening(those, states[at], id);
            if (!found) return;
            those = found.those;
            states.splice(at + 1, states.length, found.place);
            at += 1;
        },
        go(steps) {
            at = Math.max(0, Math.min(states.length - 1, at + steps));
            return meantBy(those, states[at]);
        },
        close() {
            return this.go(-stepsBack(states[at]));
        },
        forget() {
            those = [];
        },
        get text() {
            return JSON.stringify(states);
        }
    };
}

test("Back closes a case, and Forward opens it", () => {
    const history = made();
    history.open(3301);
    assert.equal(history.go(-1), null);
    assert.equal(history.go(1), 3301);
});

test("of two cases one after another Back shows the first, and the button closes both", () => {
    const history = made();
    history.open(3301);
    history.open(3302);
    assert.equal(history.go(-1), 3301);
    assert.equal(history.go(1), 3302);
    assert.equal(history.close(), null);
    assert.equal(history.go(1), 3301);
});

test("a case that is shown is not opened a second time", () => {
    const history = made();
    history.open(3301);
    history.open(3301);
    assert.equal(history.go(-1), null);
});

test("a case that was opened again after Back takes the place of what was ahead", () => {
    const history = made();
    history.open(3301);
    history.go(-1);
    history.open(3302);
    assert.equal(history.close(), null);
    assert.equal(history.go(1), 3302);
});

test("the history has no number of a rider, and after a sign-out it opens nobody", () => {
    const history = made();
    history.open(3301);
    assert.ok(!history.text.includes("3301"));
    history.forget();
    assert.equal(history.go(-1), null);
    assert.equal(history.go(1), null);
});

test("after a reload what was opened before is nobody, and the button still closes all", () => {
    const history = made();
    history.open(3301);
    history.forget();
    history.open(3302);
    assert.equal(history.go(-1), null);
    assert.equal(history.go(1), 3302);
    assert.equal(history.close(), null);
    assert.equal(history.go(2), 3302);
});

test("states that others put into the history are no places", () => {
    for (const state of [null, undefined, {}, { opened: "1", steps: 1 }, { opened: 0 }, "x", 5]) {
        assert.equal(placeIn(state), null);
        assert.equal(stepsBack(state), 0);
        assert.equal(meantBy([3301], state), null);
    }
});
