// Who stays signed in, over the windows of one browser: never one rider's pages once another one is
// named, or nobody any more.

import assert from "node:assert/strict";
import test from "node:test";
import {
    beginningWith,
    goingOn,
    hasEnded,
    isUnchanged,
    stayingAs
} from "../../pages/parts/staying.js";

const ANA = { key: "a", rider: 1005 }, BEN = { key: "b", rider: 1006 };
const held = (key, more = {}) => ({ key, stayed: false, ended: false, ...more });

test("a window stays as the rider whose key it has", () => {
    assert.equal(stayingAs("a", ANA), 1005);
    for (const [key, stay] of [["a", BEN], ["a", null], [null, ANA], [null, null]])
        assert.equal(stayingAs(key, stay), null);
});

test("a rider's window has ended once another rider stays, or nobody", () => {
    const shown = held("a", { stayed: true });
    assert.equal(hasEnded(shown, ANA), false);
    assert.equal(hasEnded(shown, BEN), true);
    assert.equal(hasEnded(shown, null), true);
    // (who signed in without staying goes on, whoever stays)
    for (const stay of [ANA, BEN, null])
        assert.equal(hasEnded(held("a"), stay), false);
    assert.equal(hasEnded(held(null, { stayed: true }), null), false);
});

test("a new window begins with who stays, and one that is loaded again with its own key", () => {
    assert.deepEqual(beginningWith(held(null), ANA), { key: "a", stayed: true, ended: false });
    assert.deepEqual(beginningWith(held(null), null), { key: null, stayed: false, ended: false });
    assert.deepEqual(beginningWith(held("a", { stayed: true }), ANA), {
        key: "a",
        stayed: true,
        ended: false
    });
    assert.deepEqual(beginningWith(held("a"), BEN), { key: "a", stayed: false, ended: false });
});

test("a window that slept through a sign-out shows nobody once it is loaded again", () => {
    for (const stay of [BEN, null])
        assert.deepEqual(beginningWith(held("a", { stayed: true }), stay), {
            key: null,
            stayed: false,
            ended: true
        });
    // (and so it goes on, until somebody says who is there)
    assert.deepEqual(beginningWith(held(null, { ended: true }), BEN), {
        key: null,
        stayed: false,
        ended: true
    });
});

test("a button that names a rider goes on with that rider alone", () => {
    assert.equal(goingOn(1005, ANA), ANA);
    assert.equal(goingOn(1005, BEN), null);
    assert.equal(goingOn(1005, null), null);
});

test("who was looked at while another window changed who stays does not take the place", () => {
    assert.equal(isUnchanged(null, null), true);
    assert.equal(isUnchanged(ANA, { ...ANA }), true);
    for (const [before, now] of [[null, BEN], [ANA, BEN], [ANA, null]])
        assert.equal(isUnchanged(before, now), false);
});
