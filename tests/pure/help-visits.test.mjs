// Which screens were visited: the first visit is greeted, once.
import assert from "node:assert/strict";
import test from "node:test";
import { visitedWith } from "../../pages/parts/help-visits.js";

test("the first visit of each screen is new, and none after it", () => {
    assert.deepEqual(visitedWith(null, "clerk"), { isNew: true, text: "clerk" });
    assert.deepEqual(visitedWith("clerk", "clerk"), { isNew: false, text: "clerk" });
    assert.deepEqual(visitedWith("clerk", "driver"), { isNew: true, text: "clerk driver" });
    assert.deepEqual(visitedWith("  clerk  driver ", "driver"), {
        isNew: false,
        text: "clerk driver"
    });
});
