// What a No to an offer may do.

import assert from "node:assert/strict";
import { test } from "node:test";
import { FRESH, isNewer, noOf } from "../../pages/parts/answering.js";

test("only an offer that this window got just now is given up at once", () => {
    for (const canRead of [true, false])
        for (const age of [0, FRESH - 1]) assert.equal(noOf({ age, canRead }), "at-once");
    for (const age of [null, -1, FRESH, 35_000]) {
        assert.equal(noOf({ age, canRead: true }), "look");
        assert.equal(noOf({ age, canRead: false }), "unsure");
    }
});

test("the site's file has an answer once it was made after it", () => {
    const made = "2026-12-01T10:00:00Z", at = Date.parse(made);
    for (const [since, isSo] of [[at - 1, true], [at, false], [at + 1, false]])
        assert.equal(isNewer(made, since), isSo);
    for (const none of [null, undefined, "", "soon"]) assert.equal(isNewer(none, at), true);
});
