// What people paste is turned into the signs that the desk takes, and what has no plain sign is
// named.

import assert from "node:assert/strict";
import { test } from "node:test";
import { bytesOf, plainOf } from "../../pages/parts/plain.js";

const PLAIN = Array.from({ length: 95 }, (_, at) => String.fromCharCode(32 + at)).join("");

test("plain signs stay as they are, and blanks are drawn together", () => {
    assert.deepEqual(plainOf(PLAIN), { text: PLAIN.trim(), lost: [] });
    assert.equal(plainOf(" a\u00a0\n  b ").text, "a b");
});

test("degrees have a blank at both sides", () => {
    for (const [typed, wanted] of [
        ["40°F", "40 degrees F"],
        ["40° F", "40 degrees F"],
        ["5 °C", "5 degrees C"],
        ["at 40°, walks", "at 40 degrees, walks"],
        ["40°", "40 degrees"]
    ]) {
        assert.deepEqual(plainOf(typed), { text: wanted, lost: [] }, typed);
    }
});

test("accents and typographic signs have plain ones, and what has none is named once", () => {
    assert.deepEqual(plainOf("Núñez’s “lift” – ½ mile…"), {
        text: "Nunez's \"lift\" - 1/2 mile...",
        lost: []
    });
    assert.deepEqual(plainOf("a 中 b 中 😀"), { text: "a b", lost: ["中", "😀"] });
    assert.equal(bytesOf("é"), 2);
});
