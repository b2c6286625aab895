// One search over the trips of a day.
import assert from "node:assert/strict";
import test from "node:test";
import { fits, searchText, vanFirst } from "../../pages/parts/trip-search.js";

const fold = (text) => text.normalize("NFD").replace(/\p{M}/gu, "").toLowerCase();
const TEXT = searchText(
    [
        "Guadalupe Okonkwo", 1003, "(315) 555-0142", "Van 104", 4, 326, "St. Mary's Dialysis",
        undefined, ""
    ],
    fold
);
const finds = (typed) => fits(TEXT, fold(typed));

test("a name, a number, a telephone, a van, a trip, a place, in any order", () => {
    for (const typed of [
        "okonkwo", "OKONKWO van 104", "104 guada", "1003", "326", "555-0142", "3155550142",
        "dialysis okonkwo", "mary's", ""
    ])
        assert.ok(finds(typed), typed);
});

test("each word has to be there", () => {
    for (const typed of ["okonkwo van 105", "smith", "okonkwo 327"])
        assert.ok(!finds(typed), typed);
});

test("digits begin a number, and are no part of another one", () => {
    assert.ok(!fits(searchText(["x", 1104], fold), "104"));
    assert.ok(fits(searchText(["x", 1043], fold), "104"));
});

test("the trips of a van come first where its name is typed, each in its order", () => {
    const names = ["van 1, blue", "van 2, white", "van 1, blue", "van 2, white"],
        found = [0, 1, 2, 3],
        vanOf = (/** @type {number} */ at) => names[at];
    for (const [typed, order] of [
        ["van 2", [1, 3, 0, 2]],
        ["van 1, b", [0, 2, 1, 3]],
        ["van", found],
        ["2", found],
        ["white", found]
    ])
        assert.deepEqual(vanFirst(found, typed, vanOf), order);
});
