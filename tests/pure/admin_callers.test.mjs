import assert from "node:assert/strict";
import { test } from "node:test";

import { callersIn, joined, nextNumber, rowsOf } from "../../pages/screens/admin-callers.js";

const ANA = {
    id: 2,
    name: "Ana",
    role: "clerk",
    subject: 0,
    day: "2026-01-02",
    until: "",
    digits: "0123456789ab"
};
const BO = {
    id: 105,
    name: "",
    role: "driver",
    subject: 5,
    day: "2026-03-04",
    until: "2026-05-06",
    digits: ""
};
const asCells = (callers) => rowsOf(callers).map((row) => row.map(String));

test("what is saved is what is loaded", () => {
    assert.deepEqual(callersIn(asCells([ANA, BO])), {
        callers: [ANA, BO],
        wrong: [],
        isList: true
    });
});

test("the file has no key, and no digest whole", () => {
    const digits = asCells([ANA, BO]).slice(1).map((row) => row.at(-1));
    assert.ok(digits.every((it) => it.length <= 12));
});

test("a row that is wrong is named by its place and loses no other", () => {
    const cells = [
        ["Number", "Role", "Name"],
        ["2", "clerk", "Ana"],
        ["x", "clerk", "Bo"],
        ["3", "king", ""],
        ["0", "clerk", ""],
        ["4", "admin", "Eve"]
    ];
    const { callers, wrong } = callersIn(cells);
    assert.deepEqual(callers.map(({ id }) => id), [2, 4]);
    assert.deepEqual(wrong, [3, 4, 5]);
});

test("a file of other columns is no list", () => {
    for (const cells of [[], [["rider", "name"], ["1", "Ana"]], [["number"]]])
        assert.equal(callersIn(cells).isList, false);
});

test("the record's last row names nobody and is no fault", () => {
    const { callers, wrong } = callersIn([
        ...asCells([ANA]),
        ["", "", "", "", "", "", "up to entry 8"]
    ]);
    assert.deepEqual([callers.length, wrong], [1, []]);
});

test("of two rows of a number the later one stands, and no name is lost", () => {
    const later = { ...ANA, name: "", role: "officer", day: "2026-02-02" };
    assert.deepEqual(joined([ANA], [later]), [{ ...later, name: "Ana" }]);
    assert.deepEqual(joined([later], [ANA]), [{ ...later, name: "Ana" }]);
    assert.deepEqual(joined([BO], [{ ...BO, until: "" }]), [BO]);
    assert.deepEqual(joined([ANA], [BO]), [ANA, BO]);
});

test("the next number is above all in the list, and none where the list is empty", () => {
    assert.equal(nextNumber([]), null);
    assert.equal(nextNumber([ANA, BO]), 106);
    assert.equal(nextNumber([{ ...ANA, id: 4_294_967_295 }]), null);
});
