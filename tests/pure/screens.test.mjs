// Which screen a key opens, by what the desk lets it read.
import assert from "node:assert/strict";
import test from "node:test";
import { screenOfKey, SCREENS } from "../../pages/parts/screens.js";

const RIGHTS = {
    clerk: [false, true, true],
    examiner: [false, true, false],
    officer: [false, true, false],
    dispatcher: [true, false, true],
    rider: [false, false, false],
    driver: [false, false, false],
    admin: [false, false, false]
};
const rightsOf = (id) =>
    Object.fromEntries(["day", "standing", "trips"].map((name, at) => [name, RIGHTS[id][at]]));

test("a key opens its own screen where that is the one that stands first", () => {
    for (const { id } of SCREENS) assert.equal(screenOfKey(id, rightsOf(id)), id);
});

test("the key of a clerk or a dispatcher opens no other screen than its own", () => {
    for (const { id } of SCREENS)
        for (const own of ["clerk", "dispatcher"])
            assert.equal(screenOfKey(id, rightsOf(own)), own);
});

test("a key that may be one of several is asked for its screen, and nothing is guessed", () => {
    for (const own of ["examiner", "officer"])
        assert.equal(screenOfKey("rider", rightsOf(own)), null);
    for (const own of ["rider", "driver", "admin"])
        assert.equal(screenOfKey("clerk", rightsOf(own)), null);
});

test("a desk that does not answer keeps what stands first", () => {
    for (const { id } of SCREENS)
        assert.equal(screenOfKey(id, { ...rightsOf("clerk"), trips: null }), id);
});
