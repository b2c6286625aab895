// Which vehicle is meant by a name or a number.
import assert from "node:assert/strict";
import test from "node:test";
import { vehicleMeant, vehiclesFor } from "../../pages/parts/vehicle-number.js";

const HIGHEST = 4_294_967_295;
const APART = [{ id: 30, name: "van 130" }, { id: 31, name: "van 131, white" }],
    MIXED = [{ id: 12, name: "van 30" }, { id: 30, name: "van 130" }];
const meant = (typed, named = APART) => vehicleMeant(typed, named, HIGHEST);

test("a name, a number, or both", () => {
    for (const typed of ["130", "van 130", "30", "van 130 (30)"])
        assert.equal(meant(typed), 30, typed);
    assert.equal(meant("white"), 31);
});

test("a number that is one vehicle's and another one's name is neither", () => {
    assert.equal(meant("30", MIXED), null);
    assert.deepEqual(vehiclesFor("30", MIXED).map(({ id }) => id), [30, 12]);
    assert.equal(meant("van 30", MIXED), 12);
    assert.equal(meant("van 30 (12)", MIXED), 12);
    assert.equal(meant("12", MIXED), 12);
});

test("what fits several, or nothing, is none", () => {
    for (const typed of ["van", "", "blue", "0", "99999999999"])
        assert.equal(meant(typed), null, typed);
});

test("a vehicle without a name goes by its number", () => {
    assert.equal(meant("40"), 40);
    assert.equal(vehicleMeant("7", [{ id: 7, name: "" }, { id: 8, name: "" }], HIGHEST), 7);
});
