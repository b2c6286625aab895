// Which address of a place a trip means.

import assert from "node:assert/strict";
import { test } from "node:test";
import {
    addressOfChoice,
    choiceOfAddress,
    mailingOf,
    meantOf,
    readBy
} from "../../pages/parts/address-meant.js";

const ALL = [
    { id: 1, street: "12 Oak St", place: 5 },
    { id: 2, street: "14 Oak St", place: 5, riders: [101] },
    { id: 3, street: "9 Mill St", place: 6, riders: [101, 102] },
    { id: 4, street: "11 Mill St", place: 6, riders: [102] },
];
const street = (...given) => meantOf(ALL, ...given)?.street ?? null;

test("the address that the booking named is meant, where it is at that place", () => {
    assert.equal(street(5, 101, 1), "12 Oak St");
    assert.equal(street(6, 101, 1), "9 Mill St");
    assert.equal(street(6, 103, 1), null);
});

test("else the rider's only home there is meant", () => {
    assert.equal(street(5, 101, undefined), "14 Oak St");
    assert.equal(street(5, 102, null), null);
    assert.equal(street(6, 102, undefined), null);
    assert.equal(street(5, undefined, undefined), null);
});

test("a choice is an address or a place", () => {
    assert.equal(addressOfChoice(choiceOfAddress(7)), 7);
    assert.equal(addressOfChoice(7), null);
    assert.equal(addressOfChoice(null), null);
});

test("a rider reads the street of a home, and never the name of the group of homes", () => {
    assert.deepEqual(readBy(ALL, { place: 6, name: "Area 6" }, 102, undefined), []);
    assert.deepEqual(readBy(ALL, { place: 6, name: "Area 6" }, 101, undefined), ["9 Mill St"]);
    assert.deepEqual(readBy(ALL, { place: 6, name: "Mill Manor" }, 102, 4), ["11 Mill St"]);
    assert.deepEqual(
        readBy(ALL, { place: 5, name: "Near 12 Oak St" }, 101, undefined),
        ["14 Oak St"]
    );
    assert.deepEqual(readBy(ALL, { place: 5, name: "Near 12 Oak St" }, 102, 1), ["12 Oak St"]);
    assert.deepEqual(readBy(ALL, { place: 5, name: "12 Oak St" }, 102, 1), ["12 Oak St"]);
});

test("a place's own name stands beside the street, and alone where no address is meant", () => {
    assert.deepEqual(readBy(ALL, { place: 5, name: "Mercy Hospital" }, 102, 1), [
        "12 Oak St", "Mercy Hospital"
    ]);
    assert.deepEqual(readBy(ALL, { place: 5, name: "Near North Clinic" }, 102, 1), [
        "12 Oak St", "Near North Clinic"
    ]);
    assert.deepEqual(
        readBy(ALL, { place: 5, name: "Mercy Hospital" }, 102, undefined),
        ["Mercy Hospital"]
    );
    assert.deepEqual(readBy([], { place: 7, name: "Area 9" }, 102, undefined), ["Area 9"]);
});

test("a letter goes to the rider's own home, and to none rather than to a wrong one", () => {
    assert.equal(mailingOf(ALL, { place: 5, name: "Near 12 Oak St" }, 101), "14 Oak St");
    assert.equal(mailingOf(ALL, { place: 6, name: "Area 6" }, 102), "");
    assert.equal(mailingOf(ALL, { place: 5, name: "Near 12 Oak St" }, 102), "");
    assert.equal(mailingOf(ALL, { place: 5, name: "Mercy Hospital" }, 102), "");
    assert.equal(mailingOf(ALL, { place: 7, name: "10 Elm St" }, 102), "10 Elm St");
    assert.equal(mailingOf([], { place: 62, name: "Area 62" }, 102), "");
    assert.equal(mailingOf(ALL, { place: null, name: "" }, 101), "");
    assert.equal(mailingOf(ALL.slice(0, 2), { place: null, name: "" }, 101), "14 Oak St");
});
