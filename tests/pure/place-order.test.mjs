// Which of the places that fit what was typed comes first.

import assert from "node:assert/strict";
import { test } from "node:test";
import { fitting } from "../../pages/parts/place-order.js";
import { searchable } from "../../pages/parts/roster.js";

const place = (id, text, note = "") => ({
    id,
    text: `${text} (${id})`,
    sought: ` ${searchable(`${text} (${id}) ${note}`)}`
});
const address = (id, text, note = "") => ({ ...place(id, text, note), isAddress: true });
const ids = (all, typed) => fitting(all, typed).map(({ id }) => id);

// (own and usual places stand first, as the field gives them)
const MALL = place(14, "Greenway Mall", "door 4, near the pharmacy"),
    PLAZA = place(19, "Pharmacy Plaza"),
    CITY = place(20, "City Pharmacy"),
    INSIDE = place(21, "Bio-Megapharmacy"),
    STREET = address(22, "4 Pharmacy Rd");
const TOWN = [MALL, INSIDE, STREET, CITY, PLAZA];

test("a name's beginning comes first, then a word's, any part, addresses, and notes", () => {
    for (const typed of ["Pharmacy", "pharm", " PHARMACY "])
        assert.deepEqual(ids(TOWN, typed), [19, 20, 21, 22, 14]);
    assert.deepEqual(ids([MALL, PLAZA], "Pharmacy"), [19, 14]);
});

test("an own or usual place comes first among those that are equally near", () => {
    assert.deepEqual(ids([place(3, "Pharmacy West"), PLAZA], "pharmacy"), [3, 19]);
    assert.deepEqual(ids([PLAZA, place(3, "Pharmacy West")], "pharmacy"), [19, 3]);
});

test("several words are found in any order, the name that has them before the note", () => {
    const noted = place(8, "Plaza Hotel", "by the pharmacy");
    assert.deepEqual(ids([noted, PLAZA], "pharmacy plaza"), [19, 8]);
    assert.deepEqual(ids([noted, PLAZA], "plaza pharm"), [19, 8]);
    assert.deepEqual(ids([noted, PLAZA], "plaza nowhere"), []);
});

test("a place of that very number or name comes before all", () => {
    assert.deepEqual(ids([place(190, "19 Elm"), PLAZA], "19"), [19, 190]);
    assert.deepEqual(ids([MALL, PLAZA], "Greenway Mall (14)"), [14]);
    assert.deepEqual(ids(TOWN, ""), TOWN.map(({ id }) => id));
});
