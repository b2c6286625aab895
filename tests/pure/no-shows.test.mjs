// What was seen of a no-show, and whether it speaks for one.
import assert from "node:assert/strict";
import test from "node:test";
import { evidenceOf, fileIn, isGround } from "../../pages/parts/no-shows.js";
import { bytesOf } from "../../pages/parts/plain.js";

const row = (more = {}) => ({
    day: "2025-03-11",
    vehicle: 1,
    from: 540,
    to: 570,
    arrived: 550,
    wait: 5,
    minute: 580,
    ...more
});
const file = (more) => fileIn(JSON.stringify({ since: "2025-01-01", no_shows: { 7: row(more) } }));

test("each minute of arrival and of waiting is judged, to the edge", () => {
    for (const [arrived, wait, kind] of [
        [530, 40, "in-time"],
        [540, 5, "in-time"],
        [570, 5, "in-time"],
        [571, 5, "late"],
        [571, 0, "late"],
        [570, 4, "short"],
        [540, 0, "short"],
        [null, 9, "no-arrival"]
    ]) {
        const found = evidenceOf(file({ arrived, wait }), 7, "2025-03-11", 5);
        assert.equal(found.kind, kind, `${arrived} ${wait}`);
        assert.equal(isGround(found), kind === "in-time");
    }
    assert.equal(evidenceOf(file({ arrived: 600 }), 7, "2025-03-11", 5).late, 30);
});

test("a trip without a report is no ground; nor is one of another day or before the file", () => {
    assert.equal(evidenceOf(file({}), 8, "2025-03-11", 5).kind, "none");
    assert.equal(evidenceOf(file({}), 7, "2025-03-12", 5).kind, "none");
    assert.equal(evidenceOf(file({}), 8, "2024-12-31", 5).kind, "old");
});

test("what is no file of no-shows is none, and a row in another form is left out", () => {
    for (const text of [
        null, "", "no JSON", "{}", "[]", '{"since": 7, "no_shows": {}}',
        '{"since": "2025-01-01", "no_shows": null}'
    ])
        assert.equal(fileIn(text), null);
    for (const more of [{ arrived: "9:00" }, { arrived: -1 }, { to: null }, { wait: 1.5 }])
        assert.equal(file(more)?.trips.size, 0);
});

test("a text is measured by its bytes", () => {
    for (const [text, bytes] of [["", 0], ["abc", 3], ["niño José", 11], ["“é”", 8], ["🚐", 4]])
        assert.equal(bytesOf(text), bytes);
});
