// What a driver writes down of the van: which entries hold, and what is wrong with one.

import assert from "node:assert/strict";
import test from "node:test";
import { milesIn, minuteOf, pullsOf, readingOf } from "../../pages/screens/driver-odometer.js";

const out = { minute: 310, odometer: 48_210 };
const written = (more = {}) => ({
    time: "18:05",
    odometer: "48,310",
    first: "",
    last: "",
    ...more
});
const entry = (what, reading) => ({ tap: { what, reading } });

test("miles are whole numbers, with or without commas", () => {
    for (const [text, wanted] of [
        ["48210", 48_210],
        ["48,210", 48_210],
        [" 48 210 ", 48_210],
        ["0", 0],
        ["9999999", 9_999_999]
    ])
        assert.equal(milesIn(text), wanted);
    for (const text of ["", "-1", "48.5", "12345678", "1e5", "٤٨"])
        assert.equal(milesIn(text), null, text);
});

test("a time in the night of a day that is over is after midnight", () => {
    assert.equal(minuteOf("05:10", false), 310);
    assert.equal(minuteOf("00:20", false), 20);
    assert.equal(minuteOf("00:20", true), 1_460);
    assert.equal(minuteOf("04:00", true), 240);
    for (const text of ["", "24:00", "9:00", "noon"])
        assert.equal(minuteOf(text, false), null, text);
});

test("the last pull-out holds, and the last pull-in since", () => {
    const again = { minute: 305, odometer: 48_200 }, back = { minute: 1_085, odometer: 48_310 };
    assert.deepEqual(pullsOf([]), { out: null, in: null });
    assert.deepEqual(
        pullsOf([entry("pull_out", out), entry("arrived", null), entry("pull_out", again)]),
        { out: again, in: null }
    );
    assert.deepEqual(pullsOf([entry("pull_out", out), entry("pull_in", back)]), { out, in: back });
    assert.deepEqual(
        pullsOf([entry("pull_out", out), entry("pull_in", back), entry("pull_out", again)]),
        { out: again, in: null }
    );
});

test("a reading is taken, or the field that is wrong is named", () => {
    assert.deepEqual(
        readingOf("pull_out", written({ odometer: "48210", time: "05:10" }), null, false),
        { reading: out }
    );
    assert.deepEqual(readingOf("pull_in", written(), out, false), {
        reading: { minute: 1_085, odometer: 48_310 }
    });
    assert.deepEqual(readingOf("pull_in", written({ first: "48214", last: "48301" }), out, false), {
        reading: { minute: 1_085, odometer: 48_310, first_pickup: 48_214, last_drop: 48_301 }
    });
    const faults = [
        [{ odometer: "many" }, ["odometer", "number"]],
        [{ time: "" }, ["time", "time"]],
        [{ odometer: "48209" }, ["odometer", "before"]],
        [{ odometer: "49211" }, ["odometer", "far"]],
        [{ time: "05:00" }, ["time", "early"]],
        [{ first: "48209" }, ["first", "between"]],
        [{ first: "48311" }, ["first", "between"]],
        [{ first: "48300", last: "48299" }, ["last", "between"]],
        [{ last: "48311" }, ["last", "between"]],
        [{ last: "x" }, ["last", "number"]]
    ];
    for (const [more, fault] of faults)
        assert.deepEqual(
            readingOf("pull_in", written(more), out, false),
            { fault },
            JSON.stringify(more)
        );
    assert.deepEqual(readingOf("pull_in", written(), null, false), {
        reading: { minute: 1_085, odometer: 48_310 }
    });
});
