// The denials of today out of the file of the day: the last one first, and nothing out of a file of
// another day or another form.
import assert from "node:assert/strict";
import test from "node:test";
import { deniedIn } from "../../pages/parts/denied-today.js";

const row = (more = {}) => ({
    id: "a",
    day: "2026-12-09",
    minute: 540,
    mode: "by",
    channel: "page",
    at: "2026-12-07T09:01:00",
    marked: null,
    ...more
});
const file = (denials, day = "2026-12-07") => JSON.stringify({ day, denials });

test("the last denial comes first, with what is known of it", () => {
    const rows = [
        row(),
        row({ id: "b", at: "2026-12-07T09:30:00", marked: "2026-12-07T09:31:00" }),
        row({ id: "c", at: "2026-12-07T09:10:00", mode: null, channel: null })
    ];
    assert.deepEqual(deniedIn(file(rows), "2026-12-07").map(({ id }) => id), ["b", "c", "a"]);
    assert.deepEqual(deniedIn(file(rows), "2026-12-07")[0], rows[1]);
});

test("another day, another form and no file are no denials", () => {
    for (const text of [
        null,
        "",
        "no",
        "null",
        "[]",
        "{}",
        file(null),
        file([
            null,
            7,
            row({ id: 7 }),
            row({ day: null }),
            row({ minute: "9" }),
            row({ at: undefined })
        ]),
        file([row()], "2026-12-06")
    ]) {
        assert.deepEqual(deniedIn(text, "2026-12-07"), []);
    }
    assert.deepEqual(deniedIn(file([row({ mode: 3, channel: {}, marked: 1 })]), "2026-12-07"), [
        row({ mode: null, channel: null, marked: null })
    ]);
});
