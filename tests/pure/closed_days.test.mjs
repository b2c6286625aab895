// The closed days that an admin types: what is read, what is wrong, and that nothing is lost
// between the two.

import assert from "node:assert/strict";
import { test } from "node:test";
import { closedFor, closedIn, closedText, wrongLine } from "../../pages/parts/closed-days.js";

const DAYS = [{ day: "2026-11-26", name: "Thanksgiving Day" }, { day: "2026-12-25" }];

test("days stand by rising day, each with its word", () => {
    assert.deepEqual(closedIn("\n 2026-12-25 \r\n2026-11-26   Thanksgiving  Day\n"), DAYS);
    assert.deepEqual(closedIn(" \n"), []);
});

test("what is written is read again as it was", () => {
    assert.deepEqual(closedIn(closedText(DAYS)), DAYS);
    assert.equal(wrongLine(closedText(DAYS)), null);
});

test("a line without a day is named, and so is a day that stands twice", () => {
    for (const wrong of [
        "Christmas", "12/25/2026", "2026-13-01", "2026-02-30", "2026-2-3", "1999-12-31",
        "2100-01-01", "2026-12-25x"
    ]) {
        assert.equal(wrongLine(`2026-12-24\n${wrong}\n2026-12-26`), wrong, wrong);
    }
    assert.equal(wrongLine("2026-12-25 Christmas Day\n2026-12-25 again"), "2026-12-25 again");
    assert.equal(wrongLine(""), null);
    assert.equal(wrongLine("2028-02-29 leap day"), null);
});

test("a trip on a closed day is warned of until it is over or canceled; no other trip is", () => {
    const of = (day, status = "booked") => closedFor({ day, status }, DAYS, "2026-11-26");
    assert.equal(of("2026-11-26"), "Thanksgiving Day");
    assert.equal(of("2026-12-25"), "");
    assert.equal(of("2026-11-27"), null);
    for (const status of ["cancelled", "taken", "no-show-rider", "no-show-agency"])
        assert.equal(of("2026-12-25", status), null, status);
    assert.equal(closedFor({ day: "2026-11-26", status: "booked" }, DAYS, "2026-11-27"), null);
});
