// Which copies of manifests a phone drops: names of riders, and notes about them, stay no longer
// than they are needed.
import assert from "node:assert/strict";
import test from "node:test";
import { copyName, isManifest, isOver } from "../../pages/parts/manifest-days.js";

const TODAY = "2025-03-11";
const DAYS = [
    "2024-12-31", "2025-02-28", "2025-03-09", "2025-03-10", TODAY, "2025-03-12", "2026-01-01"
];
const over = (open = []) => DAYS.filter((day) => isOver(copyName(12, day), TODAY, open));

test("each day before is over, and no other", () => {
    assert.deepEqual(over(), ["2024-12-31", "2025-02-28", "2025-03-09", "2025-03-10"]);
});

test("a day of which something is open stays, for that vehicle alone", () => {
    assert.deepEqual(over(["12 2025-03-10"]), ["2024-12-31", "2025-02-28", "2025-03-09"]);
    assert.equal(isOver(copyName(1, "2025-03-10"), TODAY, ["12 2025-03-10"]), true);
    assert.equal(isOver(copyName(2, "2025-03-10"), TODAY, ["12 2025-03-10"]), true);
});

test("what is no manifest is no day's", () => {
    for (const name of [
        "roster", "files 12 2025-03-10", "manifest", "manifest 12", "manifest x 2025-03-10",
        "a manifest 12 2025-03-10"
    ])
        assert.equal(isOver(name, TODAY), false, name);
});

test("all that have names are those of every vehicle and day", () => {
    for (const day of DAYS) assert.equal(isManifest(copyName(4_294_967_295, day)), true);
    for (const name of ["roster", "manifestos", "files"])
        assert.equal(isManifest(name), false, name);
});
