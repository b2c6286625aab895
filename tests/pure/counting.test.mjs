// What is told to the site, without a browser: forms of fields, spelled paths, and what each answer
// of the site means.

import assert from "node:assert/strict";
import { test } from "node:test";
import {
    endOf,
    faultOf,
    isDue,
    lineOf,
    namedIn,
    pathOf,
    pauseAfter
} from "../../pages/parts/counting.js";
import { EVENTS } from "../../pages/parts/events.js";

const ID = "0123456789abcdefghjkmnpqrs", AT = "2026-11-28T09:24:00";
const DENIAL = {
    id: ID,
    day: "2026-12-01",
    minute: 540,
    rule: "no vehicle",
    channel: "page",
    mode: "around",
    at: AT
};

test("an event leaves at 204 alone, and each answer of the site has one end", () => {
    for (let status = 0; status < 600; status += 1) {
        for (const isOwn of [true, false]) {
            const end = endOf(status, isOwn), isClient = status >= 400 && status < 500;
            assert.equal(end === "kept", status === 204, `${status}`);
            assert.equal(
                end === "later",
                status !== 204 && (!isClient || [401, 408, 425, 429].includes(status)),
                `${status}`
            );
            assert.equal(end === "other", status === 403 && !isOwn, `${status}`);
        }
    }
    assert.equal(endOf(400, true), "refused");
    assert.equal(endOf(404, false), "refused");
});

test("pauses grow, and none is longer than five minutes", () => {
    const pauses = Array.from({ length: 20 }, (_, at) => pauseAfter(at + 1));
    assert.deepEqual(pauses, [...pauses].sort((a, b) => a - b));
    assert.deepEqual([pauses[0], pauses[19]], [2_000, 300_000]);
});

test("what is held back waits for its moment, and not for a clock that was put back", () => {
    const told = 1_800_000_000_000, held = { since: told, from: told + 600_000 };
    for (let minutes = -10; minutes < 20; minutes += 1) {
        const now = told + minutes * 60_000;
        assert.equal(isDue(held, now), minutes >= 10 || minutes < -1, `${minutes} minutes`);
        assert.equal(isDue({ since: told, from: 0 }, now), true);
    }
});

test("a blank, a bracket and a colon are percent-encoded", () => {
    assert.equal(
        pathOf("denials", { ...DENIAL, rule: "37.131(a)" }),
        `/tally/denials?id=${ID}&day=2026-12-01&minute=540&rule=37.131(a)&channel=page&mode=around&at=2026-11-28T09%3A24%3A00`
    );
    assert.match(pathOf("denials", DENIAL), /&rule=no%20vehicle&/);
});

test("each field of each kind that is left out or wrong is named", () => {
    assert.equal(faultOf("denials", DENIAL), null);
    for (const [name, { optional }] of Object.entries(EVENTS.denials)) {
        assert.equal(faultOf("denials", { ...DENIAL, [name]: undefined }), optional ? null : name);
        assert.equal(faultOf("denials", { ...DENIAL, [name]: "\n" }), name);
        assert.equal(faultOf("denials", { ...DENIAL, [name]: Number.NaN }), name);
    }
    assert.equal(faultOf("denials", { ...DENIAL, more: 1 }), "more");
});

test("a text is one line of whole signs, counted as people count them", () => {
    const note = (text) =>
        faultOf("notes", { id: ID, vehicle: 1, day: "2026-12-01", trip: 0, text, at: AT });
    assert.equal(note("🚐".repeat(200)), null);
    for (const text of ["🚐".repeat(201), "", "   ", "a\nb", "a\u2028b", "\ud83d", "\ude90x"])
        assert.equal(note(text), "text");
    assert.equal(note(lineOf(`  left at\nthe\tside \ud83d door${" 🚐".repeat(200)}`, 200)), null);
    assert.equal(lineOf("  a \n b\u0000 ", 200), "a b");
});

test("the kind and the id of a path are read, of events alone", () => {
    assert.deepEqual(namedIn(pathOf("denials", DENIAL)), { kind: "denials", id: ID });
    for (const path of [
        "",
        "/tally/denials",
        `/tally/other?id=${ID}`,
        `/x?id=${ID}`,
        "/tally/denials?id=1"
    ])
        assert.equal(namedIn(path), null);
});
