// A rider's trips as a calendar file: lines of at most 75 bytes, no character cut, times in UTC
// over changes of the clock.

import assert from "node:assert/strict";
import test from "node:test";
import { calendarOf, folded, momentOf } from "../../pages/parts/calendar-file.js";

const ZONE = "America/Chicago",
    trip = { trip: 7, day: "2026-12-08", window_from: 600, window_to: 615, status: "booked" };
const words = (more = {}) => () => ({
    summary: "Ride",
    place: "Mill",
    description: "To Court",
    ...more
});
const about = { zone: ZONE, host: "town.example", now: Date.UTC(2026, 11, 1, 12) };
/** Takes the folds out of a file, as a reader does. */
const unfolded = (text) => text.replace(/\r\n[ \t]/g, "");

test("a moment is in UTC, before and after the clock changes, and behind midnight", () => {
    assert.equal(momentOf("2026-12-08", 600, ZONE), "20261208T160000Z");
    assert.equal(momentOf("2026-07-08", 600, ZONE), "20260708T150000Z");
    assert.equal(momentOf("2026-12-08", 1445, ZONE), "20261209T060500Z");
    assert.equal(momentOf("2026-03-08", 60, ZONE), "20260308T070000Z");
    assert.equal(momentOf("2026-03-08", 240, ZONE), "20260308T090000Z");
    assert.equal(momentOf("2026-12-31", 1500), "20270101T010000");
});

test("a line is folded at 75 bytes and no character is cut", () => {
    for (const sign of ["a", "ñ", "山", "🚐"])
        for (let length = 0; length < 160; length += 1) {
            const line = `X:${sign.repeat(length)}`, text = folded(line);
            assert.equal(unfolded(text), line);
            assert.ok(text.split("\r\n").every((it) => Buffer.byteLength(it) <= 75), line);
            assert.ok(!text.includes("\ufffd"));
        }
});

test("the file has each trip once, with what RFC 5545 asks of a calendar and an event", () => {
    const lines = calendarOf([trip, { ...trip, trip: 8 }], words(), about).split("\r\n");
    assert.equal(lines.at(-1), "");
    assert.deepEqual(lines.slice(0, 5), [
        "BEGIN:VCALENDAR", "VERSION:2.0", "PRODID:-//desk//trips//EN", "CALSCALE:GREGORIAN",
        "METHOD:PUBLISH"
    ]);
    assert.deepEqual(lines.slice(5, 16), [
        "BEGIN:VEVENT", "UID:trip-7@town.example", "SEQUENCE:29935440", "DTSTAMP:20261201T120000Z",
        "DTSTART:20261208T160000Z", "DTEND:20261208T161500Z", "SUMMARY:Ride", "LOCATION:Mill",
        "DESCRIPTION:To Court", "STATUS:CONFIRMED", "END:VEVENT"
    ]);
    assert.equal(lines.filter((it) => it.startsWith("UID:")).length, 2);
    assert.equal(lines.at(-2), "END:VCALENDAR");
});

test("no text ends a line or begins another property", () => {
    const text = calendarOf(
        [trip],
        words({
            summary: "a\r\nATTENDEE:x",
            place: "Mill, 2; \\ side",
            description: "b\nEND:VEVENT\u0007"
        }),
        about
    ),
        lines = unfolded(text).split("\r\n");
    assert.ok(
        lines.includes("SUMMARY:a\\nATTENDEE:x") &&
            lines.includes("LOCATION:Mill\\, 2\\; \\\\ side") &&
            lines.includes("DESCRIPTION:b\\nEND:VEVENT")
    );
    assert.equal(lines.filter((it) => it === "END:VEVENT").length, 1);
});

test("a later file takes a canceled trip out of a calendar: same event, higher number", () => {
    const linesAt = (status, now) =>
        calendarOf([{ ...trip, status }], words(), { ...about, now }).split("\r\n"),
        of = (lines, name) => lines.find((it) => it.startsWith(`${name}:`));
    const [first, later] = [linesAt("booked", about.now), linesAt("cancelled", about.now + 61_000)];
    assert.equal(of(later, "UID"), of(first, "UID"));
    assert.equal(of(first, "STATUS"), "STATUS:CONFIRMED");
    assert.equal(of(later, "STATUS"), "STATUS:CANCELLED");
    assert.ok(Number(of(later, "SEQUENCE").slice(9)) > Number(of(first, "SEQUENCE").slice(9)));
});
