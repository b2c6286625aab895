import assert from "node:assert/strict";
import test from "node:test";
import { basisOf, fittingBasis, missedInWords, noticeIn } from "../../pages/parts/notices.js";

const TRIPS = [
    { day: "2026-11-02", from: 545, to: 575, place: "12 Oak St." },
    { day: "2026-11-09", from: 0, to: 30, place: "St. Mary's; east door" },
    { day: "2026-11-16", from: 1410, to: 1439, place: "" }
];

test("a basis is read as it was written, for any number of trips, with or without words", () => {
    for (let count = 1; count <= TRIPS.length; count += 1) {
        for (const more of ["", "Called twice. Proposed suspension: none of that.", "a; b"]) {
            const missed = TRIPS.slice(0, count),
                basis = basisOf({ missed, first: "2026-12-20", last: "2026-12-26", more });
            assert.deepEqual(noticeIn(basis), {
                missed: missed.map(missedInWords),
                first: "2026-12-20",
                last: "2026-12-26",
                more
            });
        }
    }
});

test("times are four digits, midnight and noon too", () => {
    for (const [minute, words] of [
        [0, "0000"],
        [59, "0059"],
        [60, "0100"],
        [719, "1159"],
        [720, "1200"],
        [1439, "2359"]
    ]) {
        assert.equal(
            missedInWords({ day: "2026-11-02", from: minute, to: minute, place: "" }),
            `2026-11-02 ${words}-${words}`
        );
    }
});

test("other words than these are no notice of ours", () => {
    for (const words of [
        "", "Missed trips on four days in November.",
        "Missed trips (no-shows): . Proposed suspension: 2026-12-20 through 2026-12-26.",
        "Missed trips (no-shows): x. Proposed suspension: soon."
    ]) {
        assert.equal(noticeIn(words), null);
    }
});

test("three trips of ordinary places fit into the desk's 500 characters", () => {
    const missed = [1, 2, 3].map((week) => ({
        day: `2026-11-0${week}`,
        from: 545,
        to: 575,
        place: "St. Francis Medical Center, 1400 West Park Street"
    }));
    assert.ok(basisOf({ missed, first: "2026-12-20", last: "2026-12-26", more: "" }).length <= 500);
});

test("seven trips of ordinary places fit into the desk's 500 characters", () => {
    const missed = [1, 2, 3, 4, 5, 6, 7].map((day) => ({
        day: `2026-11-0${day}`,
        from: 545,
        to: 575,
        place: "1204 Westfield Avenue Apt 12B"
    }));
    assert.ok(basisOf({ missed, first: "2026-12-20", last: "2026-12-26", more: "" }).length <= 500);
    assert.equal(
        fittingBasis({ missed, first: "2026-12-20", last: "2026-12-26", more: "" }, 500).named,
        7
    );
});

test("where trips do not fit, places are shortened first, then the last are left out", () => {
    for (let count = 1; count <= 12; count += 1) {
        const missed = Array.from({ length: count }, (_, at) => ({
            day: `2026-11-${String(at + 1).padStart(2, "0")}`,
            from: 545,
            to: 575,
            place: "St. Francis Medical Center, 1400 West Park Street"
        }));
        const { basis, length, named } = fittingBasis(
            { missed, first: "2026-12-20", last: "2026-12-26", more: "Called twice." },
            500
        ),
            found = noticeIn(basis);
        assert.ok(length <= 500 && length === basis.length && named <= count);
        assert.equal(found.missed.length, named);
        assert.equal(found.more, "Called twice.");
        assert.deepEqual(
            found.missed.map((it) => it.slice(0, 10)),
            missed.slice(0, named).map(({ day }) => day)
        );
        if (named < count)
            assert.ok(
                basisOf({
                    missed: missed.slice(0, named + 1).map((it) => ({
                        ...it,
                        place: "St. Francis Medical Center"
                    })),
                    first: "2026-12-20",
                    last: "2026-12-26",
                    more: "Called twice."
                }).length >
                    500
            );
    }
    const long = fittingBasis(
        {
            missed: [{ day: "2026-11-01", from: 0, to: 30, place: "" }],
            first: "2026-12-20",
            last: "2026-12-26",
            more: "x".repeat(500)
        },
        500
    );
    assert.ok(long.named === 1 && long.length > 500);
});
