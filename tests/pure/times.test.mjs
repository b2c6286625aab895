// Which half of the day is asked about: only where both are possible beside the other fields.

import assert from "node:assert/strict";
import { test } from "node:test";
import { waysOf } from "../../pages/parts/halves.js";

const HALF_DAY = 720;
const halvesOf = (hour) => [hour % 12 * 60, hour % 12 * 60 + HALF_DAY];
/** As the booking's form has it: there before being there, and back after it. */
const check = ({ wish, by, back }) =>
    (by !== null && by <= wish) || (back !== null && back <= (by ?? wish));

/** The fields that are asked about, where each is answered with its first half. */
function askedOf(typed) {
    const open = Object.entries(typed).filter(([, hour]) => hour !== null).map(([name, hour]) => ({
        name,
        halves: halvesOf(hour)
    }));
    const sure = Object.fromEntries(Object.entries(typed).filter(([, hour]) => hour === null));
    let ways = waysOf(open, sure, check);
    const asked = [];
    for (const { name, halves } of open) {
        const possible = halves.filter((half) => ways.some((way) => way[name] === half));
        if (possible.length === 2) asked.push(name);
        ways = ways.filter((way) => way[name] === possible[0]);
    }
    return { asked, read: ways[0] };
}

test("nine, there by ten and back at five needs no question", () => {
    assert.deepEqual(askedOf({ wish: 9, by: 10, back: 5 }), {
        asked: [],
        read: { wish: 540, by: 600, back: 1020 }
    });
});

test("nine and back at twelve needs none", () => {
    assert.deepEqual(askedOf({ wish: 9, by: null, back: 12 }), {
        asked: [],
        read: { wish: 540, by: null, back: 720 }
    });
});

test("nine alone is asked about", () => {
    assert.deepEqual(askedOf({ wish: 9, by: null, back: null }).asked, ["wish"]);
});

test("whatever is typed, what is read is possible where anything is", () => {
    const hours = [null, ...Array.from({ length: 12 }, (_, at) => at + 1)];
    for (const wish of hours.slice(1))
        for (const by of hours)
            for (const back of hours) {
                const { asked, read } = askedOf({ wish, by, back });
                const any = halvesOf(wish).some((one) =>
                    (by === null ? [null] : halvesOf(by)).some((two) =>
                        (back === null ? [null] : halvesOf(back)).some(
                            (three) => !check({ wish: one, by: two, back: three })
                        )
                    )
                );
                assert.equal(!check(read), any, JSON.stringify([wish, by, back, read]));
                assert.ok(asked.length <= 3);
            }
});
