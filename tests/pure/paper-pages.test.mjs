// Pages of paper: each row is on one page, in its order, and no page is fuller than it may be.
import assert from "node:assert/strict";
import test from "node:test";
import { pagesOf } from "../../pages/parts/paper-pages.js";

test("rows go on one page as long as there is room", () => {
    assert.deepEqual(pagesOf([10, 10, 10], 30, 40), [[0, 3]]);
    assert.deepEqual(pagesOf([10, 10, 11], 30, 40), [[0, 2], [2, 3]]);
    assert.deepEqual(pagesOf([], 30, 40), [[0, 0]]);
});

test("a row that is higher than a page has one of its own", () => {
    assert.deepEqual(pagesOf([90, 10, 90, 10], 30, 40), [[0, 1], [1, 2], [2, 3], [3, 4]]);
});

test("every row is on one page, in order, and no page of two rows is too full", () => {
    for (let first = 5; first <= 40; first += 5)
        for (let other = first; other <= 60; other += 5)
            for (let count = 0; count < 30; count += 1) {
                const heights = Array.from({ length: count }, (_, at) => 3 + (at * 7) % 17),
                    pages = pagesOf(heights, first, other);
                assert.deepEqual(pages.flatMap(([from, to]) => heights.slice(from, to)), heights);
                pages.forEach(([from, to], at) => {
                    const full = heights.slice(from, to).reduce((sum, it) => sum + it, 0),
                        room = at === 0 ? first : other;
                    assert.ok(
                        to - from === 1 || count === 0 || full <= room,
                        `page ${at + 1} has ${full} of ${room}`
                    );
                    if (to < count)
                        assert.ok(
                            full + heights[to] > room,
                            `page ${at + 1} has room for one more`
                        );
                });
            }
});
