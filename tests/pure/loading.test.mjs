// Files that come late: a try that fails is followed by another one after its pause, and the last
// one's fault is the whole's.

import assert from "node:assert/strict";
import { test } from "node:test";
import { patiently } from "../../pages/parts/loading.js";
import { SCREENS, styleAfter } from "../../pages/parts/screens.js";

/** Fails so many times, and then gives how often it was asked. */
function failing(times) {
    let asked = 0;
    return async () => {
        asked += 1;
        if (asked <= times) throw new Error(`try ${asked}`);
        return asked;
    };
}

test("what comes is asked for once", async () =>
    assert.equal(await patiently(failing(0), [0, 0]), 1)
);

test("what fails is asked for again after each pause", async () => {
    assert.equal(await patiently(failing(1), [0, 0]), 2);
    assert.equal(await patiently(failing(2), [0, 0]), 3);
});

test("what fails once more than there are pauses fails as its last try does", async () => {
    await assert.rejects(patiently(failing(3), [0, 0]), /try 3/);
    await assert.rejects(patiently(failing(1), []), /try 1/);
});

test("what only takes long is waited for and not asked again", async () => {
    let asked = 0;
    const slow = () => {
        asked += 1;
        return new Promise((go) => {
            setTimeout(() => go("there"), 50);
        });
    };
    assert.equal(await patiently(slow, [0, 0]), "there");
    assert.equal(asked, 1);
});

/** The styles on the page once these screens were opened, one after another. */
function stylesAfterOpening(screens) {
    const there = [];
    for (const name of screens.flatMap(({ styles }) => styles)) {
        const after = styleAfter(name, there);
        if (!there.includes(name))
            there.splice(after === null ? there.length : there.indexOf(after), 0, name);
    }
    return there;
}

test("the styles of a screen stand in its own order, whatever was opened before", () => {
    for (const first of SCREENS) {
        for (const second of SCREENS) {
            for (const last of SCREENS)
                assert.deepEqual(
                    stylesAfterOpening([first, second, last]).filter((name) =>
                        last.styles.includes(name)
                    ),
                    last.styles
                );
        }
    }
});
