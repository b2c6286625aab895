import assert from "node:assert/strict";
import { test } from "node:test";

import { makeTurns } from "../../pages/parts/turns.js";

const soon = () =>
    new Promise((go) => {
        setTimeout(go, 1);
    });

test("what begins meanwhile waits for its turn, in its order", async () => {
    const turn = makeTurns(), said = [];
    const one = turn(async () => {
        await soon();
        said.push("one");
    });
    const two = turn(() => said.push("two"));
    const three = turn(async () => {
        said.push("three");
    });
    await Promise.all([one, two, three]);
    assert.deepEqual(said, ["one", "two", "three"]);
});

test("what fails tells whoever began it, and holds up nothing", async () => {
    const turn = makeTurns();
    const fails = turn(async () => {
        throw new Error("no room");
    });
    const goes = turn(async () => "done");
    await assert.rejects(fails, /no room/);
    assert.equal(await goes, "done");
});

test("each act is done once and gives what it made", async () => {
    const turn = makeTurns();
    let count = 0;
    const all = await Promise.all(
        Array.from({ length: 50 }, (_, at) =>
            turn(async () => {
                count += 1;
                return at;
            })
        )
    );
    assert.equal(count, 50);
    assert.deepEqual(all, Array.from({ length: 50 }, (_, at) => at));
});
