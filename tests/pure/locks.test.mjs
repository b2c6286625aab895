import assert from "node:assert/strict";
import { test } from "node:test";

const locks = {
    current: {
        request: () => Promise.reject(new Error("SecurityError")),
        query: () => Promise.reject(new Error("SecurityError"))
    }
};
Object.defineProperty(globalThis, "navigator", {
    configurable: true,
    get: () => ({ locks: locks.current })
});
const { alone, held } = await import("../../pages/parts/locks.js");

test("without the browser's locks, one is done after another", async () => {
    const done = [],
        wait = (name, milliseconds) =>
            alone("a", async () => {
                await new Promise((go) => {
                    setTimeout(go, milliseconds);
                });
                done.push(name);
                return name;
            });
    assert.deepEqual(
        await Promise.all([
            wait("first", 30),
            wait("second", 1),
            alone("b", async () => done.push("other"))
        ]),
        ["first", "second", 1]
    );
    assert.deepEqual(done, ["other", "first", "second"]);
});

test("without them, what only one may do is not done beside another", async () => {
    let release = () => {};
    const first = alone(
        "c",
        (has) =>
            new Promise((go) => {
                release = () => go(has);
            })
    );
    await new Promise((go) => {
        setTimeout(go, 5);
    });
    assert.deepEqual([...await held()], ["c"]);
    assert.equal(await alone("c", async (has) => has, { only: true }), false);
    release();
    assert.equal(await first, true);
    assert.equal(await alone("c", async (has) => has, { only: true }), true);
    assert.deepEqual([...await held()], []);
});

test("what fails by itself is not done a second time, and holds up nothing", async () => {
    let tries = 0;
    const fails = async () => {
        tries += 1;
        throw new Error("its own");
    };
    await assert.rejects(alone("d", fails), /its own/);
    locks.current = {
        request: (name, _options, act) => Promise.resolve().then(() => act({ name })),
        query: async () => ({ held: [{ name: "e" }] })
    };
    await assert.rejects(alone("d", fails), /its own/);
    assert.equal(tries, 2);
    assert.equal(await alone("d", async (has) => has), true);
    assert.deepEqual([...await held()], ["e"]);
});
