import assert from "node:assert/strict";
import { test } from "node:test";

/** A store that is there, one that refuses each look, and one that has no room. */
const storeOf = (kept = {}) =>
    Object.defineProperties(kept, {
        getItem: { value: (name) => kept[name] ?? null },
        setItem: {
            value: (name, text) => {
                kept[name] = text;
            }
        },
        removeItem: {
            value: (name) => {
                delete kept[name];
            }
        }
    });
const full = (kept = {}) =>
    Object.defineProperties(kept, {
        getItem: { value: (name) => kept[name] ?? null },
        removeItem: {
            value: (name) => {
                delete kept[name];
            }
        },
        setItem: {
            value: () => {
                throw new Error("QuotaExceededError");
            }
        }
    });
const use = (local, session = storeOf()) => {
    Object.defineProperty(globalThis, "localStorage", {
        configurable: true,
        get:
            local === null
                ? () => {
                      throw new Error("SecurityError");
                  }
                : () => local
    });
    Object.defineProperty(globalThis, "sessionStorage", { configurable: true, get: () => session });
};
const {
    dropNames,
    dropText,
    keepObject,
    keepText,
    keptObject,
    keptText,
    namesKept,
    whenNotKept
} = await import("../../pages/parts/kept.js");

test("what is kept is in the store, and is dropped from it", () => {
    const local = storeOf();
    use(local);
    assert.equal(keepText("local", "a", "1"), true);
    assert.equal(local.a, "1");
    assert.equal(keptText("local", "a"), "1");
    dropText("local", "a");
    assert.equal(keptText("local", "a"), null);
});

for (const [what, local] of [
    ["refuses each look", null],
    ["has no room", full({ old: "1", a: "before" })]
]) {
    test(`a store that ${what} leaves all of it to the page, and says so`, () => {
        use(local);
        let told = 0;
        whenNotKept(() => {
            told += 1;
        });
        assert.equal(told, 1);
        assert.equal(keepText("local", "a", "now"), false);
        assert.equal(told, 2);
        assert.equal(keptText("local", "a"), "now");
        assert.equal(keepObject("b", { c: 2 }), false);
        assert.deepEqual(keptObject("b"), { c: 2 });
        assert.deepEqual(namesKept("local").filter((name) => name !== "old").sort(), ["a", "b"]);
        dropNames("local", () => true);
        assert.deepEqual(namesKept("local"), []);
        assert.equal(keptText("local", "a"), null);
    });
}

test("what is no object is an empty one", () => {
    use(storeOf({ a: "[1]", b: "{", c: "null", d: "3" }));
    for (const name of ["a", "b", "c", "d", "e"]) assert.deepEqual(keptObject(name), {});
});

test("the two stores are kept apart", () => {
    use(null, storeOf());
    keepText("local", "a", "local");
    keepText("session", "a", "session");
    assert.equal(keptText("local", "a"), "local");
    assert.equal(keptText("session", "a"), "session");
    dropNames("session", () => true);
    assert.equal(keptText("local", "a"), "local");
    dropText("local", "a");
});
