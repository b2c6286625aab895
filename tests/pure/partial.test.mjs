// A grant in part: its fixed form, which two decisions are one letter, and what is left to do.
import assert from "node:assert/strict";
import test from "node:test";
import {
    pairOf,
    partIn,
    partsLeft,
    partsListed,
    partsTold,
    partWaiting,
    reasonsOf
} from "../../pages/parts/partial.js";

const letter = (entry, date, decision, lines = {}) => ({
    entry,
    date,
    decision,
    text: "",
    lines: new Map(Object.entries(lines))
});
const PART = {
    until: "2026-02-28",
    conditions: ["farther:2640", "months:12,1"],
    reasons: "You ride the bus. Not granted: more. Granted in part through nothing."
};
const refusal = (date = "2025-03-10", reasons = reasonsOf(PART)) =>
    letter(1, date, "refused", { REASONS: reasons });
const grant = (date = "2025-03-11", conditions = "farther:2640") =>
    letter(3, date, "granted", { CONDITIONS: conditions });

test("what a refusal in part says is read again as it was written", () => {
    for (const conditions of [
        ["nolift"],
        ["months:1"],
        PART.conditions,
        ["nolift", "farther:1", "months:1,2,3"]
    ])
        assert.deepEqual(partIn(reasonsOf({ ...PART, conditions })), { ...PART, conditions });
    for (const words of [
        "", "No need.", "Granted in part through soon for nolift. Not granted: x",
        "Granted in part through 2026-02-28 for nolift."
    ])
        assert.equal(partIn(words), null);
});

test("a refusal in part and the next grant are one letter while an appeal is possible", () => {
    for (const [grants, isPair] of [
        [grant(), true],
        [grant("2025-05-09"), true],
        [grant("2025-05-10"), false],
        [grant("2025-03-11", "always"), false],
        [grant("2025-03-11", "nolift; always"), false]
    ]) {
        for (const of of [refusal(), grants])
            assert.equal(pairOf(of, [refusal(), grants]) !== null, isPair);
    }
    assert.equal(pairOf(refusal(), [refusal()]), null);
    assert.equal(
        pairOf(refusal("2025-03-10", "No need."), [refusal("2025-03-10", "No need."), grant()]),
        null
    );
    const other = letter(2, "2025-03-10", "refused", { REASONS: "No need." });
    assert.equal(pairOf(refusal(), [refusal(), other, grant()]), null);
    assert.notEqual(
        pairOf(refusal(), [refusal(), letter(2, "2025-03-10", "notice", {}), grant()]),
        null
    );
});

test("a refusal in part waits until the next decision on an application", () => {
    assert.equal(partWaiting([])?.letter, undefined);
    assert.equal(partWaiting([refusal()])?.letter.entry, 1);
    assert.equal(partWaiting([refusal(), letter(2, "2025-03-11", "notice")])?.letter.entry, 1);
    for (const decision of [
        grant(),
        grant("2025-03-11", "always"),
        letter(3, "2025-03-11", "refused", { REASONS: "No need." })
    ])
        assert.equal(partWaiting([refusal(), decision]), null);
});

test("what is left to do is the furthest known step, and nothing once it is granted", () => {
    const at = (step, rider = 7) => ({ rider, entry: 1, step, day: "2025-03-10" }),
        steps = ["refused", "applied", "granted"];
    for (const told of steps)
        for (const listed of steps) {
            const furthest = steps[Math.max(steps.indexOf(told), steps.indexOf(listed))];
            assert.deepEqual(
                partsLeft([at(told)], [at(listed)]).map(({ step }) => step),
                furthest === "granted" ? [] : [furthest]
            );
        }
    assert.deepEqual(
        partsLeft([at("refused", 9), at("refused", 8)], []).map(({ rider }) => rider),
        [8, 9]
    );
    const heads = ["Rider", "Name", "Entry", "Refused on", "Next", "When"];
    assert.deepEqual(
        partsListed([{
            heads,
            rows: [
                ["7", "Ana", "1", "2025-03-10", "Take the new application", ""],
                ["8", "", "1", "2025-03-10", "Grant it with its conditions", ""],
                ["x", "", "1", "", "Wait", ""],
                []
            ]
        }]),
        [at("refused"), at("applied", 8)]
    );
    for (const text of [
        null, "", "[]", "{}", '{"partial_grants": 7}', '{"partial_grants": [null, {"rider": "7"}]}'
    ])
        assert.deepEqual(partsTold(text), []);
    assert.deepEqual(partsTold(JSON.stringify({ partial_grants: [at("applied")] })), [
        at("applied")
    ]);
});
