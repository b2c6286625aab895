// Of the ticks of all machines the last one counts.

import assert from "node:assert/strict";
import { test } from "node:test";

import { lastTick, tickIn, tickOnFile } from "../../pages/parts/call-ticks.js";

const TEXT = JSON.stringify({
    calls: { "plan-9": { 5: "called", 6: "open", 7: "strange" } },
    call_times: { "plan-9": { 5: "2026-03-10T10:15:00" } }
});

test("the later tick counts, wherever it was made, and the own one where both are one", () => {
    const times = ["", "2026-03-10T10:00:00", "2026-03-10T10:15:00", "2026-03-11T08:00:00"];
    for (const mine of times) {
        for (const told of times) {
            const shown = lastTick(
                { result: "called", at: mine },
                { result: "not-reached", at: told }
            );
            assert.deepEqual(
                [shown.result, shown.isElsewhere],
                told > mine || (told === mine && told) ? ["not-reached", true] : ["called", false],
                `${mine} ${told}`
            );
        }
    }
    const one = { result: "called", at: times[1] };
    assert.equal(lastTick(one, { ...one }).isElsewhere, false);
    assert.deepEqual(lastTick(null, { result: "called", at: "" }), {
        result: "called",
        at: "",
        isElsewhere: true
    });
    assert.equal(lastTick(null, null).result, "");
});

test("the file's ticks are those of the list and trip; one that was taken back is none", () => {
    assert.deepEqual(tickOnFile(TEXT, "plan-9", 5), {
        result: "called",
        at: "2026-03-10T10:15:00"
    });
    assert.deepEqual(tickOnFile(TEXT, "plan-9", 6), { result: "", at: "" });
    assert.deepEqual(tickOnFile(TEXT, "plan-9", 7), { result: "", at: "" });
    for (const [text, list] of [
        [TEXT, "plan-8"],
        [null, "plan-9"],
        ["{", "plan-9"],
        ["[]", "plan-9"],
        ['{"calls":7}', "plan-9"]
    ])
        assert.equal(tickOnFile(text, list, 5), null);
});

test("what an earlier page kept is a tick without a moment", () => {
    assert.deepEqual(tickIn("called"), { result: "called", at: "" });
    assert.deepEqual(tickIn({ result: "not-reached", at: "2026-03-10T10:00:00" }), {
        result: "not-reached",
        at: "2026-03-10T10:00:00"
    });
    for (const broken of [null, 7, {}, { result: 1, at: "" }]) assert.equal(tickIn(broken), null);
});
