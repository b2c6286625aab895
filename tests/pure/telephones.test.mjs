import assert from "node:assert/strict";
import { test } from "node:test";

globalThis.Node ??= class {};
const { heldTogether, piecesOf } = await import("../../pages/parts/telephones.js");

const numbersIn = (text) => piecesOf(text).filter((_, at) => at % 2);

test("each form of a telephone number is one piece", () => {
    for (const it of [
        "(217) 555-0100", "(217)555-0100", "217-555-0100", "217 555 0100", "217.555.0100",
        "555-0100", "1-800-555-0100", "+1 217 555 0100", "(217) 555-0100 ext. 12", "555-0100 x12"
    ]) {
        const text = `Call ${it}, or write. Llame al ${it}.`;
        assert.deepEqual(numbersIn(text), [it, it], it);
        assert.equal(piecesOf(text).join(""), text);
    }
});

test("days, times, feet and numbers of trips are no telephone numbers", () => {
    const text =
        "Trip 1117 of 2026-12-25, 8:05-8:20 AM, ZIP 13202-1234, 2,640 feet, rider 12345678, key a1b2-555-0100-x, 37.125(b)";
    assert.deepEqual(numbersIn(text), []);
    assert.deepEqual(piecesOf(text), [text]);
});

test("only texts change, and the desk's own lines do not", () => {
    const number = { tag: "span", attributes: { class: "telephone" }, children: ["555-0100"] };
    const page = [
        {
            tag: "p",
            attributes: { lang: "es" },
            children: [
                "Llame al 555-0100.",
                { tag: "strong", attributes: {}, children: ["555-0100"] }
            ]
        },
        { tag: "pre", attributes: {}, children: ["555-0100"] },
        null,
        false,
        7
    ];
    assert.deepEqual(heldTogether(page).slice(0, 2), [
        {
            tag: "p",
            attributes: { lang: "es" },
            children: [
                "Llame al ",
                number,
                ".",
                { tag: "strong", attributes: {}, children: [number] }
            ]
        },
        page[1]
    ]);
    assert.deepEqual(heldTogether(page).slice(2), [null, false, 7]);
});
