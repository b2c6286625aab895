// What letters say: each kind in both languages, as tests/letters has them.
// tests/unit/test_letters.py holds bin/letters to the same texts.
import assert from "node:assert/strict";
import { readFileSync } from "node:fs";
import test from "node:test";
import {
    bodyOf,
    blocksOf,
    conditionsIn,
    letterOf,
    plainText
} from "../../pages/parts/letter-text.js";
import { PLANS, SENTENCES } from "../../pages/words/letter-sentences.js";

const here = new URL("../letters/", import.meta.url),
    { agency, riders } = JSON.parse(readFileSync(new URL("cases.json", here), "utf8"));

/** @param {any} it */
function given({ name, place, letters, print, made, date, more }, own) {
    const all = Object.entries(letters).map(([entry, text]) => letterOf(Number(entry), text)).sort(
        (a, b) => a.entry - b.entry
    );
    const letter = made
        ? {
              entry: -1,
              text: "",
              date,
              decision: made,
              lines: new Map([["DATE", date], ["DECISION", made]])
          }
        : all.find(({ entry }) => entry === print);
    return [
        letter,
        {
            own,
            rider: 1001,
            name,
            place,
            agency,
            letters: all,
            appealDays: 60,
            hearingDays: 15,
            more
        }
    ];
}

for (const [name, it] of Object.entries(riders)) {
    for (const own of ["en", "es"]) {
        test(`the letter ${name} in ${own}`, () => {
            assert.equal(
                plainText(blocksOf(...given(it, own))),
                readFileSync(new URL(`${name}.${own}.txt`, here), "utf8")
            );
        });
    }
}

test("both languages have each text, each place is filled, and each plan is of texts", () => {
    assert.deepEqual(Object.keys(SENTENCES.es).filter((key) => !(key in SENTENCES.en)), []);
    assert.deepEqual(
        Object.keys(SENTENCES.en).filter((key) => !(key in SENTENCES.es) && !key.endsWith("/you")),
        []
    );
    for (const [name, it] of Object.entries(riders))
        for (const own of ["en", "es"])
            assert.doesNotMatch(plainText(blocksOf(...given(it, own))), /[{}]|undefined|NaN/, name);
    for (const line of Object.values(PLANS).flat()) {
        const [as, key] = line.split(" ");
        if (!["items", "where"].includes(as) && key !== "-") assert.ok(key in SENTENCES.en, key);
    }
});

test("a rider is spoken to where the page is the rider's own", () => {
    const [letter, about] = given(riders.granted, "en");
    assert.match(
        plainText(bodyOf(letter, { ...about, isYou: true })),
        /You are ADA Paratransit Eligible at Example Town Transit until Saturday, February 28, 2026\./
    );
});

test("a list has conditions in words, and all else as it is", () => {
    const before = [
        "always", "nolift", "months:1,2,12;farther:5280", "until 2026-12-30; always",
        "Sara; always early", "caller 3", ""
    ],
        words = before.map((it) => conditionsIn("en", it));
    assert.ok(
        words.slice(0, 4).every((it) => !/nolift|months:|farther:|always/.test(it)),
        words.join(" | ")
    );
    assert.match(words[2], /January.*December.*; .*5,280/);
    assert.ok(words[3].startsWith("until 2026-12-30; "));
    assert.deepEqual(words.slice(4), before.slice(4));
});
