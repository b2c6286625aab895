// Keys as they are typed: which are meant, and what is said of one that nobody has.
import assert from "node:assert/strict";
import { test } from "node:test";
import {
    grouped,
    keyFault,
    keyTrouble,
    LENGTH,
    meantKeys,
    newKey,
    normalKey
} from "../../pages/parts/key.js";

const KEY = "k7qm2vxd94hst0wb6e1234567z";

test("a made key may have hyphens, blanks and capitals; every other key is taken as it is", () => {
    assert.equal(KEY.length, LENGTH);
    assert.equal(normalKey(` ${grouped(KEY).toUpperCase()} `), KEY);
    assert.equal(normalKey("Half a Key"), "Half a Key");
    assert.equal(normalKey(KEY.slice(1)), KEY.slice(1));
});

test("a key that is too short or too long says how many characters it has", () => {
    assert.deepEqual(keyTrouble("k7qm2-vxd94-hst0w-b6e"), { what: "short", count: 18, signs: "" });
    assert.deepEqual(keyTrouble(`${KEY}4`), { what: "long", count: 27, signs: "" });
});

test("a key with a sign that no made key has names it", () => {
    assert.deepEqual(keyTrouble(KEY.replace("0", "O")), { what: "sign", count: 26, signs: "o" });
});

test("of a right shape, and of a key of another kind, nothing is said", () => {
    for (const typed of [KEY, newKey(), "abc", "half a key!", "", "x".repeat(60)])
        assert.equal(keyTrouble(typed), null, typed);
});

test("a key of the agency's own kind is not called too short, too long or misread", () => {
    for (const typed of [
        "rider-104-m03s-pft3", "RIDER-104-m03s-pft3", "rider 104 m03s pft3", "clerk-3qnm-mgra",
        "second-officer-bv8h-0yvr-1234", "van-5-qqqq-7777-zzzz", "104-m03s-pft3-ab12",
        "examinersecretnumber000001", "k7qm2vxd94hst0wb6e1u34567z", "0123456789012345",
        "abcdefghjkmnpqrs"
    ])
        assert.equal(keyTrouble(typed), null, typed);
    assert.deepEqual(keyTrouble("k7qm2-vxd9-hst0w-b6e12-34567-z"), {
        what: "short",
        count: 25,
        signs: ""
    });
});

test("a key that a phone's keyboard changed is tried as typed and then as given", () => {
    assert.deepEqual(meantKeys("rider-104-m03s-pft3"), ["rider-104-m03s-pft3"]);
    for (const typed of [
        "RIDER-104-M03S-PFT3", "Rider-104-m03s-pft3 ", "rider 104 m03s pft3",
        "rider\u2013104-m03s-pft3"
    ])
        assert.ok(meantKeys(typed).includes("rider-104-m03s-pft3"), typed);
    assert.equal(meantKeys("Half a Key")[0], "Half a Key");
    assert.deepEqual(meantKeys(grouped(KEY).toUpperCase()).slice(0, 2), [
        KEY,
        grouped(KEY).toUpperCase()
    ]);
});

test("what can be nobody's key says why: nothing, too much, or a sign that no key can have", () => {
    assert.deepEqual(
        [
            "",
            "  ",
            "x".repeat(250),
            "key \u{1F511}",
            "\u043a\u043b\u044e\u0447",
            "clé",
            "half a key",
            ` ${KEY} `,
            "rider\u2013104"
        ].map(keyFault),
        ["none", "none", "much", "strange", "strange", "strange", null, null, null]
    );
});
