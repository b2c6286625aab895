// The letter of a decision while it is typed: it says what the letter will say.
import assert from "node:assert/strict";
import test from "node:test";
import { draftOf } from "../../pages/parts/case-draft.js";
import { blocksOf, kindOf, letterOf, plainText } from "../../pages/parts/letter-text.js";
import { reasonsOf } from "../../pages/parts/partial.js";

const AGENCY = {
    name: "Lake Town Transit",
    telephone: "555-0100",
    address: "1 Main St",
    appeal: { to: "", address: "", telephone: "" }
};
const about = (letters) => ({
    own: "en",
    rider: 5,
    name: "Ann",
    agency: AGENCY,
    letters,
    appealDays: 60,
    hearingDays: 15
});
const DATE = "2026-12-07",
    textOf = (draft) => plainText(blocksOf(draft.letter, about(draft.letters)));
const desks = (entry, lines) =>
    letterOf(entry, [`RIDER 5`, `DATE ${DATE}`, ...lines, ""].join("\n"));
const body = (text) => text.split("\n\n").slice(0, -2).join("\n\n");

test("a draft reads as the letter that the desk writes", () => {
    const pairs = [
        [
            "refuse",
            { reasons: "You ride Line 1." },
            ["DECISION refused", "REASONS You ride Line 1."]
        ],
        [
            "grant",
            { until: "2027-12-31" },
            ["DECISION granted", "UNTIL 2027-12-31", "CONDITIONS always"]
        ],
        [
            "suspend",
            { starts: "2026-12-22", ends: "2026-12-28", reasons: "Three no-shows." },
            ["DECISION suspended", "FROM 2026-12-22", "TO 2026-12-28", "REASONS Three no-shows."]
        ],
        [
            "appeal-denied",
            { reasons: "Nothing new." },
            ["DECISION appeal denied", "REASONS Nothing new."]
        ],
        ["overturn", {}, ["DECISION suspension overturned"]],
        [
            "appeal-granted",
            { until: "2027-12-31", conditions: ["nolift"] },
            ["DECISION appeal granted", "UNTIL 2027-12-31", "CONDITIONS nolift"]
        ]
    ];
    for (const [kind, values, lines] of pairs) {
        const draft = draftOf(kind, values, { date: DATE, letters: [] }), written = desks(0, lines);
        assert.equal(
            body(textOf(draft) + "\n\nx"),
            body(plainText(blocksOf(written, about([written])))),
            kind
        );
    }
});

test("a grant in part reads as the one letter of both decisions", () => {
    const values = {
        until: "2027-12-31",
        conditions: ["farther:2640"],
        reasons: "You ride Line 1."
    },
        draft = draftOf("in-part", values, { date: DATE, letters: [] });
    const written = [
        desks(1, ["DECISION refused", `REASONS ${reasonsOf(values)}`]),
        desks(3, ["DECISION granted", "UNTIL 2027-12-31", "CONDITIONS farther:2640"])
    ];
    assert.equal(
        body(textOf(draft) + "\n\nx"),
        body(plainText(blocksOf(written[1], about(written))))
    );
    const rest = draftOf("rest", values, { date: DATE, letters: [written[0]] });
    assert.equal(kindOf(rest.letter, rest.letters).kind, "granted-in-part");
});

test("what is not typed yet is a gap, and a hearing makes no letter", () => {
    for (const kind of ["refuse", "grant", "in-part", "suspend", "appeal-denied"])
        assert.match(textOf(draftOf(kind, {}, { date: DATE, letters: [] })), /____/, kind);
    assert.equal(draftOf("heard", {}, { date: DATE, letters: [] }), null);
    assert.equal(draftOf("notice-heard", {}, { date: DATE, letters: [] }), null);
});
