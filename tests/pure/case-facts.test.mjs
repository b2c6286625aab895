// What a rider's letters, this browser and the list of what waits tell of a case.
import assert from "node:assert/strict";
import test from "node:test";
import {
    appealable,
    appealedHere,
    appealKnown,
    entriesOfAppeals,
    needsNotice,
    suspensionOn,
    waits
} from "../../pages/parts/case-facts.js";

const letter = (entry, decision, date, lines = {}) => ({
    entry,
    decision,
    date,
    lines: new Map(Object.entries(lines))
});
const SUSPENDED = letter(5, "suspended", "2025-03-12", { FROM: "2025-03-13", TO: "2025-03-20" });
const list = (id, heads, rows) => ({ id, tables: [{ heads, rows }] });
const APPEALS = list(
    "appeals",
    ["Rider", "Name", "Against", "Filed on", "Heard on"],
    [
        ["7", "Ana", "refuse (entry 2)", "2025-03-01", "not heard"],
        ["8", "Bo", "entry 1", "2025-03-01", "2025-03-04"]
    ]
);
const APPLICATIONS = list(
    "applications",
    ["Rider", "Name", "Complete on"],
    [["7", "Ana", "2025-02-17"]]
);
const known = (more) => ({ rider: 7, letters: [], entered: [], lists: [], ...more });

test("a suspension holds on its own days and on no other", () => {
    for (let day = 1; day <= 31; day += 1) {
        const at = `2025-03-${String(day).padStart(2, "0")}`;
        assert.deepEqual(
            suspensionOn([SUSPENDED], at),
            day >= 13 && day <= 20 ? { from: "2025-03-13", to: "2025-03-20" } : null
        );
        assert.equal(
            suspensionOn([SUSPENDED, letter(7, "suspension overturned", "2025-03-14")], at),
            null
        );
        assert.equal(
            suspensionOn([letter(1, "granted", "2025-02-20", { UNTIL: "2026-02-28" })], at),
            null
        );
    }
});

test("what waits is what was entered here, until a later entry answers it", () => {
    const appeal = { entry: "appeal", position: 3, day: "2025-03-10", against: 2 },
        waiting = { since: "2025-03-10", heard: null, against: 2 };
    assert.deepEqual(waits("appeal", known({ entered: [appeal] })), waiting);
    assert.deepEqual(
        waits(
            "appeal",
            known({ entered: [appeal], letters: [letter(2, "refused", "2025-03-01")] })
        ),
        waiting
    );
    for (const decision of ["appeal granted", "appeal denied", "suspension overturned"])
        assert.equal(
            waits(
                "appeal",
                known({ entered: [appeal], letters: [letter(5, decision, "2025-03-11")] })
            ),
            null
        );
    for (const entry of ["appeal-granted", "appeal-denied", "overturn"])
        assert.equal(
            waits(
                "appeal",
                known({ entered: [appeal, { entry, position: 5, day: "2025-03-11" }] })
            ),
            null
        );
    assert.equal(
        waits(
            "appeal",
            known({ entered: [appeal, { entry: "heard", position: 4, day: "2025-03-11" }] })
        )?.heard,
        "2025-03-11"
    );
    const complete = { entry: "complete", position: 0, day: "2025-03-02" };
    assert.deepEqual(waits("complete", known({ entered: [complete] })), {
        since: "2025-03-02",
        heard: null,
        against: null
    });
    for (const decision of ["granted", "refused"])
        assert.equal(
            waits(
                "complete",
                known({ entered: [complete], letters: [letter(1, decision, "2025-03-02")] })
            ),
            null
        );
    assert.equal(waits("appeal", known({ entered: [complete] })), null);
});

test("the list of last night counts until a letter after it", () => {
    assert.deepEqual(waits("appeal", known({ lists: [APPEALS, APPLICATIONS] })), {
        since: "2025-03-01",
        heard: null,
        against: null
    });
    assert.equal(
        waits("appeal", { ...known({ lists: [APPEALS] }), rider: 8 })?.heard,
        "2025-03-04"
    );
    assert.equal(waits("appeal", { ...known({ lists: [APPEALS] }), rider: 9 }), null);
    assert.deepEqual(
        waits("complete", known({ lists: [APPEALS, APPLICATIONS] }))?.since,
        "2025-02-17"
    );
    assert.equal(
        waits(
            "complete",
            known({ lists: [APPLICATIONS], letters: [letter(1, "granted", "2025-03-01")] })
        ),
        null
    );
    assert.deepEqual(
        waits(
            "complete",
            known({ lists: [APPLICATIONS], letters: [letter(1, "granted", "2024-03-01")] })
        )?.since,
        "2025-02-17"
    );
    assert.equal(
        waits(
            "complete",
            known({ lists: [list("applications", ["Rider", "Other"], [["7", "x"]])] })
        ),
        null
    );
});

test("an appeal is known at the letter it is against, and at no other", () => {
    const entered = [{ entry: "appeal", position: 3, day: "2025-03-10", against: 2 }],
        letters = [letter(2, "refused", "2025-03-01"), letter(5, "suspended", "2025-03-02")];
    assert.equal(appealedHere(letters[0], letters, entered)?.since, "2025-03-10");
    assert.equal(appealedHere(letters[1], letters, entered), null);
});

test("an officer is offered what fits the decisions that no appeal has answered", () => {
    const refused = letter(1, "refused", "2025-03-01"),
        granted = letter(3, "granted", "2025-03-02");
    assert.deepEqual(appealable([granted]), []);
    assert.deepEqual(entriesOfAppeals([], null, false), []);
    assert.deepEqual(appealable([refused, granted]), [refused]);
    assert.deepEqual(entriesOfAppeals([refused], null, false), [
        "heard", "appeal-granted", "appeal-denied"
    ]);
    assert.deepEqual(entriesOfAppeals([SUSPENDED], null, true), ["overturn", "appeal-denied"]);
    assert.deepEqual(entriesOfAppeals([refused, SUSPENDED], null, true), [
        "appeal-granted", "overturn", "appeal-denied"
    ]);
    assert.deepEqual(entriesOfAppeals([refused, SUSPENDED], 5, false), [
        "heard", "overturn", "appeal-denied"
    ]);
    for (const decision of ["appeal granted", "appeal denied", "suspension overturned"])
        assert.deepEqual(appealable([refused, letter(4, decision, "2025-03-09")]), []);
});

test("no second appeal is offered where one is known: entered, in the standing, or denied", () => {
    const refused = letter(1, "refused", "2025-03-01"),
        at = { entered: [], standing: null, denied: [], today: "2025-03-15" };
    assert.equal(appealKnown(refused, [refused], at), null);
    assert.equal(
        appealKnown(refused, [refused], {
            ...at,
            standing: { standing: "none", suspended: false }
        }),
        null
    );
    assert.deepEqual(
        appealKnown(refused, [refused], {
            ...at,
            standing: { standing: "appeal-overdue", suspended: false }
        }),
        { how: "overdue", since: "" }
    );
    assert.deepEqual(
        appealKnown(refused, [refused], {
            ...at,
            entered: [{ entry: "appeal", position: 2, day: "2025-03-04", against: 1 }]
        }),
        { how: "here", since: "2025-03-04" }
    );
    assert.deepEqual(appealKnown(refused, [refused], { ...at, denied: [1] }), {
        how: "denied",
        since: ""
    });
    assert.equal(appealKnown(refused, [refused], { ...at, denied: [4] }), null);
});

test("who rides on in the days of a suspension has an appeal against it", () => {
    const at = { entered: [], denied: [], today: "2025-03-15" },
        granted = { standing: "granted", suspended: false };
    assert.deepEqual(appealKnown(SUSPENDED, [SUSPENDED], { ...at, standing: granted }), {
        how: "rides",
        since: ""
    });
    assert.equal(
        appealKnown(SUSPENDED, [SUSPENDED], { ...at, standing: { ...granted, suspended: true } }),
        null
    );
    assert.equal(
        appealKnown(SUSPENDED, [SUSPENDED], { ...at, standing: granted, today: "2025-03-12" }),
        null
    );
});

test("a suspension takes a notice of its own", () => {
    const notice = letter(3, "notice", "2025-03-01");
    assert.equal(needsNotice([letter(1, "granted", "2025-02-20")]), true);
    assert.equal(needsNotice([notice]), false);
    assert.equal(needsNotice([notice, SUSPENDED]), true);
    assert.equal(needsNotice([notice, SUSPENDED, letter(8, "notice", "2025-05-01")]), false);
});
