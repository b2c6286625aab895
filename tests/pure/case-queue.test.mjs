// The queue of cases: whose lists, in which order, and how many days are left.
import assert from "node:assert/strict";
import test from "node:test";
import {
    caseNow,
    caseSince,
    isThisWeek,
    queueOf,
    shareOver,
    stepOf,
    urgencyOf
} from "../../pages/parts/case-queue.js";

const TODAY = "2026-11-30";
const day = (more) => new Date(Date.parse(TODAY) + more * 86_400_000).toISOString().slice(0, 10);
const list = (id, heads, rows) => ({ id, tables: [{ heads, rows }] });
const applications = (...since) =>
    list(
        "applications",
        ["Rider", "Name", "Complete on", "Presumed from", "When"],
        since.map((it, at) => [
            String(100 + at),
            `Name ${at}`,
            day(it),
            day(it + 21),
            "in some days"
        ])
    );
const APPEALS = list(
    "appeals",
    ["Rider", "Name", "Against", "Filed on", "Heard on", "Overdue from", "When"],
    [
        ["7", "Ana", "refuse (entry 2)", day(-3), "not heard", "", ""],
        ["8", "Bo", "refuse (entry 1)", day(-40), day(-33), day(-3), "3 days ago"],
        ["9", "Cy", "suspend (entry 4)", day(-9), "not heard", "", ""]
    ]
);
const MISSED = list(
    "missed",
    ["Rider", "Name", "Missed", "Trips with an outcome"],
    [["5", "Di", "7", "20"]]
);

test("each day of an application, from complete to a week past the 21st", () => {
    for (let since = 0; since >= -28; since -= 1) {
        const [it] = queueOf("examiner", [applications(since)], TODAY);
        assert.deepEqual(
            [it.kind, it.left, it.of, it.since, it.due],
            ["application", 21 + since, 21, day(since), day(since + 21)]
        );
        assert.equal(
            urgencyOf(it),
            since <= -21 ? "past" : since <= -18 ? "near" : since <= -16 ? "soon" : "time"
        );
        assert.equal(shareOver(it), Math.min(100, Math.round((0 - since) / 21 * 100)));
    }
});

test("the fewest days left come first, and the number decides between equals", () => {
    assert.deepEqual(
        queueOf("examiner", [applications(-1, -22, -5, -5)], TODAY).map(({ rider }) => rider),
        [101, 102, 103, 100]
    );
});

test("an officer's appeals: heard ones have a last day; the others wait, the longest first", () => {
    const cases = queueOf("officer", [applications(-3), APPEALS, MISSED], TODAY);
    assert.deepEqual(cases.map(({ rider, kind, left }) => [rider, kind, left]), [
        [8, "appeal", -3],
        [9, "hearing", null],
        [7, "hearing", null]
    ]);
    assert.equal(cases[0].of, 30);
    assert.deepEqual(cases.map(urgencyOf), ["past", "none", "none"]);
    assert.deepEqual(
        queueOf("suspensions", [APPEALS, MISSED], TODAY).map(({ rider, figures }) => [
            rider, figures
        ]),
        [[5, { missed: 7, ended: 20 }]]
    );
    assert.deepEqual(cases.map(({ against }) => against), [
        { kind: "refuse", entry: 1 },
        { kind: "suspend", entry: 4 },
        { kind: "refuse", entry: 2 }
    ]);
    assert.deepEqual(cases.map(({ heard }) => heard), [day(-33), null, null]);
});

test("what is no rider's row, and a day that cannot be read, make no days", () => {
    const odd = list(
        "applications",
        ["Rider", "Name", "Complete on", "Presumed from"],
        [["Nothing waits here."], ["12", "Ed", "soon", ""]]
    );
    assert.deepEqual(
        queueOf("examiner", [odd], TODAY).map(({ rider, since, due, left }) => [
            rider, since, due, left
        ]),
        [[12, null, null, null]]
    );
    assert.deepEqual(queueOf("examiner", [], TODAY), []);
});

test("what was entered since the list was made has the days of its kind", () => {
    const application = caseSince(5, "application", { since: day(-1) }, TODAY, 21),
        appeal = caseSince(5, "appeal", { since: day(-9), heard: day(-2) }, TODAY, 30),
        hearing = caseSince(5, "hearing", { since: day(0) }, TODAY, 30);
    assert.deepEqual([application, appeal, hearing].map(({ due, left, of }) => [due, left, of]), [
        [day(20), 20, 21],
        [day(28), 28, 30],
        [null, null, null]
    ]);
    assert.deepEqual([application, appeal, hearing].map(isThisWeek), [false, false, false]);
    assert.deepEqual(
        [-15, -14, -13].map((since) =>
            isThisWeek(caseSince(5, "application", { since: day(since) }, TODAY, 21))
        ),
        [true, true, false]
    );
});

test("how far a suspension has come", () => {
    assert.deepEqual(
        [
            "none", "", "given on 2026-11-26, not heard", "heard on 2026-12-02",
            "suspended 2026-12-12 to 2026-12-18", "odd"
        ].map(stepOf),
        [
            { name: "none", day: null },
            { name: "none", day: null },
            { name: "notice", day: "2026-11-26" },
            { name: "heard", day: "2026-12-02" },
            { name: "suspended", day: "2026-12-12" },
            { name: "other", day: null }
        ]
    );
});

test("a case that was decided from here waits no more, though it is on the night's list", () => {
    const [overdue, , hearing] = queueOf("officer", [APPEALS], TODAY),
        [application] = queueOf("examiner", [applications(-5)], TODAY),
        entry = (name, position, more = 0) => ({ entry: name, position, day: day(more) });
    assert.equal(caseNow(overdue, [entry("appeal-granted", 9)], TODAY), null);
    assert.equal(caseNow(application, [entry("refuse", 3), entry("grant", 4)], TODAY), null);
    assert.equal(caseNow(application, [entry("refuse", 3, -6)], TODAY), application);
    assert.equal(
        caseNow(application, [entry("refuse", 3, -5), entry("complete", 4, -5)], TODAY),
        application
    );
    assert.equal(caseNow(overdue, [], TODAY), overdue);
    const heard = caseNow(hearing, [entry("heard", 9)], TODAY);
    assert.deepEqual(
        [heard.kind, heard.heard, heard.due, heard.left, heard.name],
        ["appeal", TODAY, day(30), 30, "Ana"]
    );
});

test("a pattern of no-shows takes the step that was entered from here today", () => {
    const [missed] = queueOf("suspensions", [MISSED], TODAY),
        steps = (...entries) =>
            caseNow(
                missed,
                entries.map((entry, position) => ({ entry, position, day: TODAY })),
                TODAY
            );
    assert.deepEqual(
        [steps(), steps("notice"), steps("notice", "notice-heard")].map(
            ({ step }) => stepOf(step).name
        ),
        ["none", "notice", "heard"]
    );
    assert.equal(steps("notice", "notice-heard", "suspend"), null);
});
