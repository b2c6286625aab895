// A case as a line of entries: which are known from where, and the days that follow.
import assert from "node:assert/strict";
import test from "node:test";
import { timelineOf } from "../../pages/parts/case-timeline.js";
import { letterOf } from "../../pages/parts/letter-text.js";

const HEADS = ["Entry", "Day", "What", "Entered by", "What it says"];
const letter = (entry, date, decision, more = "") =>
    letterOf(entry, `RIDER 5\nDATE ${date}\nDECISION ${decision}\n${more}`);
const known = (more) => ({
    rider: 5,
    letters: [],
    entered: [],
    lists: [],
    file: [],
    today: "2026-12-07",
    ...more
});
const shown = (all) => all.map(({ day, kind, position, state }) => [day, kind, position, state]);
const APPLICATIONS = {
    id: "applications",
    tables: [{
        heads: ["Rider", "Name", "Complete on", "Presumed from"],
        rows: [["5", "", "2026-11-17", "2026-12-08"]]
    }]
};

test("an application that waits has its entry and day 21 above it", () => {
    const file = [{
        heads: HEADS,
        rows: [
            ["0", "2023-11-20", "complete", "caller 2", ""],
            ["1", "2023-12-06", "grant", "caller 4", "until 2025-12-06; always"],
            ["2", "2026-11-17", "complete", "caller 2", ""]
        ]
    }];
    const lines = timelineOf(
        known({
            file,
            lists: [APPLICATIONS],
            letters: [letter(1, "2023-12-06", "granted", "UNTIL 2025-12-06\nCONDITIONS always\n")]
        })
    );
    assert.deepEqual(shown(lines), [
        ["2026-12-08", "presumed", null, "due"],
        ["2026-11-17", "complete", 2, "done"],
        ["2025-12-06", "grant-ends", null, "done"],
        ["2023-12-06", "grant", 1, "done"],
        ["2023-11-20", "complete", 0, "done"]
    ]);
    assert.deepEqual(lines.map(({ by }) => by), ["", "2", "", "4", "2"]);
    assert.equal(lines[3].letter?.entry, 1);
});

test("a refusal can be appealed until its 60th day, and not once an appeal waits", () => {
    const letters = [letter(1, "2026-11-09", "refused", "REASONS walks to the stop\n")];
    assert.deepEqual(shown(timelineOf(known({ letters }))), [
        ["2027-01-08", "appeal-until", null, "ahead"],
        ["2026-11-09", "refuse", 1, "done"]
    ]);
    assert.deepEqual(shown(timelineOf(known({ letters, today: "2027-01-09" }))), [[
        "2026-11-09", "refuse", 1, "done"
    ]]);
    const entered = [
        { entry: "appeal", position: 2, day: "2026-11-20", against: 1 },
        { entry: "heard", position: 3, day: "2026-12-01" }
    ];
    assert.deepEqual(shown(timelineOf(known({ letters, entered }))), [
        ["2026-12-31", "overdue", null, "due"],
        ["2026-12-01", "heard", 3, "done"],
        ["2026-11-20", "appeal", 2, "done"],
        ["2026-11-09", "refuse", 1, "done"]
    ]);
});

test("a suspension has both its days unless lifted; a notice its last day for a hearing", () => {
    const notice = letter(2, "2026-11-26", "notice", "REASONS x\n"),
        suspended = letter(
            4,
            "2026-12-05",
            "suspended",
            "FROM 2026-12-20\nTO 2026-12-26\nREASONS x\n"
        );
    assert.deepEqual(shown(timelineOf(known({ letters: [notice] }))), [
        ["2026-12-11", "hearing-until", null, "ahead"],
        ["2026-11-26", "notice", 2, "done"]
    ]);
    const lines = timelineOf(known({ letters: [notice, suspended] }));
    assert.deepEqual(shown(lines).filter(([, kind]) => kind.startsWith("suspension")), [
        ["2026-12-26", "suspension-ends", null, "ahead"],
        ["2026-12-20", "suspension-begins", null, "ahead"]
    ]);
    const lifted = timelineOf(
        known({ letters: [notice, suspended, letter(6, "2026-12-07", "suspension overturned")] })
    );
    assert.deepEqual(shown(lifted), [
        ["2026-12-07", "overturn", 6, "done"],
        ["2026-12-05", "suspend", 4, "done"],
        ["2026-11-26", "notice", 2, "done"]
    ]);
});

test("entries of one day stand in their order, each once, wherever they are known from", () => {
    const file = [{
        heads: HEADS,
        rows: [
            ["0", "2026-12-07", "complete", "caller 2", ""],
            ["1", "2026-12-07", "refuse", "caller 4", "x"],
            ["odd", "2026-12-07", "x", "", ""]
        ]
    }];
    const lines = timelineOf(
        known({
            file,
            entered: [{ entry: "refuse", position: 1, day: "2026-12-07" }],
            letters: [letter(1, "2026-12-07", "refused", "REASONS x\n")]
        })
    );
    assert.deepEqual(shown(lines).filter(([, , position]) => position !== null), [
        ["2026-12-07", "refuse", 1, "done"],
        ["2026-12-07", "complete", 0, "done"]
    ]);
    assert.equal(lines.find(({ position }) => position === 1)?.by, "4");
    assert.deepEqual(timelineOf(known({})), []);
});
