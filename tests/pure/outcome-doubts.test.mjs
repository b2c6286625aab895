// What makes an outcome doubtful before dispatch enters it, and what is offered in its place.
import assert from "node:assert/strict";
import test from "node:test";
import { offeredFor, outcomeDoubts, saidMissed } from "../../pages/parts/outcome-doubts.js";

const ROW = { window_from: 570, window_to: 600, planned: 580 };
const late = (more) => ({
    vehicle: 5,
    last: null,
    delay: 0,
    silent: 0,
    far: -1,
    next: 0,
    risks: [],
    passed: [],
    ...more
});
const tap = (kind, minute) => ({ trip: 1, vehicle: 5, kind, minute });
const doubts = (outcome, now, more = {}) =>
    outcomeDoubts(outcome, ROW, { now, isToday: true, late: undefined, taps: [], ...more });

test("an outcome before the window or before the planned pickup says how long before", () => {
    for (const outcome of ["ridden", "missed-rider", "missed-operator"]) {
        assert.deepEqual(doubts(outcome, 540), [{ kind: "early", minutes: 30 }]);
        assert.deepEqual(doubts(outcome, 572), [{ kind: "planned", minutes: 8 }]);
        assert.deepEqual(doubts(outcome, 590), []);
    }
});

test("a no-show of a van that is late or without an update first offers that we missed it", () => {
    const silent = doubts("missed-rider", 607, { late: late({ silent: 27 }) });
    assert.deepEqual(silent, [{ kind: "silent", minutes: 27 }]);
    assert.deepEqual(offeredFor("missed-rider", silent), ["missed-operator", "missed-rider"]);
    const behind = doubts("missed-rider", 597, { late: late({ delay: 12 }) });
    assert.deepEqual(
        [behind, offeredFor("missed-rider", behind)[0]],
        [[{ kind: "late", minutes: 12 }], "missed-operator"]
    );
    const came = doubts("missed-rider", 615, { taps: [tap("arrived", 607)] });
    assert.deepEqual(
        [came, offeredFor("missed-rider", came)[0]],
        [[{ kind: "arrived-late", minutes: 7 }], "missed-operator"]
    );
    assert.deepEqual(offeredFor("missed-operator", silent), ["missed-operator"]);
    assert.deepEqual(doubts("missed-operator", 607, { late: late({ silent: 27 }) }), []);
});

test("a no-show that a tap speaks for is offered alone, and one without an arrival says so", () => {
    const seen = doubts("missed-rider", 605, {
        taps: [tap("arrived", 585)],
        late: late({ delay: 12, silent: 3 })
    });
    assert.deepEqual([seen, offeredFor("missed-rider", seen)], [[], ["missed-rider"]]);
    const unseen = doubts("missed-rider", 605, { late: late({ last: tap("aboard", 590) }) });
    assert.deepEqual(doubts("missed-rider", 605), []);
    assert.deepEqual(
        [unseen, offeredFor("missed-rider", unseen)],
        [[{ kind: "no-arrival", minutes: 5 }], ["missed-rider"]]
    );
});

test("a rider whom a phone has aboard is no plain miss, and may be completed early", () => {
    const taps = [tap("arrived", 607), tap("aboard", 608)];
    assert.deepEqual(doubts("missed-rider", 610, { taps }), [{ kind: "aboard", minutes: 608 }]);
    assert.deepEqual(doubts("missed-operator", 610, { taps }), [{ kind: "aboard", minutes: 608 }]);
    assert.deepEqual(doubts("ridden", 560, { taps: [tap("aboard", 559)] }), []);
});

test("an outcome against a driver's last tap is asked about, with the moment of the tap", () => {
    const noShow = [tap("arrived", 585), tap("no-show", 592)], missed = [tap("missed", 603)];
    assert.deepEqual(doubts("ridden", 605, { taps: noShow }), [{
        kind: "said-no-show",
        minutes: 592
    }]);
    assert.deepEqual(doubts("missed-operator", 605, { taps: noShow }), [{
        kind: "said-no-show",
        minutes: 592
    }]);
    assert.deepEqual(doubts("missed-rider", 605, { taps: noShow }), []);
    assert.deepEqual(doubts("ridden", 605, { taps: missed }), [{
        kind: "said-missed",
        minutes: 603
    }]);
    const other = doubts("missed-rider", 605, { taps: missed });
    assert.deepEqual(
        [other, offeredFor("missed-rider", other)],
        [[{ kind: "said-missed", minutes: 603 }], ["missed-operator", "missed-rider"]]
    );
    assert.deepEqual(doubts("missed-operator", 605, { taps: missed }), []);
    // (a rider who came after all rode)
    assert.deepEqual(doubts("ridden", 605, { taps: [...noShow, tap("aboard", 594)] }), []);
    assert.deepEqual(
        doubts("ridden", 605, { taps: [tap("arrived", 585), tap("skipped", 590)] }),
        []
    );
});

test("closing out a van leaves out what a driver tapped as missed", () => {
    for (const [kinds, wanted] of [
        [[], false],
        [["arrived"], false],
        [["aboard"], false],
        [["no-show"], true],
        [["missed"], true],
        [["no-show", "aboard"], false],
        [["aboard", "no-show"], true]
    ]) {
        const taps = kinds.map((kind, at) => tap(kind, 580 + at));
        assert.deepEqual(
            [...saidMissed(new Map([[5, taps], [6, [tap("arrived", 570)]]]))],
            wanted ? [1] : [],
            kinds.join()
        );
    }
    // (two phones: the last tap counts)
    assert.deepEqual(
        [...saidMissed(new Map([[5, [tap("no-show", 590)]], [6, [tap("aboard", 595)]]]))],
        []
    );
});

test("of a day that is over nobody knows what was tapped", () => {
    assert.deepEqual(
        outcomeDoubts("missed-rider", ROW, {
            now: Infinity,
            isToday: false,
            late: undefined,
            taps: []
        }),
        []
    );
});
