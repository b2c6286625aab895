// What the picture of a day shows of a van.
import assert from "node:assert/strict";
import test from "node:test";
import {
    fullest,
    hoursIn,
    kindOf,
    lanesOf,
    loadsOf,
    nearestStop,
    rangeOf,
    rowHeight,
    scaleOf,
    shares,
    shortOf
} from "../../pages/parts/board-shapes.js";

const stop = (at, load, chairs = 0, window = null) => ({
    line: "",
    what: "PICK",
    place: 1,
    people: 0,
    wheelchairs: 0,
    at,
    load,
    chairs,
    window
});
const of = (...stops) => [{ vehicle: 1, day: "2025-03-11", lines: [], text: "", stops }];

test("17 rows of 36 pixels at 1366x768, and all 32 at 1920x1080 and at 2560x1440", () => {
    assert.equal(rowHeight(596, 32), 36);
    assert.equal(rowHeight(904, 32), 28);
    assert.equal(rowHeight(1264, 32), 39);
    assert.equal(rowHeight(900, 5), 46);
    assert.equal(rowHeight(900, 0), 36);
});

test("a day begins and ends a quarter of an hour beside its stops and windows", () => {
    assert.deepEqual(rangeOf(of(stop(301, 1), stop(1_199, 0))), [285, 1_215]);
    assert.deepEqual(rangeOf(of(stop(20, 1, 0, [5, 35]), stop(40, 0))), [0, 60]);
    assert.deepEqual(rangeOf([]), [360, 1_200]);
});

test("as many hours are in view as were chosen, and no more than the day has", () => {
    const day = /** @type {[number, number]} */ ([300, 1_260]);
    assert.equal(scaleOf(day, 960, 4), 4);
    assert.equal(scaleOf(day, 960, 8), 2);
    assert.equal(scaleOf(day, 960, 0), 1);
    assert.equal(scaleOf(day, 960, null), 2);
    assert.equal(scaleOf(day, 1_920, null), 2);
    assert.equal(scaleOf([600, 720], 960, 8), 8);
    assert.ok(scaleOf(day, 1, 0) > 0);
});

test("the names of hours do not run into each other", () => {
    assert.deepEqual(hoursIn([285, 600], 2), [5, 6, 7, 8, 9, 10]);
    assert.deepEqual(hoursIn([285, 600], 0.5), [5, 7, 9]);
});

test("who is aboard is past as far as the van has come, and without an update after that", () => {
    const stops = [stop(600, 2, 1), stop(660, 1), stop(700, 0), stop(720, 1), stop(740, 0)];
    assert.deepEqual(loadsOf(stops, 630, 630), [
        { from: 600, to: 630, aboard: 3, chairs: 1, when: "past" },
        { from: 630, to: 660, aboard: 3, chairs: 1, when: "" },
        { from: 660, to: 700, aboard: 1, chairs: 0, when: "" },
        { from: 720, to: 740, aboard: 1, chairs: 0, when: "" }
    ]);
    assert.deepEqual(loadsOf(stops, 690, 650).map(({ from, to, when }) => [from, to, when]), [
        [600, 650, "past"],
        [650, 660, "unsure"],
        [660, 690, "unsure"],
        [690, 700, ""],
        [720, 740, ""]
    ]);
    assert.deepEqual(loadsOf(stops, Infinity, Infinity).map(({ when }) => when), [
        "past", "past", "past"
    ]);
    assert.deepEqual(loadsOf(stops, -1, -1).map(({ when }) => when), ["", "", ""]);
    assert.equal(fullest(of(...stops)), 4);
    assert.equal(fullest(of(stop(1, 9), stop(2, 0))), 9);
});

test("every minute that somebody is aboard is drawn once", () => {
    const stops = Array.from({ length: 40 }, (_, at) => stop(300 + at * 13, (at * 7) % 4));
    for (let past = 290; past < 840; past += 7)
        for (const heard of [past, past - 30]) {
            const all = loadsOf(stops, past, heard),
                minutes = all.reduce((sum, { from, to }) => sum + to - from, 0);
            assert.equal(
                minutes,
                stops.slice(1).reduce(
                    (sum, next, at) => sum + (stops[at].load ? next.at - stops[at].at : 0),
                    0
                )
            );
            for (const { to, when } of all)
                assert.equal(when, to > past ? "" : to > heard ? "unsure" : "past");
        }
});

test("a window says how its trip does", () => {
    const kind = (state, isRisk = false, isPassed = false) => kindOf({ state, isRisk, isPassed });
    assert.deepEqual(
        ["ridden", "missed-rider", "missed-operator", "no-word", "to-come", "under-way"].map((it) =>
            kind(it)
        ),
        ["done", "missed", "lost", "unsure", "", ""]
    );
    assert.equal(kind("to-come", true), "risk");
    assert.equal(kind("ridden", true), "done");
    assert.equal(kind("under-way", false, true), "done");
});

test("windows that overlap stand in two lanes", () => {
    const window = (from, to) => ({ from, to, at: from, kind: /** @type {""} */ ("") });
    assert.deepEqual(
        lanesOf([window(0, 30), window(10, 40), window(35, 65), window(50, 80)]).map(
            ({ lane }) => lane
        ),
        [0, 1, 0, 1]
    );
    assert.deepEqual(
        lanesOf([window(0, 30), window(40, 70), window(80, 110)]).map(({ lane }) => lane),
        [0, 0, 0]
    );
    assert.deepEqual(
        lanesOf([window(0, 30), window(1, 31), window(2, 32)]).map(({ lane }) => lane),
        [0, 1, 0]
    );
});

test("the nearest stop of a row", () => {
    const stops = [stop(600, 1), stop(660, 0), stop(700, 1)];
    assert.deepEqual([0, 629, 631, 679, 690, 2_000].map((it) => nearestStop(stops, it)), [
        0, 0, 1, 1, 2, 2
    ]);
});

test("of each group one is shown, and more of the first ones where there is room", () => {
    assert.deepEqual(shares([6, 2, 0, 3], 8, 4), [4, 2, 0, 2]);
    assert.deepEqual(shares([6, 2, 0, 3], 2, 4), [1, 1, 0, 1]);
    assert.deepEqual(shares([1, 1], 20, 4), [1, 1]);
    assert.deepEqual(shares([], 5, 4), []);
});

test("vans are called by their numbers where all names are a word and a number", () => {
    assert.deepEqual(["Van 101", "Van 117"].map(shortOf(["Van 101", "Van 117"])), ["101", "117"]);
    assert.deepEqual(["Van 1, blue"].map(shortOf(["Van 1, blue", "Van 2, white"])), ["1, blue"]);
    assert.deepEqual(["Van 101", "Bus 3"].map(shortOf(["Van 101", "Bus 3"])), ["Van 101", "Bus 3"]);
    assert.deepEqual(["Blue van"].map(shortOf(["Blue van"])), ["Blue van"]);
    assert.deepEqual(["101"].map(shortOf(["101"])), ["101"]);
    assert.equal(shortOf([])("Van 1"), "Van 1");
});
