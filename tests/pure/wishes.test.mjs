// The plan of what a rider said, held against a small model of the desk: for every minute of the
// day, each mode, with and without a minute to be there by, service hours that end at each quarter,
// and days that are free in different ways.

import assert from "node:assert/strict";
import { test } from "node:test";
import {
    afterArrival,
    apart,
    arrivalAfter,
    arrivalBefore,
    countedRule,
    guessedDrive,
    isAsSaid,
    isMadeUp,
    isOfHour,
    nextStep,
    otherRequests,
    requestsOf,
    searched
} from "../../pages/parts/wishes.js";

const DAY = 1440,
    LAST = DAY - 1,
    HOUR = 60,
    HALF_WINDOW = 15,
    SLACK = 24,
    FIRST_BUS = 300,
    LEADS = [0, 15, 60];
const FULL = "no vehicle", CLOSED = "37.131(e)";

/** When a van is free: each minute's next free one, DAY where there is none. */
function freeAt(test) {
    const next = new Int16Array(DAY + 1).fill(DAY);
    for (let minute = LAST; minute >= 0; minute -= 1)
        next[minute] = test(minute) ? minute : next[minute + 1];
    return next;
}

const DAYS = {
    "all day": freeAt(() => true),
    "never": freeAt(() => false),
    "each second half hour": freeAt((minute) => minute % 60 >= 30),
    "a minute in each two hours": freeAt((minute) => minute % 120 === 37),
    "a minute in each three hours and a bit": freeAt((minute) => minute % 199 === 0),
    "the morning": freeAt((minute) => minute < 640),
    "the evening": freeAt((minute) => minute >= 1200),
};

/** The desk: the earliest free pickup within an hour of the wish, where the lines run at the wish
 * and the drop is in time.
 */
function replyOf({ wish, by }, { free, last, drive }) {
    if (wish < FIRST_BUS || wish > last) return { denied: CLOSED };
    const from = Math.max(0, wish - HOUR), to = Math.min(LAST, wish + HOUR), pickup = free[from];
    if (pickup > to || pickup + drive > (by ?? LAST)) return { denied: FULL };
    return {
        value: {
            window_from: Math.max(from, pickup - HALF_WINDOW),
            window_to: Math.min(to, pickup + HALF_WINDOW),
            pickup
        }
    };
}

/** What came of a plan: its last step and its answers. */
function playedOut(said, desk) {
    const answers = [];
    for (;;) {
        const step = nextStep(said, answers);
        if (step.is !== "ask") return { step, answers };
        assert.ok(answers.length < 14, "a plan ends");
        answers.push({ request: step.request, reply: replyOf(step.request, desk) });
    }
}

const isMinute = (minute) => Number.isInteger(minute) && minute >= 0 && minute <= LAST;

/** What is wrong with what came of a plan, or "". */
function faultOf(said, desk, { step, answers }) {
    const { mode, minute, by } = said,
        accepted = answers.filter(({ reply }) => reply.value),
        nearest = replyOf({ wish: minute, by }, desk);
    if (!answers.length) return "nothing was asked";
    if (
        answers.some(
            ({ request }) =>
                !isMinute(request.wish) || !(request.by === null || isMinute(request.by))
        )
    )
        return "a wish or a minute to be there by is none of the day";
    if (by !== null && answers.some(({ request }) => request.by === null || request.by > by))
        return "the rider's minute to be there by was dropped";
    if (
        mode === "around" &&
        desk.drive === said.drive &&
        accepted.some(({ reply }) => reply.value.window_from > minute + HOUR + SLACK)
    )
        return "around a minute, a trip was held or moved past the hour";
    if (step.is === "kept") {
        const { window_from: from, pickup } = step.answer.reply.value;
        if (step.answer !== answers[answers.length - 1])
            return "something was asked after what is kept";
        if (mode === "around" && Math.abs(from - minute) > HOUR)
            return "the promise begins more than an hour from the minute";
        if (mode === "not-before" && (from < minute || from > minute + HOUR))
            return "the promise begins before the minute, or more than an hour after it";
        if (pickup + desk.drive > (mode === "by" ? minute : by ?? LAST))
            return "the rider is there too late";
        if (
            mode === "around" &&
            desk.free === DAYS["all day"] &&
            minute + HOUR - said.lead <= desk.last &&
            minute >= FIRST_BUS &&
            minute - said.lead > 15 &&
            from < minute - said.lead
        )
            return "the van comes earlier than the lead";
        return "";
    }
    const reason = step.reason?.reply.denied;
    if (step.reason && !answers.includes(step.reason))
        return "the denial is of no reply of this plan";
    if (step.is === "offered") {
        const { window_from: from } = step.answer.reply.value,
            named = mode === "around" && reason === CLOSED ? CLOSED : FULL;
        if (mode === "by" || isAsSaid(said, step.answer.reply.value))
            return "what the rider said is told as an offer";
        if (step.answer !== accepted[accepted.length - 1])
            return "the offer is not the trip that stands";
        if (mode === "around" && nearest.value) return "the minute itself would have been accepted";
        if (countedRule(said, step) !== named)
            return `an offer is counted as ${countedRule(said, step)}`;
        if (
            mode === "not-before" &&
            from > minute + HOUR &&
            desk.free[minute] <= minute + HOUR + HALF_WINDOW &&
            minute + HOUR <= desk.last &&
            minute + HOUR >= FIRST_BUS &&
            by === null
        )
            return "a promise within the hour was free";
        return "";
    }
    if (accepted.length) return "a trip was booked and a denial told";
    if (reason === undefined) return "a denial without a reply";
    if (countedRule(said, step) !== reason) return "another rule is counted than told";
    if (mode === "around")
        return nearest.denied === reason
            ? ""
            : `told ${reason}, and the minute itself gives ${nearest.denied ?? "a trip"}`;
    if (mode === "not-before") {
        const late = replyOf({ wish: Math.min(LAST, minute + HOUR), by }, desk);
        const isOne = late.value && (!said.change || isAsSaid(said, late.value));
        if (
            reason === FULL &&
            (
                isOne ||
                desk.last >= minute + HOUR && late.denied === CLOSED && minute + HOUR >= FIRST_BUS
            )
        )
            return "the desk had a vehicle";
        return reason === CLOSED && nearest.denied !== CLOSED && minute + HOUR >= FIRST_BUS
            ? "the lines run at the minute itself"
            : "";
    }
    const named = Math.max(0, Math.min(LAST, minute - said.drive - 20)),
        distance = ({ request }) => Math.abs(request.wish - named);
    if (answers.some((it) => distance(it) < distance(step.reason)))
        return "the denial is not that of the nearest request";
    return "";
}

/** What riders may say of a minute: each mode, and with a minute to be there by beside a pickup. */
const saidAt = (minute, lead, change) =>
    [null, Math.min(LAST, minute + 70)].flatMap((by) => [
        ["around", by],
        ["not-before", by],
        ...(by === null ? [["by", null]] : [])
    ]).map(([mode, by]) => ({ mode, minute, by, drive: 15, lead, change }));

function tryAll(ends, days, { leads = [15], drives = [15], changes = [false] } = {}) {
    let count = 0;
    for (const change of changes)
        for (const lead of leads)
            for (let minute = 0; minute < DAY; minute += 1)
                for (const said of saidAt(minute, lead, change)) {
                    for (const [name, free] of days)
                        for (const drive of drives)
                            for (const last of ends) {
                                const desk = { free, last, drive },
                                    played = playedOut(said, desk),
                                    fault = faultOf(said, desk, played);
                                if (fault)
                                    assert.fail(
                                        `${fault}: ${JSON.stringify(said)}, free ${name}, lines to ${last}, a drive of ${drive}: ${JSON.stringify(played)}`
                                    );
                                count += 1;
                            }
                }
    return count;
}

const QUARTERS = Array.from({ length: DAY / 15 }, (_, at) => Math.min(LAST, (at + 1) * 15));

const EVERY = Object.entries(DAYS), SOME = EVERY.filter((_, at) => at % 2 === 0);

test("every minute, each mode, lines that end at each quarter", () => {
    assert.equal(tryAll(QUARTERS, SOME), DAY * 5 * QUARTERS.length * SOME.length);
});

test("leads from 0 to 60, changes of a trip", () => {
    tryAll([600, 1380, LAST], EVERY, { leads: LEADS, changes: [false, true] });
});

test("drives that were guessed wrongly", () => {
    tryAll([600, 1380], EVERY, { drives: [5, 35], changes: [false, true] });
});

test("around a minute, a booking and a change ask alike, first with a bound", () => {
    for (const lead of LEADS)
        for (let minute = 0; minute < DAY; minute += 1) {
            for (const said of saidAt(minute, lead, false).filter(
                ({ mode }) => mode === "around"
            )) {
                const all = requestsOf(said),
                    latest = minute + HOUR + HALF_WINDOW + said.drive + SLACK;
                assert.deepEqual(requestsOf({ ...said, change: true }), all, JSON.stringify(said));
                assert.ok(
                    all[0].wish <= minute ||
                        all[0].by !== null && all[0].by <= latest ||
                        latest >= LAST,
                    JSON.stringify([said, all[0]])
                );
            }
        }
});

test("a change sends nothing that may move a trip past the hour without a bound", () => {
    for (let minute = 0; minute < DAY; minute += 1) {
        for (const mode of ["around", "not-before"]) {
            const said = { mode, minute, by: null, drive: 15, lead: 15, change: true };
            for (const { wish, by } of requestsOf(said))
                assert.ok(
                    wish <= minute || by !== null || minute + 110 >= LAST,
                    `${mode} ${minute}: ${wish} without a bound`
                );
        }
    }
});

test("a wish is cut to the day and never dropped", () => {
    for (let minute = 0; minute < DAY; minute += 1) {
        for (const said of saidAt(minute, 15, false)) {
            const all = requestsOf(said);
            assert.ok(
                all.length > 0 &&
                    all.every(({ wish, by }) => isMinute(wish) && (by === null || isMinute(by))),
                JSON.stringify([said, all])
            );
            const first = {
                "around": minute + HOUR - 15,
                "not-before": minute + HOUR,
                "by": minute - 15 - 20 + HOUR
            }[said.mode];
            assert.equal(all[0].wish, Math.max(0, Math.min(LAST, first)), JSON.stringify(said));
        }
    }
});

test("a denial that no other minute can mend ends the plan, and is told", () => {
    for (const rule of [
        "37.125", "37.125(h)", "37.127(e)", "37.123(f)", "37.131(a)", "37.131(b)", "desk.key",
        "desk.full", "left"
    ]) {
        for (const said of saidAt(600, 15, false)) {
            const { request } = nextStep(said, []),
                step = nextStep(said, [{ request, reply: { denied: rule } }]);
            assert.equal(step.is, "denied");
            assert.equal(step.reason.reply.denied, rule);
            assert.equal(countedRule(said, step), /^\d/.test(rule) ? rule : null);
        }
    }
});

test("a condition of one minute goes on to the next; the named minute's denial is returned", () => {
    const said = { mode: "around", minute: 540, by: null, drive: 15, lead: 15, change: false },
        denied = { denied: "37.123(b)" };
    const first = { request: nextStep(said, []).request, reply: denied },
        second = nextStep(said, [first]);
    assert.deepEqual([second.is, second.request.wish], ["ask", 540]);
    assert.equal(
        nextStep(said, [
            first,
            { request: second.request, reply: { value: { window_from: 530, window_to: 560 } } }
        ]).is,
        "kept"
    );
    const last = nextStep(said, [first, { request: second.request, reply: { denied: FULL } }]);
    assert.deepEqual(
        [last.is, last.reason.reply.denied, countedRule(said, last)],
        ["denied", FULL, FULL]
    );
});

test("a minute that a plan made is known, and one that people say is not", () => {
    for (let minute = 0; minute < DAY; minute += 1) {
        for (const change of [false, true]) {
            for (const said of saidAt(minute, 15, change)) {
                for (const { wish, by, bound } of requestsOf(said))
                    if (by !== null && (bound || by % 5 === 0))
                        assert.equal(
                            isMadeUp({ wish, by }, said.drive),
                            bound,
                            JSON.stringify([said, wish, by])
                        );
            }
        }
    }
});

test("other times: the nearer first, none that was asked, none that comes too late", () => {
    const wishes = (said, side) => otherRequests(said, side).map(({ wish }) => wish),
        around = { mode: "around", minute: 540, by: null, drive: 15, lead: 15, change: false };
    assert.deepEqual(wishes(around, "either"), [510, 615, 480, 645]);
    assert.deepEqual(wishes(around, "earlier"), [510, 480]);
    assert.deepEqual(wishes({ ...around, by: 485 }, "either"), [510, 480]);
    assert.deepEqual(wishes({ ...around, mode: "not-before" }, "later"), [630, 660]);
    assert.deepEqual(wishes({ ...around, mode: "by" }, "later"), []);
    for (let minute = 0; minute < DAY; minute += 1)
        for (const said of saidAt(minute, 15, false))
            for (const it of otherRequests(said, "either")) assert.ok(isMinute(it.wish));
});

test("what was searched is all that the plan asked for", () => {
    const said = { mode: "around", minute: 540, by: null, drive: 15, lead: 15, change: false };
    assert.deepEqual(searched(said), [480, 600]);
    assert.deepEqual(searched({ ...said, mode: "not-before" }), [540, 660]);
    assert.deepEqual(searched({ ...said, mode: "not-before", change: true }), [540, 600]);
    assert.deepEqual(searched({ ...said, mode: "not-before", minute: 1430 }), [1430, LAST]);
    assert.deepEqual(searched({ ...said, mode: "by", minute: 600 }), [430, 600]);
});

test("how far a window is from a minute, and how long a drive is guessed", () => {
    assert.equal(apart({ window_from: 530, window_to: 560 }, 540), 0);
    assert.equal(apart({ window_from: 500, window_to: 530 }, 540), -40);
    assert.equal(apart({ window_from: 600, window_to: 630 }, 540), 60);
    assert.equal(guessedDrive(null, { x: 1, y: 1 }), 15);
    assert.equal(guessedDrive({ x: 0, y: 0 }, { x: 0, y: 0 }), 1);
});

test("a return before the way there arrives is told when that is, and then begins after it", () => {
    for (const mode of ["around", "not-before", "by"])
        for (let minute = 0; minute < DAY; minute += 5)
            for (const from of [0, 300, 525, 900, 1380, 1425]) {
                const back = { mode, minute, by: null, drive: 15, lead: 15, change: false },
                    there = { window_from: from, window_to: Math.min(LAST, from + 30) },
                    drive = 12;
                const arrives = there.window_to + drive,
                    begins = mode === "by" ? minute - 15 - 20 : minute,
                    at = arrivalBefore(back, there, drive);
                assert.equal(
                    at !== null,
                    begins < arrives && Math.ceil(arrives / 5) * 5 <= LAST,
                    JSON.stringify([back, there])
                );
                if (at === null) continue;
                assert.ok(at >= arrives && at < arrives + 5 && at <= LAST);
                const later = afterArrival(back, at);
                assert.equal(arrivalBefore(later, there, drive), null);
                assert.deepEqual(
                    [later.mode, later.minute, later.by],
                    ["not-before", at, mode === "by" && minute > at ? minute : null]
                );
            }
});

test("a way back that is promised before the way there has arrived is told, at each minute", () => {
    for (let begins = 0; begins < DAY; begins += 1)
        for (const from of [0, 300, 525, 900, 1380, 1425])
            for (const drive of [1, 15, 60]) {
                const there = { window_from: from, window_to: Math.min(LAST, from + 30) },
                    arrives = there.window_to + drive;
                const at = arrivalAfter(
                    { window_from: begins, window_to: begins + 30 },
                    there,
                    drive
                );
                assert.equal(at !== null, begins < arrives);
                if (at !== null)
                    assert.ok(isMinute(at) && (at >= arrives || at === LAST) && at < arrives + 5);
            }
});

test("a trip is the same as one that is asked for where that wish would give it", () => {
    const said = (mode, minute) => ({ mode, minute, by: null, drive: 20 }),
        window = { window_from: 700, window_to: 730 };
    for (const mode of ["around", "not-before"])
        for (let minute = 0; minute < DAY; minute += 1)
            assert.equal(
                isOfHour(said(mode, minute), window),
                minute >= 700 - HOUR && minute <= 700 + HOUR || minute === 730,
                `${mode} ${minute}`
            );
    // (who is to be there by a time leaves before it)
    assert.deepEqual(
        [640, 740, 800, 801].map((minute) => isOfHour(said("by", minute), window)),
        [false, true, true, false]
    );
});
