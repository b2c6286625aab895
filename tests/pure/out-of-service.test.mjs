// The plan of a vehicle that is out of service, over a small desk of its own that can fail at each
// request.
import assert from "node:assert/strict";
import { readFileSync } from "node:fs";
import test from "node:test";
import * as plans from "../../pages/parts/out-of-service.js";

const DAY = "2026-03-10", NEXT = "2026-03-17", VAN = 9;
const SETTINGS = {
    days: [1, 2, 3, 4, 5],
    depot: 5,
    capacity: 6,
    chairs: 2,
    opens: 300,
    closes: 1200,
    duration: 700
};

/** A trip of a rider with a window of half an hour. */
const trip = (number, _rider, begins, more = {}) => ({
    trip: number,
    day: DAY,
    vehicle: VAN,
    wish: begins - 5,
    from: 1,
    to: 2,
    by: null,
    attendant: false,
    companions: 0,
    window_from: begins,
    window_to: begins + 30,
    fare: 350,
    due: 350,
    status: "booked",
    ...more
});

/** A desk of some riders' trips. fails(count, done) may break a request: it throws nothing, and
 * gives a denial.
 */
function makeDesk(
    lists,
    { fails = () => null, booked = () => undefined, pauses = () => undefined } = {}
) {
    const riders = new Map(
        Object.entries(lists).map(([rider, trips]) => [
            Number(rider),
            trips.map((it) => ({ ...it }))
        ])
    );
    const all = () => [...riders.values()].flat();
    let next = Math.max(...all().map((it) => it.trip)) + 1, count = 0;
    const versions = [], counted = [], keptPlans = [], first = {};
    const write = (act) => {
        const broken = fails(count += 1);
        if (broken === "before") return { denied: "left" };
        const reply = act();
        return broken === "after" ? { denied: "left" } : reply;
    };
    const inVan = () => all().filter((it) => it.vehicle === VAN && it.status === "booked");
    const ports = {
        tripsOf: async (rider) => ({
            value: { trips: (riders.get(rider) ?? []).map((it) => ({ ...it })) }
        }),
        cancel: async (number) =>
            write(() => {
                const it = all().find((one) => one.trip === number);
                if (it.status !== "booked") return { denied: "desk.over" };
                it.status = "cancelled";
                return { value: {} };
            }),
        book: async (fields) =>
            write(() => {
                const denied = booked(fields);
                if (denied) return { denied };
                const made = trip(next, fields.rider, Math.max(fields.wish - 60, 0), {
                    ...fields,
                    vehicle: 7,
                    trip: next
                });
                next += 1;
                riders.get(fields.rider).push(made);
                return { value: { ...made } };
            }),
        putVehicle: async (fields) =>
            write(() => {
                if (inVan().some((it) => it.day >= fields.from_day))
                    return { denied: "desk.booked" };
                versions.push(fields);
                return { value: {} };
            }),
        dutyOn: async (days) => ({ value: versions.some((it) => !it.days.length) ? [] : days }),
        itemsNow: async () => inVan().map((it) => itemOf(riders, it)),
        keep: async (plan) => {
            keptPlans.push(structuredClone(plan));
        },
        count: (denial) => counted.push(denial),
        booked: (item, ticket) => {
            first[ticket.trip] = plans.saidOf(item);
        },
        isMine: () => true,
        pause: async () => pauses(all()),
    };
    return { riders, ports, versions, counted, keptPlans, all, first };
}

const riderOf = (riders, number) =>
    [...riders].find(([, trips]) => trips.some((it) => it.trip === number))[0];

function itemOf(riders, old) {
    const rider = riderOf(riders, old.trip);
    return {
        rider,
        old: { ...old },
        drop: old.window_from + 40,
        highest: Math.max(...riders.get(rider).map((it) => it.trip)),
        step: "booked",
        ticket: null,
        other: null,
        denied: null
    };
}

function planOf({ riders }, more = {}) {
    const items = [...riders.values()]
        .flat()
        .filter((it) => it.vehicle === VAN && it.status === "booked")
        .map((it) => itemOf(riders, it));
    return {
        vehicle: VAN,
        from: DAY,
        back: null,
        mode: "move",
        depot: 5,
        settings: null,
        isOut: false,
        isBack: false,
        backDenied: null,
        stopped: null,
        done: false,
        counted: [],
        items: items.sort((a, b) => plans.byPickup(a.old, b.old)),
        ...more
    };
}

const THREE = {
    1: [trip(10, 1, 600)],
    2: [trip(11, 2, 480, { from: 3, to: 4 })],
    3: [trip(12, 3, 540, { by: 700 })]
};

/** How many booked trips each rider has on the day, outside of the vehicle. */
const bookedOn = ({ riders }) =>
    Object.fromEntries(
        [...riders].map(([rider, trips]) => [
            rider,
            trips.filter((it) => it.status === "booked").length
        ])
    );

test("each rider is booked again, whose pickup is nearest first, in the old window", async () => {
    const desk = makeDesk(THREE), plan = await plans.carryOut(planOf(desk), desk.ports);
    assert.equal(plan.done, true);
    assert.deepEqual(plan.items.map((it) => it.old.trip), [11, 12, 10]);
    assert.deepEqual(plan.items.map((it) => it.step), ["again", "again", "again"]);
    assert.deepEqual(plan.items.map(plans.movedBy), [0, 0, 0]);
    assert.deepEqual(
        desk
            .all()
            .filter((it) => it.trip > 12)
            .sort((a, b) => a.trip - b.trip)
            .map((it) => it.rider),
        [2, 3, 1]
    );
});

test("the page and bin/worklist have one rule of the same window", () => {
    const cases = JSON.parse(
        readFileSync(new URL("../windows/same.json", import.meta.url), "utf8")
    );
    const ofTrip = ([begins, ends]) => ({ window_from: begins, window_to: ends });
    for (const it of cases) {
        const item = { old: ofTrip(it.old), ticket: ofTrip(it.new) };
        assert.equal(plans.isSameWindow(item), it.same, JSON.stringify(it));
        assert.equal(plans.movedBy(item) === 0, it.same, JSON.stringify(it));
    }
});

test("a window holds where the new one is the same or within it; else the change is said", () => {
    const moved = (from, to) =>
        plans.movedBy({
            old: { window_from: 785, window_to: 808 },
            ticket: { window_from: from, window_to: to }
        });
    assert.deepEqual([moved(785, 808), moved(790, 808), moved(785, 800)], [0, 0, 0]);
    assert.deepEqual(
        [moved(785, 815), moved(788, 818), moved(780, 810), moved(780, 800)],
        [7, 3, -5, -5]
    );
    assert.equal(plans.movedBy({ old: { window_from: 785, window_to: 808 }, ticket: null }), 0);
});

test("the wishes pin the old window, and the last one is what the rider said", () => {
    const tries = plans.triesOf({ old: trip(1, 1, 600, { by: null }), drop: 650 });
    assert.deepEqual(tries, [
        { wish: 660, by: 660 },
        { wish: 660, by: 675 },
        { wish: 660, by: 695 },
        { wish: 595, by: null }
    ]);
});

test("a rider's own appointment is never passed by a wish", () => {
    const tries = plans.triesOf({ old: trip(1, 1, 600, { by: 665 }), drop: 650 });
    assert.deepEqual(tries, [
        { wish: 660, by: 660 },
        { wish: 660, by: 665 },
        { wish: 595, by: 665 }
    ]);
    assert.deepEqual(plans.triesOf({ old: trip(1, 1, 1420), drop: 1435 })[0], {
        wish: 1439,
        by: 1439
    });
    assert.deepEqual(plans.triesOf({ old: trip(1, 1, 600), drop: null }), [{
        wish: 595,
        by: null
    }]);
});

test("minutes are added where no vehicle takes it; other denials go to what was said", async () => {
    const asked = [],
        deny = (rule, from) => (fields) => {
            asked.push(fields.by);
            return asked.length < from ? rule : undefined;
        };
    let desk = makeDesk({ 1: [trip(10, 1, 600)] }, { booked: deny("no vehicle", 3) });
    await plans.carryOut(planOf(desk), desk.ports);
    assert.deepEqual(asked, [650, 665, 685]);
    asked.length = 0;
    desk = makeDesk({ 1: [trip(10, 1, 600)] }, { booked: deny("37.131(e)", 2) });
    await plans.carryOut(planOf(desk), desk.ports);
    assert.deepEqual(asked, [650, null]);
});

test("a trip that moved to another day, van, time or place stays as it is", async () => {
    for (const patch of [
        { day: NEXT },
        { vehicle: 7 },
        { wish: 700 },
        { from: 8 },
        { to: 8 },
        { by: 900 },
        { companions: 1 }
    ]) {
        const desk = makeDesk(THREE), plan = planOf(desk);
        Object.assign(desk.riders.get(1)[0], patch, { vehicle: patch.vehicle ?? 7 });
        const done = await plans.carryOut(plan, desk.ports);
        assert.equal(done.items.find((it) => it.old.trip === 10).step, "changed");
        assert.equal(desk.riders.get(1).length, 1);
        assert.equal(desk.riders.get(1)[0].status, "booked");
    }
});

test("a trip that changed and stays in the van comes into the list, and is asked for", async () => {
    const desk = makeDesk(THREE), plan = planOf(desk);
    desk.riders.get(1)[0].wish = 700;
    const stopped = await plans.carryOut(plan, desk.ports);
    assert.equal(stopped.stopped, "desk.booked");
    assert.equal(stopped.items.find((it) => it.old.trip === 10).step, "booked");
    const done = await plans.carryOut(stopped, desk.ports);
    assert.equal(done.done, true);
    assert.equal(desk.riders.get(1).at(-1).wish, 660);
});

test("a trip that came into the van meanwhile is in the list before it is touched", async () => {
    const desk = makeDesk(THREE), plan = planOf(desk);
    desk.riders.set(4, [trip(13, 4, 630)]);
    const stopped = await plans.carryOut(plan, desk.ports);
    assert.deepEqual([stopped.stopped, desk.riders.get(4)[0].status], ["desk.booked", "booked"]);
    assert.deepEqual(stopped.items.map((it) => it.old.trip), [11, 12, 10, 13]);
});

test("who was rebooked by the clerk is not booked twice: before, Go on, Try again", async () => {
    const anew = trip(40, 1, 660, { vehicle: 3 });
    const desk = makeDesk(THREE), plan = planOf(desk);
    desk.riders.get(1).push(anew);
    const done = await plans.carryOut(plan, desk.ports);
    const item = done.items.find((it) => it.old.trip === 10);
    assert.deepEqual([item.step, item.other.trip, bookedOn(desk)[1]], ["elsewhere", 40, 1]);
    // (at Go on)
    const second = makeDesk(THREE),
        broken = planOf(second);
    second.riders.get(1)[0].status = "cancelled";
    broken.items = broken.items.map((it) => ({ ...it, step: "cancelled" }));
    for (const it of second.all()) it.status = "cancelled";
    second.riders.get(1).push(anew);
    const again = await plans.carryOut(await plans.readAgain(broken, second.ports), second.ports);
    assert.deepEqual(
        [again.items.find((it) => it.old.trip === 10).step, bookedOn(second)[1]],
        ["elsewhere", 1]
    );
    // (at Try again)
    const third = makeDesk(THREE, {
        booked: ({ rider }) => (rider === 1 ? "no vehicle" : undefined)
    });
    const nowhere = await plans.carryOut(planOf(third), third.ports);
    assert.equal(nowhere.items.find((it) => it.old.trip === 10).step, "nowhere");
    third.riders.get(1).push(anew);
    const retried = await plans.carryOut(plans.toTryAgain(nowhere), third.ports);
    assert.deepEqual(
        [retried.items.find((it) => it.old.trip === 10).step, bookedOn(third)[1]],
        ["elsewhere", 1]
    );
});

test("a trip of that day which is another ride is none in its place", async () => {
    const desk = makeDesk(THREE), plan = planOf(desk);
    desk.riders.get(1).push(trip(40, 1, 900, { vehicle: 3, from: 2, to: 1 }));
    await plans.carryOut(plan, desk.ports);
    assert.equal(bookedOn(desk)[1], 2);
    // (the way back of that hour is another ride, too)
    const there = planOf(makeDesk(THREE)).items.find(({ old }) => old.trip === 10),
        back = trip(42, 1, 600, { vehicle: 3, from: there.old.to, to: there.old.from });
    assert.equal(
        plans.anewOf(
            there,
            [{ ...back, window_from: there.old.window_from, window_to: there.old.window_to }],
            new Set()
        ),
        null
    );
});

test("what somebody else canceled is said, with the trip that replaced it", async () => {
    const desk = makeDesk(THREE), plan = planOf(desk);
    desk.riders.get(1)[0].status = "cancelled";
    desk.riders.get(1).push(trip(41, 1, 600, { vehicle: 132 }));
    const item = (await plans.carryOut(plan, desk.ports)).items.find((it) => it.old.trip === 10);
    assert.deepEqual([item.step, item.other.trip, item.other.vehicle], ["gone", 41, 132]);
});

test("two dispatchers at once: nobody is lost or doubled, and each list is true", async () => {
    const desk = makeDesk(THREE), one = planOf(desk), two = planOf(desk);
    const [first, second] = await Promise.all([
        plans.carryOut(one, desk.ports),
        plans.carryOut(two, desk.ports)
    ]);
    assert.deepEqual(bookedOn(desk), { 1: 1, 2: 1, 3: 1 });
    const now = [
        await plans.readAgain(first, desk.ports),
        await plans.readAgain(second, desk.ports)
    ];
    for (const plan of now) {
        for (const it of plan.items) {
            assert.ok(["again", "gone", "elsewhere"].includes(it.step), it.step);
            const told = it.ticket ?? it.other;
            assert.equal(
                desk.riders.get(it.rider).find(({ trip: number }) => number === told.trip).status,
                "booked"
            );
        }
    }
});

test("another dispatcher's return of the van does not tear up its trips", async () => {
    const desk = makeDesk(THREE), plan = planOf(desk, { back: NEXT, settings: SETTINGS });
    for (const it of desk.all()) it.status = "cancelled";
    desk.versions.push({ id: VAN, from_day: DAY, days: [] });
    desk.riders.set(4, [trip(50, 4, 600, { day: NEXT })]);
    const done = await plans.carryOut(plan, desk.ports);
    assert.deepEqual(
        [done.done, done.stopped, desk.riders.get(4)[0].status],
        [true, null, "booked"]
    );
});

test("the return is put before anything is booked, with what the van had", async () => {
    let had = null;
    const desk = makeDesk(THREE, {
        booked: () => {
            had ??= desk.versions.length;
        }
    });
    const plan = await plans.carryOut(planOf(desk, { back: NEXT, settings: SETTINGS }), desk.ports);
    assert.equal(had, 2);
    assert.deepEqual(desk.versions[1], { ...SETTINGS, id: VAN, from_day: NEXT });
    assert.equal(plan.isBack, true);
});

test("a denial counts once for a rider of the plan", async () => {
    const lists = {
        1: [trip(10, 1, 600), trip(13, 1, 800, { from: 2, to: 1 })],
        2: [trip(11, 2, 480)]
    };
    const desk = makeDesk(lists, { booked: () => "no vehicle" });
    const plan = await plans.carryOut(planOf(desk), desk.ports);
    assert.deepEqual(desk.counted.map((it) => it.minute), [475, 595]);
    await plans.carryOut(plans.toTryAgain(plan), desk.ports);
    assert.equal(desk.counted.length, 2);
});

test("a line that breaks before or after any request loses and doubles nobody", async () => {
    for (const kind of ["before", "after"]) {
        for (let at = 1; at <= 8; at += 1) {
            let broken = false;
            const desk = makeDesk(THREE, {
                fails: (count) => {
                    if (count !== at || broken) return null;
                    broken = true;
                    return kind;
                }
            });
            let plan = await plans.carryOut(
                planOf(desk, { back: NEXT, settings: SETTINGS }),
                desk.ports
            );
            // (a tab that was closed: what was kept last)
            for (let tries = 0; !plan.done && tries < 4; tries += 1) {
                plan = await plans.carryOut(
                    await plans.readAgain(desk.keptPlans.at(-1), desk.ports),
                    desk.ports
                );
            }
            assert.equal(plan.done, true, `${kind} ${at}`);
            assert.deepEqual(bookedOn(desk), { 1: 1, 2: 1, 3: 1 }, `${kind} ${at}`);
        }
    }
});

test("each step is written down before it is sent", async () => {
    const desk = makeDesk(THREE), { ports } = desk, sent = [];
    const spied = {
        ...ports,
        cancel: (number) => {
            sent.push([
                number,
                desk.keptPlans.at(-1).items.find((it) => it.old.trip === number).step
            ]);
            return ports.cancel(number);
        }
    };
    await plans.carryOut(planOf(desk), spied);
    assert.deepEqual(sent, [[11, "cancelling"], [12, "cancelling"], [10, "cancelling"]]);
});

test("another key in the window stops it", async () => {
    const desk = makeDesk(THREE);
    const plan = await plans.carryOut(planOf(desk), { ...desk.ports, isMine: () => false });
    assert.deepEqual(
        [plan.stopped, plan.done, bookedOn(desk)],
        ["left", false, { 1: 1, 2: 1, 3: 1 }]
    );
});

test("a trip that was pinned once is asked for by what its rider first said", async () => {
    const desk = makeDesk({ 1: [trip(10, 1, 600, { wish: 660, by: 650 })] }), plan = planOf(desk);
    plan.items[0].said = { wish: 595, by: null };
    assert.deepEqual(plans.triesOf(plan.items[0]).at(-1), { wish: 595, by: null });
    assert.deepEqual(plans.triesOf(plan.items[0]).map(({ by }) => by), [650, 665, 685, null]);
    const done = await plans.carryOut(plan, desk.ports);
    assert.deepEqual(desk.first[done.items[0].ticket.trip], { wish: 595, by: null });
});

test("who was rebooked in the same vehicle has one row and is moved once", async () => {
    const desk = makeDesk({ 1: [trip(10, 1, 600)], 2: [trip(11, 2, 700)] });
    desk.ports.putVehicle = ((put) => async (fields) => {
        // (a clerk books the first rider anew in the vehicle, before it is off duty)
        if (desk.all().length === 2)
            desk.riders.get(1).push(trip(90, 1, 630));
        return put(fields);
    })(desk.ports.putVehicle);
    let plan = await plans.carryOut(planOf(desk), desk.ports);
    assert.equal(plan.stopped, "desk.booked");
    plan = await plans.carryOut(await plans.readAgain(plan, desk.ports), desk.ports);
    assert.deepEqual(
        [plan.done, plan.items.map(({ old, step }) => [old.trip, step])],
        [true, [[90, "again"], [11, "again"]]]
    );
    for (let look = 0; look < 2; look += 1)
        plan = await plans.carryOut(
            plans.toTryAgain(await plans.readAgain(plan, desk.ports)),
            desk.ports
        );
    assert.deepEqual(bookedOn(desk), { 1: 1, 2: 1 });
    assert.equal(plan.items.length, 2);
});

test("a plan that the desk does not let read stays as it is, and says why", async () => {
    const desk = makeDesk(THREE), plan = planOf(desk), { tripsOf } = desk.ports;
    desk.ports.tripsOf = async () => ({ denied: "desk.key" });
    const denied = await plans.readAgain(plan, desk.ports);
    assert.deepEqual([denied.stopped, denied.items], ["desk.key", plan.items]);
    // (another key goes on)
    desk.ports.tripsOf = tripsOf;
    assert.equal((await plans.readAgain(denied, desk.ports)).stopped, null);
});

test("what a colleague rebooks is read until it is stable; no plan ends before", async () => {
    let looks = 0;
    const anew = (number, rider, begins, more) =>
        trip(number, rider, begins, { vehicle: 7, ...more });
    const desk = makeDesk(THREE, {
        pauses: () => {
            looks += 1;
            if (looks === 2) desk.riders.get(1).push(anew(30, 1, 605));
            if (looks === 4) desk.riders.get(2).push(anew(31, 2, 485, { from: 3, to: 4 }));
        }
    });
    const plan = planOf(desk);
    for (const it of desk.all()) it.status = "cancelled";
    const done = await plans.carryOut(plan, desk.ports);
    assert.deepEqual(done.items.map(({ step, other }) => [step, other?.trip ?? null]), [
        ["gone", 31],
        ["gone", null],
        ["gone", 30]
    ]);
    assert.deepEqual([done.done, done.waits, plans.unanswered(done), looks], [true, false, 1, 7]);
    const waiting = desk.keptPlans.filter((it) => it.waits);
    assert.ok(waiting.length > 0 && waiting.every((it) => !it.done));
    const own = makeDesk(THREE, { pauses: () => assert.fail("nothing is gone") });
    await plans.carryOut(planOf(own), own.ports);
});

test("who signs out while a colleague's work is watched leaves the plan unfinished", async () => {
    const desk = makeDesk(THREE), plan = planOf(desk);
    for (const it of desk.all()) it.status = "cancelled";
    let paused = false;
    const done = await plans.carryOut(plan, {
        ...desk.ports,
        pause: async () => {
            paused = true;
        },
        isMine: () => !paused
    });
    assert.deepEqual([done.done, done.stopped], [false, "left"]);
});

test("trips of the return day and later are counted apart", () => {
    const items = [
        { old: trip(1, 1, 600) },
        { old: trip(2, 1, 600, { day: "2026-03-12" }) },
        { old: trip(3, 1, 600, { day: NEXT }) }
    ];
    assert.deepEqual(
        [null, "2026-03-11", "2026-03-12", NEXT, "2026-03-18"].map((back) =>
            plans.afterReturn({ back, items })
        ),
        [0, 2, 2, 1, 0]
    );
});

test("a vehicle that comes back before its next trip has nothing to cancel", () => {
    const items = [
        { old: trip(1, 5, 600, { day: "2026-03-11" }) },
        { old: trip(2, 5, 600, { day: "2026-03-12" }) }
    ];
    assert.deepEqual(
        ["2026-03-10", "2026-03-11", "2026-03-12", "2026-03-13", null].map((back) =>
            plans.hasNoneAway({ back, items })
        ),
        [true, true, false, false, false]
    );
});

test("what the rider said outlives the pages' own minutes", async () => {
    const named = { mode: "not-before", minute: 840, from_address: 7 },
        old = trip(10, 1, 840, { wish: 900, by: 948 });
    const unknown = { old }, known = { old, named };
    assert.deepEqual(plans.namedOf(known), named);
    assert.deepEqual(plans.namedOf(unknown), { mode: "by", minute: 948 });
    assert.deepEqual(plans.namedOf({ old: { ...old, by: null } }), { mode: "around", minute: 900 });
    assert.deepEqual([known, unknown].map(plans.pickupAsked), [840, 900]);
    assert.equal(plans.pickupAsked({ old, named: { mode: "by", minute: 948 } }), 900);
    const begins = (item, from) =>
        plans.isFar({ ...item, ticket: { window_from: from, window_to: from + 30 } });
    assert.deepEqual(
        [begins(known, 900), begins(known, 901), begins(unknown, 901), begins(unknown, 961)],
        [false, true, false, true]
    );
    const told = [], desk = makeDesk({ 1: [old] });
    desk.ports.booked = (item) => told.push(plans.namedOf(item));
    const plan = planOf(desk);
    plan.items[0].named = named;
    await plans.carryOut(plan, desk.ports);
    assert.deepEqual(told, [named]);
});

test("a denial counts for the pickup that the rider asked for", async () => {
    const desk = makeDesk({ 1: [trip(10, 1, 840, { wish: 900 })] }, { booked: () => "no vehicle" }),
        plan = planOf(desk);
    plan.items[0].named = { mode: "not-before", minute: 840 };
    await plans.carryOut(plan, desk.ports);
    assert.deepEqual(desk.counted, [{ day: DAY, minute: 840, rule: "no vehicle" }]);
});
