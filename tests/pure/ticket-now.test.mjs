// What a trip that was booked on this screen is by now.
import assert from "node:assert/strict";
import test from "node:test";
import { ticketNow } from "../../pages/parts/ticket-now.js";

const wish = {
    day: "2026-12-02",
    wish: 645,
    from: 1,
    to: 2,
    by: null,
    attendant: false,
    companions: 0
};
const ticket = { trip: 1896, vehicle: 2, window_from: 639, window_to: 669, fare: 350, due: 350 };
const trip = (more = {}) => ({ ...wish, ...ticket, status: "booked", ...more });

test("a trip that was not read yet is as it was booked", () => {
    assert.deepEqual(ticketNow({ ticket, wish }, []), {
        ticket,
        wish,
        status: "booked",
        isAsBooked: true
    });
    assert.equal(ticketNow({ ticket, wish }, [trip({ trip: 1 })]).isAsBooked, true);
});

test("a change since gives the window, the fare and the companion of now", () => {
    const changed = trip({ window_from: 645, window_to: 669, due: 700, companions: 1 }),
        now = ticketNow({ ticket, wish }, [changed]);
    assert.deepEqual(
        [now.ticket.window_from, now.ticket.due, now.wish.companions, now.status, now.isAsBooked],
        [645, 700, 1, "booked", false]
    );
});

test("a companion alone is a change of the fare, and the window stands", () => {
    const now = ticketNow({ ticket, wish }, [trip({ due: 700, companions: 1 })]);
    assert.deepEqual([now.ticket.due, now.wish.companions, now.isAsBooked], [700, 1, true]);
});

test("a trip that was canceled since is booked no more", () => {
    const now = ticketNow({ ticket, wish }, [trip({ status: "cancelled" })]);
    assert.deepEqual([now.status, now.isAsBooked], ["cancelled", false]);
});
