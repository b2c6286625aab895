// The driver's phone: the own manifest, the next stop first, and what came of each trip. What is
// tapped is kept by this phone until the desk has it, and the manifest last read is there without a
// line. The day is the server's, and a new one is gone to by itself.

import { agency, vehicleName } from "../parts/agency.js";
import { clock, dayInWords, momentAt, momentNow, plus, serverNow, today } from "../parts/clock.js";
import * as desk from "../parts/desk.js";
import { make, part, say } from "../parts/element.js";
import { forgetAllDays, forgetDaysBefore } from "../parts/manifest-copies.js";
import { sheetOf } from "../parts/paper.js";
import {
    annotate,
    entries,
    isKnownHere,
    onChange,
    prune,
    sendAll,
    sendTallies,
    whyStopped
} from "../parts/queue.js";
import { makeScreen } from "../parts/screen.js";
import { keepSubject, keptSubject, tellRefused } from "../parts/subject-kept.js";
import { t } from "../parts/words.js";
import { actsOf } from "./driver-acts.js";
import { leftOpen, stopBefore, waitAt } from "./driver-day.js";
import { keepFiles } from "./driver-files.js";
import { forgetAndLeave } from "./driver-gone.js";
import {
    afterOf,
    dockOf,
    footOf,
    headOf,
    listOf,
    noticesOf,
    undoBar,
    undoIn
} from "./driver-list.js";
import { lockOfPhone } from "./driver-lock.js";
import { enterReading, milesOf } from "./driver-miles.js";
import { keepVehicle, keptDay, keptVehicle, NO_NAMES, readDay, whoAt } from "./driver-read.js";
import { behind, heldIn, logOf, namesOf, shownDay, stateOf, waitingIn } from "./driver-state.js";
import { stopCard, TITLE } from "./driver-stop.js";
import { disagreementTold } from "./driver-told.js";

/** @typedef {import("./driver-state.js").State} State */
/** @typedef {import("./driver-read.js").Read} Read */
/** @typedef {import("../parts/events.js").Fields["disagreements"]["record"]} OnRecord */

const TICK = 1000,
    RENEWED = 60_000,
    AGAIN = 15_000,
    TALLIED = 20_000;

/** The pickups of one reading that the next one has no more.
 * @param {Read} before @param {Read} now */
function goneFrom(before, now) {
    const there = new Set(now.stops.map(({ what, trip }) => `${what} ${trip}`));
    return before.stops
        .filter(({ what, trip }) => what === "PICK" && !there.has(`${what} ${trip}`))
        .map(({ at, rider }) => `${clock(at)} ${whoAt(Number(rider), now.names)}`)
        .join("; ");
}

/** What each stop's wait still takes, in seconds.
 * @param {State} state @param {string} now */
const waitsAt = (state, now) =>
    shownDay(state).stops.map((stop) => waitAt(stop, agency().wait_minutes, now)?.left ?? 0);

/** @typedef {ReturnType<typeof actsOf> & { show: (day: string) => void, pull: (pull:
 * import("./driver-odometer.js").Pull) => void }} Acts
 */

/** @param {State} state @param {Acts} acts */
function drawn(state, acts) {
    const { stops, next } = shownDay(state),
        shown = stops.find(({ name }) => name === state.opened) ?? stops[next],
        { read, day, today: now } = state;
    const about = {
        day,
        now: state.now,
        names: namesOf(state),
        hasCome: day <= now,
        isOver: day < now,
        noRoom: state.noRoom,
        behind: behind(state),
        before: shown ? stopBefore(stops, logOf(state), shown.name) : null
    };
    const none =
        read &&
        part("section", { class: "card driver-stop", key: "none" },
            part("h2", { id: TITLE, tabindex: -1 },
                t(stops.length ? "driver.all-passed" : "driver.no-stops")
            )
        );
    const isStop = state.view === "stop" || !stops.length;
    if (state.locked)
        return [
            headOf(state, acts),
            noticesOf(state, acts),
            footOf(state, acts),
            dockOf(state, acts)
        ];
    return [
        headOf(state, acts),
        noticesOf(state, acts),
        undoBar(state, acts),
        isStop && [
                milesOf(state, acts, true),
                shown ? stopCard(shown, about, acts) : none,
                afterOf(state),
                milesOf(state, acts, false),
                footOf(state, acts)
            ],
        listOf(state, acts),
        read &&
            !isStop &&
            part("details", { class: "card", key: "printed" },
                part("summary", {}, t("driver.printed")),
                sheetOf(
                    t("driver.printed-of", {
                        vehicle: vehicleName(state.vehicle),
                        day: dayInWords(day)
                    }),
                    read.text
                )
            ),
        dockOf(state, acts)
    ];
}

/** Outcomes that the desk denied since it has one already, and of which it is not known yet which.
 * @param {State} state */
const disputed = (state) =>
    logOf(state).filter(
        ({ denied, tap }) => denied === "desk.over" && (tap.onRecord ?? "unknown") === "unknown"
    );

/** Compares what was told here with what the desk has, keeps that, and tells the site's log where
 * they differ. Where it is not known what the desk has, a denied outcome counts as one that
 * differs: somebody has to look.
 * @param {State} state @param {import("./driver-read.js").Records} records */
async function compare(state, records) {
    for (const { order, state: how, tap } of disputed(state)) {
        const onRecord = records[tap.trip] ?? (how === "denied" ? "unknown" : undefined);
        if (!onRecord || onRecord === tap.onRecord) continue;
        const differs = onRecord !== tap.what && !tap.onRecord;
        await annotate(
            order,
            { onRecord },
            differs
                ? [
                      disagreementTold({
                          vehicle: state.vehicle,
                          trip: tap.trip,
                          record: /** @type {OnRecord} */ (onRecord),
                          told: tap.what,
                          at: tap.at
                      })
                  ]
                : []
        ).catch(() => {});
    }
}

/** Forgets the days that are over, but for those that are not closed.
 * @param {State} state */
function forgetOld(state) {
    const sheets = [...new Set(state.kept.map(({ sheet }) => sheet))];
    return forgetDaysBefore(
        today(),
        sheets.filter((it) => leftOpen(state.kept.filter(({ sheet }) => sheet === it)) > 0)
    );
}

/** Reads the manifest that is shown, and the log.
 * @param {ReturnType<typeof makeScreen<State>>} screen
 * @param {ReturnType<typeof lockOfPhone>} lock
 */
function readerOf(screen, lock) {
    let isAsking = false;
    /** Nobody has this key any more: nothing of it stays to be seen. */
    const forget = () => {
        const { vehicle, day } = screen.state;
        screen.change(stateOf(vehicle, day));
        return forgetAndLeave();
    };
    /** @param {Extract<Awaited<ReturnType<typeof readDay>>, Read>} told */
    const take = ({ records, ...told }) => {
        const before = screen.state.read, gone = before ? goneFrom(before, told) : "";
        screen.change({
            silent: false,
            denied: null,
            locked: false,
            read: told,
            gone: gone || screen.state.gone
        });
        window.dispatchEvent(new Event("desk.seen"));
        keepVehicle(screen.state.vehicle);
        keepFiles();
        sendAll();
        return compare(screen.state, records);
    };
    const reader = {
        async relog() {
            if (whyStopped()) return forget();
            const kept = await entries().catch(() => []), known = disputed(screen.state).length;
            screen.change({ kept, now: momentNow(), waits: waitingIn(kept).length });
            // (another window may have found that nobody has this key any more)
            if (screen.state.read && !await isKnownHere(desk.digest() ?? ""))
                return reader.refresh();
            return disputed(screen.state).length > known ? reader.refresh() : undefined;
        },
        /** Asks once; what is shown stays until the answer is there.
         * @returns {Promise<void>} */
        async refresh() {
            if (isAsking) return;
            isAsking = true;
            const { vehicle, day, read } = screen.state,
                told = await readDay(vehicle, day, read?.names ?? NO_NAMES);
            isAsking = false;
            if ("denied" in told && told.denied === "desk.key") return forget();
            if (!("silent" in told)) lock.answered();
            if (screen.state.day !== day) return reader.refresh();
            if ("silent" in told) return screen.change({ silent: true });
            const isDenied = "denied" in told && told.denied !== "left";
            tellRefused(screen.element, isDenied);
            if ("denied" in told)
                return screen.change({ silent: false, denied: isDenied ? told.denied : null });
            return take(told);
        },
        /** Shows a day: its copy first, where the phone is not locked.
         * @param {string} day */
        async show(day) {
            const { vehicle, kept, loose, begun, locked } = screen.state;
            screen.change({
                ...stateOf(vehicle, day),
                kept,
                loose,
                locked,
                waits: waitingIn(kept).length,
                begun: begun && day === today()
            });
            // (the desk is asked at once: what this phone keeps takes its time too)
            const reading = reader.refresh(),
                left = await lock.read(),
                read = left ? await keptDay(vehicle, day) : null;
            if (screen.state.day === day && !screen.state.read)
                screen.change({ read, locked: left === 0, setBack: lock.isSetBack() });
            await Promise.all([reading, reader.lookBack(), forgetOld(screen.state)]);
        },
        /** Whether the day before is closed. */
        async lookBack() {
            const day = plus(today(), -1), count = leftOpen(logOf(screen.state, day));
            screen.change({ before: count && screen.state.day !== day ? { day, count } : null });
        },
        /** Nothing has answered for so long that what is shown is forgotten. */
        async lock() {
            const { vehicle, day, kept, loose } = screen.state;
            screen.change({
                ...stateOf(vehicle, day),
                kept,
                loose,
                waits: waitingIn(kept).length,
                silent: true,
                locked: true,
                setBack: lock.isSetBack()
            });
            await forgetAllDays();
            await reader.refresh();
        }
    };
    return reader;
}

/** Locks what is shown in its time, and says until when it is shown.
 * @param {ReturnType<typeof makeScreen<State>>} screen
 * @param {ReturnType<typeof readerOf>} reader
 * @param {ReturnType<typeof lockOfPhone>} lock
 */
function lockInTime(screen, reader, lock) {
    const left = lock.tick(),
        { read, locked, silent, opensUntil } = screen.state,
        until = read && silent ? momentAt(serverNow() + left) : "";
    if (left === 0 && read && !locked) return void reader.lock();
    if (until.slice(0, 16) !== opensUntil.slice(0, 16)) screen.change({ opensUntil: until });
    return undefined;
}

/** Goes on with the clock: each second, as long as this is seen.
 * @param {ReturnType<typeof makeScreen<State>>} screen
 * @param {ReturnType<typeof readerOf>} reader
 * @param {ReturnType<typeof lockOfPhone>} lock
 */
function clockOf(screen, reader, lock) {
    let held = 0, undone = false;
    /** @param {string} day */
    const newDay = (day) => {
        const follows = screen.state.day === screen.state.today;
        screen.change({ today: day, now: momentNow(), begun: follows });
        if (!follows) return forgetOld(screen.state);
        say(t("driver.new-day", { day: dayInWords(day) }));
        return reader.show(day);
    };
    return () => {
        lockInTime(screen, reader, lock);
        const { state } = screen,
            now = momentNow(),
            day = today(),
            [before, after] = [waitsAt(state, state.now), waitsAt(state, now)];
        if (day !== state.today) return newDay(day);
        const waits = waitingIn(state.kept).length,
            holds = heldIn(state.kept).length,
            undo = undoIn(state) !== null,
            counts = holds > 0 || holds !== held || undo !== undone;
        [held, undone] = [holds, undo];
        if (
            now.slice(0, 16) !== state.now.slice(0, 16) ||
            before.some(Boolean) ||
            waits !== state.waits ||
            counts
        )
            screen.change({ now, waits });
        if (before.some((left, at) => left && !after[at]))
            say(t("driver.wait-over", { minutes: agency().wait_minutes }));
        return undefined;
    };
}

/** Does something when the line or the person is back, as long as an element is on the page.
 * @param {HTMLElement} place @param {() => void} act */
function whenBack(place, act) {
    let wasShown = false;
    const back = () => {
        wasShown ||= place.isConnected;
        if (place.isConnected && !document.hidden) act();
        if (place.isConnected || !wasShown) return;
        window.removeEventListener("online", back);
        document.removeEventListener("visibilitychange", back);
    };
    window.addEventListener("online", back);
    document.addEventListener("visibilitychange", back);
}

/** @param {number} vehicle */
function manifestOf(vehicle) {
    /** @type {Acts} */
    let acts;
    /** @type {ReturnType<typeof makeScreen<State>>} */
    const screen = makeScreen({
        state: stateOf(vehicle, today()),
        draw: (state) => (acts ? drawn(state, acts) : [])
    });
    const lock = lockOfPhone(), reader = readerOf(screen, lock);
    acts = {
        ...actsOf(screen, reader.relog, reader.refresh),
        show: (day) => reader.show(day),
        pull: (pull) => void enterReading(screen.state, pull, reader.relog)
    };
    screen.every(TICK, clockOf(screen, reader, lock));
    screen.every(RENEWED, () => reader.refresh());
    screen.every(AGAIN, () => screen.state.silent && reader.refresh());
    screen.every(TALLIED, () => sendTallies().catch(() => {}));
    whenBack(screen.element, () => reader.refresh());
    let wasShown = false;
    const stop = onChange(() => {
        wasShown ||= screen.element.isConnected;
        if (wasShown && !screen.element.isConnected) stop();
        else reader.relog();
    });
    prune().catch(() => {});
    reader.relog().then(() => reader.show(today()));
    sendAll();
    return screen.element;
}

function drawManifest() {
    const place = make("div", { class: "stack driver" });
    const drawIt = async () => {
        const vehicle = keptSubject("vehicle") ?? await keptVehicle();
        // (the manifest of the van that is known waits for nothing; the field for another one
        // follows below it)
        let known = vehicle && manifestOf(vehicle);
        if (vehicle) keepSubject("vehicle", vehicle);
        if (known) place.append(known);
        const { withSubject } = await import("../parts/subject.js"),
            draw = (/** @type {number} */ id) => {
                const it = id === vehicle && known ? known : manifestOf(id);
                known = null;
                return it;
            };
        const focused = document.activeElement;
        place.append(
            withSubject({
                what: "vehicle",
                label: t("driver.vehicle"),
                action: t("driver.show"),
                draw,
                folded: true,
                change: t("driver.change-van")
            })
        );
        if (
            focused instanceof HTMLElement &&
            focused !== document.activeElement &&
            place.contains(focused)
        )
            focused.focus({ preventScroll: true });
    };
    drawIt().catch(() => {});
    return place;
}

export const driver = () => [{ id: "manifest", name: t("driver.manifest"), draw: drawManifest }];
