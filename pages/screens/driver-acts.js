// What the driver taps: kept by this phone, and where it is an outcome sent to the desk from there.
// A tap has its own moment, and one that comes while another is under way waits for its turn.

import { agency } from "../parts/agency.js";
import { asked, choose } from "../parts/ask.js";
import { askNote } from "../parts/ask-note.js";
import { clock, momentNow, serverNow } from "../parts/clock.js";
import { drawInto, make, part, say } from "../parts/element.js";
import { keep, putAside, takeBack, tellOnce } from "../parts/queue.js";
import { makeTurns } from "../parts/turns.js";
import { t } from "../parts/words.js";
import {
    choicesAt,
    doubtWords,
    evidenceOf,
    isOutcome,
    minutesToWindow,
    othersHave,
    skipped
} from "./driver-day.js";
import { evidenceList } from "./driver-evidence.js";
import { stopNameAt, whoAt } from "./driver-read.js";
import { LIST, LOOSE, logOf, namesOf, sheetName, shownDay } from "./driver-state.js";
import { didWords, elsewhereWords, stopWords, TITLE } from "./driver-stop.js";
import { noShowTold, noteTold, stopTold, undoneTold } from "./driver-told.js";

/** @typedef {import("../parts/queue.js").Entry} Entry */
/** @typedef {import("./driver-day.js").Shown} Shown */
/** @typedef {import("./driver-day.js").What} What */
/** @typedef {import("./driver-state.js").State} State */
/** @typedef {Parameters<typeof keep>[0]} Tapped */
/** @typedef {{ readonly state: State, change: (patch: Partial<State>, options?: { focus?: string })
 * => void }} Screen
 */

/** Milliseconds for which a no-show stays on this phone, so that it can be undone. */
const HELD = 60_000;
const SECOND = 1000;
/** For so long a no-show waits for what others tapped meanwhile. */
const ASKED = 3000;

/** Whether a tap was told later than it happened, and is no time of a drop.
 * @param {Shown} stop @param {What} what */
const isUntold = ({ isNext }, what) => what === "ridden" && !isNext;

/** What the site's log is told of a tap.
 * @param {State} state @param {Shown} stop @param {What} what @param {string} at */
function toldOf({ vehicle, day }, stop, what, at) {
    const { trip = 0 } = stop;
    if (!trip || isUntold(stop, what)) return null;
    const evidence =
        what === "missed-rider"
            ? noShowTold(
                  { vehicle, day, trip, at },
                  evidenceOf(stop, agency().wait_minutes, day, at)
              )
            : [];
    return [stopTold({ vehicle, trip, what, at, isDrop: stop.what === "DROP" }), ...evidence];
}

/** @param {State} state
 * @param {Shown} stop
 * @param {What} what
 * @param {string} at
 * @returns {Tapped}
 */
function tapOf(state, stop, what, at) {
    const { name, trip = 0, rider = 0 } = stop;
    const write = isOutcome(what)
        ? { path: `/trips/${trip}/outcome`, fields: { outcome: what }, number: 0, tries: 0 }
        : null;
    return {
        sheet: sheetName(state.vehicle, state.day),
        tap: {
            stop: name,
            trip,
            rider,
            what,
            at,
            ...(isUntold(stop, what) ? { untold: true } : {})
        },
        state: write ? "waiting" : "kept",
        write,
        held: what === "missed-rider" ? HELD : 0,
        tally: toldOf(state, stop, what, at)
    };
}

/** A question's detail that goes on with the clock as long as the question is open.
 * @template Answer
 * @param {() => import("../types").Given} draw
 * @param {(detail: HTMLElement) => Promise<Answer>} ask
 * @returns {Promise<Answer>}
 */
async function following(draw, ask) {
    const place = make("div"), timer = setInterval(() => drawInto(place, draw()), SECOND);
    drawInto(place, draw());
    try {
        return await ask(place);
    } finally {
        clearInterval(timer);
    }
}

/** What a no-show becomes once the driver has read what makes it doubtful: null where it is not
 * told.
 * @param {State} state @param {Shown} stop @param {string} at @returns {Promise<What | null>} */
async function weighed(state, stop, at) {
    const minutes = agency().wait_minutes,
        evidence = evidenceOf(stop, minutes, state.day, at),
        { doubt } = evidence;
    if (!doubt) return "missed-rider";
    /** @type {[What, string][]} */
    const choices = [["missed-rider", t("driver.no-show-still")]];
    if (doubt === "late") choices.unshift(["missed-operator", t("driver.missed-operator")]);
    const says = () => {
        const now = evidenceOf(stop, minutes, state.day, momentNow());
        return [
            evidenceList(now, minutes),
            part("p", { class: "note" }, t(`driver.doubt-${doubtWords(now)}`, { minutes }))
        ];
    };
    return following(says, (detail) =>
        choose({
            question: t("driver.question-missed-rider", {
                who: whoAt(Number(stop.rider), namesOf(state))
            }),
            careful: true,
            detail,
            choices,
            none: t("driver.keep-waiting")
        })
    );
}

/** Whether a no-show is still meant, though another phone has the rider aboard by now: this is read
 * once more after the yes, as long as it takes little.
 * @param {Screen} screen @param {Shown} stop @param {() => Promise<void>} refresh */
async function isStillMeant(screen, stop, refresh) {
    await Promise.race([
        refresh().catch(() => {}),
        new Promise((done) => {
            setTimeout(done, ASKED);
        })
    ]);
    const { state } = screen, how = othersHave(state.read?.known ?? {}, logOf(state), stop.trip);
    return !how ||
        asked({
            question: t("driver.elsewhere-question", {
                who: whoAt(Number(stop.rider), namesOf(state)),
                what: elsewhereWords(how)
            }),
            detail: t("driver.elsewhere-detail"),
            yes: t("driver.no-show-still")
        });
}

/** Asks before an outcome, which cannot be taken back once the desk has it.
 * @param {State} state @param {Shown} stop @param {What} what @param {string} at */
function sure(state, stop, what, at) {
    const minutes = agency().wait_minutes,
        evidence = evidenceOf(stop, minutes, state.day, at),
        early = what === "missed-operator" ? minutesToWindow(stop, state.day, at) : 0;
    return asked({
        question: t(`driver.question-${what}`, { who: whoAt(Number(stop.rider), namesOf(state)) }),
        detail: [
            what === "missed-rider" && evidenceList(evidence, minutes),
            early > 0 && part("p", { class: "note" }, t("driver.missed-early", { minutes: early })),
            part("p", {},
                `${t("driver.trip", { trip: stop.trip })}. ${t(`driver.says-${what}`)} `,
                t(what === "missed-rider" ? "driver.final-later" : "driver.final")
            )
        ],
        yes: t(`driver.yes-${what}`)
    });
}

/** The moment of a tap. That of a no-show is the yes: the van waits while the question is open.
 * @param {What} what @param {string} at */
const momentOf = (what, at) => (what === "missed-rider" ? momentNow() : at);

/** What is told of a tap after all questions: null where nothing is.
 * @param {State} state
 * @param {Shown} stop
 * @param {What} what
 * @param {string} at
 * @returns {Promise<What | null>}
 */
async function decided(state, stop, what, at) {
    const meant = what === "missed-rider" ? await weighed(state, stop, at) : what;
    if (meant === null || !isOutcome(meant)) return meant;
    return await sure(state, stop, meant, momentOf(what, at)) ? meant : null;
}

/** What stays of a tap that was taken back: that this phone was in use by then, and what the site's
 * log is told, where it has the tap.
 * @param {Entry} entry @returns {Entry | null} */
function markOf(entry) {
    const { sheet, tap } = entry,
        tally = undoneTold(
            {
                vehicle: Number(sheet.split(" ")[0]),
                trip: tap.trip,
                tapped: tap.at,
                at: momentNow()
            },
            entry.told ?? []
        );
    return entry.tap.what === "note" && !tally.length
        ? null
        : {
              ...entry,
              state: "kept",
              write: null,
              tally,
              told: [],
              tap: { ...entry.tap, what: "undone", text: undefined }
          };
}

/** Where this phone has no room: a tap is remembered while the page lives, and an outcome is sent
 * at once or not told at all.
 * @param {Screen} screen @param {string} stop @param {Tapped} tap */
async function loosely(screen, stop, tap) {
    const reply = tap.write ? await tellOnce(tap.write) : {};
    if (reply.silent) {
        screen.change({ noRoom: stop }, { focus: "driver-told" });
        return false;
    }
    const denied = reply.denied ?? null,
        state = denied ? "denied" : tap.write ? "done" : "kept",
        { loose } = screen.state;
    screen.change({
        loose: [
            ...loose,
            {
                ...tap,
                held: 0,
                state,
                denied,
                digest: "",
                since: serverNow(),
                order: LOOSE + serverNow()
            }
        ],
        noRoom: null
    });
    return true;
}

/** Shows where to go on after a tap at a stop.
 * @param {Screen} screen @param {Shown} stop @param {What} what */
function moved(screen, stop, what) {
    const { stops, next } = shownDay(screen.state),
        isDone = stops.find(({ name }) => name === stop.name)?.done ?? true,
        to = stops[next];
    // (who has opened another stop meanwhile stays there)
    screen.change(
        {
            opened: isDone && screen.state.opened === stop.name ? null : screen.state.opened,
            noRoom: null
        },
        { focus: isDone ? TITLE : "driver-told" }
    );
    if (!to || !isDone) return;
    const names = namesOf(screen.state);
    const did = t("driver.told", { what: didWords(stop.what === "DEPOT" ? "done" : what) });
    const follows = t("driver.said-next", {
        time: clock(to.at),
        stop: stopWords(to, names),
        place: stopNameAt(to, names)
    });
    say(`${did} ${follows}`);
}

/** What is shown next begins at its top.
 * @param {() => void} act */
function toTop(act) {
    act();
    window.scrollTo(0, 0);
}

/** What is kept by this phone: taps, and notes of the day.
 * @param {Screen} screen
 * @param {() => Promise<void>} relog
 * @param {() => Promise<void>} refresh
 * @param {ReturnType<typeof makeTurns>} turn
 */
function tapsOf(screen, relog, refresh, turn) {
    /** @param {Shown} tapped @param {What} what */
    const tap = (tapped, what) => {
        const at = momentNow(), { day } = screen.state;
        return turn(async () => {
            const { state } = screen,
                stop =
                    (
                        state.day === day &&
                        shownDay(state).stops.find(({ name }) => name === tapped.name)
                    ) ||
                    tapped;
            // (the second of two taps at the same button has nothing to tell)
            if (!choicesAt(stop, state.day <= state.today).includes(what))
                return;
            const told = await decided(state, stop, what, at);
            if (told === null) return;
            const it = tapOf({ ...state, day }, stop, told, momentOf(what, at));
            if (told === "missed-rider" && !await isStillMeant(screen, stop, refresh)) return;
            if (!await keep(it).then(() => true, () => loosely(screen, stop.name, it))) return;
            await relog();
            moved(screen, stop, told);
        });
    };

    /** A note of the day on a trip, or on the van.
     * @param {Shown | null} stop */
    const note = (stop) =>
        turn(async () => {
            const { state } = screen, { vehicle, day } = state, trip = stop?.trip ?? 0;
            const text = await askNote({
                title: stop
                    ? t("driver.note-of", { about: stopWords(stop, namesOf(state)) })
                    : t("driver.note-van"),
                label: t("driver.note-label"),
                hint: t("driver.note-hint"),
                save: t("driver.note-save")
            });
            if (!text) return;
            const at = momentNow(),
                tapped = {
                    stop: stop?.name ?? "van",
                    trip,
                    rider: stop?.rider ?? 0,
                    what: "note",
                    at,
                    text
                };
            /** @type {Tapped} */
            const it = {
                sheet: sheetName(vehicle, day),
                tap: tapped,
                state: "kept",
                write: null,
                tally: [noteTold({ vehicle, day, trip, text, at })]
            };
            await keep(it).catch(() => loosely(screen, tapped.stop, it));
            await relog();
            say(t("driver.noted"));
        });
    return { tap, note };
}

/** @param {Screen} screen
 * @param {() => Promise<void>} relog reads the log anew
 * @param {() => Promise<void>} refresh reads the day anew
 */
export function actsOf(screen, relog, refresh) {
    const turn = makeTurns(),
        next = () => screen.change({ opened: null, view: "stop" }, { focus: TITLE });

    /** @param {Entry} entry */
    const takenBack = (entry) =>
        turn(async () => {
            if (entry.order >= LOOSE)
                screen.change({ loose: screen.state.loose.filter((it) => it !== entry) });
            else {
                if (
                    entry.write?.tries &&
                    !await asked({
                        question: t("driver.back-question"),
                        detail: t("driver.back-detail"),
                        yes: t("driver.back-yes")
                    })
                )
                    return;
                const isGone = await takeBack(entry.order, markOf).catch(() => false);
                await relog();
                if (!isGone) return say(t("driver.back-too-late"));
            }
            if (entry.tap.what !== "note") next();
            say(t("driver.taken-back", { what: didWords(entry.tap.what) }));
        });

    /** @param {Shown} stop */
    const startHere = (stop) => {
        const at = momentNow();
        return turn(async () => {
            const { state } = screen, before = skipped(shownDay(state).stops, stop.name);
            if (
                before.length &&
                !await asked({
                    question: t("driver.start-question"),
                    detail: t("driver.start-detail", { count: before.length }),
                    yes: t("driver.start-yes")
                })
            )
                return;
            // (one line tells dispatch how far the van has come: the last one of a trip)
            const last = before.filter(({ trip }) => trip).at(-1);
            for (const it of before) {
                const skip = tapOf(state, it, "left", at),
                    passed = it === last ? skip : { ...skip, tally: null };
                await keep(passed).catch(() => loosely(screen, it.name, passed));
            }
            await relog();
            next();
        });
    };

    /** @param {Entry} entry */
    const aside = (entry) =>
        turn(async () => {
            const seen = { ...entry, tap: { ...entry.tap, seen: true } };
            if (entry.order >= LOOSE)
                screen.change({
                    loose: screen.state.loose.map((it) => (it === entry ? seen : it))
                });
            else await putAside(entry.order).catch(() => {});
            await relog();
            screen.change({}, { focus: TITLE });
        });

    return {
        ...tapsOf(screen, relog, refresh, turn),
        takeBack: takenBack,
        startHere,
        aside,
        seenGone: () => screen.change({ gone: "" }, { focus: TITLE }),
        open: (/** @type {string} */ name) =>
            toTop(() => screen.change({ opened: name, view: "stop" }, { focus: TITLE })),
        toNext: () => toTop(next),
        toList: () => toTop(() => screen.change({ view: "list" }, { focus: LIST }))
    };
}
