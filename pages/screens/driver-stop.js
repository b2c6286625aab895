// The card of one stop: who, when, where, what was promised, and what the driver can tell there:
// one thing to press, the others smaller.

import { isOfHomes } from "../parts/address-meant.js";
import { agency, placeNote } from "../parts/agency.js";
import { between, clock } from "../parts/clock.js";
import { keptDenialOf } from "../parts/denials.js";
import { button, part } from "../parts/element.js";
import { icon } from "../parts/icons.js";
import { counted, t } from "../parts/words.js";
import {
    aboardBefore,
    arranged,
    canTakeBack,
    choicesAt,
    evidenceOf,
    isThere,
    minutesUntil,
    plannedIs,
    waitAt
} from "./driver-day.js";
import {
    addressAt,
    mapLink,
    placeAt,
    placeNameAt,
    riderAt,
    stopNameAt,
    whoAt
} from "./driver-read.js";

/** @typedef {import("./driver-day.js").Shown} Shown */
/** @typedef {import("./driver-day.js").What} What */
/** @typedef {import("./driver-read.js").Names} Names */
/** @typedef {import("../types").Given} Given */
/**
 * @typedef {{ day: string, now: string, names: Names, hasCome: boolean, isOver: boolean, noRoom:
 * string | null, behind: number, before: Shown | null }} About behind: by how many minutes the van
 * is behind its plan; before is the stop at which something was tapped last
 * @typedef {{ tap: (stop: Shown, what: What) => void, takeBack: (entry:
 * import("../parts/queue.js").Entry) => void, toNext: () => void, startHere: (stop: Shown) => void,
 * note: (stop: Shown | null) => void, open: (name: string) => void }} Acts
 */

export const TITLE = "driver-stop-title";
const WAIT = "driver-wait", HOUR = 60, DAY = 1440, DEAR = 100;
/** @type {Record<string, string>} */
const ICONS = {
    arrived: "pin",
    aboard: "check",
    ridden: "check",
    "missed-rider": "noshow",
    "missed-operator": "van",
    left: "right",
    done: "check"
};

/** What is done at a stop, in a line.
 * @param {Shown} stop
 * @param {Names} names
 * @param {boolean} [isShort] the name alone, where there is one
 */
export function stopWords({ what, name, rider }, names, isShort = false) {
    if (what === "DEPOT") return t(name === "out" ? "driver.out" : "driver.back");
    const who = (isShort && riderAt(Number(rider), names).name) || whoAt(Number(rider), names);
    return t(what === "PICK" ? "driver.pick" : "driver.drop", { who });
}

/** @param {string} what */
export const didWords = (what) => t(`driver.did-${what}`);

/** What another phone or dispatch told of a trip.
 * @param {string} how */
export const elsewhereWords = (how) => (
    how === "aboard" ? didWords(how) : t(`driver.record-${how}`)
);

/** A moment as the agency's clock shows it.
 * @param {string} moment */
export const timeOf = (moment) =>
    clock(Number(moment.slice(11, 13)) * HOUR + Number(moment.slice(14, 16)));

/** How far the planned time is away, and when the van is to be expected where it is behind its
 * plan.
 * @param {Shown} stop @param {About} about */
function latenessOf(stop, { day, now, isOver, behind }) {
    const until = minutesUntil(stop, day, now), { says, minutes } = plannedIs(until, behind);
    if (!stop.isNext || isOver || until >= HOUR * 2) return null;
    const words = t(`driver.${says}`, { minutes, time: clock((stop.at + behind) % DAY) });
    return says === "late" || says === "about"
        ? part("strong", { class: "driver-late" }, words)
        : part("span", { class: "driver-early" }, words);
}

/** The heading: what is done there, small, and who, large.
 * @param {Shown} stop @param {Names} names */
function titleOf(stop, names) {
    const { what, rider } = stop,
        number = t("common.rider", { rider }),
        { name } = riderAt(Number(rider), names);
    if (what === "DEPOT")
        return part("h2", { id: TITLE, class: "who", tabindex: -1 }, stopWords(stop, names));
    return part("h2", { id: TITLE, class: "who", tabindex: -1 },
        part("span", { class: "kind" },
            t(what === "PICK" ? "driver.kind-pick" : "driver.kind-drop")
        ),
        " ",
        part("span", { class: "name" }, name || number),
        name && [part("span", { class: "unseen" }, ", "), part("span", { class: "no" }, number)]
    );
}

/** The stop, and as its largest line the pickup window, or the time where there is none.
 * @param {Shown} stop @param {About} about @param {Acts} acts */
function headOf(stop, about, acts) {
    const window = stop.what === "PICK" && stop.window, lateness = latenessOf(stop, about);
    return [
        !stop.isNext &&
            part("div", { class: "between" },
                part("p", { class: "s soft" }, t("driver.opened")),
                button(t("driver.to-next"), acts.toNext, { class: "small" })
            ),
        titleOf(stop, about.names),
        part("div", {},
            window && part("p", { class: "s soft" }, t("driver.window")),
            part("p", { class: "driver-when big-time" },
                window ? between(...window) : clock(stop.at)
            ),
            part("p", { class: "driver-planned num" },
                window && [t("driver.planned", { time: clock(stop.at) }), lateness ? ", " : ""],
                lateness
            )
        )
    ];
}

/** Where the stop is, and the way there.
 * @param {Shown} stop @param {Names} names */
function placeOf(stop, names) {
    const place = placeAt(stop.place, names),
        address = addressAt(stop, names),
        name = stopNameAt(stop, names),
        at = placeNameAt(stop.place, names);
    const beside = address && at !== name && !isOfHomes(stop.place, at) && at;
    return {
        name,
        link: (address && mapLink(address)) || mapLink(place),
        notes: [address?.note, beside, place.note || placeNote(stop.place)].filter(Boolean)
    };
}

/** @param {Shown} stop @param {Names} names */
function whereOf(stop, names) {
    const { name, notes } = placeOf(stop, names);
    return part("p", { class: "driver-where" },
        part("strong", {}, name),
        notes.map((text) => part("small", {}, text))
    );
}

/** @param {Shown} stop @param {Names} names */
function directionsTo(stop, names) {
    const { name, link } = placeOf(stop, names);
    return link &&
        part(
            "a",
            {
                class: "tap plain",
                key: "map",
                href: link,
                rel: "noreferrer noopener",
                target: link.startsWith("https:") ? "_blank" : null,
                "aria-label": t("driver.map-of", { place: name })
            },
            icon("route"),
            t("driver.map")
        );
}

/** @param {Shown} stop @param {Names} names */
function whomOf(stop, names) {
    if (!stop.trip) return null;
    const { trip, party, rider, what } = stop,
        fare = names.fares[trip],
        { note } = riderAt(Number(rider), names);
    return part("p", { class: "chips facts" },
        part("span", { class: "chip" },
            icon(party.chairs ? "aid" : "person"),
            t("driver.party", party)
        ),
        " ",
        note && [part("span", { class: "chip" }, note), " "],
        fare !== undefined &&
            what === "PICK" &&
            part("span", { class: "chip" },
                t("driver.fare", { fare: `$${(fare / DEAR).toFixed(2)}` })
            )
    );
}

/** @param {Shown} stop */
const tripOf = ({ trip, staying }) =>
    trip &&
    part("p", { class: "s soft" },
        `${t("driver.trip", { trip })}. ${t("driver.aboard-after", { count: counted(staying) })}.`
    );

/** How the wait of a pickup stands: to be begun by the arrival, to begin with the window, under
 * way, or over.
 * @param {Shown} stop
 * @param {About} about
 * @returns {{ how: "first" | "starts" | "left" | "over", begins: number, left: number } | null}
 */
function waitOf(stop, { now, hasCome, isOver }) {
    const minutes = agency().wait_minutes, wait = waitAt(stop, minutes, now);
    if (
        !hasCome ||
        isOver ||
        stop.what !== "PICK" ||
        stop.aboard ||
        stop.outcome ||
        stop.done ||
        stop.isOnRecord
    )
        return null;
    if (!wait) return { how: "first", begins: 0, left: 0 };
    return { ...wait, how: wait.left > minutes * HOUR ? "starts" : wait.left ? "left" : "over" };
}

/** The wait as a clock. It counts down without a word to a screen reader, which reads it where it
 * is.
 * @param {NonNullable<ReturnType<typeof waitOf>>} wait */
function waitShown({ how, begins, left }) {
    const minutes = agency().wait_minutes,
        whole = minutes * HOUR,
        time = (/** @type {number} */ seconds) => clock(Math.floor(seconds / HOUR) % DAY);
    if (how === "first")
        return part("p", { id: WAIT, class: "s soft" }, t("driver.wait-first", { minutes }));
    if (how === "starts")
        return part("p", { id: WAIT, class: "driver-wait" },
            t("driver.wait-starts", { time: time(begins), minutes })
        );
    if (how === "over")
        return part("p", { id: WAIT, class: "driver-wait over" },
            icon("check"),
            " ",
            t("driver.wait-over", { minutes })
        );
    return part("div", { id: WAIT, class: "driver-wait meter wait" },
        part("p", { class: "between" },
            part("span", {}, t("driver.wait-until"), " ", part("strong", {}, time(begins + whole))),
            " ",
            part("span", { class: "big-time", role: "timer" },
                `${Math.floor(left / HOUR)}:${String(left % HOUR).padStart(2, "0")}`
            )
        ),
        part("progress", { max: whole, value: whole - left, "aria-label": t("driver.wait-label") })
    );
}

/** What was told at a stop: how it ended, whether it waits, and what the desk denied.
 * @param {Shown} stop @param {About} about */
function toldOf(stop, { noRoom }) {
    const { arrived, aboard, outcome, denied, elsewhere, isOnRecord } = stop,
        what = didWords((outcome ?? denied)?.tap.what ?? "");
    const how =
        outcome?.state === "waiting"
            ? "driver.told-waiting"
            : outcome?.denied
            ? "driver.told-known"
            : "driver.told";
    return part("div", { role: "status", id: "driver-told", class: "driver-told" },
        stop.taps.filter(({ tap }) => tap.what === "note").map(({ tap, order }) =>
            part("p", { key: `note-${order}` },
                t("driver.note-at", { time: timeOf(tap.at), text: tap.text })
            )
        ),
        arrived &&
            !aboard &&
            !outcome &&
            part("p", {},
                icon("check"),
                " ",
                t("driver.arrived-at", { time: timeOf(arrived.tap.at) })
            ),
        aboard &&
            !outcome &&
            part("p", { class: "good" }, t("driver.told", { what: didWords("aboard") })),
        elsewhere &&
            !aboard &&
            part("p", { class: "good" },
                t(isOnRecord ? "driver.on-record" : "driver.told-elsewhere", {
                    what: elsewhereWords(elsewhere)
                })
            ),
        outcome &&
            part("p", { class: outcome.state === "waiting" ? "note" : "good" }, t(how, { what })),
        denied && [
                part("p", { class: "fault" }, t("driver.told-denied", { what })),
                keptDenialOf(denied.denied, "outcome")
            ],
        noRoom === stop.name && part("p", { class: "denial" }, t("driver.no-room"))
    );
}

/** What was told, and beside an arrival what undoes it.
 * @param {Shown} stop
 * @param {About} about
 * @param {Acts} acts
 * @param {import("../parts/queue.js").Entry | null} here the arrival that can be undone here
 */
const toldRow = (stop, about, acts, here) =>
    part("div", { class: "between driver-arrived" },
        toldOf(stop, about),
        here &&
            button([icon("undo"), t("driver.undo")], () => acts.takeBack(here), {
                key: `back-${here.order}`,
                class: "quiet",
                "aria-label": t("driver.take-back", { what: didWords(here.tap.what) })
            })
    );

/** The taps of a stop that can still be taken back, the last one first.
 * @param {Shown} stop */
const takenBack = (stop) => stop.taps.filter(canTakeBack).reverse();

/** What is folded away below the buttons: what is tapped seldom.
 * @param {Given[]} given */
const folded = (...given) =>
    given.flat().some(Boolean) &&
    part("details", { class: "driver-more", key: "more" },
        part("summary", {}, t("driver.more")),
        part("div", { class: "taps" }, given)
    );

/** The buttons of a stop.
 * @param {Shown} stop @param {About} about @param {Acts} acts
 * @param {{ isLate: boolean, wait: ReturnType<typeof waitOf>, back:
 * import("../parts/queue.js").Entry[] }} found back can be undone here
 */
function choicesOf(stop, about, acts, { isLate, wait, back }) {
    const { main, beside, more } = arranged(stop, choicesAt(stop, about.hasCome, isLate)),
        plain = (/** @type {string} */ key) => ({ key, class: "tap plain" });
    const { before, names } = about,
        aboard = aboardBefore(stop),
        undo = (/** @type {import("../parts/queue.js").Entry} */ entry) =>
            button(
                [icon("undo"), t("driver.take-back", { what: didWords(entry.tap.what) })],
                () => acts.takeBack(entry),
                plain(`back-${entry.order}`)
            );
    const tap = (/** @type {What} */ what, /** @type {string} */ look) =>
        button(
            [
                icon(ICONS[stop.what === "DEPOT" ? "done" : what]),
                t(stop.what === "DEPOT" ? "driver.done-here" : `driver.${what}`)
            ],
            () => acts.tap(stop, what),
            {
                key: what,
                class: `tap ${look}`,
                "aria-describedby":
                    what === "missed-rider" && wait && wait.how !== "over" ? WAIT : null
            }
        );
    // (where the van came after the window, the agency's fault is the larger one)
    const look = (/** @type {What} */ what) => (
        isLate && isThere(stop) && what === "missed-operator" ? "bad large" : "plain"
    );
    return part("div", { class: "driver-choices" },
        main && tap(main, "main"),
        part("div", { class: "taps" },
            beside.map((what) => tap(what, look(what))),
            directionsTo(stop, names),
            back.map(undo),
            !stop.isNext &&
                !stop.done &&
                about.hasCome &&
                button(t("driver.start-here"), () => acts.startHere(stop), plain("start"))
        ),
        folded(
            wait?.how === "first" && more.includes("missed-rider") && waitShown(wait),
            more.map((what) => tap(what, look(what))),
            aboard && undo(aboard),
            before &&
                button(
                    [icon("undo"), t("driver.last-stop", { stop: stopWords(before, names, true) })],
                    () => acts.open(before.name),
                    plain("before")
                ),
            about.hasCome &&
                stop.trip &&
                button(t("driver.add-note"), () => acts.note(stop), plain("note"))
        )
    );
}

/** @param {Shown} stop @param {About} about @param {Acts} acts */
export function stopCard(stop, about, acts) {
    const wait = waitOf(stop, about),
        isLate = evidenceOf(stop, agency().wait_minutes, about.day, about.now).doubt === "late",
        back = takenBack(stop);
    const here =
        !stop.aboard && !stop.outcome && stop.arrived && back.includes(stop.arrived)
            ? stop.arrived
            : null;
    return part("section", { class: "card driver-stop", key: stop.name, "aria-labelledby": TITLE },
        headOf(stop, about, acts),
        whereOf(stop, about.names),
        whomOf(stop, about.names),
        toldRow(stop, about, acts, here),
        wait && wait.how !== "first" && waitShown(wait),
        isLate &&
            isThere(stop) &&
            choicesAt(stop, about.hasCome).includes("missed-operator") &&
            part("p", { class: "note" }, t("driver.window-over")),
        choicesOf(stop, about, acts, { isLate, wait, back: back.filter((it) => it !== here) }),
        tripOf(stop)
    );
}
