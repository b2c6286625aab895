// What a clerk has to know of the rider who calls: standing, conditions, what waits, and what the
// agency's roster says.

import { whereForRider, whereNote } from "../parts/addresses.js";
import { placeNote } from "../parts/agency.js";
import { suspensionOn } from "../parts/case-facts.js";
import { dayInWords, dayOfYear, today } from "../parts/clock.js";
import * as desk from "../parts/desk.js";
import { denialOf } from "../parts/denials.js";
import { part } from "../parts/element.js";
import { enteredOf } from "../parts/entered.js";
import { icon } from "../parts/icons.js";
import { menuButton } from "../parts/menu.js";
import { reading } from "../parts/reads.js";
import { riderLabel, riderName, riderOf } from "../parts/roster.js";
import { makeScreen } from "../parts/screen.js";
import { anyOf, LANGUAGE_NAMES, listed, t } from "../parts/words.js";
import { waitingWords } from "./case-waits.js";
import { conditionInWords } from "./cases.js";
import { lettersRead } from "./letters.js";
import { listsIn, worklistRead } from "./worklist.js";

/** @typedef {import("../types").Standing} Standing */
/** @typedef {import("../types").Given} Given */
/** @typedef {import("../parts/entered.js").Entered} Entered */
/** @typedef {{ from: string, to: string } | null} Days */

const MAY_RIDE = ["presumed", "appeal-overdue", "granted", "visitor"],
    RECORD = "#clerk/rider";
/** A clerk makes records and is told the standing, a dispatcher neither. */
const isClerk = () => location.hash.startsWith("#clerk");

/** The verdict of today. A suspension has days of its own, and eligibility has its own last day.
 * @param {Standing} told @param {Days} days those of the suspension, where its letter is known
 */
function verdictOf({ standing, suspended, until }, days) {
    if (suspended)
        return days
            ? t("clerk.suspended-days", { from: dayInWords(days.from), to: dayInWords(days.to) })
            : t("clerk.suspended");
    return [
        t(`clerk.standing-${standing}`),
        until && t("clerk.until", { day: dayOfYear(until) })
    ].filter(Boolean).join(" ");
}

const isConditional = (/** @type {Standing} */ { conditions }) =>
    Boolean(conditions) && conditions?.join() !== "always";

/** Whether the rider may ride today, first of all chips.
 * @param {Standing} told @param {Days} days
 */
function standingChips(told, days) {
    const { standing, suspended, until } = told, may = !suspended && MAY_RIDE.includes(standing);
    return [
        part("span", { class: `chip ${may ? "good" : "bad"}`, key: "standing" },
            icon(may ? "check" : "warning"),
            part("span", { class: "verdict" }, verdictOf(told, days))
        ),
        suspended &&
            until &&
            part("span", { class: "chip", key: "file" },
                t("clerk.on-file", { day: dayInWords(until) })
            ),
        isConditional(told) &&
            part("span", { class: "chip warn", key: "conditional" }, t("clerk.conditional"))
    ];
}

/** @param {Standing} told */
const conditionsOf = (told) =>
    anyOf((told.conditions ?? []).map((it) => String(conditionInWords(it))));

/** Whether the rider travels with an attendant, by the letter of the grant where it was read, or by
 * the roster; null where neither says it.
 * @param {import("../parts/case-facts.js").Letter[]} letters @param {string} told
 */
function attendantOf(letters, told) {
    const line =
        letters.filter(({ lines }) => lines.has("ATTENDANT")).at(-1)?.lines.get("ATTENDANT") ??
        told.trim().toLowerCase();
    return /^(yes|y|s[ií]|true|1|x)$/.test(line)
        ? t("clerk.attendant-yes")
        : /^(no|n|false|0)$/.test(line)
        ? t("clerk.no-attendant-chip")
        : null;
}

/** What travels along: a mobility aid, an attendant; and the language that is spoken.
 * @param {number} rider @param {import("../parts/case-facts.js").Letter[]} letters
 */
function knownChips(rider, letters) {
    const known = riderOf(rider) ?? null,
        attendant = attendantOf(letters, known?.attendant ?? ""),
        chip = (/** @type {string} */ name, /** @type {Given} */ words) =>
            words && part("span", { class: "chip", key: name }, icon(name), words);
    return [
        chip("aid", known?.aid),
        chip("person", attendant),
        chip(
            "speech",
            known?.language && known.language !== "en"
                ? LANGUAGE_NAMES[/** @type {"es"} */ (known.language)] ?? known.language
                : null
        )
    ];
}

/** @param {number} rider
 * @param {Standing | null} told
 * @returns {[string, import("../types").Given][]}
 */
function factsOf(rider, told) {
    const known = riderOf(rider) ?? null, home = known?.home ?? null;
    /** @type {[string, import("../types").Given][]} */
    const all = [
        [
            "home",
            home === null
                ? null
                : [
                      whereForRider(home, rider, null),
                      whereNote(home, rider, null) || placeNote(home)
                  ].filter(Boolean).join(", ")
        ],
        [
            "conditions-name",
            told && isConditional(told) && t("clerk.conditions", { conditions: conditionsOf(told) })
        ],
        ["usual", known && listed(known.usual.map((place) => whereForRider(place, rider, null)))],
        ["note", known?.note]
    ];
    return all.filter(([, value]) => value);
}

/** The rider's name, and how to call the rider.
 * @param {number} rider
 */
function headOf(rider) {
    const telephone = riderOf(rider)?.telephone,
        name = riderName(rider),
        go = (/** @type {string} */ address) => () => {
            location.hash = address;
        };
    return part("div", { class: "between" },
        part("h2", { class: "who", id: "who", tabindex: -1 },
            name || riderLabel(rider).replace(/^[rp]/, (it) => it.toUpperCase()),
            name && [" ", part("span", { class: "soft num" }, `(${rider})`)]
        ),
        part("div", { class: "row tight" },
            telephone &&
                part(
                    "a",
                    { class: "button small num", href: `tel:${telephone.replace(/[^\d+]/g, "")}` },
                    icon("phone"),
                    telephone
                ),
            isClerk() &&
                menuButton(
                    t("clerk.more", { rider: riderLabel(rider) }),
                    [
                        { text: t("clerk.file"), act: go("#clerk/file") },
                        { text: t("clerk.record-part"), act: go(RECORD) }
                    ],
                    { class: "small icon", id: "more-rider" }
                )
        )
    );
}

/** What the desk, the letters and the list of what waits say of a rider today. The letters cost
 * some requests and are read where they tell something: where the rider is suspended, or something
 * waits.
 * @param {number} rider
 */
function knownToday(rider) {
    const standing = reading(desk.pathOf.standing(rider, today())),
        letters = lettersRead(rider),
        list = worklistRead();
    return {
        standing,
        letters,
        list,
        needsLetters: (/** @type {Entered[]} */ entered) => {
            const told = standing.reply(), lists = listsIn(list.reply());
            return told?.value &&
                (
                    told.value.suspended ||
                    waitingWords({ rider, letters: [], entered, lists }).length > 0
                );
        }
    };
}

/** What is known of a rider with what draw() gives, as long as this key may see the rider and there
 * is one: the rider's trips below, the booking beside, and rail() at the left.
 * @param {number} rider
 * @param {() => { trips: HTMLElement, booking: HTMLElement }} draw
 * @param {(() => HTMLElement) | null} rail
 */
export function withCard(rider, draw, rail) {
    /** @type {ReturnType<typeof knownToday> | null} */
    let known = null;
    const screen = makeScreen({
        state: { entered: /** @type {Entered[]} */ ([]) },
        class: `call ${rail ? "" : "no-rail"}`,
        draw: ({ entered }, { kept }) => {
            const reply = known?.standing.reply() ?? null,
                denied = reply?.denied !== undefined,
                letters = known?.letters.reply()?.value ?? [],
                told = denied ? null : reply?.value ?? null,
                parts = kept("parts", draw);
            const waiting = told
                ? waitingWords({ rider, letters, entered, lists: listsIn(known?.list.reply()) })
                : [];
            const card = part("section", { class: "card rider-card", "aria-labelledby": "who" },
                headOf(rider),
                known?.standing.age(),
                part("div", { role: "status" },
                    isClerk() &&
                        (
                            reply === null
                                ? t("clerk.reading")
                                : denied
                                ? denialOf(reply, "standing")
                                : null
                        ),
                    part("div", { class: "chips" },
                        told && isClerk() && standingChips(told, suspensionOn(letters, today())),
                        !denied && knownChips(rider, letters)
                    ),
                    waiting.map((it) => part("p", { class: "waits" }, it))
                ),
                denied &&
                    reply.denied === "desk.unknown" &&
                    isClerk() &&
                    part("p", {},
                        part("a", { href: RECORD },
                            t("clerk.make-record", { rider: riderLabel(rider) })
                        )
                    ),
                part("dl", { class: "kv facts" },
                    factsOf(rider, told).map(([name, value]) =>
                        part("div", { key: name },
                            part("dt", {}, t(`clerk.${name}`)),
                            part("dd", {}, value)
                        )
                    )
                )
            );
            return [
                rail &&
                    part("aside", { class: "rail", key: "rail", "aria-label": t("clerk.recent") },
                        kept("rail", rail)
                    ),
                part("div", { class: "stack caller", key: "caller" },
                    card,
                    part("div", { class: "below", hidden: denied }, parts.trips)
                ),
                part("div", { class: "booking", key: "booking", hidden: denied }, parts.booking)
            ];
        }
    });
    /** @type {(() => void)[]} */
    let leave = [];
    const changed = async () => {
        const entered = await enteredOf(rider);
        screen.change({ entered });
        if (known?.needsLetters(entered) && leave.length === 2)
            leave.push(known.letters.watch(screen.element, changed));
    };
    const begin = () => {
        if (!isClerk()) return;
        leave.forEach((act) => act());
        known = knownToday(rider);
        leave = [
            known.standing.watch(screen.element, changed),
            known.list.watch(screen.element, changed)
        ];
    };
    screen.onNewDay(begin);
    begin();
    return screen.element;
}
