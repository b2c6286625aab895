// Letters: the desk's own text under the agency's letterhead, what it means, and the right of
// appeal, in English and in Spanish: on paper, in large print, as text.

import { mailingAddress } from "../parts/addresses.js";
import { agency } from "../parts/agency.js";
import { asked } from "../parts/ask.js";
import { appealedHere, appealKnown } from "../parts/case-facts.js";
import { plus, today } from "../parts/clock.js";
import * as desk from "../parts/desk.js";
import { denialOf } from "../parts/denials.js";
import { button, part, save } from "../parts/element.js";
import { enter, enteredOf } from "../parts/entered.js";
import { APPEAL_DAYS, HEARING_DAYS, MOST_ENTRIES } from "../parts/limits.js";
import {
    blocksOf,
    bodyOf,
    conditionIn,
    dayIn,
    groupsOf,
    kindOf,
    letterOf,
    meaningIn,
    plainText,
    titleOf
} from "../parts/letter-text.js";
import { pairOf, partWaiting } from "../parts/partial.js";
import { printParts } from "../parts/paper.js";
import { reading } from "../parts/reads.js";
import { riderLabel, riderName, riderOf } from "../parts/roster.js";
import { drawAllAgain, makeScreen } from "../parts/screen.js";
import { language, LANGUAGE_NAMES, t } from "../parts/words.js";

/** @typedef {import("../types").Given} Given */
/** @typedef {import("../parts/letter-text.js").Letter} Letter */

/** Whether who reads is the rider: the rider's own screen speaks in the second person. */
export const isOwn = () => location.hash.startsWith("#rider");
/** Which text of a denial is meant, for a rider and for the office.
 * @param {string} purpose
 */
export const purposeOf = (purpose) => (isOwn() ? "rider" : purpose);

/** What a condition of a grant says, in the language of the page.
 * @param {string} text
 */
export const conditionInWords = (text) => conditionIn(language(), text);

// Reading.

/** The rider's own name, which the site tells where there is no roster.
 * @type {{ rider: number, name: string }}
 */
let own = { rider: 0, name: "" };

/** @param {number} rider */
const ownName = (rider) => (own.rider === rider ? own.name : "");

/** @param {number} rider */
async function loadOwnName(rider) {
    if (!isOwn() || ownName(rider)) return;
    const { status, text } = await desk.fetchFile(`/own/${rider}/name.json`);
    try {
        const { name } = JSON.parse(status === 200 ? text ?? "" : "{}");
        if (typeof name === "string") own = { rider, name };
    } catch {
        own = { rider: 0, name: "" };
    }
}

// Of entries that stand side by side at most four have no letter: an application, an appeal, its
// hearing, and the hearing of a notice. So behind five of them in a row there is none.
const WITHOUT_LETTER = 4;
/** Letters are read again at each sight of the rider and after each write; else only so often,
 * since each takes some requests.
 */
const SELDOM = 300_000;

/** Reads the letters that come after those that are known: a letter never changes.
 * @param {number} rider @param {import("../parts/reads.js").Ask} ask @param {Letter[]} known
 */
async function readLetters(rider, ask, known) {
    const letters = [...known];
    for (
        let entry = (known.at(-1)?.entry ?? -1) + 1, without = 0;
        entry < MOST_ENTRIES && without <= WITHOUT_LETTER;
        entry += 1
    ) {
        const reply = await ask(desk.pathOf.letter(rider, entry));
        if (reply.silent || (reply.denied !== undefined && reply.denied !== "desk.unknown"))
            return reply;
        without = reply.denied === undefined ? 0 : without + 1;
        if (reply.denied === undefined) letters.push(letterOf(entry, reply.value));
    }
    return { value: letters };
}

/** A rider's letters, as they are known to all screens.
 * @param {number} rider
 */
export const lettersRead = (rider) =>
    reading(desk.pathOf.letters(rider), {
        period: SELDOM,
        read: (ask, before) => readLetters(rider, ask, before ?? [])
    });

// What a letter means.

const APPEALABLE = ["refused", "suspended"],
    OF_APPEALS = ["appeal granted", "appeal denied", "suspension overturned"];

/** The last day of an appeal. The desk takes one up to it.
 * @param {Letter} letter
 */
export const lastDay = ({ date }) => plus(date, APPEAL_DAYS);

/** To whom a letter goes, and what else stands in it.
 * @param {string} own
 * @param {number} rider
 * @param {Letter[]} letters
 * @param {Partial<import("../parts/letter-text.js").About>} [otherwise]
 */
function aboutOf(own, rider, letters, otherwise = {}) {
    const place = mailingAddress(rider, riderOf(rider)?.home ?? null),
        { name, telephone, address, appeal } = agency();
    return {
        own,
        rider,
        letters,
        name: riderName(rider) || ownName(rider),
        place,
        agency: { name, telephone, address, appeal },
        appealDays: APPEAL_DAYS,
        hearingDays: HEARING_DAYS,
        ...otherwise
    };
}

/** @typedef {{ title: string, heading: string, isDraft?: boolean }} Heads the tags of a title and
 * of a heading, and whether what was quoted is being typed
 */
/** @typedef {import("../parts/letter-text.js").Block} Block */

/** A block as it stands on paper or on the page.
 * @param {Block} block @param {Heads} heads @returns {Given}
 */
function partOf({ as, lines }, { title, heading, isDraft = false }) {
    const broken = lines.map((line) => [line, part("br")]);
    if (as === "letterhead") return part("p", { class: "letterhead" }, lines);
    if (as === "to" || as === "where" || as === "sender" || as === "date")
        return part("p", { class: as }, broken);
    if (as === "title") return part(title, { class: "title" }, lines);
    if (as === "heading") return part(heading, {}, lines);
    if (as === "strong") return part("p", {}, part("strong", {}, lines));
    if (as === "items") return part("ul", {}, lines.map((it) => part("li", {}, it)));
    if (as === "quoted")
        return part("p", {},
            lines[0] && [part("b", {}, lines[0]), " "],
            part("span", { lang: "en", class: isDraft ? "live" : null }, lines[1])
        );
    if (as === "formats") return part("p", { class: "formats" }, lines);
    if (as === "record")
        return part("footer", { class: "on-record" },
            part("p", {}, lines[0]),
            lines.slice(1).map((it) => part("pre", { lang: "en" }, it))
        );
    return part("p", {}, lines);
}

/** The blocks in their order: the head with who writes and when, and the last day to act in a box
 * with where to write.
 * @param {Block[]} blocks @param {Heads} heads @returns {Given}
 */
function partsOf(blocks, heads) {
    const { head, before, box, after } = groupsOf(blocks),
        shown = (/** @type {Block[]} */ those) => those.map((it) => partOf(it, heads));
    return [
        head.length > 0 &&
            part("header", { class: "letter-head" },
                part("div", {}, shown(head.filter(({ as }) => as !== "date"))),
                part("div", {}, shown(head.filter(({ as }) => as === "date")))
            ),
        shown(before),
        box.length > 0 && part("section", { class: "boxed" }, shown(box)),
        shown(after)
    ];
}

// The paper.

/** One letter in one language.
 * @param {Letter} letter @param {import("../parts/letter-text.js").About} about
 */
const paperOf = (letter, about) =>
    part("article", { class: "letter-page", lang: about.own },
        partsOf(blocksOf(letter, about), { title: "h1", heading: "h2" })
    );

/** A letter on the page as it prints, in each language of a choice.
 * @param {Letter} letter
 * @param {number} rider
 * @param {Letter[]} letters
 * @param {{ isDraft?: boolean, leaveOut?: string[] }} options leaveOut names blocks that nobody
 * knows yet
 */
export const previewOf = (letter, rider, letters, { isDraft = false, leaveOut = [] } = {}) =>
    languagesOf(languageOf(rider)).map((own) =>
        part(
            "article",
            {
                class: "letter-sheet",
                lang: own,
                key: own,
                "aria-label": t(isDraft ? "cases.preview" : "cases.preview-of", {
                    entry: letter.entry
                })
            },
            partsOf(
                blocksOf(letter, aboutOf(own, rider, letters)).filter(
                    ({ key }) => !leaveOut.includes(key)
                ),
                { title: "h3", heading: "h4", isDraft }
            )
        )
    );

/** The languages of a choice: one, or both.
 * @param {string} own
 */
const languagesOf = (own) => (own === "both" ? Object.keys(LANGUAGE_NAMES) : [own]);

/** @param {Letter} letter
 * @param {number} rider
 * @param {{ own: string, large?: boolean, letters: Letter[], more?: Record<string, string> }} how
 * own is a language, or both
 */
function print(letter, rider, { own, large = false, letters, more }) {
    printParts(
        "",
        languagesOf(own).map((it) => paperOf(letter, aboutOf(it, rider, letters, { more }))),
        { class: large ? "letter large" : "letter" }
    );
}

/** The plain text of a letter, as a file that goes into an e-mail, and from which bin/letters makes
 * audio and braille.
 * @param {Letter} letter
 * @param {number} rider
 * @param {{ own: string, letters: Letter[], more?: Record<string, string> }} how
 */
function saveText(letter, rider, { own, letters, more }) {
    const texts = languagesOf(own).map((it) =>
        plainText(blocksOf(letter, aboutOf(it, rider, letters, { more })))
    );
    save(
        `letter-${letter.entry < 0 ? letter.decision : letter.entry}-of-${rider}.txt`,
        "text/plain",
        texts.join(`\n${"-".repeat(40)}\n\n`)
    );
}

/** The buttons of one letter: each gives it in one form. Where it is the only letter that is shown,
 * their words are short, and their names say whose it is.
 * @param {Letter} letter
 * @param {number} rider
 * @param {{ own: string, letters: Letter[], more?: Record<string, string>, isShort?: boolean,
 * isEarly?: boolean }} how isEarly: nobody should print it yet
 */
function buttonsOf(letter, rider, { isShort = false, isEarly = false, ...how }) {
    const entry = letter.entry,
        act = (
            /** @type {string} */ name,
            /** @type {() => void} */ does,
            /** @type {string} */ kind
        ) => {
            const words = t(`cases.${name}-letter`, { entry, rider });
            return button(isShort ? t(`cases.${name}-short`) : words, does, {
                class: kind || null,
                "aria-label": isShort ? words : null
            });
        };
    return part("div", { class: "row" },
        act("print", () => print(letter, rider, how), isShort && !isEarly ? "main" : ""),
        act("large", () => print(letter, rider, { ...how, large: true }), ""),
        act("text", () => saveText(letter, rider, how), "")
    );
}

/** The letter that prints for one of these: a refusal in part prints with its grant.
 * @param {Letter} letter @param {Letter[]} letters
 */
const printedOf = (letter, letters) => pairOf(letter, letters)?.grant ?? letter;

/** A letter as it prints, with its buttons, until when it can be appealed, and what is known of an
 * appeal.
 * @param {Letter} letter
 * @param {number} rider
 * @param {{ letters: Letter[], entered: import("../parts/entered.js").Entered[] }} known
 * @returns {Given}
 */
export function letterShown(letter, rider, { letters, entered }) {
    const it = printedOf(letter, letters),
        own = languageOf(rider),
        isEarly = partWaiting(letters)?.letter === letter;
    return [
        it !== letter &&
            part("p", { class: "hint" }, t("cases.part-of-letter", { entry: it.entry })),
        buttonsOf(it, rider, { own, letters, isShort: true, isEarly }),
        isEarly && part("p", { class: "note" }, t("cases.part-waits")),
        previewOf(it, rider, letters),
        appealShown(letter, letters, { rider, entered, appeal: null }),
        part("p", { class: "hint" }, t("cases.other-forms"))
    ];
}

/** The same buttons for a letter that is not of the desk: an application or an appeal that came, a
 * standing that nobody decided.
 * @param {string} decision as words/letter-sentences.js has it
 * @param {number} rider
 * @param {Record<string, string>} more
 */
export function madeLetter(decision, rider, more = {}) {
    const letter = { entry: -1, text: "", date: today(), decision, lines: new Map() },
        how = { own: languageOf(rider), letters: [], more };
    return part("div", { class: "row" },
        button(t("cases.print-made"), () => print(letter, rider, how)),
        button(t("cases.large-made"), () => print(letter, rider, { ...how, large: true })),
        button(t("cases.text-made"), () => saveText(letter, rider, how))
    );
}

/** The language that a rider's letters begin with: the rider's own where the roster names it.
 * @param {number} rider
 */
function firstLanguage(rider) {
    const own = riderOf(rider)?.language ?? "";
    return own in LANGUAGE_NAMES ? own : language();
}

/** The language in which all letters to a rider print, as it was chosen here.
 * @type {Map<number, string>}
 */
const chosen = new Map();

/** The language, or both, in which all letters to a rider print.
 * @param {number} rider
 */
const languageOf = (rider) => chosen.get(rider) ?? firstLanguage(rider);

/** @param {number} rider @param {string} own */
function choose(rider, own) {
    chosen.set(rider, own);
    drawAllAgain();
}

/** The one choice of language for all letters to a rider. It stands wherever one of them prints,
 * and is the same in each place.
 * @param {number} rider @param {string} place its name among those of the page
 */
export function languageChoice(rider, place) {
    const languages = [...Object.entries(LANGUAGE_NAMES), ["both", t("cases.both")]],
        id = `letter-language-${place}`;
    return part("div", { class: "row how tools" },
        part("label", { for: id }, t("cases.print-language")),
        part(
            "select",
            {
                id,
                value: languageOf(rider),
                on: { change: (event) => choose(rider, event.target.value) }
            },
            languages.map(([value, text]) => part("option", { value }, text))
        )
    );
}

/** @param {Letter} letter @param {Letter[]} letters */
export const mayAppeal = (letter, letters) =>
    APPEALABLE.includes(letter.decision) &&
    today() <= lastDay(letter) &&
    !letters.some(({ entry, decision }) => entry > letter.entry && OF_APPEALS.includes(decision));

/** What is offered or known of an appeal against a letter.
 * @param {Letter} letter @param {Letter[]} letters
 * @param {{ rider: number, entered: import("../parts/entered.js").Entered[], standing?:
 * import("../types").Standing | null,
 * denied?: number[], appeal: (() => void) | null }} given standing is that of today, as the desk
 * has it
 */
function appealShown(letter, letters, { rider, entered, standing = null, denied = [], appeal }) {
    const filed = appealedHere(letter, letters, entered);
    if (filed)
        return [
            part("p", { class: "good" },
                t(isOwn() ? "cases.appeal-filed-own" : "cases.appeal-filed", {
                    day: dayIn(language(), filed.since)
                })
            ),
            madeLetter("appeal-received", rider, {
                since: filed.since,
                against: letter.date,
                decision: kindOf(letter, letters).kind,
                suspension: letter.decision === "suspended" ? "yes" : ""
            })
        ];
    if (!mayAppeal(letter, letters)) return null;
    const known = appealKnown(letter, letters, { entered, standing, denied, today: today() }),
        own = isOwn() ? "-own" : "";
    if (known)
        return part("p", { class: "good" },
            t(`cases.appeal-${known.how}${own}`),
            known.how === "denied" &&
                letter.decision === "refused" &&
                ` ${t(`cases.appeal-next${own}`)}`
        );
    return [
        part("p", {},
            t(isOwn() ? "rider.appeal-by" : "cases.appeal-by", {
                day: dayIn(language(), lastDay(letter))
            }),
            appeal && ` ${t(isOwn() ? "cases.appeal-once-own" : "cases.appeal-once")}`
        ),
        appeal &&
            part("div", { class: "row" },
                isOwn()
                    ? button(t("rider.appeal"), appeal, {
                          class: "main",
                          "aria-label": t("cases.appeal-own", { entry: letter.entry })
                      })
                    : button(t("cases.appeal-for", { entry: letter.entry, rider }), appeal, {
                          class: "danger"
                      })
            )
    ];
}

/** What a letter says before its rights, with its buttons. The refusal and the grant of a grant in
 * part are one letter, which stands at the grant.
 * @param {Letter} letter
 * @param {number} rider
 * @param {string} own
 * @param {Letter[]} letters
 * @returns {Given}
 */
function bodyShown(letter, rider, own, letters) {
    const pair = pairOf(letter, letters), name = riderName(rider) && riderLabel(rider);
    if (pair && letter === pair.refusal)
        return part("p", {}, t("cases.part-of-letter", { entry: pair.grant.entry }));
    return [
        meaningIn(
            bodyOf(letter, aboutOf(language(), rider, letters, { name, isYou: isOwn() }))
        ).map((it) => partOf(it, { title: "h4", heading: "h4" })),
        partWaiting(letters)?.letter === letter &&
            !isOwn() &&
            part("p", { class: "note" }, t("cases.part-waits")),
        buttonsOf(letter, rider, { own, letters })
    ];
}

/** @typedef {{ letter: Letter, title: string, isLast: boolean, body: Given, record: Given, appeal:
 * Given, answer: Given }} Pieces of a letter on the page; title has no day
 */

/** A letter as the office reads it.
 * @param {Pieces} pieces @returns {Given}
 */
const inOffice = ({ letter, title, body, record, appeal, answer }) => [
    part("h3", {}, `${dayIn(language(), letter.date)}: ${title}`),
    body,
    record,
    appeal,
    answer
];

/** A rider's letters in order. appeals says whether who reads may enter an appeal, and layout draws
 * each letter.
 * @param {number} rider @param {{ appeals?: boolean, layout?: (pieces: Pieces) => Given }} options
 */
export function lettersFor(rider, { appeals = true, layout = inOffice } = {}) {
    const who = riderLabel(rider),
        read = lettersRead(rider),
        standing = reading(desk.pathOf.standing(rider, today()));
    const screen = makeScreen({
        state: {
            ready: false,
            entered: /** @type {import("../parts/entered.js").Entered[]} */ ([]),
            answerAt: -1,
            denied: /** @type {number[]} */ ([]),
            answer: /** @type {Given} */ (null)
        },
        class: "card",
        draw: ({ ready, entered, answerAt, answer, denied: hadAppeal }) => {
            const own = languageOf(rider),
                reply = ready ? read.reply() : null,
                denied = reply?.denied !== undefined,
                letters = /** @type {Letter[]} */ (reply?.value ?? []);
            return [
                part("h2", {}, isOwn() ? t("cases.letters-own") : t("cases.letters", { who })),
                read.age(),
                part("div", { role: "status" },
                    !reply && t("cases.letters-reading"),
                    denied && denialOf(reply, purposeOf("standing")),
                    reply && !letters.length && !denied && t("cases.letters-none")
                ),
                letters.length > 0 &&
                    !isOwn() && [
                        languageChoice(rider, "letters"),
                        part("p", { class: "hint" }, t("cases.other-forms"))
                    ],
                letters.length > 0 &&
                    part("ol", { class: "letters" },
                        letters.map((letter) =>
                            part("li", { key: letter.entry },
                                layout({
                                    letter,
                                    title: titleOf(language(), letter, letters),
                                    isLast: letter === letters.at(-1),
                                    body: bodyShown(letter, rider, own, letters),
                                    record: part("details", {},
                                        part("summary", {},
                                            t("cases.on-record", { entry: letter.entry })
                                        ),
                                        part(
                                            "pre",
                                            {
                                                lang: "en",
                                                tabindex: 0,
                                                role: "region",
                                                "aria-label": t("cases.on-record", {
                                                    entry: letter.entry
                                                })
                                            },
                                            letter.text
                                        )
                                    ),
                                    appeal: appealShown(letter, letters, {
                                        rider,
                                        entered,
                                        standing: standing.reply()?.value ?? null,
                                        denied: hadAppeal,
                                        appeal: appeals ? () => appeal(letter) : null
                                    }),
                                    answer: part(
                                        "div",
                                        { role: "status", id: `answer-letter-${letter.entry}` },
                                        answerAt === letter.entry && answer
                                    )
                                })
                            )
                        )
                    ),
                letters.length > 0 && isOwn() && languageChoice(rider, "letters")
            ];
        },
    });
    const redraw = async () => screen.change({ entered: await enteredOf(rider) });
    /** @param {Letter} letter */
    async function appeal(letter) {
        const against = {
            title: titleOf(language(), letter, /** @type {Letter[]} */ (read.reply()?.value ?? [])),
            day: dayIn(language(), letter.date),
            who,
            rider
        };
        if (
            !await asked({
                question: t(
                    isOwn() ? "cases.appeal-question-own" : "cases.appeal-question",
                    against
                ),
                detail: t("cases.appeal-detail", against),
                yes: t(isOwn() ? "cases.appeal-yes-own" : "cases.appeal-yes", against),
                danger: true
            })
        )
            return;
        const reply = await enter(rider, { entry: "appeal", against: letter.entry });
        const answer =
            reply.denied !== undefined
                ? denialOf(reply, isOwn() ? "appeal-own" : "appeal")
                : part("p", { class: "good" },
                      t(isOwn() ? "cases.appealed-own" : "cases.appealed", against)
                  );
        await redraw();
        // (within the 60 days the desk takes no second appeal)
        const denied =
            reply.denied === "37.125(g)"
                ? [...screen.state.denied, letter.entry]
                : screen.state.denied;
        screen.change(
            {
                answerAt: letter.entry,
                answer: denied.includes(letter.entry) ? null : answer,
                denied
            },
            { focus: `answer-letter-${letter.entry}` }
        );
    }
    read.watch(screen.element, redraw);
    standing.watch(screen.element, redraw);
    loadOwnName(rider).then(() => screen.change({ ready: true }));
    return { element: screen.element, refresh: read.again };
}
