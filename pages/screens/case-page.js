// One case: its file as a line of entries, what may be decided, and beside it the letter as it will
// be printed.

import { caseSince, queueOf } from "../parts/case-queue.js";
import { draftOf } from "../parts/case-draft.js";
import { timelineOf } from "../parts/case-timeline.js";
import { needsNotice, waits } from "../parts/case-facts.js";
import { dayInWords, today } from "../parts/clock.js";
import { denialOf } from "../parts/denials.js";
import { part } from "../parts/element.js";
import { enteredOf } from "../parts/entered.js";
import { OVERDUE_DAYS, PRESUMED_DAYS } from "../parts/limits.js";
import { partWaiting } from "../parts/partial.js";
import { riderLabel, riderOf } from "../parts/roster.js";
import { makeScreen } from "../parts/screen.js";
import { t } from "../parts/words.js";
import { appealsOf } from "./appeals.js";
import { choiceOf, ofResident, standingOf } from "./cases.js";
import { timelineCard, whoCard } from "./case-file.js";
import { inPart, restOf } from "./in-part.js";
import { languageChoice, letterShown, lettersRead, previewOf } from "./letters.js";
import { suspensionOf } from "./notice.js";
import { fileOf, listsIn, waitingOf, worklistRead } from "./worklist.js";

/** @typedef {import("../parts/letter-text.js").Letter} Letter */
/** @typedef {import("../parts/entered.js").Entered} Entered */
/** @typedef {import("../parts/case-queue.js").Case} Case */
/** @typedef {import("../types").Given} Given */
/** @typedef {"examiner" | "officer"} Reader */
/** @typedef {{ rider: number, letters: Letter[], entered: Entered[], lists:
 * import("./worklist.js").List[] }} Known
 */
/** @typedef {{ kind: string, key?: string, otherwise?: () => import("./cases.js").Otherwise, note?:
 * Given }} Offered key makes another form than that of before, note is what has to be known of it
 */
/** @typedef {{ offered: Offered[], first: string | null, lead: Given }} Options first is chosen
 * where nobody has chosen yet, lead says what is known
 */

/** @param {Known} known @returns {Options} */
function examinersOptions({ rider, letters }) {
    const rest = partWaiting(letters),
        offered = [
            { kind: "grant" },
            { kind: "in-part", otherwise: () => inPart(rider) },
            { kind: "refuse" }
        ];
    if (!rest) return { offered, first: null, lead: null };
    return {
        offered: [
            { kind: "rest", key: String(rest.letter.entry), otherwise: () => restOf(rider, rest) },
            ...offered
        ],
        first: "rest",
        lead: part("p", { class: "note" },
            t("cases.rest-waits", { day: dayInWords(rest.letter.date) })
        )
    };
}

/** @param {Known} known @returns {Options} */
function officersOptions(known) {
    const { letters } = known,
        appeals = appealsOf(known.rider, known),
        suspension = suspensionOf(letters),
        last = String(letters.at(-1)?.entry);
    const isListed = queueOf("suspensions", known.lists, today()).some(
        ({ rider }) => rider === known.rider
    ),
        none = needsNotice(letters) && part("p", { class: "note" }, t("cases.notice-none"));
    // (whether it takes one is the desk's to say, and its reason is shown below the form)
    const note = !isListed && none;
    const offered = [
        ...appeals.kinds.map((kind) => ({ kind, key: last })),
        { kind: "notice-heard", note },
        {
            kind: "suspend",
            key: suspension.key,
            note,
            otherwise: () => ({ fields: suspension.fields() })
        }
    ];
    return {
        offered,
        first: appeals.waiting && !appeals.isHeard ? "heard" : null,
        lead: [appeals.words, suspension.said, isListed && none]
    };
}

/** What waits of this case: as the list has it, or as it was entered since.
 * @param {Reader} reader @param {Known} known @returns {Case[]}
 */
function waitingIn(reader, known) {
    const { rider, lists } = known,
        listed = (/** @type {"examiner" | "officer" | "suspensions"} */ of) =>
            queueOf(of, lists, today()).filter((it) => it.rider === rider);
    const application = waits("complete", known), appeal = waits("appeal", known);
    if (reader === "examiner")
        return application
            ? [
                  listed("examiner").find(({ since }) => since === application.since) ??
                      caseSince(rider, "application", application, today(), PRESUMED_DAYS)
              ]
            : [];
    const appealed =
        appeal &&
        (
            listed("officer").find(
                ({ since, heard }) => since === appeal.since && heard === appeal.heard
            ) ??
            caseSince(rider, appeal.heard ? "appeal" : "hearing", appeal, today(), OVERDUE_DAYS)
        );
    return [...(appealed ? [appealed] : []), ...listed("suspensions")];
}

/** Sentences of a draft that nobody knows before the desk writes the letter: whether an attendant
 * may ride along, where the roster does not say it.
 * @param {number} rider
 */
const unknownOf = (rider) => (riderOf(rider)?.attendant ? [] : ["attendant", "no-attendant"]);

/** The letter of what is being decided, as it will be printed.
 * @param {string} kind @param {Record<string, unknown>} values @param {Known} known
 * @returns {Given}
 */
function draftShown(kind, values, { rider, letters }) {
    const draft = draftOf(kind, values, { date: today(), letters }),
        told = draft?.letter.lines.has("UNTIL") ? unknownOf(rider) : [];
    if (!draft) return part("p", { class: "hint" }, t("cases.letter-none-of"));
    if (draft.letter.lines.has("UNTIL") && !told.length)
        draft.letter.lines.set("ATTENDANT", riderOf(rider)?.attendant ?? "");
    return [
        part("p", { class: "hint" }, t("cases.letter-draft")),
        previewOf(draft.letter, rider, draft.letters, { isDraft: true, leaveOut: told }),
        told.length > 0 && part("p", { class: "hint" }, t("cases.letter-attendant"))
    ];
}

/** The choice of what to decide, with its form.
 * @param {{ rider: number, kind: string | null, kinds: string[], form: HTMLElement | null, lead:
 * Given, note: Given, told: string, answer: string, choose: (kind: string) => void }} given
 */
function decisionCard({ rider, kind, kinds, form, lead, note, told, answer, choose }) {
    const radios = kinds.map((it) =>
        part("label", { key: it },
            part("input", {
                type: "radio",
                name: `decision-${rider}`,
                value: it,
                checked: it === kind,
                on: { change: () => choose(it) }
            }),
            t(`cases.choice-${it}`)
        )
    );
    return part("section", { class: "card decide" },
        part("h2", {}, t("cases.decide-for", { who: riderLabel(rider) })),
        part("div", { role: "status" }, lead),
        part("fieldset", { class: "field choice" },
            part("legend", { class: "unseen" }, t("cases.decision")),
            part("div", { class: "seg" }, radios)
        ),
        part("div", { role: "status", id: answer, tabindex: -1 },
            told && part("p", { class: "good" }, told)
        ),
        kind && form
            ? part("div", { class: "entry", "data-entry": kind, key: `of-${kind}` },
                  part("p", { class: "hint" }, t(`cases.about-${kind}`)),
                  note,
                  form
              )
            : part("p", { class: "hint" }, t("cases.decide-hint"))
    );
}

/** @param {number} rider @param {Reader} reader */
function pageOf(rider, reader) {
    const letters = lettersRead(rider),
        list = worklistRead(),
        standing = standingOf(rider),
        noShows = reader === "officer" ? waitingOf(rider) : null,
        answer = `decided-${rider}`;
    /** @type {import("../parts/screen.js").Screen<{ kind: string | null, reading: number | null,
     * told: string, entered: Entered[] }>}
     */
    const screen = makeScreen({
        state: {
            kind: /** @type {string | null} */ (null),
            reading: /** @type {number | null} */ (null),
            told: "",
            entered: /** @type {Entered[]} */ ([])
        },
        class: "case",
        draw: ({ kind: chosen, reading, told, entered }, { kept, change }) => {
            const reply = letters.reply(),
                known = {
                    rider,
                    letters: /** @type {Letter[]} */ (reply?.value ?? []),
                    entered,
                    lists: listsIn(list.reply())
                };
            const { offered, first, lead } =
                reader === "examiner" ? examinersOptions(known) : officersOptions(known);
            const forms = offered.map(({ kind, key = "", otherwise }) =>
                kept(`${kind} ${key}`, () =>
                    choiceOf(rider, kind, { typed, entered: done }, otherwise?.())
                )
            ),
                kinds = offered.map(({ kind }) => kind);
            const kind =
                chosen && kinds.includes(chosen)
                    ? chosen
                    : told
                    ? null
                    : first ?? forms.find(({ isBegun }) => isBegun)?.kind ?? null,
                form = forms.find((it) => it.kind === kind);
            const last =
                known.letters.find(({ entry }) => entry === reading) ??
                (kind ? undefined : known.letters.at(-1));
            return [
                part("div", { class: "stack case-file" },
                    whoCard(
                        rider,
                        waitingIn(reader, known),
                        reader === "examiner" && partWaiting(known.letters) !== null
                    ),
                    timelineCard(
                        timelineOf({ ...known, file: fileOf(list.reply(), rider), today: today() }),
                        {
                            reading: last?.entry ?? null,
                            deciding: kind !== null,
                            read: (entry) =>
                                change({ reading: entry }, { focus: `letter-of-${rider}` })
                        }
                    ),
                    standing.element
                ),
                part("div", { class: "stack case-form" },
                    decisionCard({
                        rider,
                        kind,
                        kinds,
                        form: form?.element ?? null,
                        lead:
                            reply?.denied !== undefined
                                ? denialOf(reply, "standing")
                                : reply
                                ? lead
                                : t("cases.letters-reading"),
                        note: reply?.value && offered.find((it) => it.kind === kind)?.note,
                        told,
                        answer,
                        choose: (it) => change({ kind: it, reading: null, told: "" })
                    }),
                    noShows
                ),
                part(
                    "section",
                    { class: "stack g2 case-letter", "aria-labelledby": `letter-of-${rider}` },
                    part("div", { class: "between" },
                        part("h2", { id: `letter-of-${rider}`, tabindex: -1 },
                            last ? t("cases.letter-of", { entry: last.entry }) : t("cases.letter")
                        ),
                        languageChoice(rider, "case")
                    ),
                    letters.age(),
                    last
                        ? letterShown(last, rider, known)
                        : kind && form
                        ? draftShown(kind, form.values(), known)
                        : part("p", { class: "hint" },
                              t(reply ? "cases.letter-choose" : "cases.letters-reading")
                          )
                )
            ];
        },
    });
    const redraw = async () => screen.change({ entered: await enteredOf(rider) });
    /** What is typed is read in the letter. */
    function typed() {
        screen.change({ reading: null });
    }
    /** @param {string} kind */
    async function done(kind) {
        // (the form goes with what it decided, so the focus leaves it first)
        screen.change(
            {
                told: t(`cases.done-${kind}`, { who: riderLabel(rider), rider }),
                kind: null,
                reading: null
            },
            { focus: answer }
        );
        await Promise.all([standing.refresh(), letters.again(), redraw()]);
    }
    letters.watch(screen.element, redraw);
    list.watch(screen.element, redraw);
    return screen.element;
}

/** A resident's case, with what its reader may decide.
 * @param {Reader} reader
 */
export const caseOf = (reader) => (/** @type {number} */ rider) =>
    ofResident(rider, () => pageOf(rider, reader), { isNamed: true });
