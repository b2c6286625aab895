// The queue of an examiner and of an officer, where no rider is chosen yet: who waits, for what,
// how many days are left, and what happens if nobody decides.

import { caseNow, inOrder, isThisWeek, queueOf, stepOf, urgencyOf } from "../parts/case-queue.js";
import { today } from "../parts/clock.js";
import { button, part, table } from "../parts/element.js";
import { enteredOf } from "../parts/entered.js";
import { icon } from "../parts/icons.js";
import { printParts } from "../parts/paper.js";
import { riderName } from "../parts/roster.js";
import { makeScreen } from "../parts/screen.js";
import { t } from "../parts/words.js";
import { clockbar, dayOf, leftWords } from "./case-file.js";
import { endingIn, fileOf, listsIn, worklistRead } from "./worklist.js";

/** @typedef {import("./worklist.js").Told} Told */
/** @typedef {import("../parts/case-queue.js").Case} Case */
/** @typedef {import("../parts/entered.js").Entered} Entered */
/** @typedef {"examiner" | "officer" | "suspensions"} Queue */
/** @typedef {import("../types").Given} Given */
/** @typedef {{ head: Given, cell: (it: Case) => Given, paper?: (it: Case) => Given }} Column paper
 * is what stands in print instead
 */

/** @param {Case} it */
const nameOf = ({ rider, name }) => riderName(rider) || name;

/** From when on the rider may ride, if nobody decides.
 * @param {Case} it
 */
function ridesFrom({ due, left, against }) {
    if (due === null) return against?.kind === "suspend" ? t("cases.queue-rides-now") : "";
    if (left === 0) return t("cases.queue-rides-today");
    return left !== null && left < 0
        ? t("cases.queue-rides-since", { day: dayOf(due) })
        : dayOf(due);
}

/** What an appeal is against, with the day of that decision where the night's list has the case
 * file.
 * @param {Case} it @param {Told} reply
 */
function againstWords({ against, rider }, reply) {
    const day =
        against &&
        fileOf(reply, rider).flatMap(({ rows }) => rows).find(
            ([entry]) => Number(entry) === against.entry
        )?.[1];
    return against ? t(`cases.queue-against-${against.kind}`, { day: day ? dayOf(day) : "" }) : "";
}

/** @param {Case} it */
function lastEntry({ kind, since, heard }) {
    if (kind === "application")
        return since ? t("cases.queue-complete", { day: dayOf(since) }) : "";
    return [
        since && t("cases.queue-appealed", { day: dayOf(since) }),
        heard && t("cases.queue-heard", { day: dayOf(heard) })
    ].filter(Boolean).join(" ");
}

/** @param {Case} it @returns {Given} */
function stepShown({ step }) {
    const { name, day } = stepOf(step),
        words = name === "other" ? step : t(`cases.step-${name}`, { day: day ? dayOf(day) : "" });
    return name === "notice"
        ? part("span", { class: "chip warn" }, words)
        : name === "heard"
        ? part("span", { class: "chip" }, words)
        : words;
}

/** @param {Case} it */
const figuresWords = ({ figures }) => (
    figures
        ? t("cases.queue-figures", {
              ...figures,
              percent: Math.floor(100 * figures.missed / Math.max(1, figures.ended))
          })
        : ""
);

/** What is next in a case.
 * @param {Case} it
 */
const nextOf = ({ kind, step }) =>
    t(
        kind === "hearing" || (kind === "missed" && stepOf(step).name === "notice")
            ? "cases.next-hear"
            : kind === "missed" && stepOf(step).name === "none"
            ? "cases.next-review"
            : "cases.next-decide"
    );

/** The columns of a queue.
 * @param {Queue} queue
 * @param {Told} reply what was read of the list
 * @param {(rider: number) => void} open
 * @returns {Column[]}
 */
function columnsOf(queue, reply, open) {
    const isUrgent = (/** @type {Case} */ it) =>
        ["past", "near"].includes(urgencyOf(it)) ||
        (it.kind === "missed" && stepOf(it.step).name === "none");
    const rider = {
        head: t("cases.waits-rider"),
        cell: (/** @type {Case} */ it) => [
            nameOf(it),
            " ",
            part("span", { class: "soft num" }, String(it.rider))
        ]
    };
    const go = {
        head: part("span", { class: "unseen" }, t("cases.queue-next")),
        paper: nextOf,
        cell: (/** @type {Case} */ it) =>
            button(nextOf(it), () => open(it.rider), {
                class: isUrgent(it) ? "small main" : "small",
                "aria-label": t("cases.next-of", {
                    next: nextOf(it),
                    rider: it.rider,
                    name: nameOf(it)
                })
            })
    };
    if (queue === "suspensions")
        return [
            rider,
            { head: t("cases.queue-no-shows"), cell: figuresWords },
            { head: t("cases.queue-step"), cell: stepShown },
            go
        ];
    const days = {
        head: t(queue === "examiner" ? "cases.queue-clock-21" : "cases.queue-clock-30"),
        cell: clockbar,
        paper: (/** @type {Case} */ it) => (
            it.kind === "hearing" ? t("cases.not-heard") : leftWords(it)
        )
    };
    return [
        rider,
        {
            head: t(queue === "examiner" ? "cases.queue-case" : "cases.queue-against"),
            cell: (it) => (
                queue === "examiner" ? t("cases.queue-application") : againstWords(it, reply)
            )
        },
        days,
        { head: t("cases.queue-if"), cell: ridesFrom },
        {
            head: t("cases.queue-last"),
            cell: (it) => part("span", { class: "soft" }, lastEntry(it))
        },
        go
    ];
}

/** @param {Queue} queue
 * @param {Case[]} cases
 * @param {Told} reply
 * @param {(rider: number) => void} open
 */
const tableOf = (queue, cases, reply, open) =>
    table(
        t(`cases.queue-of-${queue}`, { count: cases.length }),
        columnsOf(queue, reply, open),
        cases,
        { class: "table listy", rowKey: ({ rider, kind }) => `${rider} ${kind}` }
    );

/** @param {Queue[]} queues @param {Record<string, Case[]>} cases @param {Told} reply */
function print(queues, cases, reply) {
    const paper = (/** @type {Queue} */ queue) => {
        const columns = columnsOf(queue, reply, () => {});
        return part("section", {},
            part("h2", {}, t(`cases.queue-of-${queue}`, { count: cases[queue].length })),
            part("table", {},
                part("thead", {}, part("tr", {}, columns.map(({ head }) => part("th", {}, head)))),
                part("tbody", {},
                    cases[queue].map((it) =>
                        part("tr", {},
                            columns.map(({ cell, paper: own = cell }) => part("td", {}, own(it)))
                        )
                    )
                )
            )
        );
    };
    printParts(t("cases.cases"), queues.map(paper));
}

/** Whose eligibility ends soon: who has not applied again loses the ride on that day.
 * @param {Told} reply @param {(rider: number) => void} open
 */
function endingCard(reply, open) {
    const ending = endingIn(reply);
    return ending.length > 0 &&
        part("section", { class: "card flush" },
            part("div", { class: "head" },
                part("h2", {}, t("cases.ending")),
                part("span", { class: "count" }, String(ending.length))
            ),
            part("ul", { class: "link-list" },
                ending.map(({ rider, name, day, applied }) =>
                    part("li", { key: rider },
                        button(
                            [
                                part("span", { class: "grow" },
                                    part("b", {}, riderName(rider) || name),
                                    " ",
                                    part("span", { class: "soft num" }, String(rider)),
                                    part("small", {},
                                        applied
                                            ? t("cases.ending-applied", { day: dayOf(applied) })
                                            : t("cases.ending-none")
                                    )
                                ),
                                part("span", { class: "num s" }, dayOf(day))
                            ],
                            () => open(rider)
                        )
                    )
                )
            )
        );
}

/** One queue as a card, with the rule that it goes by.
 * @param {Queue} queue
 * @param {Case[]} cases
 * @param {Told} reply
 * @param {(rider: number) => void} open
 */
const queueCard = (queue, cases, reply, open) =>
    part("section", { class: "card flush", key: queue },
        part("div", { class: "head" },
            part("h2", {}, t(`cases.queue-of-${queue}`, { count: cases.length })),
            part("small", {}, t(`cases.queue-rule-${queue}`))
        ),
        cases.length > 0 && tableOf(queue, cases, reply, open)
    );

/** The cases that wait for a reader. open(rider) shows one.
 * @param {"examiner" | "officer"} reader @param {(rider: number) => void} open
 */
export function caseQueue(reader, open) {
    const list = worklistRead(),
        queues = /** @type {Queue[]} */ (
            reader === "examiner" ? ["examiner"] : ["officer", "suspensions"]
        );
    const screen = makeScreen({
        state: { isWeek: false, entered: /** @type {Map<number, Entered[]> | null} */ (null) },
        class: "stack case-queue",
        draw: ({ isWeek, entered }, { change }) => {
            const reply = entered && list.reply(), fault = reply?.value?.fault;
            if (!reply || fault !== undefined)
                return part("section", { class: "card" },
                    reply
                        ? part("p", { class: "note" }, t(`cases.waits-${fault}`))
                        : part("p", { role: "status" }, t("cases.waits-reading"))
                );
            const listed = queues.map((queue) => queueOf(queue, listsIn(reply), today())),
                now = listed.map((cases) =>
                    inOrder(
                        cases.flatMap(
                            (it) => caseNow(it, entered.get(it.rider) ?? [], today()) ?? []
                        )
                    )
                );
            const all = Object.fromEntries(queues.map((queue, at) => [queue, now[at]])),
                decided = listed.flat().length - now.flat().length,
                week = all[queues[0]].filter(isThisWeek),
                shown = isWeek ? { ...all, [queues[0]]: week } : all;
            const filter = (
                /** @type {boolean} */ on,
                /** @type {string} */ words,
                /** @type {number} */ count
            ) =>
                button(
                    [words, " ", part("b", { class: "num" }, String(count))],
                    () => change({ isWeek: on }),
                    { class: "filter", "aria-pressed": String(isWeek === on) }
                );
            return [
                part("div", { class: "between tools" },
                    part("p", { class: "hint" }, t("cases.queue-hint")),
                    part("div", { class: "row" },
                        filter(false, t("cases.queue-all"), all[queues[0]].length),
                        filter(true, t("cases.queue-week"), week.length),
                        button(
                            [icon("printer"), " ", t("cases.queue-print")],
                            () => print(queues, shown, reply),
                            { class: "small" }
                        )
                    )
                ),
                list.age(),
                decided > 0 &&
                    part("p", { class: "hint", role: "status" },
                        t("cases.queue-decided", { count: decided })
                    ),
                queues.map((queue) => queueCard(queue, shown[queue], reply, open)),
                reader === "examiner" && endingCard(reply, open)
            ];
        }
    });
    screen.onNewDay(() => list.again());
    // (what was decided from here waits no more, though it is on the night's list)
    list.watch(screen.element, async () => {
        const riders = [
            ...new Set(
                queues.flatMap((queue) => queueOf(queue, listsIn(list.reply()), today())).map(
                    ({ rider }) => rider
                )
            )
        ];
        screen.change({
            entered: new Map(
                await Promise.all(
                    riders.map(async (rider) => /** @type {[number, Entered[]]} */ ([
                        rider,
                        await enteredOf(rider)
                    ]))
                )
            )
        });
    });
    return screen.element;
}
