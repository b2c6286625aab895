// What waits in the office: the list that the site makes each night of a copy of the desk's file
// (docs/WORKLIST.md). The desk tells an officer's key no trips, so the missed trips on which an
// officer decides are read here. Of the file only its words come onto the page, never its markup.

import { between, clock, dayInWords, dayShort, isDay, today } from "../parts/clock.js";
import { button, part, table } from "../parts/element.js";
import { conditionsIn } from "../parts/letter-text.js";
import { printParts } from "../parts/paper.js";
import { partsLeft, partsListed, partsTold } from "../parts/partial.js";
import { fileAt, reading } from "../parts/reads.js";
import { riderName } from "../parts/roster.js";
import { offersTold } from "../parts/said.js";
import { makeScreen } from "../parts/screen.js";
import { keepSubject } from "../parts/subject.js";
import { toldRead } from "../parts/told.js";
import { language, t } from "../parts/words.js";
import { denialsToday } from "./denials-today.js";
import { namedIn, seenIn, watchNoShows } from "./notice.js";

/** @typedef {import("../types").Given} Given */
/** @typedef {{ heads: string[], rows: string[][] }} Table a cell that is a day is YYYY-MM-DD */
/** @typedef {{ id: string, title: string, said: string[], tables: Table[] }} List */
/** @typedef {{ said: string[], lists: List[], files: List[], fault?: undefined } | { fault: string
 * }} Found
 */

const FILE = "/staff/worklist.html",
    FILES = "rider-",
    PARTS = "in-part",
    SELDOM = 300_000;
/** Who does the next step of a grant in part, and where.
 * @type {Record<string, { step: string, address: string }>}
 */
const OF_PARTS = {
    clerk: { step: "refused", address: "clerk/file" },
    examiner: { step: "applied", address: "examiner/case" }
};
/** Whose work each list is, and the part of the screen that shows a rider of it.
 * @type {Record<string, Record<string, string>>}
 */
const OWN = {
    clerk: {
        offers: "trips",
        first: "file",
        applications: "file",
        appeals: "file",
        grants: "file"
    },
    examiner: { first: "case", applications: "case", grants: "case" },
    officer: { first: "case", appeals: "case", missed: "case" },
    dispatcher: {
        offers: "riders",
        closed: "riders",
        canceled: "riders",
        suspended: "riders",
        outcomes: "",
        vehicles: ""
    }
};

/** @param {Element | null} it */
const wordsOf = (it) => (it?.textContent ?? "").replace(/\s+/g, " ").trim();

/** What a cell says; a day as it is written for programs.
 * @param {Element} it
 */
const cellOf = (it) => it.querySelector("time")?.getAttribute("datetime") ?? wordsOf(it);

/** A day as it is read, with its year where that is another one.
 * @param {string} day
 */
const dayWords = (day) => (
    day.slice(0, 4) === today().slice(0, 4) ? dayShort(day) : dayInWords(day)
);

/** A text with its days as they are read.
 * @param {string} text
 */
const readable = (text) =>
    text.replace(/\b\d{4}-\d{2}-\d{2}\b/g, (day) => (isDay(day) ? dayWords(day) : day));

/** A cell as it is read, with its days in the reader's language.
 * @param {string} cell
 */
const cellWords = (cell) => (isDay(cell) ? dayWords(cell) : readable(conditionsIn("en", cell)));

/** @param {Element} it @returns {Table} */
const wordsOfTable = (it) => ({
    heads: [...it.querySelectorAll("thead th")].map(wordsOf),
    rows: [...it.querySelectorAll("tbody tr")].map((row) => [...row.children].map(cellOf))
});

/** @param {Element} it @returns {List} */
const listOf = (it) => ({
    id: it.id,
    title: wordsOf(it.querySelector("h2, summary")),
    said: [...it.querySelectorAll("p")].map(wordsOf).filter(Boolean),
    tables: [...it.querySelectorAll("table")].map(wordsOfTable).filter(
        ({ rows }) => rows.length > 0
    )
});

/** @param {string} text @returns {Found} */
function foundIn(text) {
    const { body } = new DOMParser().parseFromString(text, "text/html"),
        main = body.querySelector("main") ?? body;
    const all = (/** @type {string} */ those) => [...main.querySelectorAll(those)];
    return {
        said: all(":scope > p").map(wordsOf),
        lists: all("section[id]").map(listOf),
        files: all(`details[id^="${FILES}"]`).map(listOf)
    };
}

/** What waits, as it is known to all screens. It is made once a night. */
export const worklistRead = () =>
    reading(FILE, {
        period: SELDOM,
        read: async (ask, before) => {
            const told = await fileAt(FILE)(ask, before);
            if (told.silent)
                return before?.fault === undefined && before
                    ? told
                    : { value: { fault: "silent" } };
            return {
                value:
                    told.status === 200
                        ? foundIn(told.value ?? "")
                        : {
                              fault:
                                  told.status === 401 || told.status === 403
                                      ? "caller"
                                      : told.status === 404
                                      ? "none"
                                      : "silent"
                          }
            };
        }
    });

/** @typedef {{ value?: Found } | null | undefined} Told the reply to the list of what waits */

/** The list that was read, null where it is not known.
 * @param {Told} reply
 */
const readIn = (reply) =>
    reply?.value === undefined || reply.value.fault !== undefined ? null : reply.value;

/** The lists of what waits, none where they are not known.
 * @param {Told} reply @returns {List[]}
 */
export const listsIn = (reply) => readIn(reply)?.lists ?? [];

/** The entries of a rider's case file, none where the list does not have it.
 * @param {Told} reply @param {number} rider @returns {Table[]}
 */
export const fileOf = (reply, rider) =>
    readIn(reply)?.files.find(({ id }) => id === `${FILES}${rider}`)?.tables ?? [];

/** Whose eligibility ends soon, and since when a new application is there.
 * @param {Told} reply
 */
export const endingIn = (reply) =>
    listsIn(reply)
        .filter(({ id }) => id === "grants")
        .flatMap(({ tables }) => tables)
        .flatMap(({ rows }) => rows)
        .filter(([rider, , day]) => /^\d+$/.test(rider) && isDay(day ?? ""))
        .map(([rider, name, day, , , applied]) => ({
            rider: Number(rider),
            name,
            day,
            applied: isDay(applied ?? "") ? applied : null
        }));

/** @param {string} fault */
const faultWords = (fault) => part("p", { class: "note" }, t(`cases.waits-${fault}`));

// Grants in part, which wait for a step of somebody else.

/** What is left to do of grants in part: first what who reads does next, then what others do.
 * Nothing where nothing is.
 * @param {string} reader @param {List[]} lists @param {string | null} told @returns {Given}
 */
function partsOf(reader, lists, told) {
    const mine = OF_PARTS[reader],
        left = mine
            ? partsLeft(
                  partsTold(told),
                  partsListed(
                      lists.filter(({ id }) => id === PARTS).flatMap(({ tables }) => tables)
                  )
              )
            : [];
    const shown = left.filter(({ step }) => step === mine.step || reader === "examiner");
    return shown.length > 0 &&
        part("section", { class: "card", key: PARTS },
            part("h2", {}, t("cases.parts")),
            part("p", {}, t("cases.parts-hint")),
            part("ul", { class: "parts-left" },
                shown.map(({ rider, step, day, entry }) =>
                    part("li", { key: `${rider}-${entry}` },
                        part("strong", {}, t(`cases.parts-${step}`, { rider })),
                        " ",
                        riderName(rider) && `${riderName(rider)}, `,
                        t("cases.parts-since", { day: dayShort(day) }),
                        " ",
                        step === mine.step &&
                            button(
                                t("cases.waits-open", { rider }),
                                () => {
                                    keepSubject("rider", rider);
                                    location.hash = mine.address;
                                },
                                { class: "small" }
                            )
                    )
                )
            )
        );
}

// As tables.

/** A rider's number leads to the part that shows the rider.
 * @param {string} rider @param {string} address
 */
const riderCell = (rider, address) => (
    address && /^\d+$/.test(rider)
        ? button(
              rider,
              () => {
                  keepSubject("rider", Number(rider));
                  location.hash = address;
              },
              { class: "small", "aria-label": t("cases.waits-open", { rider }) }
          )
        : cellWords(rider)
);

/** @param {List} list @param {string} [address] */
const tablesOf = ({ title, tables }, address = "") =>
    tables.map(({ heads, rows }) =>
        table(
            title,
            heads.map((head, at) => ({
                head,
                cell: (/** @type {string[]} */ row) => (
                    at === 0 ? riderCell(row[0], address) : cellWords(row[at] ?? "")
                )
            })),
            rows
        )
    );

/** @param {List} list @param {string} [address] */
const card = (list, address) =>
    part("section", { class: "card listed", key: list.id, lang: "en" },
        part("h2", {}, list.title),
        list.said.map((it) => part("p", { class: "soft s" }, readable(it))),
        tablesOf(list, address)
    );

/** @param {Table} table */
const paperOf = ({ heads, rows }) =>
    part("table", {},
        part("thead", {}, part("tr", {}, heads.map((it) => part("th", {}, it)))),
        part("tbody", {},
            rows.map((row) => part("tr", {}, row.map((it) => part("td", {}, cellWords(it)))))
        )
    );

/** @param {List[]} lists @param {string[]} said */
const print = (lists, said) =>
    printParts(t("cases.waits"), [
        said.map((it) => part("p", {}, readable(it))),
        lists.map((list) =>
            part("section", {},
                part("h2", {}, list.title),
                list.said.map((it) => part("p", {}, readable(it))),
                list.tables.map(paperOf)
            )
        )
    ]);

/** The offers that nobody has answered, as the site's log has them at this moment: the night's list
 * knows none of today's.
 * @param {string} address
 */
function offersNow(address) {
    const offers = offersTold();
    return offers.length > 0 &&
        part("section", { class: "card", key: "offers-now" },
            part("h2", {}, t("cases.waits-offers")),
            part("p", {}, t("cases.waits-offers-hint")),
            toldRead().age(),
            table(
                t("cases.waits-offers"),
                [
                    {
                        head: t("cases.waits-rider"),
                        cell: (it) => riderCell(String(it.rider), address)
                    },
                    { head: t("cases.waits-name"), cell: (it) => riderName(it.rider) ?? "" },
                    { head: t("booking.day"), cell: (it) => dayShort(it.day) },
                    {
                        head: t("cases.waits-asked"),
                        cell: (it) => t(`sent.said-${it.mode}`, { time: clock(it.minute) })
                    },
                    {
                        head: t("cases.waits-offered"),
                        cell: (it) => between(it.from ?? 0, it.to ?? 0)
                    },
                    { head: t("booking.trip"), cell: (it) => String(it.trip) }
                ],
                offers,
                { rowKey: ({ trip }) => trip }
            )
        );
}

/** What waits: the lists of who reads first, the others folded below.
 * @param {"clerk" | "examiner" | "officer" | "dispatcher"} reader
 */
export function worklist(reader) {
    const own = OWN[reader],
        address = (/** @type {string} */ id) => own[id] && `${reader}/${own[id]}`,
        list = worklistRead(),
        told = toldRead();
    const screen = makeScreen({
        state: {},
        draw: (_, { change }) => {
            const found = /** @type {Found | null} */ (list.reply()?.value ?? null),
                parts = partsOf(reader, listsIn(list.reply()), told.reply()?.value ?? null);
            const live = own.offers && told.reply()?.value,
                now = [
                    live && offersNow(address("offers")),
                    live && reader === "dispatcher" && denialsToday(() => change({})),
                    parts
                ];
            if (!found) return [now, part("p", { role: "status" }, t("cases.waits-reading"))];
            if (found.fault !== undefined)
                return [
                    now,
                    faultWords(found.fault),
                    part("div", { class: "row" },
                        button(t("cases.waits-again"), () => list.again())
                    )
                ];
            const { said } = found,
                lists = found.lists.filter(({ id }) => !live || id !== "offers"),
                others = lists.filter(
                    ({ id }) => !(id in own) && !(id === PARTS && reader in OF_PARTS)
                );
            return [
                now,
                list.age(),
                part("div", { lang: "en", class: "soft s" },
                    said.map((it) => part("p", {}, readable(it)))
                ),
                lists.filter(({ id }) => id in own).map((it) => card(it, address(it.id))),
                others.length > 0 &&
                    part("details", {},
                        part("summary", {}, t("cases.waits-others")),
                        part("div", { class: "stack" }, others.map((it) => card(it)))
                    ),
                lists.length > 0 &&
                    part("div", { class: "row" },
                        button(t("cases.waits-print"), () => print(lists, said))
                    )
            ];
        }
    });
    screen.onNewDay(() => list.again());
    list.watch(screen.element, () => screen.change({}));
    if (own.offers || reader in OF_PARTS) told.watch(screen.element, () => screen.change({}));
    return screen.element;
}

/** The rows of a list that are of one rider.
 * @param {List} list @param {number} rider @returns {List}
 */
const rowsOf = (list, rider) => ({
    ...list,
    tables: list.tables.map(({ heads, rows }) => ({
        heads,
        rows: rows.filter(([number]) => number === String(rider))
    })).filter(({ rows }) => rows.length > 0)
});

/** What the list says of one rider: how many trips were missed, and the case file with all that an
 * officer decides on.
 * @param {number} rider
 */
export function waitingOf(rider) {
    const list = worklistRead();
    const screen = makeScreen({
        state: {},
        class: "card listed",
        draw: () => {
            const found = /** @type {Found | null} */ (list.reply()?.value ?? null);
            const head = [
                part("h2", {}, t("cases.missed-of", { rider })),
                part("p", { class: "hint" }, t("cases.missed-hint"))
            ];
            if (!found) return [head, part("p", { role: "status" }, t("cases.waits-reading"))];
            if (found.fault !== undefined) return [head, faultWords(found.fault)];
            const shown = [
                ...found.lists
                    .filter(({ id }) => id === "missed")
                    .map((list) => rowsOf(list, rider))
                    .filter(({ tables }) => tables.length > 0),
                ...found.files.filter(({ id }) => id === `${FILES}${rider}`)
            ];
            return [
                head,
                part("div", { lang: "en", class: "soft s" },
                    found.said.map((it) => part("p", {}, readable(it)))
                ),
                !shown.length && part("p", {}, t("cases.missed-none")),
                shown.map((list) =>
                    part("section", { key: list.id, lang: "en" },
                        part("h3", {}, list.title),
                        list.said.map((it) =>
                            part("p", {}, readable(namedIn(it, rider)), seenIn(it))
                        ),
                        list.id === "missed"
                            ? tablesOf(list)
                            : part("details", {},
                                  part("summary", { lang: language() }, t("cases.file-table")),
                                  tablesOf(list)
                              )
                    )
                )
            ];
        }
    });
    list.watch(screen.element, () => screen.change({}));
    watchNoShows(screen.element, () => screen.change({}));
    return screen.element;
}
