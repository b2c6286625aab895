// What follows from a rider's letters, from what was entered here and from the list of what waits.
// Nothing here knows of a page or of the desk.

/** @typedef {{ entry: number, date: string, decision: string, lines: Map<string, string> }} Letter
 * lines are those of the desk's text by their names
 */
/** @typedef {import("./entered.js").Entered} Entered */
/** @typedef {{ heads: string[], rows: string[][] }} Table a list of what waits, as the site's page
 * has it; a day is YYYY-MM-DD
 */
/** @typedef {{ since: string, heard: string | null, against: number | null }} Waits since is a day,
 * heard the day of the hearing, against the letter's place
 */

const ANSWERS = {
    complete: { letters: ["granted", "refused"], entries: ["grant", "refuse"] },
    appeal: {
        letters: ["appeal granted", "appeal denied", "suspension overturned"],
        entries: ["appeal-granted", "appeal-denied", "overturn"]
    }
};
/** The list of what waits, and the head of its column of days, for each kind of entry. */
const LISTS = {
    complete: { list: "applications", day: /^complete on$/i },
    appeal: { list: "appeals", day: /^filed on$/i }
};
const HEARD = /^heard on$/i, DAY = /^\d{4}-\d{2}-\d{2}$/;

/** The letter of the suspension that holds on a day, or null.
 * @template {Letter} Kind @param {Kind[]} letters @param {string} day @returns {Kind | null}
 */
export function suspendingOn(letters, day) {
    const last = letters.filter(
        ({ decision, lines }) =>
            decision === "suspended" &&
            (lines.get("FROM") ?? "") <= day &&
            day <= (lines.get("TO") ?? "")
    ).at(-1);
    return last &&
        !letters.some(
            ({ entry, decision }) => entry > last.entry && decision === "suspension overturned"
        )
        ? last
        : null;
}

/** The days of the suspension that holds on a day, or null.
 * @param {Letter[]} letters @param {string} day @returns {{ from: string, to: string } | null}
 */
export function suspensionOn(letters, day) {
    const letter = suspendingOn(letters, day);
    return letter && { from: letter.lines.get("FROM") ?? "", to: letter.lines.get("TO") ?? "" };
}

/** The refusals and suspensions that no decision of an appeal has answered.
 * @template {Letter} Kind @param {Kind[]} letters @returns {Kind[]}
 */
export const appealable = (letters) =>
    letters.filter(
        ({ entry, decision }) =>
            (decision === "refused" || decision === "suspended") &&
            !letters.some((it) => it.entry > entry && ANSWERS.appeal.letters.includes(it.decision))
    );

/** Whether a suspension still takes its notice: there is none, or one that a suspension has
 * answered.
 * @param {Letter[]} letters
 */
export const needsNotice = (letters) =>
    letters
        .filter(({ decision }) => ["notice", "suspended"].includes(decision))
        .at(-1)
        ?.decision !==
    "notice";

/** What an officer may enter of an appeal, by the decisions that it can be against.
 * @param {Letter[]} open those that may be appealed
 * @param {number | null} against the one that it is against, where that is known
 * @param {boolean} isHeard
 * @returns {string[]}
 */
export function entriesOfAppeals(open, against, isHeard) {
    const those = open.filter(({ entry }) => against === null || entry === against),
        has = (/** @type {string} */ decision) => those.some((it) => it.decision === decision);
    if (!those.length) return [];
    return [
        ...(isHeard ? [] : ["heard"]),
        ...(has("refused") ? ["appeal-granted"] : []),
        ...(has("suspended") ? ["overturn"] : []),
        "appeal-denied"
    ];
}

/** @param {"complete" | "appeal"} kind
 * @param {Letter[]} letters
 * @param {Entered[]} entered
 * @returns {Waits | null}
 */
function enteredHere(kind, letters, entered) {
    const last = entered.filter(({ entry }) => entry === kind).at(-1), answers = ANSWERS[kind];
    if (!last) return null;
    const isAnswered =
        letters.some(
            ({ entry, decision }) => entry > last.position && answers.letters.includes(decision)
        ) ||
        entered.some(
            ({ entry, position }) => position > last.position && answers.entries.includes(entry)
        );
    const heard = entered.find(
        ({ entry, position }) => entry === "heard" && position > last.position
    );
    return isAnswered
        ? null
        : { since: last.day, heard: heard?.day ?? null, against: last.against ?? null };
}

/** @param {"complete" | "appeal"} kind
 * @param {Letter[]} letters
 * @param {Table[]} tables
 * @param {number} rider
 * @returns {Waits | null}
 */
function onTheList(kind, letters, tables, rider) {
    for (const { heads, rows } of tables) {
        const row = rows.find(([number]) => number === String(rider)),
            at = heads.findIndex((head) => LISTS[kind].day.test(head)),
            since = row?.[at] ?? "";
        if (!row || !DAY.test(since)) continue;
        // (the list is of last night: a letter of that day or later may have answered it since)
        const isAnswered = letters.some(
            ({ date, decision }) => date > since && ANSWERS[kind].letters.includes(decision)
        );
        const heard = row[heads.findIndex((head) => HEARD.test(head))] ?? "";
        return isAnswered ? null : { since, heard: DAY.test(heard) ? heard : null, against: null };
    }
    return null;
}

/** Whether an application or an appeal waits, and since when: as this browser entered it, or as the
 * list has it.
 * @param {"complete" | "appeal"} kind
 * @param {{ rider: number, letters: Letter[], entered: Entered[], lists: { id: string, tables:
 * Table[] }[] }} known
 * @returns {Waits | null}
 */
export function waits(kind, { rider, letters, entered, lists }) {
    const listed = lists.filter(({ id }) => id === LISTS[kind].list).flatMap(
        ({ tables }) => tables
    );
    return enteredHere(kind, letters, entered) ?? onTheList(kind, letters, listed, rider);
}

/** Whether an appeal against a letter was entered here and waits.
 * @param {Letter} letter
 * @param {Letter[]} letters
 * @param {Entered[]} entered
 * @returns {Waits | null}
 */
export function appealedHere(letter, letters, entered) {
    return enteredHere(
        "appeal",
        letters,
        entered.filter(({ entry, against }) => entry !== "appeal" || against === letter.entry)
    );
}

/** What is known of an appeal against a letter that may be appealed: that it was entered here
 * ("here", with its day), that its 30 days after the hearing are over ("overdue"), that the rider
 * rides on in the days of the suspension ("rides"), or that the desk took no second one ("denied").
 * Null where nothing is.
 * @param {Letter} letter @param {Letter[]} letters
 * @param {{ entered: Entered[], standing: { standing: string, suspended: boolean } | null, denied:
 * number[], today: string }} known denied are the places of letters whose appeal was denied within
 * their 60 days
 * @returns {{ how: "here" | "overdue" | "rides" | "denied", since: string } | null}
 */
export function appealKnown(letter, letters, { entered, standing, denied, today }) {
    const filed = appealedHere(letter, letters, entered),
        isLastOpen = appealable(letters).at(-1)?.entry === letter.entry;
    if (filed) return { how: "here", since: filed.since };
    if (isLastOpen && letter.decision === "refused" && standing?.standing === "appeal-overdue")
        return { how: "overdue", since: "" };
    if (
        isLastOpen &&
        standing?.suspended === false &&
        suspendingOn(letters, today)?.entry === letter.entry
    )
        return { how: "rides", since: "" };
    return denied.includes(letter.entry) ? { how: "denied", since: "" } : null;
}
