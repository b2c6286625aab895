// The list of callers whose keys were given from this browser, as a file: callers.csv, which holds
// names beside numbers, and of a key the first digits of its digest alone.

/** @typedef {{ id: number, name?: string, role: string, subject: number, day: string, until?:
 * string, digits?: string }} Caller until: the day on which the key was canceled
 */

export const ROLES = ["rider", "clerk", "examiner", "officer", "dispatcher", "driver", "admin"];
const COLUMNS = ["number", "name", "role", "subject", "from", "to", "digits"],
    HIGHEST = 4_294_967_295,
    DIGITS = 12,
    DAY = /^\d{4}-\d{2}-\d{2}/;

/** The digits by which a key is known without being told.
 * @param {string} digest */
export const digitsOf = (digest) => digest.slice(0, DIGITS);

/** The next number that is in no row; none where the list is empty, since it may be empty because
 * it is kept elsewhere.
 * @param {Caller[]} callers */
export function nextNumber(callers) {
    const highest = Math.max(0, ...callers.map(({ id }) => id));
    return highest && highest < HIGHEST ? highest + 1 : null;
}

/** The rows of the file.
 * @param {Caller[]} callers @returns {(string | number)[][]} */
export const rowsOf = (callers) => [
    COLUMNS,
    ...callers.map(({ id, name = "", role, subject, day, until = "", digits = "" }) => [
        id,
        name,
        role,
        subject || "",
        day,
        until,
        digits
    ])
];

/** What a file holds: of each number the last row, and the rows that are wrong, by their place (the
 * first row names the columns).
 * @param {string[][]} cells @returns {{ callers: Caller[], wrong: number[], isList: boolean }} */
export function callersIn([head = [], ...rows]) {
    const names = head.map((it) => it.toLowerCase()),
        isList = ["number", "role"].every((it) => names.includes(it));
    /** @type {Map<number, Caller>} */
    const callers = new Map();
    /** @type {number[]} */
    const wrong = [];
    rows.forEach((row, at) => {
        const cell = (/** @type {string} */ name) => (row[names.indexOf(name)] ?? "").trim(),
            id = Number(cell("number"));
        // (the record's own last row says how far it goes, and names nobody)
        if (!cell("number") && !cell("role"))
            return;
        if (
            !/^\d{1,10}$/.test(cell("number")) ||
            id < 1 ||
            id > HIGHEST ||
            !ROLES.includes(cell("role"))
        )
            wrong.push(at + 2);
        else
            callers.set(id, {
                id,
                name: cell("name").replace(/^'/, ""),
                role: cell("role"),
                subject: Number(cell("subject")) || 0,
                day: (DAY.exec(cell("from")) ?? [""])[0],
                until: (DAY.exec(cell("to")) ?? [""])[0],
                digits: cell("digits")
            });
    });
    return { callers: [...callers.values()].sort((a, b) => a.id - b.id), wrong, isList };
}

/** The list of this browser with a file's: of a number that both have, the row of the later day
 * stands, with a name where one has it.
 * @param {Caller[]} here @param {Caller[]} file @returns {Caller[]} */
export function joined(here, file) {
    const all = new Map(here.map((it) => [it.id, it]));
    for (const it of file) {
        const mine = all.get(it.id), last = mine && latest(mine) > latest(it) ? mine : it;
        all.set(it.id, { ...last, name: last.name || mine?.name || it.name });
    }
    return [...all.values()].sort((a, b) => a.id - b.id);
}

/** @param {Caller} caller */
const latest = ({ day, until = "" }) => (until > day ? until : day);
