// Files that a dispatcher opens in a spreadsheet: the desk's export with clock times, dollars and
// names, and lists of whom to call.

import { vehicleName } from "../parts/agency.js";
import { clock } from "../parts/clock.js";
import { save } from "../parts/element.js";
import { riderName, riderOf } from "../parts/roster.js";
import { endsOf } from "../parts/stop-where.js";
import { t } from "../parts/words.js";

/** A spreadsheet reads a file of UTF-8 as such where this sign leads it. */
const MARK = "\ufeff";

/** A cell of CSV (RFC 4180). What a spreadsheet would take for a formula is led by an apostrophe.
 * @param {string | number} value
 */
function cell(value) {
    const text =
        typeof value === "string" && /^[=+\-@\t\r]/.test(value) ? `'${value}` : String(value);
    return /[",\r\n]/.test(text) ? `"${text.replaceAll('"', '""')}"` : text;
}

/** @param {(string | number)[][]} rows */
const csvOf = (rows) => `${MARK}${rows.map((row) => row.map(cell).join(",")).join("\r\n")}\r\n`;

/** @param {string} name @param {(string | number)[][]} rows */
export const saveCsv = (name, rows) => save(name, "text/csv;charset=utf-8", csvOf(rows));

/** @param {number} cents */
const money = (cents) => (cents / 100).toFixed(2);

/** The trips of a day with clock times, dollars and names.
 * @param {import("../parts/texts.js").Row[]} rows
 */
export function spreadsheetOf(rows) {
    const heads = [
        "trip", "rider", "name", "telephone", "day", "wished", "window-from", "window-to", "from",
        "to", "vehicle", "due", "state"
    ].map((name) => t(`dispatcher.csv-${name}`));
    return [
        heads,
        ...rows.map((it) => [
            it.trip,
            it.rider,
            riderName(it.rider),
            riderOf(it.rider)?.telephone ?? "",
            it.day,
            clock(it.wish),
            clock(it.window_from),
            clock(it.window_to),
            endsOf(it).from,
            endsOf(it).to,
            vehicleName(it.vehicle),
            money(it.due),
            t(`booking.${it.status}`)
        ])
    ];
}
