// The arrow keys in the table of trips: up and down go from row to row, in the same column where it
// has something to press.

const WAYS = /** @type {Record<string, number>} */ ({ ArrowDown: 1, ArrowUp: -1 });

/** @param {KeyboardEvent} event */
const wayOf = ({ key, ctrlKey, metaKey, altKey, shiftKey }) => (
    ctrlKey || metaKey || altKey || shiftKey ? 0 : WAYS[key] ?? 0
);

/** What can be pressed in the nearest row from a place on, or null. A row without anything to press
 * is passed over.
 * @param {Element[]} rows
 * @param {number} from
 * @param {number} way
 * @param {number} column
 * @returns {HTMLElement | null}
 */
function controlFrom(rows, from, way, column) {
    for (let at = from; rows[at]; at += way) {
        const it =
            rows[at].children[column]?.querySelector("button") ?? rows[at].querySelector("button");
        if (it instanceof HTMLElement) return it;
    }
    return null;
}

/** From the search the down key leads to the first row.
 * @param {KeyboardEvent} event
 */
export function toFirstRow(event) {
    const rows = [...document.querySelectorAll(".day-trips tbody tr")],
        goal = wayOf(event) > 0 ? controlFrom(rows, 0, 1, 0) : null;
    if (!goal) return;
    event.preventDefault();
    goal.focus();
}

/** From row to row. Above the first one is the search; below the last one that is drawn, more are
 * drawn.
 * @param {KeyboardEvent} event
 * @param {{ search: string, more: (() => void) | null }} around the id of the search, and what
 * draws the rest
 */
export function fromTripToTrip(event, { search, more }) {
    const target = /** @type {Element} */ (event.target),
        row = target.closest("tbody tr"),
        body = row?.parentElement,
        way = wayOf(event);
    if (!row || !body || !way) return;
    const here = [...body.children].indexOf(row),
        column = [...row.children].findIndex((it) => it.contains(target));
    if (way > 0 && more && !controlFrom([...body.children], here + 1, 1, column)) more();
    const goal =
        controlFrom([...body.children], here + way, way, column) ??
        (way < 0 ? document.getElementById(search) : null);
    event.preventDefault();
    goal?.focus();
}
