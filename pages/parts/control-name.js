// The name by which a draft knows a control. Nothing here knows of a page.

/** A control's name, the same each time its form is made: what is counted up in it is left out. A
 * tick's own name counts nothing up: the number in it says which of its group it is.
 * @param {{ type: string, name: string, id: string, value: string }} control
 */
export const controlName = ({ type, name, id, value }) =>
    (type === "checkbox" && name) ||
    `${name || id}${type === "radio" ? ` ${value}` : ""}`.replace(/^([a-z]+)-\d+(?=-|$| )/i, "$1");
