// The names of a phone's copies of manifests: which there are, and of which days they are.

/** @param {number} vehicle @param {string} day */
export const copyName = (vehicle, day) => `manifest ${vehicle} ${day}`;

/** @param {string} name */
export const isManifest = (name) => name.startsWith("manifest ");

/** Whether a copy is a manifest of a day before this one, of which nothing is open.
 * @param {string} name
 * @param {string} first a day, as "2025-03-11"
 * @param {string[]} [open] vehicles and days, as "1 2025-03-11"
 */
export function isOver(name, first, open = []) {
    const [, vehicle, day] = /^manifest (\d+) (\S+)$/.exec(name) ?? [];
    return Boolean(day) && day < first && !open.includes(`${vehicle} ${day}`);
}
