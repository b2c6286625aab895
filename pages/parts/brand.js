// An agency's own mark and color, as agency.json has them: bin/site-files has looked whether a text
// in that color can be read on each ground.

/** @typedef {{ accent: string, accent_2: string, on_accent: string, accent_tint: string,
 * accent_line: string }} Colors each as #rrggbb
 */
/** @typedef {{ mark?: string, light?: Colors, dark?: Colors }} Brand */

const COLOR = /^#[0-9a-f]{6}$/i,
    TOKENS = ["accent", "accent_2", "on_accent", "accent_tint", "accent_line"],
    LONGEST_MARK = 3;
const THEMES = /** @type {const} */ (["light", "dark"]);

/** @param {unknown} it @returns {it is Record<string, unknown>} */
const isObject = (it) => typeof it === "object" && it !== null && !Array.isArray(it);

/** @param {unknown} it @returns {it is Colors} */
const isColors = (it) => isObject(it) && TOKENS.every((name) => COLOR.test(String(it[name])));

/** Whether these are a mark and colors as the site serves them.
 * @param {unknown} it @returns {it is Brand}
 */
export const isBrand = (it) =>
    isObject(it) &&
    (
        it.mark === undefined ||
        (
            typeof it.mark === "string" &&
            it.mark.trim() !== "" &&
            [...it.mark].length <= LONGEST_MARK
        )
    ) &&
    THEMES.every((theme) => it[theme] === undefined || isColors(it[theme]));

/** The style of these colors, for a screen alone: paper stays black. A theme without colors keeps
 * those of the pages.
 * @param {Brand} brand
 */
export function styleOfBrand(brand) {
    const rules = THEMES.flatMap((theme) => {
        const colors = /** @type {Record<string, string> | undefined} */ (brand[theme]);
        if (!colors) return [];
        const tokens = TOKENS.map((name) => `--${name.replace("_", "-")}: ${colors[name]};`);
        return [`@media (prefers-color-scheme: ${theme}) { :root { ${tokens.join(" ")} } }`];
    });
    return rules.length ? `@media screen { ${rules.join(" ")} }` : "";
}

/** The letters of the mark: the agency's own, or the first ones of its name.
 * @param {Brand} brand @param {string} name
 */
export const markOf = ({ mark }, name) =>
    mark ??
    name
        .split(/\s+/)
        .filter(Boolean)
        .slice(0, 2)
        .map((word) => [...word][0].toUpperCase())
        .join("");

/** @type {CSSStyleSheet | null} */
let sheet = null;

/** Gives the pages this color, or takes the last one away.
 * @param {Brand} brand
 */
export function showBrand(brand) {
    const style = styleOfBrand(brand);
    if (!style && !sheet) return;
    if (!sheet) {
        sheet = new CSSStyleSheet();
        document.adoptedStyleSheets = [...document.adoptedStyleSheets, sheet];
    }
    sheet.replaceSync(style);
}
