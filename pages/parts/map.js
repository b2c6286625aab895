// The agency's plane to scale: fixed routes with their corridors, places with their numbers and
// names. Its table says the same.

import { corridorsOf, places as allPlaces, routeName, routes as allRoutes } from "./agency.js";
import { draw, make, button, part, say, table } from "./element.js";
import { counted, t } from "./words.js";

/** @typedef {[number, number]} Point */
/** @typedef {{ x: number, y: number, width: number, height: number }} Box */
/** @typedef {import("../types").Place} Place */
/** @typedef {import("../types").Route} Route */
/** @typedef {{ left: number, right: number, top: number, bottom: number }} Label what a name covers
 */
/** @typedef {{ area: Label, taken: Label[] }} Room where names may be, and what is covered already
 */

const MILE = 5280,
    LEAST_SIDE = 6000,
    SIZE = [900, 480],
    NEAR = 40,
    WIDE = 0.55;
// What is left free around a map: so many feet at least, and so much of its longer side.
const LEAST_EDGE = 1500,
    EDGE = 0.07;
// Names and numbers are as large as that nine points of them are left on paper, where the map is
// narrower than on a screen: those of a wider map grow with it.
const NAME = 14,
    WIDEST = 800;

/** A map without places: the miles around the point from which all are measured. */
const EMPTY = { x: -7.5 * MILE, y: -4 * MILE, width: 15 * MILE, height: 8 * MILE },
    MOST_MILES = 80,
    HEAVY = 5;

const isPut = (/** @type {Place} */ { x, y }) => Number.isFinite(x) && Number.isFinite(y);
const pointOf = (/** @type {Place} */ { x, y }) => /** @type {Point} */ ([Number(x), Number(y)]);

/** What has to be seen, in feet, north being up.
 * @param {Point[]} extra @returns {Box}
 */
function extent(extra) {
    const boxes = /** @type {[number, number, number][]} */ ([
        ...allPlaces().filter(isPut).map((place) => [...pointOf(place), 0]),
        ...allRoutes().flatMap(({ points, width }) => points.map(([x, y]) => [x, y, width])),
        ...extra.map(([x, y]) => [x, y, 0])
    ]);
    if (!boxes.length) return EMPTY;
    const least = (/** @type {0 | 1} */ at) => Math.min(...boxes.map((box) => box[at] - box[2])),
        most = (/** @type {0 | 1} */ at) => Math.max(...boxes.map((box) => box[at] + box[2]));
    const edge = Math.max(LEAST_EDGE, EDGE * Math.max(most(0) - least(0), most(1) - least(1)));
    const [left, right, low, high] = [
        least(0) - edge,
        most(0) + edge,
        least(1) - edge,
        most(1) + edge
    ];
    return {
        x: left,
        y: -high,
        width: Math.max(LEAST_SIDE, right - left),
        height: Math.max(LEAST_SIDE, high - low)
    };
}

const lineOf = (/** @type {Point[]} */ points) => points.map(([x, y]) => `${x},${-y}`).join(" ");

/** A corridor is all that is near enough to the line: a stroke twice as wide, round at its corners
 * and ends.
 * @param {Route} route
 */
const corridorShape = ({ points, width }) =>
    draw("polyline", { class: "corridor", points: lineOf(points), "stroke-width": 2 * width });
/** @param {Route} route @param {number} foot */
const routeShape = ({ points }, foot) =>
    draw("polyline", { class: "route", points: lineOf(points), "stroke-width": 3 * foot });

/** A name at the first of some points around its own where it is seen whole and covers no other
 * name. Where there is none, a name that has to be there is at the first point, and any other is
 * left out: it is there on a larger map, and in the table.
 * @param {string} text
 * @param {[number, number, string][]} choices each with its anchor
 * @param {number} size
 * @param {Room} room
 * @param {{ kind?: string, always?: boolean }} options */
function nameShape(text, choices, size, { area, taken }, { kind = "", always = false } = {}) {
    const wide = text.length * size * WIDE;
    const labelAt = (/** @type {[number, number, string]} */ [x, y, anchor]) => {
        const left = anchor === "end" ? x - wide : anchor === "middle" ? x - wide / 2 : x;
        return { left, right: left + wide, top: y - size, bottom: y + size * 0.3 };
    };
    const isSeen = (/** @type {Label} */ it) =>
        it.left >= area.left &&
        it.right <= area.right &&
        it.top >= area.top &&
        it.bottom <= area.bottom;
    const isFree = (/** @type {Label} */ it) =>
        !taken.some(
            (other) =>
                it.left < other.right &&
                other.left < it.right &&
                it.top < other.bottom &&
                other.top < it.bottom
        );
    const choice =
        choices.map((it) => /** @type {const} */ ([it, labelAt(it)])).find(
            ([, it]) => isSeen(it) && isFree(it)
        )?.[0] ??
        (always ? choices[0] : null);
    if (!choice) return [];
    taken.push(labelAt(choice));
    return [
        draw(
            "text",
            {
                class: kind || null,
                x: choice[0],
                y: choice[1],
                "text-anchor": choice[2],
                "font-size": size
            },
            text
        )
    ];
}

/** @param {Route} route @param {number} foot @param {Room} room */
function routeNameShape({ id, points }, foot, room) {
    const order = points.map((_, at) => at).sort(
        (a, b) => Math.abs(a - points.length / 2) - Math.abs(b - points.length / 2)
    );
    const choices = order.flatMap((at) =>
        [[8, "start"], [-16, "start"], [8, "end"], [-16, "end"]].map(
            ([up, anchor]) => /** @type {[number, number, string]} */ ([
                points[at][0] + (anchor === "end" ? -8 : 8) * foot,
                -points[at][1] - Number(up) * foot,
                anchor
            ])
        )
    );
    return nameShape(routeName(id), choices, NAME * foot, room, { kind: "route-name" });
}

/** @param {Place} place @param {number} foot */
function placeShape(place, foot) {
    const side = 9 * foot, [x, north] = pointOf(place), y = -north;
    return [
        place.core
            ? draw("rect", {
                  class: "place",
                  x: x - side,
                  y: y - side,
                  width: 2 * side,
                  height: 2 * side
              })
            : draw("circle", { class: "place", cx: x, cy: y, r: side }),
        draw("text", { class: "place-number", x, y: y + 4.7 * foot, "font-size": NAME * foot },
            String(place.id)
        )
    ];
}

/** @param {Place} place @param {number} foot @param {string | undefined} mark @param {Room} room */
function placeNameShape(place, foot, mark, room) {
    const text = [place.name, mark].filter(Boolean).join(" · "),
        [x, north] = pointOf(place),
        y = -north;
    const choices = /** @type {[number, number, string][]} */ ([
        [x + 11 * foot, y + 15 * foot, "start"],
        [x + 11 * foot, y - 8 * foot, "start"],
        [x - 11 * foot, y + 15 * foot, "end"],
        [x - 11 * foot, y - 8 * foot, "end"],
        ...[22, -14, 26, -18, 32, -24].map((down) => [x, y + down * foot, "middle"])
    ]);
    return text ? nameShape(text, choices, NAME * foot, room, { always: Boolean(mark) }) : [];
}

/** What is seen of a map, which is larger than its box where their shapes differ. A pixel is so
 * many feet.
 * @param {Box} box @param {Element} picture @param {number} pixel @returns {Label}
 */
function areaOf(box, picture, pixel) {
    const wide = (picture.clientWidth || SIZE[0]) * pixel / 2,
        high = (picture.clientHeight || SIZE[1]) * pixel / 2;
    const x = box.x + box.width / 2, y = box.y + box.height / 2;
    return { left: x - wide, right: x + wide, top: y - high, bottom: y + high };
}

/** Whole miles within a span, from its first to its last one.
 * @param {number} from @param {number} to @returns {number[]}
 */
function milesIn(from, to) {
    const first = Math.ceil(from / MILE), count = Math.floor(to / MILE) - first + 1;
    return count > MOST_MILES
        ? []
        : Array.from({ length: Math.max(0, count) }, (_, at) => first + at);
}

/** A line for each mile, a heavier one for each fifth, and the two that cross at the point from
 * which all is measured.
 * @param {Label} area
 */
function gridShapes({ left, right, top, bottom }) {
    const kind = (/** @type {number} */ mile) => (
        mile === 0 ? "axis" : mile % HEAVY === 0 ? "mile five" : "mile"
    );
    return [
        ...milesIn(left, right).map((mile) =>
            draw("path", { class: kind(mile), d: `M${mile * MILE} ${top}V${bottom}` })
        ),
        ...milesIn(top, bottom).map((mile) =>
            draw("path", { class: kind(mile), d: `M${left} ${mile * MILE}H${right}` })
        )
    ];
}

/** What an empty map says of its axes, and a ring where both cross.
 * @param {number} foot
 */
function originShapes(foot) {
    const side = 14 * foot,
        arm = 24 * foot,
        far = (
            /** @type {number} */ miles,
            /** @type {string} */ words,
            /** @type {number} */ x,
            /** @type {number} */ y
        ) =>
            draw(
                "text",
                {
                    class: "axis-name",
                    x: x + 5 * foot,
                    y: y + 16 * foot,
                    "font-size": (NAME - 2) * foot
                },
                t("map.miles-to", { miles, direction: words })
            );
    return [
        far(HEAVY, t("map.direction-west"), -HEAVY * MILE, 0),
        far(HEAVY, t("map.direction-east"), HEAVY * MILE, 0),
        far(3, t("map.direction-north"), 0, -3 * MILE),
        far(3, t("map.direction-south"), 0, 3 * MILE),
        draw("circle", { class: "origin", cx: 0, cy: 0, r: side, "stroke-width": 2 * foot }),
        draw("path", {
            class: "origin",
            d: `M${-arm} 0H${arm}M0 ${-arm}V${arm}`,
            "stroke-width": 2 * foot
        })
    ];
}

/** @param {Box} box */
const scaleMiles = (box) => Math.max(1, Math.floor(box.width / 4 / MILE));

/** What the bar of miles covers.
 * @param {Box} box @param {number} foot @returns {Label}
 */
const scaleLabel = (box, foot) => ({
    left: box.x + 8 * foot,
    right:
        box.x +
        12 * foot +
        Math.max(scaleMiles(box) * MILE, (scaleMiles(box) === 1 ? 140 : 60) * foot),
    top: box.y + box.height - 36 * foot,
    bottom: box.y + box.height - 8 * foot
});

/** A bar of whole miles.
 * @param {Box} box @param {number} foot
 */
function scaleBar(box, foot) {
    const miles = scaleMiles(box), x = box.x + 12 * foot, y = box.y + box.height - 14 * foot;
    return [
        draw("path", {
            class: "scale",
            d: `M${x} ${y - 5 * foot}v${5 * foot}h${miles * MILE}v${-5 * foot}`,
            "stroke-width": 2 * foot
        }),
        draw("text", { x: x + 6 * foot, y: y - 6 * foot, "font-size": NAME * foot },
            miles === 1 ? t("map.mile-feet") : t("map.miles", { miles })
        )
    ];
}

/** A cross for each point that is being put.
 * @param {Point[]} points @param {number} foot
 */
const crosses = (points, foot) =>
    points.map(([x, y]) =>
        draw("path", {
            class: "cross",
            "stroke-width": 3 * foot,
            d: `M${x - 9 * foot} ${-y}h${18 * foot}M${x} ${-y - 9 * foot}v${18 * foot}`
        })
    );

/** The map that was clicked last: how many feet a sign of it is, and where it says that nothing is
 * near.
 * @type {{ foot: number, notice: HTMLElement } | null}
 */
let clicked = null;

/** A map. picked([x, y]) follows a click, in whole feet; marks gives words to places by their
 * numbers; points are shown as crosses.
 * @param {{ picked?: (point: Point) => void, label: string }} given
 */
export function map({ picked, label }) {
    const picture = draw("svg", {
        class: "map",
        role: "img",
        "aria-label": label,
        preserveAspectRatio: "xMidYMid meet"
    }),
        notice = make("p", { role: "status", class: "hint" });
    const start = make("p", { class: "map-start" },
        part("strong", {}, t("map.start")),
        " ",
        part("span", {}, t("map.start-hint"))
    );
    /** @type {Record<string, string>} */
    let marks = {};
    /** @type {Point[]} */
    let points = [];
    let box = extent(points);
    const pixelNow = () =>
        Math.max(
            box.width / (picture.clientWidth || SIZE[0]),
            box.height / (picture.clientHeight || SIZE[1])
        );
    const footNow = () => pixelNow() * Math.max(1, picture.clientWidth / WIDEST);
    const show = () => {
        const foot = footNow(), routes = allRoutes(), places = allPlaces().filter(isPut);
        const area = areaOf(box, picture, pixelNow()),
            isEmpty = !routes.length && !places.length,
            room = {
                area,
                taken: [
                    scaleLabel(box, foot),
                    ...places.map(pointOf).map(([x, y]) => ({
                        left: x - 8 * foot,
                        right: x + 8 * foot,
                        top: -y - 8 * foot,
                        bottom: -y + 8 * foot
                    }))
                ]
            };
        const namesOf = (/** @type {boolean} */ marked) =>
            places.filter(({ id }) => Boolean(marks[id]) === marked).flatMap((place) =>
                placeNameShape(place, foot, marks[place.id], room)
            );
        picture.setAttribute("viewBox", `${box.x} ${box.y} ${box.width} ${box.height}`);
        start.hidden = !isEmpty || points.length > 0;
        // (all corridors lie below all lines, and all names above both)
        picture.replaceChildren(
            ...[
                gridShapes(area),
                isEmpty ? originShapes(foot) : [],
                routes.map(corridorShape),
                routes.map((route) => routeShape(route, foot)),
                places.flatMap((place) => placeShape(place, foot)),
                namesOf(true),
                routes.flatMap((route) => routeNameShape(route, foot, room)),
                namesOf(false),
                crosses(points, foot),
                scaleBar(box, foot)
            ].flat()
        );
    };
    const fit = () => {
        box = extent(points);
        show();
    };
    const zoom = (/** @type {number} */ times) => () => {
        box = {
            x: box.x + box.width * (1 - times) / 2,
            y: box.y + box.height * (1 - times) / 2,
            width: box.width * times,
            height: box.height * times
        };
        show();
    };
    const move = (/** @type {number} */ right, /** @type {number} */ down) => () => {
        box = { ...box, x: box.x + right * box.width / 4, y: box.y + down * box.height / 4 };
        show();
    };
    if (picked)
        picture.addEventListener("click", (/** @type {MouseEvent} */ event) => {
            const at = new DOMPoint(event.clientX, event.clientY).matrixTransform(
                /** @type {DOMMatrix} */ (
                    /** @type {SVGGraphicsElement} */ (picture).getScreenCTM()
                ).inverse()
            );
            clicked = { foot: footNow(), notice };
            notice.textContent = "";
            picked([Math.round(at.x), Math.round(-at.y)]);
        });
    fit();
    new ResizeObserver(show).observe(picture);
    const tools = /** @type {[string, () => void][]} */ ([
        [t("map.larger"), zoom(0.7)],
        [t("map.smaller"), zoom(1 / 0.7)],
        [t("map.whole"), fit],
        [t("map.west"), move(-1, 0)],
        [t("map.east"), move(1, 0)],
        [t("map.north"), move(0, -1)],
        [t("map.south"), move(0, 1)]
    ]);
    const element = make("div", { class: "mapped" },
        part("div", { class: "map-box" }, picture, start),
        notice,
        part("div", { class: "row", role: "group", "aria-label": t("map.map") },
            tools.map(([text, act]) => button(text, act, { class: "small" }))
        )
    );
    return {
        element,
        mark: (/** @type {Record<string, string>} */ words) => {
            marks = words;
            show();
        },
        point: (/** @type {Point[]} */ list) => {
            points = list;
            show();
        },
        fit
    };
}

/** The place whose point is the nearest to a click, or null where none is near: then the map says
 * so.
 * @param {Point} point @returns {Place | null}
 */
export function nearestPlace([x, y]) {
    const far = (/** @type {Place} */ place) =>
        Math.hypot(Number(place.x) - x, Number(place.y) - y);
    const nearest = allPlaces().filter(isPut).sort((a, b) => far(a) - far(b))[0] ?? null;
    if (nearest && far(nearest) <= NEAR * (clicked?.foot ?? MILE / NEAR)) return nearest;
    if (clicked) clicked.notice.textContent = t("map.nothing-near");
    else say(t("map.nothing-near"));
    return null;
}

const corridorWords = (/** @type {Place} */ place) =>
    corridorsOf(place).map(({ id }) => routeName(id)).join(", ") || t("map.none");
const feet = (/** @type {number | undefined} */ it) => (it === undefined ? "?" : counted(it));

export function tableOfMap() {
    const places = table(
        t("map.places"),
        [
            { head: t("map.number"), cell: ({ id }) => String(id) },
            { head: t("map.name"), cell: ({ name }) => name ?? "" },
            { head: t("map.feet-east"), cell: ({ x }) => feet(x), number: true },
            { head: t("map.feet-north"), cell: ({ y }) => feet(y), number: true },
            { head: t("map.core"), cell: ({ core }) => t(core ? "common.yes" : "common.no") },
            { head: t("map.corridors"), cell: corridorWords }
        ],
        allPlaces()
    );
    const routes = table(
        t("map.lines"),
        [
            { head: t("map.number"), cell: ({ id }) => String(id) },
            { head: t("map.name"), cell: ({ name }) => name ?? "" },
            { head: t("map.width"), cell: ({ width }) => counted(width), number: true },
            {
                head: t("map.points"),
                cell: ({ points }) => points.map((point) => point.map(feet).join("; ")).join(" · ")
            }
        ],
        allRoutes()
    );
    return [places, routes];
}
