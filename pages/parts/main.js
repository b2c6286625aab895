// Signing in and out, and which screen is shown. An address holds a screen and its part, never a
// key.

import { agency, forgetPlaces, hasAgency, loadAgency, loadPlaces, troubles } from "./agency.js";
import { answerNo, asked } from "./ask.js";
import { markOf, showBrand } from "./brand.js";
import { clock, dayShort, minuteNow, plus, today } from "./clock.js";
import { hasDatabase } from "./database.js";
import * as desk from "./desk.js";
import { denialOf } from "./denials.js";
import { button, drawInto, found, make, part, say } from "./element.js";
import { askAhead } from "./early.js";
import { icon } from "./icons.js";
import { forgetAll } from "./leaving.js";
import { dropNames, keepText, keptText, namesKept, whenNotKept } from "./kept.js";
import * as line from "./line.js";
import { actStyles, linkStyle, patiently, styleOf } from "./loading.js";
import { clearNotes, dropNote, keepNotes, note, sayNotesAgain } from "./notes.js";
import { takePaperAway } from "./paper.js";
import { forgetHere, maySignOut } from "./queue.js";
import { forgetRoster, loadRoster } from "./roster.js";
import { screenOf, SCREENS, STAFF } from "./screens.js";
import { beginAnew, whenRefused } from "./tally.js";
import {
    chooseLanguage,
    language,
    LANGUAGE_NAMES,
    languageFor,
    speakToRider,
    t,
    useWords
} from "./words.js";

/** @typedef {import("../types").ScreenPart} ScreenPart */
/** @typedef {import("./screens.js").Screen} Screen */

const SCREEN = "desk.screen",
    STAYS = [
        SCREEN, "desk.language", "desk.agency", "desk.ahead", "desk.entered", "desk.stay",
        "desk.visited", "desk.no-keys"
    ],
    OF_KEYS = ["desk.offers.", "desk.asking."],
    LOOKED = 5_000,
    MINUTE = 60_000;
const HURRY = 5_000,
    DRIVER = "driver",
    RIDER = "rider",
    PHONES = [RIDER, DRIVER],
    NEVER_IDLE = [DRIVER],
    FIRST_SIGHT = 2_000,
    LATE = 20_000,
    BOARD = "#dispatcher/day",
    LEADS = ["clerk", "examiner", "officer"],
    USES = ["pointerdown", "keydown", "wheel", "touchstart", "touchmove"];
/** So many parts leave no room for the clock beside them. */
const MANY_PARTS = 6;
/** Under this name the browser keeps that single letters are no keys. */
const NO_KEYS = "desk.no-keys";
/** What stands beside the agency's name, or seldom used at the foot. */
const FRAME = ["screens", "languages", "session"];
/** Looks of a part that change the whole page. */
const LOOKS = ["call", "dispatch-wide", "dispatch-head", "dispatch-fill"];

/** How often something else was shown: who waited for a screen that was left draws nothing. */
let shows = 0;
let shown = false, active = Date.now();
/** Whether the search is to have the focus once the screen is shown. */
let toSearch = false;
/** Whose names are loaded: a key's digest and a screen's kind. */
let loadedFor = "";
/** @type {Map<string, ScreenPart[]>} */
const loaded = new Map();

/** The screen and the part that the address names. */
function wanted() {
    const [screenId, partId = ""] = location.hash.slice(1).split("/");
    return { screen: screenOf(screenId), partId };
}

/** @param {string} screen @param {string} partId */
const addressOf = (screen, partId) => `#${screen}/${partId}`;

// The frame: the agency's name, the language, the screens, the parts.

/** On a phone the next pickup comes first: what is used seldom stands at the foot of the page.
 * @param {string} screen empty where nobody is signed in */
function placeFrame(screen) {
    const bar = found("me"),
        seldom =
            screen === DRIVER
                ? ["screens", "languages", "session"]
                : PHONES.includes(screen)
                ? ["screens", "session"]
                : [];
    document.body.classList.toggle("phone", PHONES.includes(screen));
    document.body.dataset.screen = screen;
    for (const place of [bar, found("foot")]) {
        const ids = FRAME.filter((id) => (place === bar) !== seldom.includes(id)),
            there = [...place.children].map(({ id }) => id).filter((id) => FRAME.includes(id));
        // (in the same order, whatever was shown before)
        if (there.join() !== ids.join())
            place.append(...ids.map(found));
    }
}

function showFrame() {
    const { screen } = wanted(), signed = desk.signedIn();
    placeFrame((signed && screen?.id) || "");
    const { name, brand } = agency();
    showBrand(brand);
    drawInto(found("agency"), [
        part("span", { class: "mark", "aria-hidden": "true" }, markOf(brand, name)),
        part("span", { class: "agency-name" }, name)
    ]);
    found("skip").textContent = t("common.skip");
    found("unproved").textContent = t("common.unproved");
    found("unproved").hidden = !agency().unproved;
    drawInto(found("languages"), languageChoice());
    drawInto(
        found("session"),
        signed &&
            (
                hasMenu(screen)
                    ? personMenu(/** @type {Screen} */ (screen))
                    : [
                          button("?", () => showHelp(), {
                              class: "quiet small icon help-button",
                              "aria-label": t("common.keys")
                          }),
                          button(t("signing.out"), () => leaveByHand(), { class: "quiet small" })
                      ]
            )
    );
    showNow();
    found("parts").hidden = !signed;
    found("screens").hidden = !signed || hasMenu(screen);
    found("screens").setAttribute("aria-label", t("common.screen"));
    found("parts").setAttribute("aria-label", t("common.parts"));
    drawInto(found("screens"), [
        part("label", { for: "screen" }, t("common.screen")),
        part(
            "select",
            {
                id: "screen",
                value: screen?.id ?? "",
                on: {
                    change: (event) => {
                        location.hash = event.target.value;
                    }
                }
            },
            SCREENS.map(({ id }) => part("option", { value: id }, t(`signing.${id}`)))
        )
    ]);
}

/** The menu of whoever signed in, once its file came: a phone does without.
 * @type {typeof import("./menu.js") | null}
 */
let menus = null;

/** @param {Screen | null} screen */
const hasMenu = (screen) => menus !== null && screen !== null && !PHONES.includes(screen.id);

/** The job, and below it the keys, the other jobs and the way out.
 * @param {Screen} screen
 */
function personMenu(screen) {
    const others = SCREENS.filter(({ id }) => id !== screen.id),
        job = (/** @type {Screen} */ { id }) => t(`signing.${id}`);
    return menus?.menuButton(
        t("common.menu"),
        [
            {
                text: [t("common.keys"), part("kbd", {}, "?")],
                name: t("common.keys"),
                act: () => showHelp()
            },
            ...others.map((it, at) => ({
                text: job(it),
                name: t("common.go-to", { job: job(it) }),
                class: at === 0 ? "apart" : undefined,
                act: () => {
                    location.hash = it.id;
                }
            })),
            { text: t("signing.out"), class: "apart", act: () => leaveByHand() }
        ],
        { text: [job(screen), icon("down")], class: "quiet small", id: "me-menu" }
    );
}

/** @param {Screen} screen */
async function loadMenu(screen) {
    if (menus || PHONES.includes(screen.id)) return;
    menus = await import("./menu.js").catch(() => null);
}

/** The server's day and minute, for the office. */
function showNow() {
    const isOffice = desk.signedIn() && !PHONES.includes(wanted().screen?.id ?? RIDER);
    found("now").textContent = isOffice ? `${dayShort(today())}, ${clock(minuteNow())}` : "";
}

/** The keys of the screen that is shown, and what it is for. */
async function showHelp() {
    const { screen } = wanted();
    if (!screen || !desk.signedIn()) return;
    const [{ tellKeys }] = await Promise.all([import("./help.js"), useWords("help")]);
    tellKeys(screen.id);
}

/** Says once in a browser what a screen is for.
 * @param {Screen} screen
 */
async function greetOnce(screen) {
    try {
        if (screen.id === DRIVER) await firstSight();
        const [{ greet }] = await Promise.all([import("./help.js"), useWords("help")]);
        if (desk.signedIn() && wanted().screen === screen) greet(screen.id);
    } catch (error) {
        console.error(error);
    }
}

/** Speaks another language from now on.
 * @param {string} name
 */
async function speak(name) {
    await chooseLanguage(name, { keep: true });
    loaded.clear();
    sayNotesAgain();
    line.sayAgain();
    // (what was said last is of the other language)
    say("");
    await show({ again: true });
    found("language").focus();
}

/** The other language by its own name, or a choice where there are more. */
function languageChoice() {
    const spoken = agency().languages.filter((it) => it in LANGUAGE_NAMES),
        others = spoken.filter((it) => it !== language()),
        nameOf = (/** @type {string} */ it) => LANGUAGE_NAMES[/** @type {"en"} */ (it)];
    if (spoken.length < 2) return null;
    if (others.length === 1)
        return part(
            "button",
            {
                type: "button",
                id: "language",
                class: "quiet small",
                lang: others[0],
                on: { click: () => speak(others[0]) }
            },
            nameOf(others[0])
        );
    return part(
        "select",
        {
            id: "language",
            "aria-label": t("common.language"),
            value: language(),
            on: { change: (event) => speak(event.target.value) }
        },
        spoken.map((it) => part("option", { value: it, lang: it }, nameOf(it)))
    );
}

/** @param {Screen} screen @param {ScreenPart[]} parts @param {string} chosen */
function showParts(screen, parts, chosen) {
    document.documentElement.classList.toggle("many-parts", parts.length >= MANY_PARTS);
    drawInto(
        found("parts"),
        parts.length > 1 &&
            part("ul", {},
                parts.map(({ id, name, short, sign, href = addressOf(screen.id, id) }) =>
                    part("li", { key: id },
                        part(
                            "a",
                            {
                                href,
                                "aria-current": chosen === id ? "page" : null,
                                "aria-label": short ? name : null
                            },
                            sign && icon(sign),
                            short ?? name
                        )
                    )
                )
            )
    );
}

/** What is wrong in the agency's files is one line for those who can do something about it.
 * @param {string} screen
 */
function showTroubles(screen) {
    const [first, ...others] = troubles();
    if (!first || ["rider", "driver"].includes(screen)) dropNote("files");
    else
        note("files", [
            part("p", {},
                first,
                others.length > 0 && ` ${t("signing.more-troubles", { count: others.length })}`
            ),
            others.length > 0 &&
                part("details", {},
                    part("summary", {}, t("signing.all-troubles")),
                    part("ul", {}, others.slice(0, 50).map((it) => part("li", {}, it)))
                )
        ]);
}

/** What of the counts could not be kept is one line for those who can do something about it.
 * @param {import("./tally.js").Trouble} trouble */
function showCounts({ refused, loose }) {
    const isStaff = [...STAFF, "admin"].includes(wanted().screen?.id ?? ""),
        what = [
            ...new Map(
                refused.map(({ kind, refused: why }) => [`${kind} ${why}`, { kind, why }])
            ).values()
        ];
    if (refused.length && isStaff)
        note("counts", t("common.counts-refused", { count: refused.length, what }));
    else dropNote("counts");
    if (loose && isStaff) note("counts-loose", t("common.counts-loose", { count: loose }));
    else dropNote("counts-loose");
}

/** Whose counts are sent. */
let countedFor = "";

/** Says what came of what windows that are gone left open, to who signs in. */
async function takeUpLeft() {
    if (!namesKept("local").some((name) => name.startsWith("desk.asking."))) return;
    try {
        const [{ takeUpAll }] = await Promise.all([
            import("../screens/take-up.js"),
            useWords("sent", "booking")
        ]);
        await takeUpAll();
    } catch (error) {
        console.error(error);
    }
}

/** Goes on with what is still to be told to the site. */
function tellCounts() {
    const digest = desk.digest() ?? "";
    if (digest && digest !== countedFor) {
        beginAnew();
        takeUpLeft();
    }
    countedFor = digest;
}

// Loading.

/** @param {string} name */
const styled = (name) => styleOf(linkStyle(name));

/** A screen without one of its styles can still be used.
 * @param {string} name
 */
const useStyles = (name) => patiently(() => styled(name)).catch(console.error);

/** @param {Screen} screen */
async function partsOf(screen) {
    const known = loaded.get(screen.id);
    if (known) {
        // (a style that did not come at all is asked for again wherever its screen is shown)
        screen.styles.forEach(useStyles);
        return known;
    }
    const [module] = await Promise.all([
        patiently(screen.load),
        useWords(...screen.words),
        ...screen.styles.map(useStyles)
    ]);
    const parts = module[screen.id]();
    loaded.set(screen.id, parts);
    return parts;
}

const inHurry = (/** @type {Promise<unknown>} */ it) =>
    Promise.race([
        it,
        new Promise((go) => {
            setTimeout(go, HURRY);
        })
    ]);

/** The addresses come with the first screen, since who signs in needs none.
 * @param {string} screen
 */
const askAddresses = (screen) =>
    import("./addresses.js").then(({ loadAddresses }) => loadAddresses(screen)).catch(() => false);

/** Asks for the names that this key may see; whether the site answered.
 * @param {Screen} screen
 */
async function askNames(screen) {
    const staff = STAFF.includes(screen.id), whose = `${desk.digest()} ${staff}`;
    if (loadedFor === whose) return true;
    const answers = await inHurry(
        Promise.all([loadPlaces(screen.id), staff ? loadRoster() : true, askAddresses(screen.id)])
    );
    const answered = answers?.every(Boolean) ?? false;
    if (answered) loadedFor = whose;
    return answered;
}

/** @type {ReturnType<typeof setTimeout> | undefined} */
let askingAgain;

/** The names that this key may see. A site that did not answer is asked again until it does; then
 * what is shown has the names.
 * @param {Screen} screen
 */
async function loadNames(screen) {
    clearTimeout(askingAgain);
    if ((await askNames(screen)) && hasAgency()) return;
    const again = async () => {
        if (!desk.signedIn() || wanted().screen !== screen) return;
        if (!hasAgency()) await loadAgency();
        if (!(await askNames(screen)) || !hasAgency()) askingAgain = setTimeout(again, HURRY);
        else {
            showFrame();
            showTroubles(screen.id);
            (await import("./screen.js")).drawAllAgain();
            (await import("./reads.js")).readAll();
        }
    };
    askingAgain = setTimeout(again, HURRY);
}

const moreWords = () => useWords("denials", "fields");

/** Who drives sees the next stop first: on a slow line the names of vehicles and words of denials
 * come after it.
 */
const firstSight = () =>
    new Promise((go) => {
        window.addEventListener("desk.seen", go, { once: true });
        setTimeout(go, FIRST_SIGHT);
    });

/** What is shown is drawn again with names and words that come after it.
 * @param {Promise<unknown>} more
 */
function drawWith(more) {
    more.then(async () => {
        if (desk.signedIn()) (await import("./screen.js")).drawAllAgain();
    }).catch(() => {});
}

// Showing.

/** @param {string} title */
function entitle(title) {
    document.title = `${title} – ${agency().name}`;
}

/** @param {number} mine */
async function showSignIn(mine) {
    entitle(t("signing.in"));
    showFrame();
    drawInto(found("parts"), []);
    drawInto(found("find"), []);
    /** @type {{ signIn?: typeof import("./signing.js").signIn }} */
    const { signIn } = await Promise.all([
        patiently(() => import("./signing.js")),
        moreWords()
    ]).then(([it]) => it).catch((error) => notLoaded(error, mine));
    if (mine !== shows || !signIn) return;
    const first = wanted().screen?.id ?? keptText("local", SCREEN) ?? "rider";
    // (while the key is typed)
    setTimeout(() => askAhead(first));
    actStyles([]);
    drawInto(
        found("main"),
        signIn({
            screen: first,
            signed: (screen) => {
                keepText("local", SCREEN, screen);
                active = Date.now();
                toSearch = true;
                if (wanted().screen?.id === screen) show();
                else location.hash = screen;
            }
        })
    );
    showLooks();
}

/** Another version of the pages may be there by now: it is loaded whole, where the site answers. */
async function loadAgain() {
    const reply = await fetch(location.pathname, { cache: "no-cache", credentials: "omit" }).catch(
        () => null
    );
    if (reply?.ok) location.reload();
    else await show();
}

/** Says instead of a screen why it is not shown.
 * @param {string} words
 */
function sayInstead(words) {
    drawInto(
        found("main"),
        part("div", { class: "note row", role: "alert" },
            part("p", {}, words),
            button(t("common.load-again"), loadAgain)
        )
    );
    showLooks();
}

/** Says that files of a screen did not come, and goes on asking for them. What was left meanwhile
 * says nothing.
 * @param {unknown} error @param {number} mine
 */
function notLoaded(error, mine) {
    console.error(error);
    if (mine !== shows) return {};
    sayInstead(t("common.not-loaded"));
    setTimeout(() => {
        if (mine === shows) show({ again: true });
    }, HURRY);
    return {};
}

/** Says of a screen that is not there after a while that it is still loading, so that nobody waits
 * before a form that has had its answer. It is shown as soon as it comes. Gives what takes this
 * back.
 * @param {number} mine
 */
function sayLate(mine) {
    const waiting = setTimeout(() => {
        if (mine === shows) sayInstead(t("common.still-loading"));
    }, LATE);
    return () => clearTimeout(waiting);
}

/** Says that a screen has a fault of its own: waiting would not mend it.
 * @param {unknown} error
 */
function notDrawn(error) {
    console.error(error);
    sayInstead(t("common.not-drawn"));
}

/** @param {Screen} screen @param {number} mine */
async function showScreen(screen, mine) {
    /** @type {ScreenPart[]} */
    let parts;
    showFrame();
    try {
        if (screen.id === DRIVER)
            firstSight().then(
                () =>
                    mine === shows &&
                    desk.signedIn() &&
                    drawWith(Promise.all([loadNames(screen), moreWords()]))
            );
        [parts] = await Promise.all([
            partsOf(screen),
            ...(screen.id === DRIVER ? [] : [loadNames(screen), moreWords(), loadMenu(screen)])
        ]);
    } catch (error) {
        return notLoaded(error, mine);
    }
    if (mine !== shows) return undefined;
    drawScreen(screen, parts);
    greetOnce(screen);
    return undefined;
}

/** The search of a part that shows no rider itself leads to the first part, which does.
 * @param {Screen} screen @param {ScreenPart} first
 */
async function searchFrom(screen, first) {
    const mine = shows, { searchInBar } = await import("./subject.js");
    if (mine !== shows) return;
    searchInBar(t("common.find"), t("common.show"), () => {
        location.hash = addressOf(screen.id, first.id);
    });
    if (!toSearch) return;
    toSearch = false;
    search()?.focus({ preventScroll: true });
}

/** Says on the root which of these looks the shown part has. */
function showLooks() {
    const { classList } = document.documentElement;
    LOOKS.forEach((name) =>
        classList.toggle(`has-${name}`, found("main").querySelector(`.${name}`) !== null)
    );
    classList.toggle("has-find", found("find").childElementCount > 0);
}

/** @param {Screen} screen @param {ScreenPart[]} parts */
function drawScreen(screen, parts) {
    const { partId } = wanted(),
        it = parts.find((one) => one.id === partId && !one.href) ?? parts[0];
    if (location.hash !== addressOf(screen.id, it.id))
        history.replaceState(null, "", addressOf(screen.id, it.id));
    keepText("local", SCREEN, screen.id);
    entitle(`${it.name} – ${t(`signing.${screen.id}`)}`);
    showFrame();
    showParts(screen, parts, it.id);
    showTroubles(screen.id);
    actStyles(screen.styles);
    try {
        drawInto(found("find"), []);
        found("main").replaceChildren(
            make("h1", {}, it.name),
            make("div", { class: "stack" }, it.draw())
        );
        showLooks();
        if (LEADS.includes(screen.id) && !search()) searchFrom(screen, parts[0]);
    } catch (error) {
        notDrawn(error);
    }
}

/** @param {{ again?: boolean }} options */
async function show({ again = false } = {}) {
    if (!again) {
        answerNo();
        // (what was said last is of what was shown before)
        say("");
    }
    desk.leave();
    takePaperAway();
    const mine = shows += 1;
    if (desk.signedIn() && !wanted().screen)
        history.replaceState(
            null,
            "",
            `#${screenOf(keptText("local", SCREEN) ?? "")?.id ?? "rider"}`
        );
    const { screen } = wanted();
    document.body.classList.toggle("signed-out", !desk.signedIn());
    speakToRider(screen?.id === RIDER);
    const isThere = again ? () => {} : sayLate(mine);
    if (!desk.signedIn() || !screen) await showSignIn(mine);
    else await showScreen(screen, mine);
    isThere();
    tellCounts();
    if (mine !== shows) return;
    if (shown && !again) found("main").focus({ preventScroll: true });
    if (shown && !again) window.scrollTo(0, 0);
    shown = true;
    if (!toSearch || !desk.signedIn()) return;
    toSearch = false;
    search()?.focus({ preventScroll: true });
}

/** The field that finds whose record is shown, where this part has one that is seen.
 * @returns {HTMLElement | undefined}
 */
function search() {
    const field = /** @type {HTMLElement | null} */ (document.querySelector(
        ":is(#find, #main) [data-search]"
    ));
    const folded = field?.closest("details");
    if (folded) folded.open = true;
    return field?.getClientRects().length ? field : undefined;
}

const WRITES =
    "input:not([type=checkbox], [type=radio], [type=file]), textarea, select, [contenteditable]";

/** Keys of every screen, from anywhere but a field where they are written: a slash goes to the
 * search, a question mark lists the keys, and a letter goes to what has it as its key. A part
 * without a search leads to the first part.
 * @param {KeyboardEvent} event
 */
function keyed(event) {
    if (event.ctrlKey || event.metaKey || event.altKey || !desk.signedIn()) return;
    // (a control that took the key, as the days take a weekday's letter, keeps the focus)
    if (event.defaultPrevented) return;
    if (
        (event.target instanceof Element && event.target.closest(WRITES)) ||
        document.querySelector("dialog[open]")
    )
        return;
    if (event.key !== "?" && keptText("local", NO_KEYS)) return;
    const act =
        {
            "/": toTheSearch,
            "?": () => {
                showHelp();
                return true;
            }
        }[event.key] ??
        (() => goalOf(event.key));
    if (act()) event.preventDefault();
}

/** What has a letter as its key gets the focus: the first field of it, or itself.
 * @param {string} key
 */
function goalOf(key) {
    const places = /^[a-z]$/.test(key)
        ? [...document.querySelectorAll(`#main [data-key="${key}"]`)].filter(
              (it) => !it.closest("[inert]")
          )
        : [];
    const controls = places.flatMap((it) => [
        ...it.querySelectorAll("input, select, textarea, button, [href]")
    ]),
        goal = /** @type {HTMLElement | undefined} */ (controls.find(
            (it) => it.getClientRects().length
        ));
    goal?.focus();
    return goal !== undefined;
}

function toTheSearch() {
    const { screen } = wanted(), field = search(), first = screen && loaded.get(screen.id)?.[0];
    if (field) field.focus();
    else if (!screen || !first || !LEADS.includes(screen.id) || wanted().partId === first.id)
        return false;
    else {
        toSearch = true;
        location.hash = addressOf(screen.id, first.id);
    }
    return true;
}

// Signing out: nothing stays that tells who was there.

async function leaveByHand() {
    if (!await maySignOut()) return;
    if (
        line.isWaiting() &&
        !await asked({
            question: t("signing.waiting"),
            detail: t("signing.waiting-detail"),
            yes: t("signing.out-anyway"),
            danger: true
        })
    )
        return;
    await signOut(t("signing.signed-out"), true);
}

/** @param {string} words @param {boolean} [byHand] */
async function signOut(words, byHand = false) {
    const digest = desk.digest();
    forgetAll({ byHand });
    desk.signOut();
    answerNo();
    // (what is to be forgotten takes its time, and what was shown is gone at once)
    takePaperAway();
    found("main").replaceChildren();
    clearNotes();
    if (digest) await forgetHere(digest);
    forgetPlaces();
    forgetRoster();
    loadedFor = "";
    dropNames(
        "local",
        (name) =>
            name.startsWith("desk.") &&
            !STAYS.includes(name) &&
            !OF_KEYS.some((it) => name.startsWith(it))
    );
    clearNotes();
    history.replaceState(null, "", "#");
    await show();
    say(words);
}

/** A day on a wall stays where the agency says so: nothing can be done on it, and whoever touches
 * it is signed out.
 * @param {boolean} isOn
 */
function showBoard(isOn) {
    document.body.classList.toggle("board", isOn);
    document.body.classList.toggle("nameless", isOn && !agency().board_names);
    for (const it of [found("main"), found("parts"), ...document.querySelectorAll(".top")])
        /** @type {HTMLElement} */ (it).inert = isOn;
}

/** A screen has found that nobody has the key any more, and what was read with it is gone.
 * @param {Event} event */
function keyGone(event) {
    const { detail } = /** @type {CustomEvent} */ (event);
    detail.left = signOut(detail.said).then(() => note("key", detail.shown));
}

/** The key of a rider who stays signed in is nobody's any more. */
async function stayGone() {
    await signOut(t("signing.stay-gone"));
    note("key", () => t("signing.stay-gone"));
}

/** Who signs out on a phone of their own is signed out in each of its windows. */
function leaveWithOthers() {
    if (desk.stayEnded()) signOut(t("signing.signed-out"));
}

/** Who does nothing for long is signed out, and is told a minute before. */
async function lookIdle() {
    const { idle_minutes: limit, board_minutes: board } = agency(), idle = Date.now() - active;
    const isBoard = location.hash === BOARD && board > limit && limit > 0,
        minutes = isBoard ? board : limit;
    showBoard(isBoard && desk.signedIn() && idle >= limit * MINUTE);
    if (
        !desk.signedIn() ||
        !minutes ||
        NEVER_IDLE.includes(wanted().screen?.id ?? "") ||
        desk.stays() !== null ||
        line.isWaiting()
    )
        return;
    if (idle >= minutes * MINUTE) {
        await signOut(t("signing.idle-out", { minutes }));
        note("idle", () => t("signing.idle-out", { minutes }));
    } else if (idle >= minutes * MINUTE - MINUTE) {
        note("idle-soon", () => t("signing.idle-soon"));
        say(t("signing.idle-soon"));
    }
}

/** @param {Event} event */
function isActive({ type }) {
    const isBoard = document.body.classList.contains("board");
    // (a board that draws itself anew moves itself)
    if (isBoard && type === "scroll")
        return;
    active = Date.now();
    if (isBoard) {
        showBoard(false);
        signOut(t("signing.signed-out"));
    }
    if (dropNote("idle-soon")) say("");
}

// What was under way when the page was loaded anew comes to its end before anything else is sent.
async function finish() {
    // (a driver's phone has a queue of its own)
    const isDriver = wanted().screen?.id === DRIVER;
    /** @type {Partial<typeof import("./sent.js")>} */
    const { lookAtSent, unread } = isDriver
        ? {}
        : (await Promise.all([
              import("./sent.js").catch(() => ({})),
              useWords("sent").catch(() => {})
          ]))[0];
    const reply = await desk.finishPending();
    lookAtSent?.();
    // (what became of a trip is in the list of what was sent)
    if (reply && !unread?.().length)
        note("finished", () => (
            reply.denied
                ? [part("p", {}, t("common.was-denied")), denialOf(reply)]
                : t("common.was-done")
        ));
}

/** A phone that a driver has used drops manifests that are two days old, whoever opens these pages
 * on it.
 */
async function forgetManifests() {
    if (!await hasDatabase("desk")) return;
    const { forgetDaysBefore } = await import("./manifest-copies.js");
    await forgetDaysBefore(plus(today(), -1));
}

whenRefused(showCounts);
desk.whenOthersWrote(() => note("others", () => t("common.others-wrote")));
keepNotes();
await Promise.all([loadAgency(), desk.comeBack()]);
await chooseLanguage(languageFor(agency().languages));
await useWords("common", "signing");
whenNotKept(() => note("not-kept", () => t("common.not-kept")));
window.addEventListener("hashchange", () => show());
window.addEventListener("desk.key-gone", keyGone);
window.addEventListener("desk.leave", leaveByHand);
window.addEventListener("desk.stay-gone", stayGone);
window.addEventListener("storage", leaveWithOthers);
document.addEventListener("visibilitychange", leaveWithOthers);
window.addEventListener("pageshow", leaveWithOthers);
window.addEventListener("desk.look", showLooks);
window.addEventListener("keydown", keyed);
window.addEventListener("desk.help", () => showHelp());
// (a page that moves by itself, as where a note comes, is used by nobody)
for (const event of USES)
    window.addEventListener(event, isActive, { passive: true, capture: true });
found("skip").addEventListener("click", (event) => {
    event.preventDefault();
    found("main").focus();
});
setInterval(() => {
    lookIdle();
    showNow();
}, LOOKED);
await show();
if (desk.signedIn()) finish();
forgetManifests().catch(() => {});
