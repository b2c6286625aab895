"""What holds on every screen: the site's headers, words for each denial, signing in and out, the frame, the address."""
import contextlib
import hashlib
import glob
import http.client
import re
import ssl
from collections.abc import Iterator, Sequence
from pathlib import Path
from typing import Any

from selenium.webdriver.common.keys import Keys

import people
from browser import pause
from checks import Place, check, holds, same
from database import PATIENCE, ROOT, until
from town import PAGES

VANS = 1
HEADERS = {
    "Content-Security-Policy": "default-src 'self'",
    "X-Content-Type-Options": "nosniff",
    "Referrer-Policy": "no-referrer",
    "Strict-Transport-Security": "max-age=",
}
PARTS = {
    "rider": "rider 1001",
    "clerk": "clerk",
    "examiner": "examiner",
    "officer": "officer",
    "dispatcher": "dispatcher",
    "driver": "driver 1",
    "admin": "admin",
}
HEADING = "return document.querySelector('h1').textContent.trim()"


@check
def every_reply_of_the_site_has_its_headers(at: Place) -> None:
    for path, status in [
        ("/", 200),
        ("/desk.css", 200),
        ("/agency.json", 200),
        ("/days/2000-01-01/sheet", 401),
    ]:
        got, headers, _ = at.town.answer(path, {"Desk-Key": "nobody"})
        same(f"the status of {path}", status, got)
        for name, begins in HEADERS.items():
            holds(
                f"{path} has {name}: {headers.get(name)}",
                (headers.get(name) or "").startswith(begins),
            )
    same("Cache-Control of a reply", "no-store", headers.get("Cache-Control"))


@check
def who_guesses_keys_is_slowed_down(at: Place) -> None:
    unchecked = ssl._create_unverified_context()
    line = http.client.HTTPSConnection(
        "127.0.0.1", at.town.port, timeout=PATIENCE, context=unchecked
    )
    with contextlib.closing(line):
        statuses = []
        for _ in range(8):
            line.request("GET", "/days/2000-01-01/sheet", headers={"Desk-Key": "guess"})
            with line.getresponse() as reply:
                statuses.append(reply.status)
                reply.read()
    holds(f"statuses of guesses: {set(statuses)}", {401} <= set(statuses) <= {401, 429})


@check
def files_of_names_need_a_key_and_a_private_place_is_for_staff_and_its_rider(at: Place) -> None:
    def status(path: str, holder: str | None = None) -> Any:
        return at.town.answer(path, {"Desk-Key": at.keys[holder]} if holder else {})[0]

    for path, holder, wanted in [
        ("/agency.json", None, 200),
        ("/places.json", None, 401),
        ("/staff/places.json", None, 401),
        ("/staff/roster.csv", "rider 1001", 403),
        ("/staff/places.json", "driver 1", 403),
        ("/staff/roster.csv", "clerk", 200),
        ("/drivers/1/roster.csv", "driver 1", 200),
        ("/drivers/1/roster.csv", "rider 1001", 403),
        ("/staff/worklist.html", "clerk", 200),
        ("/places.json", "rider 1001", 200),
        ("/own/1001/places.json", "rider 1001", 200),
        ("/own/1002/places.json", "rider 1001", 403),
        ("/staff/roster.csv", "dispatcher", 200),
    ]:
        same(f"{path} asked by {holder}", wanted, status(path, holder))
    shown = [
        at.town.answer("/agency.json")[2],
        at.town.answer("/places.json", {"Desk-Key": at.keys["rider 1001"]})[2],
    ]
    for secret in ["4411", "Oak Street", "Willow", "Shelter", "Rosa"]:
        holds(
            f"{secret} is in a file that is not for staff alone",
            not any(secret in it for it in shown),
        )


def names_in_row(cell: Any) -> Iterator[Any]:
    """The names in the first cell of a row of a table; (e) after 37.125(c) is 37.125(e)."""
    section = ""
    for name in re.findall(r"`([^`]+)`", cell):
        section = section if name.startswith("(") else name.partition("(")[0]
        yield section + name if name.startswith("(") else name


def names_of_denials() -> Iterator[Any]:
    with open(f"{ROOT}/docs/RULES.md", encoding="utf-8") as text:
        rules = text.read().split("### Names of rules")[1].split("\n## ")[0]
    for cell in re.findall(r"^\| (`[^|]+) \| ", rules, re.M):
        yield from names_in_row(cell)
    with open(f"{ROOT}/docs/API.md", encoding="utf-8") as text:
        yield from re.findall(r"`(http\.\w+|desk\.\w+)`", text.read().split("## Setting up")[0])


@check
def every_denial_has_words_in_both_languages(_at: Place) -> None:
    names = set(names_of_denials())
    holds(f"only {len(names)} names of denials are found in docs", len(names) > 25)
    for language in ["en", "es"]:
        table = Path(f"{PAGES}/words/{language}/denials.js").read_text("utf-8")
        for name in sorted(names):
            has_both = f'"denials.{name}"' in table and f'"denials.{name}/help"' in table
            holds(f"{language} has no words for {name}", has_both)


@check
def no_page_reads_markup(_at: Place) -> None:
    for file in glob.glob(f"{PAGES}/**/*.js", recursive=True):
        content = re.sub(r"^\s*(//|\*|/\*).*$", "", Path(file).read_text("utf-8"), flags=re.M)
        found = re.search(
            r"innerHTML|outerHTML|insertAdjacentHTML|document\.write|\beval\(|new Function", content
        )
        holds(f"{file} has {found and found[0]}", not found)


# Signing in and out.


@check
def signing_in_says_what_is_wrong_with_a_key(at: Place) -> None:
    at.browser.fresh()
    at.browser.press("Sign in")
    at.browser.sees("Type the key.")
    same("the focus", True, at.browser.focused().startswith("Key"))
    at.browser.fill("Key", "nobody")
    at.browser.press("Sign in")
    at.browser.sees("We don't recognize this key.")


@check
def the_key_is_as_wide_as_a_narrow_screen(at: Place) -> None:
    at.browser.fresh()
    with at.browser.screen(320, 640):
        at.browser.find("button", "Show the key")
        wide = at.browser.script(
            "return document.querySelector('[name=key]').getBoundingClientRect().width"
        )
    holds(f"the field of the key is {wide} px wide", wide >= 220)


@check
def a_key_is_in_no_address_and_in_no_storage_that_stays(at: Place) -> None:
    # (a rider who ticks it has the key kept under desk.stay: rider.py tries that)
    for holder, screen in [("clerk", "clerk"), ("rider 1001", "rider")]:
        at.browser.sign_in(at.keys[holder], screen)
        kept = at.browser.script(
            "return location.href + JSON.stringify(localStorage) + document.cookie"
        )
        holds(f"the key is in {kept}", at.keys[holder] not in kept and "desk.stay" not in kept)


@check
def a_key_in_groups_and_in_capitals_is_the_same_key(at: Place) -> None:
    key = at.keys["clerk"]
    grouped = "-".join(key[start : start + 5] for start in range(0, len(key), 5)).upper()
    at.browser.sign_in(f" {grouped.replace('-', ' - ', 1)} ", "clerk")
    at.browser.signed_in()


@check
def a_key_of_the_agencys_own_kind_is_taken_with_a_phones_capitals_and_spaces(at: Place) -> None:
    digest = hashlib.sha256(b"front-desk-104-m03s").hexdigest()
    at.town.post("admin", "/callers", {"id": 71, "role": "clerk", "subject": 0, "digest": digest})
    for typed in ["FRONT-DESK-104-M03S", "Front desk 104 m03s"]:
        at.browser.sign_in(typed, "clerk")
        at.browser.signed_in()


@check
def what_was_said_last_goes_with_its_language(at: Place) -> None:
    at.browser.sign_in(at.keys["clerk"], "clerk")
    at.browser.script(
        "import('/parts/element.js').then(({ say }) => say('The desk answers again.'))"
    )
    until(
        "it is said",
        lambda: at.browser.script("return document.getElementById('said').textContent") != "",
    )
    at.browser.switch_to("es")
    at.browser.signed_in("es")
    until(
        "what was said stays in English",
        lambda: at.browser.script("return document.getElementById('said').textContent") == "",
    )
    at.browser.switch_to("en")
    at.browser.signed_in()


@check
def the_menu_of_a_person_walks_by_keys_and_closes_once_the_focus_goes_elsewhere(at: Place) -> None:
    at.browser.sign_in(at.keys["clerk"], "clerk")
    at.browser.menu().click()
    at.browser.find("button", "Go to Examiner")
    same("the focus", "Keys and help", at.browser.focused())
    at.browser.keys(Keys.END)
    same("the last of it", "Sign out", at.browser.focused())
    at.browser.keys(Keys.ESCAPE)
    same("the focus after Escape", "Clerk", at.browser.focused())
    at.browser.menu().click()
    at.browser.find("button", "Sign out")
    at.browser.script("document.getElementById('language').focus()")
    holds("the menu stays open", not at.browser.is_there("button", "Sign out"))
    at.browser.menu().click()
    at.browser.press("Go to Examiner")
    at.browser.shown("examiner")


@check
def signing_out_leaves_nothing(at: Place) -> None:
    at.browser.sign_in(at.keys["clerk"], "clerk")
    at.browser.keep_subjects()
    at.browser.go_part("clerk", "file")
    at.browser.sees("Eligibility", "Rosa")
    at.browser.go_part("clerk", "trips")
    at.browser.sees("Rosa")
    at.browser.sign_out()
    at.browser.find("button", "Sign in")
    same(
        "what this window keeps after signing out",
        0,
        at.browser.script("return sessionStorage.length"),
    )
    kept = at.browser.script("return JSON.stringify(localStorage)")
    for secret in [at.keys["clerk"], "1001", "Rosa", "Oak Street"]:
        holds(f"{secret} is kept after signing out: {kept}", secret not in kept)
    shown = at.browser.script("return document.documentElement.outerHTML")
    holds("the page still has a rider's name", "Rosa" not in shown and "Oak Street" not in shown)
    at.browser.driver.back()
    at.browser.sees_no("Sign out", "Rosa")
    same("the menu of a person", None, at.browser.menu())
    at.browser.driver.forward()
    at.browser.find("button", "Sign in")
    caches = at.browser.driver.execute_async_script(
        """const done = arguments[0]; (async () => { const found = [];
        for (const name of await caches.keys())
            for (const it of await (await caches.open(name)).keys()) found.push(it.url);
        return found; })().then(done);"""
    )
    strange = [it for it in caches if re.search(r"/(staff|own|riders|days|callers)/", it)]
    same("what is cached of the desk after a clerk signed out", [], strange)


@check
def every_screen_opens_by_its_address_and_has_a_title(at: Place) -> None:
    for screen, holder in PARTS.items():
        at.browser.sign_in(at.keys[holder], screen)
        at.browser.settled()
        count = at.browser.script("return document.querySelectorAll('h1').length")
        same(f"the headings of the first order on {screen}", 1, count)
        title, address = at.browser.script("return [document.title, location.hash]")
        holds(f"{screen} has the title {title}", people.NAME in title)
        holds(f"{screen} has the address {address}", address.startswith(f"#{screen}"))


@check
def an_unknown_part_is_the_first_one_and_the_address_says_so(at: Place) -> None:
    at.browser.sign_in(at.keys["clerk"], "clerk")
    at.browser.settled()
    first = at.browser.script("return location.hash")
    at.browser.script("location.hash = '#clerk/nosuch'")
    until(
        "the address stays that of no part",
        lambda: at.browser.script("return location.hash") == first,
    )
    same("the part", True, at.browser.is_there("heading", at.browser.script(HEADING)))


@check
def the_skip_link_moves_the_focus_and_nothing_else(at: Place) -> None:
    for screen, part in [("clerk", "trips"), ("rider", "book")]:
        at.browser.sign_in(at.keys[PARTS[screen]], screen, part)
        at.browser.settled()
        before = [at.browser.script("return location.hash"), at.browser.script(HEADING)]
        at.browser.script("document.querySelector('a').focus()")
        at.browser.keys(Keys.ENTER)
        same("where the focus is", "main", at.browser.script("return document.activeElement.id"))
        same(
            "screen and part",
            before,
            [at.browser.script("return location.hash"), at.browser.script(HEADING)],
        )


@check
def the_skip_link_leaves_a_key_that_is_typed(at: Place) -> None:
    at.browser.fresh()
    at.browser.fill("Key", "half a key")
    at.browser.script("document.querySelector('a').focus()")
    at.browser.keys(Keys.ENTER)
    pause(0.5)
    same("what was typed", "half a key", at.browser.value("Key"))


@check
def back_and_forward_and_a_reload_stay_signed_in(at: Place) -> None:
    at.browser.sign_in(at.keys["clerk"], "clerk")
    parts = until(
        "there are no parts",
        lambda: at.browser.script(
            "return [...document.querySelectorAll('#parts a')].map((it) => it.getAttribute('href'))"
        ),
    )
    at.browser.script("location.hash = arguments[0]", parts[0])
    at.browser.settled()
    at.browser.script("location.hash = arguments[0]", parts[1])
    at.browser.settled()
    at.browser.driver.back()
    until("back goes back", lambda: at.browser.script("return location.hash") == parts[0])
    at.browser.reload()
    at.browser.signed_in()


@check
def who_does_nothing_is_signed_out(at: Place) -> None:
    at.town.write_files(idle_minutes=1)
    try:
        with at.browser.clock(hurry=60):
            at.browser.sign_in(at.keys["clerk"], "clerk")
            at.browser.settled()
            at.browser.passes(61)
            until("nobody is signed out", lambda: at.browser.is_there("button", "Sign in"))
        at.browser.sees("signed out")
    finally:
        at.town.write_files()


@check
def nothing_is_loaded_from_elsewhere(at: Place) -> None:
    at.browser.requests()
    for screen, holder in PARTS.items():
        at.browser.sign_in(at.keys[holder], screen)
    asked = at.browser.requests()
    holds("no request is seen", len(asked) > 20)
    strange = [
        it
        for it in asked
        if it and not it.startswith((at.town.origin, "blob:", "data:", "chrome", "about:"))
    ]
    same("what is loaded from elsewhere", [], strange)


LOADED = """
return performance.getEntriesByType("resource").filter((it) => it.name.startsWith(location.origin))
    .map((it) => [it.name, it.transferSize, it.decodedBodySize]);
"""
# (as the sources run; what the site has is packed, and driver.py holds it to less)
MOST_BYTES_OF_SIGNING_IN = 103_000


@check
def the_files_of_the_pages_come_compressed_and_few_before_somebody_signs_in(at: Place) -> None:
    at.browser.devtools("Network.clearBrowserCache")
    at.browser.fresh()
    at.browser.find("button", "Sign in")
    # (a font is compressed in itself; a phone asks for none, and elsewhere text is drawn before it comes)
    loaded = [it for it in at.browser.script(LOADED) if not it[0].endswith(".woff2")]
    plain = [it for it in loaded if it[2] > 3000 and it[1] > it[2] * 0.7]
    same("what does not come compressed", [], plain)
    sent = sum(it[1] for it in loaded)
    holds(
        f"{len(loaded)} files of {sent} bytes are loaded to sign in",
        0 < sent <= MOST_BYTES_OF_SIGNING_IN,
    )


# Styles.

ACTING = """return [[...document.querySelectorAll('link[href^="css/"]')].filter((it) => it.sheet && !it.sheet.disabled).map((it) => it.getAttribute('href')),
    [...document.querySelectorAll(':is(#me, #foot) > :is(#screens, #languages, #session)')].map((it) => it.id)]"""


def looks_of(at: Place, screen: str, before: Sequence[str] = ()) -> Any:
    """Which styles act on a screen, in their order, and how its frame stands, once others were opened in this window."""
    at.browser.cleared(f"#{screen}")
    for other in before:
        enter_here(at, other)
        at.browser.sign_out()
        at.browser.sees("Sign in as")
    enter_here(at, screen)
    at.browser.settled()
    return at.browser.script(ACTING)


def enter_here(at: Place, screen: str) -> None:
    """Signs in without loading the page again."""
    at.browser.fill("Key", at.keys[PARTS[screen]])
    at.browser.choose_job(screen)
    at.browser.press("Sign in")
    at.browser.signed_in()
    at.browser.shown(screen)


@check
def a_screen_looks_the_same_whatever_was_opened_before(at: Place) -> None:
    for screen, before in [("dispatcher", ("rider",)), ("clerk", ("examiner", "driver"))]:
        same(
            f"the looks of {screen} after {before}",
            looks_of(at, screen),
            looks_of(at, screen, before),
        )
