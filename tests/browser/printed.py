"""Paper: what Ctrl+P and each button of printing give, read back from the PDF."""
import contextlib
import os
import re
import shutil
from collections.abc import Iterator
from typing import Any

import large_day
from checks import Place, check, holds, same
from common import PARTS
from dispatcher import open_popup, over, print_view
from paper import squares_in

VANS = 6
SMALLEST = 9
BY_VEHICLE = "2025-03-11"


def faults_of_paper(paper: Any) -> Iterator[str | None]:
    """Text below nine points, words beyond the edge of a page, a page without text."""
    size, text = paper.smallest()
    yield f"{text!r} is printed in {size:.1f} points" if size < SMALLEST - 0.1 else None
    yield f"words beyond the edge: {paper.outside()}" if paper.outside() else None
    yield None if all(it.strip() for it in paper.page_texts) else "a page is empty"


def faults_of(at: Place, screen: str) -> Iterator[str]:
    """What is wrong on the paper of each part of a screen."""
    for address in at.browser.each_part(at.keys[PARTS[screen]], screen):
        heading = at.browser.script("return document.querySelector('h1').textContent.trim()")
        paper = at.browser.printed()
        for fault in [
            *faults_of_paper(paper),
            None
            if heading in " ".join(paper.text.split())
            else f"the heading {heading!r} is not printed",
            "what only a screen needs is printed"
            if re.search("Sign out|Skip to|Print in", paper.text)
            else None,
            f"boxes are cut: {cut_boxes(at)}" if cut_boxes(at) else None,
        ]:
            if fault:
                yield f"{address}: {fault}"


def cut_boxes(at: Place) -> Any:
    """What has a scrollbar, or is cut, where it is printed."""
    with at.browser.media("print"):
        return at.browser.script(
            """return [...document.querySelectorAll('body *')].filter((it) => it.checkVisibility()
            && it.clientWidth > 1 && (getComputedStyle(it).overflowX !== 'visible' && it.scrollWidth > it.clientWidth + 1
            || getComputedStyle(it).overflowY !== 'visible' && it.scrollHeight > it.clientHeight + 1))
            .map((it) => it.tagName + ' ' + it.getAttribute('class'))"""
        )


def is_printed_whole(at: Place, screen: str) -> None:
    same("faults of paper", [], list(faults_of(at, screen)))


@check
def the_clerks_screen_is_printed_whole(at: Place) -> None:
    is_printed_whole(at, "clerk")


@check
def the_riders_screen_is_printed_whole(at: Place) -> None:
    is_printed_whole(at, "rider")


@check
def the_examiners_and_the_officers_screens_are_printed_whole(at: Place) -> None:
    is_printed_whole(at, "examiner")
    is_printed_whole(at, "officer")


MORE_THAN_A_PAGE = 1200  # pixels


def first_longer_paper(at: Place) -> Any:
    """The paper of what is shown, pushed down by the first pixel that makes it a page longer."""

    def pushed(pixels: int) -> Any:
        at.browser.script(
            "document.querySelector('main').style.paddingTop = `${arguments[0]}px`", pixels
        )
        return at.browser.printed()

    fits, longer = 0, MORE_THAN_A_PAGE
    pages = pushed(fits).pages
    while longer - fits > 1:
        middle = (fits + longer) // 2
        fits, longer = (middle, longer) if pushed(middle).pages == pages else (fits, middle)
    return pushed(longer)


@check
def what_just_fits_a_page_has_no_empty_page_after_it(at: Place) -> None:
    at.browser.sign_in(at.keys["officer"], "officer")
    at.browser.keep_subjects()
    at.browser.go("#officer/case")
    at.browser.sees("No decision of this rider can be appealed")
    paper = first_longer_paper(at)
    holds(f"the last of {paper.pages} pages is empty", paper.page_texts[-1].strip())


@check
def the_admins_screen_is_printed_whole(at: Place) -> None:
    is_printed_whole(at, "admin")


@check
def the_dispatchers_screen_is_printed_whole(at: Place) -> None:
    at.town.set_clock(BY_VEHICLE, "11:00")
    is_printed_whole(at, "dispatcher")


@check
def the_drivers_screen_is_printed_whole(at: Place) -> None:
    at.town.set_clock(BY_VEHICLE, "06:30")
    is_printed_whole(at, "driver")


@check
def the_card_of_a_key_has_a_square_that_a_camera_reads(at: Place) -> None:
    at.browser.sign_in(at.keys["admin"], "admin", "callers")
    at.browser.fill_all({"Caller number": "90", "Job": "Clerk"})
    at.browser.press("Make the key")
    at.browser.press("Yes, make a key for caller 90, Clerk")
    at.browser.sees("The key of caller 90, Clerk")
    key = at.browser.script("return document.querySelector('output.key').textContent").replace(
        "-", ""
    )
    sight = f"{at.folder}/square.png"
    with at.browser.media(prefers_color_scheme="dark"), open(sight, "wb") as file:
        file.write(at.browser.sight())
    same("what a camera reads on a dark screen", [key], squares_in(sight))
    paper = at.browser.print_by("Print the card of caller 90")
    same("what a camera reads on the card", [key], paper.squares())
    same("pages of the card", 1, paper.pages)


# A large day: at most so many pages, where 32 manifests were 155 once, and the day sheet 78.

MOST_MANIFESTS, MOST_SHEET, LEAST_PAGES = 100, 40, 20
PAGE_OF = {"en": r"Page (\d+) of (\d+)", "es": r"Página (\d+) de (\d+)"}
BUTTONS = {
    "en": ("Print all 32 manifests", "Print the day sheet", "Day"),
    "es": ("Imprimir las 32 hojas de ruta", "Imprimir la hoja del día", "Día"),
}


def keep_paper(paper: Any, name: str) -> None:
    """Where the environment names a folder as PAGES_SIGHTS, what was printed is kept there."""
    if folder := os.environ.get("PAGES_SIGHTS"):
        os.makedirs(folder, exist_ok=True)
        shutil.copy(paper.file, f"{folder}/{name}.pdf")


@contextlib.contextmanager
def large_day_on_screen(at: Place, language: str) -> Iterator[None]:
    """The dispatcher's Day shows the large day, as if the desk had it."""
    large_day.write(at.town)
    at.town.set_clock(BY_VEHICLE, "11:00")
    try:
        at.browser.speak(language)
        at.browser.sign_in(at.keys["dispatcher"], "dispatcher", "trips", language=language)
        at.browser.script(
            large_day.READS_DAY, large_day.sheet(BY_VEHICLE), large_day.rows(BY_VEHICLE)
        )
        at.browser.go_part("dispatcher", "day")
        open_popup(at)
        at.browser.find("button", BUTTONS[language][0])
        yield
    finally:
        at.browser.speak("en")
        at.town.write_files()


def numbers_of_pages(paper: Any, language: str) -> list[Any]:
    """Of each page what it says: its number, and how many there are."""
    return [
        tuple(map(int, found[0]))
        if len(found := re.findall(PAGE_OF[language], page)) == 1
        else page[-80:]
        for page in paper.page_texts
    ]


def whole_lists(numbers: Any) -> Any:
    """Whether pages are numbered from 1 to the last of each list, one list after another."""
    wanted = [
        (at, count)
        for count in [count for number, count in numbers if number == 1]
        for at in range(1, count + 1)
    ]
    return numbers == wanted


def large_day_is_printed(at: Place, language: str) -> None:
    manifests, day_sheet, _ = BUTTONS[language]
    with large_day_on_screen(at, language):
        paper = print_view(at, manifests)
        keep_paper(paper, f"manifests-{language}")
        same("faults of the manifests", [], [it for it in faults_of_paper(paper) if it])
        printed = " ".join(paper.text.split())
        missing = [
            trip
            for trip in range(1, large_day.VANS * large_day.TRIPS + 1)
            if len(re.findall(rf"\b{trip}\b", printed)) < 2
        ]
        same("trips that are not printed", [], missing)
        holds(
            "the long note is not printed whole",
            re.sub(r"\W", "", large_day.long_note()) in re.sub(r"\W", "", printed),
        )
        holds(
            f"the manifests have {paper.pages} pages", LEAST_PAGES < paper.pages <= MOST_MANIFESTS
        )
        numbers = numbers_of_pages(paper, language)
        same(
            "vans whose first page is there",
            large_day.VANS,
            sum(number == 1 for number, _ in numbers),
        )
        holds(f"pages of each van are numbered: {numbers}", whole_lists(numbers))
        over(at)
        sheet = print_view(at, day_sheet)
        keep_paper(sheet, f"sheet-{language}")
        same("faults of the day sheet", [], [it for it in faults_of_paper(sheet) if it])
        holds(f"the day sheet has {sheet.pages} pages", LEAST_PAGES / 2 < sheet.pages <= MOST_SHEET)
        same(
            "numbers of the sheet's pages",
            [(at + 1, sheet.pages) for at in range(sheet.pages)],
            numbers_of_pages(sheet, language),
        )
        over(at)
    print(f"pages of 32 vans, {language}: manifests {paper.pages}, day sheet {sheet.pages}")


@check
def a_large_day_is_printed_on_few_pages(at: Place) -> None:
    large_day_is_printed(at, "en")


@check
def a_large_day_is_printed_on_few_pages_in_spanish(at: Place) -> None:
    large_day_is_printed(at, "es")
