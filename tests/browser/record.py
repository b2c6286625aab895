"""The page *Record*: who did what, as an officer and an admin ask it, over the record of the town's own site."""
import contextlib
import hashlib
import os
import subprocess
from collections.abc import Iterator

from checks import Place, check, holds, same
from database import ROOT, until

VANS = 1
RIDER = 1002
DAY = "2025-03-10"


@contextlib.contextmanager
def answering(at: Place) -> Iterator[None]:
    """The record of the town answers meanwhile."""
    folder = at.town.folder
    words = [
        f"{ROOT}/bin/journal",
        "--folder",
        f"{folder}/journal",
        "--agency",
        f"{folder}/site/agency.json",
        "serve",
        f"{folder}/socket",
    ]
    process = subprocess.Popen([*words, "--roster", f"{folder}/site/staff/roster.csv"])
    try:
        until("the record answers", lambda: os.path.exists(f"{folder}/socket"))
        yield
    finally:
        process.terminate()
        process.wait()
        os.remove(f"{folder}/socket")


def digest_of(key: str) -> str:
    return hashlib.sha256(key.encode()).hexdigest()


def begin(at: Place, holder: str) -> None:
    at.town.set_clock(DAY, "10:00")
    at.browser.sign_in(at.keys[holder], holder, "record")
    at.browser.sees("Who did what")


def asks(at: Place, question: str, number: int | None = None) -> None:
    at.browser.fill("What do you want to know?", question)
    at.browser.fill("Number", "" if number is None else str(number))
    at.browser.press("Show")


@check
def an_officer_sees_what_happened_to_a_trip(at: Place) -> None:
    number = at.town.book(RIDER, "2025-03-12", 600, 2, 3)
    with answering(at):
        begin(at, "officer")
        asks(at, "What happened to a trip?", number)
        at.browser.sees(f"What happened to trip {number}")
        at.browser.sees(f"booked trip {number}")
        at.browser.sees("promised: 2025-03-12")


@check
def a_clerk_reads_one_sentence(at: Place) -> None:
    with answering(at):
        at.town.set_clock(DAY, "10:00")
        at.browser.sign_in(at.keys["clerk"], "officer", "record")
        at.browser.sees("This key may not read the record. It is for officers and admins.")
        at.browser.sees_no("What do you want to know?")


@check
def keys_need_no_number_and_a_trip_needs_one(at: Place) -> None:
    begin(at, "officer")
    asks(at, "What happened to a trip?")
    at.browser.sees("Write the number of the trip, the rider or the caller.")
    asks(at, "Who changed keys?", 5)
    at.browser.sees("The list of keys takes no number.")


@check
def without_a_record_the_page_says_so(at: Place) -> None:
    begin(at, "officer")
    asks(at, "Who changed keys?")
    at.browser.sees("This site has no record, or it could not be read.")


@check
def an_admin_sees_keys_that_one_person_put_for_another(at: Place) -> None:
    digest = "ab" * 32
    at.town.post(
        "admin",
        "/callers",
        {"id": 77, "role": "examiner", "subject": 0, "digest": digest, "name": "Rosa Peña"},
    )
    with answering(at):
        begin(at, "admin")
        at.browser.sees("put a key for caller 77 (Rosa Peña, examiner)")
        at.browser.sees("put by a key of nobody whom callers.csv names")


@check
def the_spanish_page_answers_in_spanish_and_axe_finds_nothing(at: Place) -> None:
    """The heads, the answer and what is to be looked at, also with the answer on the page; and in English."""
    number = at.town.book(RIDER, "2025-03-12", 660, 2, 3)
    at.town.post(
        "admin",
        "/callers",
        {"id": 78, "role": "officer", "subject": 0, "digest": "cd" * 32, "name": "Ana Ruiz"},
    )
    at.browser.speak("es")
    try:
        with answering(at):
            at.town.set_clock(DAY, "10:00")
            at.browser.sign_in(at.keys["admin"], "admin", "record", "es")
            at.browser.sees(
                "Quién hizo qué",
                "puso una clave para el usuario 78 (Ana Ruiz, oficial de apelaciones)",
                "la puso una",
            )
            at.browser.fill("¿Qué quiere saber?", "¿Qué pasó con un viaje?")
            at.browser.fill("Número", str(number))
            at.browser.press("Mostrar")
            at.browser.sees(
                f"Qué pasó con el viaje {number}",
                f"reservó el viaje {number}",
                "se prometió: 2025-03-12, recogida de",
                "hecho",
            )
            shown = at.browser.text()
            holds(
                f"English words in a Spanish answer: {shown[:2000]}",
                not any(
                    it in shown
                    for it in ("booked", "promised", "caller 78", "done", "put a key", "put by")
                ),
            )
            same("axe, in Spanish", [], at.browser.axe()["violations"])
    finally:
        at.browser.speak("en")
    with answering(at):
        begin(at, "admin")
        asks(at, "What happened to a trip?", number)
        at.browser.sees(f"booked trip {number}")
        same("axe, in English", [], at.browser.axe()["violations"])


@check
def a_second_admin_sees_what_the_first_one_put(at: Place) -> None:
    """The line names both: who put the key, and for whom."""
    second, callers = "second admin's key", f"{at.town.folder}/journal/callers.csv"
    with open(callers, "w", encoding="utf-8") as file:
        file.write(
            f"number,name,role,subject,from,to,digits\n1,Berta Sol,admin,,,,{digest_of(at.keys['admin'])[:12]}\n"
        )
    try:
        at.town.post(
            "admin",
            "/callers",
            {
                "id": 79,
                "role": "admin",
                "subject": 0,
                "digest": digest_of(second),
                "name": "Luz Vega",
            },
        )
        at.town.post(
            "admin",
            "/callers",
            {"id": 80, "role": "officer", "subject": 0, "digest": "ef" * 32, "name": "Rosa Peña"},
        )
        with answering(at):
            at.town.set_clock(DAY, "10:00")
            at.browser.sign_in(second, "admin", "record")
            at.browser.sees(
                "put a key for caller 80 (Rosa Peña, officer)",
                "Berta Sol, admin (caller 1)",
                "put by one person for another",
            )
    finally:
        os.remove(callers)


@check
def a_clerk_has_no_record(at: Place) -> None:
    at.town.set_clock(DAY, "10:00")
    at.browser.sign_in(at.keys["clerk"], "clerk")
    holds(
        "a clerk has a part Record",
        not at.browser.script(
            "return [...document.querySelectorAll('nav a')].some((it) => it.textContent.trim() === 'Record')"
        ),
    )
    status, _, _ = at.town.answer("/record/keys", {"Desk-Key": at.keys["clerk"]})
    same("the site's answer", 403, status)
