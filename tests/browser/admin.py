"""The admin's keys, fares, places, lines and names."""
import csv
import hashlib
import io
import json
import os
import re
from pathlib import Path

from selenium.webdriver.common.by import By
from selenium.webdriver.common.keys import Keys

from checks import Place, check, holds, same
from database import until
from scripts import SAVED

VANS = 0


def make_key(at: Place, number: int, role: str) -> None:
    at.browser.fill_all({"Caller number": str(number), "Job": role})
    at.browser.press("Make the key")


@check
def the_first_admin_stays_an_admin_and_a_taken_number_says_whose_it_is(at: Place) -> None:
    at.browser.sign_in(at.keys["admin"], "admin", "callers")
    make_key(at, 1, "Clerk")
    at.browser.sees("Caller 1 is the first admin and stays an admin.")
    make_key(at, 2, "Clerk")
    at.browser.sees("Make a key for caller 2, Clerk?")
    at.browser.press("Yes, make a key for caller 2, Clerk")
    at.browser.sees("The key of caller 2, Clerk", "It is shown only once.")
    key = at.browser.script("return document.querySelector('output.key').textContent")
    same("the groups", [5, 5, 5, 5, 5, 1], [len(it) for it in key.split("-")])
    same("the focus", "new-key", at.browser.script("return document.activeElement.id"))
    holds(
        "the key is kept",
        key not in at.browser.script("return JSON.stringify({ ...localStorage })"),
    )
    paper = at.browser.print_by("Print the card of caller 2")
    holds(f"the key is not on the card: {paper.text}", key in paper.text)
    make_key(at, 2, "Officer")
    at.browser.sees("Number 2 is taken: Clerk, since")
    at.browser.press("No, go back")


@check
def a_place_ten_times_too_far_is_asked_about(at: Place) -> None:
    at.browser.sign_in(at.keys["admin"], "admin", "places")
    at.browser.fill_all({"Place number": "90", "East": "1,250,00", "North": "0"})
    at.browser.press("Save place")
    at.browser.sees("Write a whole number")
    at.browser.fill("East", "125,000")
    at.browser.press("Save place")
    at.browser.sees("miles from everything on the map. Put it there?")
    at.browser.press("No, go back")
    at.browser.fill("East", "12 500")
    at.browser.press("Save place")
    at.browser.sees("90 is saved.")


@check
def a_new_agency_is_shown_how_to_begin_and_the_first_place_takes_that_away(at: Place) -> None:
    """The files of a site without places, which the page reads in place of the town's."""
    there, kept = (at.town.file("places.json"), at.town.file("agency.json")), None
    at.town.write_file("places.json", '{"places": [], "routes": [], "vehicles": []}')
    at.town.write_file(
        "agency.json", json.dumps({**json.loads(there[1]), "name": "Lake Town Transit"})
    )
    try:
        at.browser.sign_in(at.keys["admin"], "admin", "places")
        kept = at.browser.script(
            "const kept = localStorage.getItem('desk.agency'); localStorage.removeItem('desk.agency'); return kept"
        )
        at.browser.reload()
        at.browser.sees(
            "Click where your first place is",
            "Your garage is a good start.",
            "5 mi west",
            "5 mi east",
            "3 miles",
            "Set up your agency",
            "Lake Town Transit",
            "None yet",
            "No mouse needed",
        )
        same(
            "what is next",
            ["Places"],
            at.browser.script(
                "return [...document.querySelectorAll('[aria-current=step] b')].map((it) => it.textContent)"
            ),
        )
        same("the number that is offered", "1", at.browser.value("Place number"))
        at.browser.driver.find_element(By.CSS_SELECTOR, "svg.map").click()
        holds(
            "a click in the middle is not near the point from which all is measured",
            all(abs(int(at.browser.value(it))) < 200 for it in ("East", "North")),
        )
        at.browser.sees_no("Click where your first place is")
        at.browser.fill_all({"Place number": "77", "Name": "Garage"})
        at.browser.press("Save place")
        at.browser.sees("77 is saved.", "1 place")
        same(
            "what is next then",
            ["Routes"],
            at.browser.script(
                "return [...document.querySelectorAll('[aria-current=step] b')].map((it) => it.textContent)"
            ),
        )
        at.browser.sees_no("Click where your first place is")
    finally:
        at.browser.script(
            "if (arguments[0]) localStorage.setItem('desk.agency', arguments[0]); else localStorage.removeItem('desk.agency')",
            kept,
        )
        at.town.write_file("places.json", there[0])
        at.town.write_file("agency.json", there[1])


@check
def units_stand_in_the_fields_and_are_heard_with_them(at: Place) -> None:
    at.browser.sign_in(at.keys["admin"], "admin", "policy")
    for name, unit in [
        ("At least", "no-shows"),
        ("And at least", "% of trips"),
        ("Within", "days"),
        ("Time at each stop", "min"),
    ]:
        described = at.browser.script(
            "return arguments[0].getAttribute('aria-describedby').split(' ').map((id) => document.getElementById(id)?.textContent)",
            at.browser.find("field", name),
        )
        holds(f"{name} is described by {described}", unit in described)


@check
def the_policy_that_was_put_last_is_shown_and_asked_about(at: Place) -> None:
    at.browser.sign_in(at.keys["admin"], "admin", "policy")
    at.browser.sees(
        "Nothing was saved from this browser yet.", "A new desk counts one no-show as a pattern."
    )
    at.browser.fill_all(
        {
            "Same trip by bus": "1.75",
            "Transfer charge": "0.50",
            "Your fare": "4",
            "Time at each stop": "2",
            "Extra ride time": "20",
            "At least": "2",
            "And at least": "10",
            "Within": "30",
        }
    )
    at.browser.press("Save fares and limits")
    at.browser.sees(
        "Replace all fares and limits with these?",
        "$4.00",
        "One or two no-shows are no pattern or practice",
    )
    at.browser.press("No, go back")
    at.browser.fill("At least", "3")
    at.browser.press("Save fares and limits")
    at.browser.sees("Replace all fares and limits with these?", "$4.00")
    at.browser.sees_no("One or two no-shows are no pattern")
    at.browser.press("Save fares and limits")
    at.browser.sees("These fares and limits are in force now.")
    at.browser.sign_out()
    at.browser.sign_in(at.keys["admin"], "admin", "policy")
    at.browser.sees("Last saved from this browser on")
    same("the fare in the form", "4.00", at.browser.value("Your fare"))


@check
def a_line_that_is_there_is_replaced_only_after_a_question(at: Place) -> None:
    at.browser.sign_in(at.keys["admin"], "admin", "routes")
    line = {
        "Route number": "7",
        "Points of the route": "0, 0\n20,000; 3,000",
        "From": "5 am",
        "To": "11 pm",
    }
    at.browser.fill_all(line)
    at.browser.press("Save route")
    at.browser.sees("Route 7 is saved.")
    at.browser.fill_all(line)
    at.browser.press("Save route")
    at.browser.sees("There is a route 7 already. Replace it?")
    at.browser.press("No, go back")


CALLERS = """number,name,role,subject,from,to,digits
2,Ben Ode,clerk,,2020-01-01,,
70,"Cruz, Eva",driver,1,2026-01-02,,
71,,king,,,,
"""


@check
def a_key_is_canceled_and_the_list_has_names_and_is_saved_and_loaded(at: Place) -> None:
    at.browser.sign_in(at.keys["admin"], "admin", "callers")
    at.browser.fill("Who it’s for", "Ana Núñez")
    make_key(at, 40, "Dispatcher")
    at.browser.press("Yes, make a key for caller 40, Dispatcher")
    at.browser.sees("The key of caller 40, Dispatcher")
    key = at.browser.script("return document.querySelector('output.key').textContent").replace(
        "-", ""
    )
    holds(
        "the card names the person",
        "Ana Núñez" in at.browser.print_by("Print the card of caller 40").text,
    )
    same("the next number", "41", at.browser.value("Caller number"))
    at.browser.press("Drivers 0")
    holds(
        "a dispatcher is among the drivers", not at.browser.is_there("field", "Name of caller 40")
    )
    at.browser.press(re.compile("^Staff [1-9]"))
    at.browser.press("Replace: caller 40, Ana Núñez, Dispatcher")
    same(
        "the form is of that key",
        ["40", "Ana Núñez", "dispatcher"],
        [at.browser.value(it) for it in ("Caller number", "Who it’s for", "Job")],
    )
    at.browser.sees("Number 40 is taken: Ana Núñez, Dispatcher. A new key replaces that one.")
    same("the key works", 200, at.town.answer("/days/2025-03-10/sheet", {"Desk-Key": key})[0])
    at.browser.press("Cancel key: caller 40, Ana Núñez, Dispatcher")
    at.browser.sees(
        "Cancel the key of caller 40, Ana Núñez, Dispatcher?", "It stops working at once"
    )
    at.browser.press("Yes, cancel the key of caller 40")
    at.browser.sees(
        "The key of caller 40 is canceled.",
        "canceled ",
        "Number 40 has a canceled key. The new key takes its place.",
    )
    same("the canceled key", 401, at.town.answer("/days/2025-03-10/sheet", {"Desk-Key": key})[0])
    holds(
        "a canceled key is offered to be canceled",
        not at.browser.all("button", re.compile("^Cancel key: caller 40, Ana")),
    )
    holds(
        "the first admin's key is offered to be canceled",
        not at.browser.all("button", re.compile("Cancel key: caller 1,")),
    )
    at.browser.fill("Name of caller 2", "Ben")
    at.browser.keys(Keys.TAB)
    at.browser.script(SAVED)
    at.browser.press("Save the list as a file")
    saved = bytes(
        until("nothing is saved", lambda: at.browser.script("return window.saved[0]"))
    ).decode("utf-8-sig")
    rows = list(csv.reader(io.StringIO(saved)))
    same("the columns", ["number", "name", "role", "subject", "from", "to", "digits"], rows[0])
    same(
        "names beside numbers",
        [("2", "Ben", "clerk"), ("40", "Ana Núñez", "dispatcher")],
        [tuple(row[:3]) for row in rows if row[0] in ("2", "40")],
    )
    holds(
        "a key or a whole digest is in the file",
        key not in saved and hashlib.sha256(key.encode()).hexdigest() not in saved,
    )
    at.browser.press(re.compile("^All [1-9]"))
    path = os.path.join(at.folder, "callers.csv")
    Path(path).write_text(CALLERS, "utf-8")
    at.browser.driver.find_element(By.ID, "callers-file").send_keys(path)
    at.browser.sees(
        "2 callers read from the file. These rows have no right number or role and were left out: 4."
    )
    same("a name of the file", "Cruz, Eva", at.browser.value("Name of caller 70"))
    same("a later row of this browser stays", "Ben", at.browser.value("Name of caller 2"))
    same("the next number then", "71", at.browser.value("Caller number"))


@check
def who_cancels_the_own_key_is_not_locked_out(at: Place) -> None:
    at.browser.sign_in(at.keys["admin"], "admin", "callers")
    make_key(at, 50, "Admin")
    at.browser.press("Yes, make a key for caller 50, Admin")
    at.browser.sees("The key of caller 50, Admin")
    own = at.browser.script("return document.querySelector('output.key').textContent")
    at.browser.sign_in(own, "admin", "callers")
    at.browser.press("Cancel key: caller 50, Admin")
    at.browser.press("Yes, cancel the key of caller 50")
    at.browser.sees("That was your own key. This is your new one.", "The key of caller 50, Admin")
    new = at.browser.script("return document.querySelector('output.key').textContent").replace(
        "-", ""
    )
    same(
        "the old and the new key",
        [401, 403],
        [
            at.town.answer("/days/2025-03-10/sheet", {"Desk-Key": it})[0]
            for it in (own.replace("-", ""), new)
        ],
    )


def chosen_file(at: Place, content: str) -> None:
    """The server's file as the admin chooses it; what the page saves of it."""
    path = os.path.join(at.folder, "agency.json")
    Path(path).write_text(content, "utf-8")
    at.browser.script(SAVED)
    at.browser.driver.find_element(By.ID, "server-file").send_keys(path)


@check
def what_was_put_here_is_saved_into_the_servers_file_or_forgotten(at: Place) -> None:
    at.browser.sign_in(at.keys["admin"], "admin", "names")
    at.browser.sees(
        "The server has the file of the example town.",
        "This browser has names that the file on the server does not have.",
    )
    at.browser.fill_all(
        {"Type": "vehicle", "Number": "3", "Name": "Van 3, red"},
        at.browser.find("region", "A name"),
    )
    at.browser.press("Save the name")
    at.browser.sees("Saved in this browser.")
    chosen_file(at, "no file")
    at.browser.sees("This is not an agency.json: it is not one JSON object. Nothing was saved.")
    chosen_file(
        at,
        json.dumps(
            {"name": "Ours", "places": [{"id": 14, "name": "Home", "private": 1004}], "own": 1}
        ),
    )
    at.browser.sees("Saved. Check the file, and have it put on the server.")
    saved = json.loads(
        bytes(until("nothing is saved", lambda: at.browser.script("return window.saved[0]")))
    )
    same("the server's own", ["Ours", 1], [saved["name"], saved["own"]])
    same(
        "places",
        [(14, "Home", 1004), (90, None, None)],
        [(it["id"], it.get("name"), it.get("private")) for it in saved["places"]],
    )
    same("the name that was put", [{"id": 3, "name": "Van 3, red"}], saved["vehicles"])
    at.browser.press("Discard what this browser saved")
    at.browser.press("Yes, discard them")
    at.browser.sees("Everything here is already on the server.")
    same(
        "what this browser keeps",
        None,
        at.browser.script("return localStorage.getItem('desk.agency')"),
    )


@check
def closed_days_are_kept_and_saved_into_the_servers_file(at: Place) -> None:
    at.browser.sign_in(at.keys["admin"], "admin", "names")
    field = "Closed days, on which nobody is served"
    try:
        for wrong in ("Christmas", "2026-12-25 one\n2026-12-25 two"):
            at.browser.fill(field, wrong)
            at.browser.press("Save the agency")
            at.browser.sees(f"“{wrong.splitlines()[-1]}” does not begin with a day")
        at.browser.fill(field, "2026-12-25 Christmas Day\n2026-11-26")
        at.browser.press("Save the agency")
        at.browser.sees("Saved in this browser.")
        chosen_file(at, json.dumps({"name": "Ours", "closed": [{"day": "2025-12-25"}]}))
        saved = json.loads(
            bytes(until("nothing is saved", lambda: at.browser.script("return window.saved[0]")))
        )
        same(
            "the closed days",
            [{"day": "2026-11-26"}, {"day": "2026-12-25", "name": "Christmas Day"}],
            saved["closed"],
        )
        at.browser.fill(field, "")
        at.browser.press("Save the agency")
        until(
            "the days go",
            lambda: at.browser.script(
                "return JSON.parse(localStorage.getItem('desk.agency')).settings.closed.length === 0"
            ),
        )
    finally:
        at.browser.script("localStorage.removeItem('desk.agency')")


@check
def who_replaces_the_own_key_goes_on_with_the_new_one(at: Place) -> None:
    at.browser.sign_in(at.keys["admin"], "admin", "callers")
    make_key(at, 1, "Admin")
    at.browser.sees(
        "Replace the key of caller 1, the first admin?", "The old key stops working at once."
    )
    at.browser.press("Yes, replace the key of the first admin")
    at.browser.sees("The key of caller 1, Admin")
    make_key(at, 9, "Dispatcher")
    at.browser.press("Yes, make a key for caller 9, Dispatcher")
    at.browser.sees("The key of caller 9, Dispatcher")
    same("the old key", 401, at.town.answer("/riders/1/trips", {"Desk-Key": at.keys["admin"]})[0])
