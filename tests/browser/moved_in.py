"""What bin/move-in makes of an agency's tables is what the pages read."""
import datetime
import json
import os
import re
import subprocess
from pathlib import Path

import people
from checks import Place, check, holds, same
from database import ROOT, Trouble

VANS = 0
TODAY = datetime.date.today()


def moved(at: Place, *words: str) -> str:
    """Runs bin/move-in in the folder of the moving agency."""
    run = subprocess.run(
        [f"{ROOT}/bin/move-in", *words],
        cwd=f"{at.folder}/moving",
        capture_output=True,
        text=True,
        env={**os.environ, "TZ": people.ZONE_OF_DESK},
    )
    if run.returncode:
        raise Trouble(f"move-in {' '.join(words)}: {run.stdout[-500:]} {run.stderr[-500:]}")
    return run.stdout


def key_of(at: Place, name: str) -> str:
    return Path(f"{at.folder}/moving/keys/{name}").read_text("utf-8").strip()


@check
def an_agency_moves_in_and_its_file_is_served(at: Place) -> None:
    folder, url = f"{at.folder}/moving", f"http://127.0.0.1:{at.town.desk.port}"
    at.town.set_clock(str(TODAY))
    subprocess.run([f"{ROOT}/bin/move-in", "example", folder], check=True, capture_output=True)
    os.makedirs(f"{folder}/keys", mode=0o700)
    with open(f"{folder}/keys/1-admin", "w", encoding="utf-8") as file:
        os.chmod(file.name, 0o600)
        file.write(people.ADMINS_KEY)
    admin = ["--url", url, "--admin", "keys/1-admin"]
    for words in [["routes", "feed.zip"], ["places", "places.csv"], ["callers", "callers.csv"]]:
        moved(at, *words, *admin)
    moved(at, "vehicles", "vehicles.csv", "--url", url, "--dispatcher", "keys/3-dispatcher")
    moved(
        at,
        "riders",
        "riders.csv",
        "--url",
        url,
        "--clerk",
        "keys/2-clerk",
        "--examiner",
        "keys/4-examiner",
    )
    words = [f"{ROOT}/bin/site-files", f"{folder}/agency.json", f"{at.folder}/site"]
    made = subprocess.run(words, capture_output=True, text=True)
    same("what site-files says", 0, made.returncode)
    agency = json.loads(Path(f"{folder}/agency.json").read_text("utf-8"))
    holds(
        f"it has no {agency.keys()}",
        {"name", "zone", "telephone", "places", "routes", "vehicles"} <= agency.keys(),
    )


@check
def the_pages_show_the_names_that_moved_in(at: Place) -> None:
    at.browser.sign_in(key_of(at, "2-clerk"), "clerk", "trips")
    at.browser.fill("Find a rider", 101)
    at.browser.press("Show")
    at.browser.sees("Book for", "101")
    same(
        "what is said of the files",
        "",
        at.browser.script("return document.getElementById('notes').innerText"),
    )
    at.browser.fill("From", "Main and")
    at.browser.sees("Main and River")
    at.browser.sign_in(key_of(at, "3-dispatcher"), "dispatcher")
    at.browser.press(re.compile("on duty without trips$"))
    at.browser.sees("Van 12")
