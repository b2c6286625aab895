"""What follows by itself: trips on closed days are listed and canceled, and a marked denial has its copy of the file."""

from __future__ import annotations

import csv
import io
import json
from datetime import timedelta

from desk_tools import agencies
from desk_tools.booted import office, stolen
from desk_tools.booted.town import Town

MAIN = agencies.Agency()
CLOSED, DENIALS = MAIN.unit_of("closed-days"), MAIN.unit_of("denials")
CLOSED_FOLDER = MAIN.data("closed-days")
KEY, CALLS = "the closed days", f"{CLOSED_FOLDER}/closed-days.csv"
KEPT, MARK = f"{MAIN.backups}/denials", "01JB00TED0000000000000MARK"


def check(town: Town) -> None:
    """All of this part. It makes a rider with two trips of tomorrow."""
    stolen.make_town(town)
    check_closed_days(town)
    check_denials(town)


def run_once(town: Town, unit: str) -> str:
    """What a unit said in the run that is made of it now."""
    machine = town.machine
    machine.run("journalctl --sync")
    since = machine.run("date +%s.%N").output.strip()
    ran = machine.run(f"systemctl start {unit}.service", check=False)
    words = f"journalctl --sync; journalctl -u {unit} -o cat --since @{since}"
    said = machine.run(words).output
    town.checks.holds(f"{unit}.service ends well", ran.is_well, ran.output + said)
    return said


def statuses(town: Town) -> list[str]:
    """How the rider's trips are, in order of their numbers."""
    reply = office.ask(town.machine, f"/riders/{stolen.RIDER}/trips", key=stolen.MINE)
    return [it["status"] for it in json.loads(reply.body)["trips"]]


def check_closed_days(town: Town) -> None:
    """Nothing without a key; then a list; and where that is set, each trip is canceled, called about and counted."""
    checks, machine, day = town.checks, town.machine, stolen.today(town.machine)
    closed = {"day": (day + timedelta(days=1)).isoformat(), "name": "Founders' Day"}
    said = machine.run(f"cat {MAIN.names}").output
    before = json.loads(said)
    machine.run(f"cat >{MAIN.names}", stdin=json.dumps({**before, "closed": [closed]}))
    checks.has("without a key it leaves all as it is", "skipped", run_once(town, CLOSED))
    path, body = stolen.caller(5, "dispatcher", KEY)
    stolen.write(town, town.admin, town.next_number(), path, body)
    machine.run(
        f"umask 077; mkdir -p {agencies.SETTINGS}/keys; cat >{MAIN.key('closed-days')}", stdin=KEY
    )
    told = run_once(town, CLOSED)
    checks.has("it counts", f"{closed['day']} (Founders' Day) is closed; 2 trips", told)
    checks.has("it names whom to call", "Ana Lind (7), pickup", told)
    checks.equal("it only lists", ["booked", "booked"], statuses(town))
    machine.run(f"echo CLOSED_DAYS=cancel >{MAIN.own('closed-days.conf')}")
    checks.has("it cancels where that is set", "2 trips are canceled", run_once(town, CLOSED))
    checks.equal("they are canceled", ["cancelled", "cancelled"], statuses(town))
    rows = list(csv.DictReader(io.StringIO(machine.run(f"cat {CALLS}").output)))
    found = [(it["telephone"], it["canceled"]) for it in rows]
    checks.equal("the call list", [("555-0107", "yes")] * 2, found)
    mode = machine.run(f"stat -c '%a %U' {CLOSED_FOLDER} {CALLS}").output.split("\n")[:2]
    checks.equal("it is root's alone", ["700 root", "600 root"], mode)
    counted = machine.run(f"grep -c /tally/cancellations.*by=agency {MAIN.tally}")
    checks.equal("the site counts them", "2", counted.output.strip())
    checks.has("a second run finds none", "; 0 trips are booked", run_once(town, CLOSED))
    machine.run(f"rm {MAIN.own('closed-days.conf')}")
    machine.run(f"cat >{MAIN.names}", stdin=said)


def check_denials(town: Town) -> None:
    """A mark by dispatch has a whole copy and a note within a minute, and one copy alone."""
    checks, machine, day = town.checks, town.machine, stolen.today(town.machine)
    machine.run(f"systemctl start {DENIALS}.service")
    checks.holds("no mark, no copy", not machine.run(f"ls {KEPT}", check=False).is_well)
    mark_day = day + timedelta(days=1)
    mark = f"/tally/marks?id={MARK}&day={mark_day}&minute=600&at={day}T00:00:00"
    reply = office.ask(machine, mark, key=stolen.RADIO, body={})
    checks.equal("dispatch marks a denial", 204, reply.status)
    note = f"{KEPT}/denial-*.json"
    # (the timer looks each minute, and the copy takes some seconds of a busy machine)
    if not checks.holds("it has its copy by itself", machine.wait_for(f"cat {note}", 120)):
        log = machine.run(f"journalctl --sync; journalctl -u {DENIALS} -n 20 -o cat").output
        checks.holds("what the unit said", False, log)
        return
    told = json.loads(machine.run(f"cat {note}").output)
    checks.equal("what is noted", ("600", f"{mark_day}"), (told.get("minute"), told.get("day")))
    machine.run(f"cp {KEPT}/{told['copy']} /root/marked.db")
    ran = machine.run(f"desk trips /root/marked.db UTC0 '{stolen.RADIO}' {mark_day}", check=False)
    checks.equal(
        "the copy opens, with both trips", (0, 2), (ran.status, ran.output.count("cancelled"))
    )
    mode = machine.run(f"stat -c '%a %U' {KEPT} {KEPT}/{told['copy']}").output.split("\n")[:2]
    checks.equal("the copies are not for everybody", ["700 root", "600 root"], mode)
    said = run_once(town, DENIALS)
    checks.has("the next look makes none", "no denial is marked that has no copy", said)
    copies = machine.run(f"ls {KEPT}").output.split()
    checks.equal("one copy and its note", 2, len(copies))
