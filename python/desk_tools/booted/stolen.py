"""A rider's and a driver's stolen key, by the commands of the document, on the machine that serves."""

from __future__ import annotations

import time
from datetime import date, timedelta

from desk_tools import agencies
from desk_tools.booted import documents, office
from desk_tools.booted.machines import Machine
from desk_tools.booted.second import COPY, copies
from desk_tools.booted.town import Town

MAIN = agencies.Agency()
RUNNING, KEYS, COMMANDS = "RUNNING.md", "When something is wrong with a key", "The commands"
ANOTHER = "Another key for the admin"
RIDER, HIGHEST = 7, 4_294_967_295
CLERK, RADIO, PANEL, MINE, WHEEL = "the clerk", "the radio", "the panel", "the rider", "the wheel"
EACH_DAY = [1, 2, 3, 4, 5, 6, 7]
POLICY = {
    "base": 175,
    "transfer": 50,
    "fare": 400,
    "service": 2,
    "extra_ride": 20,
    "min_missed": 3,
    "percent": 10,
    "span_days": 30,
}
LINE = {
    "id": 1,
    "width": 3960,
    "points": [[0, 0], [20000, 0]],
    "accessible": True,
    "days": EACH_DAY,
    "first": 0,
    "last": 1439,
}
TIMES = "from,to,minutes\n1,2,18\n2,1,18\n1,3,11\n3,1,11\n2,3,9\n3,2,9\n"


def today(machine: Machine) -> date:
    """The agency's day on the machine."""
    return date.fromisoformat(machine.run(f"TZ={office.ZONE} date +%F").output.strip())


def caller(number: int, role: str, key: str, subject: int = 0) -> tuple[str, dict[str, object]]:
    """A request that lets somebody in."""
    body = {"id": number, "role": role, "subject": subject, "digest": office.digest_of(key)}
    return "/callers", body


def trip(day: date, wish: int) -> dict[str, object]:
    """What a rider asks for."""
    return {
        "rider": RIDER,
        "day": day.isoformat(),
        "wish": wish,
        "from": 1,
        "to": 2,
        "by": None,
        "attendant": False,
        "companions": 0,
    }


def write(town: Town, key: str, number: int, path: str, body: object) -> None:
    """One write, which has to be taken."""
    reply = office.ask(town.machine, path, key=key, body=body, number=number)
    town.checks.equal(f"{path} {number}", (200, reply.body), (reply.status, reply.body))


def make_town(town: Town) -> None:
    """A van, a rider with two trips of tomorrow, and who has to do with them."""
    machine, day = town.machine, today(town.machine)
    for path, body in [
        caller(2, "clerk", CLERK),
        caller(3, "dispatcher", RADIO),
        caller(4, "examiner", PANEL),
        ("/policy", POLICY),
        ("/places", {"id": 1, "x": 0, "y": 0, "core": False}),
        ("/places", {"id": 2, "x": 15000, "y": 3000, "core": False}),
        ("/places", {"id": 3, "x": 9000, "y": 1000, "core": True}),
        ("/routes", LINE),
    ]:
        write(town, town.admin, town.next_number(), path, body)
    van = {
        "id": 1,
        "from_day": day.isoformat(),
        "days": EACH_DAY,
        "depot": 1,
        "capacity": 4,
        "opens": 300,
        "closes": 1380,
        "duration": 1080,
    }
    write(town, RADIO, 1, "/vehicles", van)
    give_times(town, day)
    write(town, CLERK, 1, "/riders", {"id": RIDER, "kind": "resident", "attendant": False})
    for path, body in caller(RIDER, "rider", MINE, RIDER), caller(6, "driver", WHEEL, 1):
        write(town, town.admin, town.next_number(), path, body)
    write(town, CLERK, 2, f"/riders/{RIDER}/entries", {"entry": "complete"})
    grant = {
        "entry": "grant",
        "until": (day + timedelta(days=365)).isoformat(),
        "conditions": ["always"],
    }
    write(town, PANEL, 1, f"/riders/{RIDER}/entries", grant)
    for number, wish in (1, 600), (2, 780):
        write(town, MINE, number, "/trips", trip(day + timedelta(days=1), wish))
    machine.run(
        f"cat >{MAIN.own('roster.csv')}", stdin="rider,name,telephone\n7,Ana Lind,555-0107\n"
    )
    text = documents.block(machine, RUNNING, ANOTHER, "cat >/root/keys/1-admin")
    for name, key in ("1-admin", town.admin), ("clerk", CLERK):
        machine.run(documents.filled(text, {"1-admin": name}), stdin=f"{key}\n")
    machine.run(f"echo '127.0.0.1 {office.NAME}' >>/etc/hosts")


def give_times(town: Town, day: date) -> None:
    """Driving times, by the document's own commands."""
    machine = town.machine
    machine.run("umask 077; mkdir -p /root/work; cat >/root/work/times.csv", stdin=TIMES)
    machine.run("umask 077; cat >/root/work/KEYFILE", stdin=f"{RADIO}\n")
    text = documents.block(machine, RUNNING, COMMANDS, f"journal travel {MAIN.file}")
    zone = machine.run(f"sed -n s/^ZONE=//p {MAIN.conf}").output.strip()
    text = documents.filled(
        text,
        {
            "EST5EDT,M3.2.0,M11.1.0": zone,
            "KEYFILE NUMBER DAY": f"KEYFILE 2 {day.isoformat()}",
        },
    )
    told = documents.play(machine, text, "/root/work", check=False)
    town.checks.has("driving times", "done", told.output)
    town.checks.holds("the desk answers after that", office.answers(machine))


def check(town: Town) -> None:
    """Both thefts, and what the document's command says of each."""
    day = today(town.machine)
    backup = f"{MAIN.backups}/{copies(town.machine)[0].name}"
    check_rider(town, day, backup)
    check_driver(town, day, backup)
    # (the command's own writes as the admin have the time for their numbers)
    town.number = int(time.time()) + 1_000


def check_rider(town: Town, day: date, backup: str) -> None:
    """A rider's key is stolen, and the thief writes."""
    machine, checks = town.machine, town.checks
    moved = trip(day + timedelta(days=6), 1100)
    del moved["rider"]
    for number, path, body in [
        (50, "/trips/1/cancel", {}),
        (51, "/trips/2/change", moved),
        (HIGHEST, "/trips", trip(day + timedelta(days=1), 1020)),
    ]:
        write(town, MINE, number, path, body)
    text = documents.block(machine, RUNNING, KEYS, "stolen-key RIDER")
    text = documents.filled(
        text,
        {
            "RIDER": str(RIDER),
            "https://desk.example.org": f"https://{office.NAME} --certificate {office.CERTIFICATE}",
            "CLERKS-KEYFILE": "/root/keys/clerk",
            f"{MAIN.backups}/{COPY}": backup,
            "NUMBER": str(RIDER),
        },
    )
    told = documents.play(machine, text, check=False)
    for what, wanted in [
        ("numbers that are used up", "is now that of caller 8"),
        ("a new key that writes", "the new key can write"),
        ("how many rows", "rider 7: 3 rows differ"),
        ("a canceled trip", "- trip 1 was booked and is canceled"),
        ("a moved trip", "- trip 2 was moved"),
        ("a booked trip", "- trip 3 was booked since"),
        ("whom to call", "Ana Lind 555-0107"),
    ]:
        checks.has(f"a rider's stolen key: {what}", wanted, told.output)
    checks.equal(
        "the stolen key", 401, office.ask(machine, f"/riders/{RIDER}/trips", key=MINE).status
    )
    new = machine.run("cat /root/keys/riders-key", check=False).output.strip()
    checks.equal("the new key", 200, office.ask(machine, f"/riders/{RIDER}/trips", key=new).status)


def check_driver(town: Town, day: date, backup: str) -> None:
    """A driver's key is stolen."""
    machine, checks = town.machine, town.checks
    text = documents.block(machine, RUNNING, KEYS, "--vehicle VEHICLE")
    text = documents.filled(
        text,
        {
            "VEHICLE": "1",
            "https://desk.example.org": f"https://{office.NAME} --certificate {office.CERTIFICATE}",
            f"{MAIN.backups}/{COPY}": backup,
            "2025-03-11T18:30": f"{day}T00:00",
            "NUMBER": "6",
        },
    )
    told = documents.play(machine, text, check=False)
    for wanted in "the manifests of vehicle 1 from", "the new key can write":
        checks.has("a driver's stolen key", wanted, told.output)
    checks.equal(
        "the driver's stolen key",
        401,
        office.ask(machine, "/days/2026-01-01/sheet", key=WHEEL).status,
    )
