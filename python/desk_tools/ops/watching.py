"""What is wrong with the desks of this machine: facts that root collects, and what is seen of them without a right."""

from __future__ import annotations

import datetime
import glob
import json
import os
import smtplib
import socket
import ssl
import subprocess
import time
import urllib.error
import urllib.request
from collections.abc import Iterator
from pathlib import Path
from typing import Any

from desk_tools import agencies, alarms
from . import elsewhere, interrupted
from .ending import Failure
from .fences import is_compared
from .places import Desk, value_of

SHOWN = tuple("LoadState ActiveState Result NRestarts ExecMainExitTimestamp ExecMainStatus".split())
# The facts of a look, by their names.
NEEDED_FACTS = set(
    """
    moment uptime units backups sizes copies ports sites interrupted standby elsewhere
    """.split()
)
MINUTE, HOUR, DAY = 60, 3_600, 86_400
MOST_RESTARTS, LONGEST_STEP = 3, 15 * MINUTE
CERTIFICATE_DAYS, BACKUP_AGE, STANDBY_AGE = 21, 25 * HOUR, 20 * MINUTE
LEAST_FREE, LEAST_SHARE, ENOUGH = 500 << 20, 10, 5 << 30
# With less than that a desk may find no room for a start; the copies of before an upgrade stay for so many days.
NO_ROOM, DAYS_OF_COPIES = 16 << 20, 90
# Where the service of /health and /metrics reads what root saw. It names no person.
PUBLISHED = "/run/desk-watch.json"
STORE_FAILED = 503
HEAD = {"Content-Type": "text/plain; charset=utf-8", "User-Agent": "desk-watch"}


def told_of(settings: str) -> str:
    """The path of watch.conf. It is root's alone, so systemd hands a copy to the watch's own user (LoadCredential)."""
    handed = f"{os.environ.get('CREDENTIALS_DIRECTORY') or '/nonexistent'}/watch.conf"
    return handed if os.path.exists(handed) else f"{settings}/watch.conf"


class Watched:
    """One desk of this machine, and where what belongs to it is."""

    def __init__(self, agency: agencies.Agency) -> None:
        self.agency, self.unit = agency, agency.unit
        self.folder, self.backups, self.fence = agency.folder, agency.backups, agency.fence
        self.port = value_of(agency.conf, "PORT", agencies.PORT)
        self.name = value_of(agency.conf, "NAME") or value_of(told_of(agency.settings), "NAME")
        self.url = os.environ.get("URL") or f"http://127.0.0.1:{self.port}"
        self.standby = agency.unit_of("standby.service")


def watched(settings: str = agencies.SETTINGS) -> list[Watched]:
    """The desk of each AGENCY.conf, or the main one. With URL it is the one desk that answers there."""
    one = [agencies.Agency(settings=settings)]
    return [Watched(it) for it in (one if os.environ.get("URL") else agencies.of_machine(settings))]


# Facts, which root collects. Nothing is judged or changed here.


def shown(unit: str) -> dict[str, str]:
    """What systemd says of a unit. SHOW may be another command, which gets the unit's name."""
    command = (
        os.environ.get("SHOW") or f"systemctl show --timestamp=unix --property={','.join(SHOWN)}"
    )
    told = subprocess.run(
        [*command.split(), unit], capture_output=True, text=True, stdin=subprocess.DEVNULL
    )
    return dict(line.split("=", 1) for line in told.stdout.splitlines() if "=" in line)


def newest_in(folder: str) -> float | None:
    """When the newest backup of a folder was made."""
    return max((os.stat(it).st_mtime for it in glob.glob(f"{folder}/*.db")), default=None)


def size_of(folder: str) -> int:
    return sum(os.stat(it).st_size for it in glob.glob(f"{folder}/desk.db*"))


def copies_in(folder: str) -> list[Any]:
    """How many copies of before an upgrade there are, their bytes, and when the oldest was made."""
    found = [
        os.stat(it) for it in glob.glob(f"{folder}/desk.db.before-*") if not it.endswith("-wal")
    ]
    return [
        len(found),
        sum(it.st_size for it in found),
        min((it.st_mtime for it in found), default=None),
    ]


def facts(settings: str = agencies.SETTINGS) -> dict[str, Any]:
    desks = watched(settings)
    folders = {it.unit: os.environ.get("DATA") or it.folder for it in desks}
    return {
        "moment": time.time(),
        "uptime": time.clock_gettime(time.CLOCK_BOOTTIME),
        "units": {it.unit: shown(f"{it.unit}.service") for it in desks},
        "backups": {it.unit: newest_in(os.environ.get("BACKUPS") or it.backups) for it in desks},
        "sizes": {unit: size_of(folder) for unit, folder in folders.items()},
        "copies": {unit: copies_in(folder) for unit, folder in folders.items()},
        "ports": {it.unit: it.port for it in desks},
        "sites": {it.unit: it.name for it in desks},
        "interrupted": {unit: interrupted.left_in(folder) for unit, folder in folders.items()},
        "standby": {it.unit: shown(it.standby) for it in desks}
        if os.path.exists(f"{settings}/standby.conf")
        else {},
        "elsewhere": elsewhere.facts(
            settings,
            {it.unit: (it.agency, os.environ.get("BACKUPS") or it.backups) for it in desks},
            time.time(),
        ),
    }


# What is looked at. Each gives (what, sentence) of each trouble; `what` says whether it is the same one as before.


def answer_of(desk: Watched, patience: float) -> int | None:
    """The status of a desk's answer to a key that nobody has, or None. An opening may take so many seconds."""
    end = time.monotonic() + patience
    while True:
        asked = urllib.request.Request(
            f"{desk.url}/days/2000-01-01/sheet", headers={"Desk-Key": "watch"}
        )
        try:
            with urllib.request.urlopen(asked, timeout=max(1, patience)) as reply:
                return int(reply.status)
        except urllib.error.HTTPError as error:
            return error.code
        except (OSError, ValueError):
            if time.monotonic() >= end:
                return None
        time.sleep(min(1, patience))


def troubles_of_answer(
    desk: Watched, patience: float, wanted: list[str]
) -> Iterator[tuple[str, str]]:
    status = answer_of(desk, patience)
    if status == STORE_FAILED:
        wanted.append(desk.unit)
        yield "store", "answers 503, and is restarted"
    elif status is None:
        yield "down", f"does not answer on {desk.url}: see journalctl -u {desk.unit}"


def troubles_of_restarts(
    unit: Any, seen: Any, state: Any, now: Any, wanted: Any, free: Any = None
) -> Iterator[Any]:
    """A unit that ends again and again. systemd gives it up; it is started again after steps that double, and at once
    where its disk was full and has room again. `free` is in bytes."""
    loop = state.setdefault("loops", {}).setdefault(unit, {"counts": [], "step": MINUTE, "next": 0})
    count = int(seen.get("NRestarts") or 0)
    counts = [it for it in loop["counts"] if it[0] > now - HOUR and it[1] <= count]
    loop["counts"] = [*counts, [now, count]]
    is_full = free is not None and free < NO_ROOM
    has_room_again = loop.get("full", False) and not is_full
    loop["full"] = is_full
    if seen.get("ActiveState") == "failed":
        if has_room_again:
            loop["next"], loop["step"] = now, MINUTE
        if now >= loop["next"]:
            wanted.append(unit)
            loop["next"], loop["step"] = now + loop["step"], min(2 * loop["step"], LONGEST_STEP)
        yield "loop", (
            f"has ended again and again ({seen.get('Result')}); it is started again at "
            f"{clock_of(loop['next'])}: see journalctl -u {unit}"
        )
        return
    begun = count - counts[0][1] if counts else 0
    if begun >= MOST_RESTARTS:
        yield "loop", f"was restarted {begun} times within the hour: see journalctl -u {unit}"
    else:
        loop["step"], loop["next"] = MINUTE, 0


def clock_of(moment: Any) -> str:
    return f"{datetime.datetime.fromtimestamp(moment):%H:%M}"


def troubles_of_room(folder: str, size: int) -> Iterator[Any]:
    try:
        found = os.statvfs(folder)
    except OSError:
        return
    free, all_of_it = found.f_frsize * found.f_bavail, found.f_frsize * found.f_blocks
    is_little = (
        free < LEAST_FREE or free < 2 * size or (free * LEAST_SHARE < all_of_it and free < ENOUGH)
    )
    if is_little:
        yield f"room {folder}", f"the disk of {folder} has {free >> 20:,} MB free: make room"
    if found.f_files and found.f_favail * 20 < found.f_files:
        yield f"files {folder}", f"the disk of {folder} has room for {found.f_favail:,} more files: make room"


def troubles_of_clock(told: dict[str, Any], state: dict[str, Any]) -> Iterator[Any]:
    """The machine's clock beside one that nobody sets, since the last look. A jump is told for an hour."""
    last = state.get("clock")
    state["clock"] = [told["moment"], told["uptime"]]
    if last and told["uptime"] >= last[1]:
        jump = (told["moment"] - last[0]) - (told["uptime"] - last[1])
        if abs(jump) > MINUTE:
            way = "forward" if jump > 0 else "back"
            state["jump"] = [
                told["uptime"],
                f"the clock jumped {way} by {abs(jump):,.0f} seconds: look at what was "
                f"written since {moment_of(last[0])}",
            ]
    at, sentence = state.get("jump", [0, ""])
    if sentence and 0 <= told["uptime"] - at < HOUR:
        yield sentence, sentence


def moment_of(moment: float) -> str:
    return f"{datetime.datetime.fromtimestamp(moment):%Y-%m-%d %H:%M}"


def end_of_certificate(host: str, port: str, name: str | None) -> int:
    """When the certificate ends that the site shows."""
    context = ssl.create_default_context()
    context.check_hostname, context.verify_mode = False, ssl.CERT_NONE
    line = socket.create_connection((host, int(port)), 10)
    with line, context.wrap_socket(line, server_hostname=name) as tls:
        certificate = ssl.DER_cert_to_PEM_cert(tls.getpeercert(binary_form=True) or b"")
    words = ["openssl", "x509", "-noout", "-enddate"]
    told = subprocess.run(words, input=certificate, capture_output=True, text=True, check=True)
    return ssl.cert_time_to_seconds(told.stdout.strip().partition("=")[2])


def troubles_of_certificate(name: str | None, site: str, now: float) -> Iterator[tuple[str, str]]:
    host, _, port = site.rpartition(":")
    try:
        end = end_of_certificate(host, port, name)
    except (OSError, ValueError, subprocess.SubprocessError) as error:
        yield "site", f"the site does not answer on {site}: {error}"
        return
    days = int((end - now) // DAY)
    if days < CERTIFICATE_DAYS:
        ends = f"ends in {days} days" if days >= 0 else "has ended"
        yield "certificate", f"the certificate of {name or 'the site'} {ends}: {moment_of(end)}"


def troubles_of_backup(newest: float | None, now: float) -> Iterator[tuple[str, str]]:
    if newest is None:
        yield "backup", "there is no backup"
    elif now - newest > BACKUP_AGE:
        yield "backup", f"the last backup is of {moment_of(newest)}, more than a day ago"


def troubles_of_copies(told: list[Any], now: float) -> Iterator[Any]:
    """Copies of before an upgrade, which the nightly backup puts away."""
    count, size, oldest = told
    if oldest is not None and now - oldest > (DAYS_OF_COPIES + 1) * DAY:
        yield "copies", (
            f"{count} copies of before an upgrade ({size >> 20:,} MB), the oldest of {moment_of(oldest)}, were "
            f"to be put away after {DAYS_OF_COPIES} days: see journalctl -u 'desk-backup@*'"
        )


def room_in(folder: str) -> int | None:
    """The bytes that are free there, or None."""
    try:
        found = os.statvfs(folder)
    except OSError:
        return None
    return found.f_frsize * found.f_bavail


def troubles_of_standby(unit: Any, seen: Any, state: Any, now: Any) -> Iterator[Any]:
    """The second machine has the newest copy of the last run that went well."""
    good = state.setdefault("standby", {})
    told = (seen.get("ExecMainExitTimestamp") or "").lstrip("@")
    if seen.get("ExecMainStatus") == "0" and told.isdigit():
        good[unit] = int(told)
    last = good.setdefault(unit, int(now))
    if now - last > STANDBY_AGE:
        yield "standby", f"the second machine is behind: its last copy is of {moment_of(last)}"


def troubles_of_interruption(
    said: dict[str, Any] | None, unit: str, wanted: list[Any]
) -> Iterator[tuple[str, str]]:
    """A script that was killed after it had stopped the desk."""
    if said:
        wanted.append(unit)
        yield "killed", interrupted.told_of(said)


def troubles_of_fence(desk: Watched) -> Iterator[Any]:
    """A machine that was fenced without a last copy has what the machine that serves now lacks."""
    if not is_compared(desk.fence):
        yield "behind", (
            "this machine is fenced, and has answered writes that the second machine does not have: run "
            f"{' '.join(['deploy/standby missing', *desk.agency.words])} here, as root"
        )


# All of it.


def troubles(
    told: dict[str, Any], state: dict[str, Any], settings: str, patience: float
) -> tuple[list[tuple[Any, ...]], list[str]]:
    """(unit, what, sentence) of each trouble, and the units that are to be restarted."""
    now = told["moment"]
    wanted: list[Any] = []
    found: list[Any] = []
    site = value_of(told_of(settings), "SITE", "127.0.0.1:443")
    for desk in watched(settings):
        unit = desk.unit
        if os.path.exists(desk.fence):
            found += [(unit, *it) for it in troubles_of_fence(desk)]
            continue
        folder = os.environ.get("DATA") or desk.folder
        # (nobody waits for the answer of a desk that a killed script has stopped)
        killed = told.get("interrupted", {}).get(unit)
        of_desk = [
            *troubles_of_restarts(
                unit, told["units"].get(unit, {}), state, now, wanted, room_in(folder)
            ),
            *troubles_of_interruption(killed, unit, wanted),
            *troubles_of_answer(desk, 0 if killed else patience, wanted),
            *troubles_of_backup(told["backups"].get(unit), now),
        ]
        if told["standby"].get(unit, {}).get("LoadState", "not-found") == "loaded":
            of_desk += troubles_of_standby(unit, told["standby"][unit], state, now)
        of_desk += elsewhere.troubles(unit, told.get("elsewhere", {}), now, BACKUP_AGE)
        if site != "none":
            of_desk += troubles_of_certificate(desk.name, site, now)
        of_desk += troubles_of_copies(told.get("copies", {}).get(unit, [0, 0, None]), now)
        of_desk += troubles_of_room(folder, told["sizes"].get(unit, 0))
        found += [(unit, *it) for it in of_desk]
    found += [("machine", *it) for it in troubles_of_clock(told, state)]
    found += [("machine", *it) for it in troubles_of_alarms(settings)]
    for folder in ("/var/log", "/var/backups"):
        found += [("machine", *it) for it in troubles_of_room(folder, 0)]
    return found, sorted(set(wanted))


def troubles_of_alarms(settings: str) -> Iterator[tuple[str, str]]:
    """(what, sentence) where the lines of the watch can be read on their way. They are sent all the same."""
    if alarms.is_open(value_of(told_of(settings), "HOOK") or ""):
        yield "alarms", (
            f"HOOK in {settings}/watch.conf is not encrypted, so others can read the address and what it is told: "
            "name an https:// address there"
        )


def send(settings: str, lines: list[str]) -> None:
    """By mail and by the command that watch.conf names, which gets the lines as its input."""
    path, text = told_of(settings), "".join(f"{it}\n" for it in lines)
    command, address = value_of(path, "HOOK"), value_of(path, "MAIL")
    if command and command.startswith(alarms.WEB):
        # (by itself: on a command line each user of the machine would read what the address has for a secret)
        with urllib.request.urlopen(
            urllib.request.Request(command, text.encode(), HEAD), timeout=MINUTE // 2
        ):
            pass
    elif command:
        subprocess.run(["sh", "-c", command], input=text, text=True, check=True, timeout=MINUTE)
    if address:
        server = value_of(path, "SMTP", "localhost:25")
        host, _, port = server.partition(":")
        head = f"Subject: the desk of {socket.gethostname()}\r\nTo: {address}\r\n\r\n"
        try:
            with smtplib.SMTP(host, int(port or 25), timeout=MINUTE) as line:
                line.sendmail(
                    value_of(path, "FROM", address), [address], head + text.replace("\n", "\r\n")
                )
        except OSError as error:
            raise OSError(f"{server} takes no mail: {error}") from None


def unspoken(found: Any, state: dict[str, Any], now: float, hours: int = 1) -> list[str]:
    """Of (unit, what, sentence) those that were not said within the hour, so that a journal is not filled."""
    said, kinds = state.get("said", {}), {
        f"{unit} {what}": (unit, sentence) for unit, what, sentence in found
    }
    new = {
        kind: it
        for kind, it in kinds.items()
        if not 0 <= now - said.get(kind, -HOUR) < hours * HOUR
    }
    state["said"] = {kind: now if kind in new else said[kind] for kind in kinds}
    return [f"{unit}: {sentence}" for unit, sentence in new.values()]


def publish(told: Any, found: Any, path: str | None = None) -> None:
    """As root: what is seen, for the service of /health and /metrics."""
    path = path or os.environ.get("PUBLISHED") or PUBLISHED
    put_state(path, {**told, "troubles": [[unit, what] for unit, what, _ in found]})
    os.chmod(path, 0o644)


def restart(units: list[str], settings: str) -> None:
    """As root: each has to be a desk of this machine. RESTART may be another command, which gets the unit's name."""
    known = {it.unit for it in watched(settings)}
    for unit in units:
        if unit not in known:
            raise Failure(f"{unit!r} is no desk of this machine")
        desk, command = Desk(unit.partition("@")[2] or None), os.environ.get("RESTART")
        if interrupted.left_in(desk.folder) and not interrupted.start_again(desk):
            continue
        if not command:
            subprocess.run(["systemctl", "reset-failed", unit], check=False)
        subprocess.run(["bash", "-c", f"{command or 'systemctl restart'} {unit}"], check=True)


def facts_in(path: str) -> dict[str, Any]:
    """The facts of a file that `watch --facts` wrote. Raises Failure for any other file."""
    try:
        found = json.loads(Path(path).read_text("utf-8"))
    except (ValueError, RecursionError):
        found = None
    if not isinstance(found, dict) or not NEEDED_FACTS <= found.keys():
        raise Failure(f"{path} has no facts that deploy/watch --facts wrote")
    return found


def state_in(path: str) -> Any:
    try:
        return json.loads(Path(path).read_text("utf-8"))
    except (OSError, ValueError):
        return {}


def put_state(path: str, state: Any) -> None:
    # (root writes into a folder of another user's, so it follows no link there)
    descriptor = os.open(
        f"{path}.new", os.O_WRONLY | os.O_CREAT | os.O_TRUNC | os.O_NOFOLLOW, 0o644
    )
    with open(descriptor, "w", encoding="utf-8") as file:
        json.dump(state, file)
    os.replace(f"{path}.new", path)
