"""An agency on a booted machine: installed, set up, asked."""

from __future__ import annotations

import hashlib
import json
import re
import shlex
import shutil
from dataclasses import dataclass
from pathlib import Path

from desk_tools import agencies
from desk_tools.booted.machines import Machine, Ran

MAIN = agencies.Agency()
NAME, PORT, AGENCY, ZONE = "desk.test", 443, "Test Town", "America/Chicago"
CERTIFICATE = f"{MAIN.tls}/certificate.pem"


def bring(machine: Machine, package: Path, name: str = "desk.deb") -> str:
    """Copies a package into a machine; its path there."""
    shutil.copy(package, machine.root / "root" / name)
    return f"/root/{name}"


def install(machine: Machine, path: str, more: str = "", check: bool = True) -> Ran:
    """Installs a package that is in the machine, from what the machine has already."""
    words = f"apt-get install -y -q --no-install-recommends {more} {path}"
    return machine.run(words, check=check)


def set_up(machine: Machine, more: str = "", check: bool = True) -> Ran:
    """Runs desk-setup for the agency of these trials."""
    words = f"desk-setup --agency '{AGENCY}' --zone {ZONE} --name {NAME} --port {PORT} {more}"
    return machine.run(f"{words} </dev/null", check=check)


def key_in(said: str, name: str = "1-admin") -> str:
    """A key that desk-setup showed."""
    found = re.search(rf"(?m)^  {name} +(\S+)$", said)
    return found[1] if found else ""


def digest_of(key: str) -> str:
    """What the desk keeps of a key."""
    return hashlib.sha256(key.encode()).hexdigest()


@dataclass(frozen=True)
class Reply:
    """A reply of the site: its status, its headers in small letters, its body."""

    status: int
    headers: dict[str, str]
    body: str


def ask(
    machine: Machine,
    path: str,
    *,
    key: str = "",
    body: object = None,
    number: int = 0,
    accept: str = "*/*",
    certificate: str = CERTIFICATE,
) -> Reply:
    """Asks the site of the machine by TLS, from the machine itself."""
    words = f"curl --silent --include --max-time 20 --cacert {certificate} --http1.1"
    words += f" --resolve {NAME}:{PORT}:127.0.0.1 -H 'Accept: {accept}'"
    words += f" -H 'Desk-Key: {key}'" if key else ""
    if body is not None:
        words += f" -H 'Desk-Number: {number}' --data-binary @-"
    text = "" if body is None else json.dumps(body)
    address = shlex.quote(f"https://{NAME}:{PORT}{path}")
    ran = machine.run(f"{words} {address}", check=False, stdin=text)
    first, _, rest = ran.output.partition("\n")
    if not first.startswith("HTTP/"):
        return Reply(0, {}, ran.output)
    head, _, inner = rest.replace("\r", "").partition("\n\n")
    lines = (it.split(": ", 1) for it in head.splitlines() if ": " in it)
    return Reply(int(first.split()[1]), {name.lower(): value for name, value in lines}, inner)


def answers(machine: Machine, seconds: float = 30) -> bool:
    """Whether the desk itself answers within so many seconds."""
    url = "http://127.0.0.1:8437/days/2026-01-01/sheet"
    words = f"curl -s -o /dev/null -w '%{{http_code}}' -H 'Desk-Key: x' {url} | grep -qx 401"
    return machine.wait_for(words, seconds)


def process(machine: Machine, unit: str = MAIN.unit) -> str:
    """The number of a unit's process."""
    return machine.run(f"systemctl show -P MainPID {unit}").output.strip()


def make_backup(machine: Machine) -> None:
    """The night's backup by its unit. Its name has the minute, so that of the one before is waited for."""
    machine.wait_for(f"! test -e {MAIN.backups}/desk-$(date +%F-%H%M).db", 65)
    machine.run(f"systemctl start {MAIN.unit_of('backup.service')}")
