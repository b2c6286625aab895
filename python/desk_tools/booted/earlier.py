"""An upgrade of a machine that an earlier version set up: all of its agency gets the names of main, and nothing is lost."""

from __future__ import annotations

from pathlib import Path

from desk_tools import agencies
from desk_tools.booted import office
from desk_tools.booted.machines import Machine
from desk_tools.booted.town import Town

MAIN, NORTH = agencies.Agency(), agencies.Agency("north")
SET_UP_NORTH = f"""useradd --system --home-dir {NORTH.folder} --shell /usr/sbin/nologin {NORTH.user}
install -d -m 700 -o {NORTH.user} -g {NORTH.user} {NORTH.folder}
/usr/lib/desk/deploy/new-desk /root/keys-north {NORTH.name}
printf 'NAME=north.test\\nPORT=8438\\nZONE=MST7\\n' >/root/north.conf
install -m 644 /root/north.conf {NORTH.conf}
systemctl enable --now {NORTH.unit} {NORTH.unit_of('backup.timer')}
"""
# Where an earlier version has the certificate, the roster and a key: literals, since no later version moves them.
CERTIFICATE = "/etc/ssl/desk/certificate.pem"
ROSTER = "rider,name,telephone\n7,Ana Lind,555-0107\n"
OF_MAIN = "record.service today.service backup.timer worklist.timer journal.timer retention.timer closed-days.timer"
UNITS = (
    f"{MAIN.unit}.service",
    *map(MAIN.unit_of, OF_MAIN.split()),
    *agencies.UNITS_OF_MACHINE,
    f"{NORTH.unit}.service",
    NORTH.unit_of("backup.timer"),
    "nginx.service",
)
PLACES = "sqlite3 -readonly {} 'SELECT count(*) FROM places'"
SECONDS_OF_RECORD = 10


def check(machine: Machine, town: Town, earlier: Path) -> None:
    """The earlier package sets an agency up beside another one, and is upgraded to this tree's; and back."""
    set_up(town, earlier)
    digest = machine.run("cat /var/backups/desk/machine-*.tar.gz | sha256sum").output
    north = office.process(machine, NORTH.unit)
    ran = office.install(machine, office.bring(machine, town.package, "later.deb"), check=False)
    town.checks.holds("the upgrade ends well", ran.is_well, ran.output[-1500:])
    checks = town.checks
    same = machine.run(f"cat {MAIN.backups}/machine-*.tar.gz | sha256sum").output
    checks.equal("the night's copies are the same", digest, same)
    check_names(town)
    check_serves(town)
    check_record(town)
    checks.equal("the other agency was not stopped", north, office.process(machine, NORTH.unit))
    told = machine.run("/usr/lib/desk/packaging/to-main", check=False)
    checks.has("the same command once more", "nothing is to do", told.output)
    failed = machine.run("systemctl --failed --no-legend --plain", check=False).output
    checks.equal("no unit failed", "", failed)
    check_way_back(town)


def set_up(town: Town, earlier: Path) -> None:
    """An agency of the earlier version with a write, a roster, a key of the night's work, a backup and a record."""
    machine = town.machine
    path = office.bring(machine, earlier, "earlier.deb")
    office.install(machine, path)
    town.admin = office.key_in(office.set_up(machine).output)
    body = {"id": 90, "x": 0, "y": 0, "core": False}
    number = town.next_number()
    reply = office.ask(
        machine, "/places", key=town.admin, body=body, number=number, certificate=CERTIFICATE
    )
    town.checks.equal("a write with the earlier version", 200, reply.status)
    machine.run("umask 077; cat >/etc/desk/roster.csv", stdin=ROSTER)
    machine.run("umask 077; mkdir -p /etc/desk/keys; echo key >/etc/desk/keys/closed-days")
    machine.run("mkdir -p /etc/systemd/system/desk-backup.timer.d")
    machine.run(
        "printf '[Timer]\\nRandomizedDelaySec=1\\n' >/etc/systemd/system/desk-backup.timer.d/own.conf"
    )
    machine.run("desk-setup --site")
    machine.run("systemctl start desk-backup.service desk-journal.service")
    machine.run(SET_UP_NORTH)


def check_names(town: Town) -> None:
    """What ran and began by itself does so by its new name; nothing but links has the earlier ones."""
    checks, machine = town.checks, town.machine
    words = f"for it in {' '.join(UNITS)}; do systemctl is-active --quiet $it && systemctl is-enabled --quiet $it || echo $it; done"
    checks.equal("what does not run", "", machine.run(words, check=False).output)
    left = machine.run(
        "find /etc/systemd/system -name 'desk.service*' -o -name 'desk-backup.timer*' -o -name zone.conf"
        f" -path '*{MAIN.unit}*'; ls -d /etc/desk/agency.json /etc/desk/roster.csv 2>/dev/null",
        check=False,
    )
    checks.equal("earlier names", "", left.output)
    own = machine.run(
        f"cat /etc/systemd/system/{MAIN.unit_of('backup.timer')}.d/own.conf", check=False
    )
    checks.has("what a person added to a timer", "RandomizedDelaySec=1", own.output)
    links = machine.run("readlink /var/lib/desk /var/backups/desk /etc/ssl/desk", check=False)
    wanted = f"{MAIN.folder}\n{MAIN.backups}\n{MAIN.tls}\n"
    checks.equal("the earlier folders lead on", wanted, links.output)
    checks.has("its roster", "Ana Lind", machine.run(f"cat {MAIN.own('roster.csv')}").output)
    said = machine.run(f"stat -c '%a %U' {MAIN.file}").output.strip()
    checks.equal("whose the file is", f"600 {MAIN.user}", said)


def check_serves(town: Town) -> None:
    """The desk and the site answer with the same keys, and the write is there."""
    checks, machine = town.checks, town.machine
    checks.holds("the desk answers", office.answers(machine))
    reply = office.ask(machine, "/agency.json")
    checks.has("the site serves", office.AGENCY, reply.body)
    reply = office.ask(machine, "/days/2026-01-01/sheet", key=town.admin)
    checks.equal("by the same keys", 403, reply.status)
    body = {"id": 91, "x": 1, "y": 0, "core": False}
    reply = office.ask(machine, "/places", key=town.admin, body=body, number=town.next_number())
    checks.equal("a write after the upgrade", 200, reply.status)
    office.make_backup(machine)
    newest = machine.run(f"ls -t {MAIN.backups}/desk-*.db | head -n 1").output.strip()
    checks.equal("both writes", "2", machine.run(PLACES.format(newest)).output.strip())
    checks.holds("/health", office.ask(machine, "/health").status == 200)


def check_record(town: Town) -> None:
    """The record is one chain from before the upgrade on, and has the writes of both versions."""
    checks, machine = town.checks, town.machine
    machine.wait_for(f"grep -q places {MAIN.record}/requests", SECONDS_OF_RECORD)
    machine.run(f"systemctl start {MAIN.unit_of('journal.service')}")
    ran = machine.run("desk-journal verify", check=False)
    checks.holds("the record holds", ran.is_well, ran.output)
    found = machine.run(
        f'cat {MAIN.record}/record/*.jsonl | grep -c \'"path":"/places"\'', check=False
    )
    checks.equal("the writes of both versions", "2", found.output.strip())


def check_way_back(town: Town) -> None:
    """One command brings the earlier names back, and the earlier package serves."""
    checks, machine = town.checks, town.machine
    ran = machine.run("/usr/lib/desk/packaging/to-main --back", check=False)
    checks.holds("the way back", ran.is_well, ran.output)
    words = "apt-get install --allow-downgrades -y -q /root/earlier.deb && desk-setup </dev/null"
    ran = machine.run(words, check=False)
    checks.holds("the earlier package", ran.is_well, ran.output[-1500:])
    checks.holds("its desk answers", office.answers(machine))
    reply = office.ask(machine, "/days/2026-01-01/sheet", key=town.admin, certificate=CERTIFICATE)
    checks.equal("by the same keys then", 403, reply.status)
