"""Upgrades: without room, with room, and to a program that does not open the file."""

from __future__ import annotations

from desk_tools import agencies
from desk_tools.booted import office, packages
from desk_tools.booted.town import Town

MAIN = agencies.Agency()


def check(town: Town) -> None:
    """All of this part."""
    later = packages.other(town.package, "0.98.0")
    office.bring(town.machine, later, later.name)
    check_without_room(town, f"/root/{later.name}")
    check_with_room(town, f"/root/{later.name}")
    if town.is_whole:
        refusing = packages.other(town.package, "0.99.0", packages.REFUSING)
        office.bring(town.machine, refusing, refusing.name)
        check_refusal(town, f"/root/{refusing.name}")
        ending = packages.other(town.package, "0.99.5", packages.ENDING)
        office.bring(town.machine, ending, ending.name)
        check_end(town, f"/root/{ending.name}")


def check_without_room(town: Town, package: str) -> None:
    """The upgrade ends before anything is changed, and the desk is not stopped."""
    checks, machine = town.checks, town.machine
    machine.run(f"systemctl stop {MAIN.unit} && cp -a {MAIN.folder} /var/lib/desk-before")
    machine.run(f"mount -t tmpfs -o size=12m,mode=700 tmpfs {MAIN.folder}")
    machine.run(
        f"cp -a /var/lib/desk-before/desk.db* {MAIN.folder}/ && chown {MAIN.user}:{MAIN.user} {MAIN.folder}"
    )
    machine.run(f"systemctl start {MAIN.unit}")
    checks.holds("the desk on a small disk", office.answers(machine))
    process = office.process(machine)
    ran = office.install(machine, package, check=False)
    checks.holds("an upgrade without room ends", not ran.is_well, ran.output[-300:])
    checks.has("it says how much room it takes", f"MB of room in {MAIN.folder}", ran.output)
    checks.equal("the desk was not stopped", process, office.process(machine))
    version = machine.run("dpkg-query -W -f '${Version} ${db:Status-Status}' desk").output
    wanted = f"{packages.version_of(town.package)} installed"
    checks.equal("the earlier package is whole", wanted, version)
    left = machine.run(
        f"ls {MAIN.folder} | grep -v -e '^desk.db$' -e '^desk.db-wal$' -e '^clock'", check=False
    )
    checks.holds(
        "no copy is left", "before" not in left.output and "taking" not in left.output, left.output
    )
    check_copy_that_fails(town)
    machine.run(
        f"systemctl stop {MAIN.unit} && umount {MAIN.folder} && rm -rf /var/lib/desk-before"
    )
    machine.run(f"systemctl start {MAIN.unit}")
    checks.holds("the desk on its own disk", office.answers(machine))


def check_copy_that_fails(town: Town) -> None:
    """The room is gone once the new program is there: what served serves, and nothing is named as a copy."""
    checks, machine = town.checks, town.machine
    machine.run(f"cat /dev/zero >{MAIN.folder}/full 2>/dev/null; true")
    ran = machine.run("/usr/lib/desk/packaging/take-over 0.1.0", check=False)
    checks.has("a copy that finds no room", "No space left", ran.output)
    checks.has("the way back is named", "--allow-downgrades ./desk_0.1.0_amd64.deb", ran.output)
    left = machine.run(f"ls {MAIN.folder}").output
    is_none = "before" not in left and "taking" not in left
    checks.holds("no part of a copy is left", is_none, left)
    machine.run(f"rm {MAIN.folder}/full")
    checks.holds("what was running runs", office.answers(machine))


def check_with_room(town: Town, package: str) -> None:
    """The new version serves, and the copy of before is there."""
    checks, machine = town.checks, town.machine
    before = packages.version_of(town.package)
    ran = office.install(machine, package)
    checks.has("an upgrade", "the file was taken over", ran.output)
    checks.holds("the desk answers", office.answers(machine))
    copy = f"{MAIN.file}.before-{before}"
    said = machine.run(f"stat -c '%a %U' {copy}", check=False).output.strip()
    checks.equal("the copy of before is the desk's alone", f"600 {MAIN.user}", said)
    reply = office.ask(machine, "/agency.json")
    checks.has("the site serves", office.AGENCY, reply.body)
    for unit in ("desk-watch.timer", "desk-health.service", MAIN.unit_of("backup.timer")):
        checks.holds(
            f"{unit} runs on", machine.run(f"systemctl is-active {unit}", check=False).is_well
        )


def check_refusal(town: Town, package: str) -> None:
    """A program that does not open the file: the desk goes on by the earlier one, and the way back is said."""
    checks, machine = town.checks, town.machine
    ran = office.install(machine, package, check=False)
    checks.holds("an upgrade that the file does not suit ends", not ran.is_well)
    checks.has("it says why", f"does not open {MAIN.file} (fault 31 row 7)", ran.output)
    words = "apt-get install --allow-downgrades ./desk_0.98.0_amd64.deb"
    checks.has("and the command that goes back", words, ran.output)
    checks.holds("the desk answers meanwhile", office.answers(machine))
    reply = office.ask(machine, "/days/2026-01-01/sheet", key=town.admin)
    checks.equal("by its own keys", 403, reply.status)
    machine.run(f"systemctl restart {MAIN.unit}")
    checks.holds("also after a restart", office.answers(machine))
    ran = machine.run(f"cd /root && {words} -y -q", check=False)
    checks.holds("that command goes back", ran.is_well, ran.output[-400:])
    checks.holds("the desk answers then", office.answers(machine))
    started = machine.run(f"systemctl show -P ExecStart {MAIN.unit}").output
    checks.has("by the installed program", "path=/usr/bin/desk ", started)


def check_end(town: Town, package: str) -> None:
    """A program that opens the file and ends as it is to serve: the file and the program of before serve."""
    checks, machine = town.checks, town.machine
    ran = office.install(machine, package, check=False)
    checks.holds("an upgrade after which the desk ends, ends", not ran.is_well)
    checks.has("it says that the desk ended", "was started and ended again and again", ran.output)
    checks.has("and who serves", "The desk goes on by the program of before", ran.output)
    checks.holds("the desk answers by the program of before", office.answers(machine))
    reply = office.ask(machine, "/days/2026-01-01/sheet", key=town.admin)
    checks.equal("by its own keys", 403, reply.status)
    machine.run("cd /root && apt-get install --allow-downgrades ./desk_0.98.0_amd64.deb -y -q")
    checks.holds("the earlier package goes back", office.answers(machine))
