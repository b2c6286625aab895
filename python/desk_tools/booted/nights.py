"""What runs by itself: the hours of the timers, a night's work, the watch, a full disk."""

from __future__ import annotations

import time

from desk_tools import agencies
from desk_tools.booted import office
from desk_tools.booted.town import Town

MAIN = agencies.Agency()
BACKUP, WORKLIST, RESTART = MAIN.unit_of("backup"), MAIN.unit_of("worklist"), "desk-restart"
HOURS = {BACKUP: "03:05", RESTART: "03:45", WORKLIST: "04:30"}
SECONDS_TO_COME_BACK = 60
COPIES = f"ls -p {MAIN.backups} | grep -v /"
NO_BACKUP = "grep -q 'there is no backup'"


def check(town: Town) -> None:
    """All of this part that is quick."""
    check_hours(town)
    check_work(town)
    check_retention(town)
    check_record(town)
    check_watch(town)


def check_hours(town: Town) -> None:
    """The timers go by the agency's clocks on a machine whose own zone is UTC."""
    checks, machine = town.checks, town.machine
    checks.equal("the machine's zone", "+0000", machine.run("date +%z").output.strip())
    for name, hour in HOURS.items():
        words = f"systemctl show -P NextElapseUSecRealtime {name}.timer"
        said = machine.run(f'TZ={office.ZONE} date -d "$({words})" +%H:%M').output.strip()
        checks.equal(f"the hour of {name}", hour, said)
    spring = "systemd-analyze calendar --base-time='2027-03-13 20:00 UTC' '*-*-* 03:05:00 America/Chicago'"
    told = machine.run(f"{spring} | grep -o '2027-03-14 [0-9:]*' | head -n 1").output
    checks.has("a backup in the night of summer time", "2027-03-14 0", told)


def check_work(town: Town) -> None:
    """A backup, the work list and a restart, by their units with all that shuts them in."""
    checks, machine = town.checks, town.machine
    machine.run(f"touch -d '100 days ago' {MAIN.file}.before-0.1.0")
    before = set(machine.run(COPIES, check=False).output.split())
    for name in HOURS:
        ran = machine.run(f"systemctl start {name}.service", check=False)
        log = machine.run(f"journalctl -u {name} -n 5 -o cat").output
        checks.holds(f"{name}.service", ran.is_well, ran.output + log)
    made = sorted(set(machine.run(COPIES).output.split()) - before)
    checks.equal(
        "a copy and the machine's files", ["desk", "machine"], [it.split("-")[0] for it in made]
    )
    checks.has(
        "the work list",
        "Vehicles with trips ahead",
        machine.run(f"cat {MAIN.site}/staff/worklist.html").output,
    )
    old = machine.run(f"ls {MAIN.file}.before-0.1.0", check=False)
    checks.holds("a copy of before an upgrade is put away", not old.is_well)
    checks.holds("the desk answers after its restart", office.answers(machine))
    works = ("backup", "worklist", "standby", "standby-check", "standing-orders")
    units = [MAIN.unit, *map(MAIN.unit_of, works), "desk-health", RESTART, "desk-watch"]
    unsafe = (
        f"for it in {' '.join(units)}; "
        "do systemd-analyze security --threshold=35 $it >/dev/null || echo $it; done"
    )
    checks.equal("no unit of the desk is unsafe", "", machine.run(unsafe).output)


def check_retention(town: Town) -> None:
    """One unit removes old backups, by the agency's rule, and says what."""
    checks, machine = town.checks, town.machine
    for days in (40, 20):
        machine.run(f"touch -d '{days} days ago' {MAIN.backups}/desk-of-{days}.db")
    there = f"cd {MAIN.backups} && ls desk-of-*"
    longer = f'sed -i \'s/^{{/{{"retention": {{"backups": "60 days"}},/\' {MAIN.names}'
    machine.run(f"cp {MAIN.names} /root/agency.json && {longer}")
    for rule, kept in (("60 days", "desk-of-20.db desk-of-40.db"), ("35 days", "desk-of-20.db")):
        ran = machine.run(f"systemctl start {MAIN.unit_of('retention.service')}", check=False)
        log = machine.run(
            f"journalctl --sync; journalctl -u {MAIN.unit_of('retention')} -n 5 -o cat"
        ).output
        checks.holds(MAIN.unit_of("retention.service"), ran.is_well, log)
        checks.equal(f"backups are kept {rule}", kept.split(), machine.run(there).output.split())
        machine.run(f"mv /root/agency.json {MAIN.names} 2>/dev/null; true")
    said = machine.run(
        f"journalctl --sync; journalctl -u {MAIN.unit_of('retention')} -o cat"
    ).output
    checks.has("it says what it removed", "1 file removed: desk-of-40.db", said)
    checks.has("and by which rule", "backups, kept 60 days (by agency.json): 0 files removed", said)
    machine.run(f"rm -f {MAIN.backups}/desk-of-*")


def check_record(town: Town) -> None:
    """nginx's workers open the record again once it was taken in; nobody else of the machine looks into it."""
    checks, machine, folder = town.checks, town.machine, MAIN.record
    said = machine.run(f"stat -c '%a %U %G' {folder}").output.strip()
    checks.equal("the record's folder", "710 root www-data", said)
    for turn in ("before", "after"):
        office.ask(machine, f"/riders/4711/trips?{turn}", key=town.admin)
        machine.wait_for(f"grep -q 4711 {folder}/requests", 5)
        if turn == "before":
            machine.run(f"systemctl start {MAIN.unit_of('journal.service')}")
    count = machine.run(f"grep -c /riders/4711/trips {folder}/requests", check=False).output.strip()
    checks.equal("the line of after is in the new file", "1", count)
    refused = machine.run(
        "grep -c 'Permission denied' /var/log/nginx/error.log", check=False
    ).output.strip()
    checks.equal("what nginx may not open", "0", refused)
    told = machine.run(f"setpriv --reuid=nobody --clear-groups ls {MAIN.record}", check=False)
    checks.holds("nobody else lists the record", not told.is_well, told.output)


def check_watch(town: Town) -> None:
    """The watch looks by itself, tells once, and leaves the journal alone."""
    checks, machine = town.checks, town.machine
    said = machine.run(
        f"stat -c '%a %U' {agencies.SETTINGS}/watch.conf {agencies.SETTINGS}/setup.json"
    ).output
    checks.equal("what may hold an alarm's secret", "600 root\n600 root\n", said)
    is_told = f"! {NO_BACKUP} /root/last-alarm"
    checks.holds("the night's backup is seen", machine.wait_for(is_told, 60))
    machine.run(f"rm -f {MAIN.backups}/*.db")
    told = machine.wait_for(f"{NO_BACKUP} /root/last-alarm", 60)
    checks.holds("a trouble is told", told)
    words = "journalctl --sync; journalctl -u desk-watch -o cat | grep -c"
    before = machine.run(f"{words} 'there is no backup'").output
    machine.run("systemctl start desk-watch.service; systemctl start desk-watch.service")
    after = machine.run(f"{words} 'there is no backup'").output
    checks.equal("it is not said with each look", before, after)
    failed = machine.run(f"{words} Failed", check=False).output.strip()
    checks.equal("the watch itself did not fail", "0", failed)
    machine.run(f"systemctl start {MAIN.unit_of('backup.service')}")
    checks.holds("the end of it is told", machine.wait_for(is_told, 60))


def check_full_disk(town: Town) -> None:
    """A disk that is full, and then has room: the desk is back within a minute."""
    checks, machine = town.checks, town.machine
    machine.run(f"systemctl stop {MAIN.unit} && cp -a {MAIN.folder} /var/lib/desk-before")
    machine.run(f"mount -t tmpfs -o size=120m,mode=700 tmpfs {MAIN.folder}")
    machine.run(
        f"cp -a /var/lib/desk-before/. {MAIN.folder}/ && chown {MAIN.user}:{MAIN.user} {MAIN.folder}"
    )
    machine.run(f"systemctl start {MAIN.unit}")
    checks.holds("the desk on a small disk", office.answers(machine))
    machine.run(f"cat /dev/zero >{MAIN.folder}/full 2>/dev/null; true")
    place: dict[str, object] = {}
    for _ in range(400):
        number = town.next_number()
        place = {"id": 1_000 + number, "x": number, "y": 0, "core": False}
        status = office.ask(machine, "/places", key=town.admin, body=place, number=number).status
        if status != 200:
            break
    checks.equal("a write that finds no room", 503, status)
    time.sleep(20)
    machine.run(f"rm {MAIN.folder}/full")
    begun = time.monotonic()
    while time.monotonic() - begun < 2 * SECONDS_TO_COME_BACK:
        reply = office.ask(machine, "/places", key=town.admin, body=place, number=number)
        if reply.status == 200:
            break
        time.sleep(0.5)
    took = time.monotonic() - begun
    checks.holds("the desk is back within a minute of the room", took < SECONDS_TO_COME_BACK, took)
    machine.run(f"systemctl stop {MAIN.unit} && cp -a {MAIN.file}* /var/lib/desk-before/")
    machine.run(f"umount {MAIN.folder} && cp -a /var/lib/desk-before/. {MAIN.folder}/")
    machine.run(f"rm -rf /var/lib/desk-before && systemctl start {MAIN.unit}")
