"""Restores that go wrong on a machine that serves: one that is killed, and one after which the desk ends at once."""

from __future__ import annotations

from desk_tools import agencies
from desk_tools.booted import office
from desk_tools.booted.town import Town

MAIN = agencies.Agency()
RESTORE = "cd /usr/lib/desk && deploy/restore"
# A desk that systemd starts and that ends at once, by a file over the unit's own.
ENDS = f"/etc/systemd/system/{MAIN.unit}.service.d/zz-ends.conf"
ENDING = f"mkdir -p $(dirname {ENDS}) && printf '[Service]\\nExecStart=\\nExecStart=/bin/sh -c \"exit 4\"\\n' >{ENDS} && systemctl daemon-reload"
WELL = f"rm -f {ENDS}; systemctl daemon-reload"
# The restore alone is killed, by its number, once the desk is stopped.
KILLED = f"""/usr/lib/desk/deploy/restore {{backup}} >/root/restore.out 2>&1 & number=$!
while systemctl --quiet is-active {MAIN.unit}; do kill -0 $number || exit 3; sleep 0.01; done
kill -9 $number"""


def check(town: Town) -> None:
    """All of this part."""
    machine = town.machine
    office.make_backup(machine)
    backup = machine.run(f"ls -t {MAIN.backups}/desk-*.db | head -n 1").output.strip()
    check_killed(town, backup)
    check_silent(town, backup)


def check_killed(town: Town, backup: str) -> None:
    """The restore is killed once the desk is stopped: the watch starts the desk, and says why."""
    checks, machine = town.checks, town.machine
    ran = machine.run(KILLED.format(backup=backup), check=False)
    checks.holds("a restore is killed after it stopped the desk", ran.is_well, ran.output)
    checks.holds("the watch starts the desk again", office.answers(machine, 60))
    said = machine.run("journalctl --sync; journalctl -u desk-watch -n 40 -o cat").output
    checks.has("and says why", "a restore was killed after it had stopped the desk", said)
    left = machine.run(f"ls -A {MAIN.folder} | grep stopped-for", check=False)
    checks.holds("its note is gone", not left.is_well, left.output)
    ran = machine.run(f"{RESTORE} {backup}", check=False)
    checks.has("the same command once more", "seconds, until it answered", ran.output)
    checks.holds("the desk answers then", office.answers(machine))


def check_silent(town: Town, backup: str) -> None:
    """The desk ends right after its start: the command says that nobody serves, and is not done."""
    checks, machine = town.checks, town.machine
    machine.run(ENDING)
    ran = machine.run(f"{RESTORE} {backup}", check=False)
    checks.equal("a desk that ends after a restore: the status", 1, ran.status)
    for wanted in (
        "the desk was started and ended again and again",
        "and the desk does not serve it",
    ):
        checks.has("a desk that ends after a restore", wanted, ran.output)
    machine.run(WELL)
    machine.run(f"systemctl reset-failed {MAIN.unit}; systemctl start {MAIN.unit}", check=False)
    checks.holds("the file of before serves", office.answers(machine, 60))
