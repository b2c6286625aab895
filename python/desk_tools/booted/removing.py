"""The package goes: removed, installed again, purged with the data kept, purged with a yes."""

from __future__ import annotations

from desk_tools import agencies
from desk_tools.booted import office
from desk_tools.booted.town import Town

MAIN = agencies.Agency()
LISTENING = "ss -Hltn | awk '{print $4}' | grep -E ':(443|843[0-9])$'"
FOLDERS = (
    f"{MAIN.folder} {agencies.SITES} {agencies.SETTINGS} {MAIN.tls} {agencies.LOGS} {MAIN.backups}"
)


def check(town: Town) -> None:
    """All of this part."""
    checks, machine = town.checks, town.machine
    machine.run("apt-get remove -y -q desk")
    # (nginx ends its old processes by itself)
    is_gone = machine.wait_for(f"! {LISTENING}", 20)
    checks.holds(
        "after a remove nothing of the agency is served",
        is_gone,
        machine.run(LISTENING, check=False).output,
    )
    checks.holds("the data stay", machine.run(f"test -s {MAIN.file}", check=False).is_well)
    if town.is_whole:
        check_back(town)
    told = machine.run("apt-get purge -y -q desk").output
    for folder in FOLDERS.split():
        checks.has("a purge names what stays", folder, told)
    checks.holds("and keeps it", machine.run(f"test -s {MAIN.file}", check=False).is_well)
    left = machine.run(
        "ls /etc/systemd/system | grep ^desk; ls /etc/nginx/conf.d", check=False
    ).output
    checks.equal("no settings of units and no site are left", "", left)
    if town.is_whole:
        check_purge_of_all(town)
    failed = machine.run("systemctl --failed --no-legend --plain", check=False).output
    checks.equal("no unit failed", "", failed)


def check_back(town: Town) -> None:
    """With the package the site comes back."""
    checks, machine = town.checks, town.machine
    office.install(machine, "/root/desk.deb", "--allow-downgrades")
    checks.holds("installed again, the desk answers", office.answers(machine))
    reply = office.ask(machine, "/days/2026-01-01/sheet", key=town.admin)
    checks.equal("by the site and its own keys", 403, reply.status)


def check_purge_of_all(town: Town) -> None:
    """A yes to debconf's question removes the data too."""
    checks, machine = town.checks, town.machine
    office.install(machine, "/root/desk.deb")
    machine.run("echo 'desk desk/remove-data boolean true' | debconf-set-selections")
    machine.run("apt-get purge -y -q desk")
    data = machine.run(
        f"ls -d /var/lib/desk* {agencies.SETTINGS} /etc/ssl/desk* {agencies.LOGS} 2>/dev/null",
        check=False,
    )
    checks.equal("a purge with a yes leaves nothing of them", "", data.output)
