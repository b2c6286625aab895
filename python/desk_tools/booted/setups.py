"""Setups that fail leave nothing, one that was killed goes on, and one may be made again; a file of an earlier version."""

from __future__ import annotations

import shutil
import subprocess

from desk_tools import agencies
from desk_tools.booted import office, packages
from desk_tools.booted.town import Town
from desk_tools.machine.earlier import below

MAIN = agencies.Agency()
# What a setup makes, and an end of one that failed has not.
MADE = (
    f"{MAIN.file} /var/lib/desk-setup {MAIN.names} {agencies.SETTINGS}/setup.json /etc/nginx/conf.d/desk.conf "
    f"{MAIN.conf} {MAIN.site}/agency.json"
)
EARLIER = packages.TOP / "tests/migration/first-version.desk"
NGINX = "/usr/local/sbin/nginx"


def check(town: Town) -> None:
    """All of this part, on a machine on which the package is installed and nothing is set up."""
    check_package(town)
    check_refused(town)
    check_killed(town)
    check_again(town)
    check_demonstration(town)


def check_package(town: Town) -> None:
    """What is in it."""
    checks, machine = town.checks, town.machine
    if shutil.which("lintian"):
        lintian = ["lintian", "--allow-root", "--fail-on", "error", str(town.package)]
        ran = subprocess.run(lintian, capture_output=True, text=True, check=False)
        checks.equal("lintian finds no error", 0, ran.returncode)
    else:
        print("tests/booted: left out: lintian is not installed")
    whole = "test -s /usr/share/man/man1/desk.1.gz && test -s /usr/share/man/man5/desk-formats.5.gz"
    checks.holds("manual pages", machine.run(whole, check=False).is_well)
    words = "for it in /usr/bin/desk-*; do $it --help >/dev/null 2>&1 || echo $it; done"
    checks.equal("each tool says what it does", "", machine.run(words).output)
    digest = (
        'grep -q "$(sha256sum /usr/bin/desk | cut -d " " -f 1)" /usr/share/doc/desk/receipt.json'
    )
    checks.holds("the receipt is of the program", machine.run(digest, check=False).is_well)
    words = "grep -rl /usr/local/lib/desk /usr/lib/desk /lib/systemd/system/desk* --exclude=*.pyc"
    checks.equal("paths of a setup by hand", "", machine.run(words, check=False).output)


def check_refused(town: Town) -> None:
    """One sentence each, and nothing is made."""
    checks, machine = town.checks, town.machine
    given = "--agency A --zone UTC --name desk.test --port 443"
    for said, words in [
        ("no zone", given.replace("UTC", "EST5")),
        ("no port", given.replace("443", "8437")),
        ("nobody to ask", "--agency A"),
        ("goes with backup", f"{given} --nightly worklist"),
        ("standing-orders.csv", f"{given} --nightly backup,standing-orders"),
        ("is not a mounted folder", f"{given} --offsite somewhere"),
    ]:
        ran = machine.run(f"desk-setup {words} </dev/null", check=False)
        is_one = ran.status == 2 and ran.output.count("\n") == 1 and said in ran.output
        checks.holds(f"a setup that is refused: {said}", is_one, ran.output)
    machine.run(
        f"cat >{NGINX} && chmod 755 {NGINX}", stdin="#!/bin/sh\necho 'no such word' >&2\nexit 1\n"
    )
    ran = office.set_up(machine, check=False)
    checks.has("a site that nginx refuses", "no such word", ran.output)
    checks.equal("a setup that failed leaves nothing", "", left(town))
    machine.run("systemd-run --quiet --unit taken python3 -m http.server --bind 127.0.0.1 443")
    machine.wait_for("curl -s -o /dev/null http://127.0.0.1:443/", 10)
    checks.has(
        "a port that is taken", "port 443 cannot be had", office.set_up(machine, check=False).output
    )
    machine.run("systemctl stop taken")


def left(town: Town) -> str:
    """Which files of a setup are there."""
    return town.machine.run(f"ls -d {MADE} 2>/dev/null", check=False).output


def check_killed(town: Town) -> None:
    """A setup that was killed has made the file. The next one goes on, and shows its keys."""
    checks, machine = town.checks, town.machine
    machine.run(f"cat >{NGINX}", stdin="#!/bin/sh\nkill -9 $PPID\n")
    ran = office.set_up(machine, check=False)
    checks.equal("a setup that is killed", 137, ran.status)
    machine.run(f"rm {NGINX}")
    checks.has("it has made the file", MAIN.file, left(town))
    said = machine.run("stat -c '%a %U' /var/lib/desk-setup").output.strip()
    checks.equal("its keys are root's alone", "700 root", said)
    ran = office.set_up(machine)
    town.admin = office.key_in(ran.output)
    checks.holds("the next one shows them", len(town.admin) > 20, ran.output)
    kept = machine.run(f"grep -rqsF '{town.admin}' /etc /var /root /tmp", check=False)
    checks.holds("and keeps none", not kept.is_well)


def check_again(town: Town) -> None:
    """Other answers, asked of a person; and a site that somebody changed."""
    checks, machine = town.checks, town.machine
    answers = "Other Town\nMoon\nAmerica/Denver\n\n\n\n\nnone\n"
    said = machine.run("script -qec desk-setup /dev/null", stdin=answers, check=False).output
    checks.has("a wrong answer is asked again", "no zone", said)
    zone = machine.run(f"cat {MAIN.conf}").output
    checks.has("the new zone", "=MST7MDT", zone)
    checks.has("the file stays", "was there already", said)
    checks.has("the new name", "Other Town", office.ask(machine, "/agency.json").body)
    timer = machine.run(
        f"systemctl is-enabled {MAIN.unit_of('backup.timer')}", check=False
    ).output.strip()
    checks.equal("what runs each night", "disabled", timer)
    site = "/etc/nginx/conf.d/desk.conf"
    machine.run(f"sed -i s/rate=30r/rate=31r/ {site}")
    said = office.set_up(machine).output
    checks.has("a site that was changed by hand", "was changed by hand and stays", said)
    rates = machine.run(f"grep -c rate=31r {site}; grep -c rate=30r {site}.new").output.split()
    checks.equal("it stays, and the new one is beside it", ["1", "1"], rates)
    machine.run(f"mv {site}.new {site} && desk-setup </dev/null")


def check_demonstration(town: Town) -> None:
    """desk-demo as a user of the machine."""
    checks, machine = town.checks, town.machine
    machine.run("mkdir -p /home/demo && chown nobody /home/demo")
    words = "setpriv --reuid=nobody --regid=nogroup --clear-groups env HOME=/home/demo timeout -s INT 90 desk-demo"
    machine.run(
        f"systemd-run --quiet --unit demo sh -c '{words} --port 8085 --no-browser >/home/demo/said 2>&1'"
    )
    checks.holds("desk-demo begins", machine.wait_for("grep -q 'Ctrl+C ends' /home/demo/said", 60))
    checks.has("it shows keys", "\n  Clerk", machine.run("cat /home/demo/said").output)
    for path, wanted in ("/", "<!doctype html>"), ("/agency.json", "Chervil Falls"):
        checks.has(
            f"{path} of it",
            wanted,
            machine.run(f"curl -s http://127.0.0.1:8085{path}", check=False).output,
        )
    machine.run("systemctl kill -s INT demo; systemctl stop demo; true", check=False)


def check_migration(town: Town) -> None:
    """A file of an earlier version is migrated by an upgrade; one that is spoilt ends it, and stays as it is."""
    checks, machine, file = town.checks, town.machine, MAIN.file
    later = packages.other(town.package, "0.97.0")
    path = office.bring(machine, later, later.name)
    machine.run(
        f"systemctl stop {MAIN.unit} && rm -f {file}* && printf spoilt >{file} && chown {MAIN.user}:{MAIN.user} {file}"
    )
    ran = office.install(machine, path, check=False)
    checks.holds(
        "a spoilt file ends the upgrade",
        not ran.is_well and "does not open" in ran.output,
        ran.output[-300:],
    )
    checks.equal("and is as it was", "spoilt", machine.run(f"cat {file}").output)
    below(machine.root, MAIN.file).write_bytes(EARLIER.read_bytes())
    machine.run(f"chown {MAIN.user}:{MAIN.user} {file} && chmod 600 {file}")
    ran = office.install(machine, path, check=False)
    checks.holds("a file of an earlier version", ran.is_well, ran.output[-300:])
    checks.holds("the desk answers", office.answers(machine))
    copies = sorted(below(machine.root, MAIN.folder).glob("desk.db.before-*"))
    is_kept = any(it.read_bytes() == EARLIER.read_bytes() for it in copies)
    checks.holds("the file from before is kept", is_kept, copies)
    reply = office.ask(machine, "/riders/7/trips", key="hello")
    checks.has("its trips are served", '"trips":[', reply.body)
