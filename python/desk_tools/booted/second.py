"""A second machine by the document alone: set up, change-over and back while clients write, and copies elsewhere."""

from __future__ import annotations

from pathlib import Path

from desk_tools import agencies
from desk_tools.booted import documents, office, restoring, writers
from desk_tools.booted.machines import Machine
from desk_tools.booted.town import Town
from desk_tools.booted.writers import Writers
from desk_tools.machine.earlier import below

MAIN = agencies.Agency()
BACKUPS, SECOND, ELSEWHERE = "BACKUPS.md", "A second machine", "Copies elsewhere"
COPY, OF_MACHINE = "desk-2025-03-11-0305.db", "machine-2025-03-11-0305.tar.gz"
# What runs on a machine that serves by desk-setup's usual answers.
SERVING = (
    f"{MAIN.unit}.service",
    *map(MAIN.unit_of, ("backup.timer", "worklist.timer")),
    *MAIN.beside,
    *agencies.UNITS_OF_MACHINE,
    "nginx.service",
)
OPENED = "no write is missing"


def copies(machine: Machine) -> list[Path]:
    """The newest backup of a night and the newest copy of the machine, as files of the machine that tries."""
    folder = below(machine.root, MAIN.backups)
    return [max(folder.glob(it)) for it in ("desk-*.db", "machine-*.tar.gz")]


def carry(files: list[Path], to: Machine) -> dict[str, str]:
    """Brings a backup and a machine's copy into /root of another machine; what to fill in for their names."""
    for it in files:
        (to.root / "root" / it.name).write_bytes(it.read_bytes())
    return dict(zip((COPY, OF_MACHINE), (it.name for it in files), strict=True))


def public_key(machine: Machine, name: str = "standby") -> str:
    """The public half of a key of root."""
    return machine.run(f"cat /root/.ssh/{name}.pub").output.strip()


def has_all(town: Town, machine: Machine, label: str) -> None:
    """All that serves an agency runs, and begins at each start of the machine."""
    words = f"for it in {' '.join(SERVING)}; do systemctl is-active --quiet $it && systemctl is-enabled --quiet $it || echo $it; done"
    town.checks.equal(f"{label}: what does not run", "", machine.run(words, check=False).output)


def set_up(town: Town, first: Machine, second: Machine) -> None:
    """The second machine, from the first one's copies of last night."""
    checks = town.checks
    machine_has = office.install(second, office.bring(second, town.package))
    checks.holds("the package on the second machine", machine_has.is_well, machine_has.output)
    names = carry(copies(first), second)
    told = documents.play(
        second,
        documents.filled(documents.block(second, BACKUPS, SECOND, "--second"), names),
        "/root",
    )
    checks.has("the second machine is set up", "Nothing serves until standby open", told.output)
    documents.play(second, documents.block(second, BACKUPS, SECOND, "useradd"))
    documents.play(first, documents.block(first, BACKUPS, SECOND, "ssh-keygen"))
    receive_copies(first, second)
    sending = documents.block(first, BACKUPS, SECOND, "deploy/standby send")
    told = documents.play(first, sending)
    checks.has("the first copy", "deploy/standby: desk-standby@second.example.org:", told.output)
    documents.play(second, documents.block(second, BACKUPS, SECOND, "first.example.org"))
    let_fence(second, first, "root@second")
    checks.equal("nothing serves on the second", 503, office.ask(second, "/agency.json").status)


def receive_copies(sender: Machine, receiver: Machine) -> None:
    """The sender's key may add copies on the receiver."""
    receiver.run("cat >/root/standby.pub", stdin=public_key(sender) + "\n")
    documents.play(receiver, documents.block(receiver, BACKUPS, SECOND, "cat standby.pub"), "/root")


def let_fence(one: Machine, other: Machine, who: str) -> None:
    """The one machine's key may fence the other."""
    line = documents.block(other, BACKUPS, SECOND, 'standby fence"')
    line = documents.filled(line, {f"ssh-ed25519 AAAA.. {who}": public_key(one)})
    other.run("umask 077; cat >>/root/.ssh/authorized_keys", stdin=line)


def set_up_way_back(town: Town, first: Machine, second: Machine) -> None:
    """The same the other way: the second sends copies to the first and may be fenced by it."""
    documents.play(first, documents.block(first, BACKUPS, SECOND, "useradd"))
    receive_copies(second, first)
    let_fence(first, second, "root@second")
    sending = documents.block(second, BACKUPS, SECOND, "deploy/standby send")
    sending = documents.filled(sending, {"second.example.org": "first.example.org"})
    told = documents.play(second, sending)
    wanted = "deploy/standby: desk-standby@first.example.org:"
    town.checks.has("a copy the other way", wanted, told.output)


def change(town: Town, old: Machine, new: Machine, text: str, clients: Writers) -> None:
    """The desk goes from one machine to the other while clients write. They go on at the new one."""
    checks, label = town.checks, f"from {old.name} to {new.name}"
    address = {"first": "10.85.0.1", "second": "10.85.0.2"}
    before = writers.riders_of(old)
    with Writers(new, address[old.name], clients.begun) as at_old:
        begun = old.wait_for(f"test $(stat -c %s {MAIN.file}-wal) -gt 100000", 20)
        checks.holds(f"{label}: the clients write", begun)
        told = documents.play(new, text, check=False)
    checks.has(f"{label}: the opening", OPENED, told.output)
    there = writers.riders_of(new)
    checks.holds(f"{label}: writes were answered", len(at_old.answered) >= 24, at_old.answered)
    lost = sorted({*at_old.answered, *before} - there)
    checks.equal(f"{label}: answered writes that are lost", [], lost[:5])
    print(f"{label}: {len(at_old.answered)} answered writes, {len(lost)} lost", flush=True)
    checks.equal(f"{label}: the old one", 503, office.ask(old, "/agency.json").status)
    checks.holds(f"{label}: the old desk", not office.answers(old, 0))
    has_all(town, new, label)
    # What was not answered is sent again to the machine that serves now, and is done once.
    with Writers(new, address[new.name], at_old.begun) as at_new:
        new.wait_for("sleep 3", 5)
    checks.holds(f"{label}: the clients go on", len(at_new.answered) >= 8, at_new.answered)
    clients.begun = at_new.begun


def check_silent(town: Town, first: Machine, second: Machine, text: str) -> None:
    """The second machine starts the desk, which ends at once: the first serves again, and the command says so."""
    checks = town.checks
    second.run(restoring.ENDING)
    told = documents.play(second, text, check=False)
    second.run(restoring.WELL)
    checks.equal("a desk that ends on the second: the status", 1, told.status)
    for wanted in "was started and ended again and again", "root@first.example.org serves again":
        checks.has("a desk that ends on the second", wanted, told.output)
    checks.holds("the first answers", office.answers(first))
    checks.equal("its site", 200, office.ask(first, "/agency.json").status)
    checks.holds("the second does not", not office.answers(second, 0))


def check(town: Town, first: Machine, second: Machine) -> None:
    """The second machine is set up, and the desk goes there and back, by the commands of the document."""
    office.make_backup(first)
    set_up(town, first, second)
    writers.let_in(town)
    clients = Writers(second, "")
    opening = documents.block(second, BACKUPS, SECOND, "standby open")
    check_silent(town, first, second, opening)
    change(town, first, second, opening, clients)
    set_up_way_back(town, first, second)
    back = {"root@first.example.org": "root@second.example.org"}
    change(town, second, first, documents.filled(opening, back), clients)
    second.run(f"systemctl start {MAIN.unit_of('standby.service')}")
    words = f"journalctl --sync; journalctl -u {MAIN.unit_of('standby')} -n 20 -o short-precise"
    second.wait_for(f"{words} | grep -q 'is fenced and sends nothing'", 10)
    said = second.run(words).output
    town.checks.has("the fenced one's timer", "is fenced and sends nothing", said)
    for machine in (first, second):
        failed = machine.run("systemctl --failed --plain --no-legend", check=False).output
        town.checks.equal(f"no unit of the {machine.name} failed", "", failed)


def check_copies(town: Town, first: Machine, second: Machine) -> None:
    """The night's copies go to another machine by a key that can only add, and the drill is made there."""
    checks = town.checks
    documents.play(second, documents.block(second, BACKUPS, ELSEWHERE, "useradd"))
    first.run("ssh-keygen -q -t ed25519 -N '' -f /root/.ssh/elsewhere")
    line = documents.block(second, BACKUPS, ELSEWHERE, "serve-copies")
    line = documents.filled(line, {"ssh-ed25519 AAAA.. root@desk": public_key(first, "elsewhere")})
    keys = "/srv/desk-copies/.ssh/authorized_keys"
    second.run(f"cat >{keys} && chown desk-copies: {keys}", stdin=line)
    conf = documents.block(second, BACKUPS, ELSEWHERE, "OFFSITE=desk-copies@")
    conf = documents.filled(conf, {"RECIPIENT=age1...\n": ""})
    first.run(f"cat >{agencies.SETTINGS}/copies.conf", stdin=conf)
    first.run("ssh-keyscan backup.example.org >>/root/.ssh/known_hosts")
    told = first.run("cd /usr/lib/desk && deploy/elsewhere send")
    checks.has("a copy is elsewhere", ".db is at desk-copies@backup.example.org", told.output)
    before = second.run("ls -l /srv/desk-copies/lake").output
    for asked in ("rm -rf /srv/desk-copies/lake", "sh", "cat /srv/desk-copies/lake/*.db"):
        shell = "ssh -i /root/.ssh/elsewhere -o BatchMode=yes desk-copies@backup.example.org"
        refused = first.run(f"{shell} '{asked}'", check=False)
        checks.has(f"the key that adds copies: {asked}", "nothing else", refused.output)
    checks.equal("the copies there", before, second.run("ls -l /srv/desk-copies/lake").output)
    office.make_backup(first)
    words = f"journalctl -u {MAIN.unit_of('elsewhere')} -o cat | grep -q 'is at desk-copies@'"
    checks.holds("the night's unit sends them by itself", first.wait_for(words, 30))
    told = second.run(
        "cd /usr/lib/desk && deploy/drill --elsewhere /srv/desk-copies/lake", check=False
    )
    checks.has("the drill from the other place", "its counts are those of the backup", told.output)
