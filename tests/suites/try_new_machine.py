"""Tries `desk-setup --restore`: a lost machine comes back on a new one. `try-new-machine PROGRAM`.

A machine is this one with a layer of its own over its disk, thrown away afterwards. On the first an agency is set up and
the night's backup is made, by the lines of desk-backup@.service. On others one command brings it back: the desk's file,
its zone, site, certificate and keys of the night's work. What is cut, of another agency, of another zone, or encrypted to
another key is refused in one sentence, and the machine is as it was. It takes root, layers of disks (overlay), nginx and
openssl: without them it is left out, and a line says so. systemd runs on none of these machines: tests/booted has that.

The last line is 'N passed, M failed', and the exit status 1 where something failed.
"""
import glob
import os
import pathlib
import re
import shlex
import shutil
import subprocess
import sys
import tarfile
import tempfile

from desk_tools import agencies
from desk_tools.machine import to_main
from desk_tools.tree import TOP
from serving import SECONDS, difference, tally, told_program
from trying import skipped, works

MAIN = agencies.Agency()
LAYER = """set -e
mount -t tmpfs -o size="$4" none "$1" && mkdir "$1/upper" "$1/work" "$1/whole"
mount -t overlay overlay -o lowerdir=/,upperdir="$1/upper",workdir="$1/work" "$1/whole"
mount -t proc proc "$1/whole/proc" && mount --bind /dev "$1/whole/dev" && mount --bind "$2" "$1/whole$2"
mkdir -p "$1/whole/run/systemd" && rm -rf "$1/whole/run/systemd/system"
exec chroot "$1/whole" sh -c "$3"
"""
# A machine with the program and its user, and nothing of an agency.
BARE = f"""set -e
install -m 755 {{program}} /usr/bin/desk
rm -rf /var/lib/desk {MAIN.folder} {agencies.SITES} {MAIN.backups} {agencies.SETTINGS} {MAIN.tls} /etc/nginx/conf.d/desk.conf
getent passwd {MAIN.user} >/dev/null || useradd --system --user-group --home-dir {MAIN.folder} --shell /usr/sbin/nologin {MAIN.user}
install -d -m 700 -o {MAIN.user} -g {MAIN.user} {MAIN.folder}
install -d -m 700 {MAIN.backups}
install -d -m 755 {agencies.SITES}
install -d -m 2750 -g www-data {MAIN.site}
install -D -m 644 {{root}}/deploy/journal.lua /usr/lib/desk/deploy/journal.lua
install -d {agencies.SETTINGS} {MAIN.record}
setup() {{{{ {{root}}/packaging/desk-setup "$@"; }}}}
"""
SETUP = "setup --agency '{name}' --zone {zone} --name desk.test --port 8443 --nightly none --offsite 'none yet' >/dev/null"
# Of which the desk's file, the settings and what else the night's copy has is shown.
SHOWN = f"""
for it in {MAIN.conf} /etc/nginx/conf.d/desk.conf {MAIN.tls}/certificate.pem \\
    {MAIN.tls}/key.pem {MAIN.names} {agencies.SETTINGS}/setup.json {MAIN.key('standing-orders')} {MAIN.own('roster.csv')}; do
    printf '%s %s %s\\n' "$it" "$(stat -c '%a %U' $it 2>&1)" "$(sha256sum <$it)"
done
ls -d {MAIN.fence} /var/lib/desk-setup 2>/dev/null || true
stat -c '%n %a %U' {MAIN.file}
sqlite3 {MAIN.file} 'SELECT id, role FROM callers ORDER BY id; SELECT id FROM places'
"""


class Machines:
    """Runs commands on machines of their own; what they put into the folder `out` stays."""

    def __init__(self, folder, program):
        self.folder, self.out, self.program = folder, f"{folder}/out", program
        os.makedirs(self.out)
        os.makedirs(f"{folder}/layer")

    def run(self, *lines, size="50%"):
        script = BARE.format(program=self.program, root=TOP) + "\n".join(lines)
        words = [
            "unshare",
            "--mount",
            "sh",
            "-c",
            LAYER,
            "sh",
            f"{self.folder}/layer",
            self.out,
            script,
            size,
        ]
        return subprocess.run(
            words, capture_output=True, text=True, timeout=2 * SECONDS, stdin=subprocess.DEVNULL
        )


def said_by(told):
    return f"status {told.returncode}, {told.stdout!r}, {told.stderr[-2000:]!r}"


def lines_of_backup():
    """What the unit of the night's backup runs."""
    with open(f"{TOP}/deploy/desk-backup@.service", encoding="utf-8") as file:
        found = re.findall(r"(?m)^Exec(?:Start|StartPost)=(/bin/sh -c .*)$", file.read())
    return [
        it.replace("%%", "%")
        .replace("$$", "$")
        .replace("%i", "main")
        .replace("/usr/lib/desk/deploy/", f"{TOP}/deploy/")
        for it in found
    ]


def made_agency(machines, name, zone, place, end=""):
    """An agency is set up, and its night's backup is in `out`: the two paths."""
    folder = f"{machines.out}/{name.split()[0]}"
    key = f"a key of the night work of {name}"
    os.makedirs(folder)
    told = machines.run(
        SETUP.format(name=name, zone=zone),
        f"install -d -m 700 {agencies.SETTINGS}/keys",
        f"cd /root && printf '%s\\n' rider,name 7,Ana >{MAIN.own('roster.csv')} && echo '{key}' >{MAIN.key('standing-orders')}",
        f"chmod 600 {MAIN.key('standing-orders')} && echo 'a key that signs' >{agencies.SETTINGS}/keys/record",
        f"digest=$(printf '{key}' | sha256sum | cut -c 1-64)",
        f"sqlite3 {MAIN.file} \"INSERT INTO callers VALUES (5, 1, 0, X'$digest')\" "
        f'"INSERT INTO places VALUES ({place}, 1, 1, 0)"',
        f'sed -i \'s/^{{/{{"places": [{{"id": {place}}}],/\' {MAIN.names}',
        end,
        "export PROCESS='echo 0' DESK=/usr/bin/desk; cd /",
        *lines_of_backup(),
        SHOWN,
        f"cp -p {MAIN.backups}/* '{folder}/'",
    )
    if told.returncode:
        raise OSError(f"the agency was not made: {said_by(told)}")
    return (
        glob.glob(f"{folder}/desk-*.db")[0],
        glob.glob(f"{folder}/machine-*.tar.gz")[0],
        told.stdout,
    )


def restored(machines, *words, before="", after=SHOWN):
    return machines.run(before, f"setup --restore {' '.join(map(shlex.quote, words))}", after)


def faults_of_restored(machines, copy, machine, shown):
    """One command, and all is as on the machine that was lost."""
    told = restored(machines, copy, machine)
    yield None if told.returncode == 0 else f"a new machine: {said_by(told)}"
    wanted = [it for it in shown.splitlines() if not it.startswith(("deploy/backup", MAIN.fence))]
    said = told.stdout.splitlines()
    yield difference("a new machine", wanted, said[-len(wanted) :])
    yield None if "The desk has version 2; 3 callers" in told.stdout else f"what it has: {said_by(told)}"
    yield None if "4000000000-admin" not in told.stdout else "keys were shown that are nobody's"
    told = restored(machines, copy, machine, "--zone", "America/Chicago")
    yield None if told.returncode == 0 else f"with the same zone: {said_by(told)}"
    told = restored(
        machines,
        copy,
        "none",
        "--agency",
        "Other",
        "--zone",
        "America/Chicago",
        "--name",
        "desk.test",
        "--port",
        "8443",
        "--nightly",
        "none",
        after=f"cat {MAIN.conf}",
    )
    is_well = told.returncode == 0 and "CST6CDT" in told.stdout
    yield None if is_well else f"a backup alone: {said_by(told)}"


def faults_of_earlier_version(machines, copy, machine):
    """A machine's copy that does not say whose it is comes back by a key of the night's work, or by a person's word."""
    without = changed_tar(machine, f"{machines.out}/without.tar.gz", "identity.json", os.remove)
    told = restored(machines, copy, without, after="")
    yield None if told.returncode == 0 else f"a copy of an earlier version, by its keys: {said_by(told)}"
    bare = changed_tar(
        without, f"{machines.out}/bare.tar.gz", "etc/desk/keys/main-standing-orders", os.remove
    )
    told = restored(machines, copy, bare, "--anyway", after="")
    yield None if told.returncode == 0 else f"a copy of an earlier version, by a word: {said_by(told)}"


def faults_of_earlier_names(machines, copy, machine, shown):
    """A machine's copy in which the agency's files have the names that an earlier version gave them: all is as it was."""
    path = f"{machines.out}/earlier-names.tar.gz"
    with tempfile.TemporaryDirectory() as folder:
        with tarfile.open(machine) as archive:
            archive.extractall(folder, filter="data")
        renaming = to_main.Renaming(pathlib.Path(folder), is_back=True)
        renaming.rename(), renaming.keep_zone(), renaming.reword()
        with tarfile.open(path, "w:gz") as archive:
            for it in sorted(os.listdir(folder)):
                archive.add(f"{folder}/{it}", it)
            names = archive.getnames()
    wanted = ["etc/desk/agency.json", "etc/desk/keys/standing-orders", "etc/ssl/desk/key.pem"]
    yield difference(
        "names of an earlier version",
        wanted,
        [it for it in wanted if it in names and "etc/desk/main.conf" not in names],
    )
    told = restored(machines, copy, path)
    yield None if told.returncode == 0 else f"a copy with earlier names: {said_by(told)}"
    wanted = [it for it in shown.splitlines() if not it.startswith(("deploy/backup", MAIN.fence))]
    yield difference("a copy with earlier names", wanted, told.stdout.splitlines()[-len(wanted) :])


def faults_of_place(machines):
    """The place of copies that a person wrote stays when desk-setup runs again, as in an upgrade, until it is told another."""
    set_up = SETUP.format(name="Lake Town", zone="America/Chicago").replace(
        "--offsite 'none yet' ", ""
    )
    told = machines.run(
        set_up,
        f"grep ^OFFSITE {agencies.SETTINGS}/copies.conf",
        f"printf 'SSH=ssh -i k\\nOFFSITE=/mnt/far\\n' >{agencies.SETTINGS}/copies.conf",
        "setup </dev/null >/dev/null",
        f"grep -c . {agencies.SETTINGS}/copies.conf; grep ^OFFSITE {agencies.SETTINGS}/copies.conf",
        f"setup --offsite keeper@far.test:/srv/desk </dev/null >/dev/null; cat {agencies.SETTINGS}/copies.conf",
    )
    wanted = (
        "OFFSITE=none yet\n2\nOFFSITE=/mnt/far\nSSH=ssh -i k\nOFFSITE=keeper@far.test:/srv/desk\n"
    )
    yield difference("the place of copies", (0, wanted), (told.returncode, told.stdout))
    told = machines.run(set_up + " --offsite somewhere || echo status $?")
    yield None if "is not a mounted folder" in told.stderr and "status 2" in told.stdout else f"no place: {said_by(told)}"
    told = machines.run(
        set_up,
        f"rm -r {MAIN.backups}; mkdir /mnt/far; mount -t tmpfs none /mnt/far; touch /mnt/far/desk-2026-03-01-0359.db",
        *(
            f"setup --offsite {it} </dev/null | grep -e 'was tried' -e 'No copy can go' || echo nothing"
            for it in ("/mnt/nowhere/copies", "/mnt/far", "/mnt/far", "/var/backups")
        ),
    )
    wanted = [
        "No copy can go to /mnt/nowhere/copies yet (there is no folder /mnt/nowhere",
        "/mnt/far was tried and answers; copies that " "are there: 1.",
        "nothing",
        "No copy can go to /var/backups yet (/var/backups is on the disk of",
    ]
    said = told.stdout.splitlines()
    is_told = len(said) == len(wanted) and all(
        it.startswith(begin) for it, begin in zip(said, wanted)
    )
    yield None if is_told else f"a place that is tried at once: {said_by(told)}"


def faults_of_same_minute(machines):
    """The night's backup in the minute of one that a person made: that one is the backup, and the night's work goes on."""
    lines = lines_of_backup()
    told = machines.run(
        SETUP.format(name="Lake Town", zone="America/Chicago"),
        "mkdir /root/stub; cd /root",
        "printf '#!/bin/sh\necho 2026-03-01-0305\n' >/root/stub/date; chmod 755 /root/stub/date",
        "export PATH=/root/stub:$PATH PROCESS='echo 0' DESK=/usr/bin/desk",
        lines[0],
        f"sha256sum {MAIN.backups}/*.db",
        *lines,
        f"sha256sum {MAIN.backups}/*.db; ls {MAIN.backups}",
    )
    said = [it for it in told.stdout.splitlines() if not it.startswith("deploy/backup")]
    is_well = (
        told.returncode == 0
        and len(said) == 5
        and said[0] == said[2]
        and "is there, of this minute" in said[1]
        and said[3:] == ["desk-2026-03-01-0305.db", "machine-2026-03-01-0305.tar.gz"]
    )
    yield None if is_well else f"two backups of a minute: {said_by(told)}"


def faults_of_words(machines):
    """Wrong words end with 2, and nothing was changed."""
    given = "--agency Town --zone America/Chicago --name desk.test --port 8443"
    for label, words in [
        ("no name", "--zone America/Chicago --name desk.test"),
        ("an unknown zone", f"{given} --zone America/Nowhere"),
        ("an empty name", f"{given} --agency ''"),
        ("no port", f"{given} --port none"),
        ("no work of a night", f"{given} --nightly sleep"),
        ("no authority", f"{given} --acme 'a b'"),
    ]:
        told = machines.run(f"setup {words} </dev/null {NOTHING}")
        is_told = (
            told.stdout == "status 2\n0\n"
            and told.stderr.count("\n") == 1
            and "Traceback" not in told.stderr
        )
        yield None if is_told else f"wrong words, {label}: {said_by(told)}"


def faults_of_second(machines, copy, machine, shown):
    """A second machine has all but the desk's file, and is fenced until it is opened."""
    told = machines.run(
        f"setup --restore {copy} {machine} --second",
        SHOWN.partition("stat -c '%n")[0],
        f"ls -A {MAIN.folder}",
    )
    wanted = [it for it in shown.splitlines() if not it.startswith(("deploy/backup", MAIN.folder))][
        :9
    ]
    is_well = (
        told.returncode == 0
        and told.stdout.splitlines()[-9:] == wanted
        and MAIN.fence in told.stdout
    )
    yield None if is_well else f"a second machine: {said_by(told)}, wanted {wanted}"
    yield fault_of_refused(
        machines,
        "a second machine without the first's copy",
        "takes the copy of the first",
        copy,
        "none",
        "--second",
        status=2,
    )


# What is on a machine of which nothing was changed.
NOTHING = f"|| echo status $?; ls -A {MAIN.folder} {agencies.SETTINGS} /etc/nginx/conf.d | grep -c -e desk.db -e setup.json -e desk.conf || true"


def fault_of_refused(machines, label, said, *words, before="", status=1):
    """It ends with one sentence, and the machine is as it was."""
    told = machines.run(before, f"setup --restore {' '.join(map(shlex.quote, words))} {NOTHING}")
    is_well = (
        told.stderr.count("\n") == 1
        and said in told.stderr
        and told.stdout == f"status {status}\n0\n"
        and "Traceback" not in told.stderr
    )
    return None if is_well else f"{label}: {said_by(told)}"


def changed_tar(machine, path, name, change):
    """The machine's copy, with another text in one of its files, or a file more."""
    with tempfile.TemporaryDirectory() as folder:
        with tarfile.open(machine) as archive:
            archive.extractall(folder, filter="data")
        os.makedirs(os.path.dirname(f"{folder}/{name}"), exist_ok=True)
        change(f"{folder}/{name}")
        with tarfile.open(path, "w:gz") as archive:
            for it in sorted(os.listdir(folder)):
                archive.add(f"{folder}/{it}", it)
    return path


def replaced(old, new):
    def change(path):
        with open(path, encoding="utf-8") as file:
            text = file.read()
        with open(path, "w", encoding="utf-8") as file:
            file.write(text.replace(old, new))

    return change


def written(text):
    def change(path):
        with open(path, "w", encoding="utf-8") as file:
            file.write(text)

    return change


def faults_of_refused(machines, copy, machine, other):
    """What is not whole, of another agency or of another zone."""
    out = machines.out
    for path, source, size in (
        (f"{out}/cut.db", copy, 30_000),
        (f"{out}/cut.tar.gz", machine, 1_000),
    ):
        with open(source, "rb") as whole, open(path, "wb") as file:
            file.write(whole.read(size))
    zone = changed_tar(
        machine,
        f"{out}/zone.tar.gz",
        "etc/desk/main.json",
        replaced("America/Chicago", "America/Denver"),
    )
    unit = changed_tar(
        machine, f"{out}/unit.tar.gz", "etc/desk/main.conf", replaced("CST6CDT", "EST5EDT")
    )
    strange = changed_tar(
        machine, f"{out}/strange.tar.gz", "etc/cron.d/strange", written("* * * * * root true\n")
    )
    spoilt = changed_tar(machine, f"{out}/spoilt.tar.gz", "etc/desk/setup.json", written("{"))
    # (as on a machine that named neither places nor keys of the night's work; and as before the copy said whose it is)
    plain = changed_tar(
        other,
        f"{out}/plain.tar.gz",
        "etc/desk/main.json",
        written('{"name": "Hill Town", "zone": "America/Chicago"}'),
    )
    older = changed_tar(plain, f"{out}/older.tar.gz", "identity.json", os.remove)
    os.mkdir(f"{out}/late")
    late = shutil.copy(copy, f"{out}/late/desk-2026-03-01-0359.db")
    shutil.copy(machine, f"{out}/late/machine-2026-03-01-0402.tar.gz")
    for label, said, *words in [
        ("no backup", "there is no", f"{out}/nowhere.db", machine),
        ("a backup that is cut", "is malformed", f"{out}/cut.db", machine),
        (
            "a machine's copy that is cut",
            "is cut, or no copy of a machine",
            copy,
            f"{out}/cut.tar.gz",
        ),
        ("another agency's", "is of another agency than", copy, other),
        (
            "another agency's that names no place",
            "none of its callers is in the backup",
            copy,
            plain,
        ),
        (
            "a machine's copy of an earlier version",
            "nothing in it shows that it is of the agency of",
            copy,
            older,
        ),
        ("another zone in agency.json", "the zones differ", copy, zone),
        ("another zone of the unit", "the zones differ", copy, unit),
        (
            "another zone of the words",
            "the zones differ",
            copy,
            machine,
            "--zone",
            "America/Denver",
        ),
        ("a file that is not the desk's", "which is no file of the desk's", copy, strange),
        ("settings that are none", "is no JSON object", copy, spoilt),
        ("a machine's copy that was forgotten", "is beside the backup: name it", copy),
        (
            "one that was packed minutes later",
            "machine-2026-03-01-0402.tar.gz is beside the backup: name it",
            late,
        ),
        ("three words", "--restore takes a backup, and", copy, machine, machine),
        ("no copy of a machine", "is cut, or no copy of a machine", copy, copy),
    ]:
        is_of_words = any(
            it in said for it in ("there is no", "beside the backup", "--restore takes")
        )
        yield fault_of_refused(machines, label, said, *words, status=2 if is_of_words else 1)


def faults_of_late_failure(machines, copy, machine):
    """A step that fails once the backup is in its place: all of it is taken away again."""
    nginx = "printf '#!/bin/sh\\necho no such word >&2; exit 1\\n' >/usr/sbin/nginx"
    yield fault_of_refused(
        machines,
        "a site that nginx refuses",
        "nginx failed: no such word",
        copy,
        machine,
        before=nginx,
    )


def faults_of_encrypted(machines, copy, machine):
    """Copies that are encrypted come back by their key, and by no other."""
    if skipped("try-new-machine", "encrypted copies", None if shutil.which("age") else "age"):
        return
    keys = {}
    for name in "own", "other":
        subprocess.run(
            ["age-keygen", "-o", f"{machines.out}/{name}.key"], check=True, capture_output=True
        )
        with open(f"{machines.out}/{name}.key", encoding="utf-8") as file:
            keys[name] = re.search(r"public key: (\S+)", file.read())[1]
    sealed = [f"{machines.out}/{os.path.basename(it)}.age" for it in (copy, machine)]
    for source, target in zip((copy, machine), sealed):
        subprocess.run(["age", "--recipient", keys["own"], "--output", target, source], check=True)
    told = restored(machines, *sealed, "--identity", f"{machines.out}/own.key", after="")
    yield None if told.returncode == 0 and "The desk has version 2" in told.stdout else f"encrypted copies: {said_by(told)}"
    yield fault_of_refused(machines, "no key", "is encrypted: name the private key", *sealed)
    yield fault_of_refused(
        machines,
        "no age",
        "age is not installed: apt install age",
        *sealed,
        "--identity",
        f"{machines.out}/own.key",
        before="rm -f /usr/bin/age",
    )
    yield fault_of_refused(
        machines,
        "another key",
        "could not be decrypted by this key",
        *sealed,
        "--identity",
        f"{machines.out}/other.key",
    )


def faults_of_killed(machines, copy, machine):
    """A restore that was killed leaves its opened copies in /var/tmp until the next command of the machine's setup."""
    command = (
        f"(exec {TOP}/packaging/desk-setup --restore {copy} {machine} >/dev/null 2>&1) & number=$!"
    )
    told = machines.run(
        f"{command}; until ls -d /var/tmp/desk-restore-*/machine >/dev/null 2>&1; do kill -0 $number || exit; sleep 0.02; done",
        "kill -9 $number; wait $number || true; ls /var/tmp | grep -c desk-restore-",
        "setup --site >/root/next 2>&1 || true; ls /var/tmp | grep -c desk-restore- || true",
    )
    counts = told.stdout.splitlines()[-2:]
    yield difference(
        f"what a killed restore leaves, before and after the next command ({said_by(told)})",
        ["1", "0"],
        counts,
    )


def faults_of_second_operator(machines, copy, machine):
    """Two people set the machine up at one time: the second ends at once, and the first goes on."""
    # (a command that was killed leaves the file of its lock; the first stands still while the second tries)
    told = machines.run(
        "rm -f /run/desk-setup.lock",
        f"(exec {TOP}/packaging/desk-setup --restore {copy} {machine} >/root/first 2>&1) & first=$!",
        "while ! [ -e /run/desk-setup.lock ]; do sleep 0.01; done; sleep 0.05; kill -STOP $first",
        "! setup --site; ! setup </dev/null",
        "kill -CONT $first; wait $first; echo status $?; cat /root/first",
    )
    refused = told.stderr.splitlines()
    is_told = len(refused) == 2 and all(
        "another desk-setup is at work on this machine" in it for it in refused
    )
    is_well = told.stdout.startswith("status 0\n") and "Lake Town is set up" in told.stdout
    yield None if is_told and is_well else f"a second operator: {said_by(told)}"


# The disk of the machine has so many KiB beside what it has already, and the setup goes on until it finds no room.
FILL = """left=$(df --output=avail -k / | tail -n 1)
[ "$left" -le {free} ] || dd if=/dev/zero of=/root/zeros bs=1k count=$((left - {free})) 2>/dev/null
"""
SIZES = 0, 40, 200, 400, 700, 1_000, 1_300, 1_600, 2_400, 5_000


def faults_of_small_disks(machines, copy, machine):
    """A disk that fills in each step: one sentence, and nothing of an agency is there."""
    statuses = []
    for free in SIZES:
        told = machines.run(
            FILL.format(free=free), f"setup --restore {copy} {machine} {NOTHING}", size="40m"
        )
        statuses.append("status 1" in told.stdout)
        if statuses[-1]:
            is_well = (
                told.stdout == "status 1\n0\n"
                and told.stderr.count("\n") == 1
                and "Traceback" not in told.stderr
            )
            yield None if is_well else f"a disk with {free} KiB free: {said_by(told)}"
    yield None if statuses[0] and not statuses[-1] else f"no disk filled, or each did: {statuses}"


def faults_of_machine_in_use(machines, copy, machine):
    """A machine that has another agency's desk keeps it."""
    before = SETUP.format(name="Third Town", zone="America/Denver") + f"; sha256sum <{MAIN.file}"
    told = machines.run(
        before,
        f"setup --restore {copy} {machine} || sha256sum <{MAIN.file}",
        f"grep -h -e zone -e agency {agencies.SETTINGS}/setup.json",
        f"ls {MAIN.folder}",
    )
    lines = told.stdout.splitlines()
    is_kept = (
        len(lines) >= 3
        and lines[0] == lines[1]
        and "Third Town" in told.stdout
        and "America/Denver" in told.stdout
    )
    is_told = (
        told.stderr.count("\n") == 1
        and "another agency's" in told.stderr
        and "before-" not in told.stdout
    )
    yield None if is_kept and is_told else f"a machine of another agency: {said_by(told)}"


def missing():
    if os.geteuid() != 0:
        return "root"
    lacking = [it for it in ("nginx", "openssl", "sqlite3", "unshare") if not shutil.which(it)]
    with tempfile.TemporaryDirectory() as folder:
        for it in "layer", "out":
            os.makedirs(f"{folder}/{it}")
        is_there = works(
            "unshare",
            "--mount",
            "sh",
            "-c",
            LAYER,
            "sh",
            f"{folder}/layer",
            f"{folder}/out",
            "true",
            "50%",
        )
    return " and ".join(lacking) or (None if is_there else "layers of disks")


def faults(program, folder):
    if skipped("try-new-machine", "all of it", missing()):
        return
    machines = Machines(folder, program)
    copy, machine, shown = made_agency(
        machines, "Lake Town", "America/Chicago", 14, f"touch {MAIN.fence}"
    )
    _, other, _ = made_agency(
        machines, "Hill Town", "America/Chicago", 15, f"rm {MAIN.key('standing-orders')}"
    )
    yield from faults_of_place(machines)
    yield from faults_of_words(machines)
    yield from faults_of_same_minute(machines)
    yield from faults_of_restored(machines, copy, machine, shown)
    yield from faults_of_earlier_version(machines, copy, machine)
    yield from faults_of_earlier_names(machines, copy, machine, shown)
    yield from faults_of_second(machines, copy, machine, shown)
    yield from faults_of_refused(machines, copy, machine, other)
    yield from faults_of_late_failure(machines, copy, machine)
    yield from faults_of_encrypted(machines, copy, machine)
    yield from faults_of_machine_in_use(machines, copy, machine)
    yield from faults_of_killed(machines, copy, machine)
    yield from faults_of_second_operator(machines, copy, machine)
    yield from faults_of_small_disks(machines, copy, machine)


def main(words):
    program, _ = told_program(words, __doc__)
    with tempfile.TemporaryDirectory(prefix="desk-new-") as folder:
        return tally("deploy/try-new-machine", faults(program, folder))


if __name__ == "__main__":
    sys.exit(main(sys.argv[1:]))
