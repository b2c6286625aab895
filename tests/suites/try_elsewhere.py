"""Tries copies in another place: deploy/elsewhere, what the watch says of it, and `drill --elsewhere`: `try-elsewhere PROGRAM`.

The other place is a disk in memory, and a machine behind a stand-in for ssh, which lets the door of deploy/standby answer
as sshd would. Copies go there once, are never replaced, and are encrypted where there is a key (age, gpg; without these
packages a line says what is left out). A line that breaks, a disk that fills, one that is not mounted, a key that is
another's: each is one sentence, and what was there stays. The last line is 'N passed, M failed', and the exit status 1
where something failed.
"""
import os
import re
import shutil
import subprocess
import sys
import tarfile
import tempfile
import time

from desk_tools import agencies
from desk_tools.tree import TOP
from desk_tools.ops import elsewhere, standby, watching
from serving import SECONDS, copy_database, difference, make_agency, tally, told_program
from trying import missing_disk, private_file, skipped

MAIN = agencies.Agency()
MEMORY = "/dev/shm"
# A stand-in for ssh: the words of the command go to the door, as sshd gives them to a key that may do one thing.
SSH = """#!/bin/sh
for word; do :; done
export SSH_ORIGINAL_COMMAND="$word"
{before} {root}/deploy/standby serve-copies {folder}
"""
# The same with a line that is cut: before the call of a number, or in the middle of what goes over it.
CUTTING = """#!/bin/sh
count=$(($(cat {folder}/count) + 1))
echo $count >{folder}/count
[ "$(cat {folder}/cut)" != "$count before" ] || {{ echo "ssh: connect to host backup.test port 22: No route to host" >&2; exit 255; }}
[ "$(cat {folder}/cut)" = "$count during" ] || exec {door} "$@"
head -c 20000 | {door} "$@" | head -c 20000
echo "Timeout, server backup.test not responding." >&2
exit 255
"""
# What a user with a shell there reads, for the drill.
SHELL = '#!/bin/sh\nshift\nexec sh -c "$*"\n'
NAMES = [
    "desk-2026-11-28-0230.db",
    "desk-2026-11-29-0230.db",
    "machine-2026-11-28-0230.tar.gz",
    "machine-2026-11-29-0230.tar.gz",
]
OF_MACHINE = (
    "etc/desk/main.json",
    "etc/desk/setup.json",
    "etc/desk/main.conf",
    f"{MAIN.tls[1:]}/certificate.pem",
    f"{MAIN.tls[1:]}/key.pem",
)


class Office:
    """A machine with backups of two nights, and settings."""

    def __init__(self, program, folder):
        self.program, self.folder, self.backups = program, folder, f"{folder}/backups"
        self.settings, self.conf = f"{folder}/etc", f"{folder}/etc/copies.conf"
        for path in (self.backups, self.settings, f"{folder}/whole"):
            os.makedirs(path)
        file = make_agency(program, folder)
        for it in NAMES:
            path = f"{self.backups}/{it}"
            if it.endswith(".db"):
                copy_database(file, path)
                continue
            with tarfile.open(path, "w:gz") as archive:
                for name in OF_MACHINE:
                    private_file(f"{folder}/whole/text", name)
                    archive.add(f"{folder}/whole/text", name)

    def run(self, script, *words, before=(), **environment):
        named = {
            **os.environ,
            "SETTINGS": self.settings,
            "BACKUPS": self.backups,
            "DESK": self.program,
            **environment,
        }
        return subprocess.run(
            [*before, f"{TOP}/deploy/{script}", *words],
            env=named,
            capture_output=True,
            text=True,
            timeout=2 * SECONDS,
            stdin=subprocess.DEVNULL,
        )

    def sends(self, *lines, **environment):
        private_file(self.conf, "".join(f"{it}\n" for it in lines))
        return self.run("elsewhere", "send", **environment)


def said_by(told):
    return f"status {told.returncode}, {told.stdout!r}, {told.stderr[-800:]!r}"


def fault_of(label, told, status, *said):
    text = told.stdout + told.stderr
    is_well = (
        told.returncode == status and "Traceback" not in text and all(it in text for it in said)
    )
    is_well = is_well and (status == 0 or told.stderr.count("\n") == 1)
    return None if is_well else f"{label}: {said_by(told)}"


def content_in(folder):
    found = {}
    for name in sorted(os.listdir(folder)) if os.path.isdir(folder) else []:
        with open(f"{folder}/{name}", "rb") as file:
            found[name] = file.read()
    return found


def faults_of_folder(office, disk):
    """A mounted folder gets the newest of each kind, once."""
    there = f"{disk}/desk"
    told = office.sends(f"OFFSITE={there}")
    yield fault_of(
        "the first night", told, 0, f"{NAMES[1]} is at {there}, not encrypted", f"{NAMES[3]} is at"
    )
    before = content_in(there)
    yield difference("what is there", [NAMES[1], NAMES[3]], [*before])
    yield difference("its mode", 0o600, os.stat(f"{there}/{NAMES[1]}").st_mode & 0o777)
    yield fault_of("once more", office.run("elsewhere", "send"), 0, "has the newest copies already")
    yield difference("what is there", before, content_in(there))
    os.makedirs(f"{office.folder}/none")
    told = office.run("elsewhere", "send", BACKUPS=f"{office.folder}/none")
    yield fault_of("before the first night", told, 0, "has no backup of a night yet")
    yield fault_of("the list", office.run("elsewhere", "list"), 0, NAMES[1])
    private_file(f"{office.settings}/main.fenced", "change-over\n")
    yield fault_of("a fenced machine", office.run("elsewhere", "send"), 0, "none is sent")
    os.remove(f"{office.settings}/main.fenced")
    yield fault_of(
        "the drill",
        office.run("drill", "--elsewhere", there, "--at", office.folder),
        0,
        "2 riders, 3 trips",
        "its counts are those of the backup",
        f"{NAMES[3]} has 5 files",
        "without the desk for",
    )
    yield difference(
        "what the drill leaves",
        [],
        [it for it in os.listdir(office.folder) if it.startswith("desk-drill")],
    )
    os.remove(f"{there}/{NAMES[3]}")
    yield fault_of(
        "the drill without the machine's copy",
        office.run("drill", "--elsewhere", there),
        2,
        "no copy of a machine",
    )
    shutil.rmtree(there)


def faults_of_settings(office):
    """What cannot be another place."""
    yield fault_of("none yet", office.sends("OFFSITE=none yet"), 0, "are lost with it")
    for label, status, said, *lines in [
        ("no place", 2, "is neither a mounted folder", "OFFSITE=somewhere"),
        ("the same disk", 1, "is on the disk of", f"OFFSITE={office.folder}/whole"),
        ("no folder", 1, "is its disk mounted", "OFFSITE=/nowhere/at/all"),
        (
            "a key that is not there",
            2,
            "cannot be read",
            f"OFFSITE={MEMORY}",
            "RECIPIENT=/nowhere.pub",
        ),
        (
            "a private key",
            2,
            "is a private key",
            f"OFFSITE={MEMORY}",
            f"RECIPIENT={office.folder}/own.key",
        ),
    ]:
        private_file(f"{office.folder}/own.key", "AGE-SECRET-KEY-1AAAA\n")
        yield fault_of(label, office.sends(*lines), status, said)
    os.remove(f"{office.folder}/own.key")


def stand_in(office, name, there, before="exec"):
    path = f"{office.folder}/{name}"
    return private_file(path, SSH.format(root=TOP, folder=there, before=before), 0o755)


def faults_of_host(office, disk):
    """Another machine takes copies by its door; a line that breaks leaves no half of one."""
    there = f"{disk}/of-host"
    os.makedirs(there)
    place, door = f"OFFSITE=copies@backup.test:{there}", stand_in(office, "ssh", there)
    broken = stand_in(office, "ssh-broken", there, "head -c 20000 |")
    told = office.sends(place, f"SSH={broken}")
    yield fault_of("a line that breaks", told, 1, f"{NAMES[1]} is not what was sent")
    yield difference("what is there after that", [], os.listdir(there))
    yield fault_of(
        "a host",
        office.sends(place, f"SSH={door}"),
        0,
        f"{NAMES[1]} is at copies@backup.test:{there}",
    )
    before = content_in(there)
    yield difference("what is there", [NAMES[1], NAMES[3]], [*before])
    yield fault_of("once more", office.run("elsewhere", "send"), 0, "has the newest copies already")
    for asked in (
        f"standby add {there} {NAMES[1]} {'0' * 64}",
        f"rm -rf {there}",
        f"standby add {there} ../x.db {'0' * 64}",
    ):
        told = subprocess.run(
            [door, "copies@backup.test", asked],
            capture_output=True,
            text=True,
            timeout=SECONDS,
            stdin=subprocess.DEVNULL,
        )
        yield fault_of(asked, told, 2)
    yield difference("what is there after that", before, content_in(there))
    yield fault_of(
        "a host that does not answer", office.sends(place, "SSH=false"), 1, "backup.test"
    )
    shell = private_file(f"{office.folder}/shell", SHELL, 0o755)
    told = office.run(
        "drill", "--elsewhere", f"copies@backup.test:{there}", "--at", office.folder, SSH=shell
    )
    yield fault_of("the drill by ssh", told, 0, "its counts are those of the backup")
    shutil.rmtree(there)


def faults_of_two(office, disk):
    """Two people send at one time: each copy comes once and whole, and who comes late reads one sentence."""
    there = f"{disk}/of-two"
    os.makedirs(there)
    slow = stand_in(office, "ssh-slow", there, "sleep 1;")
    private_file(office.conf, f"OFFSITE=copies@backup.test:{there}\nSSH={slow}\n")
    words = [f"{TOP}/deploy/elsewhere", "send"]
    named = {**os.environ, "SETTINGS": office.settings, "BACKUPS": office.backups}
    both = [
        subprocess.Popen(
            words, env=named, stdout=subprocess.PIPE, stderr=subprocess.PIPE, text=True
        )
        for _ in range(2)
    ]
    said = [it.communicate(timeout=2 * SECONDS) for it in both]
    statuses = sorted(it.returncode for it in both)
    is_told = all(
        "Traceback" not in err and err.count("\n") == (it.returncode != 0)
        for it, (_, err) in zip(both, said)
    )
    yield None if statuses in (
        [0, 0],
        [0, 1],
    ) and is_told else f"two at one time: {statuses} {said}"
    whole = content_in(office.backups)
    yield difference(
        "what two people sent", {it: whole[it] for it in (NAMES[1], NAMES[3])}, content_in(there)
    )
    shutil.rmtree(there)


def cut_at(office, step, door):
    """A stand-in for ssh whose line is cut at that step."""
    for name, text in ("count", "0"), ("cut", step):
        private_file(f"{office.folder}/{name}", f"{text}\n")
    return private_file(
        f"{office.folder}/ssh-cut", CUTTING.format(folder=office.folder, door=door), 0o755
    )


def faults_of_cuts(office, disk):
    """The line is cut in each step: no half of a copy is there, and the next night's goes on. So does the drill."""
    there = f"{disk}/of-cuts"
    place, door = f"OFFSITE=copies@backup.test:{there}", stand_in(office, "ssh", there)
    whole = content_in(office.backups)
    for step in ("1 before", "2 before", "2 during", "3 before", "3 during"):
        os.makedirs(there)
        told = office.sends(place, f"SSH={cut_at(office, step, door)}")
        yield fault_of(f"copies with a line cut at call {step}", told, 1, "backup.test")
        found = content_in(there)
        yield difference(f"whole copies after {step}", {it: whole.get(it) for it in found}, found)
        yield fault_of(f"the next night after {step}", office.sends(place, f"SSH={door}"), 0)
        yield difference(f"what is there after {step}", [NAMES[1], NAMES[3]], [*content_in(there)])
        if step != "3 during":
            shutil.rmtree(there)
    shell = private_file(f"{office.folder}/shell", SHELL, 0o755)
    words = ["drill", "--elsewhere", f"copies@backup.test:{there}", "--at", office.folder]
    for step in ("1 before", "2 before", "2 during", "3 before", "3 during"):
        told = office.run(*words, SSH=cut_at(office, step, shell))
        is_told = told.returncode in (1, 2) and told.stderr.splitlines()[-1].startswith(
            "deploy/drill: "
        )
        yield None if is_told and "Traceback" not in told.stderr else f"a drill with a line cut at call {step}: {said_by(told)}"
        left = [it for it in os.listdir(office.folder) if it.startswith("desk-drill")]
        yield difference(f"what the drill leaves after {step}", [], left)
    yield fault_of(
        "the drill after that",
        office.run(*words, SSH=shell),
        0,
        "its counts are those of the backup",
    )
    shutil.rmtree(there)


def faults_of_spoilt(office, disk):
    """The drill of copies that are cut, or of another desk's program: one sentence, also where the line says that all came."""
    there = f"{disk}/spoilt"
    for label, at, said in ("a backup that is cut", NAMES[1], "is malformed"), (
        "a machine's copy that is cut",
        NAMES[3],
        "is cut",
    ):
        os.makedirs(there)
        for name in NAMES[1], NAMES[3]:
            with open(f"{office.backups}/{name}", "rb") as file, open(
                f"{there}/{name}", "wb"
            ) as copy:
                text = file.read()
                copy.write(text[: len(text) // 2] if name == at else text)
        yield fault_of(
            label, office.run("drill", "--elsewhere", there, "--at", office.folder), 1, said
        )
        shutil.rmtree(there)


def sent_to_small_disk(office, place, size, looked):
    """How copies go to a disk of so many KiB, with what a command then says of it."""
    script = f'mount -t tmpfs -o size={size}k none "$0"; "$@"; status=$?; cd "$0"; {looked}; exit $status'
    return subprocess.run(
        ["unshare", "--mount", "sh", "-c", script, place, f"{TOP}/deploy/elsewhere", "send"],
        env={**os.environ, "SETTINGS": office.settings, "BACKUPS": office.backups},
        capture_output=True,
        text=True,
        timeout=SECONDS,
    )


def faults_of_small_disks(office):
    """A disk that fills at each of many sizes: one sentence, and what is there is whole."""
    if skipped("try-elsewhere", "disks that fill", missing_disk()):
        return
    place, sizes = f"{office.folder}/small-one", [20, 60, 100, 140, 180, 220, 260, 300, 400]
    os.makedirs(place)
    private_file(office.conf, f"OFFSITE={place}\n")
    statuses = []
    for size in sizes:
        told = sent_to_small_disk(
            office, place, size, "sha256sum desk-* machine-* 2>/dev/null; ls -A"
        )
        statuses.append(told.returncode)
        if told.returncode:
            yield fault_of(f"a disk of {size} KiB", told, 1, "No space left")
        sums = [
            it.split()
            for it in told.stdout.splitlines()
            if len(it.split()) == 2 and len(it.split()[0]) == 64
        ]
        for digest, name in sums:
            yield difference(
                f"{name} on a disk of {size} KiB",
                standby.digest_of(f"{office.backups}/{name}"),
                digest,
            )
        yield difference(
            f"parts on a disk of {size} KiB",
            [],
            [it for it in told.stdout.splitlines() if it.startswith(".")],
        )
    yield None if statuses[0] == 1 and statuses[
        -1
    ] == 0 else f"no disk filled, or each did: {statuses}"


def faults_of_full_disk(office):
    """A disk that fills: one sentence, and no half of a copy."""
    if skipped("try-elsewhere", "a full disk", missing_disk()):
        return
    place = f"{office.folder}/small"
    os.makedirs(place)
    private_file(office.conf, f"OFFSITE={place}\n")
    told = sent_to_small_disk(office, place, 20, "ls -A")
    yield fault_of("a full disk", told, 1, "No space left")
    yield difference("what is there after that", "", told.stdout)


def faults_of_seals(office, disk):
    """Copies are encrypted to a public key, and come back by the private one alone."""
    there, keys = f"{disk}/sealed", {}
    if not skipped(
        "try-elsewhere", "copies that age encrypts", None if shutil.which("age") else "age"
    ):
        for name in "own", "other":
            subprocess.run(
                ["age-keygen", "-o", f"{office.folder}/{name}.key"], check=True, capture_output=True
            )
            with open(f"{office.folder}/{name}.key", encoding="utf-8") as file:
                keys[name] = re.search(r"public key: (\S+)", file.read())[1]
        private_file(f"{office.folder}/own.pub", f"# ours\n{keys['own']}\n")
        for recipient in keys["own"], f"{office.folder}/own.pub":
            told = office.sends(f"OFFSITE={there}", f"RECIPIENT={recipient}")
            yield fault_of("encrypted by age", told, 0, f"{NAMES[1]}.age is at {there}\n")
            found = content_in(there)
            yield difference("their names", [f"{NAMES[1]}.age", f"{NAMES[3]}.age"], [*found])
            yield None if not any(
                b"SQLite format" in it for it in found.values()
            ) else "a copy can be read"
            yield fault_of(
                "once more", office.run("elsewhere", "send"), 0, "has the newest copies already"
            )
            words = ["drill", "--elsewhere", there, "--at", office.folder]
            yield fault_of(
                "the drill",
                office.run(*words, "--identity", f"{office.folder}/own.key"),
                0,
                "2 riders, 3 trips",
            )
            yield fault_of(
                "the drill without a key",
                office.run(*words),
                2,
                "name the private key by --identity",
            )
            masked = [
                "unshare",
                "--mount",
                "sh",
                "-c",
                'mount --bind /dev/null "$0" && exec "$@"',
                shutil.which("age"),
            ]
            if not skipped("try-elsewhere", "a drill without age", missing_disk()):
                told = office.run(*words, "--identity", f"{office.folder}/own.key", before=masked)
                yield fault_of(
                    "the drill without age",
                    told,
                    1,
                    "is encrypted, and age is not installed: apt install age",
                )
            yield fault_of(
                "the drill by another key",
                office.run(*words, "--identity", f"{office.folder}/other.key"),
                1,
                "could not be decrypted by this key",
            )
            shutil.rmtree(there)
    if skipped("try-elsewhere", "copies that gpg encrypts", None if shutil.which("gpg") else "gpg"):
        return
    home = tempfile.mkdtemp(prefix="gpg-", dir="/tmp")
    named = {"GNUPGHOME": home}
    try:
        words = [
            "gpg",
            "--batch",
            "--quiet",
            "--passphrase",
            "",
            "--quick-generate-key",
            "desk@example.org",
            "rsa2048",
            "encrypt",
        ]
        made = subprocess.run(
            words, env={**os.environ, **named}, capture_output=True, text=True, timeout=SECONDS
        )
        if skipped(
            "try-elsewhere",
            "copies that gpg encrypts",
            made.stderr.strip() if made.returncode else None,
        ):
            return
        public = subprocess.run(
            ["gpg", "--armor", "--export", "desk@example.org"],
            env={**os.environ, **named},
            capture_output=True,
            text=True,
            check=True,
        ).stdout
        private_file(f"{office.folder}/public.asc", public)
        told = office.sends(
            f"OFFSITE={there}",
            f"RECIPIENT={office.folder}/public.asc",
            GNUPGHOME=f"{office.folder}/whole",
        )
        yield fault_of("encrypted by gpg", told, 0, f"{NAMES[1]}.gpg is at {there}\n")
        told = office.run("drill", "--elsewhere", there, "--at", office.folder, **named)
        yield fault_of("the drill", told, 0, "2 riders, 3 trips")
        shutil.rmtree(there)
    finally:
        subprocess.run(
            ["gpgconf", "--homedir", home, "--kill", "all"], capture_output=True, check=False
        )
        shutil.rmtree(home, ignore_errors=True)


def looked(office, now, *lines):
    """What the watch says."""
    private_file(office.conf, "".join(f"{it}\n" for it in lines))
    found = elsewhere.facts(office.settings, {MAIN.unit: (agencies.Agency(), office.backups)}, now)
    return [
        sentence for _, sentence in elsewhere.troubles(MAIN.unit, found, now, watching.BACKUP_AGE)
    ], found


def faults_of_watch(office, disk):
    """It looks at the age there, once an hour, and says each day that there is no other place."""
    os.environ["LOOKED"] = f"{office.folder}/looked.json"
    there, now = f"{disk}/watched", time.mktime((2026, 11, 29, 12, 0, 0, 0, 0, -1))
    yield difference(
        "no settings",
        ({}, []),
        (elsewhere.facts("/nowhere", {}, now), [*elsewhere.troubles(MAIN.unit, {}, now, 1)]),
    )
    said, found = looked(office, now, "OFFSITE=none yet")
    kinds = [
        what
        for at in (0, 3_600, 86_400)
        for what, _ in elsewhere.troubles(MAIN.unit, found, now + at, 1)
    ]
    yield difference("none yet", (True, 2), ("a lost disk takes" in " ".join(said), len({*kinds})))
    yield difference(
        "a wrong setting",
        True,
        "is neither a mounted folder" in " ".join(looked(office, now, "OFFSITE=what")[0]),
    )
    yield difference(
        "a disk that is away",
        True,
        "cannot be seen" in " ".join(looked(office, now, f"OFFSITE={office.folder}/w/x")[0]),
    )
    os.makedirs(there)
    yield difference(
        "no copy", [f"there is no copy at {there}"], looked(office, now, f"OFFSITE={there}")[0]
    )
    shutil.copy(f"{office.backups}/{NAMES[1]}", there)
    yield difference(
        "a look counts for an hour", 1, len(looked(office, now + 60, f"OFFSITE={there}")[0])
    )
    yield difference("and not longer", [], looked(office, now + 3_700, f"OFFSITE={there}")[0])
    yield difference(
        "an old copy",
        True,
        "more than a day old" in " ".join(looked(office, now + 90_000, f"OFFSITE={there}")[0]),
    )
    shutil.rmtree(there)


def faults(program, folder):
    if skipped(
        "try-elsewhere",
        "all of it",
        None if os.path.ismount(MEMORY) else f"a disk in memory at {MEMORY}",
    ):
        return
    office = Office(program, folder)
    with tempfile.TemporaryDirectory(prefix="desk-elsewhere-", dir=MEMORY) as disk:
        yield from faults_of_folder(office, disk)
        yield from faults_of_settings(office)
        yield from faults_of_host(office, disk)
        yield from faults_of_two(office, disk)
        yield from faults_of_cuts(office, disk)
        yield from faults_of_spoilt(office, disk)
        yield from faults_of_full_disk(office)
        yield from faults_of_small_disks(office)
        yield from faults_of_seals(office, disk)
        yield from faults_of_watch(office, disk)


def main(words):
    program, _ = told_program(words, __doc__)
    with tempfile.TemporaryDirectory(prefix="desk-elsewhere-") as folder:
        return tally("deploy/try-elsewhere", faults(program, folder))


if __name__ == "__main__":
    sys.exit(main(sys.argv[1:]))
