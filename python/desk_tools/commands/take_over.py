#!/usr/bin/env python3
"""take-over OLD-VERSION: after an upgrade, lets the new program open the desk's file, or has all as it was.

Where an earlier version, or a person, set the machine up, its files and units first get the names of the agency main.
The file is copied then. Where the new program refuses it as of an earlier version, a copy is migrated. It takes the
old one's place only after the new program has opened it. The copy from before stays in /var/lib/desk-main; it has its name
only once it is whole and on the disk. Then desk-setup makes the site and the units' settings of this version, by what it
was told before. Where anything fails, the desk goes on by the earlier program, which the package kept.
"""

from __future__ import annotations

import filecmp
import os
import shutil
import subprocess
import sys
from typing import Any

from desk_tools import agencies
from desk_tools.machine import settings, to_main, turns
from desk_tools.ops.answering import wait_until_it_serves
from desk_tools.ops.ending import Failure
from desk_tools.ops.locking import alone

MAIN = agencies.Agency()
FILE, PROGRAM, UNIT = MAIN.file, "/usr/bin/desk", f"{MAIN.unit}.service"
SETUP, SETTINGS = "/usr/sbin/desk-setup", f"{agencies.SETTINGS}/setup.json"
# Where an earlier version has the file.
EARLIER_FOLDER = "/var/lib/desk"
# The program of before, and what has the unit start it.
EARLIER, BY_EARLIER = (
    "/var/lib/desk-upgrade/desk",
    f"/etc/systemd/system/{UNIT}.d/earlier-program.conf",
)
DROP_IN = (
    f"[Service]\nExecStart=\nExecStart={{}} serve {FILE} ${{{{ZONE}}}} ${{{{PORT}}}} 1000000\n"
)
OTHER_VERSION = b"fault 30 "
WORK = f"{FILE}.taking-over"
BACK = "/usr/lib/desk/packaging/to-main --back"
# So many seconds it waits for a script that works with the file, such as a restore.
TURN, PORT = 60, int(agencies.PORT)
UNSET = "desk: the site is as before; run desk-setup, which asks for what the setup by hand did not write down"
AGAIN = "give dpkg --configure desk once that has ended"
BUSY = f"somebody else has the desk's file at this moment, as for a restore: {AGAIN}"


def as_owner(words: Any) -> Any:
    """Runs the program as the owner of the file, so that whatever it makes beside the file is that owner's."""
    owner = os.stat(FILE)
    return subprocess.run(
        words,
        capture_output=True,
        stdin=subprocess.DEVNULL,
        check=False,
        user=owner.st_uid,
        group=owner.st_gid,
    )


def opens(file: Any) -> Any:
    """Whether the program opens the file, and what it says. A read with a key that nobody has writes nothing."""
    words = [PROGRAM, "trips", file, "UTC0", "no key of anybody", "2026-01-01"]
    ran = as_owner(words)
    return ran.returncode in (0, 1), ran.stderr


def systemctl(*words: Any) -> bool:
    if os.path.isdir("/run/systemd/system"):
        return subprocess.run(["systemctl", "--quiet", *words], check=False).returncode == 0
    return False


def synced(path: str) -> None:
    number = os.open(path, os.O_RDONLY)
    try:
        os.fsync(number)
    finally:
        os.close(number)


def copied(to: Any) -> None:
    """A copy of the file with what is in its log, of the owner of the file. It is named when both are on the disk."""
    ends = [end for end in ("-wal", "") if os.path.exists(FILE + end)]
    owner = os.stat(FILE)
    for end in ends:
        part = f"{to}{end}.part"
        with open(FILE + end, "rb") as whole, open(
            os.open(part, os.O_WRONLY | os.O_CREAT | os.O_TRUNC, 0o600), "wb"
        ) as file:
            shutil.copyfileobj(whole, file, 1 << 20)
            file.flush()
            os.fsync(file.fileno())
        os.chown(part, owner.st_uid, owner.st_gid)
        if not filecmp.cmp(FILE + end, part, shallow=False):
            raise OSError(0, "was not copied as it is", part)
    for end in ends:
        os.replace(f"{to}{end}.part", to + end)
    if "-wal" not in ends and os.path.exists(f"{to}-wal"):
        os.remove(f"{to}-wal")
    synced(os.path.dirname(FILE))


def forget(path: str, ends: Any = ("", "-wal", "-shm", ".part", "-wal.part")) -> None:
    """Removes a copy, or what is left of one."""
    for end in ends:
        if os.path.exists(path + end):
            os.remove(path + end)


def take_over(old: Any) -> int:
    before = f"{FILE}.before-{old}"
    copied(before)
    copied(WORK)
    is_well, said = opens(WORK)
    if not is_well and said.startswith(OTHER_VERSION):
        as_owner([PROGRAM, "migrate", WORK])
        is_well, said = opens(WORK)
    if is_well:
        for end in "-wal", "":
            if os.path.exists(WORK + end):
                synced(WORK + end)
                os.replace(WORK + end, FILE + end)
            elif os.path.exists(FILE + end):
                os.remove(FILE + end)
        synced(os.path.dirname(FILE))
        print(f"desk: the file was taken over; as it was before it is {before}")
        return 0
    print(
        f"desk: this version does not open {FILE} ({said.decode(errors='replace').strip()}). The file is as it was.",
        file=sys.stderr,
    )
    return 1


def is_serving() -> bool:
    """Starts the desk; whether it serves then. Without systemd nothing is started."""
    if not os.path.isdir("/run/systemd/system"):
        return True
    systemctl("reset-failed", UNIT)
    if not systemctl("start", UNIT):
        return False
    try:
        wait_until_it_serves(UNIT, PORT)
        return True
    except Failure as failure:
        print(f"desk: {failure}", file=sys.stderr)
        return False


def put_back(before: Any) -> None:
    """The file of before the upgrade is the desk's again. No room is taken: the copy gives its name up."""
    systemctl("stop", UNIT)
    for end in "-shm", "-wal":
        if os.path.exists(FILE + end):
            os.remove(FILE + end)
    for end in "", "-wal":
        if os.path.exists(before + end):
            os.replace(before + end, FILE + end)
    synced(os.path.dirname(FILE))


def go_on_as_before(old: Any, was_up: Any) -> None:
    """Has the desk serve by the program of before, and says what goes back for good."""
    if os.path.exists(EARLIER):
        os.makedirs(os.path.dirname(BY_EARLIER), exist_ok=True)
        with open(BY_EARLIER, "w", encoding="ascii") as file:
            file.write(DROP_IN.format(EARLIER))
        systemctl("daemon-reload")
    is_up = was_up and is_serving()
    # (an earlier version finds its files by their earlier names alone)
    way_back = f"{BACK} && " if to_main.MARK.exists() else ""
    goes_on = (
        "The desk goes on by the program of before. "
        if is_up
        else "The desk does NOT serve. "
        if was_up
        else ""
    )
    print(
        f"desk: {goes_on}To go back: {way_back}apt-get install --allow-downgrades ./desk_{old}_amd64.deb (see "
        "/usr/share/doc/desk/PACKAGE.md, Upgrade)",
        file=sys.stderr,
    )


def forget_earlier() -> None:
    """The new program has the file: nothing of the earlier one is started any more."""
    if os.path.exists(BY_EARLIER):
        os.remove(BY_EARLIER)
        systemctl("daemon-reload")
    shutil.rmtree(os.path.dirname(EARLIER), ignore_errors=True)


def renew() -> None:
    """Makes the site of this version. Where that fails the site is as before, and whoever upgrades reads why."""
    ran = subprocess.run(
        [SETUP], capture_output=True, text=True, stdin=subprocess.DEVNULL, check=False
    )
    said = [
        it
        for it in (ran.stdout + ran.stderr).splitlines()
        if ran.returncode or "changed by hand" in it
    ]
    for it in said:
        print(it, file=sys.stderr)
    if ran.returncode:
        print("desk: the site is as before; run desk-setup when that is mended", file=sys.stderr)


def taken_over(old: Any, was_up: Any) -> Any:
    """The exit status; where it is not 0 the file and the program are those of before."""
    status, before = 1, f"{FILE}.before-{old}"
    try:
        if was_up:
            systemctl("stop", UNIT)
        status = take_over(old)
        if status == 0 and was_up and not is_serving():
            put_back(before)
            status = 1
    except OSError as error:
        forget(before, (".part", "-wal.part"))
        print(
            f"desk: {error.filename or FILE}: {error.strerror}; the file is as it was",
            file=sys.stderr,
        )
    finally:
        forget(WORK)
        if status:
            go_on_as_before(old, was_up)
    return status


def main(words: Any) -> Any:
    if len(words) != 1:
        print(__doc__, end="", file=sys.stderr)
        return 2
    try:
        with turns.alone(TURN, AGAIN):
            was_up = renamed() or systemctl("is-active", UNIT)
            with alone(os.path.dirname(FILE), TURN, BUSY):
                status = taken_over(words[0], was_up)
    except (Failure, settings.Failure) as failure:
        print(f"desk: {failure}", file=sys.stderr)
        return 1
    except OSError as error:
        print(
            f"desk: {error.filename}: {error.strerror}; the desk is stopped. Mend that, and say dpkg --configure desk",
            file=sys.stderr,
        )
        return 1
    if status == 0:
        forget_earlier()
        if os.path.exists(SETTINGS):
            renew()
        else:
            print(UNSET, file=sys.stderr)
    to_main.start(without=UNIT)
    return status


def renamed() -> bool:
    """An earlier version's files and units get their names of now; whether the desk ran before."""
    if os.path.isdir(EARLIER_FOLDER) and not os.path.islink(EARLIER_FOLDER):
        with alone(EARLIER_FOLDER, TURN, BUSY):
            to_main.make()
    else:
        to_main.make()
    return UNIT in to_main.noted()


if __name__ == "__main__":
    sys.exit(main(sys.argv[1:]))
