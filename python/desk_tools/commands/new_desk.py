#!/usr/bin/env python3
"""deploy/new-desk KEYS [AGENCY]: makes the database of a new desk, with two admins, whose keys are files of KEYS.

The files are KEYS/1-admin and KEYS/4000000000-admin. One that is not there is made; a key that is there has to be 16
signs long or longer. The second admin is for the day on which the first one's key is lost: keep that file elsewhere.
The key that `desk init` is given is thrown away before the file gets its name, so no key of a command line is ever
served. The file is its owner's alone (0600), whatever the umask is. Run it as root; the file belongs to the owner of
its folder. Both admins get a row of callers.csv in the record's folder, since their keys are older than the record.
The environment may give FILE, the database; DESK, the program; and RECORD, the record's folder, which is else that of
the agency, or none where FILE is another file than the agency's.
"""

from __future__ import annotations

import argparse
import http.client
import os
import subprocess
import sys
import time
from pathlib import Path

from desk_tools.journal import first_admins, people
from desk_tools.machine import names
from desk_tools.ops.copying import folder_within, give_name
from desk_tools.ops.ending import Failure, run_script, WRONG_WORDS
from desk_tools.ops.judge import ANY_DAY, ANY_ZONE
from desk_tools.ops.keys import add_admin, as_owner_of, changing, key_made_or_in, put_key
from desk_tools.ops.places import Desk, program_of
from desk_tools.ports import free_port
from desk_tools.setup import keys

FIRST, SECOND = 1, 4_000_000_000
SECONDS = 120
KNOWN, UNKNOWN = 403, 401


def made(program: str, file: str, first: str, second: str) -> str:
    """A file whose callers are both admins, and nobody else."""
    throw_away = keys.made()
    with as_owner_of(os.path.dirname(file)):
        words = [program, "init", file, throw_away]
        told = subprocess.run(words, capture_output=True, text=True, stdin=subprocess.DEVNULL)
    if told.returncode:
        raise Failure(f"desk init ended with status {told.returncode}: {told.stderr.strip()}")
    with changing(file) as tables:
        put_key(tables, FIRST, first)
        add_admin(tables, SECOND, second)
    return throw_away


def status_for(key: str, port: int) -> int:
    """How the desk answers to a key. An admin may not read a sheet."""
    for _ in range(SECONDS * 10):
        line = http.client.HTTPConnection("127.0.0.1", port, timeout=SECONDS)
        try:
            line.request("GET", f"/days/{ANY_DAY}/sheet", headers={"Desk-Key": key})
            return line.getresponse().status
        except ConnectionRefusedError:
            time.sleep(0.1)
        finally:
            line.close()
    raise Failure("the new desk does not answer")


def check_keys(program: str, file: str, wanted: list[tuple[str, str, int]]) -> None:
    """The desk serves the file and is asked by each key."""
    port = free_port()
    words = [program, "serve", file, ANY_ZONE, str(port), str(len(wanted))]
    with as_owner_of(os.path.dirname(file)):
        serving = subprocess.Popen(words, stdin=subprocess.DEVNULL, stderr=subprocess.PIPE)
    try:
        for what, key, status in wanted:
            told = status_for(key, port)
            if told != status:
                raise Failure(f"{what}: the new desk answers {told} instead of {status}")
        serving.wait(SECONDS)
    finally:
        serving.kill()
        serving.communicate()


def name_in_record(desk: Desk, admins: dict[int, str]) -> None:
    """The record has whose the admins' keys are, by the digits of their digests."""
    named = os.environ.get("RECORD")
    if not named and not desk.is_installed:
        return
    try:
        first_admins.name_admins(Path(named or desk.agency.record), admins)
    except (people.Damaged, OSError) as error:
        raise Failure(
            f"{desk.file} is made, but the record does not name its admins: {error}; mend that, and run bin/journal callers "
            "with a backup"
        ) from None


def main(words: list[str]) -> None:
    usage = argparse.ArgumentParser(
        prog="deploy/new-desk",
        description=__doc__.partition("\n\n")[0],
        epilog="the environment may give FILE, DESK and RECORD",
    )
    usage.add_argument("keys", metavar="KEYS", help="the folder of the admins' keys")
    usage.add_argument("agency", metavar="AGENCY", nargs="?", help="the agency's short name (main)")
    given = usage.parse_args(words)
    desk = Desk(given.agency)
    if why := names.fault(desk.agency.name):
        raise Failure(why, WRONG_WORDS)
    program = program_of()
    if os.path.lexists(desk.file):
        raise Failure(f"{desk.file} is there already", WRONG_WORDS)
    os.umask(0o077)
    os.makedirs(given.keys, 0o700, exist_ok=True)
    first, second = (key_made_or_in(f"{given.keys}/{it}-admin") for it in (FIRST, SECOND))
    if first == second:
        raise Failure("both admins have one key", WRONG_WORDS)
    with folder_within(desk.folder, ".new-") as folder:
        owner = os.stat(desk.folder)
        if os.geteuid() == 0:
            os.chown(folder, owner.st_uid, owner.st_gid)
        file = f"{folder}/desk.db"
        throw_away = made(program, file, first, second)
        check_keys(
            program,
            file,
            [
                ("the first admin's key", first, KNOWN),
                ("the second admin's key", second, KNOWN),
                ("the key that was thrown away", throw_away, UNKNOWN),
            ],
        )
        with changing(file):
            pass
        if os.path.exists(f"{file}-wal"):
            raise Failure(f"{file}-wal is left")
        os.chmod(file, 0o600)
        give_name(file, desk.file)
    name_in_record(desk, {FIRST: first, SECOND: second})
    print(
        f"deploy/new-desk: {desk.file} is made; the admins' keys are {given.keys}/{FIRST}-admin and "
        f"{given.keys}/{SECOND}-admin: keep the second one in another place"
    )


if __name__ == "__main__":
    sys.exit(run_script("new-desk", main, sys.argv[1:]))
