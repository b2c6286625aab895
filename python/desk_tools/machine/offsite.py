"""Where copies go beside this machine: /etc/desk/copies.conf, of which only the place is desk-setup's."""
import os
import re
import subprocess

from desk_tools import agencies
from desk_tools.machine import confs
from desk_tools.machine.changes import Changes
from desk_tools.machine.settings import before, NO_OFFSITE
from desk_tools.machine.settings import Settings

CONF = f"{agencies.SETTINGS}/copies.conf"
HEAD = """# By desk-setup; see "Copies elsewhere" in BACKUPS.md. OFFSITE is a mounted folder, MACHINE:/FOLDER by ssh, or none yet.
# RECIPIENT=, a public key of age or gpg (or its path), encrypts what goes there. SSH= reaches the machine.
"""


def make(changes: Changes, settings: Settings, lines: list[str]) -> None:
    """The place in its file, where it is another answer than before: what a person wrote there stays. Where there is no
    place yet, the end of the setup says so."""
    text, is_other = HEAD, settings["offsite"] != before().get("offsite", NO_OFFSITE)
    if os.path.exists(CONF):
        with open(CONF, encoding="utf-8") as file:
            text = file.read()
    named = re.findall(r"(?m)^OFFSITE=(.*)$", text)
    if is_other or not named:
        named = [NO_OFFSITE if settings["offsite"] == "none" else settings["offsite"]]
        changes.write(CONF, confs.with_value(text, "OFFSITE", named[0]), 0o600)
    if named[-1].strip() in ("", "none", NO_OFFSITE):
        lines.append(
            "All backups are on this machine's disk, and are lost with it. Name another place by desk-setup "
            '--offsite: BACKUPS.md, "Copies elsewhere".'
        )


def send_test(settings: Settings, script: str, lines: list[str]) -> None:
    """Looks at the place, where it is another one than before, and says what came."""
    place = settings["offsite"]
    if place in ("none", NO_OFFSITE, before().get("offsite", NO_OFFSITE)):
        return
    ran = subprocess.run(
        [script, "list"], capture_output=True, text=True, stdin=subprocess.DEVNULL, check=False
    )
    if ran.returncode:
        why = ran.stderr.strip().removeprefix("deploy/elsewhere: ")
        lines.append(
            f"No copy can go to {place} yet ({why}). Mend {CONF} or the other machine, and run {script} list."
        )
    else:
        lines.append(
            f"{place} was tried and answers; copies that are there: {len(ran.stdout.splitlines())}."
        )
