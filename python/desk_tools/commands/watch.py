#!/usr/bin/env python3
"""deploy/watch: says what is wrong with the desks of this machine, a line each, with status 1; restarts one.

It tells of a desk that does not answer or whose store failed (503), of one that ends again and again, of a disk that is
nearly full, a clock that jumped, a certificate that ends within 21 days, a backup older than a day, copies of before an
upgrade that stayed too long, and a second machine that is behind. A desk whose store failed is restarted. One that
systemd gave up is started again after one minute, then two, four, eight and fifteen, and at once where its disk was full
and has room again.

The unit desk-watch runs it each 15 seconds in three steps: `watch --facts FILE` as root collects what only root sees,
`watch --look FILE` as a user of its own judges that, asks the desks and the site, sends what is new, and says a line
again after an hour; `watch --act FILE` as root restarts. Without any of these words it does all three and says all.
`watch --test` sends one line to see that it arrives.

It looks at each agency that has an AGENCY.conf in /etc/desk, which has the site's name and the desk's port.
/etc/desk/watch.conf may have, a line each: SITE=, the site's address and port (127.0.0.1:443), or `none`; MAIL=, an address, and SMTP=, the server that takes mail (localhost:25), and FROM=; HOOK=, an https:// address
that takes the lines, or a command that gets them as its input. They are sent where they are others than at the last
look. The file may hold a secret, so it is root's alone (mode 600).

The environment may give SETTINGS (/etc/desk), STATE (the file of what is remembered), URL (of the one desk), SHOW and
RESTART (the commands that show a unit and restart it), PATIENCE (45, the seconds that an opening may take), BACKUPS
and DATA (the folders of the backups and of the database).
"""

from __future__ import annotations

import os
import smtplib
import subprocess
import sys
from typing import Any

from desk_tools import agencies
from desk_tools.arguments import usage_of
from desk_tools.ops import watching
from desk_tools.ops.ending import run_script
from desk_tools.ops.places import value_of

STATE = "/var/lib/desk-watch/state.json"
ALL_WELL = "all is well again"
TEST = "this is a test: what is wrong with the desk is told here"
FAULTS_OF_SENDING = (OSError, ValueError, smtplib.SMTPException, subprocess.SubprocessError)


def look(told: dict[str, Any], settings: str, is_by_hand: bool = True) -> Any:
    """Prints a line for each trouble and sends what is new; the status, the units to restart, and the troubles."""
    path = os.environ.get("STATE") or STATE
    state = watching.state_in(path)
    found, wanted = watching.troubles(
        told, state, settings, float(os.environ.get("PATIENCE") or 45)
    )
    lines = [f"{unit}: {sentence}" for unit, _, sentence in found]
    kinds = sorted(f"{unit} {what}" for unit, what, _ in found)
    if kinds != state.get("told", []):
        try:
            watching.send(settings, lines or [ALL_WELL])
            state["told"] = kinds
        except FAULTS_OF_SENDING as error:
            found.append(("machine", "sending", f"this could not be sent: {error}"))
    new = watching.unspoken(found, state, told["moment"])
    for line in [f"{unit}: {sentence}" for unit, _, sentence in found] if is_by_hand else new:
        print(f"deploy/watch: {line}", file=sys.stderr)
    watching.put_state(path, state)
    return 1 if found else 0, wanted, found


def send_test(settings: str) -> int:
    """Sends a line to whom watch.conf names; the status."""
    if not any(value_of(watching.told_of(settings), it) for it in ("HOOK", "MAIL")):
        print(
            f"deploy/watch: {settings}/watch.conf names neither MAIL nor HOOK, so nobody is told",
            file=sys.stderr,
        )
        return 1
    for _, sentence in watching.troubles_of_alarms(settings):
        print(f"deploy/watch: {sentence}", file=sys.stderr)
        return 1
    try:
        watching.send(settings, [TEST])
    except FAULTS_OF_SENDING as error:
        print(f"deploy/watch: the test line could not be sent: {error}", file=sys.stderr)
        return 1
    return 0


def main(words: list[str]) -> int | None:
    usage = usage_of("deploy/watch", __doc__)
    step = usage.add_mutually_exclusive_group()
    step.add_argument("--facts", metavar="FILE")
    step.add_argument("--look", metavar="FILE")
    step.add_argument("--act", metavar="FILE")
    step.add_argument("--test", action="store_true")
    given = usage.parse_args(words)
    settings = agencies.settings_folder()
    if given.test:
        return send_test(settings)
    if given.facts:
        watching.put_state(given.facts, watching.facts(settings))
        os.chmod(given.facts, 0o644)
        return 0
    if given.act:
        found = watching.state_in(f"{given.act}.found")
        watching.publish(watching.state_in(given.act), found or [])
        watching.restart(watching.state_in(f"{given.act}.wanted") or [], settings)
        return 0
    told = watching.facts_in(given.look) if given.look else watching.facts(settings)
    status, wanted, found = look(told, settings, not given.look)
    if given.look:
        watching.put_state(f"{given.look}.found", found)
        watching.put_state(f"{given.look}.wanted", wanted)
    else:
        watching.restart(wanted, settings)
    return int(status)


if __name__ == "__main__":
    sys.exit(run_script("watch", main, sys.argv[1:]))
