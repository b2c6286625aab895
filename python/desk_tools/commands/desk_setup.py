#!/usr/bin/env python3
"""desk-setup: sets an agency's desk up on this machine: its file, the admins' keys, the site, and the services.

It asks for what no option gives: the agency's name, its zone, the site's name on the internet, its port, where else copies
go, who gets the alarms, and what runs each night. A test line goes to whoever gets them. All is made, or nothing is. It may
be run again: a file that is there is never touched, and the settings are made again. A setup that was cut off goes on. The
admins' keys are shown once. With --site it makes only the files of the site again, after a change of agency.json or of a
roster. With --restore it brings a lost machine back on this one: the backup, and the settings, certificates and keys of the
night's work that the night's copy of the machine has.

The exit status is 0 where all was done, 1 where something failed and all is as before, and 2 for wrong words.
"""

from __future__ import annotations

import os
import shutil
import sys
from typing import Any

from desk_tools import agencies, ending
from desk_tools.arguments import usage_of
from desk_tools.machine import settings as told
from desk_tools.machine import (
    acme,
    earlier,
    names,
    offsite,
    restoring,
    services,
    steps,
    to_main,
    turns,
)
from desk_tools.machine.changes import Changes, run
from desk_tools.machine.settings import Failure
from desk_tools.tree import TOP

# Whoever sets this machine up has the lock of this file meanwhile.


def make(changes: Any, settings: Any, lines: Any) -> Any:
    """All files of a setup. The admins' keys, where the desk's file is new."""
    alarm_before = told.before().get("alarm")
    keys = steps.make_file(changes)
    steps.make_agency(changes, {"name": settings["agency"], "zone": settings["zone"]})
    steps.make_site_files()
    steps.make_units(changes, settings)
    offsite.make(changes, settings, lines)
    if steps.install_nginx(lines):
        if steps.make_certificate(changes, settings["name"]):
            lines.append(
                f"The certificate {steps.TLS}/certificate.pem is one that the machine signed itself."
            )
        steps.make_site(changes, settings, lines)
        if not settings["acme"]:
            lines.extend(steps.told_of_certificate(settings["name"]))
        if settings["acme"]:
            acme.make(changes, settings, f"{TOP}/deploy/acme-hook")
    steps.close_to_others()
    lines.extend(names.told(agencies.confs_in(agencies.SETTINGS)))
    offsite.send_test(settings, f"{TOP}/deploy/elsewhere", lines)
    changes.write(told.SETTINGS, told.text_of(settings), 0o600)
    if settings["alarm"] != alarm_before:
        steps.send_test(settings["alarm"], lines)
    return keys


def set_up(settings: Any, lines: Any, restored: Any = None) -> Any:
    """All of it, or nothing. `lines` gets what is to be said at the end. `restored` puts a backup in place first."""
    services.need_port(settings["port"])
    had_file = os.path.lexists(steps.FILE)
    running = services.Services(settings) if services.has_systemd() else None
    changes = Changes()
    try:
        if restored:
            restored.put_copy(settings)
        keys = make(changes, settings, lines)
        if running:
            running.start()
            if shutil.which("nginx"):
                running.start_site(settings)
                if settings["acme"]:
                    acme.have(lines)
        else:
            lines.append("systemd does not run here, so nothing was started.")
    except BaseException:
        if running:
            running.stop_new()
        changes.undo()
        if restored:
            restored.undo()
        steps.put_back_site_files()
        if not had_file:
            steps.forget_keys()
        if running:
            running.go_back()
        raise
    finally:
        changes.close()
    return keys


def answers(given: Any) -> Any:
    """What the words, an earlier run and a person say; and by whom the certificate is signed."""
    return {
        **told.asked(given),
        "acme": acme.authority_in(given.acme) if given.acme else told.before().get("acme", ""),
    }


def set_up_second(settings: Any, restored: Any) -> None:
    """All but the desk's file and a desk that serves: that comes with `standby open`, which takes the fence away."""
    changes = Changes()
    try:
        changes.write(restoring.FENCE, "a second machine, which standby open has not opened\n")
        steps.make_agency(changes, {"name": settings["agency"], "zone": settings["zone"]})
        steps.make_site_files()
        steps.make_units(changes, settings)
        if steps.install_nginx(restored.lines):
            steps.make_certificate(changes, settings["name"])
            steps.make_site(changes, settings, restored.lines)
        changes.write(told.SETTINGS, told.text_of(settings), 0o600)
        if services.has_systemd():
            run("systemctl", "daemon-reload")
            if shutil.which("nginx"):
                run("systemctl", "enable", services.SITE)
                run("systemctl", "reload-or-restart", services.SITE)
    except BaseException:
        changes.undo()
        restored.undo()
        steps.put_back_site_files()
        raise
    finally:
        changes.close()
    for it in restored.lines:
        print(it)
    print(
        f"{settings['agency']} is set up here as on a second machine. Nothing serves until standby open says so: "
        'BACKUPS.md, "A second machine".'
    )


def restore(given: Any) -> None:
    """A lost machine comes back on this one, or this one is made a second machine."""
    restored = restoring.Restoring(given)
    try:
        restored.check()
        try:
            restored.put_files()
            settings = answers(given)
        except BaseException:
            restored.undo()
            raise
        if given.second:
            set_up_second(settings, restored)
            return
        show(settings, set_up(settings, restored.lines, restored), restored.lines, is_restored=True)
    finally:
        restored.close()


def show(settings: Any, keys: Any, lines: Any, is_restored: bool = False) -> None:
    for it in lines:
        print(it)
    port = "" if settings["port"] == "443" else f":{settings['port']}"
    print(f"{settings['agency']} is set up. The pages: https://{settings['name']}{port}/")
    print(f"Each night: {settings['nightly']}.")
    if is_restored:
        return
    if not keys:
        print(f"{steps.FILE} was there already and is as it was, with its keys.")
        return
    print(
        "The admins' keys, which are shown this once and kept nowhere. Write both down. Keep the second elsewhere."
    )
    for name, key in keys:
        print(f"  {name:18} {key}", flush=True)
    steps.forget_keys()


def make_site_again() -> None:
    changes = Changes()
    try:
        steps.make_agency(changes, {})
        steps.make_site_files()
    except BaseException:
        changes.undo()
        steps.put_back_site_files()
        raise
    finally:
        changes.close()


def need_names() -> None:
    """Nothing is where an earlier version had it: there nobody looks any more."""
    for it in earlier.moves(to_main.TOP):
        if it.is_due:
            raise Failure(
                f"{it.old} is where an earlier version had it, and its place is {it.new} now: "
                f"{TOP}/packaging/to-main brings it there"
            )


def words_of(arguments: Any) -> Any:
    parser = usage_of("desk-setup", __doc__)
    parser.takes("--agency NAME", "the agency's name")
    parser.takes("--zone", "its IANA zone, such as America/New_York")
    parser.takes("--name HOST", "the site's name on the net")
    parser.takes("--port", "the site's port (443)")
    parser.takes("--alarm WHO", "who is told: a mail address, an https:// address, or none yet")
    parser.takes(
        "--nightly WORDS",
        f"what runs each night, of {', '.join(told.NIGHTLY)}, or none (the first two)",
    )
    parser.takes(
        "--acme AUTHORITY",
        "has the certificate from this authority by ACME: letsencrypt where none is named, or a directory's address",
        nargs="?",
        const=acme.PUBLIC,
    )
    parser.takes("--offsite PLACE", f"where copies go beside this machine: {told.OFFSITE}")
    parser.takes(
        "--restore COPY", "COPY [MACHINE.tar.gz]: bring a lost machine back here", nargs="+"
    )
    parser.flag("--second", "of --restore: make this a second machine, which does not serve yet")
    parser.takes("--identity FILE", "of --restore: the private key of encrypted copies")
    parser.flag("--another", "of --restore: also where it is another agency's")
    parser.flag("--anyway", "of --restore: also where nothing shows that both are of one agency")
    parser.flag("--site", "make only the files of the site again")
    return parser.parse_args(arguments)


def change(given: Any) -> None:
    """What was asked for, by whoever alone changes this machine."""
    restoring.remove_left()
    need_names()
    if given.site:
        make_site_again()
    elif given.restore:
        restore(given)
    else:
        settings, lines = answers(given), list[str]()
        show(settings, set_up(settings, lines), lines)


def main(arguments: Any) -> Any:
    given = words_of(arguments)
    try:
        if os.geteuid() != 0:
            raise Failure("only root sets a desk up")
        os.umask(0o022)
        with turns.alone():
            change(given)
    except Failure as failure:
        print(f"desk-setup: {failure}", file=sys.stderr)
        return failure.status
    except OSError as error:
        print(
            f"desk-setup: {error.filename or 'a file'}: {error.strerror or error}; all is as before",
            file=sys.stderr,
        )
        return 1
    except (KeyboardInterrupt, EOFError):
        print("\ndesk-setup: stopped; all is as before", file=sys.stderr)
        return 1
    return 0


if __name__ == "__main__":
    ending.run("desk-setup", main)
