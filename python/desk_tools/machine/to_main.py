"""to-main [--back]: makes the one agency of a machine that an earlier version set up, or a person by hand, the agency main.

Its files, certificate, backups, record and keys take the names that each agency has: /var/lib/desk-main, desk@main and
so on. The package runs this in an upgrade. It may be run again at any time, and goes on where it was cut off. Where both
the earlier and the new place hold something, it says so and changes nothing. Other agencies stay as they are. --back
does the reverse, before an earlier package is installed again.
"""

from __future__ import annotations

import json
import os
import pwd
import re
import subprocess
import sys
from pathlib import Path

from desk_tools import agencies
from desk_tools.arguments import usage_of
from desk_tools.machine import by_hand, confs, earlier, turns
from desk_tools.machine.changes import run
from desk_tools.machine.settings import Failure, before, rule_of
from desk_tools.ops.copying import synced

TOP = Path("/")
# The units that ran, until they run by their new names; and a mark of the upgrade that brought the new names.
NOTE, MARK = Path("/var/lib/desk-to-main.json"), Path("/var/lib/desk-upgrade/from-earlier")
SITE = "etc/nginx/conf.d/desk.conf"
# The timers that the package stopped before it put its files in place, a line each.
STOPPED = Path("/var/lib/desk-stopped")
ZONE = re.compile(r"(?m)^Environment=[\"']?ZONE=([^\s\"']*)")


class Renaming:
    """The files of one machine, below a top, get the names of `main`; or, going back, the earlier ones."""

    def __init__(self, root: Path = TOP, is_back: bool = False) -> None:
        self.root, self.is_back = root, is_back
        self.old_user, self.new_user = "desk", earlier.MAIN.user

    def moves(self) -> list[earlier.Move]:
        """Each place and the other one."""
        if not self.is_back:
            return earlier.moves(self.root)
        return self.moves_back()

    def moves_back(self) -> list[earlier.Move]:
        """The same the other way."""
        root, main = self.root, earlier.MAIN
        found = [
            earlier.Move(earlier.below(root, new), earlier.below(root, old))
            for old, new in earlier.pairs()
        ]
        logs, site = earlier.below(root, agencies.LOGS), earlier.below(root, main.site)
        for path in sorted(logs.glob(f"{Path(main.tally).name}-*")):
            found.append(earlier.Move(path, logs / path.name.replace(f"-{main.name}", "", 1)))
        inner = sorted(site.iterdir()) if site.is_dir() else []
        found += [earlier.Move(it, root / earlier.SITE / it.name) for it in inner]
        for old, new in earlier.names_of_units().items():
            for folder, form in (earlier.UNITS, "{}.d"), (earlier.TIMERS, "stamp-{}"):
                path = root / folder / form.format(new)
                found.append(earlier.Move(path, root / folder / form.format(old)))
        return found

    def check(self) -> None:
        """Nothing is changed where something is in two places, or is a disk of its own."""
        for it in self.moves():
            if it.is_in_two_places:
                raise Failure(
                    f"both {it.old} and {it.new} are there: look which one is right, move the other one away, "
                    "and say this again; nothing was changed"
                )
            if it.is_due and it.old.is_mount():
                raise Failure(
                    f"{it.old} is a disk of its own: name {it.new} for it in /etc/fstab, mount it there, and say "
                    "this again; nothing was changed"
                )

    def rename(self) -> None:
        """Each file and folder is at its other place."""
        for it in self.moves():
            if it.new.is_symlink():
                it.new.unlink()
            if not it.is_due:
                continue
            if not earlier.holds(it.new):
                earlier.remove(it.new)
            if it.new.exists():
                # (the new place holds all, and of the old one nothing but empty files)
                earlier.remove(it.old)
                continue
            make_folder(it.new.parent)
            os.rename(it.old, it.new)
            synced(str(it.new.parent))
        link = self.root / "var/lib/desk-standing-orders"
        if link.is_symlink():
            link.unlink()

    def keep_zone(self) -> None:
        """NAME, PORT and ZONE of the unit are in AGENCY.conf, or, going back, ZONE in a drop-in."""
        conf = earlier.below(self.root, earlier.MAIN.conf)
        folder = self.root / earlier.UNITS
        text = conf.read_text(encoding="utf-8") if conf.exists() else ""
        if self.is_back:
            rule = confs.value_in(text, "ZONE")
            if rule:
                put(
                    folder / "desk.service.d/zone.conf",
                    f"[Service]\nEnvironment=ZONE={rule}\n",
                    0o644,
                )
            conf.unlink(missing_ok=True)
            return
        drop_ins = folder / f"{earlier.MAIN.unit}.service.d"
        rules = [
            it
            for path in sorted(drop_ins.glob("*.conf"))
            for it in ZONE.findall(path.read_text(encoding="utf-8"))
        ]
        told = by_hand.told_before(self.root)
        values = {
            "NAME": by_hand.name_of_site(self.root),
            "PORT": agencies.PORT,
            "ZONE": rules[-1] if rules else rule_of(told["zone"]) if told.get("zone") else None,
        }
        changed = text
        for name, value in values.items():
            if value and confs.value_in(text, name) is None:
                changed = confs.with_value(changed, name, value)
        if changed != text:
            put(conf, changed, 0o644)
        (drop_ins / "zone.conf").unlink(missing_ok=True)

    def reword(self) -> None:
        """The site and what was added to the units name the other places."""
        words = earlier.new_words()
        if self.is_back:
            words = {new: old for old, new in words.items()}
        units = self.root / earlier.UNITS
        names = earlier.names_of_units()
        folders = names.keys() if self.is_back else names.values()
        paths = [path for it in folders for path in sorted((units / f"{it}.d").glob("*.conf"))]
        digests = by_hand.told_before(self.root)
        for path in [*paths, self.root / SITE, self.root / f"{SITE}.removed"]:
            if not path.is_file():
                continue
            text = changed = path.read_text(encoding="utf-8")
            for old, new in words.items():
                changed = changed.replace(old, new)
            if changed == text:
                continue
            if digests.get("site") == by_hand.digest_of(text):
                by_hand.note_site(self.root, by_hand.digest_of(changed))
            put(path, changed, path.stat().st_mode & 0o777)

    def enable(self) -> None:
        """What begins at each start of the machine does so by its other name."""
        names = earlier.names_of_units()
        if self.is_back:
            names = {new: old for old, new in names.items()}
        units = self.root / earlier.UNITS
        for wants in sorted(units.glob("*.wants")):
            target = units / f"{names.get(wants.name.removesuffix('.wants'), '')}.wants"
            folder = target if target.name != ".wants" else wants
            for old, new in names.items():
                link = wants / old
                if not os.path.lexists(link):
                    continue
                make_folder(folder)
                shipped = Path("/lib/systemd/system") / by_hand.template_of(new)
                if not os.path.lexists(folder / new):
                    (folder / new).symlink_to(shipped)
                link.unlink()

    def link(self) -> None:
        """The earlier places of folders lead on to the new ones."""
        for old, new in earlier.pairs():
            path = earlier.below(self.root, old)
            is_folder = earlier.below(self.root, new).is_dir()
            if old.lstrip("/") in earlier.LINKED and is_folder and not os.path.lexists(path):
                path.symlink_to(new)

    def files(self) -> None:
        """All of it that is files. Each step may be made again."""
        self.check()
        self.rename()
        self.keep_zone()
        self.reword()
        self.enable()
        if not self.is_back:
            self.link()


def make_folder(path: Path) -> None:
    """A folder that is not there yet. That of the site is the site's group's, as the folder around it."""
    if path.is_dir():
        return
    path.mkdir(parents=True, mode=0o755)
    if path.parent.name == Path(agencies.SITES).name:
        os.chown(path, -1, path.parent.stat().st_gid)
        path.chmod(0o2750)
        path.parent.chmod(0o755)


def put(path: Path, text: str, mode: int) -> None:
    """A file that is whole at each moment."""
    make_folder(path.parent)
    new = path.with_name(f"{path.name}.new-text")
    with open(os.open(new, os.O_WRONLY | os.O_CREAT | os.O_TRUNC, mode), "w") as file:
        file.write(text)
    os.replace(new, path)


# What runs meanwhile.


def is_booted() -> bool:
    """Whether systemd runs here."""
    return os.path.isdir("/run/systemd/system")


def systemctl(*words: str) -> bool:
    """Whether it went well; without systemd nothing is done."""
    if not is_booted():
        return False
    return (
        subprocess.run(
            ["systemctl", "--quiet", *words], check=False, capture_output=True
        ).returncode
        == 0
    )


def noted() -> list[str]:
    """The units that ran before, by the names that they get."""
    try:
        return [str(it) for it in json.loads(NOTE.read_text(encoding="utf-8"))]
    except (OSError, ValueError):
        return []


def state_of(unit: str) -> str:
    """What systemd says of a unit; of work that is under way it is `activating`."""
    words = ["systemctl", "show", "--property=ActiveState", "--value", unit]
    return subprocess.run(words, capture_output=True, text=True, check=False).stdout.strip()


def stop(names: dict[str, str]) -> None:
    """What runs by these names ends. It is noted first, by its other name, with what the package has stopped."""
    states = {it: state_of(it) if is_booted() else "inactive" for it in names}
    stopped = STOPPED.read_text(encoding="utf-8").split() if STOPPED.exists() else []
    running = [it for it, said in states.items() if said == "active"]
    wanted = {*noted(), *(names.get(it, it) for it in [*running, *stopped])}
    put(NOTE, json.dumps(sorted(wanted)) + "\n", 0o600)
    STOPPED.unlink(missing_ok=True)
    ending = [it for it, said in states.items() if said not in ("inactive", "failed")]
    timers = [it for it in ending if it.endswith(".timer")]
    for group in timers, [it for it in ending if it not in timers]:
        if group and not systemctl("stop", *group):
            raise Failure(f"{', '.join(group)} could not be stopped: systemctl status says why")


def start(without: str = "") -> None:
    """What ran before runs again, by its new name; but for a unit that somebody else starts."""
    units = [it for it in noted() if it != without]
    if units:
        systemctl("start", *units)
    NOTE.unlink(missing_ok=True)


def own(user: str, folder: str) -> None:
    """The user is there, and the desk's folder is that user's."""
    try:
        pwd.getpwnam(user)
    except KeyError:
        words = ["--system", "--user-group", "--home-dir", folder, "--no-create-home"]
        run("useradd", *words, "--shell", "/usr/sbin/nologin", user)
    if os.path.isdir(folder):
        run("chown", "--recursive", "--no-dereference", f"{user}:{user}", folder)


def make(is_back: bool = False) -> bool:
    """All of it on this machine; whether anything was to do. What ran is started by start()."""
    renaming = Renaming(is_back=is_back)
    if not is_back and not earlier.is_there(TOP) and not NOTE.exists():
        return False
    renaming.check()
    names = earlier.names_of_units()
    names = {new: old for old, new in names.items()} if is_back else names
    stop({**names, **{it: it for it in agencies.UNITS_OF_MACHINE}})
    if not is_back:
        put(MARK, "", 0o600)
    renaming.files()
    own(
        *(
            (renaming.old_user, "/var/lib/desk")
            if is_back
            else (renaming.new_user, earlier.MAIN.folder)
        )
    )
    if not is_back:
        by_hand.put_aside(TOP)
        by_hand.note_answers(TOP)
    systemctl("daemon-reload")
    systemctl("try-reload-or-restart", "nginx.service")
    return True


def main(words: list[str]) -> int:
    """Does it by hand, and starts what ran."""
    usage = usage_of("to-main", __doc__)
    usage.flag("--back", "the reverse")
    given = usage.parse_args(words)
    if os.geteuid() != 0:
        print("to-main: only root renames a desk", file=sys.stderr)
        return 1
    try:
        with turns.alone():
            is_made = make(given.back)
    except Failure as failure:
        print(f"to-main: {failure}", file=sys.stderr)
        return 1
    except OSError as error:
        print(
            f"to-main: {error.filename}: {error.strerror}; give the same command again once that is mended",
            file=sys.stderr,
        )
        return 1
    if given.back:
        NOTE.unlink(missing_ok=True)
        print("to-main: all has its earlier name. Install the earlier package, and run desk-setup")
        return 0
    start()
    print(
        f"to-main: the agency is {earlier.MAIN.unit}"
        if is_made
        else f"to-main: nothing is to do: the agency is {earlier.MAIN.unit}"
    )
    if is_made and not before():
        print("to-main: run desk-setup, which asks for what the setup by hand did not write down")
    return 0


if __name__ == "__main__":
    sys.exit(main(sys.argv[1:]))
