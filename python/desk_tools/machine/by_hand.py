"""A machine that a person set up by hand: what of it is put aside for the package, and the answers that it shows."""

from __future__ import annotations

import hashlib
import json
import os
import re
import shutil
from pathlib import Path

from desk_tools import agencies, elsewhere, zones
from desk_tools.machine import confs, earlier, settings

SETUP = f"{agencies.SETTINGS}/setup.json"
# Where the files of the setup by hand stay, for a person to look at and remove.
ASIDE = Path("var/lib/desk-by-hand")
# What a setup by hand installed, and what it is called in the package.
LOCAL = {
    "usr/local/bin/desk": "/usr/bin/desk",
    "usr/local/share/desk/pages": "/usr/share/desk/pages",
}
SCRIPTS, TOOLS = "usr/local/lib/desk", Path("/usr/lib/desk")


def told_before(root: Path) -> dict[str, str]:
    """What desk-setup was told on the machine; nothing where a person set it up by hand."""
    try:
        found = json.loads(earlier.below(root, SETUP).read_text(encoding="utf-8"))
        return {name: str(value) for name, value in found.items()}
    except (OSError, ValueError, AttributeError):
        return {}


def digest_of(text: str) -> str:
    """By what desk-setup knows the site that it wrote."""
    return hashlib.sha256(text.encode()).hexdigest()


def note_site(root: Path, digest: str) -> None:
    """The site that desk-setup wrote has other words now, and is still the one that it wrote."""
    put_answers(root, {**told_before(root), "site": digest})


def put_answers(root: Path, answers: dict[str, str]) -> None:
    """Writes the answers for root alone."""
    path = earlier.below(root, SETUP)
    new = path.with_name("setup.json.new-text")
    with open(
        os.open(new, os.O_WRONLY | os.O_CREAT | os.O_TRUNC, 0o600), "w", encoding="utf-8"
    ) as file:
        file.write(json.dumps(answers, indent=1, ensure_ascii=False) + "\n")
    os.replace(new, path)


def text_of(root: Path, path: str) -> str:
    """A file of the machine; nothing where it is not there."""
    found = earlier.below(root, path)
    return found.read_text(encoding="utf-8") if found.is_file() else ""


def name_of_site(root: Path) -> str | None:
    """The agency's name on the internet."""
    told = told_before(root).get("name")
    watched = confs.value_in(text_of(root, f"{agencies.SETTINGS}/watch.conf"), "NAME")
    served = re.findall(
        r"(?m)^ *server_name ([^\s;]+);", text_of(root, "/etc/nginx/conf.d/desk.conf")
    )
    return told or watched or (served[0] if served else None)


def template_of(unit: str) -> str:
    """The file of a unit: that of its template, where it is an instance."""
    return re.sub(r"@[^.]*\.", "@.", unit)


def put_aside(root: Path) -> None:
    """Units, scripts, program and pages of a setup by hand give way to the package's, which their places lead on to."""
    units = root / earlier.UNITS
    shipped = root / "lib/systemd/system"
    known = {it.name for it in shipped.glob("desk*")} | earlier.names_of_units().keys()
    for path in sorted(units.glob("desk*")):
        if path.is_file() and not path.is_symlink() and path.name in known:
            aside(root, path)
    for link in sorted(units.glob("*.wants/desk*")):
        # (what began by a unit that is aside begins by the package's)
        file = f"/lib/systemd/system/{template_of(link.name)}"
        if link.is_symlink() and os.readlink(link) != file and earlier.below(root, file).exists():
            link.unlink()
            link.symlink_to(file)
    for old, new in LOCAL.items():
        path = root / old
        if path.exists() and not path.is_symlink() and earlier.below(root, new).exists():
            aside(root, path)
            path.symlink_to(new)
    scripts = root / SCRIPTS
    if (scripts / "python").is_dir() and not (scripts / "python").is_symlink():
        aside(root, scripts)
        scripts.mkdir(parents=True)
        deploy = earlier.below(root, f"{TOOLS}/deploy")
        for it in sorted(deploy.iterdir()) if deploy.is_dir() else []:
            (scripts / it.name).symlink_to(TOOLS / "deploy" / it.name)
        for name in "bin", "python":
            (scripts / name).symlink_to(TOOLS / name)


def aside(root: Path, path: Path) -> None:
    """Moves a file or a folder to those that are put aside. An earlier one of that name there gives way."""
    target = root / ASIDE / path.relative_to(root)
    target.parent.mkdir(parents=True, exist_ok=True)
    if target.is_dir():
        shutil.rmtree(target)
    shutil.move(path, target)


def note_answers(root: Path) -> None:
    """The answers of desk-setup that a setup by hand shows, where there are none and the main ones can be seen."""
    if told_before(root):
        return
    try:
        agency = json.loads(text_of(root, earlier.MAIN.names))
        named = {"agency": str(agency["name"]), "zone": str(agency["zone"])}
    except (ValueError, KeyError, TypeError):
        return
    name, rule = name_of_site(root), confs.value_in(text_of(root, earlier.MAIN.conf), "ZONE")
    # (where the unit's zone is another one than the agency's file has, a person says which is right)
    if not name or rule != zones.rule_of(named["zone"]):
        return
    watched = text_of(root, f"{agencies.SETTINGS}/watch.conf")
    copies = text_of(root, f"{agencies.SETTINGS}/copies.conf")
    told = [confs.value_in(watched, it) or "" for it in ("MAIL", "HOOK")]
    alarms = [it for it in told if settings.MAIL.fullmatch(it) or settings.HOOK.fullmatch(it)]
    wants = root / earlier.UNITS / "timers.target.wants"
    nightly = [
        it
        for it in ("backup", "worklist", "standing-orders")
        if os.path.lexists(wants / earlier.MAIN.unit_of(f"{it}.timer"))
    ]
    put_answers(
        root,
        {
            **named,
            "name": name,
            "port": "443",
            "alarm": next(iter(alarms), settings.NO_ALARM),
            "offsite": confs.value_in(copies, "OFFSITE") or elsewhere.NONE_YET,
            "nightly": ", ".join(nightly) or "none",
            "acme": "",
        },
    )
