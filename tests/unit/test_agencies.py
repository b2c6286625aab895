"""The names of an agency's files, folders, units and user stand once, in `agencies`; plain texts agree with it.

Shell, units, nginx and documents can't ask Python. So each name in them is held against `agencies`, and each name of
`agencies` is looked for in them.
"""

from __future__ import annotations

import re
from collections.abc import Iterator
from pathlib import Path

import pytest

from desk_tools import agencies
from desk_tools.agencies import Agency
from desk_tools.machine import earlier, to_main

ROOT = Path(__file__).resolve().parents[2]
# How texts write an agency's name: the main one's, a template's, that of any, and examples'.
NAMES = ("main", "%i", "AGENCY", "north", "south")
NAMED = re.compile(rf"(?<![a-zA-Z%])(?:{'|'.join(NAMES)})(?![a-zA-Z])")
TOKEN = re.compile(r"(?<![\w/@.%-])(?:/?(?:etc|run|var)/[\w/@.%-]+|desk[@-][\w@.%-]+)")
# Endings that name a file of the same work: what SQLite has beside, a copy of before, a log that was turned over.
ENDINGS = re.compile(r"(?:-wal|-shm|\.before-[\w.%-]*|-\d*|\.(?:service|timer)\.d(?:/.*)?|\.)?")
TEXTS = [
    *sorted((ROOT / "docs").glob("*.md")),
    *sorted(it for it in (ROOT / "deploy").iterdir() if it.suffix),
    ROOT / "deploy/acme-hook",
    *sorted(it for it in (ROOT / "packaging").iterdir() if it.is_file()),
]


def folders(one: Agency) -> list[str]:
    """Folders of an agency. What is below them is theirs."""
    kept = [place(it) for it in earlier.WORKS for place in (one.data, one.running)]
    private = [it.replace("/var/lib/", "/var/lib/private/") for it in kept]
    # (systemd names a unit's own folder, and its user, without the folder above)
    names = [it.rpartition("/")[2] for it in kept]
    own = [one.folder, one.backups, one.exports, one.tls, one.site, one.record]
    return [*own, *kept, *private, *names]


def files(one: Agency) -> list[str]:
    """Files of an agency."""
    own = [*map(one.own, earlier.OWN), *map(one.key, earlier.KEYS)]
    return [one.file, one.tally, one.conf, one.names, one.offsite, one.fence, one.corrections, *own]


def units(one: Agency) -> list[str]:
    """Units of an agency, by their names with and without an ending."""
    plain = [one.unit, *map(one.unit_of, earlier.WORKS)]
    return [*plain, *(f"{it}.{end}" for it in plain for end in ("service", "timer"))]


def is_known(token: str) -> bool:
    """Whether a name of a text is one that `agencies` gives."""
    path = token if token.startswith(("/", "desk")) else f"/{token}"
    path = path.removeprefix(f"/{earlier.UNITS}/")
    for one in map(Agency, NAMES):
        if any(path.rstrip("/.") == it or path.startswith(f"{it}/") for it in folders(one)):
            return True
        for it in (*files(one), *units(one), one.user):
            if path.startswith(it) and ENDINGS.fullmatch(path.removeprefix(it)):
                return True
    return path == str(to_main.NOTE)


def strange(text: str) -> Iterator[str]:
    """The names of an agency's things in a text that `agencies` does not give."""
    for token in TOKEN.findall(text):
        if NAMED.search(token) and not is_known(token):
            yield token


@pytest.mark.parametrize("path", TEXTS, ids=lambda it: str(it.relative_to(ROOT)))
def test_texts_name_what_agencies_names(path: Path) -> None:
    """Each path, unit and user of an agency in a text is one of `agencies`."""
    assert not [*strange(path.read_text(encoding="utf-8"))]


def test_tools_name_what_agencies_names() -> None:
    """So do the tools and their help: what they say of an agency's files is true."""
    found = {
        it: [*strange(it.read_text(encoding="utf-8"))] for it in (ROOT / "python").rglob("*.py")
    }
    assert not {str(it.relative_to(ROOT)): wrong for it, wrong in found.items() if wrong}


def test_agencies_names_what_texts_name() -> None:
    """Each file, folder and unit that `agencies` gives stands in a unit, in a script of the package or in a document."""
    text = "\n".join(it.read_text(encoding="utf-8") for it in TEXTS).replace("main", "%i")
    one = Agency("%i")
    places = [one.folder, one.backups, one.tls, one.site, one.record, one.user, one.unit]
    assert not [it for it in (*places, *files(one)) if it not in text]
    for work in earlier.WORKS:
        assert (ROOT / f"deploy/{Agency('').unit_of(work)}.service").exists(), work
    assert not (ROOT / "deploy/desk.service").exists()


def test_a_name_that_nobody_has_is_found() -> None:
    """A file, a folder, a unit or a user that `agencies` does not give is told, wherever it stands in a line."""
    text = (
        "cat /var/lib/desks-main/a >/etc/desk/main-rota.csv; systemctl stop desk-backups@main.timer"
    )
    wrong = ["/var/lib/desks-main/a", "/etc/desk/main-rota.csv", "desk-backups@main.timer"]
    assert [*strange(text)] == wrong
    right = "/var/backups/desk-%i/x /etc/desk/%i.conf. desk@north /etc/desk/watch.conf $it-main"
    assert [*strange(f"{right} /etc/desk/north.config")] == ["/etc/desk/north.config"]


def test_scripts_of_the_package_make_the_names_of_main() -> None:
    """preinst and prerm put the name of the instance behind earlier places and into a template's name."""
    before = (ROOT / "packaging/preinst").read_text(encoding="utf-8")
    linked = " ".join(f"/{it}" for it in earlier.LINKED)
    assert f"for it in {linked}; do" in before and f"$it-{agencies.MAIN} " in before
    main = Agency()
    assert [f"/{it}-{main.name}" for it in earlier.LINKED] == [main.folder, main.backups, main.tls]
    assert f"s/@\\./@{main.name}./" in (ROOT / "packaging/prerm").read_text(encoding="utf-8")


def test_an_agencys_rule_removes_its_own_exports_alone() -> None:
    unit = (ROOT / "deploy/desk-retention@.service").read_text(encoding="utf-8")
    named = set(re.findall(r"/var/lib/desk-exports[\w%-]*", unit))
    assert named == {Agency("%i").exports}
