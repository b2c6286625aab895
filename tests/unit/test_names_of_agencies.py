"""No second agency can have a name by which the machine or another agency has files, folders, units or a user."""

from __future__ import annotations

import re
from pathlib import Path

import pytest

from desk_tools import agencies
from desk_tools.agencies import Agency
from desk_tools.commands import new_desk
from desk_tools.machine import earlier, names
from desk_tools.ops import machine_copy
from desk_tools.ops.ending import WRONG_WORDS, Failure

ROOT = Path(__file__).resolve().parents[2]
EXAMPLES = {"main", "north", "south"}
TEXTS = [
    *(it for it in (ROOT / "deploy").iterdir() if it.is_file()),
    *(it for it in (ROOT / "packaging").iterdir() if it.is_file()),
    *(ROOT / "python/desk_tools").rglob("*.py"),
    *(ROOT / "docs").glob("*.md"),
]
# Where the machine has things of its own beside those of agencies: each as it is followed by a name of one or the other.
PLACES = (
    r"/etc/desk/(?:keys/)?([a-z][a-z-]*)",
    r"/(?:var/lib|run)/desk-([a-z][a-z-]*)",
    r"desk-([a-z][a-z-]*)\.(?:service|timer|socket)",
    r"useradd .* desk-([a-z][a-z-]*)\n",
)
RESERVED = [
    *names.OF_MACHINE,
    *sorted(names.of_earlier()),
    *sorted(earlier.WORKS),
    *names.KINDS,
    *(f"{work}-north" for work in (*earlier.WORKS, *names.KINDS)),
    *(f"main-{end}" for end in sorted(names.ends_of_files())),
]


def named_in(text: str) -> set[str]:
    """The names that a text has where an agency's would stand, without those of agencies."""
    found = {it.strip("-") for place in PLACES for it in re.findall(place, text)}
    return {it for it in found if it and it.split("-")[0] not in EXAMPLES}


@pytest.mark.parametrize("name", RESERVED)
def test_a_name_that_something_has_is_refused_in_a_sentence(name: str) -> None:
    assert agencies.NAME.fullmatch(name)
    assert names.fault(name).startswith(f"an agency cannot be called {name}, because ")


@pytest.mark.parametrize(
    "name",
    [
        "main",
        "north",
        "north-east",
        "city2",
        "machine",
        "alarm",
        "recorder",
        "main-street",
        "west-rides",
    ],
)
def test_a_name_that_nothing_has_is_taken(name: str) -> None:
    assert not names.fault(name)


def test_each_thing_of_the_machine_has_a_name_that_is_refused() -> None:
    """What stands in texts where an agency's name would stand, and is none, is a name that no agency gets."""
    found = {it: named_in(it.read_text(encoding="utf-8")) for it in TEXTS}
    free = {
        str(it.relative_to(ROOT)): [*filter(lambda one: not names.fault(one), those)]
        for it, those in found.items()
    }
    assert not {it: those for it, those in free.items() if those}
    assert {*names.OF_MACHINE} <= set().union(*found.values())


def test_no_name_that_is_taken_has_a_file_of_another_agency() -> None:
    """The file of a key, or a roster, is of the agency whose work it is: of any two names that are taken."""
    for other in ("main", "north"):
        one = Agency(other)
        files = [*map(one.own, earlier.OWN), *map(one.key, earlier.KEYS), one.conf, one.names]
        for file in files:
            stem = Path(file).name
            parts = re.split(r"[-.]", stem)
            for at in range(2, len(parts) + 1):
                name = "-".join(parts[:at])
                if not names.fault(name):
                    assert machine_copy.owner(stem, {"main", other, name}) == other, (file, name)


@pytest.mark.parametrize("name", ["record", "setup", "main-driver", "reminders-north"])
def test_a_new_desk_of_such_a_name_is_refused_before_anything_is_made(
    name: str, tmp_path: Path
) -> None:
    with pytest.raises(Failure, match=f"an agency cannot be called {name}, ") as why:
        new_desk.main([str(tmp_path / "keys"), name])
    assert why.value.status == WRONG_WORDS and not (tmp_path / "keys").exists()


def test_a_setup_names_an_agency_that_is_there_under_such_a_name() -> None:
    assert [*names.told(["main", "north"])] == []
    [said] = names.told(["main", "record"])
    assert said.startswith("An agency cannot be called record, because "), said
    assert said.endswith("of that name: set it up under another name."), said
