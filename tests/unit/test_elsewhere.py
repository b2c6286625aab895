"""Copies in another place and zones: what a setting names, which copy is the newest, and when zones differ."""

import pathlib

import pytest
from hypothesis import given
from hypothesis import strategies as some

from desk_tools import elsewhere, zones

MOMENTS = some.datetimes().map(lambda it: it.replace(year=2000 + it.year % 100))
KINDS = some.sampled_from([("desk", ".db"), ("machine", ".tar.gz")])
SEALS = some.sampled_from(["", ".age", ".gpg"])
NAMES = some.builds(
    lambda kind, at, seal: f"{kind[0]}-{at:%Y-%m-%d-%H%M}{kind[1]}{seal}", KINDS, MOMENTS, SEALS
)


@pytest.mark.parametrize(
    "text, machine, folder",
    [
        ("/mnt/far/", None, "/mnt/far"),
        ("keeper@far.test:/srv/desk", "keeper@far.test", "/srv/desk"),
    ],
)
def test_a_place(text: str, machine: str | None, folder: str) -> None:
    assert elsewhere.place_of(text) == elsewhere.Place(machine, folder)


@pytest.mark.parametrize("text", ["", "none", "none yet", " none yet "])
def test_no_place_yet(text: str) -> None:
    assert elsewhere.place_of(text) is None


@pytest.mark.parametrize(
    "text", ["far", "/", "far:folder", "a b:/c", "/a;id", "-oProxy=x", "x:/a b"]
)
def test_what_is_no_place(text: str) -> None:
    with pytest.raises(elsewhere.Wrong, match="neither a mounted folder"):
        elsewhere.place_of(text)


@given(some.lists(NAMES), some.text())
def test_the_newest_is_the_last_by_name(names: list[str], noise: str) -> None:
    for kind in ("desk", "machine"):
        found = elsewhere.newest([*names, noise], kind)
        mine = [it for it in names if it.startswith(kind)]
        assert (found is None) == (not mine)
        if found:
            assert found[: len(kind) + 16] == max(it[: len(kind) + 16] for it in mine)


@given(some.lists(NAMES), SEALS)
def test_what_is_there_is_not_sent_again(names: list[str], seal: str) -> None:
    here = [it.removesuffix(".age").removesuffix(".gpg") for it in names]
    wanted = elsewhere.to_send(here, [])
    assert elsewhere.to_send(here, [f"{it}{seal}" for it in wanted]) == []


def test_seals(tmp_path: pathlib.Path) -> None:
    public, private = tmp_path / "key.pub", tmp_path / "key.txt"
    public.write_text("# ours\nage1abc\n", encoding="ascii")
    private.write_text("AGE-SECRET-KEY-1ABC\n", encoding="ascii")
    assert elsewhere.seal_of("") is None
    for text in ("age1abc", str(public)):
        seal = elsewhere.seal_of(text)
        assert seal and seal.end == ".age" and seal.words[0] == "age"
    with pytest.raises(elsewhere.Wrong, match="private key"):
        elsewhere.seal_of(str(private))
    with pytest.raises(elsewhere.Wrong, match="cannot be read"):
        elsewhere.seal_of("/nowhere")


CHICAGO, NEW_YORK = "CST6CDT,M3.2.0,M11.1.0", "EST5EDT,M3.2.0,M11.1.0"


@pytest.mark.parametrize(
    "named, rules, said",
    [
        ({"a": "America/Chicago"}, {"unit": CHICAGO}, None),
        ({"a": "America/Chicago", "b": "America/Menominee"}, {"unit": CHICAGO}, None),
        ({"a": "America/Chicago"}, {"unit": NEW_YORK}, "the zones differ"),
        ({"a": "America/Chicago", "b": "America/Denver"}, {}, "the zones differ"),
        ({"a": "America/Chicago"}, {"unit": ""}, "no ZONE in unit"),
        ({"a": "../../etc/passwd"}, {}, "does not know"),
        ({}, {"unit": CHICAGO}, None),
    ],
)
def test_zones(named: dict[str, str], rules: dict[str, str], said: str | None) -> None:
    found = zones.difference(named, rules)
    assert (found is None) == (said is None)
    assert said is None or said in str(found)


def test_a_tool_that_is_not_installed() -> None:
    """The package to install is named; gpg is in gnupg."""
    assert elsewhere.missing_tool(["sh", "-c", "true"]) is None
    assert elsewhere.missing_tool(["no-such-age"]) == (
        "no-such-age is not installed: apt install no-such-age"
    )
