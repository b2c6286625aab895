"""Who is told when something is wrong: an address without encryption gets no new alarm, and an old one is named."""

from __future__ import annotations

import argparse
import json
from pathlib import Path

import pytest

from desk_tools import alarms
from desk_tools.commands import watch
from desk_tools.machine import settings
from desk_tools.ops import watching

OPEN = "http://alarm.example.org/desk?token=4711"
HERE = "http://127.0.0.1:9099/desk"
GIVEN = {"agency": "A", "zone": "America/Chicago", "name": "desk.test", "port": "443"}


@pytest.mark.parametrize(
    "address, is_open",
    [
        (OPEN, True),
        ("http://", True),
        ("http://127.0.0.1.example.org/", True),
        ("http://localhost@example.org/", True),
        ("http://10.0.0.7/desk", True),
        (HERE, False),
        ("http://localhost:9099/", False),
        ("http://[::1]:9099/", False),
        ("https://alarm.example.org/desk", False),
        ("ops@example.org", False),
        ("cat >/root/http://", False),
        ("curl -sd @- http://alarm.example.org/desk", True),
        ("curl -sd @- 'http://10.0.0.7/desk'", True),
        ("curl -sd @- http://127.0.0.1:9099/ || mail http://there.example.org/", True),
        ("curl -sd @- http://127.0.0.1:9099/", False),
        ("curl -sd @- https://alarm.example.org/?for=http://desk", False),
        ("https://alarm.example.org/?for=http://desk", False),
    ],
)
def test_only_this_machine_is_sent_to_in_the_open(address: str, is_open: bool) -> None:
    assert alarms.is_open(address) is is_open


def given(alarm: str | None) -> argparse.Namespace:
    return argparse.Namespace(**{**GIVEN, "alarm": alarm, "offsite": None, "nightly": "none"})


def test_the_setup_takes_no_new_open_address(
    tmp_path: Path, monkeypatch: pytest.MonkeyPatch
) -> None:
    """One that an earlier setup took stays, or an upgrade would end without a site."""
    monkeypatch.setattr(settings, "SETTINGS", str(tmp_path / "setup.json"))
    with pytest.raises(settings.WrongWords, match=r"^http://alarm\S* is not encrypted"):
        settings.asked(given(OPEN))
    assert settings.asked(given(HERE))["alarm"] == HERE
    (tmp_path / "setup.json").write_text(json.dumps({"alarm": OPEN}), encoding="ascii")
    assert settings.asked(given(None))["alarm"] == OPEN


def test_the_watch_names_an_open_address(
    tmp_path: Path, capsys: pytest.CaptureFixture[str]
) -> None:
    """Its lines still go there, since a full disk is worse. A test line does not."""
    (tmp_path / "watch.conf").write_text(f"SITE=none\nHOOK={OPEN}\n", encoding="ascii")
    found = list(watching.troubles_of_alarms(str(tmp_path)))
    assert [it[0] for it in found] == ["alarms"] and "4711" not in found[0][1]
    assert watch.send_test(str(tmp_path)) == 1
    assert "is not encrypted" in capsys.readouterr().err
    (tmp_path / "watch.conf").write_text(f"SITE=none\nHOOK=curl -d @- {OPEN}\n", encoding="ascii")
    assert list(watching.troubles_of_alarms(str(tmp_path))) == found
    (tmp_path / "watch.conf").write_text(f"SITE=none\nHOOK={HERE}\n", encoding="ascii")
    assert not list(watching.troubles_of_alarms(str(tmp_path)))
