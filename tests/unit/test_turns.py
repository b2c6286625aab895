"""desk-setup and the package never change one machine at the same time: one of them waits, or says why it does not begin."""

from __future__ import annotations

import fcntl
import os
import subprocess
import sys
from pathlib import Path

import pytest

from desk_tools.commands import desk_setup
from desk_tools.machine import settings, turns

ROOT = Path(__file__).resolve().parents[2]
# As apt does it: the lock of another process.
HOLDING = """
import fcntl, sys
file = open(sys.argv[1], "w")
fcntl.lockf(file, fcntl.LOCK_EX)
print("held", flush=True)
sys.stdin.read()
"""


@pytest.fixture(name="lock")
def lock_fixture(tmp_path: Path, monkeypatch: pytest.MonkeyPatch) -> Path:
    """The lock of the setups of this machine, on which dpkg may be at work."""
    monkeypatch.setattr(turns, "LOCK", str(tmp_path / "lock"))
    monkeypatch.setattr(turns, "OF_DPKG", str(tmp_path / "dpkg"))
    monkeypatch.delenv("DPKG_MAINTSCRIPT_PACKAGE", raising=False)
    return tmp_path / "lock"


def test_one_setup_at_a_time(lock: Path) -> None:
    with turns.alone():
        with pytest.raises(settings.Failure, match="^another desk-setup is at work"):
            with turns.alone():
                pass
    with turns.alone():
        assert lock.exists()


def test_no_setup_while_apt_is_at_work(lock: Path, monkeypatch: pytest.MonkeyPatch) -> None:
    """The setup that the package itself starts goes on."""
    words = [sys.executable, "-c", HOLDING, str(lock.parent / "dpkg")]
    with subprocess.Popen(words, stdin=subprocess.PIPE, stdout=subprocess.PIPE) as apt:
        assert apt.stdout and apt.stdout.readline() == b"held\n"
        with pytest.raises(settings.Failure, match="^apt or dpkg is at work"):
            with turns.alone():
                pass
        monkeypatch.setenv("DPKG_MAINTSCRIPT_PACKAGE", "desk")
        with turns.alone():
            pass
        apt.communicate()


@pytest.mark.skipif(os.geteuid() != 0, reason="only root sets a desk up")
def test_the_command_says_so(
    lock: Path, monkeypatch: pytest.MonkeyPatch, capsys: pytest.CaptureFixture[str]
) -> None:
    """With status 1, before it changes anything."""
    monkeypatch.setattr(desk_setup, "change", lambda _: pytest.fail("it began"))
    with open(lock, "w", encoding="ascii") as held:
        fcntl.flock(held, fcntl.LOCK_EX)
        assert desk_setup.main(["--site"]) == 1
    assert "another desk-setup is at work" in capsys.readouterr().err


@pytest.mark.parametrize("script, word", [("preinst", "upgrade"), ("prerm", "remove")])
def test_the_package_changes_nothing_beside_a_setup(tmp_path: Path, script: str, word: str) -> None:
    """apt ends then, and the command may be given again."""
    text = (ROOT / "packaging" / script).read_text(encoding="utf-8")
    for top in ("/run/", "/var/", "/etc/", "/usr/bin/desk", "/usr/local/"):
        text = text.replace(top, f"{tmp_path}{top}")
    (tmp_path / "run").mkdir()

    def status() -> tuple[int, str]:
        ran = subprocess.run(["sh", "-c", text, "sh", word], capture_output=True, text=True)
        return ran.returncode, ran.stderr

    assert status() == (0, "")
    assert not list((tmp_path / "run").iterdir())
    with open(tmp_path / "run/desk-setup.lock", "w", encoding="ascii") as held:
        fcntl.flock(held, fcntl.LOCK_EX)
        code, said = status()
        assert code == 1 and "desk-setup is at work" in said
    assert status() == (0, "")
