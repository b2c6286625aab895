"""How a root of Debian for tests/booted is made: in a room of its own, of which nothing is left, however it ends."""

import os
import subprocess
import time
from pathlib import Path

import pytest
from desk_tools.booted import roots

# What mmdebstrap does, in short: a folder of its own where TMPDIR says, something that it starts, and the archive.
STAND_IN = """#!/bin/sh
mkdir "$TMPDIR/mmdebstrap.trial" && echo $$ >{folder}/started
{then}
"""
ENDLESS = "sleep 300 & wait"


@pytest.fixture(name="kept")
def fixture_kept(tmp_path: Path, monkeypatch: pytest.MonkeyPatch) -> Path:
    """A folder in which roots are kept, and one for a stand-in of mmdebstrap."""
    (tmp_path / "bin").mkdir()
    monkeypatch.setattr(roots, "KEPT", tmp_path / "kept")
    monkeypatch.setenv("PATH", f"{tmp_path}/bin:{os.environ['PATH']}")
    return tmp_path / "kept"


def stand_in(folder: Path, then: str) -> None:
    """Puts a script in the place of mmdebstrap."""
    path = folder / "bin/mmdebstrap"
    path.write_text(STAND_IN.format(folder=folder, then=then), encoding="utf-8")
    path.chmod(0o755)


def is_alive(number: int) -> bool:
    """Whether a process is there and is no zombie."""
    try:
        text = Path(f"/proc/{number}/stat").read_text(encoding="ascii")
    except OSError:
        return False
    return text.rpartition(")")[2].split()[0] != "Z"


def test_a_root_is_kept(kept: Path) -> None:
    """It is made once, whole, and nothing else is left."""
    stand_in(kept.parent, 'for it; do :; done; echo whole >"$it"')
    path = roots.archive(["systemd"])
    assert path.read_text(encoding="ascii") == "whole\n"
    assert [it.name for it in kept.iterdir()] == [path.name]
    stand_in(kept.parent, "exit 1")
    assert roots.archive(["systemd"]) == path


def test_a_root_that_takes_too_long(kept: Path, monkeypatch: pytest.MonkeyPatch) -> None:
    """All that began ends, and nothing is left of it."""
    monkeypatch.setattr(roots, "SECONDS_TO_MAKE", 1)
    stand_in(kept.parent, ENDLESS)
    with pytest.raises(roots.NoRoot, match="took longer than 1 seconds"):
        roots.archive(["systemd"])
    assert not list(kept.iterdir())
    group = (kept.parent / "started").read_text(encoding="ascii").strip()
    ran = subprocess.run(["pgrep", "-g", group], check=False, capture_output=True, text=True)
    assert not [it for it in ran.stdout.split() if is_alive(int(it))]


def test_a_root_that_cannot_be_made(kept: Path) -> None:
    """The last line of what mmdebstrap says is the reason, and an older root counts."""
    stand_in(kept.parent, "echo 'E: no archive' >&2; exit 25")
    with pytest.raises(roots.NoRoot, match="E: no archive"):
        roots.archive(["systemd"])
    assert not list(kept.iterdir())


def test_an_older_root_counts(kept: Path) -> None:
    """Where none can be made now."""
    stand_in(kept.parent, 'for it; do :; done; echo old >"$it"')
    path = roots.archive(["systemd"])
    before = time.time() - 2 * roots.SECONDS_KEPT
    os.utime(path, (before, before))
    stand_in(kept.parent, "exit 1")
    assert roots.archive(["systemd"]).read_text(encoding="ascii") == "old\n"


def test_what_a_killed_trial_left(kept: Path) -> None:
    """The next one removes it."""
    ended = subprocess.Popen(["true"])
    ended.wait()
    (kept / f"{roots.MAKING}{ended.pid}/mmdebstrap.left").mkdir(parents=True)
    (kept / f"{roots.MAKING}{os.getpid()}").mkdir()
    roots.forget_unfinished()
    assert [it.name for it in kept.iterdir()] == [f"{roots.MAKING}{os.getpid()}"]
