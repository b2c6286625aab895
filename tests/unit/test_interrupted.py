"""A script that was killed while the desk was stopped: what is put right, and what the watch says and does."""

import itertools
import json
import os
import pathlib
import types
from collections.abc import Iterator

import pytest

from desk_tools import agencies
from desk_tools.ops import fences, interrupted, standby, watching
from desk_tools.ops.locking import alone

MAIN = agencies.Agency()
ENDS = ("", "-wal", "-shm")


class StoppedDesk:
    """A desk's folder, without a desk."""

    def __init__(self, folder: pathlib.Path) -> None:
        self.folder, self.file = str(folder), str(folder / "desk.db")
        self.calls: list[str] = []

    def is_served(self) -> bool:
        return False

    def stop(self) -> None:
        self.calls.append("stop")

    def start(self) -> None:
        self.calls.append("start")


def states_of_a_move() -> Iterator[tuple[int, bool]]:
    """How many of the three files were moved when the script was killed, and whether it was putting them back."""
    yield from itertools.product(range(4), (False, True))


def of_old(folder: pathlib.Path) -> set[str]:
    return {it.name for it in folder.iterdir() if it.is_file() and it.read_text() == "old"}


@pytest.mark.parametrize("count, is_back", states_of_a_move())
def test_old_files_come_back_whole(tmp_path: pathlib.Path, count: int, is_back: bool) -> None:
    """Wherever it was killed, the old file has its log beside it, and the desk starts."""
    desk = StoppedDesk(tmp_path)
    kept = tmp_path / "before-1"
    kept.mkdir()
    interrupted.Note(desk, "a restore", str(kept))
    # (put aside, the file goes first; put back, it comes last)
    moved = ENDS[:count] if not is_back else ENDS[: 3 - count]
    for end in ENDS:
        (kept if end in moved else tmp_path).joinpath(f"desk.db{end}").write_text("old")
    assert interrupted.start_again(desk) is True
    assert of_old(tmp_path) == {f"desk.db{end}" for end in ENDS}
    assert desk.calls == ["stop", "start"] and not (tmp_path / interrupted.NAME).exists()


def test_a_placed_backup_is_served(tmp_path: pathlib.Path) -> None:
    """Once the backup is in its place the old file stays aside."""
    desk = StoppedDesk(tmp_path)
    kept = tmp_path / "before-1"
    kept.mkdir()
    (kept / "desk.db").write_text("old")
    (kept / "desk.db-wal").write_text("old")
    (tmp_path / "desk.db").write_text("new")
    interrupted.Note(desk, "a restore", str(kept))
    assert interrupted.start_again(desk) is True
    assert not of_old(tmp_path) and of_old(kept) == {"desk.db", "desk.db-wal"}


def test_a_second_machine_serves_no_old_file(tmp_path: pathlib.Path) -> None:
    """On a second machine an opening that was killed before its copy was placed starts nothing."""
    desk = StoppedDesk(tmp_path)
    (tmp_path / "desk.db").write_text("old")
    note = interrupted.Note(desk, "a restore", str(tmp_path / "before-1"), starts_old=False)
    said = interrupted.left_in(desk.folder)
    assert said and "nothing serves here" in interrupted.told_of(said)
    assert interrupted.start_again(desk) is False and "start" not in desk.calls
    note = interrupted.Note(desk, "a restore", str(tmp_path / "before-1"), starts_old=False)
    note.is_placed()
    assert interrupted.start_again(desk) is True


def test_a_script_at_work_is_left_alone(tmp_path: pathlib.Path) -> None:
    """The note of a script that has the lock is none of a killed one."""
    desk = StoppedDesk(tmp_path)
    interrupted.Note(desk, "deploy/mend-caller")
    with alone(desk.folder, 0, ""):
        assert interrupted.left_in(desk.folder) is None
    said = interrupted.left_in(desk.folder)
    assert said and interrupted.told_of(said).startswith("deploy/mend-caller was killed")


def test_the_watch_starts_it_again(tmp_path: pathlib.Path) -> None:
    """The unit is wanted, and the line says why."""
    wanted: list[str] = []
    said = {"what": "a restore", "starts_old": True}
    found = list(watching.troubles_of_interruption(said, MAIN.unit, wanted))
    assert wanted == [MAIN.unit] and "a restore was killed after it had stopped" in found[0][1]
    assert not list(watching.troubles_of_interruption(None, MAIN.unit, wanted))


def test_nobody_waits_for_a_desk_that_was_stopped(
    tmp_path: pathlib.Path, monkeypatch: pytest.MonkeyPatch
) -> None:
    """The look that finds a killed script starts the desk, and does not first wait for an opening."""
    (tmp_path / "watch.conf").write_text("SITE=none\n")
    monkeypatch.setenv("URL", "http://127.0.0.1:1")
    waited: list[float] = []
    monkeypatch.setattr(watching, "answer_of", lambda desk, patience: waited.append(patience))
    told = {"moment": 1e9, "uptime": 9.0, "units": {}, "backups": {}, "sizes": {}, "standby": {}}
    said = {"what": "a restore", "starts_old": True}
    found, wanted = watching.troubles(
        {**told, "interrupted": {MAIN.unit: said}}, {}, str(tmp_path), 45
    )
    assert wanted == [MAIN.unit] and any(it[1] == "killed" for it in found)
    watching.troubles(told, {}, str(tmp_path), 45)
    assert waited == [0, 45]


@pytest.mark.parametrize(
    "text, is_well",
    [
        ("second serves since it was opened; fenced at 2026\n", False),
        ("change-over to another machine; fenced at 2026\n", True),
        ("change-over to another machine, without a last copy; fenced at 2026\n", False),
        ("a second machine, which standby open has not opened\n", True),
        ("a person said so; fenced at 2026\n", True),
    ],
)
def test_a_fenced_machine_says_what_is_missing(
    tmp_path: pathlib.Path, text: str, is_well: bool
) -> None:
    """A machine that fenced itself may have what the other lacks; once that was listed the watch is silent."""
    fence = tmp_path / "fenced"
    fence.write_text(text)
    desk = types.SimpleNamespace(fence=str(fence), agency=agencies.Agency())
    assert fences.is_compared(str(fence)) is is_well
    assert (not list(watching.troubles_of_fence(desk))) is is_well
    standby.note_compared(desk)
    assert fence.read_text().startswith(text) and not list(watching.troubles_of_fence(desk))


def test_a_spoilt_note_is_none(tmp_path: pathlib.Path) -> None:
    """A note that was cut hinders nothing."""
    for text in ("", "{", json.dumps([1])):
        (tmp_path / interrupted.NAME).write_text(text)
        assert interrupted.left_in(str(tmp_path)) is None
        assert interrupted.put_right(StoppedDesk(tmp_path)) is None
        assert not os.path.exists(tmp_path / interrupted.NAME)
