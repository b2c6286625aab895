"""A folder that a report writes is whole or as it was, a full disk is said of the name that was given, and one run at a time has a table."""

import errno
import os
from pathlib import Path

import pytest

from desk_tools.setup import whole_file
from desk_tools.setup.limits import Wrong


def _write(path: Path, fails: bool = False) -> None:
    with whole_file.folder_written(str(path)) as beside:
        whole_file.written(f"{beside}/one.csv", "1\n")
        assert not path.exists() or not any(path.iterdir())
        if fails:
            raise OSError(errno.ENOSPC, os.strerror(errno.ENOSPC), f"{beside}/two.csv")
        whole_file.written(f"{beside}/two.csv", "2\n")


@pytest.mark.parametrize("is_there", [False, True])
def test_a_folder_has_all_or_nothing(tmp_path: Path, is_there: bool) -> None:
    path = tmp_path / "invoices"
    if is_there:
        path.mkdir()
    with pytest.raises(OSError) as caught:
        _write(path, fails=True)
    assert caught.value.filename == str(path)
    assert path.exists() is is_there and [*tmp_path.iterdir()] == ([path] if is_there else [])
    _write(path)
    assert {it.name for it in path.iterdir()} == {"one.csv", "two.csv"}
    assert [*tmp_path.iterdir()] == [path]


def test_what_is_there_stays(tmp_path: Path, monkeypatch: pytest.MonkeyPatch) -> None:
    path = tmp_path / "invoices"
    path.mkdir()
    (path / "mine").write_text("mine")
    with pytest.raises(Wrong, match="is no empty folder"):
        _write(path)
    (tmp_path / "file").write_text("mine")
    with pytest.raises(Wrong, match="is no empty folder"):
        _write(tmp_path / "file")
    monkeypatch.chdir(tmp_path)
    (tmp_path / "here").mkdir()
    monkeypatch.chdir(tmp_path / "here")
    with pytest.raises(Wrong, match="that you are in"):
        _write(Path("."))
    assert (path / "mine").read_text() == "mine"


def test_a_file_without_room_names_itself(tmp_path: Path, monkeypatch: pytest.MonkeyPatch) -> None:
    def full(_number: int) -> None:
        raise OSError(errno.ENOSPC, os.strerror(errno.ENOSPC))

    monkeypatch.setattr(os, "fsync", full)
    with pytest.raises(OSError) as caught:
        whole_file.written(str(tmp_path / "one.csv"), "1\n")
    assert caught.value.filename == str(tmp_path / "one.csv") and not [*tmp_path.iterdir()]


def test_one_run_at_a_time_has_a_table(tmp_path: Path) -> None:
    path = str(tmp_path / "addresses.csv")
    with whole_file.alone(path):
        with pytest.raises(Wrong, match="another run is under way"):
            with whole_file.alone(path):
                pass
        with whole_file.alone(str(tmp_path / "other.csv")):
            pass
    with whole_file.alone(path):
        pass
    with pytest.raises(Wrong, match="No such file"):
        with whole_file.alone(str(tmp_path / "none" / "addresses.csv")):
            pass
