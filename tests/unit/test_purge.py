"""The question of a purge names those folders alone that hold something."""

import pathlib
import re
import subprocess

ROOT = pathlib.Path(__file__).resolve().parents[2]


def test_folders_that_hold_something(tmp_path: pathlib.Path) -> None:
    """An empty folder, one of empty folders, a link and one that is not there are not named."""
    (tmp_path / "empty").mkdir()
    (tmp_path / "of-folders" / "inner").mkdir(parents=True)
    (tmp_path / "full" / "inner").mkdir(parents=True)
    (tmp_path / "full" / "inner" / "file").touch()
    (tmp_path / "link").symlink_to(tmp_path / "full")
    script = (ROOT / "packaging/postrm").read_text(encoding="utf-8")
    function = re.search(r"(?sm)^folders_with_content\(\) \{.*?^\}$", script)
    assert function
    names = [str(tmp_path / it) for it in ("empty", "of-folders", "full", "link", "nowhere")]
    command = ["sh", "-c", function[0] + '\nfolders_with_content "$@"', "sh", *names]
    told = subprocess.run(command, capture_output=True, text=True, check=True)
    assert told.stdout == f" {tmp_path}/full"


def test_the_question_has_a_place_for_them() -> None:
    """debconf puts the folders that are there into the question."""
    templates = (ROOT / "packaging/templates").read_text(encoding="utf-8")
    assert "${folders}" in templates and "/var/lib/desk" not in templates
