"""The list of mutants that were refused, and the edits of the tree: each line has its mutant, and each edit its text."""

from __future__ import annotations

from pathlib import Path

import pytest

from desk_tools.build import mutants
from desk_tools.tree import TOP

EDIT = "file: src/lib.rt\nold: one\nnew: two\n"


def test_each_line_of_the_list_has_its_mutant() -> None:
    assert mutants.without_edit(TOP) == []


def test_each_edit_of_the_tree_can_be_applied() -> None:
    assert mutants.unfit_edits(TOP) == []


@pytest.mark.parametrize(
    ("source", "edit", "why"),
    [
        ("one\n", EDIT, []),
        ("none of it\none\n", EDIT, ["pt_low/wrong: its old text stands 2 times in src/lib.rt"]),
        ("two\n", EDIT, ["pt_low/wrong: its old text stands 0 times in src/lib.rt"]),
        (None, EDIT, ["pt_low/wrong: its old text stands 0 times in src/lib.rt"]),
        ("one\n", "file: src/lib.rt\n", ["pt_low/wrong: it changes nothing"]),
    ],
)
def test_an_edit_stands_once_in_its_file(
    tmp_path: Path, source: str | None, edit: str, why: list[str]
) -> None:
    crate = tmp_path / "crates" / "pt_low"
    (crate / "src").mkdir(parents=True)
    (crate / "must-fail").mkdir()
    if source is not None:
        (crate / "src" / "lib.rt").write_text(source)
    (crate / "must-fail" / "wrong.edit").write_text(edit)
    assert mutants.unfit_edits(str(tmp_path)) == why
