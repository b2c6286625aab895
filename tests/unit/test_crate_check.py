"""What bin/check asks of the kit, and what it takes of an answer."""

from pathlib import Path

import pytest
from desk_tools import crate_check

LIBRARIES = {"low": ["jiff_core"], "middle": ["low"], "high": ["middle", "low", "sha2"]}
SAID = """./specs/Day.antt:22:18: error: `is_planted`: `nonsense` is not in scope
  a line that belongs to it
fn low::probe_of_specs::probe_of_specs: no proof: antt refuses it: help: mend that item
src/probe_of_specs.rt:2:41: error: module `Rattle.low.specs.Gone` has no `name`
src/day.rt:3:1: error[E0308]: mismatched types
only=1 proved=0
"""


def crates(folder: Path) -> crate_check.Crates:
    return crate_check.Crates(folder, LIBRARIES, Path("/kit"))


def made(folder: Path) -> Path:
    """A crate with a definition, a record, and a file that only passes names on."""
    for name in ("src", "specs/inner"):
        (folder / name).mkdir(parents=True)
    (folder / "src/lib.rt").write_text("mod day;\n", encoding="utf-8")
    texts = {"Lib": "pub mod Day", "Day": "use A.{b}\nabbrev pub IsDay : ℕ → Type 0\nIsDay n = n\n"}
    texts |= {"inner/Facts": "pub record Facts : Type 0 where\n", "Names": "pub use A.B\n"}
    for name, text in texts.items():
        (folder / f"specs/{name}.antt").write_text(text, encoding="utf-8")
    return folder


def test_those_below_come_after_what_they_use(tmp_path: Path) -> None:
    found = crates(tmp_path)
    assert found.below("high") == ["low", "middle"] and not found.below("low")
    assert found.of_kit(["high", *found.below("high")]) == ["core", "jiff_core", "sha2", "std"]


def test_a_high_crate_is_read_over_sources(tmp_path: Path) -> None:
    folder = made(tmp_path / "crates/high")
    words = crates(tmp_path).words("high", folder)
    assert f"low:core,std,jiff_core={tmp_path}/crates/low/src/lib.rt" in words
    assert "src/lib.rt" in words and words[-1] == "probe_of_specs::probe_of_specs"


def test_the_probe_names_each_module_that_defines_something(tmp_path: Path) -> None:
    folder = made(tmp_path / "low")
    assert crate_check.put_probe("low", folder) == ["Names"]
    text = (folder / "src/probe_of_specs.rt").read_text(encoding="utf-8")
    assert "ghost use Rattle.low.specs.Day.{IsDay};" in text
    assert "ghost use Rattle.low.specs.inner.Facts.{Facts};" in text
    assert (folder / "src/lib.rt").read_text(encoding="utf-8").endswith("mod probe_of_specs;\n")


def test_faults_are_those_of_the_crate() -> None:
    first, second = crate_check.faults_in(SAID, "low")
    assert first.startswith("crates/low/specs/Day.antt:22:18: error: `is_planted`")
    assert first.endswith("\n  a line that belongs to it")
    assert second == "crates/low/src/day.rt:3:1: error[E0308]: mismatched types"


def test_words_and_machines_that_are_wrong(
    monkeypatch: pytest.MonkeyPatch, capsys: pytest.CaptureFixture[str]
) -> None:
    monkeypatch.setattr(crate_check, "crates_of", crates)
    assert crate_check.run(["nothing"]) == 2
    assert capsys.readouterr().err == "bin/check: crates.txt has no crate nothing\n"
    monkeypatch.undo()
    monkeypatch.setattr(crate_check.shutil, "which", lambda _: None)
    assert crate_check.run(["pt_base_values"]) == 2
    assert "rattle is not installed" in capsys.readouterr().err
