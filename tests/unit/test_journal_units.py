"""The units of deploy/: what writes at night goes through the door that keeps the record."""

import re
from pathlib import Path

import pytest

DEPLOY = Path(__file__).resolve().parents[2] / "deploy"
# A unit that has a key of a caller who may write. The drivers' files only read.
WRITES = re.compile(r"--(clerk|dispatcher|admin|examiner|officer)\b")
READS_ALONE = ("desk-driver-files@.service",)


@pytest.mark.parametrize("path", sorted(DEPLOY.glob("*.service")), ids=lambda it: it.name)
def test_a_unit_that_writes_asks_the_door_of_the_record(path: Path) -> None:
    text = path.read_text(encoding="utf-8")
    if WRITES.search(text) and path.name not in READS_ALONE:
        assert re.search(r"--url http://127\.0\.0\.2:", text), path.name
        assert "http://127.0.0.1:" not in text, path.name


def test_there_are_units_that_write() -> None:
    """Else the check above looks at none."""
    texts = [it.read_text(encoding="utf-8") for it in DEPLOY.glob("*.service")]
    assert sum(bool(WRITES.search(it)) for it in texts) >= 4
