"""The night's copy of a machine has the files of one agency, and nobody else's names, keys or record."""

from __future__ import annotations

import re
import subprocess
from pathlib import Path

import pytest

from desk_tools.agencies import Agency
from desk_tools.ops import machine_copy

ROOT = Path(__file__).resolve().parents[2]
NAMES = {"main", "north", "north-east"}
# A file of a machine with three agencies, and whose copy it is in.
FILES = {
    "etc/desk/main.conf": "main",
    "etc/desk/setup.json": "main",
    "etc/desk/watch.conf": "main",
    "etc/desk/keys/record": "main",
    "etc/desk/keys/main-reminders": "main",
    "etc/ssl/desk-main/key.pem": "main",
    "etc/nginx/conf.d/desk.conf": "main",
    "var/log/desk/tally-main.log": "main",
    "var/log/desk/journal-main/2026-01-05.jsonl": "main",
    "etc/desk/north.conf": "north",
    "etc/desk/north.json": "north",
    "etc/desk/north.offsite": "north",
    "etc/desk/north-roster.csv": "north",
    "etc/desk/keys/north-driver-files": "north",
    "etc/ssl/desk-north/key.pem": "north",
    "etc/systemd/system/desk@north.service.d/zone.conf": "north",
    "var/log/desk/tally-north.log-20260105": "north",
    "var/log/desk/journal-north/2026-01-05.jsonl": "north",
    "var/lib/private/desk-standing-orders-north/state.json": "north",
    "etc/desk/north-east.conf": "north-east",
    "etc/desk/north-east-roster.csv": "north-east",
    "var/log/desk/journal-north-east/2026-01-05.jsonl": "north-east",
}
# What no copy has.
LEFT_OUT = ["etc/desk/north.fenced", "var/log/desk/journal-north/2025-01-05.jsonl.gz"]


@pytest.mark.parametrize(
    "name, whose",
    [
        ("north", "north"),
        ("northern.conf", "main"),
        ("north-east.json", "north-east"),
        ("journal-north-east", "north-east"),
        ("tally-north.log", "north"),
        ("journal-keys", "main"),
        ("README", "main"),
    ],
)
def test_whose_a_file_is(name: str, whose: str) -> None:
    assert machine_copy.owner(name, NAMES) == whose


@pytest.fixture(name="machine")
def machine_fixture(tmp_path: Path) -> Path:
    """A machine's root with the files."""
    for it in (*FILES, *LEFT_OUT):
        (tmp_path / "root" / it).parent.mkdir(parents=True, exist_ok=True)
        (tmp_path / "root" / it).write_text(it, encoding="ascii")
    return tmp_path / "root"


@pytest.mark.parametrize("name", sorted(NAMES))
def test_a_copy_has_its_own(machine: Path, name: str) -> None:
    """What the unit of the night packs, by its own words."""
    unit = (ROOT / "deploy/desk-backup@.service").read_text(encoding="utf-8")
    found = re.search(r"tar (--create .*?); test", unit)
    assert found
    work = machine.parent
    (work / "identity.json").write_text("{}", encoding="ascii")
    listed = "".join(f"{it}\n" for it in machine_copy.files(Agency(name), machine))
    (work / "files").write_text(listed, encoding="utf-8")
    words = re.sub(r"--file .*?\.tar\.gz", "--file WORK/copy.tar.gz", found[1])
    words = words.replace("--directory / ", "--directory WORK/root ").replace("/tmp", "WORK")
    words = words.replace("WORK", str(work))
    subprocess.run(["sh", "-c", f"tar {words}"], check=True, capture_output=True)
    packed = subprocess.run(
        ["tar", "--list", "--file", f"{work}/copy.tar.gz"],
        check=True,
        capture_output=True,
        text=True,
    )
    wanted = {it for it, whose in FILES.items() if whose == name}
    assert {it for it in packed.stdout.split() if not it.endswith("/")} == {
        *wanted,
        "identity.json",
    }
