"""A machine that an earlier version set up: each file gets the name that the agency main has, and none is lost."""

from __future__ import annotations

import hashlib
import json
import os
from pathlib import Path

import pytest

from desk_tools import agencies
from desk_tools.machine import by_hand, confs, earlier, to_main
from desk_tools.machine.settings import Failure

ROOT = Path(__file__).resolve().parents[2]
SITE = """server {
    server_name desk.test;
    if (-f /etc/desk/fenced) { return 599; }
    ssl_certificate /etc/ssl/desk/certificate.pem;
    access_log /var/log/desk/tally.log desk_tally;
    access_log /var/log/desk/journal/requests desk_journal;
    root /var/lib/desk-site;
    proxy_pass http://127.0.0.1:8435/health;
    proxy_pass http://unix:/run/desk-journal/socket;
    access_log /var/log/desk/journal-north/requests desk_journal;
    root /var/lib/desk-site/north;
}
"""
# What an earlier version, or a person by its documents, has made; and another agency, `north`.
EARLIER = {
    "var/lib/desk/desk.db": "the file",
    "var/lib/desk/desk.db-wal": "its log",
    "var/backups/desk/desk-2026-11-28-0305.db": "a night",
    "var/backups/desk/denials/denial-1.db": "a denial",
    "etc/ssl/desk/key.pem": "a key",
    "var/log/desk/journal/record/0001.jsonl": "a line",
    "var/log/desk/journal/requests": "the newest line",
    "var/log/desk/tally.log": "a count",
    "var/log/desk/tally.log-20251231": "a count of last year",
    "etc/desk/agency.json": json.dumps({"name": "Lake Town", "zone": "America/Chicago"}),
    "etc/desk/roster.csv": "rider,name\n",
    "etc/desk/standing-orders.csv": "rider\n",
    "etc/desk/closed-days.conf": "CLOSED_DAYS=cancel\n",
    "etc/desk/offsite.conf": "OFFSITE=/mnt/far\n",
    "etc/desk/watch.conf": "NAME=desk.test\nMAIL=ops@desk.test\n",
    "etc/desk/copies.conf": "OFFSITE=/mnt/copies\n",
    "etc/desk/keys/standing-orders": "a clerk's key",
    "etc/desk/keys/record": "the key that signs",
    "etc/nginx/conf.d/desk.conf": SITE,
    "etc/systemd/system/desk.service.d/zone.conf": "[Service]\nEnvironment=ZONE=CST6CDT,M3.2.0,M11.1.0\n",
    "etc/systemd/system/desk.service.d/memory.conf": "[Service]\nMemoryMax=4G\n",
    "etc/systemd/system/desk-backup.timer.d/hour.conf": "[Timer]\nOnCalendar=04:00\n",
    "etc/systemd/system/desk-restart.timer.d/zone.conf": "[Timer]\n",
    "var/lib/systemd/timers/stamp-desk-backup.timer": "",
    "var/lib/desk-closed-days/closed-days.csv": "rider\n",
    "var/lib/private/desk-standing-orders/state.json": "{}",
    "var/lib/desk-site/agency.json": "{}",
    "var/lib/desk-site/staff/worklist.html": "<p>",
    # another agency, which stays as it is
    "etc/desk/north.conf": "NAME=north.test\nPORT=8438\nZONE=MST7\n",
    "etc/desk/north-closed-days.conf": "CLOSED_DAYS=list\n",
    "etc/desk/keys/north-standing-orders": "another key",
    "var/lib/desk-north/desk.db": "another file",
    "var/lib/desk-site/north/agency.json": "{}",
    "var/log/desk/journal-north/requests": "another line",
    "var/log/desk/tally-north.log": "another count",
}
OF_MACHINE = {
    "etc/desk/watch.conf",
    "etc/desk/copies.conf",
    "etc/desk/keys/record",
    "etc/nginx/conf.d/desk.conf",
    "etc/systemd/system/desk-restart.timer.d/zone.conf",
}
WANTS = ("multi-user.target.wants/desk.service", "timers.target.wants/desk-backup.timer")
# Texts that change on the way.
CHANGED = ("etc/nginx/conf.d/desk.conf", "etc/systemd/system/desk.service.d/zone.conf")


@pytest.fixture(name="machine")
def machine_fixture(tmp_path: Path) -> Path:
    """The files of a machine of an earlier version."""
    for name, text in EARLIER.items():
        path = tmp_path / name
        path.parent.mkdir(parents=True, exist_ok=True)
        path.write_text(text, encoding="utf-8")
    for name in WANTS:
        path = tmp_path / earlier.UNITS / name
        path.parent.mkdir(parents=True, exist_ok=True)
        path.symlink_to(f"/lib/systemd/system/{path.name}")
    return tmp_path


def texts(root: Path) -> dict[str, str]:
    """Each file below the top and its text."""
    found = {}
    for folder, _, names in os.walk(root):
        for name in names:
            path = Path(folder, name)
            if not path.is_symlink():
                found[str(path.relative_to(root))] = path.read_text(encoding="utf-8")
    return found


def links(root: Path) -> dict[str, str]:
    """Each link below the top and where it leads."""
    return {str(it.relative_to(root)): os.readlink(it) for it in root.rglob("*") if it.is_symlink()}


def test_each_file_has_the_name_of_the_instance(machine: Path) -> None:
    """No text is lost; another agency's files and the machine's own are as they were."""
    to_main.Renaming(machine).files()
    found = texts(machine)
    assert found["var/lib/desk-main/desk.db-wal"] == "its log"
    assert found["var/backups/desk-main/denials/denial-1.db"] == "a denial"
    assert found["var/log/desk/journal-main/record/0001.jsonl"] == "a line"
    assert found["var/log/desk/tally-main.log-20251231"] == "a count of last year"
    assert found["etc/desk/main-closed-days.conf"] == "CLOSED_DAYS=cancel\n"
    assert found["etc/desk/main.offsite"] == "OFFSITE=/mnt/far\n"
    assert found["etc/desk/keys/main-standing-orders"] == "a clerk's key"
    assert found["etc/systemd/system/desk@main.service.d/memory.conf"].endswith("MemoryMax=4G\n")
    assert found["etc/systemd/system/desk-backup@main.timer.d/hour.conf"].endswith("04:00\n")
    assert "var/lib/systemd/timers/stamp-desk-backup@main.timer" in found
    assert found["var/lib/private/desk-standing-orders-main/state.json"] == "{}"
    assert found["var/lib/desk-site/main/staff/worklist.html"] == "<p>"
    rule = "NAME=desk.test\nPORT=8437\nZONE=CST6CDT,M3.2.0,M11.1.0\n"
    assert found["etc/desk/main.conf"] == rule
    gone = [EARLIER[it] for it in CHANGED]
    lost = [it for it in EARLIER.values() if it not in gone and it not in found.values()]
    assert not lost
    # Nothing but what is the machine's own, or another agency's, has a name without the agency's.
    nameless = {it for it in found if "main" not in it and "north" not in it}
    assert nameless == OF_MACHINE
    for name, text in EARLIER.items():
        if "north" in name or name.endswith(("watch.conf", "copies.conf", "keys/record")):
            assert found[name] == text


def test_the_site_and_what_begins_name_the_new_places(machine: Path) -> None:
    """The earlier folders lead on to the new ones; the site serves from these; the units begin by their new names."""
    to_main.Renaming(machine).files()
    site = texts(machine)["etc/nginx/conf.d/desk.conf"]
    for word in (*to_main.earlier.new_words(), "/etc/desk/fenced"):
        assert word not in site
    assert "/var/lib/desk-site/main;" in site and "/health/main;" in site
    assert "/var/lib/desk-site/north;" in site and "/desk/journal-north/requests" in site
    assert links(machine) == {
        "var/lib/desk": "/var/lib/desk-main",
        "var/backups/desk": "/var/backups/desk-main",
        "etc/ssl/desk": "/etc/ssl/desk-main",
        f"{earlier.UNITS}/multi-user.target.wants/desk@main.service": "/lib/systemd/system/desk@.service",
        f"{earlier.UNITS}/timers.target.wants/desk-backup@main.timer": "/lib/systemd/system/desk-backup@.timer",
    }


def test_each_step_may_be_cut_off_and_made_again(
    machine: Path, tmp_path_factory: pytest.TempPathFactory
) -> None:
    """After a cut at any rename the same command gives the same files."""
    whole = tmp_path_factory.mktemp("whole")
    for name, text in texts(machine).items():
        (whole / name).parent.mkdir(parents=True, exist_ok=True)
        (whole / name).write_text(text, encoding="utf-8")
    to_main.Renaming(whole).files()
    count, real = [0], os.rename

    def cut(*paths: Path) -> None:
        count[0] += 1
        if count[0] % 2 == 0:
            raise KeyboardInterrupt
        real(*paths)

    for _ in range(100):
        with pytest.MonkeyPatch.context() as patch:
            patch.setattr(os, "rename", cut)
            try:
                to_main.Renaming(machine).files()
                break
            except KeyboardInterrupt:
                continue
    to_main.Renaming(machine).files()
    assert count[0] > 20
    assert texts(machine) == texts(whole)


@pytest.mark.parametrize(
    "name",
    ["var/lib/desk-main/desk.db", "etc/desk/main-roster.csv", "var/log/desk/journal-main/record/1"],
)
def test_two_places_are_refused_and_nothing_changes(machine: Path, name: str) -> None:
    """One sentence names both."""
    (machine / name).parent.mkdir(parents=True, exist_ok=True)
    (machine / name).write_text("another", encoding="utf-8")
    before = texts(machine)
    with pytest.raises(Failure, match="both .* are there.*nothing was changed"):
        to_main.Renaming(machine).files()
    assert texts(machine) == before


def test_an_empty_new_place_gives_way(machine: Path) -> None:
    """As the folders that a package makes, and a log that nginx opened and did not write to."""
    for name in "var/lib/desk-main", "var/backups/desk-main", "var/log/desk/journal-main/record":
        (machine / name).mkdir(parents=True)
    for name in "var/log/desk/journal-main/requests", "var/log/desk/tally-main.log":
        (machine / name).touch()
    to_main.Renaming(machine).files()
    found = texts(machine)
    assert found["var/log/desk/journal-main/requests"] == "the newest line"
    assert found["var/log/desk/tally-main.log"] == "a count"
    assert found["var/lib/desk-main/desk.db"] == "the file"


def test_the_way_back_is_the_reverse(machine: Path) -> None:
    """An earlier package finds all where it was."""
    before, begun = texts(machine), links(machine)
    to_main.Renaming(machine).files()
    to_main.Renaming(machine, is_back=True).files()
    assert texts(machine) == before
    assert links(machine) == begun


def test_the_site_of_an_earlier_setup_is_still_its_own(machine: Path) -> None:
    """desk-setup makes the site of this version in its place, and not beside it."""
    digest = hashlib.sha256(SITE.encode()).hexdigest()
    path = machine / "etc/desk/setup.json"
    path.write_text(json.dumps({"name": "desk.test", "site": digest}), encoding="utf-8")
    to_main.Renaming(machine).files()
    site = (machine / "etc/nginx/conf.d/desk.conf").read_text(encoding="utf-8")
    noted = json.loads(path.read_text(encoding="utf-8"))
    assert noted == {"name": "desk.test", "site": hashlib.sha256(site.encode()).hexdigest()}


def test_a_setup_by_hand_shows_its_answers(machine: Path) -> None:
    """desk-setup asks nothing that can be seen."""
    to_main.Renaming(machine).files()
    by_hand.note_answers(machine)
    assert by_hand.told_before(machine) == {
        "agency": "Lake Town",
        "zone": "America/Chicago",
        "name": "desk.test",
        "port": "443",
        "alarm": "ops@desk.test",
        "offsite": "/mnt/copies",
        "nightly": "backup",
        "acme": "",
    }


def test_a_zone_that_differs_is_left_to_a_person(machine: Path) -> None:
    """The desk goes on by the unit's zone, and desk-setup asks: by a wrong one it would count wrong days."""
    to_main.Renaming(machine).files()
    agency = {"name": "Lake Town", "zone": "America/New_York"}
    (machine / "etc/desk/main.json").write_text(json.dumps(agency), encoding="utf-8")
    by_hand.note_answers(machine)
    assert not by_hand.told_before(machine)


def test_what_was_installed_by_hand_gives_way(machine: Path) -> None:
    """The places under /usr/local lead on to the package; what was there is put aside."""
    for name in (
        "usr/bin/desk",
        "usr/local/bin/desk",
        "usr/lib/desk/deploy/standby",
        "usr/local/lib/desk/standby",
        "usr/local/lib/desk/python/a.py",
        "lib/systemd/system/desk@.service",
        "lib/systemd/system/desk-health.service",
        "etc/systemd/system/desk-health.service",
        "etc/systemd/system/desk.service",
        "etc/systemd/system/desk@.service",
        "etc/systemd/system/desk-of-mine.service",
    ):
        (machine / name).parent.mkdir(parents=True, exist_ok=True)
        (machine / name).write_text(name, encoding="utf-8")
    health = machine / earlier.UNITS / "multi-user.target.wants/desk-health.service"
    health.symlink_to("/etc/systemd/system/desk-health.service")
    for _ in range(2):
        by_hand.put_aside(machine)
    found, led = texts(machine), links(machine)
    assert os.readlink(health) == "/lib/systemd/system/desk-health.service"
    assert led["usr/local/bin/desk"] == "/usr/bin/desk"
    assert led["usr/local/lib/desk/standby"] == "/usr/lib/desk/deploy/standby"
    assert led["usr/local/lib/desk/python"] == "/usr/lib/desk/python"
    units = {
        it for it in found if it.startswith(f"{earlier.UNITS}/desk") and it.endswith(".service")
    }
    assert units == {f"{earlier.UNITS}/desk-of-mine.service"}
    assert f"{by_hand.ASIDE}/usr/local/lib/desk/standby" in found
    assert f"{by_hand.ASIDE}/etc/systemd/system/desk.service" in found


@pytest.mark.parametrize(
    "text, value, wanted",
    [
        ("A=1\nB=2\nC=3\n", "9", "A=1\nB=9\nC=3\n"),
        ("A=1\nC=3", "9", "A=1\nC=3\nB=9\n"),
        ("# B=0\nB=1\nA=1\nB=2\n", "9", "# B=0\nA=1\nB=9\n"),
        ("A=1\nB=2\nC=3\n", None, "A=1\nC=3\n"),
        ("", "9", "B=9\n"),
    ],
)
def test_settings_keep_their_order(text: str, value: str | None, wanted: str) -> None:
    """A value changes in its place."""
    assert confs.with_value(text, "B", value) == wanted


def test_which_files_are_an_agencys(tmp_path: Path) -> None:
    """The machine's own settings and an agency's closed days make no agency."""
    for it in ("north", "main", "watch", "copies", "standby", "north-closed-days", "closed-days"):
        (tmp_path / f"{it}.conf").touch()
    assert list(agencies.confs_in(str(tmp_path))) == ["main", "north"]
    assert [it.name for it in agencies.of_machine(str(tmp_path / "none"))] == ["main"]
