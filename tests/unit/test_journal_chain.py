"""The chained files: what is taken, what is closed, and the first thing that does not hold."""

import base64
import gzip
import json
import os
import re
import subprocess
import zlib
from datetime import date, datetime, timedelta, timezone
from pathlib import Path

import pytest
from hypothesis import given
from hypothesis import strategies as some

from desk_tools.journal import (
    corrections,
    chain,
    lines,
    reading,
    retention,
    signing,
    taking,
    verifying,
)
from desk_tools.journal.places import Places, Wrong

TOP = Path(__file__).resolve().parents[2]
TODAY = datetime.now(timezone.utc).date()
NO_NGINX = Path("/nonexistent")


def line(number: int, at: str = "2026-11-29T12:00:00.000Z", **more: object) -> bytes:
    """A line as the site writes it."""
    told = {"at": at, "door": "site", "from": "127.0.0.1", "who": "2cf24dba5fb0", "method": "GET"}
    return json.dumps(
        {**told, "path": f"/riders/{number}/trips", "status": 200, "took": 0.001, **more}
    ).encode()


class Office:
    """A record in a folder, whose day is what the test says."""

    def __init__(
        self, folder: Path, monkeypatch: pytest.MonkeyPatch, site: str = "desk.example.org"
    ) -> None:
        self.places = Places(folder, site, timezone.utc)
        self.patch, self.day = monkeypatch, TODAY.isoformat()
        folder.mkdir(exist_ok=True)
        monkeypatch.setattr(Places, "today", lambda _: self.day)

    def write(self, *found: bytes) -> None:
        """What nginx writes."""
        with self.places.requests.open("ab") as file:
            file.write(b"".join(it + b"\n" for it in found))

    def take(self, *found: bytes, day: str | None = None) -> int:
        """Takes lines on a day."""
        self.day = day or self.day
        if found:
            self.write(*found)
        return taking.take(self.places, NO_NGINX, self.finish)

    def finish(self, file: chain.File) -> None:
        """Closes a file without a signature."""
        if not file.is_packed:
            signing.sign(self.places.record, signing.head_of(file), NO_NGINX)
            chain.pack(file)

    def verify(self, elsewhere: Path | None = None, today: date = TODAY) -> tuple[int, str]:
        """What `verify` says."""
        return verifying.verify(self.places, None, elsewhere, today)

    def requests(self) -> list[str]:
        """The paths of all lines."""
        return [it.path for it in reading.Reader(self.places).lines()]

    def file(self, at: int = -1) -> Path:
        """A file of the record."""
        return chain.files_in(self.places.record)[at].path


@pytest.fixture(name="office")
def an_office(tmp_path: Path, monkeypatch: pytest.MonkeyPatch) -> Office:
    return Office(tmp_path / "journal", monkeypatch)


def day_after(count: int) -> str:
    return (TODAY + timedelta(days=count)).isoformat()


def three_days(office: Office) -> None:
    for count in (-2, -1, 0):
        office.take(line(count + 10), line(count + 20), day=day_after(count))


def test_what_is_taken_holds_and_reads_back(office: Office) -> None:
    assert office.take(line(1), line(2)) == 2
    assert office.take(line(3)) == 1
    assert office.requests() == [f"/riders/{it}/trips" for it in (1, 2, 3)]
    assert office.verify()[0] == verifying.HOLDS
    assert not office.places.parts()


def test_midnight_does_not_break_the_chain(office: Office) -> None:
    three_days(office)
    files = chain.files_in(office.places.record)
    assert [it.is_packed for it in files] == [True, True, False]
    assert office.verify()[0] == verifying.HOLDS, office.verify()


def test_a_clock_that_went_back_or_ahead_neither_stops_nor_breaks(office: Office) -> None:
    for day in (
        day_after(0),
        "2032-01-01",
        day_after(0),
        day_after(-1),
        day_after(0),
        day_after(1),
    ):
        office.take(line(1), day=day)
    assert len(chain.files_in(office.places.record)) == 6
    assert office.verify()[0] == verifying.HOLDS, office.verify()


def test_what_nginx_wrote_after_the_last_taking_is_read_too(office: Office) -> None:
    office.take(line(1))
    office.write(line(2))
    assert office.requests() == ["/riders/1/trips", "/riders/2/trips"]


@pytest.mark.parametrize("stop", range(6))
def test_a_taking_that_is_ended_anywhere_loses_nothing_and_doubles_nothing(
    office: Office, stop: int
) -> None:
    """The part is there; `stop` lines of it were added when the machine fell."""
    office.take(line(0))
    part = office.places.folder / "part-000002"
    part.write_bytes(b"".join(line(it) + b"\n" for it in range(1, 6)))
    writer = chain.Writer(office.places.record)
    writer.add(chain.noted("taken", part=2, at=taking.now()))
    writer.add(*[chain.safe(line(it)) for it in range(1, 1 + stop)])
    assert office.requests() == [f"/riders/{it}/trips" for it in range(6)]
    office.take(line(6), day=day_after(0) if stop % 2 else day_after(-1))
    assert office.requests() == [f"/riders/{it}/trips" for it in range(7)]
    assert office.verify()[0] == verifying.HOLDS


def test_a_torn_last_line_is_named_then_kept_in_a_note(office: Office) -> None:
    office.take(line(1), line(2))
    with office.file().open("ab") as file:
        file.write(b'{"n":5,"chain":"00')
    status, said = office.verify()
    assert status == verifying.BROKEN and "it has no end" in said
    office.take(line(3))
    status, said = office.verify()
    assert status == verifying.HOLDS and "half a line was found at entry " in said, said
    torn = [
        it.fields
        for it in chain.entries_of(chain.files_in(office.places.record)[-1])
        if it.note == "torn"
    ]
    assert base64.b64decode(torn[0]["base64"]) == b'{"n":5,"chain":"00'
    assert office.requests() == [f"/riders/{it}/trips" for it in (1, 2, 3)]


def test_half_a_line_at_the_end_of_what_nginx_wrote_is_there(office: Office) -> None:
    with office.places.requests.open("wb") as file:
        file.write(line(1) + b"\n" + line(2)[:40])
    assert office.take() == 2
    assert (
        office.verify()[0] == verifying.HOLDS and "1 lines could not be read" in office.verify()[1]
    )


def changed(path: Path, old: bytes, new: bytes) -> None:
    """Changes a file as root could."""
    content = gzip.decompress(path.read_bytes()) if path.suffix == ".gz" else path.read_bytes()
    assert old in content
    content = content.replace(old, new, 1)
    path.write_bytes(gzip.compress(content) if path.suffix == ".gz" else content)


def unpacked(path: Path) -> bytes:
    """What is packed in a file; nothing where that can't be read."""
    try:
        return gzip.decompress(path.read_bytes())
    except (EOFError, OSError, zlib.error):
        return b""


@pytest.mark.parametrize("at", [0, 1, 2])
def test_a_changed_line_is_named(office: Office, at: int) -> None:
    three_days(office)
    changed(office.file(at), b"/riders/", b"/Riders/")
    status, said = office.verify()
    assert status == verifying.BROKEN and f"{at + 1:06}-" in said and "line 3" in said, said


def test_a_packed_day_with_any_byte_changed_is_named_and_hides_no_other_day(office: Office) -> None:
    """A disk that loses a byte of a closed day, or a hand that changes one, gets a sentence and never a traceback."""
    three_days(office)
    path, whole = office.file(1), office.file(1).read_bytes()
    others = {f"/riders/{it}/trips" for it in (8, 18, 10, 20)}
    for at in range(len(whole)):
        path.write_bytes(whole[:at] + bytes([whole[at] ^ 0x55]) + whole[at + 1 :])
        reader = reading.Reader(office.places, checks=True)
        assert others <= {it.path for it in reader.lines()}, at
        assert not [*reading.notes_of(office.places, "corrections")]
        status, said = office.verify()
        # (a byte that changes nothing of the lines, such as the moment in gzip's head, breaks nothing)
        wanted = verifying.HOLDS if unpacked(path) == gzip.decompress(whole) else verifying.BROKEN
        assert (status, bool(reader.broken)) == (wanted, wanted != verifying.HOLDS), (at, said)


def test_a_line_left_out_or_put_in_is_named(office: Office) -> None:
    office.take(line(1), line(2), line(3))
    kept = office.file().read_bytes().splitlines(keepends=True)
    office.file().write_bytes(b"".join(kept[:3] + kept[4:]))
    assert "comes after entry" in office.verify()[1]
    office.file().write_bytes(b"".join([*kept[:3], kept[2], *kept[3:]]))
    assert office.verify()[0] == verifying.BROKEN


def test_a_missing_file_in_the_middle_and_at_the_beginning_is_named(office: Office) -> None:
    three_days(office)
    path = office.file(1)
    content = path.read_bytes()
    path.unlink()
    assert "a file between them is missing" in office.verify()[1]
    path.write_bytes(content)
    office.file(0).unlink()
    assert "no entry says why" in office.verify()[1]


def test_the_last_days_gone_is_another_status(office: Office, tmp_path: Path) -> None:
    three_days(office)
    signing.marked(office.places.record, signing.head_of(chain.files_in(office.places.record)[-1]))
    office.file().unlink()
    status, said = office.verify()
    assert status == verifying.ENDS_EARLY and "a head names entry" in said
    for path in (office.places.folder / "heads").iterdir():
        path.unlink()
    # (the closed file is not followed by another one, so it is the last: also on the day itself)
    for days in range(4):
        status, said = office.verify(today=TODAY + timedelta(days=days))
        assert status == verifying.ENDS_EARLY, (days, said)
    elsewhere = tmp_path / "elsewhere"
    elsewhere.mkdir()


def test_a_line_behind_half_a_line_is_read(office: Office) -> None:
    """The power fell in the middle of a line, and nginx went on behind it. Zeros may stand there too."""
    for half in (b'{"at":"2026-11-30T05:00:00.000Z","who":"00c0', b"\0" * 40, b'{"at":"'):
        before = len(office.requests())
        office.places.requests.write_bytes(half + line(7) + b"\n" + line(8) + b"\n" + half)
        assert len(office.requests()) == before + 2
        assert taking.take(office.places, Path("/none"), lambda file: None) == 4
        assert len(office.requests()) == before + 2
        status, said = office.verify()
        assert status == verifying.HOLDS and "lines could not be read" in said, said


def test_verify_says_whether_a_copy_elsewhere_was_compared(office: Office, tmp_path: Path) -> None:
    """A record that root wrote anew holds by itself, so whoever reads `holds` has to know what was compared."""
    elsewhere = tmp_path / "elsewhere"
    elsewhere.mkdir()
    three_days(office)
    head = signing.head_of(chain.files_in(office.places.record)[-1])
    signing.sent(office.places.record, str(elsewhere), head)
    status, said = office.verify()
    assert status == verifying.HOLDS and "not compared with a copy elsewhere" in said, said
    assert "--elsewhere FOLDER" in said
    status, said = office.verify(elsewhere)
    assert status == verifying.HOLDS and "not compared" not in said, said
    office.file().unlink()
    status, said = office.verify(today=TODAY + timedelta(days=3))
    assert status == verifying.ENDS_EARLY and "not compared" in said, said


def test_a_copy_elsewhere_shows_what_was_rewritten_whole(office: Office, tmp_path: Path) -> None:
    """Root makes the whole chain anew: here it holds, and the copy elsewhere names another digest."""
    elsewhere = tmp_path / "elsewhere"
    elsewhere.mkdir()
    three_days(office)
    signing.sent(
        office.places.record,
        str(elsewhere),
        signing.head_of(chain.files_in(office.places.record)[-1]),
    )
    for path in [*office.places.record.iterdir(), *(office.places.folder / "heads").iterdir()]:
        path.unlink()
    for count in (-2, -1, 0):
        office.take(line(count + 11), line(count + 20), day=day_after(count))
    assert office.verify()[0] == verifying.HOLDS
    status, said = office.verify(elsewhere)
    assert status == verifying.BROKEN and "elsewhere" in said


def test_a_clock_that_was_set_back_is_named(
    office: Office, monkeypatch: pytest.MonkeyPatch
) -> None:
    """Between two files too; the record holds all the same."""
    moments = iter(f"2026-11-29T{it}:00:00.000Z" for it in (12, 13, 14, 15, 11, 12, 13, 14, 15, 16))
    monkeypatch.setattr(taking, "now", lambda: next(moments))
    office.take(line(1), day="2026-11-29")
    assert "went back" not in office.verify()[1]
    office.take(line(2), day="2026-11-28")
    office.take(line(3))
    said = office.verify()[1]
    assert "the clock went back at entry" in said and "to 2026-11-29T11:00:00.000Z" in said, said


def test_two_sites_are_told_apart(tmp_path: Path, monkeypatch: pytest.MonkeyPatch) -> None:
    one = Office(tmp_path / "one", monkeypatch)
    three_days(one)
    other = Office(tmp_path / "other", monkeypatch, "other.example.org")
    three_days(other)
    for path in (one.file(1), one.file(2)):
        path.unlink()
    for path in (other.file(1), other.file(2)):
        (one.places.record / path.name).write_bytes(path.read_bytes())
    status, said = one.verify()
    assert (
        status == verifying.BROKEN
        and "is of other.example.org, and the files before it are of" in said
    )


def test_nothing_that_is_elsewhere_is_changed(office: Office, tmp_path: Path) -> None:
    elsewhere = tmp_path / "elsewhere"
    elsewhere.mkdir()
    three_days(office)
    head = signing.head_of(chain.files_in(office.places.record)[-1])
    signing.sent(office.places.record, str(elsewhere), head)
    kept = {it.name: it.read_bytes() for it in elsewhere.iterdir()}
    changed(office.file(0), b"/riders/", b"/Riders/")
    (office.places.folder / "sent").unlink()
    signing.sent(office.places.record, str(elsewhere), head)
    assert kept == {it.name: it.read_bytes() for it in elsewhere.iterdir()}
    (office.places.folder / "sent").unlink()
    with pytest.raises(Wrong):
        signing.sent(office.places.record, str(tmp_path / "none"), head)


def test_retention_keeps_the_chain_and_says_what_it_removed(office: Office) -> None:
    for count in (-800, -700, -1, 0):
        office.take(line(1), day=day_after(count))
    rule = retention.Rule("journal", 365, "a year")
    assert len(retention.keep_journal(office.places, rule, TODAY, is_plan=True)) == 2
    gone = retention.keep_journal(office.places, rule, TODAY, is_plan=False)
    assert [it[:6] for it in gone] == ["000001", "000002"]
    status, said = office.verify()
    assert status == verifying.HOLDS and "were removed by the rule" in said, said


def test_retention_removes_nothing_by_a_wrong_clock(office: Office) -> None:
    three_days(office)
    for wrong in (TODAY + timedelta(days=3000), TODAY - timedelta(days=3)):
        with pytest.raises(Wrong, match="nothing is removed"):
            retention.keep_journal(
                office.places, retention.Rule("journal", 365, ""), wrong, is_plan=False
            )
    assert office.verify()[0] == verifying.HOLDS


@pytest.mark.parametrize(
    ("told", "gone", "why"),
    [
        ({}, ["desk-40.db", "machine-40.tar.gz"], "kept 35 days (five weeks: "),
        (
            {"retention": {"backups": "7 days"}},
            ["desk-40.db", "desk-20.db", "machine-40.tar.gz"],
            "kept 7 days (by ",
        ),
        (
            {"retention": {"backups": "2 months"}},
            [],
            "kept 61 days (by agency.json): 0 files removed",
        ),
    ],
)
def test_backups_are_kept_by_the_agency_s_rule(
    office: Office, tmp_path: Path, told: dict[str, object], gone: list[str], why: str
) -> None:
    """The newest stays in any case, and so does what is no backup of a night."""
    office.take(line(1), day=day_after(0))
    folder = tmp_path / "backups"
    folder.mkdir()
    for name in (
        "desk-40.db",
        "desk-20.db",
        "desk-3.db",
        "machine-40.tar.gz",
        "machine-9.tar.gz",
        "notes-40.txt",
    ):
        (folder / name).touch()
        days = int(re.sub(r"\D", "", name))
        moment = datetime.combine(TODAY - timedelta(days=days), datetime.min.time()).timestamp()
        os.utime(folder / name, (moment, moment))
    before = {it.name for it in folder.iterdir()}
    rules = retention.rules_of(told)
    planned = retention.keep(office.places, {"backups": folder}, rules, TODAY, is_plan=True)
    assert {it.name for it in folder.iterdir()} == before
    said = retention.keep(office.places, {"backups": folder}, rules, TODAY, is_plan=False)
    assert before - {it.name for it in folder.iterdir()} == set(gone)
    assert [it.replace("would be removed", "removed") for it in planned[1:]] == said[1:]
    assert why in said[1] and all(it in said[1] for it in gone)


def test_one_place_says_how_long_backups_are_kept() -> None:
    """The unit of the backup removes none: two limits would make the shorter one the true one."""
    text = (TOP / "deploy/desk-backup@.service").read_text(encoding="utf-8")
    removing = [it for it in text.splitlines() if "-delete" in it or "rm -rf" in it]
    assert [it for it in removing if ".db.part" not in it and ".before-" not in it] == []
    assert "rotate -1" in (TOP / "deploy/desk.logrotate").read_text(encoding="utf-8")


def test_each_agency_keeps_its_own_tally(office: Office, tmp_path: Path) -> None:
    """What was rotated out of one agency's log goes by its rule; another agency's stays."""
    old = datetime.combine(TODAY - timedelta(days=5_000), datetime.min.time()).timestamp()
    for name in (
        "tally-main.log",
        "tally-main.log-2010",
        "tally-main.log-2026",
        "tally-north.log-2010",
    ):
        (tmp_path / name).write_text("a count")
        if name.endswith("2010"):
            os.utime(tmp_path / name, (old, old))
    rules = [it for it in retention.rules_of({}) if it.kind == "tally"]
    log = {"tally": tmp_path / "tally-main.log"}
    said = retention.keep(office.places, log, rules, TODAY, is_plan=False)
    assert said[0].endswith("1 file removed: tally-main.log-2010")
    assert (tmp_path / "tally-north.log-2010").exists()


def test_retention_of_a_record_that_has_not_begun(office: Office) -> None:
    rule = retention.Rule("journal", 365, "")
    assert retention.keep_journal(office.places, rule, TODAY, is_plan=False) == []


@pytest.mark.parametrize("wrong", [5, "5", "soon", "1 day", "0 years", "-5 years", None])
def test_a_retention_that_is_none_is_named(wrong: object) -> None:
    with pytest.raises(Wrong, match="retention: .*no time such as"):
        retention.rules_of({"retention": {"journal": wrong}})


def test_defaults_of_retention() -> None:
    assert {it.kind: it.days for it in retention.rules_of({"retention": {"tally": "2 years"}})} == {
        "journal": 1827,
        "tally": 731,
        "exports": 1827,
        "backups": 35,
    }
    with pytest.raises(Wrong, match="no such kind"):
        retention.rules_of({"retention": {"journals": "5 years"}})


@given(some.lists(some.binary(max_size=60)))
def test_any_bytes_become_entries_that_read_back(found: list[bytes]) -> None:
    for raw in found:
        safe = chain.safe(raw)
        entry = chain.entry_of(b'{"n":1,"chain":"%s","line":' % (b"0" * 64) + safe + b"}")
        assert b"\n" not in safe and entry is not None and isinstance(entry.fields, dict)
        assert entry.line == safe and json.loads(safe) is not None


@given(some.binary())
def test_no_bytes_make_reading_a_line_fail(raw: bytes) -> None:
    assert lines.read(1, raw) is None or raw


def test_a_separator_of_unicode_is_no_end_of_a_line(office: Office) -> None:
    office.take(line(1, body="a\u2028b\u0085c\x0b"))
    assert office.requests() == ["/riders/1/trips"]
    assert os.listdir(office.places.record)


def test_a_hold_stops_all_removing(office: Office, tmp_path: Path) -> None:
    """Each kind stays while there is a reason; what would go is named."""
    for count in (-800, -700, -1, 0):
        office.take(line(1), day=day_after(count))
    folder = tmp_path / "copies"
    folder.mkdir()
    for days in (100, 90, 0):
        (folder / f"desk-{days}.db").touch()
        moment = datetime.combine(TODAY - timedelta(days=days), datetime.min.time()).timestamp()
        os.utime(folder / f"desk-{days}.db", (moment, moment))
    agency: dict[str, object] = {
        "retention": {"journal": "1 year", "backups": "7 days", "hold": "Diaz v. Town"}
    }
    rules = retention.rules_of(agency)
    said = retention.keep(
        office.places, {"backups": folder}, rules, TODAY, False, retention.hold_in(agency)
    )
    assert said[0] == "nothing is removed, for a hold: Diaz v. Town"
    assert any("2 files would be removed" in it for it in said), said
    assert len(list(folder.iterdir())) == 3
    assert len(chain.files_in(office.places.record)) == 4
    gone = retention.keep(office.places, {"backups": folder}, rules, TODAY, False)
    assert any("2 files removed" in it for it in gone), gone


@pytest.mark.parametrize("value", ["", "  ", False, True, None, 5, "x" * 201, ["a"]])
def test_a_hold_without_a_reason_is_no_leave_to_remove(value: object) -> None:
    with pytest.raises(Wrong, match="retention.hold"):
        retention.hold_in({"retention": {"hold": value}})


def test_a_closed_day_whose_signature_is_gone_does_not_hold(office: Office, tmp_path: Path) -> None:
    office.take(line(1))
    office.take(line(2), day=day_after(1))
    key, public = tmp_path / "record", tmp_path / "record.pub"
    signing.ran("ssh-keygen", "-q", "-t", "ed25519", "-N", "", "-f", str(key))
    head = signing.head_of(chain.files_in(office.places.record)[0])
    signing.sign(office.places.record, head, key)
    today = TODAY + timedelta(days=1)
    assert verifying.verify(office.places, public, None, today)[0] == verifying.HOLDS
    said = verifying.verify(office.places, None, None, today)[1]
    assert "; no signature was checked, for lack of the public key" in said, said
    (office.places.record / f"{head.file}.head.sig").unlink()
    status, said = verifying.verify(office.places, public, None, today)
    assert status == verifying.BROKEN and said.endswith("is closed and has no signature"), said


def test_a_copy_elsewhere_that_is_not_there_is_no_comparison(
    office: Office, tmp_path: Path
) -> None:
    office.take(line(1))
    status, said = office.verify(tmp_path / "unmounted")
    assert status == verifying.BROKEN and said.startswith("nothing was compared: "), said
    (tmp_path / "empty").mkdir()
    status, said = office.verify(tmp_path / "empty")
    assert status == verifying.BROKEN and said.endswith("has no head of the record"), said


def test_a_day_that_does_not_hold_is_not_signed(office: Office, tmp_path: Path) -> None:
    key = tmp_path / "key"
    subprocess.run(["ssh-keygen", "-q", "-t", "ed25519", "-N", "", "-f", str(key)], check=True)
    office.take(line(1), line(2), line(3), day=day_after(-1))
    path = office.file()
    whole = path.read_bytes()
    path.write_bytes(whole.replace(b"/riders/2/trips", b"/riders/9/trips"))
    said: list[str] = []
    office.day = day_after(0)
    taking.take(
        office.places, NO_NGINX, lambda file: said.append(verifying.close(office.places, file, key))
    )
    assert len(said) == 1 and "was changed" in said[0]
    assert not list(office.places.record.glob("*.head*"))
    path.write_bytes(path.read_bytes().replace(b"/riders/9/trips", b"/riders/2/trips"))
    assert verifying.close(office.places, chain.files_in(office.places.record)[0], key) == ""
    assert list(office.places.record.glob("*.sig"))


def test_corrections_take_no_reading_of_the_whole_record(office: Office, tmp_path: Path) -> None:
    """The unit comes each five minutes, and a record has years: an old day that can't be read is no matter to it."""
    table = tmp_path / "corrections.csv"
    row = "{},ridden,Rosa,it was there\n"
    table.write_text("trip,outcome,who,why\n" + row.format(3), encoding="utf-8")
    three_days(office)
    assert [corrections.take(office.places, table) for _ in range(3)] == [1, 0, 0]
    office.file(0).write_bytes(b"no gzip")
    assert corrections.take(office.places, table) == 0
    with table.open("a", encoding="utf-8") as file:
        file.write(row.format(4))
    assert [corrections.take(office.places, table) for _ in range(3)] == [1, 0, 0]
    # (without the file of what was noted the record itself says it)
    for content in (b"", b"[]", b'{"upto":"x","rows":[]}', b'{"upto":7,"rows":7}'):
        (office.places.folder / corrections.NOTED).write_bytes(content)
        with pytest.raises(chain.Broken):
            corrections.take(office.places, table)


def old_export(folder: Path, name: str, days: int) -> Path:
    """An export that was made so many days ago."""
    path = folder / name
    path.parent.mkdir(parents=True, exist_ok=True)
    path.write_text("x", encoding="utf-8")
    moment = (datetime.combine(TODAY, datetime.min.time()) - timedelta(days=days)).timestamp()
    os.utime(path, (moment, moment))
    return path


def test_exports_in_folders_are_removed_like_the_others(office: Office, tmp_path: Path) -> None:
    """A month's folder, or the tables of a warehouse, have names and homes as a single sheet has."""
    folder = tmp_path / "exports"
    old = [old_export(folder, it, 3000) for it in ("sheet.csv", "2018/a.csv", "2018/june/b.csv")]
    kept = [old_export(folder, it, days) for it, days in (("2026/c.csv", 9), ("2018/d.csv", 8))]
    away = old_export(tmp_path / "away", "e.csv", 3000)
    (folder / "linked").symlink_to(away.parent)
    rules = [it for it in retention.rules_of({}) if it.kind == "exports"]
    for is_plan in (True, False):
        said = retention.keep(office.places, {"exports": folder}, rules, TODAY, is_plan)
        named = "2018/a.csv, 2018/june/b.csv, sheet.csv"
        verb = "would be removed" if is_plan else "removed"
        assert said[0].endswith(f"3 files {verb}: {named}"), said
        assert said[1:] == ["exports: linked is a link to a folder, where nothing is removed"]
        assert [it.exists() for it in old] == [is_plan] * 3
    assert all(it.exists() for it in (*kept, away))
    assert not (folder / "2018/june").exists() and (folder / "2018").exists()


def test_a_folder_of_exports_that_cannot_be_read_is_named(
    office: Office, tmp_path: Path, monkeypatch: pytest.MonkeyPatch
) -> None:
    old_export(tmp_path, "exports/2018/a.csv", 3000)
    before = os.scandir

    def scan(path: str) -> object:
        if str(path).endswith("2018"):
            raise PermissionError(13, "Permission denied", str(path))
        return before(path)

    monkeypatch.setattr(os, "scandir", scan)
    rules = [it for it in retention.rules_of({}) if it.kind == "exports"]
    with pytest.raises(Wrong, match="2018 can't be read: Permission denied"):
        retention.keep(office.places, {"exports": tmp_path / "exports"}, rules, TODAY, True)
